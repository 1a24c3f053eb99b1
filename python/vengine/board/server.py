"""A board in the browser: any variant, played and looked at by the engine's rules.

Usage: python -m vengine board [FILE] [--no-browser] [--port N] [--program PROGRAM]

FILE has variants beside the built-in ones. The page is served on 127.0.0.1 alone, at a free port unless one is named, and its address is
printed. Ctrl-C ends it; no process is left. PROGRAM is by default what `find_program` finds.

Each tab of the page has a session of the engine, which ends with the tab. What is legal, how a game stands and what is wrong with a text
comes from the engine; the page draws and asks. docs/BOARD.md shows it.
"""
from __future__ import annotations

import argparse
import json
import os
import secrets
import sys
import threading
import time
import webbrowser
from http.server import BaseHTTPRequestHandler, ThreadingHTTPServer
from typing import Any, Dict, List, Optional, Tuple

from vengine import BadInput, Engine, VengineError, find_program
from vengine.board.tab import CALLS, Answer, Asked, Tab

HERE = os.path.dirname(os.path.realpath(__file__))
# What can be had by its name; no other path is looked at.
SCRIPTS = ("address", "board", "drawing", "engine", "figures", "file", "game", "input", "marks", "mates", "pieces", "search", "session", "state", "texts")
PAGES = {
    "/": ("index.html", "text/html"), "/board.css": ("board.css", "text/css"),
    **{f"/{name}.js": (f"{name}.js", "text/javascript") for name in SCRIPTS},
}
HEADERS = {
    "Content-Security-Policy": "default-src 'none'; script-src 'self'; style-src 'self'; connect-src 'self'; img-src 'self' data:; "
                               "base-uri 'none'; form-action 'none'; frame-ancestors 'none'",
    "X-Content-Type-Options": "nosniff", "Cache-Control": "no-store", "Referrer-Policy": "no-referrer",
    "Cross-Origin-Resource-Policy": "same-origin",
}
MOST_BODY = 4 << 20
MOST_FILE = 1 << 20
MOST_TABS = 64
# A hidden tab may be asleep for a minute; one that is silent for longer than this has crashed.
SILENT = 600


class Board(ThreadingHTTPServer):
    """The page and its tabs."""

    daemon_threads = True

    def __init__(self, program: str, path: Optional[str], port: int = 0) -> None:
        super().__init__(("127.0.0.1", port), Handler)
        self.program, self.path, self.lock = program, path, threading.Lock()
        self.tabs: Dict[str, Tab] = {}
        self.origin = f"http://127.0.0.1:{self.server_address[1]}"
        threading.Thread(target=self.reap, daemon=True).start()

    def file_text(self) -> Tuple[Optional[str], Optional[str]]:
        """The file that was named at the start, and when it was changed: nanoseconds as a text, since a page rounds such numbers."""
        if self.path is None:
            return None, None
        try:
            with open(self.path, "rb") as file:
                # The time is taken first: a change meanwhile is seen the next time.
                changed = str(os.fstat(file.fileno()).st_mtime_ns)
                return file.read(MOST_FILE + 1).decode("utf-8", "surrogateescape").replace("\r\n", "\n"), changed
        except OSError as error:
            return f"# {error.strerror}: {self.path}\n", None

    def file_change(self, known: Any) -> Answer:
        """The text of the file and the time of its change, where that is not the known one. A file that is gone has not changed."""
        text, changed = self.file_text()
        is_new = changed is not None and changed != known
        return {"changed": changed if is_new else known, "text": text if is_new else None}

    def open_tab(self) -> str:
        """The name of a new tab."""
        with self.lock:
            if len(self.tabs) >= MOST_TABS:
                raise BadInput(f"there are {MOST_TABS} tabs already")
        tab, name = Tab(self.program, self.file_text()[0]), secrets.token_hex(16)
        with self.lock:
            self.tabs[name] = tab
        return name

    def close_tab(self, name: str) -> None:
        """Ends the session of a tab, if there is such a tab."""
        with self.lock:
            tab = self.tabs.pop(name, None)
        if tab is not None:
            tab.close()

    def reap(self) -> None:
        """Looks for silent tabs from time to time."""
        while True:
            time.sleep(10)
            self.end_silent()

    def end_silent(self) -> None:
        """Ends the sessions of tabs that are silent."""
        with self.lock:
            silent = [name for name, tab in self.tabs.items() if time.monotonic() - tab.heard > SILENT]
        for name in silent:
            self.close_tab(name)

    def handle_error(self, request: Any, client_address: Any) -> None:
        """Says nothing of a browser that has gone; any other error is told on the terminal."""
        if not isinstance(sys.exc_info()[1], ConnectionError):
            super().handle_error(request, client_address)

    def server_close(self) -> None:
        """Ends every session with the server."""
        super().server_close()
        for name in list(self.tabs):
            self.close_tab(name)


class Handler(BaseHTTPRequestHandler):
    """One request."""

    server: Board
    protocol_version = "HTTP/1.1"
    timeout = 60

    def log_message(self, format: str, *args: Any) -> None:
        """Requests are not told on the terminal."""

    def is_own(self) -> bool:
        """Whether the request is for this address, and from this page where it says from which."""
        own = {self.server.origin, self.server.origin.replace("127.0.0.1", "localhost")}
        return f"http://{self.headers.get('Host')}" in own and self.headers.get("Origin", self.server.origin) in own

    def reply(self, status: int, body: bytes, kind: str) -> None:
        """Sends a body of a media type."""
        self.send_response(status)
        for name, value in {**HEADERS, "Content-Type": f"{kind}; charset=utf-8", "Content-Length": str(len(body))}.items():
            self.send_header(name, value)
        self.end_headers()
        self.wfile.write(body)

    def say(self, status: int, answer: Answer) -> None:
        """Sends an answer to the page."""
        self.reply(status, json.dumps(answer).encode(), "application/json")

    def do_GET(self) -> None:
        """Sends a file of the page."""
        if not self.is_own() or self.path not in PAGES:
            self.say(403 if not self.is_own() else 404, {"error": "there is no such page"})
            return
        name, kind = PAGES[self.path]
        with open(os.path.join(HERE, "page", name), "rb") as file:
            self.reply(200, file.read(), kind)

    def do_POST(self) -> None:
        """Answers a call of the page."""
        self.close_connection = True
        if not self.is_own() or "Origin" not in self.headers:
            self.say(403, {"error": "requests come from the page of this board alone"})
            return
        try:
            asked = self.body()
            status, answer = self.answer(self.path[1:], asked)
        except (ValueError, RecursionError):
            status, answer = 400, {"error": "the request has not its form"}
        self.close_connection = False
        self.say(status, answer)

    def body(self) -> Asked:
        """What was sent, an object; ValueError where it is none."""
        length = int(self.headers.get("Content-Length", ""))
        if not 0 <= length <= MOST_BODY:
            raise ValueError
        asked = json.loads(self.rfile.read(length))
        if not isinstance(asked, dict):
            raise ValueError
        return asked

    def answer(self, name: str, asked: Asked) -> Tuple[int, Answer]:
        """The status and the answer of a call."""
        if name == "open":
            try:
                return 200, {"tab": self.server.open_tab(), "has_file": self.server.path is not None}
            except VengineError as error:
                return 200, {"error": str(error)}
        if name == "close":
            self.server.close_tab(str(asked.get("tab")))
            return 200, {}
        tab = self.server.tabs.get(str(asked.get("tab")))
        if tab is None:
            return 410, {"error": "this tab has no session"}
        if name == "file":
            return 200, self.server.file_change(asked.get("changed"))
        if name not in CALLS:
            return 404, {"error": "there is no such call"}
        return 200, tab.answer(name, asked)


def main(words: List[str]) -> int:
    """Serves the board until Ctrl-C, as the words of the command ask."""
    parser = argparse.ArgumentParser(prog="python -m vengine board", description=__doc__, formatter_class=argparse.RawDescriptionHelpFormatter)
    parser.add_argument("file", nargs="?")
    parser.add_argument("--no-browser", action="store_true")
    parser.add_argument("--port", type=int, default=0)
    parser.add_argument("--program")
    given = parser.parse_args(words)
    try:
        program = given.program or find_program()
        Engine(program).close()
        board = Board(program, given.file, given.port)
    except (VengineError, OSError) as error:
        sys.exit(f"board: {error}")
    print(f"The board is at {board.origin}/ (Ctrl-C ends it)", flush=True)
    if not given.no_browser:
        threading.Thread(target=webbrowser.open, args=(board.origin + "/",), daemon=True).start()
    try:
        board.serve_forever()
    except KeyboardInterrupt:
        pass
    finally:
        board.server_close()
    return 0
