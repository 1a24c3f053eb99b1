"""What the scripts of this folder share: where programs are, what `status` says, and what a client and the engine said (recorded.py)."""
import glob
import os
import re
import shlex
import shutil
import signal
import subprocess
import sys
import time

HERE = os.path.dirname(os.path.abspath(__file__))
VENGINE = os.environ.get("VENGINE", os.path.abspath(os.path.join(HERE, "..", "..", "vengine")))
PATH = os.environ.get("PATH", "") + ":/usr/games"


def is_missing(script, *programs):
    """Whether one of the programs is not there; which ones is printed."""
    lacks = [name for name in programs if shutil.which(name, path=PATH) is None]
    if lacks:
        print(f"{script}: skipped, for there is no {' and no '.join(lacks)}")
    return bool(lacks)


def end(client):
    """Ends a client that was started in a session of its own, and all that it started there; XBoard does not heed the first word."""
    for number in (signal.SIGTERM, signal.SIGKILL):
        try:
            os.killpg(client.pid, number)
        except ProcessLookupError:
            break
        time.sleep(1)
    client.wait()


def ask(command, variant, start, moves):
    """What a command of Vengine prints of a game, as lines."""
    text = f"{variant}\n{start}\n{' '.join(moves)}\n"
    return subprocess.run([VENGINE, command], input=text, capture_output=True, text=True).stdout.splitlines() or ["nothing"]


def result_of(state):
    """The result that a line of `status` decides, or none."""
    words = state.split()
    if words[0] == "won":
        return "1-0" if words[1] == "white" else "0-1"
    return "1/2-1/2" if words[0] == "drawn" else None


def write_engine(folder, *words):
    """A file that a client can start as an engine; the lines of each start are then found in the same folder."""
    path = os.path.join(folder, "vengine-recorded")
    with open(path, "w") as file:
        command = [sys.executable, os.path.join(HERE, "recorded.py"), folder, VENGINE, *words]
        file.write(f"#!/bin/sh\nexec {' '.join(map(shlex.quote, command))}\n")
    os.chmod(path, 0o755)
    return path


def sessions_of(folder):
    """The lines of each start, in the order of the starts: milliseconds, sign and text of each line."""
    found = []
    for path in sorted(glob.glob(os.path.join(folder, "*.lines"))):
        with open(path) as file:
            parts = [line.rstrip("\n").split(" ", 2) for line in file]
        found.append([(int(part[0]), part[1], part[2] if len(part) > 2 else "") for part in parts])
    return found


def waits(session):
    """How many milliseconds each `bestmove` came after a `stop`, where one was sent."""
    found, stopped = [], None
    for at, sign, text in session:
        if sign == ">" and text == "stop":
            stopped = at
        elif sign == ">" and text.startswith("go"):
            stopped = None
        elif sign == "<" and text.startswith("bestmove") and stopped is not None:
            found.append(at - stopped)
            stopped = None
    return found


def report(client, sessions, searches):
    """Prints what the client sent and what was refused; the number of faults: too few searches, one that did not end, an error line."""
    sent = [text for session in sessions for _, sign, text in session if sign == ">"]
    heard = [text for session in sessions for _, sign, text in session if sign == "<"]
    begun, ended, depths = (sum(text.split()[:1] == [word] for text in lines)
                            for word, lines in (("go", sent), ("bestmove", heard), ("info", heard)))
    errors = [text for text in heard if "error" in text.lower()]
    stops = [wait for session in sessions for wait in waits(session)]
    ends = [text for session in sessions for _, sign, text in session if sign == "="]
    print(f"{client} sent the commands: {', '.join(sorted({(text.split() or ['(empty)'])[0] for text in sent}))}")
    for text in sorted({re.sub(r"\b\d+\b", "N", text) for text in sent if text.startswith("go")}
                       | {text for text in sent if text.startswith("setoption")}):
        print(f"{client} sent: {text}")
    print(f"{client}: {len(sessions)} starts, {begun} searches, {ended} best moves, {depths} lines of thinking, {len(errors)} error lines")
    print(f"{client}: {len(stops)} best moves after `stop`, {max(stops, default=0)} ms after it at most")
    for text in errors:
        print(f"{client}: Vengine said: {text}")
    print(f"{client}: the starts ended with status {', '.join(ends) or '-'}; {len(sessions) - len(ends)} were killed")
    return (begun < searches) + (ended != begun) + (depths == 0) + len(errors)
