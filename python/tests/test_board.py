#!/usr/bin/env python3
"""Tests of the board: its conduct by plain requests, and its page in a headless browser.

Usage: python/tests/test_board.py [TEST ..]      (VENGINE=FILE names another program; BOARD_PICTURES=FOLDER keeps the pictures of docs/BOARD.md)

The browser is Debian's package chromium; without it the tests of the page are skipped.
"""
import contextlib
import http.client
import json
import os
import re
import signal
import subprocess
import sys
import tempfile
import time
import unittest

sys.path.insert(0, os.path.join(os.path.dirname(os.path.abspath(__file__)), ".."))
from browser import CHROMIUM, Browser
from vengine import Engine, Fault, Section, Unsupported, find_program
from vengine.board import server as board, words

HERE = os.path.dirname(os.path.abspath(__file__))
TOP = os.path.dirname(os.path.dirname(HERE))
EXAMPLES = os.path.join(TOP, "examples")
PROGRAM = find_program()
PICTURES = os.environ.get("BOARD_PICTURES")
THREE_FAULTS = """[fine:chess]
nMoveRule = 40

[first:chess]
# the value is too large
maxRank = 11

[second:ches]

[third:chess]
customPiece1 = a:NW
rook = a
"""
WIDE = """[wide]
maxFile = 12
maxRank = 10
king = k
rook = r
customPiece1 = g:NAD
customPiece2 = w:FC
pawn = p
castling = false
promotionPieceTypes = rgw
promotionRegionWhite = *10
promotionRegionBlack = *1
doubleStepRegionWhite = *2
doubleStepRegionBlack = *9
startFen = rgwwgrkgwwgr/pppppppppppp/12/12/12/12/12/12/PPPPPPPPPPPP/RGWWGRKGWWGR w - - 0 1
"""

# Sections whose games end as ENDINGS has it: a section, a position, the last move, and what is said then.
ENDS = """[few-win:antichess]
[few-loss:antichess]
extinctionValue = loss
[few-draw:antichess]
extinctionValue = draw
[few-two:antichess]
extinctionValue = loss
extinctionPieceCount = 2
extinctionOpponentPieceCount = 3
[kinds:extinction]
[knights:chess]
extinctionValue = loss
extinctionPieceTypes = n
[mated-wins:chess]
checkmateValue = win
"""
LAST = "8/8/8/1p6/P7/8/8/8 {} - - 0 1"
MATE = "6k1/5ppp/8/8/8/8/8/R5K1 w - - 0 1"
ENDINGS = (
    ("antichess", LAST.format("b"), "b5a4", "White wins: White has no piece left"),
    ("antichess", LAST.format("w"), "a4b5", "Black wins: Black has no piece left"),
    ("few-loss", LAST.format("b"), "b5a4", "Black wins: White has no piece left"),
    ("few-draw", LAST.format("w"), "a4b5", "Drawn: Black has no piece left"),
    ("few-two", "6nn/8/8/1p6/P7/8/8/RRR5 w - - 0 1", "a4b5", "White wins: Black has at most 2 pieces left"),
    ("kinds", "rnb1kbnr/pppppppp/8/8/8/8/P3q3/RNBQKBNR w - - 0 1", "e1e2",
     "White wins: Black has no piece left of one of these kinds: pawn, knight, bishop, rook, queen, king"),
    ("knights", "4k3/8/8/8/8/n7/1P6/1N2K3 w - - 0 1", "b2a3", "White wins: Black has no knight left"),
    ("kingofthehill", "k7/8/8/8/8/4K3/8/8 w - - 0 1", "e3e4", "White wins: its king is on its goal"),
    ("3check", "7k/8/8/8/8/8/8/K5R1 w - - 1+3 0 1", "g1h1", "White wins: White has given its last check"),
    ("chess", MATE, "a1a8", "White wins: Black is checkmated"),
    ("mated-wins", MATE, "a1a8", "Black wins: Black is checkmated"),
    ("chess", "k7/8/1K6/8/8/8/8/2Q5 w - - 0 1", "c1c7", "Drawn: Black is stalemated"),
    ("xiangqi", "3k5/9/9/9/9/9/9/9/R3R4/5K3 w - - 0 1", "a2a9", "White wins: Black is stalemated"),
    ("chess", "k7/8/8/8/8/8/8/KR6 w - - 99 80", "b1c1", "Drawn: 50 moves of each side without progress"),
)
# Pieces whose figures go by their words, and one (x) that has none.
FIGURES = """[figures:chess]
maxFile = 8
castling = false
customPiece1 = a:NQ
customPiece2 = c:RN
customPiece3 = h:BN
customPiece4 = m:NK
customPiece5 = g:gQ
customPiece6 = o:cpRmR
customPiece7 = i:N0
customPiece8 = x:NAD
startFen = xachmgoi/kppppppp/8/8/8/8/KPPPPPPP/XACHMGOI w - - 0 1
"""


def setUpModule():
    # The launcher builds the program first, for which no test has the time.
    subprocess.run([PROGRAM, "reach", "W", "a1"], stdout=subprocess.DEVNULL, check=True)


def sessions_of(pid):
    """The processes that a process has started, but for those that have ended."""
    found = []
    for name in filter(str.isdigit, os.listdir("/proc")):
        try:
            with open(f"/proc/{name}/stat") as file:
                state, parent = file.read().rpartition(")")[2].split()[:2]
        except (FileNotFoundError, ProcessLookupError):
            continue
        if int(parent) == pid and state != "Z":
            found.append(int(name))
    return found


class Running:
    """A board that is served, with a file of variants or without."""

    def __init__(self, *words):
        self.process = subprocess.Popen([sys.executable, "-m", "vengine", "board", "--no-browser", "--program", PROGRAM, *words],
                                        stdout=subprocess.PIPE, text=True, env={**os.environ, "PYTHONPATH": os.path.join(TOP, "python")})
        self.address = re.search(r"http://\S+/", self.process.stdout.readline()).group()
        self.port = int(self.address.rstrip("/").rpartition(":")[2])

    def close(self):
        """The status after Ctrl-C."""
        self.process.send_signal(signal.SIGINT)
        status = self.process.wait(20)
        self.process.stdout.close()
        return status

    def request(self, method, path, body=None, **headers):
        """The status and the body of an answer."""
        connection = http.client.HTTPConnection("127.0.0.1", self.port, timeout=60)
        try:
            connection.request(method, path, body, headers)
            answer = connection.getresponse()
            return answer.status, answer.read()
        finally:
            connection.close()

    def ask(self, name, **given):
        """An answer to the page."""
        _, body = self.request("POST", f"/{name}", json.dumps(given), Origin=f"http://127.0.0.1:{self.port}")
        return json.loads(body)

    def wait_for_sessions(self, count):
        """Whether so many sessions are running, soon."""
        end = time.monotonic() + 20
        while len(sessions_of(self.process.pid)) != count and time.monotonic() < end:
            time.sleep(0.05)
        return len(sessions_of(self.process.pid)) == count


class Texts(unittest.TestCase):
    def test_faults_in_words(self):
        told = words.said_of(Fault("SectionFault 6 BadPiece customPiece1 BetzaFault 6 AmbiguousDirection 0"))
        self.assertEqual(told["words"], "the word of customPiece1 is faulty: the directions from place 0 on have no one meaning for this atom")
        self.assertEqual(words.said_of(Fault("PositionFault 2 BadMove 3 e4e5"))["words"], "move 3, e4e5, is not legal")

    def test_the_line_of_a_fault(self):
        with open(os.path.join(EXAMPLES, "faults.ini")) as file:
            text = file.read()
        with Engine(PROGRAM) as engine:
            engine.load_variant_config(text)
            told = words.sections_told(text, engine.sections())
        lines = text.split("\n")
        shown = {section["name"]: lines[section["line"] - 1] for section in told}
        self.assertEqual(len(told), 13)
        self.assertEqual(shown["fourth"], "blastOnCapture = true")
        self.assertEqual(shown["fifth"], "nFoldRule = 1")
        self.assertEqual(shown["sixth"], "customPiece1 = a:fN")
        self.assertEqual(shown["seventh"], "amazon = q")
        self.assertEqual(shown["second"], "[second:nobody]")

    def test_sections_without_a_fault(self):
        self.assertEqual(words.sections_told("", [Section("chess", None)]), [])
        told = words.sections_told("# a\n[b:chess]\n", [Section("chess", None), Section("b", None)])
        self.assertEqual(told, [{"name": "b", "parent": "chess", "line": 2, "fault": None}])

    def test_names_that_may_be_meant(self):
        names = ["chess", "crazyhouse", "xiangqi", "mini"]
        for given, meant in (("ches", ["chess"]), ("Chess", ["chess"]), ("chesss", ["chess"]), ("cress", ["chess"]), ("min", ["mini"]), ("go", [])):
            self.assertEqual(words.near_names(given, names), meant)


class Conduct(unittest.TestCase):
    @classmethod
    def setUpClass(cls):
        cls.board = Running()
        cls.own = f"http://127.0.0.1:{cls.board.port}"

    @classmethod
    def tearDownClass(cls):
        cls.board.close()

    def setUp(self):
        self.tab = self.board.ask("open")["tab"]
        self.addCleanup(self.board.ask, "close", tab=self.tab)

    def look(self, **given):
        return self.board.ask("look", **{"tab": self.tab, "variant": "chess", "fen": "startpos", "moves": [], **given})

    def test_other_addresses_are_refused(self):
        body = json.dumps({})
        for headers in ({}, {"Origin": "http://evil.example"}, {"Origin": "null"}, {"Origin": "http://127.0.0.1:1"},
                        {"Origin": self.own, "Host": "evil.example"}):
            self.assertEqual(self.board.request("POST", "/open", body, **headers)[0], 403)
        self.assertEqual(self.board.request("GET", "/", Host="evil.example")[0], 403)
        self.assertEqual(self.board.request("GET", "/", Origin="http://evil.example")[0], 403)
        for address in subprocess.run(["hostname", "-I"], capture_output=True, text=True).stdout.split()[:1]:
            with self.assertRaises(OSError):
                http.client.HTTPConnection(address, self.board.port, timeout=5).connect()

    def test_no_file_can_be_had(self):
        self.assertEqual(self.board.request("GET", "/")[0], 200)
        for path in ("/board.py", "/../board.py", "/board/../../board.py", "//etc/passwd", "/%2e%2e/board.py", "/etc/passwd", "/index.html?a",
                     "/vengine.py", "/board/", "*"):
            self.assertEqual(self.board.request("GET", path)[0], 404)
        answer = self.board.ask("load", tab=self.tab, text="VariantPath=/etc/passwd")
        self.assertEqual(answer["fault"]["text"], "IniFault 4 NoSection 1")

    def test_requests_that_are_none(self):
        for body in ("", "[]", "{", "7", "null", "[" * 100_000):
            self.assertEqual(self.board.request("POST", "/open", body, Origin=self.own)[0], 400)
        self.assertEqual(self.board.request("POST", "/open", "{}", **{"Origin": self.own, "Content-Length": "-1"})[0], 400)
        self.assertEqual(self.board.request("POST", "/open", "{}", **{"Origin": self.own, "Content-Length": str(1 << 30)})[0], 400)
        for name in ("answer", "close_tab", "__init__", "begin", "nothing", "in_turn"):
            body = json.dumps({"tab": self.tab})
            self.assertEqual(self.board.request("POST", f"/{name}", body, Origin=self.own)[0], 404)
        self.assertEqual(self.board.request("POST", "/look", json.dumps({"tab": "x"}), Origin=self.own)[0], 410)

    def test_bad_games_change_nothing(self):
        self.assertEqual(len(self.look()["moves"]), 20)
        for given in ({"moves": ["e2e5"]}, {"moves": "e2e4"}, {"moves": ["e2e4\nquit"]}, {"moves": [7]}, {"fen": "a\nb"}, {"fen": None},
                      {"variant": "nobody"}, {"variant": "a b"}, {"variant": 7}, {"fen": "8/" * 50_000}):
            answer = self.look(**given)
            self.assertTrue("fault" in answer or "error" in answer, answer)
        self.assertEqual(len(self.look()["moves"]), 20)
        self.assertEqual(self.look(variant="ches")["fault"]["text"], "OptionFault 2 UnknownVariant ches")
        self.assertEqual(self.board.ask("meant", tab=self.tab, variant="ches")["names"], ["chess"])

    def test_files_of_the_page(self):
        answer = self.board.ask("load", tab=self.tab, text="[a:chess]\n" + "#" * (1 << 20))
        self.assertEqual(answer["fault"]["text"], "FileFault 2 TooLarge")
        with contextlib.suppress(OSError):  # the answer may come before all of it was sent
            self.assertEqual(self.board.request("POST", "/load", "x" * (5 << 20), Origin=self.own)[0], 400)
        self.assertEqual(len(self.look()["moves"]), 20)
        answer = self.board.ask("load", tab=self.tab, text=THREE_FAULTS)
        self.assertEqual(answer["variants"][-1], "fine")
        self.assertEqual([(section["name"], section["line"]) for section in answer["sections"]], [("fine", 1), ("first", 6), ("second", 8), ("third", 12)])
        self.assertEqual([section["fault"] and section["fault"]["text"] for section in answer["sections"]],
                         [None, "SectionFault 5 BadValue maxRank", "SectionFault 2 UnknownParent", "SectionFault 7 LetterTwice a"])

    def test_the_time_of_the_file_is_a_text(self):
        served, other = self.served_file("[own:chess]\n")
        os.utime(other, ns=(0, 1_800_000_000_123_456_789))
        tab = served.ask("open")["tab"]
        answer = served.ask("file", tab=tab, changed=None)
        self.assertEqual(answer, {"changed": "1800000000123456789", "text": "[own:chess]\n"})
        self.assertEqual(served.ask("file", tab=tab, changed=answer["changed"])["text"], None)
        os.utime(other, ns=(0, 1_800_000_000_123_456_790))
        self.assertEqual(served.ask("file", tab=tab, changed=answer["changed"])["changed"], "1800000000123456790")
        os.unlink(other)
        self.assertEqual(served.ask("file", tab=tab, changed="7"), {"changed": "7", "text": None})

    def served_file(self, text):
        """A board of a file with a text, and the file."""
        folder = tempfile.TemporaryDirectory()
        self.addCleanup(folder.cleanup)
        path = os.path.join(folder.name, "own.ini")
        with open(path, "w") as file:
            file.write(text)
        served = Running(path)
        self.addCleanup(served.close)
        return served, path

    def load(self, text, **game):
        return self.board.ask("load", tab=self.tab, text=text, **{"variant": "own", "fen": "startpos", "moves": ["e2e4"], **game})

    def test_a_game_goes_on_by_the_text_before(self):
        first = "[own:chess]\nnMoveRule = 40\n"
        self.board.ask("load", tab=self.tab, text=first)
        for text, fault in (("[own:chess]\nnMoveRule = \n", "SectionFault 5 BadValue nMoveRule"), ("[other:chess]\n", "OptionFault 2"),
                            ("[own:chess]\npawn = -\ncustomPiece1 = p:W\n", "PositionFault 2")):
            with self.subTest(text=text):
                answer = self.load(text)
                self.assertEqual(answer["kept"]["text"][:len(fault)], fault)
                self.assertEqual(answer["in_force"], first)
                self.assertEqual(len(self.look(variant="own", moves=["e2e4"])["moves"]), 20)
        self.assertEqual(self.board.ask("rules", tab=self.tab, variant="own")["rules"].count(["nMoveRule", "40"]), 1)
        answer = self.load("[own:chess]\nnMoveRule = 30\n")
        self.assertEqual((answer["kept"], answer["variants"][-1]), (None, "own"))
        self.assertEqual(self.board.ask("rules", tab=self.tab, variant="own")["rules"].count(["nMoveRule", "30"]), 1)

    def test_who_has_too_few_pieces(self):
        """White takes the last piece of Black, or gives its last one, by each value of extinction."""
        values = {"win": "black", "loss": "white", "draw": None}
        sections = "".join(f"[{value}:antichess]\nextinctionValue = {value}\n" for value in values)
        self.board.ask("load", tab=self.tab, text=sections)
        for value, winner in values.items():
            with self.subTest(value=value):
                at = self.look(variant=value, fen="8/8/8/1p6/P7/8/8/8 w - - 0 1", moves=["a4b5"])
                self.assertEqual((at["cause"], at["winner"], at["few"]), ("extinction", winner, "black"))
                at = self.look(variant=value, fen="8/8/8/1p6/P7/8/8/8 b - - 0 1", moves=["b5a4"])
                self.assertEqual((at["cause"], at["winner"], at["few"]), ("extinction", winner and values["loss" if winner == "black" else "win"], "white"))

    def test_hurdles_of_hoppers(self):
        ends = ["a1", "a4", "a7", "d1", "d7", "g1", "g4", "g7"]
        for word, quiet, take, hurdles in (
                ("gQ", ends, ends, ["b2", "b4", "b6", "d2", "d6", "f2", "f4", "f6"]),
                ("mRcpR", ["c4", "d3", "d5", "e4"], ["a4", "d1", "d7", "d8", "g4", "h4"], ["b4", "d2", "d6", "f4"]),
                ("gfR", ["d7"], ["d7"], ["d6"]),
                ("gNN", ["b8", "f8", "h2", "h6"], ["b8", "f8", "h2", "h6"], ["c6", "e6", "f3", "f5"]),
                ("pR2", ["b4", "d2", "d6", "f4"], ["b4", "d2", "d6", "f4"], ["c4", "d3", "d5", "e4"])):
            with self.subTest(word=word):
                answer = self.board.ask("reach", tab=self.tab, word=word)
                self.assertEqual({name: sorted(squares) for name, squares in answer.items()}, {"quiet": quiet, "take": take, "hurdles": hurdles})

    def test_moves_that_are_looked_at_alone(self):
        game = {"tab": self.tab, "variant": "chess", "fen": "startpos", "moves": []}
        self.board.ask("go", **game, depth=2, searchmoves=["a2a3"])
        answer = self.board.ask("think", tab=self.tab)
        while not answer["is_over"]:
            answer = self.board.ask("think", tab=self.tab)
        self.assertEqual(answer["best"], "a2a3")
        for moves in ("a2a3", ["quit"], [7]):
            self.assertIn("error", self.board.ask("go", **game, depth=1, searchmoves=moves))

    def test_words_of_pieces(self):
        answer = self.board.ask("reach", tab=self.tab, word="mNcF")
        self.assertEqual(set(answer["quiet"]), {"b3", "b5", "c2", "c6", "e2", "e6", "f3", "f5"})
        self.assertEqual(set(answer["take"]), {"c3", "c5", "e3", "e5"})
        for word in ("", "a b", "--threads", "\n", "fN"):
            answer = self.board.ask("reach", tab=self.tab, word=word)
            self.assertTrue("fault" in answer or "error" in answer)

    def test_a_session_that_is_killed_is_started_anew(self):
        before = set(sessions_of(self.board.process.pid))
        tab = self.board.ask("open")["tab"]
        self.addCleanup(self.board.ask, "close", tab=tab)
        self.board.ask("load", tab=tab, text="[own:chess]\n")
        (pid,) = set(sessions_of(self.board.process.pid)) - before
        os.kill(pid, signal.SIGKILL)
        game = {"tab": tab, "variant": "own", "fen": "startpos", "moves": []}
        self.assertIn("started anew", self.board.ask("look", **game)["error"])
        self.assertEqual(len(self.board.ask("look", **game)["moves"]), 20)

    def test_a_closed_tab_ends_its_session(self):
        count = len(sessions_of(self.board.process.pid))
        tabs = [self.board.ask("open")["tab"] for _ in range(10)]
        self.assertTrue(self.board.wait_for_sessions(count + 10))
        self.board.ask("go", tab=tabs[0], variant="chess", fen="startpos", moves=[], depth=64)
        for tab in tabs:
            self.board.ask("close", tab=tab)
        self.assertTrue(self.board.wait_for_sessions(count))

    def test_a_silent_tab_is_ended(self):
        own = board.Board(PROGRAM, None)
        self.addCleanup(own.server_close)
        silent, heard = own.open_tab(), own.open_tab()
        pid = own.tabs[silent].engine.pid
        own.tabs[silent].heard -= board.SILENT + 1
        own.end_silent()
        self.assertEqual(list(own.tabs), [heard])
        self.assertFalse(os.path.exists(f"/proc/{pid}"))

    def test_the_end_leaves_no_process(self):
        other = Running(os.path.join(EXAMPLES, "mini.ini"))
        tab = other.ask("open")["tab"]
        other.ask("go", tab=tab, variant="mini", fen="startpos", moves=[], depth=64)
        pids = sessions_of(other.process.pid)
        self.assertEqual(len(pids), 1)
        self.assertEqual(other.close(), 0)
        self.assertFalse(any(os.path.exists(f"/proc/{pid}") for pid in pids))


@unittest.skipUnless(CHROMIUM, "there is no chromium")
class Pages(unittest.TestCase):
    """The page in a browser."""

    @classmethod
    def setUpClass(cls):
        cls.folder = tempfile.TemporaryDirectory()
        cls.file = os.path.join(cls.folder.name, "wide.ini")
        with open(cls.file, "w") as file:
            file.write(WIDE)
        cls.board, cls.browser = Running(), Browser()

    @classmethod
    def tearDownClass(cls):
        cls.browser.close()
        cls.board.close()
        cls.folder.cleanup()

    def open(self, served=None, width=1280, height=900, is_dark=False):
        page = self.browser.page((served or self.board).address, width, height, is_dark)
        self.addCleanup(page.close)
        page.wait("document.body?.dataset.ready")
        self.addCleanup(lambda: self.assertEqual(page.faults(), []))
        return page

    def setUp(self):
        self.page = self.open()

    def start(self, variant, fen=""):
        """A game of a variant from a position."""
        self.page.choose("#variant", variant)
        self.begins(variant)
        if fen:
            self.page.type("#fen", fen)
            self.page.click("#start button")
            self.begins(variant, fen)

    def begins(self, variant, fen=None):
        """Waits until the address has a game without moves."""
        self.page.wait(f"""(() => {{
            const words = new URLSearchParams(location.hash.slice(1));
            return words.get("variant") === {json.dumps(variant)} && words.get("fen") === {json.dumps(fen)} && !words.has("moves")
                && document.querySelector("#message").hidden;
        }})()""")

    def moves(self):
        return self.page.run("[...document.querySelectorAll('#moves li:not(.later)')].map(one => one.lastChild.textContent)")

    def plays(self, count):
        self.page.wait(f"document.querySelectorAll('#moves li:not(.later)').length === {count}")

    def square(self, name):
        return f"[data-square={name}]"

    def move(self, text, added=""):
        """Clicks on both squares, and on what is meant where there is a choice."""
        count = len(self.moves())
        origin, target = re.fullmatch(r"([a-l]\d+)([a-l]\d+)", text).groups()
        self.page.click(self.square(origin))
        self.page.wait(f"document.querySelector('.square.chosen')?.dataset.square === '{origin}'")
        self.page.click(self.square(target))
        if added is not None and (added or self.page.run("document.querySelector('#choice').open")):
            self.page.wait("document.querySelector('#choice').open")
            self.page.click(f"[data-move='{text}{added}']")
        self.plays(count + 1)

    def keep(self, name, page=None):
        if PICTURES:
            (page or self.page).picture(os.path.join(PICTURES, name + ".png"))

    def test_a_game_of_chess_to_mate(self):
        page = self.page
        self.assertEqual(page.run("document.querySelectorAll('.square').length"), 64)
        page.click(self.square("e2"))
        page.wait("document.querySelectorAll('.dot').length === 2")
        page.click(self.square("e5"))
        page.wait("document.querySelectorAll('.dot').length === 0")
        self.move("e2e4")
        self.assertEqual(page.text("#state"), "Black to move")
        page.drag(self.square("e7"), self.square("e5"))
        self.plays(2)
        # the queen goes from d1 by keys
        page.run("document.querySelector('[data-square=d1]').focus()")
        page.click(self.square("d1"))
        for key in ("ArrowUp",) * 4 + ("ArrowRight",) * 4 + ("Enter",):
            page.key(key)
        self.plays(3)
        self.move("b8c6")
        page.type("#move", "f1c4")
        page.key("Enter")
        self.plays(5)
        self.move("g8f6")
        self.keep("chess")
        page.click("#undo")
        self.plays(5)
        self.move("g8f6")
        page.click(self.square("h5"))
        page.wait("document.querySelectorAll('.take').length === 3")
        page.click(self.square("f7"))
        self.plays(7)
        self.assertEqual(page.text("#state"), "White wins: Black is checkmated")
        self.assertEqual(self.moves(), ["e2e4", "e7e5", "d1h5", "b8c6", "f1c4", "g8f6", "h5f7"])
        page.click("#copy-fen")
        page.wait("document.querySelector('#line').textContent === 'r1bqkb1r/pppp1Qpp/2n2n2/4p3/2B1P3/8/PPPP1PPP/RNB1K1NR b KQkq - 0 4'")
        page.click("#copy-moves")
        page.wait("document.querySelector('#line').textContent === 'e2e4 e7e5 d1h5 b8c6 f1c4 g8f6 h5f7'")
        page.type("#move", "e8f7")
        page.key("Enter")
        page.wait("!document.querySelector('#message').hidden")
        self.assertEqual(len(self.moves()), 7)

    def test_crazyhouse_with_drops(self):
        page = self.page
        self.start("crazyhouse")
        for text in ("e2e4", "d7d5", "e4d5", "g8f6"):
            self.move(text)
        page.click("[data-hand=P]")
        page.wait("document.querySelectorAll('.dot').length > 20")
        self.keep("crazyhouse")
        page.click(self.square("e6"))
        self.plays(5)
        self.assertEqual(self.moves()[-1], "P@e6")
        self.assertEqual(page.run("document.querySelectorAll('[data-hand]').length"), 0)

    def test_seirawan_with_gates(self):
        self.start("seirawan")
        self.move("b1c3", "h")
        self.move("b8c6", "e")
        self.move("g1f3", "")
        self.assertEqual(self.moves(), ["b1c3h", "b8c6e", "g1f3"])
        self.assertEqual(self.page.run("document.querySelector('[data-square=b1]').getAttribute('aria-label')"), "b1, H")
        self.page.click(self.square("g8"))
        self.page.click(self.square("f6"))
        self.page.wait("document.querySelector('#choice').open")
        self.keep("seirawan")
        self.page.click("#cancel")

    def test_xiangqi(self):
        self.start("xiangqi")
        self.assertEqual(self.page.run("document.querySelectorAll('.square').length"), 90)
        for text in ("h3e3", "h10g8", "e3e7"):
            self.move(text)
        self.assertEqual(self.page.text("#state"), "Black to move")
        self.page.click("#turn")
        self.move("i10h10")
        self.keep("xiangqi")

    def test_a_promotion(self):
        self.start("chess", "k7/4P3/8/8/8/8/8/K7 w - - 0 1")
        self.page.click(self.square("e7"))
        self.page.click(self.square("e8"))
        self.page.wait("document.querySelector('#choice').open")
        self.assertEqual(self.page.run("document.querySelectorAll('#choices button').length"), 4)
        self.page.click("[data-move=e7e8n]")
        self.plays(1)
        self.assertEqual(self.moves(), ["e7e8n"])

    def test_a_large_board_of_a_file(self):
        served = Running(self.file)
        self.addCleanup(served.close)
        self.page = self.open(served)
        self.page.wait("document.querySelector('#variant').value === 'wide'")
        self.assertEqual(self.page.run("document.querySelectorAll('.square').length"), 120)
        self.move("b1d3")
        self.move("l9l7")
        self.assertEqual(self.moves(), ["b1d3", "l9l7"])
        self.keep("wide")
        with open(self.file, "a") as file:
            file.write("\n[narrow:wide]\nnMoveRule = 30\n")
        self.page.wait("[...document.querySelector('#variant').options].some(one => one.value === 'narrow')")
        self.assertEqual(self.moves(), ["b1d3", "l9l7"])

    def test_a_file_with_three_faults(self):
        page = self.page
        page.click("#file-panel summary")
        page.type("#text", THREE_FAULTS)
        page.wait("document.querySelectorAll('#sections .fault').length === 3")
        told = page.run("[...document.querySelectorAll('#sections button')].map(one => one.textContent)")
        self.assertEqual(told[0], "[fine:chess], line 1: ok")
        self.assertEqual(told[1], "[first:chess], line 6: the value of maxRank is not of its form (SectionFault 5 BadValue maxRank)")
        self.assertIn("no earlier section has the name of its parent", told[2])
        self.assertIn("two pieces of the section have the letter a", told[3])
        page.click("#sections li:nth-child(2) button")
        page.wait("getSelection().toString() === 'maxRank = 11'")
        self.keep("faults")
        page.type("#text", "maxRank = 8")
        page.wait("document.querySelector('#refused').textContent.includes('IniFault 4 NoSection 1')")

    def test_a_mate_is_walked(self):
        page = self.page
        self.start("chess", "7k/R7/5K2/8/8/8/8/8 w - - 0 1")
        page.click("#mate button")
        page.wait("document.querySelector('#mated').textContent.includes('mates within 2')")
        self.assertIn("by f6g6. The strategy's check says: wins", page.text("#mated"))
        for move in ("f6g6", "h8g8"):
            page.wait(f"document.querySelector('#edges').textContent === '{move}'")
            page.click("#edges button")
        page.wait("document.querySelector('#edges').textContent === 'a7a8'")
        self.keep("mate")
        page.click("#edges button")
        page.wait("document.querySelector('#node').textContent.includes('won')")
        self.assertEqual(page.run("document.querySelector('[data-square=a8]').getAttribute('aria-label')"), "a8, R")
        page.click("#back")
        page.wait("document.querySelector('#edges').textContent === 'a7a8'")
        page.click("#to-game")
        page.wait("document.querySelector('[data-square=f6]').getAttribute('aria-label') === 'f6, K'")
        page.type("#within", "1")
        page.click("#mate button")
        page.wait("document.querySelector('#mated').textContent === 'White has no mate within 1'")

    def test_the_engine_plays(self):
        page = self.page
        page.choose("#limit", "depth")
        page.type("#amount", "2")
        page.choose("#side", "b")
        self.move_and_reply("e2e4", 2)
        page.click("#undo")
        self.plays(0)
        page.choose("#side", "wb")
        page.wait("document.querySelectorAll('#moves li').length >= 4")
        page.choose("#side", "")
        self.assertTrue(page.run("document.querySelector('#message').hidden"))

    def move_and_reply(self, text, count):
        self.page.click(self.square(text[:2]))
        self.page.click(self.square(text[2:]))
        self.plays(count)

    def test_a_long_thought_is_stopped(self):
        page = self.page
        page.choose("#limit", "depth")
        page.type("#amount", "64")
        page.click("#think")
        page.wait("/depth \\d/.test(document.querySelector('#thought').textContent)")
        self.assertTrue(page.run("document.querySelector('#thought').classList.contains('busy')"))
        self.keep("thinking")
        page.click(self.square("e2"))
        page.wait("document.querySelectorAll('.dot').length === 2")
        page.click("#stop")
        page.wait("document.querySelector('#stop').disabled")
        page.click("#best")
        self.plays(1)

    def test_pictures_of_pieces(self):
        page = self.page
        page.click("#pieces-panel summary")
        page.wait("document.querySelectorAll('#pieces figure').length === 6")
        marks = page.run("Object.fromEntries([...document.querySelectorAll('#pieces figure')].map(one => [one.querySelector('figcaption').textContent, "
                         "one.querySelectorAll('.dot').length]))")
        self.assertEqual(marks, {"bishop": 13, "king": 8, "knight": 8, "pawn": 1, "queen": 27, "rook": 14})
        page.type("#betza", "mNcF")
        page.click("#word button")
        page.wait("document.querySelectorAll('#reach .dot').length === 8 && document.querySelectorAll('#reach .take').length === 4")
        self.keep("pieces")
        page.type("#betza", "fN")
        page.click("#word button")
        page.wait("document.querySelector('#reach .fault')?.textContent.includes('AmbiguousDirection')")

    def test_a_bad_position_is_told(self):
        page = self.page
        page.type("#fen", "8/8/8/8/8/8/8/8 w - - 0 1")
        page.click("#start button")
        page.wait("document.querySelector('#message').textContent.includes('FenFault 11 Kings')")
        self.assertEqual(page.run("document.querySelectorAll('.piece').length"), 32)

    def test_a_variant_and_a_position_at_once(self):
        fen = LAST.format("w")
        self.page.run(f"""(() => {{
            const variant = document.querySelector("#variant");
            variant.value = "antichess";
            variant.dispatchEvent(new Event("change"));
            document.querySelector("#fen").value = "{fen}";
            document.querySelector("#start button").click();
        }})()""")
        self.begins("antichess", fen)

    def test_small_and_dark(self):
        for name, width, is_dark in (("narrow", 400, False), ("narrow-dark", 400, True), ("dark", 1280, True)):
            page = self.open(width=width, is_dark=is_dark)
            self.assertLessEqual(page.run("document.documentElement.scrollWidth"), width)
            self.keep(name, page)

    def figures(self):
        return self.page.run("document.querySelectorAll('.piece.figure').length")

    def shade(self, region):
        """The squares of a region that is shown."""
        self.page.click(f"#shades input[value={region}]")
        self.page.wait(f"document.querySelector('#shades input[value={region}]').checked")
        return self.page.run(f"[...document.querySelectorAll('.shade.{region}')].map(one => one.parentNode.dataset.square)")

    def test_figures_by_the_rules(self):
        for variant, figures in (("chess", 32), ("capablanca", 40), ("antichess", 32), ("losalamos", 24), ("xiangqi", 2 * 5)):
            with self.subTest(variant=variant):
                self.start(variant)
                self.assertEqual(self.figures(), figures)

    def test_regions_as_shades(self):
        for variant, region, count in (("chess", "promotion", 8), ("crazyhouse", "drop", 64), ("chess", "drop", 0), ("kingofthehill", "flag", 4)):
            with self.subTest(variant=variant):
                self.start(variant)
                self.assertEqual(len(self.shade(region)), count)
                self.page.click(f"#shades input[value={region}]")
        self.start("losalamos")
        self.assertEqual(set(self.shade("promotion")), {f"{file}6" for file in "abcdef"})

    def test_figures_and_shades_of_a_file(self):
        served = Running(self.file)
        self.addCleanup(served.close)
        page = self.page = self.open(served)
        page.wait("document.querySelector('#variant').value === 'wide'")
        self.assertEqual(self.figures(), 2 * (3 + 1 + 12))
        self.assertEqual(set(self.shade("promotion")), {f"{file}10" for file in "abcdefghijkl"})
        self.keep("shades")
        page.click("#pieces-panel summary")
        page.wait("[...document.querySelectorAll('#pieces figcaption')].some(one => one.textContent === 'W: FC')")
        # a text that is changed has other rules
        page.type("#text", WIDE.replace("promotionRegionWhite = *10", "promotionRegionWhite = a9 *10"))
        page.wait("document.querySelectorAll('.shade.promotion').length === 13")

    def text_of_file(self):
        return self.page.run("document.querySelector('#text').value")

    def test_edits_are_kept(self):
        os.utime(self.file, ns=(0, 1_764_000_000_123_456_789))
        served = Running(self.file)
        self.addCleanup(served.close)
        page = self.page = self.open(served)
        typed = "\n# a thought\n[mine:wide]\nnMoveRule = 30\n"
        page.run("(() => { const one = document.querySelector('#text'); one.focus(); one.setSelectionRange(one.value.length, one.value.length); })()")
        page.write(typed)
        time.sleep(6)
        text = self.text_of_file()
        self.assertTrue(text.endswith(typed))
        self.assertIn("mine", page.run("[...document.querySelector('#variant').options].map(one => one.value)"))
        page.reload()
        self.assertEqual(self.text_of_file(), text)
        self.assertIn("mine", page.run("[...document.querySelector('#variant').options].map(one => one.value)"))
        with open(self.file, "w") as file:
            file.write(WIDE + "[disk:wide]\n")
        page.wait("document.querySelector('#text').value.includes('[disk:wide]')", 5)
        page.wait("[...document.querySelector('#variant').options].some(one => one.value === 'disk')")
        page.click("#back-to-typed")
        self.assertEqual(self.text_of_file(), text)
        page.wait("document.querySelector('#variant').options[11]?.value === 'mine'")

    def test_a_half_typed_line_leaves_the_game(self):
        served = Running(self.file)
        self.addCleanup(served.close)
        page = self.page = self.open(served)
        page.wait("document.querySelector('#variant').value === 'wide'")
        self.move("b1d3")
        self.move("l9l7")
        half = WIDE.replace("maxFile = 12", "maxFile = 1")
        for text, told in ((half, "SectionFault 8 BadStart"), (WIDE.replace("[wide]", "[wide"), "IniFault"), (WIDE.replace("[wide]", "[wid]"), "UnknownVariant"),
                           (WIDE.replace("g:NAD", "g:N"), "BadMove 1 b1d3")):
            with self.subTest(told=told):
                page.type("#text", text)
                page.wait(f"!document.querySelector('#kept').hidden && document.querySelector('#kept-why').textContent.includes('{told}')")
                self.assertEqual(self.moves(), ["b1d3", "l9l7"])
                self.assertEqual(page.run("document.querySelector('#variant').value"), "wide")
        self.assertFalse(page.run("document.querySelector('#take-text').hidden"))
        page.type("#text", half)
        page.wait("document.querySelector('#kept-why').textContent.includes('BadStart') && document.querySelector('#take-text').hidden")
        self.keep("kept")
        # the game goes on meanwhile, and after it
        self.move("d3b1")
        page.type("#text", WIDE)
        page.wait("document.querySelector('#kept').hidden")
        self.move("l7l6")
        self.assertEqual(self.moves(), ["b1d3", "l9l7", "d3b1", "l7l6"])
        page.type("#text", WIDE.replace("g:NAD", "g:F"))
        page.wait("!document.querySelector('#take-text').hidden")
        page.click("#take-text")
        self.plays(0)
        page.wait("document.querySelector('#kept').hidden")
        self.move("c2c3")
        self.move("c9c8")
        self.move("b1c2")

    def test_a_section_that_is_named_anew_can_be_chosen(self):
        served = Running(self.file)
        self.addCleanup(served.close)
        page = self.page = self.open(served)
        self.move("b1d3")
        page.type("#text", WIDE.replace("[wide]", "[wider]"))
        page.wait("document.querySelector('#variant').options[10].value === 'wider'")
        self.assertEqual(page.run("document.querySelector('#variant').value"), "wide")
        page.choose("#variant", "wider")
        self.plays(0)
        page.wait("document.querySelector('#kept').hidden && document.querySelector('#variant').value === 'wider'")
        self.move("b1d3")

    def test_ends_in_words(self):
        page = self.page
        page.click("#file-panel summary")
        page.type("#text", ENDS)
        page.wait("document.querySelectorAll('#sections .ok').length === 7")
        for variant, fen, move, told in ENDINGS:
            with self.subTest(variant=variant, fen=fen):
                self.start(variant, fen)
                page.type("#move", move)
                page.key("Enter")
                self.plays(1)
                self.assertEqual(page.text("#state"), told)

    def test_hoppers_in_pictures(self):
        page = self.page
        page.click("#pieces-panel summary")
        page.type("#betza", "gQ")
        page.click("#word button")
        page.wait("document.querySelectorAll('#reach .hurdle').length === 8 && document.querySelectorAll('#reach .dot').length === 8")
        self.assertIn("the grey pieces are hurdles", page.text("#reach"))
        self.keep("hopper")
        page.type("#betza", "NAD")
        page.click("#word button")
        page.wait("document.querySelectorAll('#reach .dot').length === 16 && document.querySelectorAll('#reach .hurdle').length === 0")

    def test_check_is_shown(self):
        with Engine(PROGRAM) as engine:
            try:
                engine.command("checkers", text="chess\nstartpos\n")
            except Unsupported:
                self.skipTest("this program does not tell checkers")
        page = self.page
        for text in ("e2e4", "f7f5", "d1h5"):
            self.move(text)
        self.assertEqual(page.text("#state"), "Black to move, in check")
        self.assertEqual(page.run("document.querySelector('.square.checked').dataset.square"), "e8")
        self.assertEqual(page.run("[...document.querySelectorAll('.square.checker')].map(one => one.dataset.square)"), ["h5"])
        self.keep("check")
        self.move("g7g6")
        self.assertEqual(page.text("#state"), "White to move")
        self.assertEqual(page.run("document.querySelectorAll('.square.checked, .square.checker').length"), 0)

    def test_a_drag_from_the_hand(self):
        page = self.page
        self.start("crazyhouse")
        for text in ("e2e4", "d7d5", "e4d5", "g8f6"):
            self.move(text)
        page.drag("[data-hand=P]", self.square("a1"))
        page.wait("document.querySelector('#ghost').hidden")
        self.plays(4)
        page.drag("[data-hand=P]", self.square("e6"))
        self.plays(5)
        self.assertEqual(self.moves()[-1], "P@e6")

    def test_any_ply_is_gone_to(self):
        page = self.page
        moves = ["e2e4", "e7e5", "g1f3", "b8c6"]
        for text in moves:
            self.move(text)
        page.click("#moves li:nth-child(2) button")
        self.plays(2)
        self.assertEqual(page.run("document.querySelector('[data-square=g1]').getAttribute('aria-label')"), "g1, N")
        for key, count in (("ArrowLeft", 1), ("ArrowUp", 0), ("ArrowRight", 1), ("ArrowDown", 4)):
            page.key(key)
            self.plays(count)
        page.click("#undo")
        page.click("#undo")
        self.plays(2)
        page.click("#redo")
        self.plays(3)
        self.assertEqual(page.run("document.querySelectorAll('#moves .later').length"), 1)
        # the same move goes on in the game that is known, another one ends it
        self.move("b8c6")
        self.assertTrue(page.run("document.querySelector('#redo').disabled"))
        page.key("ArrowLeft")
        self.plays(3)
        self.move("g8f6")
        self.assertEqual(page.run("[...document.querySelectorAll('#moves button')].map(one => one.textContent)"), [*moves[:3], "g8f6"])

    def test_choices_are_figures_beside_the_square(self):
        page = self.page
        self.start("chess", "k7/4P3/8/8/8/8/8/K7 w - - 0 1")
        page.click(self.square("e7"))
        page.click(self.square("e8"))
        page.wait("document.querySelector('#choice').open")
        self.assertEqual(page.run("document.querySelectorAll('#choices .figure.white').length"), 4)
        near = page.run("""(() => {
            const [box, square] = ["#choice", "[data-square=e8]"].map((one) => document.querySelector(one).getBoundingClientRect());
            return [Math.abs(box.x + box.width / 2 - square.x - square.width / 2), box.top - square.bottom];
        })()""")
        self.assertLess(near[0], 2)
        self.assertTrue(0 <= near[1] < 10, near)
        self.keep("promotion")
        page.key("Escape")
        page.wait("!document.querySelector('#choice').open")
        page.click(self.square("e7"))
        page.click(self.square("e8"))
        page.wait("document.querySelector('#choice').open")
        page.key("Enter")
        self.plays(1)
        self.assertEqual(self.moves(), ["e7e8b"])

    def test_castles_onto_the_rook(self):
        page = self.page
        fen = "r3k2r/8/8/8/8/8/8/R3K2R {} KQkq - 0 1"
        for side, king, rook, text in (("w", "e1", "h1", "e1g1"), ("w", "e1", "a1", "e1c1"), ("b", "e8", "h8", "e8g8"), ("b", "e8", "a8", "e8c8")):
            with self.subTest(text=text):
                self.start("chess", fen.format(side))
                page.drag(self.square(king), self.square(rook))
                self.plays(1)
                self.assertEqual(self.moves(), [text])
        self.start("chess", fen.format("w").replace("KQkq", "Q"))
        page.drag(self.square("e1"), self.square("h1"))
        time.sleep(0.5)
        self.plays(0)
        self.start("seirawan", "4k3/8/8/8/8/8/8/4K2R[H] w K - 0 1")
        page.drag(self.square("e1"), self.square("h1"))
        page.wait("document.querySelector('#choice').open")
        self.assertEqual(set(page.run("[...document.querySelectorAll('#choices button')].map(one => one.dataset.move)")), {"e1g1", "e1g1h", "h1e1h"})
        page.click("[data-move=h1e1h]")
        self.plays(1)

    def test_marks_of_the_right_button(self):
        page = self.page
        page.drag(self.square("e2"), self.square("e4"), button="right")
        page.wait("document.querySelectorAll('.arrow.by-hand').length === 2")
        page.drag(self.square("d4"), self.square("d4"), button="right")
        page.wait("document.querySelectorAll('.drawn-ring').length === 1")
        self.keep("marks")
        page.drag(self.square("e2"), self.square("e4"), button="right")
        page.wait("document.querySelectorAll('.arrow.by-hand').length === 0")
        page.click(self.square("a5"))
        page.wait("document.querySelectorAll('.drawn-ring').length === 0")
        page.drag(self.square("e2"), self.square("e4"), button="right")
        self.move("e2e4")
        self.assertEqual(page.run("document.querySelectorAll('.arrow').length"), 0)

    def test_best_moves_and_the_bar(self):
        page = self.page
        self.start("chess", "7k/8/8/8/8/8/R7/K7 w - - 0 1")
        page.choose("#limit", "depth")
        page.type("#amount", "2")
        page.choose("#many", "3")
        page.click("#think")
        page.wait("document.querySelectorAll('#others button').length === 2 && document.querySelector('#stop').disabled")
        found = page.run("[...document.querySelectorAll('#others button')].map(one => one.textContent)")
        best = page.text("#thought").split("best ")[1]
        self.assertEqual(len({best, *found}), 3)
        self.assertEqual(page.run("document.querySelectorAll('.arrow.other').length"), 4)
        # a rook more is White's, whoever is to move
        self.assertGreater(page.run("Number(document.querySelector('#bar').getAttribute('aria-valuenow'))"), 75)
        self.keep("lines")
        page.click("#others li:nth-child(2) button")
        self.plays(1)
        self.assertEqual(self.moves(), [found[1]])
        page.click("#think")
        page.wait("document.querySelectorAll('#others button').length === 2 && document.querySelector('#stop').disabled")
        self.assertGreater(page.run("Number(document.querySelector('#bar').getAttribute('aria-valuenow'))"), 75)
        self.start("chess", "7k/8/8/8/8/8/8/K7 w - - 0 1")
        page.choose("#many", "5")
        page.click("#think")
        page.wait("document.querySelectorAll('#others button').length === 2 && document.querySelector('#stop').disabled")

    def test_a_reload_and_an_address_keep_the_game(self):
        page = self.page
        fen = "4k3/8/8/8/8/8/8/R3K2R w KQ - 0 1"
        self.start("crazyhouse", fen)
        for text in ("a1a7", "e8d8", "h1h8"):
            self.move(text)
        page.key("ArrowLeft")
        self.plays(2)
        address = page.run("location.href")
        page.reload()
        other = self.browser.page(address)
        self.addCleanup(other.close)
        other.wait("document.body?.dataset.ready")
        for one in (page, other):
            self.page = one
            self.assertEqual(self.moves(), ["a1a7", "e8d8"])
            self.assertEqual(one.run("document.querySelector('#variant').value"), "crazyhouse")
            self.assertEqual(one.run("document.querySelectorAll('#moves .later').length"), 1)
            one.click("#copy-fen")
            one.wait("document.querySelector('#line').textContent === '3k4/R7/8/8/8/8/8/4K2R[] w K - 2 2'")
        other.run("location.hash = '#variant=chess&moves=e2e4,e7e5'")
        other.wait("document.querySelectorAll('#moves li').length === 2 && document.querySelector('#variant').value === 'chess'")
        other.run("location.hash = '#variant=nobody'")
        other.wait("document.querySelector('#message').textContent.includes('UnknownVariant')")
        self.assertEqual(len(self.moves()), 2)

    def test_figures_by_betza_words(self):
        page = self.page
        page.click("#file-panel summary")
        page.type("#text", FIGURES)
        page.wait("[...document.querySelector('#variant').options].some(one => one.value === 'figures')")
        self.start("figures")
        letters = page.run("[...document.querySelectorAll('.piece:not(.figure) text')].map(one => one.textContent)")
        self.assertEqual(letters, ["X", "X"])
        self.assertEqual(page.run("document.querySelectorAll('.piece .drawn').length"), 14)
        self.keep("figures")

    def test_all_first_moves(self):
        page = self.page
        self.start("chess", "6k1/8/R7/1R6/8/8/8/6K1 w - - 0 1")
        page.click("#keys")
        page.wait("document.querySelector('#mated').textContent === '2 first moves win: a6a7 within 2, b5b7 within 2'")
        self.keep("keys")
        for within, told in (("1", "No first move wins within 1"), ("21", "within has to be a number from 1 to 20, not 21")):
            page.type("#within", within)
            page.click("#keys")
            page.wait(f"document.querySelector('#mated').textContent === '{told}'")
        self.start("chess", "7k/R7/5K2/8/8/8/8/8 w - - 98 80")
        page.type("#within", "2")
        page.click("#keys")
        page.wait("document.querySelector('#mated').textContent.includes('KeysFault 1 NearCount')")

    def test_ten_tabs(self):
        pages = [self.open() for _ in range(9)]
        self.assertTrue(self.board.wait_for_sessions(10))
        for page in pages:
            page.click(self.square("e2"))
            page.click(self.square("e4"))
            page.wait("document.querySelectorAll('#moves li').length === 1")
        page = self.browser.page(self.board.address)
        page.wait("document.body?.dataset.ready")
        self.assertTrue(self.board.wait_for_sessions(11))
        page.close()
        self.assertTrue(self.board.wait_for_sessions(10))


if __name__ == "__main__":
    unittest.main()
