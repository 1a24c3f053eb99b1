#!/usr/bin/python3
"""Tests of the laboratory: its numbers by hand, and reports on variants that are unfair, drawish and endless.

Usage: python/tests/test_lab.py [TEST ..]      (VENGINE=FILE names another program than that of this repository)

The pictures are drawn by Debian's package python3-matplotlib; without it the tests that need them are skipped.
"""
import contextlib
import io
import json
import os
import shutil
import signal
import subprocess
import sys
import tempfile
import time
import unittest
from xml.etree import ElementTree

TOP = os.path.dirname(os.path.dirname(os.path.dirname(os.path.abspath(__file__))))
sys.path.insert(0, os.path.join(TOP, "python"))
from vengine import Engine  # noqa: E402
from vengine.lab import games, handicap, main, numbers, piece_words  # noqa: E402
from vengine.lab.games import Game  # noqa: E402
from vengine.lab.numbers import Share  # noqa: E402

try:
    import matplotlib
except ImportError:
    matplotlib = None

PROGRAM = os.environ.get("VENGINE", os.path.join(TOP, "vengine"))
START = "rnbqkbnr/pppppppp/8/8/8/8/PPPPPPPP/RNBQKBNR w KQkq - 0 1"
VARIANTS = """[unfair:chess]
startFen = rnb1kbnr/pppppppp/8/8/8/8/PPPPPPPP/RNBQKBNR w KQkq - 0 1
[drawish:chess]
nMoveRule = 5
startFen = 4k1n1/8/8/8/8/8/8/1N2K3 w - - 0 1
[endless:drawish]
nMoveRule = 0
nFoldRule = 0
"""


def game(number, plies, end, values=(), captures=(), checks=()):
    """A game of so many plies, with the values before its first plies and the plies, counted from 1, that take and check."""
    values = list(values) + [0] * (plies - len(values))
    return Game(number, ["e2e4" if number % 2 else "d2d4"] + ["e7e5"] * (plies - 1), end, START, values[:plies], [20] * plies,
                [int(ply in captures) for ply in range(1, plies + 1)], [int(ply in checks) for ply in range(1, plies + 1)], [0] * plies)


# Twenty games of 1 to 20 plies: White wins ten, Black five, three are drawn, two unfinished.
ENDS = ["won white checkmate"] * 10 + ["won black checkmate"] * 4 + ["won black extinction"] + ["drawn stalemate"] * 2 + ["drawn movecount"] + ["unfinished"] * 2
TWENTY = [game(i, i + 1, ENDS[i]) for i in range(20)]


class Numbers(unittest.TestCase):
    def near(self, share, value, low, high, count):
        self.assertEqual(share.total, count)
        for one, wanted in zip(share, (value, low, high)):
            self.assertAlmostEqual(one, wanted, places=3)

    def test_a_share_has_wilsons_interval(self):
        # p = 0.625, n = 20: (0.72104 -+ 1.96 * sqrt(0.01171875 + 0.002401)) / 1.19208.
        self.near(numbers.score_of(TWENTY, "white"), 0.625, 0.4095, 0.8002, 20)
        self.near(numbers.score_of(TWENTY, "black"), 0.375, 0.1998, 0.5905, 20)
        # Wilson at 0 of 10 and 10 of 10: 3.8415 / 13.8415 away from the end.
        self.near(numbers.share_of(0, 10), 0, 0, 0.2775, 10)
        self.near(numbers.share_of(10, 10), 1, 0.7225, 1, 10)
        self.assertEqual(numbers.share_of(0, 0), Share(None, None, None, 0))

    def test_the_numbers_of_twenty_games(self):
        told = numbers.numbers_of(TWENTY, "white")
        self.assertEqual((told["games"], told["won"], told["lost"]), (20, 10, 5))
        self.assertEqual(told["ends"], [("won white checkmate", 10), ("won black checkmate", 4), ("drawn stalemate", 2), ("unfinished", 2), ("drawn movecount", 1), ("won black extinction", 1)])
        self.assertEqual((told["drawn"]["value"], told["unfinished"]["value"]), (0.15, 0.1))
        self.assertEqual(told["length"], (5.75, 10.5, 15.25))
        self.assertEqual(told["branching"], 20)
        # Five games have 16 plies or more, and of less nothing is told.
        self.assertEqual([row[0] for row in told["branching by ply"]], list(range(1, 17)))
        self.assertEqual(told["decisiveness"]["total"], 0)
        self.assertEqual(told["lead changes"], 0)
        # Nobody is ever ahead by a pawn, so that the last ply decides.
        self.assertEqual(told["deciding change"], 1)
        # Of the ten games with e2e4 five are won and three count half, with d2d4 five and two.
        self.assertEqual([(row["move"], row["total"], row["value"]) for row in told["openings"]], [("e2e4", 10, 0.65), ("d2d4", 10, 0.6)])

    def test_leads(self):
        # White is ahead before ply 3 and 4, Black from ply 5 on, and wins.
        one = game(0, 6, "won black checkmate", [None, 99, 150, 150, -200, -250])
        self.assertEqual((one.leads, numbers.lead_changes(one), numbers.deciding_change(one)), ([0, 1, 1, -1, -1], 1, 4 / 6))
        # At half of its plies, before ply 4, White is ahead: it does not win.
        self.assertEqual(numbers.lead_at_half(one), 1)
        other = game(1, 4, "won white checkmate", [100, 100, 100, 100])
        self.assertEqual((numbers.lead_changes(other), numbers.deciding_change(other), numbers.lead_at_half(other)), (0, 0, 1))
        self.assertEqual(numbers.decisiveness([one, other, TWENTY[0]])[::3], (0.5, 2))
        self.assertIsNone(numbers.deciding_change(TWENTY[19]))
        back = game(2, 5, "drawn stalemate", [100, -100, 0, -100, 100])
        self.assertEqual(numbers.lead_changes(back), 2)

    def test_captures_and_checks(self):
        told = numbers.numbers_of([game(0, 8, "unfinished", captures={1, 5, 6}, checks={8})], "white")
        self.assertEqual((told["captures"]["value"], told["checks"]["value"]), (3 / 8, 1 / 8))
        self.assertEqual([(row[0], row[2]) for row in told["captures by ply"]], [(2, 0.25), (6, 0.5)])

    def test_verdicts(self):
        def said(games):
            return " ".join(word.split(":")[0] for word in numbers.verdicts(numbers.numbers_of(games, "white")))
        self.assertEqual(said([game(i, 9, "won white checkmate") for i in range(20)]), "Unfair")
        self.assertEqual(said([game(i, 9, "won black checkmate") for i in range(20)]), "Unfair")
        self.assertEqual(said([game(i, 9, "drawn stalemate") for i in range(20)]), "Drawish")
        self.assertEqual(said([game(i, 9, "unfinished") for i in range(20)]), "It hardly ends")
        self.assertIn("Nothing here", said(TWENTY))


class Worth(unittest.TestCase):
    def test_values_in_pawns(self):
        # Odds of 3 to 2 against a side without a pawn, of 9 to 1 without a queen: log 9 / log 1.5 = 5.419 pawns.
        scores = {"P": numbers.share_of(400, 1000), "Q": numbers.share_of(10, 100), "N": numbers.share_of(0, 100), "B": Share(None, None, None, 0)}
        rows = {row.letter: row for row in handicap.worths_of(scores, {"Q": 9.5}, "P")}
        self.assertEqual((rows["P"].value, rows["P"].note), (1.0, "the unit"))
        self.assertAlmostEqual(rows["Q"].value, 5.419, places=3)
        # The variances: 1 / (1000 * 0.24) of the pawn's weight 0.4055, 1 / (100 * 0.09) of the queen's 2.1972.
        self.assertAlmostEqual(rows["Q"].high - rows["Q"].value, 1.96 * (1 / 9 / 0.16440 + 2.19722**2 / 240 / 0.16440**2) ** 0.5, places=2)
        self.assertEqual(rows["Q"].own, 9.5)
        self.assertEqual((rows["N"].value, rows["N"].note), (None, "the side without it never won or drew"))
        self.assertEqual(rows["B"].note, "no game played")

    def test_what_is_not_told(self):
        few = {"P": numbers.share_of(4, 10), "Q": numbers.share_of(1, 10)}
        self.assertEqual({row.note for row in handicap.worths_of(few, {}, "P")}, {"these games do not tell a pawn from nothing"})
        self.assertEqual({row.note for row in handicap.worths_of({"Q": few["Q"]}, {}, None)}, {"there is no pawn to measure by"})

    def test_starts_without_a_piece(self):
        with Engine(PROGRAM) as engine:
            found = {(start.letter, start.side): start.fen for of_kind in handicap.starts_of(engine, "chess", START, "PRQ").values() for start in of_kind}
            self.assertEqual(found["Q", "black"], "rnb1kbnr/pppppppp/8/8/8/8/PPPPPPPP/RNBQKBNR w KQkq - 0 1")
            self.assertEqual(found["P", "white"], "rnbqkbnr/pppppppp/8/8/8/8/1PPPPPPP/RNBQKBNR w KQkq - 0 1")
            # The rook of the queen's side is gone, and the right to castle with it.
            self.assertEqual(found["R", "white"], "rnbqkbnr/pppppppp/8/8/8/8/PPPPPPPP/1NBQKBNR w Kkq - 0 1")
            self.assertEqual(handicap.starts_of(engine, "chess", START, "K"), {})


class Fens(unittest.TestCase):
    def test_ranks_are_read_and_written(self):
        for board in ("rnbqkbnr/pppppppp/8/8/8/8/PPPPPPPP/RNBQKBNR", "12/a10b/+p3+P~6", "4k1n1/8"):
            self.assertEqual(games.text_of_ranks(games.ranks_of(board + " w - - 0 1")), board)
        self.assertEqual(games.squares_of("a10B"), ["a", *[""] * 10, "B"])
        self.assertEqual(games.hand_of("8/8[QPp] w - - 0 1"), "QPp")
        self.assertEqual(games.men_of("4k1n1/8/8/8/8/8/8/1N2K2Q[q] w - - 0 1", "8/8 b - - 0 1"), 3)

    def test_kinds_of_rules(self):
        rules = {"pawn": "p", "king": "k:KN", "customPiece1": "w:CF", "queen": "q", "startFen": START, "maxRank": "8", "promotionPieceTypes": "q"}
        self.assertEqual([(kind.letter, kind.word) for kind in piece_words.kinds_of(rules)], [("K", "KN"), ("P", None), ("Q", "Q"), ("W", "CF")])


@unittest.skipIf(matplotlib is None, "no matplotlib: Debian's package python3-matplotlib is missing")
class Reports(unittest.TestCase):
    def setUp(self):
        self.room = tempfile.mkdtemp()
        self.addCleanup(shutil.rmtree, self.room, ignore_errors=True)
        self.file = os.path.join(self.room, "some.ini")
        with open(self.file, "w") as file:
            file.write(VARIANTS)

    def lab(self, *words, out="out", file=None):
        """The report of a command that ends with status 0."""
        said = io.StringIO()
        with contextlib.redirect_stdout(said):
            status = main.main([*([words[0]] if words[0] == "compare" else []), file or self.file, *words[words[0] == "compare":], "--out", os.path.join(self.room, out), "--program", PROGRAM])
        self.assertEqual(status, 0)
        with open(os.path.join(self.room, out, "report.json")) as file:
            return json.load(file)

    def text(self, name, out="out"):
        with open(os.path.join(self.room, out, name), newline="") as file:
            return file.read()

    def test_an_unfair_variant(self):
        report = self.lab("unfair", "--games", "20", "--random", "2", "--plies", "200", "--piece-games", "0")
        self.assertRegex(report["verdicts"][0], "^Unfair: the first player scores")
        self.assertGreater(report["numbers"]["score"]["low"], 0.55)

    def test_a_drawish_variant(self):
        report = self.lab("drawish", "--games", "12", "--piece-games", "2")
        self.assertRegex(" ".join(report["verdicts"]), "^Drawish: 100.0 % of the games are drawn")
        self.assertEqual(report["numbers"]["drawn"]["value"], 1)
        self.assertEqual([row["note"] for row in report["worth"]], ["there is no pawn to measure by"])
        self.assertEqual(report["perft"][:1], [report["start moves"]])

    def test_a_variant_that_never_ends(self):
        report = self.lab("endless", "--games", "12", "--plies", "40", "--piece-games", "0")
        self.assertRegex(" ".join(report["verdicts"]), "^It hardly ends: 100.0 % of the games were unfinished")
        self.assertEqual(report["numbers"]["length"], [40, 40, 40])
        self.assertIn('Termination "unfinished"', self.text("games.pgn"))

    def test_the_same_seed_gives_the_same_bytes(self):
        for out, jobs in (("one", "1"), ("three", "3")):
            self.lab("wizards", "--games", "20", "--plies", "60", "--piece-games", "1", "--jobs", jobs, out=out, file=os.path.join(TOP, "examples", "wizards.ini"))
        for name in ("games.pgn", "report.json", "report.html"):
            self.assertEqual(self.text(name, "one"), self.text(name, "three"))
        self.assertEqual(self.text("games.pgn", "one").count("[Event "), 20)
        self.lab("wizards", "--games", "20", "--plies", "60", "--piece-games", "1", "--seed", "2", out="two", file=os.path.join(TOP, "examples", "wizards.ini"))
        self.assertNotEqual(self.text("games.pgn", "one"), self.text("games.pgn", "two"))
        page = self.text("report.html", "one")
        self.assertNotRegex(page, r"<script|<link|src=|url\(http")
        for picture in page.split("<svg")[1:]:
            ElementTree.fromstring("<svg" + picture.partition("</svg>")[0] + "</svg>")

    def test_two_side_by_side(self):
        reports = self.lab("compare", "drawish", "drawish@1", "--games", "4", "--plies", "20", "--piece-games", "0")
        self.assertEqual([report["depth"] for report in reports], [2, 1])
        self.assertEqual(self.text("report.html").count("<h1>drawish</h1>"), 2)

    def test_a_cut_keeps_what_was_played(self):
        words = ["lab", self.file, "endless", "--games", "120", "--plies", "60", "--piece-games", "0", "--out", os.path.join(self.room, "cut"), "--program", PROGRAM, "--jobs", "2"]
        process = subprocess.Popen([sys.executable, "-m", "vengine", *words], env={**os.environ, "PYTHONPATH": os.path.join(TOP, "python")}, stderr=subprocess.PIPE, text=True)
        journal = os.path.join(self.room, "cut", "games.journal")
        end = time.monotonic() + 60
        while time.monotonic() < end and not (os.path.exists(journal) and os.path.getsize(journal)):
            time.sleep(0.05)
        process.send_signal(signal.SIGINT)
        error = process.communicate(timeout=60)[1]
        self.assertEqual((process.returncode, error.splitlines()[-1]), (main.CUT, f"lab: cut; --resume goes on with what {self.room}/cut has"))
        with open(journal) as file:
            kept = len(file.read().splitlines())
        self.assertGreater(kept, 0)
        report = self.lab("endless", "--games", "120", "--plies", "60", "--piece-games", "0", "--resume", out="cut")
        self.assertEqual(report["numbers"]["games"], 120)
        with open(journal) as file:
            self.assertEqual(len(file.read().splitlines()), 12)

    def test_what_is_refused(self):
        error = io.StringIO()
        with contextlib.redirect_stderr(error):
            self.assertEqual(main.main([self.file, "nothing", "--out", os.path.join(self.room, "no"), "--program", PROGRAM]), main.FAILED)
            self.assertEqual(main.main(["-", "chess@0", "--out", os.path.join(self.room, "no"), "--program", PROGRAM]), main.FAILED)
        self.assertRegex(error.getvalue(), "lab: .*UnknownVariant.*\nlab: no depth: chess@0\n")


if __name__ == "__main__":
    unittest.main()
