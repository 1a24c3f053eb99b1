#!/usr/bin/env python3
"""Tests of the package over the real program, and over programs that fail.

Usage: python/tests/test_vengine.py [TEST ..]      (VENGINE=FILE names another program than that of this repository, which is built where it has to be)

Expected values are those of the pages, of published counts, and of Fairy-Stockfish's Python module pyffish, where it can be imported; where
it is missing, that part is skipped. The examples of docs/CLIENT.md are run too.
"""
import contextlib
import os
import random
import re
import signal
import subprocess
import sys
import tempfile
import threading
import time
import unittest
from concurrent.futures import ThreadPoolExecutor

sys.path.insert(0, os.path.join(os.path.dirname(os.path.abspath(__file__)), ".."))
from vengine import (FEN_OK, VALUE_DRAW, VALUE_MATE, BadInput, Busy, Ended, Engine, Fault, Info, Key, Lines, NotOver, Referee, Result, Section, TimedOut,
                     Unsupported, __version__, find_program, nodes_of)

try:
    import pyffish
except ImportError:
    pyffish = None

TOP = os.path.abspath(os.path.join(os.path.dirname(os.path.abspath(__file__)), "..", ".."))
PROGRAM = find_program()
FOOLS_MATE = ["f2f3", "e7e5", "g2g4", "d8h4"]
MATE_IN_TWO = "7k/R7/5K2/8/8/8/8/8 w - - 0 1"
START = "rnbqkbnr/pppppppp/8/8/8/8/PPPPPPPP/RNBQKBNR w KQkq - 0 1"
VARIANTS = "chess crazyhouse 3check kingofthehill antichess extinction losalamos capablanca seirawan xiangqi".split()
# So long may what is answered at once take on a busy machine.
AT_ONCE = 1.0


def setUpModule():
    # The launcher builds the program first, for which no test has the time.
    subprocess.run([PROGRAM, "reach", "W", "a1"], stdout=subprocess.DEVNULL, check=True)


def example(name):
    return os.path.join(TOP, "examples", name)


def is_running(pid):
    try:
        with open(f"/proc/{pid}/stat") as file:
            return file.read().rpartition(")")[2].split()[0] != "Z"
    except FileNotFoundError:
        return False


def is_gone(pid, seconds=5.0):
    end = time.monotonic() + seconds
    while is_running(pid) and time.monotonic() < end:
        time.sleep(0.01)
    return not is_running(pid)


class Case(unittest.TestCase):
    def fault(self, words, call, *given, **named):
        """The call is refused by this fault."""
        with self.assertRaises(Fault) as caught:
            call(*given, **named)
        self.assertEqual(caught.exception.text, words)
        return caught.exception

    def at_once(self, kind, call):
        """The call raises that and does not wait."""
        begun = time.monotonic()
        with self.assertRaises(kind):
            call()
        self.assertLess(time.monotonic() - begun, AT_ONCE)


class EngineCase(Case):
    """A test with a session of its own."""

    def setUp(self):
        self.engine = Engine(PROGRAM)
        self.addCleanup(self.engine.close)


class Games(EngineCase):
    def test_the_start_of_chess(self):
        at = self.engine.position("chess")
        self.assertEqual(at.fen, START)
        pawns = [f"{file}2{file}{rank}" for file in "abcdefgh" for rank in "34"]
        self.assertEqual(at.moves, sorted(pawns + ["b1a3", "b1c3", "g1f3", "g1h3"]))
        self.assertEqual(at.result, Result(None, None))
        self.assertFalse(at.result.is_over)
        self.assertEqual(at.result.score, "*")

    def test_results_with_their_causes(self):
        rows = [
            ("chess", "startpos", FOOLS_MATE, Result("black", "checkmate"), "0-1"),
            ("chess", "7k/8/6Q1/8/8/8/8/K7 b - - 0 1", [], Result(None, "stalemate"), "1/2-1/2"),
            ("chess", "startpos", ["g1f3", "g8f6", "f3g1", "f6g8"] * 2, Result(None, "repetition"), "1/2-1/2"),
            ("chess", "7k/8/5K2/8/8/8/8/R7 w - - 99 80", ["f6e6"], Result(None, "movecount"), "1/2-1/2"),
            ("kingofthehill", "4k3/8/8/8/3K4/8/8/8 w - - 0 1", ["d4e4"], Result("white", "flag"), "1-0"),
            ("3check", "4k3/8/8/8/8/8/8/R3K3 w - - 1+3 0 1", ["a1a8"], Result("white", "checks"), "1-0"),
            ("antichess", "8/8/8/8/8/8/1p6/K7 w - - 0 1", ["a1b2"], Result("black", "extinction"), "0-1"),
        ]
        for variant, fen, moves, result, score in rows:
            with self.subTest(variant=variant, fen=fen):
                self.assertEqual(self.engine.result(variant, fen, moves), result)
                self.assertEqual(result.score, score)
                self.assertEqual(self.engine.position(variant, fen, moves).result, result)

    def test_a_fen_after_moves(self):
        moves = ["e2e4", "d7d5", "e4d5", "g8f6"]
        self.assertEqual(self.engine.get_fen("crazyhouse", moves=moves), "rnbqkb1r/ppp1pppp/5n2/3P4/8/8/PPPP1PPP/RNBQKBNR[P] w KQkq - 1 3")
        self.assertIn("P@e4", self.engine.legal_moves("crazyhouse", moves=moves))

    def test_published_counts(self):
        rows = [("chess", START, 3, 8902), ("chess", "r3k2r/p1ppqpb1/bn2pnp1/3PN3/1p2P3/2N2Q1p/PPPBBPPP/R3K2R w KQkq - 0 1", 3, 97862),
                ("xiangqi", "startpos", 3, 79666), ("capablanca", "startpos", 2, 784)]
        for variant, fen, plies, count in rows:
            with self.subTest(variant=variant, fen=fen):
                self.assertEqual(self.engine.perft(variant, fen, plies=plies), count)

    def test_a_game_that_is_named_twice(self):
        for _ in range(2):
            self.assertEqual(self.engine.result("chess", "startpos", FOOLS_MATE).winner, "black")
            self.assertEqual(self.engine.start_fen("xiangqi")[:9], "rnbakabnr")

    def test_what_the_one_shot_commands_say(self):
        chance = random.Random(1)
        for variant in VARIANTS:
            moves = []
            for _ in range(5):
                at = self.engine.position(variant, moves=moves)
                text = f"{variant}\nstartpos\n{' '.join(moves)}\n"
                self.assertEqual([*at.moves, f"moves {len(at.moves)}"], self.engine.command("moves", text=text).splitlines())
                self.assertEqual(at.fen, self.engine.command("status", text=text).splitlines()[1])
                moves.append(chance.choice(at.moves))


class Checks(EngineCase):
    def setUp(self):
        super().setUp()
        try:
            self.engine.checkers("chess")
            self.engine.version()
        except Unsupported as error:
            self.skipTest(f"this program is of before 1.0.0: {error}")

    def test_the_pieces_that_give_check(self):
        rows = [("chess", "startpos", FOOLS_MATE, ["h4"]), ("chess", "startpos", FOOLS_MATE[:3], []),
                ("chess", "4k3/8/5N2/8/8/8/8/K3R3 b - - 0 1", [], ["e1", "f6"]),
                ("xiangqi", "4k4/9/9/9/9/4P4/9/9/9/3KC4 b - - 0 1", [], ["e1"]), ("xiangqi", "4k4/9/9/9/9/9/9/9/9/3KC4 b - - 0 1", [], []),
                ("antichess", "startpos", FOOLS_MATE, [])]
        referee = Referee(library="", program=PROGRAM)
        for variant, fen, moves, squares in rows:
            with self.subTest(variant=variant, fen=fen):
                self.assertEqual(self.engine.checkers(variant, fen, moves), squares)
                self.assertEqual(self.engine.gives_check(variant, fen, moves), squares != [])
                self.assertEqual(referee.checkers(variant, fen, moves), squares)
        self.fault("PositionFault 2 BadMove 1 e2e5", self.engine.checkers, "chess", "startpos", ["e2e5"])

    def test_the_version(self):
        self.assertEqual(".".join(map(str, self.engine.version())), __version__)
        self.assertEqual(self.engine.info(), f"vengine {__version__}")
        self.assertEqual(Referee(library="", program=PROGRAM).version(), self.engine.version())


class Captures(EngineCase):
    def test_captures_and_other_moves(self):
        opened = ["e2e4", "d7d5"]
        rows = [("chess", "startpos", opened, "e4d5", True), ("chess", "startpos", opened, "e4e5", False),
                ("chess", "startpos", ["e2e4", "a7a6", "e4e5", "d7d5"], "e5d6", True),
                ("chess", "1n2k3/P7/8/8/8/8/8/4K3 w - - 0 1", [], "a7b8q", True), ("chess", "1n2k3/P7/8/8/8/8/8/4K3 w - - 0 1", [], "a7a8q", False),
                ("chess", "r3k2r/8/8/8/8/8/8/R3K2R b KQkq - 0 1", [], "e8g8", False), ("chess", "r3k2r/8/8/8/8/8/8/R3K2R b KQkq - 0 1", [], "a8a1", True),
                ("crazyhouse", "startpos", [*opened, "e4d5"], "d8d5", True), ("crazyhouse", "startpos", [*opened, "e4d5", "d8d5"], "P@d6", False)]
        for variant, fen, moves, move, is_one in rows:
            with self.subTest(variant=variant, fen=fen, move=move):
                self.assertEqual(self.engine.is_capture(variant, fen, moves, move), is_one)
        self.fault("PositionFault 2 BadMove 3 e4e6", self.engine.is_capture, "chess", "startpos", opened, "e4e6")


class Faults(EngineCase):
    def test_a_refused_game(self):
        fault = self.fault("PositionFault 2 BadMove 3 e4e5", self.engine.legal_moves, "chess", "startpos", ["e2e4", "e7e5", "e4e5"])
        self.assertEqual((fault.name, fault.number, fault.variant, fault.fields), ("PositionFault", 2, "BadMove", ("3", "e4e5")))
        self.assertIsNone(fault.inner)
        fault = self.fault("PositionFault 1 BadFen FenFault 2 Rank", self.engine.result, "chess", "k7/8 w - - 0 1")
        self.assertEqual((fault.inner.name, fault.inner.number, fault.inner.variant), ("FenFault", 2, "Rank"))
        self.fault("OptionFault 2 UnknownVariant nobody", self.engine.position, "nobody")

    def test_every_question_is_refused(self):
        bad = ("chess", "startpos", ["e2e5"])
        for call in (self.engine.position, self.engine.legal_moves, self.engine.result, self.engine.get_fen, self.engine.perft,
                     self.engine.mate, self.engine.game_result, self.engine.is_optional_game_end, self.engine.start):
            with self.subTest(call=call.__name__):
                self.fault("PositionFault 2 BadMove 1 e2e5", call, *bad)
        self.fault("PositionFault 2 BadMove 1 e2e5", self.engine.go, *bad, depth=1)

    def test_what_comes_after_a_refusal(self):
        self.engine.legal_moves("xiangqi")
        with self.assertRaises(Fault):
            self.engine.legal_moves("chess", "8/8/8/8/8/8/8/8 w - - 0 1")
        self.assertEqual(self.engine.perft("xiangqi"), 44)
        with self.assertRaises(Fault):
            self.engine.legal_moves("nobody", "startpos", ["e2e4"])
        self.assertEqual(self.engine.perft("chess"), 20)

    def test_each_form_of_a_fault(self):
        rows = [
            ("SectionFault 6 BadPiece customPiece1 BetzaFault 6 AmbiguousDirection 0", ("customPiece1",), "BetzaFault 6 AmbiguousDirection 0"),
            ("SectionFault 9 Inconsistent 1", ("1",), None),
            ("GameFault 3 RefusedVariant SectionFault 8 BadStart FenFault 7 Rights", (), "SectionFault 8 BadStart FenFault 7 Rights"),
            ("StrategyFault 3 BadPosition 7 FenFault 1 Length", ("7",), "FenFault 1 Length"),
            ("ProofFault 6 BadBody StrategyFault 5 BadNumber 21", (), "StrategyFault 5 BadNumber 21"),
            ("Verdict 3 MissingReply 1 h8g8", ("1", "h8g8"), None),
            ("OptionFault 2 UnknownVariant FenFault 1 Length", ("FenFault", "1", "Length"), None),
        ]
        for text, fields, inner in rows:
            with self.subTest(text=text):
                fault = Fault(text)
                self.assertEqual((fault.fields, fault.inner and fault.inner.text), (fields, inner))

    def test_the_commands_of_other_programs(self):
        with self.assertRaises(Unsupported):
            self.engine.command("nonsense")
        self.fault("ReachFault 1 BadSquare i9", self.engine.reach, "N", "i9")
        self.fault("GameFault 2 UnknownVariant nobody", self.engine.command, "moves", text="nobody\nstartpos\n")


class Files(EngineCase):
    def test_the_variants_of_a_file(self):
        with Engine(PROGRAM, variants=example("gardner.ini")) as engine:
            self.assertEqual(engine.variants(), [*VARIANTS, "gardner", "wizards"])
            self.assertEqual(len(engine.legal_moves("wizards", "rnbqk/p1ppp/p4/1PPPP/RNBQK w - - 0 2")), 9)
            self.assertEqual(engine.sections()[-1], Section("wizards", None))
        self.assertEqual(self.engine.variants(), VARIANTS)
        self.engine.load(example("gardner.ini"))
        self.assertEqual(self.engine.start_fen("gardner"), "rnbqk/ppppp/5/PPPPP/RNBQK w - - 0 1")

    def test_the_faults_of_sections(self):
        self.engine.load(example("faults.ini"))
        refused = [(section.name, section.fault.text) for section in self.engine.sections() if section.fault]
        self.assertEqual(len(refused), 13)
        self.assertIn(("sixth", "SectionFault 6 BadPiece customPiece1 BetzaFault 6 AmbiguousDirection 0"), refused)
        self.assertEqual(self.engine.variants(), VARIANTS)
        self.fault("SectionFault 9 Inconsistent 5", self.engine.position, "thirteenth")

    def test_a_refused_file_changes_nothing(self):
        self.engine.load(example("gardner.ini"))
        self.fault("FileFault 1 Missing", self.engine.load, "/nonexistent")
        self.fault("IniFault 4 NoSection 1", self.engine.load_variant_config, "maxRank = 8\n")
        self.assertEqual(self.engine.perft("gardner"), 7)
        self.assertEqual(self.engine.sections()[-1].name, "wizards")

    def test_a_file_that_is_refused_at_the_start(self):
        self.fault("FileFault 1 Missing", Engine, PROGRAM, variants="/nonexistent")
        self.fault("FileFault 3 Failed", Engine, PROGRAM, variants="/")

    def test_variants_of_a_text(self):
        self.engine.load_variant_config("[small:chess]\nmaxRank = x\n[forty:chess]\nnMoveRule = 40\n")
        self.assertEqual(self.engine.variants(), [*VARIANTS, "forty"])
        self.assertEqual(self.engine.sections()[-2].fault.fields, ("maxRank",))
        self.engine.load_variant_config("[thirty:chess]\nnMoveRule = 30\n")
        self.assertEqual(self.engine.variants(), [*VARIANTS, "thirty"])
        self.fault("GameFault 2 UnknownVariant forty", self.engine.command, "moves", text="forty\nstartpos\n")

    def test_the_rules_of_a_variant(self):
        hill = self.engine.rules("kingofthehill")
        self.assertEqual(list(hill), sorted(hill))
        self.assertEqual((hill["king"], hill["flagPiece"], hill["flagRegionBlack"]), ("k", "k", "d4 e4 d5 e5"))
        self.assertNotIn("king", self.engine.rules("antichess"))
        self.engine.load_variant_config("[own:chess]\ncustomPiece1 = w:CF\nknight = -\n[none:chess]\nmaxRank = x\n")
        self.fault("GameFault 3 RefusedVariant SectionFault 8 BadStart FenFault 3 Letter", self.engine.rules, "own")
        self.fault("GameFault 3 RefusedVariant SectionFault 5 BadValue maxRank", self.engine.rules, "none")
        self.fault("GameFault 2 UnknownVariant nobody", self.engine.rules, "nobody")
        for name in ("", "two words", "-x", "--variants=x", "a\nb"):
            self.assertRaises(BadInput, self.engine.rules, name)

    def test_rules_below_a_header_are_the_variant(self):
        for name in VARIANTS:
            with self.subTest(variant=name):
                rules = self.engine.rules(name)
                self.engine.load_variant_config("[again]\n" + "".join(f"{key} = {value}\n" for key, value in rules.items()))
                self.assertEqual(self.engine.rules("again"), rules)
                self.assertEqual(self.engine.position("again"), self.engine.position(name))

    def test_names_of_files(self):
        with tempfile.TemporaryDirectory() as folder:
            for name, is_told in (("a b.ini", True), ("ä.ini", True), ("a  b.ini", False), ("a\nb.ini", False), ("a.ini ", False)):
                path = os.path.join(folder, name)
                with open(path, "w") as file:
                    file.write("[own:chess]\n")
                with self.subTest(name=name):
                    if is_told:
                        self.engine.load(path)
                        self.assertEqual(self.engine.variants()[-1], "own")
                    else:
                        self.assertRaises(BadInput, self.engine.load, path)
                    with Engine(PROGRAM, variants=path) as other:
                        self.assertEqual(other.variants()[-1], "own")


class Searches(EngineCase):
    def test_limits(self):
        legal = self.engine.legal_moves("chess")
        rows = [{"depth": 3}, {"nodes": 2000}, {"movetime": 50}, {"wtime": 300, "btime": 300, "winc": 10, "binc": 10, "movestogo": 20},
                {"depth": 2, "movetime": 10000}]
        for limits in rows:
            with self.subTest(limits=limits):
                found = self.engine.go("chess", **limits)
                self.assertIn(found.best, legal)
                self.assertFalse(found.is_stopped)
                self.assertEqual([info.depth for info in found.infos], list(range(1, len(found.infos) + 1)))
        # as docs/UCI.md has it
        self.assertEqual(self.engine.go("chess", moves=["e2e4", "e7e5"], depth=2).infos, [Info(1, 12, None, "b1c3"), Info(2, 0, None, "b1c3")])

    def test_some_moves_alone(self):
        self.assertEqual(self.engine.go("chess", depth=2, searchmoves=["h2h4"]).best, "h2h4")

    def test_a_game_that_is_over(self):
        self.assertIsNone(self.engine.go("chess", "startpos", FOOLS_MATE, depth=2).best)

    def test_a_search_until_it_is_stopped(self):
        search = self.engine.start("chess")
        self.assertEqual(next(iter(search)).depth, 1)
        self.assertFalse(search.wait(0.2))
        for call in (lambda: self.engine.legal_moves("chess"), lambda: self.engine.go("chess", depth=1), self.engine.strategy,
                     lambda: self.engine.start("chess"), lambda: self.engine.load(example("mini.ini"))):
            self.at_once(Busy, call)
        found = search.stop()
        self.assertTrue(found.is_stopped and search.is_over)
        self.assertIn(found.best, self.engine.legal_moves("chess"))
        self.assertEqual(search.stop(), found)

    def test_depths_as_they_come(self):
        search = self.engine.start("chess", depth=3)
        self.assertEqual([info.depth for info in search], [1, 2, 3])
        self.assertTrue(search.wait(0))

    def test_a_search_that_ends_by_itself(self):
        search = self.engine.start("chess", depth=1)
        self.assertTrue(search.wait(10))
        self.assertEqual(len(self.engine.legal_moves("chess")), 20)

    def test_a_stop_by_another_thread(self):
        search = self.engine.start("chess")
        timer = threading.Timer(0.3, search.halt)
        timer.start()
        begun = time.monotonic()
        self.assertTrue(search.wait(10))
        self.assertLess(time.monotonic() - begun, 5)
        timer.join()

    def test_a_late_stop_spares_the_next_search(self):
        search = self.engine.start("chess", depth=1)
        search.wait()
        after = self.engine.start("chess")
        search.halt()
        self.assertFalse(after.wait(0.3))
        after.stop()

    def test_many_threads_wait_for_one_search(self):
        search = self.engine.start("chess", depth=4)
        with ThreadPoolExecutor(8) as pool:
            heard = list(pool.map(lambda _: [info.depth for info in search], range(8)))
        self.assertEqual(heard, [[1, 2, 3, 4]] * 8)

    def test_a_search_that_takes_too_long_is_stopped(self):
        found = self.engine.go("chess", depth=64, timeout=0.3)
        self.assertTrue(found.is_stopped)
        self.assertIn(found.best, self.engine.legal_moves("chess"))

    def test_options(self):
        for name, value in (("Threads", 2), ("Hash", 1), ("MateFacts", 16)):
            self.engine.set_option(name, value)
        self.fault("OptionFault 1 BadValue Threads", self.engine.set_option, "Threads", 65)
        self.assertRaises(BadInput, self.engine.set_option, "Threads", "1 value 2")
        self.assertRaises(BadInput, self.engine.set_option, "Skill", 1)
        with Engine(PROGRAM, threads=2) as engine:
            self.assertEqual(engine.go("chess", depth=2).infos[-1].points, 0)


class Mates(EngineCase):
    def test_a_mate_with_its_strategy(self):
        mate = self.engine.mate("chess", MATE_IN_TWO, within=3)
        self.assertEqual((mate.answer, mate.moves, mate.first), ("mate", 2, "f6g6"))
        self.assertEqual(self.engine.strategy(), mate.strategy)
        with Engine(PROGRAM) as other:
            self.assertTrue(other.check(mate.strategy))
        nodes = nodes_of(mate.strategy)
        self.assertEqual((nodes[0].rank, nodes[0].fen, list(nodes[0].edges)), (2, MATE_IN_TWO, ["f6g6"]))
        reply = nodes[nodes[0].edges["f6g6"]]
        self.assertEqual(list(reply.edges), ["h8g8"])
        self.assertEqual(list(nodes[reply.edges["h8g8"]].edges), ["a7a8"])

    def test_no_mate(self):
        self.assertEqual(self.engine.mate("chess", MATE_IN_TWO, within=1).answer, "none")
        self.assertIsNone(self.engine.strategy())
        self.assertEqual(self.engine.mate("chess", "startpos", FOOLS_MATE, within=1).answer, "over")
        self.assertEqual(self.engine.mate("chess", within=9, timeout=0.3).answer, "stopped")

    def test_an_unsettled_mate(self):
        self.engine.load(example("tight.ini"))
        mate = self.engine.mate("tight", "5/1P1K1/5/1k3/5 w - - 6 30", within=4)
        self.assertEqual((mate.answer, mate.note), ("unsettled", "mate unsettled 5/5/3K1/5/1Q1k1 b - - 4 1 4 2"))

    def test_a_search_announces_a_mate(self):
        found = self.engine.go("chess", "6k1/8/R7/1R6/8/8/8/6K1 b - - 0 1", depth=4)
        self.assertEqual(found.infos[-1], Info(4, None, -2, "g8f7"))
        self.assertTrue(self.engine.check(self.engine.strategy()))

    def test_spoilt_strategies(self):
        text = self.engine.mate("chess", MATE_IN_TWO, within=2).strategy
        self.fault("Verdict 1 Root", self.engine.check, text.replace("goal white 2", "goal white 1"))
        fault = self.fault("ProofFault 3 RefusedRules SectionFault 7 LetterTwice q", self.engine.check, text.replace("rook = r", "rook = q"))
        self.assertEqual(fault.inner.fields, ("q",))
        self.fault("GameFault 1 Missing 2", self.engine.check, "chess")

    def test_a_problem_with_a_strategy(self):
        text = ["chess", MATE_IN_TWO, "", "mate white 2", "strategy 1"]
        text += self.engine.mate("chess", MATE_IN_TWO, within=2).strategy.partition("goal white 2\n")[2].splitlines()
        self.assertTrue(self.engine.check("\n".join(text) + "\n"))
        self.fault("GameFault 7 BadGoal 4", self.engine.check, "\n".join(text[:3] + ["mate white"] + text[4:]))

    def test_where_a_piece_goes(self):
        self.assertEqual(self.engine.reach("N", "b1"), (["d2", "a3", "c3"], []))
        self.assertEqual(self.engine.reach("mRcpR", "a1", ["a4"], ["a7"])[1], ["a7"])

    def test_every_first_move_that_wins(self):
        self.assertEqual(self.engine.keys("chess", MATE_IN_TWO, within=2), [Key("f6g6", 2)])
        self.assertEqual(self.engine.keys("chess", MATE_IN_TWO), [])
        self.assertEqual(self.engine.keys("chess", "6k1/8/R7/1R6/8/8/8/6K1 w - - 0 1", within=2), [Key("a6a7", 2), Key("b5b7", 2)])
        self.assertEqual(self.engine.keys("chess", "startpos", FOOLS_MATE[:-1]), [Key("d8h4", 1)])
        self.fault("KeysFault 1 NearCount", self.engine.keys, "chess", "7k/R7/5K2/8/8/8/8/8 w - - 98 80", within=2)
        self.fault("KeysFault 2 Ended", self.engine.keys, "chess", "startpos", FOOLS_MATE)
        self.fault("GameFault 5 BadMove 2 e2e5", self.engine.keys, "chess", "startpos", ["e2e4", "e2e5"])
        for within in (0, 21, "2", None):
            self.assertRaises(BadInput, self.engine.keys, "chess", within=within)
        for fen, moves in (("a\nb", []), ("startpos", "e2e4"), ("startpos", ["e2e4\ne7e5"])):
            self.assertRaises(BadInput, self.engine.keys, "chess", fen, moves)

    def test_first_moves_beside_a_search(self):
        search = self.engine.start("chess")
        self.assertEqual(self.engine.keys("chess", MATE_IN_TWO, within=2), [Key("f6g6", 2)])
        self.assertEqual(self.engine.rules("chess")["king"], "k")
        search.stop()
        self.at_once(TimedOut, lambda: self.engine.keys("chess", within=8, timeout=0.2))
        self.assertEqual(len(self.engine.legal_moves("chess")), 20)


class Hostile(Case):
    """What would say something else to the session than what it is given for never comes to it."""

    BAD = ["\n", "a\nquit", "a\rb", "a\0b", "a\tb", "ä", "a\x7f", "a\u2028b", "\udc80", 7, None, b"a"]

    def setUp(self):
        folder = tempfile.TemporaryDirectory()
        self.addCleanup(folder.cleanup)
        self.heard, self.wrapper = os.path.join(folder.name, "heard"), os.path.join(folder.name, "wrapper")
        with open(self.wrapper, "w") as file:
            file.write(f'#!/bin/sh\ntee -a {self.heard} | {PROGRAM} "$@"\n')
        os.chmod(self.wrapper, 0o755)
        self.engine = Engine(self.wrapper)
        self.addCleanup(self.engine.close)
        self.engine.legal_moves("xiangqi", moves=["b1c3"])
        self.before = self.lines()

    def lines(self):
        with open(self.heard, "rb") as file:
            return file.read()

    def refused(self, call, *given, **named):
        with self.subTest(call=call.__name__, given=given, named=named):
            self.assertRaises(BadInput, call, *given, **named)
            self.assertEqual(self.lines(), self.before)

    def test_games(self):
        engine = self.engine
        for bad in self.BAD:
            for call in (engine.position, engine.legal_moves, engine.result, engine.get_fen, engine.perft, engine.mate, engine.start,
                         engine.game_result, engine.is_immediate_game_end):
                self.refused(call, bad)
                self.refused(call, "chess", bad)
                self.refused(call, "chess", "startpos", ["e2e4", bad])
            self.refused(engine.go, "chess", bad, depth=1)
            self.refused(engine.start_fen, bad)

    def test_blanks_and_words(self):
        engine = self.engine
        for variant in ("", " ", "chess ", "a b"):
            self.refused(engine.legal_moves, variant)
        for fen in (" " + START, START + " ", START.replace(" ", "  ", 1), START + " moves e2e4", "moves"):
            self.refused(engine.legal_moves, "chess", fen)
        for moves in ("e2e4", "e2e4 e7e5", [""], ["e2e4 e7e5"], [" e2e4"], [["e2e4"]]):
            self.refused(engine.legal_moves, "chess", "startpos", moves)

    def test_limits(self):
        for limits in ({}, {"depth": 0}, {"depth": 65}, {"depth": "3"}, {"depth": True}, {"depth": 2.0}, {"nodes": -1}, {"nodes": 2**64}, {"wtime": 1},
                       {"btime": 1}, {"wtime": -1, "btime": 1}, {"movetime": None}, {"infinite": True}, {"ponder": 1}, {"mate": 101}):
            self.refused(self.engine.go, "chess", **limits)
        for plies in (0, 10, "1", True):
            self.refused(self.engine.perft, "chess", plies=plies)
        for move in ("depth", "infinite", "e2e4 depth 9", "e2e4\nquit", "", 3, "E2E4", "p@e4"):
            self.refused(self.engine.go, "chess", depth=1, searchmoves=[move])

    def test_long_lines(self):
        self.refused(self.engine.legal_moves, "x" * 200_000)
        self.refused(self.engine.legal_moves, "chess", "8/" * 100_000)
        self.refused(self.engine.legal_moves, "chess", "startpos", ["a1a2"] * 40_000)

    def test_what_the_program_itself_refuses(self):
        engine = self.engine
        self.fault("PositionFault 1 BadFen FenFault 1 Length", engine.legal_moves, "chess", "8/" * 1_000)
        self.fault("PositionFault 1 BadFen FenFault 1 Length", engine.legal_moves, "chess", "")
        self.fault("PositionFault 2 BadMove 1 moves", engine.legal_moves, "chess", "startpos", ["moves"])
        self.fault("PositionFault 2 BadMove 2 " + "x" * 1_000, engine.legal_moves, "chess", "startpos", ["e2e4", "x" * 1_000])
        self.fault("OptionFault 2 UnknownVariant value", engine.legal_moves, "value")
        self.fault("PositionFault 3 TooManyMoves", engine.legal_moves, "chess", "startpos", (["g1f3", "g8f6", "f3g1", "f6g8"] * 2049)[:8193])
        self.assertEqual(engine.perft("chess"), 20)

    def test_words_of_commands(self):
        for words in (("N\0", "b1"), ("N", "b1\n"), ("N N", "b1"), ("", "b1"), ("N", "")):
            self.refused(self.engine.reach, *words)
        for words in (("-", "b1"), ("-N", "b1"), ("--threads=2", "b1"), ("N", "-a"), ("N", "b1", ["-a"]), ("N", "b1", [], ["-a"])):
            self.refused(self.engine.reach, *words)
        self.refused(self.engine.reach, "N", "b1", ["a1,a2 a3"])
        self.refused(self.engine.command, "moves", text="\ud800")
        self.refused(self.engine.command, "a\0b")
        self.refused(self.engine.load_variant_config, "\ud800")
        self.refused(self.engine.load, "a\nb")

    def test_texts_of_strategies(self):
        for text in ("", "\n", "\0", "strategy 2", "strategy 2\n" * 1000, "ä", "x" * 300_000):
            with self.subTest(text=text[:20]):
                self.assertRaises(Fault, self.engine.check, text)


class Ends(Case):
    """A process that ends, or that never answers."""

    def script(self, text):
        file = tempfile.NamedTemporaryFile("w", delete=False)
        self.addCleanup(os.unlink, file.name)
        with file:
            file.write("#!/bin/sh\n" + text)
        os.chmod(file.name, 0o755)
        return file.name

    def all_end(self, engine, also=()):
        """Every call raises Ended, and does not wait."""
        game = ("chess", "startpos", ["e2e4"])
        for call in (engine.position, engine.legal_moves, engine.result, engine.get_fen, engine.perft, engine.mate, engine.start,
                     engine.game_result, engine.is_immediate_game_end, engine.is_optional_game_end):
            with self.subTest(call=call.__name__):
                self.at_once(Ended, lambda: call(*game))
        rest = [lambda: engine.go(*game, depth=1), engine.strategy, lambda: engine.start_fen("chess"), lambda: engine.validate_fen(START, "chess"),
                lambda: engine.load(example("mini.ini")), lambda: engine.load_variant_config("[a]"), lambda: engine.set_option("Hash", 1)]
        for call in (*rest, *also):
            self.at_once(Ended, call)

    def test_a_killed_process(self):
        with Engine(PROGRAM) as engine:
            engine.legal_moves("chess")
            os.kill(engine.pid, signal.SIGKILL)
            self.all_end(engine)
            with self.assertRaises(Ended) as caught:
                engine.legal_moves("chess")
            self.assertEqual(caught.exception.status, -signal.SIGKILL)

    def test_a_process_that_is_killed_in_a_search(self):
        with Engine(PROGRAM) as engine:
            search = engine.start("chess")
            threading.Timer(0.3, os.kill, (engine.pid, signal.SIGKILL)).start()
            begun = time.monotonic()
            self.assertRaises(Ended, search.wait, 60)
            self.assertLess(time.monotonic() - begun, 5)
            self.all_end(engine, [search.wait, search.stop, lambda: list(search)])
        for call in (lambda engine: engine.go("chess", depth=64), lambda engine: engine.mate("chess", within=9),
                     lambda engine: engine.perft("chess", plies=9)):
            with Engine(PROGRAM) as engine:
                threading.Timer(0.3, os.kill, (engine.pid, signal.SIGKILL)).start()
                begun = time.monotonic()
                self.assertRaises(Ended, call, engine)
                self.assertLess(time.monotonic() - begun, 5)

    def test_a_closed_session(self):
        engine = Engine(PROGRAM)
        pid = engine.pid
        engine.close()
        engine.close()
        self.assertFalse(is_running(pid))
        self.all_end(engine)

    def test_a_session_that_is_closed_by_another_thread(self):
        for call in (lambda engine: engine.start("chess").wait(), lambda engine: engine.go("chess", depth=64)):
            engine = Engine(PROGRAM)
            threading.Timer(0.3, engine.close).start()
            begun = time.monotonic()
            with contextlib.suppress(Ended):
                call(engine)
            self.assertLess(time.monotonic() - begun, 10)
            self.assertTrue(is_gone(engine.pid))

    def test_a_stopped_process(self):
        with Engine(PROGRAM, timeout=0.5) as engine:
            os.kill(engine.pid, signal.SIGSTOP)
            begun = time.monotonic()
            self.assertRaises(TimedOut, engine.legal_moves, "chess", timeout=0.2)
            self.assertLess(time.monotonic() - begun, 0.2 + AT_ONCE)
            self.assertTrue(is_gone(engine.pid))
            self.all_end(engine)
        with Engine(PROGRAM, timeout=0.5) as engine:
            search = engine.start("chess")
            os.kill(engine.pid, signal.SIGSTOP)
            self.assertRaises(TimedOut, search.stop)
            self.assertTrue(is_gone(engine.pid))

    def test_a_count_that_takes_too_long(self):
        with Engine(PROGRAM) as engine:
            self.assertRaises(TimedOut, engine.perft, "chess", plies=9, timeout=0.3)
            self.assertTrue(is_gone(engine.pid))

    def test_a_command_that_takes_too_long(self):
        with Engine(PROGRAM) as engine:
            self.assertRaises(TimedOut, engine.command, "perft", "9", text="chess\nstartpos\n", timeout=0.3)
            self.assertEqual(engine.perft("chess"), 20)

    def test_programs_that_are_none(self):
        rows = [("exec sleep 60\n", TimedOut), ("sleep 60 & wait\n", TimedOut), ("exit 3\n", Ended), ("echo hello\n", Ended),
                ("kill -9 $$\n", Ended), ("exec yes\n", TimedOut), ("exec cat /dev/zero\n", Ended), ("exec >&-; sleep 60\n", Ended),
                ("exec <&-; exec sleep 60\n", Ended)]
        for text, kind in rows:
            with self.subTest(text=text):
                begun = time.monotonic()
                self.assertRaises(kind, Engine, self.script(text), timeout=0.5)
                self.assertLess(time.monotonic() - begun, 5)
        for path in ("/nonexistent", "/", example("mini.ini"), "a\0b"):
            with self.subTest(path=path):
                self.assertRaises(Ended, Engine, path)

    def test_a_program_that_reads_nothing_more(self):
        program = self.script("read a; read b\necho 'option name UCI_Variant var chess'\necho readyok\nexec sleep 60\n")
        with Engine(program, timeout=0.5) as engine:
            self.at_once(TimedOut, lambda: engine.legal_moves("chess", "startpos", ["a1a2"] * 20_000))
            self.assertTrue(is_gone(engine.pid))

    def test_what_a_program_has_started_ends_with_it(self):
        with tempfile.TemporaryDirectory() as folder:
            path = os.path.join(folder, "pid")
            program = self.script(f"sleep 60 & echo $! >{path}; wait\n")
            self.assertRaises(TimedOut, Engine, program, timeout=0.5)
            with open(path) as file:
                self.assertTrue(is_gone(int(file.read())))

    def test_an_error_in_the_body(self):
        with self.assertRaises(ZeroDivisionError), Engine(PROGRAM) as engine:
            engine.start("chess")
            _ = 1 / 0
        self.assertFalse(is_running(engine.pid))

    def test_a_session_that_is_forgotten(self):
        engine = Engine(PROGRAM)
        pid = engine.pid
        del engine
        self.assertTrue(is_gone(pid))

    def test_a_script_that_does_not_close(self):
        for ending in ("", "raise SystemExit(1)", "os.kill(os.getpid(), 9)"):
            text = f"import os, sys\nfrom vengine import Engine\nengine = Engine({PROGRAM!r})\nengine.start('chess')\nprint(engine.pid, flush=True)\n"
            done = subprocess.run([sys.executable, "-c", text + ending], cwd=os.path.join(TOP, "python"), capture_output=True, text=True)
            with self.subTest(ending=ending):
                self.assertTrue(is_gone(int(done.stdout)))

    def test_a_break_in_a_question_ends_the_session(self):
        with Engine(PROGRAM) as engine:
            threading.Timer(0.3, os.kill, (os.getpid(), signal.SIGINT)).start()
            with self.assertRaises(KeyboardInterrupt):
                engine.perft("chess", plies=9)
            self.all_end(engine)


class Threads(Case):
    def games(self, engine, seed):
        """Plays random moves, and gives what was answered."""
        chance, heard = random.Random(seed), []
        variant, moves = VARIANTS[seed % len(VARIANTS)], []
        for _ in range(10):
            at = engine.position(variant, moves=moves)
            heard.append(at)
            if not at.moves:
                break
            moves.append(chance.choice(at.moves))
        return heard

    def test_one_session_of_many_threads(self):
        with Engine(PROGRAM) as engine:
            alone = [self.games(engine, seed) for seed in range(20)]
            with ThreadPoolExecutor(8) as pool:
                self.assertEqual(list(pool.map(lambda seed: self.games(engine, seed), range(20))), alone)

    def test_many_sessions_at_once(self):
        with Engine(PROGRAM) as engine:
            alone = [self.games(engine, seed) for seed in range(40)]
        engines = [Engine(PROGRAM) for _ in range(40)]
        try:
            with ThreadPoolExecutor(40) as pool:
                self.assertEqual(list(pool.map(self.games, engines, range(40))), alone)
        finally:
            for engine in engines:
                engine.close()
        self.assertFalse(any(is_running(engine.pid) for engine in engines))

    def test_calls_wait_for_a_search_of_another_thread(self):
        with Engine(PROGRAM) as engine, ThreadPoolExecutor(1) as pool:
            search = pool.submit(engine.go, "chess", movetime=400)
            time.sleep(0.1)
            self.assertEqual(engine.perft("xiangqi"), 44)
            self.assertTrue(search.done())
            search = pool.submit(engine.go, "chess", movetime=1500)
            time.sleep(0.1)
            with self.assertRaises(Busy):
                engine.perft("xiangqi", timeout=0.1)
            self.assertIsNotNone(search.result().best)


class KnownByOthers(EngineCase):
    def test_what_pyffish_says_of_its_own_example(self):
        # of the tests of Fairy-Stockfish 11.1
        capablanca = "rnabqkbcnr/pppppppppp/10/10/10/10/PPPPPPPPPP/RNABQKBCNR w KQkq - 0 1"
        self.assertEqual(self.engine.start_fen("capablanca"), capablanca)
        self.assertEqual(self.engine.legal_moves("capablanca", "10/10/10/10/10/k9/10/K9 w - - 0 1", []), ["a1b1"])
        self.assertEqual(self.engine.get_fen("chess", START, []), START)
        self.assertEqual(self.engine.game_result("chess", START, FOOLS_MATE), -VALUE_MATE)
        self.assertFalse(self.engine.is_immediate_game_end("capablanca", capablanca, [])[0])
        self.assertFalse(self.engine.is_optional_game_end("capablanca", capablanca, [])[0])

    def test_values(self):
        self.assertEqual(self.engine.game_result("chess", "7k/8/6Q1/8/8/8/8/K7 b - - 0 1"), VALUE_DRAW)
        self.assertEqual(self.engine.game_result("antichess", "8/8/8/8/8/8/8/K7 b - - 0 1"), VALUE_MATE)
        self.assertRaises(NotOver, self.engine.game_result, "chess")
        self.assertEqual(self.engine.is_immediate_game_end("kingofthehill", "4k3/8/8/3K4/8/8/8/8 b - - 0 1"), (True, -VALUE_MATE))
        self.assertEqual(self.engine.is_optional_game_end("chess", "7k/8/5K2/8/8/8/8/7R b - - 100 80"), (True, VALUE_DRAW))
        self.assertEqual(self.engine.is_optional_game_end("chess", "startpos", FOOLS_MATE), (False, VALUE_DRAW))

    def test_texts_that_are_positions_or_not(self):
        # the examples of docs/FEN.md
        self.engine.load_variant_config("[page]\nking = k\nknight = n\ncustomPiece1 = c:C\ncastling = false\n"
                                        "startFen = k7/8/8/8/8/8/8/K7 w - - 0 1\n")
        rows = [("k7/8/8/8/8/8/8/K7 w - - 0 1", FEN_OK), ("k7/8/8/8/8/8/8/K7 w - - 0", -1), ("k7/8/8/8/8/8/K7 w - - 0 1", -2),
                ("k7/8/8/8/8/8/8/K6x w - - 0 1", -3), ("k7/8/8/8/8/8/8/K6 w - - 0 1", -4), ("k7/8/8/8/8/8/8/K7[N] w - - 0 1", -5),
                ("k7/8/8/8/8/8/8/K7 W - - 0 1", -6), ("k7/8/8/8/8/8/8/K7 w K - 0 1", -7), ("k7/8/8/8/8/8/8/K7 w - e3 0 1", -8),
                ("k7/8/8/8/8/8/8/K7 w - - 10000 1", -10), ("8/8/8/8/8/8/8/K7 w - - 0 1", -11), ("8/8/8/3k4/3K4/8/8/8 w - - 0 1", -12),
                ("k7/8/8/8/8/8/8/K7 w  - - 0 1", -1), ("k7/8/8/8/8/8/8/K7\nw - - 0 1", -3), ("ä", -3), (None, -3), ("", -1)]
        for fen, value in rows:
            with self.subTest(fen=fen):
                self.assertEqual(self.engine.validate_fen(fen, "page"), value)
        self.fault("OptionFault 2 UnknownVariant nobody", self.engine.validate_fen, START, "nobody")

    @unittest.skipUnless(pyffish, "there is no module pyffish")
    def test_random_games_beside_pyffish(self):
        # In extinction that module castles, which is not played here.
        chance = random.Random(7)
        for variant in (name for name in VARIANTS if name != "extinction"):
            moves = []
            for _ in range(40):
                at = self.engine.position(variant, "startpos", moves)
                with self.subTest(variant=variant, moves=moves):
                    self.assertEqual(at.moves, sorted(pyffish.legal_moves(variant, "startpos", moves)))
                    self.assertEqual(at.fen.split()[0], pyffish.get_fen(variant, "startpos", moves).split()[0])
                    for call in ("is_immediate_game_end", "is_optional_game_end"):
                        ours, theirs = (getattr(module, call)(variant, "startpos", moves) for module in (self.engine, pyffish))
                        self.assertEqual(ours, theirs if theirs[0] else (False, VALUE_DRAW))
                    if not at.moves:
                        self.assertEqual(self.engine.game_result(variant, "startpos", moves), pyffish.game_result(variant, "startpos", moves))
                if not at.moves:
                    break
                moves.append(chance.choice(at.moves))


class OtherPrograms(Case):
    def test_lines_of_another_program(self):
        lines = Lines(["cat"])
        self.assertEqual(lines.ask("a\nb", "b"), ["a", "b"])
        lines.say("c", "xd")
        self.assertEqual(lines.wait_for(lambda line: line.endswith("d")), ["c", "xd"])
        with self.assertRaises(TimedOut) as caught:
            lines.ask("e", "f", timeout=0.2)
        self.assertEqual(caught.exception.said, ["e"])
        self.assertEqual(lines.ask("f", ("x", "f")), ["f"])
        self.assertEqual(lines.close(), 0)
        self.assertFalse(lines.is_running())
        self.assertRaises(Ended, lines.say, "a")


class Page(Case):
    """The examples of docs/CLIENT.md: each block of Python is run, and prints the block after it."""

    def test_the_examples(self):
        with open(os.path.join(TOP, "docs", "CLIENT.md")) as file:
            blocks = re.findall(r"```python\n(.*?)```\n(?:\n```text\n(.*?)```)?", file.read(), re.DOTALL)
        self.assertGreater(len(blocks), 5)
        path = {**os.environ, "VENGINE": PROGRAM, "PYTHONPATH": os.path.join(TOP, "python")}
        for text, printed in blocks:
            with self.subTest(text=text):
                done = subprocess.run([sys.executable, "-W", "error", "-c", text], cwd=TOP, env=path, stdout=subprocess.PIPE,
                                      stderr=subprocess.STDOUT, text=True, timeout=120)
                self.assertEqual(done.stdout, printed)


if __name__ == "__main__":
    unittest.main()
