#!/usr/bin/env python3
"""Tests of the reader of PGN and of `judge`, over the real program.

Usage: python/tests/test_judge.py [TEST ..]      (VENGINE=FILE names another program)

What is expected is worked by hand, from the rules of the games. The files of python/tests/pgn were written by XBoard, Scid, PyChess and pgn-extract. bench/judge_faults.py
plants faults in 10,000 games.
"""
import io
import json
import os
import random
import subprocess
import sys
import tempfile
import unittest

HERE = os.path.dirname(os.path.abspath(__file__))
TOP = os.path.dirname(os.path.dirname(HERE))
sys.path.insert(0, os.path.join(HERE, ".."))
from vengine import Referee
from vengine.judge import Claims, End, JudgeOptions, judge_games
from vengine.judge_command import line_of
from vengine.notation import Board
from vengine.pgn import LARGEST_GAME, Broken, Move, game_tags, games_in, read_games, write_game
from vengine.san import notation_in, unmarked_text
from vengine.shared_library import found_library
from vengine.variant_names import position_said, variant_named

BUILT = os.path.join(TOP, "release", "vengine")
if "VENGINE" not in os.environ and os.path.exists(BUILT):
    # The launcher would build the program first, where the sources were changed.
    os.environ["VENGINE"] = BUILT
FAIRY = os.path.join(TOP, "examples", "fairy.ini")
OPTIONS = JudgeOptions(library=found_library())
SHUFFLE = "Nf3 Nf6 Ng1 Ng8 "


def read(text):
    """The games of a text."""
    return list(read_games(io.BytesIO(text if isinstance(text, bytes) else text.encode("utf-8"))))


def judged(text, options=OPTIONS):
    """The verdicts on the games of a text."""
    return judge_games(games_in(io.BytesIO(text if isinstance(text, bytes) else text.encode("utf-8"))), options)


def verdict(moves, result="*", options=OPTIONS, **tags):
    """The verdict on one game."""
    header = "".join(f'[{name} "{value}"]\n' for name, value in {"Event": "x", **tags}.items())
    (found,) = judged(f"{header}\n{moves} {result}\n", options)
    return found


def texts(game):
    return [move.text for move in game.moves]


class Stream:
    """A stream of so many bytes that repeat a text, of which none is kept."""

    def __init__(self, text, size):
        self._text, self._left = text, size

    def read(self, length):
        part = (self._text * (length // len(self._text) + 1))[:min(length, self._left)]
        self._left -= len(part)
        return part


class ReadingPgn(unittest.TestCase):
    def test_a_game(self):
        (game,) = read('[Event "a \\"b\\" \\\\ {"]\n[Result "1-0"]\n\n1. e4 e5 2.Nf3!? Nc6 $14 3... Bb5 {c (} a6 ; 0-1\n% 0-1\n4.O-O 1-0\n')
        self.assertEqual(game.tags, {"Event": 'a "b" \\ {', "Result": "1-0"})
        self.assertEqual((texts(game), game.result, game.broken), (["e4", "e5", "Nf3!?", "Nc6", "Bb5", "a6", "O-O"], "1-0", None))

    def test_places(self):
        (game,) = read("1. e4 {\u00e4} e5 *")
        self.assertEqual(game.moves, [Move("e4", 3), Move("e5", 11)])

    def test_variations(self):
        (game,) = read("1. e4 (1. d4 d5 (1... Nf6 {)} 2. c4) 2. c4 1-0) 1... e5 *\n")
        self.assertEqual((texts(game), game.result), (["e4", "e5"], "*"))

    def test_annotations(self):
        (game,) = read("1. e4 += e5 ! 2. Nf3 +- N Nc6 \u00b1 3. exd6 e.p. -- $ 1/2-1/2")
        self.assertEqual((texts(game), game.result), (["e4", "e5", "Nf3", "Nc6", "exd6", "--"], "1/2-1/2"))

    def test_several_games(self):
        text = '\ufeff[Event "1"]\r\n\r\n1. e4 e5\r\n[Event "2"]\r\n[Site "[x]"]\r\n\r\n1. d4 *\r\n\r\n1. c4 c5 0-1\n1. g3 1-0 {the end}\n'
        self.assertEqual([(game.number, texts(game), game.result) for game in read(text)],
                         [(1, ["e4", "e5"], None), (2, ["d4"], "*"), (3, ["c4", "c5"], "0-1"), (4, ["g3"], "1-0")])

    def test_no_game(self):
        for text in ("", " \n\n", "{only a comment}", "; a line", "% escaped\n", "\ufeff"):
            self.assertEqual(read(text), [], text)

    def test_tags_alone(self):
        (game,) = read('[Event "x"]\n[FEN "8/8/8/8/8/8/8/8 w - - 0 1"]\n')
        self.assertEqual((texts(game), game.result, game.tags["FEN"]), ([], None, "8/8/8/8/8/8/8/8 w - - 0 1"))

    def test_several_tags_in_a_line(self):
        (game,) = read('[Event "x"] [Result "1-0"]\n1. e4 1-0')
        self.assertEqual((game.tags, texts(game)), ({"Event": "x", "Result": "1-0"}, ["e4"]))

    def test_blocks(self):
        """A game is read the same wherever a block of the stream ends."""
        text = '[Event "first"]\n\n1. e4 {a comment} e5 (1... c5) 2. Nf3 1/2-1/2\n\n[Event "second"]\n\n1. d4 d5 0-1\n'.encode("ascii")
        whole = list(games_in(io.BytesIO(text)))

        class Slow(io.BytesIO):
            def read(self, length=-1):
                return super().read(7)

        self.assertEqual(list(games_in(Slow(text))), whole)
        self.assertEqual(b"".join(game.data for game in whole), text.rstrip().replace(b"1/2-1/2\n\n", b"1/2-1/2"))


class BrokenFiles(unittest.TestCase):
    """What cannot be read is told with its place, and the games before it and after it are read."""

    def broken(self, middle, at, why):
        before, after = '[Event "1"]\n\n1. e4 *\n\n', '[Event "3"]\n\n1. d4 d5 *\n'
        first, second, third = read(before + middle + "\n\n" + after)
        place, reason = (second.byte, second.why) if isinstance(second, Broken) else second.broken
        self.assertEqual((place, reason), (len(before) + at, why))
        self.assertEqual((texts(first), texts(third), third.byte), (["e4"], ["d4", "d5"], len((before + middle + "\n\n").encode())))

    def test_places(self):
        self.broken('[Event "2"]\n\n1. e4 \0 e5 *', 19, "a byte 0, which no text has")
        self.broken('[Event "2"]\n\n1. e4 {no end *', 19, "a comment that begins here does not end before the next game")
        self.broken('[Event "2"]\n\n1. e4 (1. d4 (1. c4) *', 19, "a variation that begins here does not end")
        self.broken('[Event "2"]\n\n1. e4 ) e5 *', 19, "a variation that did not begin ends here")
        self.broken('[Event "2"]\n[Site "no end\n\n1. e4 *', 12, 'a tag that begins here has not the form [Name "value"]')
        self.broken('[Event "2"]\n\n1. e4 ] *', 19, "']' has no place here")

    def test_the_end_of_the_file(self):
        self.assertEqual(read('[Event "1"]\n\n1. e4 {no end'), [Broken(1, 19, "a comment that begins here does not end")])

    def test_large_files(self):
        for text, found in ((b" \n", []), (b"\0", [Broken(1, 0, "a byte 0, which no text has")]), (b"e4 ", [Broken(1, 0, f"no game ends within {LARGEST_GAME} bytes")]),
                            (b"{", [Broken(1, 0, "a comment that begins here does not end")])):
            self.assertEqual(list(games_in(Stream(text, 3 * LARGEST_GAME))), found, text)


class WritingPgn(unittest.TestCase):
    def test_a_game(self):
        text = write_game({"White": 'A "B"', "Round": "1"}, ["e4", "e5", "Nf3"], result="1-0")
        self.assertEqual(text, '[Event "?"]\n[Site "?"]\n[Date "????.??.??"]\n[Round "1"]\n[White "A \\"B\\""]\n[Black "?"]\n[Result "1-0"]\n\n1. e4 e5 2. Nf3 1-0\n\n')

    def test_from_a_position(self):
        fen = "4k3/8/8/8/8/8/8/4K2R b K - 0 40"
        text = write_game(game_tags("crazyhouse", fen), ["Kd7", "O-O"], (40, "b"))
        self.assertTrue(text.endswith(f'[Variant "crazyhouse"]\n[SetUp "1"]\n[FEN "{fen}"]\n\n40... Kd7 41. O-O *\n\n'))

    def test_lines(self):
        text = write_game({}, ["Nf3", "Nf6", "Ng1", "Ng8"] * 100)
        self.assertLessEqual(max(map(len, text.splitlines())), 79)
        (game,) = read(text)
        self.assertEqual(len(game.moves), 400)


class Names(unittest.TestCase):
    def test_names(self):
        accepted = ["chess", "crazyhouse", "3check", "kingofthehill", "antichess", "seirawan", "xiangqi", "Own-One"]
        for said, variant in {"Standard": "chess", "From Position": "chess", "normal": "chess", "Three-check": "3check", "3check": "3check", "Threecheck": "3check",
                              "King of the Hill": "kingofthehill", "Kingofthehill": "kingofthehill", "Crazyhouse": "crazyhouse", "S-Chess": "seirawan",
                              "Antichess": "antichess", "Xiangqi": "xiangqi", "Own-One": "Own-One", "own one": "Own-One", "Chess960": None, "Atomic": None,
                              "shouse": None, "": None}.items():
            self.assertEqual(variant_named(said, accepted), variant, said)

    def test_positions(self):
        self.assertEqual(position_said("rnbqkbnr/pppp1ppp/8/8/8/8/PPPP1PPP/RNBQKBNR/Pp w KQkq - 0 3", 8), "rnbqkbnr/pppp1ppp/8/8/8/8/PPPP1PPP/RNBQKBNR[Pp] w KQkq - 0 3")
        self.assertEqual(position_said("rnbqkbnr/pppppppp/8/8/8/8/PPPPPPPP/RNBQKBNR w KQkq - 4 3 +1+0", 8),
                         "rnbqkbnr/pppppppp/8/8/8/8/PPPPPPPP/RNBQKBNR w KQkq - 2+3 4 3")
        shogi = "lnsgkgsnl/1r5b1/ppppppppp/9/9/9/PPPPPPPPP/1B5R1/LNSGKGSNL w - - 0 1"
        self.assertEqual(position_said(shogi, 9), shogi)


class Verdicts(unittest.TestCase):
    def fault(self, moves, ply, move, why, **tags):
        found = verdict(moves, **tags)
        self.assertIsNotNone(found.fault, moves)
        self.assertEqual((found.fault.ply, found.fault.move, found.fault.why, found.plies, found.is_faulty), (ply, move, why, ply - 1, True))

    def test_a_mate(self):
        found = verdict("1. f3 e5 2. g4 Qh4#", "0-1")
        self.assertEqual(found[1:], ("chess", 4, None, End(4, "0-1"), "checkmate", "0-1", True, Claims(), None, None))

    def test_results(self):
        mate, quiet = "1. f3 e5 2. g4 Qh4#", "1. e4 e5"
        for moves, stated, agrees, remark in ((mate, "1-0", False, None), (mate, "1/2-1/2", False, None), (mate, "*", False, None), (mate, "0-1", True, None),
                                              (quiet, "1-0", None, "a resignation or the clock"), (quiet, "0-1", None, "a resignation or the clock"),
                                              (quiet, "1/2-1/2", None, "a draw by agreement or claim"), (quiet, "*", True, None)):
            found = verdict(moves, stated)
            self.assertEqual((found.stated, found.agrees, found.remark, found.is_faulty), (stated, agrees, remark, agrees is False), (moves, stated))
        self.assertEqual(verdict(quiet, "", Result="0-1").stated, "0-1")
        self.assertEqual(verdict(quiet, "")[6:8], (None, None))
        contrary = verdict(quiet, "1-0", Result="0-1")
        self.assertEqual((contrary.agrees, contrary.remark), (False, "the tag Result has 0-1"))

    def test_ends(self):
        stalemate = verdict("1. Qg6", "1/2-1/2", FEN="7k/5K2/8/6Q1/8/8/8/8 w - - 0 1")
        self.assertEqual((stalemate.end, stalemate.cause, stalemate.agrees), (End(1, "1/2-1/2"), "stalemate", True))
        hill = verdict("1. Ke4", "1-0", FEN="7k/8/8/8/8/4K3/8/8 w - - 0 1", Variant="King of the Hill")
        self.assertEqual((hill.variant, hill.end, hill.cause, hill.agrees), ("kingofthehill", End(1, "1-0"), "flag", True))

    def test_claims(self):
        """The start stands again after 4, 8, 12 and 16 plies."""
        found = verdict(SHUFFLE * 4)
        self.assertEqual((found.claims, found.end, found.cause, found.continued), (Claims(8, 16), End(16, "1/2-1/2"), "repetition", (8, "repetition")))
        went_on = verdict(SHUFFLE * 2 + "e4 e5", "1-0")
        self.assertEqual((went_on.claims, went_on.end, went_on.continued, went_on.agrees), (Claims(8), None, (8, "repetition"), None))

    def test_claims_whatever_the_limits(self):
        """A variant without limits, and one with others."""
        options = OPTIONS._replace(file=b"[free:chess]\nnFoldRule = 0\nnMoveRule = 0\n[strict:chess]\nnFoldRule = 2\n")
        free = verdict(SHUFFLE * 38, options=options, Variant="free")
        self.assertEqual((free.claims, free.end, free.continued), (Claims(8, 16, 100, 150), None, None))
        strict = verdict(SHUFFLE * 2, "1/2-1/2", options, Variant="strict")
        self.assertEqual((strict.claims, strict.continued, strict.end), (Claims(8), (4, "repetition"), End(8, "1/2-1/2")))

    def test_the_count_of_a_position(self):
        found = verdict("1. Kd1 Kd8 2. Kc1", FEN="4k3/8/8/8/8/8/8/R3K3 w - - 98 90")
        self.assertEqual((found.claims.fifty, found.claims.seventyfive, found.continued), (2, None, (2, "movecount")))
        self.assertEqual(verdict("1. Kd1", FEN="4k3/8/8/8/8/8/8/R3K3 w - - 149 90").claims, Claims(None, None, 0, 1))

    def test_why_a_piece_is_not_there(self):
        self.fault("1. Qd4", 1, "Qd4", "White has no queen on the board", FEN="4k3/8/8/8/8/8/8/4K3 w - - 0 1")
        self.fault("1. e4", 1, "e4", "White has no pawn on the board", FEN="4k3/8/8/8/8/8/8/4K3 w - - 0 1")
        self.fault("1. e4 e5 2. e4e5", 3, "e4e5", "the pawn on e4 does not go to e5")
        self.fault("1. e4 e5 2. d5d6", 3, "d5d6", "d5 is empty")
        self.fault("1. e4 e5 2. e5e4", 3, "e5e4", "e5 has a piece of the other side")
        self.fault("1. Nf3 Nf6 2. Ng1xh3", 3, "Ng1xh3", "g1 is empty")
        self.fault("1. Bf1g2", 1, "Bf1g2", "g2 has a piece of the same side")
        self.fault("1. Zf3", 1, "Zf3", "the variant has no piece with the letter Z")
        self.fault("1. e4 e5 2. N@f3", 3, "N@f3", "White has no knight in hand", Variant="crazyhouse")
        self.fault("1. P@e2", 1, "P@e2", "e2 is not empty", FEN="4k3/8/8/8/8/8/4P3/4K3[P] w - - 0 1", Variant="crazyhouse")

    def test_why_it_does_not_go_there(self):
        self.fault("1. e4 e5 2. Bd5", 3, "Bd5", "no bishop of White goes to d5")
        self.fault("1. Nb1d3", 1, "Nb1d3", "the knight on b1 does not go to d3")
        self.fault("1. Rah1", 1, "Rah1", "h1 has a piece of the same side")
        self.fault("1. Rad1", 1, "Rad1", "no rook of White goes from a to d1", FEN="4k3/8/8/8/8/8/8/RN2K2R w - - 0 1")
        self.fault("1. P@e8", 1, "P@e8", "no pawn may be dropped on e8", FEN="7k/8/8/8/8/8/8/4K3[P] w - - 0 1", Variant="crazyhouse")

    def test_why_it_is_forbidden(self):
        self.fault("1. Nc3", 1, "Nc3", "it leaves the king attacked", FEN="4r1k1/8/8/8/8/8/4N3/4K3 w - - 0 1")
        self.fault("1. Kd2", 1, "Kd2", "it leaves the king attacked", FEN="3r2k1/8/8/8/8/8/8/4K3 w - - 0 1")
        self.fault("1. h3", 1, "h3", "it leaves the king attacked", FEN="4r1k1/8/8/8/8/8/7P/R3K2R w KQ - 0 1")
        self.fault("1. e4 d5 2. Nf3", 3, "Nf3", "it takes nothing, and a piece that can be taken must be", Variant="antichess")
        self.fault("1. Kd1", 1, "Kd1", "it leaves the king attacked", FEN="3k5/9/9/9/9/9/9/9/9/4K4 w - - 0 1", Variant="xiangqi")
        checkless = JudgeOptions(file=b"[checkless:chess]\nchecking = false\n", library=found_library())
        found = verdict("1. Ra8", options=checkless, FEN="6k1/8/8/8/8/8/8/R3K3 w - - 0 1", Variant="checkless")
        self.assertEqual(found.fault.why, "it gives check, which the variant forbids")

    def test_why_a_castle_is_not_legal(self):
        right, way, check = "White has no right to castle on the king's side", "a piece is in the way of the castle", \
            "the king is attacked where it stands, where it goes or on its way"
        self.fault("1. O-O", 1, "O-O", right, FEN="4k3/8/8/8/8/8/8/4K2R w - - 0 1")
        self.fault("1. O-O", 1, "O-O", way)
        for black in ("4kr2", "4k1r1", "k3r3"):
            self.fault("1. O-O", 1, "O-O", check, FEN=f"{black}/8/8/8/8/8/8/4K2R w K - 0 1")
        self.fault("1. O-O", 1, "O-O", way, FEN="4k3/8/8/8/8/8/8/4K1nR w K - 0 1")
        self.fault("1. 0-0-0", 1, "0-0-0", "the variant has no castles", Variant="antichess")

    def test_why_the_text_is_none(self):
        self.fault("1. e4 hello", 2, "hello", "this is not the text of a move")
        self.fault("1. e4 --", 2, "--", "a side has to move")
        self.fault("1. Ne2", 1, "Ne2", "it may be c3e2 or g1e2", FEN="4k3/8/8/8/8/2N5/8/4K1N1 w - - 0 1")
        self.fault("1. b8", 1, "b8", "b7b8 needs what the piece becomes", FEN="4k3/1P6/8/8/8/8/8/4K3 w - - 0 1")
        self.fault("1. b8=K", 1, "b8=K", "K cannot come of b7b8", FEN="4k3/1P6/8/8/8/8/8/4K3 w - - 0 1")
        self.fault("1. f3 e5 2. g4 Qh4# 3. Kf2", 5, "Kf2", "the game is over: 0-1 by checkmate")

    def test_faults_of_the_header(self):
        atomic = verdict("1. e4", Variant="Atomic")
        self.assertEqual((atomic.variant, atomic.fault.ply, atomic.fault.why), ("Atomic", 0, "there is no variant 'Atomic'"))
        two_kings = verdict("1. e4", FEN="4k3/8/8/8/8/8/8/3KK3 w - - 0 1")
        self.assertEqual((two_kings.fault.ply, two_kings.fault.move), (0, None))
        self.assertIn("FenFault 11 Kings", two_kings.fault.why)

    def test_a_long_game(self):
        found = verdict(SHUFFLE * 2500)
        self.assertEqual((found.plies, found.fault.ply, found.fault.why), (8192, 8193, "a game has at most 8,192 plies"))

    def test_ranks_from_0(self):
        """XBoard counts the ten ranks of xiangqi from 0."""
        for moves in ("1. Cbe2 Hc7 2. Hc2 Ra8", "1. h2e2 b9c7", "1. Cbe3 Hc8"):
            self.assertIsNone(verdict(moves, Variant="xiangqi").fault, moves)
        self.fault("1. Ra1 Ra8 2. Ra0 Rxa0", 4, "Rxa0", "no rook of Black goes to a1 (ranks are counted from 1)", Variant="xiangqi")

    def test_texts(self):
        """Games may be given as texts, which are counted."""
        found = judge_games(["1. e4 e5 *", b"1. e5 *"], OPTIONS)
        self.assertEqual([(one.game, one.plies, one.fault is None) for one in found], [(1, 2, True), (2, 0, False)])

    def test_a_session_says_the_same(self):
        """Without the library games are asked of a session."""
        with open(os.path.join(HERE, "pgn", "xboard.pgn"), "rb") as file:
            text = file.read() + b"\n1. e4 e5 2. Ke3 *\n1. O-O *\n"
        self.assertEqual(judged(text, OPTIONS._replace(library="")), judged(text))


class FilesOfOthers(unittest.TestCase):
    def ends(self, name):
        with open(os.path.join(HERE, "pgn", name), "rb") as file:
            return [(one.variant, one.plies, one.fault, one.cause, one.agrees) for one in judged(file.read())]

    def test_files(self):
        immortal, stalemate = ("chess", 45, None, "checkmate", True), ("chess", 1, None, "stalemate", True)
        self.assertEqual(self.ends("scid.pgn"), [immortal, stalemate])
        self.assertEqual(self.ends("pgn-extract.pgn"), [immortal, stalemate] * 5)
        self.assertEqual(self.ends("xboard.pgn"), [("3check", 39, None, "checks", True), ("crazyhouse", 62, None, "checkmate", True),
                                                   ("seirawan", 138, None, "checkmate", True), ("capablanca", 127, None, "checkmate", True)])


class Planted(unittest.TestCase):
    """Faults at places that are known by how they were planted."""

    def test_planted(self):
        draw, referee = random.Random(9), Referee(library=found_library())
        game, text, expected = referee.game("chess") if found_library() else self.skipTest("there is no library"), "", []
        for number in range(40):
            sans = []
            for _ in range(30):
                legal = game.legal_moves()
                if not legal:
                    break
                move = draw.choice(legal)
                sans.append(unmarked_text(move, legal, Board(game.status()[1]), notation_in(game)))
                game.play(move)
            for _ in sans:
                game.undo()
            ply = draw.randrange(len(sans)) + 1 if number % 2 else None
            if ply:
                # No piece of chess has this letter.
                sans[ply - 1] = "Z" + draw.choice("abcdefgh") + draw.choice("12345678")
            expected.append(ply)
            text += write_game({"Event": str(number)}, sans)
        self.assertEqual([found.fault and found.fault.ply for found in judged(text)], expected)


class TheCommand(unittest.TestCase):
    def ran(self, *words, given=None):
        done = subprocess.run([sys.executable, "-m", "vengine", "judge", *words], input=given, stdout=subprocess.PIPE, stderr=subprocess.PIPE,
                              env={**os.environ, "PYTHONPATH": os.path.join(HERE, "..")})
        return done.returncode, done.stdout.decode(), done.stderr.decode()

    def file(self, text):
        file = tempfile.NamedTemporaryFile(suffix=".pgn")
        self.addCleanup(file.close)
        file.write(text.encode() if isinstance(text, str) else text)
        file.flush()
        return file.name

    def test_lines(self):
        name = self.file("1. f3 e5 2. g4 Qh4# 0-1\n1. e4 1-0\n1. e5 *\n1. f3 e5 2. g4 Qh4# 1-0\n" + SHUFFLE * 2 + "*\n[Variant \"Atomic\"]\n\n*\n")
        self.assertEqual(self.ran(name), (1, "1 chess: 4 plies, 0-1 by checkmate, stated 0-1\n"
                                             "2 chess: 1 plies, ongoing, stated 1-0 (a resignation or the clock)\n"
                                             "3 chess: FAULT at ply 1, byte 37: e5: no pawn of White goes to e5\n"
                                             "4 chess: 4 plies, 0-1 by checkmate, stated 1-0: DOES NOT AGREE\n"
                                             "5 chess: 8 plies, 1/2-1/2 by repetition, stated *: DOES NOT AGREE; stood three times at ply 8\n"
                                             "6 Atomic: FAULT at byte 100: there is no variant 'Atomic'\n", ""))

    def test_json(self):
        status, said, _ = self.ran("--json", "--jobs", "1", "-", given=b"1. e4 e5 2. Ke3 *\n")
        self.assertEqual((status, json.loads(said)), (1, {
            "game": 1, "variant": "chess", "plies": 2, "fault": {"ply": 3, "move": "Ke3", "why": "no king of White goes to e3", "byte": 12}, "end": None, "cause": None,
            "stated": "*", "agrees": None, "claims": {"threefold": None, "fivefold": None, "fifty": None, "seventyfive": None}, "remark": None, "continued": None}))

    def test_statuses(self):
        good, empty = self.file("1. e4 *\n"), self.file("\n")
        self.assertEqual(self.ran(good), (0, "1 chess: 1 plies, ongoing, stated *\n", ""))
        self.assertEqual(self.ran(empty), (2, "", f"vengine: {empty}: there is no game in this file\n"))
        status, said, wrong = self.ran("/nowhere.pgn", good)
        self.assertEqual((status, said), (2, f"{good}: 1 chess: 1 plies, ongoing, stated *\n"))
        self.assertEqual(wrong, "vengine: /nowhere.pgn: No such file or directory\n")

    def test_options(self):
        own = self.file("[gardner:chess]\nmaxRank = 5\nmaxFile = 5\npromotionRegionWhite = *5\ndoubleStep = false\ncastling = false\n"
                        "startFen = rnbqk/ppppp/5/PPPPP/RNBQK w - - 0 1\n")
        name = self.file("1. a3 bxa3 *\n")
        self.assertEqual(self.ran("--variants", own, "--variant", "gardner", name), (0, "1 gardner: 2 plies, ongoing, stated *\n", ""))
        self.assertEqual(self.ran("--variants", self.file("maxRank = 5\n"), name)[0], 2)

    def test_order(self):
        """Many games, judged by several processes, are told in their order."""
        status, said, _ = self.ran("--json", "--jobs", "3", self.file("".join(f'[Event "{n}"]\n\n' + SHUFFLE * (n % 5) + "*\n\n" for n in range(400))))
        found = [json.loads(line) for line in said.splitlines()]
        self.assertEqual([(one["game"], one["plies"]) for one in found], [(n + 1, 16 if n % 5 == 4 else 4 * (n % 5)) for n in range(400)])

    def test_a_reader_that_ends(self):
        name = self.file('[Event "x"]\n\n1. e4 *\n\n' * 20000)
        process = subprocess.Popen(f"{sys.executable} -m vengine judge {name} | head -1", shell=True, stdout=subprocess.PIPE, stderr=subprocess.PIPE,
                                   env={**os.environ, "PYTHONPATH": os.path.join(HERE, "..")})
        said, wrong = process.communicate()
        self.assertEqual((said.decode(), wrong.decode()), ("1 chess: 1 plies, ongoing, stated *\n", ""))


class Lines(unittest.TestCase):
    def test_words(self):
        self.assertEqual(line_of(verdict(SHUFFLE * 2 + "e4 e5", "1-0")),
                         "1 chess: 10 plies, ongoing, stated 1-0 (a resignation or the clock); stood three times at ply 8, over by repetition at ply 8 and continued")
        self.assertEqual(line_of(verdict("1. e4", "")), "1 chess: 1 plies, ongoing, no result stated")


if __name__ == "__main__":
    done = unittest.main(exit=False).result
    failed = len(done.failures) + len(done.errors)
    print(f"{max(0, done.testsRun - failed - len(done.skipped))} passed, {failed} failed")
    sys.exit(1 if failed else 0)
