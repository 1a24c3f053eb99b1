#!/usr/bin/env python3
"""Tests of SAN: writing and reading it over games that the library holds and games that a session is asked of.

Usage: python/tests/test_san.py [--all] [TEST ..]      (VENGINE=FILE names another program)

Expected texts are those of the PGN standard's rules, of pychess for gates and drops, and of pgn-extract for whole games; they were not written by this
program. The property test takes 400 positions, with --all 20,000.
"""
import os
import random
import sys
import unittest

HERE = os.path.dirname(os.path.abspath(__file__))
TOP = os.path.dirname(os.path.dirname(HERE))
sys.path.insert(0, os.path.join(HERE, ".."))
from vengine import BadInput, Engine, Fault, Referee, Unsupported, find_program
from vengine.games import AskedGame
from vengine.notation import Board, notation_of
from vengine.san import BadMove, Said, find_move, gives_check, is_capture, move_of, notation_in, said_of, san, san_moves, unmarked_san, unmarked_text
from vengine.shared_library import found_library

POSITIONS = 20_000 if "--all" in sys.argv else 400
FAIRY = os.path.join(TOP, "examples", "fairy.ini")
FOOLS_MATE = ["f2f3", "e7e5", "g2g4", "d8h4"]
GATES = "rnbqk2r/pppp1ppp/5n2/2b1p3/2B1P3/5N2/PPPP1PPP/RNBQK2R[HEhe] w KQBCDkqbcd - 4 4"
# A game as pgn-extract 19.04 writes it, whose input had the moves as squares.
PEER = ("e2e4 e7e5 g1f3 b8c6 f1b5 a7a6 b5c6 d7c6 e1g1 c8g4 h2h3 h7h5 h3g4 h5g4 f3e5 d8h4 f2f4 g4g3 d1f3 h4h1",
        "e4 e5 Nf3 Nc6 Bb5 a6 Bxc6 dxc6 O-O Bg4 h3 h5 hxg4 hxg4 Nxe5 Qh4 f4 g3 Qf3 Qh1#")
CHECKS = (("e2e4 d7d5 e4d5 d8d5 b1c3 d5e5 f1e2 g8f6 g1f3 e5a5", "e4 d5 exd5 Qxd5 Nc3 Qe5+ Be2 Nf6 Nf3 Qa5"),
          ("e2e4 f7f6 d1h5 g7g6 h5g6 h7g6", "e4 f6 Qh5+ g6 Qxg6+ hxg6"))


def program():
    """The program that answers, without the launcher, which builds it where it has to."""
    built = os.path.join(TOP, "release", "vengine")
    return find_program() if "VENGINE" in os.environ or not os.path.exists(built) else built


def referee(**named):
    return Referee(library=found_library(), program=program(), **named)


def held(variant, fen="startpos", moves=(), file=None):
    """A game of the library, or where there is none of a referee that starts the program."""
    asked = referee(variants=file)
    return asked.game(variant, fen, moves) if found_library() else AskedGame(asked, variant, fen, moves)


def has_checkers():
    try:
        Referee(library="", program=program()).checkers("chess")
    except Unsupported:
        return False
    return True


def checked(variant, fen="startpos", moves=()):
    """A game that tells its checkers."""
    return AskedGame(Referee(library="", program=program()), variant, fen, moves)


class Forms(unittest.TestCase):
    """What a text says, before any game is asked."""

    def test_said(self):
        for text, said in {
            "e4": Said("", "", "e4", "", "", False),
            "exd5": Said("", "e", "d5", "", "", False),
            "Nbd7": Said("N", "b", "d7", "", "", False),
            "R1a3+": Said("R", "1", "a3", "", "", False),
            "R10a3": Said("R", "10", "a3", "", "", False),
            "Qh4xe1#": Said("Q", "h4", "e1", "", "", False),
            "Rd10": Said("R", "", "d10", "", "", False),
            "e8=Q+": Said("", "", "e8", "q", "", False),
            "e8Q": Said("", "", "e8", "q", "", False),
            "e8(Q)": Said("", "", "e8", "q", "", False),
            "bxa1=N!?": Said("", "b", "a1", "n", "", False),
            "Bxh8=+": Said("B", "", "h8", "+", "", False),
            "+Bg7": Said("+B", "", "g7", "", "", False),
            "exd6e.p.": Said("", "e", "d6", "", "", False),
            "Ng1-f3": Said("N", "g1", "f3", "", "", False),
            "N@f3": Said("N", "", "f3", "", "", True),
            "@e4": Said("P", "", "e4", "", "", True),
            "Nf3/H": Said("N", "", "f3", "h", "", False),
            "O-O": Said("", "", "", "", "O-O", False),
            "0-0-0+": Said("", "", "", "", "O-O-O", False),
            "O-O/Hh1": Said("", "h1", "", "h", "O-O", False),
        }.items():
            self.assertEqual(said_of(text), said, text)
        for text in ("", "e", "e9x9", "Nf", "--", "Zz", "e4e5e6", "O-O-O-O", "1-0", "z4", "e0"):
            self.assertIsNone(said_of(text), text)

    def test_board(self):
        board = Board("4k3/P3+r2/10/Q~2p6/4K5[Nn] b K e3 0 1")
        self.assertEqual([board.piece(square) for square in ("e5", "a4", "e4", "j3", "a2", "d2", "b2", "a9", "l1")],
                         ["k", "P", "+r", "", "Q~", "p", "", "", ""])
        self.assertEqual((board.letter("e4"), board.letter("a2"), board.is_own("e4"), board.is_own("a2")), ("+R", "Q", True, False))
        self.assertEqual((board.has("+R"), board.has("R"), board.has("P"), board.has("Q"), board.holds("N"), board.holds("P")),
                         (True, False, True, False, True, False))

    def test_castles_of_rules(self):
        """Files may be named by numbers, and Black castles on the mirrored rank."""
        notation = notation_of("any", {"king": "k", "rook": "r", "maxRank": "10", "castlingRank": "2", "castlingKingFile": "f", "castlingKingsideFile": "8"})
        self.assertEqual({move: castle.right + castle.said for move, castle in notation.castles.items()},
                         {"f2h2": "KO-O", "f2c2": "QO-O-O", "f9h9": "kO-O", "f9c9": "qO-O-O"})
        self.assertEqual(notation_of("any", {"king": "k", "castling": "false"}).castles, {})
        self.assertEqual(notation_of("any", {"customPiece12": "z:NN", "soldier": "p"}).letters, {"Z", "P"})


class Writing(unittest.TestCase):
    def written(self, expected, variant, fen="startpos", moves=(), file=None):
        """Each move is written as this, and read back."""
        game = held(variant, fen, moves, file)
        for move, text in expected.items():
            self.assertEqual(unmarked_san(game, move), text)
            self.assertEqual(move_of(game, text), move)

    def test_told_apart(self):
        self.written({"b4d4": "Rbd4", "f4d4": "Rfd4", "d2d4": "R2d4", "d6d4": "R6d4"}, "chess", "4k3/8/3R4/8/1R3R2/8/3R4/4K3 w - - 0 1")
        self.written({"e4e1": "Qee1", "h4e1": "Qh4e1", "h1e1": "Q1e1"}, "chess", "1k6/8/8/8/4Q2Q/8/8/K6Q w - - 0 1")

    def test_a_pinned_piece_is_no_rival(self):
        self.written({"g1e2": "Ne2"}, "chess", "3k4/8/8/8/1b6/2N5/8/4K1N1 w - - 0 1")

    def test_pawns(self):
        self.written({"e2e4": "e4", "g1f3": "Nf3"}, "chess")
        self.written({"e5d6": "exd6", "e5e6": "e6"}, "chess", "4k3/8/8/3pP3/8/8/8/4K3 w - d6 0 1")
        self.written({"c7b8q": "cxb8=Q", "c7c8n": "c8=N", "a7b8r": "axb8=R"}, "chess", "1r2k3/P1P5/8/8/8/8/8/4K3 w - - 0 1")

    def test_castles(self):
        self.written({"e1g1": "O-O", "e1c1": "O-O-O", "e1f1": "Kf1"}, "chess", "4k3/8/8/8/8/8/8/R3K2R w KQ - 0 1")
        self.written({"e8g8": "O-O", "e8c8": "O-O-O"}, "chess", "r3k2r/8/8/8/8/8/8/4K3 b kq - 0 1")
        self.written({"f1i1": "O-O", "f1c1": "O-O-O"}, "capablanca", "5k4/10/10/10/10/10/10/R4K3R w KQ - 0 1")

    def test_gates(self):
        """As pychess writes them: the square is said where a castle leaves two."""
        self.written({"g1f3h": "Nf3/H", "g1f3": "Nf3"}, "seirawan")
        self.written({"e1g1": "O-O", "e1g1h": "O-O/He1", "e1g1e": "O-O/Ee1", "h1e1h": "O-O/Hh1", "h1e1e": "O-O/Eh1"}, "seirawan", GATES)

    def test_drops(self):
        self.written({"N@f3": "N@f3", "P@e4": "P@e4", "g1f3": "Nf3"}, "crazyhouse", "rnbqkbnr/pppp1ppp/8/8/8/8/PPPP1PPP/RNBQKBNR[NPnp] w KQkq - 0 3")

    def test_promoted_pieces(self):
        """A piece that becomes another is written with =+, and one that has become it with + in front. Pawns of shogi are no chess pawns."""
        opened = "lnsgkgsnl/1r5b1/pppppp1pp/6p2/9/2P6/PP1PPPPPP/1B5R1/LNSGKGSNL[] w - - 0 1"
        self.written({"b2h8+": "Bxh8=+", "b2h8": "Bxh8", "c4c5": "Pc5"}, "shogi", opened, file=FAIRY)
        self.written({"h8i9": "+Bxi9", "h8g8": "+Bg8"}, "shogi", opened, ["b2h8+", "a7a6"], FAIRY)

    def test_a_move_that_is_not_legal(self):
        game = held("chess")
        for call in (san, unmarked_san, is_capture):
            with self.assertRaises(BadMove) as caught:
                call(game, "e2e5")
            self.assertEqual((caught.exception.text, caught.exception.meant), ("e2e5", []))
        self.assertEqual(game.moves, [])

    def test_mates(self):
        """The mark of a mate needs the status alone."""
        game = held("chess", "startpos", FOOLS_MATE[:3])
        self.assertEqual(san(game, "d8h4"), "Qh4#")
        self.assertEqual(game.moves, FOOLS_MATE[:3])

    def test_captures(self):
        self.assertTrue(is_capture(held("chess", "4k3/8/8/3pP3/8/8/8/4K3 w - d6 0 1"), "e5d6"))
        self.assertFalse(is_capture(held("chess", "4k3/8/8/8/8/8/8/4K2R w K - 0 1"), "e1g1"))
        self.assertFalse(is_capture(held("seirawan", GATES), "h1e1h"))
        self.assertFalse(is_capture(held("crazyhouse", "4k3/8/8/8/8/8/8/4K3[N] w - - 0 1"), "N@f3"))
        self.assertTrue(is_capture(held("chess", "startpos", ["e2e4", "d7d5"]), "e4d5"))


class Reading(unittest.TestCase):
    def read(self, game, expected):
        for text, move in expected.items():
            self.assertEqual(move_of(game, text), move, text)

    def test_lenient(self):
        self.read(held("chess", "r3k3/1P6/8/8/3p4/5N2/8/4K2R w K - 0 1"), {
            "O-O": "e1g1", "0-0": "e1g1", "OO": "e1g1", "o-o": "e1g1", "O-O!": "e1g1", "e1g1": "e1g1", "e1-g1": "e1g1", "e1g1!?": "e1g1",
            "Nd4": "f3d4", "Nxd4": "f3d4", "N:d4": "f3d4", "Nf3xd4": "f3d4", "Nf3-d4?!": "f3d4", "f3d4": "f3d4", "Nd4+": "f3d4", "Nd4#!!": "f3d4",
            "b8Q": "b7b8q", "b8=q": "b7b8q", "b8=Q+": "b7b8q", "b8/Q": "b7b8q", "b8(Q)": "b7b8q", "b7b8=Q": "b7b8q", "ba8N": "b7a8n", "bxa8=N": "b7a8n"})
        self.read(held("chess", "4k3/8/8/3pP3/8/8/8/4K3 w - d6 0 1"), {"ed6": "e5d6", "exd6": "e5d6", "exd6e.p.": "e5d6", "exd6ep": "e5d6"})
        self.read(held("crazyhouse", "4k3/8/8/8/8/8/8/4K3[NP] w - - 0 1"), {"@e4": "P@e4", "P@e4": "P@e4", "N@e4+": "N@e4", "n@e4": "N@e4"})
        self.read(held("seirawan", GATES), {"O-O/H": "e1g1h", "O-O/Hh1": "h1e1h", "0-0/He1": "e1g1h"})

    def test_other_letters(self):
        """XBoard calls the horse of xiangqi H and its elephant E; here they are N and B."""
        self.read(held("xiangqi"), {"Hc3": "b1c3", "Nc3": "b1c3", "Ece3": "c1e3", "Bge3": "g1e3"})

    def test_refused(self):
        with self.assertRaises(BadMove) as caught:
            move_of(held("chess", "4k3/8/8/8/8/8/8/R3K2R w - - 0 1"), "Rxe1")
        self.assertEqual(caught.exception.meant, [])
        twice = held("chess", "4k3/8/8/8/8/2N5/8/4K1N1 w - - 0 1")
        with self.assertRaises(BadMove) as caught:
            move_of(twice, "Ne2")
        self.assertEqual(caught.exception.meant, ["c3e2", "g1e2"])
        for text in ("", "Ne2 ", "hello", "O-O", "--", "Bd4", "e2e4"):
            with self.assertRaises(BadMove, msg=text):
                move_of(twice, text)
        with self.assertRaises(BadInput):
            move_of(twice, None)

    def test_without_its_promotion(self):
        with self.assertRaises(BadMove):
            move_of(held("chess", "4k3/1P6/8/8/8/8/8/4K3 w - - 0 1"), "b8")


class Games(unittest.TestCase):
    """A game that is asked of a session says what one of the library says."""

    def test_asked_and_held(self):
        draw = random.Random(4)
        with Engine(program(), variants=FAIRY) as engine:
            for variant in ("chess", "crazyhouse", "seirawan", "shogi", "xiangqi"):
                ours, theirs = held(variant, file=FAIRY), AskedGame(engine, variant)
                self.assertEqual(ours.rules(), theirs.rules())
                for _ in range(30):
                    self.assertEqual((ours.legal_moves(), ours.status()), (theirs.legal_moves(), theirs.status()))
                    move = draw.choice(ours.legal_moves())
                    self.assertEqual(unmarked_san(ours, move), unmarked_san(theirs, move))
                    for game in (ours, theirs):
                        game.play(move)
                        self.assertRaises(Fault, game.play, "a1a1")
                for game in (ours, theirs):
                    game.undo()
                self.assertEqual((ours.moves, ours.status()), (theirs.moves, theirs.status()))

    def test_nothing_to_take_back(self):
        with Engine(program()) as engine:
            self.assertRaises(BadInput, AskedGame(engine, "chess").undo)
            game = AskedGame(engine, "chess", "startpos", ["e2e4", "e7e5"])
            game.undo()
            game.undo()
            self.assertEqual(game.status()[1], "rnbqkbnr/pppppppp/8/8/8/8/PPPPPPPP/RNBQKBNR w KQkq - 0 1")


class EveryMove(unittest.TestCase):
    """Each legal move of a position has a SAN of its own, which is read as that move."""

    def test_unlike_the_others(self):
        asked, draw, seen = referee(variants=FAIRY), random.Random(11), 0
        names = [line.split(" ")[0] for line in asked.command("variants").splitlines() if line.endswith(" ok")]
        self.assertGreaterEqual(len(names), 30)
        while seen < POSITIONS:
            for name in names:
                game = held(name, file=FAIRY)
                for _ in range(draw.choice((10, 40, 150))):
                    legal = game.legal_moves()
                    if not legal:
                        break
                    if draw.random() < 0.3:
                        self.positions_moves(game, legal)
                        seen += 1
                    game.play(draw.choice(legal))

    def positions_moves(self, game, legal):
        board, notation = Board(game.status()[1]), notation_in(game)
        texts = [unmarked_text(move, legal, board, notation) for move in legal]
        self.assertEqual(len(set(texts)), len(legal), (game.variant, board.fen))
        for move, text in zip(legal, texts):
            self.assertEqual(find_move(text, legal, board, notation), move, (game.variant, board.fen, text))


@unittest.skipUnless(has_checkers(), "the program has no `checkers` yet")
class Checks(unittest.TestCase):
    def test_gives_check(self):
        game = checked("chess", "startpos", ["e2e4", "f7f6"])
        self.assertTrue(gives_check(game, "d1h5"))
        self.assertFalse(gives_check(game, "d1g4"))
        self.assertEqual(game.moves, ["e2e4", "f7f6"])
        # The king may be taken in antichess: nothing gives check.
        self.assertFalse(gives_check(checked("antichess", "startpos", ["e2e4", "f7f6"]), "d1h5"))

    def test_marks(self):
        for moves, sans in (*CHECKS, PEER):
            self.assertEqual(san_moves(checked("chess"), moves.split()), sans.split())

    def test_a_check_by_what_comes_in(self):
        self.assertEqual(san(checked("seirawan", "4k3/8/8/8/8/8/8/4NK2[R] w E - 0 1".replace("[R]", "[E]")), "e1d3e"), "Nd3/E+")
        self.assertEqual(san(checked("crazyhouse", "4k3/8/8/8/8/8/8/4K3[N] w - - 0 1"), "N@f6"), "N@f6+")
        self.assertEqual(san(checked("chess", "4k3/P7/8/8/8/8/8/4K3 w - - 0 1"), "a7a8q"), "a8=Q+")
        self.assertEqual(san(checked("chess", "5k2/8/8/8/8/8/8/4K2R w K - 0 1"), "e1g1"), "O-O+")

    def test_the_calls_of_a_session(self):
        """The calls that users of pyffish know."""
        with Engine(program()) as engine:
            for moves, sans in (*CHECKS, PEER):
                self.assertEqual(engine.get_san_moves("chess", "startpos", moves.split()), sans.split())
            self.assertEqual(engine.get_san("crazyhouse", "4k3/8/8/8/8/8/8/4K3[N] w - - 0 1", "N@f6"), "N@f6+")
            self.assertEqual(engine.get_san("chess", engine.get_fen("chess", "startpos", FOOLS_MATE[:3]), "d8h4"), "Qh4#")
            with self.assertRaises(BadMove):
                engine.get_san("chess", "startpos", "e2e5")
            with self.assertRaises((BadMove, Fault)):
                engine.get_san_moves("chess", "startpos", ["e2e4", "e2e4"])
            with self.assertRaises(BadInput):
                engine.get_san_moves("chess", "startpos", "e2e4")


if __name__ == "__main__":
    done = unittest.main(argv=[word for word in sys.argv if word != "--all"], exit=False).result
    failed = len(done.failures) + len(done.errors)
    print(f"{max(0, done.testsRun - failed - len(done.skipped))} passed, {failed} failed")
    sys.exit(1 if failed else 0)
