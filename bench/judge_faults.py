#!/usr/bin/env python3
"""Plants faults in games of PGN at known places, and has `python -m vengine judge` find them: every one, and no other.

Usage: bench/judge_faults.py [--games N] [--jobs N] [--seed N] [--keep FILE]      (10,000 games, a process for each processor)

The games are of random legal moves of the built-in variants, up to 120 plies long, written in SAN or as squares, some with comments and variations. Half of
them get one fault: a move that no piece makes, a start without a piece, a move left out, a move after the end, a result that is not that of the rules, a
byte 0, or a comment that does not end. Prints how many faults of each kind were found and missed, and how many plies were judged in a minute; ends with 1
where one was missed or invented. `--keep` writes the games there too.
"""
import argparse
import collections
import json
import os
import random
import subprocess
import sys
import tempfile
import time

sys.path.insert(0, os.path.join(os.path.dirname(os.path.abspath(__file__)), "..", "python"))
from vengine import Referee
from vengine.notation import Board
from vengine.pgn import game_tags, write_game
from vengine.san import BadMove, find_move, notation_in, unmarked_text
from vengine.shared_library import found_library

VARIANTS = "chess crazyhouse 3check kingofthehill antichess extinction losalamos capablanca seirawan xiangqi".split()
TOP = os.path.join(os.path.dirname(os.path.abspath(__file__)), "..")


class Game:
    """A random game: the texts of its moves, what stood before each, and how it ended."""

    def __init__(self, held, draw):
        self.variant, self.notation = held.variant, notation_in(held)
        self.texts, self.moves, self.legal, self.boards = [], [], [], []
        is_san = draw.random() < 0.8
        for _ in range(draw.choice((12, 40, 120))):
            legal, board = held.legal_moves(), Board(held.status()[1])
            if not legal:
                break
            move = draw.choice(legal)
            self.legal.append(legal)
            self.boards.append(board)
            self.moves.append(move)
            self.texts.append(unmarked_text(move, legal, board, self.notation) if is_san else move)
            held.play(move)
        self.result = held.status()[0]
        for _ in self.moves:
            held.undo()


def is_legal(game, ply, text):
    """Whether a text may be a legal move, or may mean several, before the move of this number, from 0."""
    try:
        find_move(text, game.legal[ply], game.boards[ply], game.notation)
    except BadMove as bad:
        return bool(bad.meant)
    return True


def square(draw, game):
    return draw.choice("abcdefghij"[:9 if game.variant == "xiangqi" else 6 if game.variant == "losalamos" else 8]) + str(draw.randint(1, 6))


def a_move_of_no_piece(game, draw):
    ply = draw.randrange(len(game.texts))
    return ply, draw.choice(sorted(game.notation.letters)) + square(draw, game)


def a_start_without_a_piece(game, draw):
    ply = draw.randrange(len(game.texts))
    return ply, square(draw, game) + square(draw, game)


def the_next_move(game, draw):
    """A move is left out, so that the next but one stands in its place."""
    ply = draw.randrange(len(game.texts))
    return (ply, game.texts[ply + 1]) if ply + 1 < len(game.texts) else (ply, "Zz9")


MOVES = {"no piece goes there": a_move_of_no_piece, "no piece there": a_start_without_a_piece, "left out": the_next_move}


def planted(game, draw, kind):
    """The moves of a game with a fault of this kind, and its ply, counted from 1; None where the game has no place for it."""
    for _ in range(50):
        ply, text = MOVES[kind](game, draw)
        if not is_legal(game, ply, text):
            return [*game.texts[:ply], text, *game.texts[ply + 1:]], ply + 1
    return None


def decorated(texts, draw):
    """Moves with comments, variations and annotations among them."""
    said = []
    for text in texts:
        said.append(text + draw.choice(["", "", "", "!", "?!"]))
        if draw.random() < 0.1:
            said.append(draw.choice(["{a comment; with (much) [in] it 1-0}", "(1. e4 e5 (1... d5 2. exd5) 2. Nf3)", "$14", "; to the end of the line\n"]))
    return said


def written(game, draw, number):
    """The PGN of a game, what was planted in it, and where: the ply, 0 being the text itself, or -1 its result."""
    texts, kind, ply = game.texts, None, None
    result = game.result.score
    if draw.random() < 0.5 and texts:
        kind = draw.choice([*MOVES, "after the end", "result", "a byte 0", "no end of a comment"])
        if kind in MOVES:
            found = planted(game, draw, kind)
            texts, ply = found if found else (texts, None)
        elif kind == "after the end" and game.result.cause in ("checkmate", "stalemate", "extinction", "flag", "checks"):
            texts, ply = [*texts, draw.choice(texts)], len(texts) + 1
        elif kind == "result" and game.result.is_over:
            result, ply = draw.choice([score for score in ("1-0", "0-1", "1/2-1/2") if score != result]), -1
        elif kind in ("a byte 0", "no end of a comment"):
            ply = 0
        kind = kind if ply is not None else None
    tags = {"Event": str(number), **game_tags(game.variant, None)}
    said = decorated(texts, draw)
    if kind == "a byte 0":
        said.insert(draw.randrange(len(said) + 1), "\0")
    elif kind == "no end of a comment":
        at = draw.randrange(len(said) + 1)
        said = [*said[:at], "{ a comment without its end", *(word for word in said[at:] if "}" not in word)]
    if said == texts:
        return write_game(tags, texts, result=result), kind, ply
    header = write_game(tags, [], result=result)[:-len(result) - 2]
    return header + " ".join([*said, "\n" + result]) + "\n\n", kind, ply


def judged(path, jobs):
    """The objects that the command prints, and how long it took."""
    begun = time.perf_counter()
    done = subprocess.run([sys.executable, "-m", "vengine", "judge", "--json", "--jobs", str(jobs), path], stdout=subprocess.PIPE,
                          env={**os.environ, "PYTHONPATH": os.path.join(TOP, "python"), "VENGINE_LIBRARY": found_library()})
    return [json.loads(line) for line in done.stdout.splitlines()], time.perf_counter() - begun


def is_as_planted(verdict, kind, ply):
    """Whether a verdict tells what was planted, and nothing else."""
    if kind is None:
        return verdict["fault"] is None and verdict["agrees"] is not False
    if ply == -1:
        return verdict["fault"] is None and verdict["agrees"] is False
    return verdict["fault"] is not None and verdict["fault"]["ply"] == ply


def main():
    words = argparse.ArgumentParser(description=__doc__.splitlines()[0])
    words.add_argument("--games", type=int, default=10_000)
    words.add_argument("--jobs", type=int, default=os.cpu_count())
    words.add_argument("--seed", type=int, default=1)
    words.add_argument("--keep")
    given = words.parse_args()
    draw, referee = random.Random(given.seed), Referee(library=found_library())
    held = {variant: referee.game(variant) for variant in VARIANTS}
    expected, plies = [], 0
    with tempfile.TemporaryDirectory() as folder:
        path = given.keep or os.path.join(folder, "games.pgn")
        with open(path, "w", encoding="ascii") as file:
            for number in range(given.games):
                game = Game(held[draw.choice(VARIANTS)], draw)
                text, kind, ply = written(game, draw, number + 1)
                file.write(text)
                expected.append((kind, ply))
        verdicts, seconds = judged(path, given.jobs)
    found, wrong = collections.Counter(), []
    for (kind, ply), verdict in zip(expected, verdicts):
        if is_as_planted(verdict, kind, ply):
            found[kind] += 1
        else:
            wrong.append((kind, ply, verdict))
        plies += verdict["plies"]
    for kind, number in sorted(found.items(), key=str):
        print(f"{number:6} {kind or 'without a fault'}")
    for case in wrong[:20]:
        print("WRONG", *case)
    print(f"{len(verdicts)} games of {given.games}, {len(wrong)} wrong; {plies} plies in {seconds:.1f} s: {60 * plies / seconds:,.0f} a minute")
    return 1 if wrong or len(verdicts) != given.games else 0


if __name__ == "__main__":
    sys.exit(main())
