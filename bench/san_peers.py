#!/usr/bin/env python3
"""Compares SAN of the package with what pgn-extract and Scid write for the same games of chess.

Usage: bench/san_peers.py [--moves N] [--seed N]      (5,000 moves)

The games are of random legal moves, up to 200 plies long. They are written as PGN with the moves as squares, which both programs read, and both write them in SAN.
Wants Debian's pgn-extract, or scid with xvfb; what is missing is named, and with neither the status is 2. Where the program has no `checkers` yet, the marks of
checks are left out of the comparison. Prints how many moves were the same; ends with 1 where one differs.
"""
import argparse
import os
import random
import re
import shutil
import subprocess
import sys
import tempfile

sys.path.insert(0, os.path.join(os.path.dirname(os.path.abspath(__file__)), "..", "python"))
from vengine import Referee, Unsupported
from vengine.pgn import games_in, read_game, write_game
from vengine.san import san, unmarked_san
from vengine.shared_library import found_library

PATH = os.pathsep.join([os.environ.get("PATH", ""), "/usr/games"])
SCID = """
set base [sc_base create [lindex $argv 0]]
sc_base import $base [lindex $argv 1]
set n [sc_base numGames $base]
for {set i 1} {$i <= $n} {incr i} { sc_game load $i; puts [sc_game pgn -tags 1 -comments 0 -var 0 -width 75]; puts "" }
exit 0
"""


def random_games(referee, least, draw):
    """Games of at least so many moves in all: the moves as squares, and in SAN."""
    games, total, has_marks = [], 0, True
    while total < least:
        with referee.game("chess") as game:
            sans = []
            for _ in range(200):
                legal = game.legal_moves()
                if not legal:
                    break
                move = draw.choice(legal)
                try:
                    sans.append(san(game, move) if has_marks else unmarked_san(game, move))
                except Unsupported:
                    has_marks = False
                    sans.append(unmarked_san(game, move))
                game.play(move)
            games.append((list(game.moves), sans))
            total += len(sans)
    return games, has_marks


def by_pgn_extract(path, folder):
    """What pgn-extract writes of the games of a file; None where it is missing."""
    program = shutil.which("pgn-extract", path=PATH)
    if program is None:
        return None
    return subprocess.run([program, "--quiet", "-Wsan", path], stdout=subprocess.PIPE, stderr=subprocess.DEVNULL, check=True).stdout


def by_scid(path, folder):
    """The same by Scid."""
    program, display = shutil.which("tkscid", path=PATH), shutil.which("xvfb-run")
    if program is None or display is None:
        return None
    script = os.path.join(folder, "write.tcl")
    with open(script, "w", encoding="ascii") as file:
        file.write(SCID)
    words = [display, "-a", program, script, os.path.join(folder, "base"), path]
    return subprocess.run(words, stdout=subprocess.PIPE, stderr=subprocess.DEVNULL, check=True).stdout


def main():
    words = argparse.ArgumentParser(description=__doc__.splitlines()[0])
    words.add_argument("--moves", type=int, default=5000)
    words.add_argument("--seed", type=int, default=1)
    given = words.parse_args()
    games, has_marks = random_games(Referee(library=found_library()), given.moves, random.Random(given.seed))
    plain = (lambda text: text) if has_marks else (lambda text: re.sub("[+#]", "", text))
    compared, differ = 0, 0
    with tempfile.TemporaryDirectory() as folder:
        path = os.path.join(folder, "games.pgn")
        with open(path, "w", encoding="ascii") as file:
            file.writelines(write_game({"Event": str(number)}, moves) for number, (moves, _) in enumerate(games))
        for name, write in (("pgn-extract", by_pgn_extract), ("Scid", by_scid)):
            text = write(path, folder)
            if text is None:
                print(f"{name} is missing")
                continue
            with open(os.path.join(folder, name), "wb") as file:
                file.write(text)
            with open(os.path.join(folder, name), "rb") as file:
                theirs = [[plain(move.text) for move in read_game(raw).moves] for raw in games_in(file)]
            ours = [[plain(text) for text in sans] for _, sans in games]
            wrong = [(number, mine, other) for number, (mine, other) in enumerate(zip(ours, theirs)) if mine != other]
            for number, mine, other in wrong[:5]:
                print("DIFFER", number, [pair for pair in zip(mine, other) if pair[0] != pair[1]][:3], len(mine), len(other))
            moves = sum(map(len, ours))
            compared, differ = compared + moves, differ + len(wrong) + (len(theirs) != len(ours))
            print(f"{name}: {moves} moves of {len(theirs)} games, {len(wrong)} games differ{'' if has_marks else ', without the marks of checks'}")
    return 2 if not compared else 1 if differ else 0


if __name__ == "__main__":
    sys.exit(main())
