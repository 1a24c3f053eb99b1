#!/usr/bin/env python3
"""How many positions of a large variant have their legal moves found a second: 12 by 10 squares, 24 custom pieces.

Usage: bench/custom_speed.py [PROGRAM [OTHER]]      (VENGINE or ../vengine by default; with a second program, alternating runs of both)

The pieces are riders, hoppers, grasshoppers, lame leapers and pieces with different moves to go and to take, all of each side on
their first three ranks. `perft` finds the moves of each position up to its last ply, where it counts them. The time that a program
takes to start and to find those of the first position is taken off. Ends with status 1 where two programs count differently.
"""
import os
import subprocess
import sys
import tempfile
import time

from programs import find_program

LETTERS = "abcdefghijlmnopqrstuvwxy"
WORDS = "NN WW FF R B Q mRcpR mBcpB pR pB gR gB gQ nN nA nD nNF RN BN mNcB mRcN WFDA C WnN".split()
RUNS = 3
PLIES = 3
OPTIONS = """[large]
maxFile = 12
maxRank = 10
king = k
castling = false
doubleStep = false
nMoveRule = 0
nFoldRule = 0
"""


def variant():
    pieces = [f"customPiece{i} = {letter}:{word}\n" for i, (letter, word) in enumerate(zip(LETTERS, WORDS), 1)]
    ranks = [LETTERS[:5] + "k" + LETTERS[5:11], LETTERS[11:23], "5" + LETTERS[23] + "6"]
    start = "/".join(ranks + ["12"] * 4 + [rank.upper() for rank in reversed(ranks)])
    return OPTIONS + "".join(pieces) + f"startFen = {start} w - - 0 1\n"


def perft(program, file, plies):
    start = time.perf_counter()
    words = [program, "--variants", file, "perft", str(plies)]
    done = subprocess.run(words, input="large\nstartpos\n", capture_output=True, text=True, check=True)
    return int(done.stdout), time.perf_counter() - start


def main():
    programs = [os.path.abspath(word) for word in sys.argv[1:]] or [find_program()]
    best = [None] * len(programs)
    with tempfile.NamedTemporaryFile("w", suffix=".ini") as file:
        file.write(variant())
        file.flush()
        lists = sum(perft(programs[0], file.name, plies)[0] for plies in range(1, PLIES))
        counts = set()
        for _ in range(RUNS):
            for i, program in enumerate(programs):
                base = perft(program, file.name, 1)[1]
                count, taken = perft(program, file.name, PLIES)
                counts.add(count)
                rate = lists / max(taken - base, 1e-6)
                best[i] = max(best[i] or 0, rate)
    for program, rate in zip(programs, best):
        print(f"{program}: {rate:.0f} positions a second")
    if len(programs) == 2:
        print(f"ratio {best[0] / best[1]:.2f}")
    sys.exit(0 if len(counts) == 1 else 1)


if __name__ == "__main__":
    main()
