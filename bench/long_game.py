#!/usr/bin/env python3
"""Plays the longest game of the largest variant: 8,192 plies on 12 by 10 squares, with 24 custom pieces and 120 pieces in hand.

Usage: bench/long_game.py [PROGRAM]      (VENGINE or ../vengine by default)

Positions are repeated all the time, and two of a kind end a game of this variant, which may go on. The program must say where the game
stands after 8,192 plies, and refuse one ply more. Prints the seconds of both, and ends with status 1 where an answer is another.
"""
import os
import subprocess
import sys
import tempfile
import time

from programs import find_program

LETTERS = "abcdefghijlmnopqrstuvwxy"
WORDS = "W F N R B D A L H mRcpR WF RN BN nN gR pB C Z mNcB fsW Q RF BW G".split()
OPTIONS = """[big]
maxFile = 12
maxRank = 10
king = k
castling = false
doubleStep = false
pieceDrops = true
capturesToHand = true
nFoldRule = 2
nMoveRule = 0
"""
ROUND = ["a1a2", "a10a9", "a2a1", "a9a10"]


def variant():
    pieces = [f"customPiece{i} = {letter}:{word}\n" for i, (letter, word) in enumerate(zip(LETTERS, WORDS), 1)]
    hand = "".join(letter.upper() * 5 for letter in LETTERS)
    ranks = "/".join(["k10a"] + ["12"] * 8 + ["K10A"])
    return OPTIONS + "".join(pieces) + f"startFen = {ranks}[{hand}] w - - 0 1\n", hand


def status(program, file, plies):
    moves = " ".join((ROUND * (plies // 4 + 1))[:plies])
    start = time.perf_counter()
    done = subprocess.run([program, "--variants", file, "status"], input=f"big\nstartpos\n{moves}\n", capture_output=True, text=True)
    return (done.returncode, done.stdout), time.perf_counter() - start


def main():
    program = os.path.abspath(sys.argv[1]) if len(sys.argv) > 1 else find_program()
    text, hand = variant()
    ranks = "/".join(["k10a"] + ["12"] * 8 + ["K10A"])
    wanted = {
        8192: (0, f"drawn repetition\n{ranks}[{hand}] w - - 8192 4097\n"),
        8193: (3, "error GameFault 6 TooManyMoves\n"),
    }
    wrong = 0
    with tempfile.NamedTemporaryFile("w", suffix=".ini") as file:
        file.write(text)
        file.flush()
        for plies, answer in wanted.items():
            found, seconds = status(program, file.name, plies)
            wrong += found != answer
            print(f"{plies} plies: {seconds:.3f} s{'' if found == answer else f', WRONG: {found}'}")
    sys.exit(1 if wrong else 0)


if __name__ == "__main__":
    main()
