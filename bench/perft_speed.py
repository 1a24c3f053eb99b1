#!/usr/bin/env python3
"""How fast `perft` counts, beside Fairy-Stockfish: alternating runs of both in one call.

Usage: bench/perft_speed.py [RUNS [VARIANT ..]]      (runs of each, 3 by default; the best counts: some five minutes for each)

Wants Debian's package fairy-stockfish. The time that each program takes to start and to count one ply is taken off. For each row, or
each of the variants that are named, it prints the count, the millions of moves a second of both, and the ratio. Ends with an error
where the counts of a row differ. VENGINE=FILE names another program.
"""
import subprocess
import sys
import tempfile
import time

from programs import OTHER, find_program

ENGINE = find_program()
MIDDLE = "r3k2r/p1ppqpb1/bn2pnp1/3PN3/1p2P3/2N2Q1p/PPPBBPPP/R3K2R w KQkq - 0 1"
OTHER_MIDDLE = "r4rk1/1pp1qppp/p1np1n2/2b1p1B1/2B1P1b1/P1NP1N2/1PP1QPPP/R4RK1 w - - 0 10"
ENDING = "8/2p5/3p4/KP5r/1R3p1k/8/4P1P1/8 w - - 0 1"
ROWS = [
    ("chess", "startpos", 6),
    ("crazyhouse", "startpos", 6),
    ("3check", "startpos", 6),
    ("kingofthehill", "startpos", 6),
    ("antichess", "startpos", 6),
    ("extinction", "startpos", 5),
    ("losalamos", "startpos", 7),
    ("capablanca", "startpos", 5),
    ("seirawan", "startpos", 5),
    ("xiangqi", "startpos", 5),
    ("chess", MIDDLE, 5),
    ("chess", OTHER_MIDDLE, 5),
    ("chess", ENDING, 7),
    ("wide", "startpos", 4),
]
# 12 files and 10 ranks, the most that there are, with the pieces that both programs know.
WIDE = """[wide:chess]
maxFile = 12
maxRank = 10
castling = false
archbishop = a
chancellor = c
amazon = m
centaur = e
promotionPieceTypes = qcamerbn
doubleStepRegionWhite = *2
doubleStepRegionBlack = *9
promotionRegionWhite = *10
promotionRegionBlack = *1
startFen = rnbeqkmcabnr/pppppppppppp/12/12/12/12/12/12/PPPPPPPPPPPP/RNBEQKMCABNR w - - 0 1
"""


def ours(file, variant, position, plies):
    words = [ENGINE, "--variants", file, "perft", str(plies)]
    start = time.perf_counter()
    done = subprocess.run(words, input=f"{variant}\n{position}\n", capture_output=True, text=True)
    return int(done.stdout), time.perf_counter() - start


def theirs(file, variant, position, plies):
    place = position if position == "startpos" else "fen " + position
    lines = f"setoption name VariantPath value {file}\nsetoption name UCI_Variant value {variant}\nposition {place}\ngo perft {plies}\nquit\n"
    start = time.perf_counter()
    done = subprocess.run([OTHER], input=lines, capture_output=True, text=True)
    taken = time.perf_counter() - start
    return int(done.stdout.split("Nodes searched:")[1].split()[0]), taken


def alternating(file, variant, position, plies, runs):
    """Both counts of the row, and the least time that each program took, over runs of one after the other."""
    counts = [0, 0]
    least = [float("inf"), float("inf")]
    for _ in range(runs):
        for place, count in enumerate((ours, theirs)):
            counts[place], taken = count(file, variant, position, plies)
            least[place] = min(least[place], taken)
    return counts, least


def measured(file, variant, position, plies, runs):
    """Measures and prints a row; whether both programs count the same."""
    _, bases = alternating(file, variant, position, 1, runs)
    counts, least = alternating(file, variant, position, plies, runs)
    rates = [count / max(taken - base, 1e-6) / 1e6 for count, taken, base in zip(counts, least, bases)]
    same = counts[0] == counts[1]
    note = "" if same else f" (there {counts[1]})"
    print(f"{variant} {position} perft {plies}: {counts[0]}{note}, {rates[0]:.2f} and {rates[1]:.2f} M/s, ratio {rates[0] / rates[1]:.2f}", flush=True)
    return same


def main():
    runs = int(sys.argv[1]) if len(sys.argv) > 1 else 3
    only = sys.argv[2:]
    if OTHER is None:
        sys.exit("perft_speed: wants Debian's package fairy-stockfish")
    with tempfile.NamedTemporaryFile("w", suffix=".ini") as file:
        file.write(WIDE)
        file.flush()
        rows = [measured(file.name, *row, runs) for row in ROWS if not only or row[0] in only]
    if not all(rows):
        sys.exit("perft_speed: the counts differ")


main()
