#!/usr/bin/env python3
"""How the time of a mate grows with the length of its strategy: 1,000, 4,000 and 16,000 nodes.

Usage: bench/strategy_length.py [--times N]

On a board of twelve files and ten ranks a white pawn marches to the last rank, where it mates; White has no other move.
The kings do not move, and Black has a number of pieces that step forward and do nothing else. So the search has next to
nothing to find, and the strategy has a node for each choice of the steps that Black's pieces have made. For each length
the script prints the nodes, the seconds from `go mate` to `bestmove` (the least of N times, 3 by default), and how many
times as long as the length before that took. VENGINE=FILE names another program.
"""
import argparse
import os
import sys
import tempfile
import time

from programs import find_program
from vengine import Lines

RULES = """[march]
maxFile = 12
maxRank = 10
king = k:cK
pawn = p
queen = q
customPiece1 = u:fmW
castling = false
doubleStep = false
promotionRegionWhite = *10
promotionRegionBlack = *1
promotionPieceTypes = q
nMoveRule = 0
nFoldRule = 0
startFen = 11k/2uuuuuuuuuu/12/12/12/12/12/P11/12/1K10 w - - 0 1
"""
# Black's pieces, White's moves, and the nodes of the strategy: two for each choice of fewer steps than that
LENGTHS = [(8, 5, 990), (9, 6, 4004), (10, 7, 16016)]


def position(pieces, moves):
    """The position in which White mates in so many moves."""
    ranks = ["11k", "2" + "u" * pieces + (str(10 - pieces) if pieces < 10 else "")] + ["12"] * 7 + ["1K10"]
    ranks[moves] = "P11"
    return "/".join(ranks) + " w - - 0 1"


def nodes_and_seconds(command, pieces, moves):
    """How many nodes the strategy has, and how long the mate took."""
    session = Lines(command, timeout=120)
    session.ask("uci", "uciok")
    session.say("setoption name UCI_Variant value march", f"position fen {position(pieces, moves)}")
    session.ask("isready", "readyok")
    begun = time.perf_counter()
    session.ask(f"go mate {moves}", "bestmove", 600)
    taken = time.perf_counter() - begun
    told = session.ask("strategy", lambda line: line in ("end", "info string no strategy"))
    session.say("quit")
    return sum(line.startswith("node ") for line in told), taken


def main():
    parser = argparse.ArgumentParser(description=__doc__, formatter_class=argparse.RawDescriptionHelpFormatter)
    parser.add_argument("--times", type=int, default=3)
    times = parser.parse_args().times
    with tempfile.TemporaryDirectory() as folder:
        path = os.path.join(folder, "march.ini")
        with open(path, "w") as file:
            file.write(RULES)
        before = None
        for pieces, moves, nodes in LENGTHS:
            runs = [nodes_and_seconds([find_program(), "--variants", path], pieces, moves) for _ in range(times)]
            if any(found != nodes for found, _ in runs):
                sys.exit(f"strategy_length: {[found for found, _ in runs]} nodes in place of {nodes}")
            taken = min(seconds for _, seconds in runs)
            line = f"{nodes} nodes: {taken:.3f} s"
            if before is not None:
                line += f", {taken / before[1]:.1f} times as long for {nodes / before[0]:.1f} times as many"
            print(line)
            before = nodes, taken


if __name__ == "__main__":
    main()
