#!/usr/bin/env python3
"""How large the trees of the search are, and how many nodes a second it enters, beside Fairy-Stockfish's classical search.

Usage: bench/search_speed.py [--depth D] [--workers N ..] [--variant NAME ..] [--callgrind] [--program PROGRAM]

Thirty positions of five built-in variants, six each: the start, and five of a game that Fairy-Stockfish played. Each is searched in a
CECP session to the depth (6 by default), one depth after another, as a session does.

trees     the nodes entered at depths 4 to D, those of the captures at the ends of lines too, against the leaves of alpha-beta's least
          tree, b^ceil(d/2) + b^floor(d/2) - 1, where b is the cube root of the count of lines of three moves
speed     nodes a second, beside Fairy-Stockfish's as it counts them itself: both search the same position, one after the other, for
          the same time (wants Debian's package fairy-stockfish, and is left out without it)
workers   for each number of workers (1 2 4 by default) the nodes of that worker which entered most, and the time to the last depth,
          against one worker. A machine that does other work shows longer times
callgrind with --callgrind, the instructions a node of the starts at depth 4 (wants valgrind)

All ratios are of one run. Means of ratios are geometric.
"""
import argparse
import math
import re
import shutil
import subprocess
import time

from programs import OTHER, built
from vengine import Ended, Lines

POSITIONS = {
    "chess": [
        "rnbqkbnr/pppppppp/8/8/8/8/PPPPPPPP/RNBQKBNR w KQkq - 0 1",
        "r2qkbnr/pbpp1ppp/np2p3/8/2P2P2/2N1P3/PP1P2PP/R1BQKBNR w KQkq - 3 5",
        "r1q1k2r/pbppnppp/n3p3/2p5/Qb1P1P2/2N1PN2/PP4PP/R1B1KB1R w KQkq - 4 9",
        "r1q1k2r/pb1pnppp/n3p3/8/Q2p1P2/P2BPN2/6PP/R1B1K2R w KQkq - 0 13",
        "2r1k2r/pb1pn1pp/2q1pp2/2n5/3Q1P1N/P3P3/2B3PP/R1B2RK1 w k - 6 17",
        "2r1k2r/p2pn1pp/4pp2/8/4bP1N/P3P3/3B2PP/1R3RK1 w k - 0 21",
    ],
    "crazyhouse": [
        "rnbqkbnr/pppppppp/8/8/8/8/PPPPPPPP/RNBQKBNR[] w KQkq - 0 1",
        "rn1qkbnr/pp2pppp/2p5/3p3b/8/1P2PN1P/P1PP1PP1/RNBQKB1R[] w KQkq - 1 5",
        "r2qkb1r/pp1nnppp/2p1p1b1/3p4/6PN/1P1BP2P/PBPP1P2/RN1QK2R[] w KQkq - 3 9",
        "r2qkb1r/pp1n1pp1/2pnp1p1/3p4/3Bn1P1/1P2PB1P/PBPP1P2/RN1QK2R[] w KQkq - 4 13",
        "r2qkb2/pp3ppr/2p1p1p1/1n1pn1n1/6P1/1P2P2P/PBPPQP1R/RN2K2B[b] w Qq - 0 17",
        "r2qk3/pp2bppr/2p1pbp1/1N1p2n1/6P1/1P2P2P/PbPPQP1R/R3K2B[NN] w Qq - 3 21",
    ],
    "3check": [
        "rnbqkbnr/pppppppp/8/8/8/8/PPPPPPPP/RNBQKBNR w KQkq - 3+3 0 1",
        "rn1qkb1r/pp2pppp/2p4n/3p4/6b1/3PPN2/PPPN1PPP/R1BQKB1R w KQkq - 3+3 1 5",
        "r2qkb1r/pp1npppp/2p4n/8/8/3QPP2/PP1N1P1P/R1B1KB1R w KQkq - 3+3 1 9",
        "r3kb1r/pp1n1ppp/2p1p1q1/5n2/4N3/2Q1PP2/PP3PBP/R1B2RK1 w kq - 3+3 6 13",
        "3r1rk1/pp1nbppp/2p1p1q1/8/4P2n/2Q1BPN1/PP3PBP/R2R2K1 w - - 3+3 3 17",
        "3r1rk1/p3bppp/1n2p1q1/1pp5/4PB1n/2Q2PN1/PP3PBP/3R2RK w - - 3+3 2 21",
    ],
    "capablanca": [
        "rnabqkbcnr/pppppppppp/10/10/10/10/PPPPPPPPPP/RNABQKBCNR w KQkq - 0 1",
        "rna1qkbcnr/ppp2p1ppp/3ppb4/6p3/4P5/1P5P1N/P1PP1PP1PP/RNABQKBC1R w KQkq - 2 5",
        "rn2qkbc1r/p1p2p1ppp/ap1pp2n2/6pB2/3bP5/1P1A3P1N/P1P1QPP1PP/RN3KBC1R w KQkq - 0 9",
        "rn2qkb2r/p1p2pbp1p/1p1pp1cnp1/6p3/4P5/1PPQ3PBN/P3BPP1PP/RN3K1C1R w KQkq - 2 13",
        "rn2qkb2r/p1p3bp1p/1p1ppp2p1/4c1p3/4P2P2/1PP3C1nN/P1Q1BPP1PP/RN5RK1 w kq - 0 17",
        "r3qkb2r/p1p3bp1p/1pn1p3p1/3p2p3/4P5/1PP6N/P1Q1BPP1PP/RN5RK1 w kq - 0 21",
    ],
    "xiangqi": [
        "rnbakabnr/9/1c5c1/p1p1p1p1p/9/9/P1P1P1P1P/1C5C1/9/RNBAKABNR w - - 0 1",
        "rn1ak1bnr/4a4/1c5c1/p3p1p1p/2b6/9/P3P1P1P/1CC6/8R/RNBAKABN1 w - - 0 5",
        "r2ak1bnr/4a4/n3b2c1/2C1p1p1p/p8/9/P3P1P1P/9/8R/RNBAKABN1 w - - 0 9",
        "2rak1b1r/4a4/n3b3n/4pC2p/p8/9/P3c1P1P/4B4/4A3R/RNBAK2N1 w - - 2 13",
        "3ak1b1r/4a1n2/n3b4/4p3p/p3c4/9/P3N1P1P/N3BC3/3rA3R/R1BAK4 w - - 10 17",
        "3ak1b2/4a1n2/n3b4/4p3p/p3c4/2Nr5/P5P1P/N3B4/4AC1r1/R1BA1K2R w - - 18 21",
    ],
}


class Session(Lines):
    """A CECP session that shows its thinking."""

    def __init__(self, program, workers=1, before=()):
        super().__init__([*before, program, "--threads", str(workers), "xboard"], stderr=subprocess.PIPE)

    def think(self, variant, fen, depth):
        """The nodes of each depth, and the seconds that all took."""
        name = "normal" if variant == "chess" else variant
        self.say("new", f"variant {name}", "force", f"setboard {fen}", "post", "st 86400", f"sd {depth}", "ping 1")
        self.read_to("pong 1")
        begun = time.perf_counter()
        self.say("go")
        lines = self.read_to("move ")
        taken = time.perf_counter() - begun
        self.say("force")
        nodes = [int(line.split()[3]) for line in lines if line[:1].isdigit()]
        if len(nodes) != depth:
            raise SystemExit(f"search_speed: {variant} {fen}: {lines}")
        return nodes, taken

    def read_to(self, first):
        try:
            said = self.wait_for((first, "Error"))
        except Ended as end:
            raise SystemExit(f"search_speed: the session ended: {end.said}") from None
        if said[-1].startswith("Error"):
            raise SystemExit(f"search_speed: {said[-1]}")
        return said[:-1]

    def close(self):
        """What the process wrote beside its answers."""
        return self.process.communicate(b"quit\n")[1].decode()


def mean(ratios):
    return math.exp(sum(math.log(ratio) for ratio in ratios) / len(ratios))


def lines_of_three(program, variant, fen):
    done = subprocess.run([program, "perft", "3"], input=f"{variant}\n{fen}\n", capture_output=True, text=True, check=True)
    return int(done.stdout)


def least_leaves(lines, depth):
    moves = lines ** (1 / 3)
    return moves ** ((depth + 1) // 2) + moves ** (depth // 2) - 1


def their_rate(variant, fen, seconds):
    """Nodes a second, as Fairy-Stockfish counts them."""
    session = Lines([OTHER])
    session.say("setoption name Threads value 1", f"setoption name UCI_Variant value {variant}", f"position fen {fen}",
                f"go movetime {max(50, round(1000 * seconds))}")
    said = session.wait_for("bestmove")
    session.close()
    told = [line for line in said if " nodes " in line and " nps " in line]
    return int(re.search(r" nps (\d+)", told[-1]).group(1))


def tell_trees_and_speed(program, variants, depth):
    session = Session(program)
    trees, rates = {}, {}
    for variant in variants:
        for fen in POSITIONS[variant]:
            nodes, taken = session.think(variant, fen, depth)
            lines = lines_of_three(program, variant, fen)
            for at in range(4, depth + 1):
                trees.setdefault((variant, at), []).append(nodes[at - 1] / least_leaves(lines, at))
            rate = sum(nodes) / taken
            rates.setdefault(variant, []).append((rate, their_rate(variant, fen, taken) if OTHER else None))
    session.close()
    for variant in variants:
        told = ", ".join(f"depth {at} {mean(trees[variant, at]):.2f}" for at in range(4, depth + 1))
        print(f"trees {variant}: {told}", flush=True)
    for variant in variants:
        own = mean([rate for rate, _ in rates[variant]]) / 1e3
        if OTHER is None:
            print(f"speed {variant}: {own:.0f} thousand nodes a second", flush=True)
        else:
            theirs = mean([other for _, other in rates[variant]]) / 1e3
            ratio = mean([rate / other for rate, other in rates[variant]])
            print(f"speed {variant}: {own:.0f} and {theirs:.0f} thousand nodes a second, ratio {ratio:.2f}", flush=True)
    if OTHER is None:
        print("speed: left out beside Fairy-Stockfish, which is missing", flush=True)


def tell_workers(program, variants, depth, counts):
    alone = {}
    for count in counts:
        session = Session(program, count)
        nodes_of, times_of = [], []
        for variant in variants:
            for fen in POSITIONS[variant]:
                nodes, taken = session.think(variant, fen, depth)
                base = alone.setdefault((variant, fen), (sum(nodes), taken))
                nodes_of.append(sum(nodes) / base[0])
                times_of.append(taken / base[1])
        session.close()
        print(f"workers {count}: nodes of the greatest {mean(nodes_of):.2f}, time {mean(times_of):.2f} of those of {counts[0]}", flush=True)


def instructions(program, variant, fen, depth):
    """The nodes of a thinking, and the instructions of its whole session."""
    session = Session(program, before=["valgrind", "--tool=callgrind", "--callgrind-out-file=/dev/null"])
    nodes, _ = session.think(variant, fen, depth)
    said = session.close()
    return sum(nodes), int(re.search(r"Collected : (\d+)", said).group(1))


def tell_instructions(program, variants):
    if shutil.which("valgrind") is None:
        print("callgrind: left out, since valgrind is missing", flush=True)
        return
    for variant in variants:
        fen = POSITIONS[variant][0]
        few, base = instructions(program, variant, fen, 1)
        many, whole = instructions(program, variant, fen, 4)
        print(f"callgrind {variant}: {(whole - base) / (many - few):.0f} instructions a node of {many}", flush=True)


def main():
    parser = argparse.ArgumentParser(description=__doc__, formatter_class=argparse.RawDescriptionHelpFormatter)
    parser.add_argument("--depth", type=int, default=6)
    parser.add_argument("--workers", type=int, nargs="*", default=[1, 2, 4])
    parser.add_argument("--variant", nargs="*", default=list(POSITIONS), choices=list(POSITIONS))
    parser.add_argument("--callgrind", action="store_true")
    parser.add_argument("--program")
    given = parser.parse_args()
    given.program = given.program or built()
    tell_trees_and_speed(given.program, given.variant, given.depth)
    if given.workers:
        tell_workers(given.program, given.variant, given.depth, given.workers)
    if given.callgrind:
        tell_instructions(given.program, given.variant)


if __name__ == "__main__":
    main()
