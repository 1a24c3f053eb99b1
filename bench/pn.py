#!/usr/bin/env python3
"""How fast a proof tree grows, what it needs, and how long `pnmate` takes beside `go mate` on ten mates in 6 to 10 with few replies.

Usage: bench/pn.py [--limit SECONDS] [--memory GIB] [--count] [--draw]

growth    problems without a mate, whose last trees have half a million to two million expansions: how many a second, and the most
          memory that the process had, also as a share for a million expansions of the last tree, which is the one in memory at the end
mates     for each mate the times of `pnmate 10` and of `go mate 10`, which both look for mates within 1 move, 2 and so on, and the
          memory of the first

A row has 60 seconds for each of the two, or as many as `--limit` says, and `pnmate` 6 GiB of memory, or as many as `--memory` says; what
needs more is cut, and the row says so. So it ends within 25 minutes. Ends with an error where an answer is another one. VENGINE=FILE names
another program.

How many expansions a tree has follows from its definition, and is the same on each machine. The numbers below are those of
`bench/pn_count.c`, a plain program that shares nothing with this one; `--count` compiles it (wants cc), counts anew and compares.
`--draw` draws ten mates (wants Debian's package fairy-stockfish, which says which positions are mates): from a fixed seed, one for each
row of men, where the lone king's side has at most three moves, and White at most eight if it has no hand. Those below are these.
"""
import argparse
import os
import random
import re
import resource
import subprocess
import sys
import tempfile
import threading
import time

from programs import OTHER, TOP, find_program
from vengine import Ended, Lines

ENGINE = find_program()
LEAST, MOST = 6, 10
# White does not win within the number of moves; how many expansions all its trees have, and the last of them.
GROWTH = [
    ("chess", "7k/3K4/5p2/5N2/2N5/8/8/8 w - - 0 1", 4, 1777452, 1738802),
    ("chess", "rnbq1rk1/4b1n1/pppppppp/8/8/PPPPPPPP/4B1N1/RNBQ1RK1 w - - 0 1", 3, 549521, 547827),
    ("crazyhouse", "7k/8/8/8/7K/8/8/8[NP] w - - 0 1", 3, 689916, 674919),
]
MATES = [
    ("chess", "8/8/8/N7/8/p7/8/k1K5 w - - 0 1"),
    ("chess", "k1K5/p7/p7/8/8/NP6/8/8 w - - 0 1"),
    ("chess", "k2K4/p7/p7/8/8/3P4/8/8 w - - 0 1"),
    ("chess", "7B/7k/5K1p/7p/4P3/8/8/8 w - - 0 1"),
    ("chess", "5N1k/7N/5p1K/8/8/8/8/8 w - - 0 1"),
    ("crazyhouse", "8/8/8/8/8/5Kp1/8/6Nk[] w - - 0 1"),
    ("crazyhouse", "k7/p7/p3P3/8/K7/N7/8/8[] w - - 0 1"),
    ("crazyhouse", "7N/5K1k/7p/8/8/8/7P/8[] w - - 0 1"),
    ("crazyhouse", "8/8/8/8/p7/8/k1K5/8[N] w - - 0 1"),
    ("crazyhouse", "5K2/7k/7p/8/8/8/8/8[B] w - - 0 1"),
]
# To draw: the variant, the men of White beside its king, those of Black, and what White has in hand.
MEN = [
    ("chess", "N", "p", ""),
    ("chess", "NP", "pp", ""),
    ("chess", "P", "pp", ""),
    ("chess", "BP", "pp", ""),
    ("chess", "NN", "p", ""),
    ("crazyhouse", "N", "p", ""),
    ("crazyhouse", "NP", "pp", ""),
    ("crazyhouse", "NP", "p", ""),
    ("crazyhouse", "", "p", "N"),
    ("crazyhouse", "", "p", "B"),
]
CORNERS = [(0, 0), (0, 7), (7, 0), (7, 7), (0, 1), (1, 0), (7, 6), (6, 7)]
SEED = 20261129
REPLIES, MOVES = 3, 8
NODES = 40000
OUT_OF_MEMORY = 7


class Run:
    """What a run of `pnmate` printed, its status, seconds and most memory in MiB; `cut` says why it was ended before."""

    def __init__(self, variant, fen, moves, limit, gib):
        bound = int(gib * 2**30)
        start = time.perf_counter()
        process = subprocess.Popen(
            [ENGINE, "pnmate", str(moves)], stdin=subprocess.PIPE, stdout=subprocess.PIPE, text=True,
            preexec_fn=lambda: resource.setrlimit(resource.RLIMIT_AS, (bound, bound)))
        process.stdin.write(f"{variant}\n{fen}\n")
        process.stdin.close()
        timer = threading.Timer(limit, process.kill)
        timer.start()
        self.said = process.stdout.read().strip()
        _, status, used = os.wait4(process.pid, 0)
        timer.cancel()
        self.seconds = time.perf_counter() - start
        self.mebibytes = used.ru_maxrss / 1024
        process.returncode = os.waitstatus_to_exitcode(status)
        self.cut = None
        if process.returncode < 0:
            self.cut = f"cut after {limit:.0f} s"
        elif process.returncode == OUT_OF_MEMORY:
            self.cut = f"cut at {gib:g} GiB after {self.seconds:.2f} s"


def go_mate(variant, fen, moves, limit):
    """The least number of moves that a session of UCI says, and the seconds; nothing where it took too long."""
    session = Lines([ENGINE], timeout=60)
    session.say(f"setoption name UCI_Variant value {variant}", f"position fen {fen}")
    session.ask("isready", "readyok")
    begun = time.monotonic()
    try:
        said = session.ask(f"go mate {moves}", "bestmove", limit)
    except Ended:
        return None
    finally:
        session.kill()
    told = [words[words.index("mate") + 1] for words in map(str.split, said) if "score" in words and "mate" in words]
    return (int(told[-1]) if told else None), time.monotonic() - begun


def tell_growth(given):
    """Whether each problem of growth is answered as it has to be."""
    sound = True
    for variant, fen, moves, whole, last in GROWTH:
        run = Run(variant, fen, moves, given.limit, given.memory)
        if run.cut:
            print(f"growth {variant} {fen} pnmate {moves}: {run.cut}, {run.mebibytes:.0f} MiB", flush=True)
            continue
        sound = sound and run.said == "none"
        rate = whole / run.seconds / 1e3
        share = 1e6 * run.mebibytes / last
        print(f"growth {variant} {fen} pnmate {moves}: {run.said}, {whole} expansions in {run.seconds:.2f} s, {rate:.0f} thousand a second; "
              f"{last} in the last tree, {run.mebibytes:.0f} MiB, {share:.0f} MiB for a million", flush=True)
    return sound


def tell_mates(given):
    """Whether the commands that were not cut say the same mate, in 6 to 10."""
    sound = True
    for variant, fen in MATES:
        run = Run(variant, fen, MOST, given.limit, given.memory)
        other = go_mate(variant, fen, MOST, given.limit)
        said = [] if run.cut else [run.said]
        said += [] if other is None else [f"mate {other[0]}"]
        sound = sound and len(set(said)) < 2 and all(one in [f"mate {least}" for least in range(LEAST, MOST + 1)] for one in said)
        told = run.cut or f"{run.said} in {run.seconds:.2f} s"
        beside = f"cut after {given.limit:.0f} s" if other is None else f"mate {other[0]} in {other[1]:.2f} s"
        print(f"{variant} {fen}: pnmate {told}, {run.mebibytes:.0f} MiB; go mate {beside}", flush=True)
    return sound


def count():
    """Whether the numbers of the problems of growth are those that are counted."""
    sound = True
    with tempfile.TemporaryDirectory() as folder:
        counter = os.path.join(folder, "pn_count")
        subprocess.run(["cc", "-O2", "-o", counter, os.path.join(TOP, "bench", "pn_count.c")], check=True)
        for variant, fen, moves, whole, last in GROWTH:
            words = subprocess.run([counter, fen, str(moves)], capture_output=True, text=True, check=True).stdout.splitlines()[-1].split()
            print(f"{variant} {fen} within {moves}: {words[2]} expansions in the last tree, {words[6]} in all", flush=True)
            sound = sound and [words[1], int(words[2]), int(words[6])] == ["none", last, whole]
    return sound


def fen_of(men, hand):
    """White to move, with no rights; `men` are letters by squares."""
    ranks = []
    for y in range(7, -1, -1):
        row, empty = "", 0
        for x in range(8):
            if (x, y) in men:
                row += (str(empty) if empty else "") + men[x, y]
                empty = 0
            else:
                empty += 1
        ranks.append(row + (str(empty) if empty else ""))
    return "/".join(ranks) + hand + " w - - 0 1"


def near(rng, square, most):
    return tuple(min(7, max(0, at + rng.randint(-most, most))) for at in square)


def placed(rng, row):
    """The men of the row near a corner where the lone king is; nothing where two of them meet, or a pawn is on the first or last rank."""
    _, white, black, _ = row
    lone = rng.choice(CORNERS)
    king = near(rng, lone, 4)
    men = {lone: "k", king: "K"}
    for letter in black + white:
        square = near(rng, lone, 2 if letter == "p" else 5)
        if square in men or (letter in "pP" and square[1] in (0, 7)):
            return None
        men[square] = letter
    return men if max(abs(king[0] - lone[0]), abs(king[1] - lone[1])) > 1 else None


class Other(Lines):
    """A session of Fairy-Stockfish."""

    def __init__(self, variant):
        super().__init__([OTHER])
        self.answer("readyok", f"setoption name UCI_Variant value {variant}", "isready")

    def answer(self, wanted, *lines):
        self.say(*lines)
        return self.wait_for(wanted)

    def count(self, fen):
        return int(self.answer("Nodes searched", f"position fen {fen}", "go perft 1")[-1].split(":")[1])

    def is_checked(self, fen):
        return self.answer("Checkers", f"position fen {fen}", "d")[-1].strip() != "Checkers:"

    def mate_in(self, fen, nodes):
        """Within how many moves it says a mate, if it does."""
        said = self.answer("bestmove", "ucinewgame", f"position fen {fen}", f"go nodes {nodes}")
        scores = [found.group(1) for found in (re.search(r" score (mate -?\d+|cp)", line) for line in said) if found]
        return int(scores[-1].split()[1]) if scores and scores[-1] != "cp" else 0


def drawn(rng, row, other):
    """A position of the row that is a mate in 6 to 10, where the lone king's side has few moves, and White too if it has no hand."""
    variant, _, _, hand = row
    while True:
        men = placed(rng, row)
        if men is None:
            continue
        fen = fen_of(men, f"[{hand}]" if variant == "crazyhouse" else "")
        turned = fen.replace(" w ", " b ")
        if other.is_checked(turned) or other.is_checked(fen) or not 0 < other.count(turned) <= REPLIES:
            continue
        if not hand and other.count(fen) > MOVES:
            continue
        if all(LEAST <= other.mate_in(fen, nodes) <= MOST for nodes in (NODES, 10 * NODES)):
            return fen


def draw():
    rng, others = random.Random(SEED), {}
    for row in MEN:
        variant = row[0]
        if variant not in others:
            others[variant] = Other(variant)
        print(f"{variant} {drawn(rng, row, others[variant])}", flush=True)
    for other in others.values():
        other.kill()


def main():
    parser = argparse.ArgumentParser(description=__doc__, formatter_class=argparse.RawDescriptionHelpFormatter)
    parser.add_argument("--limit", type=float, default=60)
    parser.add_argument("--memory", type=float, default=6)
    parser.add_argument("--count", action="store_true")
    parser.add_argument("--draw", action="store_true")
    given = parser.parse_args()
    if given.draw:
        sys.exit("pn: wants Debian's package fairy-stockfish") if OTHER is None else draw()
        return
    if given.count:
        sys.exit(0 if count() else "pn: the numbers are others")
    # the first start builds the program where none was made of these sources
    subprocess.run([ENGINE, "status"], input="chess\nstartpos\n", capture_output=True, text=True)
    if not all([tell_growth(given), tell_mates(given)]):
        sys.exit("pn: an answer is another one")


if __name__ == "__main__":
    main()
