#!/usr/bin/env python3
"""How many nodes of a strategy a second `check` takes, on strategies that this script writes.

The variant has no king: White's commoner wins once it stands on l1, and walks there through the first two ranks. Black's wazirs walk on the other
ranks, and can stop nothing. So a strategy has a node for each step and each way in which the wazirs may then stand.

Three texts more are made to be hard: one repeat at as many counters as there are, a node with many edges of which the last stand again, and a
proof text whose second line is faulty and which goes on for 60 megabytes.

Usage: bench/check_speed.py [NODES ..]      (at least so many nodes each, 10000 and 100000 by default)
VENGINE=FILE names another program.
"""
import re
import subprocess
import sys
import tempfile

from programs import find_program

ENGINE = find_program()
# Runs a program and then says its seconds and its kibibytes, which have at least this small program's own: in a child of the process that
# made the text they would have the text.
MEASURED = """
import resource, subprocess, sys, time
start = time.perf_counter()
subprocess.run(sys.argv[1:], stderr=subprocess.DEVNULL)
print(time.perf_counter() - start, resource.getrusage(resource.RUSAGE_CHILDREN).ru_maxrss, file=sys.stderr)
"""
FILES = 12
RANKS = 10
LETTERS = "abcdefghijkl"
# Three wazirs in the middle of their ranks.
WAZIRS = ((5, 5), (6, 5), (5, 6))
VARIANT = """[race]
maxFile = 12
maxRank = 10
commoner = c
wazir = w
castling = false
nMoveRule = 0
flagPiece = c
flagRegionWhite = l1
mobilityRegionWhiteCommoner = *1 *2
mobilityRegionBlackWazir = *3 *4 *5 *6 *7 *8 *9 *10
startFen = 12/12/12/5w6/5ww5/12/12/12/12/C11 w - - 0 1
"""


def walk():
    """The squares of the commoner: up and down through the files, from a1 to l1."""
    squares = []
    for file in range(FILES):
        squares += [(file, 0), (file, 1)] if file % 2 == 0 else [(file, 1), (file, 0)]
    return squares


def name(square):
    return LETTERS[square[0]] + str(square[1] + 1)


def replies(wazirs):
    """The moves of Black, each with the wazirs after it."""
    for wazir in wazirs:
        for dx, dy in ((1, 0), (-1, 0), (0, 1), (0, -1)):
            to = (wazir[0] + dx, wazir[1] + dy)
            if 0 <= to[0] < FILES and 2 <= to[1] < RANKS and to not in wazirs:
                yield name(wazir) + name(to), frozenset(wazirs - {wazir} | {to})


def fen(commoner, wazirs, side, counter):
    ranks = []
    for rank in range(RANKS - 1, -1, -1):
        row, empty = "", 0
        for file in range(FILES):
            piece = "C" if (file, rank) == commoner else "w" if (file, rank) in wazirs else ""
            if piece:
                row += (str(empty) if empty else "") + piece
                empty = 0
            else:
                empty += 1
        ranks.append(row + (str(empty) if empty else ""))
    return "/".join(ranks) + f" {side} - - {counter} 1"


def levels(least):
    """The ways in which the wazirs may stand at each move of White, for at least so many nodes."""
    found, nodes = [{frozenset(WAZIRS)}], 2
    while nodes < least and len(found) < len(walk()) - 1:
        found.append({after for wazirs in found[-1] for _, after in replies(wazirs)})
        nodes += 2 * len(found[-1])
    return found


def strategy(least):
    """The input of `check`, and how many nodes its strategy has."""
    reached = levels(least)
    moves = len(reached)
    squares = walk()[-moves - 1:]
    # White is to move in the first half of a level, Black in the second.
    order = [sorted(level, key=sorted) for level in reached]
    firsts, count = [], 0
    for level in order:
        firsts.append(count)
        count += 2 * len(level)
    places = [{wazirs: i for i, wazirs in enumerate(level)} for level in order]
    lines = ["race", fen(squares[0], frozenset(WAZIRS), "w", 0), "", f"mate white {moves}"]
    lines += ["strategy 1", "attacker white", f"nodes {count}"]
    for k, level in enumerate(order):
        step = name(squares[k]) + name(squares[k + 1])
        for i, wazirs in enumerate(level):
            lines.append(f"node {firsts[k] + i} {moves - k} {fen(squares[k], wazirs, 'w', 2 * k)}")
            lines.append(f"edge {step} {firsts[k] + len(level) + i}")
        for i, wazirs in enumerate(level):
            number = firsts[k] + len(level) + i
            lines.append(f"node {number} {moves - k - 1} {fen(squares[k + 1], wazirs, 'b', 2 * k + 1)}")
            if k + 1 < moves:
                for move, after in replies(wazirs):
                    lines.append(f"edge {move} {firsts[k + 1] + places[k + 1][after]}")
    lines.append("end")
    return "\n".join(lines) + "\n", count


def one_repeat():
    """A strategy whose nodes but the root have one repeat, won for White, at each counter: the input, its nodes and the answer."""
    variant = VARIANT.replace("nMoveRule = 0", "nMoveRule = 0\nnFoldRule = 0")
    nodes = 10_000
    lines = ["race", fen((10, 0), frozenset(WAZIRS), "w", 0), "", "mate white 1", "strategy 1", "attacker white", f"nodes {nodes}"]
    lines += [f"node 0 1 {fen((10, 0), frozenset(WAZIRS), 'w', 0)}", "edge k1l1 1"]
    lines += [f"node {i} 0 {fen((11, 0), frozenset(WAZIRS), 'b', i)}" for i in range(1, nodes)]
    return variant, "\n".join(lines + ["end"]) + "\n", nodes, "wins\n"


def many_edges():
    """A node of Black with an edge for each drop, and many more for the last of them: the input, its edges and the answer."""
    edges = 200_000
    kinds = "abdefghijklmnopqrstuvwxy"
    variant = "[drops]\nmaxFile = 12\nmaxRank = 10\ncommoner = c\n"
    variant += "".join(f"customPiece{i + 1} = {kind}:W\n" for i, kind in enumerate(kinds))
    variant += "castling = false\npieceDrops = true\nnMoveRule = 0\nflagPiece = c\nflagRegionWhite = l1\n"
    variant += f"startFen = 12/12/12/12/12/12/12/12/12/C11[{kinds}] w - - 0 1\n"

    def board(commoner, kind=None, square=None):
        squares = {(commoner, 0): "C", square: kind}
        ranks = [[squares.get((file, rank)) for file in range(FILES)] for rank in range(RANKS - 1, -1, -1)]
        texts = ["".join(piece or "-" for piece in row) for row in ranks]
        hand = kinds.replace(kind, "") if kind else kinds
        return "/".join(re.sub("-+", lambda run: str(len(run[0])), text) for text in texts) + f"[{hand}]"

    drops = [(kind, (file, rank)) for kind in kinds for file in range(FILES) for rank in range(RANKS) if (file, rank) != (1, 0)]
    lines = ["drops", f"{board(0)} w - - 0 1", "", "mate white 2", "strategy 1", "attacker white", f"nodes {len(drops) + 2}"]
    lines += [f"node 0 2 {board(0)} w - - 0 1", "edge a1b1 1", f"node 1 1 {board(1)} b - - 1 1"]
    named = [f"edge {kind.upper()}@{name(square)} {i + 2}" for i, (kind, square) in enumerate(drops)]
    lines += named + named[-1:] * (edges - len(named))
    lines += [f"node {i + 2} 1 {board(1, kind, square)} w - - 9 1" for i, (kind, square) in enumerate(drops)]
    return variant, "\n".join(lines + ["end"]) + "\n", edges, "error Verdict 2 WrongMove 1\n"


def faulty_second_line():
    """A proof text of 60 megabytes whose second line is faulty: the input, its lines and the answer."""
    lines = 30_000_000
    return VARIANT, "strategy 2\n" + "x\n" * lines, lines + 1, "error ProofFault 1 Header 2\n"


def checked(variant, text, answer):
    """How long `check` takes on the text, which has this answer, and how many mebibytes it needs."""
    with tempfile.NamedTemporaryFile("w", suffix=".ini") as variants, tempfile.NamedTemporaryFile("w") as input_file:
        variants.write(variant)
        variants.flush()
        input_file.write(text)
        input_file.flush()
        words = [sys.executable, "-c", MEASURED, ENGINE, "--variants", variants.name, "check"]
        with open(input_file.name) as given:
            done = subprocess.run(words, stdin=given, capture_output=True, text=True)
    if done.stdout != answer:
        sys.exit("check_speed: " + done.stdout)
    taken, kibibytes = done.stderr.split()[-2:]
    return float(taken), int(kibibytes) / 1024


def main():
    wanted = [int(word) for word in sys.argv[1:]] or [10_000, 100_000]
    for least in wanted:
        text, nodes = strategy(least)
        taken, mebibytes = checked(VARIANT, text, "wins\n")
        print(f"{nodes} nodes, {len(text)} bytes: {taken:.2f} s, {nodes / taken:.0f} nodes a second, {mebibytes:.0f} MiB")
    for name, make in (("nodes of one repeat", one_repeat), ("edges of one node", many_edges), ("lines after a fault", faulty_second_line)):
        variant, text, count, answer = make()
        taken, mebibytes = checked(variant, text, answer)
        print(f"{count} {name}, {len(text)} bytes: {taken:.2f} s, {mebibytes:.0f} MiB")


if __name__ == "__main__":
    main()
