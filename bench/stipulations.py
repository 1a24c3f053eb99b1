#!/usr/bin/env python3
"""How long selfmates and helpmates take, beside a plain search of the same positions.

Usage: bench/stipulations.py [--program FILE] [--older FILE] [--seconds N] [--only WORD]
       bench/stipulations.py --find KIND MOVES COUNT [--seed N] [--program FILE]

  --program   the program that is measured (by default VENGINE, or the one that ./vengine becomes)
  --older     another build, which is measured on the same positions
  --seconds   how long the plain search here, and the older build, may take for one position (30 by default)
  --only      only rows that begin so, as 'help 2'
  --find      draws further positions for a row and prints them

The positions are in bench/stipulations.txt, drawn as --find draws them: men at random squares, kept where the shortest solution has
the moves of the row. For each it prints the processor time of the program, that of the older build, the nodes and the time of a plain search
with rules of chess of its own, which tries every move and keeps nothing. Each certificate is checked by those rules, and where the
plain search comes to an end both have to agree. Ends with an error where they do not.
"""
import argparse
import os
import random
import subprocess
import sys
import time

from programs import TOP, built

POSITIONS = os.path.join(TOP, "bench", "stipulations.txt")

# ---- chess by its rules, but for castling, which no position here allows

RAYS = {
    "r": ((0, 1), (1, 0), (0, -1), (-1, 0)),
    "b": ((1, 1), (1, -1), (-1, 1), (-1, -1)),
}
RAYS["q"] = RAYS["r"] + RAYS["b"]
LEAPS = {
    "n": ((1, 2), (2, 1), (-1, 2), (-2, 1), (1, -2), (2, -1), (-1, -2), (-2, -1)),
    "k": RAYS["q"],
}


def lines_of(steps, far):
    """For each square the squares that each of the steps leads to, in turn."""
    lines = []
    for square in range(64):
        mine = []
        for x, y in steps:
            file, rank, line = square % 8 + x, square // 8 + y, []
            while 0 <= file < 8 and 0 <= rank < 8:
                line.append(rank * 8 + file)
                file, rank = file + x, rank + y
                if not far:
                    break
            if line:
                mine.append(tuple(line))
        lines.append(tuple(mine))
    return lines


LINES = {kind: lines_of(steps, True) for kind, steps in RAYS.items()}
LINES.update({kind: lines_of(steps, False) for kind, steps in LEAPS.items()})
PAWN_TAKES = {True: lines_of(((-1, 1), (1, 1)), False), False: lines_of(((-1, -1), (1, -1)), False)}


def name_of(square):
    return "abcdefgh"[square % 8] + str(square // 8 + 1)


class Board:
    """The letters on the squares from a1 to h8, whether White is to move, and the square passed by a pawn."""

    __slots__ = ("men", "white", "passed")

    def __init__(self, men, white, passed=None):
        self.men, self.white, self.passed = men, white, passed

    @staticmethod
    def of_fen(fen):
        ranks, side = fen.split()[:2]
        men = [""] * 64
        for index, rank in enumerate(ranks.split("/")):
            file = 0
            for letter in rank:
                if letter.isdigit():
                    file += int(letter)
                else:
                    men[(7 - index) * 8 + file] = letter
                    file += 1
        return Board(men, side == "w")

    def fen(self):
        ranks = ("".join(man or "1" for man in self.men[rank * 8 : rank * 8 + 8]) for rank in range(7, -1, -1))
        text = "/".join(ranks)
        for count in range(8, 1, -1):
            text = text.replace("1" * count, str(count))
        return f"{text} {'w' if self.white else 'b'} - - 0 1"

    def is_attacked(self, white):
        """Whether the king of the side is attacked."""
        men = self.men
        king = men.index("K" if white else "k")
        foe = str.lower if white else str.upper
        for kind in "nk":
            man = foe(kind)
            if any(men[line[0]] == man for line in LINES[kind][king]):
                return True
        pawn = foe("p")
        if any(men[line[0]] == pawn for line in PAWN_TAKES[white][king]):
            return True
        queen = foe("q")
        for kind in "rb":
            man = foe(kind)
            for line in LINES[kind][king]:
                for square in line:
                    if men[square]:
                        if men[square] == man or men[square] == queen:
                            return True
                        break
        return False

    def after(self, start, to, promoted=""):
        men = list(self.men)
        man = men[start]
        men[start], men[to] = "", promoted or man
        passed = None
        if man in "Pp":
            if to == self.passed:
                men[to + (-8 if self.white else 8)] = ""
            if abs(to - start) == 16:
                passed = (start + to) // 2
        return Board(men, not self.white, passed)

    def pawn_moves(self, start):
        men, white = self.men, self.white
        ahead = 8 if white else -8
        targets = []
        if not men[start + ahead]:
            targets.append(start + ahead)
            if start // 8 == (1 if white else 6) and not men[start + 2 * ahead]:
                targets.append(start + 2 * ahead)
        for line in PAWN_TAKES[white][start]:
            to = line[0]
            if (men[to] and men[to].isupper() != white) or to == self.passed:
                targets.append(to)
        for to in targets:
            if to // 8 in (0, 7):
                for kind in "qrbn":
                    yield start, to, kind.upper() if white else kind
            else:
                yield start, to, ""

    def candidates(self):
        """Moves that may leave the own king attacked."""
        men, white = self.men, self.white
        for start, man in enumerate(men):
            if not man or man.isupper() != white:
                continue
            kind = man.lower()
            if kind == "p":
                yield from self.pawn_moves(start)
                continue
            for line in LINES[kind][start]:
                for to in line:
                    if not men[to]:
                        yield start, to, ""
                        continue
                    if men[to].isupper() != white:
                        yield start, to, ""
                    break

    def moves(self):
        """The legal moves by their texts, each with the board after it."""
        for start, to, promoted in self.candidates():
            board = self.after(start, to, promoted)
            if not board.is_attacked(self.white):
                yield name_of(start) + name_of(to) + promoted.lower(), board

    def is_mate(self):
        return self.is_attacked(self.white) and not any(True for _ in self.moves())


class Over(Exception):
    """The plain search has had its time."""


class Plain:
    """A search of every move, without a table. In so few moves no position stands three times."""

    def __init__(self, seconds):
        self.nodes = 0
        self.end = time.process_time() + seconds

    def enter(self):
        self.nodes += 1
        if self.nodes % 256 == 0 and time.process_time() > self.end:
            raise Over

    def helps(self, board, plies, winner):
        self.enter()
        if plies == 0:
            return board.white != winner and board.is_mate()
        return any(self.helps(after, plies - 1, winner) for _, after in board.moves())

    def selfmates(self, board, moves, side):
        self.enter()
        boards = [after for _, after in board.moves()]
        if not boards:
            return board.white == side and board.is_attacked(side)
        if board.white == side:
            return moves > 0 and any(self.selfmates(after, moves - 1, side) for after in boards)
        return all(self.selfmates(after, moves, side) for after in boards)

    def solves(self, kind, moves, board):
        if kind == "help":
            return any(self.helps(board, 2 * length, not board.white) for length in range(1, moves + 1))
        return self.selfmates(board, moves, board.white)


# ---- certificates


def steps_of(text):
    """The plies and moves of a certificate, or None for `none`."""
    lines = text.split("\n")
    if lines[0] == "none":
        return None
    return [(int(ply), move) for ply, move in (line.split() for line in lines[1:-2])]


def tree_of(steps, ply=1):
    """The moves of the ply, each with its own tree. The steps are taken from the list."""
    tree = []
    while steps and steps[0][0] == ply:
        move = steps.pop(0)[1]
        tree.append((move, tree_of(steps, ply + 1)))
    return tree


def is_right(kind, board, tree, plies, loser):
    """Whether the tree leads to a mate of the loser within the plies, by one move or by every reply."""
    moves = dict(board.moves())
    if not moves:
        return not tree and board.white == loser and board.is_attacked(loser)
    asked = {move for move, _ in tree}
    one = kind == "help" or board.white == loser
    if plies == 0 or len(asked) != len(tree) or not (asked <= set(moves) if one else asked == set(moves)):
        return False
    return (len(tree) == 1 or not one) and all(is_right(kind, moves[move], after, plies - 1, loser) for move, after in tree)


# ---- the program


def spent_by_programs():
    """The processor time of all programs that were run, in seconds."""
    spent = os.times()
    return spent.children_user + spent.children_system


def ask(program, kind, moves, fen, seconds):
    """What the program prints, and the processor time that it took; None where it took too long."""
    start = spent_by_programs()
    try:
        done = subprocess.run(
            [program, "stipulate", kind, str(moves)], input=f"chess\n{fen}\n", capture_output=True, text=True, timeout=seconds
        )
    except subprocess.TimeoutExpired:
        return None, spent_by_programs() - start
    if done.returncode != 0:
        sys.exit(f"{program}: status {done.returncode} for {kind} {moves} {fen}")
    return done.stdout, spent_by_programs() - start


# ---- positions


def placed(rng, men, white):
    """A position of these men at random squares, in which the side to move can move and the other king is not attacked; else None."""
    squares = rng.sample(range(64), len(men))
    if any(man in "Pp" and square // 8 in (0, 7) for man, square in zip(men, squares)):
        return None
    board = Board([""] * 64, white)
    for man, square in zip(men, squares):
        board.men[square] = man
    if board.is_attacked(not white) or not any(True for _ in board.moves()):
        return None
    return board


def is_tense(board):
    """Whether White's king can hardly move, and Black has few moves: elsewhere there are no selfmates."""
    king = name_of(board.men.index("K"))
    if sum(move.startswith(king) for move, _ in board.moves()) > 1 or board.is_attacked(True):
        return False
    return 0 < sum(1 for _ in Board(board.men, False).moves()) <= 8


def drawn(rng, kind):
    """A position of up to 20 men."""
    while True:
        if kind == "self":
            mine, theirs = rng.sample("QRRBBNN", rng.randint(4, 7)), rng.sample("qrbn", rng.randint(1, 2))
        else:
            mine, theirs = rng.sample("QRRBBNN", rng.randint(1, 3)), rng.sample("qrrbbnn", rng.randint(1, 5))
        pawns = ["P"] * rng.randint(1, 5) + ["p"] * rng.randint(1, 5)
        board = placed(rng, ["K", "k"] + mine + theirs + pawns, kind == "self")
        if board and (kind == "help" or is_tense(board)):
            return board


def changed(rng, board):
    """The position with one or two men at other squares, but for the kings and Black's officers."""
    while True:
        men = list(board.men)
        for _ in range(rng.randint(1, 2)):
            start = rng.choice([square for square, man in enumerate(men) if man and man not in "Kkqrbn"])
            to = rng.choice([square for square, man in enumerate(men) if not man])
            men[start], men[to] = "", men[start]
        other = Board(men, board.white)
        on_edge = any(man and man in "Pp" for man in men[:8] + men[56:])
        if not on_edge and not other.is_attacked(not other.white) and any(True for _ in other.moves()):
            return other


def find(program, kind, moves, count, seed):
    """Prints positions whose shortest solution has so many moves: selfmates of three and more are looked for beside those of one less."""
    rng = random.Random(seed)
    shorter = [Board.of_fen(fen) for row, length, fen in rows_of("self") if int(length) == moves - 1]
    while count:
        fen = (changed(rng, rng.choice(shorter)) if kind == "self" and shorter else drawn(rng, kind)).fen()
        text, _ = ask(program, kind, moves, fen, 600)
        if text == "none\n" or (moves > 1 and ask(program, kind, moves - 1, fen, 600)[0] != "none\n"):
            continue
        print(f"{kind} {moves} {fen}", flush=True)
        count -= 1


# ---- the rows


def rows_of(word):
    """The kind, the number of moves and the position of each row that begins so."""
    with open(POSITIONS) as lines:
        return [line.strip().split(maxsplit=2) for line in lines if line.startswith(word) and line[0] != "#"]


def told(seconds, is_whole):
    return f"{seconds:8.2f} s" if is_whole else f" > {seconds:5.0f} s"


def measure(options, kind, moves, fen):
    """Prints the row; answers whether all that was told agrees, and the program's time."""
    board = Board.of_fen(fen)
    text, ours = ask(options.program, kind, moves, fen, 3600)
    steps = steps_of(text)
    right = steps is None or is_right(kind, board, tree_of(list(steps)), 2 * moves, board.white)
    row = f"{kind} {moves}  {told(ours, True)}"
    if options.older:
        other, spent = ask(options.older, kind, moves, fen, options.seconds)
        right = right and other in (None, text)
        row += f"  older {told(spent if other is not None else options.seconds, other is not None)}"
    plain, start = Plain(options.seconds), time.process_time()
    try:
        right = plain.solves(kind, moves, board) == (steps is not None) and right
        whole = True
    except Over:
        whole = False
    row += f"  plain {told(time.process_time() - start if whole else options.seconds, whole)} {plain.nodes:9} nodes"
    print(f"{row}  {'none' if steps is None else len(steps):>5}  {'agree' if right else 'DIFFER'}  {fen}", flush=True)
    return right, ours


def main():
    parser = argparse.ArgumentParser()
    parser.add_argument("--program")
    parser.add_argument("--older")
    parser.add_argument("--seconds", type=float, default=30)
    parser.add_argument("--only", default="")
    parser.add_argument("--find", nargs=3)
    parser.add_argument("--seed", type=int, default=20261129)
    options = parser.parse_args()
    options.program = options.program or built()
    if options.find:
        kind, moves, count = options.find
        return find(options.program, kind, int(moves), int(count), options.seed)
    worst, failed = {}, False
    for kind, moves, fen in rows_of(options.only):
        right, ours = measure(options, kind, int(moves), fen)
        failed |= not right
        worst.setdefault(f"{kind} {moves}", []).append(ours)
    for name, times in worst.items():
        times.sort()
        print(f"{name}: {len(times)} positions, median {times[len(times) // 2]:.2f} s, worst {times[-1]:.2f} s")
    sys.exit(failed)


if __name__ == "__main__":
    main()
