#!/usr/bin/env python3
"""Compares `keys N` with `moves`, `status` and `suite` over every reply, for random problems of few pieces.

Usage: bench/keys.py [PROBLEMS [SEED]]

A problem is a random position of chess, antichess, crazyhouse or losalamos with few pieces in which the side that is to move wins within 3 moves; there are
PROBLEMS of them, 100 where the number is not given. For each first move the game after it is asked how it stands; where it is ongoing, each reply is, and
where it is ongoing after that too, `suite` says within how many moves it is won. The list of these must be what `keys` prints, with one thread and with three.
The last problem is a game of 8,191 plies, which `keys` refuses. Prints how many problems had one key, more than one (cooks), and how many first moves won.
"""
import random
import subprocess
import sys
import tempfile

from programs import find_program

ENGINE = find_program()
MOVES = 3
KINDS = {"chess": "QRBNP", "antichess": "QRBNPK", "crazyhouse": "QRBNP", "losalamos": "QRNP"}
SIZES = {"chess": 8, "antichess": 8, "crazyhouse": 8, "losalamos": 6}
# A variant without a move-count rule and without repetition, so that a game of it may be long.
LONG = "[long:chess]\nnMoveRule = 0\nnFoldRule = 0\n"


def answered(words, text):
    """The status and the lines of a run."""
    done = subprocess.run([ENGINE] + words, input=text, capture_output=True, text=True)
    return done.returncode, done.stdout.splitlines()


def game_text(variant, fen, moves=()):
    return f"{variant}\n{fen}\n{' '.join(moves)}\n"


def legal_moves(variant, fen, moves):
    return answered(["moves"], game_text(variant, fen, moves))[1][:-1]


def standing(variant, fen, moves):
    """How the game stands, and its last position."""
    lines = answered(["status"], game_text(variant, fen, moves))[1]
    return lines[0].split(), lines[1]


def placement(variant):
    """A random position of few pieces, as a FEN."""
    size = SIZES[variant]
    squares = random.sample(range(size * size), random.randint(3, 6))
    pieces = ["K", "k"] if variant != "antichess" else [random.choice("QRK"), random.choice("pnbk")]
    while len(pieces) < len(squares):
        kind = random.choice(KINDS[variant])
        pieces.append(kind if random.random() < 0.7 else kind.lower())
    board = {}
    for square, piece in zip(squares, pieces):
        if piece in "Pp" and square // size in (0, size - 1):
            piece = "N" if piece == "P" else "n"
        board[square] = piece
    rows = []
    for rank in reversed(range(size)):
        row, empty = "", 0
        for file in range(size):
            piece = board.get(rank * size + file)
            if piece is None:
                empty += 1
                continue
            row += (str(empty) if empty else "") + piece
            empty = 0
        rows.append(row + (str(empty) if empty else ""))
    hand = "[" + "".join(random.sample("QRBN", random.randint(0, 1))) + "]" if variant == "crazyhouse" else ""
    return "/".join(rows) + hand + " w - - 0 1"


def problem():
    """A variant and a position in which White wins within 3 moves, and the least number."""
    while True:
        variant = random.choice(sorted(KINDS))
        fen = placement(variant)
        status, lines = answered(["suite"], f"{variant} {MOVES} {fen}\n")
        if status == 0 and lines[0].startswith("1 mate "):
            return variant, fen, int(lines[0].split()[2])


def leasts(variant, fens, n):
    """Within how many moves each of the positions is won, None where it is not won within n."""
    if n == 0:
        return [None] * len(fens)
    lines = answered(["suite"], "".join(f"{variant} {n} {fen}\n" for fen in fens))[1]
    return [int(line.split()[2]) if " mate " in line else None for line in lines[:-1]]


def within(variant, fen, move, n):
    """Within how many moves White wins with the move, up to n, by every reply."""
    stands, _ = standing(variant, fen, [move])
    if stands[0] != "ongoing":
        return 1 if stands[:2] == ["won", "white"] and stands[2] != "repetition" else None
    open_positions = []
    for reply in legal_moves(variant, fen, [move]):
        stands, position = standing(variant, fen, [move, reply])
        if stands[0] == "ongoing":
            open_positions.append(position)
        elif stands[:2] != ["won", "white"] or stands[2] == "repetition":
            return None
    numbers = leasts(variant, open_positions, n - 1)
    if None in numbers:
        return None
    return 1 + max(numbers, default=0)


def expected(variant, fen, n):
    found = []
    for move in legal_moves(variant, fen, []):
        k = within(variant, fen, move, n)
        if k is not None:
            found.append(f"{move} mate {k}")
    return found + [f"keys {len(found)}"]


def long_game():
    """A game of 8,191 plies is refused, and one of 8,190 is not."""
    dance = ["a1b1", "a8b8", "b1a1", "b8a8"]
    with tempfile.NamedTemporaryFile("w", suffix=".ini") as variants:
        variants.write(LONG)
        variants.flush()
        for plies, status in ((8191, 3), (8190, 0)):
            moves = [dance[i % 4] for i in range(plies)]
            text = game_text("long", "r3k3/8/8/8/8/8/8/R3K3 w - - 0 1", moves)
            code, lines = answered(["--variants", variants.name, "keys", "1"], text)
            if code != status or (status == 3 and lines != ["error KeysFault 3 TooLong"]):
                sys.exit(f"keys: a game of {plies} plies is answered by status {code}: {lines}")


def main():
    count = int(sys.argv[1]) if len(sys.argv) > 1 else 100
    random.seed(int(sys.argv[2]) if len(sys.argv) > 2 else 1)
    sole, cooked, won = 0, 0, 0
    for number in range(count):
        variant, fen, least = problem()
        n = random.choice([least, min(MOVES, least + 1)])
        wanted = expected(variant, fen, n)
        for threads in ("1", "3"):
            status, lines = answered(["--threads", threads, "keys", str(n)], game_text(variant, fen))
            if status != 0 or lines != wanted:
                sys.exit(f"keys: {variant} {n} {fen}: {lines}\nwanted {wanted}")
        keys = len(wanted) - 1
        sole, cooked, won = sole + (keys == 1), cooked + (keys > 1), won + keys
    long_game()
    print(f"{count} problems: {sole} with one key, {cooked} with more, {won} first moves that win")


if __name__ == "__main__":
    main()
