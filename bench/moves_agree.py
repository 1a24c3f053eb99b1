#!/usr/bin/env python3
"""Compares the legal moves of random games with those of Fairy-Stockfish, in all ten built-in variants.

Usage: bench/moves_agree.py [POSITIONS] [SEED]     (10000 positions in all by default, and seed 1)

Wants Debian's package fairy-stockfish. A game is played from the start of its variant by moves that both list, until it ends or
has 120 plies. For each variant it prints how many positions were compared and in how many the lists differ, and for the first three
of these what each engine lists alone. Two differences are known, where the rules are read differently: a piece that is pinned and
gates its own blocker may move here, since the king is not attacked after the move; and `extinction` has no castling here, since its
kings are commoners and a castle asks for a king.
"""
import random
import sys

from programs import OTHER
from vengine import Engine, Lines, VengineError

VARIANTS = ["chess", "crazyhouse", "3check", "kingofthehill", "antichess", "extinction", "losalamos", "capablanca", "seirawan", "xiangqi"]
LONGEST = 120


class Other(Lines):
    """Fairy-Stockfish, asked for its legal moves by a count of one ply."""

    def __init__(self, variant):
        super().__init__([OTHER])
        self.say(f"setoption name UCI_Variant value {variant}")

    def moves(self, played):
        self.say("position startpos" + (" moves " + " ".join(played) if played else ""))
        counts = [line.rpartition(": ") for line in self.ask("go perft 1", "Nodes searched")[:-1]]
        return {move for move, mark, count in counts if mark and count == "1"}


def compare(engine, variant, positions, chance):
    other = Other(variant)
    same = differ = 0
    shown = []
    while same + differ < positions:
        played = []
        while len(played) < LONGEST and same + differ < positions:
            at = engine.position(variant, moves=played)
            if at.result.is_over:
                break
            here, there = set(at.moves), other.moves(played)
            if here == there:
                same += 1
            else:
                differ += 1
                if len(shown) < 3:
                    shown.append((played[:], sorted(here - there), sorted(there - here)))
            both = sorted(here & there)
            if not both:
                break
            played.append(chance.choice(both))
    other.close()
    return same, differ, shown


def main():
    positions = int(sys.argv[1]) if len(sys.argv) > 1 else 10000
    chance = random.Random(int(sys.argv[2]) if len(sys.argv) > 2 else 1)
    if OTHER is None:
        sys.exit("moves_agree: wants Debian's package fairy-stockfish")
    with Engine() as engine:
        for variant in VARIANTS:
            same, differ, shown = compare(engine, variant, positions // len(VARIANTS), chance)
            print(f"{variant}: {same + differ} positions, {differ} differ", flush=True)
            for played, here, there in shown:
                print(f"    after {' '.join(played) or 'no move'}: here alone {' '.join(here) or '-'}; there alone {' '.join(there) or '-'}")


if __name__ == "__main__":
    try:
        main()
    except VengineError as error:
        sys.exit(f"moves_agree: {error}")
