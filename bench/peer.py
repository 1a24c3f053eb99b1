#!/usr/bin/env python3
"""Compares the legal moves of the variants of examples/fairy.ini with those of Fairy-Stockfish, which has them built in.

Usage: bench/peer.py [POSITIONS] [SEED] [VARIANT ..]     (2000 positions of each variant by default, seed 1, and all variants)

Wants Debian's package fairy-stockfish. The positions are those of random games from the start of a variant, by moves that both list, until a
game ends or has 120 plies. For each variant it prints how many positions were compared, and each difference: after which moves, and which
moves one program lists alone. Differences by a rule of RULES, which docs/RULES.md gives, are counted by its name; any other makes the status 1.
"""
import os
import random
import re
import sys
from collections import Counter

from programs import OTHER, TOP, find_program
from moves_agree import LONGEST, Other
from vengine import Ended, Lines

FILE = os.path.join(TOP, "examples", "fairy.ini")
GATE = re.compile(r"[a-l][0-9]+[a-l][0-9]+[a-z]")

# A rule, and whether it says of a move that it is listed here alone, where `here` are all that are.
RULES = {
    "a pawn of the hand comes in at a gate": lambda move, here: GATE.fullmatch(move) and move.endswith("p"),
    "a gated piece shields the king": lambda move, here: GATE.fullmatch(move) and move[:-1] not in here and move[2:-1] not in ("e1", "e8"),
}


class Here(Lines):
    """A session with the variants of the file."""

    def __init__(self, variant):
        super().__init__([find_program(), "--variants", FILE])
        self.say(f"setoption name UCI_Variant value {variant}")

    def asked(self, command, last):
        try:
            said = self.ask(command, last)
        except Ended:
            sys.exit(f"peer: {command}: the session ended")
        if any(line.startswith("info string error") for line in said):
            sys.exit(f"peer: {command}: {' '.join(said)}")
        return said

    def moves(self, played):
        self.say("position startpos" + (" moves " + " ".join(played) if played else ""))
        return set(self.asked("moves", "moves ")[:-1])


class Tally:
    """What was seen of a variant."""

    def __init__(self):
        self.positions, self.by_rule, self.known, self.others = 0, 0, Counter(), []

    def compare(self, played, here, there):
        self.positions += 1
        unknown, known = there - here, Counter()
        for move in here - there:
            rule = next((name for name, says in RULES.items() if says(move, here)), None)
            if rule is None:
                unknown.add(move)
            else:
                known[rule] += 1
        self.by_rule += bool(known)
        self.known += known
        if unknown:
            self.others.append((played[:], sorted(unknown & here), sorted(unknown & there)))

    def show(self, variant):
        print(f"{variant}: {self.positions} positions, {self.by_rule} differ by a rule, {len(self.others)} otherwise", flush=True)
        for rule, times in self.known.items():
            print(f"    {times} moves here alone: {rule}")
        for played, here, there in self.others:
            print(f"    after {' '.join(played) or 'no move'}: here alone {' '.join(here) or '-'}; there alone {' '.join(there) or '-'}")


def compare(variant, positions, chance):
    ours, other, tally = Here(variant), Other(variant), Tally()
    while tally.positions < positions:
        played = []
        while len(played) < LONGEST and tally.positions < positions:
            here, there = ours.moves(played), other.moves(played)
            tally.compare(played, here, there)
            both = sorted(here & there)
            if not both:
                break
            played.append(chance.choice(both))
    ours.close()
    other.close()
    return tally


def variants():
    with open(FILE) as file:
        return [line[1:].split("]")[0].split(":")[0] for line in file if line.startswith("[")]


def main():
    if OTHER is None:
        sys.exit("peer: wants Debian's package fairy-stockfish")
    positions = int(sys.argv[1]) if len(sys.argv) > 1 else 2000
    chance = random.Random(int(sys.argv[2]) if len(sys.argv) > 2 else 1)
    differ = 0
    for variant in sys.argv[3:] or variants():
        tally = compare(variant, positions, chance)
        tally.show(variant)
        differ += len(tally.others)
    sys.exit(1 if differ else 0)


main()
