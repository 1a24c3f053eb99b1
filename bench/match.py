#!/usr/bin/env python3
"""Plays a match between two UCI engines, with a session of Vengine as the arbiter.

Usage: bench/match.py FIRST SECOND [--variant NAME] [--variants FILE] [--games N] [--movetime MS | --clock MS+MS] [--plies N] [--seed N]
                      [--grace MS]

FIRST and SECOND are the commands of two engines, as `./vengine` or `/usr/games/fairy-stockfish`. By default they play 100 games of chess
with `go movetime 100`; `--clock 60000+600` gives each side a clock by the wall, with an increment. Each pair of games begins with the
same four random moves, and colours change. Both engines are given the file of variants by their option VariantPath. After each move
that session says how the game stands; a move that it does not list loses, and so does a move that comes later than its time and the
grace, a tenth of a second, or not within 20 seconds; on a machine that does much else give more. Prints a line for each game, and the
moves of one that did not end by the rules; a line for each move that came more than a tenth of a second after its time, with how much of
that the threads of the engine and this script waited for a processor, by the kernel's count (/proc/PID/schedstat), and the load; then the
result, the causes of the ends, and for each engine its slowest move, how many it made, and how many of them came so late. VENGINE=FILE
names another arbiter than `vengine`.
"""
import argparse
import collections
import glob
import os
import random
import shlex
import sys
import time

import programs  # noqa: F401 (the way to vengine)
import vengine

LATE = 0.1
HANGS = 20.0


def waited(pid):
    """How many seconds the threads of a process have waited for a processor, as far as the kernel tells."""
    total = 0
    for path in glob.glob(f"/proc/{pid}/task/*/schedstat"):
        try:
            with open(path) as file:
                total += int(file.read().split()[1])
        except (OSError, IndexError):
            pass
    return total / 1e9


class Player(vengine.Lines):
    """A UCI engine that plays, with its slowest move, how many it made and how many were late. One that ends is one that hangs."""

    def __init__(self, command, variant, path, grace):
        super().__init__(shlex.split(command), HANGS)
        self.name = command
        self.grace, self.slowest, self.moves, self.late = grace, 0.0, 0, 0
        self.ask("uci", "uciok")
        if path:
            self.say(f"setoption name VariantPath value {path}")
        self.say(f"setoption name UCI_Variant value {variant}")
        self.ask("isready", "readyok")

    def new_game(self):
        self.say("ucinewgame")
        self.ask("isready", "readyok")

    def move(self, played, go, limit):
        """The move that it chooses and how long it took, or why there is none."""
        self.say("position startpos" + (" moves " + " ".join(played) if played else ""))
        waits = [waited(pid) for pid in (self.process.pid, "self")]
        begun = time.monotonic()
        try:
            said = self.ask(go, "bestmove", max(limit, HANGS))
        except vengine.Ended:
            return None, "hangs"
        took = time.monotonic() - begun
        self.slowest, self.moves = max(self.slowest, took), self.moves + 1
        if took > limit + LATE:
            self.late += 1
            engine, script = (waited(pid) - wait for pid, wait in zip((self.process.pid, "self"), waits))
            print(f"late: {took:.3f} s after {len(played)} plies, of which the engine waited {engine:.3f} s for a processor and the script "
                  f"{script:.3f} s, at a load of {os.getloadavg()[0]:.0f}: {self.name}", flush=True)
        if took > limit + self.grace:
            return None, f"loses on time, {took:.2f} s"
        return said[-1].split()[1], took


def opening(arbiter, variant, chance):
    """Four random moves, after which the game goes on."""
    while True:
        played = []
        while len(played) < 4:
            listed = arbiter.legal_moves(variant, moves=played)
            if not listed:
                break
            played.append(chance.choice(listed))
        if not arbiter.result(variant, moves=played).is_over:
            return played


class Clocks:
    """What each side has left, by the wall; or the same time for each move."""

    def __init__(self, given):
        self.movetime = given.movetime
        self.left = None
        if given.clock:
            base, step = (int(part) for part in given.clock.split("+"))
            self.left, self.step = [base, base], step

    def go(self):
        if self.left is None:
            return f"go movetime {self.movetime}"
        return f"go wtime {self.left[0]} btime {self.left[1]} winc {self.step} binc {self.step}"

    def limit(self, side):
        return (self.movetime if self.left is None else self.left[side]) / 1000

    def spend(self, side, took):
        if self.left is not None:
            self.left[side] = max(1, self.left[side] - int(took * 1000)) + self.step


def play(arbiter, variant, pair, start, given):
    """The result for White, 1, 0 or -1, its cause, and how many plies were played; the pair has White first."""
    played, clocks = start[:], Clocks(given)
    for engine in pair:
        engine.new_game()
    while len(played) < given.plies:
        at = arbiter.position(variant, moves=played)
        if at.result.is_over:
            return {"white": 1, "black": -1, None: 0}[at.result.winner], at.result.cause, len(played)
        side = len(played) % 2
        text, took = pair[side].move(played, clocks.go(), clocks.limit(side))
        fault = took if text is None else None
        if fault is None and text not in at.moves:
            fault = f"plays {text}, which is not legal"
        if fault:
            print(f"{'white' if side == 0 else 'black'} {fault} after {' '.join(played)}", flush=True)
            return (-1 if side == 0 else 1), "fault", len(played)
        clocks.spend(side, took)
        played.append(text)
    return 0, "length", len(played)


def main():
    parser = argparse.ArgumentParser(description=__doc__, formatter_class=argparse.RawDescriptionHelpFormatter)
    parser.add_argument("first")
    parser.add_argument("second")
    parser.add_argument("--variant", default="chess")
    parser.add_argument("--variants", type=os.path.abspath)
    parser.add_argument("--games", type=int, default=100)
    parser.add_argument("--movetime", type=int, default=100)
    parser.add_argument("--clock")
    parser.add_argument("--plies", type=int, default=400)
    parser.add_argument("--seed", type=int, default=1)
    parser.add_argument("--grace", type=int, default=100)
    given = parser.parse_args()
    chance = random.Random(given.seed)
    arbiter = vengine.Engine(variants=given.variants)
    engines = [Player(command, given.variant, given.variants, given.grace / 1000) for command in (given.first, given.second)]
    counts, causes, start = collections.Counter(), collections.Counter(), []
    for game in range(given.games):
        if game % 2 == 0:
            start = opening(arbiter, given.variant, chance)
        is_first_white = game % 2 == 0
        value, cause, plies = play(arbiter, given.variant, engines if is_first_white else engines[::-1], start, given)
        print(f"{game + 1}: {('0-1', '1/2-1/2', '1-0')[value + 1]} {cause} after {plies} plies", flush=True)
        counts[value if is_first_white else -value] += 1
        causes[cause] += 1
    for engine in (arbiter, *engines):
        engine.close()
    print(f"{given.variant}: the first won {counts[1]}, lost {counts[-1]}, drew {counts[0]}")
    print("ends: " + ", ".join(f"{cause} {count}" for cause, count in sorted(causes.items())))
    print("slowest moves: " + ", ".join(f"{engine.slowest:.2f} s of {engine.moves}, {engine.late} late" for engine in engines))
    sys.exit(1 if causes["fault"] else 0)


if __name__ == "__main__":
    try:
        main()
    except vengine.VengineError as error:
        sys.exit(f"match: {error}")
