#!/usr/bin/env python3
"""How many positions a second a client of Python gets the legal moves and the result of, beside one process for each call.

Usage: bench/client_speed.py [--positions N] [--variant NAME ..] [--sessions N]     (100 positions, chess, crazyhouse and xiangqi, and 4
       sessions at once by default; VENGINE, or the program of these sources in release/out or release)

The positions are those of random games from the start, up to 100 plies long. Of each, one after the other in the same run: `position` of
python/vengine, which asks a session that is held; and the commands `moves` and `status`, each of which is a process. Then the same
positions by as many sessions as are asked for, each with a thread. Prints calls a second of each, and the ratio of the first two. Ends
with an error where they say different things.
"""
import argparse
import random
import sys
import time
from concurrent.futures import ThreadPoolExecutor

from programs import built
from vengine import Engine, VengineError

LONGEST = 100


def games(engine, variant, count):
    """The moves of so many positions of random games."""
    chance, found, moves = random.Random(1), [], []
    while len(found) < count:
        found.append(moves[:])
        legal = engine.legal_moves(variant, moves=moves)
        moves = moves + [chance.choice(legal)] if legal and len(moves) < LONGEST else []
    return found


def by_processes(engine, variant, moves):
    """The FEN, the legal moves and the first line of `status`, by a process for each command."""
    text = f"{variant}\nstartpos\n{' '.join(moves)}\n"
    listed, status = (engine.command(name, text=text).splitlines() for name in ("moves", "status"))
    return status[1], listed[:-1], status[0]


def said(at):
    """The same of what the client answered."""
    winner, cause = at.result
    words = ["ongoing"] if cause is None else ["won", winner, cause] if winner else ["drawn", cause]
    return at.fen, at.moves, " ".join(words)


def alternating(engine, variant, positions):
    """The seconds of the session and those of the processes."""
    took = [0.0, 0.0]
    for moves in positions:
        begun = time.perf_counter()
        held = engine.position(variant, moves=moves)
        between = time.perf_counter()
        fresh = by_processes(engine, variant, moves)
        took = [took[0] + between - begun, took[1] + time.perf_counter() - between]
        if said(held) != fresh:
            sys.exit(f"client_speed: {variant} after {' '.join(moves)}: {held} and {fresh}")
    return took


def at_once(engines, variant, positions):
    """The seconds of all positions, each session having its share."""
    def ask(place):
        for moves in positions[place::len(engines)]:
            engines[place].position(variant, moves=moves)

    begun = time.perf_counter()
    with ThreadPoolExecutor(len(engines)) as pool:
        list(pool.map(ask, range(len(engines))))
    return time.perf_counter() - begun


def main():
    parser = argparse.ArgumentParser(description=__doc__, formatter_class=argparse.RawDescriptionHelpFormatter)
    parser.add_argument("--positions", type=int, default=100)
    parser.add_argument("--variant", nargs="*", default=["chess", "crazyhouse", "xiangqi"])
    parser.add_argument("--sessions", type=int, default=4)
    given = parser.parse_args()
    engines = [Engine(built()) for _ in range(given.sessions)]
    for variant in given.variant:
        positions = games(engines[0], variant, given.positions)
        session, processes = alternating(engines[0], variant, positions)
        together = at_once(engines, variant, positions)
        print(f"{variant}: {given.positions / session:.0f} calls a second by a session, {given.positions / processes:.0f} by processes, "
              f"ratio {processes / session:.1f}; {given.positions / together:.0f} by {given.sessions} sessions at once", flush=True)
    for engine in engines:
        engine.close()


if __name__ == "__main__":
    try:
        main()
    except VengineError as error:
        sys.exit(f"client_speed: {error}")
