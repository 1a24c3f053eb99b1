#!/usr/bin/env python3
"""Measures a UCI session: start-up, memory, how long a `position` takes, how soon `isready` is answered during a search, and `stop`.

Usage: bench/session_speed.py [PROGRAM] [--times N]     (VENGINE or the program that ./vengine becomes, and 20, by default)

Prints for each figure the median and the worst of N times: from the start of the program to `uciok`; a whole run of `reach N b1`; a
`position` with the `status` after it, by the time of a hundred of both, for the start and for a game of a hundred plies; from `isready`
to `readyok` in a `go infinite` of the chess start, and from `stop` to `bestmove` in it, and also where mates are being looked for. Memory
is what the kernel gives of the process (VmRSS and VmHWM in /proc), after `uci`, after `go depth 6` and after `go mate 4` with the options
as they are, and with `Hash` and `MateFacts` at their ends. Times on a machine that does other work are longer.
"""
import argparse
import subprocess
import time

from programs import built, memory_of, seconds_of
from vengine import Lines

START = "position startpos"
KNIGHTS = ("g1f3", "g8f6", "f3g1", "f6g8")
PLACED = 100
MATED = "position fen r5k1/7p/pp4p1/2P5/P5qP/Q3pr2/1PPn2K1/4RB1R w - - 4 28"


def tell(name, seconds, digits=1):
    ordered = sorted(1000 * one for one in seconds)
    print(f"{name}: {ordered[len(ordered) // 2]:.{digits}f} ms, at worst {ordered[-1]:.{digits}f} ms", flush=True)


def starts(program, times):
    took = []
    for _ in range(times):
        begun = time.monotonic()
        session = Lines([program])
        session.ask("uci", "uciok")
        took.append(time.monotonic() - begun)
        session.close()
    return took


def reaches(program, times):
    took = []
    for _ in range(times):
        begun = time.monotonic()
        subprocess.run([program, "reach", "N", "b1"], capture_output=True, check=True)
        took.append(time.monotonic() - begun)
    return took


def places(program, times, plies):
    """Seconds of a `position` of so many plies and the `status` after it."""
    moves = [KNIGHTS[ply % 4] for ply in range(plies)]
    lines = [" ".join([START, "moves", *moves] if moves else [START]), "status"] * PLACED
    took = []
    session = Lines([program])
    session.ask("uci", "uciok")
    for _ in range(times):
        begun = time.monotonic()
        session.say(*lines)
        session.ask("isready", "readyok")
        took.append((time.monotonic() - begun) / PLACED)
    session.close()
    return took


def in_search(program, times, position, line, word):
    """Seconds from a line to its answer, at different moments of a search."""
    took = []
    session = Lines([program])
    for turn in range(times):
        session.say(position)
        session.ask("isready", "readyok")
        session.say("go infinite")
        time.sleep(0.2 + 0.07 * (turn % 10))
        took.append(seconds_of(session, line, word))
        if line != "stop":
            session.ask("stop", "bestmove")
    session.close()
    return took


def tell_memory(program, options):
    session = Lines([program])
    session.ask("uci", "uciok")
    session.say(*(f"setoption name {name} value {value}" for name, value in options))
    session.ask("isready", "readyok")
    said = [f"at first {memory_of(session)[0]:.0f}"]
    for line in ("go depth 6", "go mate 4"):
        session.say("ucinewgame")
        session.ask(line, "bestmove")
        said.append(f"after {line} {memory_of(session)[0]:.0f}")
    said.append(f"at most {memory_of(session)[1]:.0f}")
    session.close()
    shown = ", ".join(f"{name} {value}" for name, value in options) or "default options"
    print(f"memory in MiB, {shown}: {', '.join(said)}", flush=True)


def main():
    parser = argparse.ArgumentParser(description=__doc__, formatter_class=argparse.RawDescriptionHelpFormatter)
    parser.add_argument("program", nargs="?")
    parser.add_argument("--times", type=int, default=20)
    given = parser.parse_args()
    given.program = given.program or built()
    tell("from the start to uciok", starts(given.program, given.times))
    tell("a run of reach", reaches(given.program, given.times))
    for plies in (0, 100):
        tell(f"position of {plies} plies, and status", places(given.program, given.times, plies), 3)
    tell("isready in a search", in_search(given.program, given.times, START, "isready", "readyok"))
    tell("stop in a search", in_search(given.program, given.times, START, "stop", "bestmove"))
    tell("stop where mates are looked for", in_search(given.program, given.times, MATED, "stop", "bestmove"))
    for options in ([], [("Hash", 1), ("MateFacts", 16)], [("Hash", 256), ("MateFacts", 65536)]):
        tell_memory(given.program, options)


if __name__ == "__main__":
    main()
