#!/usr/bin/env python3
"""How long files of 512 sections take to load: the time of `variants`, the start of the program taken off.

Usage: bench/load_speed.py [RUNS]      (runs of each, 5 by default; the best counts)
"""
import subprocess
import sys
import tempfile
import time

from programs import find_program

ENGINE = find_program()
SECTIONS = 512
START = "startFen = 8/8/8/8/8/8/8/8 w - - 0 1\n"


def children():
    """Each section inherits from chess."""
    return "".join(f"[v{i}:chess]\nnMoveRule = 40\n" for i in range(SECTIONS))


def chain():
    """Each section inherits from the one before it."""
    return "[v0:chess]\n" + "".join(f"[v{i}:v{i - 1}]\nnMoveRule = 40\n" for i in range(1, SECTIONS))


def long_chain():
    """The same, with as many lines as a file of one megabyte holds."""
    lines = "nMoveRule = 40\n" * 134
    return "[v0:chess]\n" + "".join(f"[v{i}:v{i - 1}]\n{lines}" for i in range(1, SECTIONS))


def wide_chain():
    """The same with different keys in each section, of which chess has none."""
    keys = [f"mobilityRegion{side}CustomPiece{n}" for side in ("White", "Black") for n in range(1, 25)]
    lines = "".join(f"{key} = -\n" for key in keys + keys[:7])
    return "[v0:chess]\n" + "".join(f"[v{i}:v{i - 1}]\n{lines}" for i in range(1, SECTIONS))


def custom():
    """Each section has 24 pieces with words of their own."""
    pieces = "".join(f"customPiece{n} = {chr(96 + n)}:NBRmpQ2cgB\n" for n in range(1, 25))
    return "".join(f"[v{i}]\n{pieces}{START}" for i in range(SECTIONS))


def one_name():
    """All sections have one name, and as many lines as a file of one megabyte holds."""
    lines = "nMoveRule = 40\n" * 135
    return f"[v:chess]\n{lines}" * SECTIONS


def own_lines():
    """One section has all the lines."""
    return "[v:chess]\n" + "nMoveRule = 40\n" * 69_000


def best(words, runs):
    times = []
    for _ in range(runs):
        start = time.perf_counter()
        done = subprocess.run([ENGINE, *words, "variants"], capture_output=True, text=True)
        times.append(time.perf_counter() - start)
        if done.returncode != 0:
            sys.exit("load_speed: " + done.stdout)
    return min(times)


def main():
    runs = int(sys.argv[1]) if len(sys.argv) > 1 else 5
    base = best([], runs)
    for make in (children, chain, long_chain, wide_chain, custom, one_name, own_lines):
        with tempfile.NamedTemporaryFile("w", suffix=".ini") as file:
            text = make()
            file.write(text)
            file.flush()
            taken = best(["--variants", file.name], runs) - base
        print(f"{make.__name__}: {len(text)} bytes, {taken * 1000:.0f} ms")


main()
