#!/usr/bin/env python3
"""How long a suite of 200 problems takes with 1, 2 and 4 threads.

Usage: bench/suite.py FILE [PROBLEMS [VARIANTS]]

FILE has a problem a line, as the command `suite` reads it: a name of a variant, a number of moves from 1 to 20 and a position. Its problems are repeated, or cut,
to 200 or PROBLEMS. VARIANTS is a file of variants that they need. For each number of threads it prints the time, and how many times as fast that is as one
thread. Ends with an error where the report is not the one of one thread.
"""
import subprocess
import sys
import time

from programs import find_program

ENGINE = find_program()
THREADS = [1, 2, 4]
PROBLEMS = 200


def problems_of(path, count):
    """So many lines, from the problems of the file in turn."""
    with open(path) as lines:
        found = [line for line in lines.read().splitlines() if line and not line.startswith("#")]
    if not found:
        sys.exit("suite: no problem in " + path)
    return "".join(found[i % len(found)] + "\n" for i in range(count))


def report_by(threads, text, variants):
    """The report, and how long it took."""
    words = [ENGINE, "--threads", str(threads)] + (["--variants", variants] if variants else []) + ["suite"]
    start = time.perf_counter()
    done = subprocess.run(words, input=text, capture_output=True, text=True)
    taken = time.perf_counter() - start
    if done.returncode != 0:
        sys.exit(f"suite: status {done.returncode}: {done.stdout}")
    return done.stdout, taken


def main():
    if len(sys.argv) < 2:
        sys.exit(__doc__)
    count = int(sys.argv[2]) if len(sys.argv) > 2 else PROBLEMS
    variants = sys.argv[3] if len(sys.argv) > 3 else None
    text = problems_of(sys.argv[1], count)
    # the first start builds the program where none was made of these sources
    report_by(1, "", variants)
    first, alone = None, None
    for threads in THREADS:
        report, taken = report_by(threads, text, variants)
        if first is None:
            first, alone = report, taken
            print(report.splitlines()[-1])
        if report != first:
            sys.exit(f"suite: the report of {threads} threads is another one")
        print(f"{threads} threads: {taken:.2f} s, {alone / taken:.2f} times as fast as one")


if __name__ == "__main__":
    main()
