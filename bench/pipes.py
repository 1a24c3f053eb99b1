#!/usr/bin/env python3
"""Runs the program in real pipes, as shells and other programs do, and says which runs went wrong.

usage: bench/pipes.py PROGRAM [RUNS]      (200 runs of each short kind by default; the last kind writes lines of 1 GiB)
"""

import os
import subprocess
import sys
import time

SECTION = b"[mini]\nmaxFile = 6\nmaxRank = 6\n"
GAME = [b"chess\n", b"4k3/8/8/8/8/8/8/K7 w - - 0 1\n", b"a1a2 ", b"e8d8\n"]
MOVES = b"a2a1\na2a3\na2b1\na2b2\na2b3\nmoves 5\n"
MOST = 1 << 30


def shell(program, script, text):
    run = subprocess.run(["sh", "-c", script, "sh", program], input=text, stdout=subprocess.PIPE)
    return run.returncode, run.stdout


def is_file_read(program):
    """A variants file that is standard input itself, which the command does not read otherwise."""
    status, output = shell(program, 'cat | "$1" --variants /dev/stdin variants', SECTION)
    return status == 0 and b"\nmini " in output


def is_input_left(program):
    """What follows a command that reads no input gets the whole of it."""
    return shell(program, '("$1" variants >/dev/null; cat)', b"one\ntwo\n") == (0, b"one\ntwo\n")


def is_loop_whole(program):
    """A loop that reads its lines and runs a command for each takes as many turns as there are lines."""
    script = 'while read -r square; do "$1" reach W "$square" >/dev/null && echo "$square"; done'
    squares = b"a1\nb2\nc3\nd4\ne5\n"
    return shell(program, script, squares) == (0, squares)


def is_waited_out(program):
    """Input that another program has set not to block, and that comes in parts."""
    ours, theirs = os.pipe()
    os.set_blocking(ours, False)
    run = subprocess.Popen([program, "moves"], stdin=ours, stdout=subprocess.PIPE)
    os.close(ours)
    try:
        for part in GAME:
            time.sleep(0.02)
            os.write(theirs, part)
    except BrokenPipeError:
        pass
    os.close(theirs)
    return (run.communicate()[0], run.returncode) == (MOVES, 0)


def status_of_line(program, length, end):
    """The status of a game text whose first line has this many bytes."""
    run = subprocess.Popen([program, "moves"], stdin=subprocess.PIPE, stdout=subprocess.DEVNULL)
    try:
        block = b"a" * (1 << 20)
        for _ in range(length >> 20):
            run.stdin.write(block)
        run.stdin.write(b"a" * (length % (1 << 20)) + end)
        run.stdin.close()
    except BrokenPipeError:
        pass
    return run.wait()


def main():
    program = os.path.abspath(sys.argv[1])
    runs = int(sys.argv[2]) if len(sys.argv) > 2 else 200
    wrong = 0
    for kind in (is_file_read, is_input_left, is_loop_whole, is_waited_out):
        failed = sum(not kind(program) for _ in range(runs))
        print(f"{kind.__name__}: {failed} of {runs} wrong", flush=True)
        wrong += failed
    for length, end, status in ((MOST, b"\n", 3), (MOST, b"\r\n", 3), (MOST + 1, b"\n", 4), (MOST + 1, b"\r\n", 4)):
        found = status_of_line(program, length, end)
        print(f"a line of {length} bytes and {end}: status {found}, {status} is right", flush=True)
        wrong += found != status
    sys.exit(1 if wrong else 0)


main()
