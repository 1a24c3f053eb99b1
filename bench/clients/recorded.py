#!/usr/bin/env python3
"""Runs an engine between a client and a file: each line of either goes on at once, and is written to a file too.

Usage: bench/clients/recorded.py FOLDER COMMAND [WORD ..]

The file is a new one of the folder. A line in it has the milliseconds since the start, `>` where the client sent it or `<` where the
engine did, and its text; the last one is `= N`, N being the engine's status. Other scripts make programs start their engine so.
"""
import os
import subprocess
import sys
import threading
import time

BEGUN = time.monotonic()
LOCK = threading.Lock()


def note(file, text):
    with LOCK:
        file.write(f"{int(1000 * (time.monotonic() - BEGUN))} {text}\n")
        file.flush()


def carry(source, sink, sign, file):
    """Hands lines on until the end of the source, and then ends the sink."""
    try:
        for line in iter(source.readline, b""):
            note(file, f"{sign} {line.decode(errors='replace').rstrip()}")
            sink.write(line)
            sink.flush()
        sink.close()
    except OSError:
        pass


def main():
    with open(os.path.join(sys.argv[1], f"{time.time_ns()}.lines"), "w") as file:
        engine = subprocess.Popen(sys.argv[2:], stdin=subprocess.PIPE, stdout=subprocess.PIPE)
        threading.Thread(target=carry, args=(sys.stdin.buffer, engine.stdin, ">", file), daemon=True).start()
        carry(engine.stdout, sys.stdout.buffer, "<", file)
        status = engine.wait()
        note(file, f"= {status}")
    return status


if __name__ == "__main__":
    sys.exit(main())
