#!/usr/bin/env python3
"""Plays a game of chess against Vengine through Polyglot, which makes an engine of CECP from one of UCI.

Usage: bench/clients/polyglot_game.py [--seed N] [--plies N]

Wants Debian's package polyglot; where it is missing, that is said and nothing is played. Polyglot speaks UCI to `vengine uci` and CECP
to this script, which plays random legal moves as White. Each move of Polyglot has to be one that `moves` lists; `status` says when the
game is over. Prints how the game ended, and what Vengine answered by an error, as Polyglot's log tells. Ends with 1 where a
move is not legal or does not come within 30 seconds.
"""
import argparse
import queue
import random
import re
import shutil
import subprocess
import sys
import tempfile
import threading
import time

from client_log import PATH, VENGINE, ask, is_missing

HANGS = 30.0


def of_game(command, played):
    return ask(command, "chess", "startpos", played)


class Polyglot:
    def __init__(self, program, folder):
        words = [program, "-noini", "-ec", f"{VENGINE} uci", "-log", "true", "-lf", f"{folder}/polyglot.log"]
        self.process = subprocess.Popen(words, cwd=folder, stdin=subprocess.PIPE, stdout=subprocess.PIPE, text=True, bufsize=1)
        self.lines = queue.Queue()
        threading.Thread(target=self.take, daemon=True).start()
        for line in ("xboard", "protover 2"):
            self.say(line)
        self.wait_for(r"feature .*done=1")
        for line in ("new", "level 0 1 0", "time 1000", "otim 1000"):
            self.say(line)

    def take(self):
        for line in self.process.stdout:
            self.lines.put(line.strip())
        self.lines.put(None)

    def say(self, line):
        self.process.stdin.write(line + "\n")
        self.process.stdin.flush()

    def wait_for(self, shape):
        """The first line of that shape, or nothing."""
        end = time.monotonic() + HANGS
        while True:
            try:
                line = self.lines.get(timeout=max(0.0, end - time.monotonic()))
            except queue.Empty:
                return None
            if line is None:
                return None
            found = re.match(shape, line)
            if found:
                return found


def play(polyglot, plies, chance):
    """The moves of the game, and what went wrong in it or nothing."""
    played = []
    while len(played) < plies and of_game("status", played)[0] == "ongoing":
        if len(played) % 2 == 0:
            move = chance.choice(of_game("moves", played)[:-1])
            polyglot.say(f"time 1000\notim 1000\nusermove {move}")
        else:
            found = polyglot.wait_for(r"move (\S+)")
            if found is None:
                return played, "no move came"
            move = found.group(1)
            if move not in of_game("moves", played)[:-1]:
                return played, f"{move} is not legal"
        played.append(move)
    return played, None


def main():
    parser = argparse.ArgumentParser(description=__doc__, formatter_class=argparse.RawDescriptionHelpFormatter)
    parser.add_argument("--seed", type=int, default=1)
    parser.add_argument("--plies", type=int, default=200)
    given = parser.parse_args()
    if is_missing("polyglot_game", "polyglot"):
        return 0
    program = shutil.which("polyglot", path=PATH)
    with tempfile.TemporaryDirectory() as folder:
        polyglot = Polyglot(program, folder)
        played, fault = play(polyglot, given.plies, random.Random(given.seed))
        polyglot.say("quit")
        polyglot.process.wait(timeout=HANGS)
        with open(f"{folder}/polyglot.log") as file:
            log = file.read()
    print(f"polyglot: {len(played)} plies, {fault or of_game('status', played)[0]}")
    sent = sorted(set(re.findall(r"Adapter->Engine: (\w+)", log)))
    print(f"polyglot sent the commands: {', '.join(sent)}")
    for line in re.findall(r"Engine->Adapter: (.*error.*)", log):
        print(f"polyglot: Vengine said: {line}")
    return 1 if fault else 0


if __name__ == "__main__":
    sys.exit(main())
