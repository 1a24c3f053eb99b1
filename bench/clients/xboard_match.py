#!/usr/bin/env python3
"""Has XBoard play matches between Vengine (CECP) and another engine, and compares what came of them with `status`.

Usage: bench/clients/xboard_match.py [--opponent NAME] [VARIANT:GAMES ..]     (chess:4 crazyhouse:2 capablanca:2 by default)

The opponent is fairy-stockfish, gnuchess or sjaakii, each Debian's package of that name, or vengine; fairy-stockfish by default. Wants
it, xboard and xvfb; what is missing is named, and nothing is played. A variant that XBoard does not know is played by Vengine against
itself, under the name `fairy` or that of a board's size, by a file of one section. XBoard runs under a virtual display with `-mg`. Its
debug file has each line between it and Vengine, so the moves of a game are those that Vengine was sent and answered. For each game it
prints XBoard's result beside what `status` says after these moves, and each line with which Vengine refused something. It ends with 1
where a result that the rules decide differs, or where Vengine called an opponent's move illegal.
"""
import argparse
import os
import re
import subprocess
import sys
import tempfile
import time

from client_log import PATH, VENGINE, ask, end, is_missing, result_of

LONGEST = 1200
OF_XBOARD = {"chess": "normal", "kingofthehill": "fairy", "antichess": "fairy", "extinction": "fairy", "losalamos": "6x6+0_fairy"}
OPPONENTS = {"fairy-stockfish": "fairy-stockfish", "gnuchess": "gnuchessx", "sjaakii": "sjaakii", "vengine": ""}


def commands(opponent, variant, folder):
    """What starts both engines, and the words by which XBoard takes the variant."""
    name = OF_XBOARD.get(variant, variant)
    if not name.endswith("fairy"):
        return f"{VENGINE} xboard", OPPONENTS[opponent] or f"{VENGINE} xboard", ["-variant", name]
    with open(f"{folder}/one.ini", "w") as file:
        file.write(f"[{name}:{variant}]\n")
    with open(f"{folder}/start.fen", "w") as file:
        file.write(ask("status", variant, "startpos", [])[1] + "\n")
    words = ["-variant", "fairy", "-lpf", f"{folder}/start.fen", "-testLegality", "false"]
    if name != "fairy":
        files, ranks = name.partition("+")[0].split("x")
        words += ["-boardWidth", files, "-boardHeight", ranks]
    engine = f"{VENGINE} --variants {folder}/one.ini xboard"
    return engine, engine, words


def play(opponent, variant, games, folder):
    """Runs a match, and returns XBoard's results and the lines of its debug file."""
    first, second, rules = commands(opponent, variant, folder)
    words = ["xvfb-run", "-a", "xboard", "-noGUI", "-fcp", first, "-scp", second, "-fd", folder, "-sd", folder,
             *rules, "-mg", str(games), "-tc", "0:20", "-inc", "0", "-xponder",
             "-soundProgram", "true", "-sgf", f"{folder}/games.pgn", "-debug", "-nameOfDebugFile", f"{folder}/debug.log"]
    with open(f"{folder}/said.log", "w") as said:
        match = subprocess.Popen(words, stdout=said, stderr=said, env={**os.environ, "PATH": PATH}, start_new_session=True)
    last = time.monotonic() + LONGEST
    # XBoard shows the score in a window at the end, and waits for a click.
    while match.poll() is None and time.monotonic() < last and "final score" not in open(f"{folder}/said.log").read():
        time.sleep(1)
    end(match)
    text = open(f"{folder}/games.pgn").read() if os.path.exists(f"{folder}/games.pgn") else ""
    results = re.findall(r'^\[Result "(.*)"\]', text, re.M)
    reasons = re.findall(r"\{([^{}]*)\} (?:1-0|0-1|1/2-1/2|\*)", text)
    return list(zip(results, reasons + [""] * len(results))), open(f"{folder}/debug.log", errors="replace").read().splitlines()


def games_in(lines):
    """The moves of each game as Vengine met them, and what it refused."""
    games, refused = [], []
    for line in lines:
        # XBoard writes a move in two pieces, and its file has the time and the name of the engine before each.
        line = re.sub(r"(>first *: usermove )\d+ >first *: ", r"\1", line)
        sent, heard = re.search(r">first *: (.*)", line), re.search(r"<first *: (.*)", line)
        if sent and sent.group(1).strip() == "new":
            games.append([])
        elif sent and sent.group(1).startswith("usermove ") and games:
            games[-1].append(sent.group(1).split()[1])
        elif heard and heard.group(1).startswith("move ") and games:
            games[-1].append(heard.group(1).split()[1])
        elif heard and re.match(r"(Illegal move|Error)", heard.group(1)):
            refused.append(heard.group(1))
    return [moves for moves in games if moves], refused


def main():
    parser = argparse.ArgumentParser(description=__doc__, formatter_class=argparse.RawDescriptionHelpFormatter)
    parser.add_argument("--opponent", choices=OPPONENTS, default="fairy-stockfish")
    parser.add_argument("matches", nargs="*", default=["chess:4", "crazyhouse:2", "capablanca:2"])
    given = parser.parse_args()
    if is_missing("xboard_match", "xboard", "xvfb-run", (OPPONENTS[given.opponent] or "xboard").split()[0]):
        return 0
    faults = 0
    for variant, games in (word.split(":") for word in given.matches):
        with tempfile.TemporaryDirectory() as folder:
            results, lines = play(given.opponent, variant, int(games), folder)
        played, refused = games_in(lines)
        for (result, reason), moves in zip(results, played):
            state = ask("status", variant, "startpos", moves)[0]
            differs = result_of(state) not in (None, result)
            faults += differs
            print(f"{variant}: {result} after {len(moves)} plies ({reason or 'no reason'}); status: {state}{' DIFFERS' if differs else ''}")
        if len(results) != int(games):
            faults += 1
            print(f"{variant}: {len(results)} of {games} games were played to an end")
        sent = sorted(set(re.findall(r">first *: (\w+)", "\n".join(re.sub(r"usermove.*", "usermove", line) for line in lines))))
        print(f"{variant}: XBoard sent the commands {', '.join(sent)}")
        for line in refused:
            faults += line.startswith("Illegal move")
            print(f"{variant}: Vengine said: {line}")
    return 1 if faults else 0


if __name__ == "__main__":
    sys.exit(main())
