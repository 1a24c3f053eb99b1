#!/usr/bin/env python3
"""Has PyChess play games of Vengine against itself, while a third Vengine analyses them, and compares what came of them with `status`.

Usage: bench/clients/pychess_game.py [--seconds N] [VARIANT ..]     (60 seconds a side; VENGINE=FILE names another program)

Wants Debian's packages pychess and xvfb; what is missing is named, and nothing is played. By default a game is played of each variant
that PyChess and Vengine both have: chess, crazyhouse, 3check, kingofthehill and seirawan. PyChess runs under a virtual display, with a
folder of its own as home, in which Vengine is its engine for analysis. A module that Python loads there starts the game as the dialog
for a new game does. For each game it prints PyChess's result beside what `status` says after its moves, and what the lines between
PyChess and the three engines say. Ends with 1 where a game does not come to its end, a result that the rules decide differs, the engine
for analysis did not think or answer, or an error line came.
"""
import argparse
import hashlib
import json
import os
import re
import shutil
import subprocess
import sys
import tempfile
import time

from client_log import PATH, ask, end, is_missing, report, result_of, sessions_of, write_engine

LONGEST = 600
OF_PYCHESS = {"chess": "normal"}
DRIVER = """
import sys, threading, time


def begin():
    from pychess.Players.engineNest import discoverer
    from pychess.Utils.GameModel import GameModel
    from pychess.Utils.TimeModel import TimeModel
    from pychess.Utils import const
    from pychess.Utils.const import ARTIFICIAL, BLACK, WHITE, reprResult
    from pychess.Variants import variants
    from pychess.compat import create_task
    from pychess.perspectives import perspective_manager

    variant = next(one for one in variants.values() if one.cecp_name == "{name}")
    model = GameModel(TimeModel({seconds}, 0), variant)
    engine = discoverer.getEngineByName("Vengine")
    players = [(ARTIFICIAL, discoverer.initPlayerEngine, [engine, color, 20, variant, {seconds}, 0, 0, True], "Vengine")
               for color in (WHITE, BLACK)]
    names = {{number: name for name, number in vars(const).items() if name.startswith(("DRAW_", "WON_"))}}
    model.connect("game_ended", lambda model, reason: print("RESULT", reprResult[model.status], names.get(reason, reason), flush=True))
    perspective_manager.activate_perspective("games")
    create_task(perspective_manager.get_perspective("games").generalStart(model, *players))


def wait():
    while "pychess.Main" not in sys.modules:
        time.sleep(0.5)
    from gi.repository import GLib
    from pychess.Players.engineNest import discoverer
    while "options" not in (discoverer.getEngineByName("Vengine") or []) or any(one.get("recheck") for one in discoverer.engines):
        time.sleep(0.5)
    time.sleep(2)
    GLib.idle_add(begin)


threading.Thread(target=wait, daemon=True).start()
"""


def write_home(home, command, variant, seconds):
    """The settings of PyChess: no window at the start, Vengine as the engine that analyses, and the module that starts the game."""
    folder = os.path.join(home, ".config", "pychess")
    os.makedirs(folder)
    with open(command, "rb") as file:
        digest = hashlib.md5(file.read()).hexdigest()
    with open(os.path.join(folder, "engines.json"), "w") as file:
        json.dump([{"name": "Vengine", "command": command, "protocol": "uci", "md5": digest, "recheck": True, "country": "unknown"}], file)
    with open(os.path.join(folder, "config"), "w") as file:
        file.write("[General]\nshow_tip_at_startup = False\ndont_show_externals_at_startup = True\nanalyzer_check = True\n"
                   f"inv_analyzer_check = False\nana_combobox = {digest}\ninv_ana_combobox = {digest}\n")
    os.makedirs(os.path.join(home, "modules"))
    with open(os.path.join(home, "modules", "usercustomize.py"), "w") as file:
        file.write(DRIVER.format(name=OF_PYCHESS.get(variant, variant), seconds=seconds))


def play(home):
    """What PyChess said of the end of the game, or nothing."""
    words = ["xvfb-run", "-a", shutil.which("pychess", path=PATH), "--no-version-check", "--no-gettext"]
    env = {**os.environ, "PATH": PATH, "HOME": home, "PYTHONPATH": os.path.join(home, "modules")}
    path = os.path.join(home, "said.log")
    with open(path, "w") as said:
        client = subprocess.Popen(words, stdout=said, stderr=said, env=env, cwd=home, start_new_session=True)
    last, found = time.monotonic() + LONGEST, None
    while found is None and time.monotonic() < last and client.poll() is None:
        time.sleep(1)
        with open(path) as said:
            found = re.search(r"^RESULT (\S+) (.*)", said.read(), re.M)
    time.sleep(1)
    end(client)
    return found


def game_of(sessions):
    """The position and the moves of the game, as the engine that moved last knew them; the one that analyses has no clocks."""
    found = ("startpos", [])
    for session in sessions:
        if not any(sign == ">" and text.startswith("go wtime") for _, sign, text in session):
            continue
        start, moves = found[0], []
        for _, sign, text in session:
            if sign == ">" and text.startswith("position "):
                start, _, played = text[len("position "):].partition(" moves ")
                moves = played.split()
            elif sign == "<" and text.startswith("bestmove "):
                moves = moves + [text.split()[1]]
        if len(moves) > len(found[1]):
            found = (start.removeprefix("fen ").strip(), moves)
    return found


def main():
    parser = argparse.ArgumentParser(description=__doc__, formatter_class=argparse.RawDescriptionHelpFormatter)
    parser.add_argument("--seconds", type=int, default=60)
    parser.add_argument("variants", nargs="*", default=["chess", "crazyhouse", "3check", "kingofthehill", "seirawan"])
    given = parser.parse_args()
    if is_missing("pychess_game", "pychess", "xvfb-run"):
        return 0
    faults = 0
    for variant in given.variants:
        with tempfile.TemporaryDirectory() as home:
            write_home(home, write_engine(home, "uci"), variant, given.seconds)
            found = play(home)
            sessions = sessions_of(home)
        start, moves = game_of(sessions)
        state = ask("status", variant, start, moves)[0]
        differs = found is None or result_of(state) not in (None, found.group(1))
        faults += differs
        print(f"pychess, {variant}: {found.group(1) if found else 'no end'} after {len(moves)} plies"
              f" ({found.group(2) if found else '-'}); status: {state}{' DIFFERS' if differs else ''}")
        faults += report(f"pychess, {variant}", sessions, searches=3)
    return 1 if faults else 0


if __name__ == "__main__":
    sys.exit(main())
