#!/usr/bin/env python3
"""Has Scid load Vengine as an engine of UCI, analyse positions in each of its two windows for engines, and stop it.

Usage: bench/clients/scid_analysis.py [--seconds N]     (3 seconds for each position; VENGINE=FILE names another program)

Wants Debian's packages scid and xvfb; what is missing is named, and nothing is run. Scid runs under a virtual display, with a folder of
its own as home, in which a list of engines names Vengine. That list is a script of Scid's, so it also says what to do, as a user
would by the menu: open a window, start the analysis, play a move, stop. What the windows show is printed, and what the lines between the
two programs say. Ends with 1 where a search is missing or not ended, no thinking was shown, or an error line came.
"""
import argparse
import os
import shutil
import subprocess
import sys
import tempfile

from client_log import PATH, is_missing, report, sessions_of, write_engine

LONGEST = 180
# Each step is a condition and what is done where it holds; then the time goes by.
DRIVER = """
engine {{ Name Vengine Cmd {command} Dir . UCI 1 }}
set startup(tip) 0
proc ::play {{args}} {{ foreach move $args {{ sc_move addSan $move }}; updateBoard -pgn }}
proc ::show {{name path}} {{ puts "$name shows: [string trim [$path get 1.0 end]]"; flush stdout }}
proc ::has_text {{path}} {{ expr {{[winfo exists $path] && [string match "*.\\[0-9\\]*" [$path get 1.0 end]]}} }}
set ::steps {{
    {{ winfo exists .main }} {{ ::play e4 e5; set ::id [::enginewin::Open "" Vengine] }}
    {{ expr {{$::enginewin::engState($::id) eq "idle"}} }} {{ ::enginewin::start $::id Vengine }}
    {{ ::has_text .engineWin$::id.display.pv.lines }} {{ ::play Nf3 }}
    {{ ::has_text .engineWin$::id.display.pv.lines }} {{
        ::show "the engine window" .engineWin$::id.display.pv.lines
        ::enginewin::stop $::id
    }}
    {{ expr {{$::enginewin::engState($::id) eq "idle"}} }} {{
        destroy .engineWin$::id
        if {{![winfo exists .analysisWin1]}} {{ makeAnalysisWin 1 0 0 }}
    }}
    {{ winfo exists .analysisWin1 }} {{ startEngineAnalysis 1 }}
    {{ ::has_text .analysisWin1.hist.text }} {{ ::play Nc6 }}
    {{ ::has_text .analysisWin1.hist.text }} {{
        ::show "the analysis window" .analysisWin1.hist.text
        stopEngineAnalysis 1
    }}
    {{ expr 1 }} {{ destroy .analysisWin1 }}
    {{ expr 1 }} {{ exit }}
}}
proc ::advance {{}} {{
    lassign $::steps condition script
    if {{[catch $condition holds] || !$holds}} {{ after 200 ::advance; return }}
    set ::steps [lrange $::steps 2 end]
    if {{[catch $script fault]}} {{ puts "scid: fault: $fault"; flush stdout }}
    after {pause} ::advance
}}
after 1000 ::advance
"""


def main():
    parser = argparse.ArgumentParser(description=__doc__, formatter_class=argparse.RawDescriptionHelpFormatter)
    parser.add_argument("--seconds", type=int, default=3)
    given = parser.parse_args()
    if is_missing("scid_analysis", "scid", "xvfb-run"):
        return 0
    with tempfile.TemporaryDirectory() as home:
        command = write_engine(home, "uci")
        folder = os.path.join(home, ".scid4.7", "config")
        os.makedirs(folder)
        with open(os.path.join(folder, "engines.dat"), "w") as file:
            file.write(DRIVER.format(command=command, pause=1000 * given.seconds))
        done = subprocess.run(["timeout", str(LONGEST), "xvfb-run", "-a", shutil.which("scid", path=PATH), "-fast"],
                              capture_output=True, text=True, env={**os.environ, "PATH": PATH, "HOME": home})
        sessions = sessions_of(home)
    for line in done.stdout.splitlines():
        print(f"scid: {line}")
    if done.returncode:
        print(f"scid: ended with status {done.returncode} {done.stderr.strip()}")
    return 1 if report("scid", sessions, searches=4) or done.returncode else 0


if __name__ == "__main__":
    sys.exit(main())
