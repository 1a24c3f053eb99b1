"""Runs commands of the Python package that need Debian's packages: a laboratory, and a cluster of two. Where these packages are missing nothing is run."""
import json
import os
import subprocess
import tempfile

from cases import LONGEST, Wrong, compare

TOP = os.path.abspath(os.path.join(os.path.dirname(os.path.abspath(__file__)), ".."))
PYTHON = "/usr/bin/python3"
# A king and a rook mate in two, not in one; a queen mates at once.
PROBLEMS = "chess 2 7k/R7/5K2/8/8/8/8/8 w - - 0 1\nchess 1 7k/8/5KQ1/8/8/8/8/8 w - - 0 1\nchess 1 7k/R7/5K2/8/8/8/8/8 w - - 0 1\n"


def has(module):
    """Whether Debian's Python has a module."""
    how = {"stdout": subprocess.DEVNULL, "stderr": subprocess.DEVNULL}
    return os.access(PYTHON, os.X_OK) and subprocess.run([PYTHON, "-c", f"import importlib.util, sys; sys.exit(not importlib.util.find_spec('{module}'))"], **how).returncode == 0


def run(program, *words):
    """What a command of the package prints; its status has to be 0."""
    env = {**os.environ, "PYTHONPATH": os.path.join(TOP, "python"), "PYTHONDONTWRITEBYTECODE": "1"}
    done = subprocess.run([PYTHON, "-m", "vengine", *words, "--program", program], env=env, capture_output=True, text=True, timeout=LONGEST)
    if done.returncode:
        raise Wrong(f"status {done.returncode}, {done.stderr[-400:]}", "status 0")
    return done.stdout


def lab(program, folder):
    """Twenty games of wizards: the counts at the start are those of docs/DESIGNERS.md, and each game is in the PGN."""
    words = ("--games", "20", "--depth", "1", "--plies", "60", "--piece-games", "0", "--jobs", "2", "--out", folder)
    run(program, "lab", os.path.join(TOP, "examples", "wizards.ini"), "wizards", *words)
    with open(os.path.join(folder, "report.json")) as file:
        report = json.load(file)
    with open(os.path.join(folder, "games.pgn")) as file:
        games = file.read().count("[Event ")
    came = [report["numbers"]["games"], games, report["start moves"], report["perft"][3]]
    if came != [20, 20, 20, 218221]:
        raise Wrong(came, [20, 20, 20, 218221])


def cluster(program, folder):
    """Three problems by a cluster of two processes, the mates checked."""
    path = os.path.join(folder, "problems.txt")
    with open(path, "w") as file:
        file.write(PROBLEMS)
    compare(run(program, "suite", path, "--cluster", "--jobs", "2", "--check").splitlines(), ["1 mate 2", "2 mate 1", "3 none", "solved 2 of 3"])


class Package:
    """One of these commands, which is run where the module that it needs is there."""

    def __init__(self, name, module, task):
        self.name, self.module, self.task = name, module, task

    def names(self):
        return [f"python/vengine: {self.name}"]

    def results(self, program):
        """The name, and what went wrong or None; nothing where the module is missing."""
        if not has(self.module):
            return []
        with tempfile.TemporaryDirectory() as folder:
            try:
                self.task(program, folder)
                fault = None
            except (Wrong, OSError, subprocess.TimeoutExpired) as error:
                fault = str(error)
        return [(self.names()[0], fault)]


def package_runs():
    """All of them."""
    return [Package("a laboratory of 20 games", "matplotlib", lab), Package("a cluster of two", "distributed", cluster)]
