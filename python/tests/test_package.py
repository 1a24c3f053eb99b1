#!/usr/bin/env python3
"""Tests of the package as it is installed: by pip in an environment of its own, without a network, and with the clone gone.

Usage: python/tests/test_package.py [TEST ..]

Skipped where no Python here has venv, setuptools and wheel (Debian: python3-venv, python3-setuptools, python3-wheel), or where gcc is missing. Takes the release
of the clone, so the values are those that any release has.
"""
import glob
import os
import shutil
import subprocess
import sys
import tempfile
import unittest

TOP = os.path.dirname(os.path.dirname(os.path.dirname(os.path.abspath(__file__))))
# What a build needs of the clone.
NEEDED = ("python/pyproject.toml", "python/setup.py", "python/vengine", "release", "crates.txt", "crates/words/src/version.rt")
PIP = ("-m", "pip", "--disable-pip-version-check", "--no-cache-dir")
OFFLINE = ("--no-build-isolation", "--no-index")

GAME = """
import os, vengine
from vengine import Engine, Referee
print(vengine.__version__, os.path.dirname(vengine.__file__))
print(vengine.find_program(), vengine.find_library())
with Engine() as engine:
    print(engine.result("chess", "startpos", ["f2f3", "e7e5", "g2g4", "d8h4"]))
with Referee().game("xiangqi") as game:
    print(len(game.legal_moves()))
"""


def has_tools(python):
    """Whether this Python makes environments and builds wheels."""
    words = [python, "-c", "import venv, ensurepip, wheel, setuptools; assert int(setuptools.__version__.split('.')[0]) >= 64"]
    return subprocess.run(words, stderr=subprocess.DEVNULL).returncode == 0


def find_python():
    """A Python that makes environments and builds wheels, or None."""
    here = filter(os.path.exists, (sys.executable, "/usr/bin/python3"))
    return next(filter(has_tools, here), None)


def copy_clone(to):
    """Copies what is built of the clone, without what Python leaves behind."""
    for name in NEEDED:
        source, target = os.path.join(TOP, name), os.path.join(to, name)
        os.makedirs(os.path.dirname(target), exist_ok=True)
        if os.path.isdir(source):
            shutil.copytree(source, target, ignore=shutil.ignore_patterns("__pycache__", "out"))
        else:
            shutil.copy2(source, target)


def run(*words, **how):
    """What a command prints; its errors are shown with a failure."""
    done = subprocess.run(words, stdout=subprocess.PIPE, stderr=subprocess.STDOUT, text=True, **how)
    if done.returncode:
        raise AssertionError(f"{' '.join(words)} ended with {done.returncode}:\n{done.stdout}")
    return done.stdout


def written_version():
    """The version that the repository has written down."""
    return run(os.path.join(TOP, "release", "version")).strip()


class Installed(unittest.TestCase):
    """One environment, into which the package was installed as README says, and whose clone is gone."""

    @classmethod
    def setUpClass(cls):
        python = find_python()
        if python is None:
            raise unittest.SkipTest("no Python here has venv, setuptools 64 and wheel")
        if shutil.which(os.environ.get("CC", "gcc")) is None:
            raise unittest.SkipTest("there is no gcc")
        room = tempfile.TemporaryDirectory()
        cls.addClassCleanup(room.cleanup)
        cls.room, clone = room.name, os.path.join(room.name, "clone")
        copy_clone(clone)
        cls.modules = {os.path.relpath(os.path.join(folder, name), os.path.join(clone, "python"))
                       for folder, _, names in os.walk(os.path.join(clone, "python", "vengine")) for name in names}
        cls.python = os.path.join(room.name, "environment", "bin", "python")
        run(python, "-m", "venv", "--system-site-packages", os.path.join(room.name, "environment"))
        run(cls.python, *PIP, "install", *OFFLINE, os.path.join(clone, "python"))
        shutil.rmtree(clone)

    def asked(self, *words):
        """What this Python prints, far from the clone and with no word of the program."""
        given = {name: value for name, value in os.environ.items() if not name.startswith(("VENGINE", "PYTHON"))}
        return run(self.python, *words, cwd=self.room, env={**given, "PATH": "/usr/bin:/bin"})

    def test_a_game(self):
        package, places, result, count = self.asked("-c", GAME).splitlines()
        version, folder = package.split(" ")
        self.assertEqual(version, written_version())
        self.assertEqual(places, f"{folder}/bin/vengine {folder}/bin/libvengine.so.1")
        self.assertTrue(folder.startswith(os.path.join(self.room, "environment")), folder)
        self.assertEqual(result, "Result(winner='black', cause='checkmate')")
        # (the count that is published for the start of xiangqi)
        self.assertEqual(count, "44")

    def test_the_commands(self):
        commands = self.asked("-m", "vengine", "--help")
        self.assertIn("board", commands)
        self.assertIn("usage: python -m vengine board", self.asked("-m", "vengine", "board", "--help"))

    def test_a_game_and_a_file_of_variants(self):
        """A game of PGN is judged and a file of variants is looked over, by the program and the library of the wheel."""
        game, variants = os.path.join(self.room, "game.pgn"), os.path.join(self.room, "any.ini")
        with open(game, "w") as file:
            file.write("1. f3 e5 2. g4 Qh4# 0-1\n")
        with open(variants, "w") as file:
            file.write("[any:chess]\n")
        self.assertEqual(self.asked("-m", "vengine", "judge", game), "1 chess: 4 plies, 0-1 by checkmate, stated 0-1\n")
        self.assertEqual(self.asked("-m", "vengine", "lint", variants), f"{variants}:1: any: ok\n")

    def test_the_files_of_the_wheel(self):
        """Every module and every file of the page was in it, and its tag is that of the platform."""
        (folder,) = glob.glob(os.path.join(self.room, "environment", "lib", "python3*", "site-packages"))
        with open(os.path.join(folder, f"vengine-{written_version()}.dist-info", "WHEEL")) as file:
            self.assertIn("Tag: py3-none-manylinux_2_34_x86_64\n", file.readlines())
        with open(os.path.join(folder, f"vengine-{written_version()}.dist-info", "RECORD")) as file:
            names = {line.split(",")[0] for line in file}
        installed = {name for name in names if name.startswith("vengine/") and "__pycache__" not in name}
        self.assertEqual(installed, self.modules | {"vengine/VERSION", "vengine/bin/vengine", "vengine/bin/libvengine.so.1"})

    def test_the_types(self):
        """A checker of types sees the annotations of the package that is installed."""
        tool = next(filter(os.path.exists, ["/usr/bin/mypy"]), None)
        if tool is None:
            self.skipTest("there is no mypy")
        source = os.path.join(self.room, "typed.py")
        with open(source, "w") as file:
            file.write("from vengine import Engine\nengine = Engine()\nreveal_type(engine.legal_moves('chess'))\n")
        told = run(tool, "--strict", "--python-executable", self.python, "--cache-dir", os.path.join(self.room, "types"), source)
        self.assertIn('Revealed type is "builtins.list[builtins.str]"', told)


class FromTheClone(unittest.TestCase):
    def test_without_installing(self):
        """The package of the clone is imported by its path, and has the version of the sources."""
        env = {**os.environ, "PYTHONPATH": os.path.join(TOP, "python"), "PYTHONDONTWRITEBYTECODE": "1"}
        told = run(sys.executable, "-c", "import vengine; print(vengine.__version__)", env=env)
        self.assertEqual(told.strip(), written_version())


if __name__ == "__main__":
    done = unittest.main(exit=False).result
    failed = len(done.failures) + len(done.errors)
    print(f"{max(0, done.testsRun - failed - len(done.skipped))} passed, {failed} failed")
    sys.exit(1 if failed else 0)
