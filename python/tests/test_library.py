#!/usr/bin/env python3
"""Tests of the library of include/vengine.h: by a C program that is compiled here, from Python, and by every case of ./test.

Usage: python/tests/test_library.py [LIBRARY.a] [TEST ..]      (release/libvengine.a by default)

What the library says is held to what release/vengine, or the program that VENGINE names, says. A test whose tool is missing is skipped, with a word. The last
line is 'N passed, M failed'.
"""
import os
import random
import re
import shutil
import subprocess
import sys
import tempfile
import threading
import unittest

sys.path.insert(0, os.path.join(os.path.dirname(os.path.abspath(__file__)), ".."))
from vengine import NOT_REFEREED, BadInput, Fault, Library, Referee, Result, Unsupported, __version__, game_text

HERE = os.path.dirname(os.path.abspath(__file__))
TOP = os.path.dirname(os.path.dirname(HERE))
ARCHIVE = os.path.abspath(sys.argv.pop(1) if sys.argv[1:2] and sys.argv[1].endswith(".a") else os.path.join(TOP, "release", "libvengine.a"))
PROGRAM = os.environ.get("VENGINE", os.path.join(TOP, "release", "vengine"))
COMPILER = next(filter(None, map(shutil.which, ("cc", "gcc", "clang"))), None)
PAGE = os.path.join(TOP, "docs", "LIBRARY.md")
FOOLS_MATE = ["f2f3", "e7e5", "g2g4", "d8h4"]
VARIANTS = "chess crazyhouse 3check kingofthehill antichess extinction losalamos capablanca seirawan xiangqi".split()
room = tempfile.TemporaryDirectory()


def setUpModule():
    if COMPILER is None:
        raise unittest.SkipTest("there is no C compiler")
    if not os.path.exists(ARCHIVE):
        raise unittest.SkipTest(f"there is no {ARCHIVE}")
    compiled("-shared", "-o", shared(), "-Wl,--whole-archive", ARCHIVE, "-Wl,--no-whole-archive")


def tearDownModule():
    room.cleanup()


def shared():
    return os.path.join(room.name, "libvengine.so")


def compiled(*words):
    subprocess.run([COMPILER, "-std=c11", "-D_GNU_SOURCE", "-O2", "-Wall", "-Wextra", "-Werror", "-I", os.path.join(TOP, "include"), *words], check=True)


def asked(words, given=b"", file=None):
    """The status and the text of the program."""
    if file is not None:
        path = os.path.join(room.name, "given.ini")
        with open(path, "wb") as out:
            out.write(file)
        words = ["--variants", path, *words]
    done = subprocess.run([PROGRAM, *words], input=given, stdout=subprocess.PIPE)
    return done.returncode, done.stdout


class FromC(unittest.TestCase):
    def test_calls(self):
        out = os.path.join(room.name, "test_library")
        compiled("-o", out, os.path.join(HERE, "test_library.c"), ARCHIVE, "-lpthread")
        # (without its lists of freed blocks, the C library counts those alone that are held)
        done = subprocess.run([out], stdout=subprocess.PIPE, text=True, env={**os.environ, "GLIBC_TUNABLES": "glibc.malloc.tcache_count=0"})
        *failed, counts = done.stdout.splitlines()
        self.assertRegex(counts, "^[0-9]+ passed, [0-9]+ failed$")
        self.assertEqual([line for line in failed if not line.startswith("examples/cases/streams.txt:")], [])

    def test_memory_is_kept_to(self):
        if shutil.which("valgrind") is None:
            self.skipTest("there is no valgrind")
        out = os.path.join(room.name, "few_calls")
        compiled("-g", "-DFEW", "-o", out, os.path.join(HERE, "test_library.c"), ARCHIVE, "-lpthread")
        done = subprocess.run(["valgrind", "-q", "--error-exitcode=9", "--leak-check=full", "--show-leak-kinds=all", out],
                              stdout=subprocess.PIPE, stderr=subprocess.STDOUT, text=True)
        *failed, counts = done.stdout.splitlines()
        self.assertRegex(counts, "^[0-9]+ passed, [0-9]+ failed$")
        self.assertEqual([line for line in failed if not line.startswith("examples/cases/streams.txt:")], [])

    def test_symbols(self):
        """The archive needs the C library alone, and offers no name that another library may have."""
        listed = subprocess.run(["nm", "-g", shared()], check=True, stdout=subprocess.PIPE, text=True).stdout
        with open(os.path.join(TOP, "include", "vengine.h")) as file:
            named = set(re.findall(r"^(?:struct vengine_reply|bool|void) (vengine_[a-z]+)\(", file.read(), re.M))
        self.assertEqual(set(re.findall(r" T (vengine_[a-z]+)$", listed, re.M)), named)


class FromPython(unittest.TestCase):
    def setUp(self):
        self.library = Library(shared())

    def same(self, words, given=b"", file=None):
        named = words if file is None else ["--variants", "given.ini", *words]
        self.assertEqual(self.library.answer(named, file, given), asked(words, given, file), (words, given))

    def test_words(self):
        for words in (["moves", "x"], ["perft", "10"], ["perft", "007"], ["nothing"], [""], ["moves "], ["--threads", "65", "moves"],
                      ["--threads", "3", "variants"], ["rules", "chess"], ["rules", "nobody"], ["reach", "W", "a1", "a2", "b1"], ["stipulate", "check"]):
            self.same(words, b"chess\nstartpos\n")
        for words in (["uci"], ["xboard"], ["generate", "chess", "1", "5"], ["suite"], ["pnmate", "3"], ["keys", "2"]):
            self.assertEqual(self.library.answer(words, None, b"chess\nstartpos\n"), (NOT_REFEREED, b""), words)

    def test_hostile_bytes(self):
        draw = random.Random(7)
        usual = b"\n\n  /-[]:=*0123456789abcdefghkqrnbpKQRNBPwW+e2e4chessmoves\r\t\0\xff"
        for turn in range(300):
            given = bytes(draw.choice(usual) for _ in range(draw.randrange(200)))
            given = draw.choice([b"", b"chess\nstartpos\n", b"xiangqi\nstartpos\n"]) + given
            file = draw.choice([None, b"[some:chess]\n" + given, given])
            words = draw.choice([["moves"], ["status"], ["perft", "1"], ["check"], ["stipulate", "check"], ["variants"], ["rules", "some"]])
            self.same(words, given, file)

    def test_a_large_file(self):
        for length in (1_048_576, 1_048_577):
            self.same(["variants"], file=b"[a:chess]\n".ljust(length, b"#"))

    def test_long_lines(self):
        for length in (131_072, 131_073):
            self.same(["moves"], b"chess\nstartpos\n".ljust(length + 15) + b"\ne2e4\n")

    def test_several_threads(self):
        wanted = {name: asked(["moves"], game_text(name, "startpos", []).encode()) for name in VARIANTS}
        wrong = []

        def turns(seed):
            draw = random.Random(seed)
            for _ in range(50):
                name = draw.choice(VARIANTS)
                if self.library.answer(["moves"], None, game_text(name, "startpos", []).encode()) != wanted[name]:
                    wrong.append(name)

        threads = [threading.Thread(target=turns, args=(seed,)) for seed in range(6)]
        for thread in threads:
            thread.start()
        for thread in threads:
            thread.join()
        self.assertEqual(wrong, [])


class TheReferee(unittest.TestCase):
    """Both forms of the referee say the same."""

    def both(self):
        return Referee(library=shared()), Referee(library="", program=PROGRAM)

    def test_games(self):
        for referee in self.both():
            self.assertEqual(referee.result("chess", "startpos", FOOLS_MATE), Result("black", "checkmate"))
            self.assertEqual(referee.legal_moves("chess", "startpos", FOOLS_MATE), [])
            at = referee.position("chess", "startpos", FOOLS_MATE[:3])
            self.assertEqual((len(at.moves), at.result.is_over, at.fen.split(" ")[1]), (30, False, "b"))
            with self.assertRaises(Fault) as caught:
                referee.legal_moves("chess", "startpos", ["e2e5"])
            self.assertEqual(caught.exception.variant, "BadMove")
            with self.assertRaises(Unsupported):
                referee.command("nothing")
            with self.assertRaises(BadInput):
                referee.command("moves\nchess")

    def test_a_held_game(self):
        """It says at each move what the commands say of its game text, also after moves that were refused or taken back."""
        draw = random.Random(5)
        referee = Referee(library=shared())
        for name in VARIANTS:
            with referee.game(name) as game:
                for _ in range(40):
                    found = referee.position(name, "startpos", game.moves)
                    self.assertEqual((game.legal_moves(), *game.status()), (found.moves, found.result, found.fen))
                    with self.assertRaises(Fault) as caught:
                        game.play(draw.choice(["a1a1", "e2e5x", "P@a1", "l10l9", "0000"]))
                    self.assertEqual(str(caught.exception).split(" ")[:4], ["GameFault", "5", "BadMove", str(len(game.moves) + 1)])
                    if game.moves and (not found.moves or draw.random() < 0.2):
                        game.undo()
                    else:
                        game.play(draw.choice(found.moves))
            with self.assertRaises(BadInput):
                game.legal_moves()
        with self.assertRaises(Fault):
            referee.game("nobody")
        with referee.game("chess") as game, self.assertRaises(BadInput):
            game.undo()

    def test_checkers_and_the_version(self):
        referee = Referee(library=shared())
        with referee.game("chess", "startpos", FOOLS_MATE) as game:
            try:
                self.assertEqual(game.checkers(), ["h4"])
            except Unsupported:
                self.skipTest("this library is of before 1.0.0")
            self.assertEqual(referee.checkers("chess", "startpos", FOOLS_MATE), ["h4"])
            game.undo()
            self.assertEqual(game.checkers(), [])
        self.assertEqual(".".join(map(str, Library(shared()).version())), __version__)
        self.assertEqual(referee.version(), Library(shared()).version())

    def test_random_games(self):
        draw = random.Random(3)
        library, process = self.both()
        for name in VARIANTS:
            moves = []
            for _ in range(6):
                found = library.position(name, "startpos", moves)
                self.assertEqual(found, process.position(name, "startpos", moves))
                if found.moves:
                    moves.append(draw.choice(found.moves))


class Cases(unittest.TestCase):
    def test_every_case(self):
        """./test over a program that answers by the library what it can, and hands on the rest. The cases of streams are those of a process alone."""
        stand_in = os.path.join(room.name, "vengine")
        with open(stand_in, "w") as file:
            file.write(STAND_IN.format(python=sys.executable, here=os.path.join(TOP, "python"), library=shared(), program=PROGRAM))
        os.chmod(stand_in, 0o755)
        done = subprocess.run([os.path.join(TOP, "test"), stand_in], stdout=subprocess.PIPE, text=True)
        *failed, counts = done.stdout.splitlines()
        self.assertRegex(counts, "^[0-9]+ passed, [0-9]+ failed$")
        self.assertEqual([line for line in failed if not line.startswith("examples/cases/streams.txt:")], [])


STAND_IN = """#!{python}
import os, sys
sys.path.insert(0, {here!r})
from vengine import NOT_REFEREED, Library, read_file
words = sys.argv[1:]
file, reads = None, None
for at, word in enumerate(words):
    path = word[len("--variants="):] if word.startswith("--variants=") else words[at + 1] if word == "--variants" and words[at + 1:] else None
    if path and os.path.exists(path) and not os.path.isfile(path):
        os.execv({program!r}, [{program!r}, *words])
    if path and os.path.isfile(path):
        file = read_file(path)
name = next((word for at, word in enumerate(words) if not word.startswith("-") and (not at or words[at - 1] not in ("--variants", "--threads"))), "uci")
if name in ("moves", "status", "checkers", "perft", "check", "stipulate", "variants", "reach", "rules") and not any(c in w for w in words for c in "\\n\\udcff"):
    given = sys.stdin.buffer.read() if name not in ("variants", "reach", "rules") else b""
    status, said = Library({library!r}).answer(words, file, given)
    if status != NOT_REFEREED:
        sys.stdout.buffer.write(said)
        sys.stdout.flush()
        sys.exit(status)
os.execv({program!r}, [{program!r}, *words])
"""


class ThePage(unittest.TestCase):
    def blocks(self, language):
        with open(PAGE) as file:
            return re.findall(rf"```{language}\n(.*?)```\n+```text\n(.*?)```", file.read(), re.S)

    def test_c(self):
        blocks = self.blocks("c")
        self.assertTrue(blocks)
        for code, printed in blocks:
            source, out = os.path.join(room.name, "page.c"), os.path.join(room.name, "page")
            with open(source, "w") as file:
                file.write(code)
            compiled("-o", out, source, ARCHIVE)
            self.assertEqual(subprocess.run([out], check=True, stdout=subprocess.PIPE, text=True).stdout, printed)

    def test_python(self):
        blocks = self.blocks("python")
        self.assertTrue(blocks)
        for code, printed in blocks:
            env = {**os.environ, "PYTHONPATH": os.path.join(TOP, "python"), "VENGINE_LIBRARY": shared()}
            self.assertEqual(subprocess.run([sys.executable, "-c", code], env=env, check=True, stdout=subprocess.PIPE, text=True).stdout, printed)


if __name__ == "__main__":
    done = unittest.main(exit=False).result
    failed = len(done.failures) + len(done.errors)
    print(f"{max(0, done.testsRun - failed - len(done.skipped))} passed, {failed} failed")
    sys.exit(1 if failed else 0)
