#!/usr/bin/env python3
"""Tests of the second checker, by the cases of examples/cases: what is printed of each strategy, proof text and certificate, whole and spoilt.

Usage: python/tests/test_second_check.py [NAME ..]

Nothing but Python is needed: neither the program nor the network.
"""
import ast
import contextlib
import io
import os
import subprocess
import sys
import unittest
from typing import List, Tuple

TOP = os.path.join(os.path.dirname(os.path.abspath(__file__)), "..", "..")
FILE = os.path.join(TOP, "python", "vengine", "second_check.py")
sys.path.insert(0, os.path.join(TOP, "python"))
sys.path.insert(0, os.path.join(TOP, "examples"))
from cases import Case, read_cases, status_of  # noqa: E402
from vengine import second_check  # noqa: E402

# A proof of a mate in two: the king goes to g6, the only reply is Kg8, and the rook mates on a8.
PROOF = """strategy 2
rules 8
bishop = b
king = k
knight = n
pawn = p
promotionPieceTypes = nbrq
queen = q
rook = r
startFen = rnbqkbnr/pppppppp/8/8/8/8/PPPPPPPP/RNBQKBNR w KQkq - 0 1
start 7k/R7/5K2/8/8/8/8/8 w - - 0 1
history 0
goal white 2
attacker white
nodes 4
node 0 2 7k/R7/5K2/8/8/8/8/8 w - - 0 1
edge f6g6 1
node 1 1 7k/R7/6K1/8/8/8/8/8 b - - 1 1
edge h8g8 2
node 2 1 6k1/R7/6K1/8/8/8/8/8 w - - 2 1
edge a7a8 3
node 3 0 R5k1/8/6K1/8/8/8/8/8 b - - 3 1
end
"""


def cases_of(name: str, words: str) -> List[Case]:
    """The cases of a file of examples/cases that run these words and no others."""
    found = read_cases(os.path.join(TOP, "examples", "cases", name), name)
    return [case for case in found if case.kind == "$" and case.text == words and not case.before]


def asked(case: Case) -> Tuple[str, str, int]:
    """The input of a case, what has to be printed, and the status."""
    text = "".join(line + "\n" for line, _ in case.given[1:])
    wanted = "".join(line + "\n" for line in case.wanted())
    return text, wanted, status_of(case.wanted()) if case.status is None else case.status


def answered(words: List[str], text: str) -> Tuple[str, int]:
    """What the second checker prints of a text, and its status."""
    printed, before = io.BytesIO(), sys.stdin
    sys.stdin = io.TextIOWrapper(io.BytesIO(text.encode()))
    try:
        with contextlib.redirect_stdout(io.TextIOWrapper(printed)) as out:
            status = second_check.main(words)
            out.flush()
            return printed.getvalue().decode(), status
    finally:
        sys.stdin = before


class Whole(unittest.TestCase):
    """Every case of strategies and of certificates has the answer that is written down there."""

    def holds(self, name: str, words: str, given: List[str]) -> None:
        found = cases_of(name, words)
        self.assertGreater(len(found), 10)
        for case in found:
            text, wanted, status = asked(case)
            with self.subTest(case.title):
                self.assertEqual(answered(given, text), (wanted, status))

    def test_strategies(self) -> None:
        self.holds("check.txt", "check", [])

    def test_certificates(self) -> None:
        self.holds("stipulate.txt", "stipulate check", ["--certificate"])


class Alone(unittest.TestCase):
    """The file needs Python 3.8 and nothing else, and is short."""

    def test_as_a_file(self) -> None:
        done = subprocess.run([sys.executable, "-I", FILE], input=PROOF, capture_output=True, text=True, check=False)
        self.assertEqual((done.stdout, done.returncode), ("wins\n", 0))

    def test_its_size_and_its_python(self) -> None:
        with open(FILE, encoding="utf-8") as file:
            text = file.read()
        self.assertLessEqual(len(text.splitlines()), 1200)
        tree = ast.parse(text, feature_version=(3, 8))
        names = {alias.name for node in ast.walk(tree) if isinstance(node, ast.Import) for alias in node.names}
        names |= {node.module or "" for node in ast.walk(tree) if isinstance(node, ast.ImportFrom)}
        self.assertLessEqual(names, {"__future__", "re", "sys", "collections", "contextlib", "dataclasses", "functools", "typing"})


if __name__ == "__main__":
    unittest.main()
