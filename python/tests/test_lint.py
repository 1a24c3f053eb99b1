#!/usr/bin/env python3
"""Tests of `lint` and of the words of faults, over the real program.

Usage: python/tests/test_lint.py [TEST ..]      (VENGINE=FILE names another program)

meaningless.ini has each row of docs/VARIANTS_INI.md on what is accepted and means nothing. The lines, keys and places that are expected were read from the
files and the pages.
"""
import contextlib
import io
import os
import re
import sys
import tempfile
import unittest

HERE = os.path.dirname(os.path.abspath(__file__))
TOP = os.path.dirname(os.path.dirname(HERE))
sys.path.insert(0, os.path.join(HERE, ".."))
from vengine.faults import Fault
from vengine.lint import lint_of, main
from vengine.words import CONTRADICTIONS, WORDS, words_of

BUILT = os.path.join(TOP, "release", "vengine")
if "VENGINE" not in os.environ and os.path.exists(BUILT):
    # The launcher would build the program first, where the sources were changed.
    os.environ["VENGINE"] = BUILT
MEANINGLESS = os.path.join(HERE, "meaningless.ini")
FAULTS = os.path.join(TOP, "examples", "faults.ini")
# The lines of meaningless.ini with a warning, and what each warning says. Line 10 has one for each side.
WARNED = [
    (3, "nobody wins there"), (5, "White promotes on rank 8, which is not on the board"), (10, "Black's pawns go two squares from rank 7 and not from rank 8"),
    (10, "White promotes on rank 8 and not on rank 9"), (14, "pawns become nothing"), (15, "nobody wins by a flag"),
    (16, "no move of a kind begins the count anew"),
    (18, "it never moves"), (20, "not W as in the parent"), (22, "nothing is dropped"), (25, "there is nothing to drop"), (27, "nothing comes in at the gates"),
    (29, "there is nothing to bring in"), (31, "nobody is extinct"), (33, "nobody is extinct"), (34, "nobody is extinct"), (36, "black has won by checks"),
    (38, "there is no king"), (39, "there is no king"), (40, "there is no king"), (41, "there is no king"), (42, "there is no amazon"),
    (43, "there is no soldier"),
    (45, "castlingRank is not on the board"), (48, "the files of castling are not in the order"), (51, "nothing castles"), (54, "nothing is dropped"),
    (55, "nothing is dropped"), (56, "nothing is dropped"), (57, "nothing is dropped"), (58, "s:g names a letter that no piece has"),
    (62, "no repetition ends the game"), (64, "no move count ends the game"), (66, "no pawn goes two squares"),
    (68, "no pawn of White comes to promotionRegionWhite"), (69, "line 70 gives nFoldRule again"),
]
# The lines of faults.ini with a fault, the section, and the fault. The start of `eighth` is that of chess.
FAULTY = [
    (2, "chess", "SectionFault 1 DuplicateName"), (4, "second", "SectionFault 2 UnknownParent"), (6, "third", "SectionFault 3 RefusedParent"),
    (9, "fourth", "SectionFault 4 UnsupportedOption blastOnCapture"), (12, "fifth", "SectionFault 5 BadValue nFoldRule"),
    (15, "sixth", "SectionFault 6 BadPiece customPiece1 BetzaFault 6 AmbiguousDirection 0"), (19, "seventh", "SectionFault 7 LetterTwice q"),
    (21, "eighth", "SectionFault 8 BadStart FenFault 7 Rights"), (24, "ninth", "SectionFault 9 Inconsistent 1"), (28, "tenth", "SectionFault 9 Inconsistent 2"),
    (31, "eleventh", "SectionFault 9 Inconsistent 3"), (34, "twelfth", "SectionFault 9 Inconsistent 4"), (37, "thirteenth", "SectionFault 9 Inconsistent 5"),
]
# The variant of the examples of docs/FAULTS.md, and those examples with the place that is said of each.
CAMELS = "[camels]\nking = k\nknight = n\ncustomPiece1 = c:C\ncastling = false\nstartFen = k7/8/8/8/8/8/8/K7 w - - 0 1\n"
PLACES = [
    ("k7/8/8/8/8/8/8/K7 w - - 0", "", "FenFault 1 Length"),
    ("k7/8/8/8/8/8/K7 w - - 0 1", "field 1 (placement): 7 ranks, where the board has 8: ", "FenFault 2 Rank"),
    ("k7/8/8/8/8/8/8/K6x w - - 0 1", "field 1 (placement), rank 1, place 3: x: ", "FenFault 3 Letter"),
    ("k7/8/8/8/8/8/8/K6 w - - 0 1", "field 1 (placement), rank 1: 7 squares, where the board has 8 files: ", "FenFault 4 Width"),
    ("k7/8/8/8/8/08/8/K7 w - - 0 1", "field 1 (placement), rank 3, place 1: 08: ", "FenFault 4 Width"),
    ("k7/8/8/8/8/8/8/K7[N] w - - 0 1", "field 1 (placement), the hand: [N]: ", "FenFault 5 Pocket"),
    ("k7/8/8/8/8/8/8/K7 W - - 0 1", "field 2 (side): W: ", "FenFault 6 Side"),
    ("k7/8/8/8/8/8/8/K7 w K - 0 1", "field 3 (rights): K: ", "FenFault 7 Rights"),
    ("k7/8/8/8/8/8/8/K7 w - e3 0 1", "field 4 (en passant): e3: ", "FenFault 8 EnPassant"),
    ("k7/8/8/8/8/8/8/K7 w - - 10000 1", "field 5 (halfmoves): 10000: ", "FenFault 10 Counter"),
    ("k7/8/8/8/8/8/8/K7 w - - 0 01", "field 6 (number): 01: ", "FenFault 10 Counter"),
    ("8/8/8/8/8/8/8/K7 w - - 0 1", "field 1 (placement): 8/8/8/8/8/8/8/K7: ", "FenFault 11 Kings"),
    ("8/8/8/3k4/3K4/8/8/8 w - - 0 1", "field 1 (placement): 8/8/8/3k4/3K4/8/8/8: ", "FenFault 12 OpponentAttacked"),
]


def lint(*words):
    """The status and the lines of the command."""
    out, err = io.StringIO(), io.StringIO()
    with contextlib.redirect_stdout(out), contextlib.redirect_stderr(err):
        status = main(words)
    return status, out.getvalue().splitlines(), err.getvalue()


@contextlib.contextmanager
def file_of(text):
    """The path of a file with this text."""
    with tempfile.NamedTemporaryFile("w", suffix=".ini") as file:
        file.write(text)
        file.flush()
        yield file.name


def faults_on_the_page():
    """Each fault that a row of docs/FAULTS.md begins with, as "BetzaFault 1", and how many fields the row gives it at most."""
    found = {}
    with open(os.path.join(TOP, "docs", "FAULTS.md")) as page:
        for line in page:
            row = re.match(r"\| `((?:\w+Fault|\w*Verdict) \d+) \w+((?: [A-Z]+)*)` \|([^|]*)\|", line)
            if row:
                listed = [word for word in row.group(3).split(",") if word.strip() and "`" not in word]
                found[row.group(1)] = len(row.group(2).split()) + len(listed)
    return found


class Sections(unittest.TestCase):
    def test_what_means_nothing(self):
        status, lines, _ = lint(MEANINGLESS)
        told = [re.match(r".*\.ini:(\d+): \w+: warning: (.*)", line).groups() for line in lines if ": warning: " in line]
        self.assertEqual([int(line) for line, _ in told], [line for line, _ in WARNED])
        for (line, words), (_, expected) in zip(told, WARNED):
            self.assertIn(expected, words, line)
        self.assertEqual(status, 0)

    def test_each_section_is_ok(self):
        _, lines, _ = lint(MEANINGLESS)
        with open(MEANINGLESS) as file:
            headers = [f"{MEANINGLESS}:{number}: {line[1:].split(':')[0]}: ok" for number, line in enumerate(file, 1) if line.startswith("[")]
        self.assertEqual([line for line in lines if line.endswith(": ok")], headers)

    def test_warnings_are_faults_where_lint_is_strict(self):
        self.assertEqual(lint(MEANINGLESS, "--strict")[0], 2)
        with file_of(CAMELS) as path:
            self.assertEqual(lint(path, "--strict"), (0, [f"{path}:1: camels: ok"], ""))

    def test_the_faults_of_sections(self):
        status, lines, _ = lint(FAULTS, "--strict")
        self.assertEqual(len(lines), len(FAULTY))
        for line, (number, name, fault) in zip(lines, FAULTY):
            self.assertTrue(line.startswith(f"{FAULTS}:{number}: {name}: fault: "), line)
            self.assertTrue(line.endswith(f"({fault})"), line)
        self.assertEqual(status, 1)

    def test_the_key_and_the_value_of_a_fault(self):
        _, lines, _ = lint(FAULTS)
        self.assertIn(": fault: nFoldRule = 1: ", lines[4])
        self.assertIn(": fault: customPiece1 = a:fN: ", lines[5])
        self.assertIn("field 3 (rights): KQkq", lines[7])

    def test_an_option_that_needs_another(self):
        with file_of("[a:chess]\nmandatoryPiecePromotion = true\n[b:chess]\nnMoveRule = 0\nnMoveRuleTypes = z\n") as path:
            _, lines, _ = lint(path)
        warned = [line[len(path) + 1:] for line in lines if ": warning: " in line]
        self.assertEqual(warned, [
            "2: a: warning: mandatoryPiecePromotion = true: mandatoryPiecePromotion means nothing: there is no promotedPieceType",
            "5: b: warning: nMoveRuleTypes = z: nMoveRuleTypes means nothing: no move count ends the game: nMoveRule is 0"])

    def test_a_part_of_the_letters_and_of_the_squares(self):
        with file_of("[a:chess]\npromotionPieceTypes = qz\n[b:kingofthehill]\nflagRegionWhite = d4 d9\n") as path:
            _, lines, _ = lint(path)
        warned = [line[len(path) + 1:] for line in lines if ": warning: " in line]
        self.assertEqual(warned, ["2: a: warning: promotionPieceTypes = qz: no piece has the letter z",
                                  "4: b: warning: flagRegionWhite = d4 d9: d9 of flagRegionWhite is not on the board"])

    def test_one_section(self):
        (warning,) = lint_of(MEANINGLESS, "hopper")
        self.assertEqual(warning, "line 18: warning: customPiece1 = w:pW1: a hopper that goes one step has nothing to hop over: it never moves")
        self.assertEqual(lint_of(MEANINGLESS, "chess"), [])


class Files(unittest.TestCase):
    def test_a_file_that_is_refused(self):
        with file_of("# nothing\ncastling = true\n") as path:
            self.assertEqual(lint(path), (1, [f"{path}:2: fault: line 2 is above the first section (IniFault 4 NoSection 2)"], ""))

    def test_a_file_that_is_not_there(self):
        status, lines, said = lint(os.path.join(HERE, "no-such-file.ini"))
        self.assertEqual((status, lines), (1, []))
        self.assertIn("No such file", said)


class Positions(unittest.TestCase):
    def test_the_place_of_each_fault(self):
        with file_of(CAMELS) as path:
            status, lines, _ = lint(path, "--fen", *[fen for fen, _, _ in PLACES])
        for line, (fen, place, fault) in zip(lines[1:], PLACES):
            self.assertTrue(line.startswith(f"{fen}: fault: {place}"), line)
            self.assertTrue(line.endswith(f"({fault})"), line)
        self.assertEqual((status, len(lines)), (1, 1 + len(PLACES)))

    def test_a_position_of_another_variant(self):
        with file_of(CAMELS + "[two:chess]\n") as path:
            fen = "k7/8/8/8/8/8/8/KC6 w - - 0 1"
            self.assertEqual(lint(path, "--of", "camels", "--fen", fen)[::2], (0, ""))
            status, lines, _ = lint(path, "--fen", fen)
        self.assertEqual(status, 1)
        self.assertTrue(lines[-1].startswith(f"{fen}: fault: field 1 (placement), rank 1, place 2: C: "), lines[-1])

    def test_the_checks(self):
        fen = "rnbqkbnr/pppppppp/8/8/8/8/PPPPPPPP/RNBQKBNR w KQkq - 100+3 0 1"
        with file_of("[a:3check]\n") as path:
            _, lines, _ = lint(path, "--fen", fen)
        self.assertTrue(lines[-1].startswith(f"{fen}: fault: field 5 (checks): 100+3: "), lines[-1])


class Words(unittest.TestCase):
    def test_each_fault_of_the_page_has_words(self):
        self.assertEqual(set(WORDS), set(faults_on_the_page()))

    def test_words_name_the_fields_that_there_are(self):
        fields = faults_on_the_page()
        for fault, words in WORDS.items():
            self.assertLessEqual(len(set(re.findall(r"{\d}", words))), fields[fault], fault)

    def test_each_contradiction_has_words(self):
        self.assertEqual(sorted(CONTRADICTIONS), ["1", "2", "3", "4", "5"])

    def test_a_fault_inside_a_fault(self):
        fault = Fault("GameFault 3 RefusedVariant SectionFault 6 BadPiece customPiece1 BetzaFault 3 UnknownAtom 1")
        self.assertEqual(words_of(fault), "the variant is refused: the word of customPiece1 is faulty: there is no atom at place 1")


if __name__ == "__main__":
    done = unittest.main(exit=False).result
    failed = len(done.failures) + len(done.errors)
    print(f"{max(0, done.testsRun - failed - len(done.skipped))} passed, {failed} failed")
    sys.exit(1 if failed else 0)
