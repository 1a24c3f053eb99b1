"""Any number of mate problems, solved by as many workers as there are: `python -m vengine suite FILE` (docs/CLUSTER.md).

FILE has a problem a line, as the command `suite` of the program reads it: a name of a variant, a number of moves from 1 to 20, and `startpos` or a FEN. For each
problem a line is printed, in the order of the file: the number of its line, and `mate N`, `none`, or the fault for which it is refused.
"""
import argparse
import sys
import tempfile
from typing import Any, Dict, Iterator, List, NamedTuple, Optional, Tuple

from vengine.engine import Engine
from vengine.faults import Fault, VengineError
from vengine.program import find_program, run
from vengine.options import Bar, add_options, journal_of, workers_of
from vengine.work import InOrder, Piece

REFUSED, FAILED = 3, 4
TASK = "suite:solved"


class Problem(NamedTuple):
    """A line of the file: its number, counted from 1, and its text."""

    line: int
    text: str


def problems_of(path: str) -> Iterator[Problem]:
    """The problems of a file; `-` is the standard input."""
    with (open(sys.stdin.fileno(), encoding="ascii", errors="replace", closefd=False) if path == "-" else open(path, encoding="ascii", errors="replace")) as file:
        for number, line in enumerate(file, 1):
            text = line.rstrip("\r\n")
            if text and not text.startswith("#"):
                yield Problem(number, text)


# ---- what a worker does


def solved(program: str, text: str, variants: Optional[str], with_strategy: bool) -> Dict[str, Any]:
    """What the program says of one problem, as the line `told`, and where it is a mate and that is asked for, its `strategy`."""
    with variants_file(variants) as words:
        told = told_of(program, words, text)
        strategy = strategy_of(program, words, text, int(told.split(" ")[1])) if with_strategy and told.startswith("mate ") else None
    return {"told": told, "strategy": strategy}


class variants_file:
    """A file with this text of variants for as long as it is asked for: the words by which the program is told of it."""

    def __init__(self, text: Optional[str]) -> None:
        self._file = None if text is None else tempfile.NamedTemporaryFile("w", suffix=".ini", encoding="utf-8", errors="surrogateescape", newline="")
        if self._file is not None:
            self._file.write(text or "")
            self._file.flush()

    def __enter__(self) -> List[str]:
        return [] if self._file is None else ["--variants", self._file.name]

    def __exit__(self, *_: Any) -> None:
        if self._file is not None:
            self._file.close()


def told_of(program: str, words: List[str], text: str) -> str:
    """`mate N`, `none`, or `error` and the fault, in which the line is 1."""
    try:
        return run([program, *words, "suite"], text + "\n").splitlines()[0].split(" ", 1)[1]
    except Fault as fault:
        return f"error {fault.text}"


def strategy_of(program: str, words: List[str], text: str, moves: int) -> Optional[str]:
    """The strategy of a mate in so many moves, from `attacker` to `end`; None where the session does not find it."""
    variant, _, fen = text.split(" ", 2)
    with Engine(program, variants=words[1] if words else None) as engine:
        found = engine.mate(variant, fen, within=moves, timeout=3600.0)
    if found.strategy is None:
        return None
    return "attacker " + found.strategy.partition("\nattacker ")[2]


# ---- what is done at home


class Judge:
    """Says of an answer whether it is taken: a mate where its strategy is checked here, `none` where as many workers as are wanted have said so."""

    def __init__(self, program: str, variants: Optional[str], checks: bool, twice: bool) -> None:
        self._program, self._variants, self._checks = program, variants, checks
        self._wanted = 2 if twice else 1
        self._nones: Dict[str, int] = {}

    def __call__(self, piece: Piece, answer: Any) -> bool:
        text, told = piece.given["text"], str(answer.get("told")) if isinstance(answer, dict) else ""
        if told.startswith("mate "):
            return not self._checks or self._holds(text, told[len("mate "):], answer.get("strategy"))
        if told == "none":
            self._nones[text] = self._nones.get(text, 0) + 1
            return self._nones[text] >= self._wanted
        return told.startswith("error SuiteFault ") and (not self._checks or self._refuses(text, told))

    def _holds(self, text: str, moves: str, strategy: Any) -> bool:
        """Whether the program of this machine says that this strategy wins this problem, within its number of moves."""
        variant, within, fen = text.split(" ", 2)
        if not isinstance(strategy, str) or not moves.isdigit() or not 1 <= int(moves) <= int(within):
            return False
        side = strategy.partition("\n")[0].partition(" ")[2]
        given = f"{variant}\n{fen}\n\nmate {side} {int(moves)}\nstrategy 1\n{strategy}"
        try:
            with variants_file(self._variants) as words:
                return run([self._program, *words, "check"], given) == "wins\n"
        except VengineError:
            return False

    def _refuses(self, text: str, told: str) -> bool:
        with variants_file(self._variants) as words:
            return told_of(self._program, words, text) == told


def line_of(problem: Problem, told: str) -> str:
    """The line that is printed. A fault names its line of the file."""
    words = told.split(" ")
    if words[0] == "error":
        words[4:5] = [str(problem.line)] if words[4:5] == ["1"] else words[4:5]
    return f"{problem.line} {' '.join(words)}"


def arguments(words: List[str]) -> argparse.Namespace:
    """What the words of the command ask."""
    parser = argparse.ArgumentParser(prog="python -m vengine suite", description=__doc__, formatter_class=argparse.RawDescriptionHelpFormatter)
    parser.add_argument("file", help="the problems; - is the standard input")
    parser.add_argument("--variants", metavar="FILE", help="a file of variants beside the built-in ones")
    parser.add_argument("--check", action="store_true", help="have each mate come with its strategy, and check that here")
    parser.add_argument("--twice", action="store_true", help="have two workers say `none` before it is taken")
    parser.add_argument("--journal", metavar="FILE", help="keep what is done in this file")
    parser.add_argument("--resume", action="store_true", help="go on with what the journal has")
    add_options(parser)
    given = parser.parse_args(words)
    if given.resume and given.journal is None:
        parser.error("--resume needs --journal")
    return given


def main(words: List[str]) -> int:
    """Runs the command. The status is 3 where a problem was refused, 4 where the work was cut, else 0."""
    given = arguments(words)
    try:
        problems = list(problems_of(given.file))
        variants = None if given.variants is None else text_of(given.variants)
        count, refused = report(given, problems, variants)
    except (VengineError, OSError) as error:
        print(f"suite: {error}", file=sys.stderr)
        return FAILED
    print(f"solved {count} of {len(problems)}")
    return REFUSED if refused else 0


def text_of(path: str) -> str:
    """A file of variants, byte for byte."""
    with open(path, encoding="utf-8", errors="surrogateescape", newline="") as file:
        return file.read()


def report(given: argparse.Namespace, problems: List[Problem], variants: Optional[str]) -> Tuple[int, int]:
    """Prints a line for each problem, and tells how many are mates and how many were refused."""
    judge = Judge(given.program or find_program(), variants, given.check, given.twice)
    pieces = (Piece(TASK, {"text": problem.text, "variants": variants, "with_strategy": given.check}) for problem in problems)
    workers, journal, bar = workers_of(given), journal_of(given.journal, given.resume), Bar("suite", len(problems))
    count = refused = 0
    try:
        for problem, answer in zip(problems, InOrder(workers, journal, judge, 4).answers(pieces, bar.at)):
            count += answer["told"].startswith("mate ")
            refused += answer["told"].startswith("error ")
            bar.end()
            print(line_of(problem, answer["told"]), flush=True)
    finally:
        bar.end()
        journal.close()
        workers.close()
    return count, refused
