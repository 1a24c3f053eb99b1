"""How many lines of N legal moves begin at a position, counted by as many workers as there are: `python -m vengine perft N` (docs/CLUSTER.md).

The game is read from the standard input, as the command `perft` of the program reads it. A piece is what begins with one line of two moves.
"""
import argparse
import sys
from typing import Any, Dict, List, Optional

from vengine.faults import Fault, VengineError
from vengine.program import find_program, run
from vengine.options import Bar, add_options, journal_of, workers_of
from vengine.suite import text_of, variants_file
from vengine.work import InOrder, Piece

REFUSED, FAILED = 3, 4
TASK = "perft:counted"


def counted(program: str, text: str, plies: int, variants: Optional[str]) -> Dict[str, Any]:
    """How many lines of so many moves begin after this game text."""
    with variants_file(variants) as words:
        return {"count": int(run([program, *words, "perft", str(plies)], text).split(" ")[-1])}


def legal_moves(program: str, words: List[str], text: str) -> List[str]:
    """The legal moves after a game text."""
    return run([program, *words, "moves"], text).splitlines()[:-1]


def beginnings(program: str, words: List[str], text: str, plies: int) -> List[str]:
    """The game texts of all lines of so many moves."""
    texts = [text]
    for _ in range(plies):
        texts = [f"{one}{move}\n" for one in texts for move in legal_moves(program, words, one)]
    return texts


def arguments(words: List[str]) -> argparse.Namespace:
    """What the words of the command ask."""
    parser = argparse.ArgumentParser(prog="python -m vengine perft", description=__doc__, formatter_class=argparse.RawDescriptionHelpFormatter)
    parser.add_argument("plies", type=int, choices=range(1, 10), metavar="N", help="how many moves a line has, 1 to 9")
    parser.add_argument("--variants", metavar="FILE", help="a file of variants beside the built-in ones")
    parser.add_argument("--journal", metavar="FILE", help="keep what is done in this file")
    parser.add_argument("--resume", action="store_true", help="go on with what the journal has")
    add_options(parser)
    given = parser.parse_args(words)
    if given.resume and given.journal is None:
        parser.error("--resume needs --journal")
    return given


def main(words: List[str]) -> int:
    """Runs the command. What it prints is what the program prints. The status is 3 where the game is refused, 4 where the work was cut, else 0."""
    given = arguments(words)
    try:
        print(f"perft {given.plies} {total(given, sys.stdin.read())}")
    except Fault as fault:
        print(f"error {fault.text}")
        return REFUSED
    except (VengineError, OSError) as error:
        print(f"perft: {error}", file=sys.stderr)
        return FAILED
    return 0


def total(given: argparse.Namespace, text: str) -> int:
    """The sum over all pieces."""
    program = given.program or find_program()
    text = text if text.endswith("\n") else text + "\n"
    variants = None if given.variants is None else text_of(given.variants)
    with variants_file(variants) as words:
        if given.plies <= 2:
            return int(counted(program, text, given.plies, variants)["count"])
        texts = beginnings(program, words, text, 2)
    pieces = [Piece(TASK, {"text": one, "plies": given.plies - 2, "variants": variants}) for one in texts]
    workers, journal, bar = workers_of(given), journal_of(given.journal, given.resume), Bar("perft", len(pieces))
    try:
        return sum(int(answer["count"]) for answer in InOrder(workers, journal).answers(pieces, bar.at))
    finally:
        bar.end()
        journal.close()
        workers.close()
