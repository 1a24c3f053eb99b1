"""A report on a variant, by games that the program plays: `python -m vengine lab FILE NAME` (docs/LAB.md).

FILE is a file of variants, or `-` for the built-in ones alone; NAME is the variant. DIR gets report.html, report.json and games.pgn. The same seed gives the same games,
whatever the number of workers. Ctrl-C keeps what was played; --resume goes on with it. `lab compare FILE A B` puts two variants, or two depths (NAME@DEPTH), side by side.
"""
import argparse
import json
import os
import sys
from typing import Any, Dict, List, Optional, Tuple

from vengine.engine import Engine
from vengine.faults import BadInput, VengineError
from vengine.program import find_program
from vengine.options import Bar, add_options, workers_of
from vengine.suite import text_of
from vengine.work import Journal, Workers
from vengine.lab.archive import pgn_of
from vengine.lab.games import Plan
from vengine.lab.study import Played, Study, played, report_of

FAILED, CUT = 4, 130


def arguments(words: List[str], is_pair: bool) -> argparse.Namespace:
    """What the words of the command ask."""
    parser = argparse.ArgumentParser(prog="python -m vengine lab" + (" compare" if is_pair else ""), description=__doc__, formatter_class=argparse.RawDescriptionHelpFormatter)
    parser.add_argument("file", help="a file of variants; - for the built-in ones alone")
    parser.add_argument("names", nargs=2 if is_pair else 1, metavar="NAME", help="a variant, as NAME or NAME@DEPTH")
    for name, default, about in (("games", 1000, "how many games"), ("depth", 2, "the depth of the search"), ("random", 6, "how many random plies come first"),
                                 ("plies", 400, "after how many plies a game is unfinished"), ("seed", 1, "the seed of all games"),
                                 ("piece-games", None, "how many games each side plays without a piece of each kind; by default a twentieth of the games")):
        parser.add_argument(f"--{name}", type=int, default=default, metavar="N", help=about)
    parser.add_argument("--out", default="lab", metavar="DIR", help="where the report goes")
    parser.add_argument("--resume", action="store_true", help="go on with what DIR has")
    add_options(parser)
    given = parser.parse_args(words)
    limits = {"games": (1, 10**6), "depth": (1, 64), "random": (0, 400), "plies": (1, 8192), "seed": (0, 2**63), "piece_games": (0, 10**6)}
    given.piece_games = given.games // 20 if given.piece_games is None else given.piece_games
    for name, (low, high) in limits.items():
        if not low <= getattr(given, name) <= high:
            parser.error(f"--{name.replace('_', '-')}: a number from {low} to {high}")
    return given


def study_of(given: argparse.Namespace, name: str, engine: Engine) -> Study:
    """What is asked of a variant, whose name may have its depth after it."""
    variant, _, depth = name.partition("@")
    if depth and not (depth.isascii() and depth.isdigit() and 1 <= int(depth) <= 64):
        raise BadInput(f"no depth: {name}")
    path = None if given.file == "-" else given.file
    plan = Plan(variant, None if path is None else text_of(path), engine.start_fen(variant), given.seed, int(depth) if depth else given.depth, given.random, given.plies)
    return Study(plan, given.games, given.piece_games, path)


def main(words: List[str]) -> int:
    """Runs the command. The status is 4 where something was refused or lost, 130 after Ctrl-C, else 0."""
    is_pair = words[:1] == ["compare"]
    given = arguments(words[is_pair:], is_pair)
    try:
        from vengine.lab import pictures  # noqa: F401
    except ImportError:
        print("lab: the pictures need matplotlib: install Debian's package python3-matplotlib", file=sys.stderr)
        return FAILED
    try:
        os.makedirs(given.out, exist_ok=True)
        run_all(given, is_pair)
    except KeyboardInterrupt:
        print(f"lab: cut; --resume goes on with what {given.out} has", file=sys.stderr)
        return CUT
    except (VengineError, OSError) as error:
        print(f"lab: {error}", file=sys.stderr)
        return FAILED
    return 0


def run_all(given: argparse.Namespace, is_pair: bool) -> None:
    """Plays, counts and writes."""
    journal, workers = Journal(os.path.join(given.out, "games.journal"), given.resume), None
    try:
        with Engine(given.program or find_program(), variants=None if given.file == "-" else given.file, timeout=600.0) as engine:
            studies = [study_of(given, name, engine) for name in given.names]
            workers = workers_of(given)
            made = [studied(study, engine, workers, journal) for study in studies]
            write(given.out, studies, made, engine, is_pair)
    finally:
        journal.close()
        if workers is not None:
            workers.close()


def studied(study: Study, engine: Engine, workers: Workers, journal: Journal) -> Tuple[Played, Dict[str, Any]]:
    """The games of a variant, and its report."""
    bar: Optional[Bar] = None

    def told(count: int, total: int) -> None:
        nonlocal bar
        bar = bar or Bar(study.plan.variant, total)
        bar.at(count)

    try:
        found = played(study, engine, workers, journal, told)
    finally:
        if bar is not None:
            bar.end()
    return found, report_of(study, engine, found)


def write(folder: str, studies: List[Study], made: List[Tuple[Played, Dict[str, Any]]], engine: Engine, is_pair: bool) -> None:
    """Writes the page, the numbers and the games."""
    from vengine.lab.drawings import drawings_of
    from vengine.lab.report import page_of, pair_page
    drawings = [drawings_of(engine, report) for _, report in made]
    reports = [report for _, report in made]
    put(folder, "report.html", pair_page(reports, drawings) if is_pair else page_of(reports[0], drawings[0]))
    put(folder, "report.json", json.dumps(reports if is_pair else reports[0], indent=1, sort_keys=True) + "\n")
    put(folder, "games.pgn", "".join(text for study, (found, _) in zip(studies, made) for text in pgn_of(engine, study.plan, found.games)))
    print(f"{os.path.join(folder, 'report.html')}: " + " ".join(word for report in reports for word in report["verdicts"]))


def put(folder: str, name: str, text: str) -> None:
    """Writes a file whole, or leaves the one that was there."""
    path = os.path.join(folder, name)
    with open(path + ".new", "w", encoding="utf-8", newline="") as file:
        file.write(text)
    os.replace(path + ".new", path)
