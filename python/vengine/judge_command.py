"""python -m vengine judge [--json] [--jobs N] [--cluster [ADDRESS]] [--variant NAME] [--variants FILE] FILE ..

Reads files of PGN of any size, "-" being standard input, and prints a line for each game. The status is 0 where no game has a fault, 1 where one has, and
2 where a file cannot be read or has no game.
"""
from __future__ import annotations

import argparse
import contextlib
import json
import os
import sys
import time
from collections import deque
from concurrent.futures import Executor, Future, ProcessPoolExecutor
from typing import BinaryIO, Callable, Deque, Iterable, Iterator, List, NamedTuple, Optional, Sequence, Tuple, Union

from vengine.faults import VengineError
from vengine.judge import JudgeOptions, Verdict, judge_games
from vengine.judge_pieces import piece_of, verdict_of
from vengine.options import add_cluster, cluster_at
from vengine.pgn import Broken, RawGame, games_in
from vengine.program import find_program
from vengine.sections import read_file
from vengine.shared_library import found_library
from vengine.work import InOrder, Journal, Piece, Workers

Item = Union[RawGame, Broken]
# A part of the work for one process: at most so many games and bytes.
GAMES, BYTES = 64, 1 << 18
BAR = 30
FAULTY, UNREADABLE = 1, 2


class Judged(NamedTuple):
    """The verdicts on some games of a file, and the place after the last of them."""

    verdicts: List[Verdict]
    byte: int


# Judges the games of a file in their order.
Judging = Callable[[Iterable[Item]], Iterator[Judged]]


# ---- a line for each game


def line_of(verdict: Verdict) -> str:
    """A verdict in words."""
    front = f"{verdict.game} {verdict.variant or '-'}"
    if verdict.fault:
        ply, move, why, byte = verdict.fault
        place = f"FAULT at ply {ply}, byte {byte}" if ply else f"FAULT at byte {byte}"
        return f"{front}: {place}: {f'{move}: ' if move else ''}{why}{_claims_of(verdict)}"
    end = f"{verdict.end.result} by {verdict.cause}" if verdict.end else "ongoing"
    stated = f"stated {verdict.stated}" if verdict.stated else "no result stated"
    remark = f" ({verdict.remark})" if verdict.remark and verdict.stated else ""
    agrees = ": DOES NOT AGREE" if verdict.agrees is False else ""
    return f"{front}: {verdict.plies} plies, {end}, {stated}{agrees}{remark}{_claims_of(verdict)}"


def _claims_of(verdict: Verdict) -> str:
    """The plies of claims, and where the game was over and went on."""
    claims = verdict.claims
    named = (("stood three times", claims.threefold), ("stood five times", claims.fivefold), ("fifty moves", claims.fifty),
             ("seventy-five moves", claims.seventyfive))
    found = [f"{name} at ply {ply}" for name, ply in named if ply is not None]
    if verdict.continued:
        found.append(f"over by {verdict.continued[1]} at ply {verdict.continued[0]} and continued")
    return "; " + ", ".join(found) if found else ""


# ---- a file


def chunks_of(items: Iterable[Item]) -> Iterator[List[Item]]:
    """The games in parts for one process each."""
    part: List[Item] = []
    size = 0
    for item in items:
        part.append(item)
        size += len(item.data) if isinstance(item, RawGame) else 0
        if len(part) >= GAMES or size >= BYTES:
            yield part
            part, size = [], 0
    if part:
        yield part


def judged(items: Iterable[Item], options: JudgeOptions, pool: Optional[Executor], jobs: int) -> Iterator[Judged]:
    """The verdicts on games in their order; a few parts are worked on at once, so that no file is held whole."""
    waiting: Deque[Tuple["Future[List[Verdict]]", int]] = deque()
    for part in chunks_of(items):
        end = end_of(part)
        if pool is None:
            yield Judged(judge_games(part, options), end)
            continue
        waiting.append((pool.submit(judge_games, part, options), end))
        if len(waiting) > 3 * jobs:
            first, byte = waiting.popleft()
            yield Judged(first.result(), byte)
    for first, byte in waiting:
        yield Judged(first.result(), byte)


def judged_by(items: Iterable[Item], options: JudgeOptions, workers: Workers) -> Iterator[Judged]:
    """The same by the workers of a cluster."""
    ends: Deque[int] = deque()

    def pieces() -> Iterator[Piece]:
        for part in chunks_of(items):
            ends.append(end_of(part))
            yield piece_of(part, options)

    for answer in InOrder(workers, Journal(None, False)).answers(pieces()):
        yield Judged([verdict_of(fields) for fields in answer], ends.popleft())


def end_of(part: List[Item]) -> int:
    """The place after the last of some games."""
    last = part[-1]
    return last.byte + (len(last.data) if isinstance(last, RawGame) else 0)


class Bar:
    """A bar of the progress, on a terminal alone."""

    def __init__(self, name: str, size: int) -> None:
        self._name, self._size, self._is_shown = name, size, sys.stderr.isatty()
        self._begun, self._last = time.monotonic(), 0.0
        self.games, self.plies = 0, 0

    def show(self, byte: int) -> None:
        """Shows how far the reading is, at most five times a second."""
        now = time.monotonic()
        if not self._is_shown or now - self._last < 0.2:
            return
        self._last = now
        part = min(1.0, byte / self._size) if self._size else 0.0
        done = "#" * int(BAR * part)
        rate = self.plies / max(now - self._begun, 0.001)
        sys.stderr.write(f"\r\x1b[K{self._name} [{done:<{BAR}}] {100 * part:3.0f}% {self.games} games, {rate:,.0f} plies/s")
        sys.stderr.flush()

    def clear(self) -> None:
        """Takes the bar away."""
        if self._is_shown:
            sys.stderr.write("\r\x1b[K")
            sys.stderr.flush()


def judge_file(name: str, say: Callable[[Verdict], None], judging: Judging) -> Tuple[int, int]:
    """Judges the games of a file and says each verdict. What is answered are the numbers of its games and of those that are faulty."""
    faulty = 0
    with opened(name) as stream:
        bar = Bar(name, os.fstat(stream.fileno()).st_size)
        for part in judging(games_in(stream)):
            bar.clear()
            for verdict in part.verdicts:
                say(verdict)
                faulty += verdict.is_faulty
                bar.plies += verdict.plies
            bar.games += len(part.verdicts)
            bar.show(part.byte)
        bar.clear()
    return bar.games, faulty


def opened(name: str) -> BinaryIO:
    """A file to read, or standard input."""
    return open(0 if name == "-" else name, "rb")


# ---- the command


def parser() -> argparse.ArgumentParser:
    """The words of the command."""
    words = argparse.ArgumentParser(prog="python -m vengine judge", description="Judges games of PGN by the rules, a line for each game.")
    words.add_argument("files", nargs="+", metavar="FILE", help="a file of PGN; - is standard input")
    words.add_argument("--json", action="store_true", help="print an object of JSON for each game")
    words.add_argument("--jobs", type=int, default=os.cpu_count() or 1, metavar="N", help="how many processes judge at once (default: one for each processor)")
    add_cluster(words)
    words.add_argument("--variant", default="chess", metavar="NAME", help="the variant of games that name none (default: chess)")
    words.add_argument("--variants", metavar="FILE", help="a file of variants")
    return words


def judge_all(given: argparse.Namespace, judging: Judging) -> int:
    """Judges all files, and answers the status."""
    status = 0
    for name in given.files:
        def say(verdict: Verdict, name: str = name) -> None:
            front = {"file": name} if len(given.files) > 1 else {}
            words = f"{name}: " if front else ""
            print(json.dumps({**front, **verdict.as_json()}) if given.json else words + line_of(verdict))

        try:
            games, faulty = judge_file(name, say, judging)
        except OSError as error:
            if isinstance(error, BrokenPipeError):
                raise
            print(f"vengine: {name}: {error.strerror}", file=sys.stderr)
            status = UNREADABLE
            continue
        if not games:
            print(f"vengine: {name}: there is no game in this file", file=sys.stderr)
            status = UNREADABLE
        status = max(status, FAULTY if faulty else 0)
    return status


def main(words: Sequence[str]) -> int:
    """Runs the command with these words, and answers its status."""
    given = parser().parse_args(list(words))
    try:
        file = None if given.variants is None else read_file(given.variants)
        if given.cluster is not None:
            options = JudgeOptions(given.variant, file, "")
            with contextlib.closing(cluster_at(given.cluster, find_program(), given.jobs)) as workers:
                return judge_all(given, lambda items: judged_by(items, options, workers))
        options = JudgeOptions(given.variant, file, found_library())
        if given.jobs <= 1:
            return judge_all(given, lambda items: judged(items, options, None, 1))
        with ProcessPoolExecutor(given.jobs) as pool:
            return judge_all(given, lambda items: judged(items, options, pool, given.jobs))
    except VengineError as error:
        print(f"vengine: {error}", file=sys.stderr)
        return UNREADABLE
    except BrokenPipeError:
        # What was reading has ended: so has the work.
        os.dup2(os.open(os.devnull, os.O_WRONLY), sys.stdout.fileno())
        return 0
