"""Work in pieces: each piece is done by a worker, here or elsewhere, and the answers are put together in the order of the pieces.

A piece names a function of this package and what is given to it; both the given and the answer are what JSON can say, so that a piece can go to another machine and
its answer into a journal.
"""
import hashlib
import importlib
import json
import os
import threading
from concurrent.futures import FIRST_COMPLETED, Future, ThreadPoolExecutor, wait
from typing import Any, Callable, Dict, Iterable, Iterator, NamedTuple, Optional, Protocol, Set, Tuple

from vengine.faults import VengineError

# How many pieces are under way for each worker: one in work, and one that waits so that no worker idles.
AHEAD = 2


class BadAnswer(VengineError):
    """What came back for a piece was refused by its judge, each time that it was asked."""


class WorkLost(VengineError):
    """The workers cannot go on; what was done until then is in the journal."""


class Piece(NamedTuple):
    """What is done at once: a function, as `module:name` within this package, and what it is given beside the path of the program."""

    task: str
    given: Dict[str, Any]

    @property
    def digest(self) -> str:
        """A name of the piece: another piece has another one."""
        return hashlib.sha256(json.dumps([self.task, self.given], sort_keys=True).encode()).hexdigest()


# Says of an answer that it is good; what is not good is asked again, of another worker where there is one.
Judge = Callable[[Piece, Any], bool]


def done(piece: Piece, program: str) -> Any:
    """Does a piece in this process, with the program of this path."""
    module, _, name = piece.task.partition(":")
    return getattr(importlib.import_module(f"{__package__}.{module}"), name)(program, **piece.given)


class Workers(Protocol):
    """Whoever does pieces."""

    def answers(self, pieces: Iterable[Tuple[int, Piece]]) -> Iterator[Tuple[int, Any]]:
        """The number and the answer of each piece, as they come."""

    def close(self) -> None:
        """Ends what was begun."""


class Here:
    """Workers of this machine: as many threads, each of which asks the program."""

    def __init__(self, program: str, jobs: int) -> None:
        self.program, self.jobs = program, jobs
        self._pool = ThreadPoolExecutor(jobs)

    def answers(self, pieces: Iterable[Tuple[int, Piece]]) -> Iterator[Tuple[int, Any]]:
        """The number and the answer of each piece, as they come. What a piece raises is raised here."""
        under_way: Dict["Future[Any]", int] = {}
        source, is_open = iter(pieces), True
        while is_open or under_way:
            while is_open and len(under_way) < AHEAD * self.jobs:
                number, piece = next(source, (-1, None))
                is_open = piece is not None
                if piece is not None:
                    under_way[self._pool.submit(done, piece, self.program)] = number
            for future in wait(under_way, return_when=FIRST_COMPLETED).done if under_way else ():
                yield under_way.pop(future), future.result()

    def close(self) -> None:
        """Waits for the pieces that are in work; those that wait are dropped."""
        self._pool.shutdown(wait=True, cancel_futures=True)


class Journal:
    """What was done, kept in a file of a line for each piece, so that a run which was cut goes on where it stood."""

    def __init__(self, path: Optional[str], goes_on: bool) -> None:
        self._known: Dict[str, Any] = {}
        self._lock = threading.Lock()
        if path is not None and goes_on and os.path.exists(path):
            self._known = dict(self._kept(path))
        self._file = None if path is None else open(path, "a" if goes_on else "w", encoding="utf-8")

    @staticmethod
    def _kept(path: str) -> Iterator[Tuple[str, Any]]:
        """The pieces of the file; a last line that was cut is passed over."""
        with open(path, encoding="utf-8") as file:
            for line in file:
                try:
                    one = json.loads(line)
                    yield one["piece"], one["answer"]
                except (ValueError, KeyError, TypeError):
                    continue

    def knows(self, piece: Piece) -> bool:
        """Whether this piece was done."""
        return piece.digest in self._known

    def answer(self, piece: Piece) -> Any:
        """What came of it."""
        return self._known[piece.digest]

    def keep(self, piece: Piece, answer: Any) -> None:
        """Writes it down at once."""
        if self._file is None:
            return
        with self._lock:
            self._file.write(json.dumps({"piece": piece.digest, "answer": answer}) + "\n")
            self._file.flush()

    def close(self) -> None:
        """Closes the file."""
        if self._file is not None:
            self._file.close()


class InOrder:
    """Pieces done by workers, their answers in the order of the pieces."""

    def __init__(self, workers: Workers, journal: Journal, judge: Optional[Judge] = None, tries: int = 3) -> None:
        self._workers, self._journal, self._judge, self._tries = workers, journal, judge, tries
        self._pieces: Dict[int, Piece] = {}
        self._ready: Dict[int, Any] = {}
        self._refused: Set[int] = set()
        self._count = 0

    def answers(self, pieces: Iterable[Piece], told: Callable[[int], None] = lambda count: None) -> Iterator[Any]:
        """The answers, in the order of the pieces. `told` hears how many pieces are done, as they are. BadAnswer where an answer is refused at each try."""
        next_one = 0
        wanted: Iterable[Tuple[int, Piece]] = enumerate(pieces)
        for attempt in range(self._tries):
            for number, answer in self._workers.answers(self._asked(wanted)):
                if self._takes(number, answer):
                    told(self._count)
                while next_one in self._ready:
                    yield self._ready.pop(next_one)
                    next_one += 1
            while next_one in self._ready:
                yield self._ready.pop(next_one)
                next_one += 1
            if not self._refused:
                return
            wanted, self._refused = [(number, self._pieces[number]) for number in sorted(self._refused)], set()
        first = min(number for number, _ in wanted)
        raise BadAnswer(f"piece {first + 1} was answered wrongly {self._tries} times: {self._pieces[first].given}")

    def _asked(self, wanted: Iterable[Tuple[int, Piece]]) -> Iterator[Tuple[int, Piece]]:
        """Those of them that the journal does not know."""
        for number, piece in wanted:
            if self._journal.knows(piece):
                self._ready[number] = self._journal.answer(piece)
                self._count += 1
                continue
            self._pieces[number] = piece
            yield number, piece

    def _takes(self, number: int, answer: Any) -> bool:
        """Takes an answer that its judge accepts; another one is asked for again."""
        piece = self._pieces[number]
        if self._judge is not None and not self._judge(piece, answer):
            self._refused.add(number)
            return False
        self._journal.keep(piece, answer)
        self._ready[number] = answer
        self._count += 1
        del self._pieces[number]
        return True
