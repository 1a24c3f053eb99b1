"""What the commands that do much work have in common: where it is done, what is kept of it, and a bar that shows how far it is."""
import argparse
import os
import sys
import time
from typing import Optional, TextIO

from vengine.program import find_program
from vengine.work import Here, Journal, Workers


def add_options(parser: argparse.ArgumentParser) -> None:
    """The options of such a command."""
    parser.add_argument("--jobs", type=jobs_of, default=os.cpu_count() or 1, metavar="N", help="how many pieces are done at once; by default one for each processor")
    add_cluster(parser)
    parser.add_argument("--program", metavar="FILE", help="the program, where it is not the one that the package finds")


def add_cluster(parser: argparse.ArgumentParser) -> None:
    """The option that says whose workers do the work."""
    parser.add_argument("--cluster", nargs="?", const="", metavar="ADDRESS",
                        help="have workers of dask do the work: those of the scheduler at this address, or without one as many processes here as --jobs says")


def jobs_of(text: str) -> int:
    """A number of jobs, 1 to 1024."""
    if not (text.isascii() and text.isdigit() and 1 <= int(text) <= 1024):
        raise argparse.ArgumentTypeError("a number from 1 to 1024")
    return int(text)


def workers_of(given: argparse.Namespace) -> Workers:
    """Those that the options ask for."""
    program = given.program or find_program()
    return Here(program, given.jobs) if given.cluster is None else cluster_at(given.cluster, program, given.jobs)


def cluster_at(address: str, program: str, jobs: int) -> Workers:
    """The workers of the scheduler at this address; of as many processes here where it is empty."""
    from vengine.cluster import Cluster
    return Cluster(program, address or None, jobs)


def journal_of(path: Optional[str], goes_on: bool) -> Journal:
    """The journal of this path, which goes on where it stood or begins anew; without a path nothing is kept."""
    return Journal(path, goes_on)


class Bar:
    """A line on a terminal that says how many pieces are done, and how long the others may take. On anything but a terminal nothing is written."""

    def __init__(self, what: str, total: int, out: TextIO = sys.stderr) -> None:
        self._what, self._total, self._out = what, total, out
        self._begun, self._shown = time.monotonic(), 0.0
        self._is_on = out.isatty()

    def at(self, count: int) -> None:
        """Shows that so many are done."""
        now = time.monotonic()
        if not self._is_on or (now - self._shown < 0.2 and count < self._total):
            return
        self._shown = now
        width = 30
        filled = width * count // max(1, self._total)
        left = (now - self._begun) * (self._total - count) / count if count else 0.0
        self._out.write(f"\r{self._what} [{'#' * filled}{'.' * (width - filled)}] {count}/{self._total}, {left:.0f} s left \x1b[K")
        self._out.flush()

    def end(self) -> None:
        """Takes the line away."""
        if self._is_on:
            self._out.write("\r\x1b[K")
            self._out.flush()
