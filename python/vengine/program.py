"""The program: where it is, and its commands that are answered once."""
from __future__ import annotations

import os
import shutil
import subprocess
from typing import List, Optional, Sequence

from vengine.faults import BadInput, Ended, Fault, TimedOut, Unsupported
from vengine.lines import STATUSES, release, started
from vengine.texts import bytes_of

HERE = os.path.dirname(os.path.realpath(__file__))
# What a wheel has inside the package, and the clone in which this file is, if it is in one.
INSIDE = os.path.join(HERE, "bin")
CLONE = os.path.dirname(os.path.dirname(HERE))
IS_IN_CLONE = os.path.exists(os.path.join(CLONE, "crates.txt"))
NOT_REFEREED, USAGE, REFUSED, NO_FILE = 1, 2, 3, 6


def find_program() -> str:
    """The program: VENGINE, or the one inside this package, or the launcher of the clone in which it is (which builds the program first where a source was
    changed), or Debian's, or `vengine` in PATH."""
    if "VENGINE" in os.environ:
        return os.environ["VENGINE"]
    found = first_file(os.path.join(INSIDE, "vengine"), *clone_file("vengine"), "/usr/games/vengine") or shutil.which("vengine")
    if found is None:
        raise BadInput("there is no vengine in PATH; give Engine its program, or set VENGINE")
    return found


def find_library() -> Optional[str]:
    """The library: VENGINE_LIBRARY, or the one inside this package, or that which `release/shared` has made in the clone, or Debian's; else None. In a clone
    Debian's is not taken, since it may be of another version than the program."""
    if os.environ.get("VENGINE_LIBRARY"):
        return os.environ["VENGINE_LIBRARY"]
    elsewhere = clone_file("release", "libvengine.so.1") or ["/usr/lib/x86_64-linux-gnu/libvengine.so.1"]
    return first_file(os.path.join(INSIDE, "libvengine.so.1"), *elsewhere)


def clone_file(*names: str) -> List[str]:
    """The path of a file of the clone, or none where this package is not in one."""
    return [os.path.join(CLONE, *names)] if IS_IN_CLONE else []


def first_file(*paths: str) -> Optional[str]:
    """The first of these files that is there."""
    return next((path for path in paths if os.path.exists(path)), None)


def run(words: Sequence[str], text: str = "", timeout: Optional[float] = None) -> str:
    """What a one-shot command prints, read from its input as it is.

    Fault is what it refused, Unsupported that it has no such command, Ended that it failed, TimedOut that it was killed after so many
    seconds.
    """
    given, process = bytes_of(text), started(words)
    try:
        said = process.communicate(given, timeout)[0]
    except subprocess.TimeoutExpired:
        raise TimedOut(f"the command did not end within {timeout} s") from None
    finally:
        release(process, os.getpid())
    return printed(process.returncode, said)


def printed(status: int, given: bytes) -> str:
    """The text that a command printed, where its status says that it did what was asked."""
    said = given.decode("ascii", "replace")
    if status in (REFUSED, NO_FILE) and said.startswith("error "):
        raise Fault(said[len("error "):].rstrip("\n"))
    if status == USAGE:
        raise Unsupported(said.rstrip("\n"))
    if status != 0:
        why = STATUSES.get(status, f"its status is {status}")
        raise Ended(f"the command failed: {why}", status, said.splitlines())
    return said
