"""A search that a session makes in the background."""
from __future__ import annotations

import threading
import time
from typing import Iterator, List, Optional

from vengine.answers import Found, Info
from vengine.faults import TimedOut
from vengine.lines import Lines, end_of


class Search:
    """A search that runs while the caller does other things. Any thread may call its methods; each sees the same lines."""

    def __init__(self, lines: Lines, grace: Optional[float]) -> None:
        self.infos: List[Info] = []
        self.notes: List[str] = []
        self.best: Optional[str] = None
        self.is_over = self.is_stopped = False
        self._lines, self._grace, self._lock = lines, grace, threading.Lock()

    def __iter__(self) -> Iterator[Info]:
        """Each depth as it comes, until the search is over."""
        seen = 0
        while True:
            is_last, fresh = self.is_over, self.infos[seen:]
            seen += len(fresh)
            yield from fresh
            if is_last:
                return
            self._hear(None)

    def wait(self, timeout: Optional[float] = None) -> bool:
        """Whether it is over within so many seconds, None being without a limit. Nothing is stopped."""
        end = end_of(timeout)
        try:
            while not self.is_over:
                self._hear(end)
        except TimedOut:
            return False
        return True

    def halt(self) -> None:
        """Asks it to stop, and does not wait."""
        self.is_stopped = self.is_stopped or not self.is_over
        # The next search may have begun: this line is not for that one.
        self._lines.say("stop", timeout=self._grace, unless=lambda: self.is_over)

    def stop(self) -> Found:
        """Stops it, and gives what it found. A program that does not stop is killed."""
        self.halt()
        if not self.wait(self._grace):
            self._lines.kill()
            raise TimedOut("the program did not stop", self._lines.status, self.notes)
        return self.found

    @property
    def found(self) -> Found:
        """What was found until now; it is all that is found where the search is over."""
        return Found(self.best, list(self.infos), list(self.notes), self.is_stopped)

    def _hear(self, end: Optional[float]) -> None:
        """Takes one line, where no other thread has taken the last meanwhile."""
        if not self._lock.acquire(timeout=-1 if end is None else max(0, end - time.monotonic())):
            raise TimedOut("another thread waits for this search")
        try:
            if not self.is_over:
                self._keep(self._lines.line(end))
        finally:
            self._lock.release()

    def _keep(self, line: str) -> None:
        words = line.split(" ")
        if words[0] == "bestmove":
            self.best, self.is_over = (None if words[1] == "(none)" else words[1]), True
        elif words[:2] == ["info", "depth"]:
            is_points, value = words[4] == "cp", int(words[5])
            self.infos.append(Info(int(words[2]), value if is_points else None, None if is_points else value, words[7]))
        elif words[:2] == ["info", "string"]:
            self.notes.append(" ".join(words[2:]))
