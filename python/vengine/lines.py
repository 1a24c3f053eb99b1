"""A process that is asked and answers in lines."""
from __future__ import annotations

import contextlib
import os
import select
import signal
import subprocess
import threading
import time
import weakref
from collections import deque
from typing import IO, Any, Callable, Deque, List, Optional, Sequence, Tuple, Union

from vengine.faults import Ended, TimedOut
from vengine.texts import bytes_of

# The longest line that a session reads, and the longest that is taken from it.
LONGEST_LINE = 131_072
LONGEST_ANSWER = 1 << 20

OUT_OF_MEMORY = 7
STATUSES = {4: "its input failed", 5: "its output failed", OUT_OF_MEMORY: "it was out of memory"}

# What ends an answer: a line that begins with the text, or with one of them, or of which the function says so.
Wanted = Union[str, Tuple[str, ...], Callable[[str], bool]]


def started(words: Sequence[str], **how: Any) -> subprocess.Popen[bytes]:
    """A process with pipes, in a group of its own, so that what it starts can be ended with it."""
    try:
        return subprocess.Popen(words, stdin=subprocess.PIPE, stdout=subprocess.PIPE, start_new_session=True, **how)
    except (OSError, ValueError) as error:
        raise Ended(f"the program cannot be started: {error}") from None


def pipes_of(process: subprocess.Popen[bytes]) -> Tuple[IO[bytes], IO[bytes]]:
    """The input and the output of a process that `started` gave."""
    assert process.stdin is not None and process.stdout is not None
    return process.stdin, process.stdout


def kill(process: subprocess.Popen[bytes], owner: int) -> None:
    """Ends a process and what it has started, where this process is the one that started it."""
    if os.getpid() != owner or process.poll() is not None:
        return
    with contextlib.suppress(ProcessLookupError):
        os.killpg(process.pid, signal.SIGKILL)
    process.wait()


def release(process: subprocess.Popen[bytes], owner: int) -> None:
    """Ends a process, and closes its pipes."""
    kill(process, owner)
    for pipe in pipes_of(process):
        with contextlib.suppress(OSError):
            pipe.close()


def is_wanted(line: str, wanted: Wanted) -> bool:
    """Whether a line begins with a text, or with one of a tuple of texts, or is what a function says of it."""
    return wanted(line) if callable(wanted) else line.startswith(wanted)


def end_of(timeout: Optional[float]) -> Optional[float]:
    """When that many seconds are over, None being never."""
    return None if timeout is None else time.monotonic() + timeout


class Lines:
    """A program that is asked and answers in lines, whatever engine it is. The thread that asks also reads, and no other thread is
    started: two that ask at once have to take turns. Without a `timeout` a call waits as long as the program runs."""

    def __init__(self, words: Sequence[str], timeout: Optional[float] = None, **how: Any) -> None:
        self.timeout = timeout
        self.status: Optional[int] = None
        self._heard: Deque[str] = deque()
        self._rest = b""
        self._reading, self._writing = threading.Lock(), threading.Lock()
        self.process = started(words, bufsize=0, **how)
        self._input, self._output = pipes_of(self.process)
        for pipe in (self._input, self._output):
            os.set_blocking(pipe.fileno(), False)
        self._owner = os.getpid()
        weakref.finalize(self, release, self.process, self._owner)

    def say(self, *lines: str, timeout: Optional[float] = None, unless: Optional[Callable[[], bool]] = None) -> None:
        """Writes lines, unless that is no longer wanted; TimedOut where they are not read in so many seconds."""
        left, end = memoryview(bytes_of("".join(line + "\n" for line in lines))), end_of(self.timeout if timeout is None else timeout)
        with self._writing:
            if unless is not None and unless():
                return
            while left:
                try:
                    left = left[self._write(left):]
                except BlockingIOError:
                    self._await(self._input, select.POLLOUT, end)

    def wait_for(self, wanted: Wanted, timeout: Optional[float] = None) -> List[str]:
        """The lines up to the wanted one. TimedOut or Ended have those that came before in `said`."""
        said: List[str] = []
        end = end_of(self.timeout if timeout is None else timeout)
        try:
            while not (said and is_wanted(said[-1], wanted)):
                if said and end is not None and time.monotonic() > end:
                    raise TimedOut("the answer did not end in time")
                said.append(self.line(end))
        except Ended as error:
            error.said = said
            raise
        return said

    def ask(self, line: str, wanted: Wanted, timeout: Optional[float] = None) -> List[str]:
        """The lines of the answer, up to the wanted one."""
        self.say(line)
        return self.wait_for(wanted, timeout)

    def line(self, end: Optional[float] = None) -> str:
        """The next line, without its end; TimedOut where none came until then, by the clock of `time.monotonic`. Lines that are there
        are given for a second more."""
        if end is not None and time.monotonic() > end + 1:
            raise TimedOut("the program did not answer in time")
        with self._reading:
            while not self._heard:
                self._await(self._output, select.POLLIN, end)
                self._take()
            return self._heard.popleft()

    def is_running(self) -> bool:
        """Whether the process has not ended."""
        return self.status is None and self.process.poll() is None

    def close(self, timeout: float = 2.0) -> int:
        """Says `quit`, and gives the status; what has not ended after so many seconds is killed."""
        with contextlib.suppress(Ended):
            self.say("quit", timeout=timeout)
            with self._writing:
                self._input.close()
            with contextlib.suppress(subprocess.TimeoutExpired):
                self.process.wait(timeout)
        return self.kill()

    def kill(self) -> int:
        """Ends the process, and gives its status."""
        kill(self.process, self._owner)
        self.status = self.process.wait()
        for lock, pipe in ((self._writing, self._input), (self._reading, self._output)):
            # A thread that waits sees the end of the process at once.
            if lock.acquire(timeout=1):
                pipe.close()
                lock.release()
        return self.status

    def ended(self) -> Ended:
        """What is raised where the process has ended, or has closed its side."""
        if self.status is None:
            with contextlib.suppress(subprocess.TimeoutExpired):
                self.process.wait(1)
            kill(self.process, self._owner)
            self.status = self.process.wait()
        why = STATUSES.get(self.status, f"its status is {self.status}")
        return Ended(f"the program has ended: {why}", self.status)

    def _write(self, left: memoryview) -> int:
        if self._input.closed:
            raise self.ended()
        try:
            return os.write(self._input.fileno(), left)
        except BrokenPipeError:
            raise self.ended() from None

    def _take(self) -> None:
        part = os.read(self._output.fileno(), 65_536)
        if not part or len(self._rest) > LONGEST_ANSWER:
            raise self.ended()
        *whole, self._rest = (self._rest + part).split(b"\n")
        self._heard.extend(line.decode("ascii", "replace") for line in whole)

    def _await(self, pipe: IO[bytes], event: int, end: Optional[float]) -> None:
        """Waits until a pipe can be read or written."""
        if pipe.closed:
            raise self.ended()
        ready = select.poll()
        ready.register(pipe.fileno(), event)
        if not ready.poll(None if end is None else max(0, 1000 * (end - time.monotonic()))):
            raise TimedOut("the program did not answer in time")
