"""What goes wrong: the exceptions of the package, and the faults that the program says."""
from __future__ import annotations

from typing import Iterable, Optional, Tuple

class VengineError(Exception):
    """What goes wrong here is one of these."""


class BadInput(VengineError, ValueError):
    """What was given cannot be asked, and the program has not seen it."""


class Busy(VengineError):
    """The session searches in the background, or other threads' calls took all of the time."""


class NotOver(VengineError):
    """The game goes on, so that it has no result."""


class Unsupported(VengineError):
    """The program does not know this command."""


class Ended(VengineError):
    """The process has ended, or was closed: each later call raises this at once. `status` is that of the process, negative for a
    signal; `said` are the lines of the answer that came before."""

    def __init__(self, text: str, status: Optional[int] = None, said: Iterable[str] = ()) -> None:
        super().__init__(text)
        self.status, self.said = status, list(said)


class TimedOut(Ended):
    """No answer came in time. The process that owed it was killed, since its answer would be taken for that of another question."""


class Fault(VengineError):
    """What the program refused, as docs/FAULTS.md lists it: `PositionFault 2 BadMove 3 e4e5` has the name "PositionFault", the number 2,
    the variant "BadMove" and the fields ("3", "e4e5"). A fault inside it is `inner`."""

    # How many fields come before the fault that these have inside.
    OUTER = {
        ("SectionFault", 6): 1, ("SectionFault", 8): 0, ("GameFault", 3): 0, ("GameFault", 4): 0, ("PositionFault", 1): 0,
        ("StrategyFault", 3): 1, ("ProofFault", 3): 0, ("ProofFault", 4): 1, ("ProofFault", 6): 0, ("SuiteFault", 3): 1,
        ("SuiteFault", 4): 1,
    }

    def __init__(self, text: str) -> None:
        super().__init__(text)
        name, number, variant, *fields = text.split(" ")
        self.text, self.name, self.number, self.variant = text, name, int(number), variant
        before = self.OUTER.get((name, self.number), len(fields))
        self.fields: Tuple[str, ...] = tuple(fields[:before])
        self.inner: Optional[Fault] = Fault(" ".join(fields[before:])) if fields[before:] else None
