"""Files of variants: their bytes, and the sections as they are written."""
from __future__ import annotations

import re
from typing import List, NamedTuple, Optional

from vengine.faults import BadInput

# The most bytes that a file of variants has.
LARGEST_FILE = 1_048_576

HEADER = re.compile(r"\[([^\s:\[\](){}]+)(?::([^\s:\[\](){}]+))?\]")


class Pair(NamedTuple):
    """A line KEY = VALUE of a section; lines count from 1."""

    line: int
    key: str
    value: str


class Written(NamedTuple):
    """A section as a file has it: its name, the name of its parent or None, the line of its header, and its pairs."""

    name: str
    parent: Optional[str]
    line: int
    pairs: List[Pair]

    def lines_of(self, key: str) -> List[Pair]:
        """The pairs with this key."""
        return [pair for pair in self.pairs if pair.key == key]


def read_file(path: str) -> bytes:
    """The bytes of a file, or as many as show that it is too large."""
    try:
        with open(path, "rb") as file:
            return file.read(LARGEST_FILE + 1)
    except OSError as error:
        raise BadInput(f"the file of variants cannot be read: {error}") from None


def written_sections(text: str) -> List[Written]:
    """The sections of a text that the program accepts as a file of variants, in the order of their headers."""
    found: List[Written] = []
    for number, line in enumerate(text.split("\n"), 1):
        line = line.strip(" \t\r")
        header = HEADER.fullmatch(line)
        if header:
            found.append(Written(header.group(1), header.group(2), number, []))
        elif found and "=" in line and not line.startswith(("#", ";")):
            key, _, value = line.partition("=")
            found[-1].pairs.append(Pair(number, key.strip(), value.strip()))
    return found
