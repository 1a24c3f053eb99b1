"""Faults in words, and the sections of a text of variants with the lines on which their faults are."""
from __future__ import annotations

import re
from typing import Any, Dict, List, Optional, Sequence, Tuple

from vengine import Fault, Section
from vengine.words import words_of


def said_of(fault: Fault) -> Dict[str, str]:
    """A fault for the page: its text, and what it says in words, that of the fault inside it last."""
    return {"text": fault.text, "words": words_of(fault)}


# ---- the file of variants


HEADER = re.compile(r"^\s*\[([^\s:\[\](){}]+)(?::([^\s:\[\](){}]+))?\]")


def headers_of(text: str) -> List[Tuple[str, Optional[str], int]]:
    """The sections of a text: the name, the parent or None, and the number of the line of each."""
    found = []
    for number, line in enumerate(text.split("\n"), 1):
        header = HEADER.match(line)
        if header:
            found.append((header.group(1), header.group(2), number))
    return found


def line_of(text: str, header: int, following: Optional[int], fault: Fault) -> int:
    """The line on which a fault of a section stands: that of the key which it names, or of the letter that stands twice, else the header."""
    lines = text.split("\n")[:following - 1] if following else text.split("\n")
    pairs = [(number, key.strip(), value.strip()) for number, line in enumerate(lines, 1) for key, equals, value in [line.partition("=")]
             if number > header and equals and not line.lstrip().startswith(("#", ";"))]
    if fault.number in (4, 5, 6):
        named = [number for number, key, _ in pairs if key == fault.fields[0]]
    elif fault.number == 7:
        named = [number for number, _, value in pairs if value[:1].lower() == fault.fields[0]][1:]
    else:
        named = [number for number, key, _ in pairs if key == "startFen"] if fault.number == 8 else []
    return named[0] if named else header


def sections_told(text: str, sections: Sequence[Section]) -> List[Dict[str, Any]]:
    """Each section of a text, with its fault in words and its line; the engine lists the built-in ones first."""
    headers = headers_of(text)
    own = sections[len(sections) - len(headers):] if headers else []
    told = []
    for place, ((name, parent, number), section) in enumerate(zip(headers, own)):
        following = headers[place + 1][2] if place + 1 < len(headers) else None
        fault = section.fault
        told.append({"name": name, "parent": parent, "line": line_of(text, number, following, fault) if fault else number,
                     "fault": said_of(fault) if fault else None})
    return told


def near_names(name: str, names: Sequence[str]) -> List[str]:
    """The names that may be meant by one that is none: those that differ by a letter, else those of which one has the other in it."""
    nearest = [one for one in names if is_near(one.lower(), name.lower())]
    return nearest or [one for one in names if one in name or name in one]


def is_near(one: str, other: str) -> bool:
    """Whether a letter more, less or another one makes the texts the same."""
    if abs(len(one) - len(other)) > 1:
        return False
    at = next((place for place, (a, b) in enumerate(zip(one, other)) if a != b), min(len(one), len(other)))
    return one[at + 1:] == other[at + 1:] or one[at:] == other[at + 1:] or one[at + 1:] == other[at:]
