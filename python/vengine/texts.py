"""What may be asked: the texts that a session reads as they stand. What cannot be asked is BadInput."""
from __future__ import annotations

import re
from typing import Dict, Iterable, List, Mapping

from vengine.faults import BadInput

GREATEST = 2**64 - 1


def printable(text: str, what: str) -> str:
    """The text, if it is one that stands in a line as it is."""
    if not isinstance(text, str):
        raise BadInput(f"{what} has to be a str, not {type(text).__name__}")
    if not all(" " <= letter <= "~" for letter in text):
        raise BadInput(f"{what} has a character that is not printable ASCII: {text[:80]!r}")
    return text


def word_of(text: str, what: str) -> str:
    """The text, if it is one word."""
    if printable(text, what) == "" or " " in text:
        raise BadInput(f"{what} has to be one word: {text[:80]!r}")
    return text


def argument_of(text: str, what: str) -> str:
    """The text, if a command can be told it as a word: one that begins with a dash is none."""
    if word_of(text, what).startswith("-"):
        raise BadInput(f"a command cannot be told this word for {what}: {text[:80]!r}")
    return text


def fen_of(text: str) -> str:
    """The text, if a session reads it as it stands: it would take two blanks for one, and what follows `moves` for moves."""
    if printable(text, "a FEN") != " ".join(text.split()) or "moves" in text.split(" "):
        raise BadInput(f"a FEN has its words separated by single blanks, and none of them is 'moves': {text[:80]!r}")
    return text


def moves_of(moves: Iterable[str]) -> List[str]:
    """The texts of moves, one word each."""
    if isinstance(moves, (str, bytes)):
        raise BadInput("moves have to be a list of texts, one for each move")
    return [word_of(move, "a move") for move in moves]


MOVE = re.compile(r"([a-l](10|[1-9])){2}[a-z+]?|[A-Z]@[a-l](10|[1-9])")


def game_text(variant: str, fen: str, moves: Iterable[str]) -> str:
    """The game as the input of a one-shot command, with a line for each move."""
    start = fen if fen == "startpos" else fen_of(fen)
    return "".join(line + "\n" for line in (word_of(variant, "a variant"), start, *moves_of(moves)))


def root_move(text: str) -> str:
    """The text, if it has the form of a move, so that it is none of the words of `go`."""
    if not isinstance(text, str) or not MOVE.fullmatch(text):
        raise BadInput(f"searchmoves has what is not of the form of a move: {text!r}")
    return text


# The words of `go` that take a number, and the numbers that they may have.
RANGES = {
    "depth": (1, 64), "nodes": (0, GREATEST), "mate": (1, 100), "movetime": (0, GREATEST), "wtime": (0, GREATEST), "btime": (0, GREATEST),
    "winc": (0, GREATEST), "binc": (0, GREATEST), "movestogo": (0, GREATEST),
}


def has_end(limits: Mapping[str, int]) -> bool:
    """Whether a search with these limits ends by itself."""
    return any(name in limits for name in ("depth", "nodes", "mate", "movetime", "wtime"))


def number_of(value: int, what: str, low: int, high: int) -> int:
    """The number, if it is one of the range."""
    if not isinstance(value, int) or isinstance(value, bool) or not low <= value <= high:
        raise BadInput(f"{what} has to be a number from {low} to {high}, not {value!r}")
    return value


def go_line(limits: Mapping[str, int], searchmoves: Iterable[str]) -> str:
    """The line `go`; without a limit it searches until it is stopped."""
    words = ["go"] if has_end(limits) else ["go", "infinite"]
    for name, value in limits.items():
        if name not in RANGES:
            raise BadInput(f"there is no limit {name!r}; the limits are {', '.join(RANGES)}")
        words += [name, str(number_of(value, name, *RANGES[name]))]
    if ("wtime" in limits) != ("btime" in limits):
        raise BadInput("wtime and btime are given together")
    return " ".join(words + (["searchmoves", *map(root_move, searchmoves)] if searchmoves else []))


def bytes_of(text: str) -> bytes:
    """The bytes of a text; those of a file's name that are no text stay as they are."""
    try:
        return text.encode("utf-8", "surrogateescape")
    except UnicodeEncodeError:
        raise BadInput(f"a text has a character that has no bytes: {text[:80]!r}") from None
