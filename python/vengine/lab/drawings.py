"""The pictures of one report."""
from typing import Any, Dict

from vengine.engine import Engine
from vengine.faults import VengineError
from vengine.lab import pictures
from vengine.lab.report import end_name

SQUARE = "d4"


def drawings_of(engine: Engine, report: Dict[str, Any]) -> Dict[str, str]:
    """All pictures, by the names under which the page has them."""
    numbers = report["numbers"]
    found = pictures.pictures_of(numbers, {end: end_name(end) for end, _ in numbers["ends"]})
    if any(row["value"] is not None for row in report["worth"]):
        found["worth"] = pictures.intervals([(row["letter"], row["value"], row["low"], row["high"]) for row in report["worth"]], "value in pawns")
    for kind in report["kinds"]:
        if kind["word"] is not None:
            found["kind " + kind["letter"]] = moves_of_kind(engine, kind["word"])
    return {name: picture for name, picture in found.items() if picture}


def moves_of_kind(engine: Engine, word: str) -> str:
    """Where a piece with this word goes from d4, and what it takes there: an enemy stands on one square at a time."""
    try:
        quiet = engine.reach(word, SQUARE)[0]
        take = [square for square in squares() if square in engine.reach(word, SQUARE, enemy=[square])[1]]
    except VengineError:
        return ""
    return pictures.moves(word, SQUARE, quiet, take)


def squares() -> Any:
    """The squares of the board but that of the piece."""
    return (f"{file}{rank}" for file in "abcdefgh" for rank in range(1, 9) if f"{file}{rank}" != SQUARE)
