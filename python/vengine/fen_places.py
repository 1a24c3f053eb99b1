"""Where in a FEN the fault stands that the program has answered."""
from __future__ import annotations

import re
from typing import Iterator, List, Mapping, Set, Tuple

from vengine.faults import Fault
from vengine.pieces import pieces_of

# The numbers of the faults that have a place in a rank, or one of two fields; and the field of the others that name one.
RANK, LETTER, WIDTH, HAND, COUNTER = 2, 3, 4, 5, 10
FIELDS = {6: "side", 7: "rights", 8: "en passant", 9: "checks", 11: "placement", 12: "placement"}
PART = re.compile(r"\d+|\+?[A-Za-z]~?|.")


def fen_place(fault: Fault, fen: str, rules: Mapping[str, str]) -> str:
    """The place of a `FenFault` in the text, as "field 1 (placement), rank 8, place 3: x", by the rules of the variant; "" where it is the text as a whole."""
    fields = fen.split(" ")
    names = field_names(fields, rules)
    if fault.number == RANK:
        return f"field 1 (placement): {ranks_text(fields[0]).count('/') + 1} ranks, where the board has {ranks_of(rules)}"
    if fault.number in (LETTER, WIDTH):
        return placement_place(fault.number, fields[0], rules)
    if fault.number == HAND:
        return f"field 1 (placement), the hand: {fields[0][len(ranks_text(fields[0])):]}"
    if fault.number == COUNTER:
        return next((field_text(names, name, fields) for name in names[-2:] if not is_count(fields[names.index(name)])), "")
    return field_text(names, FIELDS[fault.number], fields) if fault.number in FIELDS else ""


def files_of(rules: Mapping[str, str]) -> int:
    """How many files the board has."""
    last = rules.get("maxFile", "8")
    return int(last) if last.isdigit() else ord(last.lower()) - ord("a") + 1


def ranks_of(rules: Mapping[str, str]) -> int:
    """How many ranks the board has."""
    return int(rules.get("maxRank", "8"))


def field_names(fields: List[str], rules: Mapping[str, str]) -> List[str]:
    """The names of the fields of a FEN, as docs/FEN.md has them."""
    if rules.get("checkCounting") == "true":
        return ["placement", "side", "rights", "en passant", "checks", "halfmoves", "number"]
    if len(fields) == 4 and fields[2].isdigit():
        return ["placement", "side", "halfmoves", "number"]
    return ["placement", "side", "rights", "en passant", "halfmoves", "number"]


def field_text(names: List[str], name: str, fields: List[str]) -> str:
    """A field by its number, its name and its text."""
    return f"field {names.index(name) + 1} ({name}): {fields[names.index(name)]}"


def is_count(text: str) -> bool:
    """Whether a text is a number that halfmoves and number may be."""
    return re.fullmatch(r"0|[1-9]\d{0,3}", text) is not None


def ranks_text(placement: str) -> str:
    """The placement without the hand."""
    return placement.split("[")[0]


def placement_place(number: int, placement: str, rules: Mapping[str, str]) -> str:
    """The place of the first part of the placement that has the fault of this number."""
    places = (place for fault, place in faulty_parts(ranks_text(placement), rules) if fault == number)
    return f"field 1 (placement), {next(places, placement)}"


def faulty_parts(text: str, rules: Mapping[str, str]) -> Iterator[Tuple[int, str]]:
    """Each part of the ranks that cannot stand where it is, with the number of its fault and its place in the rank."""
    ranks, files, pieces = text.split("/"), files_of(rules), valid_pieces(rules)
    for number, rank in zip(range(len(ranks), 0, -1), ranks):
        squares = 0
        for found in PART.finditer(rank):
            part, place = found.group(), f"rank {number}, place {found.start() + 1}: {found.group()}"
            if part.isdigit():
                squares += int(part)
                if part.startswith("0"):
                    yield WIDTH, place
            else:
                squares += 1
                if part.lower() not in pieces:
                    yield LETTER, place
        if squares != files:
            yield WIDTH, f"rank {number}: {squares} squares, where the board has {files} files"


def valid_pieces(rules: Mapping[str, str]) -> Set[str]:
    """The texts, in lower case, that may be a piece: a letter, and with marks what is promoted."""
    letters = set(pieces_of(rules))
    promoted = {"+" + pair[0].lower() for pair in rules.get("promotedPieceType", "").split()}
    back = {letter + "~" for letter in letters} if rules.get("capturesToHand") == "true" else set()
    return letters | promoted | back
