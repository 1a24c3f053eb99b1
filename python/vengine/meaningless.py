"""What a section of variants says that is accepted and means nothing (docs/VARIANTS_INI.md): each function here looks for some of it.

A function is given a section with the rules that it has, and yields the keys that a warning is about with its words. A warning is shown where one of these keys
stands in the section itself: what a parent says is warned of there.
"""
from __future__ import annotations

import re
from typing import Callable, Iterator, List, Mapping, NamedTuple, Sequence, Tuple

from vengine.fen_places import files_of, ranks_of
from vengine.pieces import is_piece, letter_of, pieces_of
from vengine.sections import Written

Warned = Iterator[Tuple[Sequence[str], str]]
SIDES = ("White", "Black")
SQUARE = re.compile(r"([a-l])(\d+)")
STILL_HOPPER = re.compile(r"[a-z]*[pg][a-z]*[A-Z]1(?!\d)")

# The regions, and what comes of one that has no square on the board.
REGIONS = {"promotionRegion": "nothing promotes there", "doubleStepRegion": "no pawn goes two squares", "dropRegion": "nothing is dropped",
           "flagRegion": "nobody wins there", "mobilityRegion": "the piece never moves"}
# The options that say nothing where there is no king, and where nothing is dropped.
OF_KINGS = ("castling", "checking", "checkmateValue", "dropChecks", "flyingGeneral")
OF_DROPS = ("dropRegionWhite", "dropRegionBlack", "dropNoDoubled", "dropChecks", "firstRankPawnDrops", "promotionZonePawnDrops")
# The options that name pieces by their letters, and what comes of one where no letter is a piece's.
OF_LETTERS = {"promotionPieceTypes": "pawns become nothing", "nMoveRuleTypes": "no move of a kind begins the count anew",
              "extinctionPieceTypes": "nobody is extinct", "castlingRookPieces": "nothing castles", "flagPiece": "there is no flag",
              "dropNoDoubled": "every piece may be doubled"}


class Seen(NamedTuple):
    """A section as it is written, the rules that it has, and those of its parent."""

    written: Written
    rules: Mapping[str, str]
    parent: Mapping[str, str]

    def is_true(self, key: str, default: str = "false") -> bool:
        """Whether a flag is set."""
        return self.rules.get(key, default) == "true"

    def letters(self, key: str) -> List[str]:
        """The letters, in lower case, that an option names."""
        return [letter for letter in self.rules.get(key, "").lower() if letter.isalpha()]

    def has(self, name: str) -> bool:
        """Whether there is a piece of this name."""
        return name in pieces_of(self.rules).values()

    def pairs(self) -> List[Tuple[str, str]]:
        """The letters of the pairs of `promotedPieceType`."""
        return [(pair[0], pair[-1]) for pair in self.rules.get("promotedPieceType", "").lower().split() if ":" in pair]

    def squares(self, key: str, default: str = "") -> List[Tuple[int, int]]:
        """The file and the rank of each square of a region that is on the board."""
        files, ranks = files_of(self.rules), ranks_of(self.rules)
        return [square for part in self.rules.get(key, default).split() for square in squares_of(part, files) if square[0] <= files and square[1] <= ranks]

    def has_drops(self) -> bool:
        """Whether pieces are dropped from the hand."""
        return self.is_true("pieceDrops")

    def hand(self) -> str:
        """The letters of the hands of the start."""
        return "".join(re.findall(r"\[([A-Za-z]*)", self.rules.get("startFen", "")))


def squares_of(part: str, files: int) -> List[Tuple[int, int]]:
    """The squares of a part of a region: one, or those of a whole rank."""
    found = SQUARE.fullmatch(part.lower())
    if found:
        return [(ord(found.group(1)) - ord("a") + 1, int(found.group(2)))]
    return [(file, int(part[1:])) for file in range(1, files + 1)] if part.startswith("*") else []


def squares_off_the_board(seen: Seen) -> Warned:
    """Squares of regions that the board has not."""
    files, ranks = files_of(seen.rules), ranks_of(seen.rules)
    for key, value in seen.rules.items():
        comes_of_it = next((words for region, words in REGIONS.items() if key.startswith(region)), None)
        if comes_of_it is None or value == "-":
            continue
        off = [part for part in value.split() if all(file > files or rank > ranks for file, rank in squares_of(part, files))]
        if off and not seen.squares(key):
            yield (key, "maxRank", "maxFile"), f"no square of {key} is on the board: {comes_of_it}"
        elif off:
            yield (key, "maxRank", "maxFile"), f"{' '.join(off)} of {key} is not on the board"


def promotions_that_nobody_reaches(seen: Seen) -> Warned:
    """Regions of promotion where no pawn comes, or which are not on the last rank though nobody said so."""
    ranks = ranks_of(seen.rules)
    for side, last in zip(SIDES, (8, 1)):
        key = f"promotionRegion{side}"
        keys = (key, "maxRank", "promotionPieceTypes", "promotedPieceType", "startFen")
        if not (seen.has("pawn") and seen.letters("promotionPieceTypes") or seen.pairs()):
            continue
        if key not in seen.rules and last > ranks:
            yield keys, f"{side} promotes on rank {last}, which is not on the board: {key} is missing"
        elif key not in seen.rules and 1 < last < ranks:
            yield keys, f"{side} promotes on rank {last} and not on rank {ranks}: {key} is missing"
        elif is_behind_its_pawns(seen, side, [rank for _, rank in seen.squares(key, f"*{last}")]):
            yield keys, f"no pawn of {side} comes to {key}"


def is_behind_its_pawns(seen: Seen, side: str, region: List[int]) -> bool:
    """Whether no rank of a region lies before a pawn of the start, where pawns alone promote and none is dropped."""
    letter = next((letter for letter, key in pieces_of(seen.rules).items() if key == "pawn"), "")
    rows = seen.rules.get("startFen", "").split(" ")[0].split("[")[0].split("/")
    pawn = letter.upper() if side == "White" else letter
    pawns = [len(rows) - at for at, row in enumerate(rows) if letter and pawn in row]
    if not pawns or not region or seen.pairs() or seen.has_drops():
        return False
    return max(region) <= min(pawns) if side == "White" else min(region) >= max(pawns)


def letters_of_no_piece(seen: Seen) -> Warned:
    """Letters that no piece has, in options that name pieces."""
    pieces = pieces_of(seen.rules)
    for key, comes_of_it in OF_LETTERS.items():
        unknown = [letter for letter in seen.letters(key) if letter not in pieces]
        if unknown and len(unknown) == len(seen.letters(key)):
            yield (key,), f"no piece has the letter {', '.join(unknown)}: {comes_of_it}"
        elif unknown:
            yield (key,), f"no piece has the letter {', '.join(unknown)}"
    for before, after in seen.pairs():
        if before not in pieces or after not in pieces:
            yield ("promotedPieceType",), f"{before}:{after} names a letter that no piece has, and is read over"


def pieces_that_are_gone(seen: Seen) -> Warned:
    """Letters of inherited pieces that the section gives to others, and words that it does not give again."""
    own = {pair.key for pair in seen.written.pairs}
    inherited = pieces_of(seen.parent)
    for pair in seen.written.pairs:
        if not is_piece(pair.key):
            continue
        other = inherited.get(letter_of(pair.value), pair.key)
        if other != pair.key and other not in own:
            yield (pair.key,), f"it takes the letter of the {other}, which is gone from the section"
        word = seen.parent.get(pair.key, "").partition(":")[2]
        if word and ":" not in pair.value and letter_of(pair.value):
            yield (pair.key,), f"the {pair.key} has the word of its name, and not {word} as in the parent"
        if STILL_HOPPER.search(pair.value.partition(":")[2]):
            yield (pair.key,), "a hopper that goes one step has nothing to hop over: it never moves"


def hands_that_do_nothing(seen: Seen) -> Warned:
    """Hands without drops, drops without hands, gates where nothing comes in."""
    brings_in = seen.is_true("gating") and seen.is_true("seirawanGating")
    if seen.is_true("capturesToHand") and not seen.has_drops() and not brings_in:
        yield ("capturesToHand", "pieceDrops"), "hands fill and nothing is dropped: pieceDrops is not set"
    if seen.has_drops() and not seen.is_true("capturesToHand") and not seen.hand():
        yield ("pieceDrops", "capturesToHand", "startFen"), "there is nothing to drop: no capture comes to a hand, and the start has none"
    if seen.is_true("gating") and not brings_in:
        yield ("gating", "seirawanGating"), "nothing comes in at the gates: seirawanGating is not set"
    if brings_in and not seen.is_true("capturesToHand") and not seen.hand():
        yield ("gating", "seirawanGating", "startFen"), "there is nothing to bring in: the start has no hand"
    if not seen.has_drops():
        for key in OF_DROPS:
            yield from said_in_vain(seen, key, "nothing is dropped")


def ends_that_never_come(seen: Seen) -> Warned:
    """Extinction, flags, repetitions and counts that end no game."""
    kinds = seen.rules.get("extinctionPieceTypes", "-") != "-"
    value = seen.rules.get("extinctionValue", "none") != "none"
    if value and not kinds:
        yield ("extinctionValue", "extinctionPieceTypes"), "nobody is extinct: there are no extinctionPieceTypes"
    if not value:
        for key in ("extinctionPieceTypes", "extinctionPieceCount", "extinctionOpponentPieceCount"):
            yield from said_in_vain(seen, key, "nobody is extinct: there is no extinctionValue")
    regions = [key for key in ("flagRegionWhite", "flagRegionBlack") if seen.squares(key)]
    if seen.letters("flagPiece") and not regions:
        yield ("flagPiece", "flagRegionWhite", "flagRegionBlack"), "nobody wins by a flag: no region is on the board"
    if regions and not seen.letters("flagPiece"):
        yield (*regions, "flagPiece"), "nobody wins by a flag: there is no flagPiece"
    if seen.rules.get("nFoldRule") == "0":
        yield from said_in_vain(seen, "nFoldValue", "no repetition ends the game: nFoldRule is 0")
    if seen.rules.get("nMoveRule") == "0":
        yield from said_in_vain(seen, "nMoveRuleTypes", "no move count ends the game: nMoveRule is 0")


def options_of_missing_pieces(seen: Seen) -> Warned:
    """Options of a king, a pawn, a soldier or another piece that is not there."""
    if not seen.has("king"):
        for key in OF_KINGS:
            if (key, seen.rules.get(key)) != ("castling", "false"):
                yield from said_in_vain(seen, key, "there is no king")
    if not seen.has("soldier"):
        yield from said_in_vain(seen, "soldierPromotionRank", "there is no soldier")
    if not seen.has("pawn"):
        yield from said_in_vain(seen, "promotionPieceTypes", "there is no pawn")
        yield from said_in_vain(seen, "mandatoryPawnPromotion", "there is no pawn")
    if not seen.pairs():
        yield from said_in_vain(seen, "mandatoryPiecePromotion", "there is no promotedPieceType")
    for key in seen.rules:
        found = re.fullmatch(r"mobilityRegion(?:White|Black)(\w)(\w*)", key)
        if found and not seen.has(found.group(1).lower() + found.group(2)):
            yield (key,), f"there is no {found.group(1).lower() + found.group(2)}"


def steps_of_pawns(seen: Seen) -> Warned:
    """Double steps that are not made, or only by one side."""
    ranks = ranks_of(seen.rules)
    if not seen.is_true("doubleStep", "true"):
        for side in SIDES:
            yield from said_in_vain(seen, f"doubleStepRegion{side}", "no pawn goes two squares: doubleStep is false")
    elif seen.has("pawn") and ranks != 8 and "doubleStepRegionBlack" not in seen.rules:
        yield ("maxRank", "doubleStep", "doubleStepRegionBlack"), f"Black's pawns go two squares from rank 7 and not from rank {ranks - 1}"


def castles_that_are_not_made(seen: Seen) -> Warned:
    """Castling without a rook for it, on a rank that is not there, or with files in another order."""
    if not seen.has("king") or not seen.is_true("castling", "true"):
        return
    keys = ("castling", "castlingKingFile", "castlingKingsideFile", "castlingQueensideFile", "castlingRank")
    rooks = seen.letters("castlingRookPieces") or [letter for letter, key in pieces_of(seen.rules).items() if key == "rook"]
    files = [files_of({"maxFile": seen.rules.get(key, default)}) for key, default in
             (("castlingQueensideFile", "c"), ("castlingKingFile", "e"), ("castlingKingsideFile", "g"))]
    if not any(letter in pieces_of(seen.rules) for letter in rooks):
        yield ("castlingRookPieces", *keys), "nothing castles: there is no rook for it"
    elif int(seen.rules.get("castlingRank", "1")) > ranks_of(seen.rules):
        yield keys, "nothing castles: castlingRank is not on the board"
    elif not files[0] < files[1] < files[2]:
        yield keys, "nothing castles: the files of castling are not in the order queenside, king, kingside"


def said_in_vain(seen: Seen, key: str, why: str) -> Warned:
    """A warning of an option that is there and says nothing."""
    if key in seen.rules:
        yield (key,), f"{key} means nothing: {why}"


CHECKS: Tuple[Callable[[Seen], Warned], ...] = (
    squares_off_the_board, promotions_that_nobody_reaches, pieces_that_are_gone, hands_that_do_nothing, ends_that_never_come,
    options_of_missing_pieces, steps_of_pawns, castles_that_are_not_made,
)


def warnings_of(seen: Seen) -> List[Tuple[Sequence[str], str]]:
    """All that the section says and that means nothing. Letters of no piece are told of where nothing else is told of their option."""
    found = [warned for check in CHECKS for warned in check(seen)]
    told = {keys[0] for keys, _ in found}
    return found + [warned for warned in letters_of_no_piece(seen) if warned[0][0] not in told]
