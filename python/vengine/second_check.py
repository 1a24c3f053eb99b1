#!/usr/bin/env python3
"""A second checker of announced mates, which shares nothing with the first one.

Usage: python3 second_check.py [--certificate] <FILE

It reads what `vengine check` reads: a proof text, which states its own rules, or a game of a built-in variant with a
goal and a strategy. With --certificate it reads what `vengine stipulate check` reads. It prints what they print,
`wins` or `holds` or `error` and the first fault, and ends with their status: 0, or 3 after a fault.

The file needs Python 3.8 and nothing else. It is written from the pages RULES, BETZA, FEN, VARIANTS_INI, STRATEGIES
and STIPULATIONS of docs/, in their words and in their order, so that a reader can compare the two.
"""
from __future__ import annotations

import re
import sys
from collections import Counter
from contextlib import contextmanager
from dataclasses import dataclass, field
from functools import lru_cache
from typing import (Any, Callable, Dict, FrozenSet, Iterator, List, Match, NamedTuple, Optional, Sequence, Set, Tuple,
                    TypeVar, Union)

T = TypeVar("T")

class Fault(Exception):
    """The first fault of a text: its family, its number, its name and its fields, printed in a line."""

    def __init__(self, *parts: object) -> None:
        super().__init__(" ".join(str(part) for part in parts))

def refuse(is_wrong: object, *fault: object) -> None:
    """Raises a fault where something is wrong."""
    if is_wrong:
        raise Fault(*fault)

def given(value: Optional[T], *fault: object) -> T:
    """A value that has to be there; raises a fault where it is not."""
    if value is None:
        raise Fault(*fault)
    return value

@contextmanager
def within(*fault: object) -> Iterator[None]:
    """Raises a fault where its body has one, which it adds at the end."""
    try:
        yield
    except Fault as inner:
        raise Fault(*fault, inner) from None


# ---- The board and the sides (RULES) ---------------------------------------------------------------------------------
FILES, RANKS = 12, 10
WHITE, BLACK = 0, 1
KINGSIDE, QUEENSIDE = 0, 1
SQUARE = "[a-l](?:10|[1-9])"
NUMBER = "(0|[1-9][0-9]*)"

def square_at(file: int, rank: int) -> int:
    """The square of a file and a rank, both counted from 0."""
    return FILES * rank + file

def square_of(text: str) -> int:
    """The square of a text from a1 to l10."""
    return square_at(ord(text[0]) - ord("a"), int(text[1:]) - 1)

def square_text(square: int) -> str:
    return chr(ord("a") + square % FILES) + str(square // FILES + 1)

def number_of(text: str, most: int) -> Optional[int]:
    """The number of decimal digits without a leading zero, if it is at most `most`."""
    return int(text) if re.fullmatch(NUMBER, text) and len(text) <= len(str(most)) and int(text) <= most else None


# ---- Betza words (BETZA) ---------------------------------------------------------------------------------------------
FARTHEST, LONGEST_WORD, MOST_TERMS = 11, 64, 64
STRAIGHT, DIAGONAL, OBLIQUE, BOTH, RIDERS = "WDHR", "FAGB", "NLCJZ", "KQ", "RBQ"
MEANINGS = {STRAIGHT: "[fblrvs]*", DIAGONAL: "([fb][lr])+|[fbv]*|[lrs]*", BOTH: "[fblr]?",
            OBLIQUE: "(ff|bb|rr|ll|vv|ss|[fb]s|[fbrl]h)*"}
LEGS = {"W": (1, 0), "D": (2, 0), "H": (3, 0), "R": (1, 0), "F": (1, 1), "A": (2, 2), "G": (3, 3), "B": (1, 1),
        "N": (2, 1), "L": (3, 1), "C": (3, 1), "J": (3, 2), "Z": (3, 2)}
PART = re.compile(r"(?P<modifiers>[a-z\[\](){}-]*)(?P<atom>.?)(?P<double>(?P=atom)?)(?P<digits>[0-9]*)", re.DOTALL)
Offset = Tuple[int, int]

class Term(NamedTuple):
    """One way in which a piece moves: a step of files and ranks as White sees it, how often, how, and for what."""
    step: Offset
    limit: int
    way: str
    quiet: bool
    takes: bool

def read_part(word: str, begin: int) -> Match[str]:
    """The part of a word that begins at a place; raises the fault of its form."""
    part = PART.match(word, begin)
    assert part is not None
    for place, letter in enumerate(part["modifiers"], begin):
        refuse(letter not in "mcnpgfblrvsh", "BetzaFault", 4, "UnsupportedModifier", place)
        refuse(letter in "mcnpg" and letter in word[begin:place], "BetzaFault", 5, "DoubledModifier", place)
    refuse(part["atom"] not in [*LEGS, *BOTH], "BetzaFault", 3, "UnknownAtom", part.start("atom"))
    return part

def all_steps(atom: str) -> List[Offset]:
    """The steps of an atom in all directions."""
    if atom in BOTH:
        return all_steps("W") + all_steps("F")
    long, short = LEGS[atom]
    return sorted({(x * a, y * b) for a, b in ((long, short), (short, long)) for x in (-1, 1) for y in (-1, 1)})

def is_chosen(step: Offset, letters: str) -> bool:
    """Whether a letter of a direction, or a pair of letters, chooses a step."""
    dx, dy = step
    towards = {"f": dy > 0, "b": dy < 0, "r": dx > 0, "l": dx < 0, "v": dy != 0, "s": dx != 0}
    if len(letters) == 1 or letters[1] == "h":
        return towards[letters[0]]
    if abs(dx) == abs(dy):
        return towards[letters[0]] and towards[letters[1]]
    is_upright = letters in ("ff", "bb", "vv")
    return towards[letters[0]] and (abs(dy) > abs(dx)) == is_upright

def chosen_steps(atom: str, letters: str) -> Optional[List[Offset]]:
    """The steps that the letters of directions choose, or None where they have no one meaning."""
    meaning = next(pattern for atoms, pattern in MEANINGS.items() if atom in atoms)
    if not re.fullmatch(meaning, letters):
        return None
    has_pairs = atom in OBLIQUE or atom in DIAGONAL and re.fullmatch("([fb][lr])+", letters)
    choices = re.findall(".." if has_pairs else ".", letters)
    return [step for step in all_steps(atom) if not choices or any(is_chosen(step, choice) for choice in choices)]

def terms_of_part(part: Match[str]) -> List[Term]:
    """The terms of a part; raises its first fault after those of its form."""
    modifiers, atom, digits = part["modifiers"], part["atom"], part["digits"]
    rides, is_far = atom in RIDERS or part["double"] != "", part["double"] + digits != ""
    refuse(digits and number_of(digits, FARTHEST) is None, "BetzaFault", 9, "BadNumber", part.start("digits"))
    directions = re.sub("[mcnpg]", "", modifiers)
    first = part.start() + len(modifiers) - len(modifiers.lstrip("mcnpg"))
    steps = given(chosen_steps(atom, directions), "BetzaFault", 6, "AmbiguousDirection", first)
    if "n" in modifiers and (atom not in "NADHG" or is_far):
        raise Fault("BetzaFault", 7, "BadLame", part.start() + modifiers.index("n"))
    hoppers = [place for place, letter in enumerate(modifiers, part.start()) if letter in "pg"]
    if len(hoppers) == 2 or hoppers and atom not in RIDERS and not is_far:
        raise Fault("BetzaFault", 8, "BadHopper", hoppers[-1])
    limit = int(digits or not rides) or FARTHEST
    way = "slide" if rides or digits else "leap"
    for letter, name in (("g", "grasshopper"), ("p", "hop"), ("n", "lame")):
        way = name if letter in modifiers else way
    moves, takes = "m" in modifiers, "c" in modifiers
    return [Term(step, limit, way, moves or not takes, takes or not moves) for step in steps]

def betza_terms(word: str) -> List[Term]:
    """The terms of a Betza word; raises its first fault."""
    refuse(not word, "BetzaFault", 1, "Empty", 0)
    refuse(len(word) > LONGEST_WORD, "BetzaFault", 2, "TooLong", LONGEST_WORD)
    terms: List[Term] = []
    place = 0
    while place < len(word):
        part = read_part(word, place)
        terms, place = terms + terms_of_part(part), part.end()
        refuse(len(terms) > MOST_TERMS, "BetzaFault", 10, "TooManyTerms", part.start("atom"))
    return terms


# ---- The rules of a variant (VARIANTS_INI) ---------------------------------------------------------------------------
WORDS = {
    "wazir": "W", "fers": "F", "alfil": "A", "fersAlfil": "FA", "knight": "N", "bishop": "B", "rook": "R", "queen": "Q",
    "king": "K", "commoner": "K", "archbishop": "BN", "chancellor": "RN", "amazon": "QN", "centaur": "KN",
    "silver": "FfW", "gold": "WfF", "dragonHorse": "BW", "dragon": "RF", "bers": "RF", "lance": "fR", "shogiPawn": "fW",
    "shogiKnight": "ffN", "cannon": "mRcpR", "horse": "nN", "elephant": "nA", "soldier": "fsW", "knibis": "mNcB",
    "biskni": "mBcN", "kniroo": "mNcR", "rookni": "mRcN", "immobile": "", "pawn": "",
}
CUSTOM = [f"customPiece{n}" for n in range(1, 25)]
READ_OVER = ("variantTemplate", "pieceToCharTable", "pocketSize", "pieceValueMg", "pieceValueEg")
CHESS_START = "rnbqkbnr/pppppppp/8/8/8/8/PPPPPPPP/RNBQKBNR w KQkq - 0 1"
Reader = Callable[[str], Any]

def form(pattern: str, make: Reader) -> Reader:
    """A reader of values: it makes something of a text of a form, and answers None of any other."""
    return lambda text: make(text) if re.fullmatch(pattern, text) else None

def number(low: int, high: int) -> Reader:
    return form(NUMBER, lambda text: number_of(text, high) if int(text) >= low else None)

def lower_letters(text: str) -> str:
    return text.replace(" ", "").replace("-", "").lower()

def region_squares(text: str) -> FrozenSet[int]:
    """The squares of a region, also those off the variant's board."""
    files = {part: range(FILES) if part[0] == "*" else [ord(part[0]) - ord("a")] for part in text.lower().split()}
    return frozenset(square_at(file, int(part[1:]) - 1) for part, some in files.items() if part != "-" for file in some)

FLAG = form("true|false", lambda text: text == "true")
RESULT = form("win|loss|draw", str)
FILE = form("[a-lA-L]|[1-9]|1[0-2]", lambda text: int(text) if text.isdigit() else ord(text.lower()) - ord("a") + 1)
LETTER = form("-|[a-zA-Z]", lower_letters)
LETTERS = form("-|[a-zA-Z ]+", lower_letters)
PAIRS = form("-|([a-zA-Z]:[a-zA-Z])?( +[a-zA-Z]:[a-zA-Z])*", lambda text: re.findall("(.):(.)", text.lower()))
REGION = form("-|([a-lA-L*](10|[1-9]))?( +[a-lA-L*](10|[1-9]))*", region_squares)

FLAGS = {
    "true": ("mandatoryPawnPromotion", "doubleStep", "castling", "checking", "dropChecks"),
    "false": ("mandatoryPiecePromotion", "pieceDrops", "capturesToHand", "firstRankPawnDrops", "promotionZonePawnDrops",
              "gating", "seirawanGating", "mustCapture", "immobilityIllegal", "flyingGeneral", "checkCounting"),
}
# Each option with the form of its value and its default. None stands for a default that depends on the rest.
OPTIONS: Dict[str, Tuple[Reader, Optional[str]]] = {
    **{key: (FLAG, default) for default, keys in FLAGS.items() for key in keys}, "startFen": (str, CHESS_START),
    "maxRank": (number(1, RANKS), "8"), "maxFile": (FILE, "8"), "castlingRank": (number(1, RANKS), "1"),
    "castlingKingFile": (FILE, "e"), "castlingKingsideFile": (FILE, "g"), "castlingQueensideFile": (FILE, "c"),
    "promotionRegionWhite": (REGION, "*8"), "promotionRegionBlack": (REGION, "*1"),
    "doubleStepRegionWhite": (REGION, "*2"), "doubleStepRegionBlack": (REGION, "*7"), "flagRegionWhite": (REGION, "-"), "flagRegionBlack": (REGION, "-"),
    "dropRegionWhite": (REGION, None), "dropRegionBlack": (REGION, None), "promotionPieceTypes": (LETTERS, "-"),
    "promotedPieceType": (PAIRS, "-"), "castlingRookPieces": (LETTERS, None), "nMoveRuleTypes": (LETTERS, None),
    "dropNoDoubled": (LETTER, "-"), "flagPiece": (LETTER, "-"), "soldierPromotionRank": (number(1, RANKS), "1"),
    "checkmateValue": (RESULT, "loss"), "stalemateValue": (RESULT, "draw"), "nMoveRule": (number(0, 500), "50"),
    "nFoldRule": (lambda text: None if text == "1" else number(0, 100)(text), "3"), "nFoldValue": (RESULT, "draw"),
    "extinctionValue": (form("win|loss|draw|none", str), "none"), "extinctionPieceCount": (number(0, 240), "0"),
    "extinctionPieceTypes": (form(r"\*|-|[a-zA-Z ]+", lower_letters), "-"),
    "extinctionOpponentPieceCount": (number(0, 240), "0"),
}
for _name in [name for name in WORDS if name != "pawn"] + CUSTOM:
    for _side in ("White", "Black"):
        OPTIONS[f"mobilityRegion{_side}{_name[0].upper()}{_name[1:]}"] = (REGION, None)

def read_piece(key: str, value: str) -> Optional[Tuple[str, str]]:
    """The letter and the Betza word of a piece, or None for one that is taken away; raises the fault of the line."""
    if value == "-":
        return None
    found = re.fullmatch("([a-zA-Z])(?::(.*))?", value, re.DOTALL)
    if not found or (found[2] is None if key in CUSTOM else found[2] is not None and key != "king"):
        raise Fault("SectionFault", 5, "BadValue", key)
    if found[2] is None:
        return found[1].lower(), WORDS[key]
    with within("SectionFault", 6, "BadPiece", key):
        betza_terms(found[2])
    return found[1].lower(), found[2]

class Path(NamedTuple):
    """How a piece comes from a square to another one: by which way, over which squares, and for what."""
    way: str
    between: Tuple[int, ...]
    quiet: bool
    takes: bool

Paths = Dict[int, List[Path]]

class Rules:
    """The rules of a variant: each option as a value, for the pieces and the board that it has."""

    def __init__(self, given: Dict[str, str], pieces: Dict[str, Tuple[str, str]]) -> None:
        """The rules of the texts of options, and of the letters and Betza words of pieces by their names."""
        texts = {key: given.get(key, default) for key, (_, default) in OPTIONS.items()}
        self.values = {key: None if text is None else OPTIONS[key][0](text) for key, text in texts.items()}
        self.files: int = self["maxFile"]
        self.ranks: int = self["maxRank"]
        self.squares = frozenset(square_at(file, rank) for rank in range(self.ranks) for file in range(self.files))
        self.kinds = {letter: name for name, (letter, _) in pieces.items()}
        self.terms = {letter: betza_terms(word) if word else [] for letter, word in pieces.values()}
        self.king, self.pawn, self.soldier, rook = (pieces[name][0] if name in pieces else ""
                                                    for name in ("king", "pawn", "soldier", "rook"))
        self.promotions = self.known("promotionPieceTypes", "")
        self.castling_rooks = self.known("castlingRookPieces", rook)
        self.counted_kinds = self.known("nMoveRuleTypes", self.pawn)
        self.promoted_pairs = [pair for pair in self["promotedPieceType"] if set(pair) <= set(self.kinds)]
        self.promoted: Dict[str, str] = dict(self.promoted_pairs)
        self.promotion_region = self.regions("promotionRegion")
        self.double_region = self.regions("doubleStepRegion")
        self.drop_region = self.regions("dropRegion")
        self.flag_region = self.regions("flagRegion")

    def __getitem__(self, key: str) -> Any:
        """The value of an option, or of its default; None where neither is there."""
        return self.values[key]

    def known(self, key: str, default: str) -> List[str]:
        """The letters of an option that are pieces of the variant, in alphabetical order."""
        return sorted(set(default if self[key] is None else self[key]) & set(self.kinds))

    def regions(self, key: str, name: str = "") -> Tuple[FrozenSet[int], FrozenSet[int]]:
        """The squares of a region on the board, for White and for Black; all squares where nothing is said."""
        white, black = (self[f"{key}{side}{name}"] for side in ("White", "Black"))
        return (self.squares if white is None else self.squares & white,
                self.squares if black is None else self.squares & black)

    def step(self, square: int, side: int, right: int, forward: int) -> Optional[int]:
        """The square so many files to the right and ranks forward, as a side sees it, or None off the board."""
        turn = 1 if side == WHITE else -1
        file, rank = square % FILES + turn * right, square // FILES + turn * forward
        return square_at(file, rank) if 0 <= file < self.files and 0 <= rank < self.ranks else None

    def rank_for(self, side: int, square: int) -> int:
        """The rank of a square as a side counts it, from 0."""
        return square // FILES if side == WHITE else self.ranks - 1 - square // FILES

    def castling_on(self) -> bool:
        """Whether the variant has castling at all."""
        queenside, king, kingside = (self["castling" + name + "File"] for name in ("Queenside", "King", "Kingside"))
        return bool(self["castling"] and self.king and self.castling_rooks and self["castlingRank"] <= self.ranks
                    and queenside < king < kingside <= self.files)

    def castling_square(self, side: int, name: str) -> int:
        """The square of a side's castling rank on the file of an option: King, Kingside or Queenside."""
        rank = self["castlingRank"] - 1
        return square_at(self[f"castling{name}File"] - 1, rank if side == WHITE else self.ranks - 1 - rank)

    @lru_cache(maxsize=None)
    def reach(self, side: int, kind: str, square: int) -> Paths:
        """All paths of a piece that is not the pawn: to each square of its mobility region to which a term leads."""
        found: Paths = {}
        name = self.kinds[kind]
        allowed = self.regions("mobilityRegion", name[0].upper() + name[1:])[side]
        held_back = kind == self.soldier and self.rank_for(side, square) + 1 < self["soldierPromotionRank"]
        for term in self.terms[kind]:
            right, forward = term.step
            if held_back and right:
                continue
            between = self.block_squares(side, square, term) if term.way == "lame" else []
            for k in range(1, term.limit + 1):
                target = self.step(square, side, k * right, k * forward)
                if target is None:
                    break
                if target in allowed:
                    found.setdefault(target, []).append(Path(term.way, tuple(between), term.quiet, term.takes))
                between.append(target)
        return found

    def block_squares(self, side: int, square: int, term: Term) -> List[int]:
        """Along the longer leg of a lame step all single squares but the last."""
        right, forward = term.step
        length = max(abs(right), abs(forward))
        steps = [self.step(square, side, k * int(right / length), k * int(forward / length)) for k in range(1, length)]
        return [one for one in steps if one is not None]

    def contradiction(self) -> int:
        """The smallest number of a contradiction of the rules, or 0."""
        left, right = [one for one, _ in self.promoted_pairs], [one for _, one in self.promoted_pairs]
        bound = {self.pawn, self.king} - {""}
        bad_castling = self.castling_on() and (self["castlingRank"] != 1 or self.pawn in self.castling_rooks)
        contradictions = [
            not self.kinds,
            bool(bound & set(self.promotions)),
            bool(bound & set(left + right)) or len(left) > len(set(left)) or bool(set(left) & set(right)),
            self["seirawanGating"] and not self["gating"],
            self["gating"] and (self.files > 10 or bad_castling),
        ]
        return next((place for place, holds in enumerate(contradictions, 1) if holds), 0)

def rules_of(lines: Sequence[Sequence[str]]) -> Rules:
    """The rules of a section's pairs; raises the fault of the section."""
    options: Dict[str, str] = {}
    given: Dict[str, Optional[Tuple[str, str]]] = {}
    for key, value in lines:
        if key in WORDS or key in CUSTOM:
            given[key] = read_piece(key, value)
        elif key in OPTIONS:
            refuse(OPTIONS[key][0](value) is None, "SectionFault", 5, "BadValue", key)
            options[key] = value
        elif key not in READ_OVER:
            raise Fault("SectionFault", 4, "UnsupportedOption", key)
    pieces = {name: piece for name, piece in given.items() if piece}
    counts = Counter(letter for letter, _ in pieces.values())
    twice = sorted(letter for letter in counts if counts[letter] > 1)
    refuse(twice, "SectionFault", 7, "LetterTwice", *twice[:1])
    rules = Rules(options, pieces)
    refuse(rules.contradiction(), "SectionFault", 9, "Inconsistent", rules.contradiction())
    with within("SectionFault", 8, "BadStart"):
        Fen(rules).position(rules["startFen"])
    return rules


# ---- Positions: reach and attacks (RULES) ----------------------------------------------------------------------------
MOST_PIECES, MOST_COUNT, MOST_CHECKS = 240, 9999, 99

class Piece(NamedTuple):
    side: int
    kind: str
    origin: str = ""

class Go(NamedTuple):
    """A move of a piece or pawn: what a pawn becomes, whether another piece promotes, and what comes in at its gate."""
    start: int
    target: int
    becomes: str = ""
    promotes: bool = False
    gated: str = ""

class Castle(NamedTuple):
    """A castle: start and target of the king and of the rook, and the kind that comes in on one of the starts."""
    king: int
    king_target: int
    rook: int
    rook_target: int
    gated: str = ""
    on_rook: bool = False

class Drop(NamedTuple):
    kind: str
    target: int

Move = Union[Go, Castle, Drop]
Pairs = FrozenSet[Tuple[int, int]]

@dataclass(frozen=True)
class Cells:
    """The pieces on a board, None where a square is empty: who stands where, and who attacks what."""
    rules: Rules
    cells: Tuple[Optional[Piece], ...]

    def has(self, square: Optional[int], side: int, kind: str) -> bool:
        """Whether a side's piece of a kind is on a square."""
        piece = self.cells[square] if square is not None else None
        return piece is not None and piece.side == side and piece.kind == kind

    def allows(self, path: Path) -> bool:
        """Whether the way of a path allows it as the pieces stand."""
        if path.way == "leap":
            return True
        occupied = [square for square in path.between if self.cells[square]]
        if path.way in ("slide", "lame"):
            return not occupied
        return len(occupied) == 1 and (path.way == "hop" or occupied[0] == path.between[-1])

    def pawn_attacks(self, side: int, target: int) -> bool:
        """Whether a pawn of a side has a square diagonally one step forward."""
        return any(self.has(self.rules.step(target, side, right, -1), side, self.rules.pawn) for right in (-1, 1))

    def king_square(self, side: int) -> Optional[int]:
        return next((square for square in self.rules.squares if self.has(square, side, self.rules.king)), None)

    def flies_to(self, side: int, target: int) -> bool:
        """Whether the other king is on a square, and the side's own king on the same file with nothing between."""
        king = self.king_square(side)
        if king is None or king % FILES != target % FILES or not self.has(target, 1 - side, self.rules.king):
            return False
        return not any(self.cells[square] for square in range(min(king, target) + FILES, max(king, target), FILES))

    def attacks(self, side: int, target: int) -> bool:
        """Whether a side attacks a square."""
        rules = self.rules
        for square in rules.squares:
            piece = self.cells[square]
            if piece and piece.side == side and piece.kind != rules.pawn:
                for path in rules.reach(side, piece.kind, square).get(target, ()):
                    if path.takes and self.allows(path):
                        return True
        if rules.pawn and self.pawn_attacks(side, target):
            return True
        return bool(rules["flyingGeneral"] and rules.king) and self.flies_to(side, target)

    def king_attacked(self, side: int) -> bool:
        """Whether the other side attacks a side's king; false where there is no king."""
        king = self.king_square(side) if self.rules.king else None
        return king is not None and self.attacks(1 - side, king)

    def is_mobile(self, square: int) -> bool:
        """Whether the piece on a square would reach some square of the empty board."""
        piece = self.cells[square]
        if piece is None or piece.kind == self.rules.pawn:
            return piece is not None and self.rules.step(square, piece.side, 0, 1) is not None
        empty = Cells(self.rules, (None,) * len(self.cells))
        reached = self.rules.reach(piece.side, piece.kind, square).values()
        return any(empty.allows(path) for paths in reached for path in paths)

    def rook_square(self, side: int, wing: int) -> Optional[int]:
        """The outermost own piece of a castling kind on the castling rank and the wing's side of the king's file."""
        king = self.rules.castling_square(side, "King")
        first = king - king % FILES
        outwards = range(first + self.rules.files - 1, king, -1) if wing == KINGSIDE else range(first, king)
        rooks = (one for one in outwards if any(self.has(one, side, kind) for kind in self.rules.castling_rooks))
        return next(rooks, None)

    def castle_with(self, side: int, wing: int) -> Optional[Castle]:
        """A side's castle to a wing by its four squares, if there is a rook for it."""
        rook, king = self.rook_square(side, wing), self.rules.castling_square(side, "King")
        if rook is None:
            return None
        target = self.rules.castling_square(side, "Kingside" if wing == KINGSIDE else "Queenside")
        return Castle(king, target, rook, target - 1 if wing == KINGSIDE else target + 1)


# ---- Moves (RULES) ---------------------------------------------------------------------------------------------------
def move_text(move: Move) -> str:
    if isinstance(move, Drop):
        return f"{move.kind.upper()}@{square_text(move.target)}"
    if isinstance(move, Go):
        return square_text(move.start) + square_text(move.target) + move.becomes + "+" * move.promotes + move.gated
    start, target = (move.rook, move.king) if move.on_rook else (move.king, move.king_target)
    return square_text(start) + square_text(target) + move.gated

def touched_squares(move: Move) -> Set[int]:
    """The squares that a move leaves or enters."""
    if isinstance(move, Castle):
        return set(move[:4])
    return {move.target} if isinstance(move, Drop) else {move.start, move.target}

class End(NamedTuple):
    """How a game ended: the side that has won, or None for a draw, and the cause."""
    winner: Optional[int]
    cause: str

def end_by(value: str, side: int, cause: str) -> End:
    """The end where a side has a result."""
    return End({"win": side, "loss": 1 - side, "draw": None}[value], cause)

@dataclass(frozen=True)
class Position(Cells):
    """What stands on the board, the hands in order, castling rights of (side, wing), gates of (side, square), the
    checks left, the en passant square, the side to move, and the two counts."""
    hands: Tuple[str, str]
    rights: Pairs
    gates: Pairs
    checks: Tuple[int, int]
    passed: Optional[int]
    side: int
    counter: int
    number: int

    def repeat(self) -> Tuple[object, ...]:
        """The position without the two counts."""
        return self.cells, self.hands, self.rights, self.gates, self.checks, self.passed, self.side

    def castles(self) -> Iterator[Castle]:
        """The castles of the side to move, without a gated piece."""
        for wing in (KINGSIDE, QUEENSIDE):
            castle = self.castle_with(self.side, wing) if (self.side, wing) in self.rights else None
            if castle is None or not self.has(castle.king, self.side, self.rules.king):
                continue
            inner = set(range(min(castle[:4]), max(castle[:4]) + 1)) - {castle.king, castle.rook}
            way = range(min(castle.king, castle.king_target), max(castle.king, castle.king_target) + 1)
            if not any(self.cells[square] for square in inner):
                if not any(self.attacks(1 - self.side, square) for square in way):
                    yield castle

    def means_castling(self, start: int, target: int) -> bool:
        """Whether a text from start to target means castling, since the right of that wing is held."""
        held = [self.castle_with(side, wing) for side, wing in self.rights if side == self.side]
        return any(castle is not None and castle[:2] == (start, target) for castle in held)

    def piece_moves(self, start: int, piece: Piece) -> Iterator[Go]:
        """The moves of a piece that is not the pawn, without a gated piece."""
        for target, paths in self.rules.reach(piece.side, piece.kind, start).items():
            taken = self.cells[target]
            if taken and taken.side == piece.side:
                continue
            if not any((path.takes if taken else path.quiet) and self.allows(path) for path in paths):
                continue
            if piece.kind == self.rules.king and self.means_castling(start, target):
                continue
            is_near = not self.rules.promotion_region[piece.side].isdisjoint((start, target))
            may = piece.kind in self.rules.promoted and is_near
            if not (may and self.rules["mandatoryPiecePromotion"]):
                yield Go(start, target)
            if may:
                yield Go(start, target, promotes=True)

    def pawn_moves(self, start: int) -> Iterator[Go]:
        """The moves of a pawn of the side to move."""
        rules, side = self.rules, self.side
        front, second = (rules.step(start, side, 0, forward) for forward in (1, 2))
        diagonals = [rules.step(start, side, right, 1) for right in (-1, 1)]
        taken = [(one, self.cells[one]) for one in diagonals if one is not None]
        targets = [one for one, piece in taken if piece and piece.side != side]
        if front is not None and not self.cells[front]:
            targets.append(front)
            if rules["doubleStep"] and start in rules.double_region[side]:
                targets += [second] if second is not None and not self.cells[second] else []
        for target in targets:
            may = bool(rules.promotions) and target in rules.promotion_region[side]
            if not (may and rules["mandatoryPawnPromotion"]):
                yield Go(start, target)
            yield from (Go(start, target, becomes=kind) for kind in (rules.promotions if may else ()))
        if self.passed is not None and self.passed in diagonals:
            yield Go(start, self.passed)

    def drops(self) -> Iterator[Drop]:
        """The drops of the side to move."""
        rules, side = self.rules, self.side
        for kind in sorted(set(self.hands[side])) if rules["pieceDrops"] else ():
            for target in rules.drop_region[side]:
                is_barred = rules.rank_for(side, target) == 0 and not rules["firstRankPawnDrops"]
                if target in rules.promotion_region[side] and not rules["promotionZonePawnDrops"]:
                    is_barred = True
                if self.cells[target] or is_barred and kind == rules.pawn:
                    continue
                file = range(target % FILES, FILES * rules.ranks, FILES)
                if kind != rules["dropNoDoubled"] or not any(self.has(square, side, kind) for square in file):
                    yield Drop(kind, target)

    def gated_kinds(self, square: int) -> List[str]:
        """The kinds of the hand that may come in where the side to move leaves a square."""
        is_open = self.rules["seirawanGating"] and (self.side, square) in self.gates
        return sorted(set(self.hands[self.side])) if is_open else []

    def candidates(self) -> Iterator[Move]:
        """The moves that meet the rules of movement."""
        for square in self.rules.squares:
            piece = self.cells[square]
            if piece and piece.side == self.side and piece.kind == self.rules.pawn:
                yield from self.pawn_moves(square)
            elif piece and piece.side == self.side:
                for move in self.piece_moves(square, piece):
                    yield move
                    yield from (move._replace(gated=kind) for kind in self.gated_kinds(square))
        for castle in self.castles():
            yield castle
            for start, on_rook in ((castle.king, False), (castle.rook, True)):
                if start not in (castle.king_target, castle.rook_target):
                    yield from (castle._replace(gated=kind, on_rook=on_rook) for kind in self.gated_kinds(start))
        yield from self.drops()

    # ---- What follows a move (RULES)

    def passes_by(self, move: Move) -> Optional[int]:
        """The square of the pawn that is taken en passant."""
        if not isinstance(move, Go) or move.target != self.passed or move.start % FILES == move.target % FILES:
            return None
        is_pawn = self.has(move.start, self.side, self.rules.pawn)
        return self.rules.step(move.target, self.side, 0, -1) if is_pawn else None

    def cells_after(self, move: Move) -> Cells:
        """The pieces on the board after a move."""
        cells, rules = list(self.cells), self.rules
        if isinstance(move, Drop):
            cells[move.target] = Piece(self.side, move.kind)
        elif isinstance(move, Castle):
            king, rook = cells[move.king], cells[move.rook]
            cells[move.king] = cells[move.rook] = None
            cells[move.king_target], cells[move.rook_target] = king, rook
            if move.gated:
                cells[move.rook if move.on_rook else move.king] = Piece(self.side, move.gated)
        else:
            piece, taken = cells[move.start], self.passes_by(move)
            if taken is not None:
                cells[taken] = None
            if move.becomes:
                piece = Piece(self.side, move.becomes, rules.pawn if rules["capturesToHand"] else "")
            elif piece and move.promotes:
                piece = Piece(self.side, rules.promoted[piece.kind], piece.kind)
            cells[move.start] = Piece(self.side, move.gated) if move.gated else None
            cells[move.target] = piece
        return Cells(rules, tuple(cells))

    def taken_piece(self, move: Move) -> Optional[Piece]:
        """The piece that a move takes."""
        if not isinstance(move, Go):
            return None
        passed = self.passes_by(move)
        return self.cells[move.target if passed is None else passed]

    def hands_after(self, move: Move) -> Tuple[str, str]:
        """The hands after a move: without what comes in, and with what is taken."""
        used = move.kind if isinstance(move, Drop) else move.gated
        hand = self.hands[self.side].replace(used, "", 1) if used else self.hands[self.side]
        taken = self.taken_piece(move)
        if taken and self.rules["capturesToHand"]:
            hand = "".join(sorted(hand + (taken.origin or taken.kind)))
        return (hand, self.hands[BLACK]) if self.side == WHITE else (self.hands[WHITE], hand)

    def passed_after(self, move: Move, after: Cells) -> Optional[int]:
        """The square passed over by a double step, if an enemy pawn has it diagonally in front."""
        is_pawn = isinstance(move, Go) and not move.becomes and self.has(move.start, self.side, self.rules.pawn)
        if not isinstance(move, Go) or not is_pawn or move.target != self.rules.step(move.start, self.side, 0, 2):
            return None
        passed = (move.start + move.target) // 2
        return passed if after.pawn_attacks(1 - self.side, passed) else None

    def next_counter(self, move: Move) -> int:
        """The plies since the last capture or move of a counted kind, after a move."""
        piece = self.cells[move.start] if isinstance(move, Go) else None
        is_counted = piece is not None and piece.kind in self.rules.counted_kinds
        return 0 if is_counted or self.taken_piece(move) else min(self.counter + 1, MOST_COUNT)

    def rights_after(self, move: Move, after: Cells) -> Pairs:
        """The castling rights whose king and rook have not moved, and whose rook is still the outermost one."""
        touched, king = touched_squares(move), [self.rules.castling_square(side, "King") for side in (WHITE, BLACK)]
        rooks = {(side, wing): self.rook_square(side, wing) for side, wing in self.rights}
        return frozenset((side, wing) for (side, wing), rook in rooks.items()
                         if touched.isdisjoint({king[side], rook}) and after.rook_square(side, wing) == rook)

    def checks_after(self, after: Cells) -> Tuple[int, int]:
        """The checks left: with check counting one less for the mover where the other king is attacked."""
        checks = list(self.checks)
        if self.rules["checkCounting"] and after.king_attacked(1 - self.side):
            checks[self.side] = max(checks[self.side] - 1, 0)
        return checks[WHITE], checks[BLACK]

    def next(self, move: Move) -> Position:
        """The position after a move."""
        after = self.cells_after(move)
        return Position(
            self.rules, after.cells, self.hands_after(move), self.rights_after(move, after),
            frozenset(gate for gate in self.gates if gate[1] not in touched_squares(move)), self.checks_after(after),
            self.passed_after(move, after), 1 - self.side, self.next_counter(move),
            min(self.number + (self.side == BLACK), MOST_COUNT))

    # ---- Early ends, legal moves and results (RULES)

    def is_extinct(self, side: int) -> bool:
        """Whether a side has too few pieces."""
        kinds = self.rules["extinctionPieceTypes"]
        pieces = Counter((piece.side, piece.kind) for piece in self.cells if piece)
        pieces.update((one, kind) for one in (WHITE, BLACK) for kind in self.hands[one])
        known = list(self.rules.kinds)
        for group in [known] if kinds == "*" else [[kind] for kind in kinds if kind in known]:
            own, other = (sum(pieces[one, kind] for kind in group) for one in (side, 1 - side))
            if own <= self.rules["extinctionPieceCount"] and other >= self.rules["extinctionOpponentPieceCount"]:
                return True
        return False

    def early_end(self) -> Optional[End]:
        """The end by a flag, by checks or by extinction."""
        rules, moved = self.rules, 1 - self.side
        kind = rules["flagPiece"]
        if kind and any(self.has(square, moved, kind) for square in rules.flag_region[moved]):
            return End(moved, "flag")
        for side in (moved, self.side) if rules["checkCounting"] else ():
            if self.checks[side] == 0:
                return End(side, "checks")
        for side in (moved, self.side) if rules["extinctionValue"] != "none" else ():
            if self.is_extinct(side):
                return end_by(rules["extinctionValue"], side, "extinction")
        return None

    def is_sane(self, move: Move) -> bool:
        """Whether a candidate leaves its own king safe, and no option forbids it."""
        after, rules = self.cells_after(move), self.rules
        if after.king_attacked(self.side):
            return False
        may_check = rules["checking"] and (rules["dropChecks"] or not isinstance(move, Drop))
        if not may_check and after.king_attacked(1 - self.side):
            return False
        return isinstance(move, Castle) or not rules["immobilityIllegal"] or after.is_mobile(move.target)

    def legal_moves(self) -> Dict[str, Move]:
        """The legal moves by their texts, in the order of their bytes."""
        if self.early_end():
            return {}
        moves = [move for move in self.candidates() if self.is_sane(move)]
        if self.rules["mustCapture"]:
            moves = [move for move in moves if self.taken_piece(move)] or moves
        return dict(sorted((move_text(move), move) for move in moves))

    def end(self, legal: Dict[str, Move]) -> Optional[End]:
        """The end of a game by its last position alone: an early end, or no legal move."""
        early = self.early_end()
        if early or legal:
            return early
        cause = "checkmate" if self.king_attacked(self.side) else "stalemate"
        return end_by(self.rules[cause + "Value"], self.side, cause)

    def is_run_out(self) -> bool:
        """Whether the counter has reached twice the number of the move-count rule."""
        return self.rules["nMoveRule"] != 0 and self.counter >= 2 * int(self.rules["nMoveRule"])

    def names_move(self, text: str) -> bool:
        """Whether a text names a move here, legal or not (FEN)."""
        if re.fullmatch(f"[A-Z]@{SQUARE}", text):
            return True
        found = re.fullmatch(rf"({SQUARE}){SQUARE}(\+?)[a-z]?", text)
        piece = self.cells[square_of(found[1])] if found else None
        if not found or piece is None or piece.side != self.side:
            return False
        return found[2] == "" or piece.kind in self.rules.promoted


# ---- How a FEN says a position (FEN) ---------------------------------------------------------------------------------
class Fen:
    """Reads positions of a variant; each method raises the first fault of its part."""

    def __init__(self, rules: Rules) -> None:
        self.rules = rules

    def fields(self, text: str) -> List[str]:
        """The six fields of a FEN, with the checks seven; those that may be left out are filled in."""
        fields, checks = text.split(" "), int(self.rules["checkCounting"])
        if not checks and re.fullmatch("[0-9]+", "".join(fields[2:3])):
            fields = fields[:2] + ["-", "-"] + fields[2:] if len(fields) == 4 else []
        if len(fields) == 4 + checks:
            fields += ["0", "1"]
        refuse(len(text) > 1024 or len(fields) != 6 + checks, "FenFault", 1, "Length")
        return fields

    def piece(self, plus: str, letter: str, wave: str) -> Piece:
        """The piece of a letter with its marks."""
        kind, side, rules = letter.lower(), WHITE if letter.isupper() else BLACK, self.rules
        may_wave = rules["capturesToHand"] and rules.pawn and kind in rules.promotions
        if kind not in rules.kinds or plus and (wave or kind not in rules.promoted) or wave and not may_wave:
            raise Fault("FenFault", 3, "Letter")
        return Piece(side, rules.promoted[kind], kind) if plus else Piece(side, kind, rules.pawn if wave else "")

    def rank(self, text: str) -> List[Optional[Piece]]:
        """The squares of a rank of the placement. A number that may not be there makes the rank too wide."""
        refuse(not re.fullmatch(r"([0-9]|\+?[a-zA-Z]~?)*", text), "FenFault", 3, "Letter")
        cells: List[Optional[Piece]] = []
        for digits, *mark in re.findall(r"([0-9]+)|(\+?)([a-zA-Z])(~?)", text):
            cells += [None] * (number_of(digits, FILES) or FILES + 1) if digits else [self.piece(*mark)]
        refuse(len(cells) != self.rules.files, "FenFault", 4, "Width")
        return cells

    def pocket(self, text: str) -> Tuple[str, str]:
        """The hands of White and of Black, from the text after the placement."""
        if text in ("", "[]", "[-]"):
            return "", ""
        rules, held = self.rules, sorted(text[1:-1])
        has_hands = rules["pieceDrops"] or rules["capturesToHand"] or rules["gating"]
        may_hold = set(rules.kinds) - {rules.king} if has_hands else set()
        if text[-1] != "]" or not re.fullmatch("[a-zA-Z]+", text[1:-1]) or not set(text[1:-1].lower()) <= may_hold:
            raise Fault("FenFault", 5, "Pocket")
        return "".join(one.lower() for one in held if one.isupper()), "".join(one for one in held if one.islower())

    def placement(self, text: str) -> Cells:
        """The board of the first field."""
        ranks = text.split("/")
        refuse(len(ranks) != self.rules.ranks, "FenFault", 2, "Rank")
        cells: List[Optional[Piece]] = [None] * (FILES * RANKS)
        for rank, part in zip(reversed(range(self.rules.ranks)), ranks):
            cells[square_at(0, rank):square_at(self.rules.files, rank)] = self.rank(part)
        return Cells(self.rules, tuple(cells))

    def rights(self, board: Cells, text: str) -> Tuple[Pairs, Pairs]:
        """The castling rights and the gates of a field, those gates too that a right gives."""
        rights: Set[Tuple[int, int]] = set()
        gates: Set[Tuple[int, int]] = set()
        rules, letters, fault = self.rules, "" if text == "-" else text, Fault("FenFault", 7, "Rights")
        if not text or len(set(letters)) < len(letters):
            raise fault
        for letter in letters:
            side, place = WHITE if letter.isupper() else BLACK, "abcdefghij".find(letter.lower())
            if letter in "KQkq":
                wing = "KQ".index(letter.upper())
                castle = board.castle_with(side, wing) if rules.castling_on() else None
                if castle is None or not board.has(castle.king, side, rules.king):
                    raise fault
                rights.add((side, wing))
                gates |= {(side, castle.king), (side, castle.rook)} if rules["gating"] else set()
            else:
                square = square_at(place, 0 if side == WHITE else rules.ranks - 1)
                piece = board.cells[square] if place >= 0 else None
                if not rules["gating"] or piece is None or piece.side != side or piece.kind == rules.pawn:
                    raise fault
                gates.add((side, square))
        return frozenset(rights), frozenset(gates)

    def passed(self, board: Cells, side: int, text: str) -> Optional[int]:
        """The en passant square, or None where there is none or no pawn could take there."""
        if text == "-":
            return None
        square = square_of(text) if re.fullmatch(SQUARE, text) else -1
        start, front = (self.rules.step(square, side, 0, forward) for forward in (1, -1))
        if (square not in self.rules.squares or start is None or board.cells[square] or board.cells[start]
                or not self.rules.pawn or not board.has(front, 1 - side, self.rules.pawn)
                or not self.rules["doubleStep"] or start not in self.rules.double_region[1 - side]):
            raise Fault("FenFault", 8, "EnPassant")
        return square if board.pawn_attacks(side, square) else None

    def position(self, text: str) -> Position:
        """The position that a FEN says."""
        fields, rules = self.fields(text), self.rules
        placement, bracket, pocket = fields[0].partition("[")
        board, hands = self.placement(placement), self.pocket(bracket + pocket)
        refuse(fields[1] not in ("w", "b"), "FenFault", 6, "Side")
        side = "wb".index(fields[1])
        (rights, gates), passed = self.rights(board, fields[2]), self.passed(board, side, fields[3])
        white, _, black = fields[4].partition("+") if rules["checkCounting"] else ("0", "+", "0")
        left = [given(number_of(count, MOST_CHECKS), "FenFault", 9, "Checks") for count in (white, black)]
        counter, number = (given(number_of(count, MOST_COUNT), "FenFault", 10, "Counter") for count in fields[-2:])
        pieces = [piece for piece in board.cells if piece]
        if rules.king and sorted(piece.side for piece in pieces if piece.kind == rules.king) != [WHITE, BLACK]:
            raise Fault("FenFault", 11, "Kings")
        refuse(len(pieces) + len(hands[WHITE]) + len(hands[BLACK]) > MOST_PIECES, "FenFault", 13, "TooMany")
        refuse(board.king_attacked(1 - side), "FenFault", 12, "OpponentAttacked")
        return Position(rules, board.cells, hands, rights, gates, (left[0], left[1]), passed, side, counter,
                        number or 1)


# ---- Games (COMMANDS, and the built-in variants of VARIANTS_INI) -----------------------------------------------------
MOST_PLIES, LONGEST_LINE = 8192, 131072
CHESS = "pawn=p;knight=n;bishop=b;rook=r;queen=q;king=k;promotionPieceTypes=nbrq"
KINGLESS = CHESS + ";king=-;commoner=k;castling=false;startFen=" + CHESS_START.replace("KQkq", "-")
BUILT_IN = {
    "chess": CHESS,
    "crazyhouse": CHESS + ";pieceDrops=true;capturesToHand=true",
    "3check": CHESS + ";checkCounting=true;startFen=" + CHESS_START.replace(" 0", " 3+3 0"),
    "kingofthehill": CHESS + ";flagPiece=k;flagRegionWhite=d4 e4 d5 e5;flagRegionBlack=d4 e4 d5 e5",
    "antichess": KINGLESS + ";mustCapture=true;stalemateValue=win;extinctionValue=win;extinctionPieceTypes=*"
                            ";promotionPieceTypes=nbrqk",
    "extinction": KINGLESS + ";extinctionValue=loss;extinctionPieceTypes=pnbrqk",
    "losalamos": CHESS + ";maxRank=6;maxFile=6;promotionRegionWhite=*6;bishop=-;promotionPieceTypes=nrq"
                         ";doubleStep=false;castling=false;startFen=rnqknr/pppppp/6/6/PPPPPP/RNQKNR w - - 0 1",
    "capablanca": CHESS + ";maxFile=10;archbishop=a;chancellor=c;castlingKingFile=f;castlingKingsideFile=i"
                          ";promotionPieceTypes=nbrqac"
                          ";startFen=rnabqkbcnr/pppppppppp/10/10/10/10/PPPPPPPPPP/RNABQKBCNR w KQkq - 0 1",
    "seirawan": CHESS + ";gating=true;seirawanGating=true;archbishop=h;chancellor=e;promotionPieceTypes=nbrqhe"
                        ";startFen=rnbqkbnr/pppppppp/8/8/8/8/PPPPPPPP/RNBQKBNR[HEhe] w KQBCDFGkqbcdfg - 0 1",
    "xiangqi": "maxRank=10;maxFile=9;king=k:W;fers=a;elephant=b;horse=n;rook=r;cannon=c;soldier=p;castling=false"
               ";soldierPromotionRank=6;flyingGeneral=true;stalemateValue=loss;nMoveRule=0"
               ";mobilityRegionWhiteKing=d1 e1 f1 d2 e2 f2 d3 e3 f3;mobilityRegionWhiteFers=d1 e1 f1 d2 e2 f2 d3 e3 f3"
               ";mobilityRegionBlackKing=d8 e8 f8 d9 e9 f9 d10 e10 f10"
               ";mobilityRegionBlackFers=d8 e8 f8 d9 e9 f9 d10 e10 f10"
               ";mobilityRegionWhiteElephant=*1 *2 *3 *4 *5;mobilityRegionBlackElephant=*6 *7 *8 *9 *10"
               ";startFen=rnbakabnr/9/1c5c1/p1p1p1p1p/9/9/P1P1P1P1P/1C5C1/9/RNBAKABNR w - - 0 1",
}

class Game:
    """A game: its last position, how many moves it has, and how often each position stood in it."""

    def __init__(self, start: Position) -> None:
        self.position, self.plies = start, 0
        self.times = Counter([start.repeat()])

    def play(self, text: str) -> bool:
        """Plays the move of a text, and says whether it is legal."""
        move = self.position.legal_moves().get(text)
        if move is None:
            return False
        self.position, self.plies = self.position.next(move), self.plies + 1
        self.times[self.position.repeat()] += 1
        return True

    def is_repeated(self, position: Position, more: int = 0) -> bool:
        """Whether a position ends the game by repetition where it stands so many times more."""
        fold: int = position.rules["nFoldRule"]
        return fold != 0 and self.times[position.repeat()] + more >= fold

    def end(self, legal: Dict[str, Move]) -> Optional[End]:
        """The result of the game, if it is over."""
        end = self.position.end(legal)
        if end is None and self.is_repeated(self.position):
            return end_by(self.position.rules["nFoldValue"], self.position.side, "repetition")
        return end if end or not self.position.is_run_out() else End(None, "movecount")

def game_line(lines: Sequence[str], number: int) -> str:
    """A line of a game text, counted from 1."""
    refuse(len(lines) < number, "GameFault", 1, "Missing", number)
    refuse(len(lines[number - 1]) > LONGEST_LINE, "GameFault", 8, "LineTooLong", number)
    return lines[number - 1]

def read_game(lines: Sequence[str]) -> Game:
    """The game of the first three lines; raises its first fault."""
    name = game_line(lines, 1)
    refuse(name not in BUILT_IN, "GameFault", 2, "UnknownVariant", name)
    rules, fen = rules_of([pair.split("=") for pair in BUILT_IN[name].split(";")]), game_line(lines, 2)
    with within("GameFault", 4, "BadPosition"):
        game = Game(Fen(rules).position(rules["startFen"] if fen == "startpos" else fen))
    for number, text in enumerate(re.findall("[^ \t]+", game_line(lines, 3)), 1):
        refuse(not game.play(text), "GameFault", 5, "BadMove", number, text)
        refuse(game.plies > MOST_PLIES, "GameFault", 6, "TooManyMoves")
    return game

def read_goal(text: str, words: Sequence[str], most: int, *fault: object) -> Tuple[int, int]:
    """The place of a goal's word among the words that it may have, and its number from 1 to `most`."""
    word, _, digits = text.rpartition(" ")
    refuse(word not in words or digits == "0", *fault)
    return words.index(word), given(number_of(digits, most), *fault)


# ---- Strategies (STRATEGIES) -----------------------------------------------------------------------------------------
LONGEST_NODE, HIGHEST_RANK, MOST_MOVES = 2048, 65535, 100

@dataclass
class Node:
    """A node of a strategy: rank, position with the greatest counter, and edges as moves and numbers of nodes."""
    rank: int
    position: Position
    edges: List[Tuple[str, int]] = field(default_factory=list)

class Strategy:
    """The attacker and the nodes of a strategy, read from the line `attacker` on; raises its first fault."""

    def __init__(self, rules: Rules, lines: Sequence[str], first: int) -> None:
        self.rules, self.lines, self.nodes = rules, lines, []  # type: Rules, Sequence[str], List[Node]
        self.attacker = ("white", "black").index(self.head(first, "attacker (white|black)"))
        self.announced = int(self.head(first + 1, f"nodes {NUMBER}"))
        end = next((number for number, line in enumerate(lines, 1) if number >= first + 2 and line == "end"), len(lines) + 1)
        for number in range(first + 2, end):
            self.read(number, lines[number - 1])
        refuse(end <= len(lines) and len(self.nodes) != self.announced, "StrategyFault", 5, "BadNumber", end)
        refuse(end != len(lines), "StrategyFault", 6, "Ended", min(end, len(lines)) + 1)

    def head(self, number: int, pattern: str) -> str:
        """What a line of the head says, by its form."""
        refuse(len(self.lines) < number, "StrategyFault", 6, "Ended", number)
        line = self.lines[number - 1]
        found = re.fullmatch(pattern, line) if len(line) <= LONGEST_NODE else None
        return given(found, "StrategyFault", 1, "Header", number)[1]

    def read(self, number: int, line: str) -> None:
        """Adds the node or the edge of a line; raises the fault of the line."""
        node, edge = re.fullmatch(f"node {NUMBER} {NUMBER} (.*)", line), re.fullmatch(f"edge ([^ ]*) {NUMBER}", line)
        if len(line) > LONGEST_NODE or not node and not (edge and self.nodes):
            raise Fault("StrategyFault", 2, "BadLine", number)
        if node:
            rank = number_of(node[2], HIGHEST_RANK)
            if node[1] != str(len(self.nodes)) or len(self.nodes) >= self.announced or rank is None:
                raise Fault("StrategyFault", 5, "BadNumber", number)
            with within("StrategyFault", 3, "BadPosition", number):
                self.nodes.append(Node(rank, Fen(self.rules).position(node[3])))
        elif edge:
            refuse(int(edge[2]) >= self.announced, "StrategyFault", 5, "BadNumber", number)
            refuse(not self.nodes[-1].position.names_move(edge[1]), "StrategyFault", 4, "BadMove", number)
            self.nodes[-1].edges.append((edge[1], int(edge[2])))

class Checker:
    """Looks for the first failure of a strategy for a side that shall mate in a game."""

    def __init__(self, game: Game, strategy: Strategy, side: int) -> None:
        self.game, self.attacker, self.nodes, self.side = game, strategy.attacker, strategy.nodes, side
        self.repeats = [node.position.repeat() for node in self.nodes]
        self.visits = Counter(self.repeats)
        self.twins = [(repeat, node.position.counter) for repeat, node in zip(self.repeats, self.nodes)]
        self.first = {twin: number for number, twin in reversed(list(enumerate(self.twins)))}

    def check(self, moves: int) -> None:
        """Raises the first failure for a number of moves, if there is one."""
        position = self.game.position
        is_root = self.attacker == self.side and self.repeats[:1] == [position.repeat()]
        refuse(not is_root or self.nodes[0].rank > moves, "Verdict", 1, "Root")
        refuse(self.nodes[0].position.counter < position.counter, "Verdict", 1, "Root")
        for number, node in enumerate(self.nodes):
            self.check_node(number, node)

    def check_node(self, number: int, node: Node) -> None:
        """Raises the first failure of a node."""
        position = node.position
        legal = position.legal_moves()
        end, attacks_here = position.end(legal), position.side == self.side
        legal = {} if position.is_run_out() else legal
        refuse(not self.has_right_moves(node, legal, attacks_here), "Verdict", 2, "WrongMove", number)
        moves, to_nodes = {text for text, _ in node.edges}, [self.nodes[to] for _, to in node.edges]
        missing = [] if attacks_here else [text for text in legal if text not in moves]
        refuse(missing, "Verdict", 3, "MissingReply", number, *missing[:1])
        refuse(any(to.rank > node.rank - attacks_here for to in to_nodes), "Verdict", 4, "BadRank", number)
        counters = [(position.next_counter(legal[text]), self.nodes[to].position.counter) for text, to in node.edges]
        refuse(any(counter > most for counter, most in counters), "Verdict", 5, "BadCounter", number)
        refuse(self.repeats_at(number), "Verdict", 6, "Repeats", number)
        is_over = position.is_run_out() or number == 0 and self.game.is_repeated(position)
        refuse(end.winner != self.side if end else is_over, "Verdict", 7, "NotWon", number)

    def has_right_moves(self, node: Node, legal: Dict[str, Move], attacks_here: bool) -> bool:
        """Whether each edge is a legal move, once, to the position after it, and the attacker has one edge."""
        texts = [text for text, _ in node.edges]
        if len(set(texts)) < len(texts) or any(text not in legal for text in texts):
            return False
        if any(node.position.next(legal[text]).repeat() != self.repeats[to] for text, to in node.edges):
            return False
        return not (attacks_here and legal) or len(texts) == 1

    def repeats_at(self, number: int) -> bool:
        """Whether a node stood above already or is the root again, or its position could stand too often."""
        repeat, position = self.repeats[number], self.nodes[number].position
        if number == 0 or self.first[self.twins[number]] < number or repeat == self.repeats[0]:
            return number != 0
        return self.game.is_repeated(position, self.visits[repeat])

def check_problem(lines: Sequence[str]) -> None:
    """Checks a problem with its strategy; raises the first fault."""
    game = read_game(lines)
    side, moves = read_goal(game_line(lines, 4), ("mate white", "mate black"), MOST_MOVES, "GameFault", 7, "BadGoal", 4)
    body = lines[4:]
    if body[:1] != ["strategy 1"]:
        raise Fault("StrategyFault", 1, "Header", 1) if body else Fault("StrategyFault", 6, "Ended", 1)
    Checker(game, Strategy(game.position.rules, body, 2), side).check(moves)


# ---- Proof texts (STRATEGIES) ----------------------------------------------------------------------------------------
MOST_RULES, LONGEST_PAIR = 512, 1024
HEADER = r"\[[^\x00-\x20\x7f-\xff:\[\](){}]{1,64}(:[^\x00-\x20\x7f-\xff:\[\](){}]{1,64})?\]"

def proof_line(lines: Sequence[str], number: int, pattern: str) -> str:
    """What a line of a proof text says, by its form."""
    found = re.fullmatch(pattern, lines[number - 1]) if len(lines) >= number else None
    return given(found, "ProofFault", 1, "Header", number)[1]

def proof_number(lines: Sequence[str], number: int, word: str, low: int, high: int) -> int:
    """The number that follows a word on a line of a proof text."""
    count = number_of(proof_line(lines, number, f"{word} {NUMBER}"), high)
    refuse(count is not None and count < low, "ProofFault", 1, "Header", number)
    return given(count, "ProofFault", 1, "Header", number)

def read_rules(lines: Sequence[str], count: int) -> Rules:
    """The rules of the lines from line 3 on."""
    pairs: List[Sequence[str]] = []
    for number in range(3, count + 3):
        line = lines[number - 1].strip(" \t") if len(lines) >= number else ""
        key, equals, value = (part.strip(" \t") for part in line.partition("="))
        is_other = line[:1] in ("#", ";") or re.fullmatch(HEADER, line) or not line.isascii()
        if not key or not equals or is_other or len(key) + len(value) >= LONGEST_PAIR:
            raise Fault("ProofFault", 2, "BadRules", number)
        pairs.append((key, value))
    with within("ProofFault", 3, "RefusedRules"):
        return rules_of(pairs)

def check_proof(lines: Sequence[str]) -> None:
    """Checks a proof text; raises the first fault."""
    rule_count = proof_number(lines, 2, "rules", 1, MOST_RULES)
    rules, at = read_rules(lines, rule_count), rule_count + 3
    fen = proof_line(lines, at, "start (.*)")
    with within("ProofFault", 4, "BadStart", at):
        game = Game(Fen(rules).position(fen))
    plies = proof_number(lines, at + 1, "history", 0, MOST_PLIES)
    for number in range(at + 2, at + 2 + plies):
        refuse(len(lines) < number or not game.play(lines[number - 1]), "ProofFault", 5, "BadHistory", number)
    at += plies + 2
    goal = proof_line(lines, at, "goal (.*)")
    side, moves = read_goal(goal, ("white", "black"), MOST_MOVES, "ProofFault", 1, "Header", at)
    with within("ProofFault", 6, "BadBody"):
        strategy = Strategy(rules, lines, at + 1)
    Checker(game, strategy, side).check(moves)


# ---- Certificates (STIPULATIONS) -------------------------------------------------------------------------------------
MOST_STIPULATED = 6

class Step:
    """A step of a certificate, or the game's position as step 0: its game, and the texts of the moves that follow."""

    def __init__(self, game: Game, ply: int, is_second: bool) -> None:
        self.game, self.ply, self.is_second = game, ply, is_second
        self.following: List[str] = []
        self.legal = game.position.legal_moves()
        self.end = game.end(self.legal)

class Certificate:
    """A certificate that a game has a selfmate or a helpmate; raises the first fault of its text."""

    def __init__(self, game: Game, is_help: bool, lines: Sequence[str]) -> None:
        self.is_help, self.mover, self.steps = is_help, game.position.side, [Step(game, 0, False)]
        if lines and not re.fullmatch(f"(selfmate|helpmate) [0-{MOST_STIPULATED}]", lines[0]):
            raise Fault("CertFault", 1, "BadLine", 1)
        end = next((number for number, line in enumerate(lines[1:], 2) if line == "end"), len(lines) + 1)
        line_of_play = self.steps[:1]
        for number in range(2, end):
            ply, _, text = lines[number - 1].partition(" ")
            place = number_of(ply, len(line_of_play))
            step = self.after(line_of_play[place - 1], text) if place else None
            self.steps.append(given(step, "CertFault", 1, "BadLine", number))
            line_of_play[place:] = self.steps[-1:]
        refuse(end != len(lines), "CertFault", 2, "Ended", min(end, len(lines)) + 1)

    def after(self, parent: Step, text: str) -> Optional[Step]:
        """The step of a move after another one, or None where the move is not legal."""
        game = Game(parent.game.position)
        game.times, game.plies = Counter(parent.game.times), parent.game.plies
        if not game.play(text):
            return None
        chooses = self.is_help or parent.game.position.side == self.mover
        is_second = text in parent.following or chooses and parent.following != [] or parent.end is not None
        parent.following.append(text)
        return Step(game, parent.ply + 1, is_second)

    def check(self, moves: int) -> None:
        """Raises the first failure for a number of moves, if there is one."""
        for number, step in enumerate(self.steps):
            is_mate = step.end == End(1 - self.mover, "checkmate") and step.game.position.side == self.mover
            replies = not self.is_help and step.game.position.side != self.mover
            missing = [text for text in step.legal if text not in step.following] if replies and not step.end else []
            refuse(step.is_second, "CertVerdict", 2, "BadMove", number)
            refuse(step.ply > 2 * moves, "CertVerdict", 3, "TooDeep", number)
            refuse(step.end and not (is_mate and (step.ply or not self.is_help)), "CertVerdict", 4, "NotMate", number)
            refuse(missing, "CertVerdict", 5, "MissingReply", number, *missing[:1])
            refuse(not step.end and not step.following, "CertVerdict", 6, "Unfinished", number)

def check_certificate(lines: Sequence[str]) -> None:
    """Checks a game with a claim and its certificate; raises the first fault."""
    game = read_game(lines)
    goal, moves = read_goal(game_line(lines, 4), ("self", "help"), MOST_STIPULATED, "GameFault", 7, "BadGoal", 4)
    Certificate(game, goal == 1, lines[4:]).check(moves)


# ---- The command -----------------------------------------------------------------------------------------------------
def answer(text: str, is_certificate: bool) -> str:
    """What is printed of a text without a fault; raises its first fault."""
    lines = (text[:-1] if text.endswith("\n") else text).split("\n") if text else []
    lines = [line[:-1] if line.endswith("\r") else line for line in lines]
    if is_certificate:
        check_certificate(lines)
    elif lines[:1] == ["strategy 2"]:
        check_proof(lines)
    else:
        check_problem(lines)
    return "holds" if is_certificate else "wins"

def main(words: Sequence[str]) -> int:
    """Runs the command with its words. What is answered is the exit status."""
    if list(words) not in ([], ["--certificate"]):
        print("usage: recheck [--certificate] <FILE")
        return 2
    try:
        line, status = answer(sys.stdin.buffer.read().decode("latin-1"), len(words) == 1), 0
    except Fault as fault:
        line, status = f"error {fault}", 3
    sys.stdout.buffer.write(line.encode("latin-1") + b"\n")
    return status

if __name__ == "__main__":
    sys.exit(main(sys.argv[1:]))
