"""What the texts of moves and positions need to know of a variant: its letters, its pawn, and the texts of its castles. All comes from the
lines that `rules` prints and from the FEN that `status` prints."""
from __future__ import annotations

import re
from functools import lru_cache
from typing import Dict, FrozenSet, Mapping, NamedTuple, Optional, Tuple

FILES = "abcdefghijkl"
# The keys of pieces: docs/VARIANTS_INI.md. A custom piece has a number behind its name.
PIECE_NAMES = frozenset(
    "wazir fers alfil fersAlfil knight bishop rook queen king commoner archbishop chancellor amazon centaur silver gold dragonHorse dragon bers lance "
    "shogiPawn shogiKnight cannon horse elephant soldier knibis biskni kniroo rookni immobile pawn customPiece".split())
# Letters that other programs give to the pieces of a variant.
OTHER_LETTERS = {"xiangqi": {"H": "N", "E": "B", "M": "B", "G": "K", "S": "P"}}


class Castle(NamedTuple):
    """A castle: the letter of its right in a FEN, and how it is said."""

    right: str
    said: str


class Notation(NamedTuple):
    """The letters of a variant, in upper case, by the names of their pieces; those of pawn and king, where there are any; its castles by the text of
    the move; how many ranks it has; and the letters that other programs use."""

    pieces: Dict[str, str]
    letters: FrozenSet[str]
    pawn: Optional[str]
    king: Optional[str]
    castles: Dict[str, Castle]
    ranks: int
    others: Dict[str, str]

    def letter(self, said: str) -> str:
        """The letter that is meant, where another program may have written it."""
        return said if said in self.letters or said not in self.others else self.others[said]


def notation_of(variant: str, rules: Mapping[str, str]) -> Notation:
    """The notation of a variant whose rules are these."""
    pieces = {name: value[0].upper() for name, value in rules.items() if re.sub(r"[0-9]+$", "", name) in PIECE_NAMES}
    ranks = int(rules.get("maxRank", "8"))
    has_castles = rules.get("castling") != "false" and "king" in pieces
    return Notation(pieces, frozenset(pieces.values()), pieces.get("pawn"), pieces.get("king"), _castles(rules, ranks) if has_castles else {}, ranks,
                    OTHER_LETTERS.get(variant, {}))


def _castles(rules: Mapping[str, str], ranks: int) -> Dict[str, Castle]:
    """The castles of both sides: White's on its castling rank, Black's on the mirrored one."""
    king, short, long = (_file(rules.get(key, default)) for key, default in
                         (("castlingKingFile", "e"), ("castlingKingsideFile", "g"), ("castlingQueensideFile", "c")))
    rank = int(rules.get("castlingRank", "1"))
    found = {}
    for at, rights in ((rank, "KQ"), (ranks + 1 - rank, "kq")):
        found[f"{king}{at}{short}{at}"] = Castle(rights[0], "O-O")
        found[f"{king}{at}{long}{at}"] = Castle(rights[1], "O-O-O")
    return found


def _file(value: str) -> str:
    """A file as its letter; a file of variants may name it by a number."""
    return FILES[int(value) - 1] if value.isdigit() else value.lower()


@lru_cache(maxsize=1 << 16)
def _cells(rank: str) -> Tuple[str, ...]:
    """The squares of a rank of a FEN: a piece with its marks, or nothing."""
    cells = []
    for number, piece in re.findall(r"([0-9]+)|(\+?[A-Za-z]~?)", rank):
        cells += [""] * int(number) if number else [piece]
    return tuple(cells)


class Board:
    """A position as the FEN says it that `status` prints."""

    __slots__ = ("fen", "side", "rights", "passed", "hand", "_ranks")

    def __init__(self, fen: str) -> None:
        placement, self.side, self.rights, self.passed = fen.split(" ", 4)[:4]
        placement, _, hand = placement.partition("[")
        self.fen, self.hand, self._ranks = fen, hand.rstrip("]"), placement.split("/")

    def piece(self, square: str) -> str:
        """The piece on a square with its marks, as "N", "+p" or "q~"; nothing where there is none, or where the square is not of the board."""
        rank, file = len(self._ranks) - int(square[1:]), ord(square[0]) - 97
        if rank < 0:
            return ""
        cells = _cells(self._ranks[rank])
        return cells[file] if file < len(cells) else ""

    def letter(self, square: str) -> str:
        """The letter by which a move names the piece of a square, as "N" or "+P"."""
        return self.piece(square).rstrip("~").upper()

    def is_own(self, square: str) -> bool:
        """Whether a piece of the side to move is on a square."""
        return self._is_of(self.piece(square), self.side)

    def has(self, letter: str) -> bool:
        """Whether the side to move has a piece of this letter on the board."""
        return any(self._is_of(piece, self.side) and piece.rstrip("~").upper() == letter for rank in self._ranks for piece in _cells(rank))

    def holds(self, letter: str) -> bool:
        """Whether the side to move has a piece of this letter in its hand."""
        return (letter.upper() if self.side == "w" else letter.lower()) in self.hand

    @staticmethod
    def _is_of(piece: str, side: str) -> bool:
        return bool(piece) and piece.rstrip("~")[-1].isupper() == (side == "w")
