"""The pieces of a variant, by the keys of its rules."""
from __future__ import annotations

import re
from typing import Dict, Mapping

# The keys that give a piece its letter (docs/VARIANTS_INI.md).
NAMES = frozenset(
    "wazir fers alfil fersAlfil knight bishop rook queen king commoner archbishop chancellor amazon centaur silver gold dragonHorse dragon bers lance "
    "shogiPawn shogiKnight cannon horse elephant soldier knibis biskni kniroo rookni immobile pawn".split())
OWN_PIECE = re.compile(r"customPiece([1-9]|1\d|2[0-4])")


def is_piece(key: str) -> bool:
    """Whether a key gives a piece its letter."""
    return key in NAMES or OWN_PIECE.fullmatch(key) is not None


def letter_of(value: str) -> str:
    """The letter, in lower case, that the value of such a key gives; "" where it removes the piece."""
    return value[:1].lower().strip("-")


def pieces_of(rules: Mapping[str, str]) -> Dict[str, str]:
    """The key of each letter that is a piece's."""
    return {letter_of(value): key for key, value in rules.items() if is_piece(key) and letter_of(value)}
