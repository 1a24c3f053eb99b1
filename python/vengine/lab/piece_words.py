"""The kinds of a variant, each with its letter and its Betza word, from what `rules` says of it."""
from typing import Dict, List, NamedTuple, Optional

# The words of the pieces that have a name (docs/VARIANTS_INI.md). A pawn has none.
WORDS = {
    "wazir": "W", "fers": "F", "alfil": "A", "fersAlfil": "FA", "knight": "N", "bishop": "B", "rook": "R", "queen": "Q", "king": "K", "commoner": "K",
    "archbishop": "BN", "chancellor": "RN", "amazon": "QN", "centaur": "KN", "silver": "FfW", "gold": "WfF", "dragonHorse": "BW", "dragon": "RF", "bers": "RF",
    "lance": "fR", "shogiPawn": "fW", "shogiKnight": "ffN", "cannon": "mRcpR", "horse": "nN", "elephant": "nA", "soldier": "fsW", "knibis": "mNcB",
    "biskni": "mBcN", "kniroo": "mNcR", "rookni": "mRcN",
}


class Kind(NamedTuple):
    """A kind of piece: its name in the file, its letter as White's, and its word, None for a pawn and for what does not move."""

    name: str
    letter: str
    word: Optional[str]


def kinds_of(rules: Dict[str, str]) -> List[Kind]:
    """The kinds of a variant, by the keys of `rules` that name pieces."""
    found = []
    for key, value in rules.items():
        letter, _, word = value.partition(":")
        if len(letter) != 1 or not letter.isalpha():
            continue
        if key.startswith("customPiece"):
            found.append(Kind(key, letter.upper(), word))
        elif key in WORDS or key in ("pawn", "immobile"):
            found.append(Kind(key, letter.upper(), word or WORDS.get(key)))
    return sorted(found, key=lambda kind: kind.letter)
