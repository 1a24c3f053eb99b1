"""The names and the positions that other programs write into PGN, as this program takes them: lichess, pychess, PyChess and XBoard."""
from __future__ import annotations

import re
from typing import Iterable, Optional

# Names without their blanks, hyphens and capitals.
OTHER_NAMES = {
    "standard": "chess", "normal": "chess", "fromposition": "chess", "regular": "chess", "threecheck": "3check", "3checks": "3check", "fivecheck": "5check",
    "koth": "kingofthehill", "zh": "crazyhouse", "schess": "seirawan", "seirawanchess": "seirawan", "capablancachess": "capablanca",
    "losalamoschess": "losalamos", "chinesechess": "xiangqi", "capablancahouse": "capahouse", "extinctionchess": "extinction",
}


def plain_name(name: str) -> str:
    """A name without what programs write in different ways."""
    return re.sub(r"[^a-z0-9]", "", name.lower())


def variant_named(said: str, variants: Iterable[str]) -> Optional[str]:
    """The variant, of those that are accepted, that a tag `Variant` means; None where it means none."""
    plain = plain_name(said)
    named = {plain_name(variant): variant for variant in variants}
    found = said if said in named.values() else named.get(plain)
    return found or named.get(plain_name(OTHER_NAMES.get(plain, "")))


def position_said(fen: str, ranks: int) -> str:
    """A FEN as this program reads it: of hands that stand as one rank more, and of checks given that stand at the end, as lichess writes both."""
    words = fen.split()
    if words and re.fullmatch(rf"(?:[^/\[\]]+/){{{ranks}}}[A-Za-z]*", words[0]):
        board, _, hand = words[0].rpartition("/")
        words[0] = f"{board}[{hand}]"
    given = re.fullmatch(r"\+([0-3])\+([0-3])", words[-1]) if len(words) == 7 else None
    if given:
        words = [*words[:4], f"{3 - int(given[1])}+{3 - int(given[2])}", *words[4:6]]
    return " ".join(words)
