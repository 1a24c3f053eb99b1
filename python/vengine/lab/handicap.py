"""What pieces are worth: games in which one side starts without a piece of a kind, its score, and from it a value in pawns."""
import math
from typing import Any, Dict, List, NamedTuple, Optional, Sequence, Tuple

from vengine.engine import Engine
from vengine.faults import VengineError
from vengine.lab.games import Game, Plan, ranks_of, text_of_ranks
from vengine.lab.numbers import Z, Share, score_of, share_of

DEFINITION = ("the score of a side that starts without one piece of the kind, over games in which each side lacks it equally often, with its interval. Its weight is the logarithm of "
              "the odds against that side, and its value that weight divided by a pawn's; the interval of the value is that of a quotient by first differences. Beside it stands the "
              "engine's own value: by how much its value of the start at depth 1 falls. What the games do not tell is said in its place")


class Start(NamedTuple):
    """The start of a variant without a piece of a kind (its letter, as White's) of a side."""

    letter: str
    side: str
    fen: str


class Worth(NamedTuple):
    """What the games say of a kind: the score without it, its value in pawns with the interval, or why there is none, and the engine's own value."""

    letter: str
    score: Share
    value: Optional[float]
    low: Optional[float]
    high: Optional[float]
    own: Optional[float]
    note: str


def without(engine: Engine, variant: str, fen: str, letter: str, side: str) -> Optional[Start]:
    """The start without the first piece of the kind in the order of the FEN, or None where the side has none or the position is none of the variant.
    A right to castle that the position has no rook for is left out."""
    wanted = letter.upper() if side == "white" else letter.lower()
    ranks = ranks_of(fen)
    place = next(((rank, file) for rank, squares in enumerate(ranks) for file, square in enumerate(squares) if square == wanted), None)
    if place is None:
        return None
    ranks[place[0]][place[1]] = ""
    head, *rest = fen.split(" ")
    board = text_of_ranks(ranks) + head[len(head.partition("[")[0]):]
    castling = rest[1] if len(rest) > 1 else "-"
    for rights in sorted(rights_below(castling), key=lambda one: (-len(one), castling.find(one))):
        try:
            return Start(letter, side, engine.get_fen(variant, " ".join([board, rest[0], rights, *rest[2:]])))
        except VengineError:
            continue
    return None


def rights_below(castling: str) -> List[str]:
    """Each selection of these rights to castle, `-` for none."""
    letters = castling.replace("-", "")
    found = ["".join(letter for i, letter in enumerate(letters) if chosen >> i & 1) for chosen in range(1 << min(len(letters), 4))]
    return [one or "-" for one in found]


def starts_of(engine: Engine, variant: str, fen: str, letters: Sequence[str]) -> Dict[str, List[Start]]:
    """For each kind the starts of both sides without a piece of it. A kind that one side cannot lack is left out."""
    found = {}
    for letter in letters:
        starts = [without(engine, variant, fen, letter, side) for side in ("white", "black")]
        if all(starts):
            found[letter] = [start for start in starts if start is not None]
    return found


def plan_without(plan: Plan, start: Start) -> Plan:
    """The plan of games from this start, with a seed of its own."""
    return plan._replace(start=start.fen, seed=plan.seed + 1 + 2 * ord(start.letter.upper()) + (start.side == "black"))


def own_value(engine: Engine, variant: str, fen: str, starts: Sequence[Start]) -> Optional[float]:
    """By how many pawns the engine's value of the start falls for the side that lacks the piece, the mean of both sides."""
    falls = []
    whole = value_at(engine, variant, fen)
    for start in starts:
        lacking = value_at(engine, variant, start.fen)
        if whole is None or lacking is None:
            return None
        falls.append((whole - lacking) / 100 * (1 if start.side == "white" else -1))
    return sum(falls) / len(falls) if falls else None


def value_at(engine: Engine, variant: str, fen: str) -> Optional[int]:
    """The value at depth 1 in hundredths of a pawn, from White's side; None where it is a mate."""
    found = engine.go(variant, fen, depth=1)
    points = found.infos[-1].points if found.infos else None
    return points if points is None or fen.split(" ")[1] == "w" else -points


def score_without(games: Dict[str, List[Game]]) -> Share:
    """The score of the side that lacks the piece: `games` has for each side those in which it does."""
    scores = [score_of(of_it, side) for side, of_it in games.items() if of_it]
    count = sum(one.total for one in scores)
    if not count:
        return Share(None, None, None, 0)
    return share_of(sum((one.value or 0.0) * one.total for one in scores), count)


def weight_of(score: Share) -> Optional[Tuple[float, float]]:
    """The logarithm of the odds against a side with this score, and its variance; None where it always lost or always won, or never played."""
    if score.value is None or not 0 < score.value < 1:
        return None
    return math.log((1 - score.value) / score.value), 1 / (score.total * score.value * (1 - score.value))


def worths_of(scores: Dict[str, Share], own: Dict[str, Optional[float]], pawn: Optional[str]) -> List[Worth]:
    """The kinds by their values. `pawn` is the letter of the kind that counts as one."""
    unit = weight_of(scores[pawn]) if pawn in scores else None
    told = unit is not None and unit[0] - Z * math.sqrt(unit[1]) > 0
    rows = [worth_of(letter, scores[letter], own.get(letter), unit if told else None, letter == pawn, pawn is not None and pawn in scores) for letter in scores]
    return sorted(rows, key=lambda row: (-(row.value or 0.0), row.score.value or 0.0, row.letter))


def worth_of(letter: str, score: Share, own: Optional[float], unit: Optional[Tuple[float, float]], is_pawn: bool, has_pawn: bool) -> Worth:
    """What the games say of one kind, measured by the weight of a pawn."""
    weight = weight_of(score)
    if weight is None:
        return Worth(letter, score, None, None, None, own, "no game played" if not score.total else "the side without it never won or drew" if not score.value
                     else "the side without it always won")
    if unit is None:
        return Worth(letter, score, None, None, None, own, "these games do not tell a pawn from nothing" if has_pawn else "there is no pawn to measure by")
    if is_pawn:
        return Worth(letter, score, 1.0, 1.0, 1.0, own, "the unit")
    value = weight[0] / unit[0]
    spread = Z * math.sqrt(weight[1] / unit[0] ** 2 + unit[1] * weight[0] ** 2 / unit[0] ** 4)
    return Worth(letter, score, value, value - spread, value + spread, own, "")


def kinds_in(fen: str) -> List[str]:
    """The letters of the kinds on the board, in the order of the FEN, as White's."""
    found: Dict[str, Any] = {}
    for squares in ranks_of(fen):
        for square in squares:
            if square:
                found.setdefault(square.upper(), None)
    return list(found)
