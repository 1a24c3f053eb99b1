"""The numbers of a report, each by a definition that the report prints beside it (DEFINITIONS)."""
import math
import statistics
from collections import Counter
from typing import Any, Callable, Dict, List, NamedTuple, Optional, Sequence, Tuple

from vengine.lab.games import UNFINISHED, Game, lead_of, outcome

# Two-sided 95 % of the normal distribution.
Z = 1.959964
# Of a ply that fewer games than these have reached nothing is told.
LEAST_GAMES = 5

BROWNE = "C. Browne, Automatic Generation and Evaluation of Recombination Games, PhD thesis, Queensland University of Technology, 2008, chapter 4"
WILSON = "E. B. Wilson, Probable inference, the law of succession, and statistical inference, JASA 22, 1927"
DEFINITIONS = {
    "score": f"the games that the first player won and half of those that were drawn or unfinished, divided by all. The interval is Wilson's, at 95 % ({WILSON}); it is "
             "somewhat too wide where many games are drawn",
    "length": "the plies of a game; the quartiles are those of all games, unfinished ones with the plies that they have",
    "unfinished": "the share of games that did not end by the rules within the plies that are allowed (Browne: timeouts)",
    "drawn": "the share of games that the rules ended without a winner (Browne: drawishness)",
    "branching": "legal moves before each ply, the median over all moves of all games (Browne: branching factor); by ply: the median and the quartiles of the games that got so far",
    "captures": "the share of moves after which the other side has fewer men on the board",
    "checks": "the share of moves after which the king of the side to move is attacked",
    "hands": "how many men both sides together have in hand",
    "decisiveness": "of the won games in which a side was ahead by a pawn or more, by the value of the search, at half of their plies: the share that this side won "
                    "(after Browne's decisiveness; 50 % says that such a lead means nothing)",
    "lead changes": f"how often in a game the side that is ahead by a pawn or more is another one than the last that was, the mean over all games (Browne: lead change) ({BROWNE})",
    "deciding change": "of the won games: after which share of their plies the winner was behind, or not ahead, for the last time; the median (after Browne: drama, which weighs how "
                       "far behind the winner was)",
}


class Share(NamedTuple):
    """A share of so many, with its interval of 95 %. All are from 0 to 1; None where there is nothing to share."""

    value: Optional[float]
    low: Optional[float]
    high: Optional[float]
    total: int


def share_of(part: float, count: int) -> Share:
    """A share with Wilson's interval."""
    if count == 0:
        return Share(None, None, None, 0)
    p = part / count
    middle, spread = p + Z * Z / (2 * count), Z * math.sqrt(p * (1 - p) / count + Z * Z / (4 * count * count))
    whole = 1 + Z * Z / count
    return Share(p, max(0.0, (middle - spread) / whole), min(1.0, (middle + spread) / whole), count)


def score_of(games: Sequence[Game], side: str) -> Share:
    """The score of a side."""
    won, drawn = (sum(outcome(game, side)[i] for game in games) for i in (0, 1))
    return share_of(won + drawn / 2, len(games))


def quartiles(values: Sequence[float]) -> Optional[Tuple[float, float, float]]:
    """The quartiles and the median between them, None of nothing."""
    if not values:
        return None
    if len(values) == 1:
        return (float(values[0]),) * 3
    low, middle, high = statistics.quantiles(values, n=4, method="inclusive")
    return low, middle, high


def ends_of(games: Sequence[Game]) -> List[Tuple[str, int]]:
    """How many games ended in which way, the most frequent first."""
    return sorted(Counter(game.end for game in games).items(), key=lambda item: (-item[1], item[0]))


def band(games: Sequence[Game], values: Callable[[Game], Sequence[float]]) -> List[Tuple[int, float, float, float]]:
    """By ply, counted from 1, the quartiles of a value over the games that got so far, as long as these are enough."""
    found = []
    for ply in range(max((len(game.moves) for game in games), default=0)):
        here = quartiles([values(game)[ply] for game in games if len(game.moves) > ply])
        count = sum(len(game.moves) > ply for game in games)
        if here is None or count < min(LEAST_GAMES, len(games)):
            break
        found.append((ply + 1, *here))
    return found


def rates(games: Sequence[Game], values: Callable[[Game], Sequence[int]], width: int = 4) -> List[Tuple[int, float, float, float]]:
    """By ply, in windows of some plies, the share of moves of a kind and its interval: the ply in the middle, low, share, high."""
    found = []
    for begin in range(0, max((len(game.moves) for game in games), default=0), width):
        here = [one for game in games for one in values(game)[begin:begin + width]]
        if sum(len(game.moves) > begin for game in games) < min(LEAST_GAMES, len(games)):
            break
        share = share_of(sum(here), len(here))
        if share.value is not None and share.low is not None and share.high is not None:
            found.append((begin + (width + 1) // 2, share.low, share.value, share.high))
    return found


def rate(games: Sequence[Game], values: Callable[[Game], Sequence[int]]) -> Share:
    """The share of moves of a kind over all games."""
    return share_of(sum(sum(values(game)) for game in games), sum(len(game.moves) for game in games))


def lead_at_half(game: Game) -> int:
    """Who is ahead before the ply at half of the game: the last lead known until then."""
    half = len(game.moves) // 2
    known = [value for value in game.values[:half + 1] if value is not None]
    return lead_of(known[-1]) if known else 0


def decisiveness(games: Sequence[Game]) -> Share:
    """How often the side that was ahead at half of the game won."""
    led = [(lead_at_half(game), game.winner) for game in games if game.winner is not None]
    led = [(lead, winner) for lead, winner in led if lead]
    return share_of(sum((lead == 1) == (winner == "white") for lead, winner in led), len(led))


def lead_changes(game: Game) -> int:
    """How often the side that is ahead is another one than the last that was."""
    leads = [lead for lead in game.leads if lead]
    return sum(a != b for a, b in zip(leads, leads[1:]))


def deciding_change(game: Game) -> Optional[float]:
    """After which share of its plies the winner was not ahead for the last time; None where nobody won or nothing is known."""
    if game.winner is None or not game.leads:
        return None
    wanted = 1 if game.winner == "white" else -1
    last = 0
    for ply, value in enumerate(game.values, 1):
        if value is None or lead_of(value) != wanted:
            last = ply
    return last / len(game.moves)


def openings_of(games: Sequence[Game], side: str) -> List[Dict[str, Any]]:
    """The first moves by the score of the side that made them, the best first."""
    by_move: Dict[str, List[Game]] = {}
    for game in games:
        if game.moves:
            by_move.setdefault(game.moves[0], []).append(game)
    rows = [{"move": move, **score_of(of_it, side)._asdict()} for move, of_it in by_move.items()]
    return sorted(rows, key=lambda row: (-row["value"], -row["total"], row["move"]))


def mean(values: Sequence[float]) -> Optional[float]:
    """The mean, None of nothing."""
    return statistics.fmean(values) if values else None


def median(values: Sequence[float]) -> Optional[float]:
    """The median, None of nothing."""
    return statistics.median(values) if values else None


def numbers_of(games: List[Game], first: str) -> Dict[str, Any]:
    """All numbers of a report that come from its games."""
    count = len(games)
    deciding = [one for one in map(deciding_change, games) if one is not None]
    return {
        "games": count, "first": first, "score": score_of(games, first)._asdict(), "ends": ends_of(games),
        "won": sum(game.winner == first for game in games), "lost": sum(game.winner not in (None, first) for game in games),
        "drawn": share_of(sum(game.winner is None and game.end != UNFINISHED for game in games), count)._asdict(),
        "unfinished": share_of(sum(game.end == UNFINISHED for game in games), count)._asdict(),
        "lengths": [len(game.moves) for game in games], "length": quartiles([len(game.moves) for game in games]),
        "branching": median([legal for game in games for legal in game.legal]),
        "branching by ply": band(games, lambda game: game.legal), "hands by ply": band(games, lambda game: game.hands),
        "captures": rate(games, lambda game: game.captures)._asdict(),
        "captures by ply": rates(games, lambda game: game.captures), "checks by ply": rates(games, lambda game: game.checks),
        "checks": rate(games, lambda game: game.checks)._asdict(),
        "decisiveness": decisiveness(games)._asdict(), "lead changes": mean([lead_changes(game) for game in games]),
        "deciding change": median(deciding), "openings": openings_of(games, first),
    }


def verdicts(numbers: Dict[str, Any]) -> List[str]:
    """What a designer should know first, in words, each with the number that says so."""
    found = []
    score, drawn, unfinished = numbers["score"], numbers["drawn"], numbers["unfinished"]
    if score["low"] is not None and score["low"] > 0.55:
        found.append(f"Unfair: the first player scores {percent(score['value'])} (at least {percent(score['low'])}).")
    if score["high"] is not None and score["high"] < 0.45:
        found.append(f"Unfair: the first player scores {percent(score['value'])} (at most {percent(score['high'])}).")
    if drawn["low"] is not None and drawn["low"] > 0.5:
        found.append(f"Drawish: {percent(drawn['value'])} of the games are drawn (at least {percent(drawn['low'])}).")
    if unfinished["low"] is not None and unfinished["low"] > 0.2:
        found.append(f"It hardly ends: {percent(unfinished['value'])} of the games were unfinished (at least {percent(unfinished['low'])}).")
    return found or ["Nothing here says that it is unfair, drawish or endless."]


def percent(share: Optional[float]) -> str:
    """A share as percents."""
    return "-" if share is None else f"{100 * share:.1f} %"
