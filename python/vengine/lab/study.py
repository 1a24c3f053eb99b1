"""All that a report says of a variant: its rules, its games and its mates, as one value that JSON can say."""
import hashlib
from typing import Any, Callable, Dict, Iterator, List, NamedTuple, Optional, Sequence

from vengine.engine import Engine
from vengine.faults import VengineError
from vengine.lint import lint_of
from vengine.work import InOrder, Journal, Piece, Workers
from vengine.lab import handicap
from vengine.lab.games import Game, Plan, first_side, games_of, pieces_of
from vengine.lab.numbers import numbers_of, verdicts
from vengine.lab.piece_words import Kind, kinds_of
from vengine.lab.report import end_name

# The moves within which a mate is looked for at the start and before the end of games, and how many games are looked at for one.
WITHIN, LOOKED_AT = 3, 10
PERFT = 4
# The seconds that such a question may take.
PATIENCE = 60.0


class Study(NamedTuple):
    """What is asked: the plan of the games, their number, how many are played without a piece of each kind, and the file of variants."""

    plan: Plan
    games: int
    piece_games: int
    path: Optional[str]


class Played(NamedTuple):
    """The games: those from the start, and for each kind and side those without a piece of it, with the starts of these."""

    games: List[Game]
    without: Dict[str, Dict[str, List[Game]]]
    starts: Dict[str, List[handicap.Start]]


def total_of(study: Study, starts: Dict[str, List[handicap.Start]]) -> int:
    """How many pieces of work there are."""
    return len(list(work_of(study, starts)))


def work_of(study: Study, starts: Dict[str, List[handicap.Start]]) -> Iterator[Piece]:
    """All games as pieces of work: those from the start, and then those without a piece, kind by kind."""
    yield from pieces_of(study.plan, study.games)
    for of_kind in starts.values():
        for start in of_kind:
            yield from pieces_of(handicap.plan_without(study.plan, start), study.piece_games)


def played(study: Study, engine: Engine, workers: Workers, journal: Journal, told: Callable[[int, int], None]) -> Played:
    """Plays the games; `told` hears how many pieces of work are done, of how many."""
    starts = handicap.starts_of(engine, study.plan.variant, study.plan.start, countable(engine, study)) if study.piece_games else {}
    total = total_of(study, starts)
    games = games_of(InOrder(workers, journal).answers(work_of(study, starts), lambda count: told(count, total)))
    found = [next(games) for _ in range(study.games)]
    without = {letter: {start.side: [next(games) for _ in range(study.piece_games)] for start in of_kind} for letter, of_kind in starts.items()}
    return Played(found, without, starts)


def countable(engine: Engine, study: Study) -> List[str]:
    """The kinds of the start that are no king."""
    kings = {kind.letter for kind in kinds_of(engine.rules(study.plan.variant)) if kind.name == "king"}
    return [letter for letter in handicap.kinds_in(study.plan.start) if letter not in kings]


def report_of(study: Study, engine: Engine, found: Played) -> Dict[str, Any]:
    """Every number of the report."""
    plan = study.plan
    rules = engine.rules(plan.variant)
    numbers = numbers_of(found.games, first_side(plan.start))
    kinds = kinds_of(rules)
    return {
        "variant": plan.variant, "played": played_text(study), "seed": plan.seed, "depth": plan.depth, "random": plan.random, "plies": plan.plies,
        "rules": "".join(f"{key} = {value}\n" for key, value in rules.items()), "kinds": [kind._asdict() for kind in kinds],
        "lint": lint_of(study.path, plan.variant) if study.path else [], "start": plan.start,
        "start moves": len(engine.legal_moves(plan.variant, plan.start)), "perft": [engine.perft(plan.variant, plan.start, plies=plies, timeout=600.0) for plies in range(1, PERFT + 1)],
        "numbers": numbers, "verdicts": verdicts(numbers), **worth_report(study, engine, found, kinds),
        "forced": [forced(engine, plan, fen) for fen in both_sides(plan.start)], "shortest": shortest(found.games), "mate": mate_seen(engine, plan, found.games),
        "file": digest_of(plan.variants),
    }


def played_text(study: Study) -> str:
    """How the games were played, in words."""
    plan = study.plan
    return (f"{study.games} games at depth {plan.depth} by seed {plan.seed}: {plan.random} random plies, then the moves of the engine, to the end by the rules or {plan.plies} plies; "
            f"{study.piece_games} games for each side without a piece of each kind.")


def digest_of(variants: Optional[str]) -> Optional[str]:
    """The SHA-256 of the file of variants."""
    return None if variants is None else hashlib.sha256(variants.encode("utf-8", "surrogateescape")).hexdigest()


def worth_report(study: Study, engine: Engine, found: Played, kinds: Sequence[Kind]) -> Dict[str, Any]:
    """What pieces are worth, and the kinds of which nothing is told."""
    scores = {letter: handicap.score_without(games) for letter, games in found.without.items()}
    own = {letter: handicap.own_value(engine, study.plan.variant, study.plan.start, starts) for letter, starts in found.starts.items()}
    pawn = next((kind.letter for kind in kinds if kind.name in ("pawn", "soldier", "shogiPawn")), None)
    rows = [{**row._asdict(), "score": row.score._asdict()} for row in handicap.worths_of(scores, own, pawn)]
    return {"worth": rows, "worth left out": [letter for letter in countable(engine, study) if letter not in scores]}


def both_sides(fen: str) -> List[str]:
    """The position with either side to move, the side of the FEN first."""
    words = fen.split(" ")
    other = "b" if words[1] == "w" else "w"
    return [fen, " ".join([words[0], other, words[2], "-", *words[4:]])]


def forced(engine: Engine, plan: Plan, fen: str) -> str:
    """Whether the side to move wins by force from a position, in words."""
    side = "White" if fen.split(" ")[1] == "w" else "Black"
    try:
        found = engine.mate(plan.variant, fen, within=WITHIN, timeout=PATIENCE)
    except VengineError as error:
        return f"With {side} to move nothing is told: {error}."
    if found.answer == "mate":
        return f"With {side} to move the start is won by force: mate in {found.moves}."
    return f"With {side} to move the start has no mate within {WITHIN}." if found.answer == "none" else f"With {side} to move a mate within {WITHIN} is not settled."


def shortest(games: Sequence[Game]) -> Optional[str]:
    """The shortest game that ended by checkmate, in words."""
    mated = [game for game in games if game.cause == "checkmate"]
    if not mated:
        return None
    game = min(mated, key=lambda one: (len(one.moves), one.number))
    return f"game {game.number + 1}, {len(game.moves)} plies, {end_name(game.end)}: {' '.join(game.moves)}"


def mate_seen(engine: Engine, plan: Plan, games: Sequence[Game]) -> Optional[Dict[str, Any]]:
    """The longest of the mates that stood on the board some plies before the end of the first games that were won by checkmate, with its strategy."""
    best: Optional[Dict[str, Any]] = None
    for game in [one for one in games if one.cause == "checkmate"][:LOOKED_AT]:
        for before in (5, 3, 1):
            moves = game.moves[:len(game.moves) - before]
            if before > len(game.moves) or best is not None and best["moves"] >= (before + 1) // 2:
                break
            found = engine.mate(plan.variant, plan.start, moves, within=(before + 1) // 2, timeout=PATIENCE)
            if found.answer == "mate" and found.strategy is not None and (best is None or found.moves > best["moves"]):
                best = {"game": game.number + 1, "fen": engine.get_fen(plan.variant, plan.start, moves), "moves": found.moves, "strategy": found.strategy,
                        "checked": engine.check(found.strategy)}
                break
    return best
