"""Games that the program plays against itself, each from a seed of its own, so that it is the same game whoever plays it."""
import random
import re
from typing import Any, Iterator, List, NamedTuple, Optional, Tuple

from vengine.answers import Found, Position
from vengine.engine import Engine
from vengine.suite import variants_file
from vengine.work import Piece

TASK = "lab.games:played"
# How many games one piece of work has.
TOGETHER = 10
# The value of a win by mate, less the moves to it; and from what on a side is ahead: a pawn, in hundredths.
MATE, AHEAD_BY = 32_000, 100
UNFINISHED = "unfinished"


class Plan(NamedTuple):
    """How games are played: in which variant of which text of variants, from which position, by which seed and depth, after how many random plies,
    to how many plies at most."""

    variant: str
    variants: Optional[str]
    start: str
    seed: int
    depth: int
    random: int
    plies: int


class Game(NamedTuple):
    """A game that was played. `end` is `won white CAUSE`, `won black CAUSE`, `drawn CAUSE` or `unfinished`. The lists have an entry for each ply: the
    value of the search before it, in hundredths of a pawn from White's side, None for a random ply; how many legal moves there were; whether the move
    took something; whether it gave check; how many men White and Black then had in hand."""

    number: int
    moves: List[str]
    end: str
    fen: str
    values: List[Optional[int]]
    legal: List[int]
    captures: List[int]
    checks: List[int]
    hands: List[int]

    @property
    def winner(self) -> Optional[str]:
        """White, black, or None."""
        return self.end.split(" ")[1] if self.end.startswith("won ") else None

    @property
    def cause(self) -> str:
        """Why it ended: a cause of the rules, or `unfinished`."""
        return self.end.split(" ")[-1]

    @property
    def leads(self) -> List[int]:
        """Who is ahead before each ply that has a value: 1 White, -1 Black, 0 neither by a pawn."""
        return [lead_of(value) for value in self.values if value is not None]


def lead_of(value: int) -> int:
    """1 where White is ahead by a pawn or more, -1 where Black is, else 0."""
    return (value >= AHEAD_BY) - (value <= -AHEAD_BY)


def pieces_of(plan: Plan, count: int, first: int = 0) -> Iterator[Piece]:
    """The work of playing so many games, numbered from the first."""
    for begin in range(first, first + count, TOGETHER):
        yield Piece(TASK, {"plan": list(plan), "numbers": list(range(begin, min(begin + TOGETHER, first + count)))})


def games_of(answers: Iterator[Any]) -> Iterator[Game]:
    """The games that came back."""
    for answer in answers:
        for fields in answer:
            yield Game(*fields)


# ---- what a worker does


def played(program: str, plan: List[Any], numbers: List[int]) -> List[List[Any]]:
    """These games of a plan."""
    whole = Plan(*plan)
    with variants_file(whole.variants) as words, Engine(program, variants=words[1] if words else None, timeout=600.0) as engine:
        return [list(played_game(engine, whole, number)) for number in numbers]


def played_game(engine: Engine, plan: Plan, number: int) -> Game:
    """One game: random plies, and then the moves of the engine, to the end by the rules or the last ply of the plan."""
    dice = random.Random(f"{plan.seed} {number}")
    game = Game(number, [], UNFINISHED, plan.start, [], [], [], [], [])
    now = engine.position(plan.variant, plan.start)
    while not now.result.is_over and now.moves and len(game.moves) < plan.plies:
        found = engine.go(plan.variant, plan.start, game.moves, depth=plan.depth) if len(game.moves) >= plan.random else None
        move = dice.choice(now.moves) if found is None or found.best is None else found.best
        game.values.append(None if found is None else value_of(found, now.fen))
        game.legal.append(len(now.moves))
        game.moves.append(move)
        before, now = now, engine.position(plan.variant, plan.start, game.moves)
        game.captures.append(int(men_of(now.fen, before.fen) < men_of(before.fen, before.fen)))
        game.checks.append(int(bool(engine.checkers(plan.variant, plan.start, game.moves))))
        game.hands.append(len(hand_of(now.fen)))
    return game._replace(end=end_of(now), fen=now.fen)


def value_of(found: Found, fen: str) -> Optional[int]:
    """The value of the deepest search, in hundredths of a pawn from White's side."""
    if not found.infos:
        return None
    last = found.infos[-1]
    value = last.points if last.mate is None else (MATE - 2 * last.mate if last.mate > 0 else -MATE - 2 * last.mate)
    return value if value is None or fen.split(" ")[1] == "w" else -value


def end_of(now: Position) -> str:
    """How a game ended."""
    result = now.result
    if not result.is_over:
        return UNFINISHED
    return f"won {result.winner} {result.cause}" if result.winner else f"drawn {result.cause}"


def board_of(fen: str) -> str:
    """The ranks of a FEN, without its hands."""
    return fen.split(" ")[0].partition("[")[0]


def hand_of(fen: str) -> str:
    """The men in both hands, where a FEN has hands."""
    hand = fen.split(" ")[0].partition("[")[2].rstrip("]")
    return "".join(letter for letter in hand if letter.isalpha())


def men_of(fen: str, mover: str) -> int:
    """How many men the side that does not move in the position `mover` has on the board of `fen`."""
    is_white = mover.split(" ")[1] == "b"
    return sum(letter.isalpha() and letter.isupper() == is_white for letter in board_of(fen))


def ranks_of(fen: str) -> List[List[str]]:
    """The squares of a FEN, rank by rank from the top: an empty text for an empty square, else the letter of the man with what stands before or after it."""
    return [squares_of(rank) for rank in board_of(fen).split("/")]


def squares_of(rank: str) -> List[str]:
    """The squares of one rank of a FEN."""
    found: List[str] = []
    for part in re.findall(r"\d+|\+?[A-Za-z]~?", rank):
        found += [""] * int(part) if part.isdigit() else [part]
    return found


def text_of_ranks(ranks: List[List[str]]) -> str:
    """The board part of a FEN with these squares."""
    return "/".join(text_of_rank(rank) for rank in ranks)


def text_of_rank(rank: List[str]) -> str:
    """One rank as a FEN writes it."""
    text, empty = "", 0
    for square in rank:
        if square and empty:
            text, empty = text + str(empty), 0
        text, empty = (text + square, 0) if square else (text, empty + 1)
    return text + (str(empty) if empty else "")


def first_side(fen: str) -> str:
    """The side that moves first: white or black."""
    return "white" if fen.split(" ")[1] == "w" else "black"


def outcome(game: Game, side: str) -> Tuple[int, int, int]:
    """Whether a side won, drew or lost: one of the three is 1. A game that is unfinished counts as drawn."""
    if game.winner is None:
        return 0, 1, 0
    return (1, 0, 0) if game.winner == side else (0, 0, 1)
