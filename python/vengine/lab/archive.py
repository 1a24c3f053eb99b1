"""The games of a report as PGN, the same bytes for the same games."""
from typing import Iterator, Sequence

from vengine.engine import Engine
from vengine.games import AskedGame
from vengine.pgn import game_tags, write_game
from vengine.san import san_moves
from vengine.lab.games import UNFINISHED, Game, Plan

RESULTS = {"white": "1-0", "black": "0-1"}


def pgn_of(engine: Engine, plan: Plan, games: Sequence[Game]) -> Iterator[str]:
    """Each game as PGN, its moves in SAN."""
    number, side = int(plan.start.split(" ")[-1]), plan.start.split(" ")[1]
    start = AskedGame(engine, plan.variant, plan.start)
    for game in games:
        tags = {**game_tags(plan.variant, plan.start), "Round": str(game.number + 1), "White": "Vengine", "Black": "Vengine", "Termination": game.end}
        yield write_game(tags, san_moves(start, game.moves), (number, side), result_of(game))


def result_of(game: Game) -> str:
    """The result as PGN writes it."""
    return "*" if game.end == UNFINISHED else RESULTS.get(game.winner or "", "1/2-1/2")
