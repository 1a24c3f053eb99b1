#!/usr/bin/env python3
"""How many positions a second the legal moves and the result are told of: by the library, by a session, and by another program.

Usage: bench/library_speed.py LIBRARY.so [--positions N] [--variant NAME ..]     (10,000 positions in all, of chess, crazyhouse, xiangqi, capablanca and
       losalamos; VENGINE, or the program of these sources in release/out or release)

The positions are those of random games from the start, up to 100 plies long. In one run, one after the other for each variant: a game that the library holds,
in which each move is played and then the moves and the status are asked; the commands `moves` and `status` by the library, each asked with the moves that
led to the position; `position` of a session of python/vengine; and, where it can be had, pyffish, or else a session of Debian's fairy-stockfish, which is
asked for its legal moves alone, by `go perft 1`. Ends with an error where library and session say different things.
"""
import argparse
import sys
import time

from client_speed import games
from moves_agree import Other
from programs import OTHER, built
from vengine import Engine, Position, Referee, VengineError

try:
    import pyffish
except ImportError:
    pyffish = None


def seconds(ask, positions):
    """The seconds of all positions, and what was said of each."""
    begun = time.perf_counter()
    said = [ask(moves) for moves in positions]
    return time.perf_counter() - begun, said


class Holding:
    """The games as a server has them: one is held, and a position that is one move on is reached by that move."""

    def __init__(self, referee, variant):
        self._referee, self._variant, self._game = referee, variant, None

    def position(self, moves):
        if moves and self._game and self._game.moves == moves[:-1]:
            self._game.play(moves[-1])
        else:
            self.end()
            self._game = self._referee.game(self._variant, moves=moves)
        result, fen = self._game.status()
        return Position(fen, self._game.legal_moves(), result)

    def end(self):
        if self._game:
            self._game.end()


def peer_of(variant):
    """The name of the other program, and what it is asked of a position; or None."""
    if pyffish is not None:
        start = pyffish.start_fen(variant)
        return "pyffish", lambda moves: (pyffish.legal_moves(variant, start, moves), pyffish.game_result(variant, start, moves))
    if OTHER is not None:
        other = Other(variant)
        return "fairy-stockfish (moves alone)", other.moves
    return None


def main():
    parser = argparse.ArgumentParser(description=__doc__, formatter_class=argparse.RawDescriptionHelpFormatter)
    parser.add_argument("library")
    parser.add_argument("--positions", type=int, default=10_000)
    parser.add_argument("--variant", nargs="*", default=["chess", "crazyhouse", "xiangqi", "capablanca", "losalamos"])
    given = parser.parse_args()
    referee = Referee(library=given.library)
    with Engine(built()) as engine:
        for variant in given.variant:
            positions = games(engine, variant, given.positions // len(given.variant))
            holding = Holding(referee, variant)
            held, said = seconds(holding.position, positions)
            holding.end()
            commands, again = seconds(lambda moves: referee.position(variant, moves=moves), positions)
            session, by_session = seconds(lambda moves: engine.position(variant, moves=moves), positions)
            if said != by_session or again != by_session:
                sys.exit(f"library_speed: {variant}: the library and the session say different things")
            rates = {"a game that is held": held, "commands of the library": commands, "a session": session}
            peer = peer_of(variant)
            if peer is not None:
                rates[peer[0]] = seconds(peer[1], positions)[0]
            print(f"{variant}: " + ", ".join(f"{len(positions) / took:.0f} a second by {name}" for name, took in rates.items()), flush=True)


if __name__ == "__main__":
    try:
        main()
    except VengineError as error:
        sys.exit(f"library_speed: {error}")
