"""Games that are held: moves are played and taken back, and each question is asked of the game as it stands.

A `Game` is a `HeldGame` of the library, or an `AskedGame`, which asks a session or a referee anew for each position.
"""
from __future__ import annotations

from typing import Dict, Iterable, List, Optional, Protocol, Sequence, Tuple

from vengine.answers import Position, Result
from vengine.faults import BadInput
from vengine.texts import moves_of


class Game(Protocol):
    """A game as it stands after its moves."""

    moves: List[str]

    @property
    def variant(self) -> str:
        """The name of its variant."""

    def rules(self) -> Dict[str, str]:
        """The rules of its variant, as `rules` prints them."""

    def legal_moves(self) -> List[str]:
        """The texts of the legal moves, in their order."""

    def status(self) -> Tuple[Result, str]:
        """How the game stands, and its position."""

    def checkers(self) -> List[str]:
        """The squares of the pieces that attack the king of the side to move."""

    def play(self, move: str) -> None:
        """Plays a legal move; a `Fault` where it is none."""

    def undo(self) -> None:
        """Takes the last move back."""


class Asker(Protocol):
    """Who tells of whole games: an `Engine` or a `Referee`."""

    def position(self, variant: str, fen: str = "startpos", moves: Sequence[str] = ()) -> Position:
        """The position after the moves, its legal moves, and how the game stands."""

    def checkers(self, variant: str, fen: str = "startpos", moves: Sequence[str] = ()) -> List[str]:
        """The squares of the pieces that attack the king of the side to move."""

    def rules(self, variant: str) -> Dict[str, str]:
        """The rules of a variant."""


class AskedGame:
    """A game that asks a session or a referee. A position that was asked for is not asked for again."""

    def __init__(self, asker: Asker, variant: str, fen: str = "startpos", moves: Iterable[str] = ()) -> None:
        self.variant, self.moves = variant, list(moves_of(moves))
        self._asker, self._fen = asker, fen
        self._rules: Optional[Dict[str, str]] = None
        # The positions after the first moves, as far as they are known: one more than there are moves.
        self._positions: List[Optional[Position]] = [None] * len(self.moves) + [asker.position(variant, fen, self.moves)]

    def rules(self) -> Dict[str, str]:
        if self._rules is None:
            self._rules = self._asker.rules(self.variant)
        return self._rules

    def legal_moves(self) -> List[str]:
        return list(self._position().moves)

    def status(self) -> Tuple[Result, str]:
        at = self._position()
        return at.result, at.fen

    def checkers(self) -> List[str]:
        return self._asker.checkers(self.variant, self._fen, self.moves)

    def play(self, move: str) -> None:
        (move,) = moves_of([move])
        self._positions.append(self._asker.position(self.variant, self._fen, [*self.moves, move]))
        self.moves.append(move)

    def undo(self) -> None:
        if not self.moves:
            raise BadInput("there is no move to take back")
        self.moves.pop()
        self._positions.pop()

    def _position(self) -> Position:
        at = self._positions[-1]
        if at is None:
            at = self._positions[-1] = self._asker.position(self.variant, self._fen, self.moves)
        return at
