"""SAN: moves as people write them. All comes from the legal moves, the FEN and the checkers that the program tells; nothing of chess is worked
out here.

A game is what `vengine.games.Game` says: a held game of the library, or one that is asked of a session. Writing is exact, reading is lenient.
"""
from __future__ import annotations

import re
from functools import lru_cache
from typing import Iterable, List, NamedTuple, Optional, Sequence, Tuple

from vengine.faults import BadInput, VengineError
from vengine.games import Game
from vengine.notation import Board, Notation, notation_of

SQUARE = r"[a-l](?:10|[1-9])"
# A move of the program: start, target, and what the piece becomes or what comes in at its gate.
MOVE_PARTS = re.compile(rf"({SQUARE})({SQUARE})([a-z+]?)")
SAID = re.compile(rf"""
    (?:(?P<castle>[O0o](?:-?[O0o]){{1,2}})(?:/?(?P<gate>[A-Z])(?P<at>{SQUARE})?)?
     | (?P<dropped>[A-Za-z]?)[@*](?P<square>{SQUARE})
     | (?P<piece>\+?[A-Z])?(?P<file>[a-l])?(?P<rank>10|[1-9])?(?P<takes>[x:])?-?(?P<target>{SQUARE})(?P<suffix>=\+|[=/]?\(?[A-Za-z]\)?)?)
    (?P<marks>(?:\+|\#)*)(?:e\.?p\.?)?(?P<notes>[!?]*)""", re.X)


class BadMove(VengineError):
    """The text is not that of one legal move. `meant` are the legal moves that it may mean: none, or several."""

    def __init__(self, text: str, meant: Sequence[str] = ()) -> None:
        super().__init__(f"{text!r} may be {' or '.join(meant)}" if meant else f"{text!r} is not a legal move")
        self.text, self.meant = text, list(meant)


class Said(NamedTuple):
    """What a text says of a move. `letter` is that of the piece, in upper case, "" being the pawn; `start` and `target` are squares, of which the
    start may be a file, a rank or nothing; `suffix` a letter or "+"; `castle` "O-O", "O-O-O" or nothing, with `start` the square of the gate."""

    letter: str
    start: str
    target: str
    suffix: str
    castle: str
    is_drop: bool


def said_of(text: str) -> Optional[Said]:
    """What a text says of a move, or None where it has not the form of one."""
    found = SAID.fullmatch(text)
    if found is None:
        return None
    if found["castle"]:
        castle = "O-O" if len(re.sub("-", "", found["castle"])) == 2 else "O-O-O"
        return Said("", found["at"] or "", "", (found["gate"] or "").lower(), castle, False)
    if found["square"]:
        return Said(found["dropped"].upper() or "P", "", found["square"], "", "", True)
    suffix = re.sub(r"[=/()]", "", found["suffix"] or "").lower()
    return Said(found["piece"] or "", (found["file"] or "") + (found["rank"] or ""), found["target"], suffix, "", False)


# ---- moves of the program


def castle_of(move: str, board: Board, notation: Notation) -> str:
    """How a castle is said, with what comes in at a gate; nothing where the move is none."""
    parts = MOVE_PARTS.fullmatch(move)
    if parts is None or not notation.castles:
        return ""
    start, target, suffix = parts.groups()
    gate = f"/{suffix.upper()}{start}" if suffix else ""
    if board.is_own(target):
        # The text is from the rook to the king, since something comes in on the rook's square.
        is_short = start[0] > target[0]
        return ("O-O" if is_short else "O-O-O") + gate
    castle = notation.castles.get(start + target)
    is_castle = castle is not None and castle.right in board.rights and board.letter(start) == notation.king
    return castle.said + gate if castle is not None and is_castle else ""


def takes(move: str, board: Board, notation: Notation) -> bool:
    """Whether a legal move takes a piece: there is one of the other side on its target, or a pawn goes aside to the empty square that was passed."""
    parts = MOVE_PARTS.fullmatch(move)
    if parts is None:
        return False
    start, target, _ = parts.groups()
    if board.piece(target):
        return not board.is_own(target)
    return target == board.passed and board.letter(start) == notation.pawn and start[0] != target[0]


def unmarked_text(move: str, legal: Iterable[str], board: Board, notation: Notation) -> str:
    """The SAN of a legal move, without the mark of a check."""
    parts = MOVE_PARTS.fullmatch(move)
    if parts is None:
        return move
    castle = castle_of(move, board, notation)
    if castle:
        return castle
    start, target, suffix = parts.groups()
    letter, is_taking = board.letter(start), takes(move, board, notation)
    is_pawn = letter == notation.pawn
    rivals = _rivals(start, target, letter, legal, board, notation)
    origin = start[0] if is_pawn and is_taking else ""
    if is_pawn:
        rivals = [rival for rival in rivals if not is_taking or rival[0] == start[0]]
        if is_taking and rivals:
            origin = start
    elif rivals:
        origin = _told_apart(start, rivals)
    becomes = "" if not suffix else f"={suffix.upper()}" if is_pawn or suffix == "+" else f"/{suffix.upper()}"
    return ("" if is_pawn else letter) + origin + ("x" if is_taking else "") + target + becomes


def _rivals(start: str, target: str, letter: str, legal: Iterable[str], board: Board, notation: Notation) -> List[str]:
    """The starts of the other legal moves to this square by a piece of this letter."""
    found = []
    for other in legal:
        parts = MOVE_PARTS.fullmatch(other) if target in other else None
        if parts and parts[1] != start and parts[2] == target and board.letter(parts[1]) == letter and not castle_of(other, board, notation):
            found.append(parts[1])
    return found


def _told_apart(start: str, rivals: Sequence[str]) -> str:
    """The file of a start, its rank or both: the first that no rival has."""
    if all(rival[0] != start[0] for rival in rivals):
        return start[0]
    return start[1:] if all(rival[1:] != start[1:] for rival in rivals) else start


# ---- reading


def find_move(text: str, legal: Sequence[str], board: Board, notation: Notation) -> str:
    """The legal move that a text means, in SAN or as squares. BadMove where it means none or several."""
    if text[1:2].isdigit():
        for move in (text, text.rstrip("!?"), text.rstrip("!?+#").replace("-", "")):
            if move in legal:
                return move
    said = said_of(text)
    if said is None:
        raise BadMove(text)
    meant = meant_moves(said, legal, board, notation)
    if len(meant) == 1:
        return meant[0]
    raise BadMove(text, meant)


def meant_moves(said: Said, legal: Iterable[str], board: Board, notation: Notation) -> List[str]:
    """The moves of a list that a text may mean."""
    if said.castle:
        return _meant_castles(said, legal, board, notation)
    letter = notation.letter(said.letter) if said.letter else notation.pawn
    if said.is_drop:
        return [move for move in (f"{letter}@{said.target}",) if move in legal]
    end, start, found = said.target + said.suffix, said.start, []
    for move in legal:
        if move.endswith(end) and move[1] != "@":
            origin = move[:len(move) - len(end)]
            if _is_origin(start, origin) and (board.letter(origin) == letter or len(start) > 1 and not said.letter) and not castle_of(move, board, notation):
                found.append(move)
    if len(found) > 1 and not said.letter and not start:
        # A pawn that takes is said with its file, so that without one it goes along its own.
        return [move for move in found if move[0] == said.target[0]] or found
    return found


def _is_origin(said: str, origin: str) -> bool:
    """Whether a square is the one that a text says: a square, a file, a rank, or nothing."""
    return said in ("", origin, origin[0], origin[1:])


def _meant_castles(said: Said, legal: Iterable[str], board: Board, notation: Notation) -> List[str]:
    """The castles of a list that a text may mean. A piece that comes in stands on the king's square where the text has no square for it."""
    found = []
    for move in legal:
        castle = castle_of(move, board, notation)
        wing, _, gate = castle.partition("/")
        is_on_kings_square = not gate or board.letter(gate[1:]) == notation.king
        if wing == said.castle and gate[:1].lower() == said.suffix and (gate[1:] == said.start if said.start else is_on_kings_square):
            found.append(move)
    return found


# ---- games


@lru_cache(maxsize=64)
def _notation(variant: str, rules: Tuple[Tuple[str, str], ...]) -> Notation:
    return notation_of(variant, dict(rules))


def notation_in(game: Game) -> Notation:
    """The notation of the variant of a game."""
    return _notation(game.variant, tuple(game.rules().items()))


def san(game: Game, move: str) -> str:
    """The SAN of a legal move of a game, as "Nbd7", "exd6", "O-O", "e8=Q+", "N@f3#" or "Nf3/H". The game is left as it is."""
    return unmarked_san(game, move) + _mark(game, move)


def unmarked_san(game: Game, move: str) -> str:
    """The SAN of a legal move without `+` or `#`."""
    legal = game.legal_moves()
    if move not in legal:
        raise BadMove(move)
    return unmarked_text(move, legal, Board(game.status()[1]), notation_in(game))


def san_moves(game: Game, moves: Iterable[str]) -> List[str]:
    """The SAN of moves that are played one after the other from a game. The game is left as it is."""
    found: List[str] = []
    try:
        for move in moves:
            found.append(san(game, move))
            game.play(move)
    finally:
        for _ in found:
            game.undo()
    return found


def move_of(game: Game, text: str) -> str:
    """The legal move that a text means: SAN, with `0-0`, without `x`, as `e8Q`, with annotations; or squares, as "e2e4" or "e2-e4"."""
    if not isinstance(text, str):
        raise BadInput(f"a move has to be a str, not {type(text).__name__}")
    return find_move(text, game.legal_moves(), Board(game.status()[1]), notation_in(game))


def gives_check(game: Game, move: str) -> bool:
    """Whether the other side is in check after a legal move. The game is left as it is."""
    game.play(move)
    try:
        return bool(game.checkers())
    finally:
        game.undo()


def is_capture(game: Game, move: str) -> bool:
    """Whether a legal move takes a piece."""
    if move not in game.legal_moves():
        raise BadMove(move)
    return takes(move, Board(game.status()[1]), notation_in(game))


def _mark(game: Game, move: str) -> str:
    """`#` where the game is over by checkmate after a move, `+` where the other side is in check, else nothing."""
    game.play(move)
    try:
        if game.status()[0].cause == "checkmate":
            return "#"
        return "+" if game.checkers() else ""
    finally:
        game.undo()
