"""Why a move is not legal, in words. Each reason is asked of the program: whether the move is legal by the same rules without one of them, or in the
same position where the other side's pieces cannot move."""
from __future__ import annotations

import re
from typing import Callable, Dict, List, Mapping, NamedTuple, Sequence, Tuple

from vengine.answers import Result
from vengine.notation import Board, Notation
from vengine.san import Said, meant_moves, said_of

# The legal moves of a position by the rules of its variant with these keys changed; none where those rules do not have the position.
Ask = Callable[[Mapping[str, str], str], Sequence[str]]
SIDES = {"w": "White", "b": "Black"}
# Rules that forbid moves: the key, the value that allows them, and what is said of a move that only this rule forbids.
FORBIDDING = (
    ("mustCapture", "true", "false", "it takes nothing, and a piece that can be taken must be"),
    ("checking", "false", "true", "it gives check, which the variant forbids"),
    ("dropChecks", "false", "true", "it is a drop that gives check, which the variant forbids"),
    ("immobilityIllegal", "true", "false", "the piece could never move again from there"),
)


class Stand(NamedTuple):
    """How a game stands before the move: its rules and their notation, its position, result and legal moves."""

    rules: Mapping[str, str]
    notation: Notation
    board: Board
    result: Result
    legal: Sequence[str]

    @property
    def side(self) -> str:
        """The side to move."""
        return SIDES[self.board.side]

    def name(self, letter: str) -> str:
        """A piece by its name, or by its letter where it has none."""
        for name, given in self.notation.pieces.items():
            if given == letter.lstrip("+") and not name.startswith("customPiece"):
                words = re.sub(r"([A-Z])", lambda found: " " + found[1].lower(), name)
                return f"promoted {words}" if letter.startswith("+") else words
        return f"piece {letter}"


def why_not(text: str, meant: Sequence[str], stand: Stand, ask: Ask) -> str:
    """Why a text is not a legal move; `meant` are the legal moves that it may mean, if they are several."""
    if stand.result.is_over and not stand.legal:
        return f"the game is over: {stand.result.score} by {stand.result.cause}"
    if text in ("--", "Z0", "null", "@@@@"):
        return "a side has to move"
    said = said_of(text)
    if said is None:
        return "this is not the text of a move"
    if meant:
        return f"it may be {' or '.join(meant)}"
    if said.castle:
        return _why_not_castle(said, stand, ask)
    return _why_no_piece(said, stand) or _why_forbidden(said, stand, ask) or _why_not_reached(said, stand)


def _why_no_piece(said: Said, stand: Stand) -> str:
    """The reason that the pieces on the board and in the hand tell, or nothing."""
    board, letter = stand.board, stand.notation.letter(said.letter) if said.letter else stand.notation.pawn or ""
    is_square = len(said.start) > 1 and said.start[0].isalpha()
    if is_square and not board.is_own(said.start):
        return f"{said.start} has a piece of the other side" if board.piece(said.start) else f"{said.start} is empty"
    if said.letter and letter.lstrip("+") not in stand.notation.letters:
        return f"the variant has no piece with the letter {said.letter}"
    if said.is_drop:
        if not board.holds(letter):
            return f"{stand.side} has no {stand.name(letter)} in hand"
        return f"{said.target} is not empty" if board.piece(said.target) else ""
    if is_square and said.letter and board.letter(said.start) != letter:
        return f"there is no {stand.name(letter)} on {said.start}"
    if not is_square and not board.has(letter):
        return f"{stand.side} has no {stand.name(letter) if letter else 'pawn'} on the board"
    return f"{said.target} has a piece of the same side" if board.is_own(said.target) else ""


def _why_forbidden(said: Said, stand: Stand, ask: Ask) -> str:
    """The rule without which the move were legal, or nothing."""
    board, notation, without = stand.board, stand.notation, {}
    for key, forbids, allows, reason in FORBIDDING:
        if stand.rules.get(key, allows) == forbids:
            without[key] = allows
            if meant_moves(said, ask({key: allows}, board.fen), board, notation):
                return reason
    if notation.king is None:
        return ""
    fen = _without_castles(board.fen)
    any_king = _with_a_king_that_may_be_taken(stand.rules)
    if meant_moves(said, ask({**any_king, "startFen": fen}, fen), board, notation):
        return "it leaves the king attacked"
    if without and meant_moves(said, ask({**any_king, **without, "startFen": fen}, fen), board, notation):
        return "it leaves the king attacked, and another rule forbids it"
    return ""


def _why_not_reached(said: Said, stand: Stand) -> str:
    """What is left to say of a move to which no piece goes, or which says something else than such a move."""
    others = meant_moves(said._replace(suffix=""), [move.rstrip("abcdefghijklmnopqrstuvwxyz+") for move in stand.legal], stand.board, stand.notation)
    if others:
        return f"{others[0]} needs what the piece becomes" if not said.suffix else f"{said.suffix.upper()} cannot come of {others[0]}"
    if said.is_drop:
        return f"no {stand.name(stand.notation.letter(said.letter))} may be dropped on {said.target}"
    is_square = len(said.start) > 1 and said.start[0].isalpha()
    letter = stand.board.letter(said.start) if is_square else stand.notation.letter(said.letter) if said.letter else stand.notation.pawn or ""
    origin = f"the {stand.name(letter)} on {said.start} does not go" if is_square else f"no {stand.name(letter)} of {stand.side} goes"
    place = "" if is_square or not said.start else f" from {said.start}"
    return f"{origin}{place} to {said.target}"


# ---- castles


def _why_not_castle(said: Said, stand: Stand, ask: Ask) -> str:
    wing = "king's" if said.castle == "O-O" else "queen's"
    rights = {castle.right for castle in stand.notation.castles.values() if castle.said == said.castle}
    if not rights:
        return "the variant has no castles"
    if not any(right in stand.board.rights and right.isupper() == (stand.board.side == "w") for right in rights):
        return f"{stand.side} has no right to castle on the {wing} side"
    fen, keys = _with_immobile_enemies(stand.board, stand.notation)
    if meant_moves(said, ask(keys, fen), Board(fen), stand.notation):
        return "the king is attacked where it stands, where it goes or on its way"
    return "a piece is in the way of the castle"


def _with_immobile_enemies(board: Board, notation: Notation) -> Tuple[str, Dict[str, str]]:
    """The position with pieces that cannot move in the place of those of the other side, but its king; and the key that names them."""
    free = next((letter for letter in "XYZUVW" if letter not in notation.letters), "I")
    letter = notation.pieces.get("immobile", free)
    is_enemy = str.islower if board.side == "w" else str.isupper
    mark = letter.lower() if board.side == "w" else letter
    placement, *fields = board.fen.split(" ")
    pieces, bracket, hand = placement.partition("[")
    changed = re.sub(r"\+?([A-Za-z])~?", lambda found: mark if is_enemy(found[1]) and found[1].upper() != notation.king else found[0], pieces)
    rights = "".join(right for right in fields[1] if not is_enemy(right)) or "-"
    return " ".join([changed + bracket + hand, fields[0], rights, "-", *fields[3:]]), {"immobile": letter.lower()}


# ---- other rules


def _without_castles(fen: str) -> str:
    """A position without the rights to castle."""
    placement, side, rights, *fields = fen.split(" ")
    return " ".join([placement, side, re.sub("[KQkq]", "", rights) or "-", *fields])


def _with_a_king_that_may_be_taken(rules: Mapping[str, str]) -> Dict[str, str]:
    """The keys that put a piece that moves as the king, and is not one, in its place."""
    letter, _, word = rules["king"].partition(":")
    number = next(number for number in range(24, 0, -1) if f"customPiece{number}" not in rules)
    keys = {"king": "-", f"customPiece{number}": f"{letter}:{word or 'K'}", "castling": "false"}
    for side in SIDES.values():
        region = rules.get(f"mobilityRegion{side}King")
        if region is not None:
            keys[f"mobilityRegion{side}CustomPiece{number}"] = region
    return keys


def section_with(variant: str, keys: Mapping[str, str], name: str) -> bytes:
    """A section of a file of variants: a variant with some keys changed."""
    lines: List[str] = ["", f"[{name}:{variant}]", *(f"{key} = {value}" for key, value in keys.items()), ""]
    return "\n".join(lines).encode("ascii")
