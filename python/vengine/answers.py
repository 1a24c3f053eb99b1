"""What the program answers, as values with names."""
from __future__ import annotations

from typing import Dict, List, NamedTuple, Optional, Tuple

from vengine.faults import Fault

# The values of pyffish: of a game that the side to move has won, of a draw, and of a FEN that is one.
VALUE_MATE, VALUE_DRAW, FEN_OK = 32000, 0, 1


class Result(NamedTuple):
    """How a game stands: `winner` is "white", "black" or None; `cause` is why it is over, or None where it goes on."""

    winner: Optional[str]
    cause: Optional[str]

    @property
    def is_over(self) -> bool:
        return self.cause is not None

    @property
    def score(self) -> str:
        """As it is written in PGN: "1-0", "0-1", "1/2-1/2", or "*" where the game goes on."""
        return {"white": "1-0", "black": "0-1", None: "1/2-1/2" if self.is_over else "*"}[self.winner]


class Position(NamedTuple):
    """A game after its moves: the position as FEN, the texts of the legal moves in their order, and how the game stands."""

    fen: str
    moves: List[str]
    result: Result


class Section(NamedTuple):
    """A section of the built-in variants or of a file, and why it is refused, or None."""

    name: str
    fault: Optional[Fault]


class Info(NamedTuple):
    """What a search said of a depth: the value for the side to move in hundredths of a pawn, or within how many moves it mates
    (negative where it is mated); and a move that attains it."""

    depth: int
    points: Optional[int]
    mate: Optional[int]
    move: str


class Found(NamedTuple):
    """The answer to a `go`: the best move, None where there is none; a line for each depth; other lines; whether it was stopped."""

    best: Optional[str]
    infos: List[Info]
    notes: List[str]
    is_stopped: bool


class Mate(NamedTuple):
    """The answer to `mate`. `answer` is "mate", with the least number of moves, the first of them and a strategy, which `check` accepts;
    "none", which is proved of the number that was asked; "unsettled", with `note`, near the limit of the move count; "over", where there
    is no legal move; or "stopped"."""

    answer: str
    moves: Optional[int] = None
    first: Optional[str] = None
    strategy: Optional[str] = None
    note: str = ""


class Key(NamedTuple):
    """A first move that wins by force, and the least number of moves within which it does, itself among them."""

    move: str
    moves: int


class Node(NamedTuple):
    """A node of a strategy: the most moves that the attacker still makes, the position, and a node for each move that is looked at."""

    rank: int
    fen: str
    edges: Dict[str, int]


def nodes_of(strategy: str) -> List[Node]:
    """The nodes of the text of a strategy, node 0 first. It is taken to be one that `check` accepts."""
    nodes: List[Node] = []
    for line in strategy.splitlines():
        words = line.split(" ")
        if words[0] == "node":
            nodes.append(Node(int(words[2]), " ".join(words[3:]), {}))
        elif words[0] == "edge":
            nodes[-1].edges[words[1]] = int(words[2])
    return nodes


def mate_of(found: Found) -> Mate:
    """What a `go mate` found, without its strategy."""
    for begins, answer in (("no mate in ", "none"), ("mate unsettled ", "unsettled"), ("stopped", "stopped")):
        for note in found.notes:
            if note.startswith(begins):
                return Mate(answer, note=note)
    if found.best is None:
        return Mate("over")
    return Mate("mate", found.infos[-1].mate, found.infos[-1].move)


def names_of(said: List[str]) -> List[str]:
    """The variants of the answer to `uci`."""
    line = next(line for line in said if line.startswith("option name UCI_Variant "))
    return line.split(" var ")[1:]


def result_of(line: str) -> Result:
    """How a game stands, from the first line of `status`."""
    words = line.split(" ")
    if words[0] == "ongoing":
        return Result(None, None)
    return Result(words[1], words[2]) if words[0] == "won" else Result(None, words[1])


def sections_of(said: str) -> List[Section]:
    """The sections that `variants` lists."""
    rows = (line.partition(" ") for line in said.splitlines())
    return [Section(name, None if told == "ok" else Fault(told)) for name, _, told in rows]


def rules_of(said: str) -> Dict[str, str]:
    """The keys and the values that `rules` prints."""
    pairs = (line.split(" = ", 1) for line in said.splitlines())
    return {key: value for key, value in pairs}


def squares_of(said: str) -> List[str]:
    """The squares of a list that a word begins, as "checkers e4 h4"; a dash is none."""
    return [word for word in said.split()[1:] if word != "-"]


def version_of(said: str) -> Tuple[int, ...]:
    """The numbers of a version, as "1.0.0", after what comes before it in a line."""
    return tuple(map(int, said.split()[-1].split(".")))


def pieces_of(fen: str, side: str) -> int:
    """How many pieces a side, "w" or "b", has on the board of a position."""
    placement = fen.split(" ")[0].split("[")[0]
    return sum(letter.isupper() if side == "w" else letter.islower() for letter in placement)


def takes_piece(before: str, after: str) -> bool:
    """Whether the move that leads from one position to another takes a piece of the other side."""
    other = "b" if before.split(" ")[1] == "w" else "w"
    return pieces_of(after, other) < pieces_of(before, other)


def value_for(result: Result, fen: str) -> int:
    """The value of a result for the side to move of a position."""
    if result.winner is None:
        return VALUE_DRAW
    return VALUE_MATE if result.winner[0] == fen.split(" ")[1] else -VALUE_MATE
