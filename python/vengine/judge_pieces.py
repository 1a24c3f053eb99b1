"""Games to be judged as pieces of work for a cluster (docs/CLUSTER.md). A worker has the program alone, and so it asks a session."""
from __future__ import annotations

from typing import Any, List, Optional, Sequence, Union

from vengine.judge import Claims, End, FaultAt, JudgeOptions, Verdict, judge_games
from vengine.pgn import Broken, RawGame
from vengine.work import Piece

TASK = "judge_pieces:judged"
Item = Union[RawGame, Broken]


def piece_of(items: Sequence[Item], options: JudgeOptions) -> Piece:
    """The piece of work that judges these games."""
    return Piece(TASK, {"items": [_packed(item) for item in items], "variant": options.variant, "file": options.file and options.file.decode("latin-1")})


def _packed(item: Item) -> List[Any]:
    """A game as JSON can say it; a byte is a character of Latin-1."""
    return [item.number, item.byte, item.why, None] if isinstance(item, Broken) else [item.number, item.byte, None, item.data.decode("latin-1")]


def _item_of(number: int, byte: int, why: Optional[str], data: Optional[str]) -> Item:
    """The game that was packed."""
    return Broken(number, byte, why or "") if data is None else RawGame(number, byte, data.encode("latin-1"))


def judged(program: str, items: List[List[Any]], variant: str, file: Optional[str]) -> List[List[Any]]:
    """What a worker does: the fields of the verdicts on these games."""
    options = JudgeOptions(variant, None if file is None else file.encode("latin-1"), "", program)
    return [list(verdict) for verdict in judge_games([_item_of(*fields) for fields in items], options)]


def verdict_of(fields: Sequence[Any]) -> Verdict:
    """The verdict with these fields."""
    told = Verdict(*fields)
    return told._replace(fault=told.fault and FaultAt(*told.fault), end=told.end and End(*told.end), claims=Claims(*told.claims),
                         continued=told.continued and (told.continued[0], told.continued[1]))
