"""Judges games of PGN by the rules: the first move that is not legal and why, how the game ends, whether its stated result agrees, and which draws
could be claimed.
`judge_games` judges games that were read; the command is in `vengine.judge_command`. docs/ARBITERS.md says what each field means.
"""
from __future__ import annotations

import contextlib
import re
import tempfile
from collections import OrderedDict
from functools import lru_cache
from typing import Any, Callable, Dict, Iterable, List, Mapping, NamedTuple, Optional, Sequence, Tuple, Union

from vengine.answers import Result
from vengine.engine import Engine
from vengine.faults import BadInput, Fault
from vengine.games import AskedGame, Game
from vengine.judge_why import Stand, section_with, why_not
from vengine.notation import Board, Notation
from vengine.pgn import Broken, Move, PgnGame, RawGame, read_game
from vengine.referee import Referee
from vengine.san import BadMove, find_move, notation_in
from vengine.shared_library import found_library
from vengine.variant_names import position_said, variant_named

# How many games from other positions than the start of a variant are held for the next games.
HELD = 16
RELAXED = "vengine-without-a-rule"


class JudgeOptions(NamedTuple):
    """How games are judged: the variant of a game that names none; the bytes of a file of variants; the library, "" being none and None the one that
    is found; and the program, for where there is no library."""

    variant: str = "chess"
    file: Optional[bytes] = None
    library: Optional[str] = None
    program: Optional[str] = None


class FaultAt(NamedTuple):
    """What is wrong with a game: the ply, counted from 1, 0 being the start; the move as the text has it, or None; why; the place in the file."""

    ply: int
    move: Optional[str]
    why: str
    byte: int


class End(NamedTuple):
    """The end of a game by the rules, at its last ply."""

    ply: int
    result: str


class Claims(NamedTuple):
    """The plies at which a position first stood three and five times, and at which fifty and seventy-five moves of each side were made without a
    capture or a move that begins the count anew; None where that never was."""

    threefold: Optional[int] = None
    fivefold: Optional[int] = None
    fifty: Optional[int] = None
    seventyfive: Optional[int] = None


class Verdict(NamedTuple):
    """What is found of a game. `agrees` is None where the rules do not say, and `remark` why then. `continued` is the ply and the cause where the game
    was over by the variant's rules first and went on."""

    game: int
    variant: Optional[str]
    plies: int
    fault: Optional[FaultAt]
    end: Optional[End] = None
    cause: Optional[str] = None
    stated: Optional[str] = None
    agrees: Optional[bool] = None
    claims: Claims = Claims()
    remark: Optional[str] = None
    continued: Optional[Tuple[int, str]] = None

    @property
    def is_faulty(self) -> bool:
        """Whether something is wrong with the game: a move, its text, or its result."""
        return self.fault is not None or self.agrees is False

    def as_json(self) -> Dict[str, Any]:
        """The verdict as an object of JSON."""
        fields = self._asdict()
        for name in ("fault", "end", "claims"):
            fields[name] = fields[name] and fields[name]._asdict()
        fields["continued"] = self.continued and {"ply": self.continued[0], "cause": self.continued[1]}
        return fields


# ---- playing a game


class Run:
    """A game that is played move by move: what was noted on the way."""

    def __init__(self) -> None:
        self.plies = 0
        self.fault: Optional[FaultAt] = None
        self.result = Result(None, None)
        self.over: Optional[Tuple[int, str]] = None
        self._stood: Dict[str, int] = {}
        self._claims: Dict[str, int] = {}

    def note(self, result: Result, fen: str) -> None:
        """Notes the position that stands now."""
        self.result = result
        if result.cause and self.over is None:
            self.over = self.plies, result.cause
        # A position without its two counts is what a repetition compares.
        position, count, _ = fen.rsplit(" ", 2)
        times = self._stood[position] = self._stood.get(position, 0) + 1
        if times in (3, 5):
            self._claims.setdefault("threefold" if times == 3 else "fivefold", self.plies)
        if count in ("100", "150") or int(count) > 100:
            for name, least in (("fifty", 100), ("seventyfive", 150)):
                if int(count) >= least:
                    self._claims.setdefault(name, self.plies)

    @property
    def claims(self) -> Claims:
        """The claims that could have been made."""
        return Claims(**self._claims)


class Arbiter:
    """Judges games, one after the other, by games that it holds."""

    def __init__(self, options: JudgeOptions) -> None:
        self._options = options
        self._paths = contextlib.ExitStack()
        path = self._path_of(options.file)
        self._library = found_library() if options.library is None else options.library
        self._referee = Referee(library=self._library, program=options.program, variants=path)
        self._engine = None if self._library else Engine(options.program, variants=path)
        self._variants = [line.split(" ")[0] for line in self._referee.command("variants").splitlines() if line.endswith(" ok")]
        self._starts: Dict[str, Game] = {}
        self._others: "OrderedDict[Tuple[str, str], Game]" = OrderedDict()

    def judge(self, item: Union[RawGame, Broken]) -> Verdict:
        """The verdict on a game."""
        if isinstance(item, Broken):
            return Verdict(item.number, None, 0, FaultAt(0, None, item.why, item.byte))
        game = read_game(item)
        said = game.tags.get("Variant", self._options.variant)
        variant = variant_named(said, self._variants)
        if variant is None:
            return Verdict(game.number, said, 0, FaultAt(0, None, f"there is no variant {said!r}", game.byte), stated=stated_in(game))
        fen = game.tags.get("FEN")
        try:
            held = self._game(variant, fen)
        except (Fault, BadInput) as refused:
            why = f"the FEN is not a position of the variant: {refused}"
            return Verdict(game.number, variant, 0, FaultAt(0, None, why, game.byte), stated=stated_in(game))
        return verdict_on(game, variant, self._run(held, game))

    def _game(self, variant: str, fen: Optional[str]) -> Game:
        """A held game of a variant, at its start or at a position."""
        if variant not in self._starts:
            self._starts[variant] = self._begun(variant, "startpos")
        start = self._starts[variant]
        if fen is None:
            return start
        key = variant, fen
        if key not in self._others:
            self._others[key] = self._begun(variant, position_said(fen, notation_in(start).ranks))
            if len(self._others) > HELD:
                self._others.popitem(last=False)
        self._others.move_to_end(key)
        return self._others[key]

    def _begun(self, variant: str, start: str) -> Game:
        if self._engine is not None:
            return AskedGame(self._engine, variant, start)
        return self._referee.game(variant, start)

    def _run(self, held: Game, game: PgnGame) -> Run:
        """The run of a game. XBoard counts ten ranks from 0: where no rank tells, the moves are taken so if the game has no fault then."""
        notation = notation_in(held)
        text = " ".join(move.text for move in game.moves) if notation.ranks == 10 else ""
        if re.search(r"[a-l]0", text):
            return self._played(held, notation, game.moves, _ranks_from_1)
        run = self._played(held, notation, game.moves)
        if run.fault and text and not re.search(r"[a-l]10", text):
            other = self._played(held, notation, game.moves, _ranks_from_1)
            return run if other.fault else other
        return run

    def _played(self, held: Game, notation: Notation, moves: Sequence[Move], plain: Optional[Callable[[str], str]] = None) -> Run:
        """Plays moves up to the first that is not legal, and takes them back. `plain` makes the text of each what it is here."""
        run = Run()
        result, fen = held.status()
        run.note(result, fen)
        try:
            for move in moves:
                legal, board = held.legal_moves(), Board(fen)
                try:
                    held.play(find_move(plain(move.text) if plain else move.text, legal, board, notation))
                except (BadMove, Fault) as bad:
                    stand = Stand(held.rules(), notation, board, result, legal)
                    run.fault = FaultAt(run.plies + 1, move.text, self._why(bad, held.variant, stand, plain is not None), move.byte)
                    break
                run.plies += 1
                result, fen = held.status()
                run.note(result, fen)
        finally:
            for _ in range(run.plies):
                held.undo()
        return run

    def _why(self, bad: Union[BadMove, Fault], variant: str, stand: Stand, is_counted_from_0: bool) -> str:
        """Why a move was not played."""
        if isinstance(bad, Fault):
            return "a game has at most 8,192 plies" if bad.variant == "TooManyMoves" else str(bad)
        why = why_not(bad.text.rstrip("!?"), bad.meant, stand, lambda keys, fen: self._asked(variant, keys, fen))
        return f"{why} (ranks are counted from 1)" if is_counted_from_0 else why

    def _asked(self, variant: str, keys: Mapping[str, str], fen: str) -> Sequence[str]:
        """The legal moves of a position by the rules of a variant with some keys changed; none where the program refuses them."""
        file = (self._options.file or b"") + section_with(variant, keys, RELAXED)
        paths = contextlib.ExitStack()
        try:
            return Referee(library=self._library, program=self._options.program, variants=written(file, paths)).legal_moves(RELAXED, fen)
        except Fault:
            return []
        finally:
            paths.close()

    def _path_of(self, file: Optional[bytes]) -> Optional[str]:
        """The path of a file with these bytes, which goes with this process."""
        return None if file is None else written(file, self._paths)


def written(file: bytes, paths: contextlib.ExitStack) -> str:
    """The path of a file with these bytes, until the stack is closed."""
    kept = paths.enter_context(tempfile.NamedTemporaryFile(suffix=".ini"))
    kept.write(file)
    kept.flush()
    return kept.name


def _ranks_from_1(text: str) -> str:
    """The text of a move whose ranks are counted from 0."""
    return re.sub(r"(?<![0-9])[0-9](?![0-9])", lambda found: str(int(found[0]) + 1), text)


# ---- verdicts


def stated_in(game: PgnGame) -> Optional[str]:
    """The result that a text states, at its end or else in its tag."""
    return game.result or game.tags.get("Result")


def verdict_on(game: PgnGame, variant: str, run: Run) -> Verdict:
    """The verdict on a game that was played."""
    fault, stated = run.fault, stated_in(game)
    if fault is None and game.broken:
        fault = FaultAt(run.plies + 1, None, game.broken[1], game.broken[0])
    if fault:
        return Verdict(game.number, variant, run.plies, fault, stated=stated, claims=run.claims)
    end = End(run.plies, run.result.score) if run.result.is_over else None
    agrees, remark = agreement(stated, game.tags.get("Result"), run.result)
    continued = run.over if run.over and run.over[0] < run.plies else None
    return Verdict(game.number, variant, run.plies, None, end, run.result.cause, stated, agrees, run.claims, remark, continued)


def agreement(stated: Optional[str], tag: Optional[str], result: Result) -> Tuple[Optional[bool], Optional[str]]:
    """Whether a stated result agrees with that by the rules, None where the rules do not say; and a remark."""
    if stated is None:
        return None, "no result is stated"
    if tag is not None and tag != stated:
        return False, f"the tag Result has {tag}"
    if result.is_over:
        return stated == result.score, None
    if stated == "*":
        return True, None
    if stated == "1/2-1/2":
        return None, "a draw by agreement or claim"
    return (None, "a resignation or the clock") if stated in ("1-0", "0-1") else (False, "this is not a result")


def judge_games(games: Iterable[Union[RawGame, Broken, bytes, str]], options: JudgeOptions = JudgeOptions()) -> List[Verdict]:
    """The verdicts on games: as `vengine.pgn.games_in` cuts them out of a file, or as texts, which are counted from 1. The tables of a variant are kept
    for the next call of this process with the same options."""
    arbiter = _arbiter(options)
    return [arbiter.judge(_raw(number, item)) for number, item in enumerate(games, 1)]


@lru_cache(maxsize=1)
def _arbiter(options: JudgeOptions) -> Arbiter:
    return Arbiter(options)


def _raw(number: int, item: Union[RawGame, Broken, bytes, str]) -> Union[RawGame, Broken]:
    if isinstance(item, str):
        item = item.encode("utf-8")
    return RawGame(number, 0, item) if isinstance(item, bytes) else item
