"""A referee in this process."""
from __future__ import annotations

import os
from typing import Dict, Iterable, List, Optional, Tuple

from vengine.answers import Position, Result, Section, result_of, rules_of, sections_of, squares_of, version_of
from vengine.faults import BadInput, Unsupported
from vengine.library import HeldGame, Library
from vengine.program import NOT_REFEREED, find_library, find_program, printed, run
from vengine.sections import read_file
from vengine.texts import argument_of, bytes_of, game_text


class Referee:
    """Legal moves and results, without a session: by the library in this process, where it is found, and else by a process of the program
    for each call. Both say the same.

    `library` is by default what `find_library()` finds, "" being none; `program` what `find_program()` finds; `variants` is a file of variants, which is
    read once. Any number of threads may call it. What the library has begun it ends: a call takes no time limit.
    """

    def __init__(self, library: Optional[str] = None, program: Optional[str] = None, variants: Optional[str] = None) -> None:
        library = find_library() if library is None else library
        self._library = Library(library) if library else None
        self._program = "" if library else (program or find_program())
        self._words: List[str] = []
        self._file: Optional[bytes] = None
        if variants is not None:
            self._words = ["--variants", os.path.abspath(variants)]
            self._file = read_file(variants)

    def command(self, *words: object, text: str = "") -> str:
        """What a command prints that reads this text: moves, status, checkers, perft, check, stipulate, reach, variants or rules."""
        command = [*self._words, *map(str, words)]
        if any(letter in word for word in command for letter in "\0\n"):
            raise BadInput("a word of a command has no zero byte and no end of a line")
        if self._library is None:
            return run([self._program, *command], text)
        status, said = self._library.answer(command, self._file, bytes_of(text))
        if status == NOT_REFEREED:
            raise Unsupported("a referee does not answer this command")
        return printed(status, said)

    def position(self, variant: str, fen: str = "startpos", moves: Iterable[str] = ()) -> Position:
        """The position after the moves, its legal moves, and how the game stands."""
        game = game_text(variant, fen, moves)
        result, fen = self.command("status", text=game).splitlines()
        return Position(fen, self.command("moves", text=game).splitlines()[:-1], result_of(result))

    def legal_moves(self, variant: str, fen: str = "startpos", moves: Iterable[str] = ()) -> List[str]:
        """The texts of the legal moves after the moves, in their order."""
        return self.command("moves", text=game_text(variant, fen, moves)).splitlines()[:-1]

    def result(self, variant: str, fen: str = "startpos", moves: Iterable[str] = ()) -> Result:
        """How the game stands after the moves."""
        return result_of(self.command("status", text=game_text(variant, fen, moves)).splitlines()[0])

    def get_fen(self, variant: str, fen: str = "startpos", moves: Iterable[str] = ()) -> str:
        """The position after the moves."""
        return self.command("status", text=game_text(variant, fen, moves)).splitlines()[1]

    def checkers(self, variant: str, fen: str = "startpos", moves: Iterable[str] = ()) -> List[str]:
        """The squares of the pieces that attack the king of the side to move after the moves, in the order of the board, a1 first."""
        return squares_of(self.command("checkers", text=game_text(variant, fen, moves)))

    def version(self) -> Tuple[int, ...]:
        """The version of the library, or of the program: three numbers."""
        return self._library.version() if self._library is not None else version_of(run([self._program, "--version"]))

    def sections(self) -> List[Section]:
        """Each section, the built-in ones first, with why it is refused."""
        return sections_of(self.command("variants"))

    def rules(self, variant: str) -> Dict[str, str]:
        """The rules of a variant, as those of `Engine`."""
        return rules_of(self.command("rules", argument_of(variant, "a variant")))

    def game(self, variant: str, fen: str = "startpos", moves: Iterable[str] = ()) -> HeldGame:
        """A `HeldGame`, for which the library is needed."""
        if self._library is None:
            raise Unsupported("a game is held by the library alone")
        return HeldGame(self._library, variant, fen, moves, self._file)

    def check(self, text: str) -> bool:
        """True where a strategy wins: the text is a proof text, or a problem with a strategy after it. Else Fault says why not."""
        return self.command("check", text=text) == "wins\n"
