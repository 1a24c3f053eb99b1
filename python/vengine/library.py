"""The library of include/vengine.h in this process, by ctypes."""
from __future__ import annotations

import ctypes
import threading
from typing import Any, Dict, Iterable, List, Optional, Tuple

from vengine.answers import Result, result_of, rules_of, squares_of, version_of
from vengine.faults import BadInput, Unsupported
from vengine.program import printed
from vengine.texts import argument_of, bytes_of, game_text, moves_of


class Reply(ctypes.Structure):
    """`struct vengine_reply` of include/vengine.h."""

    _fields_ = [("length", ctypes.c_size_t), ("status", ctypes.c_uint32)]


class Kept(ctypes.Structure):
    """`struct vengine_game` of include/vengine.h."""

    _fields_ = [("at", ctypes.c_void_p)]


class Library:
    """The library of include/vengine.h. Any number of threads may call it at once."""

    def __init__(self, path: str) -> None:
        given, file, game = (ctypes.c_char_p, ctypes.c_size_t), (ctypes.c_bool, ctypes.c_char_p, ctypes.c_size_t), ctypes.POINTER(Kept)
        types: Dict[str, Tuple[Any, ...]] = {
            "answer": (Reply, *given, *file, *given, *given), "begin": (Reply, game, *file, *given, *given), "play": (Reply, game, *given, *given),
            "moves": (Reply, game, *given), "status": (Reply, game, *given), "checkers": (Reply, game, *given), "undo": (ctypes.c_bool, game),
            "end": (None, game), "version": (Reply, *given),
        }
        try:
            library = ctypes.CDLL(path)
            # (one of an earlier version has fewer calls)
            self.calls = {name: library[f"vengine_{name}"] for name in types if name == "answer" or hasattr(library, f"vengine_{name}")}
        except (OSError, AttributeError) as error:
            raise BadInput(f"{path} is not the library: {error}") from None
        for name, call in self.calls.items():
            call.restype, *call.argtypes = types[name]
        self._rooms = threading.local()

    def text(self, name: str, *given: Any) -> Tuple[int, bytes]:
        """The status and the text of a call, whose last two parameters are the room."""
        if name not in self.calls:
            raise Unsupported(f"this library has no call vengine_{name}")
        room = getattr(self._rooms, "room", None) or ctypes.create_string_buffer(4096)
        reply = self.calls[name](*given, room, len(room))
        if reply.length > len(room):
            room = ctypes.create_string_buffer(reply.length)
            reply = self.calls[name](*given, room, len(room))
        self._rooms.room = room
        return reply.status, ctypes.string_at(room, reply.length)

    def version(self) -> Tuple[int, ...]:
        """The version of the library: three numbers."""
        return version_of(printed(*self.text("version")))

    def answer(self, words: Iterable[str], file: Optional[bytes] = None, given: bytes = b"") -> Tuple[int, bytes]:
        """The status and the text of the program that is run with these words, where the file that they name has these bytes and the
        input those. Status 1: the words are of a session or a search, which the library does not do."""
        listed = b"\n".join(map(bytes_of, words))
        return self.text("answer", listed, len(listed), file is not None, file or b"", len(file or b""), given, len(given))


class HeldGame:
    """A game that the library holds: moves are played and taken back, and each question is asked of the game as it stands. Its calls are made by
    the thread that began it. `end` frees it, as does the end of a `with`."""

    def __init__(self, library: Library, variant: str, fen: str = "startpos", moves: Iterable[str] = (), file: Optional[bytes] = None) -> None:
        self._library, self._kept, self._file = library, Kept(), file
        self.variant, self.moves = variant, list(moves_of(moves))
        self._rules: Optional[Dict[str, str]] = None
        given = bytes_of(game_text(variant, fen, self.moves))
        printed(*library.text("begin", self._kept, file is not None, file or b"", len(file or b""), given, len(given)))

    def play(self, move: str) -> None:
        """Plays a move. One that is not legal is a `Fault`, and leaves the game as it was."""
        (move,) = moves_of([move])
        text = bytes_of(move)
        self._ask("play", text, len(text))
        self.moves.append(move)

    def undo(self) -> None:
        """Takes the last move back."""
        self._begun()
        if not self._library.calls["undo"](self._kept):
            raise BadInput("there is no move to take back")
        if self.moves:
            self.moves.pop()

    def rules(self) -> Dict[str, str]:
        """The rules of its variant: each key that says something, with its value."""
        if self._rules is None:
            words = ["--variants", "file"] if self._file is not None else []
            self._rules = rules_of(printed(*self._library.answer([*words, "rules", argument_of(self.variant, "a variant")], self._file)))
        return dict(self._rules)

    def legal_moves(self) -> List[str]:
        """The texts of the legal moves, in their order."""
        return self._ask("moves").splitlines()[:-1]

    def status(self) -> Tuple[Result, str]:
        """How the game stands, and its position."""
        result, fen = self._ask("status").splitlines()
        return result_of(result), fen

    def checkers(self) -> List[str]:
        """The squares of the pieces that attack the king of the side to move, in the order of the board, a1 first."""
        return squares_of(self._ask("checkers"))

    def end(self) -> None:
        """Frees the game, where it was not freed."""
        if self._kept.at:
            self._library.calls["end"](self._kept)

    def __enter__(self) -> HeldGame:
        return self

    def __exit__(self, *why: object) -> None:
        self.end()

    def __del__(self) -> None:
        if hasattr(self, "_kept"):
            self.end()

    def _begun(self) -> None:
        if not self._kept.at:
            raise BadInput("this game has ended")

    def _ask(self, name: str, *given: Any) -> str:
        self._begun()
        return printed(*self._library.text(name, self._kept, *given))
