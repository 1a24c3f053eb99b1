"""A session of the program."""
from __future__ import annotations

import contextlib
import os
import tempfile
import threading
from typing import IO, Dict, Iterable, Iterator, List, Optional, Sequence, Tuple

from vengine.answers import (FEN_OK, VALUE_DRAW, Found, Key, Mate, Position, Result, Section, mate_of, names_of, result_of, rules_of, sections_of, squares_of,
                             takes_piece, value_for, version_of)
from vengine.faults import BadInput, Busy, Ended, Fault, NotOver, Unsupported, VengineError
from vengine.games import AskedGame
from vengine.lines import LONGEST_LINE, Lines
from vengine.program import find_program, run
from vengine.san import san, san_moves
from vengine.search import Search
from vengine.texts import argument_of, bytes_of, fen_of, game_text, go_line, has_end, moves_of, number_of, word_of


class Engine:
    """A session of Vengine.

    `program` is by default what `find_program()` finds; `variants` a file of variants beside the built-in ones; `threads` how many workers
    search, 1 to 64. `timeout` is how many seconds a call may take that names no other, beside the time that it lets a search have. Fault
    is raised where the file of variants is refused.

    Several threads may call it: their calls take turns. It is not to be used in a process that was forked from this one.
    """

    def __init__(self, program: Optional[str] = None, variants: Optional[str] = None, threads: Optional[int] = None, timeout: float = 30.0) -> None:
        self.timeout = timeout
        self._program = find_program() if program is None else program
        self._path = None if variants is None else os.path.abspath(variants)
        self._text: Optional[IO[bytes]] = None
        self._lock = threading.Lock()
        self._search: Optional[Search] = None
        self._variant: Optional[str] = "chess"
        self._game: Optional[str] = None
        words = ["--threads", str(number_of(threads, "threads", 1, 64))] if threads is not None else []
        self._lines = Lines([self._program, *self._files(), *words, "uci"])
        self._names = self._begin()

    def __enter__(self) -> Engine:
        return self

    def __exit__(self, *_: object) -> None:
        self.close()

    def close(self) -> None:
        """Ends the session; each later call raises Ended. A search that runs is cut, and no process is left."""
        self._lines.close()
        self._forget_text()

    @property
    def pid(self) -> int:
        """The number of the process."""
        return self._lines.process.pid

    # ---- games

    def position(self, variant: str, fen: str = "startpos", moves: Iterable[str] = (), *, timeout: Optional[float] = None) -> Position:
        """The position after the moves, its legal moves, and how the game stands."""
        said = self._asked(timeout, variant, fen, moves, "moves", "status")
        return Position(said[-1], said[:-3], result_of(said[-2]))

    def legal_moves(self, variant: str, fen: str = "startpos", moves: Iterable[str] = (), *, timeout: Optional[float] = None) -> List[str]:
        """The texts of the legal moves after the moves, in their order. There is none where the game is over, but by repetition or by
        the move count."""
        return self._asked(timeout, variant, fen, moves, "moves")[:-1]

    def result(self, variant: str, fen: str = "startpos", moves: Iterable[str] = (), *, timeout: Optional[float] = None) -> Result:
        """How the game stands after the moves."""
        return result_of(self._asked(timeout, variant, fen, moves, "status")[0])

    def get_fen(self, variant: str, fen: str = "startpos", moves: Iterable[str] = (), *, timeout: Optional[float] = None) -> str:
        """The position after the moves."""
        return self._asked(timeout, variant, fen, moves, "status")[1]

    def checkers(self, variant: str, fen: str = "startpos", moves: Iterable[str] = (), *, timeout: Optional[float] = None) -> List[str]:
        """The squares of the pieces that attack the king of the side to move after the moves, in the order of the board, a1 first."""
        said = self._asked(timeout, variant, fen, moves, "checkers")
        if not said:
            raise Unsupported("the program does not know checkers")
        return squares_of(said[0])

    def perft(self, variant: str, fen: str = "startpos", moves: Iterable[str] = (), *, plies: int = 1, timeout: Optional[float] = None) -> int:
        """How many lists of so many legal moves there are, plies from 1 to 9. Nothing stops it, so that a count which takes longer than
        `timeout` ends the session."""
        return int(self._asked(timeout, variant, fen, moves, f"go perft {number_of(plies, 'plies', 1, 9)}")[0].split(" ")[-1])

    # ---- searches

    def go(self, variant: str, fen: str = "startpos", moves: Iterable[str] = (), *, searchmoves: Iterable[str] = (), timeout: Optional[float] = None,
           **limits: int) -> Found:
        """Searches within limits: depth, nodes, mate, movetime, or wtime and btime with winc, binc and movestogo, as docs/UCI.md has them.

        A search that has not ended after `timeout` seconds is stopped, and has then found what it found until then. That is by default
        the session's, and the time of the move or of the clocks.
        """
        line = go_line(limits, searchmoves)
        if not has_end(limits):
            raise BadInput("a search without a limit ends by `stop` alone: use `start`")
        given = max(limits.get("movetime", 0), limits.get("wtime", 0), limits.get("btime", 0)) / 1000
        with self._turn(timeout):
            self._set(variant, fen, moves, timeout)
            search = self._searching(line)
            if not search.wait(self.timeout + given if timeout is None else timeout):
                return search.stop()
            return search.found

    def start(self, variant: str, fen: str = "startpos", moves: Iterable[str] = (), *, searchmoves: Iterable[str] = (), timeout: Optional[float] = None,
              **limits: int) -> Search:
        """A `Search` in the background, until a limit or `stop` ends it. Meanwhile every other call but `close` raises Busy."""
        line = go_line(limits, searchmoves)
        with self._turn(timeout):
            self._set(variant, fen, moves, timeout)
            return self._searching(line)

    def mate(self, variant: str, fen: str = "startpos", moves: Iterable[str] = (), *, within: int = 1, timeout: Optional[float] = None) -> Mate:
        """The least mate of the side to move within so many moves, 1 to 100, with its strategy, or why there is none."""
        line = go_line({"mate": within}, ())
        with self._turn(timeout):
            self._set(variant, fen, moves, timeout)
            search = self._searching(line)
            found = search.found if search.wait(self.timeout if timeout is None else timeout) else search.stop()
            mate = mate_of(found)
            return mate._replace(strategy=self._told_strategy(timeout)) if mate.answer == "mate" else mate

    def strategy(self, *, timeout: Optional[float] = None) -> Optional[str]:
        """The strategy of the mate that was announced last, as a text that `check` accepts on any machine, or None. A call that names
        another game forgets it."""
        with self._turn(timeout):
            return self._told_strategy(timeout)

    # ---- variants and options

    def variants(self) -> List[str]:
        """The names of the variants that are accepted."""
        return list(self._names)

    def sections(self, *, timeout: Optional[float] = None) -> List[Section]:
        """Each section, the built-in ones first, with why it is refused."""
        return sections_of(self.command("variants", timeout=timeout))

    def load(self, path: str, *, timeout: Optional[float] = None) -> None:
        """Takes the built-in variants and those of a file, in place of those of the file before; where it is refused, all is as it was."""
        path = os.path.abspath(path)
        if any(letter < " " or letter == "\x7f" for letter in path) or path != " ".join(path.split()):
            raise BadInput(f"a session cannot be told this name of a file: {path!r}")
        with self._turn(timeout):
            self._said(timeout, f"setoption name VariantPath value {path}")
            self._path, self._variant, self._game = path, "chess", None
            self._names = names_of(self._said(timeout, "uci"))

    def load_variant_config(self, text: str, *, timeout: Optional[float] = None) -> None:
        """The same for a text in place of a file."""
        file = tempfile.NamedTemporaryFile(suffix=".ini")
        file.write(bytes_of(text))
        file.flush()
        try:
            self.load(file.name, timeout=timeout)
        except VengineError:
            file.close()
            raise
        self._forget_text()
        self._text = file

    def set_option(self, name: str, value: object, *, timeout: Optional[float] = None) -> None:
        """Sets Threads (1 to 64), Hash (1 to 1024) or MateFacts (16 to 65536)."""
        if name not in ("Threads", "Hash", "MateFacts"):
            raise BadInput(f"there is no option {name!r} to set; the options are Threads, Hash and MateFacts")
        with self._turn(timeout):
            self._said(timeout, f"setoption name {name} value {word_of(str(value), 'a value')}")

    # ---- commands that are answered once, by a process of their own

    def command(self, *words: object, text: str = "", timeout: Optional[float] = None) -> str:
        """What a one-shot command of the program prints, with the variants of this session; the text is its input. The session takes no
        part in it, and may search meanwhile."""
        if any("\0" in str(word) for word in words):
            raise BadInput("a word of a command has no zero byte")
        return run([self._program, *self._files(), *map(str, words)], text, self.timeout if timeout is None else timeout)

    def check(self, text: str, *, timeout: Optional[float] = None) -> bool:
        """True where a strategy wins: the text is a proof text, or a problem with a strategy after it. Else Fault says why not."""
        return self.command("check", text=text, timeout=timeout) == "wins\n"

    def rules(self, variant: str, *, timeout: Optional[float] = None) -> Dict[str, str]:
        """The rules of a variant: each key that says something, with its value. As lines `KEY = VALUE` below a header they are a section
        without a parent, which is the same variant."""
        return rules_of(self.command("rules", argument_of(variant, "a variant"), timeout=timeout))

    def keys(self, variant: str, fen: str = "startpos", moves: Iterable[str] = (), *, within: int = 1, timeout: Optional[float] = None) -> List[Key]:
        """Every first move with which the side to move wins by force within so many moves, 1 to 20, in the order of their texts. Fault says
        that the game is over, or that the move count could end it within these moves. It is killed where it takes longer than `timeout`."""
        text = game_text(variant, fen, moves)
        said = self.command("keys", str(number_of(within, "within", 1, 20)), text=text, timeout=timeout)
        return [Key(words[0], int(words[2])) for words in map(str.split, said.splitlines()[:-1])]

    def reach(self, word: str, square: str, own: Iterable[str] = (), enemy: Iterable[str] = (), *, timeout: Optional[float] = None) -> Tuple[List[str], ...]:
        """Where a White piece with this Betza word goes from a square of an 8 by 8 board, with pieces on other squares: the squares of its
        quiet moves, and those of enemies that it can take."""
        lists = [",".join(argument_of(one, "a square") for one in squares) or "none" for squares in (own, enemy)]
        said = self.command("reach", argument_of(word, "a Betza word"), argument_of(square, "a square"), *lists, timeout=timeout)
        return tuple(map(squares_of, said.splitlines()))

    # ---- what users of pyffish know

    def start_fen(self, variant: str) -> str:
        """The position from which games of the variant start."""
        return self.get_fen(variant)

    def validate_fen(self, fen: str, variant: str) -> int:
        """FEN_OK, which is 1, where the text is a position of the variant; else the number of its FenFault, negative. What could not be
        asked as it stands is -3 (Letter) or, for its blanks, -1 (Length). The negative numbers of pyffish mean other things."""
        try:
            self.get_fen(variant, fen_of(fen))
        except BadInput:
            return -1 if isinstance(fen, str) and all(" " <= letter <= "~" for letter in fen) else -3
        except Fault as fault:
            if (fault.name, fault.number) != ("PositionFault", 1) or fault.inner is None:
                raise
            return -fault.inner.number
        return FEN_OK

    def version(self) -> Tuple[int, ...]:
        """The version of the program: three numbers."""
        return version_of(self.info())

    def info(self) -> str:
        """The name and the version of the program."""
        return run([self._program, "--version"], timeout=self.timeout).rstrip("\n")

    def gives_check(self, variant: str, fen: str = "startpos", moves: Iterable[str] = ()) -> bool:
        """Whether the side to move after the moves is in check, that is whether the last of them gave it."""
        return bool(self.checkers(variant, fen, moves))

    def is_capture(self, variant: str, fen: str, moves: Iterable[str], move: str) -> bool:
        """Whether a legal move after the moves takes a piece of the other side."""
        before = moves_of(moves)
        return takes_piece(self.get_fen(variant, fen, before), self.get_fen(variant, fen, [*before, move]))

    def get_san(self, variant: str, fen: str, move: str) -> str:
        """The SAN of a legal move of a position, as "Nbd7", "O-O", "e8=Q+" or "N@f3#"; BadMove where it is none."""
        return san(AskedGame(self, variant, fen), move)

    def get_san_moves(self, variant: str, fen: str, moves: Iterable[str]) -> List[str]:
        """The SAN of each of some moves that are played one after the other from a position; BadMove where one is not legal."""
        return san_moves(AskedGame(self, variant, fen), moves_of(moves))

    def game_result(self, variant: str, fen: str = "startpos", moves: Iterable[str] = ()) -> int:
        """The value of a game that is over, for the side to move: VALUE_MATE where it has won, -VALUE_MATE where it has lost, else
        VALUE_DRAW. NotOver where the game goes on."""
        said = self._asked(None, variant, fen, moves, "status")
        result = result_of(said[0])
        if not result.is_over:
            raise NotOver("the game goes on")
        return value_for(result, said[1])

    def is_immediate_game_end(self, variant: str, fen: str = "startpos", moves: Iterable[str] = ()) -> Tuple[bool, int]:
        """Whether the rules of the variant end the game, by flag, checks or extinction, and its value for the side to move."""
        return self._ends_by(("flag", "checks", "extinction"), variant, fen, moves)

    def is_optional_game_end(self, variant: str, fen: str = "startpos", moves: Iterable[str] = ()) -> Tuple[bool, int]:
        """Whether the game is over by repetition or by the move count, and its value for the side to move."""
        return self._ends_by(("repetition", "movecount"), variant, fen, moves)

    def _ends_by(self, causes: Sequence[str], variant: str, fen: str, moves: Iterable[str]) -> Tuple[bool, int]:
        said = self._asked(None, variant, fen, moves, "status")
        result = result_of(said[0])
        return (True, value_for(result, said[1])) if result.cause in causes else (False, VALUE_DRAW)

    # ---- the session

    def _files(self) -> List[str]:
        return ["--variants", self._path] if self._path is not None else []

    def _forget_text(self) -> None:
        if self._text is not None:
            self._text.close()
            self._text = None

    def _begin(self) -> List[str]:
        """The names of the variants. A file that is refused is told in place of a session."""
        try:
            with contextlib.suppress(Ended):
                self._lines.say("uci", "isready", timeout=self.timeout)
            return names_of(self._lines.wait_for("readyok", self.timeout))
        except Ended as error:
            self._lines.kill()
            for line in error.said:
                if line.startswith("error "):
                    raise Fault(line[len("error "):]) from None
            raise

    @contextlib.contextmanager
    def _turn(self, timeout: Optional[float]) -> Iterator[None]:
        """The session for one question. What breaks off in between ends it, as its answer would be taken for that of another."""
        if not self._lock.acquire(timeout=self.timeout if timeout is None else timeout):
            raise Busy("the calls of other threads took all of the time")
        try:
            self._no_search()
            try:
                yield
            except (Fault, BadInput):
                raise
            except BaseException:
                self._lines.kill()
                raise
        finally:
            self._lock.release()

    def _no_search(self) -> None:
        if not self._lines.is_running():
            raise self._lines.ended()
        if self._search is not None and not self._search.wait(0):
            raise Busy("a search is going on: stop it, or wait for it")
        self._search = None

    def _searching(self, line: str) -> Search:
        self._lines.say(line, timeout=self.timeout)
        self._search = Search(self._lines, self.timeout)
        return self._search

    def _said(self, timeout: Optional[float], *lines: str) -> List[str]:
        """The lines of the answer; Fault is the first of what is refused."""
        longest = max(len(line) for line in lines)
        if longest > LONGEST_LINE:
            raise BadInput(f"a line of {longest} bytes is longer than a session reads ({LONGEST_LINE})")
        limit = self.timeout if timeout is None else timeout
        self._lines.say(*lines, "isready", timeout=limit)
        said = self._lines.wait_for(lambda line: line == "readyok", limit)[:-1]
        for line in said:
            if line.startswith("info string error "):
                raise Fault(line[len("info string error "):])
        return said

    def _set(self, variant: str, fen: str, moves: Iterable[str], timeout: Optional[float], *questions: str) -> List[str]:
        """The answers to the questions in this game. A game that is there already is not set again."""
        variant, moves = word_of(variant, "a variant"), moves_of(moves)
        start = "startpos" if fen == "startpos" else f"fen {fen_of(fen)}"
        game = f"position {start} moves {' '.join(moves)}" if moves else f"position {start}"
        lines = [] if variant == self._variant else [f"setoption name UCI_Variant value {variant}"]
        if lines or game != self._game:
            lines.append(game)
        # What is set is not known where a line of these is refused.
        self._variant = self._game = None
        said = self._said(timeout, *lines, *questions) if lines or questions else []
        self._variant, self._game = variant, game
        return said

    def _asked(self, timeout: Optional[float], variant: str, fen: str, moves: Iterable[str], *questions: str) -> List[str]:
        with self._turn(timeout):
            return self._set(variant, fen, moves, timeout, *questions)

    def _told_strategy(self, timeout: Optional[float]) -> Optional[str]:
        said = self._said(timeout, "strategy")
        return None if said == ["info string no strategy"] else "".join(line + "\n" for line in said)
