"""PGN: a reader of files of any size as a stream, and a writer of a game.

`games_in` cuts a file into games without keeping more than one of them; `read_game` reads the tags and the moves of one. A place in a file is
the number of a byte, counted from 0. Nothing of chess is looked at: a move is a word of the text.
"""
import re
from typing import BinaryIO, Dict, Iterable, Iterator, List, Match, NamedTuple, Optional, Sequence, Tuple, Union

BLOCK = 1 << 20
# The most bytes of one game, and of one comment.
LARGEST_GAME = 1 << 24
RESULTS = ("1-0", "0-1", "1/2-1/2", "*")
LINE_WIDTH = 79


class RawGame(NamedTuple):
    """The bytes of one game of a file: its number, counted from 1, and the place of its first byte."""

    number: int
    byte: int
    data: bytes


class Broken(NamedTuple):
    """A part of a file that cannot be read as a game: the number that this game has, the place of what is wrong, and why."""

    number: int
    byte: int
    why: str


class Move(NamedTuple):
    """A move as the text has it, and its place in the file."""

    text: str
    byte: int


class PgnGame(NamedTuple):
    """A game as it was read. `result` is the word at its end, or None. `broken` is the place and the reason where the reading stopped."""

    number: int
    byte: int
    tags: Dict[str, str]
    moves: List[Move]
    result: Optional[str]
    broken: Optional[Tuple[int, str]] = None


# ---- cutting a file into games

# What the cut looks at: all else of a game are moves and blanks. A tag and an escape are at the front of a line, a result stands by itself.
TAG = rb'\[[ \t]*[A-Za-z0-9_]+[ \t]*"(?:[^"\\\n]|\\.)*"[ \t]*\]'
TAGS = re.compile(rb"(?:" + TAG + rb"\s*)+")
MARK = re.compile(rb"[{;()%\[*]|1-0|0-1|1/2-1/2")
BEFORE_RESULT, AFTER_RESULT = b" \t\r\n)}.", b" \t\r\n({;$["
NEXT_GAME = b'[Event "'
# Bytes at the end of what was read that may be the front part of a mark.
TAIL = 16


class _Flaw(Exception):
    """A game cannot be cut out: the place in the window, and why."""

    def __init__(self, at: int, why: str) -> None:
        super().__init__(why)
        self.at, self.why = at, why


class _Window:
    """The bytes of a stream that are held: from the start of a game on. `base` is the place of the first in the file."""

    def __init__(self, stream: BinaryIO) -> None:
        self._stream = stream
        self.data, self.base, self.is_whole = b"", 0, False

    def read(self) -> bool:
        """Takes a block more; False at the end of the stream."""
        block = b"" if self.is_whole else self._stream.read(BLOCK)
        self.is_whole = not block
        self.data += block
        return not self.is_whole

    def drop(self, length: int) -> None:
        """Lets the first bytes go."""
        self.data = self.data[length:]
        self.base += length

    def skip_blanks(self) -> bool:
        """Lets blanks go; False where nothing else is left."""
        while True:
            rest = self.data.lstrip(b" \t\r\n\v\f\xef\xbb\xbf" if self.base == 0 else None)
            self.drop(len(self.data) - len(rest))
            if rest or not self.read():
                return bool(rest)

    def skip_to_next_game(self, start: int) -> None:
        """Lets all go up to the next line that begins a game's tags, which is at `start` or after it."""
        self.drop(start)
        while True:
            found = self.data.find(b"\n" + NEXT_GAME)
            if found >= 0:
                return self.drop(found + 1)
            self.drop(max(0, len(self.data) - len(NEXT_GAME)))
            if not self.read():
                return self.drop(len(self.data))


class _Cut:
    """Finds the end of the game at the front of a window."""

    def __init__(self, window: _Window) -> None:
        self._window = window
        # Where the search goes on, where text that is neither tags nor comments was last looked for, the depth of variations.
        self._at, self._seen, self._depth, self._has_moves = 0, 0, 0, False

    def length(self) -> int:
        """The length of the game; 0 where only comments are left. Raises _Flaw."""
        while True:
            found = MARK.search(self._window.data, self._at)
            if found is None or found.end() > len(self._window.data) - TAIL:
                if self._more(found.start() if found else max(self._at, len(self._window.data) - TAIL)):
                    continue
                if found is None:
                    self._note_moves(len(self._window.data))
                    return len(self._window.data) if self._has_moves or self._has_tags() else 0
            end = self._after(found)
            if end is not None:
                return end

    def _after(self, found: Match[bytes]) -> Optional[int]:
        """The end of the game, where this mark is at it; else the search goes on behind the mark."""
        mark, start = found.group(), found.start()
        if not self._is_mark(mark, start, found.end()):
            self._at = found.end()
            return None
        self._note_moves(start)
        if mark == b"[":
            if self._has_moves:
                return start
            self._at = self._seen = self._end_of_tags(start)
        elif mark == b"{":
            self._at = self._seen = self._end_of_comment(start)
        elif mark in (b";", b"%"):
            self._at = self._seen = self._end_of_line(start)
        elif mark in (b"(", b")"):
            self._depth = max(0, self._depth + (1 if mark == b"(" else -1))
            self._at = found.end()
        elif self._depth == 0:
            return found.end()
        else:
            self._at = found.end()
        return None

    def _is_mark(self, mark: bytes, start: int, end: int) -> bool:
        """Whether these bytes mean here what they mean where they are marks."""
        before, after = self._window.data[start - 1:start] if start else b"\n", self._window.data[end:end + 1]
        if mark in (b"[", b"%"):
            return before == b"\n"
        return mark in (b"{", b";", b"(", b")") or (before in BEFORE_RESULT and after in AFTER_RESULT)

    def _note_moves(self, end: int) -> None:
        """Notes whether there are words between tags and comments."""
        self._has_moves = self._has_moves or bool(self._window.data[self._seen:end].strip())
        self._seen = end

    def _has_tags(self) -> bool:
        return self._window.data.startswith(NEXT_GAME) or TAGS.match(self._window.data) is not None

    def _more(self, at: int) -> bool:
        """Reads a block more for a search that goes on at this place; False at the end of the stream."""
        if len(self._window.data) > LARGEST_GAME:
            raise _Flaw(0, f"no game ends within {LARGEST_GAME} bytes")
        self._at = max(self._at, at)
        return self._window.read()

    def _end_of_tags(self, start: int) -> int:
        while True:
            found = TAGS.match(self._window.data, start)
            end = found.end() if found else self._end_of_line(start)
            if end < len(self._window.data) or not self._more(start):
                return end

    def _end_of_line(self, start: int) -> int:
        while True:
            end = self._window.data.find(b"\n", start)
            if end >= 0:
                return end
            if not self._more(start):
                return len(self._window.data)

    def _end_of_comment(self, start: int) -> int:
        while True:
            end = self._window.data.find(b"}", start)
            if self._window.data.find(b"\n" + NEXT_GAME, start, end if end >= 0 else len(self._window.data)) >= 0:
                raise _Flaw(start, "a comment that begins here does not end before the next game")
            if end >= 0:
                return end + 1
            if len(self._window.data) - start > LARGEST_GAME or not self._more(start):
                raise _Flaw(start, "a comment that begins here does not end")


def games_in(stream: BinaryIO) -> Iterator[Union[RawGame, Broken]]:
    """The games of a file, in their order. After a part that cannot be read the reading goes on at the next line that begins with
    `[Event "`, so that no other game is lost."""
    window, number = _Window(stream), 0
    while window.skip_blanks():
        number += 1
        try:
            length = _Cut(window).length()
            nul = window.data.find(b"\0", 0, length)
            if nul >= 0:
                raise _Flaw(nul, "a byte 0, which no text has")
        except _Flaw as flaw:
            nul = window.data.find(b"\0")
            at, why = (nul, "a byte 0, which no text has") if nul >= 0 and flaw.at == 0 else (flaw.at, flaw.why)
            yield Broken(number, window.base + at, why)
            window.skip_to_next_game(at + 1)
            continue
        if length == 0:
            return
        yield RawGame(number, window.base, window.data[:length])
        window.drop(length)


# ---- reading a game

TOKEN = re.compile(
    r"""\s+ | \{[^}]*\} | ;[^\n]* | ^%[^\n]*
      | (?P<tag>\[[ \t]*(?P<name>[A-Za-z0-9_]+)[ \t]*"(?P<value>(?:[^"\\\n]|\\.)*)"[ \t]*\])
      | (?P<depth>[()])
      | \$[0-9]* | [!?]+ | e\.p\.
      | (?P<result>1-0|0-1|1/2-1/2|\*)(?=[\s({;$]|$)
      | [0-9]+\.+ | [0-9]+(?=\s|$) | \.+
      | (?P<move>[^\s(){};$\[\]]+)
      | (?P<other>.)""", re.X | re.M)
# Words of annotators that are no moves: values of positions, novelties.
ANNOTATION = re.compile(r"(?!--$)[-+=/~\\]+|[^\x00-\x7f]+|N|D|RR")


def read_game(raw: RawGame) -> PgnGame:
    """The tags and the moves of a game. Comments, variations and annotations are skipped."""
    # A byte is a character of Latin-1, so that places in the text are places in the file.
    text = raw.data.decode("latin-1")
    tags: Dict[str, str] = {}
    moves: List[Move] = []
    opened: List[int] = []
    result, broken = None, None
    for token in TOKEN.finditer(text):
        kind, at = token.lastgroup, raw.byte + token.start()
        if kind is None:
            continue
        if kind == "depth":
            if token.group() == "(":
                opened.append(at)
            elif opened:
                opened.pop()
            else:
                broken = at, "a variation that did not begin ends here"
        elif opened:
            continue
        elif kind == "move":
            if not ANNOTATION.fullmatch(token.group()):
                moves.append(Move(token.group(), at))
        elif kind == "tag":
            tags.setdefault(token.group("name"), _unescaped(token.group("value")))
        elif kind == "result":
            result = token.group()
        else:
            broken = at, "a tag that begins here has not the form [Name \"value\"]" if token.group() == "[" else f"{token.group()!r} has no place here"
        if broken:
            break
    if opened and not broken:
        broken = opened[-1], "a variation that begins here does not end"
    return PgnGame(raw.number, raw.byte, tags, moves, result, broken)


def _unescaped(value: str) -> str:
    """The value of a tag, which may have a quote or a backslash after a backslash. The text is UTF-8, or else Latin-1."""
    plain = re.sub(r"\\(.)", r"\1", value)
    try:
        return plain.encode("latin-1").decode("utf-8")
    except UnicodeDecodeError:
        return plain


def read_games(stream: BinaryIO) -> Iterator[Union[PgnGame, Broken]]:
    """The games of a file, read."""
    for item in games_in(stream):
        yield item if isinstance(item, Broken) else read_game(item)


# ---- writing a game


def write_game(tags: Dict[str, str], sans: Sequence[str], first: Tuple[int, str] = (1, "w"), result: str = "*") -> str:
    """A game as PGN: its tags, with those of the roster that are missing, and its moves in SAN. `first` is the number of the first move and the
    side that makes it, as the FEN has them."""
    roster = {"Event": "?", "Site": "?", "Date": "????.??.??", "Round": "?", "White": "?", "Black": "?", "Result": result}
    named = {**roster, **tags, "Result": result}
    header = "".join(f'[{name} "{_escaped(value)}"]\n' for name, value in named.items())
    return header + "\n" + "".join(line + "\n" for line in _lines_of([*_numbered(sans, *first), result])) + "\n"


def game_tags(variant: str, fen: Optional[str]) -> Dict[str, str]:
    """The tags that say what is played: `Variant` where it is not chess; `SetUp` and `FEN` where the game does not begin at the start."""
    tags = {} if variant == "chess" else {"Variant": variant}
    return tags if fen is None else {**tags, "SetUp": "1", "FEN": fen}


def _escaped(value: str) -> str:
    return value.replace("\\", "\\\\").replace('"', '\\"')


def _numbered(sans: Iterable[str], number: int, side: str) -> Iterator[str]:
    """The words of the moves, each with its number before it where White makes it or where it is the first."""
    is_first, is_white = True, side == "w"
    for san in sans:
        if is_white or is_first:
            yield f"{number}." if is_white else f"{number}..."
        yield san
        number += 0 if is_white else 1
        is_first, is_white = False, not is_white


def _lines_of(words: Iterable[str]) -> Iterator[str]:
    """The words in lines of at most 79 characters."""
    line = ""
    for word in words:
        if line and len(line) + 1 + len(word) > LINE_WIDTH:
            yield line
            line = word
        else:
            line = f"{line} {word}" if line else word
    if line:
        yield line
