"""A tab of the board: a session of the engine, and what the page may ask of it."""
from __future__ import annotations

import re
import threading
import time
from math import gcd
from typing import Any, Dict, List, Optional, Tuple

from vengine import BadInput, Ended, Engine, Fault, Mate, Position, Search, Unsupported, VengineError, game_text, mate_of, nodes_of
from vengine.board.words import near_names, said_of, sections_told

# What the page sends, and what it is answered.
Asked = Dict[str, Any]
Answer = Dict[str, Any]
Game = Tuple[str, str, List[str]]

# How long a call may take, in seconds. A search has its own limit.
PATIENCE = 20.0
# All first moves of a mate are looked for by a process that nothing stops but the end of this time.
KEYS_PATIENCE = 60.0


class Tab:
    """The session of one tab, and what it is asked. Its calls take turns; a search that runs is stopped by any of them but `think`."""

    def __init__(self, program: str, text: Optional[str]) -> None:
        self.program, self.lock, self.heard = program, threading.RLock(), time.monotonic()
        # The text that was written last, and that by which the session plays.
        self.text = self.in_force = text or ""
        self.begin()

    def begin(self) -> None:
        """A session with the variants of the text in force, or with the built-in ones alone and the fault for which the text is refused."""
        self.engine = Engine(self.program, timeout=PATIENCE)
        self.search: Optional[Search] = None
        self.is_mate, self.tells_checkers = False, True
        self.strategy: Optional[str] = None
        self.refused: Optional[Dict[str, str]] = None
        try:
            self.engine.load_variant_config(self.in_force)
        except Fault as fault:
            self.refused, self.in_force = said_of(fault), ""

    def close(self) -> None:
        """Ends the session."""
        self.engine.close()

    def answer(self, name: str, asked: Asked) -> Answer:
        """What the page is answered: a fault changes nothing, and a session that ended is started anew."""
        self.heard = time.monotonic()
        try:
            if name in BESIDE:
                return self.called(name, asked)
            with self.lock:
                return self.in_turn(name, asked)
        except Fault as fault:
            return {"fault": said_of(fault)}
        except VengineError as error:
            return {"error": str(error)}

    def in_turn(self, name: str, asked: Asked) -> Answer:
        """What the session answers, which no search may take part in but where it is asked of that."""
        try:
            if name != "think" and self.search is not None and not self.search.is_over:
                self.search.stop()
            return self.called(name, asked)
        except Ended as error:
            self.engine.close()
            self.begin()
            return {"error": f"{error}; it was started anew"}

    def called(self, name: str, asked: Asked) -> Answer:
        """The answer of a method that is among CALLS."""
        answer: Answer = getattr(self, name)(asked)
        return answer

    # ---- what may be asked

    def beat(self, asked: Asked) -> Answer:
        """That the tab is there."""
        return {}

    def variants(self, asked: Asked) -> Answer:
        """The variants that are accepted, and the sections of the text that was written last."""
        return {"variants": self.engine.variants(), "text": self.text, "refused": self.refused, "sections": [] if self.refused else self.told()}

    def told(self) -> List[Answer]:
        """The sections of the text which the session has at this moment."""
        return sections_told(self.text, self.engine.sections())

    def load(self, asked: Asked) -> Answer:
        """Takes the variants of a text. Those before stay in force where the text is refused, and where the game that comes with it cannot be
        played by it: `kept` says why then, and `variants` has those that the new text accepts."""
        text = text_of(asked, "text")
        game = game_of(asked) if "variant" in asked else None
        self.engine.load_variant_config(text)
        self.text, self.refused = text, None
        answer = self.variants(asked)
        kept = self.why_not(game)
        if kept is None:
            self.in_force = text
        else:
            self.engine.load_variant_config(self.in_force)
        return {**answer, "kept": kept, "in_force": self.in_force}

    def why_not(self, game: Optional[Game]) -> Optional[Dict[str, str]]:
        """The fault for which a game cannot be played by the variants of the session, or None."""
        if game is None:
            return None
        try:
            self.engine.position(*game)
        except Fault as fault:
            return said_of(fault)
        return None

    def look(self, asked: Asked) -> Answer:
        """The game of the page: the position, its legal moves, the pieces that give check, and how it stands."""
        game = game_of(asked)
        at = self.engine.position(*game)
        return {"fen": at.fen, "moves": at.moves, "winner": at.result.winner, "cause": at.result.cause, "checkers": self.checkers_of(game),
                "few": self.few_of(game[0], at) if at.result.cause == "extinction" else None}

    def checkers_of(self, game: Game) -> List[str]:
        """The squares of the pieces that give check; none where the program does not tell them."""
        if not self.tells_checkers:
            return []
        try:
            said = self.engine.command("checkers", text=game_text(*game))
        except Unsupported:
            self.tells_checkers = False
            return []
        return [square for square in said.split()[1:] if square != "-"]

    def few_of(self, variant: str, at: Position) -> Optional[str]:
        """Which side has too few pieces: that which loses where the variant is the same, and the extinct side loses."""
        rules = {**self.engine.rules(variant), "extinctionValue": "loss"}
        with Engine(self.program, timeout=PATIENCE) as other:
            other.load_variant_config("[asked]\n" + "".join(f"{key} = {value}\n" for key, value in rules.items()))
            winner = other.result("asked", at.fen).winner
        return {"white": "black", "black": "white"}.get(winner or "")

    def go(self, asked: Asked) -> Answer:
        """Begins a search, of which `think` tells."""
        limits = {name: asked[name] for name in ("depth", "movetime", "mate") if name in asked}
        self.strategy = None
        self.search = self.engine.start(*game_of(asked), searchmoves=texts_of(asked, "searchmoves"), **limits)
        self.is_mate = "mate" in limits
        return {}

    def think(self, asked: Asked) -> Answer:
        """What the search has said until now."""
        if self.search is None:
            return {"infos": [], "is_over": True, "best": None, "notes": []}
        is_over = self.search.wait(0)
        found = self.search.found
        told: Answer = {"infos": [info._asdict() for info in found.infos], "notes": found.notes, "best": found.best, "is_over": is_over}
        if is_over and self.is_mate:
            told["mate"] = self.mate_told(mate_of(found))
        return told

    def stop(self, asked: Asked) -> Answer:
        """Stops the search: `answer` has done so."""
        return self.think(asked)

    def mate_told(self, mate: Mate) -> Answer:
        """A mate with the nodes of its strategy, and what `check` says of it."""
        told = mate._asdict()
        if mate.answer == "mate":
            self.strategy = self.strategy or self.engine.strategy()
        if mate.answer == "mate" and self.strategy:
            told["strategy"] = self.strategy
            told["nodes"] = [node._asdict() for node in nodes_of(self.strategy)]
            try:
                told["check"] = "wins" if self.engine.check(self.strategy) else ""
            except Fault as fault:
                told["check"] = fault.text
        return told

    def check(self, asked: Asked) -> Answer:
        """What `check` says of a strategy."""
        return {"check": "wins" if self.engine.check(text_of(asked, "text")) else ""}

    def rules(self, asked: Asked) -> Answer:
        """The rules of a variant, each key with its value."""
        return {"rules": list(self.engine.rules(word_of(asked, "variant")).items())}

    def keys(self, asked: Asked) -> Answer:
        """Every first move that wins."""
        keys = self.engine.keys(*game_of(asked), within=number_of(asked, "within"), timeout=KEYS_PATIENCE)
        return {"keys": [key._asdict() for key in keys]}

    def reach(self, asked: Asked) -> Answer:
        """The squares of a Betza word from d4: of its quiet moves, and of enemies that it takes. A word that hops has hurdles on its lines."""
        word = word_of(asked, "word")
        quiet, _ = self.engine.reach(word, "d4")
        lines = [(hops, self.engine.reach(plain, "d4")[0]) for hops, plain in plain_parts(word)]
        hurdles = hurdles_on({square for hops, squares in lines if hops for square in squares})
        if not hurdles:
            others = [f"{file}{rank}" for file in "abcdefgh" for rank in range(1, 9) if (file, rank) != ("d", 4)]
            return {"quiet": quiet, "take": self.engine.reach(word, "d4", (), others)[1], "hurdles": []}
        quiet, _ = self.engine.reach(word, "d4", hurdles)
        targets = sorted({square for _, squares in lines for square in squares} - set(hurdles))
        # One enemy at a time: two on a line would be hurdles of each other.
        take = [square for square in targets if self.engine.reach(word, "d4", hurdles, [square])[1]]
        return {"quiet": quiet, "take": take, "hurdles": hurdles}

    def meant(self, asked: Asked) -> Answer:
        """Which variants a name that is none may mean."""
        return {"names": near_names(word_of(asked, "variant"), self.engine.variants())}


# ---- hurdles


PART = re.compile(r"([a-z]*)([A-Z])(\2?)(\d*)")


def plain_parts(word: str) -> List[Tuple[bool, str]]:
    """The parts of a Betza word: whether each hops, and the part that goes along the same lines and neither hops nor is lame."""
    return [(bool(set("pg") & set(letters)), re.sub("[cgmnp]", "", letters) + atom + again + number)
            for letters, atom, again, number in PART.findall(word)]


def hurdles_on(squares: "set[str]") -> List[str]:
    """A square on each line from d4 that has two squares or more: the first one, or the second where a third comes after it."""
    lines: Dict[Tuple[int, int], List[Tuple[int, str]]] = {}
    for square in squares:
        file, rank = ord(square[0]) - ord("d"), int(square[1:]) - 4
        steps = gcd(file, rank)
        lines.setdefault((file // steps, rank // steps), []).append((steps, square))
    return sorted(sorted(line)[min(1, len(line) - 2)][1] for line in lines.values() if len(line) > 1)


# ---- what the page may send


def text_of(asked: Asked, name: str) -> str:
    """The text of a name; BadInput where there is none."""
    value = asked.get(name)
    if not isinstance(value, str):
        raise BadInput(f"{name} has to be a text")
    return value


def word_of(asked: Asked, name: str) -> str:
    """The text of a name, of printable letters without a blank."""
    value = text_of(asked, name)
    if not re.fullmatch(r"[!-~]{1,100}", value) or value.startswith("--"):
        raise BadInput(f"{name} has to be one word: {value[:80]!r}")
    return value


def number_of(asked: Asked, name: str) -> int:
    """The number of a name."""
    value = asked.get(name)
    if not isinstance(value, int) or isinstance(value, bool):
        raise BadInput(f"{name} has to be a number")
    return value


def texts_of(asked: Asked, name: str) -> List[str]:
    """The list of a name, empty where it is not sent; the client refuses what in it cannot be asked."""
    value = asked.get(name, [])
    if not isinstance(value, list):
        raise BadInput(f"{name} has to be a list")
    return value


def game_of(asked: Asked) -> Game:
    """The variant, the position and the moves of a game; the client refuses what cannot be asked."""
    if "moves" not in asked:
        raise BadInput("moves has to be a list")
    return text_of(asked, "variant"), text_of(asked, "fen"), texts_of(asked, "moves")


# What is answered beside the session, by a process of its own or by none; and what takes turns.
BESIDE = ("beat", "check", "rules", "keys", "reach", "meant")
CALLS = (*BESIDE, "variants", "load", "look", "go", "think", "stop")
