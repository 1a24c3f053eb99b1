"""Says of each section of a file of variants whether it is accepted, what is wrong with it, and what it says that means nothing.

Usage: python -m vengine lint FILE [--strict] [--fen FEN ..] [--of NAME]

Prints FILE:LINE: SECTION: ok, fault or warning, with the words. With --fen it judges positions too, of the section NAME or of the last one of the file, and
says where in the text a fault is. The status is 1 where a section, the file or a position is refused; else 2 where --strict is given and there is a warning;
else 0.
"""
from __future__ import annotations

import argparse
import sys
from typing import Dict, List, Mapping, NamedTuple, Optional, Sequence

from vengine.faults import BadInput, Fault, VengineError
from vengine.fen_places import fen_place
from vengine.meaningless import Seen, warnings_of
from vengine.pieces import is_piece, letter_of
from vengine.referee import Referee
from vengine.sections import Pair, Written, read_file, written_sections
from vengine.words import parts_of, words_of

CHESS_START = "rnbqkbnr/pppppppp/8/8/8/8/PPPPPPPP/RNBQKBNR w KQkq - 0 1"
# The keys of which the first that a section has shows a contradiction, by its number.
CONTRADICTING = {"2": ("promotionPieceTypes",), "3": ("promotedPieceType",), "4": ("seirawanGating",),
                 "5": ("castlingRank", "castlingRookPieces", "maxFile", "gating")}


class Told(NamedTuple):
    """What is said of a section: the line, the name of the section, "ok", "fault" or "warning", and the words. A fault of the file has no section."""

    line: int
    section: str
    kind: str
    words: str

    def __str__(self) -> str:
        return ": ".join(part for part in (self.section, self.kind, self.words) if part)


class Lint:
    """A file of variants that is looked at: the sections that it has, and the program's answers."""

    def __init__(self, path: str, program: Optional[str] = None) -> None:
        self.referee = Referee(program=program, library="" if program else None, variants=path)
        self.written = written_sections(read_file(path).decode("latin-1"))
        self._rules: Dict[str, Mapping[str, str]] = {}

    def told(self, only: Optional[str] = None) -> List[Told]:
        """What is said of each section, or of those of one name; Fault is that of the whole file."""
        sections = self.referee.sections()
        own = sections[len(sections) - len(self.written):]
        found: List[Told] = []
        for written, section in zip(self.written, own):
            if only in (None, written.name):
                found += [self.fault_of(written, section.fault)] if section.fault else [Told(written.line, written.name, "ok", ""), *self.warned(written)]
        return found

    def rules(self, name: str) -> Mapping[str, str]:
        """The rules of a section that is accepted, as the program says them."""
        if name not in self._rules:
            self._rules[name] = self.referee.rules(name)
        return self._rules[name]

    def parent_rules(self, written: Written) -> Mapping[str, str]:
        """The rules of the parent, none where there is no parent or it is refused."""
        try:
            return self.rules(written.parent) if written.parent else {}
        except Fault:
            return {}

    def fault_of(self, written: Written, fault: Fault) -> Told:
        """The fault of a section, on the line where it is."""
        pairs = faulty_pairs(written, fault)
        line = pairs[0].line if pairs else written.line
        said = f"{pairs[0].key} = {pairs[0].value}: " if pairs else ""
        if fault.number == 8 and not pairs:
            said = f"startFen of {written.parent}: " if written.parent else "startFen, which is not given: "
        also = f" (or line {', '.join(str(pair.line) for pair in pairs[1:])})" if pairs[1:] else ""
        inner = parts_of(fault)[-1]
        rules = rules_as_written(written, self.parent_rules(written))
        place = fen_place(inner, rules.get("startFen", CHESS_START), rules) if inner.name == "FenFault" else ""
        return Told(line, written.name, "fault", f"{said}{words_of(fault)}{f' in {place}' if place else ''} ({fault.text}){also}")

    def warned(self, written: Written) -> List[Told]:
        """The warnings of a section that is accepted, by their lines."""
        rules = self.rules(written.name)
        found = repeated_keys(written)
        for keys, words in warnings_of(Seen(written, rules, self.parent_rules(written))):
            pairs = [pair for key in keys for pair in written.lines_of(key)[-1:]]
            if pairs:
                found.append(Told(pairs[0].line, written.name, "warning", f"{pairs[0].key} = {pairs[0].value}: {words}"))
        result = self.referee.result(written.name)
        if result.is_over:
            line = next((pair.line for pair in written.lines_of("startFen")[-1:]), written.line)
            won = f"{result.winner} has won" if result.winner else "drawn"
            found.append(Told(line, written.name, "warning", f"the game is over before it begins: {won} by {result.cause}"))
        return sorted(found)

    def fen_told(self, fen: str, name: str) -> str:
        """What is wrong with a position of a variant, and where; "" where nothing is."""
        try:
            self.referee.get_fen(name, fen)
        except BadInput as error:
            return str(error)
        except Fault as fault:
            inner = parts_of(fault)[-1]
            place = fen_place(inner, fen, self.rules(name)) if inner.name == "FenFault" and fault.number == 4 else ""
            return f"{place}: {words_of(inner)} ({inner.text})" if place else f"{words_of(inner)} ({inner.text})"
        return ""


def faulty_pairs(written: Written, fault: Fault) -> List[Pair]:
    """The lines of a section on which a fault may be: those of the key that it names, or of the letter that stands twice."""
    if fault.number in (4, 5, 6):
        return written.lines_of(fault.fields[0])
    if fault.number == 7:
        return [pair for pair in written.pairs if is_piece(pair.key) and letter_of(pair.value) == fault.fields[0]][-1:]
    keys = ("startFen",) if fault.number == 8 else CONTRADICTING.get(fault.fields[0], ()) if fault.number == 9 else ()
    return [pair for key in keys for pair in written.lines_of(key)[-1:]][:1]


def rules_as_written(written: Written, parent: Mapping[str, str]) -> Dict[str, str]:
    """The rules of a section that is refused: its own, and those of its parent but for the pieces whose letters it gives to others."""
    own = {pair.key: pair.value for pair in written.pairs}
    taken = {letter_of(value) for key, value in own.items() if is_piece(key)}
    inherited = {key: value for key, value in parent.items() if not (is_piece(key) and letter_of(value) in taken)}
    return {**inherited, **own}


def repeated_keys(written: Written) -> List[Told]:
    """A warning for each line whose key is given again below it."""
    return [Told(pair.line, written.name, "warning", f"{pair.key} = {pair.value}: line {later.line} gives {pair.key} again, and this one says nothing")
            for pair in written.pairs for later in written.lines_of(pair.key)[-1:] if later.line != pair.line]


def lint_of(path: str, name: str) -> List[str]:
    """What lint says of a section of a file, but that it is ok: a text for each fault and each warning. The section of a file that is refused as a whole has
    its fault; a variant that is built in, or is not in the file, has none."""
    try:
        return [f"line {told.line}: {told.kind}: {told.words}" for told in Lint(path).told(name) if told.kind != "ok"]
    except Fault as fault:
        return [f"fault: {words_of(fault)} ({fault.text})"]


def options_of(words: Sequence[str]) -> argparse.Namespace:
    """The words of the command line."""
    parser = argparse.ArgumentParser(prog="python -m vengine lint", description=__doc__, formatter_class=argparse.RawDescriptionHelpFormatter)
    parser.add_argument("file", help="a file of variants")
    parser.add_argument("--strict", action="store_true", help="status 2 where there is a warning")
    parser.add_argument("--fen", nargs="+", default=[], help="positions that are judged")
    parser.add_argument("--of", metavar="NAME", help="the variant of the positions: by default the last section of the file")
    parser.add_argument("--program", help="the program that is asked")
    return parser.parse_args(words)


def main(words: Sequence[str]) -> int:
    """Prints what is said of the file and of the positions. What is answered is the exit status."""
    options = options_of(words)
    try:
        lint = Lint(options.file, options.program)
        told = lint.told()
    except Fault as fault:
        line = fault.fields[0] if fault.name == "IniFault" and fault.fields else "1"
        print(f"{options.file}:{line}: fault: {words_of(fault)} ({fault.text})")
        return 1
    except VengineError as error:
        print(f"vengine lint: {error}", file=sys.stderr)
        return 1
    for one in told:
        print(f"{options.file}:{one.line}: {one}")
    kinds = {one.kind for one in told}
    if options.fen and not judge_positions(lint, options.fen, options.of):
        kinds.add("fault")
    return 1 if "fault" in kinds else 2 if options.strict and "warning" in kinds else 0


def judge_positions(lint: Lint, fens: Sequence[str], name: Optional[str]) -> bool:
    """Prints what is said of positions, and answers whether each is one."""
    variant = name or (lint.written[-1].name if lint.written else "chess")
    faults = [lint.fen_told(fen, variant) for fen in fens]
    for fen, fault in zip(fens, faults):
        print(f"{fen}: {f'fault: {fault}' if fault else 'ok'}")
    return not any(faults)
