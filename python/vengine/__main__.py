"""The commands of the package: python -m vengine COMMAND [WORD ..]; without a command, or with --help, the list of them."""
from __future__ import annotations

import importlib
import sys
from typing import Dict, List, Tuple

# Each command, the module whose `main` runs it, and what it does.
COMMANDS: Dict[str, Tuple[str, str]] = {
    "board": ("vengine.board.server", "a board in the browser, for any variant"),
    "lint": ("vengine.lint", "says what is wrong with a file of variants, and what in it means nothing"),
    "judge": ("vengine.judge_command", "games of PGN by the rules: moves, ends, results and claims"),
    "lab": ("vengine.lab.main", "a report on a variant, by games that the program plays"),
    "perft": ("vengine.perft", "how many lines of legal moves begin at a position, by many workers"),
    "suite": ("vengine.suite", "any number of mate problems, by many workers"),
    "recheck": ("vengine.second_check", "checks a strategy, a proof text or a certificate without the program"),
}


def usage() -> str:
    """The commands, a line each."""
    return "\n".join(["usage: python -m vengine COMMAND [WORD ..]", ""] + [f"  {name:<10} {about}" for name, (_, about) in COMMANDS.items()])


def main(words: List[str]) -> int:
    """Runs the command that the first word names with the others. What is answered is the exit status."""
    if not words or words[0] in ("-h", "--help", "help"):
        print(usage())
        return 0 if words else 1
    if words[0] not in COMMANDS:
        print(f"vengine: no command {words[0]!r}\n{usage()}", file=sys.stderr)
        return 1
    status: int = importlib.import_module(COMMANDS[words[0]][0]).main(words[1:])
    return status


if __name__ == "__main__":
    sys.exit(main(sys.argv[1:]))
