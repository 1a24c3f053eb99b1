"""A client of Vengine for Python: this package and the program are all that it needs, on Linux.

    from vengine import Engine

    with Engine() as engine:
        print(engine.legal_moves("chess", "startpos", ["e2e4", "e7e5"]))
        print(engine.result("chess", "startpos", ["f2f3", "e7e5", "g2g4", "d8h4"]))

An `Engine` is a session of the program in a process of its own. Each call names a variant, a position ("startpos" or a FEN) and the moves
played from it; what it answers is what the program says, and nothing is worked out here. The page docs/CLIENT.md has the errors, the times,
what several threads may do, and what is proved.
"""
from vengine.answers import (FEN_OK, VALUE_DRAW, VALUE_MATE, Found, Info, Key, Mate, Node, Position, Result, Section, mate_of, names_of, nodes_of, result_of,
                             value_for)
from vengine.engine import Engine
from vengine.faults import BadInput, Busy, Ended, Fault, NotOver, TimedOut, Unsupported, VengineError
from vengine.library import HeldGame, Kept, Library, Reply
from vengine.lines import LONGEST_ANSWER, LONGEST_LINE, OUT_OF_MEMORY, STATUSES, Lines, Wanted, end_of, is_wanted, kill, pipes_of, release, started
from vengine.program import HERE, NOT_REFEREED, NO_FILE, REFUSED, USAGE, find_library, find_program, printed, run
from vengine.referee import Referee
from vengine.search import Search
from vengine.sections import LARGEST_FILE, read_file
from vengine.texts import GREATEST, MOVE, RANGES, argument_of, bytes_of, fen_of, game_text, go_line, has_end, moves_of, number_of, printable, root_move, word_of
from vengine.version import __version__

__all__ = ["BadInput", "Busy", "Ended", "Engine", "FEN_OK", "Fault", "Found", "GREATEST", "HERE", "HeldGame", "Info", "Kept", "Key", "LARGEST_FILE",
           "LONGEST_ANSWER", "LONGEST_LINE", "Library", "Lines", "MOVE", "Mate", "NOT_REFEREED", "NO_FILE", "Node", "NotOver", "OUT_OF_MEMORY", "Position",
           "RANGES", "REFUSED", "Referee", "Reply", "Result", "STATUSES", "Search", "Section", "TimedOut", "USAGE", "Unsupported", "VALUE_DRAW", "VALUE_MATE",
           "VengineError", "Wanted", "__version__", "argument_of", "bytes_of", "end_of", "fen_of", "find_library", "find_program", "game_text", "go_line",
           "has_end", "is_wanted", "kill", "mate_of", "moves_of", "names_of", "nodes_of", "number_of", "pipes_of", "printable", "printed", "read_file", "release",
           "result_of", "root_move", "run", "started", "value_for", "word_of"]
