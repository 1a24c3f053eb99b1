"""The faults of docs/FAULTS.md in words, for those who read what a program of this package shows."""
from __future__ import annotations

from typing import Dict, List, Optional

from vengine.faults import Fault

# What each fault says, by its type and number; {0} and {1} are its fields. The fault inside it is told after it.
WORDS: Dict[str, str] = {
    "FileFault 1": "there is no file of this name",
    "FileFault 2": "the file has more than 1,048,576 bytes",
    "FileFault 3": "the file could not be read",
    "IniFault 1": "the file has more than 1,048,576 bytes",
    "IniFault 2": "line {0} has a character outside ASCII that is not in a comment",
    "IniFault 3": "line {0} has more than 1,024 bytes",
    "IniFault 4": "line {0} is above the first section",
    "IniFault 5": "line {0} is not a comment, not a section header and not a pair KEY = VALUE",
    "IniFault 6": "line {0} begins the 513th section",
    "SectionFault 1": "an earlier section has this name",
    "SectionFault 2": "no earlier section has the name of its parent",
    "SectionFault 3": "its parent is refused",
    "SectionFault 4": "{0} is not an option",
    "SectionFault 5": "the value of {0} is not of its form",
    "SectionFault 6": "the word of {0} is faulty",
    "SectionFault 7": "two pieces of the section have the letter {0}",
    "SectionFault 8": "the start is not a position of these rules",
    "SectionFault 9": "the rules contradict each other",
    "BetzaFault 1": "the word is empty",
    "BetzaFault 2": "the word has more than 64 bytes",
    "BetzaFault 3": "there is no atom at place {0}",
    "BetzaFault 4": "the letter at place {0} is no modifier",
    "BetzaFault 5": "the modifier at place {0} stands twice",
    "BetzaFault 6": "the directions from place {0} on have no one meaning for this atom",
    "BetzaFault 7": "the n at place {0} needs one of the atoms N, A, D, H and G, not doubled and without a number",
    "BetzaFault 8": "the hopper at place {0} has both p and g, or goes only one step",
    "BetzaFault 9": "the number at place {0} is not one from 0 to 11",
    "BetzaFault 10": "the part at place {0} brings the word over 64 steps",
    "ReachFault 1": "{0} is not a square of the board",
    "ReachFault 2": "there is a piece on {0} already",
    "FenFault 1": "it has more than 1,024 bytes or not the right number of fields",
    "FenFault 2": "the placement has too few or too many ranks",
    "FenFault 3": "the placement has a character that is no piece of the variant, or a mark where none may be",
    "FenFault 4": "a rank has more or fewer squares than there are files, or a number that begins with 0",
    "FenFault 5": "the hand has a letter that no hand may hold, or a bracket is missing",
    "FenFault 6": "the side is neither w nor b",
    "FenFault 7": "the side cannot have this right or gate, or a letter is there twice",
    "FenFault 8": "no pawn can have passed this square",
    "FenFault 9": "the checks are not two numbers up to 99 with a + between them",
    "FenFault 10": "halfmoves or number are not a number up to 9,999",
    "FenFault 11": "a side has not exactly one king",
    "FenFault 12": "the king of the side that is not to move could be taken",
    "FenFault 13": "there are more than 240 pieces on the board and in the hands",
    "GameFault 1": "the text ends before line {0}",
    "GameFault 2": "no variant has the name {0}",
    "GameFault 3": "the variant is refused",
    "GameFault 4": "the position is not one of the variant",
    "GameFault 5": "move {0}, {1}, is not legal",
    "GameFault 6": "the game has more than 8,192 plies",
    "GameFault 7": "line {0} is not a goal",
    "GameFault 8": "line {0} has more than 131,072 bytes",
    "StrategyFault 1": "line {0} is not of the form that the header has",
    "StrategyFault 2": "line {0} is not a line of a strategy",
    "StrategyFault 3": "the position on line {0} is not one of the variant",
    "StrategyFault 4": "the text on line {0} is not that of a move",
    "StrategyFault 5": "a number on line {0} is wrong",
    "StrategyFault 6": "the strategy ends at line {0} without its end, or goes on after it",
    "Verdict 1": "node 0 is not the position of the game with the goal",
    "Verdict 2": "an edge of node {0} has a wrong move",
    "Verdict 3": "node {0} has no edge for the reply {1}",
    "Verdict 4": "the ranks at node {0} do not fall",
    "Verdict 5": "the counter falls after an edge of node {0}",
    "Verdict 6": "the position of node {0} repeats",
    "Verdict 7": "the game is over at node {0} and not won",
    "ProofFault 1": "line {0} is missing or not of the form that it has to have",
    "ProofFault 2": "line {0} of the rules is not a pair, or is missing",
    "ProofFault 3": "the rules are refused",
    "ProofFault 4": "the start on line {0} is not a position of these rules",
    "ProofFault 5": "the move on line {0} is not legal, or is missing",
    "ProofFault 6": "the strategy is faulty",
    "CertFault 1": "line {0} of the certificate is faulty",
    "CertFault 2": "the certificate ends at line {0} without its end, or goes on after it",
    "CertVerdict 1": "the ply of step {0} cannot follow the one before",
    "CertVerdict 2": "the move of step {0} is not legal or not allowed",
    "CertVerdict 3": "step {0} is longer than the goal allows",
    "CertVerdict 4": "the game is over at step {0}, and not by the mate that was claimed",
    "CertVerdict 5": "step {0} has no line for the reply {1}",
    "CertVerdict 6": "the game is not over at step {0}, and no move follows",
    "SuiteFault 1": "line {0} is not a problem",
    "SuiteFault 2": "no variant has the name on line {0}",
    "SuiteFault 3": "the variant on line {0} is refused",
    "SuiteFault 4": "the position on line {0} is not one of the variant",
    "SuiteFault 5": "the move count could end the game of line {0} within its moves",
    "SuiteFault 6": "line {0} is the 1,001st problem",
    "SuiteFault 7": "line {0} has more than 131,072 bytes",
    "PnFault 1": "the move count could end the game within these moves",
    "PnFault 2": "the game is over",
    "KeysFault 1": "the move count could end the game within these moves",
    "KeysFault 2": "the game is over",
    "KeysFault 3": "the game has more than 8,190 plies",
    "LineFault 1": "the line has more than 131,072 bytes",
    "OptionFault 1": "the value of {0} is missing or out of its range",
    "OptionFault 2": "no variant has the name {0}",
    "PositionFault 1": "the FEN is not a position of the variant",
    "PositionFault 2": "move {0}, {1}, is not legal",
    "PositionFault 3": "the game has more than 8,192 plies",
    "PositionFault 4": "there is no position",
}

# Which rules contradict each other, by the number of `SectionFault 9`.
CONTRADICTIONS: Dict[str, str] = {
    "1": "there is no piece",
    "2": "promotionPieceTypes names the pawn or the king",
    "3": "promotedPieceType names the pawn or the king, has a letter twice on the left, or one on both sides",
    "4": "seirawanGating needs gating",
    "5": "gating allows no more than 10 files, no castling on another rank than 1, and none with pawns",
}


def parts_of(fault: Fault) -> List[Fault]:
    """The fault and those inside it, from the outermost to the innermost."""
    found: List[Fault] = []
    one: Optional[Fault] = fault
    while one is not None:
        found.append(one)
        one = one.inner
    return found


def words_of(fault: Fault) -> str:
    """What a fault says, that of the fault inside it last; the text of one that is not known here."""
    return ": ".join(map(own_words, parts_of(fault)))


def own_words(fault: Fault) -> str:
    """What a fault says without the one inside it."""
    name = f"{fault.name} {fault.number}"
    if name == "SectionFault 9" and fault.fields:
        return CONTRADICTIONS.get(fault.fields[0], WORDS[name])
    return WORDS[name].format(*fault.fields) if name in WORDS else fault.text
