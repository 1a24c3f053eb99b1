#!/usr/bin/env python3
"""Compares python/vengine/second_check.py with `vengine check` and `vengine stipulate check`, line for line, on whole and on spoilt texts.

Usage: bench/second_check.py [--cases FOLDER] [--each N] [--faults N] [--mates N] [--seed N]

The texts: proof texts that the program announces for the positions of FOLDER/mates.json (the first N of --mates) and for late positions of random
games of the ten built-in variants and of all sections of examples/; the checks of examples/cases, and of strategies.json, stipulate.json and
problems.json of FOLDER; helpmates that the program finds. Of each text --faults are made by planting a fault, and more are planted in texts of at
most 60 lines until each number of a fault or failure has come --each times. The tables say how often each answer came, and how many sections had
texts. Ends with an error where an answer or a status differs, or a number has not come often enough. VENGINE=FILE names another program.
"""
import argparse
import collections
import itertools
import json
import os
import random
import re
import subprocess
import sys
import tempfile
import time

from programs import TOP, find_program
from vengine import Ended, Lines

sys.path.insert(0, os.path.join(TOP, "examples"))
sys.path.insert(0, os.path.join(TOP, "python", "vengine"))
import cases  # noqa: E402
import second_check  # noqa: E402

ENGINE = find_program()
BUILT_IN = {name: dict(pair.split("=") for pair in text.split(";")) for name, text in second_check.BUILT_IN.items()}
EXAMPLES = ("fairy", "gardner", "mini", "wild", "wizards", "tight")
# Each number that has to come. No certificate's text has CertVerdict 1, and a built-in variant is never refused.
NUMBERS = {"StrategyFault": range(1, 7), "ProofFault": range(1, 7), "Verdict": range(1, 8), "CertFault": range(1, 3), "CertVerdict": range(2, 7)}


class Text:
    """A text to be checked: the words of the program, the sections that it needs beside those that are built in, and its lines."""

    def __init__(self, text, words=("check",), sections="", name=""):
        self.words, self.sections, self.name = list(words), sections, name
        self.lines = text.encode().decode("latin-1").split("\n")

    def with_lines(self, lines):
        other = Text("", self.words, self.sections, self.name)
        other.lines = lines
        return other


def sections_of(text):
    """The rules of the sections of a file, as pairs: those of the parent that are not taken away, and the section's own."""
    found, name = dict(BUILT_IN), None
    for line in text.split("\n"):
        header = re.fullmatch(r"\[([^:\]]*)(?::([^:\]]*))?\]", line.strip())
        key, equals, value = (part.strip() for part in line.partition("="))
        if header:
            name = header[1] if header[1] not in found else None
            found.setdefault(header[1], dict(found.get(header[2], {})))
        elif equals and name and key[:1] not in "#;":
            found[name][key] = value
            if is_piece(key):
                for other in [one for one in found[name] if is_piece(one) and one != key and found[name][one][:1].lower() == value[:1].lower()]:
                    del found[name][other]
    return found


def is_piece(key):
    return key in second_check.WORDS or key in second_check.CUSTOM


def asked_of_program(words, text, sections=""):
    """What the program prints of a text, and its status."""
    with tempfile.NamedTemporaryFile("w", suffix=".ini", encoding="utf-8") as kept:
        kept.write(sections)
        kept.flush()
        more = ["--variants", kept.name] if sections else []
        done = subprocess.run([ENGINE] + more + words, input=text.encode("latin-1"), stdout=subprocess.PIPE, check=False)
    return done.stdout.decode("latin-1"), done.returncode


def asked_of_second(text):
    """What the second checker prints of a text, and its status. It is given the sections as if they were built in."""
    second_check.BUILT_IN.clear()
    sections = sections_of(text.sections) if text.sections else BUILT_IN
    second_check.BUILT_IN.update({name: ";".join(f"{key}={value}" for key, value in rules.items()) for name, rules in sections.items()})
    try:
        return second_check.answer("\n".join(text.lines), "stipulate" in text.words) + "\n", 0
    except second_check.Fault as fault:
        return f"error {fault}\n", 3


# ---- Planted faults: each takes the lines of a text, and answers others

def leave(lines, chance):
    at = chance.randrange(len(lines))
    return lines[:at] + lines[at + 1:]


def double(lines, chance):
    at = chance.randrange(len(lines))
    return lines[:at] + [chance.choice(lines)] + lines[at:]


def swap(lines, chance):
    lines, at, other = list(lines), chance.randrange(len(lines)), chance.randrange(len(lines))
    lines[at], lines[other] = lines[other], lines[at]
    return lines


def changed(lines, at, line):
    return lines[:at] + [line] + lines[at + 1:]


def other_word(lines, chance):
    at = chance.randrange(len(lines))
    words = lines[at].split(" ")
    words[chance.randrange(len(words))] = chance.choice(chance.choice(lines).split(" "))
    return changed(lines, at, " ".join(words))


def other_byte(lines, chance):
    at = chance.randrange(len(lines))
    place = chance.randrange(len(lines[at]) + 1)
    return changed(lines, at, lines[at][:place] + chance.choice("kKqpP1290+~-/ =#[]w:\t") + lines[at][place + chance.randrange(2):])


def other_number(lines, chance, at=None):
    at = chance.randrange(len(lines)) if at is None else at
    found = list(re.finditer("[0-9]+", lines[at]))
    if not found:
        return lines
    one = chance.choice(found)
    return changed(lines, at, lines[at][:one.start()] + str(max(int(one[0]) + chance.choice((-1, 1, 7)), 0)) + lines[at][one.end():])


def places(lines, word):
    return [at for at, line in enumerate(lines) if line.startswith(word)]


def in_head(lines, chance):
    """A fault above the nodes of a proof text: in its rules, start, history or goal."""
    end = (places(lines, "nodes ") or [len(lines) - 1])[0]
    way = chance.choice((leave, double, swap, other_word, other_byte, other_number))
    return way(lines[:end], chance) + lines[end:] if end else lines


def in_history(lines, chance):
    """A move that is not legal at its place of the history of a proof text."""
    at = (places(lines, "history ") or [-1])[0]
    return changed(lines, at, f"history {int(lines[at].split()[1]) + chance.randrange(1, 9)}") if at >= 0 else lines


def less_goal(lines, chance):
    """A goal of fewer moves, or of the other side."""
    at = (places(lines, "goal ") + places(lines, "mate ") + places(lines, "self ") + places(lines, "help ") + [-1])[0]
    if at < 0:
        return lines
    word, _, number = lines[at].rpartition(" ")
    return changed(lines, at, f"{word} {max(int(number) - 1, 1)}") if number.isdigit() else lines


def edge_left(lines, chance):
    edges = places(lines, "edge ")
    at = chance.choice(edges) if edges else -1
    return lines[:at] + lines[at + 1:] if edges else lines


def field_of_node(lines, chance, place, value):
    """A node with another word: 2 is the rank, -2 the counter."""
    nodes = places(lines, "node ")
    if not nodes:
        return lines
    at = chance.choice(nodes)
    words = lines[at].split(" ")
    words[place] = value(words[place]) if words[place].isdigit() else words[place]
    return changed(lines, at, " ".join(words))


def other_rank(lines, chance):
    return field_of_node(lines, chance, 2, lambda word: str(int(word) + chance.choice((-2, -1, 1, 2))).lstrip("-"))


def less_counter(lines, chance):
    return field_of_node(lines, chance, -2, lambda word: str(int(word) // 2))


def later(lines, chance):
    """All counters of the nodes so great that the game is drawn by the move count, or nearly."""
    more = chance.randrange(92, 104)
    return [re.sub(r"(\d+) (\d+)$", lambda found: f"{int(found[1]) + more} {found[2]}", line) if line.startswith("node ") else line for line in lines]


def twin(lines, chance):
    """A node with its edges twice, or once more as a node to which nothing leads and with another counter."""
    nodes, count = places(lines, "node "), (places(lines, "nodes ") or [-1])[0]
    if not nodes or count < 0 or lines[-2:-1] != ["end"]:
        return lines
    at = chance.choice(nodes)
    words = lines[at].split(" ")
    words[1] = str(len(nodes))
    if chance.random() < 0.5 and words[-2].isdigit():
        words[-2] = str(int(words[-2]) + chance.randrange(2))
    edges = list(itertools.takewhile(lambda line: line.startswith("edge "), lines[at + 1:]))
    return changed(lines, count, f"nodes {len(nodes) + 1}")[:-2] + [" ".join(words)] + edges + lines[-2:]


def step_left(lines, chance):
    """A certificate without the last of its moves, or with one of them twice."""
    steps = [at for at, line in enumerate(lines) if re.match("[0-9]+ [^/]*$", line)]
    if not steps:
        return lines
    at = chance.choice(steps)
    return lines[:at] + lines[at:at + 1] * chance.choice((0, 2)) + lines[at + 1:] if chance.random() < 0.6 else changed(lines, steps[-1], "end")[:steps[-1] + 1]


def other_step(lines, chance):
    """A certificate that goes on by another legal move, or goes on after its end."""
    steps = [at for at, line in enumerate(lines) if re.match("[0-9]+ [^/]*$", line)]
    try:
        game = second_check.read_game(lines)
        at = chance.choice(steps)
        for line in lines[steps[0]:at]:
            game.play(line.split(" ")[1])
        line = lines[at].split(" ")[0] + " " + chance.choice(list(game.position.legal_moves()))
    except (second_check.Fault, IndexError, ValueError):
        return lines
    kept = lines[:at] + [line] + chance.choice(([], lines[at:])) if chance.random() < 0.5 else lines[:at] + [lines[at], line] + lines[at + 1:]
    return kept if "end" in kept else kept + ["end"]


WAYS = (leave, double, swap, other_word, other_word, other_byte, other_number, other_number, in_head, in_head, in_history, less_goal, edge_left, edge_left,
        other_rank, less_counter, later, twin, twin, step_left, other_step)


# ---- The texts

def texts_of_cases():
    """The checks of examples/cases."""
    for name in ("check", "stipulate"):
        for case in cases.read_cases(os.path.join(TOP, "examples", "cases", name + ".txt"), name):
            if case.kind == "$" and case.words()[-1] == "check":
                files = "\n".join(line for lines in case.files.values() for line in lines)
                words = case.words()[-2:] if "stipulate" in case.words() else ["check"]
                yield Text("".join(line + "\n" for line, _ in case.given[1:]), words, files, f"examples/cases/{name}.txt")


def texts_of_folder(folder):
    """The checks of the lists of cases, and those of what their problems answer."""
    for name in ("strategies", "stipulate", "problems"):
        path = os.path.join(folder, name + ".json")
        with open(path, encoding="utf-8") as file:
            listed = json.load(file)
        for case in listed:
            words, sections = case["words"], case["files"].get("v.ini", "")
            game = case["stdin"].rstrip("\n").split("\n")[:3]
            game += [""] * (3 - len(game))
            if words[-1] == "check":
                yield Text(case["stdin"], ["stipulate", "check"] if "stipulate" in words else ["check"], sections, name)
            elif len(words) > 1 and words[-2] in ("self", "help") and case["stdout"] != "none\n":
                yield Text("\n".join(game + [" ".join(words[-2:])]) + "\n" + case["stdout"], ["stipulate", "check"], sections, name)
            elif len(words) > 1 and words[-2] == "pnmate" and case["stdout"].startswith("mate "):
                with tempfile.NamedTemporaryFile("w", suffix=".ini", encoding="utf-8") as kept:
                    kept.write(sections)
                    kept.flush()
                    yield from announced([(game[0], game[1], int(words[-1]), 1)], kept.name, name)


def announced(positions, variants_file=None, name=""):
    """The proof texts that the program announces for positions (variant, FEN, number, how many of the variant at most)."""
    words = [ENGINE] + (["--variants", variants_file] if variants_file else [])
    counts = collections.Counter()
    session = Lines(words, timeout=120)
    session.ask("uci", "uciok")
    for variant, fen, within, most in positions:
        if counts[variant] == most:
            continue
        session.say(f"setoption name UCI_Variant value {variant}", "ucinewgame", f"position fen {fen}")
        session.ask(f"go mate {within}", "bestmove")
        said = session.ask("strategy", lambda line: line in ("end", "info string no strategy"))
        if "strategy 2" in said:
            counts[variant] += 1
            yield Text("\n".join(said[said.index("strategy 2"):]) + "\n", name=f"{name} {variant}")
    session.close()


def late_positions(variants, words):
    """Late positions of random games of variants, to look for mates in two."""
    for variant in variants:
        for start in range(24):
            said = asked_of_program(words + ["generate", variant, str(start), str(30 + 8 * start)], "")[0].split("\n")
            if len(said) > 2 and said[2] == "ongoing":
                yield variant, said[1], 2, 3


def helpmates(variants):
    """Helpmates in one that the program finds in late positions."""
    for variant, fen, _, _ in late_positions(variants, []):
        game = f"{variant}\n{fen}\n\n"
        said, status = asked_of_program(["stipulate", "help", "1"], game)
        if status == 0 and said != "none\n":
            yield Text(game + "help 1\n" + said, ["stipulate", "check"], name="helpmates")


def texts_of_examples():
    """What is announced in the sections of examples/."""
    for name in EXAMPLES:
        path = os.path.join(TOP, "examples", name + ".ini")
        listed = asked_of_program(["--variants", path, "variants"], "")[0].split("\n")
        variants = [line.split(" ")[0] for line in listed if line.endswith(" ok") and line.split(" ")[0] not in BUILT_IN]
        yield from announced(late_positions(variants, ["--variants", path]), path, name)


def all_texts(given):
    yield from texts_of_cases()
    if given.cases:
        yield from texts_of_folder(given.cases)
        with open(os.path.join(given.cases, "mates.json"), encoding="utf-8") as file:
            positions = [(row["variant"], row["fen"], row["within"], given.mates) for row in json.load(file)]
            yield from announced(positions[:given.mates], name="mates.json")
    yield from announced(late_positions(BUILT_IN, []), name="built in")
    yield from helpmates(BUILT_IN)
    yield from texts_of_examples()


class Comparison:
    """Counts the answers, and prints what differs."""

    def __init__(self, seed):
        self.chance, self.answers, self.differences = random.Random(seed), collections.Counter(), 0
        self.nodes, self.seconds, self.short, self.named = 0, 0.0, [], collections.Counter()

    def compare(self, text, faults):
        """Compares a text and its spoilt forms."""
        if self.one(text) in ("wins\n", "holds\n") and len(text.lines) <= 60:
            self.short.append(text)
        for _ in range(faults):
            self.one(text.with_lines(self.chance.choice(WAYS)(text.lines, self.chance)))

    def one(self, text):
        """Compares a text, and says what the program answers."""
        wanted = asked_of_program(text.words, "\n".join(text.lines), text.sections)
        if "RefusedVariant" in wanted[0]:
            return wanted[0]
        begun = time.monotonic()
        said = asked_of_second(text)
        if wanted[0] == "wins\n":
            self.seconds += time.monotonic() - begun
            self.nodes += len(places(text.lines, "node "))
        if wanted[0] in ("wins\n", "holds\n"):
            self.named[text.name] += 1
        for family, number, _ in set(re.findall("([A-Za-z]+(?:Fault|Verdict)|Verdict) ([0-9]+) ([A-Za-z]+)", wanted[0])):
            self.answers[family, int(number)] += 1
        if said != wanted:
            self.differences += 1
            print(f"differs: {text.words}\n{text.sections}\n" + "\n".join(text.lines) + f"\nprogram {wanted}\nsecond  {said}", flush=True)
        return wanted[0]

    def plant(self, each, rounds):
        """Plants faults until each number has come so often. What is answered is the numbers that have not."""
        for _ in range(rounds if self.short else 0):
            missing = [(family, number) for family, numbers in NUMBERS.items() for number in numbers if self.answers[family, number] < each]
            if not missing:
                return []
            text = self.chance.choice([text for text in self.short if ("stipulate" in text.words) == (self.chance.random() < 0.4)] or self.short)
            self.one(text.with_lines(self.chance.choice(WAYS)(text.lines, self.chance)))
        return missing


def main():
    parser = argparse.ArgumentParser(description=__doc__, formatter_class=argparse.RawDescriptionHelpFormatter)
    parser.add_argument("--cases")
    parser.add_argument("--each", type=int, default=50)
    parser.add_argument("--faults", type=int, default=3)
    parser.add_argument("--mates", type=int, default=159)
    parser.add_argument("--seed", type=int, default=1)
    given = parser.parse_args()
    comparison = Comparison(given.seed)
    for text in all_texts(given):
        comparison.compare(text, given.faults)
    missing = comparison.plant(given.each, 20000)
    for (family, number), count in sorted(comparison.answers.items()):
        print(f"{count:7} {family} {number}")
    for name, count in sorted(comparison.named.items()):
        print(f"{count:7} right texts of {name}")
    print(f"{comparison.nodes} nodes of strategies that win in {comparison.seconds:.1f} s")
    if comparison.differences or missing:
        sys.exit(f"second_check: {comparison.differences} answers differ; not often enough came {missing}")


if __name__ == "__main__":
    try:
        main()
    except Ended as error:
        sys.exit(f"second_check: {error}")
