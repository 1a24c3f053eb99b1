#!/usr/bin/env python3
"""How long `go mate N` takes, beside Fairy-Stockfish's, on positions with a known mate.

Usage: bench/mates.py FILE [--engine COMMAND] [--limit SECONDS] [--threads N[,N ..]] [--slow] [--times N] [--variant NAME] [--most N]
                      [--check] [--each]

FILE is a list in JSON of positions {"variant", "fen", "within", "least"}: the mover mates within the number `within`, and `least` is the
least such number, or absent. Both programs get `go mate WITHIN` for each position, one after the other in the same run, each in one session
for all positions of a variant, after `ucinewgame`; the time is that from `go` to `bestmove`. What takes longer than the limit (60 seconds by
default) is stopped and counted with the limit. The table has a row for each least number: the seconds of both for all of its positions, their
ratio, the longest of each, and how many each left unsolved.

`--threads` sets `Threads` of both (1 by default). With several numbers, as `--threads 1,4`, Vengine is measured with each of them in
place of Fairy-Stockfish, one after the other for each position, and the ratio is that of the first to the last. `--slow` leaves out of
the table what the first column solves within a second. `--times N` solves each position N times, and the least time counts. `--variant`
and `--most` leave out other variants and greater numbers, `--each` prints a line for each position, and `--check` has `vengine check`
read every strategy. Without Debian's package fairy-stockfish its columns are left out, which is said. Ends with an error where a number
that was found is not the file's, or a strategy is not accepted. `--engine` or VENGINE=FILE names another program.
"""
import argparse
import collections
import json
import shlex
import sys
import time

from programs import OTHER, find_program
from vengine import Ended, Fault, Lines, TimedOut, run

SLOW = 1.0


class Solver(Lines):
    """A UCI engine that looks for mates in positions of a variant."""

    def __init__(self, command, variant, threads):
        super().__init__(shlex.split(command), timeout=60)
        self.ask("uci", "uciok")
        self.say(f"setoption name UCI_Variant value {variant}", f"setoption name Threads value {threads}")

    def solve(self, fen, within, limit):
        """The number of moves that was found, or None, and the seconds that it took; the limit where it was stopped."""
        self.say("ucinewgame", f"position fen {fen}")
        self.ask("isready", "readyok")
        begun = time.monotonic()
        try:
            said = self.ask(f"go mate {within}", "bestmove", limit)
        except TimedOut:
            self.ask("stop", "bestmove")
            return None, limit
        return mate_in(said), time.monotonic() - begun

    def strategy(self):
        """The proof text of the mate that was announced last."""
        return "".join(line + "\n" for line in self.ask("strategy", lambda line: line in ("end", "info string no strategy")))


def mate_in(lines):
    """The number of the last line that says within how many moves the mover mates."""
    found = None
    for line in lines:
        words = line.split()
        if words[:1] == ["info"] and "score" in words:
            kind, value = words[words.index("score") + 1:][:2]
            found = int(value) if kind == "mate" and int(value) > 0 else None
    return found


def is_accepted(engine, text):
    try:
        return run(shlex.split(engine) + ["check"], text) == "wins\n"
    except Fault:
        return False


class Row:
    """What the columns took for the positions of one least number."""

    def __init__(self, columns):
        self.count = 0
        self.seconds = [0.0] * columns
        self.longest = [0.0] * columns
        self.unsolved = [0] * columns

    def add(self, answers):
        self.count += 1
        for place, (found, taken) in enumerate(answers):
            self.seconds[place] += taken
            self.longest[place] = max(self.longest[place], taken)
            self.unsolved[place] += found is None

    def join(self, other):
        self.count += other.count
        for place in range(len(self.seconds)):
            self.seconds[place] += other.seconds[place]
            self.longest[place] = max(self.longest[place], other.longest[place])
            self.unsolved[place] += other.unsolved[place]

    def text(self):
        parts = [f"{self.count:9}"]
        for seconds, longest, unsolved in zip(self.seconds, self.longest, self.unsolved):
            parts.append(f"{seconds:11.2f} {longest:9.3f} {unsolved:8}")
        if len(self.seconds) > 1:
            parts.append(f"{self.seconds[0] / max(self.seconds[-1], 1e-6):8.2f}")
        return " ".join(parts)


def fault_of(row, found, session, given):
    """What is wrong with what was found, or None."""
    if found is None:
        return None
    least = row.get("least")
    if least is not None and found != least:
        return f"found {found} where the file says {least}"
    if given.check and not is_accepted(given.engine, session.strategy()):
        return "the strategy is not accepted"
    return None


def best_of(session, position, given):
    """What was found, and the least of the times."""
    answers = [session.solve(position["fen"], position["within"], given.limit) for _ in range(given.times)]
    return min(answers, key=lambda answer: answer[1])


def columns_of(given):
    """The name, the command and the threads of each column."""
    if len(given.threads) > 1:
        return [(f"{count} threads", given.engine, count) for count in given.threads]
    return [("vengine", given.engine, given.threads[0])] + ([("fairy", OTHER, given.threads[0])] if OTHER else [])


def measure(variant, positions, given, rows):
    """Solves the positions by each column, and says how many went wrong."""
    sessions = [Solver(command, variant, threads) for _, command, threads in columns_of(given)]
    ours = [command == given.engine for _, command, _ in columns_of(given)]
    wrong = 0
    for position in positions:
        answers = [best_of(session, position, given) for session in sessions]
        if not given.slow or answers[0][1] >= SLOW:
            rows[position.get("least", answers[0][0] or position["within"])].add(answers)
        faults = [fault_of(position, found, session, given) for (found, _), session, own in zip(answers, sessions, ours) if own]
        fault = next((one for one in faults if one), None)
        wrong += fault is not None
        if given.each or fault:
            told = ", ".join(f"{found or 'none'} in {taken:.3f} s" for found, taken in answers)
            print(f"{variant} {position['fen']} within {position['within']}: {told}{': ' + fault if fault else ''}", flush=True)
    for session in sessions:
        session.close()
    return wrong


def tell(rows, names):
    heads = [f"{name + ', s':>11} {'longest':>9} {'unsolved':>8}" for name in names]
    print(f"{'moves':5} {'positions':>9} {' '.join(heads)}{'    ratio' if len(names) > 1 else ''}")
    whole = Row(len(names))
    for least in sorted(rows):
        print(f"{least:5} {rows[least].text()}")
        whole.join(rows[least])
    print(f"{'all':>5} {whole.text()}")


def counts_of(text):
    return [int(part) for part in text.split(",")]


def main():
    parser = argparse.ArgumentParser(description=__doc__, formatter_class=argparse.RawDescriptionHelpFormatter)
    parser.add_argument("file")
    parser.add_argument("--engine", default=find_program())
    parser.add_argument("--limit", type=float, default=60.0)
    parser.add_argument("--threads", type=counts_of, default=[1])
    parser.add_argument("--slow", action="store_true")
    parser.add_argument("--times", type=int, default=1)
    parser.add_argument("--variant")
    parser.add_argument("--most", type=int, default=100)
    parser.add_argument("--check", action="store_true")
    parser.add_argument("--each", action="store_true")
    given = parser.parse_args()
    if OTHER is None and len(given.threads) == 1:
        print("without Debian's package fairy-stockfish: its columns are left out")
    with open(given.file, encoding="utf-8") as file:
        positions = [row for row in json.load(file) if row.get("least", row["within"]) <= given.most]
    by_variant = collections.defaultdict(list)
    for position in positions:
        if given.variant in (None, position["variant"]):
            by_variant[position["variant"]].append(position)
    names = [name for name, _, _ in columns_of(given)]
    rows, wrong = collections.defaultdict(lambda: Row(len(names))), 0
    for variant, some in by_variant.items():
        wrong += measure(variant, some, given, rows)
    tell(rows, names)
    if wrong:
        sys.exit(f"mates: {wrong} went wrong")


if __name__ == "__main__":
    try:
        main()
    except Ended as error:
        sys.exit(f"mates: {error}")
