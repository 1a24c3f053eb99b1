#!/usr/bin/env python3
"""Loads UCI sessions: many lines, many sessions at once, and a long search.

Usage: bench/sessions_load.py [PROGRAM] [--lines N] [--sessions N] [--minutes M] [--workers W,..] [--seed N]
       (VENGINE or the program that ./vengine becomes, 10000 lines, 200 sessions, 10 minutes with 1 worker and with 4, and seed 1 by default;
       0 leaves a part out)

1. One session of generated lines: right ones, faulty ones and ones that say nothing. Each `isready`, `go`, `moves` and `status` must have
   its answer, and the session must end with status 0.
2. So many sessions at once, each with 1 MiB of hints, a search of depth 3 and a mate in two. Each must say the same.
3. A `go infinite` of so many minutes for each number of workers, with an `isready` each second. Each must be answered within half a
   second. Where other work takes the processors, the answer waits for one: the system's count of that (schedstat in /proc) is told of
   the thread that answers, of the one that reads and of this script, beside the time that the first ran until this script looked: the
   program's own share of the answer is no more than that.

Prints the times, and the memory that the kernel gives of a session (VmRSS in /proc). Ends with status 1 where an answer is missing or late.
"""
import argparse
import collections
import os
import random
import subprocess
import time

from programs import built, memory_of, seconds_of
from vengine import Ended, Lines

MOVES = ["e2e4", "e7e5", "g1f3", "b8c6", "f1b5", "a7a6", "d2d4", "e5d4", "e1g1", "e2e5", "P@e4", "x", "e7e8q"]
VARIANTS = ["chess", "crazyhouse", "3check", "losalamos", "capablanca", "seirawan", "xiangqi", "nothing", ""]
FENS = ["8/8 w - - 0 1", "7k/R7/5K2/8/8/8/8/8 w - - 0 1", "k7/8/8/8/8/8/1q6/K7 w - - 0 1", "7k/8/5KQ1/8/8/8/8/8 w - - 99 80", ""]
OPTIONS = ["Threads", "Hash", "MateFacts", "VariantPath", "UCI_Variant", "Other", ""]


def generated(random_numbers):
    """One line."""
    pick = random_numbers.choice
    kind = random_numbers.randrange(12)
    if kind < 3:
        moves = [pick(MOVES) for _ in range(random_numbers.randrange(8))]
        return "position startpos moves " + " ".join(moves)
    if kind == 3:
        return "position fen " + pick(FENS)
    if kind == 4:
        return f"setoption name {pick(OPTIONS)} value {pick(['1', '2', '16', '0', 'x', ''])}"
    if kind == 5:
        return "setoption name UCI_Variant value " + pick(VARIANTS)
    if kind == 6:
        return pick(["go depth 1", "go nodes 500", "go mate 1", "go movetime 1", "go depth 2 searchmoves e2e4"])
    if kind == 7:
        return "".join(chr(random_numbers.randrange(32, 127)) for _ in range(random_numbers.randrange(60))).replace("go", "")
    return pick(["isready", "moves", "status", "strategy", "ucinewgame", "stop", "debug on", "", "position", "setoption"])


def first_word(line):
    """The command of a line: its first word that is one."""
    known = {"uci", "isready", "ucinewgame", "setoption", "position", "go", "stop", "ponderhit", "debug", "register", "moves", "status",
             "strategy", "quit"}
    return next((word for word in line.split() if word in known), "")


def long_session(program, count, seed):
    numbers = random.Random(seed)
    lines = [line for line in (generated(numbers) for _ in range(count)) if first_word(line) not in ("quit", "uci")]
    asked = collections.Counter(first_word(line) for line in lines)
    begun = time.monotonic()
    done = subprocess.run([program], input="\n".join(lines + ["quit", ""]).encode(), capture_output=True, timeout=3600)
    took = time.monotonic() - begun
    said = collections.Counter(line.split(b" ")[0].decode() for line in done.stdout.split(b"\n"))
    states = said["ongoing"] + said["won"] + said["drawn"]
    pairs = [("isready", said["readyok"]), ("go", said["bestmove"]), ("moves", said["moves"]), ("status", states)]
    missing = [f"{word}: {asked[word]} asked, {answers} answered" for word, answers in pairs if asked[word] != answers]
    wrong = bool(missing) or done.returncode != 0 or bool(done.stderr)
    print(f"a session of {len(lines)} lines: {took:.1f} s, {len(done.stdout)} bytes, status {done.returncode}; "
          + ("; ".join(missing) or "all answers there"), flush=True)
    return wrong


def to_the_end(session):
    """The status and all that is said after the search, up to the end."""
    said = session.wait_for("bestmove")
    session.say("quit")
    try:
        session.wait_for(lambda line: False)
    except Ended as end:
        return end.status, "\n".join(said + end.said)


def many_sessions(program, count):
    begun = time.monotonic()
    held = [Lines([program]) for _ in range(count)]
    for session in held:
        session.say("uci", "setoption name Hash value 1", "setoption name MateFacts value 64", "position startpos", "go depth 3")
    answers = collections.Counter()
    for session in held:
        said = session.wait_for("bestmove")
        session.say("position fen 7k/R7/5K2/8/8/8/8/8 w - - 0 1", "go mate 2")
        answers["\n".join(said)] += 1
    for session in held:
        answers[to_the_end(session)] += 1
    took = time.monotonic() - begun
    expected = (0, "info depth 3 score mate 2 pv f6g6\nbestmove f6g6")
    wrong = answers[expected] != count or len(answers) != 2
    print(f"{count} sessions at once: {took:.1f} s; {'answers that differ' if wrong else 'all say the same'}", flush=True)
    return wrong


def spent(path):
    """The milliseconds that a thread ran, and those that it waited for a processor."""
    with open(f"/proc/{path}/schedstat") as file:
        ran, waited = file.read().split()[:2]
    return int(ran) / 1e6, int(waited) / 1e6


class Answers:
    """How soon a session answers, and where that time went: what its first thread ran, and what its first thread, the reading one and
    this script waited for a processor, each in milliseconds."""

    def __init__(self, session):
        self.session = session
        self.threads = sorted(int(task) for task in os.listdir(f"/proc/{session.process.pid}/task"))[:2]
        self.rows = []

    def counts(self):
        own = [spent(f"{self.session.process.pid}/task/{thread}") for thread in self.threads] + [spent("thread-self")]
        return [own[0][0]] + [waited for _, waited in own]

    def ask(self, line, word):
        before = self.counts()
        took = 1000 * seconds_of(self.session, line, word)
        self.rows.append([took] + [after - old for old, after in zip(before, self.counts())])

    def tell(self):
        ordered = sorted(self.rows)
        took, ran, first, reader, script = ordered[-1]
        late = [row for row in self.rows if row[0] > 500]
        print(f"  {len(self.rows)} times isready, answered after {ordered[len(ordered) // 2][0]:.1f} ms, at worst {took:.1f} ms, "
              f"{len(late)} later than 500 ms; before an answer the first thread ran at most {max(row[1] for row in self.rows):.1f} ms\n"
              f"  in the worst it ran {ran:.1f} ms; for a processor waited it {first:.1f} ms, the reading thread {reader:.1f} ms and this "
              f"script {script:.1f} ms", flush=True)
        return len(late)


def long_search(program, minutes, workers):
    session = Lines([program, "--threads", str(workers)])
    session.ask("uci", "uciok")
    at_first, answers = memory_of(session)[0], Answers(session)
    session.say("position startpos", "go infinite")
    ends = time.monotonic() + 60 * minutes
    while time.monotonic() < ends:
        time.sleep(1)
        answers.ask("isready", "readyok")
    then = memory_of(session)[0]
    stopped = 1000 * seconds_of(session, "stop", "bestmove")
    status = session.close()
    print(f"a search of {minutes:g} minutes, workers {workers}: stop after {stopped:.1f} ms; memory {at_first:.0f} MiB at first, "
          f"{then:.0f} MiB then; status {status}", flush=True)
    return answers.tell() > 0 or status != 0


def main():
    parser = argparse.ArgumentParser(description=__doc__, formatter_class=argparse.RawDescriptionHelpFormatter)
    parser.add_argument("program", nargs="?")
    parser.add_argument("--lines", type=int, default=10000)
    parser.add_argument("--sessions", type=int, default=200)
    parser.add_argument("--minutes", type=float, default=10)
    parser.add_argument("--workers", default="1,4")
    parser.add_argument("--seed", type=int, default=1)
    given = parser.parse_args()
    given.program = given.program or built()
    wrong = given.lines > 0 and long_session(given.program, given.lines, given.seed)
    wrong = (given.sessions > 0 and many_sessions(given.program, given.sessions)) or wrong
    for workers in given.workers.split(","):
        wrong = (given.minutes > 0 and long_search(given.program, given.minutes, int(workers))) or wrong
    raise SystemExit(1 if wrong else 0)


if __name__ == "__main__":
    main()
