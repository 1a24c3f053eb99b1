#!/usr/bin/env python3
"""Refuses each allocation, read and write of a run in turn, and says what the program answers.

usage: bench/refusals.py [PROGRAM] [--most N] [--jobs N] [--only WORD]    (VENGINE or the program that ./vengine becomes, 200 and 1 by default)

A small library is built with `cc` and put under the program (LD_PRELOAD). It counts the calls of malloc, calloc, realloc, read, write,
clock_gettime and pthread_create, and refuses the one whose number it is told; or a read or a write moves one byte. A run must then give
its own answer, or say what it lacked: status 7 (memory), 4 (input) or 5 (output), with a front part of its text. Sessions are held in UCI
and in CECP, with 1 and with 4 workers: each line is given when the search before it is over. Where a file could not be read, what they
say is that of the same session with a file that cannot be read. With 4 workers one of several best moves may be chosen, and so moves are
not compared. Nothing may be written to standard error, and no run may take more than 60 seconds.

Of the calls of a kind at most N are refused, spread evenly over all. Then the words of a session's hints are overwritten before each
depth of a search of the chess start, with 0, with 2^63 and with ones alone: the scores must be the same, and the best move one of that
score.

Last, it is looked at whether memory is given back (`--only kept` does this alone). The library counts what the program has allocated, and
tells it at each answer to `isready` or `ping`. The lines of a session are given three times, with one of these after each, and after them
lines that set what they have changed to what it was. With 1 worker the second time and the third must have the same numbers after each
line. With any number of workers all three must have the same after the last, and at its end a session must have nothing, whether `quit`
ends it or the input.
"""

import argparse
import concurrent.futures
import os
import re
import select
import subprocess
import sys
import tempfile
import time

from programs import built

LIBRARY = r"""
#define _GNU_SOURCE
#include <dlfcn.h>
#include <errno.h>
#include <fcntl.h>
#include <pthread.h>
#include <stdatomic.h>
#include <stdio.h>
#include <stdlib.h>
#include <string.h>
#include <sys/syscall.h>
#include <time.h>
#include <unistd.h>

extern void *__libc_malloc(size_t), *__libc_calloc(size_t, size_t), *__libc_realloc(void *, size_t), __libc_free(void *);

enum { ALLOCATIONS, READS, WRITES, CLOCKS, THREADS, KINDS };

static atomic_long calls[KINDS];
static long refused[KINDS], cut[KINDS];       /* the numbers of those that fail, and of those that move one byte */

static long number(const char *name) { const char *text = getenv(name); return text ? atol(text) : 0; }

__attribute__((constructor)) static void begin(void) {
    refused[ALLOCATIONS] = number("REFUSE_ALLOCATION");
    refused[READS] = number("REFUSE_READ");
    refused[WRITES] = number("REFUSE_WRITE");
    refused[CLOCKS] = number("REFUSE_CLOCK");
    refused[THREADS] = number("REFUSE_THREAD");
    cut[READS] = number("CUT_READ");
    cut[WRITES] = number("CUT_WRITE");
    for (int i = 0; i < KINDS; i++) calls[i] = 0;
}

/* What the program has allocated: now, and at each answer by which a session says that it is ready. What the C library takes by calloc for
   the threads that it may start later is its own. */
enum { MOST_READY = 10000, HEAD = 16 };
static atomic_long blocks, bytes;
static long ready[MOST_READY + 1][2], times_ready;

/* The size of a block, as it was asked for, stands before it, and says that it is counted. */
static void *counted(size_t *head, size_t size) {
    if (!head) { errno = ENOMEM; return NULL; }
    blocks++; bytes += size;
    head[0] = size;
    head[1] = (size_t)head ^ 0x5ca1ab1e;
    return (char *)head + HEAD;
}

static size_t *head_of(void *block) {
    size_t *head = (size_t *)((char *)block - HEAD);
    return head[1] == ((size_t)head ^ 0x5ca1ab1e) ? head : NULL;
}

static void *uncounted(void *block) {
    size_t *head = block ? head_of(block) : NULL;
    if (!head) return block;
    blocks--; bytes -= head[0];
    head[1] = 0;
    return head;
}

static void note_kept(void) {
    if (times_ready > MOST_READY) return;
    ready[times_ready][0] = blocks;
    ready[times_ready++][1] = bytes;
}

static void tell_calls(void) {
    const char *name = getenv("CALLS_FILE");
    if (!name) return;
    char text[60];
    int file = syscall(SYS_openat, AT_FDCWD, name, O_WRONLY | O_CREAT | O_TRUNC, 0600);
    for (int i = 0; i < KINDS; i++) syscall(SYS_write, file, text, snprintf(text, sizeof text, "%ld ", calls[i]));
    for (int i = 0; i < times_ready; i++)
        syscall(SYS_write, file, text, snprintf(text, sizeof text, "\n%ld %ld", ready[i][0], ready[i][1]));
}

/* The program ends so, and runs no destructors. A thread that has come to the end of the input has the time to end. */
void _exit(int status) {
    if (getenv("CALLS_FILE")) usleep(100000);
    note_kept();
    tell_calls();
    for (;;) syscall(SYS_exit_group, status);
}

static int is_refused(int kind) { return ++calls[kind] == refused[kind]; }

/* The words of hints are those of the last block of 1 MiB. They are written before each write of the program. */
static unsigned long *hints;

static void fill_hints(void) {
    const char *word = getenv("FILL_HINTS");
    if (word && hints) for (int i = 0; i < 131072; i++) hints[i] = strtoul(word, NULL, 0);
}

void *malloc(size_t size) {
    if (is_refused(ALLOCATIONS)) { errno = ENOMEM; return NULL; }
    void *block = counted(__libc_malloc(size + HEAD), size);
    if (size == 1048576) hints = block;
    return block;
}
void *calloc(size_t n, size_t size) {
    if (is_refused(ALLOCATIONS)) { errno = ENOMEM; return NULL; }
    return __libc_calloc(n, size);
}
void free(void *block) { __libc_free(uncounted(block)); }
void *realloc(void *old, size_t size) {
    size_t *head = old ? head_of(old) : NULL;
    if (!head && old) { is_refused(ALLOCATIONS); return __libc_realloc(old, size); }
    void *block = malloc(size);
    if (!block || !old) return block;
    memcpy(block, old, head[0] < size ? head[0] : size);
    free(old);
    return block;
}

ssize_t read(int file, void *text, size_t size) {
    long call = ++calls[READS];
    if (call == refused[READS]) { errno = EIO; return -1; }
    if (call == cut[READS] && size > 1) size = 1;
    return syscall(SYS_read, file, text, size);
}

ssize_t write(int file, const void *text, size_t size) {
    fill_hints();
    if (size >= 4 && (!memcmp(text, "read", 4) || !memcmp(text, "pong", 4))) note_kept();
    long call = ++calls[WRITES];
    if (call == refused[WRITES]) { errno = EIO; return -1; }
    if (call == cut[WRITES] && size > 1) size = 1;
    return syscall(SYS_write, file, text, size);
}

int clock_gettime(clockid_t clock, struct timespec *now) {
    if (is_refused(CLOCKS)) { errno = EINVAL; return -1; }
    return syscall(SYS_clock_gettime, clock, now);
}

int pthread_create(pthread_t *thread, const pthread_attr_t *how, void *(*start)(void *), void *with) {
    static int (*create)(pthread_t *, const pthread_attr_t *, void *(*)(void *), void *);
    if (is_refused(THREADS)) return EAGAIN;
    if (!create) create = dlsym(RTLD_NEXT, "pthread_create");
    return create(thread, how, start, with);
}
"""

MINI = """[mini]
maxRank = 5
maxFile = e
king = k
rook = r
bishop = b
gold = g
silver = s
shogiPawn = p
dragon = d
dragonHorse = h
promotedPieceType = s:g r:d b:h p:g
pieceDrops = true
capturesToHand = true
dropNoDoubled = p
immobilityIllegal = true
castling = false
nMoveRule = 0
nFoldRule = 4
promotionRegionWhite = *5
promotionRegionBlack = *1
startFen = rbsgk/4p/5/P4/KGSBR[-] w 0 1
"""

# the words and the input of each run; FILE is a file with the section above
RUNS = [
    (["perft", "4"], "chess\nstartpos\n"),
    (["moves"], "antichess\nstartpos\ne2e3 b7b5\n"),
    (["status"], "antichess\n8/8/8/8/8/1p6/P7/8 b - - 0 1\nb3a2\n"),
    (["--variants", "FILE", "moves"], "mini\nstartpos\n"),
    (["--variants", "FILE", "status"], "mini\nstartpos\n"),
    (["--variants", "FILE", "variants"], ""),
    (["--variants=FILE", "perft", "2"], "crazyhouse\nstartpos\ne2e4 e7e5\ng1f3\n"),
    (["reach", "RmpB", "d4", "e5", "d6"], ""),
]

# The lines of a session, and the beginning of the last line of the answer to a line whose answer is waited for.
UCI = [
    ("uci", None), ("isready", None), ("setoption name Hash value 1", None), ("setoption name MateFacts value 64", None),
    ("ucinewgame", None), ("position startpos", None), ("go depth 2", "bestmove"), ("position startpos moves e2e4 e7e5", None),
    ("go depth 2", "bestmove"), ("moves", None), ("status", None), ("position startpos moves e2e5", None), ("status", None),
    ("go perft 2", "info string perft"), ("position fen 7k/R7/5K2/8/8/8/8/8 w - - 0 1", None), ("go mate 2", "bestmove"),
    ("strategy", None), ("go mate 1", "bestmove"), ("strategy", None),
    ("position fen 7k/8/5KQ1/8/8/8/8/8 w - - 99 80", None), ("go mate 1", "bestmove"), ("strategy", None),
    ("position fen 8/8 w - - 0 1", None), ("status", None), ("setoption name VariantPath value FILE", None),
    ("setoption name UCI_Variant value mini", None), ("position startpos", None), ("moves", None), ("go depth 2", "bestmove"),
    ("status", None), ("setoption name VariantPath value nothing", None), ("setoption name UCI_Variant value mini", None),
    ("status", None), ("setoption name UCI_Variant value crazyhouse", None), ("position startpos moves e2e4 d7d5 e4d5", None),
    ("go depth 2 nodes 1000000", "bestmove"), ("setoption name VariantPath value <empty>", None),
    ("setoption name Hash value 0", None), ("setoption name UCI_Variant value mini", None),
    ("position fen 7k/R7/6K1/8/8/8/8/8 b - - 0 1 moves h8g8 g6f6 g8h8 f6g6 h8g8 g6f6 g8h8", None), ("go mate 2", "bestmove"),
    ("strategy", None), ("moves", None), ("what is this", None), ("position fen 7k/8/5KQ1/8/8/8/8/8 w - - 0 1", None),
    ("go infinite mate 1", "info depth"), ("isready", None), ("stop", None), ("debug on", None), ("quit", None),
]
CECP = [
    ("xboard", None), ("protover 2", None), ("accepted ping", None), ("new", None), ("random", None), ("force", None),
    ("usermove e2e4", None), ("usermove e7e5", None), ("usermove e7e5", None), ("undo", None), ("remove", None), ("ping 1", None),
    ("variant losalamos", None), ("force", None), ("usermove a1a1", None), ("variant nothing", None), ("variant normal", None),
    ("force", None), ("setboard 7k/8/5KQ1/8/8/8/8/8 w - - 0 1", None), ("sd 1", None), ("post", None), ("go", "1-0"),
    ("ping 2", None), ("force", None), ("setboard 7k/R7/5K2/8/8/8/8/8 w - - 0 1", None), ("sd 3", None), ("go", "move"),
    ("force", None), ("ping 3", None), ("nopost", None), ("setboard k7/8/8/8/8/8/1q6/K7 w - - 0 1", None), ("go", "move"),
    ("force", None), ("setboard 8/8", None), ("level 40 5 0.5", None), ("ping x", None), ("hello", None),
    ("setboard r3k2r/8/8/8/8/8/8/R3K2R w KQkq - 0 1", None), ("sd 2", None), ("post", None), ("go", "move"), ("force", None),
    ("undo", None), ("ping 4", None), ("variant mini", None), ("setboard rbsgk/4p/5/P4/KGSBR[-] w 0 1", None), ("go", "move"),
    ("result 1-0", None), ("ping 5", None), ("quit", None),
]
SESSIONS = [
    (["--variants", "FILE", "--threads", workers, protocol], lines)
    for protocol, lines in (("uci", UCI), ("xboard", CECP))
    for workers in ("1", "4")
]

# the question by which a session is asked whether it is ready, and the lines that set what the lines above have changed
READY = {"uci": ("isready", "readyok"), "xboard": ("ping 0", "pong 0")}
BACK = {
    "uci": ["setoption name VariantPath value <empty>", "setoption name Hash value 16", "setoption name MateFacts value 4096", "ucinewgame"],
    "xboard": ["new", "nopost"],
}

# what is refused: the name of the setting, the place of its count, and the status of a run that lacks it
KINDS = [
    ("REFUSE_ALLOCATION", 0, 7),
    ("REFUSE_READ", 1, 4),
    ("REFUSE_WRITE", 2, 5),
    ("CUT_READ", 1, None),
    ("CUT_WRITE", 2, None),
    ("REFUSE_CLOCK", 3, None),
    ("REFUSE_THREAD", 4, 7),
]

# a read that fails may be one of the file of variants
FILE_FAILED = (6, b"error FileFault 3 Failed\n")

LIMIT = 60


def parts_of(lines):
    """The input in parts, each with the beginning of the line that ends its answer, if that is waited for."""
    parts, text = [], b""
    for line, last in lines:
        text += line.encode() + b"\n"
        if last is not None:
            parts.append((text, last.encode()))
            text = b""
    return parts + [(text, None)]


def reads_until(process, said, begun, last, ends):
    """What was said with all up to a line with this beginning after the place `begun`, or up to the end."""
    while last is None or not any(line.startswith(last) for line in said[begun:].split(b"\n")[:-1]):
        if not select.select([process.stdout], [], [], max(0, ends - time.monotonic()))[0]:
            raise subprocess.TimeoutExpired(process.args, LIMIT)
        more = os.read(process.stdout.fileno(), 65536)
        if not more:
            break
        said += more
    return said


class Runner:
    def __init__(self, program, folder):
        self.program = os.path.abspath(program)
        self.folder = folder
        source = os.path.join(folder, "refuse.c")
        self.library = os.path.join(folder, "refuse.so")
        with open(source, "w") as file:
            file.write(LIBRARY)
        subprocess.run(["cc", "-O1", "-shared", "-fPIC", "-o", self.library, source, "-ldl"], check=True)
        with open(os.path.join(folder, "FILE"), "w") as file:
            file.write(MINI)

    def run(self, words, parts, settings):
        """The status of a run and what it wrote to its output and to standard error."""
        environment = dict(os.environ, LD_PRELOAD=self.library, **settings)
        process = subprocess.Popen([self.program, *words], stdin=subprocess.PIPE, stdout=subprocess.PIPE, stderr=subprocess.PIPE,
                                   cwd=self.folder, env=environment)
        try:
            ends, said = time.monotonic() + LIMIT, b""
            for text, last in parts:
                try:
                    process.stdin.write(text)
                    process.stdin.flush()
                    if last is None:
                        process.stdin.close()
                except BrokenPipeError:
                    last = None
                said = reads_until(process, said, len(said), last, ends)
            return process.wait(max(0.1, ends - time.monotonic())), said, process.stderr.read()
        except subprocess.TimeoutExpired:
            return "no end", said, b""
        finally:
            process.kill()
            process.wait()
            for pipe in (process.stdout, process.stderr):
                pipe.close()

    def calls(self, words, parts):
        """The answer, the numbers of calls, and what was allocated at each time that the run was ready and at its end."""
        name = os.path.join(self.folder, "calls")
        answer = self.run(words, parts, {"CALLS_FILE": name})
        with open(name) as file:
            counts, *kept = [[int(word) for word in line.split()] for line in file]
        return answer, counts, kept


def plain(text, workers):
    """The lines of a text, without what may differ from run to run: times; with several workers also moves, nodes and strategies."""
    text = re.sub(rb"^(\d+ -?\d+) \d+ ", rb"\1 ", text, flags=re.M)
    if workers != "1":
        text = re.sub(rb"^(\d+ -?\d+) .*$", rb"\1 ", text, flags=re.M)
        text = re.sub(rb"( pv |^bestmove |^move ).*$", rb"\1", text, flags=re.M)
        text = re.sub(rb"^strategy 2$.*?(^end$|\Z)", rb"strategy 2", text, flags=re.M | re.S)
    return text


def is_fit(owns, answer, kind, status, workers):
    """Whether the answer is the run's own, or says what was refused and has a front part of the run's own text."""
    ended, said, errors = answer
    if errors:
        return False
    if kind == "REFUSE_READ" and (ended, said) == FILE_FAILED:
        return True
    said = plain(said, workers)
    texts = [plain(own[1], workers) for own in owns]
    if ended == owns[0][0]:
        return said in texts
    return status is not None and ended == status and any(text.startswith(said) for text in texts)


def owns_of(runner, words, lines, parts, own):
    """The run's own answer, and those of runs in which one of the files of its lines cannot be read."""
    owns = [own]
    for at, (line, last) in enumerate(lines):
        if line.endswith("VariantPath value FILE"):
            unread = lines[:at] + [(line.replace("FILE", "."), last)] + lines[at + 1:]
            owns.append(runner.run(words, parts_of(unread), {}))
    return owns


def chosen(count, most):
    """At most so many numbers from 1 to the count, spread evenly."""
    if count <= most:
        return range(1, count + 1)
    return sorted({1 + place * (count - 1) // (most - 1) for place in range(most)})


def tries(runner, words, lines, parts, most, jobs):
    """Refuses calls of each kind; how many answers are wrong."""
    own, calls, _ = runner.calls(words, parts)
    owns = owns_of(runner, words, lines, parts, own)
    workers = words[words.index("--threads") + 1] if "--threads" in words else "1"
    print(f"{' '.join(words)}: of its own status {own[0]}, {len(own[1])} bytes", flush=True)
    wrong = 0
    with concurrent.futures.ThreadPoolExecutor(jobs) as pool:
        for kind, place, status in KINDS:
            numbers = chosen(calls[place], most)
            if kind == "REFUSE_THREAD":
                # without the first, which reads ahead, a search waits for a line at its first poll
                numbers = [number for number in numbers if number > 1]
            answers = pool.map(lambda number: runner.run(words, parts, {kind: str(number)}), numbers)
            counts = {}
            for number, answer in zip(numbers, answers):
                counts[answer[0]] = counts.get(answer[0], 0) + 1
                if not is_fit(owns, answer, kind, status, workers):
                    wrong += 1
                    print(f"  WRONG: {kind}={number}: status {answer[0]}, {answer[1][-200:]}, standard error {answer[2][:200]}")
            told = ", ".join(f"{count} of status {ended}" for ended, count in sorted(counts.items(), key=str))
            print(f"  {kind}: {len(numbers)} of {calls[place]} ({told})", flush=True)
    return wrong


def scores(runner, workers, words, word):
    """The scores of the depths 1 to 3 of the chess start, and the best move, where the hints are overwritten with this word."""
    lines = [("setoption name Hash value 1", None), ("isready", None), ("position startpos", None), (f"go depth 3 {words}", "bestmove"),
             ("quit", None)]
    said = runner.run(["--threads", workers, "uci"], parts_of(lines), {"FILL_HINTS": word})[1].decode()
    return re.findall(r" score (.*) pv ", said), re.findall(r"bestmove (.*)", said)


def hinted(runner):
    """How many searches of the chess start differ by their hints."""
    own, wrong = scores(runner, "1", "", "0")[0], 0
    for workers in ("1", "4"):
        for word in ("0", "0x8000000000000000", "0xffffffffffffffff"):
            found, best = scores(runner, workers, "", word)
            alone = [scores(runner, "1", "searchmoves " + move, "0")[0] for move in best]
            if found != own or len(own) != 3 or [one[-1:] for one in alone] != [own[-1:]]:
                wrong += 1
                print(f"  WRONG: hints {word}, {workers} workers: {found}, best {best}, which alone has {alone}")
    print(f"hints: 6 searches of the chess start to depth 3, scores {', '.join(own)}", flush=True)
    return wrong


def ends_with(runner, words, lines):
    """What is allocated at the end of a session of these lines, if it ends well."""
    (status, _, errors), _, kept = runner.calls(words, parts_of(lines))
    return kept[-1] if (status, errors) == (0, b"") else None


def kept_by(runner, words, lines):
    """How many sessions of these lines keep more memory from one time to the next, or at their end."""
    protocol, workers = words[-1], words[words.index("--threads") + 1]
    question = READY[protocol][0].split()[0]
    once = [line for line in lines[:-1] if not line[0].startswith(question)] + [(line, None) for line in BACK[protocol]]
    asked = [line for each in once for line in (each, READY[protocol])]
    (status, _, errors), _, kept = runner.calls(words, parts_of(asked * 3 + lines[-1:]))
    number = (len(kept) - 1) // 3
    rounds = [kept[at * number:(at + 1) * number] for at in range(3)]
    last = [each[-1] for each in rounds]
    ends = [kept[-1], ends_with(runner, words, lines), ends_with(runner, words, lines[:-1])]
    wrong = (status, errors) != (0, b"") or len(kept) != 3 * number + 1 or ends != [[0, 0]] * 3
    wrong = wrong or last != last[:1] * 3 or (workers == "1" and rounds[1] != rounds[2])
    print(f"memory of {' '.join(words)}: each time {last[0][0]} blocks of {last[0][1]} bytes after {number} lines, at most "
          f"{max(count for count, _ in kept)} blocks of {max(size for _, size in kept)} bytes; at the end {ends[0][0]} blocks", flush=True)
    if wrong:
        differ = [once[at][0] for at, (second, third) in enumerate(zip(*rounds[1:])) if second != third]
        print(f"  WRONG: status {status}, {len(kept)} counts, after the last line {last}, at the end {ends}; different after {differ}")
    return wrong


def main():
    parser = argparse.ArgumentParser(description=__doc__, formatter_class=argparse.RawDescriptionHelpFormatter)
    parser.add_argument("program", nargs="?")
    parser.add_argument("--most", type=int, default=200)
    parser.add_argument("--jobs", type=int, default=1)
    parser.add_argument("--only", default="", help="only the runs whose words contain this one")
    given = parser.parse_args()
    wrong = 0
    with tempfile.TemporaryDirectory() as folder:
        runner = Runner(given.program or built(), folder)
        runs = [(words, [], [(text.encode(), None)]) for words, text in RUNS]
        runs += [(words, lines, parts_of(lines)) for words, lines in SESSIONS]
        for words, lines, parts in runs:
            if given.only in " ".join(words):
                wrong += tries(runner, words, lines, parts, given.most, given.jobs)
        if given.only in "hints":
            wrong += hinted(runner)
        if given.only in "kept":
            wrong += sum(kept_by(runner, words, lines) for words, lines in SESSIONS)
    print(f"{wrong} wrong answers")
    sys.exit(1 if wrong else 0)


if __name__ == "__main__":
    main()
