#!/usr/bin/python3
"""Tests of work in pieces, here and on a cluster of real processes: `suite` and `perft`, workers that die, stop and lie, a scheduler that ends.

Usage: python/tests/test_cluster.py [TEST ..]      (VENGINE=FILE names another program than that of this repository)

The cluster is Debian's package python3-distributed; without it the tests of the cluster are skipped. Those in network namespaces need root and iproute2.
"""
import contextlib
import io
import json
import os
import shutil
import signal
import subprocess
import sys
import tempfile
import threading
import time
import unittest

TOP = os.path.dirname(os.path.dirname(os.path.dirname(os.path.abspath(__file__))))
sys.path.insert(0, os.path.join(TOP, "python"))
from vengine import Ended, judge_command, perft, suite  # noqa: E402
from vengine.work import BadAnswer, Here, InOrder, Journal, Piece  # noqa: E402

try:
    import distributed
except ImportError:
    distributed = None

PROGRAM = os.environ.get("VENGINE", os.path.join(TOP, "vengine"))
# Mates that are known: a ladder of kings and rooks, a queen that mates at once, one that is a move short, and one that is refused.
PROBLEMS = ["chess 2 7k/R7/5K2/8/8/8/8/8 w - - 0 1", "chess 1 7k/8/5KQ1/8/8/8/8/8 w - - 0 1", "chess 1 7k/R7/5K2/8/8/8/8/8 w - - 0 1", "chess 1 bad"]
ANSWERS = ["mate 2", "mate 1", "none", "error SuiteFault 4 BadPosition {} FenFault 1 Length"]
# A worker with this in force says of every problem that it is a mate in one, with a strategy that is none.
LIAR = """
import sys, threading, time
def watch():
    while "vengine.remote" not in sys.modules or not hasattr(sys.modules["vengine.remote"], "done"):
        time.sleep(0.001)
    sys.modules["vengine.remote"].done = lambda piece, program: {"told": "mate 1", "strategy": "attacker white\\nnodes 1\\nnode 0 0 8/8/8/8/8/8/8/8 w - - 0 1\\nend\\n"}
threading.Thread(target=watch, daemon=True).start()
"""


def lines_for(count):
    """What is printed of so many problems, the four in turn."""
    solved = sum(ANSWERS[i % 4].startswith("mate") for i in range(count))
    return [f"{i + 1} {ANSWERS[i % 4].format(i + 1)}" for i in range(count)] + [f"solved {solved} of {count}"]


def said_by(main, *words, given=""):
    """The status and the text of a command that is run here."""
    out, err = io.StringIO(), io.StringIO()
    before, sys.stdin = sys.stdin, io.StringIO(given)
    try:
        with contextlib.redirect_stdout(out), contextlib.redirect_stderr(err):
            status = main([*words, "--program", PROGRAM])
    finally:
        sys.stdin = before
    return status, out.getvalue(), err.getvalue()


class Case(unittest.TestCase):
    def setUp(self):
        self.room = tempfile.mkdtemp()
        self.addCleanup(shutil.rmtree, self.room, ignore_errors=True)

    def path(self, name, text=None):
        path = os.path.join(self.room, name)
        if text is not None:
            with open(path, "w") as file:
                file.write(text)
        return path

    def problems(self, count):
        return self.path("problems.txt", "".join(PROBLEMS[i % 4] + "\n" for i in range(count)))

    def holds(self, said, count):
        """That this is the report of so many problems."""
        self.assertEqual(said[1].splitlines(), lines_for(count), said[2])
        self.assertEqual(said[0], suite.REFUSED if count > 3 else 0)


class OfThisMachine(Case):
    def test_a_suite_is_that_of_the_program(self):
        self.holds(said_by(suite.main, self.problems(10), "--jobs", "3", "--check"), 10)
        text = "".join(f"{line}\n" for line in PROBLEMS[:3])
        of_program = subprocess.run([PROGRAM, "suite"], input=text, capture_output=True, text=True).stdout
        self.assertEqual(said_by(suite.main, self.path("three.txt", text))[1], of_program)

    def test_lines_that_are_no_problem(self):
        path = self.path("some.txt", "# a comment\n\n" + PROBLEMS[1] + "\r\nnonsense\nchess 21 startpos\nno 1 startpos\n")
        status, said, _ = said_by(suite.main, path)
        self.assertEqual(said.splitlines(), ["3 mate 1", "4 error SuiteFault 1 BadLine 4", "5 error SuiteFault 1 BadLine 5", "6 error SuiteFault 2 UnknownVariant 6", "solved 1 of 4"])
        self.assertEqual(status, suite.REFUSED)

    def test_a_file_of_variants(self):
        path = self.path("some.txt", "wizards 1 7k/8/5KQ1/8/8/8/8/8 w - - 0 1\n")
        status, said, _ = said_by(suite.main, path, "--variants", os.path.join(TOP, "examples", "wizards.ini"), "--check")
        self.assertEqual((status, said), (0, "1 mate 1\nsolved 1 of 1\n"))

    def test_perft_has_the_published_counts(self):
        # Chess Programming Wiki, Perft Results.
        for plies, count in ((1, 20), (2, 400), (3, 8902), (4, 197281)):
            self.assertEqual(said_by(perft.main, str(plies), given="chess\nstartpos\n")[1], f"perft {plies} {count}\n")
        self.assertEqual(said_by(perft.main, "3", given="chess\nstartpos\ne2e5\n")[:2], (perft.REFUSED, "error GameFault 5 BadMove 1 e2e5\n"))
        # Fool's mate: no line goes on.
        self.assertEqual(said_by(perft.main, "4", given="chess\nstartpos\nf2f3 e7e5 g2g4 d8h4")[1], "perft 4 0\n")

    def test_a_run_that_was_cut_goes_on(self):
        journal, path = self.path("journal"), self.problems(8)
        self.holds(said_by(suite.main, path, "--journal", journal), 8)
        with open(journal) as file:
            kept = file.read().splitlines()
        # Four problems stand twice, and each is done once for each of its lines but where the journal knew it.
        self.path("journal", "\n".join(kept[:2]) + '\n{"piece": "cut')
        asked = []
        original, suite.told_of = suite.told_of, lambda *given: asked.append(given) or original(*given)
        self.addCleanup(setattr, suite, "told_of", original)
        self.holds(said_by(suite.main, path, "--journal", journal, "--resume", "--jobs", "1"), 8)
        self.assertEqual(len(asked), 8 - 2 * len({json.loads(line)["piece"] for line in kept[:2]}))

    def test_answers_come_in_order_and_a_refused_one_is_asked_again(self):
        answers = {0: ["bad", "good"], 1: ["good"], 2: ["bad", "bad", "good"]}

        class Workers:
            def answers(self, pieces):
                for number, piece in reversed(list(pieces)):
                    yield number, (answers[number].pop(0), piece.given["at"])

        told = []
        pieces = [Piece("none:none", {"at": at}) for at in range(3)]
        found = list(InOrder(Workers(), Journal(None, False), lambda piece, answer: answer[0] == "good").answers(pieces, told.append))
        self.assertEqual((found, told), ([("good", 0), ("good", 1), ("good", 2)], [1, 2, 3]))
        answers[0] = ["bad"] * 3
        with self.assertRaisesRegex(BadAnswer, "piece 1 was answered wrongly 3 times"):
            list(InOrder(Workers(), Journal(None, False), lambda piece, answer: answer[0] == "good").answers(pieces[:1]))

    def test_what_a_piece_raises_is_raised(self):
        with self.assertRaises(Ended):
            list(InOrder(Here("/nonexistent/program", 2), Journal(None, False)).answers([Piece(suite.TASK, {"text": PROBLEMS[0], "variants": None, "with_strategy": False})]))


class Judging(Case):
    def judge(self, **how):
        return suite.Judge(PROGRAM, None, how.get("checks", True), how.get("twice", False))

    def answer(self, text):
        piece = Piece(suite.TASK, {"text": text, "variants": None, "with_strategy": True})
        return piece, suite.solved(PROGRAM, text, None, True)

    def test_a_strategy_is_checked_at_home(self):
        piece, answer = self.answer(PROBLEMS[0])
        self.assertTrue(self.judge()(piece, answer))
        wrong = [{"told": "mate 1", "strategy": answer["strategy"]}, {"told": "mate 3", "strategy": answer["strategy"]}, {"told": "mate 2", "strategy": None}, {"told": "mate 2"},
                 {"told": "mate 2", "strategy": self.answer(PROBLEMS[1])[1]["strategy"]}, {"told": "mate 2", "strategy": answer["strategy"].replace("edge f6g6", "edge f6f7")},
                 {"told": "mate 2", "strategy": answer["strategy"].replace("attacker white", "attacker black")}, {"told": "won"}, {"told": "error"}, None, "mate 2",
                 {"told": "error SuiteFault 2 UnknownVariant 1"}, {"told": "mate x", "strategy": answer["strategy"]}]
        for one in wrong:
            with self.subTest(answer=one):
                self.assertFalse(self.judge()(piece, one))
        piece, answer = self.answer(PROBLEMS[3])
        self.assertTrue(self.judge()(piece, answer))

    def test_none_may_be_asked_twice(self):
        piece, answer = self.answer(PROBLEMS[2])
        self.assertTrue(self.judge()(piece, answer))
        judge = self.judge(twice=True)
        self.assertEqual([judge(piece, answer), judge(piece, answer)], [False, True])


# ---- real processes


class Host:
    """A scheduler and workers, processes of their own. `before` are the words that begin a command there where the scheduler is, as those of a network namespace."""

    def __init__(self, room, at="127.0.0.1", before=()):
        self.room, self.before, self.processes = room, before, []
        self.scheduler = self.started("distributed.cli.dask_scheduler", "--port", "0", "--no-dashboard", "--host", at, "--scheduler-file", self.file(), before=before)
        self.address = self.wait_for_address()

    def file(self):
        return os.path.join(self.room, "scheduler.json")

    def started(self, module, *words, before=()):
        path = {name: value for name, value in os.environ.items() if name not in ("PYTHONPATH", "VENGINE")}
        process = subprocess.Popen([*before, sys.executable, "-m", module, *words], cwd=self.room, env=path, stdout=subprocess.DEVNULL, stderr=subprocess.DEVNULL)
        self.processes.append(process)
        return process

    def wait_for_address(self):
        end = time.monotonic() + 60
        while time.monotonic() < end:
            with contextlib.suppress(OSError, ValueError, KeyError), open(self.file()) as file:
                return json.load(file)["address"]
            time.sleep(0.1)
        raise AssertionError("the scheduler did not start")

    def worker(self, *words, before=()):
        return self.started("distributed.cli.dask_worker", self.address, "--nthreads", "1", "--no-nanny", "--no-dashboard", "--local-directory", self.room, *words, before=before)

    def wait_for_workers(self, count):
        wait = "import sys, distributed; distributed.Client(sys.argv[1], timeout=60).wait_for_workers(int(sys.argv[2]), timeout=120)"
        subprocess.run([*self.before, sys.executable, "-c", wait, self.address, str(count)], check=True, cwd=self.room)

    def end(self):
        for process in self.processes:
            process.kill()
            process.wait()


class Clustered(Case):
    """Runs over a cluster of real processes."""

    def begun(self, host, path, *words):
        """A suite over the cluster in a process of its own."""
        return subprocess.Popen([*host.before, sys.executable, "-m", "vengine", "suite", path, "--cluster", host.address, "--program", PROGRAM, *words], stdout=subprocess.PIPE,
                                stderr=subprocess.PIPE, text=True, env={**os.environ, "PYTHONPATH": os.path.join(TOP, "python")})

    def first_lines(self, process, count):
        return [process.stdout.readline() for _ in range(count)]

    def rest(self, process):
        """What it still says, and its errors."""
        said, error = process.stdout.read(), process.stderr.read()
        process.wait(60)
        return said, error


@unittest.skipIf(distributed is None, "no dask.distributed: Debian's package python3-distributed is missing")
class OfACluster(Clustered):
    def host(self, workers):
        host = Host(self.room)
        self.addCleanup(host.end)
        found = [host.worker() for _ in range(workers)]
        host.wait_for_workers(workers)
        return host, found

    def test_one_worker_is_killed_and_one_stops_for_ten_seconds(self):
        host, workers = self.host(4)
        process = self.begun(host, self.problems(160), "--check")
        first = self.first_lines(process, 8)
        workers[0].kill()
        workers[1].send_signal(signal.SIGSTOP)
        threading.Timer(10, workers[1].send_signal, [signal.SIGCONT]).start()
        said, error = self.rest(process)
        self.holds((process.returncode, "".join(first) + said, error), 160)

    def test_the_scheduler_ends_and_the_run_goes_on_later(self):
        host, _ = self.host(2)
        journal, path = self.path("journal"), self.problems(200)
        process = self.begun(host, path, "--journal", journal)
        first = self.first_lines(process, 12)
        host.scheduler.kill()
        said, error = self.rest(process)
        self.assertEqual((process.returncode, error.strip()), (suite.FAILED, "suite: the scheduler has ended"))
        self.assertLess(len(first) + len(said.splitlines()), 200)
        with open(journal) as file:
            self.assertGreaterEqual(len(file.read().splitlines()), 12)
        self.holds(said_by(suite.main, path, "--journal", journal, "--resume"), 200)

    def test_a_worker_that_lies_is_not_believed(self):
        host, _ = self.host(1)
        host.worker("--preload", self.path("liar.py", LIAR))
        host.wait_for_workers(2)
        process = self.begun(host, self.problems(12), "--check")
        said, error = self.rest(process)
        self.holds((process.returncode, said, error), 12)

    def test_only_liars(self):
        host = Host(self.room)
        self.addCleanup(host.end)
        host.worker("--preload", self.path("liar.py", LIAR))
        host.wait_for_workers(1)
        process = self.begun(host, self.problems(4), "--check")
        said, error = self.rest(process)
        self.assertEqual(process.returncode, suite.FAILED)
        self.assertRegex(error, r"suite: piece 1 was answered wrongly 4 times")

    def test_none_is_asked_of_two(self):
        host, _ = self.host(2)
        process = self.begun(host, self.problems(8), "--twice")
        said, error = self.rest(process)
        self.holds((process.returncode, said, error), 8)

    def test_perft_over_own_processes(self):
        said = said_by(perft.main, "4", "--cluster", "--jobs", "2", given="chess\nstartpos\n")
        self.assertEqual(said[:2], (0, "perft 4 197281\n"), said[2])

    def test_judge_over_own_processes(self):
        games = os.path.join(TOP, "python", "tests", "pgn", "pgn-extract.pgn")
        found = {}
        for words in (("--jobs", "1"), ("--jobs", "2", "--cluster")):
            out = io.StringIO()
            with contextlib.redirect_stdout(out):
                status = judge_command.main([*words, "--json", games, games])
            found[words] = status, out.getvalue()
        self.assertEqual(found["--jobs", "1"], found["--jobs", "2", "--cluster"])
        self.assertEqual([json.loads(line)["plies"] for line in found["--jobs", "1"][1].splitlines()][:2], [45, 1])

    def test_no_scheduler(self):
        status, _, error = said_by(suite.main, self.problems(4), "--cluster", "tcp://127.0.0.1:9")
        self.assertEqual(status, suite.FAILED)
        self.assertIn("there is no scheduler at tcp://127.0.0.1:9", error)


class Network:
    """Three network namespaces on one bridge, which is in the first of them."""

    def __init__(self):
        self.names = [f"vengine{os.getpid()}-{i}" for i in range(3)]
        for name in self.names:
            self.ip("netns", "add", name)
            self.ip("-n", name, "link", "set", "lo", "up")
        self.ip("-n", self.names[0], "link", "add", "bridge", "type", "bridge")
        self.ip("-n", self.names[0], "addr", "add", self.at(0) + "/24", "dev", "bridge")
        self.ip("-n", self.names[0], "link", "set", "bridge", "up")
        for i in (1, 2):
            self.ip("-n", self.names[0], "link", "add", f"to{i}", "type", "veth", "peer", "name", "out", "netns", self.names[i])
            self.ip("-n", self.names[0], "link", "set", f"to{i}", "master", "bridge", "up")
            self.ip("-n", self.names[i], "addr", "add", self.at(i) + "/24", "dev", "out")
            self.ip("-n", self.names[i], "link", "set", "out", "up")

    @staticmethod
    def ip(*words):
        subprocess.run(["ip", *words], check=True, stderr=subprocess.DEVNULL)

    @staticmethod
    def at(i):
        """The address in one of them."""
        return f"10.77.0.{i + 1}"

    def inside(self, i):
        """The words before a command that is run in one of them."""
        return "ip", "netns", "exec", self.names[i]

    def end(self):
        for name in self.names:
            subprocess.run(["ip", "netns", "del", name], stderr=subprocess.DEVNULL)


def has_namespaces():
    """Whether network namespaces can be made here."""
    if os.geteuid() or not shutil.which("ip"):
        return False
    name = f"vengine{os.getpid()}-try"
    made = subprocess.run(["ip", "netns", "add", name], stderr=subprocess.DEVNULL).returncode == 0
    return subprocess.run(["ip", "netns", "del", name], stderr=subprocess.DEVNULL).returncode == 0 and made


@unittest.skipIf(distributed is None or not has_namespaces(), "no dask.distributed, or no network namespaces: they need root and iproute2")
class OfThreeHosts(Clustered):
    """The scheduler and two workers, each on a host of its own."""

    def host(self, workers):
        network = Network()
        self.addCleanup(network.end)
        host = Host(self.room, network.at(0), network.inside(0))
        self.addCleanup(host.end)
        found = [host.worker(before=network.inside(i + 1)) for i in range(workers)]
        host.wait_for_workers(workers)
        return host, found, network

    def test_two_workers_on_hosts_of_their_own(self):
        host, _, network = self.host(2)
        self.assertTrue(host.address.startswith(f"tcp://{network.at(0)}:"))
        process = self.begun(host, self.problems(40), "--check")
        said, error = self.rest(process)
        self.holds((process.returncode, said, error), 40)


if __name__ == "__main__":
    unittest.main()
