"""Reads and runs the cases of a file: what the program is asked, and what it has to answer.

| a line | is |
|---|---|
| `= TITLE` | says what the cases after it show, up to the next title |
| `@ NAME` | begins a file of this name, which the cases have up to the next title; its lines follow as `> TEXT` |
| `$ WORDS` | a run with these words; its input follows as `> TEXT`, and then what it prints |
| `~ N TEXT`, `~ N`, `~ +N TEXT`, `~ <N` | the run above with line N of its input being TEXT, or left out, or with TEXT after it, or with its first N lines alone; of several in turn each changes what the one before has left |
| `% WORDS` | a session with these words: each `> TEXT` is sent when the answers before it have come, and what follows it are its answers |
| `! COMMAND` | a command of a shell with `vengine` in its path; what it prints on both streams follows |
| `? N` | the status of the run above, where it is another than its first line tells by the table of statuses; that of a command is not looked at |
| `# TEXT`, an empty line | is not read |

Every other line is one that is printed. In it `[[a|b]]` stands for one of these texts, `[[move]]` for any text of a move, `[[=]]` for the one that
stood there before, `[[number]]` for a number. In a session a line `[[depths]]` stands for any number of lines of depths, and `[[strategy]]` for a proof text
of which the program's own `check` says `wins`. A file NAME.txt beside a NAME.ini runs with `--variants NAME.ini`.
"""
import os
import re
import select
import shlex
import signal
import subprocess
import tempfile
import time

# Seconds for any one command: no case is about time, but a program that hangs is found.
LONGEST = 600
HOLE = re.compile(r"\[\[([^\]]*)\]\]")
MOVE = r"(?:[a-l]\d+[a-l]\d+[a-z+]{0,2}|[A-Z]@[a-l]\d+)"
DEPTH = re.compile(rf"info depth \d+ score (?:cp|mate) -?\d+ pv {MOVE}")


class Wrong(Exception):
    """What came, and what was wanted in its place."""

    def __init__(self, came, wanted, where=""):
        super().__init__(f"{where}came {came!r}, wanted {wanted!r}")


def status_of(lines):
    """The status that goes with what a one-shot command prints."""
    first = lines[0] if lines else ""
    faults = {"error FileFault": 6, "error ": 3, "usage: ": 2}
    return next((status for start, status in faults.items() if first.startswith(start)), 0)


def pattern_of(wanted, chosen):
    """The expression of a wanted line, `chosen` being the text that stood in a hole before."""
    kinds = {"=": re.escape(chosen or ""), "number": r"\d+", "move": f"(?P<chosen>{MOVE})"}
    parts = HOLE.split(wanted)
    for at in range(1, len(parts), 2):
        choice = "|".join(re.escape(one) for one in parts[at].split("|"))
        parts[at] = kinds.get(parts[at], f"(?P<chosen>{choice})")
    parts[::2] = [re.escape(part) for part in parts[::2]]
    return re.compile("".join(parts))


def matched(wanted, came, chosen, where):
    """The text in the line's hole, or the one before; fails where the line is not the wanted one."""
    if came == wanted:
        return chosen
    found = pattern_of(wanted, chosen).fullmatch(came)
    if not found:
        raise Wrong(came, wanted, where)
    return found.groupdict().get("chosen") or chosen


def run_whole(words, **how):
    """What a command prints. If it takes too long it is ended, with all that it has started."""
    with subprocess.Popen(words, start_new_session=True, **how) as process:
        try:
            return process.communicate(timeout=LONGEST)[0]
        except BaseException:
            os.killpg(process.pid, signal.SIGKILL)
            raise


def compare(came, wanted):
    chosen = None
    for number, (one, other) in enumerate(zip(came, wanted), 1):
        chosen = matched(other, one, chosen, f"line {number}: ")
    if len(came) != len(wanted):
        at = min(len(came), len(wanted))
        raise Wrong("".join(came[at : at + 1]), "".join(wanted[at : at + 1]), f"line {at + 1}: ")


class Session:
    """A session whose lines are read one by one."""

    def __init__(self, program, words, folder):
        self.program, self.folder, self.read, self.ends = program, folder, b"", time.monotonic() + LONGEST
        self.process = subprocess.Popen([program, *words], cwd=folder, stdin=subprocess.PIPE, stdout=subprocess.PIPE, stderr=subprocess.STDOUT)

    def send(self, line):
        try:
            self.process.stdin.write(line.encode() + b"\n")
            self.process.stdin.flush()
        except BrokenPipeError:
            raise Wrong("the end of the session", "an answer", f"at {line!r}: ") from None

    def more(self):
        """Whether more of the output came before its end."""
        if not select.select([self.process.stdout], [], [], max(0, self.ends - time.monotonic()))[0]:
            raise Wrong("", "an answer", f"within {LONGEST} seconds: ")
        part = os.read(self.process.stdout.fileno(), 65536)
        self.read += part
        return bool(part)

    def line(self, wanted):
        while b"\n" not in self.read:
            if not self.more():
                raise Wrong(self.read.decode(errors="replace"), wanted, "at the end: ")
        line, self.read = self.read.split(b"\n", 1)
        return line.decode(errors="replace")

    def strategy(self):
        """Reads a proof text, and has it checked."""
        lines = []
        while not lines or lines[-1] != "end" and not lines[-1].startswith("info string"):
            lines.append(self.line("a strategy"))
        text = "".join(line + "\n" for line in lines)
        done = subprocess.run([self.program, "check"], cwd=self.folder, input=text.encode(), capture_output=True, timeout=LONGEST)
        if done.stdout != b"wins\n":
            raise Wrong(done.stdout.decode(errors="replace"), "wins\n", f"check of {lines[0]!r}: ")

    def answers(self, sent, wanted):
        chosen, skips = None, False
        for line in wanted:
            if line == "[[depths]]":
                skips = True
            elif line == "[[strategy]]":
                self.strategy()
            else:
                came = self.line(line)
                while skips and DEPTH.fullmatch(came):
                    came = self.line(line)
                chosen, skips = matched(line, came, chosen, f"after {sent!r}: "), False

    def close(self, status):
        self.process.stdin.close()
        while self.more():
            pass
        if self.read:
            raise Wrong(self.read.decode(errors="replace"), "", "at the end: ")
        if self.process.wait(LONGEST) != status:
            raise Wrong(f"status {self.process.returncode}", f"status {status}", "at the end: ")


class Case:
    """One run: its kind is the sign of its line; `given` are the lines of its input, each with the answers that follow it."""

    def __init__(self, where, title, kind, text, files, before=()):
        self.where, self.title, self.kind, self.text, self.files, self.before = where, title, kind, text, files, before
        self.given, self.status, self.is_spoilt = [("", [])], None, False

    def spoilt(self, where, change):
        """The same run with one line of its input changed, and without its answers."""
        number, _, text = change.partition(" ")
        lines, at = [line for line, _ in self.given], int(number.lstrip("+<"))
        if number.startswith("<"):
            lines[at + 1 :] = []
        else:
            lines[at + number.startswith("+") : at + 1] = [text] if " " in change else []
        case = Case(where, f"{self.title}, {change}", self.kind, self.text, self.files, self.before)
        case.given, case.is_spoilt = [(line, []) for line in lines], True
        return case

    def wanted(self):
        return [line for _, answers in self.given for line in answers]

    def names(self):
        return [f"{self.where}: {self.title}"]

    def results(self, program):
        """The name of the case, and what went wrong or None."""
        try:
            self.run(program)
            fault = None
        except (Wrong, subprocess.TimeoutExpired) as error:
            fault = str(error)
        return [(self.names()[0], fault)]

    def run(self, program):
        with tempfile.TemporaryDirectory() as folder:
            for name, lines in self.files.items():
                with open(os.path.join(folder, name), "w") as file:
                    file.writelines(line + "\n" for line in lines)
            {"$": self.run_once, "%": self.run_session, "!": self.run_shell}[self.kind](program, folder)

    def words(self):
        return [*self.before, *shlex.split(self.text)]

    def run_once(self, program, folder):
        text = "".join(line + "\n" for line, _ in self.given[1:])
        done = subprocess.run([program, *self.words()], cwd=folder, input=text.encode(), stdout=subprocess.PIPE, stderr=subprocess.STDOUT, timeout=LONGEST)
        compare(done.stdout.decode(errors="replace").splitlines(), self.wanted())
        status = status_of(self.wanted()) if self.status is None else self.status
        if done.returncode != status:
            raise Wrong(f"status {done.returncode}", f"status {status}")

    def run_shell(self, program, folder):
        os.symlink(program, os.path.join(folder, "vengine"))
        env = {**os.environ, "PATH": f"{folder}:{os.environ['PATH']}"}
        how = {"stdin": subprocess.DEVNULL, "stdout": subprocess.PIPE, "stderr": subprocess.STDOUT}
        printed = run_whole(["sh", "-c", self.text], cwd=folder, env=env, **how)
        compare(printed.decode(errors="replace").splitlines(), self.wanted())

    def run_session(self, program, folder):
        session = Session(program, self.words(), folder)
        try:
            for line, wanted in self.given[1:]:
                session.send(line)
                session.answers(line, wanted)
            session.close(self.status or 0)
        finally:
            session.process.kill()
            session.process.wait()
            session.process.stdout.close()


def read_cases(path, name):
    """The cases of a file; `name` is how the file is named."""
    beside = path[: -len(".txt")] + ".ini"
    before = ["--variants", os.path.abspath(beside)] if os.path.exists(beside) else []
    title, files, cases, whole, taking = name, {}, [], None, None
    with open(path) as file:
        lines = file.read().splitlines()
    for number, line in enumerate(lines, 1):
        sign, _, rest = line.partition(" ")
        where = f"{name}:{number}"
        if sign == "=":
            title, files = rest, {}
        elif sign == "@":
            taking = files[rest] = []
        elif sign in ("$", "%", "!"):
            whole, taking = Case(where, title, sign, rest, files, before), None
            cases.append(whole)
        elif sign == "~" and cases[-1].is_spoilt and not cases[-1].wanted():
            cases.append(cases.pop().spoilt(where, rest))
        elif sign == "~":
            cases.append(whole.spoilt(where, rest))
        elif sign == ">" and taking is not None:
            taking.append(rest)
        elif sign == ">":
            cases[-1].given.append((rest, []))
        elif sign == "?":
            cases[-1].status = int(rest)
        elif line and sign != "#":
            cases[-1].given[-1][1].append(line)
    return cases
