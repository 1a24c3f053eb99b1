"""Reads and runs the commands that the pages show.

A command is a line `$ COMMAND` of a block that is indented by four spaces or fenced; it goes on after a backslash, and to the end of a here-document.
The lines up to the next command or the end of the block are what it prints, both streams together. The commands of a page run in turn, in one
new folder that has `vengine`, `examples`, `crates`, `bench`, `docs` and `python`, with `vengine` in the path and the package of the clone for
Python. Blocks without a `$` are not run.
"""
import os
import re
import subprocess
import tempfile

from cases import LONGEST, Wrong, compare, run_whole

TOP = os.path.abspath(os.path.join(os.path.dirname(os.path.abspath(__file__)), ".."))
# What needs another machine, the registry of the system or the kit, or would run these cases again.
ELSEWHERE = re.compile(r"\b(apt-get|ssh|scp|git|xboard_match|polyglot_game|pychess_game|scid_analysis)\b|[Ff]airy-[Ss]tockfish|release/|\.ci/run|\./test\b|\brt ")


def blocks(lines):
    """The blocks of a page, without their indentation: the lines with their numbers."""
    found, inside, fenced = [], False, False
    for number, line in enumerate(lines, 1):
        if line.startswith("```"):
            fenced = not fenced
            inside = fenced
            if fenced:
                found.append([])
        elif fenced:
            found[-1].append((number, line))
        elif line.startswith("    "):
            if not inside:
                found.append([])
            inside = True
            found[-1].append((number, line[4:]))
        elif line == "" and inside:
            found[-1].append((number, line))
        else:
            inside = False
    return found


def commands(block):
    """The commands of a block: the number of the line, the command, and the lines that it prints."""
    found, lines = [], iter(block)
    for number, line in lines:
        if not line.startswith("$ "):
            if found:
                found[-1][2].append(line)
            continue
        text = line[2:]
        while text.endswith("\\"):
            text += "\n" + next(lines, (0, ""))[1]
        end = re.search(r"<<\s*'?(\w+)'?", text)
        while end and not text.endswith("\n" + end.group(1)):
            text += "\n" + next(lines, (0, end.group(1)))[1]
        found.append((number, text, []))
    for _, _, printed in found:
        while printed and not printed[-1]:
            printed.pop()
    return found


class Page:
    """The commands of one page."""

    def __init__(self, name):
        self.name = name
        with open(os.path.join(TOP, name)) as file:
            listed = [command for block in blocks(file.read().splitlines()) for command in commands(block)]
        self.commands = [command for command in listed if not ELSEWHERE.search(command[1])]

    def names(self):
        return [f"{self.name}:{number}: $ {text.splitlines()[0]}" for number, text, _ in self.commands]

    def results(self, program):
        """The name of each command, and what went wrong or None."""
        with tempfile.TemporaryDirectory() as folder:
            os.symlink(program, os.path.join(folder, "vengine"))
            for name in ("examples", "crates", "bench", "docs", "python"):
                os.symlink(os.path.join(TOP, name), os.path.join(folder, name))
            env = {**os.environ, "PATH": f"{folder}:{os.environ['PATH']}", "VENGINE": program, "PYTHONPATH": os.path.join(TOP, "python"),
                   "PYTHONDONTWRITEBYTECODE": "1"}
            how = {"cwd": folder, "env": env, "stdin": subprocess.DEVNULL, "stdout": subprocess.PIPE, "stderr": subprocess.STDOUT}
            return list(zip(self.names(), [self.fault(text, printed, how) for _, text, printed in self.commands]))

    def fault(self, text, printed, how):
        try:
            came = run_whole(["bash", "-c", text], **how)
            compare(came.decode(errors="replace").splitlines(), printed)
        except (Wrong, subprocess.TimeoutExpired) as error:
            return str(error)
        return None


class BuiltIn:
    """The sections of the built-in variants as a page has them. As a file, under other names, they must have the rules of those that are built in."""

    PAGE = "docs/VARIANTS_INI.md"

    def __init__(self):
        with open(os.path.join(TOP, self.PAGE)) as file:
            listed = blocks(file.read().splitlines())
        (self.lines,) = [[line for _, line in block] for block in listed if block[0][1] == "[chess]"]
        self.variants = [re.match(r"\[(\w+)", line).group(1) for line in self.lines if line.startswith("[")]

    def names(self):
        return [f"{self.PAGE}: {what}" for what in ["the variants", *self.variants]]

    def results(self, program):
        """For all of them whether they are those of the program, and for each whether it has the same rules; or what went wrong."""
        with tempfile.TemporaryDirectory() as folder:
            path = os.path.join(folder, "copy.ini")
            with open(path, "w") as file:
                file.writelines(re.sub(r"^\[(\w+)(?::(\w+))?\]$", self.copied, line) + "\n" for line in self.lines)
            pairs = [([f"{name} ok" for name in self.variants], said(program, "variants"))]
            pairs += [(said(program, "rules", name), said(program, "--variants", path, "rules", f"copied-{name}")) for name in self.variants]
            return [(name, fault_of(came, wanted)) for name, (wanted, came) in zip(self.names(), pairs)]

    def copied(self, header):
        name, parent = header.groups()
        return f"[copied-{name}:copied-{parent}]" if parent else f"[copied-{name}]"


def said(program, *words):
    """The lines that a command prints, which reads nothing."""
    done = subprocess.run([program, *words], stdin=subprocess.DEVNULL, stdout=subprocess.PIPE, timeout=LONGEST)
    return done.stdout.decode(errors="replace").splitlines()


def fault_of(came, wanted):
    try:
        compare(came, wanted)
    except Wrong as error:
        return str(error)
    return None
