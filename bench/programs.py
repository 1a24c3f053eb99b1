"""What the scripts of this folder share: where the programs are, and the way to python/vengine, by which they find the program and
hold sessions. A script imports this module before that one.

The program is that of this repository, or another one that VENGINE=FILE names. OTHER is Fairy-Stockfish, if Debian's package is there.
"""
import os
import subprocess
import sys
import time

SCRIPT = os.path.splitext(os.path.basename(sys.argv[0]))[0]
TOP = os.path.abspath(os.path.join(os.path.dirname(os.path.abspath(__file__)), ".."))
OTHER = next((path for path in ("/usr/games/fairy-stockfish", "/usr/bin/fairy-stockfish") if os.path.exists(path)), None)

sys.path.insert(0, os.path.join(TOP, "python"))
from vengine import find_program  # noqa: E402, F401


def built():
    """The program itself, for figures that the launcher may be no part of: VENGINE, or else the one that the launcher becomes."""
    if "VENGINE" in os.environ:
        return os.environ["VENGINE"]
    digest = subprocess.run([os.path.join(TOP, "release", "digest")], stdout=subprocess.PIPE, text=True, check=True).stdout.strip()
    for folder in (os.path.join(TOP, "release", "out"), os.path.join(TOP, "release")):
        manifest = os.path.join(folder, "MANIFEST")
        if os.path.exists(manifest):
            with open(manifest) as file:
                if f"sources {digest}" in file.read().splitlines():
                    return os.path.join(folder, "vengine")
    sys.exit(f"{SCRIPT}: no program here was made of the sources as they are; ./vengine builds it")


def seconds_of(lines, line, wanted):
    """How long a program takes from a line to the wanted one of its answer."""
    begun = time.monotonic()
    lines.ask(line, wanted)
    return time.monotonic() - begun


def memory_of(lines):
    """What a program has in memory now and what it had at most, in MiB."""
    with open(f"/proc/{lines.process.pid}/status") as file:
        kept = dict(line.split(":", 1) for line in file)
    return [int(kept[name].split()[0]) / 1024 for name in ("VmRSS", "VmHWM")]
