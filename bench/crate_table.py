#!/usr/bin/env python3
"""Writes the last column, 'depends on', of the tables of crates in docs/ARCHITECTURE.md as crates.txt has it.

Usage: bench/crate_table.py [--check]

With --check it writes nothing. It ends with an error where a crate has no row or a row no crate, where a crate stands above one that it
depends on, and with --check also where a row differs from crates.txt.
"""
import os
import sys

TOP = os.path.join(os.path.dirname(os.path.abspath(__file__)), "..")
PAGE = os.path.join(TOP, "docs", "ARCHITECTURE.md")
HEAD = "| crate | does | its contract for the layers above | depends on |"


def crates():
    """The crates, each with those that it depends on, in the order of crates.txt."""
    found = {}
    with open(os.path.join(TOP, "crates.txt"), encoding="utf-8") as file:
        for line in file:
            name, colon, below = line.split("#")[0].partition(":")
            if colon:
                found[name.split()[0]] = below.split()
    return found


def rewritten(lines, below):
    """The lines of the page with the column as it should be, and the names that have rows."""
    rows, named, inside = [], [], False
    for line in lines:
        inside = line.startswith(HEAD) or (inside and line.startswith("|"))
        cells = line.split("|")
        name = cells[1].strip() if inside else ""
        if name in below:
            named.append(name)
            cells[4] = f" {', '.join(below[name])} " if below[name] else " "
            line = "|".join(cells)
        elif inside and name not in ("crate", "---"):
            sys.exit(f"crate_table: {name} has a row and is no crate")
        rows.append(line)
    return rows, named


def out_of_order(named, below):
    """Each crate whose row stands above that of one that it depends on."""
    place = {name: i for i, name in enumerate(named)}
    return [name for name in named if any(place[name] < place[other] for other in below[name] if other in place)]


def main():
    below = crates()
    with open(PAGE, encoding="utf-8") as file:
        lines = file.read().split("\n")
    rows, named = rewritten(lines, below)
    lacking = [name for name in below if name not in named]
    if lacking:
        sys.exit(f"crate_table: no row for {' '.join(lacking)}")
    early = out_of_order(named, below)
    if early:
        sys.exit(f"crate_table: above a crate that they depend on: {' '.join(early)}")
    if "--check" in sys.argv[1:]:
        differing = [row.split("|")[1].strip() for row, line in zip(rows, lines) if row != line]
        if differing:
            sys.exit(f"crate_table: these rows differ from crates.txt: {' '.join(differing)}")
        return
    with open(PAGE, "w", encoding="utf-8") as file:
        file.write("\n".join(rows))


main()
