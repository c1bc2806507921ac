#!/usr/bin/env python3
"""refusals.py [--write | --check]: compares the words of docs/REFUSALS.md with those of refusals::REFUSALS.

Without an option it prints the table of docs/REFUSALS.md with the words of crates/refusals. --write puts it into the page; the
other columns stay as they are. --check fails if the words differ. All fail if one of the two lacks a number.
"""
import os
import re
import sys

from options import option

TOP = os.path.join(os.path.dirname(os.path.abspath(__file__)), "..")
PAGE = os.path.join(TOP, "docs", "REFUSALS.md")
SOURCE = os.path.join(TOP, "crates", "refusals", "src", "table.rt")
ROW = re.compile(r"\| (\d+) \|")
WORDS = 3  # the place of the words in a row that is split at its bars


def refusals():
    """The number and the words of each refusal, in the order of the source."""
    text = open(SOURCE, encoding="utf-8").read()
    text = text.split("pub const REFUSALS", 1)[1].split("\n];", 1)[0]
    found = re.findall(r'\(\s*(\d+),\s*"([^"]*)",?\s*\)', text)
    if not found:
        sys.exit("refusals.py: no refusal is found in the source")
    return found


def with_words(line, words):
    """The row with the words of its number, or the line itself if it is no row."""
    row = ROW.match(line)
    if not row:
        return line
    cells = line.split("|")
    cells[WORDS] = f" {words[row.group(1)]} "
    return "|".join(cells)


def main():
    given = option("refusals.py [--write | --check]", "--write", "--check")
    listed = refusals()
    lines = open(PAGE, encoding="utf-8").read().split("\n")
    rows = [row.group(1) for row in map(ROW.match, lines) if row]
    if rows != [number for number, _ in listed]:
        strays = sorted({number for number, _ in listed} ^ set(rows), key=int)
        sys.exit("refusals.py: docs/REFUSALS.md and refusals::REFUSALS list other numbers, or in another order: "
                 + " ".join(strays))
    new = [with_words(line, dict(listed)) for line in lines]
    if given is None:
        return print("\n".join(line for line in new if line.startswith("|")))
    if given == "--check":
        sys.exit(0 if new == lines else "refusals.py: words in docs/REFUSALS.md are stale; run scripts/refusals.py --write")
    open(PAGE, "w", encoding="utf-8").write("\n".join(new))


main()
