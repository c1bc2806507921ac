#!/usr/bin/env python3
"""refusals.py [--write | --check]: the refusals of C, Python and Rust by name, from the tables of words and names.

The words are those of refusals::REFUSALS, the names those of docs/REFUSALS.md. --write puts them between the marks of c/heal.h and
into python/heal/refusal.py and rust/heal/src/refusal.rs; --check fails if one of them is stale.
"""
import os
import re
import sys

HERE = os.path.dirname(os.path.abspath(__file__))
TOP = os.path.join(HERE, "..")
BEGIN, END = "/* refusals.py writes these. */\n", "/* The end of what refusals.py writes. */\n"
# Where the page has no name or several.
NAMES = {
    41: "UnknownProgram",
    42: "OtherCode",
    83: "OtherMessage",
    49: "Moved",
    90: "OutOfMemory",
    91: "EmptyHandle",
    92: "OutOfRange",
    93: "OtherLength",
    94: "StillNamed",
}
# Refusals that no call of the library returns: of rulings of boards, of object files, and of texts.
STRANGE = {8, 38, *range(50, 70)}


def read(*path):
    with open(os.path.join(*path), encoding="utf-8") as page:
        return page.read()


def refusals():
    """The number, the name and the words of each refusal that a call of the library returns."""
    table = read(TOP, "crates", "refusals", "src", "table.rt").split("pub const REFUSALS", 1)[1].split("\n];", 1)[0]
    words = {int(number): text for number, text in re.findall(r'\(\s*(\d+),\s*"([^"]*)",?\s*\)', table)}
    page = re.findall(r"^\| (\d+) \| (\w*)", read(TOP, "docs", "REFUSALS.md"), re.MULTILINE)
    names = {int(number): name for number, name in page if name} | NAMES
    listed = [(number, names.get(number), words[number]) for number in sorted(words) if number not in STRANGE]
    nameless = [number for number, name, _ in listed if not name]
    if nameless or len({name for _, name, _ in listed}) < len(listed):
        sys.exit(f"refusals.py: without a name, or with one of another number: {nameless}")
    return listed


def shouted(name):
    """NameTaken as NAME_TAKEN."""
    return re.sub(r"(?<=[a-z0-9])(?=[A-Z])", "_", name).upper()


def header():
    """heal.h with the enum."""
    rows = [f"    HEAL_E_{shouted(name)} = {number}, /* {words} */\n" for number, name, words in refusals()]
    before, rest = read(HERE, "c", "heal.h").split(BEGIN)
    return before + BEGIN + "enum {\n    HEAL_OK = 0,\n" + "".join(rows) + "};\n" + END + rest.split(END)[1]


def python():
    rows = "".join(f"    {shouted(name)} = {number}  # {words}\n" for number, name, words in refusals())
    return (
        '"""The refusals by name. refusals.py writes this file."""\n\nfrom enum import IntEnum\n\n\n'
        f'class Refusal(IntEnum):\n    """The refusals that calls return."""\n\n{rows}'
    )


def rust():
    rows = refusals()
    variants = "".join(f"    /// {number}: {words}.\n    {name} = {number},\n" for number, name, words in rows)
    arms = "".join(f"            {number} => Ok(Refusal::{name}),\n" for number, name, _ in rows)
    return (
        "//! The refusals by name. refusals.py writes this file.\n\n"
        "/// The refusals that calls return.\n"
        "#[derive(Clone, Copy, Debug, PartialEq, Eq, PartialOrd, Ord, Hash)]\n#[non_exhaustive]\n#[repr(u32)]\n"
        f"pub enum Refusal {{\n{variants}}}\n\n"
        "impl TryFrom<u32> for Refusal {\n    type Error = u32;\n\n"
        "    /// Returns the refusal with this number, or the number if it has no name.\n"
        "    fn try_from(number: u32) -> Result<Refusal, u32> {\n        match number {\n"
        f"{arms}            _ => Err(number),\n        }}\n    }}\n}}\n"
    )


def main():
    pages = {
        os.path.join(HERE, "c", "heal.h"): header(),
        os.path.join(HERE, "python", "heal", "refusal.py"): python(),
        os.path.join(HERE, "rust", "heal", "src", "refusal.rs"): rust(),
    }
    stale = [path for path, text in pages.items() if not os.path.exists(path) or read(path) != text]
    if sys.argv[1:] == ["--check"]:
        sys.exit(f"refusals.py: stale: {' '.join(map(os.path.relpath, stale))}; run bindings/refusals.py --write" if stale else 0)
    for path in stale:
        with open(path, "w", encoding="utf-8") as page:
            page.write(pages[path])


main()
