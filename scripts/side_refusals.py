#!/usr/bin/env python3
"""side_refusals.py [--write | --check]: lists what each call of a side may be refused with, and compares heal.h.

The contract of a call (exchange_core/src/calls.rt) names the definition of its refusals (Refusals.antt), which gives faults, whose
numbers are in Faults.antt. A call whose contract allows it may also run out of memory, 90.

Without an option it prints the table. --write puts it into docs/EMBEDDING.md, and --check fails if it differs there. All fail if the
comment of a heal_side_ function in heal.h has other numbers of a side's refusals, or states that it needs no memory where it may.
"""
import os
import re
import sys

from options import option

TOP = os.path.dirname(os.path.dirname(os.path.abspath(__file__)))
PAGE = os.path.join(TOP, "docs", "EMBEDDING.md")
BEGIN, END = "<!-- refusals of a side: begin -->\n", "<!-- refusals of a side: end -->"
MEMORY = 90
# The calls whose comments list their refusals in another order than that of the numbers.
OWN_ORDER = {"hear", "hear_list"}
# The calls that no function of the C library makes.
NOT_IN_C = {"register_agreed", "share_clashes", "take", "take_own"}


def read(path):
    with open(os.path.join(TOP, path), encoding="utf-8") as file:
        return file.read()


def numbers():
    """The number of each fault, by its name."""
    found = {}
    for crate in ("partition_table", "exchange_core"):
        text = read(f"crates/{crate}/specs/Faults.antt")
        found.update((name, int(number)) for name, number in re.findall(r"^\w+_fault_number \(?(\w+).*= (\d+)$", text, re.MULTILINE))
    return found


def refusals():
    """The numbers that each definition of Refusals.antt may give, by its name, in their order."""
    text = re.sub(r"--.*", "", read("crates/exchange_core/specs/Refusals.antt"))
    bodies = {match[1]: block for block in text.split("\n\n") if (match := re.search(r"^abbrev pub (\w+)", block, re.MULTILINE))}
    faults, given = numbers(), {}
    for name in bodies:
        reached, queue = set(), [name]
        while queue:
            if (one := queue.pop()) not in reached:
                reached.add(one)
                queue += [word for word in re.findall(r"\w+", bodies[one]) if word in bodies]
        words = {word for one in reached for word in re.findall(r"\bSome \(?(?:of\.Table )?(\w+)", bodies[one])}
        given[name] = sorted(faults[word] for word in words if word in faults)
    return given


def calls():
    """Each call of a side that may be refused, with its numbers and whether it may run out of memory, in the order of the source."""
    given, found = refusals(), {}
    source = read("crates/exchange_core/src/calls.rt")
    for name, contract in re.findall(r"^    pub fn (\w+)(.*?)^    \{$", source, re.DOTALL | re.MULTILINE):
        if answer := re.search(r"ensures answer \{(.*?)(?=\n        ensures|\Z)", contract, re.DOTALL):
            due = re.search(r"\bdue\.(\w+)", answer[1])
            found[name] = (given[due[1]] if due else [], "IsDecidedBy" not in answer[1])
    return found


def header_faults(listed):
    """What differs in the comments of heal.h."""
    comments = dict((name, comment) for comment, name in re.findall(r"/\*((?:(?!\*/).)*)\*/\nuint32_t heal_side_(\w+)\(",
                                                                   read("bindings/c/heal.h"), re.DOTALL))
    known = set(numbers().values()) - {MEMORY}
    compared = [name for name in listed if name in comments]
    for name in compared:
        shown = list(dict.fromkeys(int(word) for word in re.findall(r"\b\d+\b", comments[name]) if int(word) in known))
        if (sorted(shown) if name in OWN_ORDER else shown) != listed[name][0]:
            yield f"heal_side_{name} has {shown} in heal.h, and {listed[name][0]} by its definition"
        if "Needs no memory" in comments[name] and listed[name][1]:
            yield f"heal_side_{name} needs no memory in heal.h, and may run out of it by its contract"
    if missing := set(listed) - set(compared) - NOT_IN_C:
        yield f"heal.h has no comment right before the functions of {sorted(missing)}"


def table(listed):
    """The table of the page, with calls of equal refusals in one row."""
    rows = {}
    for name, (given, needs_memory) in listed.items():
        rows.setdefault(", ".join(map(str, given + [MEMORY] * needs_memory)), []).append(f"`{name}`")
    return "| call | refusals |\n|---|---|\n" + "".join(f"| {', '.join(names)} | {given} |\n" for given, names in rows.items())


def main():
    given = option("side_refusals.py [--write | --check]", "--write", "--check")
    listed = calls()
    if faults := list(header_faults(listed)):
        sys.exit("\n".join("side_refusals.py: " + fault for fault in faults))
    made = table(listed)
    if given is None:
        return print(made, end="")
    before, rest = read("docs/EMBEDDING.md").split(BEGIN)
    old, after = rest.split(END)
    if given == "--check":
        sys.exit(0 if old == made else "side_refusals.py: a table of docs/EMBEDDING.md is stale; run scripts/side_refusals.py --write")
    with open(PAGE, "w", encoding="utf-8") as page:
        page.write(before + BEGIN + made + END + after)


main()
