#!/usr/bin/env python3
"""budgets.py [--write]: compares the instructions that the program takes with those in bench/budgets.

Counts, by callgrind, the instructions of `heal judge` for each resolver of resolvers/ on the record of crates/heal_main/args,
of `heal run` with one worker on a script in which 1,024 names clash and on one in which a program of 1,024 instructions judges 256
clashes, and of each call of a side with 1,024 and 2,048 names (bindings/c/cost.c). Fails if a count is more than 3 percent and 500
instructions above its budget, and reports each that is as far below. --write writes the counts down. Needs the proved program,
libheal (HEAL_OUT names its folder), a C compiler and valgrind.
"""

import glob
import os
import re
import subprocess
import sys
import tempfile

TOP = os.path.dirname(os.path.dirname(os.path.abspath(__file__)))
sys.path.insert(0, os.path.join(TOP, "bindings", "c"))
import cost  # noqa: E402
from options import option  # noqa: E402

C = os.path.join(TOP, "bindings", "c")
HEAL = os.path.join(TOP, "crates", "heal_main", "out", "heal_main")
BUDGETS = os.path.join(TOP, "bench", "budgets")
CLASHES = 1024
LONG_CLASHES = 256
LONG_CODE = "b700000000000000" + 1022 * "0700000001000000" + "9500000000000000"
NAMES = [1024, 2048]
PART = 0.03
# A call of the C library's allocator takes a few hundred instructions more or less, by the blocks that it tries.
SLACK = 500


def instructions(work, *words):
    """The instructions that heal takes with these words."""
    counted = os.path.join(work, "counted")
    # An empty environment: its size would count.
    subprocess.run(["valgrind", "-q", "--tool=callgrind", f"--callgrind-out-file={counted}", HEAL, *words],
                   check=True, stdout=subprocess.DEVNULL, env={"PATH": os.environ["PATH"]})
    with open(counted, encoding="utf-8") as file:
        return int(re.search(r"^summary: (\d+)", file.read(), re.MULTILINE).group(1))


def script(clashes, resolver, first=()):
    """The text of a script with these lines first, in which so many names clash by a resolver, and a healing."""
    lines = [f"register {side} name{i} {node}.{i} 5 0 - {resolver}" for i in range(clashes) for side, node in ("a1", "b2")]
    return "\n".join([*first, *lines, "heal 7"]) + "\n"


def of_script(work, text):
    """The instructions of a script with one worker."""
    path = os.path.join(work, "script")
    with open(path, "w", encoding="utf-8") as file:
        file.write(text)
    return instructions(work, "run", path, "--workers", "1")


def of_sides(work):
    """The name and the count of each call of a side."""
    program = os.path.join(work, "cost")
    library = os.path.join(os.environ.get("HEAL_OUT", os.path.join(C, "out")), "libheal.a")
    # Otherwise the dynamic linker looks a function of the C library up at its first call, and that call's count includes it.
    words = ["cc", "-std=c11", "-O1", "-Wl,-z,now", f"-I{C}", os.path.join(C, "cost.c"), library, "-lpthread", "-o", program]
    subprocess.run(words, check=True)
    found = {names: cost.instructions(program, names, work) for names in NAMES}
    return {f"{call} of {names} names": found[names][call] for names in NAMES for call in cost.CALLS}


def counts():
    """The name and the count of each run, in the order of the file."""
    found = {}
    with open(os.path.join(TOP, "crates", "heal_main", "args"), encoding="utf-8") as file:
        record = file.read().split()[-1]
    with tempfile.TemporaryDirectory() as work:
        for path in sorted(glob.glob(os.path.join(TOP, "resolvers", "*.hex"))):
            name = os.path.basename(path)[:-len(".hex")]
            with open(path, encoding="utf-8") as file:
                found[f"judge {name}"] = instructions(work, "judge", file.read().strip(), record)
        found[f"run {CLASHES} clashes"] = of_script(work, script(CLASHES, "notify"))
        long_script = script(LONG_CLASHES, "long", [f"upload long {LONG_CODE}"])
        found[f"run {LONG_CLASHES} clashes by 1,024 instructions"] = of_script(work, long_script)
        found.update(of_sides(work))
    return found


def budgets():
    with open(BUDGETS, encoding="utf-8") as file:
        rows = [line.rsplit(None, 1) for line in file if line.strip()]
    return {name: int(count) for name, count in rows}


def slack(budget):
    """How far a count may be from its budget."""
    return max(SLACK, PART * budget)


def main():
    given = option("budgets.py [--write]", "--write")
    found = counts()
    if given == "--write":
        with open(BUDGETS, "w", encoding="utf-8") as file:
            file.writelines(f"{name} {count}\n" for name, count in found.items())
        return
    agreed = budgets()
    if agreed.keys() != found.keys():
        sys.exit(f"budgets.py: bench/budgets has {sorted(agreed)}, and these were counted: {sorted(found)}")
    over = [f"{name}: {count}, budget {agreed[name]}" for name, count in found.items() if count - agreed[name] > slack(agreed[name])]
    for name, count in found.items():
        if agreed[name] - count > slack(agreed[name]):
            print(f"{name}: {count}, below the budget of {agreed[name]}; write it down by budgets.py --write")
    if over:
        sys.exit("budgets.py: over the budget: " + "; ".join(over))
    print(f"{len(found)} runs are within their budgets of instructions")


if __name__ == "__main__":
    main()
