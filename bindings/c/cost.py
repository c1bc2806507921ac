#!/usr/bin/env python3
"""cost.py PROGRAM: checks that no call of a side takes more than its share with more names.

Counts, by callgrind, the instructions that the built cost.c spends in all calls of each function with 1,024, 2,048 and 4,096
names. Twice the names must take at most 2.5 times the instructions. Needs valgrind.
"""

import os
import re
import subprocess
import sys
import tempfile

COUNTS = [1024, 2048, 4096]
MOST = 2.5
CALLS = "register unregister whereis row_after begin hear withdraw settle close_list hear_list finish abandon give_up renew".split()


def instructions(program, names, work):
    """Returns the instructions that each call takes, together with all that it calls."""
    counted = f"{work}/counted"
    subprocess.run(
        ["valgrind", "-q", "--tool=callgrind", f"--callgrind-out-file={counted}", program, str(names)], check=True
    )
    listing = subprocess.run(
        ["callgrind_annotate", "--auto=no", "--inclusive=yes", "--threshold=100", counted],
        check=True,
        capture_output=True,
        text=True,
    ).stdout
    rows = re.findall(r"^ *([\d,]+) .*?:heal_side_(\w+)(?: |$)", listing, re.MULTILINE)
    return {call: int(count.replace(",", "")) for count, call in rows}


def main():
    with tempfile.TemporaryDirectory() as work:
        taken = [instructions(os.path.abspath(sys.argv[1]), names, work) for names in COUNTS]
    wrong = []
    for call in CALLS:
        few = [row.get(call, 0) for row in taken]
        if 0 in few or any(more > MOST * less for less, more in zip(few, few[1:])):
            wrong.append(f"{call} {few}")
    if wrong:
        sys.exit(f"cost.py: instructions with {COUNTS} names: {', '.join(wrong)}")
    print(f"{len(CALLS)} calls take at most {MOST} times the instructions with twice the names")


if __name__ == "__main__":
    main()
