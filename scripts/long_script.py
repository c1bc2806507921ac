#!/usr/bin/env python3
"""long_script.py [PROGRAM]: checks that a long script doesn't die of a full journal, and that its memory doesn't grow.

Runs the built program (crates/heal_main/out/heal_main, or PROGRAM) on scripts of a few and of many heals, each of 4,096
clashes. Every line must be carried out, and the most memory of the long script must be about that of the short one.
"""

import os
import subprocess
import sys
import tempfile

ROOT = os.path.dirname(os.path.dirname(os.path.realpath(__file__)))
NAMES = 4096
FEW, MANY = 4, 24
# The memory of a run varies by its buffers, and not with the number of heals.
MOST_GROWTH = 1.1
SECONDS = 100


def script(heals):
    """Yields the lines: before each heal, side B registers every name for an owner of its own."""
    for i in range(NAMES):
        yield f"register a n{i} 1.{i} 0 0 - exit"
    for heal in range(heals):
        for i in range(NAMES):
            if heal > 0:
                yield f"unregister b n{i}"
            yield f"register b n{i} 2.{heal * NAMES + i} 0 0 - exit"
        yield f"heal {heal}"


def run(program, heals):
    """Runs the script and returns its answers.

    Writes the script line by line to a file: a child's memory counts what this process had when it started the child.
    """
    with tempfile.NamedTemporaryFile("w") as file:
        file.writelines(f"{line}\n" for line in script(heals))
        file.flush()
        with subprocess.Popen([program, "run", file.name], stdout=subprocess.PIPE) as child:
            answers, _ = child.communicate(timeout=SECONDS)
    lines = answers.decode().splitlines()
    refused = [line for line in lines if "refused" in line]
    healed = sum(line == f"healed {NAMES} names" for line in lines)
    if child.returncode != 0 or refused or healed != heals:
        sys.exit(f"long_script.py: {heals} heals: status {child.returncode}, {healed} healed, {refused[:1]}")
    return lines


def peak(program, heals):
    """Returns the most memory of a run in KiB, measured in a process that starts nothing else."""
    reader, writer = os.pipe()
    child = os.fork()
    if child == 0:
        import resource

        os.close(reader)
        run(program, heals)
        os.write(writer, str(resource.getrusage(resource.RUSAGE_CHILDREN).ru_maxrss).encode())
        os._exit(0)
    os.close(writer)
    with os.fdopen(reader) as pipe:
        used = pipe.read()
    if os.waitpid(child, 0)[1] != 0 or not used:
        sys.exit(1)
    return int(used)


def main():
    program = sys.argv[1] if len(sys.argv) > 1 else f"{ROOT}/crates/heal_main/out/heal_main"
    few, many = peak(program, FEW), peak(program, MANY)
    if many > few * MOST_GROWTH:
        sys.exit(f"long_script.py: {FEW} heals take {few} KiB, and {MANY} heals {many} KiB")
    print(f"{MANY} heals of {NAMES} clashes were carried out in {many} KiB, {FEW} in {few} KiB")


if __name__ == "__main__":
    main()
