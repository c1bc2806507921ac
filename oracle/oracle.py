"""heal's commands check, judge, dis, asm and run: what heal prints on standard output, and its status.

Follows README.md, docs/WRITING_RESOLVERS.md, docs/TEXT.md, docs/SCRIPTS.md and docs/REFUSALS.md. `oracle.py COMMAND WORD..`
carries out a command; asm and run take a file.
"""

import pathlib
import sys

import files
import machine
import script
import text
import verifier
from machine import Refused


def answered(show, *calls):
    """Shows what these calls return, or else the least of their refusals; a file that can't be read is a device fault, which
    comes first. Returns what is printed, the status and the numbers of the refusals."""
    found, faults = [], []
    for call in calls:
        try:
            found.append(call())
        except Refused as refused:
            faults.append(refused)
    if not faults:
        return show(*found), 0, set()
    least = min(faults, key=lambda refused: (refused.number != 58, refused.number))
    if least.number == 58:
        return "device fault\n", 3, {58}
    place = f" at {least.place[0]} {least.place[1]}" if least.place else ""
    return f"refused {least.number}{place}\n", 2, {least.number}


def decoded(word):
    """The instructions of a word: hex digits, or @ and a file."""
    return machine.decode(files.code_of(word.encode()))


def loaded(word, profile=2):
    insns = decoded(word)
    verifier.verify(insns, profile)
    return insns


def check(word, profile=2):
    return answered(lambda insns: f"accepted {len(insns)} instructions\n", lambda: loaded(word, profile))


def judge(word, record_digits):
    return answered(lambda insns, data: "{} in {} steps\n".format(*machine.judge(insns, data)), lambda: loaded(word),
                    lambda: machine.record_of(files.hex_bytes(record_digits.encode())))


def dis(word):
    return answered(text.disassemble, lambda: decoded(word))


def asm(data):
    return answered(lambda code: code.hex() + "\n", lambda: text.assemble(data))


COMMANDS = {"check": check, "judge": judge, "dis": dis, "asm": lambda name: asm(pathlib.Path(name).read_bytes()),
            "run": lambda name: script.run(pathlib.Path(name).read_bytes())}

if __name__ == "__main__":
    printed, status, _ = COMMANDS[sys.argv[1]](*sys.argv[2:])
    sys.stdout.write(printed)
    sys.exit(status)
