#!/usr/bin/env python3
"""random_inputs.py [COUNT]: runs heal on COUNT random inputs (10,000 if none is given), always the same ones: each as a
script, as the text of code, and as hex digits that are checked, judged by and written as text. Each run has to end with status 0, 2
or 3, and each line that it prints has to be one that heal can print. Needs ./heal to have been run once."""
import os
import random
import re
import subprocess
import sys
import tempfile

ROOT = os.path.join(os.path.dirname(os.path.abspath(__file__)), "..")
HEAL = os.path.join(ROOT, "crates/heal_main/out/heal_main")
CODES = [
    open(os.path.join(ROOT, "resolvers", name)).read().strip()
    for name in sorted(os.listdir(os.path.join(ROOT, "resolvers")))
    if name.endswith(".hex")
]
WORDS = (
    "upload register unregister whereis show heal gone a b c db web exit notify notify-all later 1.10 2.20 1.1.1 0 1 5 007 - # x "
    "18446744073709551615 18446744073709551616 00000000000000000000000000000001 9500000000000000 b700000001000000 "
    "mov64 add64 r0 r1 r10 jeq lddw ldxdw exit, [r1 + 8], +1 ; 0x10 -3"
).split()
OWNER = r"[0-9]+\.[0-9]+"
NAME = r"[!-~]{1,32}"
REFUSED = r"refused [0-9]+( at (slot|line) [0-9]+)?"
SCRIPT = re.compile(
    rf"yes|gone|undefined|end|{OWNER}|uploaded {NAME} [0-9]+ instructions|{NAME} {OWNER} [0-9]+ [0-9]+ {NAME}"
    rf"|{NAME} (first|second|none) word [0-9]+|exit {OWNER}|conflict {NAME} to {OWNER}( other {OWNER})?|withdrew [ab] {NAME}"
    rf"|healed [0-9]+ names|line [0-9]+: {REFUSED}|device fault"
)
CODE = re.compile(rf"[0-9a-f]+|{REFUSED}")
CHECKED = re.compile(rf"accepted [0-9]+ instructions|{REFUSED}")
JUDGED = re.compile(rf"(first|second|none) in [0-9]+ steps|{REFUSED}")
TEXT = re.compile(rf"[a-z][a-z0-9]*( .*)?|{REFUSED}")


def random_bytes(chance):
    return bytes(chance.randrange(256) for _ in range(chance.randrange(200)))


def random_line(chance):
    return " ".join(chance.choice(WORDS) for _ in range(chance.randrange(1, 9)))


def likely_line(chance):
    """A line that is likely to be right."""
    side, name = chance.choice("ab"), chance.choice(["db", "web", "cache"])
    owner = f"{chance.randrange(4)}.{chance.randrange(4)}"
    resolver = chance.choice(["exit", "notify", "notify-all", "later"])
    return chance.choice([
        f"register {side} {name} {owner} {chance.randrange(9)} 0 - {resolver}",
        f"unregister {side} {name}",
        f"whereis {side} {name}",
        f"show {side}",
        f"heal {chance.randrange(1 << 64)}",
        f"heal {chance.randrange(9)} gone {side} {name}",
        f"upload later {chance.choice(CODES)}",
    ])


def random_input(chance):
    """Bytes, words that heal knows, or lines that are likely to be right with some of their bytes changed."""
    kind = chance.randrange(4)
    if kind == 0:
        return random_bytes(chance)
    lines = [random_line(chance) if kind == 1 else likely_line(chance) for _ in range(chance.randrange(1, 20))]
    text = bytearray("\n".join(lines).encode())
    for _ in range(chance.randrange(4) if kind == 3 else 0):
        text[chance.randrange(len(text))] = chance.randrange(256)
    return bytes(text)


def random_digits(chance):
    """Hex digits of code with some of them changed, of random bytes, or other characters."""
    if chance.randrange(3) == 0:
        return random_bytes(chance).hex()
    digits = list(chance.choice(CODES))
    for _ in range(chance.randrange(4)):
        digits[chance.randrange(len(digits))] = chance.choice("0123456789abcdefABCDEFxyz")
    return "".join(digits) or "0"


def run(words, lines, shown):
    ran = subprocess.run([HEAL, *words], capture_output=True)
    text = ran.stdout.decode("ascii", "replace")
    wrong = [line for line in text.splitlines() if not lines.fullmatch(line)]
    # Refusals alone are explained on standard error.
    if ran.returncode not in (0, 2, 3) or wrong or (ran.returncode == 0 and ran.stderr):
        sys.exit(f"{words}: status {ran.returncode}, lines {wrong}, errors {ran.stderr}, of {shown!r}")


def main():
    count = int(sys.argv[1]) if len(sys.argv) > 1 else 10_000
    chance = random.Random(22)
    with tempfile.TemporaryDirectory() as folder:
        path = os.path.join(folder, "input")
        for _ in range(count):
            given = random_input(chance)
            with open(path, "wb") as file:
                file.write(given)
            digits = random_digits(chance)
            record = bytes(chance.randrange(256) for _ in range(chance.choice([128, 160, 160, 127]))).hex()
            run(["run", path, "--workers", "2"], SCRIPT, given)
            run(["asm", path], CODE, given)
            run(["check", digits], CHECKED, digits)
            run(["judge", digits, record], JUDGED, digits)
            run(["dis", digits], TEXT, digits)
    print(f"{count} inputs, five runs each, none wrong")


if __name__ == "__main__":
    main()
