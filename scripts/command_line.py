#!/usr/bin/env python3
"""command_line.py [PROGRAM]: checks what heal answers to the words of its command line.

Runs the built program (crates/heal_main/out/heal_main, or PROGRAM) with each row of words. Fails if a status, the output or
the texts on standard error are wrong.
"""

import os
import subprocess
import sys
import tempfile

import code_files

ROOT = os.path.dirname(os.path.dirname(os.path.realpath(__file__)))

with open(f"{ROOT}/VERSION", encoding="utf-8") as file:
    VERSION = file.read().strip()

# Adds a signed byte to an address: only signed ranges accept it.
SIGNED = (
    "9112080000000000b7000000000000007502030000000000bfa30000000000000f2300000000000072030000010000009500000000000000"
)

# Words, the status and the output for them, and the text on standard error.
TASKS = [
    (["check", "b7000000010000009500000000000000"], 0, "accepted 2 instructions\n", ""),
    (
        ["check", SIGNED, "--profile", "1"],
        2,
        "refused 18 at slot 4\n",
        "heal: refused 18 at slot 4: an address moved too far, or by an unknown amount\n"
        "      r0=0 r1=record[0] r2=0..18446744073709551615 r3=stack[0] r10=stack[0]\n"
        "4: add64 r3, r2\n",
    ),
    (["check", "--profile=2", SIGNED], 0, "accepted 7 instructions\n", ""),
    (
        ["check", "--explain", "7a0af8ff0200000079a0f8ff000000009500000000000000"],
        0,
        "accepted 3 instructions\n",
        "      r1=record[0] r10=stack[0]\n"
        "0: stdw [r10-8], 2\n"
        "      r1=record[0] r10=stack[0] written[-8..-1]\n"
        "1: ldxdw r0, [r10-8]\n"
        "      r0=0..18446744073709551615 r1=record[0] r10=stack[0] written[-8..-1]\n"
        "2: exit\n",
    ),
    # A signed byte: its signed range says more than the unsigned one, and then both say the same.
    (
        ["check", "--explain", "9112080000000000b7000000000000007502030000000000bfa30000000000000f2300000000000072030000010000009500000000000000"],
        0,
        "accepted 7 instructions\n",
        "      r1=record[0] r10=stack[0]\n"
        "0: ldxsb r2, [r1+8]\n"
        "      r1=record[0] r2=0..18446744073709551615 signed -128..127 r10=stack[0]\n"
        "1: mov64 r0, 0\n"
        "      r0=0 r1=record[0] r2=0..18446744073709551615 signed -128..127 r10=stack[0]\n"
        "2: jsge r2, 0, +3\n"
        "      r0=0 r1=record[0] r2=18446744073709551488..18446744073709551615 r10=stack[0]\n"
        "3: mov64 r3, r10\n"
        "      r0=0 r1=record[0] r2=18446744073709551488..18446744073709551615 r3=stack[0] r10=stack[0]\n"
        "4: add64 r3, r2\n"
        "      r0=0 r1=record[0] r2=18446744073709551488..18446744073709551615 r3=stack[-128..-1] r10=stack[0]\n"
        "5: stb [r3+0], 1\n"
        "      r0=0 r1=record[0] r2=0..18446744073709551615 signed -128..127 r10=stack[0]\n"
        "6: exit\n",
    ),
    # Two signed tests, from 7 down and from -8 up.
    (
        ["check", "--explain", "7912080000000000b7000000000000006502020007000000c5020100f8ffffffbf200000000000009500000000000000"],
        0,
        "accepted 6 instructions\n",
        "      r1=record[0] r10=stack[0]\n"
        "0: ldxdw r2, [r1+8]\n"
        "      r1=record[0] r2=0..18446744073709551615 r10=stack[0]\n"
        "1: mov64 r0, 0\n"
        "      r0=0 r1=record[0] r2=0..18446744073709551615 r10=stack[0]\n"
        "2: jsgt r2, 7, +2\n"
        "      r0=0 r1=record[0] r2=0..18446744073709551615 signed -9223372036854775808..7 r10=stack[0]\n"
        "3: jslt r2, -8, +1\n"
        "      r0=0 r1=record[0] r2=0..18446744073709551615 signed -8..7 r10=stack[0]\n"
        "4: mov64 r0, r2\n"
        "      r0=0..18446744073709551615 signed -8..7 r1=record[0] r2=0..18446744073709551615 r10=stack[0]\n"
        "5: exit\n",
    ),
    # Unsigned ranges alone have no signed one.
    (
        ["check", "--explain", "--profile", "1", "9110080000000000" + "9500000000000000"],
        0,
        "accepted 2 instructions\n",
        "      r1=record[0] r10=stack[0]\n"
        "0: ldxsb r0, [r1+8]\n"
        "      r0=0..18446744073709551615 r1=record[0] r10=stack[0]\n"
        "1: exit\n",
    ),
    # A wide load and a jump over an instruction that is never reached.
    (
        ["check", "--explain", "1800000001000000000000000200000015000100020000009500000000000000b7000000010000009500000000000000"],
        0,
        "accepted 5 instructions\n",
        None,
    ),
    (["dis", "9500000000000000"], 0, "exit\n", ""),
    # Code in a file, by its hex digits, and a record by its fields.
    (["check", f"@{ROOT}/resolvers/later_stamp.hex"], 0, "accepted 6 instructions\n", ""),
    (
        ["judge", f"@{ROOT}/resolvers/later_stamp.hex", "--name", "db", "--first", "1.10,stamp=5", "--second", "2.20,stamp=9"],
        0,
        "second in 5 steps\n",
        "",
    ),
    (
        ["judge", f"@{ROOT}/resolvers/bigger_half.hex", "--name", "db", "--first", "1.10,size=3", "--second", "2.20,size=4"],
        0,
        "second in 8 steps\n",
        "",
    ),
    (
        ["judge", "9500000000000000", "--name", "db", "--first", "1.10,stamp=05", "--second", "2.20"],
        2,
        "refused 15 at slot 0\n",
        None,
    ),
    (
        ["judge", "b7000000010000009500000000000000", "--name", "db", "--first", "1.10,stamp=05", "--second", "2.20"],
        2,
        "refused 52\n",
        None,
    ),
    # What a program saw and answered.
    (
        ["judge", f"@{ROOT}/resolvers/later_stamp.hex", "--name", "db", "--first", "1.10,stamp=5", "--second", "2.20,stamp=9", "--explain"],
        0,
        "second in 5 steps\n",
        f"name db, word 0\nfirst 1.10, stamp 5, weight 0, extra {'00' * 16}, size 0, uptime 0\n"
        f"second 2.20, stamp 9, weight 0, extra {'00' * 16}, size 0, uptime 0\nr0 = 2 after 5 steps\n",
    ),
    (
        ["judge", "--explain", "b7000000000000009500000000000000", "ff" * 160],
        0,
        "none in 2 steps\n",
        f"name {'ff' * 32}, word {2**64 - 1}\n"
        f"first {2**32 - 1}.{2**32 - 1}, stamp {2**64 - 1}, weight {2**64 - 1}, extra {'ff' * 16}, size {2**64 - 1}, uptime {2**64 - 1}\n"
        f"second {2**32 - 1}.{2**32 - 1}, stamp {2**64 - 1}, weight {2**64 - 1}, extra {'ff' * 16}, size {2**64 - 1}, uptime {2**64 - 1}\n"
        "r0 = 0 after 2 steps\n",
    ),
    (["check", "@/no/such/file"], 3, "device fault\n", "heal: the file can't be read\n"),
    (["judge", "01", "00"], 2, "refused 3\n", "heal: refused 3: an incomplete last slot\n"),
    (["asm", "/no/such/file"], 3, "device fault\n", "heal: the file can't be read\n"),
    (["run", "/no/such/file", "--workers", "1"], 3, "device fault\n", ""),
    (["--version"], 0, f"heal {VERSION}\n", ""),
    (["-V"], 0, f"heal {VERSION}\n", ""),
    (["help", "refusals"], 0, None, ""),
]

# A script, the options of `run`, and the text on standard error for it.
SPLIT = "register a db 1.10 5 0 - exit\nregister b db 2.20 9 0 - exit\n"
SCRIPTS = [
    ("unregister a nobody\n", [], "heal: line 1: refused 31: the name isn't registered\n"),
    (SPLIT + "heal 0\n", [], ""),
    (
        SPLIT + "heal 0\nupload x 00\n",
        ["--explain"],
        "db: the first is 1.10 (stamp 5, weight 0), the second is 2.20 (stamp 9, weight 0)\n"
        "db: exit answers at word 0 that the first keeps the name\n"
        "db: notice exit 2.20\n"
        "heal: line 4: refused 3: an incomplete last slot\n",
    ),
    (
        "upload x 79a0f8ff000000009500000000000000\n",
        [],
        "heal: line 1: refused 24 at slot 0: a load of stack bytes that may be unwritten\n"
        "      r1=record[0] r10=stack[0]\n"
        "0: ldxdw r0, [r10-8]\n",
    ),
]

# Code that always answers 1, and files: their names and contents. The folder `folder` is there too.
CODE = bytes.fromhex("b7000000010000009500000000000000")
FILES = {
    "digits": CODE.hex().encode(),
    "spaced": code_files.spaced(CODE),
    "bytes": CODE,
    "object": code_files.object_file(CODE),
    "relocated": code_files.object_file(CODE, relocated=True),
    "other.machine": code_files.object_file(CODE, machine=62),
    "no.code": code_files.object_file(b""),
    "cut": code_files.object_file(CODE)[:63],
    "empty": b"",
    "odd": CODE.hex().encode()[:-1],
    "longest": b" " * (1048576 - 2 * len(CODE)) + CODE.hex().encode(),
    "too.long": b" " * 1048577,
    "rejected": bytes.fromhex("9500000000000000"),
    "@": CODE,
    "-": CODE,
}

# Lines of one script with files, and the answer to each.
FILE_LINES = [
    ("upload l1 @digits", "uploaded l1 2 instructions"),
    ("upload l2 @spaced", "uploaded l2 2 instructions"),
    ("upload l3 @bytes", "uploaded l3 2 instructions"),
    ("upload l4 @object", "uploaded l4 2 instructions"),
    ("upload l5 @longest", "uploaded l5 2 instructions"),
    ("  upload   l6  @./digits  ", "uploaded l6 2 instructions"),
    ("upload l7 @@", "uploaded l7 2 instructions"),
    ("upload l8 @-", "uploaded l8 2 instructions"),
    ("upload x @relocated", "line 9: refused 8"),
    ("upload x @other.machine", "line 10: refused 8"),
    ("upload x @no.code", "line 11: refused 8"),
    ("upload x @cut", "line 12: refused 8"),
    ("upload x @empty", "line 13: refused 1"),
    ("upload x @odd", "line 14: refused 50"),
    ("upload x @too.long", "line 15: refused 57"),
    ("upload x @missing", "line 16: refused 58"),
    ("upload x @folder", "line 17: refused 58"),
    ("upload x @digits/", "line 18: refused 58"),
    ("upload x @", "line 19: refused 58"),
    ("upload x @" + "y" * 5000, "line 20: refused 58"),
    ("upload x @rejected", "line 21: refused 15 at slot 0"),
    # The label is checked before the file, and the words of the line before both.
    ("upload l1 @missing", "line 22: refused 53"),
    ("upload exit @digits", "line 23: refused 53"),
    ("upload x @two words", "line 24: refused 51"),
    ("upload x @\x7f", "line 25: refused 51"),
    # A refused line changes nothing, and only `upload` reads files.
    ("register a db 1.10 5 0 - x", "line 26: refused 41"),
    ("register a db 1.10 5 0 - @digits", "line 27: refused 41"),
    ("register a db 1.10 5 0 - l4", "yes"),
    ("register b db 2.20 9 0 - l4", "yes"),
    ("show a", "db 1.10 5 0 l1\nend"),
    ("heal 0", "db first word 0\nhealed 1 names"),
    ("upload x @digits", "uploaded x 2 instructions"),
]

# Lines with a file, and the words for them, which show nothing of its content.
FILE_WORDS = (
    "upload x @missing\nupload x @object\nupload y @odd\nupload y @rejected\n",
    "heal: line 1: refused 58: a file that can't be read\n"
    "heal: line 3: refused 50: invalid hex digits, or the wrong number of them\n"
    "heal: line 4: refused 15 at slot 0: a read of a register that may be unset, or may be an address or a number\n",
)


def registrations(count):
    """Returns a script that registers this many names on side a."""
    return "".join(f"register a n{k} 1.{k} 0 0 - exit\n" for k in range(count))


# A script, the options of `run`, the status and the output.
LIMITS = [
    (registrations(5000) + "heal 0\n", ["--names", "8192"], 0, "yes\n" * 5000 + "healed 5000 names\n"),
    (registrations(11), ["--names", "10"], 2, "yes\n" * 10 + "line 11: refused 32\n"),
    (registrations(4097), [], 2, "yes\n" * 4096 + "line 4097: refused 32\n"),
    (
        "register a x 1.1 0 0 - exit\nregister b y 2.1 0 0 - exit\nheal 0\n",
        ["--names", "1"],
        2,
        "yes\nyes\nline 3: refused 37\n",
    ),
]

# Words that aren't a task: status 1, and a text on standard error alone.
NO_TASKS = [
    [],
    ["judges", "01", "00"],
    ["judge"],
    ["judge", "01"],
    ["judge", "01", "--name", "db"],
    ["judge", "01", "--first", "1.10", "--second", "2.20"],
    ["judge", "01", "00", "--name", "db", "--first", "1.10", "--second", "2.20"],
    ["judge", "01", "00", "--word", "7"],
    ["run", "script", "--names", "0"],
    ["run", "script", "--names", "1048577"],
    ["judge", "01", "00", "00"],
    ["check"],
    ["check", "01", "--profile"],
    ["check", "01", "--profile", "3"],
    ["judge", "01", "00", "--profile", "1"],
    ["dis", "01", "00"],
    ["asm"],
    ["--help"],
    ["asm", "-x"],
    ["run"],
    ["run", "script", "--workers", "0"],
    ["run", "script", "--workers", "17"],
    ["run", "script", "--workers", "many"],
    ["run", "script", "other"],
    [b"check", b"\xff"],
]

# Words, and the beginning, a part and the end of the text for them.
TEXTS = [
    ([], "error: 'heal' requires a subcommand but one was not provided\n", "\nUsage: heal <COMMAND>\n", "\n"),
    (
        ["check"],
        "error: the following required arguments were not provided:\n  <CODE>\n",
        "\nUsage: heal check <CODE>\n",
        "\n",
    ),
    (
        ["--help"],
        "Heals splits of a cluster's names by proved code\n\nUsage: heal <COMMAND>\n",
        "\n  judge  Judges a clash by a program: the first, the second or neither keeps the name\n",
        "heal --version prints the version.\n",
    ),
    (["judge", "--help"], "Judges a clash", "The record of the clash, in hex digits\n", "first in 2 steps\n"),
    (["judge", "01"], "error: judge takes RECORDHEX, or --name, --first and --second, and no others\n", "", "\n"),
    (["help", "run"], "Runs a script", "--names <N>", "1.10\n"),
    (["help", "run"], "Runs a script", "hex digits, or @FILE", "1.10\n"),
    (["help", "run"], "Runs a script", "$ printf 'register a db 1.10 5 0 - exit\\nheal 0\\nwhereis b db\\n' | heal run -\n", "1.10\n"),
    (["help", "asm"], "Assembles", "$ printf 'mov64 r0, 1\\nexit\\n' | heal asm -\n", "9500000000000000\n"),
    (["help", "check"], "Checks whether", "--explain", "accepted 2 instructions\n"),
    ([b"\xff"], "error: an argument isn't UTF-8\n", "", "\n"),
]


def refusals():
    """Returns the number and the words of each row of docs/REFUSALS.md."""
    with open(f"{ROOT}/docs/REFUSALS.md", encoding="utf-8") as page:
        rows = [line.split("|") for line in page if line.startswith("| ") and line[2].isdigit()]
    return [(row[1].strip(), row[3].strip()) for row in rows]


def write_files(folder):
    """Writes the files, the folder, and a file that others than root can't read."""
    for name, content in FILES.items():
        with open(os.path.join(folder, name), "wb") as file:
            file.write(content)
    os.mkdir(os.path.join(folder, "folder"))
    with open(os.path.join(folder, "locked"), "wb") as file:
        file.write(CODE)
    os.chmod(os.path.join(folder, "locked"), 0)


def run_in(folder, program, script):
    """Returns the status, the output and the text on standard error of a script on standard input."""
    done = subprocess.run(
        [os.path.abspath(program), "run", "-"], input=script.encode(), capture_output=True, timeout=60, check=False, cwd=folder
    )
    return done.returncode, done.stdout.decode(), done.stderr.decode()


def files_are_wrong(program):
    """Checks the lines with files. Each is answered as `check` answers the file, or its digits."""
    with tempfile.TemporaryDirectory() as folder:
        write_files(folder)
        script = "".join(line + "\n" for line, _ in FILE_LINES)
        if run_in(folder, program, script)[:2] != (2, "".join(answer + "\n" for _, answer in FILE_LINES)):
            return True
        if run_in(folder, program, FILE_WORDS[0])[2] != FILE_WORDS[1]:
            return True
        if os.getuid() and run_in(folder, program, "upload x @locked")[:2] != (2, "line 1: refused 58\n"):
            return True
        # What `check` prints for a file is what `upload` answers, but for a file that can't be read.
        for name in FILES:
            checked = answered(program, ["check", f"@{os.path.join(folder, name)}"])[1]
            due = checked.replace("accepted ", "uploaded x ") if checked.startswith("accepted") else f"line 1: {checked}"
            if run_in(folder, program, f"upload x @{name}")[1] != due:
                return True
    return False


def answered(program, words):
    """Returns the status, the output and the text on standard error."""
    done = subprocess.run([program, *words], stdin=subprocess.DEVNULL, capture_output=True, timeout=20, check=False)
    return done.returncode, done.stdout.decode(), done.stderr.decode()


def main():
    program = sys.argv[1] if len(sys.argv) > 1 else f"{ROOT}/crates/heal_main/out/heal_main"
    wrong = []
    if files_are_wrong(program):
        wrong.append(["run", "-"])
    for words, status, output, text in TASKS:
        got = answered(program, words)
        due = (status, got[1] if output is None else output, got[2] if text is None else text)
        if got != due:
            wrong.append(words)
    for script, options, text in SCRIPTS:
        done = subprocess.run([program, "run", "-", *options], input=script.encode(), capture_output=True, timeout=20, check=False)
        if done.stderr.decode() != text:
            wrong.append(["run", "-", *options])
    for script, options, status, output in LIMITS:
        done = subprocess.run([program, "run", "-", *options], input=script.encode(), capture_output=True, timeout=60, check=False)
        if (done.returncode, done.stdout.decode()) != (status, output):
            wrong.append(["run", "-", *options])
    # The list has each of these numbers with its words.
    if answered(program, ["help", "refusals"])[1] != "".join(f"{number} {words}\n" for number, words in refusals()):
        wrong.append(["help", "refusals"])
    for words in NO_TASKS:
        status, output, text = answered(program, words)
        if status != 1 or output or not text:
            wrong.append(words)
    for words, begin, part, end in TEXTS:
        text = answered(program, words)[2]
        if not (text.startswith(begin) and part in text and text.endswith(end)):
            wrong.append(words)
    for words in wrong:
        print(f"command_line.py: heal {words} answers {answered(program, words)}", file=sys.stderr)
    sys.exit(1 if wrong else 0)


if __name__ == "__main__":
    main()
