#!/usr/bin/env python3
"""live_input.py [PROGRAM]: checks that heal answers each line of standard input before it waits for the next.

Starts the built program (crates/heal_main/out/heal_main, or PROGRAM) between two pipes, writes a line of a script, and
writes the next only once the answer is there. Fails if an answer is wrong or late.
"""

import os
import select
import subprocess
import sys
import time

ROOT = os.path.dirname(os.path.dirname(os.path.realpath(__file__)))
SECONDS = 20
# A path is relative to the current folder.
FILE = os.path.relpath(f"{ROOT}/resolvers/later_stamp.hex")

# Parts of a script, and the answer to each. A comment has none, and a line may come in two parts.
PARTS = [
    ("register a db 1.10 5 0 - exit\n", "yes\n"),
    ("# a comment\nwhereis a db\n", "1.10\n"),
    ("register b db 2.20 9 0 - exit\nsho", "yes\n"),
    ("w b\nunregister a nobody\n", "db 2.20 9 0 exit\nend\nline 6: refused 31\n"),
    (f"upload later @{FILE}\n", "uploaded later 6 instructions\n"),
    (f"upload other @{FILE}.missing\nregister a web 1.1", "line 8: refused 58\n"),
    (" 0 0 - later\n", "yes\n"),
    ("heal 0\nwhereis b db", "db first word 0\nexit 2.20\nhealed 2 names\n"),
]
LAST_ANSWER = "1.10\n"
STATUS = 2

LISTING = "mov64 r0, 1\nexit\n"
CODE = "b7000000010000009500000000000000\n"


def read_in_time(pipe, count):
    """Returns up to `count` bytes, fewer if the pipe ends or the time is over."""
    got, end = b"", time.monotonic() + SECONDS
    while len(got) < count and select.select([pipe], [], [], max(0, end - time.monotonic()))[0]:
        more = os.read(pipe.fileno(), count - len(got))
        if not more:
            break
        got += more
    return got.decode()


def check(what, got, wanted):
    """Ends with status 1 if the value is wrong."""
    if got != wanted:
        sys.exit(f"live_input.py: {what}: {got!r} instead of {wanted!r}")


def main():
    program = sys.argv[1] if len(sys.argv) > 1 else f"{ROOT}/crates/heal_main/out/heal_main"
    pipes = {"stdin": subprocess.PIPE, "stdout": subprocess.PIPE}
    with subprocess.Popen([program, "run", "-"], bufsize=0, **pipes) as heal:
        try:
            for part, answer in PARTS:
                heal.stdin.write(part.encode())
                check(f"answer to {part!r}", read_in_time(heal.stdout, len(answer)), answer)
            heal.stdin.close()
            check("answer to the last line", read_in_time(heal.stdout, len(LAST_ANSWER) + 1), LAST_ANSWER)
            check("status", heal.wait(SECONDS), STATUS)
        finally:
            heal.kill()
    ran = subprocess.run([program, "asm", "-"], input=LISTING, stdout=subprocess.PIPE, text=True, timeout=SECONDS)
    check("code of standard input", (ran.stdout, ran.returncode), (CODE, 0))
    print(f"{len(PARTS)} answers came before the next line was written")


if __name__ == "__main__":
    main()
