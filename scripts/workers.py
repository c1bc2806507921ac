#!/usr/bin/env python3
"""workers.py [PROGRAM]: checks that `heal run --workers W` judges with W workers, and that this check notices a wrong body.

One worker is the thread that reads the script, so W workers start W - 1 threads. Counts the threads that the built program
(crates/heal_main/out/heal_main, or PROGRAM) starts in one heal of 64 clashes. Then builds the program with a body that ignores the
workers, which meets its contract, without a proof, and requires that the counts differ. Needs a C compiler. Takes a minute.
"""

import os
import pathlib
import subprocess
import sys
import tempfile

from wrong_definitions import build

HERE = os.path.dirname(os.path.realpath(__file__))
# Words after the script's file, and the number of workers.
ROWS = [([], 4), (["--workers", "1"], 1), (["--workers", "2"], 2), (["--workers", "16"], 16)]
SCRIPT = "".join(f"register {half} n{i} {node}.{i} 0 0 - exit\n" for half, node in (("a", 1), ("b", 2)) for i in range(64))
WORKERS_IGNORED = [("cluster/src/settling.rt", "clashes, crew.workers.count())?", "clashes, crew.workers.count().min(1))?")]


def started(program, work, words):
    """Returns how many threads the program starts."""
    counter, script, count = (f"{work}/{name}" for name in ("count.so", "script", "count"))
    open(count, "w", encoding="ascii").close()
    settings = {"LD_PRELOAD": counter, "COUNT_THREADS": count}
    subprocess.run([program, "run", script, *words], env=settings, stdout=subprocess.DEVNULL, timeout=20, check=True)
    return os.path.getsize(count)


def main():
    program = sys.argv[1] if len(sys.argv) > 1 else f"{HERE}/../crates/heal_main/out/heal_main"
    with tempfile.TemporaryDirectory() as work:
        subprocess.run(["cc", "-shared", "-fPIC", "-o", f"{work}/count.so", f"{HERE}/count_threads.c", "-ldl"], check=True)
        with open(f"{work}/script", "w", encoding="ascii") as file:
            file.write(SCRIPT + "heal 0\n")
        for words, workers in ROWS:
            threads = started(program, work, words)
            if threads != workers - 1:
                sys.exit(f"workers.py: heal run {words} starts {threads} threads for {workers} workers")
        wrong = pathlib.Path(work) / "workers_ignored"
        build("workers_ignored", WORKERS_IGNORED, wrong)
        if all(started(wrong, work, words) == workers - 1 for words, workers in ROWS):
            sys.exit("workers.py: a program that ignores the workers isn't noticed")
    print(f"{len(ROWS)} counts of workers were used, and a body that ignores them was noticed")


if __name__ == "__main__":
    main()
