#!/usr/bin/env python3
"""prove.py [CRATE]: proves the crates that heal_main, or heal_c, is built from, and builds it.

That is crates/heal_main/out/heal_main, or crates/heal_c/out/libheal_c.a. Proves each crate as soon as the crates below it
are proved, on all processors, and prints one line on standard error for each, with its time and the crates that are
being proved. Crates of the longest chain of dependencies go first, and large ones get most processors. `rt` locks the folders of a
crate and of all crates below it, so each proof runs in a copy under out/prove: it takes the libraries below from
crates/*/out, and leaves its own library and kept work there. If a proof fails, this prints the last lines of its log, and
the status is 125.
"""

import fcntl
import os
import shutil
import signal
import subprocess
import sys
import time
from concurrent.futures import FIRST_COMPLETED, ThreadPoolExecutor, wait

ROOT = os.path.dirname(os.path.dirname(os.path.realpath(__file__)))
COPIES = f"{ROOT}/out/prove"
# What is built of the last crate, and the command that builds it.
BUILT = {"heal_main": "heal_main", "heal_c": "libheal_c.a"}
# A crate that the longest chain of dependencies waits for gets three of four processors, but no more than this.
MOST_JOBS = 4
# Two crates with fewer bytes of sources took longer with several jobs, each of which loads the libraries below.
LARGE = 100_000
# `rt run` builds the program, and then runs it.
BUILDING = {"heal_main": ["rt", "run", "--", "check", "b7000000010000009500000000000000"], "heal_c": ["rt", "lib"]}


def read_crates():
    """Returns for each crate its line of crates.txt, and the crates of this repository that it uses."""
    with open(f"{ROOT}/crates.txt", encoding="utf-8") as file:
        rows = [row.partition("#")[0].strip() for row in file]
    lines = {row.partition(":")[0].split()[0]: row for row in rows if row}
    return lines, {name: [it for it in row.partition(":")[2].split() if it in lines] for name, row in lines.items()}


def with_below(uses, name):
    """Returns the crate and the crates below it, each after those that it uses."""
    found = [it for below in uses[name] for it in with_below(uses, below)]
    return list(dict.fromkeys([*found, name]))


def size(name):
    """Returns the size of a crate's sources in bytes: a guess of the time of its proof."""
    folders = [walk for part in ("src", "specs", "proofs") for walk in os.walk(f"{ROOT}/crates/{name}/{part}")]
    return sum(os.path.getsize(f"{at}/{it}") for at, _, files in folders for it in files)


def link_or_copy(source, target):
    """Links a file if the file system can, since `rt` replaces such files and never writes into them."""
    try:
        os.link(source, target)
    except OSError:
        shutil.copy2(source, target)


def link_or_copy_proved(source, target):
    """Links proved files of kept work, which `rt` replaces, and copies the others."""
    (link_or_copy if source.endswith(".oantt") else shutil.copy2)(source, target)


def copy_if_there(source, target, how=shutil.copy2):
    """Copies a folder if it exists."""
    if os.path.isdir(source):
        shutil.copytree(source, target, copy_function=how)


def copy_crates(lines, names, name):
    """Copies a crate and the built crates below it for a proof, and returns the crate's folder there."""
    top = f"{COPIES}/{name}"
    os.makedirs(f"{top}/crates")
    with open(f"{top}/crates.txt", "w", encoding="utf-8") as file:
        file.writelines(f"{lines[it]}\n" for it in names)
    for it in names:
        of_crate, copy = f"{ROOT}/crates/{it}", f"{top}/crates/{it}"
        for part in ("src", "specs", "proofs"):
            copy_if_there(f"{of_crate}/{part}", f"{copy}/{part}")
        copy_if_there(f"{of_crate}/out/rlib", f"{copy}/out/rlib", link_or_copy)
    copy_if_there(f"{ROOT}/crates/{name}/out/incremental", f"{top}/crates/{name}/out/incremental", link_or_copy_proved)
    return f"{top}/crates/{name}"


def give_back(folder, name):
    """Moves the results of a proof to the crate's own folder."""
    for part in ("rlib", "incremental"):
        made, own = f"{folder}/out/{part}", f"{ROOT}/crates/{name}/out/{part}"
        if os.path.isdir(made):
            shutil.rmtree(own, ignore_errors=True)
            os.makedirs(os.path.dirname(own), exist_ok=True)
            os.rename(made, own)


def run_logged(name, words, folder):
    """Runs a command in this folder with the crate's log as its output, and returns its status."""
    with open(f"{COPIES}/{name}.log", "w", encoding="utf-8") as log:
        return subprocess.run(words, cwd=folder, stdin=subprocess.DEVNULL, stdout=log, stderr=log).returncode


def prove(lines, uses, name, jobs, is_awaited):
    """Proves a crate with `jobs` processes, and returns the status and the time in seconds.

    Crates that the longest chain doesn't wait for leave the processors to those that it does.
    """
    start = time.monotonic()
    if name in BUILDING:
        status = run_logged(name, BUILDING[name], f"{ROOT}/crates/{name}")
    else:
        folder = copy_crates(lines, with_below(uses, name), name)
        status = run_logged(name, [*([] if is_awaited else ["nice"]), "rt", "lib", "--jobs", str(jobs)], folder)
        give_back(folder, name)
        shutil.rmtree(f"{COPIES}/{name}")
    return status, time.monotonic() - start


def prove_all(lines, uses, last):
    """Proves a crate and those below it, longest chains first, and returns whether all passed."""
    names = with_below(uses, last)
    behind = {name: size(name) for name in names}
    for name in reversed(names):
        for below in uses[name]:
            behind[below] = max(behind[below], size(below) + behind[name])
    processors = len(os.sched_getaffinity(0))
    most = min(MOST_JOBS, max(1, processors * 3 // 4))
    left, running, proved = sorted(names, key=lambda name: -behind[name]), {}, []
    has_failed = False
    with ThreadPoolExecutor(processors) as pool:
        while running or (left and not has_failed):
            ready = [name for name in left if not has_failed and all(it in proved for it in uses[name])]
            for name in ready:
                taken = [jobs for _, jobs in running.values()]
                is_awaited = name in with_below(uses, left[0])
                jobs = most if is_awaited and size(name) >= LARGE and most not in taken else 1
                # One job too many, since the jobs of a crate aren't always all busy.
                if sum(taken) + jobs <= processors + 1:
                    running[pool.submit(prove, lines, uses, name, jobs, is_awaited)] = name, jobs
                    left.remove(name)
            for done in wait(running, return_when=FIRST_COMPLETED).done:
                name, _ = running.pop(done)
                status, seconds = done.result()
                if status:
                    has_failed = True
                    show_failure(name)
                else:
                    proved.append(name)
                    now = "; now " + ", ".join(it for it, _ in running.values()) if running else ""
                    print(f"[{len(proved)}/{len(names)}] {name}: proved in {seconds:.0f} s{now}", file=sys.stderr, flush=True)
    return not has_failed


def show_failure(name):
    """Prints the last lines of a crate's log."""
    with open(f"{COPIES}/{name}.log", encoding="utf-8", errors="replace") as log:
        sys.stderr.writelines(log.readlines()[-20:])
    print(f"heal: {name} could not be proved; waiting for the running proofs", file=sys.stderr, flush=True)


def main():
    last = sys.argv[1] if len(sys.argv) > 1 else "heal_main"
    if last not in BUILT:
        print(f"prove.py: no such crate to build: {last}", file=sys.stderr)
        return 1
    signal.signal(signal.SIGTERM, lambda *_: sys.exit(143))
    os.makedirs(f"{ROOT}/out", exist_ok=True)
    turn = os.open(f"{ROOT}/out", os.O_RDONLY)
    try:
        fcntl.flock(turn, fcntl.LOCK_EX | fcntl.LOCK_NB)
    except BlockingIOError:
        print("heal: another ./heal --prove or bindings/c/build.sh runs here", file=sys.stderr)
        return 125
    shutil.rmtree(COPIES, ignore_errors=True)
    os.makedirs(COPIES)
    start = time.time()
    try:
        if not prove_all(*read_crates(), last):
            return 125
        # An edit during the proofs is newer than their start.
        os.utime(f"{ROOT}/crates/{last}/out/{BUILT[last]}", (start, start))
        return 0
    finally:
        shutil.rmtree(COPIES, ignore_errors=True)


if __name__ == "__main__":
    try:
        sys.exit(main())
    except KeyboardInterrupt:
        sys.exit(130)
