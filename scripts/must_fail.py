#!/usr/bin/env python3
"""must_fail.py [--anew] [CRATE[/EDIT] ..]: tries the wrong bodies crates/CRATE/must-fail/EDIT.edit: the prover must refuse each.

`rt ci` tries them one by one, and most of each try is loading and proving what the changed function calls. This tries those of a crate
together, in as few checks as it can: one check has at most one wrong body of each function. The proof of a function depends only on the
contracts of the functions that it calls. So in the copy that is checked all functions that no wrong body changes have no body, and a
hole for their proof. A wrong body counts as refused if the check doesn't prove its function, for the function's own
goals and not only because it calls another that isn't proved. A wrong body that isn't refused like this, or that lies outside functions,
is tried alone in the whole crate, as `rt ci` does: then the crate must not be proved.

Takes the libraries in crates/*/out/rlib, as `rt ci` or prove.py left them. Prints one line for each wrong body, and at the end
'N refused, M not refused'. The status is 1 if one isn't refused or can't be tried.

What a machine has tried is kept next to the kit, as `rt ci` keeps its proofs: if all wrong bodies of a crate were refused, they aren't
tried again with the same sources, the same libraries below the crate, the same kit and this script. --anew tries all.
"""

import functools
import hashlib
import os
import re
import shutil
import subprocess
import sys
import tempfile
import time
from concurrent.futures import ThreadPoolExecutor, as_completed

from bodies import cut, functions_of, sources_of
from prove import ROOT, read_crates, with_below

KIT = os.path.dirname(subprocess.run(["rt", "doc"], capture_output=True, text=True, check=True).stdout.strip())
KEPT = f"{os.path.dirname(KIT)}/heal-must-fail-kept"
MONTH = 30 * 24 * 60 * 60
CONSTANT = re.compile(r"(?:pub(?:\([^)]*\))? )?(?:const|static) (\w+)\s*:")


class Edit:
    """A wrong body: the file that it changes, its text there, and the functions that it may make wrong."""

    def __init__(self, crate, path):
        self.name = f"{crate}/{os.path.basename(path)[: -len('.edit')]}"
        self.pairs, self.file = [], None
        with open(path, encoding="utf-8") as lines:
            for line in lines.read().splitlines():
                word, _, text = line.partition(": ")
                if word == "file":
                    self.file = text.strip()
                elif word == "old":
                    old = text
                elif word in ("new", "new:"):
                    self.pairs.append((self.file, old, text))
        self.functions = self.find_functions(crate)

    def find_functions(self, crate):
        """Returns the path of the function that all pairs lie in, or those of the functions that name the constant that they change.

        There are none if the pairs lie in several items.
        """
        found = {items_at(crate, file, old) for file, old, _ in self.pairs}
        return found.pop() if len(found) == 1 else ()

    def apply(self, folder):
        """Writes the wrong body into a copy of the crate."""
        for file, old, new in self.pairs:
            with open(f"{folder}/{file}", encoding="utf-8") as it:
                text = it.read()
            if text.count(old) != 1:
                raise ValueError(f"{self.name}: its old text is in {file} {text.count(old)} times, and not once")
            with open(f"{folder}/{file}", "w", encoding="utf-8") as it:
                it.write(text.replace(old, new))


@functools.cache
def read(crate):
    """Returns the lines of each source of a crate, and its functions."""
    sources = sources_of(f"{ROOT}/crates/{crate}")
    return sources, functions_of(crate, sources)


def items_at(crate, file, old):
    """Returns the path of the function around a text of a crate's file, or those of the functions that name the constant around it."""
    sources, functions = read(crate)
    if file not in sources:
        return ()
    lines = sources[file]
    at = "\n".join(lines).partition(old)[0].count("\n")
    function = next((it.path for it in functions if it.file == file and it.first <= at <= it.last), None)
    if function:
        return (function,)
    start = next((n for n in range(at, -1, -1) if CONSTANT.match(lines[n]) or lines[n] in ("", "}")), at)
    constant = CONSTANT.match(lines[start])
    return naming(crate, constant[1]) if constant else ()


def naming(crate, constant):
    """Returns the paths of the functions of a crate that name a constant."""
    sources, functions = read(crate)
    word = re.compile(rf"\b{constant}\b")
    return tuple(it.path for it in functions if any(map(word.search, sources[it.file][it.first : it.last])))


def check_words(lines, uses, crate):
    """Returns the command that checks a crate over the libraries below it."""
    own = lines[crate].partition(":")
    is_program = os.path.isfile(f"{ROOT}/crates/{crate}/src/main.rt")
    words = [f"{KIT}/bin/rattle", "check", "--crate-name", crate, "src/main.rt" if is_program else "src/lib.rt"]
    words += ["--extern", f"std={KIT}/rlibs/std.rlib", "-L", f"dependency={KIT}/rlibs"]
    for name in own[2].split():
        folder = f"{ROOT}/crates/{name}/out/rlib" if name in uses else f"{KIT}/rlibs"
        words += ["--extern", f"{name}={folder}/{name}.rlib"]
    for name in with_below(uses, crate)[:-1]:
        words += ["-L", f"dependency={ROOT}/crates/{name}/out/rlib"]
    words += ["--antt-project", f"{KIT}/rattle/logic/antt-project.json", "--logic-built", f"{KIT}/logic_built"]
    words += ["--links", f"{crate}=", "--jobs", "1"]
    return words + (["--crate-type", "staticlib"] if "staticlib" in own[0] else [])


def copied(crate, folder):
    """Copies the parts of a crate that a check reads."""
    for part in ("src", "specs", "proofs"):
        if os.path.isdir(f"{ROOT}/crates/{crate}/{part}"):
            shutil.copytree(f"{ROOT}/crates/{crate}/{part}", f"{folder}/{part}")


def checked(words, base, edits, kept, functions):
    """Checks functions of a copy of a crate with these wrong bodies, over kept work, and returns the status and what was printed."""
    with tempfile.TemporaryDirectory(prefix="must-fail-") as folder:
        shutil.copytree(base, folder, dirs_exist_ok=True)
        for edit in edits:
            edit.apply(folder)
        only = [word for it in functions for word in ("--only", it)]
        how = {"stdin": subprocess.DEVNULL, "stdout": subprocess.PIPE, "stderr": subprocess.STDOUT, "errors": "replace"}
        ran = subprocess.run([*words, "--incremental", kept, *only], cwd=folder, **how)
        return ran.returncode, ran.stdout


def is_refused(printed, function):
    """Checks whether the prover refused a function for its own goals.

    One that only calls what isn't proved reads "no proof: it calls ..", and one whose proof cites what is refused elsewhere "not
    proved; it stands on ..", with the refused lemmas.
    """
    line = re.search(rf"^fn (?:\S*::)?{re.escape(function)}: (.*)$", printed, re.M)
    if not line or not line[1].startswith("not proved"):
        return bool(line and re.match(r"no proof: (?!it calls)", line[1]))
    stands_on = re.findall(r"`(Rattle\.[^`]*)`", line[1].partition("it stands on ")[2])
    own = f".{function.partition('::')[2] if function.count('::') > 1 else function}.".replace("::", ".")
    return not stands_on or any(own in it for it in stands_on)


def rounds_of(edits):
    """Groups wrong bodies, at most one of each function in a group."""
    rounds = []
    for edit in edits:
        free = next((it for it in rounds if not any(set(edit.functions) & set(other.functions) for other in it)), None)
        if free is None:
            rounds.append(free := [])
        free.append(edit)
    return rounds


def try_alone(words, base, edit, kept):
    """Returns why the crate with this wrong body isn't refused, or None if it is."""
    status, printed = checked(words, base, [edit], kept, [])
    last = printed.rstrip().rpartition("\n")[2]
    if status == 1 and last.startswith("logic=not-proved"):
        return None
    return "the crate is still proved" if status == 0 else f"it did not reach the prover: {printed.strip()[:300]}"


def try_together(crate, words, base, edits, kept):
    """Tries wrong bodies of functions of a copy of a crate in as few checks as it can. Returns a line for each refused one, and the others."""
    said, left = [], []
    for group in rounds_of(edits):
        status, printed = checked(words, base, group, kept, [function for it in group for function in it.functions])
        if status not in (0, 1):
            said.append(f"{crate}: tries each alone: {printed.strip()[-300:]}")
        for edit in group:
            refused = next((it for it in edit.functions if is_refused(printed, it)), None)
            if refused:
                said.append(f"{edit.name}: refused, as it must be: {refused}")
            else:
                left.append(edit)
    return said, left


def try_crate(lines, uses, crate, edits):
    """Tries the wrong bodies of a crate, and returns a line for each and how many are not refused."""
    start = time.monotonic()
    words = check_words(lines, uses, crate)
    failed = 0
    with tempfile.TemporaryDirectory(prefix="must-fail-kept-") as room:
        whole, base, kept = f"{room}/whole", f"{room}/base", f"{room}/kept"
        for folder in (whole, base):
            copied(crate, folder)
        cut(crate, base, {it for edit in edits for it in edit.functions})
        said, left = try_together(crate, [*words, "--allow-holes"], base, [it for it in edits if it.functions], kept)
        for edit in [*left, *(it for it in edits if not it.functions)]:
            why = try_alone(words, whole, edit, kept)
            said.append(f"{edit.name}: {'NOT REFUSED: ' + why if why else 'refused, as it must be, alone'}")
            failed += why is not None
    said.append(f"{crate}: {len(edits)} wrong bodies in {time.monotonic() - start:.0f} s")
    return said, failed


@functools.cache
def digest(path, _size, _changed):
    """Returns the checksum of a file of this size that was changed at this time."""
    with open(path, "rb") as file:
        return hashlib.sha256(file.read()).digest()


def sum_of(lines, uses, crate, edits):
    """Returns a checksum of all that tries of these wrong bodies read: sources of the crate, libraries below it, the kit, and scripts."""
    folders = [f"{ROOT}/crates/{crate}/{part}" for part in ("src", "specs", "proofs")]
    folders += [f"{ROOT}/crates/{it}/out/rlib/{it}.rlib" for it in with_below(uses, crate)[:-1]]
    paths = [f"{at}/{it}" for folder in folders for at, _, files in os.walk(folder) for it in files]
    paths += [f"{ROOT}/scripts/{it}.py" for it in ("must_fail", "bodies", "prove")]
    kit = subprocess.run(["rt", "version"], capture_output=True, text=True, check=True).stdout
    total = hashlib.sha256(repr((kit, lines[crate], [(it.name, it.pairs) for it in edits])).encode())
    for path in sorted(paths):
        found = os.stat(path)
        total.update(repr((os.path.relpath(path, ROOT), digest(path, found.st_size, found.st_mtime_ns))).encode())
    return total.hexdigest()


def try_once(lines, uses, crate, edits, anew):
    """Tries the wrong bodies of a crate like try_crate, unless an earlier run of this machine has tried the same."""
    path = f"{KEPT}/{crate}-{sum_of(lines, uses, crate, edits)}"
    if not anew and os.path.isfile(path):
        with open(path, encoding="utf-8") as file:
            return [*file.read().splitlines(), f"{crate}: an earlier run of this machine has tried these"], 0
    said, failed = try_crate(lines, uses, crate, edits)
    # Keeps nothing if a file has changed during the tries.
    if not failed and path == f"{KEPT}/{crate}-{sum_of(lines, uses, crate, edits)}":
        keep(path, said)
    return said, failed


def keep(path, said):
    """Keeps what was printed, where this may write. Removes what was kept a month ago."""
    try:
        os.makedirs(KEPT, mode=0o700, exist_ok=True)
        with tempfile.NamedTemporaryFile("w", encoding="utf-8", dir=KEPT, delete=False) as file:
            file.write("\n".join(said) + "\n")
        os.replace(file.name, path)
        for entry in os.scandir(KEPT):
            if entry.stat().st_mtime < time.time() - MONTH:
                os.remove(entry)
    except OSError as error:
        print(f"must_fail.py: not kept: {error}", file=sys.stderr)


def edits_of(crate, names):
    """Returns the wrong bodies of a crate, or those of these names."""
    folder = f"{ROOT}/crates/{crate}/must-fail"
    files = sorted(os.listdir(folder)) if os.path.isdir(folder) else []
    paths = [f"{folder}/{it}" for it in files if it.endswith(".edit")]
    return [Edit(crate, it) for it in paths if not names or f"{crate}/{os.path.basename(it)[: -len('.edit')]}" in names]


def main():
    lines, uses = read_crates()
    anew = "--anew" in sys.argv
    wanted = [it for it in sys.argv[1:] if it != "--anew"]
    crates = list(dict.fromkeys(it.partition("/")[0] for it in wanted)) or list(lines)
    tasks = [(it, edits_of(it, [name for name in wanted if name.startswith(f"{it}/")])) for it in crates]
    known = {*lines, *(edit.name for _, edits in tasks for edit in edits)}
    if strays := [it for it in wanted if it not in known]:
        print(f"must_fail.py: no such crate or wrong body: {' '.join(strays)}", file=sys.stderr)
        return 2
    # Crates with much to check go first.
    tasks.sort(key=lambda task: -len(with_below(uses, task[0])) * len(task[1]))
    jobs = int(os.environ.get("RT_JOBS") or os.cpu_count())
    tried = failed = 0
    with ThreadPoolExecutor(jobs) as pool:
        running = {pool.submit(try_once, lines, uses, crate, edits, anew): edits for crate, edits in tasks if edits}
        for done in as_completed(running):
            said, bad = done.result()
            print("\n".join(f"must-fail {it}" for it in said), flush=True)
            tried, failed = tried + len(running[done]), failed + bad
    refused = tried - failed
    print(f"{refused} refused, {failed} not refused")
    return 1 if failed or not refused else 0


if __name__ == "__main__":
    sys.exit(main())
