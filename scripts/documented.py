#!/usr/bin/env python3
"""documented.py RELEASE [PREFIX]: follows the documents with a release, and compares what is printed with what they show.

RELEASE is the folder of a release (scripts/release.sh). The archive in it is installed as docs/INSTALL.md shows, into an empty
folder; with PREFIX, the release is installed there already. Only standard tools are in PATH. Every code block of the pages is

    a session         run in the order of the pages, each step prints what the page shows. `…` stands for any text within a line
    an excerpt        occurs in a file that a session names, or in a program that the gate proves and runs
    a body in C       of `resolve`, with its verdict in a comment: compiled as compile.sh does, `heal check` returns that verdict
    listed            in EXEMPT, with the reason why it isn't run

Any other block is an error. A step whose tool is missing is printed as skipped, with the rest of its block; with HEAL_NO_SKIP=1 that is
an error too.
"""

import glob
import os
import re
import shutil
import socket
import subprocess
import sys
import tempfile
import time

from code_blocks import blocks_of
from terminals import ErlangShell, Shell, Stuck

TOP = os.path.dirname(os.path.dirname(os.path.abspath(__file__)))
PAGES = ["docs/INSTALL.md", "README.md", "docs/SCRIPTS.md", "docs/TEXT.md", "docs/WRITING_RESOLVERS.md", "docs/EMBEDDING.md",
         "docs/ERLANG.md"]
# The programs of the checkout that `rt ci` proves and runs, and what it compares their output with.
PROVED = ["crates/example_cluster/src/*.rt", "crates/example_cluster/stdout", "crates/example_half/src/*.rt"]
# The first line of each block that isn't run, and why.
ARCHIVE = "$ tar -xzf heal-"
PACKAGE = "$ sudo apt-get install ./heal_"
EXEMPT = {
    "docs/INSTALL.md": {PACKAGE: "installs a package of Debian; installed.sh unpacks it and passes PREFIX"},
    "docs/WRITING_RESOLVERS.md": {"$ sudo apt-get install clang llvm": "installs packages of Debian"},
    "docs/EMBEDDING.md": {
        "              part 1: side A": "a picture",
        "my_crate: heal": "needs the toolchain",
        "$ bindings/c/build.sh": "needs the toolchain",
    },
    "docs/ERLANG.md": {
        "$ bindings/c/build.sh": "needs the toolchain",
        "$ make -C bindings/erlang simulate": "needs a checkout; bindings/test.sh runs fewer schedules",
    },
}
# The tools that a command may need, by the words that show it.
TOOLS = {"cc": r"\bcc\b", "pkg-config": r"\bpkg-config\b", "python3": r"\bpython3?\b", "cargo": r"\bcargo\b", "erl": r"\berl\b",
         "escript": r"\bescript\b", "clang": r"\bclang\b|\bcompile\.sh\b", "llvm-objcopy": r"\bcompile\.sh\b"}
VERDICT = re.compile(r"/\* ((?:accepted|refused) \d+\b)")
PID = re.compile(r"<\d+\.\d+\.\d+>")


def environment(home):
    """Returns the variables of a new user: standard tools in PATH, with cargo, but nothing of the checkout or of the toolchain."""
    path = ["/usr/bin", "/bin"]
    cargo = shutil.which("cargo")
    if cargo and os.path.dirname(cargo) not in path:
        path.append(os.path.dirname(cargo))
    words = {"HOME": home, "PATH": ":".join(path), "LC_ALL": "C.UTF-8", "PYTHONDONTWRITEBYTECODE": "1"}
    if cargo and (rustup := os.environ.get("RUSTUP_HOME", os.path.expanduser("~/.rustup"))):
        words["RUSTUP_HOME"] = rustup
    if shutil.which("rt", path=words["PATH"]):
        sys.exit(f"documented.py: the toolchain is in {words['PATH']}")
    # A separate daemon, so that no other node of this machine has the names of the documents.
    with socket.socket() as free:
        free.bind(("127.0.0.1", 0))
        words["ERL_EPMD_PORT"] = str(free.getsockname()[1])
    return words


def pattern_of(line):
    """Returns the regular expression of a shown line."""
    return ".*".join(re.escape(part) for part in PID.sub("<PID>", line.rstrip()).split("…"))


def is_shown(shown, printed):
    """Returns whether the lines are those that a page shows."""
    lines = [PID.sub("<PID>", line.rstrip()) for line in printed.splitlines()]
    return len(lines) == len(shown) and all(re.fullmatch(pattern_of(one), other) for one, other in zip(shown, lines))


class Reader:
    """A new user, who follows the pages in one shell, with Erlang shells in further terminals."""

    def __init__(self, release, prefix, folder):
        self.prefix, self.environment, self.work = prefix, environment(folder), None
        self.faults, self.counts, self.erlang, self.mentioned = [], {}, {}, ""
        for file in os.listdir(release):
            shutil.copy(os.path.join(release, file), folder)
        self.shell = Shell(folder, self.environment)
        if prefix:
            self.shell.run(f"export HEAL={prefix} PATH={prefix}/bin:$PATH")

    def fault(self, place, what):
        self.faults.append(place)
        print(f"documented.py: {place}: {what}", file=sys.stderr)

    def count(self, kind):
        self.counts[kind] = self.counts.get(kind, 0) + 1

    def missing_tool(self, typed):
        """Returns a tool that a command needs and that isn't here, or None."""
        for tool, shows in TOOLS.items():
            if re.search(shows, typed) and not shutil.which(tool, path=self.environment["PATH"]):
                return tool
        if "-m venv" in typed and self.shell.run("python3 -c 'import ensurepip'")[1]:
            return "python3-venv"
        if "env/bin/" in typed and not os.path.exists(f"{self.work}/env"):
            return "env, the environment of Python"
        return None

    def skip(self, place, reason):
        print(f"documented.py: {place} isn't run: {reason}")
        self.count("skipped")
        if os.environ.get("HEAL_NO_SKIP") == "1":
            self.fault(place, "HEAL_NO_SKIP is 1, so nothing may be skipped")

    # ---- Sessions ----

    def run_session(self, block):
        """Runs the steps of a session, up to one whose tool is missing."""
        for step in block.steps():
            tool = None if step.number else self.missing_tool(step.typed)
            if tool or (step.number and self.erlang.get(step.node, "") is None):
                self.skip(block.place, f"there is no {tool}" if tool else "its node wasn't started")
                if tool == "erl":
                    self.erlang[self.node_of(step.typed)] = None
                return
            self.run_step(block, step)

    @staticmethod
    def node_of(command):
        """Returns the name of the node that a command starts, or an empty one."""
        found = re.search(r" -name (\S+)", command)
        return found[1] if found else ""

    def run_step(self, block, step):
        self.count("steps")
        if any(line.strip() == "…" for line in step.shown):
            self.fault(block.place, "a line that only says `…` shows nothing")
        try:
            status, printed = self.type_step(step)
        except Stuck as stuck:
            self.fault(block.place, f"`{step.typed}`: {stuck}")
            return
        if not is_shown(step.shown, printed) or (status and not step.shown):
            self.fault(block.place, f"`{step.typed}` prints, with status {status},\n{printed}and not\n" + "\n".join(step.shown))

    def type_step(self, step):
        """Returns the status and the output of a step."""
        if step.number:
            terminal = self.erlang.get(step.node)
            if terminal is None or terminal.number != step.number:
                raise Stuck(f"its prompt isn't {step.number} on `{step.node}`, but {terminal and terminal.number}")
            return 0, terminal.run(step.typed)
        if re.match(r"erl\b", step.typed):
            self.start_erlang(step.typed)
            return 0, ""
        printed, status = self.shell.run(step.typed)
        return status, printed

    def start_erlang(self, command):
        """Starts an Erlang shell where the shell is, with its variables."""
        node = self.node_of(command)
        if old := self.erlang.pop(node, None):
            old.close()
        folder, *lines = self.shell.run("pwd; export -p | sed 's/^export //'")[0].splitlines()
        variables = dict(line.split("=", 1) for line in lines if "=" in line)
        words = {name: value.strip("'") for name, value in variables.items()}
        self.erlang[node] = ErlangShell(command, folder, words)

    # ---- Excerpts ----

    def sources(self):
        """Yields the text of each file that a session names, and of the programs of the gate."""
        for path in sorted(glob.glob(f"{self.work}/**/*", recursive=True)):
            name = os.path.relpath(path, self.work)
            stem, kind = os.path.splitext(os.path.basename(path))
            is_named = name in self.mentioned or (kind == ".rs" and f"--example {stem}\n" in self.mentioned)
            if is_named and os.path.isfile(path) and kind not in (".o", ".whl", ""):
                yield path
        for pattern in PROVED:
            yield from glob.glob(os.path.join(TOP, pattern))

    def is_excerpt(self, block):
        """Returns whether the lines of a block are lines of such a file."""
        wanted = list(block.lines)
        for path in self.sources():
            with open(path, encoding="utf-8") as file:
                lines = file.read().split("\n")
            if any(lines[at:at + len(wanted)] == wanted for at in range(len(lines))):
                return True
        return False

    def check_body(self, block, verdict):
        """Compiles the body of a resolver, and compares the verdict of `heal check`."""
        if tool := self.missing_tool("compile.sh"):
            self.skip(block.place, f"there is no {tool}")
            return
        self.count("bodies")
        with open(f"{self.work}/body.c", "w", encoding="utf-8") as file:
            file.write('#include "record.h"\n\nuint64_t resolve(const struct record *r)\n{\n' + "\n".join(block.lines) + "\n}\n")
        printed, _ = self.shell.run("resolvers/compile.sh body.c > body.hex && heal check @body.hex")
        if not re.match(rf"{verdict}\b", printed):
            self.fault(block.place, f"the verdict isn't {verdict}, but {printed}")

    # ---- Pages ----

    def follow(self, block):
        """Runs or checks a block."""
        if block.is_session:
            self.run_session(block)
        elif self.is_excerpt(block):
            self.count("excerpts")
        elif block.language == "c" and (found := VERDICT.search("\n".join(block.lines))):
            self.check_body(block, found[1])
        else:
            self.fault(block.place, "the block is neither a session nor an excerpt of a file that one runs:\n" + "\n".join(block.lines))

    def follow_page(self, page, blocks):
        """Follows a page, from the user's copy of the examples once it is there."""
        started, unused = time.monotonic(), set(self.exempt(page))
        if self.work:
            self.shell.run(f"cd {self.work}")
        for block in blocks:
            reason = [first for first in self.exempt(page) if block.lines[0].startswith(first)]
            if reason:
                unused -= set(reason)
                self.count("exempt")
            else:
                self.follow(block)
        for first in unused:
            self.fault(page, f"no block begins with `{first}`, so it needs no exception")
        if page == PAGES[0]:
            self.work = self.shell.run("pwd")[0].strip()
        print(f"{page}: {time.monotonic() - started:.0f} s")

    def exempt(self, page):
        """Returns the exceptions of a page: with PREFIX the package is installed, else the archive."""
        if page == PAGES[0] and self.prefix:
            return {**EXEMPT[page], ARCHIVE: "the package is installed"}
        return EXEMPT.get(page, {})

    def leave(self):
        for terminal in self.erlang.values():
            if terminal:
                terminal.close()
        self.shell.close()
        if shutil.which("epmd", path=self.environment["PATH"]):
            subprocess.run(["epmd", "-kill"], env=self.environment, stdout=subprocess.DEVNULL, stderr=subprocess.DEVNULL, check=False)


def main():
    release, prefix = os.path.abspath(sys.argv[1]), os.path.abspath(sys.argv[2]) if len(sys.argv) > 2 else None
    pages = {}
    for page in PAGES:
        with open(os.path.join(TOP, page), encoding="utf-8") as file:
            pages[page] = blocks_of(page, file.read())
    with tempfile.TemporaryDirectory() as folder:
        reader = Reader(release, prefix, folder)
        sessions = [block for blocks in pages.values() for block in blocks if block.is_session]
        reader.mentioned = "".join(f"{step.typed}\n" for block in sessions for step in block.steps())
        try:
            for page, blocks in pages.items():
                reader.follow_page(page, blocks)
        finally:
            reader.leave()
    counts = ", ".join(f"{number} {kind}" for kind, number in sorted(reader.counts.items()))
    print(f"the documents show what happens: {counts}" if not reader.faults else f"{len(reader.faults)} faults of the documents; {counts}")
    sys.exit(1 if reader.faults or not reader.counts.get("steps") else 0)


main()
