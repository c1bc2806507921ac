#!/usr/bin/env python3
"""nodes.py ROUNDS PROGRAM..: ends the nodes of a half at random moments, and checks that no edit is lost.

PROGRAM is the built node.c, or a program with the same requests, and its first words. Each round starts three nodes from their
folders, and registers and unregisters names: on the primary, then on both backups, and only then an edit counts as acknowledged. At
a random moment all three are killed (SIGKILL), or the primary alone, or the primary can't write any more: a file may not grow beyond
a size, as on a full disk, and the node must end, also when it is started again before there is room. Then they start again, a node that
was a backup leads, and every acknowledged edit must be there. Before the rounds, a node that can't read its files must end, and one must
drop a request that is cut.
"""

import os
import random
import resource
import signal
import struct
import subprocess
import sys
import tempfile
import threading
import time


# The nodes allow 4,096. A fast machine makes more edits until a node is killed.
MOST_NAMES = 1000


class Ended(Exception):
    """A node has ended."""


class Node:
    """A process with a replica."""

    def __init__(self, program, top, number, most=resource.RLIM_INFINITY, env=None):
        """Starts a node, none of whose files may grow beyond a size."""
        self.number = number
        folder = f"{top}/{number}"
        os.makedirs(folder, exist_ok=True)
        # Python ignores SIGXFSZ, and so does the node then: a write beyond the size of a file fails.
        self.process = subprocess.Popen([*program, folder, str(number)], stdin=subprocess.PIPE, stdout=subprocess.PIPE,
                                        stderr=subprocess.PIPE, bufsize=0, restore_signals=False, env=env,
                                        preexec_fn=lambda: resource.setrlimit(resource.RLIMIT_FSIZE, (most, most)))

    def read(self, size):
        got = b""
        while len(got) < size:
            part = self.process.stdout.read(size - len(got))
            if not part:
                raise Ended
            got += part
        return got

    def ask(self, request, body=b""):
        """Returns the refusal and the bytes of the answer."""
        try:
            self.process.stdin.write(request + struct.pack("=Q", len(body)) + body)
        except BrokenPipeError as broken:
            raise Ended from broken
        refusal, size = struct.unpack("=LQ", self.read(12))
        return refusal, self.read(size)

    def kill(self):
        self.process.send_signal(signal.SIGKILL)

    def fill(self, size):
        """No file of the node may grow beyond the size."""
        resource.prlimit(self.process.pid, resource.RLIMIT_FSIZE, (size, size))

    def must_fail(self):
        """Waits for a node that can't start or write: it must end with an error."""
        try:
            if self.process.wait(timeout=30) > 0:
                return
        except subprocess.TimeoutExpired:
            self.end()
        sys.exit("nodes.py: a node that can't start or write went on, or ended without an error")

    def end(self):
        """Kills the process, and returns what it wrote to standard error."""
        self.process.kill()
        self.process.wait()
        with self.process.stderr as errors, self.process.stdin, self.process.stdout:
            return errors.read().decode()


def must(answer):
    refusal, body = answer
    if refusal != 0:
        sys.exit(f"nodes.py: refused {refusal}")
    return body


def lead(primary, backups):
    """Lets a node lead, and the others follow it."""
    snapshot = must(primary.ask(b"L"))
    for backup in backups:
        must(backup.ask(b"F", snapshot))


class Half:
    """What the nodes must have: the acknowledged names, and those whose last edit wasn't acknowledged."""

    def __init__(self, chance):
        self.chance, self.names, self.unsure, self.acknowledged = chance, set(), set(), 0

    def edit(self, primary, backups, number):
        """Makes a random edit on all three nodes."""
        if len(self.names) >= MOST_NAMES or self.names and self.chance.random() < 0.3:
            name, request = self.chance.choice(sorted(self.names)), b"U"
        else:
            name, request = f"name{number}", b"R"
        self.names.discard(name)
        self.unsure.add(name)
        entry = must(primary.ask(request, name.encode()))
        for backup in backups:
            must(backup.ask(b"A", entry))
        self.unsure.discard(name)
        if request == b"R":
            self.names.add(name)
        self.acknowledged += 1

    def check(self, node, edits):
        """Checks the names of a node, after this many edits in all."""
        for number in range(edits):
            name = f"name{number}"
            refusal, _ = node.ask(b"W", name.encode())
            if name in self.unsure:
                (self.names.add if refusal == 0 else self.names.discard)(name)
            elif refusal != (0 if name in self.names else 31):
                sys.exit(f"nodes.py: {name} is {refusal}, and {'registered' if name in self.names else 'not'}")
        self.unsure.clear()


def work(half, primary, backups, edits, stop):
    """Makes edits until a node has ended, after `stop` was called at a random moment, and returns how many were begun."""
    delay = half.chance.uniform(0, 0.2)
    killer = threading.Thread(target=lambda: (time.sleep(delay), stop()))
    killer.start()
    try:
        while True:
            edits += 1
            half.edit(primary, backups, edits - 1)
    except Ended:
        killer.join()
        return edits


def check_starts(program):
    """Checks that a node ends with an error if its number isn't one, or if it can't read a file, and that it keeps such a file."""
    with tempfile.TemporaryDirectory() as top:
        for number, name in ("x", None), (0, "log"), (1, "incarnation"):
            path = f"{top}/{number}/{name}"
            if name:
                # A link to itself can't be opened.
                os.makedirs(f"{top}/{number}")
                os.symlink(name, path)
            node = Node(program, top, number)
            node.must_fail()
            node.end()
            if name and not os.path.islink(path):
                sys.exit(f"nodes.py: a node replaced the file {name}, which it can't read")


def check_cut(program):
    """Checks that a node doesn't carry out a request that the end of the input cuts."""
    request = b"R" + struct.pack("=Q", 4) + b"name"
    with tempfile.TemporaryDirectory() as top:
        for length in 8, 9, 12, 13:
            ran = subprocess.run([*program, top, "1"], input=request[:length], stdout=subprocess.PIPE, timeout=60, check=True)
            if bool(ran.stdout) != (length == len(request)):
                sys.exit(f"nodes.py: a node answered {ran.stdout} to the first {length} bytes of a request of {len(request)}")


def main():
    rounds, program = int(sys.argv[1]), sys.argv[2:]
    check_starts(program)
    check_cut(program)
    half, edits, cut = Half(random.Random()), 0, 0
    with tempfile.TemporaryDirectory() as top:
        nodes = [Node(program, top, number) for number in range(3)]
        for round_ in range(rounds):
            first, *others = nodes
            lead(first, others)
            for node in nodes:
                half.check(node, edits)
            victims = nodes if round_ % 3 == 0 else [first]
            if round_ % 3 < 2:
                edits = work(half, first, others, edits, lambda: [node.kill() for node in victims])
            else:
                edits = work(half, first, others, edits, lambda: first.fill(half.chance.randrange(4000)))
                first.must_fail()
                # Too small for a snapshot.
                full = Node(program, top, first.number, most=half.chance.randrange(60))
                full.must_fail()
                full.end()
            cut += sum("ends within" in node.end() for node in victims)
            # A node that was a backup leads next.
            again = [Node(program, top, node.number) for node in victims]
            nodes = [*again[1:], again[0]] if len(victims) == 3 else [*others, *again]
        for node in nodes:
            node.end()
    print(f"{rounds} ends, {half.acknowledged} acknowledged edits, none lost; {cut} logs were cut")


if __name__ == "__main__":
    main()
