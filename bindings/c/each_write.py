#!/usr/bin/env python3
"""each_write.py PRELOAD PROGRAM..: kills a node of a half after each of its writes, and checks that no edit is lost.

PRELOAD is the built kill_at.c, PROGRAM a program as in nodes.py that calls write, fsync, fdatasync and rename of the C library.
Three nodes take the same steps again and again: one leads, the others follow, there are edits, and then a node that was a backup
leads. The first node, or the second, is killed (SIGKILL) after its first such call, then after its second, until it has made all
calls of these steps. Each time all three start again, the node that was killed leads, and every acknowledged edit must be on each.
"""

import os
import random
import sys
import tempfile

from nodes import Ended, Half, Node, lead

EDITS = 3


def steps(half, nodes):
    """Lets the first node lead, and then the second, with edits after each. Yields the number of edits that were begun."""
    first, second, third = nodes
    lead(first, [second, third])
    for number in range(EDITS):
        yield number + 1
        half.edit(first, [second, third], number)
    lead(second, [first, third])
    for number in range(EDITS, 2 * EDITS):
        yield number + 1
        half.edit(second, [first, third], number)


def kill(program, preload, victim, at):
    """Kills the victim after this call, and returns whether it made so many."""
    half, begun, ended = Half(random.Random(at)), 0, False
    with tempfile.TemporaryDirectory() as top:
        cut = {**os.environ, "LD_PRELOAD": preload, "KILL_AT": str(at)}
        nodes = [Node(program, top, number, env=cut if number == victim else None) for number in range(3)]
        try:
            for begun in steps(half, nodes):
                pass
        except Ended:
            ended = True
        for node in nodes:
            node.end()
        again = [Node(program, top, number) for number in range(3)]
        lead(again[victim], [node for node in again if node.number != victim])
        for node in again:
            half.check(node, begun)
        for node in again:
            node.end()
    return ended, half.acknowledged


def main():
    preload, program = os.path.realpath(sys.argv[1]), sys.argv[2:]
    kills, edits = 0, 0
    for victim in (0, 1):
        at, ended = 0, True
        while ended:
            at += 1
            ended, acknowledged = kill(program, preload, victim, at)
            edits += acknowledged
        # Each step has a write at least.
        if at < 4 * EDITS:
            sys.exit(f"each_write.py: node {victim} made only {at - 1} calls, so {preload} counts them wrongly")
        kills += at - 1
    print(f"a node was killed after each of {kills} writes; {edits} acknowledged edits, none lost")


if __name__ == "__main__":
    main()
