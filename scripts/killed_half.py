#!/usr/bin/env python3
"""Kills one of two halves at each step of an exchange: killed_half.py [PROGRAM]

Two processes of crates/example_half exchange bytes, as in two_processes.py. One is killed (SIGKILL) at each of its steps, before it answers
and after. The other goes on as far as it can: it finishes if it has both messages of the dead one, or else abandons the exchange. It
must hold the merge then, or its own names without those that it withdrew. A new process takes the place of the dead one, and the next
exchange ends with one table on both. Every process but the killed ends with status 0, and nothing may take ten seconds.
"""

import os
import signal
import subprocess
import sys

from two_processes import PROGRAM, Half

# The names of each half, with a serial number and a resolver, and the name that it withdraws.
NAMES = {"a": [("cache", 11, "exit"), ("db", 12, "notify"), ("mail", 13, "exit"), ("only-a", 14, "exit")],
         "b": [("cache", 21, "exit"), ("db", 22, "exit"), ("lock", 23, "notify"), ("queue", 24, "exit")]}
WITHDRAWN = {"a": "mail", "b": "queue"}
STEPS = "begin hear settle withdraw close hear-list finish".split()
OTHER = {"a": "b", "b": "a"}


def started(side):
    """A process with the names of a half."""
    half = Half(side)
    for name, serial, resolver in NAMES[side]:
        half.expect(f"register {name} {'ab'.index(side) + 1} {serial} 0 {resolver}")
    return half


class Exchange:
    """An exchange of two processes, and the messages that they have sent."""

    def __init__(self, halves, number):
        self.halves, self.number = halves, number
        self.offers, self.lists, self.finished = {}, {}, {}

    def line(self, side, step):
        """The line of a step, or None if it lacks a message of the other side."""
        offer, listed = (kept.get(OTHER[side]) for kept in (self.offers, self.lists))
        lines = {"begin": f"begin {self.number} 7 60", "hear": offer and f"hear {offer}", "settle": offer and "settle",
                 "withdraw": f"withdraw {WITHDRAWN[side]}", "close": "close", "hear-list": listed and f"hear-list {listed}",
                 "finish": offer and listed and "finish"}
        return lines[step]

    def carry_out(self, side, step):
        """Carries a step out, unless it lacks a message."""
        half, line = self.halves[side], self.line(side, step)
        if line is None:
            return
        if step == "begin":
            self.offers[side] = half.word_of(line, "offer")
        elif step == "close":
            self.lists[side] = half.word_of(line, "list")
        elif step == "finish":
            self.finished[side] = half.lines(line)
        else:
            # What no half has any more isn't withdrawn: a later exchange has neither name.
            answer = half.ask(line)
            assert answer == "yes" or (step == "withdraw" and answer.startswith("refused 31")), (side, line[:60], answer)

    def to_the_end(self):
        """Carries all steps out, and returns the names of both."""
        for step in STEPS:
            for side in "ab":
                self.carry_out(side, step)
        assert self.finished["a"] == self.finished["b"], self.finished
        names = [self.halves[side].lines("names") for side in "ab"]
        assert names[0] == names[1], names
        return names[0]


def kill(half):
    """Kills a process and waits for it."""
    half.process.send_signal(signal.SIGKILL)
    assert half.process.wait() == -signal.SIGKILL
    half.process.stdin.close()
    half.process.stdout.close()


def survive(victim, at, is_answered, merged):
    """Kills a half at one of its steps. Checks the other, and its next exchange with a new process."""
    exchange = Exchange({side: started(side) for side in "ab"}, 1)
    survivor, alive = OTHER[victim], exchange.halves[OTHER[victim]]
    for step in STEPS[:at]:
        for side in "ab":
            exchange.carry_out(side, step)
    if survivor == "a":
        exchange.carry_out(survivor, STEPS[at])
    if is_answered:
        exchange.carry_out(victim, STEPS[at])
    else:
        exchange.halves[victim].process.stdin.write(exchange.line(victim, STEPS[at]) + "\n")
        exchange.halves[victim].process.stdin.flush()
    kill(exchange.halves[victim])
    for step in STEPS[at if survivor == "b" else at + 1:]:
        exchange.carry_out(survivor, step)
    check(survivor, alive, exchange, merged)
    again = Exchange({survivor: alive, victim: started(victim)}, 2)
    again.to_the_end()
    for half in again.halves.values():
        half.end()


def check(survivor, alive, exchange, merged):
    """Checks what the survivor holds, and that no exchange is open afterwards."""
    names = alive.lines("names")
    if survivor in exchange.finished:
        alive.expect("abandon", "refused 34: no exchange is open")
        assert names == merged, (names, merged)
        return
    alive.expect("finish", "refused 39: the exchange isn't complete")
    alive.expect("abandon")
    names, own = alive.lines("names"), [name for name, _, _ in NAMES[survivor] if name != WITHDRAWN[survivor]]
    assert [line.split(" ")[0] for line in names] == own, (names, own)
    alive.expect("abandon", "refused 34: no exchange is open")


def without_reader():
    """A process whose reader is gone ends with an error."""
    reader, writer = os.pipe()
    os.close(reader)
    ended = subprocess.run([PROGRAM, "a"], input="names\n", stdout=writer, stderr=subprocess.PIPE, text=True, check=False)
    os.close(writer)
    assert ended.returncode == 1 and "Broken pipe" in ended.stderr, ended


def hangs(*_):
    sys.exit("killed_half.py: an answer took ten seconds")


def main():
    signal.signal(signal.SIGALRM, hangs)
    signal.alarm(10)
    undisturbed = Exchange({side: started(side) for side in "ab"}, 1)
    merged, count = undisturbed.to_the_end(), 0
    for half in undisturbed.halves.values():
        half.end()
    for victim in "ab":
        for at in range(len(STEPS)):
            for is_answered in (False, True):
                signal.alarm(10)
                survive(victim, at, is_answered, merged)
                count += 1
    signal.alarm(10)
    without_reader()
    print(f"one of two processes of {PROGRAM} was killed {count} times, and the other survived")


if __name__ == "__main__":
    main()
