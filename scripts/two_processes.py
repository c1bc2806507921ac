#!/usr/bin/env python3
"""Heals a split between two processes of crates/example_half, which exchange bytes and nothing else.

Checks each answer against the expected one, and that both processes end with the same names.
Usage: two_processes.py [PROGRAM]
"""

import os
import subprocess
import sys

ROOT = os.path.dirname(os.path.dirname(os.path.realpath(__file__)))
PROGRAM = sys.argv[1] if len(sys.argv) > 1 else f"{ROOT}/crates/example_half/out/example_half"

# The registration with the later stamp keeps the name, or the first if the stamps are equal.
LATER_STAMP = "79123800000000007913600000000000b7000000010000003d32010000000000b7000000020000009500000000000000"
# Neither keeps the name.
NEITHER = "b7000000000000009500000000000000"


class Half:
    """A process that holds one half."""

    def __init__(self, side):
        self.side = side
        self.process = subprocess.Popen([PROGRAM, side], stdin=subprocess.PIPE, stdout=subprocess.PIPE, text=True)

    def ask(self, line):
        """Writes a line and reads the line that answers it."""
        self.process.stdin.write(line + "\n")
        self.process.stdin.flush()
        return self.process.stdout.readline().rstrip("\n")

    def lines(self, line):
        """Writes a line and reads the lines that answer it, up to `end`."""
        answers = [self.ask(line)]
        while answers[-1] != "end":
            answer = self.process.stdout.readline()
            assert answer, f"half {self.side} ended at {line!r}"
            answers.append(answer.rstrip("\n"))
        return answers[:-1]

    def expect(self, line, answer="yes"):
        """Checks the answer to a line."""
        got = self.ask(line)
        assert got == answer, f"half {self.side}, {line[:60]!r}: got {got[:200]!r}, not {answer!r}"

    def word_of(self, line, word):
        """Returns the second word of an answer whose first is `word`."""
        got = self.ask(line)
        first, _, rest = got.partition(" ")
        assert first == word, f"half {self.side}, {line[:60]!r}: got {got[:200]!r}, not {word!r}"
        return rest

    def end(self):
        """Ends the input, and checks that the process ends well and prints nothing more."""
        self.process.stdin.close()
        assert self.process.stdout.read() == "", "more lines than answers"
        assert self.process.wait() == 0, f"half {self.side} failed"


def register(half, node, code, names):
    """Uploads a program and registers names: (name, serial, stamp, resolver, or None for the program)."""
    program = half.word_of(f"upload {code}", "program")
    for name, serial, stamp, resolver in names:
        half.expect(f"register {name} {node} {serial} {stamp} {resolver or program}")


def refusals(half):
    """Lines that are refused and change nothing."""
    half.expect("heal", "refused 51: an unknown word, the wrong number of words, or an unprintable character")
    half.expect("begin x 7 60", "refused 52: an invalid number: not decimal, with a sign or leading zeros, or too big")
    half.expect("hear 0", "refused 50: invalid hex digits, or the wrong number of them")
    half.expect(f"hear {8 * '00'}", "refused 71 at byte 0: not a message of this kind")
    half.expect("hear", "refused 51: an unknown word, the wrong number of words, or an unprintable character")
    # A message without bytes.
    half.expect("hear ", "refused 70 at byte 0: a message that ends too early")
    half.expect("upload 95", "refused 3: an incomplete last slot")
    half.expect("settle", "refused 34: no exchange is open")


def lost_offer(a, b):
    """A's offer is lost: B never hears it, and both abandon exchange 1. Returns the offers."""
    old_a = a.word_of("begin 1 7 3600", "offer")
    old_b = b.word_of("begin 1 7 60", "offer")
    a.expect(f"hear {old_b}")
    a.expect("settle")
    b.expect("settle", "refused 39: the exchange isn't complete")
    a.expect("abandon")
    b.expect("abandon")
    return old_a, old_b


def healed(a, b, stale):
    """Exchange 2 succeeds, with repeated and stale messages, and a withdrawal on each side."""
    a.expect("begin 1 7 3600", "refused 35: the number isn't above every number begun so far")
    offer_a = a.word_of("begin 2 7 3600", "offer")
    offer_b = b.word_of("begin 2 7 60", "offer")
    a.expect(f"hear {stale[1]}", "refused 45: the exchange numbers differ")
    a.expect(f"hear {offer_a}", "refused 46: a message from the side itself")
    a.expect(f"hear {offer_b}")
    b.expect(f"hear {offer_a}")
    b.expect(f"hear {offer_a}")
    b.expect(f"hear {stale[0]}", "refused 45: the exchange numbers differ")
    for half in (a, b):
        half.expect("settle")
    a.expect("withdraw mail")
    a.expect("withdraw mail", "refused 47: the name is already withdrawn")
    b.expect("withdraw queue")
    list_a, list_b = a.word_of("close", "list"), b.word_of("close", "list")
    a.expect(f"hear {list_b}", "refused 71 at byte 0: not a message of this kind")
    a.expect("finish", "refused 39: the exchange isn't complete")
    a.expect(f"hear-list {list_b}")
    a.expect(f"hear-list {list_b}")
    b.expect(f"hear-list {list_a}")
    return a.lines("finish"), b.lines("finish")


def main():
    a, b = Half("a"), Half("b")
    refusals(a)
    register(
        a,
        1,
        LATER_STAMP,
        [
            ("cache", 11, 100, "exit"),
            ("db", 12, 100, None),
            ("mail", 13, 100, "exit"),
            ("news", 14, 100, "notify-all"),
            ("only-a", 15, 100, "notify"),
            ("web", 16, 100, "notify"),
        ],
    )
    register(
        b,
        2,
        NEITHER,
        [
            ("cache", 21, 200, "exit"),
            ("db", 22, 200, "exit"),
            ("lock", 23, 200, None),
            ("mail", 24, 200, "exit"),
            ("news", 25, 200, "exit"),
            ("queue", 26, 200, "exit"),
            ("web", 27, 200, "exit"),
        ],
    )
    a.expect("register lock 1 17 50 " + a.word_of(f"upload {NEITHER}", "program"))
    finished_a, finished_b = healed(a, b, lost_offer(a, b))
    assert finished_a == finished_b, f"{finished_a}\n{finished_b}"
    names_a, names_b = a.lines("names"), b.lines("names")
    assert names_a == names_b, f"{names_a}\n{names_b}"
    check(finished_a, names_a)
    a.end()
    b.end()
    print("two processes healed a split: " + ", ".join(names_a))


def check(finished, names):
    """Checks the words, the verdicts and the names by the definitions."""
    # cache, db, lock, mail, news, web clash.
    assert len(finished) == 7 and finished[0].startswith("finished: 6 clashes"), finished
    verdicts = [line.split(" ")[0] for line in finished[1:]]
    words = [int(line.split(" ")[-1]) for line in finished[1:]]
    # The word of clash k in round 0 is the seed plus k.
    assert words == [7, 8, 9, 10, 11, 12], words
    # The first of two registrations is the lesser; node 1 is below node 2. A built-in resolver follows the lowest bit.
    chosen = ["second" if word % 2 else "first" for word in words]
    assert verdicts == [chosen[0], "second", "none", chosen[3], "none", chosen[5]], (verdicts, words)
    owners = dict(line.split(" ")[:2] for line in names)
    kept = {"first": 0, "second": 1}
    expected = {
        "cache": ["1.11", "2.21"][kept[chosen[0]]],
        "db": "2.22",
        "only-a": "1.15",
        "web": ["1.16", "2.27"][kept[chosen[5]]],
    }
    # Side A withdrew mail, so only B's owner can keep it.
    if chosen[3] == "second":
        expected["mail"] = "2.24"
    assert owners == expected, (owners, expected)


if __name__ == "__main__":
    main()
