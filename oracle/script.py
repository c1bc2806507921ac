"""Scripts: each line of an input with its answer or its refusal, and the status. Follows docs/SCRIPTS.md."""

import re

import files
import machine
import registry
from machine import U64, Refused, refuse

MAX_LINE = 20_000
# The words that follow each first word.
LINES = {b"upload": rb"(\S+) (\S+)", b"register": rb"([ab]) (\S+) (\S+) (\S+) (\S+) (\S+) (\S+)",
         b"unregister": rb"([ab]) (\S+)", b"whereis": rb"([ab]) (\S+)", b"show": rb"([ab])",
         b"heal": rb"(\S+)(?: (?!gone )(\S+) (\S+))?((?: gone [ab] \S+)*)"}


def number(word, most=U64):
    refuse((52, not re.fullmatch(rb"0|[1-9][0-9]*", word) or int(word) > most))
    return int(word)


class Script:
    def __init__(self):
        self.store, self.labels = {}, {}       # the code of each program by its id; the id of each label, in order
        self.halves = {side: registry.Half(store=self.store) for side in (b"a", b"b")}
        self.line_number, self.status = 0, 0
        self.refused = set()                   # the numbers of the refusals so far

    def line(self, line):
        """Carries out a line, given without its line feed, and returns the text of its answer."""
        self.line_number += 1
        try:
            return "".join(answer + "\n" for answer in self.answers(line))
        except Refused as refused:
            self.status = 2
            self.refused.add(refused.number)
            place = f" at slot {refused.place[1]}" if refused.place else ""
            return f"line {self.line_number}: refused {refused.number}{place}\n"

    def answers(self, line):
        refuse((54, len(line) > MAX_LINE))
        words = [word for word in line.split(b" ") if word]
        if not words or words[0].startswith(b"#"):
            return []
        found = words[0] in LINES and re.fullmatch(LINES[words[0]], b" ".join(words[1:]))
        refuse((51, not all(0x20 <= byte <= 0x7e for byte in line) or not found))
        return getattr(self, words[0].decode())(*found.groups())

    # Each of the following carries out the lines of one first word, and reads their words from left to right.

    def upload(self, label, code):
        refuse((53, label in self.labels or label.decode() in registry.BUILTINS or len(label) > 32))
        code = files.code_of(code)
        self.labels[label] = self.halves[b"a"].upload(code)
        return [f"uploaded {label.decode()} {len(machine.decode(code))} instructions"]

    def register(self, side, name, owner, stamp, weight, data, resolver):
        registry.check_name(name)
        refuse((52, owner.count(b".") != 1))
        node, serial = (number(part, (1 << 32) - 1) for part in owner.split(b"."))
        stamp, weight = number(stamp), number(weight)
        extra = bytes(16) if data == b"-" else files.hex_bytes(data)
        refuse((50, len(extra) != 16))
        registration = registry.Registration(node, serial, stamp, weight, extra, self.resolver(resolver))
        self.halves[side].register(name, registration)
        return ["yes"]

    def resolver(self, word):
        if word.decode() in registry.BUILTINS:
            return registry.BUILTINS.index(word.decode())
        refuse((41, word not in self.labels))
        return self.labels[word]

    def unregister(self, side, name):
        self.halves[side].unregister(registry.check_name(name))
        return ["gone"]

    def whereis(self, side, name):
        found = self.halves[side].rows.get(registry.check_name(name))
        return [f"{found.node}.{found.serial}" if found else "undefined"]

    def show(self, side):
        words = {digest: label.decode() for label, digest in reversed(self.labels.items())}  # of several labels the first
        words.update(enumerate(registry.BUILTINS))
        return [f"{name.decode()} {r.node}.{r.serial} {r.stamp} {r.weight} {words[r.resolver]}"
                for name, r in self.halves[side].sorted()] + ["end"]

    def heal(self, seed, uptime_a, uptime_b, gone):
        seed, *uptimes = (number(word or b"0") for word in (seed, uptime_a, uptime_b))
        gone = [(side, registry.check_name(name)) for side, name in re.findall(rb" gone ([ab]) (\S+)", gone)]
        a, b = (half.rows for half in self.halves.values())
        refuse((37, len(a.keys() | b.keys()) > registry.MAX_NAMES))
        self.check_gone(gone)
        answers, lines = registry.judged(registry.clashes(a, b, *uptimes), seed, self.store), []
        for clash, word, answer in answers:
            lines += [f"{clash.name.decode()} {answer} word {word}"] + registry.notices(clash, answer)
        merged = registry.merge(a, b, answers, [[name for half, name in gone if half == side] for side in self.halves])
        for half in self.halves.values():
            half.rows = dict(merged)
        return lines + [f"withdrew {side.decode()} {name.decode()}" for side, name in gone] + [f"healed {len(merged)} names"]

    def check_gone(self, gone):
        """Refuses names that can't be withdrawn. The tables are left without those before the first of them."""
        for at, (side, name) in enumerate(gone):
            is_again = (side, name) in gone[:at]
            if is_again or name not in self.halves[side].rows:
                for other_side, other in gone[:at]:
                    self.halves[other_side].unregister(other)
                raise Refused(47 if is_again else 31)


def run(data):
    """Carries out a whole script. Returns the output, the status and the numbers of the refusals."""
    script = Script()
    output = "".join(map(script.line, data.removesuffix(b"\n").split(b"\n")))
    return output, script.status, script.refused
