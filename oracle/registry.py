"""The registry: names, registrations, programs, tables, clashes with their words, notices, and the merge.

Follows docs/SCRIPTS.md (healing), docs/EMBEDDING.md (withdrawn names, limits) and docs/REFUSALS.md.
"""

import collections
import dataclasses
import hashlib

import machine
import verifier
from machine import U64, refuse

MAX_NAMES, MAX_PROGRAMS = 4096, 256
BUILTINS = ["exit", "notify", "notify-all"]
EXIT, NOTIFY, NOTIFY_ALL = range(3)

# A registration. `resolver` is a number below 3, a built-in one, or the 32 bytes of a program's id.
Registration = collections.namedtuple("Registration", "node serial stamp weight extra resolver")
# A name with its lesser and its greater registration, and the size and the uptime of the half of each.
Clash = collections.namedtuple("Clash", "name first second of_first of_second")


def is_name(name):
    return 1 <= len(name) <= 32 and all(0x21 <= byte <= 0x7e for byte in name)


def check_name(name):
    refuse((44, not is_name(name)))
    return name


def is_program(resolver):
    return isinstance(resolver, bytes)


def order(registration):
    """The key by which registrations compare: field by field, and built-in resolvers before programs."""
    return registration[:5] + (is_program(registration.resolver), registration.resolver)


def id_of(code):
    return hashlib.sha256(code).digest()


@dataclasses.dataclass
class Half:
    """What a half has. Of its own faults and those that the caller of a method adds, the least is raised."""

    limit: int = MAX_NAMES                                  # how many names it may have
    store: dict = dataclasses.field(default_factory=dict)   # the code of each program that may be registered, by its id
    rows: dict = dataclasses.field(default_factory=dict)    # the registration of each name
    codes: dict = dataclasses.field(default_factory=dict)   # the code of each program that a row named, by its id
    latest: int = None                                      # the greatest number of an exchange that was begun

    def upload(self, code):
        """Verifies code and stores it. Returns its id, the SHA-256 digest of its bytes."""
        verifier.verify(machine.decode(code))
        digest = id_of(code)
        refuse((43, digest not in self.store and len(self.store) == MAX_PROGRAMS))
        self.store[digest] = code
        return digest

    def register(self, name, registration, *faults):
        resolver = registration.resolver
        refuse((30, name in self.rows), (32, len(self.rows) >= self.limit),
               (41, is_program(resolver) and resolver not in self.store), *faults)
        self.rows[name] = registration
        if is_program(resolver):
            self.codes[resolver] = self.store[resolver]

    def unregister(self, name, *faults):
        refuse((31, name not in self.rows), *faults)
        del self.rows[name]

    def set_limit(self, names):
        refuse((32, len(self.rows) > names))
        self.limit = names

    def begin(self, number, *faults):
        """Records the number of an exchange."""
        refuse((35, self.latest is not None and number <= self.latest), *faults)
        self.latest = number

    def sorted(self):
        return sorted(self.rows.items())


def clashes(a, b, uptime_a, uptime_b):
    """The clashes of the rows of two halves, in the order of names."""
    found, facts = [], [(len(a), uptime_a), (len(b), uptime_b)]
    for name in sorted(name for name in a.keys() & b.keys() if a[name] != b[name]):
        (first, of_first), (second, of_second) = sorted(zip((a[name], b[name]), facts), key=lambda each: order(each[0]))
        found.append(Clash(name, first, second, of_first, of_second))
    return found


def verdict(clash, word, codes):
    """What the resolver of the first registration answers: first, second or none. `codes` has programs by their ids."""
    resolver = clash.first.resolver
    if is_program(resolver):
        data = machine.record(clash.name, clash.first, clash.second, word, clash.of_first, clash.of_second)
        return machine.judge(machine.decode(codes[resolver]), data)[0]
    return "none" if resolver == NOTIFY_ALL else "second" if word & 1 else "first"


def judged(found, seed, codes):
    """Each clash with the word of its place in the list, and with what its resolver answers at that word."""
    words = [(clash, seed + index & U64) for index, clash in enumerate(found)]
    return [(clash, word, verdict(clash, word, codes)) for clash, word in words]


def notices(clash, answer):
    """The lines of a built-in resolver's notices. A program's verdict has none."""
    first, second = (f"{r.node}.{r.serial}" for r in (clash.first, clash.second))
    loser, to = second if answer == "first" else first, f"conflict {clash.name.decode()} to"
    lines = {EXIT: [f"exit {loser}"], NOTIFY: [f"{to} {loser}"],
             NOTIFY_ALL: [f"{to} {first} other {second}", f"{to} {second} other {first}"]}
    return lines.get(clash.first.resolver, [])


def merge(a, b, answers, gone):
    """The merged rows of two halves. `answers` has the judged clashes; `gone` has the withdrawn names of each half. A name
    whose kept registration was withdrawn, by a half that has it, is dropped."""
    kept = {**a, **b}
    for clash, _, answer in answers:
        kept[clash.name] = {"first": clash.first, "second": clash.second, "none": None}[answer]
    lost = {name for rows, names in zip((a, b), gone) for name in names if rows.get(name) == kept.get(name)}
    return {name: r for name, r in kept.items() if r is not None and name not in lost}
