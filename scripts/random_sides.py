"""Random calls of sides, for differential.py: the C library's, through its Python package, and the oracle's."""

import hashlib

import heal
import machine
import messages
import oracle
import registry
import side
from random_codes import EXIT, slot

LETTERS = "ab"
NAMES = [b"a", b"ab", b"b", b"db", b"~", b"A" * 32]
ANSWERS = {"none": 0, "first": 1, "second": 2}
# One program that answers the first, and one by a byte of the record.
PROGRAMS = [slot(0xb7, imm=1) + EXIT, slot(0x71, 0, 1, 40) + slot(0x57, imm=3) + EXIT]


def to_library(r):
    resolver = heal.Builtin(r.resolver) if isinstance(r.resolver, int) else r.resolver
    return heal.Registration(heal.Owner(r.node, r.serial), r.stamp, r.weight, r.extra, resolver)


def other_message(data):
    """Another message of the same sender and number."""
    if data[7] == messages.OFFER:
        offer = messages.decode_offer(data)
        return messages.encode_offer(offer._replace(uptime=offer.uptime ^ 1))
    listed = messages.decode_withdrawals(data)
    return messages.encode_withdrawals(listed._replace(names=listed.names[1:] or [b"other"]))


def guarded(call, *arguments):
    """A call's result, or the number of its refusal."""
    try:
        return call(*arguments)
    except (heal.Refused, machine.Refused) as refused:
        return "refused", refused.number


class Pair:
    """A side of the library and one of the oracle, on which the same calls are made."""

    def __init__(self, which, limit):
        self.which = which
        self.library, self.oracle = heal.Side(LETTERS[which], limit), side.Side(which, limit)

    def call(self, name, *arguments):
        """Makes a call on both, and returns what each shows afterwards."""
        given = [to_library(it) if isinstance(it, registry.Registration) else it for it in arguments]
        got = guarded(getattr(self.library, name), *given)
        wanted = guarded(getattr(self.oracle, name), *arguments)
        if isinstance(got, heal.Outcome):
            got = [(it.name, it.word, int(it.verdict)) for it in got.clashes]
            wanted = [(it.name, word, ANSWERS[answer]) for it, word, answer in wanted]
        if self.oracle.events is None and 0 <= self.library.events - len(self.library) <= 2:
            self.oracle.events = self.library.events
        return (got, *self.of_library()), (wanted, *self.of_oracle())

    def of_library(self):
        state = self.library.state
        heard = (state.has_heard, state.has_closed, state.has_heard_list)
        return (self.library.events, state.number, state.latest, *heard, int(state.missing), self.library.withdrawn,
                self.library.live_rows(), len(self.library), self.library.programs)

    def of_oracle(self):
        model, open_ = self.oracle, self.oracle.exchange
        heard = (bool(open_.offer), open_.closed, open_.listed is not None) if open_ else (False,) * 3
        rows = [(name, to_library(r)) for name, r in model.live()]
        return (model.events, open_.number if open_ else None, model.latest, *heard, model.missing(), open_.withdrawn if open_ else [],
                rows, len(model.rows), sorted(model.store))


class Walk:
    """Two sides, the messages that they sent, and random calls. Each is yielded with what both showed after it."""

    def __init__(self, rng, codes, damaged):
        self.rng, self.damaged = rng, damaged
        limits = [rng.choice([1, 2, 3, 6, 40]) for _ in range(2)]
        self.pairs = [Pair(which, limits[rng.randrange(2)]) for which in range(2)]
        self.sent = [{"hear": [], "hear_list": []} for _ in range(2)]
        self.programs = PROGRAMS + [code for code in [codes.any()] if oracle.check(code.hex())[1] == 0]
        self.number, self.seed = codes.number() >> 1, codes.number()

    def calls(self, count):
        for _ in range(count):
            if self.rng.random() < 0.1:
                yield from self.exchange()
            else:
                yield self.any()

    def made(self, which, name, *arguments):
        """A call on a side, with what was shown. Keeps a message that it returned."""
        shown = self.pairs[which].call(name, *arguments)
        kept = {"begin": "hear", "close_list": "hear_list"}.get(name)
        if kept and isinstance(shown[1][0], bytes):
            self.sent[which][kept].append(shown[1][0])
        return (LETTERS[which], name, *arguments), shown

    def any(self):
        """A call of any kind."""
        which, pick = self.rng.randrange(2), self.rng.choice
        kind = pick(["register"] * 8 + ["unregister", "unregister", "hear", "hear", "hear_list", "hear_list", "begin", "settle", "withdraw",
                     "close_list", "finish", "upload", "forget", "code"] + ["renew"] * 2 + pick([["abandon", "give_up"], []]))
        if kind == "register":
            return self.made(which, kind, pick(NAMES), self.registration())
        if kind in ("unregister", "withdraw"):
            return self.made(which, kind, pick(NAMES))
        if kind == "upload":
            return self.made(which, kind, pick(self.programs))
        if kind in ("forget", "code"):
            return self.made(which, kind, self.id())
        if kind == "begin":
            return self.begin(which, self.number + pick([-1, 0, 1, 1]), pick([self.seed, self.seed, 0]))
        if kind in ("hear", "hear_list"):
            return self.hear(which, kind)
        return self.made(which, kind)

    def id(self):
        return hashlib.sha256(self.rng.choice(self.programs)).digest()

    def registration(self):
        pick = self.rng.choice
        resolver = pick([0, 1, 2, self.id(), self.id()])
        return registry.Registration(pick([1, 2]), pick([1, 2]), pick([0, 1]), 0, bytes(15) + bytes([pick([0, 1, 2])]), resolver)

    def begin(self, which, number, seed):
        self.number = max(self.number, number)
        return self.made(which, "begin", max(number, 0), seed, self.rng.choice([0, 7]))

    def hear(self, which, kind):
        """Gives a side a message of any time, of either side; some are damaged, or of the other kind."""
        sender = self.rng.choice([1 - which] * 9 + [which])
        messages_ = self.sent[sender][self.rng.choice([kind] * 9 + ["hear", "hear_list"])]
        data = self.rng.choice(messages_[-1:] * 3 + messages_[-3:] + [b""])
        if data and self.rng.random() < 0.4:
            data = self.rng.choice([self.damaged(self.rng, data), other_message(data)])
        return self.made(which, kind, data)

    def exchange(self):
        """An exchange in order, with a call of any kind between two steps now and then."""
        self.number += 1
        withdrawals = self.rng.choice([0, 0, 1, 2]) * [lambda which: self.made(which, "withdraw", self.own_name(which))]
        steps = [lambda which: self.begin(which, self.number, self.seed), lambda which: self.latest(which, "hear"),
                 lambda which: self.made(which, "settle"), *withdrawals, lambda which: self.made(which, "close_list"),
                 lambda which: self.latest(which, "hear_list"), lambda which: self.made(which, "finish")]
        for step in steps:
            for which in self.rng.sample(range(2), 2):
                yield step(which)
                if self.rng.random() < 0.1:
                    yield self.any()

    def own_name(self, which):
        return self.rng.choice(sorted(self.pairs[which].oracle.rows) or NAMES)

    def latest(self, which, kind):
        return self.made(which, kind, (self.sent[1 - which][kind] or [b""])[-1])
