"""Random calls of replicas, for differential.py: the C library's, through its Python package, and the oracle's."""

import hashlib

import heal
import heal.replica
import oracle
import registry
import replica
import side
from random_sides import LETTERS, NAMES, PROGRAMS, guarded, to_library


def framed_again(rng, data):
    """The message with a changed body, under right checksums."""
    body = bytearray(data[24:-8])
    at = rng.choice([rng.randrange(len(body)), min(rng.randrange(36), len(body) - 1)])
    change = rng.randrange(4)
    if change < 2:
        body[at] = rng.choice([0, 1, 2, 3, 4, 5, 33, 0x7f, rng.randrange(256)])
    elif change == 2:
        del body[at:]
    else:
        body += body[at:]
    return replica.frame(data[7], bytes(body))


class Pair:
    """A replica of the library and one of the oracle, on which the same calls are made."""

    def __init__(self, node):
        self.library, self.oracle = heal.replica.Replica(node, 1), replica.Replica(node, 1)

    def call(self, name, *arguments):
        """Makes a call on both, and returns what each shows afterwards."""
        given = [to_library(it) if isinstance(it, registry.Registration) else it for it in arguments]
        if name == "upload":
            given = [heal.Program(*arguments)]
        wanted = guarded(self.oracle.edit, name, *arguments) if name in replica.EDITS else guarded(getattr(self.oracle, name), *arguments)
        return self.shown(guarded(getattr(self.library, name), *given), wanted)

    def shown(self, got, wanted):
        return (got, *self.of_library()), (wanted, *self.of_oracle())

    def of_library(self):
        state = self.library.state
        at = (state.at.primary.node, state.at.primary.incarnation, state.at.view), state.at.op
        return (at, state.names, state.limit, state.latest, state.is_primary, self.library.rows())

    def of_oracle(self):
        model, half = self.oracle, self.oracle.half
        rows = [(name, to_library(r)) for name, r in half.sorted()]
        return ((model.view, model.op), len(rows), half.limit, half.latest, model.is_primary(), rows)

    def exchange(self, rng, position, number):
        """Makes a side of the replica, exchanges with a side of one other name, and brings the outcome into the view."""
        which = rng.randrange(2)
        made, model = guarded(self.library.side, LETTERS[which]), guarded(self.oracle.side, which)
        if isinstance(made, tuple) or isinstance(model, tuple):
            return self.shown(made, model)
        other = side.Side(1 - which, 4096)
        guarded(other.register, b"z", registry.Registration(3, 1, 0, 0, bytes(16), 0))
        theirs = [guarded(other.begin, number, 7, 0), other.close_list() if other.exchange else b""]
        model.events, finishes = made.events, rng.random() < 0.9
        for it in (made, model):
            guarded(it.begin, number, 7, 0)
            if finishes:
                for call in (lambda: it.hear(theirs[0]), it.settle, it.close_list, lambda: it.hear_list(theirs[1]), it.finish):
                    guarded(call)
        at = heal.replica.Position(heal.replica.Life(*position[0][:2]), position[0][2], position[1])
        return self.shown(guarded(self.library.change, at, made), guarded(self.oracle.change, position, model))


class Walk:
    """Three replicas, the messages that they made, and random calls. Each is yielded with what both showed after it."""

    def __init__(self, rng, codes, damaged):
        self.rng, self.damaged = rng, damaged
        self.pairs = [Pair(node) for node in range(3)]
        self.made = {"apply": [], "follow": []}
        self.programs = PROGRAMS + [code for code in [codes.any()] if oracle.check(code.hex())[1] == 0]
        self.number = codes.number() >> 1

    def calls(self, count):
        for _ in range(count):
            which, pick = self.rng.randrange(3), self.rng.choice
            name = pick(["register"] * 6 + ["unregister", "upload", "upload", "set_limit", "begin", "exchange"] + ["lead", "snapshot"]
                        + ["apply"] * 6 + ["follow"] * 4)
            yield self.exchange(which) if name == "exchange" else self.call(which, name)
            if name in ("register", "upload") and self.rng.random() < 0.5:
                yield self.call((which + 1) % 3, "apply", latest=True)

    def call(self, which, name, latest=False):
        arguments = self.message(name, latest) if name in self.made else self.arguments(name)
        shown = self.pairs[which].call(name, *arguments)
        if isinstance(shown[1][0], bytes):
            self.made["follow" if name == "snapshot" else "apply"].append(shown[1][0])
        return (which, name, *arguments), shown

    def arguments(self, name):
        pick = self.rng.choice
        program = hashlib.sha256(pick(self.programs)).digest()
        found = registry.Registration(pick([1, 2]), 1, pick([0, 1]), 0, bytes(16), pick([0, 1, 2, program, program]))
        self.number += name == "begin"
        of_call = {"register": (pick(NAMES), found), "unregister": (pick(NAMES),), "upload": (pick(self.programs),),
                   "set_limit": (pick([0, 1, 2, 3, 4, 4096, 1048576, 1048577]),), "begin": (max(self.number - pick([0, 0, 1, 2]), 0),)}
        return of_call.get(name, ())

    def message(self, name, latest):
        """A message of any time; some are damaged, changed under right checksums, or of the other kind."""
        kept = self.made[name if latest or self.rng.random() < 0.95 else self.rng.choice(["apply", "follow"])]
        data = kept[-1] if latest and kept else self.rng.choice(kept[-1:] * 4 + kept[-6:] + [b""])
        if data and not latest and self.rng.random() < 0.3:
            data = self.rng.choice([self.damaged, framed_again])(self.rng, data)
        return (data,)

    def exchange(self, which):
        """An exchange of one replica's half, begun at its position, or at another one."""
        at = self.pairs[self.rng.choice([which] * 5 + [0])].oracle
        self.number += 1
        position = (at.view, at.op)
        return (which, "exchange", position, self.number), self.pairs[which].exchange(self.rng, position, self.number)
