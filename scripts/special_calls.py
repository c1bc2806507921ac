"""Calls of the C library that random ones seldom make, for differential.py: empty handles, other lengths, and the greatest numbers."""

import ctypes

import heal
import heal.replica
import registry
import replica
import random_replicas
import random_sides
from random_sides import PROGRAMS, guarded

MOST = (1 << 64) - 1
FOUND = registry.Registration(1, 1, 0, 0, bytes(16), 0)
EMPTY = ("refused", 91),


def calls():
    """Each call, with what the library and the oracle showed after it."""
    yield from empty_handles()
    yield from other_lengths()
    yield from greatest_number_of_a_side()
    yield from greatest_numbers_of_replicas()
    yield from exhausted_replicas()


def empty_handles():
    """Every call on an empty handle returns 91, also with wrong arguments."""
    program, side, other, owner = heal.Program(PROGRAMS[0]), heal.Side("a"), heal.Side("a"), heal.replica.Replica(1, 1)
    node, outcome, message = heal.replica.Replica(1, 1), heal._Finished(), heal._Message()
    for it in (program, side, node):
        it.close()
    found, digest, at = random_sides.to_library(FOUND), bytes(32), owner.state.at
    made = [
        (program, "judge", bytes(160)), (side, "upload", b""), (side, "forget", digest), (side, "code", digest),
        (side, "register", b"a", found), (side, "register", b"", found), (side, "unregister", b"a"), (side, "whereis", b"a"),
        (side, "rows"), (side, "live_rows"), (side, "begin", 1, 7, 0), (side, "hear", b""), (side, "settle"), (side, "withdraw", b"a"),
        (side, "close_list"), (side, "hear_list", b""), (side, "finish"), (side, "abandon"), (side, "renew"), (side, "give_up"),
        (node, "register", b"a", found), (node, "unregister", b""), (node, "set_limit", 0), (node, "begin", 1), (node, "lead"),
        (node, "snapshot"), (node, "follow", b""), (node, "apply", b""), (node, "whereis", b"a"), (node, "rows"), (node, "side", "a"),
        (node, "change", at, other), (owner, "change", at, side), (owner, "upload", program), (node, "upload", program)]
    for it, name, *arguments in made:
        yield (it._kind, name, *arguments), ((guarded(getattr(it, name), *arguments),), EMPTY)
    for it, name in [(program, "id"), (side, "programs"), (side, "state"), (side, "withdrawn"), (side, "events"), (node, "state")]:
        yield (it._kind, name), ((guarded(getattr, it, name),), EMPTY)
    for it, name in [(message, "len"), (outcome, "clashes"), (outcome, "merged")]:
        yield (it._kind, name), ((guarded(it._number, name),), EMPTY)


def other_lengths():
    """A message is copied into a buffer of its length, and else 93 is returned."""
    side, message = heal.Side("a"), heal._Message()
    side._call("begin", 1, 7, 0, ctypes.byref(message._handle))
    size = message._number("len")
    buffer = (ctypes.c_uint8 * (size + 1))()
    for length in (0, size - 1, size + 1):
        yield ("copy", length), ((guarded(message._call, "copy", buffer, length),), (("refused", 93),))
    yield ("copy", size), ((guarded(message._call, "copy", buffer, size),), (None,))


def greatest_number_of_a_side():
    pair = random_sides.Pair(0, 4)
    for call in [("begin", MOST, MOST, MOST), ("abandon",), ("begin", MOST, 0, 0), ("begin", MOST - 1, 0, 0), ("register", b"a", FOUND)]:
        yield call, pair.call(*call)


def greatest_numbers_of_replicas():
    """Snapshots and entries of the last positions, of another node and of a view that the replica hasn't started."""
    pair = random_replicas.Pair(0)
    for view in ((9, MOST, MOST), (0, 1, 2), (0, 1, MOST)):
        messages = [("follow", replica.encode_snapshot(replica.Snapshot(view, MOST - 1, registry.Half(2, latest=MOST - 1))))]
        messages += [("apply", replica.encode_entry(replica.Entry(view, op, edit, [argument]))) for op, edit, argument in
                     [(MOST, "begin", MOST), (MOST, "unregister", b"a"), (0, "set_limit", 1), (MOST - 1, "set_limit", 1)]]
        for call in [*messages, ("register", b"a", FOUND), ("lead",), messages[0], messages[1], ("begin", MOST), ("set_limit", 3)]:
            yield call, pair.call(*call)


def exhausted_replicas():
    """Replicas that have no number left for a view, or for an entry. It takes 2^64 calls to get there, so their counters are set."""
    pair = random_replicas.Pair(0)
    exhaust(pair.library, "lead")
    pair.oracle.started, pair.oracle.view = MOST, (0, 1, MOST)
    for call in [("begin", 1), ("lead",), ("register", b"a", FOUND)]:
        yield call, pair.call(*call)
    yield ("change",), pair.shown(guarded(pair.library.change, pair.library.state.at, pair.library.side("a")),
                                  guarded(pair.oracle.change, (pair.oracle.view, pair.oracle.op), pair.oracle.side(0)))
    pair = random_replicas.Pair(0)
    exhaust(pair.library, "begin", 1)
    pair.oracle.edit("begin", 1)
    pair.oracle.op = MOST
    for call in [("register", b"a", FOUND), ("unregister", b"a"), ("set_limit", 0), ("lead",), ("register", b"a", FOUND)]:
        yield call, pair.call(*call)


def exhaust(made, call, *arguments):
    """Makes a call, and sets each word in the block of the library's replica to which it added 1 to the greatest number."""
    allocated = ctypes.CDLL(None).malloc_usable_size
    allocated.argtypes, allocated.restype = [ctypes.c_void_p], ctypes.c_size_t
    words = (ctypes.c_uint64 * (allocated(made._handle.at) // 8)).from_address(made._handle.at)
    before = list(words)
    getattr(made, call)(*arguments)
    for at, word in enumerate(before):
        if words[at] == word + 1:
            words[at] = MOST
