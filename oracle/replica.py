"""A node's copy of a half: views, edits with their entries, snapshots, and both as bytes.

Follows docs/EMBEDDING.md, docs/MESSAGES.md (entries, logs, snapshots) and bindings/c/heal.h.
"""

import collections
import struct

import messages
import registry
import side
import verifier
from machine import U64, refuse
from messages import ENTRY, SNAPSHOT
from registry import id_of

# A view is its primary's node and incarnation, and a number. `op` is the number of an entry, `edit` one of EDITS: a call of a half.
Entry = collections.namedtuple("Entry", "view op edit arguments")
Snapshot = collections.namedtuple("Snapshot", "view op half")


# ---- Checksums: docs/MESSAGES.md, "Entries and logs" ----

# SipRound in four steps (x, y, a, b): v[x] += v[y]; v[y] is rotated by a bits to the left, then v[y] ^= v[x]; v[x] is rotated by b.
SIP_STEPS = (0, 1, 13, 32), (2, 3, 16, 0), (0, 3, 21, 0), (2, 1, 17, 32)


def rotated(word, by):
    return (word << by | word >> 64 - by) & U64


def sip_rounds(v, count):
    for x, y, a, b in SIP_STEPS * count:
        v[x] = v[x] + v[y] & U64
        v[y] = rotated(v[y], a) ^ v[x]
        v[x] = rotated(v[x], b)


def siphash(data, key=(0, 0), compressing=1, finishing=3):
    """SipHash of Aumasson and Bernstein: "SipHash: a fast short-input PRF", 2012."""
    v = [text ^ key[at % 2] for at, text in enumerate(struct.unpack("<4Q", b"uespemosmodnarodarenegylsetybdet"))]
    last = data[len(data) // 8 * 8:].ljust(7, b"\0") + bytes([len(data) % 256])
    for (word,) in struct.iter_unpack("<Q", data[:len(data) // 8 * 8] + last):
        v[3] ^= word
        sip_rounds(v, compressing)
        v[0] ^= word
    v[2] ^= 0xff
    sip_rounds(v, finishing)
    return v[0] ^ v[1] ^ v[2] ^ v[3]


# The paper's test vector of SipHash-2-4.
assert siphash(bytes(range(15)), struct.unpack("<2Q", bytes(range(16))), 2, 4) == 0xa129ca6149be45e5


def summed(data):
    """The bytes and their checksum: SipHash-1-3 with the key 0."""
    return data + struct.pack("<Q", siphash(data))


# ---- Entries and snapshots as bytes: docs/MESSAGES.md ----

def frame(kind, body):
    return summed(summed(messages.header(kind) + struct.pack("<Q", len(body))) + body)


def unframed(kind, data):
    """A reader of the body of a message."""
    reader = messages.Reader(data)
    reader.header(kind)
    size = reader.number(8)
    reader.take(8)
    refuse((84, summed(data[:16]) != data[:24]))
    reader.take(size)
    reader.take(8)
    reader.end()
    refuse((84, summed(data[:-8]) != data))
    reader.data, reader.at = data[:-8], 24
    return reader


# The edits in the order of their numbers: how the arguments of each are written, and how they are read.
EDITS = {"register": (messages.encode_row, messages.Reader.row),
         "unregister": (messages.encode_name, messages.Reader.name),
         "upload": (messages.encode_code, messages.Reader.code),
         "set_limit": (lambda names: struct.pack("<I", names), messages.Reader.limit),
         "begin": (lambda number: struct.pack("<Q", number), lambda reader: reader.number(8))}


def encode_entry(entry):
    write, _ = EDITS[entry.edit]
    head = struct.pack("<IQQQB", *entry.view, entry.op, list(EDITS).index(entry.edit))
    return frame(ENTRY, head + write(*entry.arguments))


def decode_entry(data):
    reader = unframed(ENTRY, data)
    view, op = reader.position()
    edit, start = list(EDITS)[reader.number(1, 71, len(EDITS) - 1)], reader.at
    _, read = EDITS[edit]
    found = read(reader)
    reader.end()
    if edit == "register":
        *arguments, code = found
        refuse((76, code is not None), place=("byte", start))
        return Entry(view, op, edit, arguments)
    refuse((81, edit == "upload" and not verifier.is_accepted(found)), place=("item", 0))
    return Entry(view, op, edit, [found])


def encode_snapshot(snapshot):
    half = snapshot.half
    latest = b"\0" if half.latest is None else b"\1" + struct.pack("<Q", half.latest)
    store = b"".join(messages.encode_code(code) for _, code in sorted(half.store.items()))
    return frame(SNAPSHOT, struct.pack("<IQQQI", *snapshot.view, snapshot.op, half.limit) + latest
                 + struct.pack("<I", len(half.store)) + store + messages.encode_rows(half.sorted(), half.codes))


def decode_snapshot(data):
    reader = unframed(SNAPSHOT, data)
    view, op = reader.position()
    limit, begun = reader.limit(), reader.number(1, 73, 1)
    latest = reader.number(8) if begun else None
    codes = [reader.code() for _ in range(reader.count(registry.MAX_PROGRAMS))]
    store = {}
    for index, code in enumerate(codes):
        place = "program", index
        refuse((81, not verifier.is_accepted(code)), place=place)
        refuse((78, id_of(code) <= max(store, default=b"")), place=place)
        store[id_of(code)] = code
    rows, programs = messages.decode_rows(reader, len(codes))
    return Snapshot(view, op, registry.Half(limit, store, dict(rows), programs, latest))


# ---- Replicas: docs/EMBEDDING.md, bindings/c/heal.h ----

class Replica:
    def __init__(self, node, incarnation):
        self.life, self.started = (node, incarnation), 1
        self.view, self.op = self.own_view(), 0
        self.half = registry.Half()

    def own_view(self):
        """The latest view that the replica started."""
        return (*self.life, self.started)

    def is_primary(self):
        return self.view == self.own_view()

    def edit(self, edit, *arguments):
        """Carries an edit out, and returns its entry."""
        refuse((92, edit == "set_limit" and not 1 <= arguments[0] <= messages.MAX_ROWS))
        refuse((95, not self.is_primary()), (99, self.op == U64))
        getattr(self.half, edit)(*arguments)
        self.op += 1
        return encode_entry(Entry(self.view, self.op, edit, arguments))

    def apply(self, data):
        entry = decode_entry(data)
        refuse((96, entry.view != self.view))
        refuse((97, entry.op > self.op + 1))
        if entry.op == self.op + 1:
            getattr(self.half, entry.edit)(*entry.arguments)
            self.op = entry.op

    def lead(self):
        refuse((99, self.started == U64))
        self.started += 1
        self.view, self.op = self.own_view(), 0

    def snapshot(self):
        return encode_snapshot(Snapshot(self.view, self.op, self.half))

    def follow(self, data):
        taken = decode_snapshot(data)
        refuse((98, taken.view == self.own_view()))
        self.view, self.op, self.half = taken

    def side(self, which):
        """An idle side with what the replica has."""
        half = self.half
        refuse((32, len(half.rows) > half.limit))
        made = side.Side(which, half.limit, dict(half.store), dict(half.rows), dict(half.codes), half.latest)
        made.events = None                     # as many as names, and at most two more
        return made

    def change(self, position, ended):
        """Starts a view with what an exchange left in a side."""
        refuse((33, ended.exchange))
        refuse((49, position != (self.view, self.op)))
        self.lead()
        self.half = registry.Half(self.half.limit, self.half.store, dict(ended.rows), dict(ended.codes), ended.latest)
