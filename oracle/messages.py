"""Offers and lists of withdrawn names as bytes, both ways, with the faults of decoding. Follows docs/MESSAGES.md."""

import collections
import struct

import registry
import verifier
from machine import refuse
from registry import id_of, is_program

MAGIC, VERSION = b"HEALXC", 1
OFFER, LIST, ENTRY, SNAPSHOT = 1, 2, 3, 4
MAX_ROWS, MAX_CODE = 1048576, 8192
BY_ID, BY_CODE = 3, 4

# `rows` has pairs of a name and a registration, in the order of names; `programs` the code of each id that they name.
Offer = collections.namedtuple("Offer", "side number seed uptime rows programs")
Withdrawals = collections.namedtuple("Withdrawals", "side number names")


def header(kind):
    return MAGIC + bytes([VERSION, kind])


def encode_name(name):
    return bytes([len(name)]) + name


def encode_code(code):
    return struct.pack("<I", len(code)) + code


def encode_withdrawals(message):
    return (header(LIST) + struct.pack("<BQI", message.side, message.number, len(message.names))
            + b"".join(map(encode_name, message.names)))


def encode_offer(message):
    return header(OFFER) + struct.pack("<BQQQ", *message[:4]) + encode_rows(message.rows, message.programs)


def encode_row(name, r, code=None):
    """A row with a program's code, if it is given, or else the program's id."""
    row = encode_name(name) + struct.pack("<IIQQ16s", *r[:5])
    if not is_program(r.resolver):
        return row + bytes([r.resolver])
    return row + (bytes([BY_ID]) + r.resolver if code is None else bytes([BY_CODE]) + encode_code(code))


def encode_rows(rows, programs):
    """The code of a program is in the first row that names it; later rows have its id."""
    encoded, unsent = struct.pack("<I", len(rows)), dict(programs)
    for name, r in rows:
        encoded += encode_row(name, r, unsent.pop(r.resolver, None))
    return encoded


class Reader:
    """Reads fields from the left. A fault names the byte at which its field begins."""

    def __init__(self, data):
        self.data, self.at = data, 0

    def take(self, size, start=None):
        """The next bytes, of a field that begins at `start`, or here."""
        refuse((70, self.at + size > len(self.data)), place=("byte", self.at if start is None else start))
        self.at += size
        return self.data[self.at - size:self.at]

    def number(self, size, fault=None, most=None, least=0):
        """A number of this many bytes. If it has limits, any other is this fault."""
        number = int.from_bytes(self.take(size), "little")
        refuse((fault, fault and not least <= number <= most), place=("byte", self.at - size))
        return number

    def header(self, kind):
        taken = self.take(8)
        other_version = taken[:6] == MAGIC and taken[6] != VERSION
        refuse((82 if other_version else 71, taken != header(kind)), place=("byte", 0))

    def head(self, kind):
        """What an offer and a list begin with: the side and the number behind the header."""
        self.header(kind)
        return self.number(1, 74, 1), self.number(8)

    def count(self, most=MAX_ROWS):
        return self.number(4, 73, most)

    def limit(self):
        return self.number(4, 73, MAX_ROWS, least=1)

    def position(self):
        """A view and an operation number."""
        return (self.number(4), self.number(8), self.number(8)), self.number(8)

    def code(self):
        return self.take(self.count(MAX_CODE))

    def name(self):
        """A name is one field with its length. If it ends too early and is too long, the lesser number is its fault."""
        start = self.at
        name = self.take(self.number(1), start)
        refuse((75, not registry.is_name(name)), place=("byte", start))
        return name

    def row(self):
        """A name, its registration, and the code that the row has, or None."""
        name = self.name()
        fields = struct.unpack("<IIQQ16s", b"".join(self.take(size) for size in (4, 4, 8, 8, 16)))
        kind = self.number(1, 76, BY_CODE)
        code = self.code() if kind == BY_CODE else None
        resolver = self.take(32) if kind == BY_ID else id_of(code) if code is not None else kind
        return name, registry.Registration(*fields, resolver), code

    def end(self):
        refuse((72, self.at < len(self.data)), place=("byte", self.at))


def decode_head(data):
    """Reads what an offer or a list begins with: its side and its number. An offer's head has a seed too."""
    reader, is_list = Reader(data), data[:8] == header(LIST)
    head = reader.head(LIST if is_list else OFFER)
    if not is_list:
        reader.number(8)
    return head


def decode_withdrawals(data):
    reader = Reader(data)
    head = reader.head(LIST)
    names = [reader.name() for _ in range(reader.count())]
    reader.end()
    for index, name in enumerate(names):
        refuse((77, name in names[:index]), place=("name", index))
    return Withdrawals(*head, names)


def decode_offer(data):
    reader = Reader(data)
    return Offer(*reader.head(OFFER), reader.number(8), reader.number(8), *decode_rows(reader))


def decode_rows(reader, before=0):
    """Reads a count and its rows to the end. Returns the rows, and the code of each program that they have. Rows are counted
    on from the items before them."""
    spelled = [reader.row() for _ in range(reader.count())]
    reader.end()
    rows, programs = [], {}
    for index, (name, registration, code) in enumerate(spelled):
        is_known = registration.resolver in programs
        refuse((78, rows and name <= rows[-1][0]), (79, is_program(registration.resolver) and code is None and not is_known),
               (80, code is not None and is_known), (81, code is not None and not verifier.is_accepted(code)),
               place=("row", before + index))
        if code is not None:
            programs[registration.resolver] = code
        rows.append((name, registration))
    return rows, programs
