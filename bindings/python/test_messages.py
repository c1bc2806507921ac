"""Tests of the messages of an exchange: bytes by hand (docs/MESSAGES.md), faults with their places, untrusted bytes, and a table of more
programs than a side keeps."""

import dataclasses
import hashlib
import random
import struct
import unittest
from typing import Callable, NamedTuple

from heal import Builtin, Fault, Owner, Registration, Side, list_fault, offer_fault, peek

# In this list side B withdraws two names.
LIST = bytes.fromhex(
    """
    48 45 41 4c 58 43 01 02
    01
    04 00 00 00 00 00 00 00
    02 00 00 00
    02 64 62
    02 61 62
    """
)
# This offer of side A has one row with its program.
OFFER = bytes.fromhex(
    """
    48 45 41 4c 58 43 01 01
    00
    04 00 00 00 00 00 00 00
    4d 00 00 00 00 00 00 00
    e8 03 00 00 00 00 00 00
    01 00 00 00
    02 64 62
    07 00 00 00 01 00 00 00
    00 00 00 00 00 00 00 00
    00 00 00 00 00 00 00 00
    00 00 00 00 00 00 00 00 00 00 00 00 00 00 00 00
    04
    10 00 00 00
    b7 00 00 00 01 00 00 00
    95 00 00 00 00 00 00 00
    """
)


def answering(value):
    """The code that answers this value: `mov64 r0, VALUE`, `exit`."""
    return b"\xb7\0\0\0" + struct.pack("<I", value) + b"\x95" + bytes(7)


FIRST = answering(1)


def head(kind, which, *numbers):
    """The first fields of a message."""
    return b"HEALXC\1" + bytes([kind, "ab".index(which)]) + struct.pack(f"<{len(numbers)}Q", *numbers)


def row(name, node, serial, resolver):
    """A row of an offer, whose stamp, weight and extra are 0. The resolver has its kind as the first byte."""
    return bytes([len(name)]) + name + struct.pack("<II", node, serial) + bytes(32) + resolver


def with_code(code):
    """The resolver of the first row that names a program."""
    return b"\4" + struct.pack("<I", len(code)) + code


def by_id(code):
    """The resolver of a later row that names the program."""
    return b"\3" + hashlib.sha256(code).digest()


def offer_of(first, rows):
    """An offer by hand."""
    return first + struct.pack("<I", len(rows)) + b"".join(rows)


# An offer of side B with two programs, one of them named twice.
FOUR = offer_of(
    head(1, "b", 4, 77, 1000),
    [
        row(b"ab", 7, 2, with_code(answering(2))),
        row(b"db", 7, 1, with_code(FIRST)),
        row(b"dba", 7, 3, by_id(FIRST)),
        row(b"e", 7, 4, b"\0"),
    ],
)


def registration(serial, resolver=Builtin.EXIT, node=7):
    return Registration(Owner(node, serial), resolver=resolver)


def register_four(side):
    """Registers four names with two programs, one of them named twice."""
    one, two = side.upload(FIRST), side.upload(answering(2))
    for serial, (name, resolver) in enumerate([("db", one), ("ab", two), ("dba", one), ("e", Builtin.EXIT)], 1):
        side.register(name, registration(serial, resolver))


def small_offer():
    with Side("b") as side:
        register_four(side)
        return side.begin(4, 77, 1000)


def offer_of_one_row():
    with Side("a") as side:
        side.register("db", registration(1, side.upload(FIRST)))
        return side.begin(4, 77, 1000)


def small_list():
    with Side("b") as side:
        register_four(side)
        side.begin(4, 77, 1000)
        side.withdraw("db")
        side.withdraw("ab")
        return side.close_list()


def opposite(which):
    return "b" if which == "a" else "a"


def take(side, offer, sent):
    """Lets a side take over what the other side offers and withdraws. Returns the outcome."""
    of_offer = peek(offer)
    side.begin(of_offer.number, of_offer.seed, 0)
    side.hear(offer)
    side.settle()
    side.close_list()
    side.hear_list(sent)
    return side.finish()


def list_without_names(of_offer):
    return head(2, of_offer.side, of_offer.number) + bytes(4)


def offer_again(offer):
    """The offer that a new side makes of the rows and the code that another side decoded. The uptime is read from the bytes, since no
    call returns it."""
    of_offer = peek(offer)
    with Side(opposite(of_offer.side)) as heard, Side(of_offer.side) as side:
        take(heard, offer, list_without_names(of_offer))
        for name, found in heard.rows():
            if isinstance(found.resolver, bytes):
                side.upload(heard.code(found.resolver))
            side.register(name, found)
        return side.begin(of_offer.number, of_offer.seed, int.from_bytes(offer[25:33], "little"))


def list_again(sent):
    """The list that a new side makes of the names that another side decoded."""
    of_list = peek(sent)
    with Side(opposite(of_list.side)) as heard, Side(of_list.side) as side:
        outcome = take(heard, offer_of(head(1, of_list.side, of_list.number, 0, 0), []), sent)
        names = outcome.withdrawn["ab".index(of_list.side)]
        for name in names:
            side.register(name, registration(1))
        side.begin(of_list.number, 0, 0)
        for name in names:
            side.withdraw(name)
        return side.close_list()


class Kind(NamedTuple):
    """A small message, the calls that decode and encode its kind, the faults that this kind may have, and where its rows or names are
    counted."""

    message: bytes
    fault: Callable
    again: Callable
    faults: frozenset
    count_at: int

    def most(self, message, fault):
        """The greatest place that the fault of a message may have."""
        count = int.from_bytes(message[self.count_at : self.count_at + 4], "little")
        return len(message) if fault.item is None else count - 1


OF_OFFERS = offer_fault, offer_again, frozenset({*range(70, 77), *range(78, 83)}), 33
OF_FOUR_ROWS, OF_ONE_ROW = Kind(FOUR, *OF_OFFERS), Kind(OFFER, *OF_OFFERS)
OF_NAMES = Kind(LIST, list_fault, list_again, frozenset({*range(70, 76), 77, 82}), 17)


class Spellings(unittest.TestCase):
    def test_messages_are_encoded_and_decoded_as_documented(self):
        for made, kind in ((offer_of_one_row, OF_ONE_ROW), (small_list, OF_NAMES), (small_offer, OF_FOUR_ROWS)):
            with self.subTest(made=made.__name__):
                self.assertEqual(made(), kind.message)
                self.assertIsNone(kind.fault(kind.message))
                self.assertEqual(kind.again(kind.message), kind.message)


# A small message with the byte at a place replaced, and the fault of that. The offer's rows begin at 37, 101, 165 and 242: `ab` and
# `db` with code, `dba` by its id, and `e`.
FAULTS = (
    (OF_FOUR_ROWS, 0, 0x49, Fault(71, byte=0)),
    (OF_FOUR_ROWS, 6, 2, Fault(82, byte=0)),
    (OF_FOUR_ROWS, 7, 2, Fault(71, byte=0)),
    (OF_FOUR_ROWS, 8, 2, Fault(74, byte=8)),
    (OF_FOUR_ROWS, 33, 3, Fault(72, byte=242)),
    (OF_FOUR_ROWS, 33, 5, Fault(70, byte=285)),
    (OF_FOUR_ROWS, 35, 0x11, Fault(73, byte=33)),
    (OF_FOUR_ROWS, 37, 0, Fault(75, byte=37)),
    (OF_FOUR_ROWS, 38, 0x20, Fault(75, byte=37)),
    (OF_FOUR_ROWS, 80, 5, Fault(76, byte=80)),
    (OF_FOUR_ROWS, 85, 0xFF, Fault(81, item=0)),
    (OF_FOUR_ROWS, 102, 0x61, Fault(78, item=1)),
    (OF_FOUR_ROWS, 153, 2, Fault(80, item=1)),
    (OF_FOUR_ROWS, 210, 0, Fault(79, item=2)),
    (OF_NAMES, 7, 1, Fault(71, byte=0)),
    (OF_NAMES, 17, 3, Fault(70, byte=27)),
    (OF_NAMES, 22, 0x61, Fault(77, item=1)),
)


def replaced(message, place, value):
    return message[:place] + bytes([value]) + message[place + 1 :]


class Faults(unittest.TestCase):
    def test_faults_have_their_number_and_place(self):
        for kind, place, value, fault in FAULTS:
            with self.subTest(kind=kind.again.__name__, place=place, value=value):
                found = kind.fault(replaced(kind.message, place, value))
                # Other tests check the reason of a refused program.
                self.assertEqual(found and dataclasses.replace(found, code=None), fault)


class Untrusted(unittest.TestCase):
    """Small messages with one byte replaced, cut short, or changed at random: each is encoded to the same bytes again, or has a fault
    of its kind, within the message."""

    MUTATIONS = 5000

    def read(self, kind, message):
        """Checks the answer to changed bytes. Returns the number of their fault, or 0."""
        fault = kind.fault(message)
        if fault is None:
            self.assertEqual(kind.again(message), message)
            return 0
        self.assertIn(fault.number, kind.faults, message.hex())
        self.assertLessEqual(fault.byte if fault.item is None else fault.item, kind.most(message, fault), message.hex())
        return fault.number

    def read_all(self, kind, messages):
        """Checks that some messages are decoded and some are refused."""
        numbers = {self.read(kind, message) for message in messages}
        self.assertIn(0, numbers)
        self.assertGreater(len(numbers), 1)

    def is_tried(self, kind, byte, value):
        """Whether the value replaces the byte: each does, but in the offer of four rows a changed bit and 16 values."""
        return kind is not OF_FOUR_ROWS or value % 17 == 0 or bin(byte ^ value).count("1") == 1

    def replace_bytes(self, kind):
        """Replaces the byte of every fourth place, from the first four on."""
        for first in range(4):
            with self.subTest(first=first):
                tried = (
                    replaced(kind.message, place, value)
                    for place in range(first, len(kind.message), 4)
                    for value in range(256)
                    if self.is_tried(kind, kind.message[place], value)
                )
                self.read_all(kind, tried)

    def test_each_byte_of_an_offer(self):
        self.replace_bytes(OF_FOUR_ROWS)

    def test_each_byte_of_one_row(self):
        self.replace_bytes(OF_ONE_ROW)

    def test_each_byte_of_a_list(self):
        self.replace_bytes(OF_NAMES)

    def test_cut_messages(self):
        for kind in (OF_NAMES, OF_ONE_ROW, OF_FOUR_ROWS):
            for length in range(len(kind.message)):
                with self.subTest(kind=kind.again.__name__, of=len(kind.message), length=length):
                    self.assertEqual(self.read(kind, kind.message[:length]), 70)

    def changed(self, message, chance):
        """The message with at most three bytes replaced, each time in the message."""
        for _ in range(self.MUTATIONS):
            made = bytearray(message)
            for _ in range(3):
                made[chance.randrange(len(made))] = chance.randrange(256)
            yield bytes(made)

    def test_random_messages(self):
        for seed in (7, random.randrange(1 << 32)):
            for kind in (OF_NAMES, OF_FOUR_ROWS):
                with self.subTest(seed=seed, kind=kind.again.__name__):
                    self.read_all(kind, self.changed(kind.message, random.Random(seed)))


class ManyPrograms(unittest.TestCase):
    """A table that names more programs than a side keeps."""

    PROGRAMS = 200

    def rows(self, letter):
        """The names of a half, which begin with this letter, each with a serial number and a program of its own."""
        for k in range(self.PROGRAMS):
            letters = bytes(ord("a") + (k >> shift) % 16 for shift in (12, 8, 4, 0))
            yield letter.encode() + letters, k, answering(ord(letter) * 1000 + k)

    def side_of(self, which, letter):
        side = Side(which)
        for name, serial, code in self.rows(letter):
            side.register(name, registration(serial, side.upload(code), node=1))
        return side

    def merged(self):
        """Side A after it merged its table with that of side B."""
        with self.side_of("b", "b") as b:
            offer = b.begin(1, 5, 0)
            sent = b.close_list()
        a = self.side_of("a", "a")
        take(a, offer, sent)
        return a

    def test_a_merged_table_is_decoded(self):
        expected = [*self.rows("a"), *self.rows("b")]
        with self.merged() as side:
            offer = side.begin(2, 6, 7)
        rows = [row(name, 1, serial, with_code(code)) for name, serial, code in expected]
        self.assertEqual(offer, offer_of(head(1, "a", 2, 6, 7), rows))
        self.assertIsNone(offer_fault(offer))
        with Side("b") as heard:
            take(heard, offer, list_without_names(peek(offer)))
            named = [(name, registration(serial, hashlib.sha256(code).digest(), node=1)) for name, serial, code in expected]
            self.assertEqual((len(heard), heard.rows()), (400, named))
            self.assertEqual(heard.begin(3, 0, 0)[OF_ONE_ROW.count_at :], offer[OF_ONE_ROW.count_at :])


if __name__ == "__main__":
    unittest.main()
