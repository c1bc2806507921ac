"""Tests of the messages of replicas: entries, snapshots and logs as bytes by hand (docs/MESSAGES.md), their faults, changed and cut bytes,
and histories that go through a log."""

import hashlib
import random
import struct
import unittest

from heal import Builtin, Owner, Program, Refused, Registration
from heal.replica import Kind, Life, LogFront, Position, Replica, log_front, messages

# Registers `db` of node 7, judged by notify.
REGISTER = bytes.fromhex(
    """
    48 45 41 4c 58 43 01 03  49 00 00 00 00 00 00 00  ac f7 b5 4d 03 7d 0c a1
    07 00 00 00  01 00 00 00 00 00 00 00  02 00 00 00 00 00 00 00  03 00 00 00 00 00 00 00
    00
    02 64 62
    07 00 00 00 01 00 00 00  05 00 00 00 00 00 00 00  06 00 00 00 00 00 00 00
    00 00 00 00 00 00 00 00 00 00 00 00 00 00 00 00
    01
    43 d0 8d 46 90 43 0f 03
    """
)
# Registers `db` with the program of `UPLOAD`, by its id.
REGISTER_BY_PROGRAM = bytes.fromhex(
    """
    48 45 41 4c 58 43 01 03  69 00 00 00 00 00 00 00  d4 c8 41 76 3f 00 74 e0
    07 00 00 00  01 00 00 00 00 00 00 00  02 00 00 00 00 00 00 00  03 00 00 00 00 00 00 00
    00
    02 64 62
    07 00 00 00 01 00 00 00  00 00 00 00 00 00 00 00  00 00 00 00 00 00 00 00
    00 01 02 03 04 05 06 07 08 09 0a 0b 0c 0d 0e 0f
    03 b1 14 59 a0 e1 1c a1 4c ba a3 3c c1 08 ff ff
    8f f0 7b a5 4b 6c 38 95 14 b3 c1 22 ab 54 b3 45
    51
    d4 14 4e 29 5e 38 63 9f
    """
)
# Unregisters `db`.
UNREGISTER = bytes.fromhex(
    """
    48 45 41 4c 58 43 01 03  20 00 00 00 00 00 00 00  ca f3 7e 57 ff 4a a3 39
    07 00 00 00  01 00 00 00 00 00 00 00  02 00 00 00 00 00 00 00  03 00 00 00 00 00 00 00
    01
    02 64 62
    1e 9d bb c3 1c ae 5e e1
    """
)
# Uploads `mov64 r0, 1; exit`.
UPLOAD = bytes.fromhex(
    """
    48 45 41 4c 58 43 01 03  31 00 00 00 00 00 00 00  a7 ca 74 1f 95 3f 58 71
    07 00 00 00  01 00 00 00 00 00 00 00  02 00 00 00 00 00 00 00  03 00 00 00 00 00 00 00
    02
    10 00 00 00  b7 00 00 00 01 00 00 00 95 00 00 00 00 00 00 00
    ae ff 50 7a ae 25 6e 54
    """
)
# Sets the limit to 4,096 names.
LIMIT = bytes.fromhex(
    """
    48 45 41 4c 58 43 01 03  21 00 00 00 00 00 00 00  01 e4 21 48 0b 86 09 03
    07 00 00 00  01 00 00 00 00 00 00 00  02 00 00 00 00 00 00 00  03 00 00 00 00 00 00 00
    03
    00 10 00 00
    e4 92 89 41 2c 42 0c 8a
    """
)
# Begins exchange 9.
BEGIN = bytes.fromhex(
    """
    48 45 41 4c 58 43 01 03  25 00 00 00 00 00 00 00  d2 2b 45 b5 c9 8a 77 4a
    07 00 00 00  01 00 00 00 00 00 00 00  02 00 00 00 00 00 00 00  03 00 00 00 00 00 00 00
    04
    09 00 00 00 00 00 00 00
    ee 90 d2 2d d0 c0 29 bf
    """
)
# The snapshot of an empty half.
EMPTY = bytes.fromhex(
    """
    48 45 41 4c 58 43 01 04  29 00 00 00 00 00 00 00  99 e6 05 dd 51 b0 9c 32
    07 00 00 00  01 00 00 00 00 00 00 00  02 00 00 00 00 00 00 00  03 00 00 00 00 00 00 00
    00 10 00 00
    00
    00 00 00 00
    00 00 00 00
    cd 0a de 71 fc 13 7e 7e
    """
)
# The snapshot of a half of at most 5 names that began exchange 9, with two programs, of which `ab` names one, and `db`,
# which is judged by notify.
FULL = bytes.fromhex(
    """
    48 45 41 4c 58 43 01 04  c5 00 00 00 00 00 00 00  79 c9 2b 3e 6d ae be 26
    07 00 00 00  01 00 00 00 00 00 00 00  02 00 00 00 00 00 00 00  03 00 00 00 00 00 00 00
    05 00 00 00
    01
    09 00 00 00 00 00 00 00
    02 00 00 00
    10 00 00 00  b7 00 00 00 02 00 00 00 95 00 00 00 00 00 00 00
    10 00 00 00  b7 00 00 00 01 00 00 00 95 00 00 00 00 00 00 00
    02 00 00 00
    02 61 62
    07 00 00 00 02 00 00 00  00 00 00 00 00 00 00 00  00 00 00 00 00 00 00 00
    00 00 00 00 00 00 00 00 00 00 00 00 00 00 00 00
    04
    10 00 00 00  b7 00 00 00 01 00 00 00 95 00 00 00 00 00 00 00
    02 64 62
    07 00 00 00 01 00 00 00  05 00 00 00 00 00 00 00  06 00 00 00 00 00 00 00
    00 00 00 00 00 00 00 00 00 00 00 00 00 00 00 00
    01
    ae 87 05 c3 5b 1d 5f a6
    """
)
ENTRIES = (REGISTER, REGISTER_BY_PROGRAM, UNREGISTER, UPLOAD, LIMIT, BEGIN)
# The position of all these: view 2 of node 7 in its first life, operation 3.
AT = Position(Life(7, 1), 2, 3)
# `mov64 r0, 1` or `mov64 r0, 2`, and `exit`.
FIRST = bytes.fromhex("b7000000010000009500000000000000")
SECOND = bytes.fromhex("b7000000020000009500000000000000")


def id_of(code):
    return hashlib.sha256(code).digest()


NOTIFY = Registration(Owner(7, 1), stamp=5, weight=6, resolver=Builtin.NOTIFY)
BY_PROGRAM = Registration(Owner(7, 1), extra=bytes(range(16)), resolver=id_of(FIRST))


def upload_first(replica):
    return replica.upload(Program(FIRST))


def code_of(replica):
    """The ids that the replica keeps, and the code of `FIRST`."""
    with replica.side("a") as side:
        return side.programs, side.code(id_of(FIRST))


# For each entry an edit that the half needs before it, its own edit, a call that shows that in a replica, and what this call returns.
EDITS = (
    (REGISTER, None, lambda it: it.register("db", NOTIFY), lambda it: it.whereis("db"), NOTIFY),
    (REGISTER_BY_PROGRAM, upload_first, lambda it: it.register("db", BY_PROGRAM), lambda it: it.whereis("db"), BY_PROGRAM),
    (UNREGISTER, lambda it: it.register("db", NOTIFY), lambda it: it.unregister("db"), lambda it: it.whereis("db"), None),
    (UPLOAD, None, upload_first, code_of, ([id_of(FIRST)], FIRST)),
    (LIMIT, None, lambda it: it.set_limit(4096), lambda it: it.state.limit, 4096),
    (BEGIN, None, lambda it: it.begin(9), lambda it: it.state.latest, 9),
)


def before_entry(needed):
    """The primary of view 2 of node 7 after two entries, with a limit and a number of an exchange that the third may change."""
    primary = Replica(7, 1)
    if needed:
        needed(primary)
    primary.lead()
    primary.set_limit(5)
    primary.begin(1)
    return primary


def refusal(call, *arguments):
    """The number of a call's refusal, or 0 if there is none."""
    try:
        call(*arguments)
    except Refused as refused:
        return refused.number
    return 0


class Entries(unittest.TestCase):
    def test_edits_are_encoded_as_documented(self):
        for row, needed, edit, _, _ in EDITS:
            with self.subTest(row=row.hex()), before_entry(needed) as primary:
                self.assertEqual(edit(primary), row)
                self.assertEqual(primary.state.at, AT)

    def test_entries_are_decoded_as_documented(self):
        """A backup that applies the bytes has the edit, and makes the snapshot that the primary makes after the edit."""
        self.assertEqual(tuple(row for row, *_ in EDITS), ENTRIES)
        for row, needed, edit, seen, expected in EDITS:
            with self.subTest(row=row.hex()), before_entry(needed) as primary, Replica(2, 1) as backup:
                backup.follow(primary.snapshot())
                backup.apply(row)
                self.assertEqual((backup.state.at, seen(backup)), (AT, expected))
                edit(primary)
                self.assertEqual(backup.snapshot(), primary.snapshot())


def empty_half(primary):
    """Brings the primary to operation 3 without a name."""
    primary.lead()
    primary.register("x", NOTIFY)
    primary.unregister("x")
    primary.set_limit(4096)


def full_half(primary):
    """Brings the primary to operation 3 with two programs, two names, a limit and a number."""
    primary.upload(Program(FIRST))
    primary.upload(Program(SECOND))
    primary.register("ab", Registration(Owner(7, 2), resolver=id_of(FIRST)))
    primary.lead()
    primary.register("db", NOTIFY)
    primary.set_limit(5)
    primary.begin(9)


class Snapshots(unittest.TestCase):
    def test_snapshots_are_encoded_as_documented(self):
        for row, edits in ((EMPTY, empty_half), (FULL, full_half)):
            with self.subTest(row=row.hex()), Replica(7, 1) as primary:
                edits(primary)
                self.assertEqual(primary.snapshot(), row)

    def test_snapshots_are_decoded_as_documented(self):
        """A replica that follows the bytes has the half, and its own snapshot is the same bytes."""
        names = [(b"ab", Registration(Owner(7, 2), resolver=id_of(FIRST))), (b"db", NOTIFY)]
        for row, rows, limit, latest, programs in ((EMPTY, [], 4096, None, []), (FULL, names, 5, 9, [id_of(SECOND), id_of(FIRST)])):
            with self.subTest(row=row.hex()), Replica(2, 1) as backup:
                backup.follow(row)
                state = backup.state
                self.assertEqual((state.at, state.limit, state.latest, backup.rows()), (AT, limit, latest, rows))
                with backup.side("a") as side:
                    self.assertEqual(side.programs, programs)
                self.assertEqual(backup.snapshot(), row)
        self.assertEqual(log_front(FULL), LogFront(Kind.SNAPSHOT, 229))


MASK = (1 << 64) - 1


def sip_round(v):
    """One round of SipHash on its four words: in each step one is added to another, and both are rotated to the left."""
    for x, y, of_y, of_x in ((0, 1, 13, 32), (2, 3, 16, 0), (0, 3, 21, 0), (2, 1, 17, 32)):
        v[x] = (v[x] + v[y]) & MASK
        v[y] = ((v[y] << of_y | v[y] >> 64 - of_y) & MASK) ^ v[x]
        v[x] = (v[x] << of_x | v[x] >> 64 - of_x) & MASK


def checksum(data):
    """SipHash-1-3 with the key 0, of the bytes in their order."""
    v = [0x736F6D6570736575, 0x646F72616E646F6D, 0x6C7967656E657261, 0x7465646279746573]
    for (word,) in struct.iter_unpack("<Q", data + bytes(7 - len(data) % 8) + bytes([len(data) % 256])):
        v[3] ^= word
        sip_round(v)
        v[0] ^= word
    v[2] ^= 0xFF
    for _ in range(3):
        sip_round(v)
    return struct.pack("<Q", v[0] ^ v[1] ^ v[2] ^ v[3])


def summed(message):
    """The message with its checksums made anew."""
    made = message[:16] + checksum(message[:16]) + message[24:-8]
    return made + checksum(made)


def replaced(message, place, value):
    return message[:place] + bytes([value]) + message[place + 1 :]


def framed(message, body):
    """A message of the same kind with this body."""
    return summed(message[:8] + struct.pack("<Q", len(body)) + bytes(8) + body + bytes(8))


def ending(message, end):
    """The message with a body that ends at this byte: cut there, or with zeros up to there."""
    return framed(message, message[24:-8][: end - 24].ljust(end - 24, b"\0"))


def of_items(snapshot, count):
    """A snapshot that has as many of the two programs and two rows of the full one, which are at 69, 89, 113 and 177."""
    programs, rows = min(count, 2), max(count - 2, 0)
    counted = [struct.pack("<I", programs), snapshot[69 : 69 + 20 * programs], struct.pack("<I", rows)]
    return framed(snapshot, snapshot[24:65] + b"".join(counted) + snapshot[113 : (113, 177, 221)[rows]])


# A message with the byte at a place replaced, under right checksums; the number of its fault, where the faulty field begins, and how many
# bytes the field has. No call returns the place. The code of an entry is its item 0.
FIELDS = (
    (BEGIN, 0, 0x49, 71, 0, 8),
    (BEGIN, 6, 2, 82, 0, 8),
    (BEGIN, 7, 4, 71, 0, 8),
    (BEGIN, 8, 38, 70, 62, 8),
    (BEGIN, 8, 36, 72, 68, 1),
    (BEGIN, 52, 5, 71, 52, 1),
    (BEGIN, 52, 3, 72, 57, 1),
    (LIMIT, 54, 0, 73, 53, 4),
    (LIMIT, 55, 0x11, 73, 53, 4),
    (UNREGISTER, 53, 1, 72, 55, 1),
    (UNREGISTER, 53, 3, 70, 53, 4),
    (UNREGISTER, 54, 0x20, 75, 53, 3),
    (REGISTER, 96, 5, 76, 96, 1),
    (REGISTER, 96, 3, 70, 97, 32),
    (UPLOAD, 54, 0x21, 73, 53, 4),
    (UPLOAD, 57, 0xFF, 81, 57, 16),
    (FULL, 7, 3, 71, 0, 8),
    (FULL, 52, 0, 73, 52, 4),
    (FULL, 56, 2, 73, 56, 1),
    (FULL, 66, 2, 73, 65, 4),
    (FULL, 70, 0x21, 73, 69, 4),
    (FULL, 109, 3, 70, 221, 1),
    (FULL, 109, 1, 72, 177, 1),
    (FULL, 114, 0x20, 75, 113, 3),
    (FULL, 156, 5, 76, 156, 1),
)
# The full snapshot with the byte at a place replaced, under right checksums; the number of its fault, and which program or row has it.
ITEMS = (
    (73, 0xFF, 81, 0),
    (93, 0xFF, 81, 1),
    (77, 1, 78, 1),
    (97, 2, 78, 1),
    (161, 0xFF, 81, 2),
    (178, 0x61, 78, 3),
)


class Faults(unittest.TestCase):
    def number(self, message, of):
        """The number of the fault of bytes that are read as a message of the same kind as another one, or 0."""
        with Replica(1, 1) as reader:
            if of[7] == Kind.SNAPSHOT:
                return refusal(reader.follow, message)
            number = refusal(reader.apply, message)
            # An entry without a fault is one of another view.
            return 0 if number == 96 else number

    def test_rows_have_no_fault(self):
        for row in (*ENTRIES, EMPTY, FULL):
            with self.subTest(row=row.hex()):
                self.assertEqual((summed(row), self.number(row, row)), (row, 0))

    def test_faults_have_their_number_and_field(self):
        """A message that ends with the field has the fault, and one that ends a byte earlier hasn't; it's the other way round for 70.
        Where a byte of the head is changed, the message itself is cut or has more zeros, else its body."""
        for of, at, new, number, place, size in FIELDS:
            with self.subTest(of=of.hex(), at=at, new=new):
                message, end = summed(replaced(of, at, new)), place + size
                self.assertEqual(self.number(message, of), number)
                ends = [message[:it].ljust(it, b"\0") if at < 24 else ending(message, it) for it in (end - 1, end)]
                self.assertEqual([self.number(it, of) == number for it in ends], [number == 70, number != 70])

    def test_faults_have_their_number_and_item(self):
        """A snapshot that ends with the program or row has the fault, and one without it hasn't."""
        for at, new, number, item in ITEMS:
            with self.subTest(at=at, new=new):
                message = summed(replaced(FULL, at, new))
                self.assertEqual(self.number(message, FULL), number)
                ends = [self.number(of_items(message, count), FULL) for count in (item, item + 1)]
                self.assertEqual(ends, [0, number])

    def test_a_changed_byte_is_a_fault(self):
        for entry in ENTRIES:
            for at, byte in enumerate(entry):
                with self.subTest(entry=entry.hex(), at=at):
                    due = 84 if at >= 8 else 82 if at == 6 else 71
                    self.assertEqual(self.number(replaced(entry, at, (byte + 1) % 256), entry), due)

    def test_a_cut_entry_is_refused(self):
        for entry in ENTRIES:
            for length in range(len(entry)):
                with self.subTest(entry=entry.hex(), length=length):
                    self.assertEqual(self.number(entry[:length], entry), 70)


LOG = b"".join(ENTRIES)
# Where each entry begins, and the length of the log.
ENDS = [sum(map(len, ENTRIES[:count])) for count in range(len(ENTRIES) + 1)]


class Logs(unittest.TestCase):
    def refused(self, number, log):
        """Checks that the log is refused with this number. Returns the entries before that."""
        read = []
        with self.assertRaises(Refused) as caught:
            for _, message in messages(log):
                read.append(message)
        self.assertEqual(caught.exception.number, number)
        return tuple(read)

    def test_a_log_is_read_up_to_its_last_whole_entry(self):
        for length in range(len(LOG) + 1):
            with self.subTest(length=length):
                whole = [message for _, message in messages(LOG[:length])]
                count = sum(0 < end <= length for end in ENDS)
                self.assertEqual(tuple(whole), ENTRIES[:count])
                kind = Kind.END if length in ENDS else Kind.CUT
                self.assertEqual(log_front(LOG[ENDS[count] : length]), LogFront(kind, 0))
        self.assertEqual([log_front(entry) for entry in ENTRIES], [LogFront(Kind.ENTRY, len(entry)) for entry in ENTRIES])

    def test_a_changed_head_is_no_cut(self):
        """Each change of a byte in the head of an entry is refused, when the reader comes to it."""
        for count, at in enumerate(ENDS[:6]):
            for place in range(24):
                for change in (1, 0x80, 0xFF):
                    with self.subTest(at=at, place=place, change=change):
                        due = 84 if place >= 8 else 82 if place == 6 else 71
                        log = replaced(LOG, at + place, LOG[at + place] ^ change)
                        self.assertEqual(self.refused(due, log), ENTRIES[:count])

    def test_other_bytes_are_no_log(self):
        for log, number in ((b"HEALXC\x01\x02........", 71), (b"HEALXC\x02\x03........", 82), (b"nothing of a log", 71)):
            with self.subTest(log=log):
                self.assertEqual(self.refused(number, log), ())


class Writer:
    """A primary, and what its edits leave: the serial numbers of letters, the limit, and the greatest number of an exchange."""

    LETTERS = "abcdef"

    def __init__(self, seed):
        self.chance, self.primary = random.Random(seed), Replica(1, 1)
        self.serials, self.limit, self.latest = {}, 4096, None

    def edit(self):
        """Makes a random edit. Returns its entry, or no byte if it is refused."""
        letter, kind, word = self.chance.choice(self.LETTERS), self.chance.randrange(8), self.chance.randrange(1 << 32)
        try:
            if kind < 4:
                entry = self.primary.register(letter, Registration(Owner(1, word)))
                self.serials[letter] = word
            elif kind < 6:
                entry = self.primary.unregister(letter)
                del self.serials[letter]
            elif kind == 6:
                entry = self.primary.set_limit(3 + word % 5)
                self.limit = 3 + word % 5
            else:
                entry = self.primary.begin(word)
                self.latest = word
        except Refused as refused:
            assert refused.number in (30, 31, 32, 35), refused
            return b""
        return entry


class Histories(unittest.TestCase):
    def read_log(self, replica, log):
        """Follows the snapshot of a log and applies its entries. Returns how many these are."""
        count = 0
        for kind, message in messages(log):
            (replica.follow if kind is Kind.SNAPSHOT else replica.apply)(message)
            count += kind is Kind.ENTRY
        return count

    def test_a_log_gives_the_replica_that_wrote_it(self):
        for seed in (1, 2, 3, random.randrange(1 << 32)):
            writer = Writer(seed)
            with self.subTest(seed=seed), writer.primary as primary, Replica(2, 1) as reader:
                for _ in range(40):
                    writer.edit()
                snapshot, first = primary.snapshot(), primary.state.at.op
                entries = [entry for entry in (writer.edit() for _ in range(200)) if entry]
                count = self.read_log(reader, snapshot + b"".join(entries))
                self.assertEqual([count, len(entries)], [primary.state.at.op - first] * 2)
                self.assertGreater(count, 30)
                self.assertEqual(reader.state.at, primary.state.at)
                rows = [(name.decode(), found) for name, found in reader.rows()]
                self.assertEqual(rows, [(name, Registration(Owner(1, serial))) for name, serial in sorted(writer.serials.items())])
                self.assertEqual((reader.state.limit, reader.state.latest), (writer.limit, writer.latest))


if __name__ == "__main__":
    unittest.main()
