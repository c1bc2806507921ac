"""Tests of the package heal: python3 -m unittest, with the library built (../c/build.sh)."""

import array
import copy
import gc
import inspect
import os
import pickle
import struct
import threading
import time
import unittest

import heal as package
from heal import (
    Builtin,
    Clash,
    Ended,
    Facts,
    Notice,
    NoticeKind,
    Owner,
    Program,
    Refusal,
    Refused,
    Registration,
    Sandbox,
    Side,
    Verdict,
    record,
    refusal_words,
)

# The registration with the later stamp keeps the name, or the first if the stamps are equal.
LATER_STAMP = bytes.fromhex(
    "79123800000000007913600000000000b7000000010000003d32010000000000b7000000020000009500000000000000"
)
# Exits without an answer.
NO_ANSWER = bytes.fromhex("9500000000000000")


def bytes_of(name, first, second, word, of_first, of_second):
    """Returns the record of a clash by the layout of resolvers/record.h, without the library."""

    def of(registration):
        owner = registration.owner
        numbers = struct.pack("<IIQQ", owner.node, owner.serial, registration.stamp, registration.weight)
        return numbers + registration.extra

    facts = [it for half in (of_first, of_second) for it in (half.size, half.uptime)]
    return struct.pack("<II32sQ", len(name), 0, name, word) + of(first) + of(second) + struct.pack("<QQQQ", *facts)


class Programs(unittest.TestCase):
    FIRST = Registration(Owner(1, 10), stamp=5, weight=6, extra=bytes(range(16)))
    SECOND = Registration(Owner(2, 20), stamp=9)

    def test_record(self):
        terms = (b"db", self.FIRST, self.SECOND, 7, Facts(1, 2), Facts(3, 4))
        self.assertEqual(record(*terms), bytes_of(*terms))

    def test_judge(self):
        with Program(LATER_STAMP) as program:
            self.assertEqual(program.judge(record("db", self.FIRST, self.SECOND, 7, Facts(1, 2), Facts(3, 4))), Ended(2, 6))
            self.assertEqual(program.judge(record("db", self.SECOND, self.FIRST, 7, Facts(1, 2), Facts(3, 4))), Ended(1, 5))
            self.assertEqual(program.judge(bytes(160)), Ended(1, 5))

    def test_id_is_the_digest(self):
        import hashlib

        with Program(LATER_STAMP) as program:
            self.assertEqual(program.id, hashlib.sha256(LATER_STAMP).digest())

    def test_refusals(self):
        for code, number, slot in [
            (b"", 1, None),
            (bytes(1025 * 8), 2, None),
            (b"\x95", 3, None),
            (b"\xff" + bytes(7), 4, 0),
            (NO_ANSWER, 15, 0),
        ]:
            with self.subTest(number=number), self.assertRaises(Refused) as caught:
                Program(code)
            self.assertEqual((caught.exception.number, caught.exception.slot), (number, slot))

    def test_refusals_are_pickled(self):
        for made in Refused(91), Refused(15, 3):
            for read in pickle.loads(pickle.dumps(made)), copy.copy(made):
                with self.subTest(made=str(made)):
                    self.assertIs(type(read), Refused)
                    self.assertEqual((read.number, read.slot, read.words), (made.number, made.slot, made.words))
                    self.assertEqual(str(read), str(made))
        self.assertEqual(str(Refused(15, 3)), f"refused 15 at slot 3: {refusal_words(15)}")

    def test_buffers_of_any_item_size(self):
        numbers = array.array("H", struct.unpack(f"={len(LATER_STAMP) // 2}H", LATER_STAMP))
        rows = memoryview(LATER_STAMP).cast("B", [6, 8])
        every_other = memoryview(bytes(it for byte in LATER_STAMP for it in (byte, 0)))[::2]
        for code in (bytearray(LATER_STAMP), memoryview(LATER_STAMP).cast("I"), numbers, rows, every_other):
            with self.subTest(code=code), Program(code) as program, Side("a") as side:
                self.assertEqual(program.id, side.upload(code))
                self.assertEqual(program.judge(memoryview(bytes(160)).cast("Q")), Ended(1, 5))
        with self.assertRaises(ValueError):
            record("db", Registration(Owner(1, 1), extra=array.array("H", range(16))), self.SECOND, 0, Facts(0, 0), Facts(0, 0))

    def test_other_types_are_rejected(self):
        for code in ("95", None, [0x95], 8):
            with self.subTest(code=code), self.assertRaises(TypeError):
                Program(code)
        for name in (None, ["a"], 8):
            with self.subTest(name=name), Side("a") as side, self.assertRaises(TypeError):
                side.whereis(name)

    def test_objects_are_neither_copied_nor_pickled(self):
        with Program(LATER_STAMP) as program, Side("a") as side:
            for made in program, side:
                for copied in copy.copy, copy.deepcopy, pickle.dumps:
                    with self.subTest(made=made, copied=copied), self.assertRaisesRegex(TypeError, "copied or pickled"):
                        copied(made)
            self.assertEqual((program.judge(bytes(160)), side.rows()), (Ended(1, 5), []))

    def test_closed(self):
        program = Program(LATER_STAMP)
        program.close()
        program.close()
        with self.assertRaises(Refused) as caught:
            program.judge(bytes(160))
        self.assertEqual(str(caught.exception), "refused 91: an empty handle")

    def test_lengths(self):
        with Program(LATER_STAMP) as program, self.assertRaises(ValueError):
            program.judge(bytes(159))
        with self.assertRaises(ValueError):
            record("db", Registration(Owner(1, 1), extra=b"x"), self.SECOND, 0, Facts(0, 0), Facts(0, 0))
        for other in (Registration(Owner(1 << 32, 1)), Registration(Owner(1, 1), resolver=1 << 32)):
            with self.assertRaises(OverflowError):
                record("db", other, self.SECOND, 0, Facts(0, 0), Facts(0, 0))


class Sandboxes(unittest.TestCase):
    # r0 = *(u8 *)(r1 + 7); exit
    EIGHTH = bytes.fromhex("71100700000000009500000000000000")

    def test_runs_on_contexts_of_its_length(self):
        with Sandbox(self.EIGHTH, 8) as sandbox:
            self.assertEqual(sandbox.run(bytes(7) + b"\x2a"), Ended(42, 2))
            self.assertEqual(sandbox.run(bytes(8)), Ended(0, 2))
            for length in 0, 7, 9:
                with self.assertRaises(Refused) as caught:
                    sandbox.run(bytes(length))
                self.assertEqual(caught.exception.number, 93)

    def test_refusals(self):
        for length, number, slot in (7, 21, 0), (65536, 92, None):
            with self.assertRaises(Refused) as caught:
                Sandbox(self.EIGHTH, length)
            self.assertEqual((caught.exception.number, caught.exception.slot), (number, slot))

    def test_a_context_of_no_bytes(self):
        with Sandbox(bytes.fromhex("b7000000070000009500000000000000"), 0) as sandbox:
            self.assertEqual(sandbox.run(b""), Ended(7, 2))


class Types(unittest.TestCase):
    """What a type checker reads: every public function states its types."""

    def functions(self):
        for name in package.__all__:
            found = getattr(package, name)
            if inspect.isfunction(found):
                yield found
            elif inspect.isclass(found) and found.__module__ == "heal":
                for name, part in vars(found).items():
                    if name.startswith("__"):
                        continue
                    part = part.fget if isinstance(part, property) else part
                    if inspect.isfunction(part) and part.__module__ == "heal":
                        yield part

    def test_every_function_states_its_types(self):
        functions = list(self.functions())
        self.assertGreater(len(functions), 20)
        for function in functions:
            with self.subTest(function=function.__qualname__):
                stated = function.__annotations__
                names = [name for name in inspect.signature(function).parameters if name != "self"]
                self.assertEqual([name for name in [*names, "return"] if name not in stated], [])

    def test_the_package_is_typed(self):
        self.assertTrue(os.path.exists(os.path.join(os.path.dirname(package.__file__), "py.typed")))


class Words(unittest.TestCase):
    def test_names(self):
        self.assertIs(Refused(30).refusal, Refusal.NAME_TAKEN)
        self.assertIs(Refused(15, 3).refusal, Refusal.UNREADABLE)
        self.assertIsNone(Refused(1000).refusal)

    def test_words(self):
        self.assertEqual(refusal_words(43), "the store is full: 256 programs")
        self.assertEqual(refusal_words(1000), "unknown refusal")
        for number in -1, (1 << 32) + 43:
            with self.assertRaises(OverflowError):
                refusal_words(number)


class Versions(unittest.TestCase):
    def test_the_library_has_the_version_of_the_checkout(self):
        with open(os.path.join(os.path.dirname(os.path.abspath(__file__)), "..", "..", "VERSION"), encoding="utf-8") as file:
            self.assertEqual(".".join(map(str, package.version())), file.read().strip())


def split():
    """Returns two halves that registered `cache` and `db` while the link was down; B also has `web`."""
    halves = Side("a"), Side("b")
    for node, half in enumerate(halves, 1):
        later = half.upload(LATER_STAMP)
        half.register("cache", Registration(Owner(node, 1), stamp=100 * node))
        half.register("db", Registration(Owner(node, 2), stamp=100 * node, resolver=later))
    halves[1].register("web", Registration(Owner(2, 3), stamp=200, resolver=Builtin.NOTIFY))
    return halves


def heal(a, b, number, gone=()):
    """Heals two halves, of which A withdraws some names. Returns both outcomes."""
    offers = a.begin(number, seed=0, uptime=10), b.begin(number, seed=0, uptime=20)
    a.hear(offers[1])
    b.hear(offers[0])
    for half in (a, b):
        half.settle()
    for name in gone:
        a.withdraw(name)
    lists = a.close_list(), b.close_list()
    a.hear_list(lists[1])
    b.hear_list(lists[0])
    return a.finish(), b.finish()


class Sides(unittest.TestCase):
    def refused(self, number, call, *arguments):
        with self.assertRaises(Refused) as caught:
            call(*arguments)
        self.assertEqual(caught.exception.number, number)

    def test_heals(self):
        a, b = split()
        with a, b:
            first, second = heal(a, b, 1)
            self.assertEqual(first, second)
            self.assertEqual((first.number, first.merged, first.withdrawn), (1, 3, ((), ())))
            self.assertEqual(a.rows(), b.rows())
            self.assertEqual([name for name, _ in a.rows()], [b"cache", b"db", b"web"])
            self.assertEqual(a.whereis("db").owner, Owner(2, 2))
            self.check_clashes(first.clashes)

    def check_clashes(self, clashes):
        cache, db = clashes
        self.assertIsInstance(cache, Clash)
        self.assertEqual((cache.name, db.name), (b"cache", b"db"))
        # A built-in resolver follows the lowest bit of the word, and the loser exits.
        loser = Owner(1, 1) if cache.word % 2 else Owner(2, 1)
        self.assertEqual(cache.verdict, Verdict.SECOND if cache.word % 2 else Verdict.FIRST)
        self.assertEqual(cache.notices, (Notice(NoticeKind.EXIT, loser),))
        self.assertEqual((db.verdict, db.notices), (Verdict.SECOND, ()))
        self.assertEqual((db.first.owner, db.second.owner), (Owner(1, 2), Owner(2, 2)))

    def test_withdrawn(self):
        a, b = split()
        with a, b:
            a.register("mail", Registration(Owner(1, 3)))
            outcome, _ = heal(a, b, 1, gone=["mail"])
            self.assertEqual(outcome.withdrawn, ((b"mail",), ()))
            self.assertIsNone(a.whereis("mail"))
            self.assertEqual(a.rows(), b.rows())

    def test_a_withdrawn_winner_keeps_nothing(self):
        a, b = Side("a"), Side("b")
        with a, b:
            a.register("db", Registration(Owner(1, 1)))
            b.register("db", Registration(Owner(2, 1)))
            (clash,) = heal(a, b, 1, gone=["db"])[0].clashes
            # Word 0 is even, so `exit` chooses the first.
            self.assertEqual((clash.verdict, clash.keeps, clash.first_half), (Verdict.FIRST, Verdict.NEITHER, "a"))
            self.assertEqual((clash.notices, a.whereis("db"), b.whereis("db")), ((), None, None))
            b.register("db", clash.second)

    def test_the_half_of_the_first(self):
        """The lesser owner is the first, whichever half registered it."""
        lesser, greater = Registration(Owner(1, 9)), Registration(Owner(2, 1))
        for half, of_a, of_b in ("a", lesser, greater), ("b", greater, lesser):
            with self.subTest(half=half), Side("a") as a, Side("b") as b:
                a.register("db", of_a)
                b.register("db", of_b)
                (clash,) = heal(a, b, 1)[0].clashes
                self.assertEqual((clash.first_half, clash.first, clash.second), (half, lesser, greater))

    def test_notify_all(self):
        a, b = Side("a"), Side("b")
        with a, b:
            for node, half in enumerate((a, b), 1):
                half.register("news", Registration(Owner(node, 1), resolver=Builtin.NOTIFY_ALL))
            outcome, _ = heal(a, b, 1)
            (news,) = outcome.clashes
            self.assertEqual(news.verdict, Verdict.NEITHER)
            both = Owner(1, 1), Owner(2, 1)
            self.assertEqual(
                news.notices,
                (Notice(NoticeKind.CONFLICT_WITH, *both), Notice(NoticeKind.CONFLICT_WITH, *both[::-1])),
            )
            self.assertEqual(outcome.merged, 0)

    def test_refusals_change_nothing(self):
        a, b = split()
        with a, b:
            self.refused(30, a.register, "db", Registration(Owner(1, 9)))
            self.refused(31, a.unregister, "none")
            self.refused(41, a.register, "x", Registration(Owner(1, 9), resolver=bytes(32)))
            self.refused(44, a.register, "", Registration(Owner(1, 9)))
            self.refused(44, a.register, "a b", Registration(Owner(1, 9)))
            self.refused(34, a.settle)
            self.refused(34, a.abandon)
            self.refused(3, a.upload, b"\x95")
            self.assertEqual((len(a), a.events), (2, 2))
            a.unregister("db")
            self.assertEqual((len(a), a.events), (1, 3))

    def test_messages_are_checked(self):
        a, b = split()
        with a, b:
            offer_a, offer_b = a.begin(1, 0, 10), b.begin(1, 0, 20)
            self.refused(33, a.begin, 2, 0, 10)
            self.refused(70, a.hear, b"")
            self.refused(70, a.hear, offer_b[:-1])
            self.refused(72, a.hear, offer_b + b"\0")
            self.refused(71, a.hear, b"x" + offer_b[1:])
            self.refused(82, a.hear, offer_b[:6] + b"\2" + offer_b[7:])
            self.refused(46, a.hear, offer_a)
            self.refused(39, a.settle)
            a.hear(offer_b)
            a.hear(offer_b)
            self.refused(71, a.hear_list, offer_b)
            self.refused(31, a.withdraw, "none")
            self.refused(39, a.finish)
            a.abandon()
            b.abandon()
            self.refused(35, a.begin, 1, 0, 10)
            first, second = heal(a, b, 2)
            self.assertEqual(first, second)

    def test_programs_are_forgotten(self):
        with Side("a") as side:
            later, none = side.upload(LATER_STAMP), bytes(32)
            self.assertEqual(side.programs, [later])
            self.assertEqual(side.code(later), bytes(LATER_STAMP))
            self.refused(41, side.code, none)
            side.register("db", Registration(Owner(1, 1), resolver=later))
            self.refused(94, side.forget, later)
            self.refused(41, side.forget, none)
            side.unregister("db")
            side.forget(later)
            self.assertEqual(side.programs, [])
            self.refused(41, side.register, "db", Registration(Owner(1, 1), resolver=later))

    def test_a_side_says_what_it_knows(self):
        a, b = split()
        with a, b:
            self.assertEqual(a.state, package.State(None, None, False, False, False, package.Missing.NOTHING))
            a.begin(3, 0, 0)
            offer = b.begin(3, 0, 20)
            self.assertEqual(a.state, package.State(3, 3, False, False, False, package.Missing.OFFER))
            self.assertEqual(package.peek(offer[:25]), package.Head("b", 3, 0))
            a.hear(offer)
            self.assertEqual(a.state.missing, package.Missing.RULING)
            a.settle()
            a.close_list()
            self.assertEqual(a.state, package.State(3, 3, True, True, False, package.Missing.LIST))
            sent = b.close_list()
            self.assertEqual(b.state, package.State(3, 3, False, True, False, package.Missing.OFFER))
            self.assertEqual(package.peek(sent), package.Head("b", 3, None))
            self.refused(71, package.peek, bytes(25))
            a.hear_list(sent)
            a.finish()
            self.assertEqual((a.state.number, a.state.latest), (None, 3))

    def test_another_offer_of_the_number_is_refused(self):
        a, b = split()
        with a, b, Side("b") as other:
            a.begin(1, 0, 0)
            offer, another = b.begin(1, 0, 20), other.begin(1, 0, 20)
            a.hear(offer)
            a.hear(offer)
            self.refused(83, a.hear, another)

    def test_faults_have_their_place(self):
        a, b = split()
        with a, b:
            offer = b.begin(1, 0, 20)
            self.assertIsNone(package.offer_fault(offer))
            self.assertEqual(package.offer_fault(b""), package.Fault(70, byte=0))
            self.assertEqual(package.offer_fault(offer[:8] + b"\2" + offer[9:]), package.Fault(74, byte=8))
            self.assertEqual(package.list_fault(offer), package.Fault(71, byte=0))
            # `exit` becomes a copy, after which nothing comes. Row 1 has the code.
            fault = package.offer_fault(offer.replace(bytes.fromhex("9500000000000000"), bytes.fromhex("bf12000000000000")))
            self.assertEqual((fault.number, fault.item, fault.byte), (81, 1, None))
            self.assertEqual((fault.code.number, fault.code.slot), (13, 5))
            self.assertIsNone(package.list_fault(b.close_list()))

    def test_withdrawn_names_are_listed(self):
        a, b = split()
        with a, b:
            self.assertEqual(b.withdrawn, [])
            b.begin(1, 0, 20)
            b.withdraw("web")
            b.withdraw("cache")
            self.assertEqual(b.withdrawn, [b"web", b"cache"])
            self.assertEqual([name for name, _ in b.live_rows()], [b"db"])
            self.assertEqual([name for name, _ in b.rows()], [b"cache", b"db", b"web"])

    def test_a_side_has_the_names_of_its_limit(self):
        registration = Registration(Owner(1, 10))
        side = Side("a", 2)
        side.register(b"x", registration)
        side.register(b"y", registration)
        self.refused(32, side.register, b"z", registration)
        for names in (0, -1, 1_048_577, 1 << 64):
            self.refused(92, Side, "a", names)
        Side("a", 1_048_576).close()

    def test_renewed(self):
        with Side("a") as side:
            for _ in range(50):
                side.register("db", Registration(Owner(1, 1)))
                side.unregister("db")
            side.begin(5, 0, 0)
            self.refused(33, side.renew)
            side.abandon()
            side.register("db", Registration(Owner(1, 1)))
            self.assertEqual(side.events, 103)
            side.renew()
            self.assertLessEqual(side.events, 3)
            self.assertEqual(side.whereis("db").owner, Owner(1, 1))
            self.refused(35, side.begin, 5, 0, 0)
            side.begin(6, 0, 0)

    def test_given_up(self):
        with Side("a") as side:
            side.register("db", Registration(Owner(1, 1)))
            side.register("web", Registration(Owner(1, 2)))
            side.begin(5, 0, 0)
            side.withdraw("db")
            side.give_up()
            self.refused(34, side.abandon)
            self.assertEqual(([name for name, _ in side.rows()], side.events), ([b"web"], 3))
            side.give_up()
            self.refused(35, side.begin, 5, 0, 0)

    def test_freed_with_the_object(self):
        closed = []

        class Watched(Side):
            def close(self):
                super().close()
                closed.append(self._handle.at)

        for _ in range(1000):
            Watched("a").register("db", Registration(Owner(1, 1)))
        gc.collect()
        self.assertEqual(closed, [None] * 1000)

    def test_closed(self):
        side = Side("b")
        side.close()
        self.refused(91, len, side)
        with self.assertRaises(ValueError):
            Side("c")

    def test_a_side_without_names_is_true(self):
        with Side("a") as side:
            self.assertTrue(side)
            self.assertEqual(len(side), 0)


def run_threads(count, work):
    """Runs `work(i)` in each of this many threads. Returns what they raised."""
    raised = []

    def guarded(i):
        try:
            work(i)
        except Exception as error:
            raised.append(error)

    threads = [threading.Thread(target=guarded, args=[i]) for i in range(count)]
    for thread in threads:
        thread.start()
    for thread in threads:
        thread.join()
    return raised


class Threads(unittest.TestCase):
    SECONDS = 1.0
    NAMES = [f"name{i}" for i in range(50)]

    def setUp(self):
        self.side = Side("a")
        for i, name in enumerate(self.NAMES):
            self.side.register(name, Registration(Owner(1, i)))

    def tearDown(self):
        self.side.close()

    def use_side(self, i):
        """Thread 0 edits names of its own and renews the journal, thread 1 lists, and the others look names up."""
        end = time.monotonic() + self.SECONDS
        while time.monotonic() < end:
            if i == 0:
                self.side.register("own", Registration(Owner(1, 1000)))
                self.side.unregister("own")
                self.side.renew()
            elif i == 1:
                self.assertIn(len(self.side.rows()), (50, 51))
            else:
                for serial, name in enumerate(self.NAMES):
                    self.assertEqual(self.side.whereis(name).owner, Owner(1, serial))

    def test_eight_threads_share_a_side(self):
        self.assertEqual(run_threads(8, self.use_side), [])
        self.assertEqual([name for name, _ in self.side.rows()], sorted(name.encode() for name in self.NAMES))

    def test_eight_threads_share_a_program(self):
        with Program(LATER_STAMP) as program:

            def judge(_):
                end = time.monotonic() + self.SECONDS / 2
                while time.monotonic() < end:
                    self.assertEqual(program.judge(bytes(160)), Ended(1, 5))

            self.assertEqual(run_threads(8, judge), [])

    def test_a_side_is_closed_during_calls(self):
        """Until `close` begins, each call succeeds; once it has returned, each is refused."""
        looking = threading.Barrier(8)
        closing, closed = threading.Event(), threading.Event()

        def close():
            try:
                for _ in range(20):
                    self.side.whereis("name1")
                closing.set()
                self.side.close()
            finally:
                closed.set()

        def look_up(i):
            looking.wait()
            if i == 0:
                close()
            while True:
                was_closed = closed.is_set()
                try:
                    self.side.whereis("name1")
                except Refused as refused:
                    self.assertEqual((refused.number, closing.is_set()), (91, True))
                    return
                self.assertFalse(was_closed)

        for _ in range(50):
            closing.clear()
            closed.clear()
            self.assertEqual(run_threads(8, look_up), [])
            self.setUp()


if __name__ == "__main__":
    unittest.main()
