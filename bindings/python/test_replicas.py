"""Tests of replicas: entries, snapshots and logs, and random histories against a plain dictionary."""

import random
import time
import unittest

from heal import Owner, Program, Refused, Registration, Sandbox, Side, refusal_words
from heal.replica import Kind, Life, LogFront, Replica, log_front, messages

FIRST = bytes.fromhex("b7000000010000009500000000000000")


def owned(serial):
    return Registration(Owner(1, serial))


class Replicas(unittest.TestCase):
    def refused(self, number, call, *arguments):
        with self.assertRaises(Refused) as caught:
            call(*arguments)
        self.assertEqual(caught.exception.number, number)

    def test_a_backup_follows_and_leads(self):
        with Replica(1, 1) as primary, Replica(2, 1) as backup:
            backup.follow(primary.snapshot())
            entries = [primary.upload(Program(FIRST)), primary.register("db", owned(1)), primary.begin(9)]
            self.refused(95, backup.register, "db", owned(1))
            self.refused(97, backup.apply, entries[1])
            for entry in [entries[0], *entries, entries[1]]:
                backup.apply(entry)
            self.assertEqual(backup.state.at, primary.state.at)
            self.assertEqual(backup.rows(), [(b"db", primary.whereis("db"))])
            self.assertEqual((backup.state.latest, backup.state.is_primary, primary.state.is_primary), (9, False, True))
            self.refused(98, primary.follow, primary.snapshot())
            backup.lead()
            self.assertEqual(backup.state.at.primary, Life(2, 1))
            backup.unregister("db")
            self.assertIsNone(backup.whereis("db"))
            self.refused(35, backup.begin, 9)
            self.refused(92, backup.set_limit, 0)

    def test_a_log_is_read_to_its_last_whole_entry(self):
        with Replica(1, 1) as primary:
            log = primary.snapshot() + b"".join(primary.register(f"n{i}", owned(i)) for i in range(5))
            self.assertEqual(log_front(b""), LogFront(Kind.END, 0))
            for missing in (0, 1, 40):
                with Replica(1, 2) as again:
                    for kind, message in messages(log[: len(log) - missing]):
                        (again.follow if kind is Kind.SNAPSHOT else again.apply)(message)
                    self.assertEqual(len(again.rows()), 5 if missing == 0 else 4)
            whole = [message for _, message in messages(log)]
            at = len(whole[0]) + len(whole[1])
            for place in range(8, 24):
                changed = log[: at + place] + bytes([log[at + place] ^ 0x80]) + log[at + place + 1 :]
                self.refused(84, list, messages(changed))
            last = whole[-1]
            changed = last[:-1] + bytes([last[-1] ^ 1])
            with Replica(1, 3) as other:
                self.refused(84, other.apply, changed)

    def test_a_long_log_is_read_in_linear_time(self):
        """Reading 20,000 messages takes 0.1 s; with a copy of the rest of the log for each it took 6 s."""
        with Replica(1, 1) as primary:
            log = primary.snapshot() + primary.register("db", owned(1)) * 20_000
        begun = time.process_time()
        self.assertEqual(sum(1 for _ in messages(log)), 20_001)
        self.assertLess(time.process_time() - begun, 2)

    def test_a_log_is_any_buffer_and_nothing_else(self):
        with Replica(1, 1) as primary:
            log = primary.snapshot()
        twice = bytes(it for byte in log for it in (byte, 0))
        for buffer in bytearray(log), memoryview(log * 4).cast("I"), memoryview(twice)[::2]:
            self.assertEqual(next(messages(buffer)), (Kind.SNAPSHOT, log))
        for other in 5, None, "log":
            with self.assertRaises(TypeError):
                next(messages(other))

    def test_a_front_needs_a_whole_header(self):
        """A header of 8 bytes, and 24 with the length and the checksum: fewer are a cut."""
        with Replica(1, 1) as primary:
            entry = primary.begin(1)
        other, longer = entry[:6] + b"\2" + entry[7:], entry[:15] + b"\1" + entry[16:]
        for changed, needed, number in (b"X" * 24, 8, 71), (other, 8, 82), (longer, 24, 84):
            self.assertEqual(log_front(changed[: needed - 1]), LogFront(Kind.CUT, 0))
            self.refused(number, log_front, changed[:needed])

    def test_an_object_of_another_type_is_rejected(self):
        with Replica(1, 1) as primary, Replica(2, 1) as other, Side("a") as side, Program(FIRST) as program, Sandbox(FIRST, 8) as sandbox:
            at = primary.state.at
            for made in other, side, sandbox, None:
                with self.subTest(uploaded=made), self.assertRaises(TypeError):
                    primary.upload(made)
            for made in other, program, sandbox, None:
                with self.subTest(changed=made), self.assertRaises(TypeError):
                    primary.change(at, made)
            self.assertEqual(primary.state.at, at)

    def test_an_exchange_of_two_primaries(self):
        with Replica(1, 1) as one, Replica(2, 1) as two:
            one.register("db", owned(1))
            two.register("db", owned(2))
            sides = one.side("a"), two.side("b")
            for primary in (one, two):
                primary.begin(3)
            at = one.state.at
            offers = [side.begin(3, 0, 0) for side in sides]
            for side, offer in zip(sides, reversed(offers)):
                side.hear(offer)
                side.settle()
            lists = [side.close_list() for side in sides]
            for side, sent in zip(sides, reversed(lists)):
                side.hear_list(sent)
                side.finish()
            one.change(at, sides[0])
            two.follow(one.snapshot())
            self.assertEqual(one.rows(), two.rows())
            self.assertEqual(one.state.at, two.state.at)
            self.refused(49, one.change, at, sides[0])
            for side in sides:
                side.close()

    def test_random_histories(self):
        seed = random.randrange(1 << 32)
        chance = random.Random(seed)
        with self.subTest(seed=seed):
            replicas = [Replica(node, 1) for node in range(3)]
            primary, view, names = replicas[0], [], {}
            view.append(primary.snapshot())
            for serial in range(400):
                name = f"n{chance.randrange(30)}"
                if name in names:
                    view.append(primary.unregister(name))
                    del names[name]
                else:
                    view.append(primary.register(name, owned(serial)))
                    names[name] = serial
                if chance.random() < 0.05:
                    primary = self.caught_up(chance.choice(replicas), primary, view, chance)
                    primary.lead()
                    view = [primary.snapshot()]
            for replica in replicas:
                self.caught_up(replica, primary, view, chance)
                rows = [(name.decode(), found.owner.serial) for name, found in replica.rows()]
                self.assertEqual(rows, sorted(names.items()))
                replica.close()

    def caught_up(self, replica, primary, view, chance):
        """Delivers the primary's messages, some of them again and in another order, until none is missing."""
        if replica is primary:
            return replica
        while True:
            try:
                replica.apply(view[-1]) if len(view) > 1 else replica.follow(view[0])
                return replica
            except Refused as refused:
                self.assertIn(refused.number, (96, 97))
                if refused.number == 96:
                    replica.follow(view[0])
                for entry in chance.sample(view[1:], len(view) - 1) + view[1:]:
                    try:
                        replica.apply(entry)
                    except Refused as gap:
                        self.assertEqual(gap.number, 97)

    def test_the_words_of_a_changed_message(self):
        self.assertIn("checksum", refusal_words(84))
