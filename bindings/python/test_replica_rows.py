"""Tests of replicas: views, entries and snapshots row by row, an exchange between two primaries, and random histories of five replicas
against a plain dictionary."""

import random
import unittest

from heal import Owner, Program, Refused, Registration, peek
from heal.replica import Life, Position, Replica, ReplicaState

FIRST = bytes.fromhex("b7000000010000009500000000000000")
LETTERS = "abcdef"


def owned(serial):
    """A registration that differs from others by its serial number."""
    return Registration(Owner(1, serial))


def at(node, view, op, incarnation=1):
    return Position(Life(node, incarnation), view, op)


def refusal(call, *arguments):
    """The number of a call's refusal, or 0 if there is none."""
    try:
        call(*arguments)
    except Refused as refused:
        return refused.number
    return 0


def serials(replica, letters):
    """The serial number of each letter, or 0 where it isn't registered."""
    found = [replica.whereis(letter) for letter in letters]
    return [it.owner.serial if it else 0 for it in found]


def pair(first, second):
    """A new replica of a node, and one that follows it."""
    primary, backup = Replica(first, 1), Replica(second, 1)
    backup.follow(primary.snapshot())
    return primary, backup


class Views(unittest.TestCase):
    def test_starts_as_the_primary_of_its_first_view(self):
        replica = Replica(1, 1)
        self.assertEqual((replica.state.at, replica.state.is_primary), (at(1, 1, 0), True))
        replica.register("a", owned(7))
        self.assertEqual(replica.state.at, at(1, 1, 1))
        replica.lead()
        self.assertEqual((replica.state.at, serials(replica, "a")), (at(1, 2, 0), [7]))

    def test_a_state_and_a_position_have_each_field(self):
        with Replica(3, 7) as primary:
            primary.lead()
            primary.register("a", owned(1))
            primary.begin(5)
            self.assertEqual(primary.state, ReplicaState(at(3, 2, 2, 7), 1, 4096, 5, True))
            for which in "ab":
                with primary.side(which) as side:
                    self.assertEqual(peek(side.begin(6, 0, 0)).side, which)
            with primary.side("b") as side:
                others = at(4, 2, 2, 7), at(3, 1, 2, 7), at(3, 2, 1, 7), at(3, 2, 2, 8)
                self.assertEqual([refusal(primary.change, it, side) for it in others], [49] * 4)
                primary.change(at(3, 2, 2, 7), side)

    def test_backups_refuse_what_is_not_next(self):
        primary, backup = pair(1, 2)
        first, second, third = primary.register("a", owned(1)), primary.register("b", owned(2)), primary.unregister("a")
        strange = Replica(3, 1).register("a", owned(9))
        self.assertEqual(refusal(backup.register, "c", owned(3)), 95)
        backup.apply(first)
        self.assertEqual(backup.state.at, at(1, 1, 1))
        backup.apply(first)
        self.assertEqual(backup.state.at, at(1, 1, 1))
        self.assertEqual([refusal(backup.apply, it) for it in (strange, third, second)], [96, 97, 0])
        self.assertEqual(backup.state.at, at(1, 1, 2))

    def test_refused_edits_make_no_entry(self):
        replica = Replica(1, 1)
        replica.register("a", owned(1))
        refusals = [
            refusal(replica.register, "a", owned(2)),
            refusal(replica.unregister, "b"),
            refusal(replica.register, "b", Registration(Owner(1, 1), resolver=bytes([7] * 32))),
        ]
        self.assertEqual((refusals, replica.state.at, serials(replica, "a")), ([30, 31, 41], at(1, 1, 1), [1]))

    def test_no_position_gets_two_edits(self):
        """A primary gets its own old snapshot back, and then follows that of a view that it started before."""
        primary = Replica(1, 1)
        old = primary.snapshot()
        primary.register("a", owned(1))
        back = refusal(primary.follow, old)
        primary.lead()
        older = refusal(primary.follow, old)
        edited = refusal(primary.register, "b", owned(2))
        self.assertEqual(([back, older, edited], primary.state.at), ([98, 0, 95], at(1, 1, 0)))

    def test_a_backup_goes_on_where_its_primary_is_lost(self):
        primary, backup = pair(1, 2)
        for entry in (primary.register("a", owned(1)), primary.register("b", owned(2)), primary.unregister("a")):
            backup.apply(entry)
        backup.lead()
        # The node of the primary restarts with a life that it never had.
        restarted = Replica(1, 2)
        restarted.follow(backup.snapshot())
        restarted.apply(backup.register("c", owned(3)))
        self.assertEqual((restarted.state.at, serials(restarted, "abc")), (at(2, 2, 1), [0, 2, 3]))

    def test_uploads_reach_backups(self):
        primary, backup = pair(1, 2)
        program = Program(FIRST)
        named = Registration(Owner(1, 5), resolver=program.id)
        backup.apply(primary.upload(program))
        backup.lead()
        backup.register("p", named)
        self.assertEqual((backup.whereis("p"), primary.whereis("p")), (named, None))

    def test_backups_have_the_limit_and_the_number(self):
        primary, backup = pair(1, 2)
        for entry in (primary.set_limit(2), primary.register("a", owned(1)), primary.register("b", owned(2))):
            backup.apply(entry)
        refused = [refusal(primary.register, "c", owned(3)), refusal(primary.set_limit, 1)]
        backup.apply(primary.begin(4))
        refused += [refusal(primary.begin, 4), refusal(primary.begin, 3)]
        # The backup goes on as a primary with the limit and the number.
        backup.lead()
        refused += [refusal(backup.register, "c", owned(3)), refusal(backup.begin, 4)]
        self.assertEqual((refused, backup.state.limit, backup.state.latest), ([32, 32, 35, 35, 32, 35], 2, 4))


def exchange(number, one, two):
    """Carries out an exchange between two sides."""
    offers = [side.begin(number, 0, 0) for side in (one, two)]
    for side, offer in zip((one, two), reversed(offers)):
        side.hear(offer)
        side.settle()
    lists = [side.close_list() for side in (one, two)]
    for side, sent in zip((one, two), reversed(lists)):
        side.hear_list(sent)
        side.finish()


class Exchanges(unittest.TestCase):
    def test_all_nodes_hold_the_merge(self):
        """Each of four nodes in two parts registers what its primary does; then the primaries heal the split, and the nodes of both
        parts follow the first."""
        (one, two), (three, four) = pair(1, 2), pair(3, 4)
        for primary, backup, letter, serial in ((one, two, "a", 1), (three, four, "b", 2)):
            backup.apply(primary.register(letter, owned(serial)))
            backup.apply(primary.register("c", owned(3)))
        sides = one.side("a"), three.side("b")
        for primary, backup in ((one, two), (three, four)):
            backup.apply(primary.begin(8))
        before = one.state.at
        exchange(8, *sides)
        one.change(before, sides[0])
        for other in (two, three, four):
            other.follow(one.snapshot())
        self.assertEqual([serials(it, "abc") for it in (one, two, three, four)], [[1, 2, 3]] * 4)

    def test_the_latest_number_is_kept(self):
        replica = Replica(1, 1)
        side = replica.side("a")
        replica.begin(5)
        before = replica.state.at
        side.begin(5, 0, 0)
        side.abandon()
        replica.change(before, side)
        again = replica.side("a")
        self.assertEqual((refusal(again.begin, 5, 0, 0), refusal(again.begin, 6, 0, 0)), (35, 0))

    def test_a_side_with_a_lower_number_doesnt_lower_it(self):
        replica = Replica(1, 1)
        side = replica.side("a")
        replica.begin(5)
        replica.change(replica.state.at, side)
        self.assertEqual((side.state.latest, replica.state.latest), (None, 5))
        side.begin(7, 0, 0)
        side.abandon()
        replica.change(replica.state.at, side)
        self.assertEqual(replica.state.latest, 7)

    def test_a_change_loses_no_edit(self):
        replica = Replica(1, 1)
        before = replica.state.at
        side = replica.side("a")
        replica.register("a", owned(7))
        self.assertEqual((refusal(replica.change, before, side), serials(replica, "a")), (49, [7]))


class Cluster:
    """Five replicas, the messages under way, and the rows of each position that was reached."""

    MOST_KEPT = 40

    def __init__(self, test, seed):
        self.test, self.chance = test, random.Random(seed)
        self.lives = [Life(node, 1) for node in range(5)]
        self.replicas = [Replica(node, 1) for node in range(5)]
        self.entries, self.snapshots, self.counts = [], [], dict.fromkeys(("edit", "refused", "follow", "apply", "lead", "start"), 0)
        self.rows = {it.state.at: [0] * 6 for it in self.replicas}

    def step(self):
        """Makes one random call of one random replica, and compares its rows with those of its position."""
        node, kind = self.chance.randrange(5), self.chance.randrange(10)
        calls = {4: self.show, 5: self.follow, 6: self.lead, 7: self.restart}
        rare = {5: 3, 6: 12, 7: 20}
        if kind < 4:
            self.edit(node)
        elif kind in calls and self.chance.randrange(rare.get(kind, 1)) == 0:
            calls[kind](node)
        else:
            self.apply(node)
        replica = self.replicas[node]
        self.test.assertEqual(serials(replica, LETTERS), self.rows[replica.state.at])

    def reach(self, position, rows):
        """Notes that a position is reached, which happens once."""
        self.test.assertNotIn(position, self.rows)
        self.rows[position] = rows

    def keep(self, kept, message):
        """Keeps a message under way, or loses another one for it."""
        if len(kept) < self.MOST_KEPT:
            kept.append(message)
        else:
            kept[self.chance.randrange(self.MOST_KEPT)] = message

    def edit(self, node):
        replica, place = self.replicas[node], self.chance.randrange(6)
        serial = 0 if self.chance.randrange(3) == 0 else self.chance.randrange(1000) + 1
        rows = serials(replica, LETTERS)
        due = 95 if not replica.state.is_primary else 31 if serial == rows[place] == 0 else 30 if serial and rows[place] else 0
        made = []

        def call():
            made.append(replica.register(LETTERS[place], owned(serial)) if serial else replica.unregister(LETTERS[place]))

        self.test.assertEqual(refusal(call), due)
        self.counts["edit" if due == 0 else "refused"] += 1
        if due == 0:
            rows[place] = serial
            self.keep(self.entries, (replica.state.at, made[0]))
            self.reach(replica.state.at, rows)

    def show(self, node):
        replica = self.replicas[node]
        self.keep(self.snapshots, (replica.state.at, replica.snapshot()))

    def follow(self, node):
        if not self.snapshots:
            return
        position, message = self.chance.choice(self.snapshots)
        own = Position(self.lives[node], self.views_of(node), position.op)
        due = 98 if position == own else 0
        self.test.assertEqual(refusal(self.replicas[node].follow, message), due)
        self.counts["follow"] += due == 0

    def views_of(self, node):
        """The greatest view that this life of the node started."""
        return max(it.view for it in self.rows if it.primary == self.lives[node])

    def apply(self, node):
        if not self.entries:
            return
        replica = self.replicas[node]
        now = replica.state.at
        following = [it for it in self.entries if it[0].view == now.view and it[0].primary == now.primary and it[0].op == now.op + 1]
        position, message = following[0] if following and self.chance.randrange(4) else self.chance.choice(self.entries)
        same_view = (position.primary, position.view) == (now.primary, now.view)
        due = 96 if not same_view else 97 if position.op > now.op + 1 else 0
        self.test.assertEqual(refusal(replica.apply, message), due)
        self.counts["apply"] += replica.state.at != now

    def lead(self, node):
        rows = serials(self.replicas[node], LETTERS)
        self.replicas[node].lead()
        self.counts["lead"] += 1
        self.reach(self.replicas[node].state.at, rows)

    def restart(self, node):
        """Starts a new life of the node, with an empty table."""
        self.lives[node] = Life(node, 1 + max(it.primary.incarnation for it in self.rows))
        self.replicas[node].close()
        self.replicas[node] = Replica(node, self.lives[node].incarnation)
        self.counts["start"] += 1
        self.reach(self.replicas[node].state.at, [0] * 6)


class Histories(unittest.TestCase):
    def test_replicas_have_the_rows_of_their_positions(self):
        for seed in (1, 2, 3, random.randrange(1 << 32)):
            with self.subTest(seed=seed):
                cluster = Cluster(self, seed)
                for _ in range(4000):
                    cluster.step()
                # Each kind of call happened.
                self.assertGreaterEqual(min(cluster.counts.values()), 10, cluster.counts)
