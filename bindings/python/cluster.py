"""A cluster of four nodes, split into two parts of two, heals. Prints the owner of the name that each node has then."""

from heal import Owner, Registration
from heal.replica import Replica

one, two, four, five = (Replica(node, incarnation=1) for node in (1, 2, 4, 5))

# Each part has a primary and a backup, which follows the primary and applies its entries.
two.follow(one.snapshot())
five.follow(four.snapshot())
two.apply(one.register("db", Registration(Owner(1, 10))))
five.apply(four.register("db", Registration(Owner(4, 10))))

# The primaries meet. The backups know the number of the exchange before it begins.
a, b = one.side("a"), four.side("b")
two.apply(one.begin(1))
five.apply(four.begin(1))
before = one.state.at
of_a, of_b = a.begin(number=1, seed=7, uptime=0), b.begin(number=1, seed=7, uptime=0)
a.hear(of_b)
b.hear(of_a)
a.settle()
b.settle()
of_a, of_b = a.close_list(), b.close_list()
a.hear_list(of_b)
b.hear_list(of_a)
a.finish()
b.finish()

# One of them starts a view with the outcome, and all other nodes follow it.
one.change(before, a)
for replica in (two, four, five):
    replica.follow(one.snapshot())

for node, replica in ((1, one), (2, two), (4, four), (5, five)):
    owner = replica.whereis("db").owner
    print(f"node {node}: db {owner.node}.{owner.serial}")
