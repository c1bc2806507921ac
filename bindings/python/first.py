"""Two halves that registered one name for different owners heal their split."""

from heal import Owner, Registration, Side

a, b = Side("a"), Side("b")
a.register("db", Registration(Owner(1, 10)))
b.register("db", Registration(Owner(2, 20)))

of_a, of_b = a.begin(number=1, seed=7, uptime=0), b.begin(number=1, seed=7, uptime=0)
a.hear(of_b)
b.hear(of_a)
a.settle()
b.settle()
of_a, of_b = a.close_list(), b.close_list()
a.hear_list(of_b)
b.hear_list(of_a)
a.finish()
b.finish()

for side in (a, b):
    owner = side.whereis("db").owner
    print(f"db {owner.node}.{owner.serial}")
