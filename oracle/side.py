"""One half's side of exchanges: what each call returns, refuses and changes.

Follows docs/EMBEDDING.md, docs/MESSAGES.md and bindings/c/heal.h (events, and the order of refusals).
"""

import messages
import registry
from machine import refuse


class Exchange:
    """An open exchange."""

    def __init__(self, number, seed, uptime):
        self.number, self.seed, self.uptime = number, seed, uptime
        self.offer = None                      # the other side's, once it is heard
        self.answers = None                    # each clash with its word and its answer, once they are judged
        self.withdrawn, self.closed = [], False
        self.listed = None                     # the other side's withdrawn names, once they are heard


class Side(registry.Half):
    def __init__(self, side, *half):
        super().__init__(*half)
        self.side, self.most_events = side, 16 * self.limit
        self.events, self.exchange = 0, None

    def faults(self, *numbers):
        """These refusals for what the side is: each number with whether its cause holds."""
        exchange = self.exchange
        causes = {33: exchange, 34: not exchange, 39: exchange and not exchange.offer,
                  40: self.events == self.most_events, 48: exchange and exchange.closed}
        return [(number, causes[number]) for number in numbers]

    def names_program(self, digest):
        return any(r.resolver == digest for r in self.rows.values())

    def forget(self, digest):
        refuse((94, self.names_program(digest)))
        refuse((41, digest not in self.store))
        del self.store[digest]

    def code(self, digest):
        refuse((41, digest not in self.store and not self.names_program(digest)))
        return {**self.codes, **self.store}[digest]

    def register(self, name, registration):
        super().register(name, registration, *self.faults(33, 40))
        self.events += 1

    def unregister(self, name):
        super().unregister(name, *self.faults(33, 40))
        self.events += 1

    def live(self):
        """The rows without the withdrawn ones."""
        withdrawn = self.exchange.withdrawn if self.exchange else []
        return [row for row in self.sorted() if row[0] not in withdrawn]

    def begin(self, number, seed, uptime):
        super().begin(number, *self.faults(33, 40))
        self.exchange = Exchange(number, seed, uptime)
        self.events += 1
        return messages.encode_offer(messages.Offer(self.side, number, seed, uptime, self.sorted(), self.codes))

    def head(self, data):
        """Refuses a message by its head alone."""
        side, number = messages.decode_head(data)
        refuse(*self.faults(34))
        is_other, is_own = number != self.exchange.number, side == self.side
        if is_other or is_own:
            refuse((45, is_other), (46, is_own), *self.faults(40))

    def hear(self, data):
        self.head(data)
        offer, exchange = messages.decode_offer(data), self.exchange
        is_first, names = not exchange.offer, self.rows.keys() | dict(offer.rows).keys()
        refuse((83, not is_first and offer != exchange.offer))
        refuse((36, is_first and offer.seed != exchange.seed), (37, is_first and len(names) > self.limit), *self.faults(40))
        exchange.offer = offer
        self.events += 1

    def both(self, mine, other):
        """What is mine and what is the other's, A's first."""
        return (mine, other) if self.side == 0 else (other, mine)

    def tables(self):
        return self.both(self.rows, dict(self.exchange.offer.rows))

    def clashes(self):
        return registry.clashes(*self.tables(), *self.both(self.exchange.uptime, self.exchange.offer.uptime))

    def settle(self):
        refuse(*self.faults(34, 39))
        exchange = self.exchange
        if exchange.answers is not None:
            return
        found = self.clashes()
        refuse((40, self.events + len(found) > self.most_events))
        exchange.answers = registry.judged(found, exchange.seed, {**self.codes, **exchange.offer.programs})
        self.events += len(found)

    def withdraw(self, name):
        exchange = self.exchange
        refuse((31, name not in self.rows), (47, exchange and name in exchange.withdrawn), *self.faults(34, 40, 48))
        exchange.withdrawn.append(name)
        self.events += 1

    def close_list(self):
        refuse(*self.faults(34, 40, 48))
        self.exchange.closed = True
        self.events += 1
        return messages.encode_withdrawals(messages.Withdrawals(self.side, self.exchange.number, self.exchange.withdrawn))

    def hear_list(self, data):
        self.head(data)
        names = messages.decode_withdrawals(data).names
        refuse((83, self.exchange.listed not in (None, names)))
        refuse(*self.faults(40))
        self.exchange.listed = names
        self.events += 1

    def missing(self):
        """The first thing that an open exchange lacks, as `missing` of heal_side_state, or 0."""
        exchange = self.exchange
        if not exchange:
            return 0
        is_unjudged = exchange.offer and exchange.answers is None and self.clashes()
        lacks = [(1, not exchange.offer), (2, is_unjudged), (3, not exchange.closed), (4, exchange.listed is None)]
        return next((kind for kind, is_missing in lacks if is_missing), 0)

    def finish(self):
        """Merges. Returns each clash with its word and its answer."""
        refuse((39, self.missing()), *self.faults(34, 40))
        exchange, answers = self.exchange, self.exchange.answers or []
        self.rows = registry.merge(*self.tables(), answers, self.both(exchange.withdrawn, exchange.listed))
        self.codes.update(exchange.offer.programs)
        self.exchange = None
        self.events += 1
        return answers

    def close(self):
        """Closes the exchange and keeps the table, without the withdrawn names."""
        for name in self.exchange.withdrawn:
            del self.rows[name]
        self.exchange = None

    def abandon(self):
        refuse(*self.faults(34, 40))
        self.close()
        self.events += 1

    def renew(self):
        refuse(*self.faults(33))
        self.events = None                     # as many as names, and at most two more

    def give_up(self):
        if self.exchange:
            self.close()
        self.events = None
