"""A player, who makes calls that mostly make sense.

A player keeps in mind, loosely, what a catalogue would know: which transactions are open, offered or decided,
where they are engaged and what waits at the nodes. Of clocks it knows the highest slot alone, and of places
nothing. That is enough for most calls to be accepted; what it gets wrong makes the tapes richer.
"""

from records import (APPLY, BEGIN, CANCEL, DECIDE, FINISH, LEARN, LONGEST_TAPE, MAKE, OFFER, PREPARE, READ, WRITE,
                     bad_record, record, some_value, write_record)


def bits(mask):
    """The numbers of the bits that are set."""
    return [bit for bit in range(8) if mask >> bit & 1]


class Transaction:
    """What the player believes of a transaction."""

    def __init__(self, number, search):
        self.number = number
        self.search = search
        self.state = "open"
        self.noted = {}         # key: writer
        self.written = set()
        self.polled = 0         # sets of nodes, a bit for each
        self.write_nodes = 0
        self.voted = 0
        self.engaged = 0
        self.learned = 0
        self.refused = False
        self.numbers = [0] * 8
        self.base = 0           # the highest slot of its base
        self.stamp = 0
        self.calls = 0          # reads and writes so far
        self.enough = 0         # after how many of them it goes on


class Node:
    """What the player believes of a node."""

    def __init__(self, held):
        self.held = held        # the keys that it holds
        self.counter = 0
        self.seen = 0           # the highest slot of its seen clock
        self.engaged = []
        self.newest = {}        # key: writer


class Habits:
    """How a player plays. Weights say how often it tries each kind of call."""

    def __init__(self, **changes):
        self.records = 60           # at most this many records
        self.most_bytes = LONGEST_TAPE
        self.live = 5               # transactions at work at a time
        self.wrong = 0.05           # how often a call is meant to be refused
        self.bad = 0.01             # how often a record is no call
        self.searches = 0.3         # the share of searches
        self.pool = 64              # how many of the keys are used
        self.calls = (1, 6)         # reads and writes of a transaction
        self.writes = 0.5           # the share of writes among them
        self.blind = 0.05           # how often a prepare is made that looks busy, or an apply that looks idle
        self.careful = 0.9          # how often a key is not written that four updates have written
        self.reads_of_bursts = (0, 3)
        self.writes_of_bursts = (1, 3)
        self.late = 0               # how often a burst ends with the offer
        self.lag = 0.2              # how often a node that settles leaves an update for later
        self.weights = dict(begin=4, call=14, offer=6, prepare=14, decide=6, cancel=0.5, learn=12, apply=10, finish=2,
                            burst=0, settle=0)
        for name, value in changes.items():
            if name == "weights":
                self.weights.update(value)
            else:
                setattr(self, name, value)


class Player:
    """Plays a catalogue of these nodes and this placement, and writes the calls down."""

    def __init__(self, rng, nodes, placement, habits):
        self.rng = rng
        self.habits = habits
        self.placement = placement
        self.nodes = [Node([key for key, mask in enumerate(placement) if mask >> node & 1]) for node in range(nodes)]
        self.pool = rng.sample(range(len(placement)), min(habits.pool, len(placement)))
        self.stuck = 0          # how many steps in a row made no sense
        self.transactions = []
        self.open = []
        self.offered = []
        self.decided = []       # and not learned everywhere
        self.writers = [0] * len(placement)     # how many updates have written each key and are not aborted
        self.records = [record(MAKE, nodes, len(placement), *placement)]
        self.size = len(self.records[0])
        self.names = list(habits.weights)
        self.cumulative = []
        total = 0
        for name in self.names:
            total += habits.weights[name]
            self.cumulative.append(total)

    def emit(self, *fields):
        self.add(record(*fields))

    def add(self, bytes_of_record):
        self.records.append(bytes_of_record)
        self.size += len(bytes_of_record)

    def play(self):
        """Plays until the tape is long enough, and gives its records."""
        habits = self.habits
        while self.stuck < 20 and len(self.records) < habits.records and self.size + 14 <= habits.most_bytes:
            chance = self.rng.random()
            if chance < habits.bad:
                self.add(bad_record(self.rng))
            elif chance < habits.bad + habits.wrong:
                self.wrong()
            else:
                self.step()
        return self.records

    def step(self):
        """Tries kinds of calls until one makes sense."""
        for _ in range(20):
            name = self.rng.choices(self.names, cum_weights=self.cumulative)[0]
            if getattr(self, name)():
                self.stuck = 0
                return
        self.stuck += 1
        # Nothing makes sense: perhaps updates wait for each other in a circle.
        if self.offered and self.rng.random() < 0.7:
            self.cancel_one(self.rng.choice(self.offered))
        else:
            self.wrong()

    # The calls. Each answers whether it made a record.

    def begin(self):
        live = len(self.open) + len(self.offered) + len(self.decided)
        if live >= self.habits.live or len(self.transactions) == 255:
            return False
        self.begin_one(self.rng.random() < self.habits.searches)
        return True

    def begin_one(self, search):
        transaction = Transaction(len(self.transactions) + 1, search)
        transaction.enough = self.rng.randint(*self.habits.calls)
        self.transactions.append(transaction)
        self.open.append(transaction)
        self.emit(BEGIN, 0 if search else 1)
        return transaction

    def call(self):
        """A read or a write by an open transaction."""
        if not self.open:
            return False
        transaction = self.rng.choice(self.open)
        if transaction.calls >= transaction.enough and self.rng.random() < 0.9:
            return False
        transaction.calls += 1
        key = self.rng.choice(self.pool)
        full = self.writers[key] >= 4 and self.rng.random() < self.habits.careful
        if not transaction.search and not full and self.rng.random() < self.habits.writes:
            self.write_one(transaction, key)
        else:
            self.read_one(transaction, key, self.rng.choice(bits(self.placement[key])))
        return True

    def write_one(self, transaction, key):
        self.add(write_record(transaction.number, key, some_value(self.rng)))
        if key in transaction.written or len(transaction.written) < 8:
            transaction.written.add(key)

    def read_one(self, transaction, key, node):
        self.emit(READ, transaction.number, key, node)
        if not transaction.search and key not in transaction.written and len(transaction.noted) < 8:
            transaction.noted.setdefault(key, self.nodes[node].newest.get(key, 0))

    def offer(self):
        ready = [one for one in self.open if not one.search and one.calls >= one.enough]
        if not ready:
            return False
        self.offer_one(self.rng.choice(ready))
        return True

    def offer_one(self, transaction):
        self.emit(OFFER, transaction.number)
        for key in transaction.written:
            self.writers[key] += 1
            transaction.write_nodes |= self.placement[key]
        transaction.polled = transaction.write_nodes
        for key in transaction.noted:
            transaction.polled |= self.placement[key]
        transaction.state = "offered"
        self.open.remove(transaction)
        self.offered.append(transaction)

    def prepare(self):
        if not self.offered:
            return False
        transaction = self.rng.choice(self.offered)
        outstanding = bits(transaction.polled & ~transaction.voted)
        if not outstanding:
            return False
        node = self.rng.choice(outstanding)
        busy = self.is_busy(transaction, node)
        if busy and self.rng.random() >= self.habits.blind:
            return False
        self.emit(PREPARE, transaction.number, node)
        if not busy:
            self.vote(transaction, node)
        return True

    def is_busy(self, transaction, node):
        touched = transaction.written.union(transaction.noted)
        held = self.nodes[node].held
        for other in self.nodes[node].engaged:
            keys = (other.written & touched) | (transaction.written & set(other.noted))
            if any(key in held for key in keys):
                return True
        return False

    def vote(self, transaction, number):
        node = self.nodes[number]
        transaction.voted |= 1 << number
        for key, writer in transaction.noted.items():
            if key in node.held and node.newest.get(key, 0) != writer:
                transaction.refused = True
                return
        transaction.engaged |= 1 << number
        transaction.base = max(transaction.base, node.seen)
        node.engaged.append(transaction)
        if transaction.write_nodes >> number & 1:
            node.counter = next_number(node.counter, transaction.number)
            transaction.numbers[number] = node.counter

    def decide(self):
        ready = [one for one in self.offered if one.refused or one.voted == one.polled]
        if not ready:
            return False
        self.decide_one(self.rng.choice(ready))
        return True

    def decide_one(self, transaction):
        self.emit(DECIDE, transaction.number)
        if transaction.refused:
            self.move_to_decided(transaction, "aborted")
            return
        if transaction.write_nodes:
            transaction.stamp = max(next_number(transaction.base, transaction.number), *transaction.numbers)
        self.move_to_decided(transaction, "committed")

    def move_to_decided(self, transaction, state):
        (self.offered if transaction.state == "offered" else self.open).remove(transaction)
        if state == "aborted" and transaction.state == "offered":
            for key in transaction.written:
                self.writers[key] -= 1
        transaction.state = state
        if transaction.polled:
            self.decided.append(transaction)

    def cancel(self):
        updates = self.offered + [one for one in self.open if not one.search]
        if not updates:
            return False
        self.cancel_one(self.rng.choice(updates))
        return True

    def cancel_one(self, transaction):
        self.emit(CANCEL, transaction.number)
        self.move_to_decided(transaction, "aborted")

    def learn(self):
        if not self.decided:
            return False
        transaction = self.rng.choice(self.decided)
        node = self.rng.choice(bits(transaction.polled & ~transaction.learned))
        self.learn_one(transaction, node)
        return True

    def learn_one(self, transaction, number):
        self.emit(LEARN, transaction.number, number)
        node = self.nodes[number]
        transaction.learned |= 1 << number
        if transaction.learned == transaction.polled:
            self.decided.remove(transaction)
        if transaction.state == "committed" and transaction.write_nodes >> number & 1:
            transaction.numbers[number] = transaction.stamp
            node.counter = max(node.counter, transaction.stamp)
        elif transaction in node.engaged:
            self.release(transaction, node)

    def release(self, transaction, node):
        node.engaged.remove(transaction)
        if transaction.state == "committed":
            node.seen = max(node.seen, transaction.base, transaction.stamp)

    def apply(self):
        """Mostly at a node where the first update that waits has been learned."""
        number = self.rng.randrange(len(self.nodes))
        if self.apply_one(number):
            return True
        if self.rng.random() < self.habits.blind:
            self.emit(APPLY, number)
            return True
        return False

    def apply_one(self, number):
        """Applies the first update that waits at a node, if it has been learned there."""
        first = self.first_waiting(number)
        if not first or not first.learned >> number & 1:
            return False
        node = self.nodes[number]
        self.emit(APPLY, number)
        self.release(first, node)
        for key in first.written:
            if key in node.held:
                node.newest[key] = first.number
        return True

    def first_waiting(self, number):
        waiting = [one for one in self.nodes[number].engaged if one.write_nodes >> number & 1]
        return min(waiting, key=lambda one: one.numbers[number], default=None)

    def finish(self):
        ready = [one for one in self.open if one.search and one.calls >= one.enough]
        if not ready:
            return False
        self.finish_one(self.rng.choice(ready))
        return True

    def finish_one(self, transaction):
        self.emit(FINISH, transaction.number)
        self.open.remove(transaction)

    # Several calls in a row.

    def burst(self):
        """An update from its begin to its decision, as far as no node is busy."""
        if len(self.transactions) == 255:
            return False
        transaction = self.begin_one(False)
        for _ in range(self.rng.randint(*self.habits.reads_of_bursts)):
            key = self.rng.choice(self.pool)
            self.read_one(transaction, key, self.rng.choice(bits(self.placement[key])))
        for _ in range(self.rng.randint(*self.habits.writes_of_bursts)):
            key = min(self.rng.choice(self.pool), self.rng.choice(self.pool), key=lambda one: self.writers[one])
            self.write_one(transaction, key)
        self.offer_one(transaction)
        nodes = bits(transaction.polled)
        self.rng.shuffle(nodes)
        if self.rng.random() < self.habits.late:
            return True
        for node in nodes:
            if not self.is_busy(transaction, node):
                self.emit(PREPARE, transaction.number, node)
                self.vote(transaction, node)
        if transaction.refused or transaction.voted == transaction.polled:
            self.decide_one(transaction)
        return True

    def settle(self):
        """A node learns and applies most of what it can."""
        number = self.rng.randrange(len(self.nodes))
        for transaction in list(self.decided):
            if (transaction.polled & ~transaction.learned) >> number & 1 and self.rng.random() >= self.habits.lag:
                self.learn_one(transaction, number)
        while self.rng.random() >= self.habits.lag and self.apply_one(number):
            pass
        return True

    # Calls that are meant to be refused, most of them.

    def wrong(self):
        self.rng.choice([self.wrong_numbers, self.wrong_numbers, self.wrong_state, self.not_held, self.not_polled,
                         self.done_already, self.too_early, self.make_or_begin_again])()

    def any_transaction(self):
        begun = len(self.transactions)
        if begun and self.rng.random() < 0.7:
            return self.rng.randint(1, begun)
        return self.rng.choice([0, min(begun + 1, 255), 255, self.rng.randrange(256)])

    def any_key(self):
        keys = len(self.placement)
        if self.rng.random() < 0.7:
            return self.rng.randrange(keys)
        return self.rng.choice([keys, 63, 64, 255, self.rng.randrange(256)])

    def any_node(self):
        nodes = len(self.nodes)
        if self.rng.random() < 0.7:
            return self.rng.randrange(nodes)
        return self.rng.choice([nodes, 7, 8, 255, self.rng.randrange(256)])

    def wrong_numbers(self):
        """Any call but a make, an offer, a cancel or a begin, with numbers that may be wrong. It may change the state
        without the player's knowing, which is why it does not end transactions."""
        kind = self.rng.choice([READ, WRITE, PREPARE, LEARN, APPLY, READ, PREPARE, LEARN])
        if kind == READ:
            self.emit(READ, self.any_transaction(), self.any_key(), self.any_node())
        elif kind == WRITE:
            self.add(write_record(self.any_transaction(), self.any_key(), some_value(self.rng)))
        elif kind == APPLY:
            self.emit(APPLY, self.any_node())
        else:
            self.emit(kind, self.any_transaction(), self.any_node())

    def wrong_state(self):
        """A call on a transaction that is past it, or of the other kind, or not there."""
        kind = self.rng.choice([OFFER, DECIDE, CANCEL, FINISH])
        past = [one.number for one in self.transactions if one.search == (kind != FINISH) or one.state != "open"]
        if past and self.rng.random() < 0.8:
            self.emit(kind, self.rng.choice(past))
        else:
            self.emit(kind, self.rng.choice([0, min(len(self.transactions) + 1, 255)]))

    def not_held(self):
        """A read of a key at a node that does not hold it, if there is one."""
        key = self.rng.randrange(len(self.placement))
        others = [node for node in range(len(self.nodes)) if not self.placement[key] >> node & 1]
        node = self.rng.choice(others) if others else self.any_node()
        number = self.rng.choice(self.open).number if self.open else self.any_transaction()
        self.emit(READ, number, key, node)

    def not_polled(self):
        """A prepare or a learn at a node that was not asked to vote, if there is one."""
        kind, those = self.rng.choice([(PREPARE, self.offered), (LEARN, self.decided)])
        if not those:
            return self.wrong_numbers()
        transaction = self.rng.choice(those)
        others = [node for node in range(len(self.nodes)) if not transaction.polled >> node & 1]
        return self.emit(kind, transaction.number, self.rng.choice(others) if others else self.any_node())

    def done_already(self):
        """A prepare at a node that has voted, or a learn at one that has learned."""
        if self.rng.random() < 0.5:
            ready = [(PREPARE, one.number, one.voted) for one in self.offered if one.voted]
        else:
            late = self.transactions[-20:]
            ready = [(LEARN, one.number, one.learned) for one in late if one.learned]
        if not ready:
            return self.wrong_numbers()
        kind, number, nodes = self.rng.choice(ready)
        return self.emit(kind, number, self.rng.choice(bits(nodes)))

    def too_early(self):
        """A decide while votes are outstanding, or an apply of what has not been learned."""
        waiting = [one for one in self.offered if one.voted != one.polled and not one.refused]
        if waiting and self.rng.random() < 0.6:
            return self.emit(DECIDE, self.rng.choice(waiting).number)
        return self.emit(APPLY, self.rng.randrange(len(self.nodes)))

    def make_or_begin_again(self):
        """A second make, or a begin where all transactions have begun."""
        if self.rng.random() < 0.3:
            self.emit(MAKE, 1, 1, 1)
        elif len(self.transactions) == 255:
            self.emit(BEGIN, self.rng.randrange(2))
        else:
            self.wrong_numbers()


def next_number(number, transaction):
    """The least number above the first that leaves the transaction when divided by 256."""
    candidate = number - number % 256 + transaction
    return candidate if candidate > number else candidate + 256
