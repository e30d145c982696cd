"""The families of tapes. Each gives the records of a tape, the make first."""

from player import Habits, Player
from plays import climb, late_voter, lifted, overtaken_and_on, unseen_below_seen
from records import BEGIN, BODY_LENGTH, LONGEST_TAPE, MAKE, record


def some_placement(rng, nodes, keys):
    """A placement with few holders for each key, or many, or all, or mixed."""
    everywhere = (1 << nodes) - 1
    style = rng.randrange(5)
    if style == 0:
        return [1 << rng.randrange(nodes) for _ in range(keys)]
    if style == 1:
        return [1 << key % nodes for key in range(keys)]
    if style == 2:
        return [everywhere] * keys
    if style == 3:
        return [1 << rng.randrange(nodes) | 1 << rng.randrange(nodes) for _ in range(keys)]
    return [rng.randint(1, everywhere) for _ in range(keys)]


def some_shape(rng, least_nodes=1, least_keys=1, most_keys=64):
    nodes = rng.randint(least_nodes, 8)
    keys = rng.choice([rng.randint(least_keys, most_keys), rng.randint(least_keys, max(least_keys, 6)), most_keys])
    return nodes, some_placement(rng, nodes, keys)


def short(rng, _):
    nodes, placement = some_shape(rng)
    habits = Habits(records=rng.randint(2, 60), live=rng.randint(1, 5), wrong=rng.choice([0, 0.05, 0.2]),
                    pool=rng.choice([1, 2, 4, 64]))
    return Player(rng, nodes, placement, habits).play()


def medium(rng, _):
    nodes, placement = some_shape(rng)
    habits = Habits(records=rng.randint(60, 700), live=rng.randint(1, 12), wrong=rng.choice([0, 0.03, 0.1]),
                    pool=rng.choice([2, 5, 16, 64]), searches=rng.random(), writes=rng.random(),
                    calls=(rng.randint(0, 2), rng.randint(2, 12)))
    return Player(rng, nodes, placement, habits).play()


def long(rng, _):
    nodes, placement = some_shape(rng, least_keys=4)
    habits = Habits(records=10000, live=rng.randint(3, 30), wrong=rng.choice([0, 0.02]), pool=rng.choice([8, 64]),
                    searches=rng.choice([0.1, 0.4]), calls=(8, 24), blind=0.02)
    return Player(rng, nodes, placement, habits).play()


def contended(rng, _):
    nodes, placement = some_shape(rng, most_keys=8)
    habits = Habits(records=rng.randint(100, 900), live=rng.randint(4, 25), pool=rng.randint(1, 3),
                    searches=0.2, calls=(1, 4), blind=0.3, careful=rng.choice([0, 0.9]),
                    weights=dict(begin=8, cancel=1.5))
    return Player(rng, nodes, placement, habits).play()


def shapes(rng, number):
    """Every number of nodes with every number of keys, in turn."""
    nodes, keys = number % 8 + 1, number // 8 % 64 + 1
    placement = some_placement(rng, nodes, keys)
    placement[0] |= 1 << nodes - 1
    habits = Habits(records=rng.randint(40, 200), live=rng.randint(2, 8), pool=rng.choice([3, 64]))
    return Player(rng, nodes, placement, habits).play()


def all_numbers(rng, _):
    """All 255 transactions begin, and a 256th tries to; then they go on."""
    nodes, placement = some_shape(rng)
    habits = Habits(records=rng.randint(300, 3000), live=rng.randint(3, 255), calls=(0, 3), bad=0, wrong=0.02,
                    pool=rng.choice([2, 8, 64]), weights=dict(begin=rng.choice([4, 40, 400])))
    player = Player(rng, nodes, placement, habits)
    before = rng.choice([0, 200, 255])
    for _ in range(before):
        player.begin_one(rng.random() < 0.3)
    if before == 255:
        player.emit(BEGIN, rng.randrange(2))
    records = player.play()
    missing = 256 - len(player.transactions)
    return records + [record(BEGIN, rng.randrange(2))] * missing


def nine_keys(rng, _):
    """Updates that read nine keys and write nine."""
    nodes, placement = some_shape(rng, least_keys=9)
    habits = Habits(records=rng.randint(60, 500), live=rng.randint(1, 4), searches=0.1, calls=(18, 40),
                    writes=rng.choice([0.2, 0.5, 0.8]), wrong=0.01, weights=dict(begin=2, call=60, cancel=0.2))
    return Player(rng, nodes, placement, habits).play()


def full_shelves(rng, _):
    """The same few keys are written again and again, one update after another."""
    nodes, placement = some_shape(rng, most_keys=12)
    habits = Habits(records=rng.randint(150, 900), live=rng.randint(1, 3), pool=rng.randint(1, 6), searches=0.1,
                    calls=(1, 5), writes=0.9, careful=0, wrong=0.01, weights=dict(learn=40, apply=40, cancel=0.2))
    return Player(rng, nodes, placement, habits).play()


def full_roll(rng, _):
    """Updates of many keys that stand at many nodes."""
    keys = rng.randint(12, 64)
    placement = [255] * keys if rng.random() < 0.6 else [rng.randint(128, 255) for _ in range(keys)]
    habits = Habits(records=rng.randint(500, 2500), live=rng.randint(1, 5), searches=0.05, calls=(3, 11),
                    writes=0.95, wrong=0.01, weights=dict(learn=30, apply=30, prepare=30, cancel=0.3))
    return Player(rng, 8, placement, habits).play()


def half_applied(rng, _):
    """Searches read at several nodes while updates are applied at some of their nodes and not yet at others."""
    nodes = rng.randint(2, 8)
    placement = some_placement(rng, nodes, rng.randint(nodes, 24))
    habits = Habits(records=rng.randint(150, 1200), live=rng.randint(6, 20), searches=0.6, calls=(3, 25), writes=0.8,
                    wrong=0.01, pool=rng.choice([4, 8, 24]), weights=dict(call=40, learn=25, apply=5, begin=6))
    return Player(rng, nodes, placement, habits).play()


def snapshots(rng, _):
    """Searches and slow updates read here and there between quick updates that build on each other, on which the
    nodes lag behind."""
    nodes = rng.choice([2, 3, 3, 4, 5, 8, 8])
    keys = rng.randint(nodes, 32)
    style = rng.randrange(3)
    if style == 0:
        placement = [1 << key % nodes for key in range(keys)]
    elif style == 1:
        placement = [1 << key % nodes | 1 << (key + 1) % nodes for key in range(keys)]
    else:
        placement = some_placement(rng, nodes, keys)
    habits = Habits(records=rng.randint(200, 2500), live=rng.randint(15, 60), searches=rng.choice([0.1, 0.5, 0.9]),
                    calls=(4, 30), writes=rng.choice([0.02, 0.1]), wrong=0.01, lag=rng.choice([0.1, 0.3, 0.5]),
                    late=rng.choice([0, 0.1, 0.3]), reads_of_bursts=rng.choice([(0, 3), (0, 1), (1, 2)]),
                    writes_of_bursts=rng.choice([(1, 3), (1, 2), (1, 1)]),
                    weights=dict(begin=3, call=20, offer=2, finish=0.5, cancel=0.2, burst=rng.choice([3, 8]), settle=8,
                                 learn=6, apply=4))
    return Player(rng, nodes, placement, habits).play()


def high_numbers(rng, _):
    """Nodes vote on updates in descending order of their numbers, so that their counters rise by most of 256 at each
    vote; then an update carries the counter of a node to the next."""
    nodes = rng.randint(2, 8)
    keys = rng.randint(20, 56)
    everywhere = (1 << nodes) - 1
    placement = [everywhere] * keys + [1 << node | 1 << (node + 1) % nodes for node in range(nodes)]
    habits = Habits(records=10000, bad=0, wrong=0, live=300, calls=(2, 8), weights=dict(begin=0, call=30))
    player = Player(rng, nodes, placement, habits)
    for _ in range(255):
        player.begin_one(rng.random() < 0.1)
    updates = [one for one in player.transactions if not one.search][::-1]
    while len(updates) > nodes and player.size < LONGEST_TAPE * 0.9:
        batch = updates[:keys][:len(updates) - nodes]
        links = updates[len(batch):][:nodes]
        updates = updates[len(batch) + nodes:]
        climb(player, batch, links, keys)
    return player.play()


def little_plays(rng, _):
    """Plays of a few transactions that bring a catalogue to where the rules are finest, at any nodes."""
    nodes = rng.randint(3, 8)
    placement = [1 << key % nodes for key in range(64)]
    habits = Habits(records=rng.randint(100, 1200), live=10, calls=(1, 10))
    player = Player(rng, nodes, placement, habits)
    while len(player.transactions) < 245 and len(player.records) < habits.records * 0.8 and player.size < 30000:
        rng.choice([unseen_below_seen, overtaken_and_on, lifted, late_voter])(player)
        for _ in range(rng.choice([0, 0, 3])):
            player.step()
    return player.play()


def overtaken(rng, _):
    """Updates that read much and slowly beside updates that write."""
    nodes, placement = some_shape(rng, least_keys=3, most_keys=20)
    habits = Habits(records=rng.randint(150, 1000), live=rng.randint(3, 12), searches=0.15, calls=(1, 14), writes=0.35,
                    wrong=0.01, pool=rng.choice([3, 6, 20]), weights=dict(apply=30, learn=30))
    return Player(rng, nodes, placement, habits).play()


def cancelled(rng, _):
    """Many updates are cancelled, and their aborts learned."""
    nodes, placement = some_shape(rng)
    habits = Habits(records=rng.randint(80, 700), live=rng.randint(2, 12), searches=0.1, pool=rng.choice([2, 6, 64]),
                    weights=dict(cancel=4, decide=3, learn=20))
    return Player(rng, nodes, placement, habits).play()


def wrong_numbers(rng, _):
    nodes, placement = some_shape(rng)
    habits = Habits(records=rng.randint(50, 500), live=rng.randint(1, 10), wrong=rng.choice([0.4, 0.7]), bad=0.03)
    return Player(rng, nodes, placement, habits).play()


def wrong_makes(rng, number):
    """Makes that are refused, and calls before the first that is accepted."""
    records = []
    for _ in range(rng.randint(1, 8)):
        nodes, keys = rng.choice([(0, 1), (9, 1), (255, 64), (1, 0), (8, 65), (8, 255), (1, 1), (8, 64), (3, 5)])
        placement = [rng.randrange(256) for _ in range(keys)]
        if rng.random() < 0.5:
            placement = [byte & (1 << min(nodes, 8)) - 1 for byte in placement]
        records.append(record(MAKE, nodes, keys, *placement))
        if rng.random() < 0.5:
            kind = rng.choice(list(BODY_LENGTH))
            records.append(record(kind, *[rng.randrange(2) for _ in range(BODY_LENGTH[kind])]))
    return records + short(rng, number)
