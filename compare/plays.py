"""Plays of a few transactions that bring a catalogue to where the rules are finest."""

from player import bits
from records import PREPARE


def some_nodes(player, count):
    return player.rng.sample(range(len(player.nodes)), count)


def key_at(player, node):
    """A key at this node that few have written."""
    keys = player.rng.sample(player.nodes[node].held, 3)
    return min(keys, key=lambda key: player.writers[key])


def quick(player, reads, writes, nodes=range(8)):
    """An update that reads and writes these keys, each at its one holder, and commits. These nodes, if they are
    asked to vote at all, then learn and apply."""
    update = player.begin_one(False)
    for key in reads:
        player.read_one(update, key, bits(player.placement[key])[0])
    for key in writes:
        player.write_one(update, key)
    player.offer_one(update)
    for node in bits(update.polled):
        player.emit(PREPARE, update.number, node)
        if not player.is_busy(update, node):
            player.vote(update, node)
    if update.refused or update.voted == update.polled:
        player.decide_one(update)
        learn_and_apply(player, update, nodes)
    return update


def learn_and_apply(player, update, nodes):
    """What was decided of an update is learned at its nodes among these, and they apply what they can."""
    if update.state not in ("committed", "aborted"):
        return
    for node in bits(update.polled):
        if node in nodes:
            if not update.learned >> node & 1:
                player.learn_one(update, node)
            while player.apply_one(node):
                pass


def unseen_below_seen(player):
    """A search has read before an update that it must not see, and then sees one with a higher stamp that was put
    at the same node later."""
    first, second, third = some_nodes(player, 3)
    before, after, other = key_at(player, first), key_at(player, third), key_at(player, third)
    search = player.begin_one(True)
    player.read_one(search, before, first)
    quick(player, [], [before])
    hidden = quick(player, [before], [after], player.rng.choice([[], [first], [first, third]]))
    key = key_at(player, second)
    seen = quick(player, [], [key, other])
    if player.rng.random() < 0.9:
        learn_and_apply(player, hidden, [third])
        learn_and_apply(player, seen, [third])
    player.read_one(search, key, second)
    player.read_one(search, after, third)
    player.read_one(search, other, third)


def overtaken_and_on(player):
    """An update is refused a read as overtaken, and then reads what another update, which the node has voted on
    before, puts there afterwards."""
    first, second = some_nodes(player, 2)
    there, here, later = key_at(player, first), key_at(player, second), key_at(player, second)
    slow = player.begin_one(False)
    player.read_one(slow, key_at(player, first), first)
    for _ in range(player.rng.choice([0, 0, 7])):
        player.read_one(slow, key_at(player, first), first)
    overtaking = quick(player, [], [there, here], [])
    other = quick(player, [], [later], [])
    learn_and_apply(player, overtaking, [first, second])
    player.read_one(slow, here, second)
    learn_and_apply(player, other, [second])
    player.read_one(slow, later, second)
    player.read_one(slow, key_at(player, second), second)


def lifted(player):
    """A node gives numbers out of order, so that its counter rises far; then an update that has read there writes
    where the counter is low."""
    high, low = some_nodes(player, 2)
    keys = [key_at(player, high) for _ in range(2)]
    updates = [player.begin_one(False) for _ in keys]
    for key, update in reversed(list(zip(keys, updates))):
        player.write_one(update, key)
        player.offer_one(update)
        player.emit(PREPARE, update.number, high)
        if not player.is_busy(update, high):
            player.vote(update, high)
            player.decide_one(update)
    for update in updates:
        learn_and_apply(player, update, [high])
    quick(player, [player.rng.choice(keys)], [key_at(player, low)])


def late_voter(player):
    """An update that reads at a node and writes at another, offered before a node of it releases an update that
    read there."""
    first, second, third = some_nodes(player, 3)
    key = key_at(player, first)
    reader = quick(player, [key], [key_at(player, second)], [])
    update = player.begin_one(False)
    player.read_one(update, key_at(player, first), first)
    player.write_one(update, player.rng.choice([key, key_at(player, third)]))
    player.offer_one(update)
    learn_and_apply(player, reader, player.rng.choice([[first], [second], [first, second]]))
    search = player.begin_one(True)
    player.read_one(search, key, first)
    for node in (second, third):
        player.read_one(search, key_at(player, node), node)


def climb(player, batch, links, first_link):
    """One round through all nodes: each votes on the batch, then on the link to the next node."""
    rng = player.rng
    for key, update in enumerate(batch):
        player.write_one(update, key)
        player.offer_one(update)
    for node, link in enumerate(links):
        for update in batch:
            player.emit(PREPARE, update.number, node)
            player.vote(update, node)
        player.write_one(link, first_link + node)
        player.offer_one(link)
        for voter in (node, (node + 1) % len(player.nodes)):
            player.emit(PREPARE, link.number, voter)
            player.vote(link, voter)
        player.decide_one(link)
        for learner in bits(link.polled):
            player.learn_one(link, learner)
    for update in batch:
        if rng.random() < 0.5:
            player.decide_one(update)
        else:
            player.cancel_one(update)
        for node in range(len(player.nodes)):
            player.learn_one(update, node)
    for node in range(len(player.nodes)):
        while player.apply_one(node):
            pass
