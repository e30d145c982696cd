"""Three tapes of nearly 32,768 bytes to measure speed by. Nearly all of their calls are accepted, or are refused
for what others do at the same time."""

import random

from player import Habits, Player, bits
from records import LONGEST_TAPE, PREPARE


def speed_tape(name):
    """The tape of this name."""
    rng = random.Random(f"speed/{name}")
    makers = {"uncontended": uncontended_tape, "contended": contended_tape, "reading": reading_tape}
    player = makers[name](rng)
    return b"".join(player.records)


def has_room(player, bytes_to_come):
    return player.size + bytes_to_come <= LONGEST_TAPE


def prepare(player, update, nodes):
    """Asks nodes for their votes, busy ones too."""
    for node in nodes:
        player.emit(PREPARE, update.number, node)
        if not player.is_busy(update, node):
            player.vote(update, node)


def is_ready(update):
    return update.refused or update.voted == update.polled


def settle(player, update):
    """What was decided is learned at all nodes, and applied as far as it can be."""
    for node in bits(update.polled):
        player.learn_one(update, node)
        while player.apply_one(node):
            pass


def uncontended_tape(rng):
    """Up to 254 updates, one after another, each of which reads two or three keys, writes one and commits. Of the
    sixty-four keys each has two holders, and is written four times at most."""
    placement = [1 << key % 8 | 1 << (key + 1) % 8 for key in range(64)]
    player = Player(rng, 8, placement, Habits())
    while len(player.transactions) < 254 and has_room(player, 300):
        update = player.begin_one(False)
        written = update.number % 64
        for key in rng.sample([key for key in range(64) if key != written], rng.choice([2, 3])):
            player.read_one(update, key, rng.choice(bits(placement[key])))
        player.write_one(update, written)
        player.offer_one(update)
        prepare(player, update, bits(update.polled))
        player.decide_one(update)
        settle(player, update)
    read_to_the_end(player, [player.begin_one(True)])
    return player


def contended_tape(rng):
    """Rounds of eight updates and a search at a time that all use the same three keys, each with four holders. After
    a few rounds it is the turn of other keys."""
    placement = [0b00001111, 0b00111100, 0b11110000] * 21
    player = Player(rng, 8, placement, Habits())
    while len(player.transactions) < 245 and has_room(player, 2500):
        turn = len(player.transactions) // 9 // 2 * 3
        contended_round(player, [turn % 63, (turn + 1) % 63, (turn + 2) % 63])
    read_to_the_end(player, [player.begin_one(True)])
    return player


def contended_round(player, keys):
    rng = player.rng
    search = player.begin_one(True)
    updates = [player.begin_one(False) for _ in range(8)]
    for update in updates:
        read, written = rng.sample(keys, 2)
        player.read_one(update, read, rng.choice(bits(player.placement[read])))
        player.write_one(update, written)
        player.offer_one(update)
    for update in updates:
        nodes = bits(update.polled)
        prepare(player, update, rng.sample(nodes, rng.choice([2, len(nodes)])))
    for key in keys:
        player.read_one(search, key, rng.choice(bits(player.placement[key])))
    for again in (True, False):
        for update in updates:
            if update.state == "offered":
                end_or_ask_again(player, update, again)
    for key in keys:
        player.read_one(search, key, rng.choice(bits(player.placement[key])))
    player.finish_one(search)


def end_or_ask_again(player, update, again):
    """Decides an update if all have voted. Otherwise asks the others again; at the last it is cancelled."""
    if not is_ready(update) and again:
        prepare(player, update, bits(update.polled & ~update.voted))
    if is_ready(update):
        player.decide_one(update)
    elif not again:
        player.cancel_one(update)
    else:
        return
    settle(player, update)


def reading_tape(rng):
    """Eight keys at four nodes are written sixteen times, as far as there is room. Before each time a search begins,
    and all of the searches then read to the end of the tape, the older ones far down the chains."""
    player = Player(rng, 4, [0b1111] * 8, Habits())
    searches = []
    for turn in range(16):
        searches.append(player.begin_one(True))
        player.read_one(searches[-1], turn % 8, turn % 4)
        update = player.begin_one(False)
        for key in range(8):
            player.write_one(update, key)
        player.offer_one(update)
        prepare(player, update, range(4))
        player.decide_one(update)
        settle(player, update)
    read_to_the_end(player, searches)
    return player


def read_to_the_end(player, searches):
    """Reads by these searches until the tape is full."""
    rng = player.rng
    while has_room(player, 7):
        key = rng.randrange(len(player.placement))
        player.read_one(rng.choice(searches), key, rng.choice(bits(player.placement[key])))
