"""Families of damaged tapes. Each gives the pieces of a tape, which need not be records."""

from families import contended, half_applied, long, medium, shapes, short, snapshots, wrong_makes
from records import BODY_LENGTH, LONGEST_TAPE, MAKE, record


def damaged(rng, number):
    """A tape of another family with one or more kinds of damage."""
    family = rng.choice([short, short, medium, contended, shapes, half_applied, snapshots, wrong_makes])
    records = family(rng, number)
    for _ in range(rng.choice([1, 1, 2, 5])):
        records = rng.choice([swap_records, drop_records, wrong_lengths, repeat_records, move_make])(rng, records)
    tape = bytearray(b"".join(records))
    for _ in range(rng.choice([0, 1, 1, 3])):
        tape = rng.choice([flip_bits, cut_off, cut_out, put_in])(rng, tape)
    return [bytes(tape)]


def swap_records(rng, records):
    records = list(records)
    for _ in range(rng.randint(1, 10)):
        one, other = rng.randrange(len(records)), rng.randrange(len(records))
        records[one], records[other] = records[other], records[one]
    return records


def drop_records(rng, records):
    kept = [one for one in records[1:] if rng.random() > 0.05]
    return records[:1] + kept


def repeat_records(rng, records):
    return [one for one in records for _ in range(2 if rng.random() < 0.05 else 1)]


def wrong_lengths(rng, records):
    """Changes the length that a record says, by which the reader goes on."""
    records = list(records)
    place = rng.randrange(len(records))
    length = rng.choice([0, 1, 2, 3, 4, 5, 6, 12, 300, 40000, 65535])
    records[place] = length.to_bytes(2, "little") + records[place][2:]
    return records


def move_make(rng, records):
    place = rng.randint(0, min(5, len(records) - 1))
    return records[1:place + 1] + records[:1] + records[place + 1:]


def flip_bits(rng, tape):
    for _ in range(rng.randint(1, 10)):
        if tape:
            tape[rng.randrange(len(tape))] ^= 1 << rng.randrange(8)
    return tape


def cut_off(rng, tape):
    return tape[:rng.randint(0, len(tape))]


def cut_out(rng, tape):
    start = rng.randint(0, len(tape))
    return tape[:start] + tape[start + rng.randint(1, 5):]


def put_in(rng, tape):
    start = rng.randint(0, len(tape))
    return tape[:start] + rng.randbytes(rng.randint(1, 5)) + tape[start:]


def too_long(rng, number):
    """Tapes of 32,768 bytes and some fewer or more."""
    records = long(rng, number)
    size = sum(map(len, records))
    wanted = LONGEST_TAPE + rng.choice([-1, 0, 0, 1, 2, rng.randint(3, 60000)])
    room = wanted - size
    if room >= 4:
        # A record of no kind takes up the rest.
        records.append((room - 2).to_bytes(2, "little") + bytes([11, 0]) + bytes(room - 4))
    return [b"".join(records).ljust(wanted, b"\0")[:wanted]]


def random_bytes(rng, _):
    """Any bytes; or lengths that fit with anything in the records."""
    if rng.random() < 0.3:
        return [rng.randbytes(rng.choice([0, 1, 2, 3, 10, 100, 5000]))]
    records = [record(MAKE, 8, 8, *[255] * 8)] if rng.random() < 0.7 else []
    for _ in range(rng.randint(0, 400)):
        kind = rng.choice([rng.randrange(11), rng.randrange(16), rng.randrange(1 << 16)])
        length = BODY_LENGTH.get(kind, 3) if rng.random() < 0.9 else rng.randrange(14)
        low = rng.choice([2, 9, 256])
        records.append(record(kind, *[rng.randrange(low) for _ in range(length)]))
    return records
