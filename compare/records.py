"""The records of tapes, as docs/TAPE.md has them, and records that are no calls."""

LONGEST_TAPE = 32768
MAKE, BEGIN, READ, WRITE, OFFER, PREPARE, DECIDE, CANCEL, LEARN, APPLY, FINISH = range(11)

# How long the body of each kind is; that of a make varies.
BODY_LENGTH = {BEGIN: 1, READ: 3, WRITE: 10, OFFER: 1, PREPARE: 2, DECIDE: 1,
               CANCEL: 1, LEARN: 2, APPLY: 1, FINISH: 1}


def record(kind, *body):
    """The bytes of a record."""
    return (2 + len(body)).to_bytes(2, "little") + kind.to_bytes(2, "little") + bytes(body)


def write_record(transaction, key, value):
    return record(WRITE, transaction, key, *value.to_bytes(8, "little"))


def some_value(rng):
    return rng.choice([0, 1, rng.randrange(1000), rng.randrange(1 << 32), rng.getrandbits(64), (1 << 64) - 1])


def bad_record(rng):
    """A whole record that is no call."""
    choice = rng.randrange(6)
    if choice == 0:
        return record(rng.choice([11, 12, 255, 256, 257, 266, 65535]), *rng.randbytes(rng.randrange(12)))
    if choice == 1:
        return record(BEGIN, rng.randint(2, 255))
    if choice == 2:
        length = rng.randrange(2)
        return length.to_bytes(2, "little") + rng.randbytes(length)
    if choice == 3:
        return record(MAKE, *rng.choice([[], [1], [1, 1], [1, 2, 1], [1, 0, 1], [2, 1, 1, 1]]))
    kind = rng.choice(list(BODY_LENGTH))
    length = rng.choice([size for size in range(14) if size != BODY_LENGTH[kind]])
    return record(kind, *rng.randbytes(length))
