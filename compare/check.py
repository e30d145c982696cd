#!/usr/bin/env python3
"""Compares the proved programs with the comparison, tape by tape. Started by run.sh.

    check.py SEED COUNT FOLDER-OF-THE-CRATES COMPARISON
"""

import collections
import os
import subprocess
import sys
import time

import tapes

TIMEOUT = 20    # seconds for one run; it takes a few thousandths of one
STORES = {"shelf": "runshelf", "roll": "runroll"}
SAVED = os.path.join(os.path.dirname(os.path.abspath(__file__)), "different.tape")


class Different(Exception):
    """What went wrong with a tape, in words."""


def listing(command, bytes_of_tape):
    """What a program prints for a tape."""
    try:
        run = subprocess.run(command, input=bytes_of_tape, stdout=subprocess.PIPE, stderr=subprocess.PIPE,
                             timeout=TIMEOUT, check=False)
    except subprocess.TimeoutExpired:
        raise Different(f"{' '.join(command)} did not end within {TIMEOUT} seconds") from None
    if run.returncode != 0:
        raise Different(f"{' '.join(command)} ended with status {run.returncode}: {run.stderr[:200]!r}")
    return run.stdout


def first_difference(ours, theirs):
    """The first line in which two listings differ, in words."""
    ours, theirs = ours.split(b"\n"), theirs.split(b"\n")
    for number, (one, other) in enumerate(zip(ours + [b"(the end)"], theirs + [b"(the end)"]), 1):
        if one != other:
            return f"line {number}: the proved program says {one.decode('latin-1')!r}, " \
                   f"the comparison {other.decode('latin-1')!r}"
    return "the listings differ"


def compare(bytes_of_tape, proved, comparison, counts):
    """Compares the listings of a tape over both stores, and counts the lines."""
    for store, program in STORES.items():
        ours = listing([os.path.join(proved, program, "out", program)], bytes_of_tape)
        theirs = listing([comparison, store], bytes_of_tape)
        if ours != theirs:
            raise Different(f"over the {store}, {first_difference(ours, theirs)}")
        tapes.tally(ours, counts[store])


def main(seed, count, proved, comparison):
    counts = {store: collections.Counter() for store in STORES}
    families = collections.Counter()
    start = time.monotonic()
    for number in range(int(count)):
        family, bytes_of_tape = tapes.tape(seed, number)
        try:
            compare(bytes_of_tape, proved, comparison, counts)
        except Different as difference:
            with open(SAVED, "wb") as file:
                file.write(bytes_of_tape)
            sys.exit(f"tape {number} of seed {seed} ({family}, {len(bytes_of_tape)} bytes, saved to {SAVED}):\n"
                     f"{difference}")
        families[family] += 1
    print("tapes:", ", ".join(f"{name} {number}" for name, number in families.items()))
    for store in STORES:
        print(f"{store}: {sum(counts[store].values()):,} lines")
        tapes.print_tally(counts[store])
    print(f"{int(count):,} tapes of seed {seed}, each over both stores, without a difference "
          f"({time.monotonic() - start:.0f} seconds)")


if __name__ == "__main__":
    if len(sys.argv) != 5:
        sys.exit(__doc__)
    main(*sys.argv[1:])
