#!/usr/bin/env python3
"""Makes tapes for the comparison, the same ones for the same seed.

    tapes.py --one SEED NUMBER          one tape, to standard output
    tapes.py --folder SEED COUNT FOLDER COUNT tapes, as files in a folder
    tapes.py --tally [SEED [COUNT]]     what the comparison answers to COUNT tapes
    tapes.py --speed NAME               a full-length tape: uncontended, contended or reading
"""

import collections
import os
import random
import subprocess
import sys

from damage import damaged, random_bytes, too_long
from families import (all_numbers, cancelled, contended, full_roll, full_shelves, half_applied, high_numbers,
                      little_plays, long, medium, nine_keys, overtaken, shapes, short, snapshots, wrong_makes,
                      wrong_numbers)
from speedtapes import speed_tape

FAMILIES = [short, shapes, medium, contended, half_applied, overtaken, damaged, full_shelves, shapes, cancelled,
            wrong_numbers, nine_keys, damaged, snapshots, half_applied, full_roll, all_numbers, shapes, random_bytes,
            wrong_makes, short, snapshots, long, damaged, shapes, overtaken, snapshots, contended, high_numbers,
            little_plays, little_plays]

# These are long and all alike, so they come once in three rounds.
RARE_FAMILIES = [too_long, long, full_roll]


def tape(seed, number):
    """The name of the family and the bytes of this tape of the seed."""
    rng = random.Random(f"{seed}/{number}")
    turn, place = divmod(number, len(FAMILIES) + 1)
    if place == len(FAMILIES):
        family = RARE_FAMILIES[turn % len(RARE_FAMILIES)]
    else:
        family = FAMILIES[place]
    # How many tapes of this family there have been, so that one that goes through all shapes misses none.
    index = turn * FAMILIES.count(family) + FAMILIES[:place].count(family)
    return family.__name__, b"".join(family(rng, index))


def kind_of_answer(line):
    """A refusal with its number; of the other answers the words alone."""
    words = line.split()[1:]
    if words[:1] == ["refused"]:
        return " ".join(words)
    return " ".join(word for word in words if not word.isdigit())


def tally(listing, counts):
    for line in listing.decode().splitlines():
        counts[kind_of_answer(line)] += 1


def print_tally(counts):
    answers = sorted(kind for kind in counts if not kind.startswith("refused"))
    refusals = sorted((kind for kind in counts if kind.startswith("refused")), key=lambda kind: int(kind.split()[1]))
    for kind in answers + refusals:
        print(f"{counts[kind]:12,}  {kind}")


def tally_of_comparison(seed, count):
    """Runs the comparison on the tapes, over both stores, and prints what it answers."""
    program = os.path.join(os.path.dirname(os.path.abspath(__file__)), "target/release/compare")
    families = collections.Counter()
    counts = {"shelf": collections.Counter(), "roll": collections.Counter()}
    for number in range(count):
        family, bytes_of_tape = tape(seed, number)
        families[family] += 1
        for store in counts:
            run = subprocess.run([program, store], input=bytes_of_tape, stdout=subprocess.PIPE, check=True)
            tally(run.stdout, counts[store])
    print("tapes:", ", ".join(f"{name} {number}" for name, number in families.items()))
    for store in counts:
        print(f"{store}:")
        print_tally(counts[store])


def main(arguments):
    match arguments:
        case ["--one", seed, number]:
            sys.stdout.buffer.write(tape(seed, int(number))[1])
        case ["--folder", seed, count, folder]:
            os.makedirs(folder, exist_ok=True)
            for number in range(int(count)):
                with open(os.path.join(folder, f"{number}.tape"), "wb") as file:
                    file.write(tape(seed, number)[1])
        case ["--tally", *rest] if len(rest) <= 2:
            seed, count = rest + ["1", "2000"][len(rest):]
            tally_of_comparison(seed, int(count))
        case ["--speed", name]:
            sys.stdout.buffer.write(speed_tape(name))
        case _:
            sys.exit(__doc__)


if __name__ == "__main__":
    main(sys.argv[1:])
