#!/usr/bin/env python3
"""Writes traces of one whole window for measurements: 8,192 intervals of 166 activations each.

    python3 bench/traces.py [--folder FOLDER]

The patterns of rows are uniform, hot, feinting, remapped, which is hot with a remap loaded, and held, which
is hot with holds. Each is written for 64, 677 and 2,048 counters, in a bank of 65,536 rows with a blast
diameter of 2 and a volume of 2, and some with 677 counters and one of these changed: about 11 MB each and
with holds 2 MB, into target/traces/ unless told otherwise. They are the same every time.
"""

import argparse
import collections
import itertools
import pathlib
import random

INTERVAL, WINDOW = 166, 8_192
HOT_ROWS = 64
LONGEST_HOLD = 16


def remap(row):
    """Physical to logical row, and back: remainders 2 and 3, 6 and 7 and so on change places."""
    return row ^ 1 if row % 4 >= 2 else row


# Patterns: the logical rows of each interval, with their holds where a pattern has holds


def uniform(rng, rows, *_):
    while True:
        yield [rng.randrange(rows) for _ in range(INTERVAL)]


def hot(rng, rows, *_):
    """Nine activations of ten go to a few rows."""
    hot_rows = [rng.randrange(rows) for _ in range(HOT_ROWS)]
    while True:
        yield [rng.choice(hot_rows) if rng.random() < 0.9 else rng.randrange(rows)
               for _ in range(INTERVAL)]


def feinting(_, rows, blast_diameter, volume, counters):
    """The attack FEINTING-Ghost of source document 000: as many decoys as the remaining events
    cannot all refresh, one more than the counters at most, are disturbed in unison. Each
    aggressor has its own victims; the one activated last is given up at the event, and as long
    as the counters limit the decoys another takes its place."""
    apart = range(blast_diameter // 2, rows, blast_diameter + 1)
    fresh = itertools.cycle(remap(row) for row in apart)
    aggressors = collections.deque()  # the least activated first
    for event in range(WINDOW):
        decoys = min((WINDOW - 1 - event) * volume, counters) + 1
        wanted = -(-decoys // blast_diameter)
        while len(aggressors) > wanted:
            aggressors.pop()
        while len(aggressors) < wanted:
            aggressors.appendleft(next(fresh))
        activated = []
        for _ in range(INTERVAL):
            activated.append(aggressors[0])
            aggressors.rotate(-1)
        yield activated
        if decoys > counters and len(aggressors) > 1:
            for _ in range(max(1, volume // blast_diameter)):
                aggressors.pop()


def remapped(rng, rows, *_):
    return hot(rng, rows)


def held(rng, rows, *_):
    """The units of each interval's holds are as many as it takes."""
    activated = itertools.chain.from_iterable(hot(rng, rows))
    while True:
        activations, left = [], INTERVAL
        while left > 0:
            hold = min(left, rng.randint(1, LONGEST_HOLD))
            activations.append((next(activated), hold))
            left -= hold
        yield activations


LOADED = {remapped: (11, 4, 14, 0, 9, 2, 7, 13, 5, 15, 1, 8, 12, 6, 3, 10)}


def activation_line(row, hold=1):
    return f"A{row:6}\n" if hold == 1 else f"H{row:6}{hold:6}\n"


def write(path, pattern, counters, rows=65_536, blast_diameter=2, volume=2):
    settings = (rows, blast_diameter, volume, counters, INTERVAL, WINDOW, rows // WINDOW)
    intervals = pattern(random.Random(1), rows, blast_diameter, volume, counters)
    with open(path, "w") as file:
        if pattern in LOADED:
            file.write("F" + "".join(f"{number:6}" for number in LOADED[pattern]) + "\n")
        file.write("S" + "".join(f"{number:6}" for number in settings) + "\n")
        for _ in range(WINDOW):
            lines = (activation_line(*activation) if pattern is held else activation_line(activation)
                     for activation in next(intervals))
            file.write("".join(lines) + "R\n")


# All traces

KINDS = (  # what a title ends in, the counters, other settings that are changed, and the patterns
    ("", (64, 677, 2_048), {}, (uniform, hot, feinting, remapped, held)),
    (" B=4", (677,), {"blast_diameter": 4}, (hot, feinting, held)),
    (" V=16", (677,), {"volume": 16}, (hot, feinting, held)),
    (" N=262144", (677,), {"rows": 262_144}, (uniform, hot, held)),
)


def write_all(folder):
    """Pairs of a title and the path of a trace, each when it is written."""
    folder.mkdir(parents=True, exist_ok=True)
    for ending, counters, changes, patterns in KINDS:
        for pattern, number in itertools.product(patterns, counters):
            title = f"{pattern.__name__} {number}{ending}"
            path = folder / f"{title.replace(' ', '-')}.trace"
            write(path, pattern, number, **changes)
            yield title, path


def main():
    root = pathlib.Path(__file__).resolve().parents[1]
    parser = argparse.ArgumentParser(description="Writes traces of one whole window.")
    parser.add_argument("--folder", type=pathlib.Path, default=root / "target/traces")
    for _, path in write_all(parser.parse_args().folder):
        print(path)


if __name__ == "__main__":
    main()
