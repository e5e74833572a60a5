#!/usr/bin/env python3
"""The sweep of a planning sheet: bounds and least counter counts of settings spread over all
ranges, with the longest window. The thresholds come from the model's bounds, so that the least
counts are small, middle and large, and some are refused with 12.

    python3 tests/c_interface/sweep.py      builds the model and prints the queries, one a line
"""

import itertools
import os
import pathlib
import random
import sys

sys.dont_write_bytecode = True
sys.path.insert(0, str(pathlib.Path(__file__).resolve().parents[1]))
from comparison import (
    BUILD_MODEL, COUNTERS, FIXED_SEED, MAX_COUNTERS, MAX_WINDOW, ROOT, VOLUME, accepted_settings,
    build, changed,
)
from queries import OUT, bound_query, least_query, model_answers

COUNT = 1000

# The largest count of each size; a refusal is the last of the sizes.
SIZES = {"small": 64, "middle": 1000, "large": MAX_COUNTERS}
REFUSED = "refused"


def size_of(answer):
    """The size of a least count, as the model answers it."""
    if answer < 0:
        return REFUSED
    return next(size for size, most in SIZES.items() if answer <= most)


def aimed_at(rng, settings, size):
    """The settings with a counter count of that size, the largest for a refusal."""
    least = settings[VOLUME]
    for name, most in SIZES.items():
        if name == size:
            return changed(settings, (COUNTERS, rng.randint(least, most)))
        least = most + 1
    return changed(settings, (COUNTERS, MAX_COUNTERS))


def threshold_for(rng, size, bound):
    """Just met by the bound's counter count; met by none if that is the largest."""
    return 2 * bound - rng.randint(0, bound // 4) if size == REFUSED else 2 * bound + 1


def queries():
    """As many bounds as least counts, whose sizes take turns."""
    rng = random.Random(FIXED_SEED)
    settings = [accepted_settings(rng, MAX_WINDOW) for _ in range(COUNT)]
    sizes = list(itertools.islice(itertools.cycle((*SIZES, REFUSED)), COUNT))
    aimed = [aimed_at(rng, s, size) for s, size in zip(settings, sizes)]
    bounds = model_answers([bound_query(s) for s in aimed], "sweep.thresholds")
    thresholds = [threshold_for(rng, size, bound) for size, bound in zip(sizes, bounds)]
    return [*map(bound_query, settings), *map(least_query, settings, thresholds)]


if __name__ == "__main__":
    os.chdir(ROOT)
    build(OUT, BUILD_MODEL)
    print(*queries(), sep="\n")
