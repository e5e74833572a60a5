"""States of a tracker as the calls are lent them: accepted ones, and ones that break one rule.

A State is the settings, the two tables and the position; it is written in a query as the model's
calls read it. Tables have at most PLACES places, as the program of crates/test_calls has.
"""

import copy
import dataclasses

from comparison import (
    BLOCK, COUNTERS, DIAMETER, INTERVAL, MAX_COUNTERS, MAX_ROWS, MAX_WINDOW, ROWS, U32, VOLUME,
    WINDOW, accepted_settings, alike, changed, spread,
)

EVENTS, ACTIVATIONS, TRACKED, SPILLOVER = range(4)
MAX_COUNT = 2_000_000_000
PLACES = 64
SUBARRAY_ROWS = 512


def listed(numbers):
    """A list in a query: its length and its numbers."""
    return " ".join(map(str, (len(numbers), *numbers)))


@dataclasses.dataclass
class State:
    settings: tuple
    rows: list
    counts: list
    position: list

    def __str__(self):
        lists = " ".join(map(listed, (self.rows, self.counts, self.position)))
        return " ".join(map(str, self.settings)) + " " + lists

    def copy(self):
        return copy.deepcopy(self)

    def tracked(self):
        """The counts by row."""
        number = self.position[TRACKED]
        return dict(zip(self.rows[:number], self.counts[:number]))


def state_of(settings, counts_by_row, spillover, events=0, activations=0):
    """The state that tracks these rows."""
    rows = sorted(counts_by_row)
    unused = [0] * (settings[COUNTERS] - len(rows))
    counts = [counts_by_row[row] for row in rows]
    position = [events, activations, len(rows), spillover]
    return State(settings, rows + unused, counts + unused, position)


def edges(settings):
    """The rows at which a subarray other than the first begins."""
    return range(SUBARRAY_ROWS, settings[ROWS], SUBARRAY_ROWS)


def cuts(settings, row):
    """Where the reach of a row is cut."""
    reach, rows = settings[DIAMETER] // 2, settings[ROWS]
    if row < reach:
        yield "row 0"
    if row + reach >= rows:
        yield "the last row"
    if any(row - reach < edge <= row for edge in edges(settings)):
        yield "a subarray's first row"
    if any(row < edge <= row + reach for edge in edges(settings)):
        yield "a subarray's last row"


def block_of(settings, event):
    first = event * settings[BLOCK]
    return range(min(first, settings[ROWS]), min(first + settings[BLOCK], settings[ROWS]))


# Accepted settings and states


def small_settings(rng):
    """Accepted settings of a small bank, of up to three subarrays, often with a figure at its
    limit."""
    rows = 16 * rng.choice((1, 1, 1, 2, 3, 4, 16, 32, 33, 64, 65))
    volume = rng.choice((1, 1, 2, 3, 4, 8, 16))
    counters = rng.choice((volume, volume, volume + 1, volume + rng.randint(1, 8), rows - 1, rows,
                           rows + 3, 64))
    block = rng.choice((1, 2, 3, 4, 5, 8, 16, 17, 64))
    shortest = -(-rows // block)
    return (rows, rng.choice((2, 4)), volume, min(max(volume, counters), PLACES),
            rng.choice((1, 2, 4, 4, 8, 100, 4096)), shortest + rng.choice((0, 0, 1, 3, 10)), block)


def large_settings(rng):
    """Accepted settings of a bank of more than 65,536 rows."""
    rows = rng.choice((65_552, 131_072, 262_128, MAX_ROWS, 16 * rng.randint(4097, 16_384)))
    block = rng.randint(-(-rows // MAX_WINDOW), 64)
    window = rng.choice((-(-rows // block), MAX_WINDOW))
    return changed(small_settings(rng), (ROWS, rows), (WINDOW, window), (BLOCK, block))


def any_settings(rng):
    """Mostly small, one in ten large; now and then of any size but the counters'."""
    chance = rng.random()
    if chance < 0.87:
        return small_settings(rng)
    if chance < 0.97:
        return large_settings(rng)
    settings = accepted_settings(rng, spread(rng, 1, 8192))
    return changed(settings, (COUNTERS, rng.randint(settings[VOLUME], PLACES)))


def random_spillover(rng):
    return rng.choice((0, 0, 1, 2, rng.randint(0, 10), rng.randint(0, MAX_COUNT),
                       MAX_COUNT - rng.randint(0, 3), MAX_COUNT))


def random_count(rng, least):
    """From `least` to the most allowed, mostly close to `least`, so that equal ones are common."""
    count = rng.choice((least, least, least + 1, least + rng.randint(0, 4),
                        rng.randint(least, MAX_COUNT), MAX_COUNT))
    return min(count, MAX_COUNT)


def valid_state(rng, settings=None, tracked=None, spillover=None):
    """An accepted state, hardly ever one that a run reaches."""
    settings = settings or any_settings(rng)
    rows, window, interval = settings[ROWS], settings[WINDOW], settings[INTERVAL]
    most = min(settings[COUNTERS], rows)
    if tracked is None:
        tracked = rng.choice((0, 1, most, most, rng.randint(0, most)))
    if spillover is None:
        spillover = random_spillover(rng)
    tracked = min(tracked, most)
    chosen = rng.choice((any_rows, rows_in_line, rows_in_line, rows_alike))(rng, settings, tracked)
    least = max(1, spillover)
    at_edges = [edge // settings[BLOCK] for edge in edges(settings)]
    return state_of(
        settings,
        {row: random_count(rng, least) for row in chosen},
        spillover,
        events=rng.choice((0, window - 1, rng.randrange(window), *at_edges)),
        activations=rng.choice((0, interval - 1, interval, rng.randint(0, interval))),
    )


def any_rows(rng, settings, count):
    return rng.sample(range(settings[ROWS]), count)


def rows_in_line(rng, settings, count):
    """Rows side by side, often at an end or around an edge of subarrays."""
    rows = settings[ROWS]
    middle = rng.choice([count, *edges(settings)]) - count // 2
    first = rng.choice((0, middle, rows - count, rng.randint(0, rows - count)))
    first = min(max(0, first), rows - count)
    return range(first, first + count)


def rows_alike(rng, settings, count):
    """Rows of which each has others that differ from it by a multiple of 65,536, in a large bank."""
    rows = settings[ROWS]
    firsts = rng.sample(range(min(rows, 65_536)), count)
    return [row for first in firsts for row in alike(rows, first)][:count]


def random_physical_row(rng, state):
    """A row of the bank: any one, one at an end or at an edge of a subarray, or one at or beside a
    tracked row, or beside one that is alike."""
    rows = state.settings[ROWS]
    tracked = list(state.tracked())
    row = rng.choice((rng.randrange(rows), rng.randrange(4), rows - 1 - rng.randrange(4)))
    if edges(state.settings) and rng.random() < 0.5:
        row = rng.choice(edges(state.settings)) + rng.randint(-4, 3)
    elif tracked and rng.random() < 0.6:
        row = rng.choice(alike(rows, rng.choice(tracked))) + rng.randint(-2, 2)
        row = min(rows - 1, max(0, row))
    return row


def garbage(rng, length):
    return [rng.choice((0, 1, rng.randint(0, 100), rng.randint(0, U32), U32))
            for _ in range(length)]


# States that break exactly one rule


def with_position(state, place, number):
    state.position[place] = number
    return state


def above(rng, limit):
    """A number above the limit."""
    return rng.choice((limit + 1, limit + 2, rng.randint(limit + 1, U32), U32))


def narrow_settings(rng):
    """Settings with at most as many counters as rows and at least three, so that a state can be
    full and have neighbours in the tables."""
    settings = any_settings(rng)
    while not 3 <= settings[COUNTERS] <= settings[ROWS]:
        settings = any_settings(rng)
    return settings


def partly_tracked(rng, spillover=None):
    """A state with a tracked row and an unused slot."""
    settings = narrow_settings(rng)
    return valid_state(rng, settings, rng.randint(1, settings[COUNTERS] - 1), spillover)


def well_tracked(rng, spillover=None):
    """A state with two tracked rows or more, and the slot of one of them."""
    settings = narrow_settings(rng)
    state = valid_state(rng, settings, rng.randint(2, settings[COUNTERS]), spillover)
    return state, rng.randrange(state.position[TRACKED])


def events_at_window(rng):
    state = valid_state(rng)
    return with_position(state, EVENTS, above(rng, state.settings[WINDOW] - 1))


def activations_above_interval(rng):
    state = valid_state(rng)
    return with_position(state, ACTIVATIONS, above(rng, state.settings[INTERVAL]))


def tracked_above_counters(rng):
    settings = narrow_settings(rng)
    state = valid_state(rng, settings, settings[COUNTERS])
    return with_position(state, TRACKED, above(rng, settings[COUNTERS]))


def spillover_above_most(rng):
    state = valid_state(rng, tracked=0)
    return with_position(state, SPILLOVER, above(rng, MAX_COUNT))


def row_outside_bank(rng):
    state, _ = well_tracked(rng)
    rows = state.settings[ROWS]
    row = rng.choice((above(rng, rows - 1), MAX_ROWS + rng.randrange(rows)))
    state.rows[state.position[TRACKED] - 1] = row
    return state


def equal_rows(rng):
    state, slot = well_tracked(rng)
    slot = max(slot, 1)
    state.rows[slot] = state.rows[slot - 1]
    return state


def descending_rows(rng):
    state, slot = well_tracked(rng)
    slot = max(slot, 1)
    state.rows[slot - 1], state.rows[slot] = state.rows[slot], state.rows[slot - 1]
    return state


def row_behind_tracked(rng):
    state = partly_tracked(rng)
    slot = rng.choice((state.position[TRACKED], len(state.rows) - 1))
    state.rows[slot] = rng.choice((1, 2**16, 2**17, 2**18, state.settings[ROWS] - 1, U32))
    return state


def count_behind_tracked(rng):
    state = partly_tracked(rng)
    slot = rng.choice((state.position[TRACKED], len(state.rows) - 1))
    state.counts[slot] = rng.choice((1, max(1, state.position[SPILLOVER]), U32))
    return state


def count_zero(rng):
    state, slot = well_tracked(rng, spillover=0)
    state.counts[slot] = 0
    return state


def count_below_spillover(rng):
    state, slot = well_tracked(rng, spillover=rng.choice((2, 3, MAX_COUNT, rng.randint(2, 10**9))))
    state.counts[slot] = rng.choice((state.position[SPILLOVER] - 1, 1))
    return state


def count_above_most(rng):
    state, slot = well_tracked(rng)
    state.counts[slot] = above(rng, MAX_COUNT)
    return state


BROKEN_RULES = {
    "events not below the window": events_at_window,
    "activations above the interval": activations_above_interval,
    "tracked above the counters": tracked_above_counters,
    "spillover above 2,000,000,000": spillover_above_most,
    "tracked row outside the bank": row_outside_bank,
    "two equal rows": equal_rows,
    "rows descending": descending_rows,
    "row behind the tracked ones": row_behind_tracked,
    "count behind the tracked ones": count_behind_tracked,
    "tracked count 0": count_zero,
    "tracked count below the spillover": count_below_spillover,
    "tracked count above 2,000,000,000": count_above_most,
}


# Refused settings and lengths


def bad_value(rng, settings, field):
    """A value for which this field, and no earlier one, is refused."""
    rows, volume, window = settings[ROWS], settings[VOLUME], settings[WINDOW]
    small_blocks = [block for block in range(1, 65) if block * window < rows]
    values = {
        ROWS: (0, 8, 15, 17, rows + 1, 65_537, 262_145, 262_160, MAX_ROWS + rows, U32 - 15),
        DIAMETER: (0, 1, 3, 5, 6, U32),
        VOLUME: (0, 17, 2**16 + volume, U32),
        COUNTERS: (0, volume - 1, MAX_COUNTERS + 1, 2**16 + volume, U32),
        INTERVAL: (0, 4097, 2**16 + 1, U32),
        WINDOW: (0, 8193, 2**16 + window, U32),
        BLOCK: (0, 65, 2**16 + settings[BLOCK], U32, *small_blocks[-2:]),
    }[field]
    return rng.choice(values) % 2**32


def resize(rng, table, wrong):
    """Gives a table another length than it has; `wrong` holds filling numbers."""
    lengths = (len(table) - 1, len(table) + 1, 0, 2 * len(table))
    length = rng.choice([length for length in lengths if length <= PLACES])
    if length < len(table):
        del table[length:]
    else:
        table.extend(rng.choice(wrong) for _ in range(length - len(table)))
