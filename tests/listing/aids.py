"""Random traces made for the aids of a search over all rows of a bank: marks of the tracked rows, 64 to a
word, and one for each such word; upper bounds of the counts of 64 rows and of 4,096; and a row below which
none is at the spillover. Each trace is a kind and the bytes of an input.

A trace is made of steps: physical rows to activate, and events.
"""

import itertools

from comparison import (
    BLOCK, DIAMETER, INTERVAL, MAX_COUNTERS, MAX_ROWS, MAX_WINDOW, ROWS, WINDOW, changed,
)
from holds import LONGEST, accepted_hold
from remaps import IDENTITY, accepted_remap, logical_row
from traces import activation_line, hold_line, remap_line, remap_lines, settings_line

EVENT = None  # as a step
WORD, GROUP = 64, 4096  # rows
SIZES = (16, 48, 64, 80, 128, 144, 4080, 4096, 4112, 8192, 8208, 65_536, 65_552, 131_072, 262_128, MAX_ROWS)
EDGES = (64, 128, 192, 4096, 8192, 12_288, 61_440, 65_536, 131_072, 258_048, 262_080)


# Settings, steps and lines


def settings_for(rng, rows, volume, counters, interval, most_block=64):
    """The block is no larger than that, where the bank allows it, and a window's last blocks are at
    times empty."""
    least = -(-rows // MAX_WINDOW)
    blocks = [block for block in (1, 3, 8, 16, 33, 64) if least <= block <= most_block]
    block = rng.choice(blocks or [least])
    window = min(MAX_WINDOW, -(-rows // block) + rng.choice((0, 0, 1, 3)))
    return (rows, rng.choice((2, 4)), volume, counters, interval, window, block)


def near_edges(rng, settings, most):
    """The rows at up to so many edges of words, of groups, of blocks and of the bank."""
    rows, block = settings[ROWS], settings[BLOCK]
    edges = [edge for edge in EDGES if edge < rows] + [block, 2 * block, rows, rows]
    edges += [WORD * rng.randint(0, rows // WORD), GROUP * rng.randint(0, rows // GROUP)]
    chosen = rng.sample(edges, rng.randint(1, most)) + [rows]
    return sorted({row for edge in chosen for row in range(edge - 4, edge + 4) if 0 <= row < rows})


def apart(settings):
    """Rows from one end of the bank to the other that have no neighbour in common."""
    diameter = settings[DIAMETER]
    return range(diameter // 2, settings[ROWS], diameter + 1)


def within(settings, rows):
    return [min(max(row, 0), settings[ROWS] - 1) for row in rows]


def mixed(rng, rows, count, events):
    """So many steps with these rows; `events` is the share of events."""
    return [EVENT if rng.random() < events else rng.choice(rows) for _ in range(count)]


def lines_of(rng, settings, remap, steps, held=0.0):
    """The lines of these steps, with an event where an interval is full, and one at the end; `held` is
    the share of activations with a hold."""
    lines, room = [], settings[INTERVAL]
    for step in (*steps, EVENT):
        if step is not EVENT:
            row = logical_row(remap, step)
            hold = min(room, accepted_hold(rng)) if rng.random() < held else 1
            lines.append(activation_line(rng, row) if hold == 1 else hold_line(rng, row, hold))
            room -= hold
        if step is EVENT or room == 0:
            lines.append(b"R\n")
            room = settings[INTERVAL]
    return b"".join(lines)


def tracker(rng, settings, steps, held=0.0):
    """A remap, the settings, and the lines of these steps."""
    remap = accepted_remap(rng)
    text = remap_line(rng, remap) + settings_line(rng, settings)
    return text + lines_of(rng, settings, remap, steps, held)


# Whole traces


def word_edges(rng):
    """Rows at edges, with fewer and with more counters than rows."""
    volume = rng.choice((1, 2, 4, 16))
    counters = volume + rng.choice((0, 1, 3, 8, 20, 60))
    settings = settings_for(rng, rng.choice(SIZES), volume, counters, rng.choice((4, 16, 50, 300)))
    rows, steps = near_edges(rng, settings, 4), []
    for _ in range(rng.randint(1, 4)):
        some = rng.sample(rows, rng.randint(1, len(rows)))
        steps += mixed(rng, some, rng.randint(10, 80), rng.choice((0, 0.1)))
    return tracker(rng, settings, steps, rng.choice((0, 0.2)))


def many_ties(rng):
    """All counters at one count, and the spillover too, so that the lowest row makes room time and
    again; between fresh rows some disturbed once more, the lowest or the newest dropped, and events."""
    volume = rng.choice((1, 2, 16))
    counters = rng.choice((16, 64, 200, 677, MAX_COUNTERS, MAX_COUNTERS))
    rows = rng.choice([rows for rows in SIZES if rows >= 4 * counters])
    settings = settings_for(rng, rows, volume, counters, 4096, 8)
    share = -(-counters // settings[DIAMETER])
    rows = list(apart(settings))[-6 * share:]
    rng.choice((rng.shuffle, list.sort, list.reverse))(rows)
    fresh = itertools.cycle(rows)
    used = list(itertools.islice(fresh, share))
    steps = list(used)
    for _ in range(rng.randint(8, 16)):
        sort = rng.choice(("fresh", "fresh", "fresh", "again", "dropped", "event"))
        if sort == "fresh":
            more = list(itertools.islice(fresh, rng.choice((1, 3, share // 3, share))))
            used, steps = used + more, steps + more
        elif sort == "again":
            steps += rng.choices(used, k=rng.randint(1, 10))
        elif sort == "dropped":
            some = rng.choice((sorted(used), used[::-1]))[:rng.randint(1, 5)]
            steps += within(settings, [row + rng.choice((-1, 1)) for row in some])
        else:
            steps.append(EVENT)
    return tracker(rng, settings, steps, rng.choice((0, 0, 0.1)))


def rising_spillover(rng):
    """Few counters and many rows: the spillover rises at nearly each activation."""
    volume = rng.choice((1, 1, 2, 3))
    counters = volume + rng.choice((0, 0, 1, 4))
    settings = settings_for(rng, rng.choice(SIZES), volume, counters, rng.choice((20, 300, 4096)))
    rows = rng.choice((range(settings[ROWS]), apart(settings), near_edges(rng, settings, 4)))
    if rng.random() < 0.5:
        steps = mixed(rng, rows, rng.randint(50, 300), rng.choice((0.03, 0.2)))
    else:
        start = rng.randrange(len(rows))
        steps = [*rows[start:start + 200], *rows[start:start + 100], EVENT, *rows[start:start + 50]]
        steps = steps[::rng.choice((1, -1))]
    return tracker(rng, settings, steps, rng.choice((0, 0.3, 0.8)))


def few_tracked(rng):
    """Events that may pick more rows than are tracked, the first with none tracked."""
    text = b""
    for _ in range(rng.randint(1, 4)):
        settings = settings_for(rng, rng.choice(SIZES), rng.choice((5, 16, 16)), 16 + rng.choice((0, 4, 50)),
                                rng.choice((1, 3, 100)), 1)
        rows = near_edges(rng, settings, 3)
        text += tracker(rng, settings, [EVENT, *mixed(rng, rows, rng.randint(3, 20), 0.4)])
    return text


def window_ends(rng):
    """Windows that end with full tables, one event after the other or after a run of events, and few
    rows behind them."""
    volume = rng.choice((1, 4, 16))
    settings = (rng.choice((16, 48, 64, 80, 128, 144, 144, 4080, 4112)), rng.choice((2, 4)), volume,
                volume + rng.choice((0, 2, 20, 60)), 4096, 0, 64)
    settings = changed(settings, (WINDOW, -(-settings[ROWS] // 64) + rng.choice((0, 0, 1))))
    rows, steps = near_edges(rng, settings, 3), []
    for _ in range(rng.randint(2, 5)):
        full = rng.randrange(settings[WINDOW])  # events before the tables are filled
        some = rng.choices(range(settings[ROWS]), k=rng.choice((0, 40))) + rng.choices(rows, k=10)
        steps += rng.choices(rows, k=rng.randint(0, 4)) + [EVENT] * full + some
        steps += [EVENT] * (settings[WINDOW] - full) + rng.choices(rows, k=rng.randint(0, 4))
    return tracker(rng, settings, steps, rng.choice((0, 0.1)))


def set_up_again(rng):
    """Trackers one after another, with the same rows as far as their banks have them; between them
    refused settings, behind which no tracker stands, and remaps."""
    text, rows = b"", set()
    same = rng.choice(SIZES)
    for _ in range(rng.randint(2, 6)):
        volume = rng.choice((1, 16, 16))
        settings = settings_for(rng, rng.choice((same, rng.choice(SIZES))), volume,
                                volume + rng.choice((0, 8, 60)), rng.choice((50, 4096)), 8)
        rows.update(near_edges(rng, settings, 2))
        mine = sorted(row for row in rows if row < settings[ROWS])
        steps = rng.choices(mine, k=rng.choice((1, 5, 60))) + mixed(rng, mine, 6, 0.4)
        if rng.random() < 0.3:
            steps.insert(0, EVENT)
        text += tracker(rng, settings, steps, rng.choice((0, 0.3)))
        if rng.random() < 0.3:
            text += settings_line(rng, settings) + lines_of(rng, settings, IDENTITY, rng.choices(mine, k=30))
        if rng.random() < 0.5:
            refused = changed(settings, rng.choice(((ROWS, settings[ROWS] + 1), (BLOCK, 0), (DIAMETER, 3))))
            text += remap_lines(rng, 2) + settings_line(rng, refused)
            text += lines_of(rng, settings, IDENTITY, rng.choices(mine, k=2))
    return text


def dropped_rows(rng):
    """Neighbours of a few rows disturbed in turn; between them some are dropped, which are the lowest at
    the spillover or have just entered, and disturbed again. Blocks and events drop them too."""
    volume = rng.choice((1, 2))
    settings = settings_for(rng, rng.choice(SIZES), volume, volume + rng.randint(1, 10),
                            rng.choice((30, 4096)), 16)
    rows = near_edges(rng, settings, 2)
    some, steps = sorted(rng.sample(rows, min(len(rows), rng.randint(2, 8)))), []
    for _ in range(rng.randint(5, 25)):
        steps += some[::rng.choice((1, -1))]
        dropped = rng.choice(some[:2] + some[-1:]) + rng.choice((-1, 1))
        steps += within(settings, [dropped] * rng.choice((0, 1)) + [dropped + 1] * rng.choice((0, 0, 1)))
        steps += [EVENT] * rng.choice((0, 0, 0, 1))
    return tracker(rng, settings, steps, rng.choice((0, 0.1)))


def falling_heights(rng):
    """Rows of the whole bank, each disturbed as often as no other; the highest are dropped, and then an
    event picks."""
    volume = rng.choice((1, 2, 2, 16))
    settings = settings_for(rng, rng.choice(SIZES[3:]), volume, rng.choice((40, 300)), 4096, 8)
    rows = range(1, settings[ROWS] - 1)
    steps = []
    for _ in range(rng.randint(2, 4)):
        some = rng.sample(rows, rng.randint(3, 12))
        if rng.random() < 0.5:  # in one word or group of words
            size = rng.choice((WORD, GROUP))
            some = [some[0] // size * size + row % size for row in some]
            some = [row for row in some if row in rows]
        heights = [row for height, row in enumerate(some, 1) for _ in range(height)]
        rng.shuffle(heights)
        steps += heights
        while some:
            for row in some[-rng.randint(1, 2):]:
                steps += [row - 1, row + 1][:rng.choice((1, 2, 2))]
            steps += [EVENT] * rng.randint(1, 2)
            del some[-rng.randint(1, 3):]
    return tracker(rng, settings, steps)


def large_counts(rng):
    """A row held until the spillover comes near 65,536, then rows at edges of subarrays, which disturb
    fewer than are counted, so that it is passed with counts on both sides."""
    settings = (8208, 4, rng.choice((1, 2)), 3, 4096, MAX_WINDOW, 64)
    rows = rng.sample([edge + side for edge in range(512, 8208, 512) for side in (-1, 0)], 8)
    remap = accepted_remap(rng)
    text = remap_line(rng, remap) + settings_line(rng, settings)
    held = hold_line(rng, logical_row(remap, 8000), LONGEST)
    rising = (held * (4096 // LONGEST) + b"R\n") * 15
    passing = lines_of(rng, settings, remap, mixed(rng, rows + [8000] * 4, 1500, 0.1), 0.9)
    return text + rising + passing


# All traces

AIDS = (  # how a trace is made, its kind, and how many
    (word_edges, "edges of words", 80),
    (many_ties, "many ties", 40),
    (rising_spillover, "rising spillover", 60),
    (few_tracked, "few tracked", 40),
    (window_ends, "ends of windows", 60),
    (set_up_again, "set up again", 40),
    (dropped_rows, "dropped rows", 40),
    (falling_heights, "falling heights", 40),
    (large_counts, "large counts", 3),
)
AID_KINDS = tuple(kind for _, kind, _ in AIDS)


def aid_traces(rng):
    for make, kind, count in AIDS:
        for _ in range(count):
            yield kind, make(rng)
