"""The calls of `row_limit` that are compared (document 02, C-17): a row's figure at a position.

Each case knows its number: `figure` says it again from the document, and a refused case is made by the
faults that it has. The tables that a case lends are any numbers, since the call has none.
"""

import functools

from cases import case
from comparison import (
    BLOCK, COUNTERS, DIAMETER, INTERVAL, MAX_COUNTERS, MAX_ROWS, MAX_WINDOW, ROWS, U32, VOLUME,
    WINDOW, accepted_settings, changed, spread,
)
from remaps import (
    IDENTITY, OURS, REFUSED, REVERSE, ROTATED, accepted_remap, logical_row, physical_row,
    refused_remap,
)
from states import (
    ACTIVATIONS, EVENTS, MAX_COUNT, PLACES, SPILLOVER, State, TRACKED, above, any_settings, bad_value,
    garbage,
)

CALL = "row_limit"


# The figure


def disturbers(settings):
    """T'."""
    return settings[INTERVAL] + settings[VOLUME] + settings[BLOCK]


def bound_at(settings, events):
    """H(i)."""
    added = settings[DIAMETER] * disturbers(settings)
    return total(settings[VOLUME], settings[COUNTERS], added, events) + disturbers(settings)


@functools.cache
def total(volume, counters, added, events):
    sizes = [min(j * volume + 1, counters + 1) for j in range(events)]
    result = 0
    for j in range(events - 1, 0, -1):
        result = (result + added) * sizes[j - 1] // sizes[j]
    return result


def own_event(settings, row):
    """b of a physical row."""
    return row // settings[BLOCK]


def carried_by_bound(settings):
    return bound_at(settings, settings[WINDOW])


def carried_by_events(settings, row):
    return disturbers(settings) * (settings[WINDOW] - 1 - own_event(settings, row))


def figure(settings, row, events):
    """Of a physical row."""
    present = bound_at(settings, events + 1)
    if events > own_event(settings, row):
        return present
    return present + min(carried_by_bound(settings), carried_by_events(settings, row))


# Accepted calls


def figure_case(settings, position, row, number, kind, remap=OURS, tables=((), ())):
    """The row is a logical one."""
    state = State(settings, *map(list, tables), list(position))
    return case(CALL, state, row, number, kind, remap)


def accepted_case(settings, row, events, kind, remap=OURS, rest=(0, 0, 0), tables=((), ())):
    """The row is a physical one, the rest that of the position."""
    return figure_case(settings, (events, *rest), logical_row(remap, row),
                       figure(settings, row, events), kind, remap, tables)


SWEPT_REMAPS = (OURS, IDENTITY, REVERSE, ROTATED)
# Every row at every event. The blocks: whole ones, one for each row, cut at the end, with empty ones behind.
WHOLE_SWEEPS = (
    (16, 2, 1, 2, 4, 4, 4), (16, 2, 1, 1, 1, 1, 16), (16, 2, 2, 4, 4, 3, 8), (16, 4, 1, 2, 4, 16, 1),
    (16, 2, 1, 2, 4, 4, 5), (16, 4, 2, 3, 9, 12, 3), (16, 2, 1, 2, 4, 6, 64), (48, 2, 3, 5, 40, 9, 7),
    (32, 4, 16, 16, 1, 33, 1),
)
# The rows and events at edges.
EDGE_SWEEPS = (
    (65_536, 2, 1, 677, 166, 8192, 8), (65_552, 4, 2, 50, 12, 1041, 63), (262_144, 2, 1, 2, 4, 4096, 64),
    (262_144, 2, 1, 2, 4, 8192, 64), (262_144, 4, 1, 1, 4096, 8192, 64), (262_144, 4, 16, 2048, 4096, 8192, 32),
    (262_128, 4, 16, 16, 4096, 8192, 32), (131_072, 2, 4, 300, 9, 8192, 16), (528, 2, 1, 9, 3, 528, 1),
    (16, 2, 1, 2048, 4096, 8192, 1), (1040, 4, 3, 20, 15, 62, 17),
)


def figure_sweeps():
    for settings in WHOLE_SWEEPS:
        for remap in SWEPT_REMAPS:
            for row in range(settings[ROWS]):
                for events in range(settings[WINDOW]):
                    yield accepted_case(settings, row, events, "figure: every row at every event", remap)
    for settings in EDGE_SWEEPS:
        for row in edge_rows(settings):
            for events, remap in zip(edge_events(settings, row), SWEPT_REMAPS * 3):
                yield accepted_case(settings, row, events, "figure: rows and events at edges", remap)
    yield from position_cases()
    yield from settings_cases()


def edge_rows(settings):
    """Both ends of the bank, both sides of the edges of some blocks and of where what is carried
    over ceases to be H(n)."""
    rows, block = settings[ROWS], settings[BLOCK]
    last = own_event(settings, rows - 1)
    turn = settings[WINDOW] - 1 - carried_by_bound(settings) // disturbers(settings)
    firsts = [event * block for near in (0, 1, 2, last // 2, turn, last)
              for event in (near - 1, near, near + 1)]
    near = {first + beside for first in (*firsts, rows, 65_536) for beside in (-1, 0, block - 1)}
    return sorted(row for row in near if 0 <= row < rows)


def edge_events(settings, row):
    event, window = own_event(settings, row), settings[WINDOW]
    near = {0, 1, window // 2, window - 2, window - 1, event - 1, event, event + 1}
    return sorted(events for events in near if 0 <= events < window)


def position_limits(settings):
    """The most that each number of a position may be."""
    return {EVENTS: settings[WINDOW] - 1, ACTIVATIONS: settings[INTERVAL],
            TRACKED: settings[COUNTERS], SPILLOVER: MAX_COUNT}


# The names of a position's rules, as in states.py.
RULES = {
    EVENTS: "events not below the window", ACTIVATIONS: "activations above the interval",
    TRACKED: "tracked above the counters", SPILLOVER: "spillover above 2,000,000,000",
}


def position_cases():
    """Each number of a position at its most, one above it and far above, the others low and at their
    most."""
    for settings in (*WHOLE_SWEEPS, *EDGE_SWEEPS):
        limits = position_limits(settings)
        for others in ((0, 0, 0, 0), tuple(limits.values())):
            for place, most in limits.items():
                row = settings[ROWS] - 1
                events, *rest = changed(others, (place, most))
                kind = f"{CALL}: the most accepted, {RULES[place]}"
                yield accepted_case(settings, row, events, kind, rest=rest)
                for number, name in ((most + 1, "one above"), (2**31 + most, "far above"), (U32, "2^32 - 1")):
                    position = changed(others, (place, number))
                    yield figure_case(settings, position, row, -21, f"{CALL}: {name}, {RULES[place]}")


LIMITS = {
    ROWS: ((16, MAX_ROWS), (0, 15, 17, MAX_ROWS + 1, MAX_ROWS + 16)), DIAMETER: ((2, 4), (0, 1, 3, 5)),
    VOLUME: ((1, 16), (0, 17)), COUNTERS: ((16, MAX_COUNTERS), (0, 15, MAX_COUNTERS + 1)),
    INTERVAL: ((1, 4096), (0, 4097)), WINDOW: ((4096, MAX_WINDOW), (0, MAX_WINDOW + 1)),
    BLOCK: ((64,), (0, 1, 63, 65)),
}


def settings_cases():
    """Each setting at its limits and outside them, the others those of a bank of 262,144 rows with
    blocks that just suffice."""
    settings = (MAX_ROWS, 2, 16, 16, 4, 4096, 64)
    for field, (good, bad) in LIMITS.items():
        for value in good:
            yield accepted_case(changed(settings, (field, value)), 15, 0,
                                f"{CALL}: setting {field + 1} at a limit")
        for value in (*bad, U32):
            yield figure_case(changed(settings, (field, value)), (0, 0, 0, 0), 15, -(field + 1),
                              f"{CALL}: setting {field + 1} outside")


# Random calls


def figure_settings(rng):
    """Any accepted ones; no table limits the counters."""
    settings = any_settings(rng)
    chance = rng.random()
    if chance < 0.2:
        settings = accepted_settings(rng, spread(rng, 1, MAX_WINDOW))
    elif chance < 0.4:
        settings = changed(settings, (COUNTERS, rng.randint(settings[VOLUME], MAX_COUNTERS)))
    elif chance < 0.5:
        settings = changed(settings, (WINDOW, rng.randint(settings[WINDOW], MAX_WINDOW)))
    return settings


def figure_row(rng, settings):
    """A physical row."""
    return rng.choice((rng.randrange(settings[ROWS]), rng.choice(edge_rows(settings))))


def accepted_position(rng, settings, row):
    events = rng.choice((rng.randrange(settings[WINDOW]), rng.choice(edge_events(settings, row))))
    return (events, *(rng.choice((0, most, rng.randint(0, most)))
                      for most in list(position_limits(settings).values())[1:]))


def any_tables(rng):
    return [garbage(rng, rng.choice((0, 1, 7, PLACES))) for _ in range(2)]


def random_figure(rng):
    settings, remap = figure_settings(rng), accepted_remap(rng)
    row = figure_row(rng, settings)
    events, *rest = accepted_position(rng, settings, row)
    return accepted_case(settings, row, events, "figure: random", remap, rest, any_tables(rng))


# Refused calls

FIGURE_ORDER = (1, 2, 3, 4, 5, 6, 7, 9, 14, 21)  # in which refusals are tested


def faulty_figure(rng, faults, kind):
    """An accepted call, made faulty in these ways, of which the first in order decides."""
    settings, remap = figure_settings(rng), accepted_remap(rng)
    rows = settings[ROWS]
    row = figure_row(rng, settings)
    position = accepted_position(rng, settings, row)
    row = logical_row(remap, row)
    if 21 in faults:
        limits = position_limits(settings)
        for place in rng.sample(list(limits), rng.choice((1, 1, 2, 4))):
            position = changed(position, (place, above(rng, limits[place])))
    if 14 in faults:
        remap = refused_remap(rng, U32, rng.choice(list(REFUSED)))
    if 9 in faults:
        row = rng.choice((rows, rows + 1, MAX_ROWS, MAX_ROWS + rng.randrange(rows), U32))
    for number in sorted(faults):
        if number <= 7:
            field = number - 1
            settings = changed(settings, (field, bad_value(rng, settings, field)))
    number = min(faults, key=FIGURE_ORDER.index)
    return figure_case(settings, position, row, -number, kind, remap, any_tables(rng))


def random_figures(rng):
    """About 2,000 cases: accepted ones, each fault alone, every two, and several."""
    for _ in range(1200):
        yield random_figure(rng)
    for fault in FIGURE_ORDER:
        for _ in range(10):
            yield faulty_figure(rng, [fault], f"{CALL}: {fault} alone")
    for sort in REFUSED:
        settings = figure_settings(rng)
        yield figure_case(settings, (0, 0, 0, 0), rng.randrange(settings[ROWS]), -14,
                          f"remap refused, {sort}: {CALL}", refused_remap(rng, U32, sort))
    for place, first in enumerate(FIGURE_ORDER):
        for second in FIGURE_ORDER[place + 1:]:
            for _ in range(10):
                yield faulty_figure(rng, [first, second], f"{CALL}: {first} before {second}")
    for _ in range(200):
        faults = rng.sample(FIGURE_ORDER, rng.randint(3, len(FIGURE_ORDER)))
        yield faulty_figure(rng, faults, f"several faults: {CALL}")


# What has to occur


def figure_kinds(case):
    """The sorts of an accepted case."""
    settings, events = case.state.settings, case.state.position[EVENTS]
    rows, window, block = settings[ROWS], settings[WINDOW], settings[BLOCK]
    row = physical_row(case.remap, case.argument)
    event = own_event(settings, row)
    for name, holds in (
            ("e = 0", events == 0), ("e = n - 1", events == window - 1),
            ("e = b - 1", events == event - 1), ("e = b", events == event),
            ("e = b + 1", events == event + 1), ("e above b + 1", events > event + 1),
            ("b = n - 1", event == window - 1), ("n = 1", window == 1), ("n = 8,192", window == MAX_WINDOW),
            ("the last row", row == rows - 1), ("a block cut at N", (event + 1) * block > rows),
            ("empty blocks behind the bank", own_event(settings, rows - 1) < window - 1),
            ("a row above 65,535", row > 65_535), ("N = 262,144", rows == MAX_ROWS)):
        if holds:
            yield f"figure: {name}"
    if events <= event:
        by_bound, by_events = carried_by_bound(settings), carried_by_events(settings, row)
        if by_bound != by_events:
            smaller = "H(n)" if by_bound < by_events else "T' x (n - 1 - b)"
            yield f"figure: {smaller} is the smaller"
        else:
            yield "figure: H(n) is T' x (n - 1 - b)"
    if figure(settings, row, events) != figure(settings, case.argument, events):
        yield "figure: another one by the remap"


FIGURE_KINDS = (
    *(f"{CALL} accepted{bank}" for bank in ("", ", large bank")),
    *(f"{CALL} refused with {number}" for number in FIGURE_ORDER),
    *(f"{CALL}: {number} alone" for number in FIGURE_ORDER),
    *(f"{CALL}: {first} before {second}" for place, first in enumerate(FIGURE_ORDER)
      for second in FIGURE_ORDER[place + 1:]),
    f"several faults: {CALL}",
    *(f"{CALL}: {name}, {rule}" for rule in RULES.values()
      for name in ("the most accepted", "one above", "far above", "2^32 - 1")),
    *(f"{CALL}: setting {field + 1} {where}" for field in LIMITS for where in ("at a limit", "outside")),
    "figure: every row at every event", "figure: rows and events at edges", "figure: random",
    *(f"figure: {name}" for name in (
        "e = 0", "e = n - 1", "e = b - 1", "e = b", "e = b + 1", "e above b + 1", "b = n - 1", "n = 1",
        "n = 8,192", "the last row", "a block cut at N", "empty blocks behind the bank", "a row above 65,535",
        "N = 262,144", "H(n) is the smaller", "T' x (n - 1 - b) is the smaller", "H(n) is T' x (n - 1 - b)",
        "another one by the remap")),
)
