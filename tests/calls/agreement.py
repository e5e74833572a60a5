"""The calls of both agreements that are compared (document 02, C-19): `agree`, the finer one, which is given
a remap for each state, and `estimates_agree`, the older one. twins.py has runs of trackers that agree.

Each case knows its number: two states are made to agree in both senses, in the older one or in neither,
and a refused case is made by the faults that it has.
"""

import itertools

from cases import case
from comparison import (
    BLOCK, COUNTERS, DIAMETER, INTERVAL, MAX_ROWS, ROWS, U32, VOLUME, WINDOW, alike, changed,
)
from remaps import IDENTITY, OURS, REFUSED, REVERSE, ROTATED, accepted_remap, refused_remap
from states import (
    ACTIVATIONS, BROKEN_RULES, EVENTS, MAX_COUNT, PLACES, SPILLOVER, TRACKED, bad_value, large_settings,
    resize, state_of, valid_state,
)

FINER, OLDER = PAIRS = "agree", "estimates_agree"
SIDES = ("first", "second")

# What the finer one and the older one say of two states.
BOTH, OLDER_ONLY, NEITHER = "in both senses", "in the older sense", "in neither sense"
SENSES = {BOTH: (1, 1), OLDER_ONLY: (0, 1), NEITHER: (0, 0)}


def pair_cases(one, other, sense, name, remap=OURS, other_remap=None):
    """Both calls on two states, in either order; the remaps are the same unless another one is given."""
    other_remap = other_remap or remap
    for call, number in zip(PAIRS, SENSES[sense]):
        kind = f"{call} {sense}: {name}"
        yield case(call, one, other, number, kind, remap, other_remap=other_remap)
        yield case(call, other, one, number, kind, other_remap, other_remap=remap)


# Two states that differ in one thing


def agreement_sweeps():
    yield from settings_cases()
    yield from remap_cases()
    yield from position_cases()
    for tracked, counters in TABLES:
        yield from place_cases(tracked, counters)
    yield from row_cases()
    yield from bit_cases()


OTHER_VALUES = {
    ROWS: (16, 1008, 1040, 1280, 66_560, MAX_ROWS), DIAMETER: (4,), VOLUME: (1, 2, 4, 16),
    COUNTERS: (3, 19, 21, 52, PLACES), INTERVAL: (2, 39, 41, 296, 4096),
    WINDOW: (26, 7999, 8001, 7744, 3904, 8192), BLOCK: (1, 39, 41, 56, 64),
}


def settings_cases():
    """Each setting, lower and higher, by one and by more, and by numbers of which the low bits are 0."""
    settings = (1024, 2, 3, 20, 40, 8000, 40)
    tracked = {4: 9, 7: 3, 12: 6}
    one = state_of(settings, tracked, 3, 1, 2)
    for field, values in OTHER_VALUES.items():
        sense = NEITHER if field == ROWS else OLDER_ONLY
        for value in values:
            other = state_of(changed(settings, (field, value)), tracked, 3, 1, 2)
            yield from pair_cases(one, other, sense, f"setting {field + 1}")


def remap_cases():
    """Each two entries swapped; some remaps held against themselves and each other; each number from 0
    to 15 missing in turn."""
    state = state_of((16, 2, 1, 2, 4, 4, 4), {4: 3}, 1, activations=1)
    for places in itertools.combinations(range(16), 2):
        for remap in (OURS, REVERSE):
            yield from pair_cases(state, state, OLDER_ONLY, "remap", remap, swapped(remap, *places))
    for remap, other in itertools.product((OURS, IDENTITY, REVERSE, ROTATED), repeat=2):
        sense, name = (BOTH, "nothing") if remap == other else (OLDER_ONLY, "remap")
        yield from pair_cases(state, state, sense, name, remap, other)
    for remap in (OURS, REVERSE):
        for place, number in enumerate(remap):
            for missing in ((number + 1) % 16, 15 - number, 16, number + 32, U32):
                spoiled = changed(remap, (place, missing))
                yield case(FINER, state, state, -14, "agree, first: every number missing", spoiled,
                           other_remap=remap)
                yield case(FINER, state, state, -14, "agree, second: every number missing", remap,
                           other_remap=spoiled)


def swapped(numbers, place, other):
    return changed(numbers, (place, numbers[other]), (other, numbers[place]))


def position_cases():
    """Each number of the position, in an empty summary, a full one and one between."""
    settings = (1024, 2, 1, 3, 4096, 8192, 64)
    for tracked in ({}, {0: 9}, {0: 9, 5: 7, 1023: 8}):
        one = state_of(settings, tracked, 3, 1, 2)
        for events in (0, 2, 257, 4097, 8191):
            other = state_of(settings, tracked, 3, events, 2)
            yield from pair_cases(one, other, OLDER_ONLY, "events")
        for activations in (0, 1, 3, 258, 2050, 4096):
            other = state_of(settings, tracked, 3, 1, activations)
            yield from pair_cases(one, other, OLDER_ONLY, "activations")
        for spillover in (0, 2, 4, 7):
            other = state_of(settings, tracked, spillover, 1, 2)
            yield from pair_cases(one, other, NEITHER, "spillover")
    whole = changed(settings, (ROWS, 16), (COUNTERS, 16))
    counts = {row: 7 + row % 3 for row in range(16)}
    yield from pair_cases(state_of(whole, counts, 3), state_of(whole, counts, 4), OLDER_ONLY,
                          "spillover, all rows tracked")


TABLES = ((1, 1), (2, 2), (PLACES, PLACES), (20, PLACES))  # so many places in use, of so many


def place_cases(tracked, counters):
    """A row, a count, and a row at the spillover, at each place in use."""
    settings = (1024, 2, 1, counters, 40, 130, 8)
    rows = [8 * place + 3 for place in range(tracked)]
    counts = {row: 5 + row % 7 for row in rows}
    one = state_of(settings, counts, 3, 1, 2)
    yield from pair_cases(one, one.copy(), BOTH, "nothing")
    for row in rows:
        rest = {place: count for place, count in counts.items() if place != row}
        for name, changes in (("a row", {row + 1: counts[row]}), ("a count", {row: counts[row] + 1}),
                              ("tracked, by a row", {})):
            other = state_of(settings, rest | changes, 3, 1, 2)
            yield from pair_cases(one, other, NEITHER, f"{name}, {tracked} of {counters} places")
        low = state_of(settings, rest | {row: 3}, 3, 1, 2)
        for name, changes in (("a row", {row - 1: 3}), ("tracked, by a row", {})):
            other = state_of(settings, rest | changes, 3, 1, 2)
            yield from pair_cases(low, other, OLDER_ONLY,
                                  f"{name} at the spillover, {tracked} of {counters} places")


def row_cases():
    """A row that is tracked above the spillover on one side only, and a row that alone is not tracked where
    the spillovers differ: each row of a small bank, and those at the ends of others."""
    for rows in (16, 528, MAX_ROWS):
        settings = (rows, 2, 1, 2, 4, 4096, 64)
        for row in range(16) if rows == 16 else (0, 1, 511, 512, rows - 2, rows - 1):
            one, other = state_of(settings, {row: 4}, 3), state_of(settings, {}, 3)
            yield from pair_cases(one, other, NEITHER, "each row, tracked on one side")
    settings = (16, 2, 1, 15, 4, 4, 4)
    for row in range(16):
        rest = {place: 7 for place in range(16) if place != row}
        one, other = state_of(settings, rest, 3), state_of(settings, rest, 4)
        yield from pair_cases(one, other, NEITHER, "spillover, all rows but one tracked")


def bit_cases():
    """Rows, counts and spillovers that differ in one bit."""
    settings = (MAX_ROWS, 2, 1, 2, 4, 4096, 64)
    for bit in range(18):
        one, other = (state_of(settings, {row: 5}, 1) for row in (0, 2**bit))
        yield from pair_cases(one, other, NEITHER, "one bit of a row")
    settings = (16, 2, 1, 2, 4, 4, 4)
    for bit in range(31):
        low = 400_000_000 & ~2**bit
        high = low + 2**bit
        one, other = (state_of(settings, {5: count}, 0) for count in (low, high))
        yield from pair_cases(one, other, NEITHER, "one bit of a count")
        one, other = (state_of(settings, {5: MAX_COUNT}, count) for count in (low, high))
        yield from pair_cases(one, other, NEITHER, "one bit of the spillover")


# Random states


def random_pair(rng):
    """Two states of which it is known whether they agree."""
    one = valid_state(rng, spillover=rng.choice((None, 0, 3)))
    other = one.copy()
    remap = other_remap = accepted_remap(rng)
    made = rng.choice(DIFFERENCES)(rng, one, other)
    one, other, sense, name = made or (one, other, BOTH, "nothing")
    if rng.random() < 0.2:
        other_remap = accepted_remap(rng)
    if sense == BOTH and remap != other_remap:
        sense, name = OLDER_ONLY, "remap"
    return pair_cases(one, other, sense, name, remap, other_remap)


def other_setting(rng, one, other):
    field = rng.choice((DIAMETER, VOLUME, INTERVAL, WINDOW, BLOCK))
    settings = one.settings
    least, most = {
        DIAMETER: (2, 4), VOLUME: (1, min(16, settings[COUNTERS])),
        INTERVAL: (max(1, one.position[ACTIVATIONS]), 4096),
        WINDOW: (max(-(-settings[ROWS] // settings[BLOCK]), one.position[EVENTS] + 1), 8192),
        BLOCK: (-(-settings[ROWS] // settings[WINDOW]), 64),
    }[field]
    values = {least, settings[field] - 1, settings[field] + 1, most} - {settings[field]}
    values = [value for value in values if least <= value <= most and (field != DIAMETER or value != 3)]
    if not values:
        return None
    other.settings = changed(settings, (field, rng.choice(values)))
    return one, other, OLDER_ONLY, f"setting {field + 1}"


def other_events(rng, one, other):
    other.position[EVENTS] = rng.randrange(one.settings[WINDOW])
    return differing(one, other, "events")


def other_activations(rng, one, other):
    other.position[ACTIVATIONS] = rng.randint(0, one.settings[INTERVAL])
    return differing(one, other, "activations")


def differing(one, other, name):
    return (one, other, OLDER_ONLY, name) if one.position != other.position else None


def equal_to_untracked(rng, one, other):
    """Rows tracked at the spillover on one side only."""
    spillover = one.position[SPILLOVER]
    kept = {row: count for row, count in one.tracked().items() if count != spillover}
    if len(kept) == one.position[TRACKED]:
        return None
    other = state_of(one.settings, kept, spillover, *one.position[:2])
    return one, other, OLDER_ONLY, "tracked, by rows at the spillover"


def all_rows_tracked(rng, one, other):
    """Where every row is tracked on both sides, no estimate shows the spillover."""
    settings = changed(one.settings, (ROWS, 16), (VOLUME, 2), (COUNTERS, rng.choice((16, 20))))
    counts_by_row = {row: rng.randint(5, 8) for row in range(16)}
    one = state_of(settings, counts_by_row, rng.randint(0, 2))
    other = state_of(settings, counts_by_row, rng.randint(3, 5))
    return one, other, OLDER_ONLY, "spillover, all rows tracked"


def other_counters(rng, one, other):
    """The same summary and position in tables of another length."""
    counters = one.settings[COUNTERS] + rng.randint(1, 3)
    if counters > PLACES:
        return None
    settings = changed(one.settings, (COUNTERS, counters))
    other = state_of(settings, one.tracked(), one.position[SPILLOVER], *one.position[:2])
    return one, other, OLDER_ONLY, "setting 4"


def other_settings(rng, one, other):
    """The same summary under settings of which several are others, as is the position."""
    counters = min(one.settings[COUNTERS] + rng.randint(1, 3), PLACES)
    settings = changed(one.settings, (COUNTERS, counters), (VOLUME, 1), (INTERVAL, 4096))
    if settings == one.settings:
        return None
    other = state_of(settings, one.tracked(), one.position[SPILLOVER])
    return one, other, OLDER_ONLY, "several settings"


def other_rows(rng, one, other):
    """The same tables, another bank."""
    rows = one.settings[ROWS] + 16
    if rows > min(one.settings[BLOCK] * one.settings[WINDOW], MAX_ROWS):
        return None
    other.settings = changed(one.settings, (ROWS, rows))
    return one, other, NEITHER, "setting 1"


def other_count(rng, one, other):
    if not one.position[TRACKED]:
        return None
    slot = rng.randrange(one.position[TRACKED])
    if other.counts[slot] == MAX_COUNT:
        return None
    other.counts[slot] += 1
    return one, other, NEITHER, "a count"


def swapped_counts(rng, one, other):
    """The same rows, and the same counts in another order."""
    tracked = one.position[TRACKED]
    if len(set(one.counts[:tracked])) < 2:
        return None
    slot = rng.choice([slot for slot in range(tracked) if one.counts[slot] != one.counts[0]])
    other.counts[0], other.counts[slot] = one.counts[slot], one.counts[0]
    return one, other, NEITHER, "two counts swapped"


def row_alike(rng, one, other):
    """A row tracked on one side and a row alike, with the same count, on the other."""
    one = valid_state(rng, large_settings(rng), rng.randint(1, 20), rng.choice((0, 3)))
    rows, spillover, tracked = one.settings[ROWS], one.position[SPILLOVER], one.tracked()
    pairs = [(row, like) for row, count in tracked.items() if count > spillover
             for like in alike(rows, row) if like not in tracked]
    if not pairs:
        return None
    row, like = rng.choice(pairs)
    tracked[like] = tracked.pop(row)
    other = state_of(one.settings, tracked, spillover, *one.position[:2])
    return one, other, NEITHER, "a row, alike in 16 bits"


def other_spillover(rng, one, other):
    least = min(one.tracked().values(), default=MAX_COUNT)
    if one.position[SPILLOVER] >= least or one.position[TRACKED] == one.settings[ROWS]:
        return None
    other.position[SPILLOVER] += 1
    return one, other, NEITHER, "spillover"


DIFFERENCES = (
    other_setting, other_events, other_activations, equal_to_untracked, all_rows_tracked, other_counters,
    other_settings, other_rows, other_count, swapped_counts, row_alike, other_spillover,
    lambda rng, one, other: None,
)


# Refused calls

FAULTS = {FINER: (1, 2, 3, 4, 5, 6, 7, 8, 14, 21), OLDER: (1, 2, 3, 4, 5, 6, 7, 8, 21)}


def decisive(first, second):
    """The first's settings, the second's, then whichever side has the lowest of the others."""
    for faults in (first, second):
        if any(fault <= 7 for fault in faults):
            return min(faults)
    return min((*first, *second))


def faulty_side(rng, faults):
    """A state and a remap with these faults."""
    state = rng.choice(list(BROKEN_RULES.values()))(rng) if 21 in faults else valid_state(rng)
    remap = refused_remap(rng, U32) if 14 in faults else accepted_remap(rng)
    if 8 in faults:
        for table in rng.choice(([state.rows], [state.counts], [state.rows, state.counts])):
            resize(rng, table, (0, 1, U32))
    for fault in sorted(faults):
        if fault <= 7:
            value = bad_value(rng, state.settings, fault - 1)
            state.settings = changed(state.settings, (fault - 1, value))
    return state, remap


def refused_pair(rng, call, first, second, kind):
    (one, remap), (other, other_remap) = faulty_side(rng, first), faulty_side(rng, second)
    return case(call, one, other, -decisive(first, second), kind, remap, other_remap=other_remap)


def fault_pair_kind(call, fault, other):
    number = decisive([fault], [other])
    side = "both sides" if fault == other else "the first" if number == fault else "the second"
    return f"{call}, both faulty: {number} of {side} decides"


def refused_cases(rng):
    """Each fault on either side, every two of both sides, the same one on both, and several."""
    for call, faults in FAULTS.items():
        for fault in faults:
            yield refused_pair(rng, call, [fault], [], f"{call}, first: {fault} alone")
            yield refused_pair(rng, call, [], [fault], f"{call}, second: {fault} alone")
            state, remap = faulty_side(rng, [fault])
            yield case(call, state, state.copy(), -fault, f"{call}, the same on both sides: {fault}", remap,
                       other_remap=remap)
        for fault, other in itertools.product(faults, repeat=2):
            yield refused_pair(rng, call, [fault], [other], fault_pair_kind(call, fault, other))
        for _ in range(100):
            first, second = ([fault for fault in faults if rng.random() < chance]
                             for chance in rng.choices((0.05, 0.1, 0.4), k=2))
            tables = [fault for fault in faults if fault >= 8]
            first += [fault for fault in tables if rng.random() < 0.4 and fault not in first]
            second = second or [rng.choice(tables)]
            yield refused_pair(rng, call, first, second, f"several faults: {call}")


def broken_pairs(rng):
    """Every rule broken, and every sort of refused remap, on either side."""
    for rule, make in BROKEN_RULES.items():
        for call in PAIRS:
            state, remap = make(rng), accepted_remap(rng)
            yield case(call, state, valid_state(rng), -21, f"{call}, first: {rule}", remap)
            yield case(call, valid_state(rng), state, -21, f"{call}, second: {rule}", other_remap=remap)
    for sort in REFUSED:
        state, remap = valid_state(rng), refused_remap(rng, U32, sort)
        yield case(FINER, state, state.copy(), -14, f"{FINER}, first: remap, {sort}", remap)
        yield case(FINER, state, state.copy(), -14, f"{FINER}, second: remap, {sort}", other_remap=remap)


def random_agreements(rng):
    """About 3,300 cases."""
    for _ in range(300):
        yield from random_pair(rng)
    for _ in range(3):
        yield from refused_cases(rng)
    for _ in range(12):
        yield from broken_pairs(rng)


# What has to occur


def agreement_kinds(case):
    """The sorts of an accepted case."""
    if case.call == FINER and case.state == case.argument:
        for entry in range(16):
            if case.remap[entry] != case.other_remap[entry]:
                yield f"agree: remaps alone differ, in entry {entry}"


AGREED = {
    BOTH: ("nothing",),
    OLDER_ONLY: (
        *(f"setting {number}" for number in range(2, 8)), "several settings", "remap", "events",
        "activations", "spillover, all rows tracked", "tracked, by rows at the spillover",
        *(f"{name} at the spillover, {tracked} of {counters} places"
          for name in ("a row", "tracked, by a row") for tracked, counters in TABLES)),
    NEITHER: (
        "setting 1", "spillover", "spillover, all rows but one tracked", "each row, tracked on one side",
        "a count", "two counts swapped", "a row, alike in 16 bits",
        *(f"one bit of {name}" for name in ("a row", "a count", "the spillover")),
        *(f"{name}, {tracked} of {counters} places"
          for name in ("a row", "a count", "tracked, by a row") for tracked, counters in TABLES)),
}
AGREEMENT_KINDS = (
    *(f"{call} accepted{bank}" for call in PAIRS for bank in ("", ", large bank")),
    *(f"{call} {sense}: {name}" for sense, names in AGREED.items() for name in names for call in PAIRS),
    *(f"agree: remaps alone differ, in entry {entry}" for entry in range(16)),
    *(f"{call} refused with {fault}" for call in PAIRS for fault in FAULTS[call]),
    *(f"{call}, {where}" for call in PAIRS for fault in FAULTS[call]
      for where in (f"first: {fault} alone", f"second: {fault} alone", f"the same on both sides: {fault}",
                    f"both faulty: {fault} of both sides decides")),
    *(f"{call}, both faulty: {fault} of the {side} decides" for call in PAIRS
      for fault in FAULTS[call] if fault != 21 for side in SIDES),
    *(f"several faults: {call}" for call in PAIRS),
    *(f"{call}, {side}: {rule}" for rule in BROKEN_RULES for call in PAIRS for side in SIDES),
    *(f"{FINER}, {side}: remap, {sort}" for sort in REFUSED for side in SIDES),
    *(f"{FINER}, {side}: every number missing" for side in SIDES),
)
