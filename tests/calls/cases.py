"""The calls that are compared: sweeps around limits, runs, states that no run reaches, states that
break one rule each, and refused calls; a set up and an activation with any remap, an activation with
any hold. agreement.py and twins.py have those of agreement and figures.py those of a row's figure, besides
the ones in runs.

A Case is a call with what it is lent, the number that it has to answer, the state that it has to leave
and the rows that an event has to name where these are known.
"""

import collections

from comparison import (
    BLOCK, COUNTERS, DIAMETER, INTERVAL, MAX_ROWS, ROWS, U32, VOLUME, WINDOW, alike, changed,
)
from holds import LONGEST, accepted_hold, is_accepted_hold, refused_hold
from remaps import (
    IDENTITY, OURS, REFUSED, REVERSE, ROTATED, accepted_remap, logical_row, refused_remap,
)
from states import (
    ACTIVATIONS, BROKEN_RULES, MAX_COUNT, SPILLOVER, State, TRACKED, any_settings, bad_value, edges,
    garbage, random_physical_row, resize, state_of, valid_state,
)

# What the model has to give is None where only the model knows it. The other remap is that of the state
# that is the argument.
Case = collections.namedtuple("Case",
                              "call state argument number kind remap hold left other_remap named")


def case(call, state, argument=None, number=None, kind=None, remap=OURS, hold=1, left=None,
         other_remap=OURS, named=None):
    """The argument is a logical row, a list of picks or another state, as the call needs."""
    return Case(call, state, argument, number, kind, remap, hold, left, other_remap, named)


def passes_interval(state, hold):
    """Whether the units would carry the activations past the interval."""
    return state.position[ACTIVATIONS] + hold > state.settings[INTERVAL]


# Sweeps around limits; edges.calls has the edges with answers written by hand


def sweep_cases():
    example = (16, 2, 1, 2, 4, 4, 4)
    for activations, number in ((0, 0), (3, 0), (4, -22)):
        state = state_of(example, {4: 3}, 1, activations=activations)
        kind = f"activation {activations + 1} of an interval of 4"
        yield case("activate", state, 5, number, kind)
    yield case("refresh", state_of(example, {4: 3}, 1, activations=4), [9], 1,
               "event in a full interval")

    for diameter in (2, 4):
        settings = changed(example, (DIAMETER, diameter), (COUNTERS, 12))
        for row in (0, 1, 2, 13, 14, 15):
            for tracked, remap in zip(((), range(12), range(4, 16)), SWEPT):
                state = state_of(settings, {row: 5 for row in tracked}, 2)
                kind = f"end of the bank, B {diameter}"
                yield case("activate", state, logical_row(remap, row), 0, kind, remap)

    yield from subarray_cases()
    yield from remap_cases(example)
    yield from hold_cases(example)

    several = changed(example, (VOLUME, 4), (COUNTERS, 6), (WINDOW, 6), (BLOCK, 3))
    for tracked in range(7):
        for event in range(6):
            state = state_of(several, {2 * row: 3 + row % 2 for row in range(tracked)}, 1, event, 2)
            picks = [U32, 7, U32, 7, 8, 9]
            yield case("refresh", state, picks, min(4, tracked), "events of a whole window")
    single = changed(example, (WINDOW, 1), (BLOCK, 16))
    yield case("refresh", state_of(single, {4: 3, 6: 2}, 1), [9], 1, "window of one event")

    full = state_of(example, {4: MAX_COUNT, 6: MAX_COUNT}, MAX_COUNT)
    yield case("activate", full, 5, 0, "counts at the most")
    yield case("refresh", full, [9], 1, "counts at the most")


SWEPT = (OURS, REVERSE, IDENTITY, ROTATED)


def remap_cases(example):
    """Every remainder under some remaps; each number from 0 to 15 missing in turn."""
    settings = changed(example, (ROWS, 48), (WINDOW, 12))
    for remap in SWEPT:
        for row in range(16, 32):
            state = state_of(settings, {15: 2, 24: 2}, 1)
            yield case("activate", state, row, 0, "every remainder", remap)
    for remap in (OURS, REVERSE):
        for place, number in enumerate(remap):
            for other in ((number + 1) % 16, 15 - number, 16, number + 32, U32):
                spoiled = changed(remap, (place, other))
                state = state_of(example, {4: 3}, 1, activations=1)
                yield case("set_up", state, None, -14, "every number missing", spoiled)
                yield case("activate", state, 5, -14, "every number missing", spoiled)


SWEPT_HOLDS = (*range(18), 32, 256, 257, 65_537, 999_999, 2**31 + 1, U32 - 15, U32)
OTHER_ROWS = (16, 17, U32)  # of a bank of 16


def hold_cases(example):
    """Every hold from each end of an interval, and before other faults."""
    for hold in SWEPT_HOLDS:
        state = state_of(changed(example, (INTERVAL, 20)), {4: 3, 6: 2}, 1, activations=2)
        good, zeros = is_accepted_hold(hold), (0,) * 16
        yield case("activate", state, 5, 0 if good else -15, "every hold", hold=hold)
        for row in OTHER_ROWS:
            yield case("activate", state, row, -9, "every hold", hold=hold)
            yield case("activate", state, row, -9, "every hold", zeros, hold)
        if good:
            yield from interval_cases(example, hold)
        else:
            broken = state_of(example, {4: 3}, 1, events=4)
            yield case("activate", state, 5, -15, "every hold", zeros, hold)
            yield case("activate", broken, 5, -15, "every hold", hold=hold)
            yield case("activate", broken, 5, -15, "every hold", zeros, hold)


def interval_cases(example, hold):
    """Activations that just fill an interval, pass it by one unit and by more, and activations so
    far that are above the interval, up to where a sum of 32 bits would be small again."""
    for interval in (1, 4, 15, 16, 17, 20, 4096):
        settings = changed(example, (INTERVAL, interval))
        for activations in {max(0, interval - LONGEST), interval - hold, interval - hold + 1, interval}:
            if activations >= 0:
                state = state_of(settings, {4: 3, 6: 2}, 1, activations=activations)
                number = -22 if passes_interval(state, hold) else 0
                yield case("activate", state, 5, number, "ends of an interval", hold=hold)
        for activations in (interval + 1, interval + LONGEST, 2**32 - hold, U32):
            state = state_of(settings, {4: 3, 6: 2}, 1, activations=activations)
            yield case("activate", state, 5, -21, "above the interval", hold=hold)


# The rows of banks, and edges of subarrays and ends in them.
CUT_BANKS = {
    512: (512,), 528: (512, 528), 1040: (512, 1024, 1040), 65_552: (65_536, 65_552),
    131_072: (65_536, 131_072), 262_128: (65_536, 131_072, 262_128),
    262_144: (65_536, 131_072, 196_608, 262_144),
}


def subarray_cases():
    """Rows at the edges of subarrays and at the end of a shorter last one, activated, picked and
    in a block; and a bank of one whole subarray. In large banks also with all rows tracked that
    are alike."""
    for rows, ends in CUT_BANKS.items():
        near = [row for end in ends for row in range(end - 4, end + 4) if row < rows]
        block = 3 if rows < 65_536 else 63
        for diameter in (2, 4):
            settings = (rows, diameter, 2, 12, 4, -(-rows // block), block)
            kind = f"edge of a subarray, N {rows}, B {diameter}"
            for row in near:
                like = [place for beside in (row - 1, row, row + 1) for place in alike(rows, beside)]
                rows_tracked = (), range(row - 2, row + 3), range(row - 12, row), like
                for tracked, remap in zip(rows_tracked, SWEPT):
                    counts = {place: 5 for place in tracked if place < rows}
                    state = state_of(settings, counts, 2)
                    yield case("activate", state, logical_row(remap, row), 0, kind, remap)
                yield case("refresh", state_of(settings, {row: 5}, 2), [U32] * 3, 1, kind)
            for event in sorted({end // block + beside for end in ends for beside in range(-2, 3)}):
                if event < settings[WINDOW]:
                    yield case("refresh", state_of(settings, {}, 2, event), [U32] * 3, 0, kind)


# Runs


def run_cases(rng, model, steps):
    """The calls of one run from its set up, each on the memory that the one before left, with one
    remap for all or another for each; gives the state that the last one left."""
    settings = any_settings(rng)
    tables = [garbage(rng, settings[COUNTERS]) for _ in range(2)]
    remap = accepted_remap(rng)
    same = rng.random() < 0.5
    first = case("set_up", State(settings, *tables, garbage(rng, 4)), None, 0, "set up of a run",
                 remap)
    yield first
    state = model.ask(first).state
    earlier = state
    hot_rows = [rng.randrange(settings[ROWS]) for _ in range(rng.choice((1, 2, 3, 6)))]
    if edges(settings) and rng.random() < 0.7:
        edge = rng.choice(edges(settings))
        hot_rows = [edge + rng.randint(-4, 3) for _ in hot_rows]
    elif settings[ROWS] > 65_536:
        hot_rows = [row for hot in hot_rows for row in alike(settings[ROWS], hot)]
    for _ in range(steps):
        remap = remap if same else accepted_remap(rng)
        step = run_step(rng, state, earlier, hot_rows, remap)
        yield step
        state = model.ask(step).state
        if rng.random() < 0.2:
            earlier = state
    return state


def run_step(rng, state, earlier, hot_rows, remap):
    """The number is left to the model, which refuses none of these for the state."""
    settings = state.settings
    chance = rng.random()
    hold = accepted_hold(rng)
    if chance < 0.02:
        row = settings[ROWS] + rng.choice((0, 1, 7))
        return case("activate", state, row, -9, "fault in a run", remap, hold)
    if chance < 0.03:
        return case("activate", state, rng.choice(hot_rows), -15, "fault in a run", remap,
                    refused_hold(rng, U32))
    if chance < 0.04:
        return case("activate", state, rng.choice(hot_rows), -14, "fault in a run",
                    refused_remap(rng, U32), hold)
    if chance < 0.06:
        return case("refresh", state, garbage(rng, settings[VOLUME] - 1), -10, "fault in a run")
    if chance < 0.09:
        number = 1 if state == earlier else None
        return case("estimates_agree", state, earlier, number, "older agreement in a run")
    if chance < 0.12:
        other_remap = remap if rng.random() < 0.7 else accepted_remap(rng)
        same = state == earlier and remap == other_remap
        return case("agree", state, earlier, int(same), "agreement in a run", remap,
                    other_remap=other_remap)
    if chance < 0.15:
        return case("row_limit", state, rng.randrange(settings[ROWS]), None, "figure in a run", remap)
    full = state.position[ACTIVATIONS] == settings[INTERVAL]
    if chance < 0.23 or full and chance < 0.9:
        picks = garbage(rng, settings[VOLUME] + rng.choice((0, 0, 1, 5)))
        return case("refresh", state, picks, None, "event of a run")
    row = rng.choice(hot_rows) if rng.random() < 0.8 else rng.randrange(settings[ROWS])
    row = logical_row(remap, row)
    if not full and rng.random() < 0.8:
        hold = min(hold, settings[INTERVAL] - state.position[ACTIVATIONS])
    number = -22 if passes_interval(state, hold) else 0
    return case("activate", state, row, number, "activation of a run", remap, hold)


# States that no run reaches


def valid_cases(rng):
    """A case of each call on an accepted state."""
    state = valid_state(rng)
    remap, hold = accepted_remap(rng), accepted_hold(rng)
    row = logical_row(remap, random_physical_row(rng, state))
    number = -22 if passes_interval(state, hold) else 0
    yield case("activate", state, row, number, "valid state", remap, hold)
    state = valid_state(rng)
    volume = state.settings[VOLUME]
    picked = min(volume, state.position[TRACKED])
    picks = garbage(rng, volume + rng.choice((0, 0, 1, 5)))
    yield case("refresh", state, picks, picked, "valid state")


def with_room(rng, settings, units, spillover=None):
    """An accepted state with room for so many units."""
    state = valid_state(rng, changed(settings, (INTERVAL, rng.choice((units, 100, 4096)))),
                        spillover=spillover)
    most = state.settings[INTERVAL] - units
    state.position[ACTIVATIONS] = rng.choice((0, most, rng.randint(0, most)))
    return state


def units_cases(rng, model):
    """A hold in two parts or unit by unit, and then whole, which has to come to the same."""
    hold = rng.randint(2, LONGEST)
    first = rng.randint(1, hold - 1)
    parts = rng.choice(((first, hold - first), (1,) * hold))
    whole = with_room(rng, any_settings(rng), hold, spillover=rng.randint(0, 10**9))
    whole.counts = [min(count, MAX_COUNT - 100) for count in whole.counts]
    remap = accepted_remap(rng)
    row = logical_row(remap, random_physical_row(rng, whole))
    state = whole
    for part in parts:
        step = case("activate", state, row, 0, "part of a hold", remap, part)
        yield step
        state = model.ask(step).state
    yield case("activate", whole, row, 0, "hold in parts and whole", remap, hold, state)


def past_most_cases(rng, model):
    """Units that carry counts or the spillover to the most that they may be and past it, and each
    call behind them, which gets 21 where they passed it."""
    hold = rng.randint(2, LONGEST)
    settings = changed(any_settings(rng), (VOLUME, 1), (COUNTERS, rng.choice((1, 2, 3, 5, 16))))
    spillover = MAX_COUNT - rng.choice((0, 0, 1, 2, hold, 2 * hold, rng.randint(3, 40)))
    state = with_room(rng, settings, hold + 1, spillover)
    remap = accepted_remap(rng)
    row = logical_row(remap, random_physical_row(rng, state))
    step = case("activate", state, row, 0, "counts close to the most", remap, hold)
    yield step
    after = model.ask(step).state
    passed = max(*after.counts, after.position[SPILLOVER]) > MAX_COUNT
    kind = "behind units that passed the most" if passed else "behind units close to the most"
    yield case("activate", after, row, -21 if passed else 0, kind, remap)
    yield case("refresh", after, garbage(rng, 1), -21 if passed else None, kind)
    for call in ("agree", "estimates_agree"):
        yield case(call, after, after, -21 if passed else 1, kind)


# Refused calls


def broken_cases(rng):
    """Every rule broken in every call that tests it, and in a set up, which does not."""
    for rule, make in BROKEN_RULES.items():
        state = make(rng)
        yield case("activate", state, random_row(rng, state), -21, f"activate: {rule}",
                   accepted_remap(rng), accepted_hold(rng))
        state = make(rng)
        yield case("refresh", state, garbage(rng, state.settings[VOLUME]), -21, f"refresh: {rule}")
        yield case("set_up", make(rng), None, 0, "set up on a broken state", accepted_remap(rng))


def random_row(rng, state):
    return rng.randrange(state.settings[ROWS])


def random_broken_state(rng):
    return rng.choice(list(BROKEN_RULES.values()))(rng)


ORDER = (1, 2, 3, 4, 5, 6, 7, 8, 9, 10, 15, 14, 21, 22)  # in which refusals are tested


def faulty_case(rng, several):
    """A call with one fault, or with some at once, of which the first in order decides."""
    call = rng.choice(("set_up", "activate", "refresh"))
    state = random_broken_state(rng) if several else valid_state(rng)
    possible = {"set_up": (1, 8, 14), "activate": (1, 8, 9, 15, 14), "refresh": (1, 8, 10)}
    chosen = rng.sample(possible[call], rng.randint(1, len(possible[call])) if several else 1)
    numbers = []
    kind = "several faults" if several else "one fault"
    remap, hold = accepted_remap(rng), accepted_hold(rng)
    if 15 in chosen:
        hold = refused_hold(rng, U32)
        numbers.append(15)
    if 14 in chosen:
        sort = rng.choice(list(REFUSED))
        remap = refused_remap(rng, U32, sort)
        kind = kind if several else f"remap refused, {sort}"
        numbers.append(14)
    row = random_row(rng, state)
    if 9 in chosen:
        rows = state.settings[ROWS]
        row = rng.choice((rows, rows + 1, MAX_ROWS, MAX_ROWS + rng.randrange(rows), U32))
        numbers.append(9)
    length = state.settings[VOLUME]
    if 10 in chosen:
        length = rng.choice((0, length - 1))
        numbers.append(10)
    if 8 in chosen:
        for table in rng.choice(([state.rows], [state.counts], [state.rows, state.counts])):
            resize(rng, table, (0, 1, U32))
        numbers.append(8)
    if 1 in chosen:
        numbers.append(spoil_settings(rng, state, several))
    number = min(numbers, key=ORDER.index)
    argument = {"set_up": None, "activate": row, "refresh": garbage(rng, length)}[call]
    return case(call, state, argument, -number, f"{kind}: {call}", remap, hold)


def spoil_settings(rng, state, several):
    """Makes settings refused; the number is that of the first one refused."""
    fields = rng.sample(range(7), rng.choice((1, 1, 2, 3)) if several else 1)
    for field in fields:
        state.settings = changed(state.settings, (field, bad_value(rng, state.settings, field)))
    return min(fields) + 1


# All cases


def random_cases(rng, model):
    """About 5,300 cases."""
    for steps in (5, 20, 40) * 27:
        yield from run_cases(rng, model, steps)
    for _ in range(500):
        yield from valid_cases(rng)
    for _ in range(60):
        yield from units_cases(rng, model)
    for _ in range(150):
        yield from past_most_cases(rng, model)
    for _ in range(12):
        yield from broken_cases(rng)
    for _ in range(450):
        yield faulty_case(rng, several=False)
    for _ in range(450):
        yield faulty_case(rng, several=True)
