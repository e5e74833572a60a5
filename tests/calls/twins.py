"""Runs of two trackers that agree (document 02, C-19): made in two ways, they get the same calls, and each
has to answer and leave for the second what it did for the first. And trackers that agree in the older
sense alone, whose next events name other rows.
"""

from agreement import BOTH, OLDER_ONLY, PAIRS, pair_cases
from cases import case, run_cases, run_step, with_room
from comparison import BLOCK, COUNTERS, INTERVAL, ROWS, VOLUME, WINDOW, changed
from holds import LONGEST
from remaps import accepted_remap, logical_row
from states import MAX_COUNT, State, any_settings, garbage, random_physical_row, state_of


def twin_cases(rng, model, way):
    """Two trackers made in this way, and the same calls on both; the second has to answer as the first."""
    remap = accepted_remap(rng)
    one, other = yield from WAYS[way](rng, model, remap)
    name = f"made in two ways, {way}"
    earlier, hot_rows = one, [rng.randrange(one.settings[ROWS]) for _ in range(4)]
    yield from pair_cases(one, other, BOTH, name, remap)
    for _ in range(20):
        step = run_step(rng, one, earlier, hot_rows, remap)
        yield step
        answer = model.ask(step)
        argument = garbage(rng, len(step.argument)) if step.call == "refresh" else step.argument
        refused = "refused " if answer.number < 0 else ""
        twin = step._replace(state=other, argument=argument, number=answer.number, left=answer.state,
                             named=answer.named, kind=f"{refused}{step.call} of a tracker that agrees")
        yield twin
        earlier, one, other = one, answer.state, model.ask(twin).state
    yield from pair_cases(one, other, BOTH, name, remap)


# The ways: each yields its calls and gives the two states


def by_hand(rng, model, remap):
    """A state that a run reached, and one written down."""
    one = yield from run_cases(rng, model, rng.choice((1, 5, 20)))
    events, activations, _, spillover = one.position
    return one, state_of(one.settings, one.tracked(), spillover, events, activations)


def fresh(rng, model, settings, remap, kind):
    """A set up on any memory."""
    tables = [garbage(rng, settings[COUNTERS]) for _ in range(2)]
    step = case("set_up", State(settings, *tables, garbage(rng, 4)), None, 0, kind, remap)
    yield step
    return model.ask(step).state


def set_up_twice(rng, model, remap):
    settings = any_settings(rng)
    one = yield from fresh(rng, model, settings, remap, "first set up of two")
    other = yield from fresh(rng, model, settings, remap, "second set up of two")
    return one, other


def activated(model, state, steps, kind):
    """The state behind activations, each a logical row, a remap and a hold."""
    for row, remap, hold in steps:
        step = case("activate", state, row, 0, kind, remap, hold)
        yield step
        state = model.ask(step).state
    return state


def with_low_counts(rng, units):
    """An accepted state with room for so many units, whose counts stay in range behind more calls."""
    state = with_room(rng, any_settings(rng), units, spillover=rng.randint(0, 10**9))
    state.counts = [min(count, MAX_COUNT - 10_000) for count in state.counts]
    return state


def units_apart(rng, model, remap):
    """A hold of several units, and as many holds of one."""
    hold = rng.randint(2, LONGEST)
    state = with_low_counts(rng, hold)
    row = logical_row(remap, random_physical_row(rng, state))
    one = yield from activated(model, state, [(row, remap, hold)], "units together")
    other = yield from activated(model, state, [(row, remap, 1)] * hold, "units apart")
    return one, other


def by_other_remaps(rng, model, remap):
    """The same physical row, by two remaps."""
    state = with_low_counts(rng, 1)
    row = random_physical_row(rng, state)
    states = []
    for each in (remap, accepted_remap(rng)):
        steps = [(logical_row(each, row), each, 1)]
        states.append((yield from activated(model, state, steps, "one of two remaps")))
    return states


def in_other_order(rng, model, remap):
    """Two rows without a common victim, in a summary with room for all victims of both."""
    settings = changed(any_settings(rng), (ROWS, 48), (VOLUME, 2), (COUNTERS, rng.randint(8, 20)),
                       (INTERVAL, 9), (WINDOW, 60))
    state = yield from fresh(rng, model, settings, remap, "set up before two orders")
    rows = [logical_row(remap, row) for row in (rng.randint(0, 15), rng.randint(20, 47))]
    states = []
    for order in (rows, rows[::-1]):
        steps = [(row, remap, 1) for row in order]
        states.append((yield from activated(model, state, steps, "one of two orders")))
    return states


def at_window_end(rng, model, remap):
    """A set up, and a window's last event with nothing tracked and an empty block."""
    settings = any_settings(rng)
    while settings[WINDOW] - 1 < -(-settings[ROWS] // settings[BLOCK]):
        settings = any_settings(rng)
    one = yield from fresh(rng, model, settings, remap, "set up beside a window's end")
    last = state_of(settings, {}, rng.randint(0, MAX_COUNT), settings[WINDOW] - 1)
    step = case("refresh", last, garbage(rng, settings[VOLUME]), 0, "window's end beside a set up",
                left=one)
    yield step
    return one, model.ask(step).state


WAYS = {
    "reached and written down": by_hand, "set up twice": set_up_twice,
    "units together and apart": units_apart, "by two remaps": by_other_remaps,
    "in two orders": in_other_order, "by a set up and a window's end": at_window_end,
}


# Trackers that agree in the older sense alone


def parting_cases(rng):
    """Equal estimates of which one side, or each, tracks rows at the spillover, and an event of each, which
    names other rows."""
    settings = changed(any_settings(rng), (VOLUME, rng.randint(1, 8)))
    settings = changed(settings, (COUNTERS, rng.randint(settings[VOLUME], 12)))
    volume, spillover = settings[VOLUME], rng.randint(1, MAX_COUNT - 9)
    rows = rng.sample(range(settings[ROWS]), 16)
    above = {row: spillover + rng.randint(1, 9) for row in rows[:rng.randrange(volume)]}
    left = settings[COUNTERS] - len(above)
    low, other_low = rows[8:8 + min(4, rng.randint(1, left))], rows[12:12 + min(4, rng.randint(0, left))]
    events = rng.randrange(settings[WINDOW])
    states = [state_of(settings, above | dict.fromkeys(more, spillover), spillover, events)
              for more in (low, other_low)]
    yield from pair_cases(*states, OLDER_ONLY, "before events that name other rows", accepted_remap(rng))
    for state, more in zip(states, (low, other_low)):
        named = sorted(above, key=lambda row: (-above[row], row)) + sorted(more)
        yield case("refresh", state, garbage(rng, volume), len(named[:volume]),
                   "event behind equal estimates that names other rows", named=named[:volume])


def random_twins(rng, model):
    """About 2,300 cases."""
    for way in WAYS:
        for _ in range(6):
            yield from twin_cases(rng, model, way)
    for _ in range(60):
        yield from parting_cases(rng)


TWIN_KINDS = (
    *(f"{call} {BOTH}: made in two ways, {way}" for way in WAYS for call in PAIRS),
    *(f"{call} of a tracker that agrees"
      for call in ("activate", "refused activate", "refresh", "refused refresh", "row_limit", *PAIRS)),
    "first set up of two", "second set up of two", "units together", "units apart", "one of two remaps",
    "set up before two orders", "one of two orders", "set up beside a window's end",
    "window's end beside a set up",
    *(f"{call} {OLDER_ONLY}: before events that name other rows" for call in PAIRS),
    "event behind equal estimates that names other rows",
)
