#!/usr/bin/env python3
"""Compares the library's set up, activation, refresh event, agreements and a row's figure with the model.

    tools/programs test_calls
    python3 tests/calls/compare.py [--seed N] [--program FILE]

The program of crates/test_calls makes the library's calls. Builds the model, then compares the
number and all lent memory after each call: on document 01's example and on edges, with answers
written by hand (example.calls, edges.calls), and on the calls of cases.py, agreement.py, twins.py and
figures.py, the random ones with one fixed and one fresh seed (--seed repeats a fresh one). What the model
gives is also held against what the case was made for. Queries and answers stay in target/calls/.
Exit status: 0 all equal; 1 a difference; 2 something is missing or cannot be built.
"""

import argparse
import collections
import os
import pathlib
import random
import struct
import subprocess
import sys

sys.dont_write_bytecode = True
sys.path.insert(0, str(pathlib.Path(__file__).resolve().parents[1]))
from agreement import AGREEMENT_KINDS, PAIRS, agreement_kinds, agreement_sweeps, random_agreements
from cases import CUT_BANKS, ORDER, case, passes_interval, random_cases, sweep_cases
from comparison import (
    BLOCK, BUILD_MODEL, COUNTERS, DIAMETER, FIXED_SEED, INTERVAL, MODEL, ROOT, ROWS, Run, Tally,
    TIME_LIMIT, VOLUME, WINDOW, arguments_with_seeds, build, built, give_up, read_figures,
)
from figures import FIGURE_KINDS, figure_kinds, figure_sweeps, random_figures
from holds import LONGEST, is_accepted_hold
from remaps import NAMES, OURS, REFUSED, is_accepted, physical_row
from states import (
    ACTIVATIONS, BROKEN_RULES, EVENTS, MAX_COUNT, PLACES, SPILLOVER, State, block_of, cuts, edges, listed,
)
from twins import TWIN_KINDS, random_twins

HERE = "tests/calls"
OUT = "target/calls"
WRITTEN = {"example": "document 01's example", "edges": "edges"}
MODEL_CALLS = [MODEL, "calls"]
WITH_REMAP = ("set_up", "activate", "row_limit", "agree")


# Queries and answers of the model

# The number, the state that is left and the rows that an event names.
Answer = collections.namedtuple("Answer", "number state named")


def query(case):
    parts = [case.call, str(case.state)]
    if case.call == "row_limit":
        parts = [case.call, *map(str, case.state.settings), listed(case.state.position)]
    if case.call == "refresh":
        parts.append(listed(case.argument))
    elif case.argument is not None:
        parts.append(str(case.argument))
    if case.call == "activate":
        parts.append(str(case.hold))
    if case.call in WITH_REMAP:
        parts += ["remap", *map(str, case.remap)]
    if case.call == "agree":
        parts += map(str, case.other_remap)
    return " ".join(parts)


def answered(case, answer):
    """What an answer line says; a figure hands back no state."""
    number, *rest = [int(word) for word in answer.split()]
    if case.call == "row_limit":
        return Answer(number, case.state, None)
    lists, rest = read_lists(rest, 3)
    named = None
    if case.call == "refresh" and number >= 0:
        named = read_lists(rest, 1)[0][0][:number]
    return Answer(number, State(case.state.settings, *lists), named)


def read_lists(numbers, count):
    """This many lists, each behind its length, and the numbers behind them."""
    lists, place = [], 0
    for _ in range(count):
        lists.append(numbers[place + 1:place + 1 + numbers[place]])
        place += 1 + numbers[place]
    return lists, numbers[place:]


def read_query(text):
    """The case of a query; where remaps are left out, they are our own."""
    text, _, remaps = text.partition(" remap ")
    remaps = tuple(map(int, remaps.split()))
    remap, other_remap = remaps[:16] or OURS, remaps[16:] or OURS
    call, *words = text.split()
    numbers = [int(word) for word in words]
    if call == "row_limit":
        (position,), rest = read_lists(numbers[7:], 1)
        return case(call, State(tuple(numbers[:7]), [], [], position), rest[0], remap=remap)
    state, rest = read_state(numbers)
    if call == "activate":
        return case(call, state, rest[0], remap=remap, hold=rest[1])
    if call == "refresh":
        return case(call, state, read_lists(rest, 1)[0][0])
    if call in PAIRS:
        return case(call, state, read_state(rest)[0], remap=remap, other_remap=other_remap)
    return case(call, state, remap=remap)


def read_state(numbers):
    lists, rest = read_lists(numbers[7:], 3)
    return State(tuple(numbers[:7]), *lists), rest


# The program of crates/test_calls: requests and answers of 32-bit words, the lowest byte first
#
# A request: the call, settings, position, row, lengths of both tables and of the picks, rows,
# counts, picks; then the second state of an agreement: settings, position, lengths, rows, counts;
# then the remap, which is not looked at in an event or the older agreement, the hold, which is looked at
# in an activation alone, and the second state's remap, which is looked at in the finer agreement alone.
# A figure looks at the settings, the position, the row and the remap.
# An answer: the refusal or 0, the value, the position, rows, counts, picks, all as after the call.

CALLS = ("set_up", "activate", "refresh", "agree", "row_limit", "estimates_agree")
PICKS = 32  # places for the picks
REQUEST = struct.Struct(f"<{16 + 2 * PLACES + PICKS + 13 + 2 * PLACES + 16 + 1 + 16}I")
ANSWER = struct.Struct(f"<{6 + 2 * PLACES + PICKS}I")
MARGIN = 0xb5a2c3d4  # stands behind every list and has to stay there


def padded(numbers, places):
    if len(numbers) > places:
        give_up(f"{len(numbers)} numbers in place of at most {places}")
    return [*numbers, *[MARGIN] * (places - len(numbers))]


def lengths_and_tables(state):
    lengths = [len(state.rows), len(state.counts)]
    return lengths, padded(state.rows, PLACES) + padded(state.counts, PLACES)


def request(case):
    row = case.argument if case.call in ("activate", "row_limit") else 0
    picks = case.argument if case.call == "refresh" else []
    other = case.argument if case.call in PAIRS else State((0,) * 7, [], [], [0] * 4)
    lengths, tables = lengths_and_tables(case.state)
    lengths2, tables2 = lengths_and_tables(other)
    remap = case.remap if case.call in WITH_REMAP else [MARGIN] * 16
    hold = case.hold if case.call == "activate" else MARGIN
    other_remap = case.other_remap if case.call == "agree" else [MARGIN] * 16
    return REQUEST.pack(
        CALLS.index(case.call), *case.state.settings, *case.state.position, row, *lengths,
        len(picks), *tables, *padded(picks, PICKS),
        *other.settings, *other.position, *lengths2, *tables2, *remap, hold, *other_remap)


def answer_line(case, answer):
    """The program's answer as the model prints it; what the program lends shared stays."""
    refusal, value, *position = answer[:6]
    rows, counts = answer[6:6 + PLACES], answer[6 + PLACES:6 + 2 * PLACES]
    picks = answer[6 + 2 * PLACES:]
    problem = ""
    if case.call == "set_up" and refusal:
        # A refused set up has no position to hand back.
        problem = " position" if any(position) else ""
        position = case.state.position
    if refusal and value:
        problem += " value"
    lists = [(rows, len(case.state.rows)), (counts, len(case.state.counts)), (position, 4)]
    given = len(case.argument) if case.call == "refresh" else 0
    for numbers, length in (*lists, (picks, given)):
        if any(number != MARGIN for number in numbers[length:]):
            problem += " outside"
    if case.call == "refresh":
        lists.append((picks, given))
    parts = [str(-refusal if refusal else value)]
    if case.call == "row_limit":
        lent = case.state.rows, case.state.counts, case.state.position
        changed = any([*numbers[:length]] != before for (numbers, length), before in zip(lists, lent))
        return parts[0] + (" changed" if changed else "") + problem
    parts += [listed(numbers[:length]) for numbers, length in lists]
    if case.call in PAIRS:
        other = case.argument
        parts += [listed(numbers) for numbers in (other.rows, other.counts, other.position)]
    return " ".join(parts) + problem


def library_answers(program, cases, path):
    """One line for each case, or None behind the point where the program stopped."""
    with open(f"{path}.queries", "wb") as file:
        file.writelines(map(request, cases))
    with open(f"{path}.queries", "rb") as source, open(f"{path}.answers", "wb") as sink:
        try:
            run = subprocess.run([program], stdin=source, stdout=sink, timeout=TIME_LIMIT)
            status = run.returncode
        except subprocess.TimeoutExpired:
            status = f"none within {TIME_LIMIT} seconds"
    with open(f"{path}.answers", "rb") as file:
        answers = file.read()
    if status != 0 or len(answers) != ANSWER.size * len(cases):
        print(f"  test_calls: exit status {status}, {len(answers)} bytes for {len(cases)} answers")
    whole = answers[:len(answers) // ANSWER.size * ANSWER.size]
    lines = [answer_line(*pair) for pair in zip(cases, ANSWER.iter_unpack(whole))]
    return lines + [None] * (len(cases) - len(lines))


# The model


class Model:
    """The model, asked one call at a time."""

    def __init__(self):
        self.process = subprocess.Popen(MODEL_CALLS, stdin=subprocess.PIPE,
                                        stdout=subprocess.PIPE, text=True)

    def ask(self, case):
        self.process.stdin.write(query(case) + "\n")
        self.process.stdin.flush()
        return answered(case, self.process.stdout.readline())

    def close(self):
        self.process.stdin.close()
        self.process.wait()


# What has to occur


def kinds_of(case, answer):
    """What sorts of case this is; every sort of EXPECTED_KINDS has to occur."""
    number, after, _ = answered(case, answer)
    if case.kind:
        yield case.kind
    if number < 0:
        yield f"{case.call} refused with {-number}"
        yield from order_kinds(case, -number)
        return
    yield f"{case.call} accepted"
    if case.call in WITH_REMAP:
        yield f"{case.call} accepted, remap: {NAMES.get(case.remap, 'another')}"
    if case.state.settings[ROWS] > 65_536:
        yield f"{case.call} accepted, large bank"
    if case.call == "activate":
        yield from activation_kinds(case, after)
    if case.call == "refresh":
        yield from event_kinds(case)
    if case.call == "row_limit":
        yield from figure_kinds(case)
    if case.call in PAIRS:
        yield from agreement_kinds(case)


def order_kinds(case, number):
    """Before which other faults of the call this one decides; agreement.py has its own kinds of these."""
    if case.call in PAIRS:
        return
    earned = {14: not is_accepted(case.remap)}
    if case.call == "activate":
        earned[15] = not is_accepted_hold(case.hold)
        earned[21] = case.kind == "several faults: activate"
        earned[22] = passes_interval(case.state, case.hold)
    for other in earned:
        if earned[other] and ORDER.index(other) > ORDER.index(number):
            yield f"{case.call}: {number} before {other}"


def activation_kinds(case, after):
    settings, before, now = case.state.settings, case.state.tracked(), after.tracked()
    row = physical_row(case.remap, case.argument)
    yield f"activation: hold {case.hold}"
    if case.hold > 1 and after.position[ACTIVATIONS] == settings[INTERVAL]:
        yield "activation: units just fill the interval"
    if max(case.state.counts) <= MAX_COUNT - 1 and max(after.counts) > MAX_COUNT:
        yield "activation: a count is carried past the most by a later unit"
    if case.state.position[SPILLOVER] < MAX_COUNT < after.position[SPILLOVER]:
        yield "activation: the spillover is carried past the most by a later disturbance"
    if row in before:
        yield "activation: the row itself was tracked"
        del before[row]
    for end in cuts(settings, row):
        yield f"activation: cut at {end}, B {settings[DIAMETER]}"
        if row != case.argument:
            yield f"activation: remapped row cut at {end}"
    if any(now.get(victim, 0) > count for victim, count in before.items()):
        yield "activation: a count rises"
    for bits in (16, 17):
        if any(abs(row - one) < 3 and one - other in (2**bits, -2**bits) for one in now for other in now):
            yield f"activation: a victim and a row tracked that differ by 2^{bits}"
    if len(now) > len(before):
        yield "activation: a row is entered in a free slot"
    if len(now) == settings[COUNTERS] and before.keys() - now.keys():
        yield "activation: a row takes another's place"
    if after.position[SPILLOVER] > case.state.position[SPILLOVER]:
        yield "activation: the spillover rises"


def event_kinds(case):
    settings, tracked = case.state.settings, case.state.tracked()
    event, volume = case.state.position[EVENTS], settings[VOLUME]
    block = block_of(settings, event)
    if settings[WINDOW] == 1:
        yield "event: the only one of its window"
    elif event == settings[WINDOW] - 1:
        yield "event: the last of its window"
    if len(block) < settings[BLOCK]:
        yield "event: block cut" if block else "event: block empty"
    if any(edge - 1 in block and edge in block for edge in edges(settings)):
        yield "event: block across an edge of subarrays"
    picked = sorted(tracked, key=lambda row: (-tracked[row], row))[:volume]
    for end in {end for row in picked for end in cuts(settings, row)}:
        yield f"event: picked row cut at {end}"
    if len(tracked) < volume:
        yield "event: fewer rows tracked than the volume" if tracked else "event: no row tracked"
    counts = sorted(tracked.values(), reverse=True)
    if len(counts) > volume and counts[volume - 1] == counts[volume]:
        yield "event: equal counts at the cut between picked and not"
    if block and block[-1] > 65_535:
        yield "event: block above row 65,535"
    if any(row > 65_535 for row in picked):
        yield "event: picked row above 65,535"
    if any(row in block for row in tracked):
        yield "event: tracked row in the block"
    if len(case.argument) > volume:
        yield "event: list longer than the volume"


ENDS = ("row 0", "the last row", "a subarray's first row", "a subarray's last row")
EXPECTED_KINDS = (
    *(f"{call} accepted{bank}" for call in ("set_up", "activate", "refresh")
      for bank in ("", ", large bank")),
    *(f"{call} accepted, remap: {name}" for call in WITH_REMAP
      for name in (*NAMES.values(), "another")),
    *(f"set_up refused with {k}" for k in (1, 2, 3, 4, 5, 6, 7, 8, 14)),
    *(f"activate refused with {k}" for k in ORDER if k != 10),
    *(f"set_up: {k} before 14" for k in (1, 2, 3, 4, 5, 6, 7, 8)),
    *(f"activate: {k} before {later}" for place, later in enumerate(ORDER) if later > 10
      for k in ORDER[:place] if k != 10),
    *(f"remap refused, {sort}: {call}" for sort in REFUSED for call in ("set_up", "activate", "row_limit")),
    "every remainder", "every number missing", "every hold", "ends of an interval",
    "above the interval", "part of a hold", "hold in parts and whole", "counts close to the most",
    *(f"behind units {where} the most" for where in ("close to", "that passed")),
    *(f"activation: hold {hold}" for hold in range(1, LONGEST + 1)),
    "activation: units just fill the interval",
    "activation: a count is carried past the most by a later unit",
    "activation: the spillover is carried past the most by a later disturbance",
    *(f"refresh refused with {k}" for k in (1, 2, 3, 4, 5, 6, 7, 8, 10, 21)),
    *(f"{call}: {rule}" for rule in BROKEN_RULES for call in ("activate", "refresh")),
    "set up on a broken state",
    *(f"{faults}: {call}" for faults in ("one fault", "several faults")
      for call in ("set_up", "activate", "refresh")),
    "set up of a run", "activation of a run", "event of a run", "agreement in a run",
    "older agreement in a run", "figure in a run", "fault in a run", "valid state",
    *(f"activation {number} of an interval of 4" for number in (1, 4, 5)),
    "event in a full interval", "events of a whole window", "window of one event",
    "counts at the most", *(f"end of the bank, B {diameter}" for diameter in (2, 4)),
    *(f"edge of a subarray, N {rows}, B {diameter}" for rows in CUT_BANKS for diameter in (2, 4)),
    *(f"activation: cut at {end}, B {diameter}" for end in ENDS for diameter in (2, 4)),
    *(f"activation: remapped row cut at {end}" for end in ENDS),
    *(f"event: picked row cut at {end}" for end in ENDS),
    "event: block across an edge of subarrays",
    "activation: the row itself was tracked", "activation: a count rises",
    "activation: a row is entered in a free slot", "activation: a row takes another's place",
    "activation: the spillover rises",
    *(f"activation: a victim and a row tracked that differ by 2^{bits}" for bits in (16, 17)),
    "event: block above row 65,535", "event: picked row above 65,535",
    "event: the only one of its window", "event: the last of its window", "event: block cut",
    "event: block empty", "event: fewer rows tracked than the volume", "event: no row tracked",
    "event: equal counts at the cut between picked and not", "event: tracked row in the block",
    "event: list longer than the volume",
    *AGREEMENT_KINDS, *TWIN_KINDS, *FIGURE_KINDS,
)


def check_written(tally, program):
    """Calls with answers written by hand, by both sides."""
    for name, title in WRITTEN.items():
        tally.begin(f"{title}, written by hand")
        queries, expected = read_figures(f"{HERE}/{name}.calls")
        model = Run(MODEL_CALLS, queries, f"{OUT}/{name}.model").finish_model()
        cases = [read_query(query) for query in queries]
        library = library_answers(program, cases, f"{OUT}/{name}.library")
        for side, answers in (("model", model), ("library", library)):
            for query, wanted, answer in zip(queries, expected, answers):
                message = f"{query}: written is {wanted}, the {side} gives {answer}"
                tally.check(answer == wanted, message)


def short(text):
    return text if len(text) <= 300 else f"{text[:300]}... ({len(text)} bytes)"


def compare(tally, kinds, program, cases, name):
    tally.begin(f"{name}: {len(cases)} calls")
    queries = [query(case) for case in cases]
    model = Run(MODEL_CALLS, queries, f"{OUT}/{name}.model")
    library = library_answers(program, cases, f"{OUT}/{name}.library")
    answers = zip(cases, queries, model.finish_model(), library)
    for line, (case, text, wanted, answer) in enumerate(answers, 1):
        kinds.update(kinds_of(case, wanted))
        number, after, named = answered(case, wanted)
        tally.check(case.number in (None, number),
                    f"{name} {line}: the model gives {number} in place of {case.number} "
                    f"({case.kind}): {short(text)}")
        if case.left:
            tally.check(case.left == after,
                        f"{name} {line}: the model leaves {after} in place of {case.left} "
                        f"({case.kind}): {short(text)}")
        if case.named is not None:
            tally.check(case.named == named,
                        f"{name} {line}: the model names {named} in place of {case.named} "
                        f"({case.kind}): {short(text)}")
        tally.check(answer == wanted,
                    f"{name} {line} ({case.kind}): {short(text)}\n"
                    f"    model:   {short(wanted)}\n    library: {short(str(answer))}")


def main():
    parser = argparse.ArgumentParser(description="Compares the tracker's calls with the model.")
    parser.add_argument("--program", default=built("test_calls"),
                        help="in place of crates/test_calls/out/test_calls")
    arguments, fresh_seed = arguments_with_seeds(parser)
    program = os.path.abspath(arguments.program)
    if not os.path.exists(program):
        give_up(f"{program} is missing; `tools/programs test_calls` writes it")

    os.chdir(ROOT)
    build(OUT, BUILD_MODEL)
    tally = Tally()
    kinds = collections.Counter()
    check_written(tally, program)
    model = Model()
    sweeps = [*sweep_cases(), *agreement_sweeps(), *figure_sweeps()]
    compare(tally, kinds, program, sweeps, "sweeps")
    for name, seed in (("fixed", FIXED_SEED), ("fresh", fresh_seed)):
        rng = random.Random(seed)
        cases = [*random_cases(rng, model), *random_agreements(rng), *random_twins(rng, model),
                 *random_figures(rng)]
        compare(tally, kinds, program, cases, name)
    model.close()
    tally.begin("how often each kind of call occurred")
    tally.check_kinds(kinds, EXPECTED_KINDS)
    return tally.close("calls")


if __name__ == "__main__":
    sys.exit(main())
