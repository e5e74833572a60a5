#!/usr/bin/env python3
"""Checks the plain model's own counter: by figures, and the limits on disturbance on random runs.

    python3 tests/limit/check.py [--seed N] [--runs N]

Builds the model. Its counter plays the figures of disturbance.figures, which were worked out by hand, and
has to come to theirs; the proved table of crates/figures has to have the same in the same order. Queries
and answers stay in target/limit/.

Then the model plays random runs (tests/model/src/limit.rs, plan.rs): settings, holds, early events and
refused calls at random, one remap for all calls or another at each, and rows at random or chosen to drive
disturbance high, in two of three runs that of rows of a tiny bank over a window's end. After each call
every row's disturbance has to be at most 2 x H, and at most H while the first window lasts; at most
H(e + 1) in the first window and once the row's event has passed, and else at most that and what the row
may have carried over; and at most the figure that the call `row_limit` gives at the position that the run
left, which has to be accepted. A hold has to do what its units do one by one; a call is refused only for
its row, its hold, its remap, its list or an interval without room for its units. One fixed and one fresh
seed (--seed repeats a fresh one).
Exit status: 0 all held; 1 something did not; 2 something is missing or cannot be built.
"""

import argparse
import os
import pathlib
import re
import subprocess
import sys

sys.dont_write_bytecode = True
sys.path.insert(0, str(pathlib.Path(__file__).resolve().parents[1]))
from comparison import (
    BUILD_MODEL, FIXED_SEED, MODEL, ROOT, Run, TIME_LIMIT, Tally, arguments_with_seeds, build, give_up,
    read_figures,
)

OUT = "target/limit"
WRITTEN = "tests/limit/disturbance.figures"
PROVED = "crates/figures/specs/Disturbances.antt"
# A figure of the proved table ends with the list of what is given, and stands on a line of its own.
GIVEN = re.compile(r"    (?:counted|departure|silicon)\S* .*(?:\(([\d ∷]+) ∷ \[\]\)| \[\]) ∷(?: \[\])?")

RUNS = 3000  # for each seed
CLOSING = re.compile(r"limit: (\d+) passed, (\d+) failed")


def numbers(text):
    return [int(number) for number in re.findall(r"\d+", text or "")]


def play_figures(tally):
    """The model's answers to the figures, and the figures beside the proved table."""
    queries, expected = read_figures(WRITTEN)
    tally.begin(f"by hand: {len(queries)} figures")
    answers = Run([MODEL, "disturbance"], queries, f"{OUT}/figures").finish_model()
    for query, answer, wanted in zip(queries, answers, expected):
        tally.check(answer == wanted, f"{query}: {answer} in place of {wanted}")

    lines = pathlib.Path(PROVED).read_text().splitlines()
    proved = [numbers(found[1]) for found in map(GIVEN.fullmatch, lines) if found]
    tally.check(len(proved) == len(queries), f"{PROVED} has {len(proved)} figures")
    for query, wanted, given in zip(queries, expected, proved):
        tally.check(given == numbers(wanted), f"{query}: {given} in the proved table")


def play(tally, seed, runs, name):
    """Adds the model's own count of runs; its other lines are printed as they are."""
    tally.begin(f"{name}: {runs} runs")
    try:
        done = subprocess.run([MODEL, "limit", str(seed), str(runs)], stdout=subprocess.PIPE,
                              text=True, timeout=TIME_LIMIT)
    except subprocess.TimeoutExpired:
        give_up(f"the model did not end within {TIME_LIMIT} seconds on seed {seed}")
    *lines, last = done.stdout.splitlines() or [""]
    closing = CLOSING.fullmatch(last)
    if done.returncode not in (0, 1) or not closing:
        give_up(f"the model failed on seed {seed}: exit status {done.returncode}")
    for line in lines:
        print(f"  {line.strip()}")
    passed, failed = map(int, closing.groups())
    if passed + failed != runs or (failed > 0) != (done.returncode == 1):
        give_up(f"the model miscounted on seed {seed}: {last}")
    tally.passed += passed
    tally.failed += failed


def main():
    parser = argparse.ArgumentParser(description="Checks the model's counter and its limits.")
    parser.add_argument("--runs", type=int, default=RUNS, help="for each seed")
    arguments, fresh_seed = arguments_with_seeds(parser)

    os.chdir(ROOT)
    build(OUT, BUILD_MODEL)
    tally = Tally()
    play_figures(tally)
    play(tally, FIXED_SEED, arguments.runs, "fixed")
    play(tally, fresh_seed, arguments.runs, "fresh")
    return tally.close("limit")


if __name__ == "__main__":
    sys.exit(main())
