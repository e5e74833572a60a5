"""Queries of the C interface, and the model's answers to them."""

import os

from comparison import COUNTERS, MODEL, Run

OUT = "target/c_interface"


def bound_query(settings):
    return "bound " + " ".join(map(str, settings))


def least_query(settings, threshold):
    given = settings[:COUNTERS] + settings[COUNTERS + 1:]
    return "least " + " ".join(map(str, given + (threshold,)))


def row_limit_query(case):
    """A call of tests/calls/figures.py: settings, row, position, remap."""
    numbers = (*case.state.settings, case.argument, *case.state.position, *case.remap)
    return "row_limit " + " ".join(map(str, numbers))


def model_answers(queries, name):
    """The model's answers; the queries are dealt out to as many models as there are cores."""
    parts = os.cpu_count() or 1
    runs = [Run([MODEL, "queries"], queries[part::parts], f"{OUT}/{name}.model{part + 1}")
            for part in range(parts)]
    answers = [0] * len(queries)
    for part, run in enumerate(runs):
        answers[part::parts] = map(int, run.finish_model())
    return answers
