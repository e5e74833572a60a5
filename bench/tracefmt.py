#!/usr/bin/env python3
"""Prints the time of tracefmt over that of a plain Rust program, on the same traces in one run.

    python3 bench/tracefmt.py [--rounds N]

The traces are a whole window of random rows (traces.py), once in its one spelling and once with
leading zeros and blank lines, about 11 MB each, and one of hot rows with holds, of 2 MB. Both programs
read the trace from a file and write to a file; what they write has to be equal. Of several rounds the
least time counts.
"""

import random
import sys

sys.dont_write_bytecode = True
import traces
from against_plain import TRACES, build_plain, print_ratio, rounds_asked


def write_traces():
    """The paths of the traces, which are the same every time."""
    TRACES.mkdir(parents=True, exist_ok=True)
    spelled, respelled = TRACES / "uniform-677.trace", TRACES / "uniform-677-respelled.trace"
    held = TRACES / "held-677.trace"
    traces.write(spelled, traces.uniform, counters=677)
    traces.write(held, traces.held, counters=677)
    rng = random.Random(1)
    with open(spelled) as source, open(respelled, "w") as sink:
        for line in source:
            sink.write(line.replace(" ", "0") if rng.random() < 0.5 else line)
            if rng.random() < 0.1:
                sink.write("\n")
    return spelled, respelled, held


def main():
    rounds = rounds_asked("tracefmt's time over a plain program's.", 5)
    build_plain("tracefmt")
    print("trace           tracefmt / plain")
    for title, trace in zip(("spelled", "respelled", "held"), write_traces()):
        print_ratio(title, "tracefmt", trace, rounds)


if __name__ == "__main__":
    main()
