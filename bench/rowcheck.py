#!/usr/bin/env python3
"""Prints the time of rowcheck over that of rowlist, on the same traces in one run.

    python3 bench/rowcheck.py [--rounds N]

The traces are those of traces.py, and two whose listing is longer than they are: one of events alone and
one of refused lines. rowlist writes the listing to a file, and rowcheck has to pass it. Of several rounds
the least time counts.
"""

import subprocess
import sys
import time

sys.dont_write_bytecode = True
import traces
from against_plain import TRACES, built, rounds_asked, run

ROWLIST, ROWCHECK = built("rowlist"), built("rowcheck")


def check(trace, listing):
    """The time it takes."""
    began = time.perf_counter()
    done = subprocess.run([ROWCHECK, trace, listing], capture_output=True)
    spent = time.perf_counter() - began
    if done.stdout != b"passes\n":
        sys.exit(f"{trace.name}: {done.stdout} {done.stderr}")
    return spent


def long_listings():
    """Titles and paths of traces whose listings are longer than they are."""
    events, refused = TRACES / "events.trace", TRACES / "refused.trace"
    rows = "".join(f"A{row:6}\n" for row in range(0, 48, 3))
    events.write_text("S 65536     2    16   677   166  8192     8\n" + (rows + "R\n" * 40) * 20_000)
    refused.write_text("?\n" * 5_000_000)
    return ("events", events), ("refused lines", refused)


def main():
    rounds = rounds_asked("rowcheck's time over rowlist's.", 5)
    print("trace                   rowcheck / rowlist")
    listing = TRACES / "checked.listing"
    for title, trace in (*traces.write_all(TRACES), *long_listings()):
        times = [(run(ROWLIST, trace, listing), check(trace, listing)) for _ in range(rounds)]
        listed, checked = (min(each) for each in zip(*times))
        print(f"{title:<24}{checked / listed:18.2f}   ({checked:.3f} s)", flush=True)


if __name__ == "__main__":
    main()
