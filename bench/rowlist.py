#!/usr/bin/env python3
"""Prints the time of rowlist over that of a plain Rust program with an ordered map, on the same traces in one run.

    python3 bench/rowlist.py [--rounds N]

The traces are those of traces.py: one whole window each, which a DRAM has 64 ms for, and the last column
is these over rowlist's time. Both programs read the trace from a file and write to a file; the listings
have to be equal. Of several rounds the least time counts.
"""

import sys

sys.dont_write_bytecode = True
import traces
from against_plain import TRACES, build_plain, least_times, rounds_asked

WINDOW_TIME = 0.064  # seconds


def main():
    rounds = rounds_asked("rowlist's time over a plain program's.", 3)
    build_plain("rowlist")
    print("trace                   rowlist / plain   rowlist    64 ms / rowlist")
    for title, trace in traces.write_all(TRACES):
        ours, plain = least_times("rowlist", trace, rounds)
        print(f"{title:<24}{ours / plain:15.2f}{ours:8.3f} s{WINDOW_TIME / ours:19.2f}", flush=True)


if __name__ == "__main__":
    main()
