#!/usr/bin/env python3
"""Compares the listings that `rowlist` prints with the plain model's, byte for byte.

    python3 tests/listing/compare.py [--seed N] [--program COMMAND]

Builds the model, then compares on document 01's example (example.*), on edges with a listing
written by hand (edges.*, subarrays.*, large.*, remaps.*, loaded.*, holds.*, hold_forms.*, aids.*),
on traces with the listings that are kept (kept/), and on random traces (traces.py and aids.py), with
one fixed and one fresh seed (--seed repeats a fresh one). Traces come from a file, through a pipe, or
in small pieces through a pipe.
What differs stays in target/listing/.
Exit status: 0 all equal; 1 a difference; 2 something is missing or cannot be built.
"""

import argparse
import collections
import itertools
import os
import pathlib
import random
import sys

sys.dont_write_bytecode = True
sys.path.insert(0, str(pathlib.Path(__file__).resolve().parents[1]))
from aids import AID_KINDS, aid_traces
from comparison import (
    BUILD_MODEL, FIXED_SEED, MODEL, ROOT, Tally, arguments_with_seeds, build, give_up,
)
from failures import (
    check_failures, input_closed, input_fails_after_lines, input_unreadable, output_closed, output_fills,
    output_full, reader_leaves,
)
from programs import add_programs, command_of, difference, from_file, in_pieces, random_pieces, through_pipe
from remaps import REVERSE
from traces import (
    KINDS, held_rows, loaded_remaps, long_holds, long_lines, long_trace, plain_trace, random_traces,
    wide_lines,
)

HERE = "tests/listing"
OUT = "target/listing"
MODEL_LISTING = [MODEL, "listing"]

WRITTEN = ("example", "edges", "subarrays", "large", "remaps", "loaded", "holds", "hold_forms", "aids")
KEPT = ("smallest_bank", "bank_of_1040", "bank_of_65520", "bank_of_65536", "many_counters",
        "refused_lines", "almost_good_lines", "long_lines_cut_off")

TRICKLES = 20  # traces in small pieces for each seed
MOST_BYTE_BY_BYTE = 5000  # bytes of a trace

FAILURES = (output_full, output_closed, reader_leaves, output_fills, input_unreadable, input_closed,
            input_fails_after_lines)
WORDS = b"rowlist: cannot read the trace", b"rowlist: cannot write the listing"
REFUSALS = (1, 2, 3, 4, 5, 6, 7, 9, 11, 14, 15, 22)  # those that a trace can earn
LONG = {"long trace of a large bank": long_trace, "long trace of holds": long_holds}


# Comparing


def model_listing(text):
    listing, _, problem = through_pipe(MODEL_LISTING, text)
    if problem:
        with open(f"{OUT}/trace", "wb") as file:
            file.write(text)
        give_up(f"the model failed on {OUT}/trace: {problem}")
    return listing


def check_listing(tally, command, feed, name, text, wanted):
    listing, _, problem = feed(command, text)
    if listing == wanted and not problem:
        tally.check(True, "")
        return
    kept = f"{OUT}/failed-{tally.failed + 1}"
    for suffix, content in (("trace", text), ("model", wanted), ("listing", listing)):
        with open(f"{kept}.{suffix}", "wb") as file:
            file.write(content)
    tally.check(False, f"{name}, {kept}.trace: {problem or difference(wanted, listing)}")


def compare(tally, kinds, command, seed, name):
    tally.begin(f"{name}: random traces")
    rng = random.Random(seed)
    count = 0
    for kind, text in itertools.chain(random_traces(rng), aid_traces(rng)):
        feed = rng.choice((from_file, through_pipe))
        count += 1
        compare_one(tally, kinds, command, feed, f"{name} {count} ({kind})", text, kind)
    for _ in range(TRICKLES):
        make = rng.choice((plain_trace, plain_trace, loaded_remaps, held_rows, wide_lines, long_lines))
        text = make(rng)
        feed = in_pieces(random_pieces(rng, len(text)))
        count += 1
        compare_one(tally, kinds, command, feed, f"{name} {count} (in pieces)", text, "in pieces")
    print(f"  {count} traces")
    for kind, make in LONG.items():
        text = make(rng)
        compare_one(tally, kinds, command, from_file, f"{name} ({kind})", text, kind)
        print(f"  a {kind}, {len(text.splitlines())} lines")


def compare_one(tally, kinds, command, feed, name, text, kind):
    wanted = model_listing(text)
    kinds[kind] += 1
    kinds.update(line_kinds(wanted))
    check_listing(tally, command, feed, name, text, wanted)


def line_kinds(listing):
    for line in listing.decode().splitlines():
        if line[0] == "X":
            yield f"line refused with {int(line[11:17])}"
        elif line[0] == "B":
            yield "bound"
        else:
            yield f"event with {int(line[7:13])} picked rows"


EXPECTED_KINDS = (
    *KINDS, *AID_KINDS, "in pieces", *LONG, "bound",
    *(f"event with {picked} picked rows" for picked in range(17)),
    *(f"line refused with {number}" for number in REFUSALS),
)


# What was written by hand, and what is kept


def check_both(tally, command, name, text, wanted):
    """By the model and, in each way, by the program."""
    check_listing(tally, MODEL_LISTING, from_file, f"{name} by the model", text, wanted)
    feeds = [from_file, through_pipe]
    if len(text) <= MOST_BYTE_BY_BYTE:
        feeds.append(in_pieces([1] * len(text)))
    for feed in feeds:
        check_listing(tally, command, feed, f"{name} by the program", text, wanted)


def check_files(tally, command, names):
    for name in names:
        text, wanted = (pathlib.Path(f"{HERE}/{name}.{suffix}").read_bytes()
                        for suffix in ("trace", "listing"))
        check_both(tally, command, name, text, wanted)


def check_written(tally, command):
    tally.begin("document 01's example, and edges written by hand")
    check_files(tally, command, WRITTEN)
    for rows, window, left in ((65_552, 1025, 65_551), (262_144, 4096, 262_142)):
        text, wanted = events_alone(rows, window, left)
        check_both(tally, command, f"events alone, {rows} rows", text, wanted)


def events_alone(rows, window, left):
    """A window of events without activations and the next event, and their listing, which follows
    by hand.

    With B 2, one counter and P 64, H is 69 x n. Every block leaves one row tracked. The rows of a
    block that begins a subarray give the counter to the row above them, one after another, so that
    the next block's first row is left. Once that is picked, they give it to the row below, up to
    the end of the subarray, and each block leaves its last row but one. `left` is the row that the
    block at the bank's end leaves.
    """
    picks = [64 * event if event % 8 == 1 else 64 * event - 2 for event in range(1, window)]
    listing = f"B{69 * window:10}{138 * window:10}\nR{0:6}{0:6}\n"
    listing += "".join(f"R{event:6}{1:6}{row:6}\n" for event, row in enumerate(picks, 1))
    listing += f"R{0:6}{1:6}{left:6}\n"
    settings = (rows, 2, 1, 1, 4, window, 64)
    text = "S" + "".join(f"{number:6}" for number in settings) + "\n" + "R\n" * (window + 1)
    return text.encode(), listing.encode()


def check_cuts(tally, command):
    """An `F` line in two pieces, cut at every place; lines about as wide; both with byte 10, and
    then a tracker that shows whether the remap was loaded, and without."""
    tally.begin("lines about as wide as an F line, in two pieces")
    settings, bound = b"S    32     2     4     4     4     4     8\n", b"B        35        70\n"
    remap_line = b"F" + b"".join(b"%6d" % number for number in REVERSE)
    refused = b"X         2    11\n"
    for width in (96, 97, 98, 99, 130):
        line = remap_line.ljust(width)[:width]
        middle, picked = (b"", b"     9    11\n") if width == 97 else (refused, b"     4     6\n")
        whole = line + b"\n" + settings + b"A     5\nR\n", middle + bound + b"R     0     2" + picked
        for rest, listing in (whole, (line, refused)):
            text = settings + rest
            every_place = width == 97 and rest != line
            for cut in range(1, 99) if every_place else (1, 44, 64, 96, 97, 98, width):
                feed = in_pieces([len(settings) + cut, len(text)])
                check_listing(tally, command, feed, f"{width} bytes, cut behind {cut}", text,
                              bound + listing)


def check_kept(tally, command):
    tally.begin("listings that are kept")
    check_files(tally, command, [f"kept/{name}" for name in KEPT])


def check_broken(tally, command):
    tally.begin("input or output that fails")
    text = b"S    16     2    16    16     4     4     4\n" + b"A     5\nA    10\nR\n" * 20_000
    check_failures(tally, command, FAILURES, text, model_listing(text), *WORDS)


def main():
    parser = argparse.ArgumentParser(description="Compares the program's listings with the model's.")
    add_programs(parser, program="rowlist")
    arguments, fresh_seed = arguments_with_seeds(parser)
    command = command_of(arguments.program)

    os.chdir(ROOT)
    build(OUT, BUILD_MODEL)
    tally = Tally()
    kinds = collections.Counter()
    check_written(tally, command)
    check_cuts(tally, command)
    check_kept(tally, command)
    check_broken(tally, command)
    compare(tally, kinds, command, FIXED_SEED, "fixed")
    compare(tally, kinds, command, fresh_seed, "fresh")
    tally.begin("how often each kind of trace and of line occurred")
    tally.check_kinds(kinds, EXPECTED_KINDS)
    return tally.close("listing")


if __name__ == "__main__":
    sys.exit(main())
