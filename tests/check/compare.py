#!/usr/bin/env python3
"""Compares the check of a supplier's listing by the program `rowcheck` with the plain model's.

    tools/programs rowcheck rowlist test_check
    python3 tests/check/compare.py [--seed N] [--program COMMAND] [--caller COMMAND] [--rowlist COMMAND]

Builds the model and runs its unit tests, then compares what `rowcheck` prints: on
pairs of a trace and a listing written by hand (cases.py, and the listings of tests/listing), on each
byte, cut and line of short listings, on random damages (damages.py) to the listings of random traces,
at places where blocks of bytes end, and on long texts. Each answer is held against the model's and
against the bytes that the listing has in common with what `rowlist` prints; pairs that are short enough
are put to the library's call too (crates/test_check). One fixed and one fresh seed
(--seed repeats a fresh one). What differs stays in target/check/. Then inputs and outputs that fail,
inputs that are pipes, README.md's line for scripts (script.py), memory, and builds of the program that must
not compile (builds.py). Of the model alone: the
disturbance of the silicon behind passed listings (tests/model/src/silicon.rs, supplier.rs).
Exit status: 0 all equal; 1 a difference; 2 something is missing or cannot be built.
"""

import argparse
import collections
import glob
import os
import pathlib
import random
import re
import subprocess
import sys

sys.dont_write_bytecode = True
TESTS = pathlib.Path(__file__).resolve().parents[1]
sys.path[:0] = [str(TESTS), str(TESTS / "listing")]
from broken import check_broken, check_memory, check_names, check_pipes
from builds import check_builds
from cases import CASES, LISTING, OWN, SETTINGS, TRACE
from comparison import (
    BUILD_MODEL, FIXED_SEED, MODEL, ROOT, SHOWN, TIME_LIMIT, Tally, arguments_with_seeds, build, give_up,
)
from damages import DAMAGES, EVERY, departure
from programs import add_programs, command_of, through_pipe
from rowcheck import Answer, answered, rowcheck
from script import check_script
from traces import PLANS, across, exact_size, plain_trace

OUT = "target/check"
LISTINGS = "tests/listing"
EXAMPLE = "tests/listing/example.trace", "tests/check/example.listing", "tests/check/example.answer"
MOST_OF_A_CALL = 65_536  # bytes of both texts and the byte between them
TEST_MODEL = ("cargo", "test", *BUILD_MODEL[2:], "--lib")

SHARE = 5  # one in so many of the traces of tests/listing, for each seed
DAMAGES_EACH = 3  # of each trace's listing
SILICON_RUNS = 150  # for each seed
BLOCKS = (4096, 6144, 8192, 16_384, 65_536, 339_968)  # bytes that a program may read or print at once
LONG_LINES = 600_000  # of long texts


# Comparing


class Comparison:
    """The three opinions on a pair, each asked by the names of its files."""

    def __init__(self, tally, command, caller, rowlist):
        self.tally = tally
        self.command = command
        self.caller = caller
        self.rowlist = rowlist
        self.kinds = collections.Counter()
        self.model, self.silicon = (
            subprocess.Popen([MODEL, query], stdin=subprocess.PIPE, stdout=subprocess.PIPE)
            for query in ("checks", "silicons"))
        self.trace = self.required = None

    def close(self):
        for process in (self.model, self.silicon):
            process.stdin.close()
            if process.wait(timeout=TIME_LIMIT) != 0:
                give_up(f"the model failed: exit status {process.returncode}")

    def begin_trace(self, name, trace):
        """What `rowlist` prints for it has to pass."""
        self.trace = trace
        write(f"{OUT}/trace", trace)
        self.required, _, problem = through_pipe(self.rowlist, trace)
        if problem:
            self.tally.check(False, f"{name}: rowlist: {problem}")
        self.check("what rowlist prints", name, self.required)

    def check(self, kind, name, listing):
        self.kinds[kind] += 1
        known = departure(self.required, listing)
        self.kinds["passes" if known is None else "departs"] += 1
        write(f"{OUT}/listing", listing)
        wanted = answered(known)
        answers = {
            "the model": Answer(ask(self.model, f"{OUT}/trace {OUT}/listing"), b"", wanted.status),
            "the program": rowcheck(self.command, f"{OUT}/trace", f"{OUT}/listing"),
        }
        if b"\0" not in self.trace and len(self.trace) + 1 + len(listing) <= MOST_OF_A_CALL:
            text, errors, problem = through_pipe(self.caller, self.trace + b"\0" + listing)
            answers["the call"] = Answer(text, errors or problem or b"", wanted.status)
        for whose, answer in answers.items():
            if answer == wanted:
                self.tally.check(True, "")
                continue
            self.tally.check(False, f"{name}, {self.kept(listing)}, {kind}, by {whose}: {answer}, and ought "
                             f"to be {wanted}")

    def kept(self, listing):
        """Keeps what is shown; the name of the pair."""
        name = f"{OUT}/failed-{self.tally.failed + 1}"
        if self.tally.shown < SHOWN:
            for suffix, text in (("trace", self.trace), ("listing", listing), ("required", self.required)):
                write(f"{name}.{suffix}", text)
        return name

    def check_silicon(self, name):
        """Within its limits behind the listing that the trace requires, by the model."""
        answer = ask(self.silicon, f"{OUT}/trace")
        self.tally.check(answer == b"holds\n", f"{name}: the silicon: {answer}")


def ask(process, query):
    process.stdin.write(query.encode() + b"\n")
    process.stdin.flush()
    answer = process.stdout.readline()
    if not answer:
        give_up(f"the model failed on {query}")
    return answer


def write(path, text):
    with open(path, "wb") as file:
        file.write(text)


# Short texts


def check_written(compare):
    compare.tally.begin("pairs written by hand")
    for title, trace, listing, known in CASES:
        compare.begin_trace(title, trace)
        compare.tally.check(departure(compare.required, listing) == known, f"{title}: not as written")
        compare.check("written by hand", title, listing)
    names = sorted(glob.glob(f"{LISTINGS}/*.trace") + glob.glob(f"{LISTINGS}/kept/*.trace"))
    for name in names:
        trace, listing = (pathlib.Path(name).with_suffix(suffix).read_bytes()
                          for suffix in (".trace", ".listing"))
        compare.begin_trace(name, trace)
        compare.check("written by hand", name, listing)
        compare.check_silicon(name)
    trace, listing, answer = (pathlib.Path(name).read_bytes() for name in EXAMPLE)
    compare.begin_trace("the README's", trace)
    compare.check("written by hand", "the README's", listing)
    shown = rowcheck(compare.command, *EXAMPLE[:2])
    compare.tally.check(shown.text == answer, f"the README's example: {shown}, and ought to be {answer}")


def check_every(compare):
    """All damages of each sort to the example's listing, and fewer to one of more lines."""
    compare.tally.begin("each byte, cut and line of short listings")
    compare.begin_trace("example", TRACE)
    for kind, make in EVERY.items():
        for listing in make(LISTING):
            compare.check(kind, "example", listing)
    trace, listing = (pathlib.Path(f"{LISTINGS}/edges.{suffix}").read_bytes()
                      for suffix in ("trace", "listing"))
    compare.begin_trace("edges", trace)
    rng = random.Random(FIXED_SEED)
    for kind, make in EVERY.items():
        listings = list(make(listing))
        for damaged in rng.sample(listings, min(60, len(listings))):
            compare.check(kind, "edges", damaged)


# Random texts


def sampled_traces(rng):
    for make, kind, count in PLANS:
        for _ in range(max(2, count // SHARE)):
            yield kind, make(rng)
    for _ in range(20):
        yield "single byte", bytes([rng.randrange(256)])


def check_random(compare, seed, name):
    compare.tally.begin(f"{name}: listings of random traces, damaged")
    rng = random.Random(seed)
    before = b""
    count = 0
    for kind, trace in sampled_traces(rng):
        count += 1
        about = f"{name} {count} ({kind})"
        compare.begin_trace(about, trace)
        compare.check_silicon(about)
        compare.check("another trace's listing", about, before)
        before = compare.required
        check_damaged(compare, rng, about, DAMAGES_EACH)
    for damage in DAMAGES:  # each of them at least once more
        compare.begin_trace(f"{name} {damage}", plain_trace(rng, 60))
        check_damaged(compare, rng, f"{name} {damage}", 1, [damage])
    print(f"  {count} traces")


def check_damaged(compare, rng, name, count, kinds=tuple(DAMAGES)):
    lines = compare.required.splitlines(keepends=True)
    for kind in rng.sample(kinds, count):
        listing = DAMAGES[kind](rng, lines)
        if listing is not None:
            compare.check(kind, name, listing)


# Places where blocks end


def trace_for(length):
    """A trace whose listing has so many bytes, an even number: lines of 22 and of 18."""
    bounds = next(count for count in range(1, 10) if (length - 22 * count) % 18 == 0)
    return SETTINGS * bounds + b"?\n" * ((length - 22 * bounds) // 18)


def check_block_ends(compare, seed, name):
    compare.tally.begin(f"{name}: departures where blocks end")
    rng = random.Random(seed)
    for block in BLOCKS:
        for place in {block, rng.choice((2, 3)) * block}:
            check_listing_places(compare, f"{name}, listing of {place}", place)
            for trace in (across(rng, place, rng.choice((0, 1, 2, 6, 8, 43, 44))),
                          exact_size(rng, place + rng.choice((-1, 0, 1))), exact_size(rng, place)):
                about = f"{name}, trace of {len(trace)}"
                compare.begin_trace(about, trace)
                check_trace_end(compare, rng, about)


def check_listing_places(compare, name, place):
    """Listings that end at the place or behind it, with departures right before and at it."""
    for length in (place, place + 2, place + 3000):
        trace = trace_for(length)
        compare.begin_trace(name, trace)
        required = compare.required
        compare.tally.check(len(required) == length, f"{name}: a listing of {len(required)} bytes")
        damaged = [required + b"\n", required + b"X", required[:-1], required[:-18]]
        if length == place:
            damaged += [required[:-2], required + required[-18:], required + b"\0" * place,
                        required[:-1] + b"\r\n"]
        else:
            for at in (place - 1, place, place + 1):
                changed = bytes([required[at] ^ 1])
                damaged += [required[:at] + changed + required[at + 1:], required[:at],
                            required[:at] + required[at + 1:], required[:at] + b"\n" + required[at:]]
        for listing in damaged:
            compare.check("where a block of the listing ends", name, listing)


def check_trace_end(compare, rng, name):
    """The line that stands where a block of the trace ends is one of the last."""
    lines = compare.required.splitlines(keepends=True)
    kind = "where a block of the trace ends"
    compare.check(kind, name, compare.required + b"X         1    11\n")
    if lines:
        compare.check(kind, name, b"".join(lines[:-1]))
        compare.check(kind, name, compare.required[:-1])
        place = len(compare.required) - rng.randint(1, min(40, len(compare.required)))
        changed = bytes([compare.required[place] ^ 1])
        compare.check(kind, name, compare.required[:place] + changed + compare.required[place + 1:])


# Long texts


def own_listing(lines):
    """A text that is its own listing."""
    return b"".join(b"X%10d%6d\n" % (number, 11) for number in range(1, lines + 1))


def check_long(compare):
    compare.tally.begin("long texts")
    events = SETTINGS + b"A     5\nH     2     3\nR\n" * LONG_LINES
    long_line = b"R" * 30 * LONG_LINES
    texts = {
        "many events": events,
        "its own listing": own_listing(LONG_LINES),
        "blank lines, then a refused one": b"\n" * 20 * LONG_LINES + b"A     5\n",
        "a long line without byte 10": SETTINGS + long_line,
        "a long line between others": SETTINGS + long_line + b"\nR\n",
    }
    for kind, trace in texts.items():
        compare.begin_trace(kind, trace)
        compare.kinds[kind] += 1
        required = compare.required
        middle = len(required) // 2
        damaged = [required[:-1], required[:-1] + b" \n"]
        if len(required) > 1000:
            damaged += [required + b"\n", required[:middle] + b"~" + required[middle + 1:]]
        for listing in damaged:
            compare.check("long text", kind, listing)
        print(f"  {kind}: {len(trace)} and {len(required)} bytes")
    compare.begin_trace("long listing", TRACE)
    for filling in (b"\n", b"X", LISTING):
        compare.check("long text", "long listing", LISTING + filling * (20 * LONG_LINES // len(filling)))
        compare.check("long text", "long listing", LISTING[:-1] + filling * (20 * LONG_LINES // len(filling)))


def check_same_file(tally, command):
    """One file as trace and as listing."""
    tally.begin("one file as both texts")
    for text, known in ((b"", None), (b"\n", 1), (OWN, None), (OWN[:-1], 3), (TRACE, 1), (LISTING, 1),
                        (own_listing(2000), None), (own_listing(2000)[18:], 1)):
        write(f"{OUT}/both", text)
        answer = rowcheck(command, f"{OUT}/both", f"{OUT}/both")
        tally.check(answer == answered(known), f"{text[:60]}: {answer}, and ought to be {answered(known)}")


# The model alone


def test_model(tally):
    """Adds the model's own unit tests."""
    tally.begin("unit tests of the model")
    done = subprocess.run(TEST_MODEL, stdout=subprocess.PIPE, text=True, timeout=TIME_LIMIT)
    counts = re.findall(r"^test result: \w+\. (\d+) passed; (\d+) failed", done.stdout, re.MULTILINE)
    if len(counts) != 1:
        give_up(f"the model's unit tests failed: {done.stdout}")
    passed, failed = map(int, counts[0])
    if failed or done.returncode != 0:
        print(done.stdout)
    print(f"  {passed} passed")
    tally.passed += passed
    tally.failed += failed
    tally.check(done.returncode == 0 and passed > 0, f"exit status {done.returncode}, {passed} passed")


def play_silicon(tally, seed, name):
    """Adds the model's own count of traces; its other lines are printed as they are."""
    tally.begin(f"{name}: the silicon behind {SILICON_RUNS} listings")
    done = subprocess.run([MODEL, "silicon", str(seed), str(SILICON_RUNS)], stdout=subprocess.PIPE,
                          text=True, timeout=TIME_LIMIT)
    *lines, last = done.stdout.splitlines() or [""]
    closing = re.fullmatch(r"silicon: (\d+) passed, (\d+) failed", last)
    if done.returncode not in (0, 1) or not closing:
        give_up(f"the model failed on seed {seed}: exit status {done.returncode}")
    for line in lines:
        print(f"  {line.strip()}")
    passed, failed = map(int, closing.groups())
    if passed + failed != SILICON_RUNS:
        give_up(f"the model miscounted on seed {seed}: {last}")
    tally.passed += passed
    tally.failed += failed
    found = re.search(r"(\d+) listings, the disturbance another one in (\d+)", done.stdout)
    tally.check(found and int(found[1]) >= SILICON_RUNS and int(found[2]) > 0,
                "too few listings with an altered row, or none whose disturbance is another one")


EXPECTED_KINDS = (
    "passes", "departs", "what rowlist prints", "written by hand", "another trace's listing", *EVERY, *DAMAGES,
    "where a block of the listing ends", "where a block of the trace ends", "long text", "many events",
    "its own listing", "blank lines, then a refused one", "a long line without byte 10",
    "a long line between others",
)


def main():
    parser = argparse.ArgumentParser(description="Compares the check of a listing with the model's.")
    add_programs(parser, program="rowcheck", caller="test_check", rowlist="rowlist")
    arguments, fresh_seed = arguments_with_seeds(parser)
    command, caller, rowlist = map(command_of, (arguments.program, arguments.caller, arguments.rowlist))

    os.chdir(ROOT)
    build(OUT, BUILD_MODEL)
    tally = Tally()
    test_model(tally)
    check_builds(tally)
    compare = Comparison(tally, command, caller, rowlist)
    check_written(compare)
    check_every(compare)
    check_same_file(tally, command)
    check_names(tally, command, OUT)
    check_pipes(tally, command, OUT)
    check_broken(tally, command, OUT)
    check_script(tally, command, OUT)
    check_memory(tally, command, OUT)
    for seed, name in ((FIXED_SEED, "fixed"), (fresh_seed, "fresh")):
        check_random(compare, seed, name)
        check_block_ends(compare, seed, name)
        play_silicon(tally, seed, name)
    check_long(compare)
    compare.close()
    tally.begin("how often each kind of listing and answer occurred")
    tally.check_kinds(compare.kinds, EXPECTED_KINDS)
    return tally.close("check")


if __name__ == "__main__":
    sys.exit(main())
