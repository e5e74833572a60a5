#!/usr/bin/env python3
"""Compares the trace writer with the plain model: the program `tracefmt`, and the library's call.

    tools/programs tracefmt test_writer rowlist
    python3 tests/writer/compare.py [--seed N] [--program COMMAND] [--caller COMMAND] [--rowlist COMMAND]

Builds the model, then compares what `tracefmt` writes and what it prints on standard error, and the
answers and the whole lent text of the writer's calls, which `test_writer` makes: on the example
of README.md (example.*), on edges written by hand (edges.cases), and on random traces (records.py) and
calls (calls.py), with one fixed and one fresh seed (--seed repeats a fresh one). Most of the random ones
are made for an answer, which the model has to give too. What differs stays in target/writer/.
Exit status: 0 all equal; 1 a difference; 2 something is missing or cannot be built.
"""

import argparse
import collections
import os
import pathlib
import random
import re
import subprocess
import sys

sys.dont_write_bytecode = True
TESTS = pathlib.Path(__file__).resolve().parents[1]
sys.path[:0] = [str(TESTS), str(TESTS / "listing")]
import calls
from calls import ANSWER, Call, known_answer, random_calls, request, shown
from comparison import (
    BUILD_MODEL, FIXED_SEED, MODEL, ROOT, TIME_LIMIT, Tally, arguments_with_seeds, build, give_up,
)
from failures import (
    check_failures, errors_closed, errors_full, input_closed, input_fails_later, input_unreadable,
    output_closed, output_fills, output_full, reader_leaves,
)
from programs import (
    add_programs, command_of, difference, from_file, in_pieces, left_open, random_pieces, through_pipe, wait_until_taken,
)
from records import (
    Case, FAULTS, faulty_case, good_records, one_record_changed, random_cases, respelled, spelled,
    unfinished,
)
from traces import KINDS

HERE = "tests/writer"
OUT = "target/writer"
MODEL_REWRITE = [MODEL, "rewrite"]
MODEL_WRITER = [MODEL, "writer"]

TRICKLES = 15  # traces in small pieces for each seed
PAIRS = 30  # pairs of traces, and traces that are listed, for each seed
MEGABYTE = 10**6
WORDS = b"tracefmt: cannot read the trace", b"tracefmt: cannot write the spelling"
MOST_GROWTH = 1000  # kilobytes by which a long input may raise the program's memory
REFUSALS = (1, 2, 3, 4, 5, 6, 7, 9, 11, 14, 15)  # those that a line can earn


# What tracefmt writes


def fault_line(fault):
    return b"X%10d%6d\n" % fault if fault else b""


def model_output(text):
    """The model's spelling, and what it prints on standard error."""
    spelling, errors, problem = through_pipe(MODEL_REWRITE, text)
    if problem:
        keep(f"{OUT}/given-up", (("trace", text),))
        give_up(f"the model failed on {OUT}/given-up.trace: {problem}")
    return spelling, errors


def keep(path, contents):
    for suffix, content in contents:
        with open(f"{path}.{suffix}", "wb") as file:
            file.write(content)


def check_output(tally, command, feed, name, text, wanted):
    """`wanted` is the spelling and what has to be printed on standard error."""
    spelling, errors, problem = feed(command, text)
    if (spelling, errors) == wanted and not problem:
        tally.check(True, "")
        return
    kept = f"{OUT}/failed-{tally.failed + 1}"
    keep(kept, (("trace", text), ("wanted", wanted[0]), ("wanted-fault", wanted[1]),
                ("spelling", spelling), ("fault", errors)))
    why = problem or difference(wanted[0], spelling)
    tally.check(False, f"{name}, {kept}.trace: {why or f'fault {errors} ought to be {wanted[1]}'}")


def check_case(tally, kinds, command, feed, name, case):
    kinds[case.kind] += 1
    wanted = model_output(case.text)
    kinds[f"fault {int(wanted[1][11:17])}" if wanted[1] else "no fault"] += 1
    if case.spelling is not None:
        known = case.spelling, fault_line(case.fault)
        check_output(tally, MODEL_REWRITE, through_pipe, f"{name} by the model", case.text, known)
    check_output(tally, command, feed, name, case.text, wanted)


def compare_outputs(tally, kinds, command, seed, name):
    tally.begin(f"{name}: traces by tracefmt")
    rng = random.Random(seed)
    count = 0
    for case in random_cases(rng):
        count += 1
        feed = rng.choice((from_file, through_pipe))
        check_case(tally, kinds, command, feed, f"{name} {count} ({case.kind})", case)
    for _ in range(TRICKLES):
        case = piecemeal_case(rng)
        count += 1
        feed = in_pieces(random_pieces(rng, len(case.text)))
        check_case(tally, kinds, command, feed, f"{name} {count} (in pieces)", case)
    print(f"  {count} traces")


def piecemeal_case(rng):
    chance = rng.random()
    if chance < 0.3:
        case = faulty_case(rng, "", rng.choice(list(FAULTS.values())), rng.randint(1, 60))
    elif chance < 0.5:
        case = unfinished(rng)
    else:
        records = good_records(rng, rng.choice((10, 60, 2000)))
        case = Case("", respelled(rng, records), spelled(records), None)
    return case._replace(kind="in pieces")


# What holds of two traces, and of what is written


def check_pairs(tally, command, seed, name):
    """The same bytes exactly for the same records, and the same bytes again from those."""
    tally.begin(f"{name}: pairs of traces")
    rng = random.Random(seed)
    for number in range(1, PAIRS + 1):
        records = good_records(rng, rng.randint(2, 60))
        one, other, changed = (
            through_pipe(command, text).text for text in (
                respelled(rng, records), respelled(rng, records),
                respelled(rng, one_record_changed(rng, records)))
        )
        tally.check(one == other != b"", f"{name} {number}: the same records, other bytes")
        tally.check(one != changed, f"{name} {number}: other records, the same bytes")
        again = through_pipe(command, one)
        tally.check((again.text, again.errors) == (one, b""), f"{name} {number}: rewritten again")


def check_listings(tally, kinds, command, rowlist, seed, name):
    """A rewritten trace has the same listing, line numbers aside where blank lines fell away."""
    tally.begin(f"{name}: listings of rewritten traces")
    rng = random.Random(seed)
    for number in range(1, PAIRS + 1):
        blanks = rng.choice((0, 0.5))
        text = respelled(rng, good_records(rng, rng.randint(1, 300)), (0.5, blanks, 0.5))
        listing = through_pipe(rowlist, text).text
        rewritten = through_pipe(rowlist, through_pipe(command, text).text).text
        kinds["listing with a refused line"] += b"X" in listing
        if blanks:
            listing, rewritten = (re.sub(rb"X.{10}", b"X", one) for one in (listing, rewritten))
        tally.check(listing == rewritten, f"{name} {number}: {difference(listing, rewritten)}")


# Input or output that fails, and memory


def check_broken(tally, command):
    tally.begin("input or output that fails")
    text = b"S    16     2    16    16     4     4     4\n" + b"A     5\nA    10\nR\n" * 20_000
    failures = (output_full, output_closed, reader_leaves, output_fills, input_unreadable, input_closed,
                input_fails_later)
    check_failures(tally, command, failures, text, text, *WORDS)
    failures = (output_full, output_closed, reader_leaves, output_fills, errors_full, errors_closed)
    check_failures(tally, command, failures, text + b"A    16\nR\n", text, *WORDS)


def check_memory(tally, command):
    """The most memory that the program held does not grow with the length of a trace, nor of a line."""
    tally.begin("memory")
    lines = spelled([("S", (16, 2, 1, 2, 4, 4, 4))]) + b"A     5\nR\n\n" * 90_000
    process = subprocess.Popen(command, stdin=subprocess.PIPE, stdout=subprocess.DEVNULL,
                               stderr=subprocess.DEVNULL, bufsize=0)
    first, more, last = [most_memory_after(process, text)
                         for text in (lines, lines * 12, b"A" * 12 * MEGABYTE)]
    tally.check(more is not None and more - first <= MOST_GROWTH,
                f"12 MB more of lines: {first}, then {more} kB")
    tally.check(last is None or last - first <= MOST_GROWTH,  # it may have ended at that line
                f"a line of 12 MB: {first}, then {last} kB")
    process.stdin.close()
    process.wait(timeout=TIME_LIMIT)


def most_memory_after(process, text):
    """In kilobytes, when the program has taken the text; None if it has ended."""
    try:
        process.stdin.write(text)
        wait_until_taken(process)
        status = pathlib.Path(f"/proc/{process.pid}/status").read_text()
    except (BrokenPipeError, FileNotFoundError):
        return None
    found = re.search(r"VmHWM:\s+(\d+) kB", status)
    return int(found[1]) if found else None


# The library's call


def answers_of(command, requests, path):
    """One answer for each whole request, or None behind the point where the program stopped."""
    with open(f"{path}.requests", "wb") as file:
        file.writelines(requests)
        file.write(requests[0][:-1])  # no whole request
    with open(f"{path}.requests", "rb") as source, open(f"{path}.answers", "wb") as sink:
        try:
            status = subprocess.run(command, stdin=source, stdout=sink, timeout=TIME_LIMIT).returncode
        except subprocess.TimeoutExpired:
            status = f"none within {TIME_LIMIT} seconds"
    answers = pathlib.Path(f"{path}.answers").read_bytes()
    problem = None
    if status != 0 or len(answers) != ANSWER.size * len(requests):
        problem = f"exit status {status}, {len(answers)} bytes for {len(requests)} answers"
    whole = [answers[place:place + ANSWER.size]
             for place in range(0, len(answers) - ANSWER.size + 1, ANSWER.size)][:len(requests)]
    return whole + [None] * (len(requests) - len(whole)), problem


def compare_calls(tally, kinds, command, cases, rng, name):
    tally.begin(f"{name}: {len(cases)} calls of the writer")
    requests = [request(rng, case) for case in cases]
    model, problem = answers_of(MODEL_WRITER, requests, f"{OUT}/{name}.model")
    if problem:
        give_up(f"the model failed on {OUT}/{name}.model.requests: {problem}")
    library, problem = answers_of(command, requests, f"{OUT}/{name}.library")
    tally.check(not problem, f"test_writer: {problem}")
    for number, (case, wanted, answer) in enumerate(zip(cases, model, library), 1):
        refused, value, _ = ANSWER.unpack(wanted)
        kinds.update((case.kind, f"call refused with {value}" if refused else "call accepted"))
        about = f"{name} {number} ({case.kind}), {case.length} bytes lent for {case.text[:300]}"
        if case.number is not None:
            check_answer(tally, f"{about}, by the model", known_answer(case), wanted)
        check_answer(tally, about, wanted, answer)


def check_answer(tally, about, wanted, answer):
    good = answer == wanted
    tally.check(good, good or f"{about}:\n    {shown(answer)}\n    and ought to be {shown(wanted)}")


# What was written by hand


def written_cases():
    """The traces of edges.cases, and the calls on each."""
    for block in pathlib.Path(f"{HERE}/edges.cases").read_text().split("\n\n"):
        parts = collections.defaultdict(list)
        for line in block.rstrip("\n").split("\n"):
            if line.startswith("<-"):
                parts["<"].append(line[2:])
            else:
                end = "\n" if line[0] in "<>!" else ""
                parts[line[0]].append(line[2:] + end)
        if parts.keys() == {"#"}:
            continue
        text, spelling, fault = ("".join(parts[mark]).encode() for mark in "<>!")
        title = parts["#"][0]
        yield title, text, (spelling, fault), list(written_calls(title, text, spelling, parts["?"]))


def written_calls(title, text, spelling, lines):
    for line in lines:
        length, number = line.split(" = ")
        yield Call(title, text, int(length), int(number), spelling)


def check_written(tally, command, caller):
    tally.begin("the example, and edges written by hand, by tracefmt")
    parts = [pathlib.Path(f"{HERE}/example.{suffix}").read_bytes()
             for suffix in ("trace", "spelling", "fault")]
    edges = list(written_cases())
    for title, text, wanted, _ in [("example", parts[0], tuple(parts[1:]), []), *edges]:
        check_output(tally, MODEL_REWRITE, from_file, f"{title} by the model", text, wanted)
        for feed in (from_file, through_pipe, in_pieces([1] * len(text))):
            check_output(tally, command, feed, f"{title} by the program", text, wanted)
        if wanted[1] and text.endswith(b"\n"):
            check_output(tally, command, left_open, f"{title}, at whose fault it has to stop", text, wanted)
    cases = [case for _, _, _, cases in edges for case in cases]
    compare_calls(tally, collections.Counter(), caller, cases, random.Random(FIXED_SEED), "edges")


EXPECTED_KINDS = (
    "empty input", "only blank lines", "every width", "good records", *FAULTS, "row of another bank",
    "before any settings", "refused settings first", "last line without byte 10", "long line",
    "boundary", "boundary, fault", "long trace", "long trace, fault", "in pieces",
    "listing with a refused line",
    "no fault", *(f"fault {number}" for number in REFUSALS),
    *(f"of the listing: {kind}" for kind in KINDS),
    *calls.EXPECTED_KINDS,
)


def main():
    parser = argparse.ArgumentParser(description="Compares the trace writer with the model.")
    add_programs(parser, program="tracefmt", caller="test_writer", rowlist="rowlist")
    arguments, fresh_seed = arguments_with_seeds(parser)
    command, caller, rowlist = map(command_of, (arguments.program, arguments.caller, arguments.rowlist))

    os.chdir(ROOT)
    build(OUT, BUILD_MODEL)
    tally = Tally()
    kinds = collections.Counter()
    check_written(tally, command, caller)
    check_broken(tally, command)
    check_memory(tally, command)
    for seed, name in ((FIXED_SEED, "fixed"), (fresh_seed, "fresh")):
        compare_outputs(tally, kinds, command, seed, name)
        check_pairs(tally, command, seed, name)
        check_listings(tally, kinds, command, rowlist, seed, name)
        rng = random.Random(seed)
        compare_calls(tally, kinds, caller, list(random_calls(rng)), rng, name)
    tally.begin("how often each kind of trace, fault and call occurred")
    tally.check_kinds(kinds, EXPECTED_KINDS)
    return tally.close("writer")


if __name__ == "__main__":
    sys.exit(main())
