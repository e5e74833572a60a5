#!/usr/bin/env python3
"""Compares the library's C interface with the plain model, answer by answer.

    tools/staticlib
    python3 tests/c_interface/compare.py [--seed N] [--archive FILE] [--rows-archive FILE]

Builds the model, answers.c and the example programs, then compares on the figures of document 01
(figures.txt), on the limits of every setting, on the sweep that bench/ measures (sweep.py) and on
random inputs: one fixed seed, one fresh (--seed repeats a fresh one). A row's figure is asked for
in the calls that tests/calls compares with the model, and has to be the number that each was made
for. Queries and answers stay in target/c_interface/.
Exit status: 0 all equal; 1 a difference; 2 something is missing or cannot be built.
"""

import argparse
import collections
import itertools
import os
import pathlib
import random
import subprocess
import sys

sys.dont_write_bytecode = True
TESTS = pathlib.Path(__file__).resolve().parents[1]
sys.path[:0] = [str(TESTS), str(TESTS / "calls")]
import sweep
from comparison import (
    BLOCK, BUILD_MODEL, COUNTERS, C_FLAGS, FIXED_SEED, MAX_COUNTERS, MAX_WINDOW, ROOT, ROWS, Run,
    TIME_LIMIT, Tally, U32, U64, VOLUME, WINDOW, accepted_settings, arguments_with_seeds, build,
    changed, faulty_settings, give_up, limit_values, read_figures, spread,
)
from figures import figure_sweeps, random_figures
from queries import OUT, bound_query, least_query, model_answers, row_limit_query

HERE = "tests/c_interface"
ANSWERS = f"{OUT}/answers"
EXAMPLES = (f"{OUT}/example_c", f"{OUT}/example_cxx")
ROW_EXAMPLES = (f"{OUT}/row_example_c", f"{OUT}/row_example_cxx")

# Building and running


def build_all(archive, rows_archive):
    for name, file in (("bound", archive), ("rowlimit", rows_archive)):
        if not os.path.exists(file):
            give_up(f"{file} is missing; `tools/staticlib {name}` writes it")
    flags = (*C_FLAGS, "-Iinclude")
    examples = ("examples/bound.c", archive, EXAMPLES), ("examples/row_limit.c", rows_archive, ROW_EXAMPLES)
    build(
        OUT,
        BUILD_MODEL,
        ["cc", "-std=c99", *flags, f"{HERE}/answers.c", archive, rows_archive, "-o", ANSWERS],
        *(["cc", "-std=c99", *flags, source, library, "-o", as_c]
          for source, library, (as_c, _) in examples),
        *(["g++", *flags, "-x", "c++", source, "-x", "none", library, "-o", as_cxx]
          for source, library, (_, as_cxx) in examples),
    )


def start_library(queries, name):
    return Run([ANSWERS], queries, f"{OUT}/{name}.library")


def library_answers(run):
    return [None if answer is None else int(answer) for answer in run.finish_library()]


def both_answers(queries, name):
    library = start_library(queries, name)
    return model_answers(queries, name), library_answers(library)


# Queries


def with_bounds(many_settings, name):
    """Pairs of settings and the model's bound, for thresholds close to 2 x H."""
    return zip(many_settings, model_answers([bound_query(s) for s in many_settings], name))


def distinct(queries):
    return list(dict.fromkeys(queries))


# The figures of document 01


def check_figures(tally):
    tally.begin("figures of document 01")
    queries, expected = read_figures(f"{HERE}/figures.txt")
    compare_figures(tally, "model", queries, expected, model_answers(queries, "figures"))
    exported = [(q, a) for q, a in zip(queries, expected) if not q.startswith("physical")]
    queries, expected = map(list, zip(*exported))
    answers = library_answers(start_library(queries, "figures"))
    compare_figures(tally, "library", queries, expected, answers)


def compare_figures(tally, side, queries, expected, answers):
    for query, wanted, answer in zip(queries, expected, answers):
        if wanted == "accepted":
            good = answer is not None and answer > 0
        else:
            good = answer == int(wanted)
        tally.check(good, f"{query}: document 01 has {wanted}, the {side} gives {answer}")
    print(f"  {len(queries)} against the {side}")


# The limits of every setting, with their neighbours

BASES = (
    (16, 2, 1, 2, 4, 4, 4),
    (16, 2, 1, 1, 1, 1, 16),
    (64, 4, 16, 40, 100, 8, 8),
    (4096, 4, 7, 100, 4096, 64, 64),
    (65536, 2, 3, 20, 4096, 1024, 64),
    (65536, 4, 16, 20, 4096, 8192, 64),
    (262144, 2, 3, 20, 4096, 4096, 64),
    (8192, 4, 2, 2, 1, 8192, 1),
)

# Rows, window and block around block x window = rows, and products that wrap in 32 bits.
PRODUCTS = (
    (48, 1, 47), (48, 1, 48), (48, 1, 49), (64, 1, 63), (64, 1, 64), (80, 1, 64),
    (96, 95, 1), (96, 96, 1), (96, 97, 1), (96, 47, 2), (96, 48, 2), (96, 49, 2),
    (96, 19, 5), (96, 31, 3), (96, 32, 3), (96, 12, 8), (8192, 8191, 1), (8192, 8192, 1),
    (8208, 8192, 1), (65536, 8191, 8), (65536, 8192, 7), (65536, 8192, 8), (65536, 7281, 9),
    (65536, 7282, 9), (65536, 1023, 64), (65536, 1024, 64), (65536, 1025, 64), (65520, 1039, 63),
    (65520, 1040, 63), (65536, 1040, 63), (65552, 1024, 64), (65552, 1025, 64), (65552, 1040, 63),
    (65552, 1041, 63), (131072, 2047, 64), (131072, 2048, 64), (131072, 8192, 16),
    (262128, 4095, 64), (262128, 4096, 64), (262128, 4160, 63), (262128, 4161, 63),
    (262144, 4095, 64), (262144, 4096, 64), (262144, 4097, 64), (262144, 4161, 63),
    (262144, 4162, 63), (262144, 8191, 32), (262144, 8192, 31), (262144, 8192, 32),
    (262144, 8192, 64), (262160, 8192, 64), (16, 65536, 65536), (16, 65537, 65536),
    (16, 2**31, 2), (16, 2**28, 16), (16, 2**26, 64), (16, 8192, 2**19), (16, 4, 2**30 + 4),
)

# The smallest settings: every threshold up to above 2 x H is tried.
SMALL = ((16, 2, 1, 2, 4, 4, 4), (16, 2, 2, 2, 1, 6, 3), (32, 4, 1, 1, 2, 9, 4))

# The answer 2,048 and the refusal behind it: here H still falls from C = 2,047 to 2,048.
LARGE = ((262144, 4, 1, 2048, 4096, 8192, 64), (16, 2, 1, 2048, 4096, 8192, 1))


def limit_settings():
    """One field at a time around every base, and the products."""
    for base in BASES:
        for field in range(7):
            for value in limit_values(base, field):
                yield changed(base, (field, value))
        for rows, window, block in PRODUCTS:
            yield changed(base, (ROWS, rows), (WINDOW, window), (BLOCK, block))


def limit_pairs():
    """Two fields at a time around the first bases, so that the order of the tests decides."""
    for base in BASES[:3]:
        for one, other in itertools.combinations(range(7), 2):
            for x, y in itertools.product(limit_values(base, one), limit_values(base, other)):
                yield changed(base, (one, x), (other, y))


def limit_queries():
    singles = list(limit_settings())
    pairs = list(limit_pairs())
    queries = [bound_query(s) for s in singles + pairs]
    queries += [least_query(s, U64) for s in singles + pairs]
    for settings, bound in with_bounds(singles, "limits.thresholds"):
        if bound > 0:
            queries += [least_query(settings, 2 * bound + d) for d in (-1, 0, 1)]
    for settings in BASES[:3]:
        for threshold in (0, 1, 2**31, 2**32 - 1, 2**32, 2**32 + 1, 2**63 - 1, 2**63, 2**63 + 1):
            queries.append(least_query(settings, threshold))
    for settings, bound in with_bounds(SMALL, "limits.small"):
        queries += [least_query(settings, threshold) for threshold in range(4 * bound)]
    for settings, bound in with_bounds(LARGE, "limits.large"):
        queries += [least_query(settings, 2 * bound + d) for d in (0, 1)]
    return distinct(queries)


# Random inputs


def wild_settings(rng):
    return tuple(rng.randint(0, U32) for _ in range(7))


def any_threshold(rng, bound):
    """Often close to 2 x H, so that the answers differ."""
    return rng.choice((
        0, 1, 2 * bound - 1, 2 * bound, 2 * bound + 1, 2**63, U64, rng.randint(0, 4 * bound),
        rng.randint(bound, 3 * bound), 2**32 + bound, 2**63 + bound, rng.randint(0, U64),
    ))


def around_twice_the_bound(bound):
    """The thresholds at which the answer changes at a counter count, and the least and largest."""
    return 2 * bound - 1, 2 * bound, 2 * bound + 1, 0, U64


def random_queries(rng, scale, name):
    """About 28,000 queries at scale 1. A least count may cost the model 2,048 whole bounds, so its
    windows are mostly short; some hundred are in the thousands and a few dozen are the longest."""
    def times(count):
        return range(int(count * scale))

    any_window = [rng.choice((spread(rng, 1, MAX_WINDOW), rng.randint(1, MAX_WINDOW)))
                  for _ in times(6000)]
    queries = [bound_query(accepted_settings(rng, window)) for window in any_window]
    queries += [bound_query(faulty_settings(rng)) for _ in times(6000)]
    queries += [bound_query(wild_settings(rng)) for _ in times(500)]
    queries += [least_query(faulty_settings(rng), any_threshold(rng, 10_000)) for _ in times(5000)]
    queries += [least_query(wild_settings(rng), rng.randint(0, U64)) for _ in times(500)]

    windows = [spread(rng, 1, 100) for _ in times(6000)]
    windows += [rng.randint(1000, MAX_WINDOW) for _ in times(200)]
    windows += [MAX_WINDOW for _ in times(30)]
    accepted = [accepted_settings(rng, window) for window in windows]
    queries += [least_query(settings, any_threshold(rng, bound))
                for settings, bound in with_bounds(accepted, f"{name}.thresholds")]
    windows = [spread(rng, 1, 200) for _ in times(800)] + [MAX_WINDOW for _ in times(20)]
    accepted = [accepted_settings(rng, window) for window in windows]
    queries += [least_query(settings, threshold)
                for settings, bound in with_bounds(accepted, f"{name}.around")
                for threshold in around_twice_the_bound(bound)]
    rng.shuffle(queries)
    return queries


# Comparing, and what has to occur


def kind(query, answer):
    """What sort of answer this is; every sort of EXPECTED_KINDS has to occur."""
    name, *numbers = query.split()
    if answer < 0:
        return f"{name} refused with {-answer}"
    numbers = [int(number) for number in numbers]
    if name == "least":
        if answer == numbers[VOLUME]:
            return "least count equal to the volume"
        return "least count 2048" if answer == MAX_COUNTERS else "least count in between"
    if numbers[WINDOW] == 1:
        return "bound of one event"
    if numbers[COUNTERS] < (numbers[WINDOW] - 1) * numbers[VOLUME]:
        return "bound with sizes cut at counters + 1"
    return "bound with no size cut"


EXPECTED_KINDS = (
    *(f"bound refused with {k}" for k in (1, 2, 3, 4, 5, 6, 7)),
    "bound of one event", "bound with sizes cut at counters + 1", "bound with no size cut",
    *(f"least refused with {k}" for k in (1, 2, 3, 5, 6, 7, 12)),
    "least count equal to the volume", "least count in between", "least count 2048",
)


def compare(tally, kinds, queries, name):
    """Compares and counts the kinds; the model's answers."""
    tally.begin(f"{name}: {len(queries)} queries")
    model, library = both_answers(queries, name)
    for query, wanted, answer in zip(queries, model, library):
        kinds[kind(query, wanted)] += 1
        tally.check(answer == wanted, f"{query}: the model gives {wanted}, the library {answer}")
    return model


def compare_sweep(tally, kinds):
    """The sweep; every size of least count has to be a fifth of it."""
    answers = compare(tally, kinds, sweep.queries(), "sweep")
    sizes = collections.Counter(map(sweep.size_of, answers[sweep.COUNT:]))
    for size in (*sweep.SIZES, sweep.REFUSED):
        print(f"  {sizes[size]:6} least counts {size}")
        tally.check(5 * sizes[size] >= sweep.COUNT, f"too few least counts {size}")


# A row's figure


def compare_rows(tally, cases, name):
    """The numbers that the cases were made for."""
    tally.begin(f"{name}: {len(cases)} figures of rows")
    queries = [row_limit_query(case) for case in cases]
    for case, query, answer in zip(cases, queries, library_answers(start_library(queries, name))):
        tally.check(answer == case.number,
                    f"{query} ({case.kind}): the number is {case.number}, the library gives {answer}")


# The example programs


def check_examples(tally):
    tally.begin("example programs, as C and as C++")
    usual = "bound H: 30\n2 x H:   60\n"
    cases = (
        ("", 0, usual + "least counter count for threshold 61: 2\n"),
        ("16 2 1 2 4 4 4", 0, usual + "least counter count for threshold 61: 2\n"),
        ("16 2 1 2 4 4 4 60", 0, usual + "least counter count for threshold 60: 3\n"),
        ("16 2 1 2 4 4 4 56", 1, usual),
        ("262144 2 1 1 4 4096 64 565248", 0, "bound H: 282624\n2 x H:   565248\n"
         "least counter count for threshold 565248: 2\n"),
        ("262160 2 1 1 4 4097 64", 1, ""),
        ("15 2 1 2 4 4 4", 1, ""),
        ("16 2 1 0 4 4 4", 1, ""),
        ("16 2 1 2 4 4", 2, ""),
        ("16 2 1 2 4 4 4 61 0", 2, ""),
        ("16 2 1 2 4 4 -4", 2, ""),
        ("16 2 1 2 4 4 4x", 2, ""),
        ("16 2 1 2 4 4 4294967296", 2, ""),
        ("16 2 1 2 4 4 4 18446744073709551616", 2, ""),
    )
    row_cases = (
        ("", 0, (ROOT / HERE / "row_limit.example").read_text()),
        ("16 2 1 2 4 4 4 5", 0, "row 5: 27 36 24 30\n"),
        ("65536 2 1 677 166 8192 8 65535 0", 0, "row 65535: 175\n"),
        ("16 2 1 2 4 4 4 5 4", 1, "row 5:\n"),
        ("16 2 1 2 4 4 4 16 0", 1, "row 16:\n"),
        ("16 2 1 2 4 0 4 0", 1, "row 0:\n"),
        ("16 2 1 2 4 4 4", 2, ""),
        ("16 2 1 2 4 4 4 5 0 0", 2, ""),
        ("16 2 1 2 4 4 4 x", 2, ""),
        ("16 2 1 2 4 4 4 4294967296", 2, ""),
    )
    runs = (*itertools.product(EXAMPLES, cases), *itertools.product(ROW_EXAMPLES, row_cases))
    for program, (arguments, status, output) in runs:
        run = subprocess.run([program, *arguments.split()], capture_output=True, text=True,
                             timeout=TIME_LIMIT)
        good = (run.returncode, run.stdout, run.stderr != "") == (status, output, status != 0)
        tally.check(good, f"{program} {arguments}: exit status {run.returncode}, {run.stdout!r}")


def main():
    parser = argparse.ArgumentParser(description="Compares the C interface with the model.")
    parser.add_argument("--archive", default=ROOT / "target/staticlib/libbound.a",
                        help="in place of target/staticlib/libbound.a")
    parser.add_argument("--rows-archive", default=ROOT / "target/staticlib/librowlimit.a",
                        help="in place of target/staticlib/librowlimit.a")
    arguments, fresh_seed = arguments_with_seeds(parser)
    archives = map(os.path.abspath, (arguments.archive, arguments.rows_archive))

    os.chdir(ROOT)
    build_all(*archives)
    tally = Tally()
    kinds = collections.Counter()
    check_figures(tally)
    check_examples(tally)
    compare(tally, kinds, limit_queries(), "limits")
    compare_sweep(tally, kinds)
    compare(tally, kinds, random_queries(random.Random(FIXED_SEED), 1, "fixed"), "fixed")
    compare(tally, kinds, random_queries(random.Random(fresh_seed), 0.25, "fresh"), "fresh")
    compare_rows(tally, list(figure_sweeps()), "row_sweeps")
    compare_rows(tally, list(random_figures(random.Random(FIXED_SEED))), "row_fixed")
    compare_rows(tally, list(random_figures(random.Random(fresh_seed))), "row_fresh")
    tally.begin("how often each kind of answer occurred")
    tally.check_kinds(kinds, EXPECTED_KINDS)
    return tally.close("c_interface")


if __name__ == "__main__":
    sys.exit(main())
