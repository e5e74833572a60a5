#!/usr/bin/env python3
"""Tries the harmless twins of the wrong builds, each of which must be proved.

`rt ci` tries the wrong builds, crates/CRATE/must-fail/NAME.edit, and refuses one that is proved. The twin twins/CRATE/NAME.twin has the
edit's form and keeps the meaning (`x / 1`, `++ []`, the same test twice). A twin is checked over what an earlier check of its crate kept:
no verdict on the crate rests on it.

    python3 tests/must_fail/proved.py [CRATE...]
    python3 tests/must_fail/proved.py --fit [CRATE...]     only looks whether each edit has its twin and both fit the crate as it is

Its last line is `must_fail: N passed, M failed`.
"""

import argparse
import os
import sys
import time
from concurrent.futures import ThreadPoolExecutor
from queue import Queue

from copies import PROVED, TWINS, BadEdit, Copy, edited, edits_of, listed, prove, twin_of

AT_A_TIME = min(os.cpu_count() or 1, 4)


def closing(passed, failed):
    print(f"must_fail: {passed} passed, {failed} failed")
    return 0 if failed == 0 else 1


def misfits(edits):
    """What is wrong with an edit or its twin, for each that does not fit its crate."""
    for edit in edits:
        try:
            edited(edit)
            if not twin_of(edit).is_file():
                raise BadEdit(f"{edit}: it has no twin")
            edited(twin_of(edit))
        except BadEdit as problem:
            yield str(problem)


def tried(copy, crate, twins):
    """Tries a crate's twins one after another; before and behind them the crate as it is has to be proved. The lines to print, and how many are proved."""
    lines, passed = [], 0
    if copy.check(crate).verdict != PROVED:
        return [f"must_fail {crate}: NOT PROVED as it is"], 0
    for twin in twins:
        began = time.monotonic()
        checked = copy.tried(twin)
        took = f"{time.monotonic() - began:.0f} s"
        if checked.verdict == PROVED:
            passed += 1
            lines.append(f"must_fail {crate}/{twin.name}: proved, as it must be ({took})")
        else:
            place = checked.place() and f"first at {checked.place()}; "
            lines.append(f"must_fail {crate}/{twin.name}: NOT PROVED: {checked.verdict} ({place}{took})")
    if copy.check(crate).verdict != PROVED:
        return [*lines, f"must_fail {crate}: NOT PROVED as it is, behind its twins"], 0
    return lines, passed


def try_twins(twins):
    """Tries all twins, several crates at a time. How many are proved."""
    free = Queue()
    for _ in range(AT_A_TIME):
        free.put(Copy())

    def run(crate):
        copy = free.get()
        try:
            lines, passed = tried(copy, crate, twins[crate])
        finally:
            free.put(copy)
        print("\n".join(lines), flush=True)
        return passed

    for crate in twins:
        prove(crate)
    with ThreadPoolExecutor(AT_A_TIME) as pool:
        return sum(pool.map(run, twins))


def main():
    parser = argparse.ArgumentParser(description=__doc__, formatter_class=argparse.RawDescriptionHelpFormatter)
    parser.add_argument("crates", nargs="*", metavar="CRATE")
    parser.add_argument("--fit", action="store_true", help="tries nothing")
    arguments = parser.parse_args()
    # The last crates of crates.txt first: they take longest.
    edits = {crate: edits_of(crate) for crate in reversed(listed()) if not arguments.crates or crate in arguments.crates}
    every = [edit for of in edits.values() for edit in of]
    wrong = list(misfits(every))
    alone = {twin for twin in TWINS.glob("*/*") if not arguments.crates} - set(map(twin_of, every))
    wrong += [f"{twin}: it is of no edit" for twin in sorted(alone)]
    for line in wrong:
        print(f"must_fail: {line}")
    if arguments.fit:
        return closing(len(every) - len(wrong), len(wrong))
    if wrong:
        return 2
    passed = try_twins({crate: list(map(twin_of, of)) for crate, of in edits.items() if of})
    return closing(passed, len(every) - passed)


if __name__ == "__main__":
    try:
        sys.exit(main())
    except (BadEdit, FileNotFoundError) as problem:
        print(f"proved.py: {problem}", file=sys.stderr)
        sys.exit(2)
