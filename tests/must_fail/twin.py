#!/usr/bin/env python3
"""Tries a wrong build and its harmless twin, and shows the first error of each.

The twin has the edit's form and keeps the meaning (`x / 1`, `++ []`, the same test twice). Refused at the same place with the same
error, it says that the wrong build is refused for its form, which shows nothing.

    python3 tests/must_fail/twin.py CRATE/EDIT...     crates/CRATE/must-fail/EDIT.edit and tests/must_fail/twins/CRATE/EDIT.twin
    python3 tests/must_fail/twin.py --all [CRATE...]  every edit

Exit status: 0 each twin is proved or refused elsewhere; 1 some edit is not refused, or its twin at the same place; 2 an edit does not fit.
"""

import argparse
import sys
from concurrent.futures import ThreadPoolExecutor

from copies import NOT_TRIED, PROVED, REFUSED, ROOT, BadEdit, Copy, edits_of, listed, prove, twin_of

LOGS = ROOT / "target/must_fail"
SHOWN = 400  # characters of an error


def named(words, everything):
    """The edits that the command line asks for, each with its crate."""
    if everything:
        return [(crate, edit) for crate in listed() if not words or crate in words for edit in edits_of(crate)]
    edits = []
    for word in words:
        crate, _, name = word.removesuffix(".edit").partition("/")
        found = ROOT / "crates" / crate / "must-fail" / f"{name}.edit"
        if not found.is_file():
            raise BadEdit(f"{word} names no edit")
        edits.append((crate, found))
    return edits


def judged(edit, twin):
    """What the two checks say together, and whether the edit tells."""
    if edit.verdict != REFUSED:
        return f"the wrong build is not refused: {edit.verdict}", False
    if twin.verdict == PROVED:
        return "the twin is proved: the wrong build is refused for what it means", True
    if twin.verdict == NOT_TRIED:
        return "the twin did not reach the prover", False
    if twin.place() != edit.place():
        return "the twin is refused elsewhere: read both errors", True
    return "the twin is refused at the same place: with the same error, the wrong build shows nothing", False


def main():
    parser = argparse.ArgumentParser(description=__doc__, formatter_class=argparse.RawDescriptionHelpFormatter)
    parser.add_argument("names", nargs="*", metavar="CRATE/EDIT")
    parser.add_argument("--all", action="store_true", help="every edit, of the named crates or of all")
    arguments = parser.parse_args()
    edits = named(arguments.names, arguments.all)
    if not edits:
        parser.error("no edit is named")
    copies = Copy(), Copy()
    LOGS.mkdir(parents=True, exist_ok=True)
    told = True
    for crate, file in edits:
        name = file.stem
        prove(crate)
        files = file, twin_of(file)
        with ThreadPoolExecutor(2) as pool:
            edit, twin = pool.map(lambda pair: pair[0].tried(pair[1]), zip(copies, files))
        for kind, checked in (("edit", edit), ("twin", twin)):
            log = LOGS / f"{crate}.{name}.{kind}.log"
            log.write_text(checked.said, encoding="utf-8")
            print(f"{crate}/{name}, {kind}: {checked.verdict}{checked.place() and ', first at ' + checked.place()}"
                  f"; {len(checked.errors)} errors at the root; {log.relative_to(ROOT)}")
            if checked.message():
                print(f"    {checked.message()[:SHOWN]}")
        verdict, tells = judged(edit, twin)
        told = told and tells
        print(f"{crate}/{name}: {verdict}", flush=True)
    return 0 if told else 1


if __name__ == "__main__":
    try:
        sys.exit(main())
    except (BadEdit, FileNotFoundError) as problem:
        print(f"twin.py: {problem}", file=sys.stderr)
        sys.exit(2)
