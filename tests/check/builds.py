"""Builds of `rowcheck` that exchange its two files or read another, which must not compile: each of the two has a
type of its own, and no number can stand for either. A build that compiles is the prover's to refuse (must-fail)."""

import pathlib
import shutil
import subprocess
import tempfile

from comparison import ROOT, TIME_LIMIT, give_up

CRATE = "crates/rowcheck"
SOURCE = f"{CRATE}/src/main.rt"
OTHER_TYPE, PRIVATE = b"error[mismatched-types]", b"error[private-field]"

# What is built, the text that stands once in the source, what takes its place, and the compiler's error.
BUILDS = (
    ("the files exchanged in main", "check_files(&mut trace, &mut listing);", "check_files(&mut listing, &mut trace);",
     OTHER_TYPE),
    ("the files exchanged in run", "            step, trace, listing, counts,", "            step, listing, trace, counts,",
     OTHER_TYPE),
    ("the listing opened as the trace", "open_trace(&rt, &mut trace_name)", "open_listing(&rt, &mut trace_name)",
     OTHER_TYPE),
    ("the trace's file given as a listing's", "Some(TraceFile { file, length })", "Some(ListingFile { file, length })",
     OTHER_TYPE),
    ("the listing read from descriptor 0", "input::read_from(&mut listing.file, given, 0)",
     "input::read_from(&mut 0, given, 0)", OTHER_TYPE),
    ("a file made by hand", "input::read_from(&mut listing.file, given, 0)",
     "input::read_from(&mut File { source: None, ..input::unopened() }, given, 0)", PRIVATE),
)


def compiled(folder):
    """Whether the compiler takes the program, and what is said; `rt try` compiles and runs it with no proof."""
    done = subprocess.run(["rt", "try"], cwd=f"{folder}/{CRATE}", stdin=subprocess.DEVNULL, stdout=subprocess.PIPE,
                          stderr=subprocess.STDOUT, timeout=TIME_LIMIT)
    return done.returncode == 0, done.stdout


def check_builds(tally):
    tally.begin("builds that must not compile")
    with tempfile.TemporaryDirectory() as folder:
        shutil.copy(ROOT / "crates.txt", folder)
        shutil.copytree(ROOT / "crates", f"{folder}/crates", ignore=shutil.ignore_patterns("must-fail", "out"))
        source = pathlib.Path(folder, SOURCE)
        text = source.read_text(encoding="utf-8")
        taken, said = compiled(folder)
        tally.check(taken, f"the program as it is does not compile: {said[-300:]}")
        for title, old, new, error in BUILDS:
            if text.count(old) != 1:
                give_up(f"{title}: `{old}` stands {text.count(old)} times in {SOURCE}")
            source.write_text(text.replace(old, new), encoding="utf-8")
            taken, said = compiled(folder)
            tally.check(not taken and error in said, f"{title}: {'it compiles' if taken else said[-300:]}")
