#!/usr/bin/env python3
"""Compares what README.md and docs/LIMIT.md show with what the gate proves and runs.

    python3 tests/docs/compare.py

Each page has a block marked rust that begins with the page's comment, below, and every block marked rust has to
stand in crates/example/src/main.rt, line for line. README.md also says what the program prints, shows the example
traces with what comes of them and the figures of rows, has the lines of the trace of subarrays and of its listing in
its table, and has a line of the trace of large banks and one of its listing whose columns are full.
Exit status: 0 all equal; 1 a difference.
"""

import pathlib
import re
import sys

sys.dont_write_bytecode = True
sys.path.insert(0, str(pathlib.Path(__file__).resolve().parents[1]))
from comparison import ROOT, Tally

SOURCE = "crates/example/src/main.rt"
PAGES = {
    "README.md": "// Activates a row for so many units.",
    "docs/LIMIT.md": "// Activates a row for so many units.",
}


SHOWN = (
    "tests/listing/example.trace", "tests/listing/example.listing",
    "tests/listing/loaded.trace", "tests/listing/loaded.listing",
    "tests/listing/holds.trace", "tests/listing/holds.listing",
    "tests/writer/example.trace", "tests/writer/example.spelling", "tests/writer/example.fault",
    "tests/check/example.listing", "tests/check/example.answer",
    "tests/c_interface/row_limit.example",
)
SUBARRAYS = ("tests/listing/subarrays.trace", "tests/listing/subarrays.listing")
COLUMNS = {
    "tests/listing/large.trace": "A262143",
    "tests/listing/large.listing": "R     0     3262141262140262143",
}


def indented(text):
    """A text as a page shows it: four blanks before each line that is not blank."""
    return "".join(f"    {line}\n" if line else "\n" for line in text.splitlines())


def rust_blocks(text):
    """The blocks of a page that are marked rust, without their fences."""
    return re.findall(r"^```rust\n(.*?)^```$", text, re.MULTILINE | re.DOTALL)


def main():
    tally = Tally()
    source = (ROOT / SOURCE).read_text()
    for page, comment in PAGES.items():
        tally.begin(page)
        shown = rust_blocks((ROOT / page).read_text())
        tally.check(any(block.startswith(comment) for block in shown), f"no block begins '{comment}'")
        for block in shown:
            first = block.split("\n")[0]
            tally.check("\n" + block in source, f"the block that begins '{first}' is not in {SOURCE}")
    readme = (ROOT / "README.md").read_text()
    for printed in (ROOT / "crates/example/stdout").read_text().splitlines():
        tally.check(f"`{printed}`" in readme, f"README.md does not say that it prints '{printed}'")
    for file in SHOWN:
        text = (ROOT / file).read_text()
        tally.check("\n\n" + indented(text) + "\n" in readme, f"README.md does not show {file}")
    lines = [(ROOT / file).read_text().splitlines() for file in SUBARRAYS]
    in_table = [line for line in lines[0] if line[0] in "SA"] + [line for line in lines[1] if line[0] == "R"]
    for line in in_table:
        tally.check(f"`{line}`" in readme, f"README.md does not have '{line}' of {SUBARRAYS[0]} or its listing")
    for file, line in COLUMNS.items():
        tally.check(line in (ROOT / file).read_text().splitlines(), f"{file} has no line '{line}'")
        tally.check(f"`{line}`" in readme, f"README.md does not have '{line}' of {file}")
    return tally.close("docs")


if __name__ == "__main__":
    sys.exit(main())
