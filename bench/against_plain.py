"""A program's time over that of a plain Rust program beside it, on the same trace in one run."""

import argparse
import pathlib
import subprocess
import sys
import time

ROOT = pathlib.Path(__file__).resolve().parents[1]
TRACES = ROOT / "target/traces"


def built(program):
    """Where rt puts a program."""
    return ROOT / "crates" / program / "out" / program


def rounds_asked(description, default):
    parser = argparse.ArgumentParser(description=description)
    parser.add_argument("--rounds", type=int, default=default)
    return parser.parse_args().rounds


def build_plain(name):
    subprocess.run(["cargo", "build", "--release", "--quiet", "--target-dir", ROOT / "target/plain"],
                   cwd=ROOT / "bench" / f"plain_{name}", check=True)


def run(program, trace, output):
    with open(trace, "rb") as source, open(output, "wb") as sink:
        began = time.perf_counter()
        subprocess.run([program], stdin=source, stdout=sink, check=True)
        return time.perf_counter() - began


def least_times(name, trace, rounds):
    """The program's and the plain one's; what they write has to be equal."""
    programs = built(name), ROOT / "target/plain/release" / f"plain_{name}"
    outputs = TRACES / f"ours.{name}", TRACES / f"plain.{name}"
    times = [[run(program, trace, output) for program, output in zip(programs, outputs)] for _ in range(rounds)]
    if outputs[0].read_bytes() != outputs[1].read_bytes():
        sys.exit(f"{trace.name}: what {name} and the plain program write differs")
    return [min(each) for each in zip(*times)]


def print_ratio(title, name, trace, rounds):
    ours, plain = least_times(name, trace, rounds)
    print(f"{title:<16}{ours / plain:.2f}   ({ours:.3f} s)")
