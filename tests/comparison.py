"""What the comparison scripts share: building, running, counting, and random settings.

A script sets its own folder of results under target/ and ends with `NAME: N passed, M failed`.
Exit status: 0 all equal; 1 a difference; 2 something is missing or cannot be built.
"""

import glob
import os
import pathlib
import random
import subprocess
import sys

ROOT = pathlib.Path(__file__).resolve().parents[1]
MODEL = "target/model/release/model"

FIXED_SEED = 1
TIME_LIMIT = 600  # seconds for one run of a program
SHOWN = 10  # differences printed for one part

# Settings are tuples of seven numbers in document 01's order.
ROWS, DIAMETER, VOLUME, COUNTERS, INTERVAL, WINDOW, BLOCK = range(7)
MAX_ROWS = 262_144
MAX_COUNTERS = 2048
MAX_WINDOW = 8192
U32 = 2**32 - 1
U64 = 2**64 - 1


def built(program):
    """Where rt puts a program."""
    return ROOT / "crates" / program / "out" / program


def give_up(message):
    print(f"{sys.argv[0]}: {message}", file=sys.stderr)
    sys.exit(2)


# The frame of a script


def arguments_with_seeds(parser):
    """Adds --seed to the parser; the parsed command line and the fresh seed. Prints both seeds."""
    parser.add_argument("--seed", type=int, help="in place of a fresh seed")
    arguments = parser.parse_args()
    fresh_seed = arguments.seed
    if fresh_seed is None:
        fresh_seed = random.SystemRandom().randint(0, 10**9)
    print(f"seeds: fixed {FIXED_SEED}, fresh {fresh_seed}")
    return arguments, fresh_seed


class Tally:
    """Counts checks and prints the first failures of each part."""

    def __init__(self):
        self.passed = 0
        self.failed = 0
        self.shown = 0

    def begin(self, title):
        print(title)
        self.shown = 0

    def check(self, good, message):
        if good:
            self.passed += 1
            return
        self.failed += 1
        self.shown += 1
        if self.shown <= SHOWN:
            print(f"  FAILED {message}")
        elif self.shown == SHOWN + 1:
            print("  FAILED and more, not shown")

    def check_kinds(self, kinds, expected):
        """Every expected kind has to occur, and no other."""
        for name in expected:
            print(f"  {kinds[name]:6} {name}")
            self.check(kinds[name] > 0, f"never occurred: {name}")
        for name in sorted(kinds.keys() - set(expected)):
            self.check(False, f"ought not to occur: {name}")

    def close(self, name):
        """Prints the closing line; the exit status."""
        print(f"{name}: {self.passed} passed, {self.failed} failed")
        return 1 if self.failed else 0


def read_figures(path):
    """Queries and their answers as texts, from lines `QUERY = ANSWER`; # begins a comment."""
    queries, expected = [], []
    with open(path) as file:
        for line in file:
            line = line.split("#")[0].strip()
            if line:
                query, answer = line.split(" = ")
                queries.append(query)
                expected.append(answer)
    return queries, expected


# Building and running

C_FLAGS = ("-O2", "-Wall", "-Wextra", "-Werror")

BUILD_MODEL = (
    "cargo", "build", "--release", "--offline", "--quiet",
    "--manifest-path", "tests/model/Cargo.toml", "--target-dir", "target/model",
)


def build(out, *commands):
    """Makes the folder of results, without what failed in an earlier run, and runs the commands that build something."""
    os.makedirs(out, exist_ok=True)
    for path in glob.glob(f"{out}/failed-*"):
        os.remove(path)
    for command in commands:
        if subprocess.run(command).returncode != 0:
            give_up(f"this failed: {' '.join(command)}")


class Run:
    """A program started on a list of queries; both stay in files, named by the run."""

    def __init__(self, command, queries, path):
        self.path = path
        self.count = len(queries)
        with open(f"{path}.queries", "w") as file:
            file.writelines(query + "\n" for query in queries)
        with open(f"{path}.queries") as source, open(f"{path}.answers", "w") as sink:
            self.process = subprocess.Popen(command, stdin=source, stdout=sink)

    def finish(self):
        """The answers as lines, and what went wrong with the run, if anything."""
        problem = None
        try:
            status = self.process.wait(timeout=TIME_LIMIT)
            if status != 0:
                problem = f"exit status {status}"
        except subprocess.TimeoutExpired:
            self.process.kill()
            self.process.wait()
            problem = f"no end within {TIME_LIMIT} seconds"
        with open(f"{self.path}.answers") as file:
            return file.read().splitlines(), problem

    def finish_model(self):
        """One line for each query."""
        answers, problem = self.finish()
        if problem or len(answers) != self.count:
            give_up(f"the model failed on {self.path}: {problem or 'answers are missing'}")
        return answers

    def finish_library(self):
        """One line for each query, or None behind the point where the program stopped."""
        answers, problem = self.finish()
        if problem:
            print(f"  answers.c: {problem} after {len(answers)} of {self.count} answers")
        answers = answers[:self.count]
        return answers + [None] * (self.count - len(answers))


# Settings


def changed(settings, *changes):
    """The settings with each (field, value) put in."""
    result = list(settings)
    for field, value in changes:
        result[field] = value
    return tuple(result)


def limit_values(settings, field):
    """Values of a field at and around its limits, and larger ones with the same low bits."""
    volume = settings[VOLUME]
    values = {
        ROWS: [0, 1, 8, 15, 16, 17, 31, 32, 33, 65519, 65520, 65535, 65536, 65537, 65552, 131072,
               262127, 262128, 262143, 262144, 262145, 262160, 2**32 - 16],
        DIAMETER: [0, 1, 2, 3, 4, 5, 6, 8],
        VOLUME: [0, 1, 2, 15, 16, 17],
        COUNTERS: [0, max(volume - 1, 0), volume, volume + 1, 2047, 2048, 2049],
        INTERVAL: [0, 1, 2, 4095, 4096, 4097],
        WINDOW: [0, 1, 2, 8191, 8192, 8193],
        BLOCK: [0, 1, 2, 63, 64, 65],
    }[field]
    own = settings[field]
    values += [own + 2**8, own + 2**16, own + 2**18, own + 2**31, 2**31, U32]
    return [value for value in values if value <= U32]


def alike(rows, row):
    """The rows of the bank that differ by a multiple of 65,536 from this one, itself among them."""
    return range(row % 65_536, rows, 65_536)


def spread(rng, low, high):
    """A number from low to high, small ones as likely as large ones."""
    return min(high, max(low, int(low * ((high + 1) / low) ** rng.random())))


def accepted_settings(rng, window):
    """Settings that pass every test, at times with block x window just enough."""
    block = rng.randint(-(-16 // window), 64)
    most = min(MAX_ROWS, block * window) // 16
    rows = 16 * (most if rng.random() < 0.3 else rng.randint(1, most))
    volume = rng.randint(1, 16)
    reached = min(MAX_COUNTERS, volume * window + 1)
    counters = rng.randint(volume, rng.choice((reached, MAX_COUNTERS)))
    return (rows, rng.choice((2, 4)), volume, counters, spread(rng, 1, 4096), window, block)


def faulty_settings(rng):
    """Mostly refused: some fields are replaced by values that are seldom allowed."""
    settings = accepted_settings(rng, spread(rng, 1, 64))
    for field in rng.sample(range(7), rng.choice((1, 1, 1, 2, 2, 3, 4, 7))):
        value = rng.choice((
            rng.choice(limit_values(settings, field)),
            rng.randint(0, 400_000),
            rng.randint(0, U32),
        ))
        settings = changed(settings, (field, value))
    return settings
