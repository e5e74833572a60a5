"""Traces for the comparison of the writer, each with what is known of its rewriting.

A record is the letter and the numbers of its one spelling, so that an activation with a hold of 1 is
an `A`. A fault is the number of a line and its refusal.
"""

import collections
import functools
import itertools

from comparison import (
    BLOCK, COUNTERS, DIAMETER, INTERVAL, MAX_ROWS, ROWS, VOLUME, WINDOW, changed, spread,
)
from holds import LONGEST, accepted_hold, refused_hold
from remaps import IDENTITY, accepted_remap, refused_remap
from traces import (
    BOUNDARIES, MOST, any_settings, bad_line, bytes_before, long_line, random_traces, small_settings,
)

# The spelling is what tracefmt has to write, and the fault may be None. Where only the model knows
# them, the spelling is None.
Case = collections.namedtuple("Case", "kind text spelling fault")

EXTREMES = (
    (16, 2, 1, 1, 1, 1, 16), (MAX_ROWS, 4, 16, 2048, 4096, 8192, 64),
    (MAX_ROWS, 2, 1, 1, 1, 4096, 64),
)
# How many numbers have leading zeros, how many records blank lines before them, and how many
# activations with a hold of 1 are spelled `H`.
STYLES = ((0, 0, 0), (0.1, 0.1, 0.1), (1, 0, 0), (0, 0.5, 0), (0, 0, 1), (1, 1, 0.5))
LONG_SIZES = (12, 14, 44, 45, 63, 64, 65, 96, 98, 99, 4095, 4096, 4097, 65_535, 65_536, 65_537, 131_072, 200_000)


# Spelling


def spelled(records):
    """The one spelling of a list of records."""
    return b"".join(map(spelled_record, records))


@functools.lru_cache(maxsize=None)
def spelled_record(record):
    letter, numbers = record
    return (letter + "".join(f"{number:6}" for number in numbers) + "\n").encode()


def respelled(rng, records, style=None):
    """Some spelling of the same records."""
    zeros, blanks, holds = style or rng.choice(STYLES)
    parts = []
    for letter, numbers in records:
        if rng.random() < blanks:
            parts.append("\n" * rng.choice((1, 1, 2, 5)))
        if letter == "A" and rng.random() < holds:
            letter, numbers = "H", (*numbers, 1)
        fields = (str(number).zfill(rng.randint(1, 6) if rng.random() < zeros else 1)
                  for number in numbers)
        parts.append(letter + "".join(field.rjust(6) for field in fields) + "\n")
    if rng.random() < blanks:
        parts.append("\n")
    return "".join(parts).encode()


def line_count(text):
    return text.count(b"\n")


# Records without a fault


def settings_record(rng):
    return "S", rng.choice(EXTREMES) if rng.random() < 0.1 else any_settings(rng)


def remap_record(rng):
    return "F", accepted_remap(rng)


def activation(row, hold):
    return ("A", (row,)) if hold == 1 else ("H", (row, hold))


def row_and_hold(record):
    letter, numbers = record
    return (*numbers, 1) if letter == "A" else numbers


def row_record(rng, settings):
    rows = settings[ROWS]
    row = rng.choice((0, rows - 1, rng.randrange(rows), rng.randrange(rows)))
    return activation(row, rng.choice((1, accepted_hold(rng))))


def good_records(rng, count):
    """Settings first, at times behind remaps; rows are held against the settings last before them,
    and no tracker is."""
    records = [remap_record(rng) for _ in range(rng.choice((0, 0, 0, 1, 2)) if count > 3 else 0)]
    records.append(settings_record(rng))
    last = records[-1][1]
    while len(records) < count:
        chance = rng.random()
        if chance < 0.06:
            records.append(rng.choice((settings_record(rng), ("S", last))))
            last = records[-1][1]
        elif chance < 0.1:
            records.append(remap_record(rng))
        elif chance < 0.25:
            records.append(("R", ()))
        else:
            records.append(row_record(rng, last))
    return records


def last_settings(records):
    return [numbers for letter, numbers in records if letter == "S"][-1]


def one_record_changed(rng, records):
    """Another list of records, without a fault too."""
    records = list(records)
    place = rng.randrange(len(records))
    letter, numbers = records[place]
    change = rng.choice(("put in", "number", "number", "drop", "append"))
    if change == "drop" and letter != "S":
        del records[place]
    elif change == "number" and letter in "AH":
        row, hold = row_and_hold(records[place])
        records[place] = rng.choice((activation(row ^ 1, hold), activation(row, hold % LONGEST + 1)))
    elif change == "number" and letter == "F":
        records[place] = "F", two_exchanged(rng, numbers)
    elif change == "append":
        records.append(("R", ()))
    else:
        records.insert(place, remap_record(rng))
    return records


def two_exchanged(rng, remap):
    one, other = rng.sample(range(16), 2)
    return changed(remap, (one, remap[other]), (other, remap[one]))


def good_cases(rng, kind, count):
    """A list of records in its one spelling and in two others."""
    records = good_records(rng, count)
    for text in (spelled(records), respelled(rng, records), respelled(rng, records, (1, 1, 1))):
        yield Case(kind, text, spelled(records), None)


def every_width():
    """Each number of digits under each number of leading zeros."""
    records, text = [("S", EXTREMES[1])], spelled([("S", EXTREMES[1])])
    for number in (0, 1, 9, 10, 99, 100, 101, 999, 1000, 9999, 10_000, 60_000, 65_535, 65_536,
                   99_999, 100_000, 131_072, 200_000, 262_143):
        for width in range(len(str(number)), 7):
            records.append(("A", (number,)))
            text += b"A" + str(number).zfill(width).rjust(6).encode() + b"\n"
    for hold in range(1, LONGEST + 1):
        for width in range(len(str(hold)), 7):
            records.append(activation(5, hold))
            text += f"H{'5'.zfill(width):>6}{str(hold).zfill(width):>6}\n".encode()
    for width in range(1, 7):
        records.append(("F", IDENTITY))
        text += b"F" + b"".join(str(number).zfill(width).rjust(6).encode() for number in IDENTITY) + b"\n"
    return Case("every width", text, spelled(records), None)


def blank_cases(rng):
    yield Case("empty input", b"", b"", None)
    for count in (1, 2, rng.randint(3, 100), 65_535, 65_536, 65_537, 200_000):
        yield Case("only blank lines", b"\n" * count, b"", None)


# Faulty lines


def refused_settings(rng, number):
    """Settings that are refused with this number, at times for later fields too."""
    settings = any_settings(rng)
    later = rng.sample(range(number, 7), rng.randint(0, 7 - number)) if rng.random() < 0.3 else ()
    for field in (number - 1, *later):
        settings = changed(settings, (field, bad_value(rng, settings, field)))
    return settings


def bad_value(rng, settings, field):
    """A value of six columns for which this field, and no earlier one, is refused."""
    rows, volume, window = settings[ROWS], settings[VOLUME], settings[WINDOW]
    small_blocks = [block for block in range(1, 65) if block * window < rows]
    values = {
        ROWS: (0, 1, 8, 15, 17, rows + 1, 65_535, 65_537, 262_143, 262_145, 262_160,
               MAX_ROWS + rows),
        DIAMETER: (0, 1, 3, 5, 6, 258, 65_538),
        VOLUME: (0, 17, 257, 65_537),
        COUNTERS: (0, volume - 1, 2049, 65_536 + volume),
        INTERVAL: (0, 4097, 65_537),
        WINDOW: (0, 8193, 65_536 + window),
        BLOCK: (0, 65, 65_536 + settings[BLOCK], *small_blocks[-2:]),
    }[field]
    return min(MOST, max(0, rng.choice((*values, MOST))))


FAULT_STYLE = (0.2, 0, 0.3)


def settings_fault(number):
    def make(rng, _):
        return respelled(rng, [("S", refused_settings(rng, number))], FAULT_STYLE), number
    return make


def row_fault(rng, settings):
    rows = settings[ROWS]
    row = rng.choice((rows, rows + 1, rng.randint(rows, MOST), MAX_ROWS + rng.randrange(rows), MOST))
    hold = rng.choice((1, accepted_hold(rng), refused_hold(rng, MOST)))
    return respelled(rng, [activation(row, hold)], FAULT_STYLE), 9


def hold_fault(rng, settings):
    row, _ = row_and_hold(row_record(rng, settings))
    return respelled(rng, [activation(row, refused_hold(rng, MOST))], FAULT_STYLE), 15


def remap_fault(rng, _):
    return respelled(rng, [("F", refused_remap(rng, MOST))], FAULT_STYLE), 14


def form_fault(rng, settings):
    return bad_line(rng, spelled([("S", settings)])[:-1]) + b"\n", 11


def long_fault(rng, _):
    """At times the end alone would be a good line."""
    line = long_line(rng, rng.choice(LONG_SIZES))
    if rng.random() < 0.5:
        line = line[:-1] + rng.choice((b"R\n", b"A     0\n", b"H     0     2\n",
                                       spelled([("S", EXTREMES[0])])))
    return line, 11


FAULTS = {
    **{f"settings refused with {number}": settings_fault(number) for number in range(1, 8)},
    "row not in the bank": row_fault,
    "hold refused": hold_fault,
    "remap refused": remap_fault,
    "line of another form": form_fault,
}


def faulty_case(rng, kind, make, count):
    """Good records, a faulty line, and lines behind it that must not be written."""
    records = good_records(rng, count)
    text = respelled(rng, records)
    line, refusal = make(rng, last_settings(records))
    rest = rng.choice((b"", b"R\n", respelled(rng, good_records(rng, 10)), form_fault(rng, EXTREMES[0])[0]))
    return Case(kind, text + line + rest, spelled(records), (line_count(text) + 1, refusal))


def settings_that_count(rng):
    """A row that a bank before, or behind, would have, and the last one has not, at times with a
    remap since."""
    large = changed(rng.choice(EXTREMES[1:]), (ROWS, rng.choice((1024, 65_536, 131_072, MAX_ROWS))))
    small = changed(large, (ROWS, rng.choice((16, 512, large[ROWS] // 2))))
    row = rng.randint(small[ROWS], large[ROWS] - 1)
    other = activation(row, rng.choice((1, accepted_hold(rng))))
    before = [("S", large), other] if rng.random() < 0.7 else []
    records = before + [("S", small), ("A", (0,)), ("R", ())]
    if rng.random() < 0.5:
        records.append(remap_record(rng))
    text = respelled(rng, records)
    rest = spelled([other, ("S", large), other])
    return Case("row of another bank", text + rest, spelled(records), (line_count(text) + 1, 9))


def before_settings(rng):
    """A row or an event with at most blank lines and remaps before it."""
    line = rng.choice((b"R\n", b"A     0\n", b"A     5\n", b"A999999\n", b"H     0     1\n",
                       b"H     5    16\n", b"H     5     0\n", b"H999999999999\n"))
    records, text = nothing_but_remaps(rng)
    return Case("before any settings", text + line + spelled(good_records(rng, 5)), spelled(records),
                (line_count(text) + 1, 11))


def nothing_but_remaps(rng):
    """Some remaps or none, and a text of them with blank lines."""
    records = [remap_record(rng) for _ in range(rng.choice((0, 0, 1, 3)))]
    return records, b"\n" * rng.choice((0, 0, 1, 5)) + respelled(rng, records)


def refused_first(rng):
    """Refused settings before all others; rows behind them must not be tried."""
    number = rng.randint(1, 7)
    records, text = nothing_but_remaps(rng)
    rest = spelled([("S", refused_settings(rng, number)), ("A", (0,)), ("R", ())])
    return Case("refused settings first", text + rest, spelled(records),
                (line_count(text) + 1, number))


def unfinished(rng):
    """The last line has no byte 10, and is good otherwise or cut off."""
    records = good_records(rng, spread(rng, 1, 60))
    text = respelled(rng, records[:-1])
    line = spelled(records[-1:])[:-1]
    if rng.random() < 0.3:
        line = line[:rng.randint(1, len(line))]
    return Case("last line without byte 10", text + line, spelled(records[:-1]),
                (line_count(text) + 1, 11))


# Sizes around the boundaries of buffers


def records_of_size(rng, size):
    """Records whose spelling has exactly so many bytes: an even number, and none or at least 44."""
    if size == 0:
        return []
    settings = small_settings(rng)
    block = [row_record(rng, settings) if rng.random() < 0.9 else ("R", ()) for _ in range(30)]
    count, size = divmod(size - 44, len(spelled(block)))
    return [("S", settings)] + block * count + [("A", (0,))] * (size // 8) + [("R", ())] * (size % 8 // 2)


def with_blank_lines(rng, records, count):
    """So many blank lines before the records or between them, and leading zeros."""
    spellings = {record: respelled(rng, [record], (0.3, 0, 0)) for record in dict.fromkeys(records)}
    lines = [spellings[record] for record in records]
    for _ in range(count):
        lines.insert(rng.randint(0, max(0, len(lines) - 1)), b"\n")
    return b"".join(lines)


def records_and_blanks(rng, size):
    """How many bytes of so many are for records, and how many for blank lines."""
    blanks = rng.choice((0, 1, 2, 7, 44))
    if size - blanks < 44:
        return 0, size
    blanks += (size - blanks) % 2
    return size - blanks, blanks


def across_boundary(rng, boundary, before, of_output):
    """A line with so many of its bytes before the boundary of the input or of the output."""
    size, blanks = records_and_blanks(rng, boundary - before)
    if of_output:
        size = max(44, boundary - before - before % 2)
    records = records_of_size(rng, size)
    text = with_blank_lines(rng, records, blanks)
    settings = settings_record(rng)
    following = [settings] + [("R", ())] * 3 + [row_record(rng, settings[1])] * 3
    if before > 43 or rng.random() < 0.3:
        following = [remap_record(rng)] + following
    chance = rng.random()
    if chance < 0.2:
        line, refusal = form_fault(rng, small_settings(rng))
        return Case("boundary, fault", text + line, spelled(records), (line_count(text) + 1, refusal))
    if chance < 0.4:
        line = spelled(following[:1])[:-1]
        return Case("boundary, fault", text + line, spelled(records), (line_count(text) + 1, 11))
    if records and chance < 0.7:
        following = [row_record(rng, records[0][1])] + following
    return Case("boundary", text + respelled(rng, following), spelled(records + following), None)


def exact_size(rng, size):
    """An input of so many bytes, the last one at times no byte 10 though all else is good."""
    records = []
    while not records:
        record_bytes, blanks = records_and_blanks(rng, size)
        records = records_of_size(rng, record_bytes)
    text = with_blank_lines(rng, records, blanks)
    if rng.random() < 0.5:
        return Case("boundary", text, spelled(records), None)
    return Case("boundary, fault", text[:-1] + rng.choice((b"", b" ")), spelled(records[:-1]),
                (line_count(text), 11))


def boundary_cases(rng):
    for boundary in BOUNDARIES:
        for before in bytes_before(rng, boundary):
            for of_output in (False, True):
                yield across_boundary(rng, boundary * rng.choice((1, 1, 2)), before, of_output)
        for size in range(boundary - 3, boundary + 4):
            yield exact_size(rng, size)


# Long traces


def long_case(rng, size, faulty):
    """About so many bytes, put together from blocks that each begin with settings."""
    blocks = []
    for _ in range(20):
        records = good_records(rng, 1000)
        blocks.append((respelled(rng, records), spelled(records)))
    chosen = []
    while size > 0:
        chosen.append(rng.choice(blocks))
        size -= len(chosen[-1][0])
    text = b"".join(text for text, _ in chosen)
    spelling = b"".join(spelling for _, spelling in chosen)
    if not faulty:
        return Case("long trace", text, spelling, None)
    fault = line_count(text) + 1, 11
    return Case("long trace, fault", text + b"?\n" + blocks[0][0], spelling, fault)


# All traces


def random_cases(rng):
    """Some hundred cases."""
    yield from blank_cases(rng)
    yield every_width()
    for _ in range(50):
        yield from good_cases(rng, "good records", spread(rng, 1, 400))
    for kind, make in FAULTS.items():
        for _ in range(10):
            yield faulty_case(rng, kind, make, spread(rng, 1, 60))
    for make, count in ((settings_that_count, 20), (before_settings, 10), (refused_first, 20),
                        (unfinished, 30)):
        for _ in range(count):
            yield make(rng)
    for _ in range(20):
        yield faulty_case(rng, "long line", long_fault, spread(rng, 1, 60))
    yield from boundary_cases(rng)
    yield long_case(rng, 3_000_000, faulty=False)
    yield long_case(rng, 3_000_000, faulty=True)
    for kind, text in itertools.islice(random_traces(rng), 0, None, 2):
        yield Case(f"of the listing: {kind}", text, None, None)
