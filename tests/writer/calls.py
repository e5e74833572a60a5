"""Calls of the library's writer for the program `test_writer`: requests, answers and random cases.

A request: the length of the trace and of the lent text, in words of four bytes, the lowest first,
and places for the trace. An answer: 0 and the number of bytes written, or 1 and the refusal, and
then the places for the lent text after the call. Before it, place i holds i modulo 251.
"""

import collections
import struct

from comparison import give_up, spread
from records import (
    EXTREMES, FAULTS, before_settings, faulty_case, good_records, refused_first, respelled,
    settings_that_count, spelled, unfinished,
)
from remaps import REVERSE
from traces import (
    cut_off, damaged, held_rows, large_banks, limit_settings, loaded_remaps, many_settings, near_misses, noise,
    plain_trace, special_bytes, wide_lines,
)

MOST_LINES = 64
TRACE_PLACES = 2048
TEXT_PLACES = 4096
UNTOUCHED = bytes(place % 251 for place in range(TEXT_PLACES))
REQUEST = struct.Struct(f"<II{TRACE_PLACES}s")
ANSWER = struct.Struct(f"<II{TEXT_PLACES}s")

# The number is that of the bytes written, or refusal k as -k; the spelling is what is written. Both
# are None where only the model knows them.
Call = collections.namedtuple("Call", "kind text length number spelling")


def request(rng, call):
    if len(call.text) > TRACE_PLACES or call.length > TEXT_PLACES or lines(call.text) > MOST_LINES:
        give_up(f"too large for a request: {call}")
    behind = rng.choice((b"\n", b"R\n", b"A     0\n", b"\x00", b"?", rng.randbytes(64)))
    places = call.text + behind * TRACE_PLACES
    return REQUEST.pack(len(call.text), call.length, places[:TRACE_PLACES])


def lines(text):
    """Lines of a text, the last one with byte 10 or without."""
    return text.count(b"\n") + (not text.endswith(b"\n") and text != b"")


def known_answer(call):
    """The answer that the call was made for."""
    if call.number < 0:
        return ANSWER.pack(1, -call.number, UNTOUCHED)
    return ANSWER.pack(0, call.number, call.spelling + UNTOUCHED[len(call.spelling):])


def shown(answer):
    """An answer in words."""
    if answer is None:
        return "none"
    refused, number, places = ANSWER.unpack(answer)
    changed = [place for place in range(TEXT_PLACES) if places[place] != UNTOUCHED[place]]
    touched = f"places {changed[0]} to {changed[-1]} changed" if changed else "nothing changed"
    start = places[:60] if changed else b""
    return f"{'refusal' if refused else 'written'} {number}, {touched} {start}"


# Random calls


def fits(text):
    return len(text) <= TRACE_PLACES and lines(text) <= MOST_LINES


def accepted_calls(rng):
    """Records without a fault, and lent texts that are long enough or not."""
    text = None
    while text is None or not fits(text):
        records = good_records(rng, spread(rng, 1, MOST_LINES))
        text = respelled(rng, records)
    spelling = spelled(records)
    size, last = len(spelling), len(spelled(records[-1:]))
    lengths = {
        "just long enough": size,
        "longer": rng.choice((size + 1, size + 2, rng.randint(size + 1, TEXT_PLACES), TEXT_PLACES)),
        "one byte short": size - 1,
        "without room for the last record": size - last,
        "short": rng.randint(1, size - 1),
        "empty": 0,
    }
    for kind, length in lengths.items():
        number = size if length >= size else -13
        yield Call(f"text {kind}", text, length, number, spelling)


def blank_calls():
    """Blank records alone are 0 bytes, even in an empty text."""
    for count in range(MOST_LINES + 1):
        for length in (0, 1, TEXT_PLACES):
            kind = "blank lines" if count else "no line"
            kind += ", text longer" if length else ", text empty"
            yield Call(kind, b"\n" * count, length, 0, b"")


def full_calls():
    """Traces that fill their places: 46 settings and 12 events; 20 remaps and 2 settings; 15 remaps,
    settings, 38 holds and an event."""
    for records in ([("S", EXTREMES[1])] * 46 + [("R", ())] * 12,
                    [("F", REVERSE)] * 20 + [("S", EXTREMES[1])] * 2,
                    [("F", REVERSE)] * 15 + [("S", EXTREMES[1])] + [("H", (262_143, 16))] * 38 + [("R", ())]):
        for length, number in ((2047, -13), (2048, 2048), (2049, 2048)):
            yield Call("all places for the trace", spelled(records), length, number, spelled(records))


def faulty_calls(rng, make):
    """A faulty record decides, whether or not the lent text has room for what stands before it."""
    case = make(rng)
    while not fits(case.text):
        case = make(rng)
    size, (_, refusal) = len(case.spelling), case.fault
    for length in {size, rng.choice((size + 60, TEXT_PLACES)), 0, max(0, size - 1),
                   rng.randint(0, size)}:
        room = "short" if length < size else "long enough"
        yield Call(f"refusal {refusal}, text {room}", case.text, length, -refusal, None)


def with_fault(kind, make):
    return lambda rng: faulty_case(rng, kind, make, spread(rng, 1, 40))


def any_text(rng):
    """A text of which only the model knows the answer."""
    make = rng.choice((plain_trace, many_settings, loaded_remaps, held_rows, limit_settings,
                       large_banks, near_misses, damaged, special_bytes, cut_off, noise, wide_lines))
    text = make(rng)[:rng.randint(1, TRACE_PLACES)]
    first = text.split(b"\n")[:MOST_LINES]
    text = b"\n".join(first) + (b"\n" if len(first) == MOST_LINES else b"")
    text = text[:TRACE_PLACES]
    length = rng.choice((0, len(text) - 1, len(text), TEXT_PLACES, rng.randint(0, len(text))))
    return Call("any text", text, max(0, length), None, None)


def random_calls(rng):
    """Some thousand calls."""
    yield from blank_calls()
    yield from full_calls()
    for _ in range(150):
        yield from accepted_calls(rng)
    for _ in range(15):
        for kind, make in FAULTS.items():
            yield from faulty_calls(rng, with_fault(kind, make))
        for make in (settings_that_count, before_settings, refused_first, unfinished):
            yield from faulty_calls(rng, make)
    for _ in range(800):
        yield any_text(rng)


EXPECTED_KINDS = (
    *(f"text {kind}" for kind in ("just long enough", "longer", "one byte short",
                                  "without room for the last record", "short", "empty")),
    *(f"{kind}, text {room}" for kind in ("blank lines", "no line") for room in ("longer", "empty")),
    "all places for the trace", "any text",
    *(f"refusal {number}, text {room}" for number in (1, 2, 3, 4, 5, 6, 7, 9, 11, 14, 15)
      for room in ("short", "long enough")),
    "call accepted",
    *(f"call refused with {number}" for number in (1, 2, 3, 4, 5, 6, 7, 9, 11, 13, 14, 15)),
)
