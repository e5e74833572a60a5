"""Damages to a listing: each makes a text that departs from it, given its lines with their byte 10.

A damage answers None where the listing has nothing that it could damage.
"""

LONG = 1_000_000  # bytes of a long line


def departure(required, listing):
    """The line that departs, told by the bytes that both texts begin with; None if they are the same."""
    if required == listing:
        return None
    low, high = 0, min(len(required), len(listing))
    while low < high:  # so many bytes are the same, and no more than so many
        middle = (low + high + 1) // 2
        if required[low:middle] == listing[low:middle]:
            low = middle
        else:
            high = middle - 1
    return required.count(b"\n", 0, low) + 1


# Bytes


def any_place(rng, lines):
    text = b"".join(lines)
    return text, rng.randrange(len(text)) if text else None


def byte_changed(rng, lines):
    text, place = any_place(rng, lines)
    if place is None:
        return None
    byte = rng.choice([byte for byte in b" 0123456789BRXbrx\n\r\t\0\xff" if byte != text[place]])
    return text[:place] + bytes([byte]) + text[place + 1:]


def bit_changed(rng, lines):
    text, place = any_place(rng, lines)
    if place is None:
        return None
    return text[:place] + bytes([text[place] ^ 1 << rng.randrange(8)]) + text[place + 1:]


def byte_removed(rng, lines):
    text, place = any_place(rng, lines)
    return None if place is None else text[:place] + text[place + 1:]


def byte_inserted(rng, lines):
    text = b"".join(lines)
    place = rng.randint(0, len(text))
    return text[:place] + bytes([rng.choice(b" 05X\n\r\0\xff")]) + text[place:]


def replaced(rng, lines, old, new, letters=b"BRX"):
    """One of the bytes `old` in a line with one of these letters."""
    text = b"".join(lines)
    places, first = [], 0
    for line in lines:
        if line[0] in letters:
            places += [first + place for place in range(len(line)) if line[place] in old]
        first += len(line)
    if not places:
        return None
    place = rng.choice(places)
    return text[:place] + new(text[place]) + text[place + 1:]


def zero_for_blank(rng, lines):
    return replaced(rng, lines, b" ", lambda _: b"0")


def tab_for_blank(rng, lines):
    return replaced(rng, lines, b" ", lambda _: b"\t")


def byte_0_for_blank(rng, lines):
    return replaced(rng, lines, b" ", lambda _: b"\0")


def blank_removed(rng, lines):
    return replaced(rng, lines, b" ", lambda _: b"")


def blank_added(rng, lines):
    return replaced(rng, lines, b" \n", lambda byte: b" " + bytes([byte]))


def digit_changed(rng, lines):
    return replaced(rng, lines, b"0123456789", lambda byte: b"%d" % ((byte - 48 + rng.randint(1, 9)) % 10))


def case_changed(rng, lines):
    return replaced(rng, lines, b"BRX", lambda byte: bytes([byte]).lower())


def carriage_return(rng, lines):
    return replaced(rng, lines, b"\n", lambda _: b"\r\n")


def carriage_return_for_byte_10(rng, lines):
    return replaced(rng, lines, b"\n", lambda _: b"\r")


def byte_0_for_byte_10(rng, lines):
    return replaced(rng, lines, b"\n", lambda _: b"\0")


def carriage_returns(rng, lines):
    return b"".join(lines).replace(b"\n", b"\r\n") if lines else None


def byte_order_mark(rng, lines):
    return b"\xef\xbb\xbf" + b"".join(lines)


# Numbers


def chosen_line(rng, lines, letters, longest_without=0):
    places = [place for place, line in enumerate(lines)
              if line[0] in letters and len(line) > longest_without]
    return rng.choice(places) if places else None


def with_line(lines, place, line):
    return b"".join([*lines[:place], line, *lines[place + 1:]])


def number_changed(rng, lines, letters, first, width):
    place = chosen_line(rng, lines, letters, first + width)
    if place is None:
        return None
    line = lines[place]
    number = int(line[first:first + width])
    other = rng.choice((number + 1, max(number - 1, 0), 0, 11, number * 10 % 10**width, rng.randrange(99_999)))
    return with_line(lines, place, line[:first] + b"%*d" % (width, other) + line[first + width:])


def refusal_changed(rng, lines):
    return number_changed(rng, lines, b"X", 11, 6)


def line_number_changed(rng, lines):
    return number_changed(rng, lines, b"X", 1, 10)


def bound_changed(rng, lines):
    return number_changed(rng, lines, b"B", rng.choice((1, 11)), 10)


def event_changed(rng, lines):
    return number_changed(rng, lines, b"R", 1, 6)


def picked_changed(rng, lines):
    return number_changed(rng, lines, b"R", 7, 6)


def row_changed(rng, lines):
    return number_changed(rng, lines, b"R", 13 + 6 * rng.choice((0, 0, 1, 2, 5)), 6)


def rows_swapped(rng, lines):
    place = chosen_line(rng, lines, b"R", 25)
    if place is None:
        return None
    line = lines[place]
    rows = [line[first:first + 6] for first in range(13, len(line) - 1, 6)]
    one, other = rng.sample(range(len(rows)), 2)
    rows[one], rows[other] = rows[other], rows[one]
    return with_line(lines, place, line[:13] + b"".join(rows) + b"\n")


def row_left_out(rng, lines):
    """The last row of an event, whose number picked tells it or not."""
    place = chosen_line(rng, lines, b"R", 14)
    if place is None:
        return None
    line = lines[place][:-7] + b"\n"
    if rng.random() < 0.5:
        line = line[:7] + b"%6d" % (int(line[7:13]) - 1) + line[13:]
    return with_line(lines, place, line)


def leading_zeros(rng, lines):
    """All blanks before a number."""
    place = chosen_line(rng, lines, b"BRX")
    if place is None:
        return None
    line = lines[place]
    start = rng.choice([place for place in range(1, len(line)) if line[place:place + 1] == b" "])
    end = len(line) - len(line[start:].lstrip(b" "))
    return with_line(lines, place, line[:start] + b"0" * (end - start) + line[end:])


# Lines


def at(rng, lines):
    """The first, the last or any line."""
    return rng.choice((0, len(lines) - 1, rng.randrange(len(lines)))) if lines else None


def line_missing(rng, lines):
    place = at(rng, lines)
    return None if place is None else with_line(lines, place, b"")


def first_line_missing(_, lines):
    return b"".join(lines[1:]) if lines else None


def last_line_missing(_, lines):
    return b"".join(lines[:-1]) if lines else None


def lines_missing(rng, lines):
    place = at(rng, lines)
    return None if place is None else b"".join(lines[:place] + lines[place + rng.randint(2, 9):])


def line_doubled(rng, lines):
    place = at(rng, lines)
    return None if place is None else with_line(lines, place, lines[place] * 2)


def last_line_doubled(_, lines):
    return b"".join(lines + lines[-1:]) if lines else None


def swapped(lines, one, other):
    lines = list(lines)
    lines[one], lines[other] = lines[other], lines[one]
    return b"".join(lines)


def neighbours_swapped(rng, lines):
    if len(lines) < 2:
        return None
    place = rng.randrange(len(lines) - 1)
    return swapped(lines, place, place + 1)


def distant_swapped(rng, lines):
    return swapped(lines, *rng.sample(range(len(lines)), 2)) if len(lines) > 2 else None


def first_and_last_swapped(_, lines):
    return swapped(lines, 0, -1) if len(lines) > 2 else None


def blank_line_inserted(rng, lines):
    place = rng.randint(0, len(lines))
    return b"".join([*lines[:place], b"\n", *lines[place:]])


def lines_joined(rng, lines):
    place = at(rng, lines)
    return None if place is None else with_line(lines, place, lines[place][:-1])


# Ends


def cut(rng, lines):
    text, place = any_place(rng, lines)
    return None if place is None else text[:place]


def cut_behind_a_line(rng, lines):
    return b"".join(lines[:rng.randrange(len(lines))]) if lines else None


def no_last_byte_10(_, lines):
    return b"".join(lines)[:-1] if lines else None


def nothing(_, lines):
    return b"" if lines else None


def blank_line_behind(_, lines):
    return b"".join(lines) + b"\n"


def bytes_behind(rng, lines):
    return b"".join(lines) + rng.choice((b" ", b"\0", b"\r", b"\x1a", b"X", b"passes", b"\xff" * 7))


def line_behind(rng, lines):
    line = rng.choice((b"R     0     0\n", b"X         1    11\n", b"B        18        36\n", b"\r\n", b" \n"))
    return b"".join(lines) + line


def itself_behind(_, lines):
    return b"".join(lines) * 2 if lines else None


def long_line_behind(rng, lines):
    return b"".join(lines) + rng.choice((b"X", b"\0", b" ")) * LONG + rng.choice((b"", b"\n"))


def long_line(rng, lines):
    """A line that begins as it has to and does not end for a long time."""
    place = at(rng, lines)
    if place is None:
        return None
    return with_line(lines, place, lines[place][:-1] + rng.choice((b" ", b"0", b"\r", b"\n")) * LONG + b"\n")


def all_of_one_byte(rng, lines):
    return bytes([rng.choice(b"\n\r\0 RX\xff")]) * rng.randint(1, 20_000)


DAMAGES = {
    damage.__name__.replace("_", " "): damage for damage in (
        byte_changed, bit_changed, byte_removed, byte_inserted, zero_for_blank, tab_for_blank,
        byte_0_for_blank, blank_removed, blank_added, digit_changed, case_changed, carriage_return,
        carriage_return_for_byte_10, byte_0_for_byte_10, carriage_returns, byte_order_mark,
        refusal_changed, line_number_changed, bound_changed, event_changed, picked_changed, row_changed,
        rows_swapped, row_left_out, leading_zeros, line_missing, first_line_missing, last_line_missing,
        lines_missing, line_doubled, last_line_doubled, neighbours_swapped, distant_swapped,
        first_and_last_swapped, blank_line_inserted, lines_joined, cut, cut_behind_a_line,
        no_last_byte_10, nothing, blank_line_behind, bytes_behind, line_behind, itself_behind,
        long_line_behind, long_line, all_of_one_byte,
    )
}


# All damages of a sort, to a short listing


def every_byte_changed(text):
    """To several others, among them one of the other case and the next one."""
    for place, byte in enumerate(text):
        for other in {*b" 0\n\r\0\xff", byte ^ 32, (byte + 1) % 256} - {byte}:
            yield text[:place] + bytes([other]) + text[place + 1:]


def every_byte_removed(text):
    for place in range(len(text)):
        yield text[:place] + text[place + 1:]


def every_byte_inserted(text):
    for place in range(len(text) + 1):
        for byte in (b" ", b"0", b"\n", b"\r", b"\0"):
            yield text[:place] + byte + text[place:]


def every_cut(text):
    for place in range(len(text)):
        yield text[:place]


def every_line_missing(text):
    lines = text.splitlines(keepends=True)
    for place in range(len(lines)):
        yield with_line(lines, place, b"")


def every_line_doubled(text):
    lines = text.splitlines(keepends=True)
    for place in range(len(lines)):
        yield with_line(lines, place, lines[place] * 2)


def every_two_lines_swapped(text):
    lines = text.splitlines(keepends=True)
    for other in range(len(lines)):
        for one in range(other):
            yield swapped(lines, one, other)


EVERY = {
    make.__name__.replace("_", " "): make for make in (
        every_byte_changed, every_byte_removed, every_byte_inserted, every_cut, every_line_missing,
        every_line_doubled, every_two_lines_swapped,
    )
}
