"""Random traces for the comparison of listings; each is a kind and the bytes of an input."""

from comparison import (
    INTERVAL, MAX_ROWS, MAX_WINDOW, ROWS, WINDOW, accepted_settings, alike, changed,
    faulty_settings, limit_values, spread,
)
from holds import accepted_hold, refused_hold
from remaps import OURS, accepted_remap, logical_row, refused_remap

MOST = 999_999  # in six columns
SPECIAL_BYTES = b"\x00\x01\t\n\r +-09AFHRSX\x7f\x80\xff"
LINE_SIZES = (0, 1, 2, 6, 7, 8, 9, 12, 13, 14, 42, 43, 44, 45, 63, 64, 65, 96, 97, 98, 99, 4095, 4096, 4097,
              65_535, 65_536, 65_537, 131_072, 200_000)
WIDEST = 97  # bytes of an `F` line, byte 10 not counted
BOUNDARIES = (64, 4096, 6144, 65_536)


# Lines


def field(rng, number):
    text = str(number)
    if rng.random() < 0.1:
        text = text.zfill(rng.randint(len(text), 6))
    return text.rjust(6).encode()


def settings_line(rng, settings):
    return b"S" + b"".join(field(rng, number) for number in settings) + b"\n"


def activation_line(rng, row):
    return b"A" + field(rng, row) + b"\n"


def hold_line(rng, row, hold):
    return b"H" + field(rng, row) + field(rng, hold) + b"\n"


def refused_hold_line(rng, row):
    return hold_line(rng, row, refused_hold(rng, MOST))


def activation_lines(rng, rows, room, held):
    """Activations of these rows as long as there is room for a unit; `held` is the share of those
    with a hold."""
    lines = []
    for row in rows:
        if room == 0:
            break
        hold = min(room, accepted_hold(rng)) if rng.random() < held else 1
        as_hold = hold > 1 or rng.random() < held
        lines.append(hold_line(rng, row, hold) if as_hold else activation_line(rng, row))
        room -= hold
    return b"".join(lines)


def remap_line(rng, remap):
    return b"F" + b"".join(field(rng, number) for number in remap) + b"\n"


def remap_lines(rng, most):
    """At most so many `F` lines, of which one in three is refused."""
    return b"".join(
        remap_line(rng, refused_remap(rng, MOST) if rng.random() < 0.3 else accepted_remap(rng))
        for _ in range(rng.randint(0, most)))


def loaded(rng):
    """A remap and the lines that load it; half the time our own, which needs none."""
    if rng.random() < 0.5:
        return OURS, b""
    remap = accepted_remap(rng)
    return remap, remap_line(rng, remap)


def small_settings(rng):
    volume = rng.choice((1, 1, 2, 3, 16))
    block = rng.choice((1, 3, 4, 8, 16, 64))
    rows = 16 * rng.choice((1, 1, 2, 5))
    window = -(-rows // block) + rng.choice((0, 0, 1, 4))
    return (rows, rng.choice((2, 4)), volume, volume + rng.choice((0, 1, 2, 5, 30)),
            rng.choice((1, 2, 4, 9, 30)), window, block)


def any_settings(rng):
    """Accepted settings, mostly of a small bank."""
    if rng.random() < 0.8:
        return small_settings(rng)
    return accepted_settings(rng, spread(rng, 1, 8192))


def body(rng, settings, count, hot_rows=None):
    """Lines for a tracker with these settings, few of them refused."""
    rows, interval = settings[ROWS], settings[INTERVAL]
    hot_rows = hot_rows or [rng.randrange(rows) for _ in range(rng.choice((1, 2, 4, 12)))]
    held = rng.choice((0, 0.1, 0.5))
    lines, activations = [], 0
    for _ in range(count):
        chance = rng.random()
        if chance < 0.02:
            lines.append(b"\n")
        elif chance < 0.03:
            lines.append(remap_lines(rng, 2))
        elif chance < 0.05:
            row = min(MOST, rng.choice((rows, rows + 1, MOST)))
            lines.append(rng.choice((activation_line(rng, row), hold_line(rng, row, accepted_hold(rng)),
                                     refused_hold_line(rng, row))))
        elif chance < 0.1 or activations >= interval and chance < 0.9:
            lines.append(b"R\n")
            activations = 0
        else:
            row = rng.choice(hot_rows) if rng.random() < 0.8 else rng.randrange(rows)
            if rng.random() >= held:
                lines.append(activation_line(rng, row))
                activations += 1
            elif chance < 0.15:
                lines.append(refused_hold_line(rng, row))
            else:
                hold = accepted_hold(rng)
                if activations + hold > interval and chance < 0.7:
                    hold = max(1, interval - activations)
                lines.append(hold_line(rng, row, hold))
                activations += hold if activations + hold <= interval else 0
    return b"".join(lines)


# Whole traces


def plain_trace(rng, count=None):
    """An `S` line and what follows it, at times behind `F` lines."""
    settings = any_settings(rng)
    text = remap_lines(rng, rng.choice((0, 0, 2))) + settings_line(rng, settings)
    return text + body(rng, settings, count or spread(rng, 1, 400))


def many_settings(rng):
    """Several `S` lines, accepted and refused, each with some lines behind it."""
    text = b""
    for _ in range(rng.randint(2, 12)):
        settings = rng.choice((any_settings, faulty_settings))(rng)
        settings = tuple(min(number, MOST) for number in settings)
        text += remap_lines(rng, rng.choice((0, 1, 2))) + settings_line(rng, settings)
        text += body(rng, changed(any_settings(rng), (ROWS, max(1, settings[ROWS]))),
                     rng.randint(0, 20))
    return text


def loaded_remaps(rng):
    """`F` lines before, behind and between `S` lines, and events soon after activations: the rows
    picked show which remap a tracker has."""
    text = b""
    for _ in range(rng.randint(3, 12)):
        settings = small_settings(rng)
        if rng.random() < 0.2:
            settings = changed(settings, (rng.randrange(7), 0))
        text += remap_lines(rng, rng.choice((0, 1, 3))) + settings_line(rng, settings)
        for _ in range(rng.randint(1, 3)):
            text += remap_lines(rng, rng.choice((0, 0, 1)))
            rows = rng.choices(range(max(16, settings[ROWS])), k=rng.randint(1, 3))
            text += activation_lines(rng, rows, settings[INTERVAL], 0.3) + b"R\n"
    return text


def held_rows(rng):
    """Holds of every length, accepted, refused and about as long as there is room for, each with what
    the same units would be one by one; and holds where no tracker stands."""
    text = b""
    for _ in range(rng.randint(1, 4)):
        if rng.random() < 0.3:
            faulty = changed(small_settings(rng), (rng.randrange(7), 0))
            text += settings_line(rng, faulty) + held_lines(rng, faulty, rng.randint(1, 5))
        settings = changed(small_settings(rng), (INTERVAL, rng.choice((1, 2, 15, 16, 17, 20, 33, 100))))
        text += remap_lines(rng, rng.choice((0, 0, 2))) + settings_line(rng, settings)
        for _ in range(rng.randint(1, 12)):
            text += held_lines(rng, settings, rng.randint(1, 8)) + b"R\n"
    return text


def held_lines(rng, settings, count):
    """Lines of one interval."""
    rows, room = max(16, settings[ROWS]), settings[INTERVAL]
    lines = []
    for _ in range(count):
        row = rng.choice((rng.randrange(rows), rng.randrange(3), rows - 1))
        chance = rng.random()
        if chance < 0.1:
            lines.append(refused_hold_line(rng, rng.choice((row, row, rows))))
        elif chance < 0.2:
            lines.append(hold_line(rng, row, min(16, room + 1)))
        elif chance < 0.4 and room > 0:
            lines.append(hold_line(rng, row, min(16, room)))
            room -= min(16, room)
        elif chance < 0.6:
            units = min(accepted_hold(rng), room)
            lines.append(b"".join(activation_line(rng, row) for _ in range(units)))
            room -= units
        else:
            hold = accepted_hold(rng)
            lines.append(hold_line(rng, row, hold))
            room -= hold if hold <= room else 0
    return b"".join(lines)


def limit_settings(rng):
    """`S` lines with one or two fields at their limits."""
    text = b""
    for _ in range(20):
        settings = any_settings(rng)
        for place in rng.sample(range(7), rng.choice((1, 1, 2))):
            values = [value for value in limit_values(settings, place) if value <= MOST]
            settings = changed(settings, (place, rng.choice((*values, MOST))))
        text += settings_line(rng, settings) + b"A     0\nR\nA    15\nA    16\nR\n"
        text += hold_line(rng, 0, accepted_hold(rng)) + b"R\n"
        for row in (settings[ROWS] - 1, settings[ROWS]):
            text += activation_line(rng, min(MOST, max(0, row)))
    return text


def subarray_edges(rng):
    """Rows hammered around the edges of subarrays and the bank's end; blocks of 3, 48 and 63 rows
    straddle an edge, at the events that are run up to it."""
    rows = rng.choice((512, 528, 1024, 1040, 1536, 65_536, 65_552, 131_072, 262_128, MAX_ROWS))
    block = rng.choice((3, 16, 48, 63)) if rows < 65_536 else 63
    volume = rng.choice((1, 2, 16))
    settings = (rows, rng.choice((2, 4)), volume, volume + rng.choice((0, 1, 5, 30)),
                rng.choice((4, 9, 30)), -(-rows // block) + rng.choice((0, 2)), block)
    possible = (512, 1024, rows) if rows <= 65_536 else (65_536, 131_072, rows, rows)
    edge = rng.choice([edge for edge in possible if edge <= rows])
    remap, text = loaded(rng)
    near = [logical_row(remap, row) for row in range(edge - 4, edge + 4) if row < rows]
    text += settings_line(rng, settings) + b"R\n" * (edge // block - rng.randint(1, 3))
    for _ in range(rng.randint(4, 12)):
        hammered = rng.choices(near, k=rng.randint(1, settings[INTERVAL]))
        text += activation_lines(rng, hammered, settings[INTERVAL], 0.3) + b"R\n"
    return text


def near_edges(rows):
    """The rows around each multiple of 65,536 and at the bank's end."""
    edges = (*range(65_536, rows, 65_536), rows)
    return [row for edge in edges for row in range(edge - 4, edge + 4) if row < rows]


def large_banks(rng):
    """Hot rows in banks of more than 65,536, and rows of the whole bank between them."""
    rows = rng.choice((65_552, 131_072, 131_088, 262_128, MAX_ROWS, 16 * rng.randint(4097, 16_384)))
    block = rng.randint(-(-rows // MAX_WINDOW), 64)
    volume = rng.choice((1, 2, 4, 16))
    settings = (rows, rng.choice((2, 4)), volume, volume + rng.choice((0, 5, 30, 100)),
                rng.choice((9, 30, 200)), -(-rows // block), block)
    hot_rows = rng.choice((
        rng.choices(near_edges(rows), k=rng.choice((1, 2, 6))),
        alike(rows, rng.randrange(rows)),
        [row + rng.randint(0, 3) for row in alike(rows - 3, rng.randrange(rows - 3))],
    ))
    remap, text = loaded(rng)
    hot_rows = [logical_row(remap, row) for row in hot_rows]
    text += settings_line(rng, settings)
    return text + body(rng, settings, rng.randint(100, 600), hot_rows)


def long_trace(rng):
    """A whole window of the largest bank and the start of the next, under a loaded remap: in each
    interval a few hot rows, and rows of the whole bank. With 40 and 64 rows a block, the last ones
    are empty."""
    rows, remap = MAX_ROWS, accepted_remap(rng)
    edges = [logical_row(remap, row) for row in near_edges(rows)]
    settings = (rows, rng.choice((2, 4)), 4, 64, 40, MAX_WINDOW, rng.choice((32, 40, 64)))
    lines = [remap_line(rng, remap), settings_line(rng, settings)]
    for _ in range(settings[WINDOW] + 200):
        hot_rows = rng.choice((rng.choices(edges, k=2), alike(rows, rng.randrange(rows))))
        chosen = rng.choices(hot_rows, k=20) + rng.choices(range(rows), k=rng.randint(10, 21))
        lines += [activation_line(rng, row) for row in chosen]
        if rng.random() < 0.05:
            lines.append(rng.choice((activation_line(rng, rows), activation_line(rng, rows + 1),
                                     b"A 65536 \n", b"A0262143\n", b"R 1\n", b"\n",
                                     remap_lines(rng, 2))))
        lines.append(b"R\n")
    return b"".join(lines)


def long_holds(rng):
    """A whole window and the start of the next, in each interval holds that mostly fill it, of hot
    rows that change now and then and of any row."""
    rows = rng.choice((1024, 65_536))
    settings = (rows, rng.choice((2, 4)), 2, 32, rng.choice((64, 100)), MAX_WINDOW, 8)
    lines = [settings_line(rng, settings)]
    for event in range(settings[WINDOW] + 200):
        if event % 50 == 0:
            hot_rows = rng.choices(range(rows), k=6)
        chosen = rng.choices(hot_rows, k=10) + rng.choices(range(rows), k=rng.randint(0, 8))
        rng.shuffle(chosen)
        lines.append(activation_lines(rng, chosen, settings[INTERVAL], 0.7))
        if rng.random() < 0.05:
            lines.append(rng.choice((refused_hold_line(rng, 5), hold_line(rng, rows, 2),
                                     hold_line(rng, 5, 16), b"H     5 2    \n", b"H     5\n", b"\n")))
        lines.append(b"R\n")
    return b"".join(lines)


def bad_field(rng):
    """Almost a number in six columns."""
    number = str(rng.randint(0, 99))
    return rng.choice((
        " " * 6, number.ljust(6), number.rjust(5) + " ", number.rjust(5), number.rjust(7),
        f"{number} {number}".rjust(6), f"+{number}".rjust(6), f"-{number}".rjust(6),
        f"{number}.0".rjust(6), f"0x{number}".rjust(6), f"{number}\t".rjust(6),
        f"\t{number}".rjust(6), number.rjust(6, "\t"), number.rjust(6, "_"), "", "1234567",
    )).encode()


def bad_remap_line(rng):
    """Almost an `F` line of the right form, without byte 10."""
    fields = [field(rng, number) for number in accepted_remap(rng)]
    good = b"F" + b"".join(fields)
    fields[rng.choice((0, 15, rng.randrange(16)))] = bad_field(rng)
    return rng.choice((
        b"F" + b"".join(fields), b"F" + b"".join(fields), good[:-6], good + b"     1", good + b" ",
        good + b"0", good[:-1], good.lower(), b" " + good, b"S" + good[1:], b"F", good[:43], good[:7],
    ))


def bad_hold_line(rng):
    """Almost an `H` line of the right form, without byte 10."""
    good = b"H" + field(rng, rng.randint(0, 15)) + field(rng, accepted_hold(rng))
    return rng.choice((
        good[:7] + bad_field(rng), good[:7] + bad_field(rng), b"H" + bad_field(rng) + good[7:],
        good[:7], good + b"     1", good + b" ", good + b"0", good[:-1], good.lower(), b" " + good,
        b"A" + good[1:], b"R" + good[1:], b"S" + good[1:], b"F" + good[1:], b"H", b"H" + b" " * 12,
    ))


def bad_line(rng, good):
    """Almost a good line; `good` is the line of accepted settings. Both are without byte 10."""
    fields = [good[1 + 6 * place:7 + 6 * place] for place in range(7)]
    fields[rng.randrange(7)] = bad_field(rng)
    if rng.random() < 0.3:
        return rng.choice((bad_remap_line, bad_hold_line))(rng)
    return rng.choice((
        b"A" + bad_field(rng), b"A" + bad_field(rng), b"S" + b"".join(fields),
        good[:-6], good + b"     1", good + b" ", good[:-1], good.lower(), b" " + good,
        b"F" + good[1:], b"a     1", b" A     1", b"A     1 ", b"A     1     1", b"A", b"S", b"r", b" R", b"R ",
        b"R     1", b" ", b"      ", b"B        30        60",
    ))


def near_misses(rng):
    """Good lines between lines that are almost good."""
    settings = small_settings(rng)
    good = settings_line(rng, settings)[:-1]
    text = good + b"\n"
    for _ in range(rng.randint(5, 40)):
        text += bad_line(rng, good) + b"\n" + body(rng, settings, rng.randint(0, 3))
    return text


def no_settings(rng):
    return body(rng, any_settings(rng), rng.randint(1, 50))


def damaged(rng):
    text = bytearray(rng.choice((plain_trace, many_settings, loaded_remaps, held_rows))(rng))
    for _ in range(rng.choice((1, 1, 3, 10, 40))):
        place = rng.randrange(len(text))
        byte = rng.choice((rng.choice(SPECIAL_BYTES), rng.randrange(256)))
        change = rng.choice(("replace", "replace", "insert", "delete"))
        if change == "replace":
            text[place] = byte
        elif change == "insert":
            text.insert(place, byte)
        elif len(text) > 1:
            del text[place]
    return bytes(text)


def special_bytes(rng):
    """Good lines between lines of bytes such as 0, 13 and 255."""
    text = plain_trace(rng, 5)
    for _ in range(rng.randint(1, 30)):
        size = rng.choice((1, 2, 7, 8, 43))
        text += rng.choice((
            bytes(rng.choice(b"\x00\r\xff") for _ in range(size)) + b"\n",
            bytes(rng.choice(SPECIAL_BYTES) for _ in range(size)) + b"\n",
            b"R\r\n", b"A     1\r\n", b"\r\n", b"\x00\n", b"A     1\x00\n", b"R\n", b"A     1\n",
            b"H     1     2\r\n", b"H     1     2\x00\n", b"H     1     2\n",
        ))
    return text


def crlf(rng):
    return plain_trace(rng).replace(b"\n", b"\r\n")


def cut_off(rng):
    """Ends anywhere, mostly within a line."""
    text = rng.choice((plain_trace, plain_trace, loaded_remaps, held_rows))(rng)
    return text[:rng.randint(1, len(text))] if rng.random() < 0.7 else text[:-1]


def noise(rng):
    return rng.randbytes(spread(rng, 1, 5000))


def long_line(rng, size):
    """A line of so many bytes, byte 10 not counted: at times good ones, and more behind."""
    good = rng.choice((b"R", b"A     1", b"A000000", b"H     1     2",
                       settings_line(rng, small_settings(rng))[:-1], remap_line(rng, accepted_remap(rng))[:-1]))
    filling = rng.choice((b" ", b"0", b"1", b"R", b"\x00", b"\xff", b"\r"))
    return rng.choice((good, b"S", b"A", filling)).ljust(size, filling)[:size] + b"\n"


def long_lines(rng):
    text = plain_trace(rng, 5)
    for _ in range(rng.randint(1, 4)):
        size = rng.choice((rng.choice(LINE_SIZES), rng.randint(0, 200_000)))
        text += long_line(rng, size) + body(rng, small_settings(rng), 5)
    return text if rng.random() < 0.7 else text + long_line(rng, rng.choice(LINE_SIZES))[:-1]


def wide_lines(rng):
    """Lines about as wide as an `F` line, good or not, and the last one at times without byte 10."""
    text = plain_trace(rng, 2)
    for _ in range(rng.randint(1, 5)):
        width = WIDEST + rng.choice((0, 0, -2, -1, 1, 2, 3, rng.randint(-60, 60)))
        line = rng.choice((remap_line(rng, accepted_remap(rng))[:-1], bad_remap_line(rng)))
        text += line.ljust(width, rng.choice((b" ", b"0", b"5")))[:width] + b"\n"
        text += rng.choice((b"", plain_trace(rng, 5)))
    return text if rng.random() < 0.5 else text[:-1]


def much_output(rng):
    """Long listings of events with many picked rows, or of refused lines."""
    settings = (4096, 4, 16, rng.choice((16, 100, 2048)), 100, 8192, 64)
    text = settings_line(rng, settings)
    for _ in range(rng.randint(700, 1500)):
        rows = [rng.randrange(0, 4096, 5) for _ in range(4)]
        text += b"".join(activation_line(rng, row) for row in rows)
        text += rng.choice((b"R\n", b"R\n", b"R\n", b"?\n" * 4))
    return text


# Sizes around buffer boundaries


def filling(rng, size):
    """Whole lines of exactly so many bytes."""
    chance = rng.random()
    if size == 0:
        return b""
    if chance < 0.3:
        return b"\n" * size
    if chance < 0.5:
        return b"x" * (size - 1) + b"\n"
    start = settings_line(rng, (16, 2, 1, 2, rng.choice((4, 4096)), 4, 4))
    if size < len(start):
        return b"\n" * size
    lines = rng.choice((b"A     5\n", b"A     5\nA     2\nR\n", b"A     2\nR\n", b"H     5     3\nR\n"))
    count = (size - len(start)) // len(lines)
    text = start + lines * count
    return text + b"\n" * (size - len(text))


def across(rng, boundary, before):
    """A line with so many of its bytes before the boundary, and some behind it."""
    settings = small_settings(rng)
    line = settings_line(rng, settings)
    if before > 43 or rng.random() < 0.3:
        line = remap_line(rng, accepted_remap(rng)) + line
    elif before < 8 and rng.random() < 0.5:
        line = b"A     5\n"
    elif before < 14 and rng.random() < 0.5:
        line = b"H     5     2\n"
    before = min(before, len(line), boundary)
    return filling(rng, boundary - before) + line + body(rng, settings, 6)


def exact_size(rng, size):
    """So many bytes, the last one at times no byte 10 though all else is good."""
    start = settings_line(rng, small_settings(rng))
    end = start + rng.choice((b"R\n", b"A     5\n", b"A     5\nR\n", b"R\n" + start, b"\n",
                              b"H     5     1\n", remap_line(rng, accepted_remap(rng))))
    if rng.random() < 0.6:
        end = end[:-1]
    if len(end) > size:
        return filling(rng, size)
    return filling(rng, size - len(end)) + end


def bytes_before(rng, boundary):
    """How many bytes of a line stand before the boundary, one number for each trace."""
    if boundary == 65_536:
        return (*range(45), *rng.sample(range(45, WIDEST + 2), 15))
    return rng.sample(range(WIDEST + 2), 15)


def boundary_traces(rng):
    for boundary in BOUNDARIES:
        for before in bytes_before(rng, boundary):
            yield across(rng, boundary * rng.choice((1, 1, 2)), before)
        for difference in range(-3, 4):
            for _ in range(5 if difference == 0 else 2):
                yield exact_size(rng, boundary + difference)


# All traces

PLANS = (  # how a trace is made, its kind, and how many
    (plain_trace, "plain", 100),
    (many_settings, "several S", 40),
    (loaded_remaps, "loaded remaps", 60),
    (held_rows, "holds", 80),
    (limit_settings, "settings at their limits", 30),
    (subarray_edges, "edges of subarrays", 80),
    (large_banks, "large banks", 60),
    (no_settings, "no S", 10),
    (near_misses, "almost good lines", 40),
    (damaged, "damaged", 100),
    (special_bytes, "bytes 0, 13 and 255", 30),
    (crlf, "byte 13 before each byte 10", 5),
    (cut_off, "cut off", 40),
    (noise, "noise", 10),
    (long_lines, "long lines", 40),
    (wide_lines, "lines as wide as F", 30),
    (much_output, "much output", 3),
)
KINDS = ("empty input", "single byte", *(kind for _, kind, _ in PLANS), "buffer boundary")


def random_traces(rng):
    """Some hundred pairs of a kind and a trace."""
    yield "empty input", b""
    yield "single byte", b"\n"
    yield "single byte", rng.choice((b"R", b"S", b"A", b"F", b"H", b" ", b"\x00", b"\r", b"\xff"))
    for make, kind, count in PLANS:
        for _ in range(count):
            yield kind, make(rng)
    for text in boundary_traces(rng):
        yield "buffer boundary", text
