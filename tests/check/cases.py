"""Pairs written by hand: what they are, the trace, the listing, and the line that departs, None if it
passes."""

SETTINGS = b"S    16     2     1     2     4     4     4\n"
BOUND = b"B        30        60\n"

# Document 01's example.
TRACE = SETTINGS + b"A     5\nA     5\nA     2\nR\nA    16\n"
EVENT = b"R     0     1     4\n"
REFUSED = b"X         6     9\n"
LISTING = BOUND + EVENT + REFUSED

# A text that is the listing of itself: each of its lines has another form than a trace's.
OWN = b"X         1    11\nX         2    11\nX         3    11\n"

CASES = (
    ("document 01's example", TRACE, LISTING, None),
    ("both empty", b"", b"", None),
    ("only blank lines in the trace", b"\n\n\n", b"", None),
    ("a trace is its own listing", OWN, OWN, None),
    ("a trace without byte 10 that is its own listing but for that", OWN[:-1], OWN, None),
    ("a last line of the trace without byte 10", TRACE[:-1], BOUND + EVENT + b"X         6    11\n", None),
    ("a trace of one byte", b"R", b"X         1    11\n", None),
    ("an accepted remap prints nothing", b"F" + b"".join(b"%6d" % n for n in range(16)) + b"\n", b"", None),
    ("a blank line behind the trace prints nothing", TRACE + b"\n", LISTING, None),
    # Missing lines
    ("empty listing", TRACE, b"", 1),
    ("first line missing", TRACE, EVENT + REFUSED, 1),
    ("second line missing", TRACE, BOUND + REFUSED, 2),
    ("last line missing", TRACE, BOUND + EVENT, 3),
    ("last two lines missing", TRACE, BOUND, 2),
    ("the trace goes on", TRACE + b"R\n", LISTING, 4),
    ("a last line of the trace without byte 10 requires a line", TRACE + b"R", LISTING, 4),
    ("a line of the trace that is no more than a blank requires a line", TRACE + b" ", LISTING, 4),
    # Surplus lines
    ("surplus line", TRACE, LISTING + b"R     1     0\n", 4),
    ("last line doubled", TRACE, LISTING + REFUSED, 4),
    ("blank line behind", TRACE, LISTING + b"\n", 4),
    ("two blank lines behind", TRACE, LISTING + b"\n\n", 4),
    ("a byte behind", TRACE, LISTING + b"X", 4),
    ("byte 0 behind", TRACE, LISTING + b"\0", 4),
    ("byte 13 behind", TRACE, LISTING + b"\r", 4),
    ("a blank behind", TRACE, LISTING + b" ", 4),
    ("the listing twice", TRACE, LISTING * 2, 4),
    ("a line for nothing", b"", b"R     0     0\n", 1),
    ("a byte for nothing", b"", b"R", 1),
    ("a blank line for nothing", b"", b"\n", 1),
    ("a blank line for a blank line", b"\n", b"\n", 1),
    ("a line for an accepted activation", SETTINGS + b"A     5\n", BOUND + b"A     5\n", 2),
    ("a line for each line of the trace", SETTINGS + b"A     5\nR\n", BOUND + b"\n" + EVENT, 2),
    ("the trace ends before the listing", TRACE[:-8], LISTING, 3),
    # Last pieces without byte 10
    ("no byte 10 at the end", TRACE, LISTING[:-1], 3),
    ("no byte 10 in the only line", SETTINGS, BOUND[:-1], 1),
    ("cut within the last line", TRACE, LISTING[:-6], 3),
    ("cut behind the last line's letter", TRACE, BOUND + EVENT + b"X", 3),
    ("cut within the first line", TRACE, LISTING[:5], 1),
    ("byte 13 in place of the last byte 10", TRACE, LISTING[:-1] + b"\r", 3),
    ("a beginning of the next line", SETTINGS + b"R\n", BOUND + b"R", 2),
    # Lines at other places
    ("blank line before all", TRACE, b"\n" + LISTING, 1),
    ("blank line between", TRACE, BOUND + b"\n" + EVENT + REFUSED, 2),
    ("last two lines swapped", TRACE, BOUND + REFUSED + EVENT, 2),
    ("first and last line swapped", TRACE, REFUSED + EVENT + BOUND, 1),
    ("first line doubled", TRACE, BOUND + LISTING, 2),
    ("two lines joined", TRACE, BOUND + EVENT[:-1] + REFUSED, 2),
    ("a line cut in two", TRACE, BOUND + EVENT[:7] + b"\n" + EVENT[7:] + REFUSED, 2),
    # Other spellings of the same numbers
    ("leading zeros", TRACE, BOUND + b"R     0     1000004\n" + REFUSED, 2),
    ("a zero in place of a blank", TRACE, BOUND + EVENT + b"X         6    09\n", 3),
    ("a tab in place of a blank", TRACE, BOUND + EVENT + b"X         6\t    9\n", 3),
    ("a blank too few", TRACE, BOUND + EVENT + b"X         6    9\n", 3),
    ("a blank too many", TRACE, BOUND + EVENT + b"X         6      9\n", 3),
    ("a blank behind a line", TRACE, BOUND + EVENT[:-1] + b" \n" + REFUSED, 2),
    ("justified on the left", TRACE, b"B30        60        \n" + EVENT + REFUSED, 1),
    ("a small letter", TRACE, BOUND + EVENT.lower() + REFUSED, 2),
    ("byte 13 before the first byte 10", TRACE, BOUND[:-1] + b"\r\n" + EVENT + REFUSED, 1),
    ("byte 13 before the last byte 10", TRACE, LISTING[:-1] + b"\r\n", 3),
    ("byte 13 before each byte 10", TRACE, LISTING.replace(b"\n", b"\r\n"), 1),
    # Other numbers
    ("another H", TRACE, b"B        31        60\n" + EVENT + REFUSED, 1),
    ("another 2 x H", TRACE, b"B        30        61\n" + EVENT + REFUSED, 1),
    ("another event", TRACE, BOUND + b"R     1     1     4\n" + REFUSED, 2),
    ("another row", TRACE, BOUND + b"R     0     1     6\n" + REFUSED, 2),
    ("a second row", TRACE, BOUND + b"R     0     2     4     6\n" + REFUSED, 2),
    ("no row", TRACE, BOUND + b"R     0     0\n" + REFUSED, 2),
    ("another line number", TRACE, BOUND + EVENT + b"X         5     9\n", 3),
    ("another refusal", TRACE, BOUND + EVENT + b"X         6    11\n", 3),
    ("two departures, of which the first counts", TRACE, BOUND + EVENT.lower() + REFUSED.lower(), 2),
    # Listings of other traces
    ("the trace as its listing", TRACE, TRACE, 1),
    ("the listing as its trace", LISTING, LISTING, 1),
    ("the listing as a trace of three refused lines", LISTING, OWN, None),
    ("another trace's listing", SETTINGS + b"R\n", LISTING, 2),
)
