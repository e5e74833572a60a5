"""Where a program's input or output fails: it ends, and what it has written is a prefix of what it
writes otherwise. It says what failed.

Each failure starts the program, by `start`, on a file with its input or on a part of that, and says
whether all went as it has to.
"""

import functools
import os
import subprocess

from programs import temporary_file, written

END_LIMIT = 20  # seconds in which the program has to end
FIRST_PART = 3_000  # bytes of input before reads fail
READ_PART = 70_000  # bytes of output before the reader leaves


def ended(process):
    try:
        process.wait(timeout=END_LIMIT)
        return True
    except subprocess.TimeoutExpired:
        process.kill()
        process.wait()
        return False


def output_of(start, **streams):
    """What the program writes; None if it does not end."""
    with temporary_file() as sink:
        return written(sink) if ended(start(stdout=sink, **streams)) else None


def is_prefix(text, wanted):
    return text is not None and wanted.startswith(text)


def read_all(descriptor):
    with open(descriptor, "rb") as file:
        return file.read()


# Output


def output_full(start, trace, _):
    """Every write fails."""
    with open("/dev/full", "wb") as sink:
        return ended(start(stdin=trace, stdout=sink))


def output_closed(start, trace, _):
    """There is no output."""
    return ended(start(stdin=trace, preexec_fn=lambda: os.close(1)))


def reader_leaves(start, trace, wanted):
    """Whoever reads the output stops after its first bytes."""
    process = start(stdin=trace, stdout=subprocess.PIPE)
    first = process.stdout.read(READ_PART)
    process.stdout.close()
    return ended(process) and wanted.startswith(first) and len(first) == READ_PART


def output_fills(start, trace, wanted):
    """A pipe that nobody reads takes a part and then refuses."""
    out, into = os.pipe()
    os.set_blocking(into, False)
    process = start(stdin=trace, stdout=into)
    os.close(into)
    if not ended(process):
        os.close(out)
        return False
    text = read_all(out)
    return 0 < len(text) < len(wanted) and wanted.startswith(text)


def errors_full(start, trace, wanted):
    """Every write on standard error fails."""
    with open("/dev/full", "wb") as sink:
        return is_prefix(output_of(start, stdin=trace, stderr=sink), wanted)


def errors_closed(start, trace, wanted):
    """There is no standard error."""
    return is_prefix(output_of(start, stdin=trace, preexec_fn=lambda: os.close(2)), wanted)


# Input


def input_unreadable(start, _, __):
    """Every read fails: a folder is no text."""
    folder = os.open("/", os.O_RDONLY)
    try:
        return output_of(start, stdin=folder) == b""
    finally:
        os.close(folder)


def input_closed(start, _, __):
    """There is no input."""
    return output_of(start, preexec_fn=lambda: os.close(0)) == b""


def input_fails_later(start, trace, wanted):
    """Reads fail behind a first part: nothing is written that the rest could change."""
    return is_prefix(of_first_part(start, trace), wanted)


def input_fails_after_lines(start, trace, wanted):
    """Reads fail behind a first part: what its lines give is written, nothing that the rest could change."""
    text = of_first_part(start, trace)
    return bool(text) and is_prefix(text, wanted) and text.endswith(b"\n")


def of_first_part(start, trace):
    """What the program writes before reads fail; None if it does not end."""
    out, into = os.pipe()
    os.set_blocking(out, False)  # reading the empty pipe then fails
    os.write(into, trace.read(FIRST_PART))
    try:
        return output_of(start, stdin=out)
    finally:
        os.close(out)
        os.close(into)


# Which of them the program can say, and does: it cannot where standard error fails.
UNWRITTEN = output_full, output_closed, reader_leaves, output_fills
UNREAD = input_unreadable, input_closed, input_fails_later, input_fails_after_lines


def words_of(failure, unread, unwritten):
    """What the line on standard error begins with, or None where there is none."""
    return unread if failure in UNREAD else unwritten if failure in UNWRITTEN else None


def is_said(errors, words):
    """One line that begins with these words and names the system's reason; without words, nothing."""
    if words is None:
        return errors == b""
    return errors.startswith(words + b": ") and len(errors) > len(words) + 3 and errors.find(b"\n") == len(errors) - 1


def check_failures(tally, command, failures, text, wanted, unread, unwritten):
    """`unread` and `unwritten` are the words that the program says where it cannot read or write."""
    for failure in failures:
        with temporary_file(text) as trace, temporary_file() as errors:
            start = functools.partial(subprocess.Popen, command, stderr=errors)
            good = failure(start, trace, wanted)
            said = written(errors)
            tally.check(good and is_said(said, words_of(failure, unread, unwritten)),
                        f"{failure.__name__}: {failure.__doc__} Said: {said}")
