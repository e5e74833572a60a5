"""Runs `rowcheck`, and says what it has to answer. All its words stand here."""

import collections
import os
import subprocess

RUN_LIMIT = 20  # seconds for one run of the program

# What it prints on standard output and the words that its standard error begins with, and its exit status, None if it does
# not end. The status says nothing: a program of the kit ends with 0.
Answer = collections.namedtuple("Answer", "text errors status")

PASSES = b"passes\n"
DEPARTS = b"departs at line %d\n"
USAGE = b"rowcheck: two file names are needed: rowcheck TRACE LISTING"
NO_TRACE = b"rowcheck: cannot open the trace"
NO_LISTING = b"rowcheck: cannot open the listing"
TRACE_UNREAD = b"rowcheck: cannot read the trace"
LISTING_UNREAD = b"rowcheck: cannot read the listing"
UNWRITTEN = b"rowcheck: cannot write the answer"
WORDS = USAGE, NO_TRACE, NO_LISTING, TRACE_UNREAD, LISTING_UNREAD, UNWRITTEN


def words(errors):
    """The known words that a whole line on standard error begins with, or all of it."""
    found = [known for known in WORDS if errors and errors.startswith(known) and errors.endswith(b"\n")]
    return found[0] if found else errors


def answered(line_number):
    """The answer where this line departs; None stands for a listing that passes."""
    return Answer(PASSES if line_number is None else DEPARTS % line_number, b"", 0)


def wrong(errors):
    """The answer where its arguments, a file or its output is wrong."""
    return Answer(b"", errors, 0)


def rowcheck(command, *names, **options):
    """Standard input is empty unless an option says otherwise."""
    options = {"stdin": subprocess.DEVNULL, "stdout": subprocess.PIPE, "stderr": subprocess.PIPE, **options}
    process = subprocess.Popen([*command, *map(os.fsencode, names)], **options)
    return finish(process)


def finish(process, input=None):
    try:
        text, errors = process.communicate(input, timeout=RUN_LIMIT)
        return Answer(text, words(errors), process.returncode)
    except subprocess.TimeoutExpired:
        process.kill()
        text, errors = process.communicate()
        return Answer(text, words(errors), None)


def said(command, *names):
    """All that it says on standard error."""
    done = subprocess.run([*command, *names], stdin=subprocess.DEVNULL, capture_output=True, timeout=RUN_LIMIT)
    return done.stderr
