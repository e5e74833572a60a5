"""Names, inputs and outputs of `rowcheck` that are unusual or fail, and its memory."""

import fcntl
import functools
import os
import pathlib
import random
import re
import resource
import signal
import struct
import subprocess
import termios
import time

from cases import LISTING, OWN, TRACE
from comparison import FIXED_SEED
from programs import random_pieces
from rowcheck import (
    LISTING_UNREAD, NO_LISTING, NO_TRACE, RUN_LIMIT, TRACE_UNREAD, UNWRITTEN, USAGE, answered, finish,
    rowcheck, said, wrong,
)

LONGEST_NAME = 4095  # bytes of a path that Linux takes
NO_TEXT = b"\xff\xfe"  # a name that is not UTF-8: the program opens no such file
NOBODY = 65_534
MEGABYTE = 10**6
MOST_GROWTH = 1000  # kilobytes by which long texts may raise the program's memory


def write_texts(folder, trace=TRACE, listing=LISTING):
    """The names of both."""
    names = f"{folder}/trace", f"{folder}/listing"
    for name, text in zip(names, (trace, listing)):
        pathlib.Path(name).write_bytes(text)
    return names


def expect(tally, title, answer, *wanted):
    """One of the wanted answers."""
    tally.check(answer in wanted, f"{title}: {answer}, and ought to be {' or '.join(map(str, wanted))}")


# Names


def check_names(tally, command, folder):
    tally.begin("names of files")
    trace, listing = write_texts(folder)
    for name in (b"a name with blanks", b"-", b"--", b"--help", b"-n", NO_TEXT, b"new\nline", b"%s",
                 b"n" * 255):
        path = os.path.join(os.fsencode(folder), name)
        for text, names, unopened in ((TRACE, (name, "listing"), NO_TRACE), (LISTING, ("trace", name), NO_LISTING)):
            with open(path, "wb") as file:
                file.write(text)
            wanted = wrong(unopened) if name == NO_TEXT else answered(None)
            expect(tally, f"{name}", rowcheck(command, *names, cwd=folder), wanted)
        os.remove(path)
    for length in (100, 255, 256, 1000, 1024, 4000, LONGEST_NAME):
        names = [longer(name, length) for name in (trace, listing)]
        expect(tally, f"a path of {length} bytes", rowcheck(command, *names), answered(None))
    for length in (LONGEST_NAME + 1, LONGEST_NAME + 2, 20_000):
        expect(tally, f"a path of {length} bytes",
               rowcheck(command, longer(trace, length), listing), wrong(NO_TRACE))
        expect(tally, f"a path of {length} bytes",
               rowcheck(command, trace, longer(listing, length)), wrong(NO_LISTING))
    for name, there in (("listing", answered(1)), ("/dev/null", answered(None))):
        expect(tally, f"nothing and {name}", rowcheck(command, "/dev/null", name, cwd=folder), there)
    expect(tally, "an empty listing", rowcheck(command, trace, "/dev/null"), answered(1))


def longer(path, length):
    """The same file by a path of so many bytes."""
    name = os.path.basename(path)
    start = os.path.abspath(os.path.dirname(path))
    return (start + "/" * length)[:length - len(name)] + name


# Pipes


class Fifo:
    """A pipe with a name, opened at both ends, so that nobody waits for the other; a text and the sizes
    of its pieces, each of which is written when the program has taken the one before. Without sizes it
    is written at once."""

    def __init__(self, path, text, sizes):
        self.path = os.path.abspath(path)
        if os.path.lexists(path):
            os.remove(path)
        os.mkfifo(path)
        self.reader = os.open(path, os.O_RDONLY | os.O_NONBLOCK)
        self.into = os.open(path, os.O_WRONLY | os.O_NONBLOCK)
        self.text, self.sizes, self.place = text, list(sizes), 0
        self.is_open = True

    def is_written(self):
        return self.place == len(self.text)

    def write_some(self, process):
        """Whether a piece was written, or the pipe closed because none is left."""
        if self.is_written():
            if has_opened(process, self.path):
                self.close_end()
            return not self.is_open
        if self.sizes and not taken(self.into):
            return False
        size = self.sizes.pop(0) if self.sizes else len(self.text)
        try:
            self.place += os.write(self.into, self.text[self.place:self.place + size])
            return True
        except BlockingIOError:
            return False

    def close_end(self):
        if self.is_open:
            os.close(self.into)
            self.is_open = False

    def close(self):
        self.close_end()
        os.close(self.reader)
        os.remove(self.path)


def has_opened(process, path):
    folder = f"/proc/{process.pid}/fd"
    try:
        return any(os.readlink(f"{folder}/{number}") == path for number in os.listdir(folder))
    except FileNotFoundError:
        return False


def taken(pipe):
    return struct.unpack("i", fcntl.ioctl(pipe, termios.FIONREAD, b"\0" * 4)) == (0,)


def through_fifos(command, folder, texts, first=None):
    """`texts` has for the trace and for the listing its text and the sizes of the pieces, or a name.
    `first` is the one that is written before the other."""
    inputs = [text if isinstance(text, str) else Fifo(f"{folder}/fifo-{number}", *text)
              for number, text in enumerate(texts)]
    names = [one if isinstance(one, str) else one.path for one in inputs]
    fifos = [one for one in inputs if isinstance(one, Fifo)]
    process = subprocess.Popen([*command, *names], stdin=subprocess.DEVNULL, stdout=subprocess.PIPE,
                               stderr=subprocess.PIPE)
    limit = time.monotonic() + RUN_LIMIT
    while any(fifo.is_open for fifo in fifos) and process.poll() is None and time.monotonic() < limit:
        ready = [fifo for fifo in fifos if fifo.is_open]
        if first is not None and not inputs[first].is_written():
            ready = [inputs[first]]
        if not any([fifo.write_some(process) for fifo in ready]):
            time.sleep(0.00005)
    answer = finish(process)
    for fifo in fifos:
        fifo.close()
    return answer


def check_pipes(tally, command, folder):
    tally.begin("pipes as trace and as listing")
    rng = random.Random(FIXED_SEED)
    trace, listing = write_texts(folder)
    long = b"".join(b"X%10d%6d\n" % (number, 11) for number in range(1, 4001))
    pairs = [(TRACE, LISTING, None), (TRACE, LISTING[:-1], 3), (TRACE, LISTING + b"\n", 4), (TRACE, b"", 1),
             (b"", b"", None), (b"", LISTING, 1), (TRACE[:-1], LISTING, 3), (OWN, OWN, None),
             (TRACE, LISTING.replace(b"4", b"5"), 2)]
    for text, other, known in pairs:
        whole = (text, []), (other, [])
        single = (text, [1] * len(text)), (other, [1] * len(other))
        for how, texts, first in (("whole", whole, None), ("byte by byte", single, None),
                                  ("trace first", whole, 0), ("listing first", whole, 1)):
            answer = through_fifos(command, folder, texts, first)
            expect(tally, f"pipes, {how}, {other}", answer, answered(known))
    for _ in range(6):
        pieces = [random_pieces(rng, len(long)) for _ in range(2)]
        texts = (long, pieces[0]), (long, pieces[1])
        expect(tally, "pipes in pieces", through_fifos(command, folder, texts), answered(None))
        place = rng.randrange(len(long))
        changed = long[:place] + b"?" + long[place + 1:]
        texts = (long, pieces[0]), (changed, pieces[1])
        expect(tally, f"pipes in pieces, byte {place}", through_fifos(command, folder, texts),
               answered(long.count(b"\n", 0, place) + 1))
    single = [1] * 100
    for texts in (((TRACE, single), listing), (trace, (LISTING, single))):
        expect(tally, f"one pipe, {texts}", through_fifos(command, folder, texts), answered(None))
    for text, names in ((TRACE, ("/dev/stdin", listing)), (LISTING, (trace, "/dev/stdin"))):
        process = subprocess.Popen([*command, *names], stdin=subprocess.PIPE, stdout=subprocess.PIPE,
                                   stderr=subprocess.PIPE)
        expect(tally, f"standard input as {names}", finish(process, text), answered(None))
        with open(trace if text == TRACE else listing, "rb") as source:
            expect(tally, f"a file on standard input as {names}", rowcheck(command, *names, stdin=source),
                   answered(None))


# What is wrong


def check_broken(tally, command, folder):
    tally.begin("arguments, inputs and outputs that are wrong")
    trace, listing = write_texts(folder)
    missing, inside = f"{folder}/missing", f"{trace}/inside"
    for names in ((), (trace,), (missing,), (trace, listing, listing), (trace, listing, ""), (trace, listing) * 2):
        expect(tally, f"{len(names)} arguments", rowcheck(command, *names), wrong(USAGE))
    for name in (missing, inside, "", f"{missing}/inside"):
        for other in (trace, listing, "/dev/null", missing, folder):
            expect(tally, f"trace {name}", rowcheck(command, name, other), wrong(NO_TRACE))
        for other in (trace, "/dev/null"):
            expect(tally, f"listing {name}", rowcheck(command, other, name), wrong(NO_LISTING))
        expect(tally, f"trace a folder, listing {name}", rowcheck(command, folder, name),
               wrong(NO_LISTING), wrong(TRACE_UNREAD))
    for name in (folder, "/", "/proc/self/mem"):
        for other in (listing, "/dev/null"):
            expect(tally, f"trace {name}", rowcheck(command, name, other), wrong(TRACE_UNREAD))
        for other in (trace, "/dev/null"):
            expect(tally, f"listing {name}", rowcheck(command, other, name), wrong(LISTING_UNREAD))
    expect(tally, "two folders", rowcheck(command, folder, folder), wrong(TRACE_UNREAD))
    check_reasons(tally, command, folder)
    check_unreadable(tally, command, folder)
    check_outputs(tally, command, folder)


def check_reasons(tally, command, folder):
    """The whole line that says what is wrong, with the file's name where it is one that Linux takes."""
    trace, listing = write_texts(folder)
    missing = f"{folder}/missing"
    for names, line in (((), USAGE), ((missing, listing), NO_TRACE + b" %s: No such file or directory" % missing.encode()),
                        ((trace, missing), NO_LISTING + b" %s: No such file or directory" % missing.encode()),
                        ((NO_TEXT, listing), NO_TRACE + b" %s: Invalid or incomplete multibyte or wide character" % NO_TEXT),
                        ((folder, listing), TRACE_UNREAD + b" %s: Is a directory" % folder.encode()),
                        ((trace, folder), LISTING_UNREAD + b" %s: Is a directory" % folder.encode()),
                        ((longer(trace, 5000), listing), NO_TRACE + b": File name too long")):
        found = said(command, *names)
        tally.check(found == line + b"\n", f"{names}: {found}, and ought to be {line}")


def check_unreadable(tally, command, folder):
    """Files that the program has no right to read; root has every right, so nobody runs it then."""
    trace, listing = write_texts(folder)
    as_nobody = {"user": NOBODY} if os.geteuid() == 0 else {}
    try:
        reachable = rowcheck(command, trace, listing, **as_nobody) == answered(None)
    except PermissionError:
        reachable = False
    if not reachable:
        print("  not run: files without the right to read them, since nobody cannot reach the program")
        return
    for name, names, errors in ((trace, (trace, listing), NO_TRACE), (listing, (trace, listing), NO_LISTING),
                                (listing, ("/dev/null", listing), NO_LISTING)):
        os.chmod(name, 0)
        answer = rowcheck(command, *names, **as_nobody)
        expect(tally, f"{name} without the right to read it", answer, wrong(errors))
        os.chmod(name, 0o644)


def check_outputs(tally, command, folder):
    for listing, known in ((LISTING, None), (LISTING[:-1], 3)):
        names = write_texts(folder, listing=listing)
        run = functools.partial(rowcheck, command, *names)
        with open("/dev/full", "wb") as full:
            expect(tally, "output full", run(stdout=full)._replace(text=b""), wrong(UNWRITTEN))
            expect(tally, "errors full", run(stderr=full)._replace(errors=b""), answered(known))
        expect(tally, "output closed", without(run, 1)._replace(text=b""), wrong(UNWRITTEN))
        expect(tally, "errors closed", without(run, 2)._replace(errors=b""), answered(known))
        expect(tally, "input closed", without(run, 0), answered(known))
        out, into = full_pipe()
        expect(tally, "output is a full pipe", run(stdout=into)._replace(text=b""), wrong(UNWRITTEN))
        os.close(out)
        os.close(into)
        answer = reader_left(run)
        tally.check(answer.status in (0, -signal.SIGPIPE), f"nobody reads the output: {answer}")
        with open(names[1], "rb") as read_only:
            expect(tally, "output only for reading", run(stdout=read_only)._replace(text=b""), wrong(UNWRITTEN))
        unchanged = [pathlib.Path(name).read_bytes() for name in names] == [TRACE, listing]
        tally.check(unchanged, "the program wrote into its trace or listing")
    for names in ((), (f"{folder}/missing", names[1]), (names[0], folder)):
        run = functools.partial(rowcheck, command, *names)
        with open("/dev/full", "wb") as full:
            for answer in (run(stderr=full), without(run, 2)):
                expect(tally, f"{names} with errors full or closed", answer._replace(errors=b""), wrong(b""))
            answer = run(stdout=full)
            expect(tally, f"{names} with output full", answer._replace(text=b"", errors=b""), wrong(b""))


def without(run, descriptor):
    """The answer where this descriptor is closed."""
    option = {0: "stdin", 1: "stdout", 2: "stderr"}[descriptor]
    answer = run(**{option: None}, preexec_fn=lambda: os.close(descriptor))
    return answer._replace(text=answer.text or b"", errors=answer.errors or b"")


def full_pipe():
    """Both ends of a pipe that takes no byte more and does not wait."""
    out, into = os.pipe()
    os.set_blocking(into, False)
    try:
        while True:
            os.write(into, b"\0" * 65_536)
    except BlockingIOError:
        pass
    return out, into


def reader_left(run):
    out, into = os.pipe()
    os.close(out)
    try:
        return run(stdout=into)._replace(text=b"")
    finally:
        os.close(into)


# Memory


def check_memory(tally, command, folder):
    """The most memory that the program holds does not grow with the length of a text, nor of a line."""
    tally.begin("memory")
    count = 700_000
    lines = b"".join(b"X%10d%6d\n" % (number, 11) for number in range(1, count + 1))
    _, listing = write_texts(folder, listing=OWN)
    short, answer = memory_after(command, listing, [OWN])
    expect(tally, "short trace and listing", answer, answered(None))
    _, listing = write_texts(folder, listing=lines + b"X%10d%6d\n" % (count + 1, 11))
    long, answer = memory_after(command, listing, [lines, b"A" * 12 * MEGABYTE])
    expect(tally, "long trace and listing", answer, answered(None))
    known = None not in short + long
    tally.check(known, f"the program ended before its trace did: {short}, {long}")
    if not known:
        return
    print(f"  {short[0]} kB; with 12 MB of lines {long[0]} kB, with a line of 12 MB behind them {long[1]} kB")
    for memory in long:
        tally.check(memory.held - short[0].held <= MOST_GROWTH, f"{short[0]} kB on short texts, then {memory}")
    check_room(tally, command, folder, (short[0].room + MOST_GROWTH) * 1024)


def memory_after(command, listing, texts):
    """The most memory when the program has taken each part of the trace, None if it has ended; and its
    answer."""
    process = subprocess.Popen([*command, "/dev/stdin", listing], stdin=subprocess.PIPE, stdout=subprocess.PIPE,
                               stderr=subprocess.PIPE, bufsize=0)
    found = [most_memory_after(process, text) for text in texts]
    process.stdin.close()
    process.stdin = None
    return found, finish(process)


class Memory:
    """In kilobytes: the most that was held, and the most room for addresses."""

    def __init__(self, status):
        self.held, self.room = (int(re.search(rf"{name}:\s+(\d+) kB", status)[1])
                                for name in ("VmHWM", "VmPeak"))

    def __repr__(self):
        return f"{self.held} of {self.room}"


def most_memory_after(process, text):
    """When the program has taken the text; None if it has ended."""
    try:
        process.stdin.write(text)
        limit = time.monotonic() + RUN_LIMIT
        while not taken(process.stdin.fileno()) and process.poll() is None and time.monotonic() < limit:
            time.sleep(0.0005)
        return Memory(pathlib.Path(f"/proc/{process.pid}/status").read_text())
    except (BrokenPipeError, FileNotFoundError, TypeError):
        return None


def check_room(tally, command, folder, room):
    """Long texts with room for no more addresses than a short one takes."""
    def limited():
        resource.setrlimit(resource.RLIMIT_AS, (room, room))
    own = b"".join(b"X%10d%6d\n" % (number, 11) for number in range(1, 700_001))
    for title, trace, listing, known in (
            ("the example", TRACE, LISTING, None), ("long texts", own, own, None),
            ("a long line of the trace", b"A" * 12 * MEGABYTE, OWN[:18], None),
            ("a long line of the listing", TRACE, LISTING[:-1] + b" " * 12 * MEGABYTE, 3),
            ("a long listing", TRACE, LISTING + OWN * 200_000, 4),
            ("a long trace", TRACE + b"\n" * 12 * MEGABYTE + b"R", LISTING, 4)):
        names = write_texts(folder, trace, listing)
        answer = rowcheck(command, *names, preexec_fn=limited)
        expect(tally, f"{title} in {room} bytes", answer, answered(known))
