"""A program's command, and runs of it on a text: from a file, through a pipe, or in small pieces through a pipe."""

import collections
import fcntl
import os
import shlex
import struct
import subprocess
import sys
import tempfile
import termios
import time

from comparison import ROOT, built, give_up

RUN_LIMIT = 20  # seconds for one run of the program
TAKEN_LIMIT = 5  # seconds in which the program has to take a piece from the pipe

# Both outputs of a program, and what went wrong, if anything.
Output = collections.namedtuple("Output", "text errors problem")


def add_programs(parser, **programs):
    """An option for each of these, with the command that runs another program in its place."""
    for option, program in programs.items():
        parser.add_argument(f"--{option}", default=shlex.quote(str(built(program))),
                            help=f"command in place of {built(program).relative_to(ROOT)}")


def command_of(text):
    """The words of a command, whose program has to be there."""
    command = shlex.split(text)
    command[0] = os.path.abspath(command[0])
    if not os.path.exists(command[0]):
        give_up(f"{command[0]} is missing; `tools/programs NAME` writes it")
    return command


def output(text, errors, status):
    """The status is None for a program that did not end."""
    if status == 0:
        return Output(text, errors, None)
    sys.stderr.buffer.write(errors)
    problem = f"no end within {RUN_LIMIT} seconds" if status is None else f"exit status {status}"
    return Output(text, errors, problem)


def run(command, **input):
    try:
        done = subprocess.run(command, **input, capture_output=True, timeout=RUN_LIMIT)
    except subprocess.TimeoutExpired as expired:
        return output(expired.stdout or b"", expired.stderr or b"", None)
    return output(done.stdout, done.stderr, done.returncode)


def through_pipe(command, text):
    return run(command, input=text)


def from_file(command, text):
    with temporary_file(text) as file:
        return run(command, stdin=file)


def left_open(command, text):
    """The pipe stays open behind a text that it can hold: the program has to end by itself."""
    out, into = os.pipe()
    try:
        os.write(into, text)
        return run(command, stdin=out)
    finally:
        os.close(out)
        os.close(into)


def in_pieces(sizes):
    """Feeds pieces of these sizes, each when the program has taken the one before."""
    def feed(command, text):
        with temporary_file() as sink, temporary_file() as errors:
            process = subprocess.Popen(command, stdin=subprocess.PIPE, stdout=sink, stderr=errors,
                                       bufsize=0)
            place = 0
            try:
                for size in sizes:
                    process.stdin.write(text[place:place + size])
                    place += size
                    wait_until_taken(process)
            except BrokenPipeError:
                pass
            process.stdin.close()
            try:
                status = process.wait(timeout=RUN_LIMIT)
            except subprocess.TimeoutExpired:
                process.kill()
                process.wait()
                status = None
            return output(written(sink), written(errors), status)
    return feed


def wait_until_taken(process):
    start = time.monotonic()
    while time.monotonic() < start + TAKEN_LIMIT and process.poll() is None:
        waiting = fcntl.ioctl(process.stdin, termios.FIONREAD, b"\0" * 4)
        if struct.unpack("i", waiting) == (0,):
            return
        time.sleep(0.00005)


def random_pieces(rng, length):
    sizes = []
    most = rng.choice((1, 3, 10, 50)) if length < 3000 else length // 200
    while length > 0:
        size = rng.randint(1, min(most, length))
        sizes.append(size)
        length -= size
    return sizes


def temporary_file(text=b""):
    """A file that holds the text and is read from its start."""
    file = tempfile.TemporaryFile(buffering=0)
    file.write(text)
    file.seek(0)
    return file


def written(file):
    """All that a program wrote into a file."""
    file.seek(0)
    return file.read()


def difference(wanted, text):
    """The first line of an output that departs."""
    wanted, text = wanted.split(b"\n"), text.split(b"\n")
    for number in range(max(len(wanted), len(text))):
        one, other = wanted[number:number + 1], text[number:number + 1]
        if one != other:
            return f"output line {number + 1} is {other} and ought to be {one}"
    return None
