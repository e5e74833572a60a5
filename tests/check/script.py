"""README.md's line for scripts, run by a shell: true where a listing passes, and false at every other end.

The line is read from README.md. The shell finds as `rowcheck` the program, or a few words of shell that run it where
something is wrong which no argument brings about.
"""

import os
import pathlib
import re
import shlex
import shutil
import signal
import subprocess
import time

from broken import NOBODY, Fifo, taken, write_texts
from cases import CASES, LISTING, OWN, TRACE
from comparison import ROOT, give_up
from damages import EVERY, departure
from rowcheck import LISTING_UNREAD, NO_LISTING, NO_TRACE, RUN_LIMIT, TRACE_UNREAD, UNWRITTEN, USAGE, words

FUNCTION = "listing_passes"
AT_ONCE = 6144  # bytes that the program reads of a trace at once


def shown_line():
    found = re.findall(rf"^    ({FUNCTION}\(\) .*)$", (ROOT / "README.md").read_text(), re.MULTILINE)
    if len(found) != 1:
        give_up(f"README.md has {len(found)} lines that define {FUNCTION}, and ought to have one")
    return found[0]


class Script:
    """Runs README.md's line and then a call of its function, with a folder as the working directory."""

    def __init__(self, tally, command, folder):
        self.tally = tally
        self.command = " ".join(map(shlex.quote, command))
        self.folder = os.path.abspath(folder)
        shutil.rmtree(folder, ignore_errors=True)
        os.makedirs(f"{folder}/bin")
        self.line = shown_line()
        self.put(f'exec {self.command} "$@"')

    def put(self, text):
        """What `rowcheck` is from now on; None stands for no such program."""
        program = pathlib.Path(f"{self.folder}/bin/rowcheck")
        program.unlink(missing_ok=True)
        if text is not None:
            program.write_text(f"#!/bin/sh\n{text}\n")
            program.chmod(0o755)

    def start(self, *names, behind="", **options):
        return subprocess.Popen(
            ["sh", "-c", f'{self.line}\n{FUNCTION} "$@"{behind}', "sh", *names], cwd=self.folder,
            env={**os.environ, "PATH": f"{self.folder}/bin:/usr/bin:/bin", "LC_ALL": "C"},
            stdin=subprocess.DEVNULL, stdout=subprocess.PIPE, stderr=subprocess.PIPE, **options)

    def end(self, process):
        """Whether it was true, None where it was neither; and what was said on standard error. Nothing may be said
        on standard output, which a script may need for itself."""
        try:
            text, errors = process.communicate(timeout=RUN_LIMIT)
        except subprocess.TimeoutExpired:
            process.kill()
            text, errors = process.communicate()
        return None if text else {0: True, 1: False}.get(process.returncode), errors

    def expect(self, title, names, wanted, said=b"", **options):
        """`said` are the words that standard error begins with; None stands for any."""
        self.judge(title, self.end(self.start(*names, **options)), wanted, said)

    def judge(self, title, ended, wanted, said):
        found, errors = ended
        good = found is wanted and (said is None or words(errors) == said)
        self.tally.check(good, f"{title}: {found}, and ought to be {wanted}; standard error has {errors}")


def check_script(tally, command, folder):
    tally.begin("README.md's line for scripts")
    script = Script(tally, command, f"{folder}/script")
    check_answers(script)
    check_wrong(script)
    check_words(script)
    check_unread(script)
    check_surroundings(script)
    check_half_way(script)


def check_answers(script):
    """Every pair written by hand, and each damage to the example's listing."""
    for title, trace, listing, known in CASES:
        write_texts(script.folder, trace, listing)
        script.expect(title, ("trace", "listing"), known is None)
    for kind, make in EVERY.items():
        for listing in make(LISTING):
            write_texts(script.folder, TRACE, listing)
            script.expect(f"{kind}, {listing}", ("trace", "listing"), departure(LISTING, listing) is None)


def check_wrong(script):
    """Arguments and files that are wrong."""
    write_texts(script.folder)
    for names in ((), ("trace",), ("trace", "listing", "listing"), ("trace", "listing", "")):
        script.expect(f"{len(names)} arguments", names, False, USAGE)
    for name in ("missing", "", "trace/inside", "n" * 5000):
        script.expect(f"trace {name}", (name, "listing"), False, NO_TRACE)
        script.expect(f"listing {name}", ("trace", name), False, NO_LISTING)
    for name in (".", "/proc/self/mem"):
        script.expect(f"trace {name}", (name, "listing"), False, TRACE_UNREAD)
        script.expect(f"listing {name}", ("trace", name), False, LISTING_UNREAD)


def check_words(script):
    """The word `passes`, and words of the shell, as names and as texts."""
    word = "passes"
    named = os.path.join(script.folder, word)
    for text, other, names in ((TRACE, LISTING, (word, "listing")), (LISTING, TRACE, ("trace", word))):
        write_texts(script.folder, *((text, other) if names[0] == word else (other, text)))
        pathlib.Path(named).write_bytes(text)
        script.expect(f"{names}", names, True)
        pathlib.Path(named).write_bytes(text[:-1])
        script.expect(f"{names}, cut", names, False)
        os.remove(named)
        opened, read = (NO_TRACE, TRACE_UNREAD) if names[0] == word else (NO_LISTING, LISTING_UNREAD)
        script.expect(f"{names}, missing", names, False, opened)
        os.mkdir(named)
        script.expect(f"{names}, a folder", names, False, read)
        os.rmdir(named)
    for text in (b"passes\n", b"passes", b"\npasses\n", b"passes\npasses\n"):
        for trace in (TRACE, b"", OWN, text):
            write_texts(script.folder, trace, text)
            script.expect(f"listing {text}", ("trace", "listing"), False)
        write_texts(script.folder, text, LISTING)
        script.expect(f"trace {text}", ("trace", "listing"), False)
    write_texts(script.folder)
    for name in ("passes\n", "x\npasses", "a name with blanks", "*", "-n", "!", "$(echo passes)", "`echo passes`",
                 '" = "" -o "', "passes = passes"):
        script.expect(f"missing {name}", (name, "listing"), False, NO_TRACE)
        script.expect(f"missing {name}", ("trace", name), False, NO_LISTING)


def check_unread(script):
    """Files without the right to read them; root has every right, so nobody runs the shell then."""
    write_texts(script.folder)
    as_nobody = {"user": NOBODY} if os.geteuid() == 0 else {}
    try:
        reachable = script.end(script.start("trace", "listing", **as_nobody)) == (True, b"")
    except PermissionError:
        reachable = False
    if not reachable:
        print("  not run: files without the right to read them, since nobody cannot reach the program")
        return
    for name, errors in (("trace", NO_TRACE), ("listing", NO_LISTING)):
        os.chmod(f"{script.folder}/{name}", 0)
        script.expect(f"{name} without the right to read it", ("trace", "listing"), False, errors, **as_nobody)
        os.chmod(f"{script.folder}/{name}", 0o644)


def check_surroundings(script):
    """Outputs that fail, a program that does not come to its end, and none."""
    for listing, passes in ((LISTING, True), (LISTING[:-1], False)):
        write_texts(script.folder, listing=listing)
        names = "trace", "listing"
        for behind in (" >&-", " <&-", " >/dev/full"):
            script.expect(f"call with{behind}", names, passes, behind=behind)
        for behind in (" 2>&-", " 2>/dev/full"):
            script.expect(f"call with{behind}", names, passes, behind=behind)
            script.expect(f"missing, call with{behind}", ("missing", "listing"), False, behind=behind)
        for behind in (">&-", ">/dev/full"):
            script.put(f'exec {script.command} "$@" {behind}')
            script.expect(f"program with {behind}", names, False, UNWRITTEN)
        for ending in (None, "ulimit -v 64\n" + f'exec {script.command} "$@"', "kill -KILL $$"):
            script.put(ending)
            script.expect(f"program {ending}", names, False, None)
        script.put(f'exec {script.command} "$@"')


def check_half_way(script):
    """A trace that can be read for a while and then no more: the mappings of a process that ends meanwhile."""
    child = os.fork()
    if child == 0:
        time.sleep(2 * RUN_LIMIT)
        os._exit(0)
    trace = f"/proc/{child}/maps"
    with open(trace, "rb", buffering=0) as file:
        lines = file.read(AT_ONCE).count(b"\n")
        more = file.read(AT_ONCE)
    required = b"".join(b"X%10d%6d\n" % (number, 11) for number in range(1, lines + 1))
    fifo = Fifo(f"{script.folder}/fifo", required, [18, len(required)])
    process = script.start(trace, fifo.path)
    limit = time.monotonic() + RUN_LIMIT
    fifo.write_some(process)
    while not taken(fifo.into) and process.poll() is None and time.monotonic() < limit:
        time.sleep(0.0005)
    os.kill(child, signal.SIGKILL)
    os.waitpid(child, 0)
    fifo.write_some(process)
    fifo.close_end()
    ended = script.end(process)
    fifo.close()
    script.tally.check(lines > 1 and more, f"{trace} is too short: {lines} lines, then {len(more)} bytes")
    script.judge("a trace that fails half-way", ended, False, TRACE_UNREAD)
