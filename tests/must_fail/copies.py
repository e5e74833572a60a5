"""Copies of the repository in which one crate is edited and checked over what an earlier check kept (`rt check`).

An edit is a file as `rt must-fail` takes it, crates/CRATE/must-fail/NAME.edit: `file:` lines, and pairs of `old:` and `new:` behind them.
Its twin is of the same form, tests/must_fail/twins/CRATE/NAME.twin.
"""

import pathlib
import re
import shutil
import subprocess
import tempfile

ROOT = pathlib.Path(__file__).resolve().parents[2]
TWINS = ROOT / "tests/must_fail/twins"
TIME_LIMIT = 600  # seconds for one check
PARTS = ("src", "specs", "proofs")

PROVED, REFUSED, NOT_TRIED = "proved", "refused", "did not reach the prover"


class BadEdit(Exception):
    """An edit that does not fit the crate."""


def crate_of(edit):
    """The crate that an edit or a twin is of."""
    return edit.parent.name if edit.suffix == ".twin" else edit.parent.parent.name


def edits_of(crate):
    """The crate's edits."""
    return sorted((ROOT / "crates" / crate / "must-fail").glob("*.edit"))


def twin_of(edit):
    """An edit's twin."""
    return TWINS / crate_of(edit) / f"{edit.stem}.twin"


def replacements(edit):
    """The triples of file, old and new text of an edit."""
    file = old = ""
    triples = []
    for line in edit.read_text(encoding="utf-8").splitlines():
        if line.startswith("file: "):
            file = line[6:]
        elif line.startswith("old: "):
            old = line[5:]
        elif line.startswith("new:"):
            if file.split("/")[0] not in PARTS or ".." in file.split("/") or not old:
                raise BadEdit(f"{edit}: a pair without its file or its old text")
            triples.append((file, old, line[4:].removeprefix(" ")))
            old = ""
    if not triples:
        raise BadEdit(f"{edit}: no pair of old and new text")
    return triples


def edited(edit):
    """The files of its crate that an edit changes, with their texts behind it."""
    crate = ROOT / "crates" / crate_of(edit)
    texts = {}
    for file, old, new in replacements(edit):
        if not (crate / file).is_file():
            raise BadEdit(f"{edit}: there is no {file}")
        text = texts.get(file) or (crate / file).read_text(encoding="utf-8")
        if text.count(old) != 1:
            raise BadEdit(f"{edit}: an old text stands {text.count(old)} times in {file}: {old}")
        texts[file] = text.replace(old, new)
    return texts


def listed():
    """The crates of crates.txt, each with those of the repository that it depends on."""
    crates = {}
    for line in (ROOT / "crates.txt").read_text(encoding="utf-8").splitlines():
        name, colon, named = line.partition("#")[0].partition(":")
        if colon:
            crates[name.split()[0]] = [d for d in named.split() if (ROOT / "crates" / d).is_dir()]
    return crates


def prove(crate):
    """Proves a crate and what it depends on, so that its copies begin with what that check kept."""
    done = subprocess.run(["rt", "check"], cwd=ROOT / "crates" / crate, stdout=subprocess.PIPE, stderr=subprocess.STDOUT)
    if done.returncode != 0:
        raise BadEdit(f"{crate} is not proved as it is: rt check in crates/{crate}")


class Checked:
    """What a check said: the verdict, and the errors at its root, each a place and a message."""

    def __init__(self, status, said):
        self.said = said
        if status == 0:
            self.verdict = PROVED
        elif status == 1 and "\nlogic=not-proved" in "\n" + said:
            self.verdict = REFUSED
        else:
            self.verdict = NOT_TRIED
        self.errors = root_errors(said) if status else []

    def place(self):
        """Where the first error is."""
        return self.errors[0][0] if self.errors else ""

    def message(self):
        """What the first error says; of a build that did not reach the prover, the end of what the compiler said."""
        if self.errors:
            return self.errors[0][1]
        return self.said[-400:] if self.verdict == NOT_TRIED else ""


def root_errors(said):
    """The errors that are no mere consequence of another: those not about something above that was not admitted."""
    blocks = []
    inside = False
    for line in said.splitlines():
        if ": error" in line and not line.startswith(" "):
            blocks.append(line)
            inside = True
        elif inside and line.startswith(" "):
            blocks[-1] += " " + line.strip()
        else:
            inside = False
    errors = []
    for block in blocks:
        if "was not admitted" in block:
            continue
        place, _, message = block.partition(": error")
        errors.append((re.sub(r"^.*/crates/[^/]+/", "", place), message.lstrip(": ")))
    if not errors:
        for line in said.splitlines():
            if re.match(r"(fn|method) .*: not|.*no proof:", line):
                errors.append((line.split(":")[0], line))
    return errors


class Copy:
    """A copy of the repository, outside it: rt ci refuses sources anywhere but in the crates. It goes when the copy is let go."""

    def __init__(self):
        self.room = tempfile.TemporaryDirectory(prefix="must-fail-")
        self.folder = pathlib.Path(self.room.name)
        shutil.copy(ROOT / "crates.txt", self.folder)
        for crate in listed():
            self.restore(crate)

    def restore(self, crate):
        for part in PARTS:
            there = self.folder / "crates" / crate / part
            shutil.rmtree(there, ignore_errors=True)
            if (ROOT / "crates" / crate / part).is_dir():
                shutil.copytree(ROOT / "crates" / crate / part, there)

    def check(self, crate):
        done = subprocess.run(["rt", "check"], cwd=self.folder / "crates" / crate, stdout=subprocess.PIPE, stderr=subprocess.STDOUT,
                              timeout=TIME_LIMIT)
        return Checked(done.returncode, done.stdout.decode("utf-8", "replace"))

    def tried(self, edit):
        """What the check says of an edit's crate with the edit; the crate is then as it was."""
        crate = crate_of(edit)
        try:
            for file, text in edited(edit).items():
                (self.folder / "crates" / crate / file).write_text(text, encoding="utf-8")
            return self.check(crate)
        finally:
            self.restore(crate)
