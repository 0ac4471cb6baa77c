"""What trials/hard_cases.py and trials/hard_changes.py share: rpm and this program, each with a database in a folder of its own, and what they answer.

A side is asked by the words of a command line; `Seen` is what came of it: a status, what was printed, and the text of standard error.
"""
import os
import re
import resource
import shutil
import subprocess
import sys
from dataclasses import dataclass

MAGIC = bytes.fromhex("8eade80100000000")
LONGEST = 48
LEAST = 36
COUNT, ADDED = 40, 20
# What rpm notes besides: of rpm on Debian, and of packages that were made for a trial.
NOTES = ("Alien instead", "you know what you are doing", "deprecated")


@dataclass
class Seen:
    """What came of a command."""
    status: int
    out: bytes
    err: str

    def message(self, right=b"", which=0):
        """The first line that isn't of the right answer, or the one at another place of them, without folders; of a long one the end."""
        lines = self.err.splitlines() or [it for it in self.out.decode("utf-8", "replace").splitlines() if it.encode() not in right.splitlines()]
        lines = [it for it in lines if not any(note in it for note in NOTES)]
        if not lines:
            return ""
        text = re.sub(r"^(rpm|rpmdb|error): ", "", re.sub(r"/\S*/(?=\S)", "", lines[which])).replace("|", "/").replace("`", "'")
        text = re.sub(r"\s+", " ", text)
        return text if len(text) <= LONGEST else ".." + text[-LEAST:].lstrip()

    def ended(self):
        """How it ended."""
        return f"signal {-self.status}" if self.status < 0 else str(self.status)

    def cell(self, right, which=0):
        """Status, how much of the right answer was printed, and the message at this place of its lines."""
        message = self.message(right, which)
        return f"{self.ended()}, {printed(self.out, right)}" + (f": `{message}`" if message else "")


def printed(out, right):
    """How much of the right answer, and whether anything else, was printed: its lines in any order, or its first bytes."""
    if b"\0" in right:
        return "all" if out == right else "none" if not out else "a beginning" if right.startswith(out) else "other bytes"
    got, wanted = out.splitlines(), right.splitlines()
    known = [line for line in got if line in wanted]
    strange = len([line for line in got if line not in wanted and b" " not in line])
    if out == right or sorted(got) == sorted(wanted):
        return "all"
    most = f"{len(known)} of {len(wanted)}" if known else "none"
    return most + (f", {strange} wrong" if strange else "")


class Side:
    """rpm or this program, with a database that commands are run on."""

    def __init__(self, name, commands, folder):
        self.name, self.commands, self.folder = name, commands, folder
        self.base, self.database = f"{folder}/base", f"{folder}/database"
        os.makedirs(folder)
        os.chmod(folder, 0o755)

    def words(self, words):
        """The words of a command over this side's database."""
        return self.commands[words[0]] + ["--dbpath", self.database] + words[1:]

    def run(self, *words, before=(), stdin=b"", limit=None, stdout=subprocess.PIPE, signals=False):
        """Runs a command, maybe behind other words, or with a limit (of a kind, a number) on what it may use; `signals` where none is ignored."""
        def limited():
            if limit:
                resource.setrlimit(*limit)
        done = subprocess.run(list(before) + self.words(list(words)), input=stdin, stdout=stdout, stderr=subprocess.PIPE, cwd=self.folder, check=False,
                              restore_signals=signals, preexec_fn=limited, env=dict(os.environ, LC_ALL="C", TZ="UTC", HOME=self.folder))
        return Seen(done.returncode, done.stdout or b"", done.stderr.decode("utf-8", "replace"))

    def erasing(self, count):
        """The words that erase the first packages."""
        numbers = range(1, count + 1)
        if self.name == "rpm":
            return ("rpm", "-e", "--justdb", "--nodeps", *(f"package{i}" for i in numbers))
        return ("rpm", "--erasepkg", *map(str, numbers))

    def make(self, headers):
        """The database that each case begins with."""
        self.fresh()
        seen = self.run("rpmdb", "--importdb", stdin=headers)
        self.run("rpm", "-q", "package1")
        if seen.status:
            raise SystemExit(f"hard_cases: {self.name} can't import: {seen.err}")
        shutil.rmtree(self.base, ignore_errors=True)
        shutil.copytree(self.database, self.base)

    def fresh(self, empty=False):
        """Begins from scratch: from the base where there is one, and where it doesn't have to be empty."""
        shutil.rmtree(self.database, ignore_errors=True)
        if os.path.isdir(self.base) and not empty:
            shutil.copytree(self.base, self.database)
        else:
            os.makedirs(self.database)

    def headers(self):
        """The headers that an export has, as a list; None where it fails."""
        seen = self.run("rpmdb", "--exportdb")
        return None if seen.status not in (0, 1) else split(seen.out)

    def files(self):
        """The bytes of the database's files."""
        found = {}
        for name in sorted(os.listdir(self.database)):
            with open(f"{self.database}/{name}", "rb") as file:
                found[name] = file.read()
        return found


def split(headers):
    """The headers of a list, without their magic."""
    found, at = [], 0
    while at + 16 <= len(headers):
        entries, data = (int.from_bytes(headers[at + k:at + k + 4], "big") for k in (8, 12))
        found.append(headers[at + 8:at + 16 + 16 * entries + data])
        at += 16 + 16 * entries + data
    return found


def patch(path, at, change=lambda byte: byte ^ 0xFF):
    """Changes one byte of a file, all of its bits where nothing else is said; from the end where the place is negative."""
    with open(path, "r+b") as file:
        content = bytearray(file.read())
        content[at] = change(content[at])
        file.seek(0)
        file.write(content)


def cut(path, part):
    """Cuts a file to a part of its length, or to so many bytes."""
    size = os.path.getsize(path)
    os.truncate(path, int(size * part) if 0 < part < 1 else size + part if part < 0 else part)


class Table:
    """The rows so far, and what isn't as it is stated."""

    def __init__(self, sides):
        self.theirs, self.ours = sides
        self.sides, self.lines, self.faults = sides, [], []

    def title(self, text):
        self.lines += ["", f"## {text}", "", "| Case | rpm | This program | Kept |", "|---|---|---|---|"]
        show(text)

    def row(self, name, cells, kept, wanted, kept_wanted=None):
        """A row, where this program's cell has to fit a pattern, and what it kept another."""
        self.lines.append(fitted(f"| {name} | {cells[0]} | {cells[1]} | {kept[0]} / {kept[1]} |"))
        if not re.fullmatch(wanted, cells[1]):
            self.faults.append(f"{name}: {cells[1]}\n  stated: {wanted}")
        if kept_wanted is not None and str(kept[1]) != str(kept_wanted):
            self.faults.append(f"{name}: {kept[1]} packages are kept, and not {kept_wanted}")

    def apart(self, name, why):
        self.lines.append(f"| {name} | not tried: {why} | not tried | |")


def fitted(line, most=160):
    """A line of a table within so many columns: messages keep their ends."""
    for kept in range(34, 6, -2):
        parts = line.split("`")
        messages = [k for k in range(3, len(parts), 2) if len(parts[k]) > kept + 2 and not parts[k].startswith("-")] if len(line) > most else []
        for k in messages:
            parts[k] = ".." + parts[k].lstrip(".")[-kept:].lstrip()
        line = "`".join(parts)
    return line


def show(text):
    if sys.stderr.isatty():
        print(text, file=sys.stderr)


def kept(side):
    """How many packages of the base an export has, after a rebuilding."""
    files = side.files()
    side.run("rpmdb", "--rebuilddb")
    left = side.headers()
    if not left and {name: files[name] for name in files if not name.endswith("-shm")}.items() <= side.files().items():
        return "refused"
    return sum(header in (left or []) for header in side.before)
