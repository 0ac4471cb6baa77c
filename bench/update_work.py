"""What bench/update.py measures: the databases, and what is done with each. A part of bench/update.py.

A Base is a list of packages, and a database of it for each side: this program's, and one of each rpm. All were imported from the same list by
the side that has them, and have a current index. A Work is what is done to a copy of such a database, by command lines that follow each other.
"""
import os
import shutil
import struct
import subprocess
import sys
from dataclasses import dataclass, field
from pathlib import Path

from new_packages import newer, package_file

HERE = Path(__file__).resolve().parent
SYSTEM = Path("/usr/share/gocode/src/github.com/knqyf263/go-rpmdb/pkg/testdata/centos7-many")
# What of rpm's transaction isn't the database's work is left out.
QUIETLY = ["--justdb", "--nodeps", "--noscripts", "--notriggers"]
UNREAD = ["--nodigest", "--nosignature", "--ignoresize", "--ignorearch", "--ignoreos", "--force"]
DATABASES = {"own": ["make_database.py", "--own"], "states": ["make_database.py", "--states"], "like_real": ["make_database.py", "--real"]}
LABEL = "%{NAME}-%{VERSION}-%{RELEASE}.%{ARCH}"


@dataclass
class Side:
    """One of those that are compared: what begins its command lines, and what follows their first word."""
    name: str
    front: list = field(default_factory=list)
    defined: list = field(default_factory=list)
    environment: dict = None

    def words(self, line, folder):
        return [*self.front, line[0], *self.defined, "--dbpath", str(folder), *line[1:]]


@dataclass
class Work:
    """What is done: its name, over which database, the command lines of this program and those of rpm (none where it has no such command).

    Where they change the database, so many packages are left. Where it is alone, rpm isn't measured.
    """
    name: str
    base: str
    ours: list
    theirs: list
    shown: str
    feed: bool = False
    changes: bool = True
    is_alone: bool = False
    left: int = 0
    left_by_rpm: int = 0


def sides(program, ndb):
    """This program, rpm over sqlite, and rpm over its ndb backend where a folder of it is named."""
    yield Side("here", [program])
    yield Side("sqlite", [], ["--define", "_db_backend sqlite"])
    if ndb:
        ways = {"PATH": f"{ndb / 'bin'}:{os.environ['PATH']}", "LD_LIBRARY_PATH": str(ndb / "lib")}
        yield Side("ndb", [], ["--define", "_db_backend ndb"], {**os.environ, **ways})


def quietly(words, environment, feed=os.devnull, into=subprocess.DEVNULL):
    with open(feed, "rb") as given:
        return subprocess.run([str(it) for it in words], env=environment, stdin=given, stdout=into, stderr=subprocess.DEVNULL, check=False)


class Bases:
    """The databases, each made when it is first asked for."""

    def __init__(self, folder, all_sides):
        self.folder, self.sides = folder, {side.name: side for side in all_sides}

    def list_of(self, name):
        """The list of a base: `real`, `real6`, and WHAT-COUNT of those that are made."""
        path = self.folder / f"{name}.list"
        if path.exists():
            return path
        what, _, count = name.partition("-")
        if what == "real":
            source = shutil.copytree(SYSTEM, self.folder / "source")
            with open(path, "wb") as out:
                quietly(["rpmdb", "--dbpath", source, "--exportdb"], None, into=out)
        elif what == "real6":
            path.write_bytes(self.list_of("real").read_bytes() * 6)
        else:
            away = self.folder / "away"
            away.mkdir(exist_ok=True)
            maker = DATABASES.get(what) or ["make_reports.py", what]
            subprocess.run([sys.executable, HERE / maker[0], *maker[1:], count, away, path], check=True)
            shutil.rmtree(away)
        return path

    def database(self, name, side):
        """The folder of a database of this side."""
        made = self.folder / f"{name}.{side.name}"
        if not made.exists():
            made.mkdir()
            quietly(side.words(["rpmdb", "--importdb"], made), side.environment, self.list_of(name))
            quietly(side.words(["rpm", "-q", "none"], made), side.environment)
        return made

    def ask(self, name, shape):
        """What this program prints of all packages of a base by a format."""
        side = self.sides["here"]
        out = subprocess.run(side.words(["rpm", "-qa", "--qf", shape], self.database(name, side)), stdout=subprocess.PIPE, check=True).stdout
        return out.decode().splitlines()

    def labels(self, name, count):
        """The labels of so many of the oldest packages, each once."""
        return list(dict.fromkeys(row.removesuffix(".(none)") for row in self.ask(name, LABEL + "\\n")[:count]))

    def headers(self, name):
        """The headers of a list."""
        text, at = self.list_of(name).read_bytes(), 0
        while at < len(text):
            count, size = struct.unpack_from(">II", text, at + 8)
            end = at + 16 + 16 * count + size
            yield text[at + 8:end]
            at = end

    def newer_files(self, name, count):
        """Package files of the next release of so many of the oldest packages: each with the number of its package."""
        folder = self.folder / "newer"
        folder.mkdir(exist_ok=True)
        found = []
        rows = (row.split(" ") for row in self.ask(name, "%{DBINSTANCE} %{NAME} %{VERSION}\\n"))
        for (number, package, version), blob in zip(rows, self.headers(name)):
            if package != "gpg-pubkey" and len(found) < count:
                path = folder / f"{number}.rpm"
                path.write_bytes(package_file(package, newer(blob, version.encode())))
                found.append((number, str(path)))
        return found


def numbers(first, last):
    return [str(number) for number in range(first, last + 1)]


def erasures(bases):
    """The oldest packages of real databases and of made ones."""
    for base, count, many in (("real", 200, 396), ("real6", 500, 2376), ("own-10000", 50, 10_000)):
        # rpm can't erase one of six packages with the same label: it erases all six of 84.
        labels, left = (bases.labels(base, 84), many - 6 * 84) if base == "real6" else (bases.labels(base, count), many - count)
        yield Work(f"the {count} oldest of {many:,} {'made' if 'own' in base else 'real'} packages erased", base, [["rpm", "--erasepkg", *numbers(1, count)]],
                   [["rpm", "-e", *QUIETLY, "--allmatches", *labels]], f"`rpm --erasepkg 1 .. {count}`", left=many - count, left_by_rpm=left)


def updates(bases):
    """Newer packages in the place of the oldest."""
    found = bases.newer_files("real", 200)
    files, gone = [path for _, path in found], [number for number, _ in found]
    update = ["rpm", "-U", *QUIETLY, *UNREAD]
    yield Work("200 of 396 real packages updated: new ones added, old ones erased", "real",
               [["rpm", "--addpkg", *files], ["rpm", "--erasepkg", *gone]], [[*update, *files]], "`rpm --addpkg FILE..`, `rpm --erasepkg N..`", left=396)
    yield Work("the same, each by a command of its own", "real", [["rpm", "--replacepkg", *pair] for pair in found],
               [[*update, path] for path in files], "`rpm --replacepkg N FILE`, 200 times", left=396)


def questions(bases):
    """What is asked of real packages, and of many."""
    files = bases.ask("real", "[%{FILENAMES}\\n]")
    paths = files[::len(files) // 1000][:1000]
    for words in (["rpm", "-qa"], ["rpm", "-q", "bash"], ["rpm", "-q", "--whatrequires", "/bin/sh"], ["rpmdb", "--exportdb"], ["rpmdb", "--verifydb"]):
        yield Work("a question of 396 real packages", "real", [words], [words], f"`{' '.join(words)}`", changes=False)
    words = ["rpm", "-qf", *paths]
    yield Work("whose 1,000 paths are, of 396 real packages", "real", [words], [words], "`rpm -qf PATH..`", changes=False)
    for count in (1_000, 10_000, 50_000):
        words = ["rpm", "-q", "package500"]
        yield Work(f"one of {count:,} packages by its name", f"own-{count}", [words], [words], "`rpm -q package500`", changes=False, is_alone=count > 10_000)


def reports(_bases):
    """Reports over what makes them long. (rpm's `-Va --nofiles` says nothing of these packages, so it isn't compared.)"""
    for what, counts, name in (("unmet", (1_000, 2_000, 4_000), "{:,} requirements of one package that nothing meets"),
                               ("givers", (125, 250, 500), "{} packages that provide one name, each required in a version of its own")):
        for count in counts:
            base = f"{what}-{count}"
            yield Work(name.format(count), base, [["rpm", "-Va", "--nofiles"]], [], "`rpm -Va --nofiles`", changes=False)
            yield Work(name.format(count), base, [["rpmdb", "--order"]], [], "`rpmdb --order`", changes=False)


def lists(_bases):
    """A whole database imported and rebuilt."""
    for base, count, kind in (("real", 396, "real"), ("real6", 2376, "real"), ("own-1000", 1_000, "made"), ("own-10000", 10_000, "made"),
                              ("own-50000", 50_000, "made")):
        for word, done in (("--importdb", "imported"), ("--rebuilddb", "rebuilt")):
            words = ["rpmdb", word]
            yield Work(f"{count:,} {kind} packages {done}", base, [words], [words], f"`rpmdb {word}`", feed=word == "--importdb", is_alone=count == 50_000,
                       left=count)


PARTS = (erasures, updates, questions, reports, lists)
