"""rpm over its ndb backend and this program, on one folder: how both are run and asked, for trials/beside_rpm.py."""
import os
import re
import shutil
from pathlib import Path

from at_once import Started
from make_database import MAGIC, own, package
from make_package import lead, signature

SHOWN = "%{DBINSTANCE} %{NVRA}\n"
LINE = re.compile(r"(\d+) (package\d+-\S+)")


class Wrong(Exception):
    """An answer, or a status, that isn't as it has to be."""


def label(i):
    return f"package{i}-1.{i % 10}-1.fc40.x86_64"


def listed(numbers):
    """A list of these packages, as both import it."""
    return b"".join(MAGIC + package(i, True, own) for i in numbers)


class Sides:
    """The folder, and both programs on it."""

    def __init__(self, program, rpm, folder):
        self.program, self.rpm, self.folder = Path(program), Path(rpm), Path(folder)
        self.database = self.folder / "db"
        self.env = dict(os.environ, LD_LIBRARY_PATH=str(self.rpm / "lib"), LC_ALL="C", HOME=str(folder))

    def file_of(self, i):
        """The package file of package i."""
        path, made = self.folder / f"p{i}.rpm", package(i, True, own)
        path.write_bytes(lead(f"package{i}") + signature(made) + MAGIC + made)
        return str(path)

    def fresh(self):
        shutil.rmtree(self.database, ignore_errors=True)
        self.database.mkdir()

    def start(self, side, words, given=b""):
        """Starts a command of rpm ("rpm") or of this program ("ours")."""
        if side == "rpm":
            front = [str(self.rpm / "bin" / words[0]), "--define", "_db_backend ndb"]
        else:
            front = [str(self.program / words[0])] if self.program.is_dir() else [str(self.program), words[0]]
        more = {"env": self.env} if side == "rpm" else {}
        return Started([*front, "--dbpath", str(self.database), *words[1:]], self.folder, given, **more)

    def run(self, side, words, given=b""):
        """Runs a command that has to end with 0 and to say nothing, of rpm's notes about its index aside."""
        status, out, err = self.start(side, words, given).wait().answer
        err = b"".join(line for line in err.splitlines(True) if not line.startswith(b"warning: "))
        if (status, out, err) != (0, b"", b""):
            raise Wrong(f"{side}: {' '.join(words[:4])} ends with {status}: {(out + err)[:200]!r}")

    def ask(self, side, words, count=0):
        """The packages that a question prints, as (number, label); of its arguments `count` have to be missing."""
        answer = self.start(side, [words[0], *words[1:2], "--qf", SHOWN, *words[2:]]).wait().answer
        status, out, err = answer[0], answer[1].decode(), answer[2].decode()
        if status != count:
            raise Wrong(f"{side}: {' '.join(words[:4])} ends with {status} in place of {count}: {(err or out)[:300]!r}")
        return sorted((int(number), found) for number, found in LINE.findall(out))

    def questions(self, here, gone):
        """What both are asked: (name, words, packages, missing arguments) each; `here` has the packages by number, `gone` those that aren't there."""
        wanted, some = sorted((number, label(i)) for number, i in here.items()), list(here.values())[-12:]
        numbers = {i: number for number, i in here.items()}
        picked = sorted((numbers[i], label(i)) for i in some)
        yield "labels", ["rpm", "-qa"], wanted, 0
        yield "by name", ["rpm", "-q", *(f"package{i}" for i in [*some, *gone])], picked, len(gone)
        yield "by path", ["rpm", "-q", "-f", *(f"/usr/lib64/package{i}/file{i}-0.so" for i in [*some, *gone])], picked, len(gone)
        yield "by provides", ["rpm", "-q", "--whatprovides", *(f"lib{i}-tools" for i in [*some, *gone])], picked, len(gone)
