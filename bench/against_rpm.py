#!/usr/bin/env python3
"""Instructions of this program and of rpm, for the same commands over the same packages.

    bench/against_rpm.py PROGRAM [--ndb FOLDER] [--only PART..] [--keep FILE] [--write]

PROGRAM is crates/rpm_prog/out/rpm_prog, or what release/program.sh names; rpm is the distribution's, over sqlite, and with --ndb also the one of FOLDER over
its ndb backend, as trials/rpm-with-ndb builds it. Each side imports the same list by itself, and is asked with a current index. The parts are 1,000 and
10,000 packages that share their files (make_database.py --states), and 1,000 as real ones are (--real). A table each: millions of instructions, as callgrind
counts them, and which part of rpm's this program's are. --keep notes each cost in FILE, and takes from there what an earlier run noted of the same program;
--write puts the tables into docs/FIGURES.md. Wants rpm, valgrind, and 2 GB below $TMPDIR; with both backends it takes an hour and a half, nearly all of it
rpm's. Real systems are measured by bench/update.py, and tried by trials/distributions.py.
"""
import argparse
import datetime
import os
import shutil
import subprocess
import sys
import tempfile
import textwrap
from pathlib import Path

sys.dont_write_bytecode = True
import update_costs
from tables import Kept, line, number, put_into_page, share, version_of_rpm
from update_work import HERE, QUIETLY, Bases, Work, sides

PARTS = ("states-1000", "states-10000", "like_real-1000")
TITLES = {"states-1000": "1,000 packages", "states-10000": "10,000 packages", "like_real-1000": "1,000 packages as real ones are"}


def works(base, folder):
    """What is done over a base."""
    kind, _, count = base.partition("-")
    added = folder / "added.rpm"
    if not added.exists():
        subprocess.run([sys.executable, HERE / "make_package.py", "1000000", added], check=True)
    path = "/usr/src/package500/tree0/part1/Makefile" if kind == "like_real" else "/usr/lib64/file3.so"
    title = TITLES[base]

    def asked(shown, *words):
        return Work(title, base, [list(words)], [list(words)], shown, changes=False)

    def erased(shown, number_here, name):
        return Work(title, base, [["rpm", "--erasepkg", str(number_here)]], [["rpm", "-e", *QUIETLY, name]], shown)

    def whole(shown, word, feed):
        return Work(title, base, [["rpmdb", word]], [["rpmdb", word]], shown, feed=feed)

    yield whole("import", "--importdb", True)
    yield asked("`-qa`", "rpm", "-qa")
    yield asked("`-qa` by a pattern", "rpm", "-qa", "package50*")
    yield asked("all files", "rpm", "-qa", "--qf", "[%{FILENAMES}\\n]")
    yield asked("`-q --querybynumber`", "rpm", "-q", "--querybynumber", "500")
    yield asked("`-q NAME`", "rpm", "-q", "package500")
    yield asked("`-q --whatprovides`", "rpm", "-q", "--whatprovides", "lib500.so.1")
    yield asked("`-qf`, a file of each", "rpm", "-qf", path)
    yield asked("export", "rpmdb", "--exportdb")
    yield asked("verify", "rpmdb", "--verifydb")
    yield Work(title, base, [["rpm", "--addpkg", str(added)]], [["rpm", "-i", *QUIETLY, "--nodigest", "--nosignature", str(added)]], "one added")
    yield erased("the newest erased", count, f"package{count}")
    if kind == "like_real":
        yield erased("one of 2,000 files erased", 509, "package509")
    yield whole("rebuild", "--rebuilddb", False)


class Bench:
    """The instructions of works by each side."""

    def __init__(self, bases):
        self.bases = bases

    def cost(self, work, side):
        """Instructions of a work, on a copy of the database where it changes it."""
        words, folder, feed = (work.ours if side.name == "here" else work.theirs)[0], self.bases.folder / "copy", os.devnull
        shutil.rmtree(folder, ignore_errors=True)
        if work.feed:
            folder.mkdir()
            feed = self.bases.list_of(work.base)
        elif work.changes:
            shutil.copytree(self.bases.database(work.base, side), folder)
        else:
            folder = self.bases.database(work.base, side)
        return {"instructions": update_costs.instructions(side.words(words, folder), side.environment, feed)}


def table(rows, others):
    """A table: the commands over one base, here and by each rpm."""
    heads = [cell for name in others for cell in (f"rpm, {name}", "here, of that")]
    text = line("Command", "Here", *heads) + "|---" * (2 + len(heads)) + "|\n"
    for work, costs in rows:
        shares = [cell for name in others for cell in (number(costs[name], "instructions", "{:,.1f}", 1e6), share(costs["here"], costs[name], "instructions"))]
        text += line(work.shown, number(costs["here"], "instructions", "{:,.2f}", 1e6), *shares)
    return text


def told(parts, others, digest):
    """The tables, and of which programs they are."""
    head = f"Measured on {datetime.date.today():%-d %B %Y}, of the program with the digest `{digest}`, and of rpm {version_of_rpm()} over {' and over '.join(others)}."
    text = textwrap.fill(head, 158, break_on_hyphens=False) + "\n"
    return text + "".join(f"\nMillions of instructions over {TITLES[base]}:\n\n{table(rows, others)}" for base, rows in parts.items())


def options():
    found = argparse.ArgumentParser(description=__doc__, formatter_class=argparse.RawDescriptionHelpFormatter)
    found.add_argument("program", type=Path, metavar="PROGRAM")
    found.add_argument("--ndb", type=Path, metavar="FOLDER")
    found.add_argument("--only", nargs="+", choices=PARTS, metavar="PART", default=PARTS)
    found.add_argument("--keep", type=Path, metavar="FILE")
    found.add_argument("--write", action="store_true")
    found = found.parse_args()
    for tool in ("rpm", "rpmdb", "valgrind"):
        if not shutil.which(tool):
            sys.exit(f"against_rpm.py: there is no {tool}")
    return found


def main():
    asked = options()
    program = asked.program.resolve()
    all_sides, kept = list(sides(program, asked.ndb and asked.ndb.resolve())), Kept(asked.keep, program)
    with tempfile.TemporaryDirectory() as name:
        bench, parts = Bench(Bases(Path(name), all_sides)), {}
        for base in asked.only:
            parts[base] = [(work, {side.name: kept.cost(work, side, bench.cost) for side in all_sides}) for work in works(base, Path(name))]
    text = told(parts, [side.name for side in all_sides[1:]], kept.program)
    print(text, end="")
    if asked.write:
        put_into_page("bench/against_rpm.py", text)


if __name__ == "__main__":
    main()
