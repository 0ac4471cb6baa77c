#!/usr/bin/env python3
"""What an update costs, and other work on the packages of a real system, beside rpm.

    bench/update.py PROGRAM [--ndb FOLDER] [--alone] [--only PART..] [--runs N] [--keep FILE] [--write]

The real packages are the 396 of a CentOS 7, once and six times over, which Debian's package golang-github-knqyf263-go-rpmdb-dev has; the made ones those of
make_database.py --own and make_reports.py. Each side imports them by itself. PROGRAM is crates/rpm_prog/out/rpm_prog, or what release/program.sh names; rpm is
the distribution's, over sqlite, and with --ndb also the one of FOLDER over its ndb backend, as trials/rpm-with-ndb builds it; --alone leaves both out.

Three tables are printed: what this program does (reads as /proc counts them, calls of the system by `strace -c -f`, instructions by callgrind where a run
takes less than two seconds), the seconds of the processor (the least of N runs, three where no N is given; one run alone of what takes more than ten
seconds), and the memory that a process holds at most (VmHWM). --only measures the named parts: erasures, updates, questions, reports, lists. --keep notes
each cost in FILE, and takes from there what an earlier run noted of the same program. --write puts the tables into docs/FIGURES.md. Wants rpm, strace,
valgrind, and 3 GB below $TMPDIR; it takes a quarter of an hour.
"""
import argparse
import datetime
import os
import shutil
import subprocess
import sys
import tempfile
import textwrap
from pathlib import Path

sys.dont_write_bytecode = True
import update_costs
import update_work
from tables import Kept, line, number, put_into_page, share, version_of_rpm

# A command may take so many seconds of the processor; a work that takes more seconds of the processor than MOST_RUN is run once.
MOST, MOST_RUN, MOST_COUNTED, MOST_LINES, MOST_TRACED = 300, 10, 2, 3, 300_000
SYNCS = ("fsync", "fdatasync")


class Bench:
    """The costs of works by each side."""

    def __init__(self, bases, runs):
        self.bases, self.runs = bases, runs

    def on_copy(self, work, side, cost, lines):
        """What a cost is of each of these command lines, on a copy of the database where they change it."""
        folder = self.bases.folder / "copy"
        shutil.rmtree(folder, ignore_errors=True)
        if work.feed:
            folder.mkdir()
        elif work.changes:
            subprocess.run(["cp", "-r", self.bases.database(work.base, side), folder], check=True)
        else:
            folder = self.bases.database(work.base, side)
        feed = self.bases.list_of(work.base) if work.feed else os.devnull
        return [cost(side.words(line, folder), side.environment, feed) for line in lines]

    def packages(self, side):
        """How many packages the copy has."""
        words = side.words(["rpm", "-qa"], self.bases.folder / "copy")
        return len(subprocess.run(words, env=side.environment, stdout=subprocess.PIPE, stderr=subprocess.DEVNULL, check=False).stdout.splitlines())

    def cost(self, work, side):
        """What a work costs this side: nothing where it isn't through in time."""
        lines, found = work.ours if side.name == "here" else work.theirs, {}
        try:
            taken = []
            while not taken or len(taken) < self.runs and sum(it["seconds"] for it in taken[-1]) < MOST_RUN:
                taken.append(self.on_copy(work, side, lambda *words: update_costs.spent(*words, MOST), lines))
        except update_costs.Failed as failed:
            print(f"{side.name}: failed: {failed}", file=sys.stderr, flush=True)
            return found
        left = work.left if side.name == "here" else work.left_by_rpm or work.left
        if left and self.packages(side) != left:
            sys.exit(f"update.py: {work.name}: {side.name} leaves {self.packages(side)} packages, not {left}")
        found = {"seconds": min(sum(it["seconds"] for it in run) for run in taken), "memory": max(it["memory"] for it in taken[0]),
                 "reads": sum(it["reads"] for it in taken[0])}
        if side.name == "here":
            made = self.on_copy(work, side, update_costs.calls, lines) if found["reads"] < MOST_TRACED else []
            if made:
                found["calls"], found["syncs"] = sum(sum(it.values()) for it in made), sum(it.get(name, 0) for it in made for name in SYNCS)
            if found["seconds"] < MOST_COUNTED and len(lines) < MOST_LINES:
                found["instructions"] = sum(self.on_copy(work, side, update_costs.instructions, lines))
        return found


def counts_table(rows):
    text = line("What is done", "By", "Reads", "Calls", "Fsyncs", "Million instructions") + "|---" * 6 + "|\n"
    for work, costs in rows:
        cells = [number(costs["here"], *it) for it in (("reads", "{:,.0f}"), ("calls", "{:,.0f}"), ("syncs", "{:,.0f}"), ("instructions", "{:,.2f}", 1e6))]
        text += line(work.name, work.shown, *cells)
    return text


def seconds_table(rows, others):
    heads = [cell for name in others for cell in (f"rpm, {name}", "here, of that")]
    text = line("What is done", "By", "Here", *heads) + "|---" * (3 + len(heads)) + "|\n"
    for work, costs in rows:
        cells = [cell for name in others for cell in (number(costs[name], "seconds", "{:,.3f}"), share(costs["here"], costs[name]))]
        text += line(work.name, work.shown, number(costs["here"], "seconds", "{:,.3f}"), *cells)
    return text


def memory_table(rows, others):
    text = line("What is done", "By", "Here", *[f"rpm, {name}" for name in others]) + "|---" * (3 + len(others)) + "|\n"
    for work, costs in rows:
        text += line(work.name, work.shown, *[number(costs[name], "memory", "{:,.1f}", 1e6) for name in ["here", *others]])
    return text


def told(rows, others, digest):
    """The tables, and what was measured of which programs when."""
    loads = [cost["load"] for _, costs in rows for cost in costs.values() if cost]
    beside = f", and of rpm {version_of_rpm()} over {' and over '.join(others)}" if others else ""
    head = f"Measured on {datetime.date.today():%-d %B %Y}, of the program with the digest `{digest}`{beside}; "
    head += f"the load of the machine was {min(loads):.0f} to {max(loads):.0f}."
    text = textwrap.fill(head, 158, break_on_hyphens=False) + "\n\n" + counts_table(rows)
    text += "\nSeconds of the processor, those of the system too:\n\n" + seconds_table(rows, others)
    return text + "\n### Memory\n\nMillions of bytes that a process holds at most:\n\n" + memory_table(rows, others)


def options():
    found = argparse.ArgumentParser(description=__doc__, formatter_class=argparse.RawDescriptionHelpFormatter)
    found.add_argument("program", type=Path, metavar="PROGRAM")
    found.add_argument("--ndb", type=Path, metavar="FOLDER")
    found.add_argument("--alone", action="store_true")
    found.add_argument("--only", nargs="+", choices=[part.__name__ for part in update_work.PARTS], metavar="PART")
    found.add_argument("--runs", type=int, default=3, metavar="N")
    found.add_argument("--keep", type=Path, metavar="FILE")
    found.add_argument("--write", action="store_true")
    found = found.parse_args()
    for tool in ("rpm", "rpmdb", "strace", "valgrind"):
        if not shutil.which(tool):
            sys.exit(f"update.py: there is no {tool}")
    if not update_work.SYSTEM.is_dir():
        sys.exit("update.py: install golang-github-knqyf263-go-rpmdb-dev, which has the packages")
    return found


def main():
    asked = options()
    program = asked.program.resolve()
    all_sides = list(update_work.sides(program, asked.ndb and asked.ndb.resolve()))[:1 if asked.alone else None]
    kept, rows = Kept(asked.keep, program), []
    with tempfile.TemporaryDirectory() as name:
        bench = Bench(update_work.Bases(Path(name), all_sides), asked.runs)
        for part in update_work.PARTS:
            for work in part(bench.bases) if not asked.only or part.__name__ in asked.only else ():
                rows.append((work, {side.name: kept.cost(work, side, bench.cost) if side.name == "here" or work.theirs and not work.is_alone else {}
                                    for side in all_sides}))
    text = told(rows, [side.name for side in all_sides[1:]], kept.program)
    print(text, end="")
    if asked.write:
        put_into_page("bench/update.py", text)


main()
