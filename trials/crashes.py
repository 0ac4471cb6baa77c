#!/usr/bin/env python3
"""Crashes over real files: trials/crashes.py PROGRAM [--quick] [--write] [--seed N] [--databases NAMES] [--only PATTERN] [--forget NAME]

Each command that changes files is run under strace: killed before and after each call that changes anything; with each call on the database
failing once; and once as it is, to make from its calls the files that a crash of the machine may leave (crash_files.py says which). What is left is
opened: --verifydb, --exportdb, -qa by a format of many tags, and questions by key with --noindex and without. All answers have to be those of
the state before the command or of the one after it (crash_states.py), of one alone where docs/FORMATS.md says so, and of the one after it where
the command ended with 0. A call that fails has to end in status 252 with its line, or to have no effect.

PROGRAM is the folder that has rpm and rpmdb, or crates/rpm_prog/out/rpm_prog. Wants strace. Each call fails with EIO; those that change anything also
with ENOSPC, once and from there on; of more than 60 reads 60. --quick takes at most 12 kills and 12 faults (EIO) of a case, spread over the calls that
change anything, and fewer images. --write puts the rows into docs/CRASHES.md, each as it is done. --databases (none,small,large) and --only choose
cases; images depend on the seed, which is 1. --forget takes the syncs of a file or folder for none: then losses have to be found. At the first loss of
a case its files are kept in a folder that is named, and the script fails.
"""
import argparse
import multiprocessing
import os
import re
import shutil
import sys
import tempfile
import time
from concurrent.futures import ProcessPoolExecutor
from pathlib import Path

sys.dont_write_bytecode = True
from folders import TOP
from crash_cases import Cases
from crash_files import FORGOTTEN, Unknown
from crash_runs import Bench, Loss

PAGE = TOP / "docs" / "CRASHES.md"
TABLE = re.compile(r"(?<=<!-- made by trials/crashes.py --write -->\n).*?(?=<!-- end -->)", re.S)
BENCH = None


def work(task):
    """Does one task; in a process of the pool."""
    number, kind, at, error = task
    begin = time.time()
    try:
        count, lost = BENCH.did(kind, BENCH.plans[number], at, error)
        return kind, count, lost, time.time() - begin, None
    except Exception as unknown:
        return kind, 0, [], 0.0, f"{type(unknown).__name__}: {unknown}"


def enter(places):
    """In a process of the pool: a folder of its own, and a processor, since strace and what it traces take turns."""
    with places.get_lock():
        places.value += 1
        mine = sorted(os.sched_getaffinity(0))[places.value % len(os.sched_getaffinity(0))]
    os.sched_setaffinity(0, {mine})
    BENCH.enter()


def tried(bench, number, pool, width):
    """Does all tasks of a plan; the counts of it."""
    plan, counts = bench.plans[number], {"killed": 0, "images": 0, "faults": 0, "seconds": 0.0, "lost": 0}
    tasks = [(number, *task) for task in plan.tasks(bench.is_quick)]
    for done, (kind, count, lost, seconds, unknown) in enumerate(pool.map(work, tasks), 1):
        if unknown:
            raise Unknown(unknown)
        if lost and not counts["lost"]:
            print(f"LOST: {lost[0]}", file=sys.stderr)
        for key, more in ((kind, count), ("seconds", seconds), ("lost", len(lost))):
            counts[key] += more
        if sys.stderr.isatty():
            print(f"\r{number + 1} of {width}: {done} of {len(tasks)} ", end="", file=sys.stderr)
    return counts


def row(bench, plan, counts):
    """A line of the table: its first two cells, and the others."""
    size = plan.case.size + (", quick" if bench.is_quick else "")
    return (plan.case.name, size), [len(plan.moments()), counts["killed"], counts["images"], counts["faults"], round(counts["seconds"]), counts["lost"]]


def table(bench, rows):
    """The table of these rows, and what it was made of."""
    text = f"With seed {bench.seed}, of the program with the digest `{bench.digest()}`:\n\n"
    text += f"| Command | Database | Moments | Killed | Images | Faults | Seconds | Lost |\n{'|---' * 8}|\n"
    sums = [sum(column) for column in zip(*rows.values())]
    for names, cells in [*rows.items(), (("in all", ""), sums)]:
        text += "| " + " | ".join([*names, *(f"{cell:,}" for cell in cells)]) + " |\n"
    return text


def rows_of(bench, page):
    """The rows that the page has, where it is of the same seed and program."""
    found = TABLE.search(page).group(0)
    if not found.strip().startswith(table(bench, {("", ""): [0] * 6}).partition("\n")[0]):
        return {}
    lines = [line for line in found.splitlines() if line.startswith("| ") and not line.startswith(("| Command |", "| in all |"))]
    cells = [[cell.strip() for cell in line.strip("|").split("|")] for line in lines]
    return {(it[0], it[1]): [int(cell.replace(",", "")) for cell in it[2:]] for it in cells}


def written(bench, rows):
    """Puts rows into the page, each in place of the one of the same case."""
    page = PAGE.read_text(encoding="utf-8")
    PAGE.write_text(TABLE.sub(lambda _: "\n" + table(bench, rows_of(bench, page) | rows) + "\n", page), encoding="utf-8")


def words():
    """The words of the command line."""
    parser = argparse.ArgumentParser(description=__doc__, formatter_class=argparse.RawDescriptionHelpFormatter)
    parser.add_argument("program")
    for name in ("--quick", "--write"):
        parser.add_argument(name, action="store_true")
    parser.add_argument("--seed", type=int, default=1)
    for name in ("--only", "--forget"):
        parser.add_argument(name, default="")
    parser.add_argument("--databases", default="none,small,large")
    return parser.parse_args()


def main():
    global BENCH
    asked, begin, rows = words(), time.time(), {}
    program = Path(asked.program).resolve()
    if shutil.which("strace") is None or not program.exists():
        sys.exit(f"trials/crashes.py: there is no {'strace' if program.exists() else program}")
    base = tempfile.mkdtemp(dir="/dev/shm" if Path("/dev/shm").is_dir() else None)
    try:
        BENCH = Bench(program, base, asked.seed, asked.quick)
        BENCH.enter()
        BENCH.plans = [BENCH.planned(case) for case in Cases(base, BENCH.tried).all(asked.only, asked.databases.split(","))]
        FORGOTTEN.update([asked.forget] if asked.forget else [])
        with ProcessPoolExecutor(2, multiprocessing.get_context("fork"), enter, (multiprocessing.Value("i", 0),)) as pool:
            for number, plan in enumerate(BENCH.plans):
                rows.update([row(BENCH, plan, tried(BENCH, number, pool, len(BENCH.plans)))])
                if asked.write:
                    written(BENCH, rows)
    except (Loss, Unknown) as fault:
        sys.exit(f"trials/crashes.py: {fault}")
    finally:
        shutil.rmtree(base, ignore_errors=True)
    print(table(BENCH, rows), end="")
    print(f"{(time.time() - begin) / 60:.1f} minutes")
    lost = sum(cells[-1] for cells in rows.values())
    sys.exit(f"trials/crashes.py: {lost} lost" if lost else 0)


main()
