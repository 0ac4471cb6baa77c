#!/usr/bin/env python3
"""rpm itself beside this program, on one folder: trials/beside_rpm.py PROGRAM RPM_WITH_NDB [--quick] [--tries N] [--seed N] [--write]

RPM_WITH_NDB is the folder that trials/rpm-with-ndb makes: Debian's rpm with its ndb backend, which Debian leaves out. Both read and write one Packages.db;
each has an index of its own. Three parts:

- In turn: seven rounds of changes by each (imports, additions, erasures, a replacement). After each change both are asked for all labels, by name, by path
  and by provides, and answer as the model of this script; --verifydb prints nothing.
- At once: each pair of beside_tries.py N times (50; with --quick 4), up to 30 ms apart. What ended with 0 is there; this program's change ended with 0, or with
  252 and its line, and made nothing; nothing is damaged, and this program answers right by key and without its index. How often rpm's own index lacks a
  package that Packages.db has is counted apart, and isn't judged: rpm makes its index current at the end of each header that it writes.
- What rpm does while another process holds the lock of Packages.db, which this script does.

PROGRAM is crates/rpm_prog/out/rpm_prog, or the folder that has rpm and rpmdb. --write puts the tables into docs/TOGETHER.md. Takes some minutes, --quick a
quarter of one. Fails where anything isn't as it has to be.
"""
import argparse
import fcntl
import hashlib
import os
import random
import re
import sys
import tempfile
import time
from collections import Counter
from pathlib import Path

sys.dont_write_bytecode = True
from folders import TOP
from at_once import Hangs, table
from beside_sides import Sides, listed
from beside_tries import pairs, tried
from beside_turns import ROUNDS, in_turn

PAGE = TOP / "docs" / "TOGETHER.md"
TABLE = re.compile(r"(?<=<!-- made by trials/beside_rpm.py --write -->\n).*?(?=<!-- end -->)", re.S)
HEADS = ["At once", "Tries", "Ours made or answered", "Refused", "rpm's", "Wrong", "rpm's index lacks"]
HELD = (("shared", fcntl.LOCK_SH, "-qa", False), ("shared", fcntl.LOCK_SH, "--importdb", True), ("alone", fcntl.LOCK_EX, "-qa", True),
        ("alone", fcntl.LOCK_EX, "--importdb", True))


def at_once(sides, asked, faults):
    """The table of the pairs."""
    rows = []
    for pair in pairs(sides):
        try:
            counts = tried(sides, pair, asked.tries, random.Random(f"{asked.seed} {pair.name}"), faults)
        except Hangs as fault:
            faults[f"{pair.name}: {fault}"] += 1
            continue
        rows.append([pair.name, counts.tries, counts.made, counts.refused, counts.by_rpm, counts.wrong, counts.index])
        print("  ", *rows[-1], file=sys.stderr, flush=True)
    return table(HEADS, rows)


def held(sides, faults):
    """The table of what rpm does while another process holds the lock of Packages.db for a second."""
    rows = []
    for name, how, word, waits in HELD:
        sides.fresh()
        sides.run("rpm", ["rpmdb", "--importdb"], listed(range(1, 6)))
        handle = os.open(sides.database / "Packages.db", os.O_RDONLY)
        fcntl.flock(handle, how)
        started = sides.start("rpm", ["rpm" if word == "-qa" else "rpmdb", word], listed(range(6, 9)) if word != "-qa" else b"")
        time.sleep(1)
        has_waited = started.is_running()
        os.close(handle)
        status = started.wait().answer[0]
        if (has_waited, status) != (waits, 0):
            faults[f"a lock {name}: rpm's {word} {'waited' if has_waited else 'did not wait'}, and ended with {status}"] += 1
        rows.append([f"{name}, for a second", f"`{word}`", f"{'waits, then ends' if has_waited else 'ends at once'} with {status}"])
    return table(["The lock of `Packages.db`", "rpm's", "What it does"], rows)


def words():
    """The words of the command line."""
    parser = argparse.ArgumentParser(usage=__doc__, add_help=False)
    for name in ("program", "rpm"):
        parser.add_argument(name)
    for name in ("--quick", "--write"):
        parser.add_argument(name, action="store_true")
    parser.add_argument("--tries", type=int, default=0)
    parser.add_argument("--seed", type=int, default=1)
    if {"-h", "--help"} & set(sys.argv[1:]):
        print(__doc__)
        sys.exit(0)
    asked = parser.parse_args()
    asked.tries = asked.tries or (4 if asked.quick else 50)
    return asked


def main():
    asked, faults = words(), Counter()
    program, rpm = Path(asked.program).resolve(), Path(asked.rpm).resolve()
    for path in (program, rpm / "bin" / "rpm"):
        if not path.exists():
            sys.exit(f"trials/beside_rpm.py: there is no {path}")
    with tempfile.TemporaryDirectory() as folder:
        sides = Sides(program, rpm, folder)
        made, count = in_turn(sides, 2 if asked.quick else ROUNDS, faults)
        wrong = sum(faults.values())
        print(f"   in turn: {count - wrong} of {count}", file=sys.stderr, flush=True)
        tables = at_once(sides, asked, faults) + "\n" + held(sides, faults)
    digest = hashlib.sha256((program / "rpm" if program.is_dir() else program).read_bytes()).hexdigest()[:16]
    text = (f"\nWith seed {asked.seed}, of the program with the digest `{digest}`. In turn: {made['rpm']} changes by rpm and {made['ours']} by this program; "
            f"{count - wrong} of {count} answers are right.\n\n{tables}\n")
    print(text, end="")
    if asked.write:
        PAGE.write_text(TABLE.sub(lambda _: text, PAGE.read_text(encoding="utf-8"), count=1), encoding="utf-8")
    if faults:
        sys.exit("\n".join(f"{count} times {fault}" for fault, count in faults.most_common()))


main()
