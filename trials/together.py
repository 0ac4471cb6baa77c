#!/usr/bin/env python3
"""Two commands on one database at one time: trials/together.py PROGRAM [--quick] [--tries N] [--seed N] [--only PATTERN] [--write]

Each pair of together_pairs.py is started N times (200; with --quick 8), the second command up to 6 ms before or after the first, over 68 packages with a
current index: two changes, or a change and a question that is asked again and again beside it, or two questions that have to make the index. Then:

- a change ended with 0 and is there, or with 252 and the line that another process uses the database, and made nothing; so the packages are, byte for
  byte, those of the changes that ended with 0, made in some order;
- a question answered as before the change or as after it, and not as before it once it answered as after it; or 252 with that line;
- --verifydb prints nothing, and -q, -qf and --whatprovides answer right, with --noindex and without. All right answers come from a model of the database
  in Python (crash_states.py), made from docs/FORMATS.md.

After that the locks themselves (together_locks.py): one that this script holds and keeps, and one that it gives back after a second.

PROGRAM is crates/rpm_prog/out/rpm_prog, or the folder that has rpm and rpmdb. --write puts both tables into docs/TOGETHER.md. The times depend on the
machine, so no two runs are alike; the seed (1) decides which command begins, and how much earlier. TMPDIR says on which disk; TMPDIR=/dev/shm spares the
waiting for it. All takes some minutes, --quick a quarter of one. Fails where anything isn't as it has to be, and says what was found how often.
"""
import argparse
import hashlib
import random
import re
import sys
import tempfile
from collections import Counter
from pathlib import Path

sys.dont_write_bytecode = True
from folders import TOP
from at_once import Hangs, table
from crash_room import Loss, Room
from together_locks import locks
from together_pairs import Pairs, Try

PAGE = TOP / "docs" / "TOGETHER.md"
TABLE = re.compile(r"(?<=<!-- made by trials/together.py --write -->\n).*?(?=<!-- end -->)", re.S)
HEADS = ["At once", "Tries", "Changes made", "Refused", "Questions", "Refused", "Wrong"]


def row(room, pair, asked, faults):
    """Tries a pair: the cells of its row. What was wrong is counted in `faults`."""
    chance, counts = random.Random(f"{asked.seed} {pair.name}"), [0] * 5
    for _ in range(asked.tries):
        one = Try(room, pair, chance)
        try:
            one.run()
            one.judge()
        except (Loss, Hangs) as fault:
            counts[4] += 1
            faults[f"{pair.name}: {kind(str(fault))}"] += 1
        for at, ended in ((0, one.changed), (2, one.told)):
            refused = sum(it.is_refused() for _, it in ended)
            counts[at] += sum(it.answer[0] == 0 for _, it in ended) if at == 0 else len(ended)
            counts[at + 1] += refused
    return [pair.name, asked.tries, *counts]


def kind(fault):
    """What went wrong, in words that don't differ from try to try."""
    known = re.search(r"blocks overlap|\w+\.db is damaged|checksum differs|header cannot be read", fault)
    if known:
        return known.group(0)
    return "the packages are those of no order of the changes" if "is of no state" in fault else re.sub(r"\s+", " ", fault)[:160]


def words():
    """The words of the command line."""
    parser = argparse.ArgumentParser(usage=__doc__, add_help=False)
    parser.add_argument("program")
    for name in ("--quick", "--write"):
        parser.add_argument(name, action="store_true")
    parser.add_argument("--tries", type=int, default=0)
    parser.add_argument("--seed", type=int, default=1)
    parser.add_argument("--only", default="")
    if {"-h", "--help"} & set(sys.argv[1:]):
        print(__doc__)
        sys.exit(0)
    asked = parser.parse_args()
    asked.tries = asked.tries or (8 if asked.quick else 200)
    return asked


def main():
    asked, faults, rows = words(), Counter(), []
    program = Path(asked.program).resolve()
    if not program.exists():
        sys.exit(f"trials/together.py: there is no {program}")
    with tempfile.TemporaryDirectory() as folder:
        room = Room(program, folder)
        pairs = Pairs(room)
        for pair in pairs.all():
            if asked.only in pair.name:
                rows.append(row(room, pair, asked, faults))
                print("  ", *rows[-1], file=sys.stderr, flush=True)
        held = locks(program, folder, pairs, asked.quick, faults) if asked.only in "locks" else ""
    digest = hashlib.sha256((program / "rpm" if program.is_dir() else program).read_bytes()).hexdigest()[:16]
    made = f"\nWith seed {asked.seed}, of the program with the digest `{digest}`:\n\n{table(HEADS, rows)}\n{held}\n"
    print(made, end="")
    if asked.write:
        PAGE.write_text(TABLE.sub(lambda _: made, PAGE.read_text(encoding="utf-8"), count=1), encoding="utf-8")
    if faults:
        sys.exit("\n".join(f"{count} times {fault}" for fault, count in faults.most_common()))


main()
