#!/usr/bin/env python3
"""What rpm and this program do in the cases that users of package databases fear: trials/hard_cases.py PROGRAM [--quick] [--write] [PART]

PROGRAM is crates/rpm_prog/out/rpm_prog (made by `rt run` there). Wants rpm, as Debian 12 has it (4.18, sqlite). What a case alone wants is named in its
row where it isn't there: strace, setpriv and to be root, faketime. Each case is done to both, in folders of their own. Prints the tables of
docs/HARD_CASES.md, and with --write writes them there, each in the place of the one before. --quick has 2,000 packages in place of 50,000, and 1,000 random
changes in place of 10,000 (a tenth of rpm); a PART is the name of a function below. Fails where this program loses a package, or gives another answer than
the one that stands beside the case. TMPDIR=/dev/shm spares the waiting for a disk.
"""
import hashlib
import os
import sys
import tempfile
from pathlib import Path

sys.dont_write_bytecode = True
from folders import TOP
import hard_changes
import hard_edge
import hard_files
import hard_outside
import hard_places
from hard_sides import COUNT, MAGIC, Side, Table, split
from make_database import package

PAGE = TOP / "docs" / "HARD_CASES.md"
HEAD = """# Hard cases

*Of the program `{digest}`.*

What Debian 12's rpm (4.18.0, sqlite) and this program do in the cases that users of package databases fear. `trials/hard_cases.py --write` does each of them to
both, over {count} packages where no other number is said, and writes this page. It fails where this program doesn't do what is stated beside the case there.

A cell has the status, how much of the right answer was printed, and the first line of the message, or its end. "Kept" is how many of the packages from before
an export has afterwards, unchanged, of rpm and of this program; for damaged, missing and cut files after their `--rebuilddb`. "Refused" is a database that
none of these commands reads or changes. `trials/refused_memory.sh` refuses each allocation in turn.

Two things to know. That nobody else writes is supposed, and a lock of the system keeps it true among processes of this program (`docs/TOGETHER.md`): of two
changes the second waits for the first, at most five seconds. And a damaged place of a package, a damaged log or a cut file has it refuse the whole database:
copy it before you repair it by hand. A file that is cut to nothing is a blank database.

In the cases of links and odd files rpm's `rpmdb.sqlite` stands for `Packages.db`, and its `-shm` and `-wal` for index and log; there "-" is kept.
"""
TITLES = ("A flipped byte", "The index", "A file that is cut", "A disk that is full, and a crash", "An output that fails", "A user without rights",
          "A file that can't be written", "A closed descriptor", "A link", "A pipe, a device, a folder", "No database, or another one",
          "A folder among package files, a word that is no text", "Want of memory", "Two at once", "A clock that is set back", "Many packages",
          "Random changes")
PARTS = (
    hard_files.damaged_pages, hard_files.indexes, hard_files.cut_files, hard_outside.outputs, hard_outside.rights, hard_edge.rights_of_files,
    hard_edge.descriptors, hard_edge.links, hard_places.odd_files, hard_places.folders, hard_places.items, hard_outside.clock, hard_outside.disk,
    hard_outside.memory)
LARGE = {hard_outside.two_at_once: (30, 6), hard_changes.many: (50_000, 2_000), hard_changes.random_changes: (10_000, 1_000)}


def sections(text):
    """The parts of a page by their titles, the head aside."""
    return {part.partition("\n")[0]: part.rstrip("\n") for part in text.split("\n## ")[1:]}


def write(table):
    """Puts the tables into the page, each in the place of the one that it has already."""
    made = sections(PAGE.read_text(encoding="utf-8")) if PAGE.exists() else {}
    made.update(sections("\n".join(table.lines)))
    digest = hashlib.sha256(Path(table.ours.commands["rpm"][0]).read_bytes()).hexdigest()[:16]
    PAGE.write_text(HEAD.format(count=COUNT, digest=digest) + "".join(f"\n## {made[title]}\n" for title in TITLES if title in made), encoding="utf-8")


def tables(folder, program, words, part):
    """All cases whose function has this in its name; with --write each table is written when it is made."""
    os.chmod(folder, 0o755)
    sides = [Side("rpm", {name: [f"/usr/bin/{name}"] for name in ("rpm", "rpmdb")}, f"{folder}/theirs"),
             Side("this program", {name: [program, name] for name in ("rpm", "rpmdb")}, f"{folder}/ours")]
    for side in sides:
        side.make(b"".join(MAGIC + package(i, True) for i in range(1, COUNT + 1)))
        side.before = split(side.run("rpmdb", "--exportdb").out)
    table = Table(sides)
    for case in (*PARTS, *LARGE):
        if part in case.__name__:
            case(*[table, *LARGE.get(case, ())[("--quick" in words):][:1]])
            if "--write" in words:
                write(table)
    return table


def main():
    if "--help" in sys.argv:
        print(__doc__)
        return
    words = [word for word in sys.argv[1:] if not word.startswith("--")]
    if len(words) not in (1, 2) or set(sys.argv[1:]) - set(words) - {"--quick", "--write"}:
        sys.exit(__doc__)
    program = os.path.realpath(words[0])
    for needed in ("/usr/bin/rpm", "/usr/bin/rpmdb", program):
        if not os.access(needed, os.X_OK):
            sys.exit(f"hard_cases.py: wants {needed}")
    with tempfile.TemporaryDirectory() as folder:
        table = tables(folder, program, sys.argv, "".join(words[1:]))
    if "--write" not in sys.argv:
        print("\n".join(table.lines))
    if table.faults:
        sys.exit("\n".join(table.faults))


main()
