#!/usr/bin/env python3
"""What each command costs: bench/figures.py PROGRAM [--write] [COUNT..]     COUNT packages; 1000, 10000 and 50000 where none is given

PROGRAM is crates/rpm_prog/out/rpm_prog (made by `rt run` there), or what release/rpm_prog.gz holds. Wants valgrind and strace. Prints a table:
millions of instructions of the whole program, as callgrind counts them, for each count of packages; and for the greatest count up to 10,000
the calls of the system, the syncs, and the bytes read and written. --write puts it into docs/FIGURES.md, with the date and the program's digest.

Each database was imported by the program. Questions are asked over the packages of make_database.py, which all have the same files, with a current index.
Changes and reports are made over packages with files of their own (make_database.py --own, make_reports.py mixed), each on a copy of the database.
"""
import datetime
import hashlib
import os
import re
import shutil
import subprocess
import sys
import tempfile
from concurrent.futures import ThreadPoolExecutor
from pathlib import Path

HERE = Path(__file__).resolve().parent
PAGE = HERE.parent / "docs" / "FIGURES.md"
TABLE = re.compile(r"Measured on [^|]*\n\n\| Command \| 1,000.*?\n\n", re.S)
QUESTIONS = ["-qa", "-qa 'package50*'", "-qa --qf '[%{FILENAMES}\\n]'", "-q package500", "-q --querybynumber 500", "-q --whatprovides lib500.so.1",
             "-q --whatrequires lib3.so.1", "-qf /usr/lib64/file3.so", "-qf /usr/lib64/none", "-qg Unspecified", "-q --noindex package500"]
LISTS = ["--exportdb", "--verifydb"]
REPORTS = ["rpm -Va --nofiles", "rpmdb --order", "rpmdb --checkfiles"]


def words_of(line):
    """The words of a command line, which may have quotes around one of them."""
    return [word.strip("'").replace("\\n", "\n") for word in line.split()]


class Bench:
    """Databases of so many packages, and the costs of commands on copies of them."""

    def __init__(self, program, count):
        self.program, self.count, self.folder = program, count, Path(tempfile.mkdtemp())

    def run(self, words, folder, feed=os.devnull, around=()):
        with open(feed, "rb") as given:
            return subprocess.run([*around, self.program, words[0], "--dbpath", str(folder), *words[1:]], stdin=given, stdout=subprocess.DEVNULL,
                                  stderr=subprocess.PIPE, check=False).stderr.decode(errors="replace")

    def made(self, name, maker, *options):
        """A database with its index, into which this program imported the list that a maker writes, and the list."""
        folder, unused, listed = self.folder / name, self.folder / f"{name}-unused", self.folder / f"{name}-list"
        folder.mkdir()
        unused.mkdir()
        subprocess.run([sys.executable, HERE / maker, *options, str(unused), listed], check=True)
        shutil.rmtree(unused)
        self.run(["rpmdb", "--importdb"], folder, listed)
        return folder, listed

    def copy(self, base):
        shutil.rmtree(self.folder / "copy", ignore_errors=True)
        return shutil.copytree(base, self.folder / "copy")

    def cost(self, base, words, feed=os.devnull):
        """Instructions, calls, syncs, bytes read and bytes written."""
        counted = self.run(words, self.copy(base), feed, ["valgrind", "--tool=callgrind", "--callgrind-out-file=/dev/null"])
        trace = self.folder / "trace"
        self.run(words, self.copy(base), feed, ["strace", "-y", "-o", str(trace)])
        lines = [line.strip() for line in open(trace, encoding="utf-8", errors="replace") if "(" in line and not line.startswith("+++")]
        moved = [re.match(r"p?(read|write)(?:64)?\(\d+<[^>]*\.db>.* = (\d+)$", line) for line in lines]
        read, written = (sum(int(it.group(2)) for it in moved if it and it.group(1) == kind) for kind in ("read", "write"))
        return (int(re.search(r"Collected : (\d+)", counted).group(1)), len(lines), sum(line.startswith(("fsync(", "fdatasync(")) for line in lines),
                read, written)

    def costs(self):
        """The rows: a command, and what it costs."""
        base, _ = self.made("same", "make_database.py", str(self.count))
        for line in QUESTIONS:
            yield f"`rpm {line}`", self.cost(base, ["rpm"] + words_of(line))
        for line in LISTS:
            yield f"`rpmdb {line}`", self.cost(base, ["rpmdb", line])
        (base / "Hindex.db").unlink()
        yield "`rpm -q package500`, the index rebuilt", self.cost(base, ["rpm", "-q", "package500"])
        self.run(["rpm", "-q", "none"], base)
        base, listed = self.made("own", "make_database.py", "--own", str(self.count))
        (self.folder / "empty").mkdir()
        yield "`rpmdb --importdb` of as many", self.cost(self.folder / "empty", ["rpmdb", "--importdb"], listed)
        subprocess.run([sys.executable, HERE / "make_package.py", "--own", str(self.count + 1), str(self.folder / "file")], check=True)
        yield "`rpm --addpkg`, one", self.cost(base, ["rpm", "--addpkg", str(self.folder / "file")])
        yield "`rpm --replacepkg`, the first", self.cost(base, ["rpm", "--replacepkg", "1", str(self.folder / "file")])
        yield "`rpm --erasepkg`, the last", self.cost(base, ["rpm", "--erasepkg", str(self.count)])
        yield "`rpm --erasepkg`, the first", self.cost(base, ["rpm", "--erasepkg", "1"])
        yield "`rpm --erasepkg 1 .. 50`", self.cost(base, ["rpm", "--erasepkg", *map(str, range(1, 51))])
        yield "`rpm --erasepkg`, the first of packages with the same files", self.cost(self.folder / "same", ["rpm", "--erasepkg", "1"])
        yield "`rpmdb --rebuilddb`", self.cost(base, ["rpmdb", "--rebuilddb"])
        base, _ = self.made("mixed", "make_reports.py", "mixed", str(self.count))
        for line in REPORTS:
            yield f"`{line}`", self.cost(base, line.split())


def costs_of(program, count):
    """What each command costs over so many packages."""
    bench = Bench(program, count)
    found = {}
    for name, cost in bench.costs():
        found[name] = cost
        print(f"{count} {name} {cost}", file=sys.stderr, flush=True)
    shutil.rmtree(bench.folder)
    return found


def table(program, counts):
    """The table, and what it was measured of. Each count has a core of its own: instructions and calls don't depend on that."""
    with ThreadPoolExecutor() as pool:
        by_count = dict(zip(counts, pool.map(lambda count: costs_of(program, count), counts)))
    found = {name: {count: by_count[count][name] for count in counts} for name in by_count[counts[0]]}
    shown = max([count for count in counts if count <= 10_000], default=counts[0])
    digest = hashlib.sha256(Path(program).read_bytes()).hexdigest()[:16]
    text = f"Measured on {datetime.date.today():%-d %B %Y}, of the program with the digest `{digest}`:\n\n"
    text += f"| Command | {' | '.join(f'{count:,}' for count in counts)} | Calls of {shown:,} | Fsyncs | Bytes read | Bytes written |\n"
    text += "|---" * (len(counts) + 5) + "|\n"
    for name, costs in found.items():
        _, calls, syncs, read, written = costs[shown]
        text += f"| {name} | {' | '.join(f'{costs[count][0] / 1e6:,.2f}' for count in counts)} | {calls:,} | {syncs} | {read:,} | {written:,} |\n"
    return text + "\n"


def main():
    if "--help" in sys.argv:
        print(__doc__)
        return
    words = [word for word in sys.argv[1:] if word != "--write"]
    if not words:
        sys.exit(__doc__)
    made = table(os.path.abspath(words[0]), [int(word) for word in words[1:]] or [1_000, 10_000, 50_000])
    print(made, end="")
    if "--write" in sys.argv:
        PAGE.write_text(TABLE.sub(lambda _: made, PAGE.read_text(encoding="utf-8")), encoding="utf-8")


main()
