"""The cases of trials/hard_cases.py in which what is around the program fails it: disk, output, rights, memory, another program, the clock."""
import os
import resource
import shutil
import subprocess
import time
from dataclasses import dataclass

import real_packages
from hard_sides import ADDED, MAGIC
from make_database import package
from make_package import lead, signature

ALL = ("rpm", "-qa")
ONE = ("rpm", "-q", "package7")
WIDE = ("rpm", "-qa", "--qf", "%4000{NAME}\\n")
IMPORT = ("rpmdb", "--importdb")
UNTRACED = ["strace", "-f", "-qq", "-e", "trace=pwrite64", "-o"]
NOBODY = ["setpriv", "--reuid", "65534", "--regid", "65534", "--clear-groups"]


def more(begin=41, count=ADDED):
    """A list of further packages."""
    return b"".join(MAGIC + package(i, True) for i in range(begin, begin + count))


def span(numbers):
    """A few numbers in words."""
    found = sorted(set(numbers))
    return " or ".join(map(str, found)) if len(found) < 3 else f"{found[0]} to {found[-1]}"


def endings(ended):
    """How commands ended, in words: statuses, signals."""
    statuses = sorted({int(it) for it in ended if it.isdigit()})
    listed = ", ".join(map(str, statuses)) if len(statuses) < 5 else f"{statuses[0]} to {statuses[-1]}"
    return ", ".join(filter(None, [listed, *sorted({it for it in ended if not it.isdigit()})]))


class Tries:
    """Imports on fresh databases, each with something in its way: how they ended, how many packages they added and how many of those before stayed."""

    def __init__(self, side, runs, news):
        self.statuses, self.added, self.kept = [], [], []
        for how in runs:
            side.fresh()
            self.statuses.append(side.run(*IMPORT, stdin=news, **how).ended())
            left = side.headers() or []
            self.kept.append(sum(header in left for header in side.before))
            self.added.append(len(left) - self.kept[-1])

    def cell(self):
        return f"{len(self.statuses)} tries: {endings(self.statuses)}; {span(self.added)} added"


def tried(table, name, runs_of, wanted, count=ADDED):
    """A row of such imports: what is in their way is said of each side."""
    tries = [Tries(side, runs_of(side), more(count=count)) for side in table.sides]
    table.row(name, [it.cell() for it in tries], [min(it.kept) for it in tries], wanted, 40)


def refusals(how, most=8):
    """For a side: something done at each of its writes, or at so many of them."""
    def runs(side):
        side.fresh()
        side.run(*IMPORT, stdin=more(), before=UNTRACED + [f"{side.folder}/trace"])
        with open(f"{side.folder}/trace", encoding="utf-8") as file:
            writes = sum("pwrite64(" in line for line in file)
        places = range(1, writes + 1) if writes <= 40 else [1 + k * (writes - 1) // (most - 1) for k in range(most)]
        return [{"before": UNTRACED + ["/dev/null", "-e", f"inject=pwrite64:{how(place)}"]} for place in places]
    return runs


def disk(table):
    """The disk is full, or the program is killed."""
    table.title("A disk that is full, and a crash")
    if shutil.which("strace"):
        tried(table, "no space from some write on", refusals(lambda place: f"error=ENOSPC:when={place}+"), r"\d+ tries: 252; 0( or 20)? added")
        tried(table, "one write fails", refusals(lambda place: f"error=EIO:when={place}"), r"\d+ tries: 252; 0( or 20)? added")
        tried(table, "killed at some write", refusals(lambda place: f"signal=SIGKILL:when={place}"), r"\d+ tries: (signal 9|137); 0( or 20)? added")
    else:
        table.apart("no space, a write that fails, a kill", "wants strace")
    sizes = [{"limit": (resource.RLIMIT_FSIZE, (size << 10, size << 10))} for size in range(20, 420, 80)]
    tried(table, "a limit on the size of files", lambda side: sizes, r"\d+ tries: (0, )?252; 0( or 20)? added")
    sizes = [it | {"signals": True} for it in sizes]
    tried(table, "the same, where its signal ends the command", lambda side: sizes, r"\d+ tries: (0, )?(252|signal 25); 0( or 20)? added")


def outputs(table):
    """What is printed can't be written, or isn't read."""
    table.title("An output that fails")
    for name, words in (("full, `-qa`", ALL), ("full, `--exportdb`", ("rpmdb", "--exportdb"))):
        cells = []
        for side in table.sides:
            side.fresh()
            with open("/dev/full", "wb") as full:
                cells.append(side.run(*words, stdout=full).cell(b"x"))
        table.row(name, cells, [len(side.headers()) for side in table.sides], r"253, none: `output could not be written`", 40)
    cells = []
    for side in table.sides:
        side.fresh()
        with subprocess.Popen(side.words(list(WIDE)), stdout=subprocess.PIPE, stderr=subprocess.PIPE) as process:
            first = process.stdout.readline()
            process.stdout.close()
            process.wait()
            said = process.stderr.read().decode().strip()
        ended = f"signal {-process.returncode}" if process.returncode < 0 else process.returncode
        cells.append(f"{ended}, {'the first line' if first.strip() == b'package1' else 'other'}" + (f": `{said}`" if said else ""))
    table.row(r"a reader that goes, `\| head -1`", cells, [len(side.headers()) for side in table.sides],
              r"(253|signal 13), the first line(: `rpm: output could not be written`)?", 40)


def rights(table):
    """A folder that can't be written, or not even read."""
    table.title("A user without rights")
    if os.getuid() or not shutil.which("setpriv"):
        table.apart("a read-only folder", "wants setpriv and root")
        return
    for name, mode, words, wanted in (
            ("read-only, `-qa`", 0o755, ALL, "0, all"),
            ("read-only, `-q`", 0o755, ONE, "0, all"),
            ("read-only, an import", 0o755, IMPORT, r"252, none: `the database could not be read or written`"),
            ("not readable, `-qa`", 0o700, ALL, r"252, none: `the database could not be read or written`"),
            ("not readable, `-q`", 0o700, ONE, r"252, none: `the database could not be read or written`")):
        cells = []
        for side in table.sides:
            side.fresh()
            right = b"x" if words == IMPORT else side.run(*words).out
            os.chmod(side.database, mode)
            cells.append(side.run(*words, before=NOBODY, stdin=more() if words == IMPORT else b"").cell(right))
            os.chmod(side.database, 0o755)
        table.row(name, cells, [len(side.headers()) for side in table.sides], wanted, 40)


def memory(table):
    """Less and less memory."""
    table.title("Want of memory")
    sizes = [int((1 << 20) * 1.5 ** k) for k in range(14)]
    limits = [{"limit": (resource.RLIMIT_AS, (size, size))} for size in sizes]
    tried(table, f"an import of 500, {sizes[0] >> 20} to {sizes[-1] >> 20} MiB", lambda side: limits, r"\d+ tries: [\w, ]*; 0 or 500 added", 500)
    cells = []
    for side in table.sides:
        side.fresh()
        right = side.run(*ALL).out
        seen = [side.run(*ALL, **limit) for limit in limits]
        wrong = sum(not right.startswith(it.out) for it in seen)
        cells.append(f"{len(seen)} tries: {endings([it.ended() for it in seen])}; " + (f"{wrong} print else" if wrong else "each prints a beginning"))
    table.row("`-qa`, the same", cells, [len(side.headers()) for side in table.sides], r"\d+ tries: .*; each prints a beginning", 40)


def start(side, words, stdin, before=()):
    """A command that runs beside others, maybe behind other words."""
    path = f"{side.folder}/input"
    with open(path, "wb") as file:
        file.write(stdin)
    with open(path, "rb") as file:
        os.remove(path)
        return subprocess.Popen(list(before) + side.words(list(words)), stdin=file, stdout=subprocess.PIPE, stderr=subprocess.DEVNULL)


@dataclass
class Change:
    """A change that runs beside another: its words for a side, its input, and the labels that it adds and erases."""
    words: object
    stdin: bytes = b""
    adds: frozenset = frozenset()
    erases: frozenset = frozenset()


def label(i):
    return f"package{i}-1.{i % 10}-1.fc40.x86_64"


def importing(begin, count):
    """An import of so many packages."""
    return Change(lambda side: IMPORT, more(begin, count), frozenset(map(label, range(begin, begin + count))))


def labels_of(side):
    return set(side.run(*ALL).out.decode().split())


def both_changes(side, changes, times, slowly=()):
    """What became of two changes at one time, a few milliseconds apart, the first maybe slowed down; and how many packages from before are left at least."""
    ended, lost, sure, damaged, left = [], 0, 0, 0, []
    for turn in range(times):
        side.fresh()
        before = labels_of(side)
        first = start(side, changes[0].words(side), changes[0].stdin, slowly)
        time.sleep(0.2 if slowly else turn % 4 / 500)
        both = [first, start(side, changes[1].words(side), changes[1].stdin)]
        done = [change for change, process in zip(changes, both) if process.wait() == 0]
        ended += [str(process.returncode) for process in both]
        wanted = before.union(*(it.adds for it in done)).difference(*(it.erases for it in done))
        found = labels_of(side)
        sure, lost = sure + sum(len(it.adds) + len(it.erases) for it in done), lost + len(wanted ^ found)
        damaged += side.run("rpmdb", "--verifydb").status != 0
        left.append(len(found & before))
    return f"{times} tries: {endings(ended)}; {lost} of {sure} changes lost" + (f", {damaged} times damaged" if damaged else ""), min(left)


def two_at_once(table, times):
    """Two commands at one time."""
    table.title("Two at once")
    large = MAGIC + real_packages.package(1009)
    imports, wanted = importing(41, ADDED), r"\d+ tries: 0(, 252)?; 0 of \d+ changes lost"
    for name, second, often in (
            ("two imports of 20", importing(61, ADDED), times), ("two imports, of 20 and of 500", importing(1000, 500), times // 3),
            ("two imports, of 20 and of one with 2,000 files", Change(lambda side: IMPORT, large, frozenset(["package1009-1.9-1.el8.x86_64"])), times),
            ("an import of 20, three are erased", Change(lambda side: side.erasing(3), b"", frozenset(), frozenset(map(label, (1, 2, 3)))), times)):
        cells, counts = zip(*[both_changes(side, (imports, second), often) for side in table.sides])
        table.row(name, cells, counts, wanted, 37 if second.erases else 40)
    if shutil.which("strace"):
        slowly = [UNTRACED + ["/dev/null", "-e", f"inject=pwrite64:delay_enter={delay}"] for delay in (1000, 50000)]
        cells, counts = zip(*[both_changes(side, (imports, importing(61, ADDED)), times // 3, it) for side, it in zip(table.sides, slowly)])
        table.row("two imports of 20, the first slowed down", cells, counts, wanted, 40)
    else:
        table.apart("two imports of 20, the first slowed down", "wants strace")
    cells = []
    for side in table.sides:
        side.fresh()
        right = side.run(*ALL).out
        both = [[start(side, ALL, b"") for _ in (0, 1)] for _ in range(times)]
        seen = [(process.communicate()[0] == right, process.returncode) for pair in both for process in pair]
        cells.append("0, all" if set(seen) == {(True, 0)} else f"{sum(it == (True, 0) for it in seen)} of {len(seen)} right")
    table.row("questions beside each other", cells, [len(side.headers()) for side in table.sides], "0, all", 40)
    beside_an_import(table, ALL, r"0(, 252)?, (40|540|40 or 540) packages")
    beside_an_import(table, ("rpm", "-q", "package7", "package520"), r"(0|1|0, 1)(, 252)?, (1|2|1 or 2) packages")


def beside_an_import(table, words, stated):
    """Questions while an import of 500 packages runs."""
    cells, left = [], []
    for side in table.sides:
        side.fresh()
        right = set(map(label, range(1, 541)))
        process, seen = start(side, IMPORT, more(41, 500)), []
        while process.poll() is None:
            seen.append(side.run(*words))
        found = [{line for line in it.out.decode().splitlines() if " " not in line} for it in seen if it.status != 252]
        wrong = sum(not it <= right or label(7) not in it for it in found)
        cells.append(f"{endings([it.ended() for it in seen])}, {span(map(len, found))} packages" + (f", {wrong} wrong" if wrong else ""))
        found = side.headers() or []
        left.append(sum(header in found for header in side.before))
        if process.returncode or len(found) != 540:
            cells[-1] += f"; the import ends with {process.returncode}"
    table.row(f"`{words[1]}` during an import of 500", cells, left, stated, 40)


def has_loader(program):
    """Whether a program asks for the system's loader: in front of one that doesn't no library can be put."""
    with open(program, "rb") as file:
        return b"/ld-linux" in file.read()


def clock(table):
    """The clock is set back."""
    table.title("A clock that is set back")
    if not shutil.which("faketime") or not has_loader(table.ours.commands["rpm"][0]):
        table.apart("a package is added in 2001", "wants faketime, and no static program; no number or generation comes from the clock")
        return
    blob, cells = package(1000, True), []
    path = f"{table.ours.folder}/added.rpm"
    with open(path, "wb") as file:
        file.write(lead("package1000") + signature(blob) + MAGIC + blob)
    for side, words in zip(table.sides, (("rpm", "-i", "--justdb", "--nodeps", "--nodigest", "--nosignature", path), ("rpm", "--addpkg", path))):
        side.fresh()
        seen = side.run(*words, before=["faketime", "2001-02-03 12:00:00"])
        said = side.run("rpm", "-q", "package1000", "--qf", "%{DBINSTANCE} %{INSTALLTIME:day}").out.decode()
        cells.append(f"{seen.ended()}, number {said.replace(' ', ', ', 1)}")
    table.row("a package is added in 2001", cells, [len(side.headers()) - 1 for side in table.sides], "0, number 41, Sat Feb 03 2001", 40)
