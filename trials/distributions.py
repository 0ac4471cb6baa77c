#!/usr/bin/env python3
"""What this program and rpm answer over the packages of installed systems, and what that costs each.

    trials/distributions.py [--quick] [--costs N] [--jobs N] [--write] [--program PROGRAM] [--ndb FOLDER] [DATABASE..]

Two commands on Debian 12: `apt-get install rpm valgrind golang-github-knqyf263-go-rpmdb-dev`, and this one without arguments, which takes the databases of
ten CentOS systems that the last of these packages has. A DATABASE is the folder of another system's database, whatever its backend: /var/lib/rpm or
/usr/lib/sysimage/rpm, of this machine or of a file system that was unpacked (`docker export $(docker create centos:7) | tar x -C SYSTEM var/lib/rpm`). It
is copied, and never written. PROGRAM is what release/program.sh names, where none is given.

rpm exports each database, and the list is imported into rpm (sqlite) and into this program. Both then have to give the list back byte for byte, to verify
their database without a word, and to answer all of trials/questions.py alike, but for differences that a rule of trials/known_differences.py explains;
these are counted. Any other difference is printed, and fails the run. So is each recipe of docs/RECIPES.md that takes the place of an option of rpm compared
with that option. Then costs are measured, of one run each on a copy: seconds of the processor, and instructions as callgrind counts them, which takes long and
--quick leaves out. --costs measures the N least systems alone, 0 none; --jobs so many processes run at once, one where it isn't given. --write puts the tables
into docs/REAL.md and docs/RECIPES.md. Wants rpm, and valgrind but for --quick.

With --ndb rpm is the one of FOLDER, as trials/rpm-with-ndb builds it: it imports each list into a database of its ndb backend, and this program is asked over
a copy of the very file that rpm wrote. No costs are measured then, and --write puts its tables under "Beside rpm itself" of docs/REAL.md.
"""
import argparse
import collections
import datetime
import hashlib
import os
import re
import shutil
import struct
import subprocess
import sys
import tempfile
import textwrap
from concurrent.futures import ThreadPoolExecutor
from pathlib import Path

sys.dont_write_bytecode = True
from folders import TOP
from known_differences import RULES
from questions import QUESTIONS, Pair, Unknown, ask_unmet, sampled
from recipes import PAGE as RECIPES, ask_recipes, table as table_of_recipes

PAGE = TOP / "docs" / "REAL.md"
MADE = "<!-- made by trials/distributions.py{} --write -->\n", "<!-- end of what it made -->\n"
TEN = Path("/usr/share/gocode/src/github.com/knqyf263/go-rpmdb/pkg/testdata")
# What of rpm's transaction isn't the database's work is left out.
QUIETLY = ["--justdb", "--nodeps", "--noscripts", "--notriggers"]
VALGRIND = ["valgrind", "--tool=callgrind", "--callgrind-out-file=/dev/null"]


def progress(text):
    """Where a run is, on a terminal."""
    if sys.stderr.isatty():
        print(f"\r\033[K{text}", end="", file=sys.stderr, flush=True)


def headers(text):
    """The headers of a list, each with its magic."""
    found, at = [], 0
    while at < len(text):
        count, size = struct.unpack(">II", text[at + 8:at + 16])
        found.append(text[at:at + 16 + 16 * count + size])
        at += len(found[-1])
    return found


class System:
    """The packages of one system, in a database of rpm's and in one of this program's."""

    def __init__(self, program, source, folder, backend):
        self.name, self.program, self.folder, self.list = source.name, str(program), folder, folder / "list"
        self.rows, self.backend = {}, backend
        shutil.copytree(source, folder / "source")
        for name in ("theirs", "ours", "empty"):
            (folder / name).mkdir()
        self.save(["rpmdb", "--dbpath", str(folder / "source"), "--exportdb"], self.list)
        shutil.rmtree(folder / "source")
        self.bytes = self.list.stat().st_size
        self.pair = Pair(self.program, folder / "theirs", folder / "ours")
        self.save(self.words("rpm", ["rpmdb", "--importdb"], self.pair.folders["rpm"]), folder / "said", self.list)
        if backend == "ndb":
            shutil.copy(self.pair.folders["rpm"] / "Packages.db", self.pair.folders["ours"])
        else:
            self.save(self.words("ours", ["rpmdb", "--importdb"], self.pair.folders["ours"]), folder / "said", self.list)
        self.packages = len(self.pair.run("rpm", ["rpm", "-qa"])) - 1
        if not self.packages:
            raise Unknown(f"{source}: rpm finds no packages there")

    def words(self, whose, words, base):
        """A command line of one of the two on this folder."""
        front = [self.program] if whose == "ours" else []
        backend = ["--define", f"_db_backend {self.backend}"] if whose == "rpm" else []
        return [*front, words[0], *backend, "--dbpath", str(base), *words[1:]]

    def save(self, words, into, feed="/dev/null"):
        with open(into, "wb") as out, open(feed, "rb") as given:
            return subprocess.run(words, stdin=given, stdout=out, stderr=subprocess.DEVNULL, check=False).returncode

    def check(self):
        """Asks all questions; an unknown difference is printed. Gives whether there was none."""
        fine = True
        # (rpm lists packages as they stand in the file of its ndb backend, so what it prints of all of them isn't compared with recipes there)
        recipes = {} if self.backend == "ndb" else {"recipes": ask_recipes}
        for name, ask in {"both files": self.ask_files, **QUESTIONS, **recipes, "requirements after erasures": self.ask_erased}.items():
            progress(f"{self.name}: {name}")
            try:
                ask(self.pair)
            except Unknown as unknown:
                progress("")
                print(f"{self.name}: {unknown}", flush=True)
                fine = False
        return fine

    def ask_files(self, pair):
        """Whether each gives the list back, and verifies its database."""
        for whose, base in pair.folders.items():
            pair.asked += 2
            status = self.save(self.words(whose, ["rpmdb", "--exportdb"], base), self.folder / "said")
            given, wanted = (self.folder / "said").read_bytes(), self.list.read_bytes()
            if status or given != wanted and (whose == "ours" or sorted(headers(given)) != sorted(headers(wanted))):
                raise Unknown(f"rpmdb --exportdb of {whose}: the list isn't what was imported")
            pair.counts["order"] += given != wanted
            status = self.save(self.words(whose, ["rpmdb", "--verifydb"], base), self.folder / "said")
            if status or (self.folder / "said").stat().st_size:
                raise Unknown(f"rpmdb --verifydb of {whose}: {(self.folder / 'said').read_text()[:200]}")

    def ask_erased(self, pair):
        """The unmet requirements where a tenth of the packages was erased of both, of copies."""
        gone = sampled(sorted(pair.labels), self.packages // 10)
        copies = {whose: self.copy(base) for whose, base in pair.folders.items()}
        self.save(self.words("rpm", ["rpm", "-e", *QUIETLY, "--allmatches", *(pair.labels[number][5] for number in gone)], copies["rpm"]), "/dev/null")
        self.save(self.words("ours", ["rpm", "--erasepkg", *gone], copies["ours"]), "/dev/null")
        other = Pair(self.program, copies["rpm"], copies["ours"])
        other.labels, other.columns = pair.labels, pair.columns
        words = ["rpm", "-q", "-a", "--qf", "%{DBINSTANCE}\\n"]
        other.compare(words, ("-a", ""), *(other.run(whose, words) for whose in other.folders))
        ask_unmet(other)
        pair.asked += other.asked
        pair.counts += other.counts
        for copy in copies.values():
            shutil.rmtree(copy)

    def copy(self, base):
        """A folder with the files of this one."""
        return shutil.copytree(base, tempfile.mkdtemp(dir=self.folder), dirs_exist_ok=True)

    def cost(self, whose, words, feed, around=()):
        """The seconds of the processor that a command takes on a copy, and what it prints on standard error."""
        copy, told = self.copy(self.folder / "empty" if feed else self.pair.folders[whose]), tempfile.TemporaryFile(dir=self.folder)
        with open(feed or "/dev/null", "rb") as given, told:
            started = subprocess.Popen([*around, *self.words(whose, words, copy)], stdin=given, stdout=subprocess.DEVNULL, stderr=told)
            _, started.returncode, usage = os.wait4(started.pid, 0)
            told.seek(0)
            said = told.read().decode(errors="replace")
        shutil.rmtree(copy)
        return usage.ru_utime + usage.ru_stime, said

    def measure(self, command, is_counted):
        """Seconds and instructions of a command, of both."""
        name, words, feed = command
        progress(f"{self.name}: {name}")
        self.rows[name] = [[self.cost(whose, words[whose], feed)[0], 0] for whose in words]
        for whose, row in zip(words, self.rows[name] if is_counted else []):
            row[1] = int(re.search(r"Collected : (\d+)", self.cost(whose, words[whose], feed, VALGRIND)[1]).group(1))

    def commands(self):
        """What is measured: its name, the words of both, and the input where it is one of an empty database."""
        files = self.pair.column("BASENAMES", "FILENAMES")
        most = collections.Counter(row[0] for row in files).most_common(1)[0][0]
        alike = collections.Counter((row[0], row[1]) for row in files).most_common(1)[0][0][0]
        number, _, path = files[len(files) // 2]
        same = {"`-qa`": ["rpm", "-qa"], "all file names": ["rpm", "-qa", "--qf", "[%{FILENAMES}\\n]"],
                "`-q NAME`": ["rpm", "-q", self.pair.labels[number][0]], "`-qf`, a file in the middle": ["rpm", "-qf", path],
                "`-q --whatrequires /bin/sh`": ["rpm", "-q", "--whatrequires", "/bin/sh"], "export": ["rpmdb", "--exportdb"],
                "verify": ["rpmdb", "--verifydb"], "import": ["rpmdb", "--importdb"], "rebuild": ["rpmdb", "--rebuilddb"]}
        yield from ((name, {"rpm": words, "ours": words}, self.list if name == "import" else None) for name, words in same.items())
        yield "`-Va --nofiles`", {"rpm": ["rpm", "-Va", "--nofiles", "--noscripts"], "ours": ["rpm", "-Va", "--nofiles"]}, None
        for name, gone in (("erase the package with most files", most), ("that with most files of one name", alike)):
            yield name, {"rpm": ["rpm", "-e", *QUIETLY, self.pair.labels[gone][5]], "ours": ["rpm", "--erasepkg", gone]}, None


def line(*cells):
    return "| " + " | ".join(f"{cell:,}" if isinstance(cell, int) else str(cell) for cell in cells) + " |\n"


def answers_table(systems):
    """How much was asked of each system, and how many answers differ in which way, of the systems in the same order."""
    text = line("", "System", "Packages", "Bytes", "Questions") + line(*["---"] * 5)
    for at, system in enumerate(systems, 1):
        text += line(at, system.name, system.packages, system.bytes, system.pair.asked)
    text += "\n" + line("Kind", *range(1, len(systems) + 1), "What differs") + line(*["---"] * (len(systems) + 2))
    for kind, (sentence, _) in RULES.items():
        if any(system.pair.counts[kind] for system in systems):
            text += line(kind, *(system.pair.counts[kind] for system in systems), sentence)
    return text


def shares(costs, which):
    """Of rpm's cost the least and the greatest share that this program's is."""
    found = [ours[which] / max(theirs[which], 1e-9) for theirs, ours in costs]
    return f"{min(found):.3f}" + (f" to {max(found):.3f}" if len(found) > 1 else "")


def costs_table(systems, is_counted):
    """What each command costs over the systems together, and which share this program's cost is of rpm's."""
    heads = ["rpm, seconds", "here", "of rpm's"] + ["rpm, million instructions", "here", "of rpm's"] * is_counted
    text = line("Command", *heads) + line(*["---"] * (1 + len(heads)))
    for name, *_ in systems[0].commands():
        costs = [system.rows[name] for system in systems]
        seconds, counts = ([sum(cost[side][which] for cost in costs) for side in (0, 1)] for which in (0, 1))
        cells = [f"{it:.2f}" for it in seconds] + [shares(costs, 0)]
        text += line(name, *cells, *([f"{it / 1e6:,.1f}" for it in counts] + [shares(costs, 1)] if is_counted else []))
    return text


def told(systems):
    """When which rpm was asked how much, and how the answers differ."""
    version = subprocess.run(["rpm", "--version"], stdout=subprocess.PIPE, text=True, check=True).stdout.strip()
    asked = sum(system.pair.asked for system in systems)
    digest = hashlib.sha256(Path(systems[0].program).read_bytes()).hexdigest()[:16]
    head = f"On {datetime.date.today():%d %B %Y}, of the program with the digest `{digest}`, {version}: {asked:,} questions, "
    return head + "answered alike but for these kinds.\n\n" + answers_table(systems)


def costs_told(systems, measured, is_counted):
    """Of which systems the costs are, and these."""
    names = "all systems" if len(measured) == len(systems) else ", ".join(system.name for system in measured)
    head = f"One run of each command, of {names} together: seconds of the processor. A share is the least and the greatest of a system."
    return textwrap.fill(head, 158) + "\n\n" + costs_table(measured, is_counted)


def options():
    found = argparse.ArgumentParser(description=__doc__, formatter_class=argparse.RawDescriptionHelpFormatter)
    found.add_argument("--quick", action="store_true")
    found.add_argument("--costs", type=int, metavar="N")
    found.add_argument("--jobs", type=int, default=1, metavar="N")
    found.add_argument("--write", action="store_true")
    found.add_argument("--program", type=Path)
    found.add_argument("--ndb", type=Path, metavar="FOLDER")
    found.add_argument("databases", nargs="*", type=Path)
    found = found.parse_args()
    if found.ndb:
        found.quick, found.costs = True, 0
        use_rpm_of(found.ndb.resolve())
    for tool in ["rpm", "rpmdb"] + ["valgrind"] * (not found.quick and found.costs != 0):
        if not shutil.which(tool):
            sys.exit(f"distributions.py: there is no {tool}")
    if not found.databases and not TEN.is_dir():
        sys.exit("distributions.py: name a database, or install golang-github-knqyf263-go-rpmdb-dev")
    found.databases = [path.resolve() for path in found.databases] or sorted(TEN.iterdir())
    return found


def use_rpm_of(folder):
    """Lets `rpm` and `rpmdb` be those of this folder."""
    os.environ["PATH"] = f"{folder / 'bin'}:{os.environ['PATH']}"
    os.environ["LD_LIBRARY_PATH"] = str(folder / "lib")


def released(folder):
    """The program that a build left, or that of release/."""
    told = subprocess.run([TOP / "release" / "program.sh", folder], stdout=subprocess.PIPE, text=True, check=True)
    return Path(told.stdout.rstrip("\n"))


def checked(program, source, folder, backend):
    """A system, and whether both answer alike."""
    folder.mkdir()
    system = System(program, source, folder, backend)
    return system, system.check()


def put_into(page, option, text):
    """Puts a text between the marks that a page has for it."""
    first, last = MADE[0].format(option), MADE[1]
    before, rest = page.read_text(encoding="utf-8").split(first)
    page.write_text(before + first + "\n" + text + "\n" + last + rest.split(last, 1)[1], encoding="utf-8")


def main():
    asked = options()
    with tempfile.TemporaryDirectory() as name, ThreadPoolExecutor(asked.jobs) as pool:
        folder = Path(name)
        program = asked.program.resolve() if asked.program else released(folder)
        backend = "ndb" if asked.ndb else "sqlite"
        done = [pool.submit(checked, program, source, folder / str(at), backend) for at, source in enumerate(asked.databases)]
        systems, fine = zip(*(it.result() for it in done))
        if not all(fine):
            sys.exit("distributions.py: there are differences that no rule explains")
        measured = sorted(systems, key=lambda system: system.bytes)[:asked.costs]
        for it in [pool.submit(system.measure, command, not asked.quick) for system in measured for command in system.commands()]:
            it.result()
        made = [(PAGE, " --ndb FOLDER" if asked.ndb else "", told(systems))]
        if measured:
            made.append((PAGE, " --costs", costs_told(systems, measured, not asked.quick)))
        if not asked.ndb:
            made.append((RECIPES, "", table_of_recipes([system.pair for system in systems])))
    progress("")
    print("\n".join(text for _, _, text in made), end="")
    if asked.write:
        for page, option, text in made:
            put_into(page, option, text)


if __name__ == "__main__":
    try:
        main()
    except Unknown as unknown:
        sys.exit(f"distributions.py: {unknown}")
