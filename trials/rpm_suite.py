#!/usr/bin/env python3
"""Tries this program by rpm's own test suite, where that fits: trials/rpm_suite.py FOLDER [PROGRAM]

FOLDER is what trials/rpm-with-ndb built: rpm of Debian 12 and, below source/tests, its test suite. PROGRAM is what release/program.sh names, where none is
given. Three parts are taken:

- `rpmvercmp.at`: version A against version B. A package provides a name in version A; of the capabilities with `<`, `=` and `>` B exactly the one is met
  that the suite says. What the suite has switched off is compared with rpm's own answer.
- `rpmdepmatch.at`: a provide against a require. Each pair is a package, and `-Va --nofiles` reports those that the suite doesn't match.
- `data/RPMS` and `data/SRPMS`: of each package file each tag that both know, its files, and each recipe of docs/RECIPES.md, asked of both by `-qp`.

Prints how many were tried, and each that differs, and fails where any does. It takes some two minutes; wants python3 alone beside that folder.
"""
import re
import subprocess
import sys
import tempfile
from pathlib import Path

sys.dont_write_bytecode = True
from folders import TOP
from make_database import INT32, MAGIC, TEXT, TEXTS, header
from distributions import released, use_rpm_of
from questions import Pair, Unknown, tags_of_both
from recipes import ask_recipes

SIGNS = {"<": 2, ">": 4, "=": 8, "<=": 10, ">=": 12, "<>": 6}


def package(name, provides=(), requires=()):
    """A header with these dependencies, each a name, flags and a version."""
    entries = [(1000, TEXT, [name]), (1001, TEXT, ["1"]), (1002, TEXT, ["1"]), (1022, TEXT, ["noarch"])]
    for given, (flags, names, versions) in ((provides, (1112, 1047, 1113)), (requires, (1048, 1049, 1050))):
        if given:
            columns = list(map(list, zip(*given)))
            entries += [(names, TEXTS, columns[0]), (flags, INT32, columns[1]), (versions, TEXTS, columns[2])]
    return MAGIC + header(sorted(entries))


class Suite:
    """The suite of one folder, tried with one program."""

    def __init__(self, tests, program, folder):
        self.tests, self.program, self.folder, self.faults = tests, str(program), Path(folder), []

    def text(self, name):
        return (self.tests / name).read_text(encoding="utf-8")

    def printed(self, database, *words):
        """What this program prints of a question, as lines."""
        done = subprocess.run([self.program, words[0], "--dbpath", str(self.folder / database), *words[1:]], stdout=subprocess.PIPE, check=False)
        return done.stdout.decode("utf-8").splitlines()

    def made(self, database, headers):
        """Imports these headers into a database of their own."""
        subprocess.run([self.program, "rpmdb", "--dbpath", str(self.folder / database), "--importdb"], input=b"".join(headers), check=True)

    def compare(self, part, what, wanted, found):
        if wanted != found:
            self.faults.append(f"{part}: {what}: rpm {wanted}, this program {found}")

    def versions(self):
        """How many comparisons of versions there are; each is tried."""
        cases = re.findall(r"^(dnl )?RPMVERCMP\(([^,\n]+), ([^,\n]+), (-?\d)\)", self.text("rpmvercmp.at"), re.M)
        self.made("versions", [package(f"p{i}", [(f"c{i}", SIGNS["="], one)]) for i, (_, one, _, _) in enumerate(cases)])
        asked = [f"c{i} {sign} {other}" for i, (_, _, other, _) in enumerate(cases) for sign in "<=>"]
        lines = self.printed("versions", "rpm", "-q", "--qf", "met\\n", "--whatprovides", *asked)
        for i, (is_off, one, other, said) in enumerate(cases):
            if is_off:
                lua = f'%{{lua: print(rpm.vercmp("{one}", "{other}"))}}'
                said = subprocess.run(["rpm", "--eval", lua], stdout=subprocess.PIPE, check=True, text=True).stdout.strip()
            found = [sign for sign, line in zip((-1, 0, 1), lines[3 * i:3 * i + 3]) if line == "met"]
            self.compare("versions", f"{one} against {other}", [int(said)], found)
        return len(cases)

    def matches(self):
        """How many pairs of a provide and a require there are; each is tried."""
        pairs = re.findall(r"^ *\((\(.*?\)),\s*(\(.*?\)),\s*(\d)\),?$", self.text("rpmdepmatch.at"), re.M)
        headers = []
        for i, pair in enumerate(pairs):
            ranges = [re.findall(r"'([^']*)'", text) for text in pair[:2]]
            sides = [[(f"{it[0]}{i}", SIGNS[it[1]] if len(it) > 1 else 0, it[2] if len(it) > 1 else "")] for it in ranges]
            headers.append(package(f"p{i}", *sides))
        self.made("matches", headers)
        unmet = {line.partition("-1-1.noarch: ")[0] for line in self.printed("matches", "rpm", "-Va", "--nofiles")}
        for i, (provide, require, said) in enumerate(pairs):
            self.compare("matches", f"{provide} for {require}", said == "1", f"p{i}" not in unmet)
        return len(pairs)

    def files(self):
        """How many questions of package files there are, and of how many; each is asked of both."""
        paths, tags = sorted((self.tests / "data").glob("*RPMS/*.rpm")), tags_of_both()
        for name in ("theirs", "ours"):
            (self.folder / name).mkdir()
        pair = Pair(self.program, self.folder / "theirs", self.folder / "ours")
        for path in paths:
            forms = [["--qf", f"%|{tag}?{{[%{{{tag}}}\\n]}}:{{none\\n}}|"] for tag in tags] + [["-l"]]
            for form in forms:
                wanted = pair.printed("rpm", ["rpm", "-qp", "--nosignature", "--nodigest", *form, str(path)])
                self.compare(path.name, " ".join(form), wanted, pair.printed("ours", ["rpm", "-qp", *form, str(path)]))
                pair.asked += 1
            try:
                ask_recipes(pair, f"-qp '{path}'")
            except Unknown as unknown:
                self.faults.append(str(unknown))
        return pair.asked, len(paths)


def main():
    if len(sys.argv) not in (2, 3) or sys.argv[1] == "--help":
        sys.exit(__doc__ if sys.argv[1:] != ["--help"] else print(__doc__))
    place = Path(sys.argv[1]).resolve()
    use_rpm_of(place)
    with tempfile.TemporaryDirectory() as folder:
        program = Path(sys.argv[2]).resolve() if len(sys.argv) == 3 else released(folder)
        suite = Suite(place / "source" / "tests", program, folder)
        print(f"{suite.versions()} comparisons of versions, {suite.matches()} matches of dependencies", end=", ", flush=True)
        print("{} questions of {} package files".format(*suite.files()))
    if suite.faults:
        sys.exit("\n".join(suite.faults))
    print("all answered alike")


main()
