#!/usr/bin/env python3
"""Whether each row of docs/DIFFERENCES.md is true: trials/differences.py PROGRAM [TEXT]

PROGRAM is crates/rpm_prog/out/rpm_prog (made by `rt run` there). Wants rpm, as Debian 12 has it (4.18, sqlite), and sh; docs/DIFFERENCES.md says what
that rpm does. Both get the same packages, one list of headers that is imported into both, and are asked what trials/differences.cases says. With a TEXT
only the rows are tried that have it in their name.

The cases are blocks, each with the name of its row in brackets. In a block a line with `$` is a command of a shell, in a folder with `theirs` and `ours`,
the databases, of which `$db` is the one that is asked where no other is named. After it come the answers, each with its status and then what was
printed, first standard output and then standard error, whose lines begin with `! `. An answer is of `rpm`, of `this` program, or of `both`; `as rpm` is
one of this program that prints on standard output what rpm did before. The two answers of a command have to differ. A row that no two commands show
has `not shown:` and the reason.
"""
import hashlib
import os
import re
import shutil
import sqlite3
import subprocess
import sys
import tempfile

sys.dont_write_bytecode = True
from folders import TOP
from make_database import BIN, CHAR, I18N, INT16, INT32, MAGIC, TEXT, TEXTS, header
from make_package import lead

RPM = "/usr/bin/rpm"
SIDES = {"theirs": "/usr/bin/{name}", "ours": "{program} {name}"}
# A row of a table of docs/DIFFERENCES.md, by its first cell.
ROW = re.compile(r"^\| (?!-|Where )([^|]+) \|", re.M)
EQUAL, MORE, LEAST, AT_INSTALL, RPMLIB = 8, 4, 12, 1 << 9 | 1 << 6, 1 << 24


def package(name, version, release="1", arch="noarch", **more):
    """A header, by tag: what each has, and `more` by number (`t1003`), which None leaves out."""
    entries = {
        1000: (TEXT, [name]), 1001: (TEXT, [version]), 1002: (TEXT, [release]), 1006: (INT32, [1]), 1021: (TEXT, ["linux"]), 1022: (TEXT, [arch]),
        1044: (TEXT, [f"{name}-{version}-{release}.src.rpm"]), 1124: (TEXT, ["cpio"])}
    entries.update({int(tag[1:]): value for tag, value in more.items()})
    return header(sorted((tag, *value) for tag, value in entries.items() if value))


def provides(*items):
    """Tags of provides, each a name, flags and a version."""
    names, flags, versions = map(list, zip(*items))
    return {"t1047": (TEXTS, names), "t1112": (INT32, flags), "t1113": (TEXTS, versions)}


def requires(*items):
    """The same of requirements."""
    names, flags, versions = map(list, zip(*items))
    return {"t1049": (TEXTS, names), "t1048": (INT32, flags), "t1050": (TEXTS, versions)}


def files(*paths, states=None, modes=None):
    """Tags of files, all of root; their states, and their modes."""
    count = len(paths)
    folders = sorted({path[:path.rindex("/") + 1] for path in paths})
    return {
        "t1028": (INT32, [10] * count), "t1029": (CHAR, states or [0] * count), "t1030": (INT16, modes or [0o100644] * count),
        "t1034": (INT32, [0] * count), "t1035": (TEXTS, [""] * count), "t1036": (TEXTS, [""] * count), "t1037": (INT32, [0] * count),
        "t1039": (TEXTS, ["root"] * count), "t1040": (TEXTS, ["root"] * count),
        "t1116": (INT32, [folders.index(path[:path.rindex("/") + 1]) for path in paths]),
        "t1117": (TEXTS, [path[path.rindex("/") + 1:] for path in paths]), "t1118": (TEXTS, folders)}


def packages():
    """The headers that both have."""
    return [
        package("tool", "1", t1003=(INT32, [3]), t1016=(I18N, ["Tools"])),
        package("tool-1", "2", **requires(("bash", 0, ""))),
        package("libx", "1.0~rc1", **provides(("libx", EQUAL, "1.0~rc1-1"), ("liby", EQUAL, "1"), ("liby", EQUAL, "2")),
                **requires(("libc", LEAST, "2.31"), ("libc", MORE, "2"), ("rpmlib(X)", RPMLIB | EQUAL, "1"))),
        package("libx", "1.0^git1", **provides(("libx", EQUAL, "1.0^git1-1")),
                **requires(("(tool if libx)", 1 << 29, ""), ("/bin/sh", AT_INSTALL, ""))),
        package("bash", "5.1", "2", "x86_64", t1008=(INT32, [77]), t1128=(INT32, [77]), **provides(("/bin/sh", 0, ""), ("bash", EQUAL, "5.1-2")),
                **files("/etc/bashrc", "/usr/bin/bash", "/usr/share/doc/README", states=[0, 0, 2])),
        package("source", "1", arch="x86_64", t1044=None),
        package("unversioned", "1", t1001=None),
        package("ends", "1", ""),
        package("short", "1", **files("/a/b", "/a/c", modes=[0o100644])),
        package("blob", "1", t261=(BIN, range(60))),
    ]


def package_file(blob, digest):
    """A package file without payload that names this SHA-1 of its header."""
    signature = MAGIC + header([(269, TEXT, [digest]), (1000, INT32, [len(MAGIC + blob)])])
    return lead("file") + signature + b"\0" * (-len(signature) % 8) + MAGIC + blob


def write(path, content):
    with open(path, "wb") as file:
        file.write(content)


def prepare(folder, program):
    """The two databases, the same with damaged packages, package files, and for each side a folder with its `rpm` and `rpmdb`."""
    made = packages()
    write(f"{folder}/list", b"".join(MAGIC + blob for blob in made))
    write(f"{folder}/cut-list", (MAGIC + made[0] + MAGIC + made[1])[:-5])
    write(f"{folder}/typed-list", MAGIC + made[0] + MAGIC + package("typed", "1", t1003=(TEXT, ["5"])) + MAGIC + made[1])
    write(f"{folder}/plain.rpm", package_file(made[1], hashlib.sha1(MAGIC + made[1]).hexdigest()))
    write(f"{folder}/digest.rpm", package_file(made[1], "0" * 40))
    write(f"{folder}/cut.rpm", package_file(made[1], "0" * 40)[:200])
    write(f"{folder}/names", b"plain.rpm\n")
    for side, commands in SIDES.items():
        os.makedirs(f"{folder}/bin-{side}")
        for name in ("rpm", "rpmdb"):
            path = f"{folder}/bin-{side}/{name}"
            write(path, f'#!/bin/sh\nexec {commands.format(program=program, name=name)} --dbpath {folder}/{side} "$@"\n'.encode())
            os.chmod(path, 0o755)
        status, lines = answer(folder, side, "rpmdb --initdb && rpmdb --importdb < list")
        if status:
            sys.exit(f"differences.py: {side} can't import the list: {lines}")
        shutil.copytree(f"{folder}/{side}", f"{folder}/{side}-damaged")
    damage(folder, made)


def damage(folder, made):
    """In copies of both, package 5 has too many entries, and in package 2 a letter of the architecture is another."""
    changes = {made[4]: b"\xff" * 4 + made[4][4:], made[1]: made[1].replace(b"noarch", b"noarck")}
    database = sqlite3.connect(f"{folder}/theirs-damaged/rpmdb.sqlite")
    for number, new in zip((5, 2), changes.values()):
        stored, = database.execute("SELECT blob FROM Packages WHERE hnum = ?", (number,)).fetchone()
        new = b"\xff" * 4 + stored[4:] if number == 5 else stored.replace(b"noarch", b"noarck")
        database.execute("UPDATE Packages SET blob = ? WHERE hnum = ?", (new, number))
    database.commit()
    database.close()
    path = f"{folder}/ours-damaged/Packages.db"
    with open(path, "rb") as file:
        content = file.read()
    for old, new in changes.items():
        content = content.replace(old, new)
    write(path, content)


def answer(folder, side, command):
    """Status and lines of a command, of this side's programs."""
    environment = dict(os.environ, PATH=f"{folder}/bin-{side}:{os.environ['PATH']}", LC_ALL="C", TZ="UTC", db=side, HOME=folder)
    done = subprocess.run(["sh", "-c", command], cwd=folder, env=environment, stdin=subprocess.DEVNULL, capture_output=True, check=False)
    out, err = (text.decode("utf-8", "replace").replace(folder, "FOLDER").splitlines() for text in (done.stdout, done.stderr))
    return done.returncode, out + ["! " + line for line in err]


def blocks(text):
    """Each row's name with its cases: a command, and its answers as (whose, status, lines); or with the reason why it isn't shown."""
    rows = {}
    for line in text.splitlines():
        if line.startswith("["):
            rows[line.strip("[]")] = cases = []
        elif line.startswith("$ "):
            cases.append((line[2:], []))
        elif line.startswith("not shown: "):
            cases.append((None, line))
        elif line.startswith("    "):
            cases[-1][1][-1][2].append(line[4:])
        elif line and not line.startswith("#"):
            whose, _, status = line.rpartition(" ")
            cases[-1][1].append((whose, int(status), []))
    return rows


def printed(lines):
    """What stands on standard output."""
    return [line for line in lines if not line.startswith("! ")]


def faults(folder, name, cases):
    """What isn't as the cases of a row say."""
    before = None
    for command, answers in cases:
        if command is None:
            continue
        wanted = {whose: (status, lines) for whose, status, lines in answers}
        if len(wanted) == 2 and wanted["rpm"] == wanted["this"]:
            yield f"[{name}] $ {command}: no difference is said"
        for whose, said in wanted.items():
            for side in {"rpm": ["theirs"], "this": ["ours"], "as rpm": ["ours"], "both": ["theirs", "ours"]}[whose]:
                found = answer(folder, side, command)
                if whose == "as rpm":
                    found, said = (found[0], printed(found[1])), (said[0], before)
                if found != said:
                    yield f"[{name}] $ {command}\n  of {side}: {found[0]} {found[1]}\n  said: {said[0]} {said[1]}"
                if whose == "rpm":
                    before = printed(found[1])


def main():
    if "--help" in sys.argv:
        print(__doc__)
        return
    if len(sys.argv) not in (2, 3):
        sys.exit(__doc__)
    program, wanted = os.path.realpath(sys.argv[1]), sys.argv[2] if len(sys.argv) == 3 else ""
    for needed in (RPM, RPM + "db", program):
        if not os.access(needed, os.X_OK):
            sys.exit(f"differences.py: wants {needed}")
    rows = blocks((TOP / "trials" / "differences.cases").read_text(encoding="utf-8"))
    written = ROW.findall((TOP / "docs" / "DIFFERENCES.md").read_text(encoding="utf-8"))
    found = [f"docs/DIFFERENCES.md has no row {name}" for name in rows if name not in written]
    found += [f"differences.cases has no block [{name}]" for name in written if name not in rows]
    tried = {name: cases for name, cases in rows.items() if wanted in name}
    with tempfile.TemporaryDirectory() as folder:
        prepare(folder, program)
        for name, cases in tried.items():
            found += faults(folder, name, cases)
    shown = [command for cases in tried.values() for command, _ in cases if command]
    apart = sum(cases[0][0] is None for cases in tried.values())
    print(f"{len(tried)} differences: {len(tried) - apart} shown by {len(shown)} commands, {apart} not shown")
    if found:
        sys.exit("\n".join(found))


main()
