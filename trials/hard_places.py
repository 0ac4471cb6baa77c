"""The cases of hard_cases.py in which a name or a word leads to something else: to a pipe, a device or a folder, to another database or to none."""
import os
import shutil
import stat

from hard_edge import NAMES, PLAIN, REFUSED, Case, changed, done, path_of
from hard_outside import ALL, IMPORT, ONE, more
from hard_sides import COUNT, MAGIC
from make_database import package
from make_package import lead, signature

NULL = os.makedev(1, 3)


def make_pipe(path):
    os.mkfifo(path)


def make_device(path):
    os.mknod(path, stat.S_IFCHR | 0o666, NULL)


def odd_files(table):
    """A name of the database is a pipe, a device or a folder."""
    table.title("A pipe, a device, a folder")
    for kind, make in (("a pipe", make_pipe), ("a device", make_device), ("a folder", os.mkdir)):
        for name in NAMES:
            if make is make_device and os.getuid():
                table.apart(f"`{name}` is {kind}, `-q`", "wants root")
                continue

            def prepare(side, name=name, make=make):
                path = path_of(table, side, name)
                if os.path.exists(path):
                    os.remove(path)
                make(path)
            done(table, Case(f"`{name}` is {kind}, `-q`", prepare, ONE, REFUSED.format(PLAIN), kept=None))


def emptied(side):
    """The folder without a file."""
    shutil.rmtree(side.database)
    os.mkdir(side.database)


def without(side):
    shutil.rmtree(side.database)


def other(table, name, of_rpm):
    """A folder with a database of another kind alone: by its name, and for rpm one that this program made."""
    def prepare(side):
        emptied(side)
        source = f"{table.ours.base}/Packages.db" if side is table.theirs and of_rpm else f"{table.theirs.base}/rpmdb.sqlite"
        shutil.copy(source, f"{side.database}/{'Packages.db' if side is table.theirs and of_rpm else name}")
    return prepare


def left(table, name):
    """Whether a command has made a file beside that of this name, or a folder where it is None."""
    def after(side):
        if not os.path.isdir(side.database):
            return "nothing made"
        shared = {"Packages.db", name} if side is table.theirs else {name}
        return "files made" if set(os.listdir(side.database)) - shared or name is None else "nothing made"
    return after


def folders(table):
    """There is no folder, no database in it, or one of another kind."""
    table.title("No database, or another one")
    for words in (ALL, ("rpmdb", "--verifydb"), ("rpmdb", "--exportdb")):
        done(table, Case(f"no folder, `{words[1]}`", without, words, REFUSED.format(".*folder.*not there.*") + "; nothing made", left(table, None), kept=None))
    done(table, Case("an empty folder, `-qa`", emptied, ALL, "0, none; nothing made", left(table, ""), kept=None))
    done(table, Case("no folder, `--importdb` of 20", without, IMPORT, "0, none; 40 erased, 20 added", changed, kept=None, how={"stdin": more()}))
    for name, shown in (("rpmdb.sqlite", "`rpmdb.sqlite`, for rpm `Packages.db`"), ("Packages", "`Packages`")):
        prepare = other(table, name, name == "rpmdb.sqlite")
        for words in (ALL, ("rpmdb", "--initdb"), IMPORT):
            done(table, Case(f"{shown} alone, `{words[1]}`", prepare, words, REFUSED.format(f".*{name}.*|.*another kind.*") + "; nothing made",
                             left(table, name), kept=None, how={"stdin": more() if words == IMPORT else b""}))


def items(table):
    """Among package files is a folder; a word is no text."""
    table.title("A folder among package files, a word that is no text")
    for side in table.sides:
        os.makedirs(f"{side.folder}/items/folder", exist_ok=True)
        for i in (501, 502):
            blob = package(i, True)
            with open(f"{side.folder}/items/{i}.rpm", "wb") as file:
                file.write(lead(f"package{i}") + signature(blob) + MAGIC + blob)
    words = ["items/501.rpm", "items/folder", "items/502.rpm"]
    right = b"package501-1.1-1.fc40.x86_64\npackage502-1.2-1.fc40.x86_64\n"
    cells = []
    for side in table.sides:
        side.fresh()
        cells.append(side.run("rpm", "-qp", "--nosignature", *words).cell(right) if side is table.theirs else side.run("rpm", "-qp", *words).cell(right))
    table.row("file, folder, file: `-qp`", cells, ["-", "-"], "1, all: `.*open of .*folder failed`")

    def add(side):
        front = ("rpm", "--addpkg") if side is table.ours else ("rpm", "-i", "--justdb", "--nodeps", "--nodigest", "--nosignature")
        return (*front, *words)
    done(table, Case("the same, added", lambda side: None, add, "1, none: `.*open of .*folder failed`; 2 added", changed, kept=COUNT))
    done(table, Case("a word of the byte 255, `-q`", lambda side: None, ("rpm", "-q", "package7", "\udcff"), "251, none: `.*UTF-8.*`", kept=COUNT))
