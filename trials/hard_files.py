"""The cases of trials/hard_cases.py in which files are damaged, cut, or missing."""
import os
import sqlite3

from hard_sides import COUNT, MAGIC, cut, kept, patch

ALL = ("rpm", "-qa")
ONE = ("rpm", "-q", "package7")


def damaged(table, name, changes, words, wanted, kept_wanted=COUNT):
    """A row of a question over files of which each side's were changed."""
    cells, counts = [], []
    for side, change in zip(table.sides, changes):
        side.fresh()
        right = side.run(*words).out
        side.fresh()
        change(side)
        cells.append(side.run(*words).cell(right))
        counts.append(kept(side))
    table.row(name, cells, counts, wanted, kept_wanted)


def of_rpm(place):
    """Changes a byte of rpm's file, at a place or where a function of the side says."""
    return lambda side: patch(f"{side.database}/rpmdb.sqlite", place(side) if callable(place) else place)


def in_package(needle, number, more=0):
    """The place in rpm's file of these bytes of a package: the one where a change changes it, since the file has old pages too."""
    def place(side):
        path = f"{side.database}/rpmdb.sqlite"
        with open(path, "rb") as file:
            content = file.read()
        at = -1
        while (at := content.find(needle(side), at + 1)) >= 0:
            patch(path, at + more)
            changed = stored(path, number) != stored(f"{side.base}/rpmdb.sqlite", number)
            patch(path, at + more)
            if changed:
                return at + more
        raise SystemExit("hard_files.py: rpm's file hasn't these bytes")
    return place


def stored(path, number):
    """The bytes of a package in rpm's file."""
    database = sqlite3.connect(f"file:{path}?immutable=1", uri=True)
    found, = database.execute("SELECT blob FROM Packages WHERE hnum = ?", (number,)).fetchone()
    database.close()
    return found


def of_ours(name, at):
    """The same of one of this program's files."""
    def change(side):
        path = f"{side.database}/{name}"
        with open(path, "rb") as file:
            content = file.read()
        patch(path, at(content) if callable(at) else at)
    return change


def slot(number):
    return 32 + 16 * (number - 1)


def blob(content, number):
    """Where the blob of a package begins, in Packages.db."""
    return 16 * int.from_bytes(content[slot(number) + 8:slot(number) + 12], "little")


def page_of(table):
    """Where the first page of a table of rpm's begins."""
    def place(side):
        database = sqlite3.connect(f"{side.database}/rpmdb.sqlite")
        number, = database.execute("SELECT rootpage FROM sqlite_master WHERE name = ?", (table,)).fetchone()
        database.close()
        return 4096 * (number - 1)
    return place


def text_after(content, at):
    return content.index(b"to be measured", at) + 3


def damaged_pages(table):
    """A byte is flipped in each part of the files."""
    table.title("A flipped byte")
    damaged(table, "first page", (of_rpm(0), of_ours("Packages.db", 0)), ALL, r"252, none: `Packages.db is damaged at byte 0: file magic`", "refused")
    damaged(table, "page of the packages' places", (of_rpm(page_of("Packages")), of_ours("Packages.db", slot(3))), ALL,
            rf"252, none: `Packages.db is damaged at byte {slot(3)}: slot .*`", "refused")
    damaged(table, "head of a package", (of_rpm(in_package(lambda side: side.before[2][:24], 3)), of_ours("Packages.db", lambda it: blob(it, 3))), ALL,
            r"1, 39 of 40: `package 3: header cannot be read`", 39)
    changes = of_rpm(in_package(lambda side: b"to be measured", 3, 3)), \
        of_ours("Packages.db", lambda it: text_after(it, blob(it, 3)))
    damaged(table, "text of a package, `-qa`", changes, ALL, "0, all", 39)
    damaged(table, "the same, `--verifydb`", changes, ("rpmdb", "--verifydb"), r"1, none: `package 3: checksum differs`", 39)
    damaged(table, "first page of the index, `-q`", (of_rpm(page_of("Name")), of_ours("Hindex.db", 0)), ONE, "0, all")
    damaged(table, "row of the index, `-q`", (of_rpm(page_of("Name_key_idx")), of_ours("Hindex.db", lambda it: it.index(b"package7\0"))), ONE,
            r"252, none: `Hindex.db is damaged at byte \d+`")
    damaged(table, "the log", (lambda side: append(f"{side.database}/rpmdb.sqlite-wal"), of_ours("Hlog.db", 0)), ALL,
            r"252, none: `Hlog.db is damaged at byte 0`", "refused")


def append(path):
    with open(path, "ab") as file:
        file.write(b"\1")


def indexes(table):
    """The index is missing, or of another state than the packages."""
    table.title("The index")

    def without(side):
        database = sqlite3.connect(f"{side.database}/rpmdb.sqlite")
        database.execute("DROP TABLE Name")
        database.commit()
        database.close()

    def rows_less(side):
        database = sqlite3.connect(f"{side.database}/rpmdb.sqlite")
        database.execute("DELETE FROM Name WHERE hnum = 7")
        database.commit()
        database.close()

    def older(side):
        index = side.files()["Hindex.db"]
        side.run("rpm", "--erasepkg", "1")
        side.run("rpmdb", "--importdb", stdin=MAGIC + side.before[0])
        with open(f"{side.database}/Hindex.db", "wb") as file:
            file.write(index)
    damaged(table, "missing, `-q`", (without, lambda side: os.remove(f"{side.database}/Hindex.db")), ONE, "0, all")
    damaged(table, "without a package, or of before a change, `-q`", (rows_less, older), ONE, "0, all")


def cut_files(table):
    """The file of the packages is cut."""
    table.title("A file that is cut")
    for name, part, wanted, left in (
            ("to nothing", 0, "0, none", 0),
            ("within the first page", 100, r"252, none: `Packages.db is damaged at byte 12: slot pages`", "refused"),
            ("to a half", 0.5, r"252, none: `Packages.db is damaged at byte \d+: block range`", "refused"),
            ("by its last byte", -1, r"252, none: `Packages.db is damaged at byte \d+: block range`", "refused")):
        changes = [lambda side, name=name, part=part: cut(f"{side.database}/{name}", part) for name in ("rpmdb.sqlite", "Packages.db")]
        damaged(table, name, changes, ALL, wanted, left)
