"""The cases of hard_cases.py in which a file of the database can't be written or is a link, or a descriptor is closed; and what hard_places.py shares."""
import os
import shutil
from dataclasses import dataclass, field

from hard_outside import ALL, IMPORT, NOBODY, ONE
from hard_sides import COUNT

NAMES = ("Packages.db", "Hindex.db", "Hlog.db")
# What stands in rpm's folder for each of them.
THEIRS = dict(zip(NAMES, ("rpmdb.sqlite", "rpmdb.sqlite-shm", "rpmdb.sqlite-wal")))
REFUSED = r"252, none: `{}`"
PLAIN = r".*plain file.*"
# What hangs is killed.
SHORTLY = {"before": ["timeout", "-s", "KILL", "10"]}
TEXT = b"A text of somebody else, which has nothing to do with packages.\n"
LINE = b"* * * * * root id # ............"


def nothing(side):
    """The database as it is."""


def path_of(table, side, name):
    """Where a file of the database is, or what rpm has for it."""
    return f"{side.database}/{name if side is table.ours else THEIRS[name]}"


def changed(side):
    """What became of the packages, after a question by key, which finishes what was begun."""
    side.run(*ONE)
    found = side.headers() or []
    away, news = sum(it not in found for it in side.before), len(found) - sum(it in side.before for it in found)
    return ", ".join(f"{count} {what}" for count, what in ((away, "erased"), (news, "added")) if count) or "nothing made"


@dataclass
class Case:
    """A row: what is done to a fresh database, the words (the same for both, or made for a side), what is stated of this program, what else is looked at,
    and how the command is run."""
    name: str
    prepare: object
    words: object
    wanted: str
    after: object = None
    restore: object = nothing
    kept: object = COUNT
    how: dict = field(default_factory=lambda: SHORTLY)


def done(table, case):
    """Does a case to both."""
    cells, counts = [], []
    for side in table.sides:
        words = case.words(side) if callable(case.words) else case.words
        side.fresh()
        right = b"" if callable(case.words) or words == IMPORT else side.run(*words).out
        side.fresh()
        case.prepare(side)
        seen = side.run(*words, **case.how)
        ended = seen.cell(right or b"x", -1).replace("signal 9, none", "hangs")
        case.restore(side)
        cells.append(ended + (f"; {case.after(side)}" if case.after else ""))
        left = (side.headers() or []) if case.kept is not None else []
        counts.append(sum(it in left for it in side.before) if case.kept is not None else "-")
    table.row(case.name, cells, counts, case.wanted, case.kept)


def rights_of_files(table):
    """Of the three files one can't be written by who erases packages; the folder can."""
    table.title("A file that can't be written")
    if os.getuid() or not shutil.which("setpriv"):
        table.apart("a file that can't be written", "wants setpriv and root")
        return
    for name in NAMES:
        def prepare(side, name=name):
            os.chmod(side.database, 0o777)
            for other in os.listdir(side.database):
                os.chmod(f"{side.database}/{other}", 0o666)
            path = path_of(table, side, name)
            with open(path, "ab"):
                os.chmod(path, 0o444)
        done(table, Case(f"`{name}`, three are erased by another user", prepare, lambda side: side.erasing(3),
                         REFUSED.format(f"this user may not write {name}") + "; nothing made", changed, how={"before": NOBODY}))


def closed(handles):
    """Runs a command with these descriptors closed."""
    return ["sh", "-c", f"exec \"$@\" {' '.join(f'{it}>&-' for it in handles)}", "sh"]


def older_index(side):
    """Makes the index one of an earlier state; of rpm nothing that its file says, but of its shared index."""
    path = f"{side.database}/{'rpmdb.sqlite-shm' if side.name == 'rpm' else 'Hindex.db'}"
    with open(path, "rb") as file:
        index = file.read()
    side.run(*side.erasing(1))
    with open(path, "wb") as file:
        file.write(index)


def without_index(side):
    if side.name != "rpm":
        os.remove(f"{side.database}/Hindex.db")


def files_of(side):
    """The files that say something, with their bytes."""
    return {name: data for name, data in side.files().items() if not name.endswith("-shm")}


def descriptors(table):
    """Standard input, output and error are closed. The files have to be those that the same command leaves with all of them open."""
    table.title("A closed descriptor")
    wanted_files = {}

    def case(name, words, handles, wanted, prepare=without_index, kept=COUNT):
        def first(side):
            prepare(side)
            side.run(*words)
            wanted_files[side.name] = files_of(side)
            side.fresh()
            prepare(side)

        def after(side):
            return "the files are right" if files_of(side) == wanted_files[side.name] else "the files are wrong"
        done(table, Case(name, first, words, wanted + "; the files are right", after, kept=kept, how={"before": closed(handles)}))
    both = ("rpm", "-q", "package7", "nosuch")
    case("input, `--importdb`", IMPORT, (0,), "0, none", nothing)
    case("output, no index, `-q` of one and of none", both, (1,), "1, none")
    case("error, no index, the same", both, (2,), "1, all")
    case("output and error, no index, `-q`", ONE, (1, 2), "0, none")
    case("all three, no index, `-q`", ONE, (0, 1, 2), "0, none")
    case("all three, an old index, `-q`", ONE, (0, 1, 2), "0, none", older_index, COUNT - 1)


class Links:
    """Links at the places of the files, and what they lead to."""

    def __init__(self, table):
        self.table = table

    def target(self, side):
        return f"{side.folder}/target"

    def link(self, name, content):
        """A link that leads to a file with this content, nowhere where it is None, or to the file of the database itself where it is True."""
        def prepare(side):
            self.restore(side)
            path = path_of(self.table, side, name)
            if content is True:
                shutil.move(path, self.target(side))
            elif content is not None:
                with open(self.target(side), "wb") as file:
                    file.write(content)
            if os.path.lexists(path):
                os.remove(path)
            os.symlink("../target", path)
        return prepare

    def logged(self, side):
        """`Packages.db` leads nowhere, beside a log that was made by hand: recovery would write a line into what it leads to."""
        self.link("Packages.db", None)(side)
        if side is self.table.ours:
            os.remove(f"{side.database}/Hindex.db")
            units = b"RpmL", 1, 1, 3, 1, 0, 2, 0
            with open(f"{side.database}/Hlog.db", "wb") as file:
                file.write(b"".join(it if isinstance(it, bytes) else it.to_bytes(4, "little") for it in units) + LINE)

    def left(self, content):
        """What of the target is as it was."""
        def after(side):
            if not os.path.exists(self.target(side)):
                return "the target is not made" if content is None else "the target is gone"
            with open(self.target(side), "rb") as file:
                return "the target is as before" if file.read() == content else "the target is written"
        return after

    def restore(self, side):
        if os.path.exists(self.target(side)):
            os.remove(self.target(side))


def links(table):
    """A name of the database is a link."""
    table.title("A link")
    made = Links(table)
    plain = REFUSED.format(PLAIN)
    for name, content, words, wanted in (
            ("`Hindex.db` to a text, `-q`", TEXT, ONE, plain), ("`Hindex.db` to nowhere, `-q`", None, ONE, plain),
            ("`Hlog.db` to nowhere, three are erased", None, lambda side: side.erasing(3), plain),
            ("`Packages.db` to nowhere, `-qa`", None, ALL, plain)):
        state = "; the target is not made" if content is None else "; the target is as before"
        done(table, Case(name, made.link(name.split("`")[1], content), words, wanted + state, made.left(content), kept=None))
    done(table, Case("`Packages.db` to nowhere, a hand-made log, `-q`", made.logged, ONE, plain + "; the target is not made", made.left(None), kept=None))
    done(table, Case("`Packages.db` to the packages, `-qa`", made.link("Packages.db", True), ALL, "0, all"))
    done(table, Case("the same, three are erased", made.link("Packages.db", True), lambda side: side.erasing(3), plain + "; nothing made", changed))

    def folder(side):
        made.restore(side)
        shutil.move(side.database, f"{side.folder}/elsewhere")
        os.symlink("elsewhere", side.database)

    def back(side):
        os.remove(side.database)
        shutil.move(f"{side.folder}/elsewhere", side.database)
    done(table, Case("the folder, three are erased", folder, lambda side: side.erasing(3), "0, none; 3 erased", changed, restore=back, kept=COUNT - 3))
