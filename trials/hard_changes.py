"""The cases of trials/hard_cases.py that are large: many packages, and many random changes, compared at the end with a model of the database."""
import hashlib
import random

from hard_sides import MAGIC, show, split
from make_database import package
from make_package import lead, signature
from model_store import NUMBERS, Store, generated, header

SEED = 20261129


def many(table, count):
    """So many packages: an import, questions, an erasure, a rebuilding."""
    table.title("Many packages")
    wanted = [package(i, True) for i in range(1, count + 1)]
    headers = b"".join(MAGIC + it for it in wanted)
    rows = {name: [] for name in ("import", "`-qa`", "`-q` of one in the middle", "`--whatprovides`", "export", "one erased", "rebuilt")}
    label = f"package{count // 2}-1.{count // 2 % 10}-1.fc40.x86_64\n".encode()
    for side in table.sides:
        show(f"  {side.name}: {count:,} packages")
        side.fresh(empty=True)
        erase = ("rpm", "-e", "--justdb", "--nodeps", "package5") if side is table.theirs else ("rpm", "--erasepkg", "5")
        right = b"".join(f"package{i}-1.{i % 10}-1.fc40.x86_64\n".encode() for i in range(1, count + 1))
        for name, words, stdin, answer in (
                ("import", ("rpmdb", "--importdb"), headers, b""), ("`-qa`", ("rpm", "-qa"), b"", right),
                ("`-q` of one in the middle", ("rpm", "-q", f"package{count // 2}"), b"", label),
                ("`--whatprovides`", ("rpm", "-q", "--whatprovides", f"lib{count // 2}.so.1"), b"", label),
                ("export", ("rpmdb", "--exportdb"), b"", None), ("one erased", erase, b"", b""),
                ("rebuilt", ("rpmdb", "--rebuilddb"), b"", b"")):
            seen = side.run(*words, stdin=stdin)
            if name == "export":
                side.before = split(seen.out)
                answer = seen.out if len(side.before) == count and (side is table.theirs or seen.out == headers) else b"\0"
            rows[name].append(f"{seen.ended()}, {'all' if seen.out == answer else 'other'}")
        left = set(side.headers())
        side.left = sum(it in left for it in side.before)
    for name, cells in rows.items():
        table.row(f"{count:,}: {name}", cells, [side.left for side in table.sides], "0, all", count - 1)


class Model:
    """What a database has to have after random changes: packages by number, and the bytes of `Packages.db`."""

    def __init__(self):
        self.store, self.random, self.made = Store(), random.Random(SEED), 0

    def next_header(self):
        """The entries of a package that is new."""
        self.made += 1
        return generated(self.made, self.random.randrange(1, 9))

    def some(self, most):
        """A few numbers of packages that are there."""
        numbers = sorted(self.store.packages)
        return self.random.sample(numbers, min(len(numbers), self.random.randint(1, most)))


def add(model, side):
    """Adds up to 40 packages."""
    news = [model.next_header() for _ in range(model.random.randint(1, 40))]
    seen = side.run("rpmdb", "--importdb", stdin=b"".join(MAGIC + header(it) for it in news))
    for entries in news:
        model.store.change(None, entries)
    return seen, len(news)


def erase(model, side):
    """Erases up to 30 packages."""
    numbers = model.some(30)
    seen = side.run("rpm", "--erasepkg", *map(str, numbers))
    for number in numbers:
        model.store.erase(number)
    return seen, len(numbers)


def replace(model, side):
    """Replaces one package by a package file, at the time that it then has."""
    number, entries = model.some(1)[0], model.next_header()
    blob, path = header(entries), f"{side.folder}/new.rpm"
    with open(path, "wb") as file:
        file.write(lead("new") + signature(blob) + MAGIC + blob)
    seen = side.run("rpm", "--replacepkg", str(number), path)
    said = side.run("rpm", "-q", "--querybynumber", str(number), "--qf", "%{INSTALLTIME}").out
    moment = int(said) if said.isdigit() else 0
    model.store.change(number, entries + [(257, NUMBERS, [len(MAGIC + blob)]), (1008, NUMBERS, [moment]), (1128, NUMBERS, [moment])])
    return seen, 1


def same(model, side):
    """What of the database isn't as the model has it."""
    with open(f"{side.database}/Packages.db", "rb") as file:
        if hashlib.sha256(file.read()).digest() != hashlib.sha256(model.store.file()).digest():
            yield "Packages.db"
    if side.run("rpmdb", "--exportdb").out != model.store.list():
        yield "the export"
    if side.run("rpmdb", "--verifydb").status:
        yield "--verifydb"
    by = {number: {tag: values for tag, _, values in entries} for number, entries in model.store.packages.items()}
    for k in range(7):
        wanted = "".join(f"{number}\n" for number in sorted(by) if f"cap{k}" in by[number][1047]).encode()
        if side.run("rpm", "-q", "--whatprovides", f"cap{k}", "--qf", "%{DBINSTANCE}\\n").out != wanted:
            yield f"--whatprovides cap{k}"
    for number in model.random.sample(sorted(by), min(len(by), 50)):
        if side.run("rpm", "-q", by[number][1000][0], "--qf", "%{DBINSTANCE}\\n").out != f"{number}\n".encode():
            yield f"-q {by[number][1000][0]}"


def ours(side, count):
    """Makes so many random changes with this program, and compares."""
    model, changes, commands, failed = Model(), 0, 0, 0
    side.fresh(empty=True)
    while changes < count:
        what = model.random.choice((add, add, erase, replace, replace) if model.store.packages else (add,))
        if len(model.store.packages) > 1500:
            what = erase
        seen, done = what(model, side)
        changes, commands, failed = changes + done, commands + 1, failed + (seen.status != 0)
        if commands % 100 == 0:
            show(f"  {changes:,} changes")
    wrong = list(same(model, side))
    packages = len(model.store.packages)
    found = f"{changes:,} by {commands} commands, {failed} failed; " + (f"not as the model: {', '.join(wrong[:3])}" if wrong else "as the model, byte for byte")
    return found, packages, packages - len(wrong)


def theirs(side, count):
    """The same with rpm, by imports and erasures alone, and compared by labels."""
    rng, held, made, changes, commands, failed = random.Random(SEED), [], 0, 0, 0, 0
    side.fresh(empty=True)
    while changes < count:
        if len(held) < 1500 and (not held or rng.random() < 0.6):
            news = list(range(made + 1, made + 1 + rng.randint(1, 40)))
            made, held = news[-1], held + news
            seen = side.run("rpmdb", "--importdb", stdin=b"".join(MAGIC + package(i, True) for i in news))
        else:
            news = rng.sample(held, min(len(held), rng.randint(1, 30)))
            held = [it for it in held if it not in set(news)]
            seen = side.run("rpm", "-e", "--justdb", "--nodeps", *[f"package{i}" for i in news])
        changes, commands, failed = changes + len(news), commands + 1, failed + (seen.status != 0)
    wanted = [f"package{i}-1.{i % 10}-1.fc40.x86_64" for i in held]
    found = side.run("rpm", "-qa").out.decode().split()
    right = sorted(found) == sorted(wanted)
    text = f"{changes:,} by {commands} commands, {failed} failed; " + ("the labels of the model" if right else "other labels")
    return text, len(set(found) & set(wanted))


def random_changes(table, count):
    """So many random changes of this program, and a tenth of them of rpm, which takes long."""
    table.title("Random changes")
    show(f"  this program: {count:,} changes")
    found, packages, ours_left = ours(table.ours, count)
    show(f"  rpm: {count // 10:,} changes")
    text, left = theirs(table.theirs, count // 10)
    table.row(f"seed {SEED}", [text, found], [left, ours_left], r"[\d,]+ by \d+ commands, 0 failed; as the model, byte for byte", packages)
