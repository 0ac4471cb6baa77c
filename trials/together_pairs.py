"""The commands that trials/together.py runs at one time, and what may come of them."""
import copy
import time
from dataclasses import dataclass
from itertools import permutations
from pathlib import Path

import crash_states as states
from at_once import Started
from crash_cases import store_of
from crash_room import Loss, short
from crash_states import Command
from model_store import TEXTS

COUNT, FILES = 68, ("db/Packages.db", "db/Hindex.db", "db/Hlog.db")
FIRST, SECOND, BIG, LIST = (70, 71, 72), (80, 81, 82), 90, range(100, 140)
# By these names is asked afterwards, by the first twelve also without the index and by their files and provides.
NAMES = [f"pkg{i}" for i in (70, 80, 90, 100, 1, 2, 3, 5, 6, 68, 71, 81, 72, 82, 139, 40)] + ["nosuch"]
ASKED = ["pkg3", "pkg68", "pkg70", "pkg100", "pkg1", "nosuch"]
# The second command begins at most so many seconds before or after the first.
APART = 0.006


@dataclass
class Pair:
    """What runs at once: changes, or one change and a question again and again beside it, or questions alone; on which files."""
    name: str
    files: dict
    state: states.State
    changes: list
    questions: list
    at: str = "db"


def listing():
    """`-qa`, by a format without times."""
    return Command(["rpm", "-qa", "--qf", states.SHORT], lambda state, now: state, b"",
                   lambda state: (0, "".join(f"{number} {states.label(found)}\n" for number, found in state.readable()).encode(), b""))


def by_key(kind, arguments):
    """A question by key, of which some arguments are there and others aren't."""
    return Command(["rpm", "-q", "--qf", states.SHORT, *([kind] if kind else []), *arguments], lambda state, now: state, b"",
                   lambda state: state.asked(kind, arguments))


def big_file(folder):
    """A package file of 2,000 files, and the command that adds it."""
    entries = [(tag, form, {1117: [f"f{BIG}-{k}" for k in range(2000)], 1116: [0] * 2000}.get(tag, found)) for tag, form, found in states.entries_of(BIG, 3)]
    assert [form for tag, form, _ in entries if tag == 1117] == [TEXTS]
    path = folder / "big.rpm"
    path.write_bytes(states.package_file(entries))
    return Command(["rpm", "--addpkg", str(path)], lambda state, now: state.added([states.installed(entries, now)]))


def pending(before, after):
    """The log of a committed transaction that leads from some files to others, of which nothing is written yet; by docs/FORMATS.md."""
    entries = bytearray()
    for number, path in enumerate(FILES[:2], 1):
        old, new = before[path], after[path]
        for at in range(0, len(new), 16):
            if old[at:at + 16] != new[at:at + 16]:
                entries += b"".join(it.to_bytes(4, "little") for it in (number, at // 16, 1, 0)) + new[at:at + 16].ljust(16, b"\0")
    head = [1, len(entries) // 32, len(entries) // 16]
    return b"RpmL" + b"".join(it.to_bytes(4, "little") for it in head) + bytes(entries)


class Pairs:
    """The pairs, over a database of 68 packages with a current index."""

    def __init__(self, room):
        self.room = room
        self.packages = {}
        for i in (*FIRST, *SECOND):
            self.packages[i] = str(Path(room.folder) / f"p{i}.rpm")
            Path(self.packages[i]).write_bytes(states.package_file(states.entries_of(i, 3)))
        store, self.state = store_of(COUNT)
        self.files = self.after(store, by_key("", ["nosuch"]))
        self.no_index = {path: data for path, data in self.files.items() if path == FILES[0]}

    def after(self, files, command):
        """The files that a command leaves."""
        self.room.at = "db"
        self.room.put(files, {"db"})
        self.room.ask(command.words, command.given)
        return self.room.held()[0]

    def all(self):
        add, again = states.add(self.packages, FIRST), states.add(self.packages, SECOND)
        erase, imports, big = states.erase([1, 2, 3]), states.imports(LIST), big_file(Path(self.room.folder))
        logged = self.files | {FILES[2]: pending(self.files, self.after(self.files, imports))}
        ask, none = by_key("", ASKED), states.State()

        def pair(name, *changes, beside=(), files=self.files, state=self.state, at="db"):
            return Pair(name, files, state, list(changes), list(beside), at)
        yield pair("`--addpkg` of 3, `--addpkg` of 3", add, again)
        yield pair("`--addpkg` of 3, `--addpkg` of 3, no folder yet", add, again, files={}, state=none, at="new/db")
        yield pair("`--addpkg` of 3, `--erasepkg` of 3", add, erase)
        yield pair("`--addpkg` of one with 2,000 files, `--addpkg` of 3", big, add)
        yield pair("`--erasepkg 5`, `--erasepkg 6`", states.erase([5]), states.erase([6]))
        yield pair("`--addpkg` of 3, `--rebuilddb`", add, states.rebuild())
        yield pair("`--importdb` of 40, `--addpkg` of 3", imports, add)
        yield pair("`--replacepkg`, `--addpkg` of 3", states.replace(self.packages, 3, 80), add)
        yield pair("`--addpkg` of 3, `-q` again and again", add, beside=[ask])
        yield pair("`--importdb` of 40, `-qf` again and again", imports, beside=[by_key("-f", ["/opt/f3", "/opt/f100", "/opt/f139", "/none"])])
        yield pair("`--erasepkg` of 3, `-qa` again and again", erase, beside=[listing()])
        yield pair("a pending transaction: `--erasepkg` of 3, `-q` again and again", erase, beside=[ask], files=logged, state=imports.after(self.state, 0))
        yield pair("no index: `-q`, `-q`", beside=[ask, by_key("--whatprovides", ["pkg7", "cap3", "none"])], files=self.no_index)


def reached(state, changes):
    """All states to which these changes lead, one after the other: (change, seconds in which it may have been made) each."""
    for order in permutations(changes):
        yield from one_by_one(state, order)


def one_by_one(state, order):
    if not order:
        yield state
        return
    (change, seconds), *rest = order
    for now in seconds:
        yield from one_by_one(change.after(state, now), rest)


class Try:
    """One try of a pair: how the commands ended."""

    def __init__(self, room, pair, chance):
        self.room, self.pair, self.chance = room, pair, chance
        self.changed, self.told = [], []

    def start(self, command):
        return command, Started(self.room.words(command.words), self.room.folder, command.given)

    def two(self):
        """Two commands, each once."""
        apart = self.chance.uniform(-APART, APART)
        both = [*self.pair.changes, *self.pair.questions]
        first = self.start(both[apart < 0])
        time.sleep(abs(apart))
        for command, started in (first, self.start(both[apart >= 0])):
            ended = started.wait()
            (self.changed if self.pair.changes else self.told).append((command, ended))

    def beside(self):
        """A change, and a question before, while it runs and after it."""
        question, = self.pair.questions
        _, asked = self.start(question)
        time.sleep(self.chance.uniform(0, APART))
        _, change = self.start(self.pair.changes[0])
        self.told.append((question, asked.wait()))
        while change.is_running():
            self.told.append((question, self.start(question)[1].wait()))
        self.changed.append((self.pair.changes[0], change.wait()))
        self.told.append((question, self.start(question)[1].wait()))

    def run(self):
        self.room.at = self.pair.at
        self.room.put(copy.copy(self.pair.files), {self.pair.at} if self.pair.files else set())
        if self.pair.changes and self.pair.questions:
            self.beside()
        else:
            self.two()

    def acknowledged(self):
        """The changes that ended with 0; one that ended otherwise was kept out by another process."""
        for command, ended in self.changed:
            if ended.answer == (0, b"", b""):
                yield command, ended.seconds
            elif not ended.is_refused():
                raise Loss(f"{' '.join(command.words[:3])} ended with {short(ended.answer)}")

    def judge(self):
        """Raises what isn't as it has to be."""
        made = list(self.acknowledged())
        after = list(reached(self.pair.state, made))
        known, furthest = [self.pair.state, after[0]], 0
        for command, ended in self.told:
            if ended.is_refused():
                continue
            furthest = next((at for at in range(furthest, 2) if ended.answer == command.prints(known[at])), None)
            if furthest is None:
                raise Loss(f"{' '.join(command.words[:5])} answered {short(ended.answer)}")
        if made and self.told:
            command, ended = self.told[-1]
            if not ended.is_refused() and ended.answer != command.prints(after[0]):
                raise Loss(f"{' '.join(command.words[:5])} after the change answered {short(ended.answer)}")
        self.room.look(after, NAMES)
