"""The databases and command lines that trials/crashes.py tries, with the states that they have to have."""
import copy
import re
from dataclasses import dataclass, field
from pathlib import Path

import crash_states as states
from crash_files import Disk
from model_store import Store

FILES = ("db/Packages.db", "db/Hindex.db", "db/Hlog.db")
ADDED, LIST = (70, 71, 120), {"small": range(100, 105), "large": range(100, 140)}


@dataclass
class Case:
    """A command line on some files: those that were acknowledged before it, and those that follow on what a crash leaves."""
    name: str
    size: str
    files: dict
    state: states.State
    command: states.Command
    acknowledged: list = field(default_factory=list)
    later: list = field(default_factory=list)
    folders: frozenset = frozenset({"db"})
    at: str = "db"
    disk: object = None

    def start(self):
        """The disk on which it begins: what a kill left where the case has that, else one on which all is durable."""
        return copy.deepcopy(self.disk) or Disk(self.files, self.folders)


def store_of(count):
    """A database of so many packages, without index and log."""
    store = Store()
    for i in range(1, count + 1):
        store.change(None, states.entries_of(i))
    return {FILES[0]: store.file()}, states.State(dict(store.packages), store.next)


def is_between(disk, call):
    """Whether entries of a committed log were written to both files, and synced in none."""
    return disk.commit == 2 and all(path in disk.files and disk.files[path].pending for path in FILES[:2])


def broken(files, number):
    """The same with a package whose header can't be read: it says that it has too many entries."""
    data = bytearray(files[FILES[0]])
    at = data.index(b"BlbS" + number.to_bytes(4, "little")) + 16
    data[at:at + 4] = b"\xff" * 4
    return files | {FILES[0]: bytes(data)}


class Cases:
    """All cases. `tried(case)` runs a case's command and gives what was found of it: the disk before, the calls, files, and the state after."""

    def __init__(self, folder, tried):
        self.tried, self.packages = tried, {}
        for i in ADDED:
            self.packages[i] = str(Path(folder) / f"p{i}.rpm")
            Path(self.packages[i]).write_bytes(states.package_file(states.entries_of(i, 3)))

    def grown(self, size, files, state, *commands):
        """Files and state after some commands, with those before the last one."""
        before = files
        for command in commands:
            before, (_, _, (files, _), _, state) = files, self.tried(Case("made before", size, files, state, command))
        return files, state, before

    def killed(self, size, files, state, command, when):
        """The disk that a kill leaves at the last moment of which `when(disk, call)` holds, and the state after the command."""
        disk, calls, _, _, after = self.tried(Case("made before", size, files, state, command))
        found = None
        for call in calls:
            disk.apply(call)
            if when(disk, call):
                found = copy.deepcopy(disk)
        return found, after

    def after_kills(self, size, files, missing, state):
        """A question after a kill, of which nothing was synced since: where the machine crashes then, old and new meet in three files."""
        moments = [("the commit", files, states.imports([91]), lambda disk, call: disk.commit == 1),
                   ("a commit", files, states.imports([91]), is_between),
                   ("the seal", missing, states.question(["pkg1"]), lambda disk, call: call.data.startswith(b"RpmH"))]
        for name, begin, command, when in moments:
            disk, after = self.killed(size, begin, state, command, when)
            ask = states.Command(states.question(["pkg1", "pkg91"]).words, lambda state, now, after=after: after, b"",
                                 lambda state, after=after: after.asked("", ["pkg1", "pkg91"]))
            yield Case(f"a question, after a kill {'within' if name == 'a commit' else 'at'} {name}", size, disk.now()[0], state, ask, disk=disk)

    def of_size(self, size):
        """The cases that are tried on a small and on a large database."""
        store, state = store_of(3 if size == "small" else 254)
        files, state, before = self.grown(size, store, state, states.question(["nosuch"]), states.erase([2]), states.imports([90]))
        numbers = [1, 4] if size == "small" else [1, 5, 77, 200, 254]
        old = files | {FILES[1]: before[FILES[1]]}
        missing = {path: data for path, data in files.items() if path != FILES[1]}
        disk, logged = self.killed(size, files, state, states.imports(LIST["small"]), is_between)
        log = disk.mixed("a pending transaction")[0]
        bad = broken(store, 3)
        dropped = states.State(state_of(store_of(3 if size == "small" else 254)[1], 3), 4 if size == "small" else 255)
        ask = states.question(["pkg1", "pkg90", "nosuch"])

        def case(name, command, begin=files, said=state, **more):
            return Case(name, size, begin, said, command, **more)
        yield case("`--addpkg`", states.add(self.packages, [70]))
        yield case("`--addpkg` of three", states.add(self.packages, [70, 71, 120]))
        yield case("`--replacepkg`", states.replace(self.packages, 3, 120))
        yield case("`--erasepkg`", states.erase(numbers))
        yield case("`--importdb`", states.imports(LIST[size]))
        yield case("`--rebuilddb`", states.rebuild())
        yield case("`--rebuilddb`, a package unreadable", states.rebuild(), bad, dropped)
        yield case("a question, no index", ask, missing)
        yield case("a question, an old index", ask, old)
        yield case("a question, a pending transaction", ask, log, logged)
        yield case("`--erasepkg`, a pending transaction", states.erase(numbers), log, logged)
        yield case("the second of three", states.erase(numbers), acknowledged=[states.add(self.packages, [70])], later=[states.imports([92])])
        yield from self.after_kills(size, files, missing, state)
        if size == "small":
            yield case("`--erasepkg`, 0 is closed", states.erase(numbers).without(0))
            yield case("a question, no index, 1 is closed", ask.without(1), missing)
            yield case("a question, no index, 2 is closed", ask.without(2), missing)
            yield case("a question, an old index, 0 to 2 are closed", ask.without(0, 1, 2), old)
            yield case("`--erasepkg`, 0 to 2 are closed", states.erase(numbers).without(0, 1, 2))

    def of_none(self):
        """The cases on no database, on files with a partial unit, and the exercise."""
        none, later = states.State(), [states.imports([92])]
        yield Case("`--initdb`", "none", {}, none, states.initdb(), later=later)
        yield Case("`--initdb`, no folder", "none", {}, none, states.initdb(), later=later, folders=frozenset(), at="new/db")
        yield Case("`--addpkg`, no folder", "none", {}, none, states.add(self.packages, [70]), later=later, folders=frozenset(), at="new/db")
        yield Case("`--exercise 5`", "none", {}, none, states.exercise(5))
        yield Case("`--exercise 300`", "none", {}, none, states.exercise(300))
        files, state, _ = self.grown("small", *store_of(3), states.question(["nosuch"]), states.erase([2]))
        files = {path: data + b"a tail"[:6] for path, data in files.items()}
        yield Case("`--addpkg`, partial units", "small", files, state, states.add(self.packages, [70]))

    def all(self, only, databases):
        """The cases on these databases in whose name a pattern is found."""
        groups = {"none": self.of_none, "small": lambda: self.of_size("small"), "large": lambda: self.of_size("large")}
        return [case for name in databases for case in groups[name]() if re.search(only, case.name)]


def state_of(state, number):
    """The packages of a state, one of them unreadable."""
    return state.packages | {number: None}
