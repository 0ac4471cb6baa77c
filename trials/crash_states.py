"""What a database has to say before and after a command, for trials/crashes.py: made from docs/FORMATS.md and man/, nothing of the program.

A State has the entries of each package (None where its header can't be read) and the next number. A Command has its words, what it reads
from standard input, the state that it leaves, and what it prints. Answers are (status, standard output, standard error).
"""
import contextlib
import functools
import io
from dataclasses import dataclass, field

import model_store
from make_package import lead, signature
from model_store import MAGIC, NUMBERS, TEXT, generated, header

NAME, VERSION, RELEASE, ARCH, PROVIDES, REQUIRES, BASES, DIRECTORIES, TID = 1000, 1001, 1002, 1022, 1047, 1049, 1117, 1118, 1128
SIZE_OF_FILE, INSTALLED = 257, 1008
FORMAT = "%{DBINSTANCE} %{NVRA} %{INSTALLTID} %{INSTALLTIME} %{DESCRIPTION} [%{PROVIDENAME},][%{REQUIRENAME},][%{FILENAMES},]\n"
SHORT = "%{DBINSTANCE} %{NVRA}\n"


def entries_of(i, leading=1):
    """The entries of package i: those of an exercise, and a text of some length."""
    return generated(i, leading) + [(1005, TEXT, ["x" * (37 * i * i % 1500 + (9000 if i % 40 == 0 else 0))])]


def package_file(entries):
    """A package file with this main header."""
    made = header(entries)
    return lead(first(entries, NAME)) + signature(made) + MAGIC + made


def installed(entries, now):
    """The entries of a package that was added from its file at this second."""
    size = len(MAGIC + header(entries))
    return entries + [(SIZE_OF_FILE, NUMBERS, [size]), (INSTALLED, NUMBERS, [now]), (TID, NUMBERS, [now])]


def elements(entries, tag):
    """The elements of a tag; none where it is missing."""
    return next((found for known, _, found in entries if known == tag), [])


def first(entries, tag):
    return str((elements(entries, tag) or ["(none)"])[0])


def label(entries):
    return "-".join(first(entries, tag) for tag in (NAME, VERSION, RELEASE)) + "." + first(entries, ARCH)


def paths(entries):
    """Its files, which lie in one folder."""
    return [elements(entries, DIRECTORIES)[0] + base for base in elements(entries, BASES)]


def once(method):
    """A method whose answers are kept: the same state is compared with many files."""
    @functools.wraps(method)
    def kept(self, *words):
        key = method.__name__, str(words)
        if key not in self.answers:
            self.answers[key] = method(self, *words)
        return self.answers[key]
    return kept


@dataclass
class State:
    packages: dict = field(default_factory=dict)
    next: int = 1
    answers: dict = field(default_factory=dict, compare=False, repr=False)

    def readable(self):
        return [(number, self.packages[number]) for number in sorted(self.packages) if self.packages[number] is not None]

    def unreadable(self):
        return [number for number in sorted(self.packages) if self.packages[number] is None]

    def added(self, packages):
        """With these under the next numbers."""
        numbered = dict(enumerate(packages, self.next))
        return State(self.packages | numbered, self.next + len(numbered))

    def without(self, numbers):
        return State({number: found for number, found in self.packages.items() if number not in numbers}, self.next)

    @once
    def export(self):
        errors = "".join(f"error: package {number}: header cannot be read\n" for number in self.unreadable())
        return int(bool(errors)), b"".join(MAGIC + header(found) for _, found in self.readable()), errors.encode()

    @once
    def verify(self):
        lines = "".join(f"package {number}: header cannot be read\n" for number in self.unreadable())
        return int(bool(lines)), lines.encode(), b""

    @once
    def listing(self):
        """Of -qa with FORMAT."""
        lines = []
        for number, found in self.readable():
            lists = "".join(f"{it}," for it in [*elements(found, PROVIDES), *elements(found, REQUIRES), *paths(found)])
            lines.append(f"{number} {label(found)} {first(found, TID)} {first(found, INSTALLED)} {first(found, 1005)} {lists}\n")
        errors = "".join(f"error: package {number}: header cannot be read\n" for number in self.unreadable())
        return int(bool(errors)), "".join(lines).encode(), errors.encode()

    @once
    def asked(self, kind, arguments):
        """Of a question with SHORT: for each argument the packages that have it, or its line."""
        keys, missing = {
            "": (lambda found: [first(found, NAME)], "package {} is not installed"),
            "--whatprovides": (lambda found: elements(found, PROVIDES), "no package provides {}"),
            "-f": (paths, "file {} is not owned by any package"),
        }[kind]
        holders, lines, failed = {}, [], 0
        for number, found in self.readable():
            for key in set(keys(found)):
                holders.setdefault(key, []).append(f"{number} {label(found)}\n")
        for argument in arguments:
            lines += holders.get(argument, [missing.format(argument) + "\n"])
            failed += argument not in holders
        return min(failed, 250), "".join(lines).encode(), b""


@dataclass
class Command:
    """`words` without the folder; `after(state, now)` gives the state that it leaves, `prints(state)` what it has to answer; which of the three
    standard descriptors are closed as it begins."""
    words: list
    after: object
    given: bytes = b""
    prints: object = lambda state: (0, b"", b"")
    closed: tuple = ()

    def heard(self, answer):
        """What of an answer is heard."""
        status, out, err = answer
        return status, b"" if 1 in self.closed else out, b"" if 2 in self.closed else err

    def without(self, *handles):
        """The same with these descriptors closed."""
        return Command(self.words, self.after, self.given, lambda state: self.prints(state), handles)

    def run_by(self, words):
        """These words of it, behind those that close descriptors."""
        return ["sh", "-c", f"exec \"$@\" {' '.join(f'{it}>&-' for it in self.closed)}", "sh", *words] if self.closed else words


def initdb():
    return Command(["rpmdb", "--initdb"], lambda state, now: state)


def add(files, numbers):
    """Adds the package files of these packages, whose paths `files` has."""
    made = [entries_of(i, 3) for i in numbers]
    return Command(["rpm", "--addpkg"] + [files[i] for i in numbers], lambda state, now: state.added([installed(it, now) for it in made]))


def replace(files, number, i):
    def after(state, now):
        return State(state.packages | {number: installed(entries_of(i, 3), now)}, state.next)
    return Command(["rpm", "--replacepkg", str(number), files[i]], after)


def erase(numbers):
    return Command(["rpm", "--erasepkg"] + [str(number) for number in numbers], lambda state, now: state.without(numbers))


def imports(numbers):
    made = [entries_of(i, 4) for i in numbers]
    return Command(["rpmdb", "--importdb"], lambda state, now: state.added(made), b"".join(MAGIC + header(it) for it in made))


def rebuild():
    def prints(state):
        return 0, "".join(f"package {number}: dropped\n" for number in state.unreadable()).encode(), b""
    return Command(["rpmdb", "--rebuilddb"], lambda state, now: state.without(state.unreadable()), b"", prints)


def exercise(count):
    """On a database without packages whose next number is 1."""
    store, printed = model_store.Store(), io.StringIO()
    with contextlib.redirect_stdout(printed):
        model_store.exercise(store, count)
    report = printed.getvalue().partition("changes")[0].encode()
    return Command(["rpmdb", "--exercise", str(count)], lambda state, now: State(dict(store.packages), store.next), b"", lambda state: (0, report, b""))


def question(names):
    return Command(["rpm", "-q", "--qf", SHORT] + names, lambda state, now: state, b"", lambda state: state.asked("", names))
