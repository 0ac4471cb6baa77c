"""Commands of rpm and of this program at one time, for trials/beside_rpm.py."""
import shutil
import time
from dataclasses import dataclass, field

from beside_sides import SHOWN, Wrong, label, listed

START, ADDED, LIST, AWAY = range(1, 41), (51, 52, 53), range(61, 81), (5, 6, 7, 8, 9)
# The second command begins at most so many seconds before or after the first; rpm takes longer to begin.
APART = 0.03


@dataclass
class Part:
    """What a side does: the packages that are there, and that aren't, once it ended with 0."""
    side: str
    words: list
    given: bytes = b""
    adds: tuple = ()
    erases: tuple = ()
    answers: list = field(default_factory=list)

    def is_question(self):
        return not self.adds and not self.erases


@dataclass
class Pair:
    name: str
    first: Part
    second: Part


def pairs(sides):
    """What is tried at once. A question is asked again and again."""
    files = [sides.file_of(i) for i in ADDED]

    def add():
        return Part("ours", ["rpm", "--addpkg", *files], adds=ADDED)

    def imports(side):
        return Part(side, ["rpmdb", "--importdb"], listed(LIST), adds=tuple(LIST))

    def ask(side):
        return Part(side, ["rpm", "-q", "--qf", SHOWN, *(f"package{i}" for i in (1, 40, 52, 61, 80))])
    yield Pair("an import of 20 by rpm, `--addpkg` of 3", imports("rpm"), add())
    away = Part("rpm", ["rpm", "-e", "--justdb", "--nodeps", *(f"package{i}" for i in AWAY)], erases=AWAY)
    yield Pair("an erasure of 5 by rpm, `--addpkg` of 3", away, add())
    yield Pair("an import of 20 by rpm, `--erasepkg` of 3", imports("rpm"), Part("ours", ["rpm", "--erasepkg", "1", "2", "3"], erases=(1, 2, 3)))
    yield Pair("an import of 20 by rpm, `-q` again and again", imports("rpm"), ask("ours"))
    yield Pair("`--importdb` of 20, rpm's `-q` again and again", imports("ours"), ask("rpm"))
    yield Pair("`--addpkg` of 3, rpm's `-qa` again and again", add(), Part("rpm", ["rpm", "-qa", "--qf", SHOWN]))


def run(sides, pair, chance):
    """Runs a pair at once."""
    parts = [pair.first, pair.second]
    for part in parts:
        part.answers = []
    apart = chance.uniform(-APART, APART)
    if pair.second.is_question():
        apart = abs(apart) / 3
    early = parts[apart < 0]
    late = parts[apart >= 0]
    started = sides.start(early.side, early.words, early.given)
    time.sleep(abs(apart))
    if late.is_question():
        while started.is_running():
            late.answers.append(sides.start(late.side, late.words).wait())
    else:
        late.answers.append(sides.start(late.side, late.words, late.given).wait())
    early.answers.append(started.wait())


def expected(pair):
    """The packages that have to be there, and those that may be: a command of rpm that fails has made some of its changes."""
    sure, maybe = set(START), set()
    for part in (pair.first, pair.second):
        if part.is_question():
            continue
        ended, = part.answers
        if ended.answer[0] == 0:
            sure = sure - set(part.erases) | set(part.adds)
        elif part.side == "rpm":
            maybe |= set(part.adds) | set(part.erases)
        elif not ended.is_refused():
            raise Wrong(f"{' '.join(part.words[:2])} ends with {ended.answer[0]}: {ended.answer[2][:200]!r}")
    return sure, maybe


def judge_answers(pair):
    """Whether each answer of a question has what was there before, and else only what a change adds."""
    for part in (pair.first, pair.second):
        for ended in part.answers if part.is_question() else ():
            status, out, err = ended.answer
            if ended.is_refused():
                continue
            found = {line.split()[1] for line in out.decode().splitlines() if " is not installed" not in line}
            known = {label(i) for i in (START if "-qa" in part.words else (1, 40))}
            news = {label(i) for i in (*ADDED, *LIST)}
            if not known <= found or not found <= known | news or err and not err.startswith(b"warning: "):
                raise Wrong(f"{part.side}: {' '.join(part.words[:2])} answers at once with {status}: {(err or out)[-200:]!r}")


def judge_files(sides, pair):
    """Whether this program finds what has to be there, and finds it undamaged: the packages by number."""
    sure, maybe = expected(pair)
    sides.run("ours", ["rpmdb", "--verifydb"])
    found = sides.ask("ours", ["rpm", "-qa"])
    labels = {name: number for number, name in found}
    wanted = {label(i) for i in sure}
    if len(labels) != len(found) or not wanted - {label(i) for i in maybe} <= set(labels) or not set(labels) <= wanted | {label(i) for i in maybe}:
        raise Wrong(f"lost: {sorted(wanted - set(labels))[:3]}, or too much: {sorted(set(labels) - wanted)[:3]}")
    return {labels[label(i)]: i for i in (*START, *ADDED, *LIST) if label(i) in labels}


def judge_keys(sides, side, here):
    """Whether a side answers right by key."""
    gone = [i for i in (*ADDED, *AWAY, 61, 80, 99) if i not in here.values()]
    for name, words, wanted, missing in sides.questions(here, gone):
        for extra in ([], ["--noindex"]) if side == "ours" and name != "labels" else ([],):
            found = sides.ask(side, [*words[:2], *extra, *words[2:]], missing)
            if found != wanted:
                raise Wrong(f"{side}, {name}: {sorted(set(wanted) - set(found))[:3]} are missing, {sorted(set(found) - set(wanted))[:3]} are too much")


@dataclass
class Counts:
    """The cells of a row."""
    tries: int = 0
    made: int = 0
    refused: int = 0
    by_rpm: int = 0
    wrong: int = 0
    index: int = 0


def counted(pair, counts):
    """Counts how the commands ended."""
    for part in (pair.first, pair.second):
        for ended in part.answers:
            if part.side == "ours":
                counts.refused += ended.is_refused()
                counts.made += not ended.is_refused()
            else:
                counts.by_rpm += part.is_question() or ended.answer[0] == 0


def tried(sides, pair, tries, chance, faults):
    """Tries a pair so often: the counts. The database begins as rpm made it."""
    sides.fresh()
    sides.run("rpm", ["rpmdb", "--importdb"], listed(START))
    sides.ask("ours", ["rpm", "-q", "package1"])
    base, counts = sides.folder / "base", Counts()
    shutil.rmtree(base, ignore_errors=True)
    shutil.copytree(sides.database, base)
    for _ in range(tries):
        shutil.rmtree(sides.database)
        shutil.copytree(base, sides.database)
        run(sides, pair, chance)
        counts.tries += 1
        counted(pair, counts)
        try:
            here = judge_files(sides, pair)
            judge_answers(pair)
            judge_keys(sides, "ours", here)
        except Wrong as wrong:
            counts.wrong += 1
            faults[f"{pair.name}: {wrong}"] += 1
            continue
        try:
            judge_keys(sides, "rpm", here)
        except Wrong as wrong:
            counts.index += 1
    return counts
