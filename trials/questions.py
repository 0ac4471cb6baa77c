"""What trials/distributions.py asks rpm and this program over the same packages.

Each answer is compared whole. Where two differ, the rules of trials/known_differences.py are gone through in turn, and each that applies brings rpm's
answer nearer to this program's. Where the two are then the same, the difference counts under the rules that were used; else it is unknown, and ends the
questions of its sort.
"""
import collections
import os
import random
import re
import subprocess
from pathlib import Path

from folders import TOP
from known_differences import RULES, TAGS

PAGE = TOP / "man" / "rpm-q.8"
NOBODY = "no-such-thing"
MOST_ARGUMENTS, PATHS = 1500, 120
# Bytes that stand before and after the number of a package, in front of what a format prints of it.
BEFORE, AFTER = b"\x1e", b"\x1f"
LABELS = ["%{NAME}", "%{NAME}.%{ARCH}", "%{NAME}-%{VERSION}", "%{NAME}-%{VERSION}.%{ARCH}", "%{NAME}-%{VERSION}-%{RELEASE}", "%{NVRA}"]
FORMATS = {
    "files": "[%{=NAME} %{FILEMODES:perms} %{FILEUSERNAME} %{FILEGROUPNAME} %10{FILESIZES} %{FILEMTIMES:day} %{FILEDIGESTS} %{FILENAMES} %{FILELINKTOS}\\n]",
    "flags of files": "[%{FILENAMES} %{FILEFLAGS:fflags} %{FILESTATES:fstate} %{FILEMODES:octal} %{FILEMTIMES:date} %{FILEVERIFYFLAGS:hex}\\n]",
    "dependencies": "".join(f"[%{{=NEVRA}} {it} %{{{it}NAME}} %{{{it}FLAGS:depflags}} %{{{it}VERSION}}\\n]"
                            for it in ("PROVIDE", "REQUIRE", "CONFLICT", "OBSOLETE")),
    "changelogs": "[* %{CHANGELOGTIME:day} %{CHANGELOGNAME}\\n%{CHANGELOGTEXT}\\n]",
    "scripts": "".join(f"{it} %{{{it}}} %{{{it}PROG}}\\n" for it in ("PREIN", "POSTIN", "PREUN", "POSTUN")) + "%{POSTIN:shescape}\\n",
    "triggers": "[%{TRIGGERINDEX} %{TRIGGERNAME} %{TRIGGERFLAGS:depflags} %{TRIGGERVERSION}\\n][%{TRIGGERSCRIPTS}\\n]",
    "a package": "%-30{NAME} %8{VERSION} %{#FILENAMES} %{EPOCH} %{EPOCHNUM} %{EVR} %{BUILDTIME:date} %{INSTALLTIME:day} %{SIGMD5} %{SIZE:hex}\\n",
    "a blob": "%{NAME} %{SIGMD5:base64}\\n",
}


def tags_of_both():
    """The tags that this program's page and rpm name."""
    listed = PAGE.read_text(encoding="utf-8").partition("in front:")[2].partition(".Sh PATTERNS")[0]
    known = set(subprocess.run(["rpm", "--querytags"], stdout=subprocess.PIPE, text=True, check=True).stdout.split())
    return [tag for tag in dict.fromkeys(re.findall(r"\b[A-Z][A-Z0-9]+\b", listed)) if tag in known]


class Unknown(Exception):
    """A difference that no rule explains."""


class Pair:
    """The same packages in a database of rpm's and in one of this program's."""

    def __init__(self, program, theirs, ours):
        self.program, self.folders = program, {"rpm": theirs, "ours": ours}
        self.counts, self.asked, self.columns, self.recipes = collections.Counter(), 0, {}, []
        self.mark = Path(theirs).parent / "mark"
        self.mark.touch()

    def printed(self, whose, words):
        """What one of the two prints on standard output."""
        front = [self.program] if whose == "ours" else []
        return subprocess.run([*front, words[0], "--dbpath", str(self.folders[whose]), *words[1:]], stdin=subprocess.DEVNULL, stdout=subprocess.PIPE,
                              stderr=subprocess.DEVNULL, env={**os.environ, "LC_ALL": "C", "TZ": "UTC"}, check=False).stdout

    def run(self, whose, words):
        """The same as lines."""
        return self.printed(whose, words).decode("utf-8", "surrogateescape").split("\n")

    def column(self, *tags):
        """What rpm says of these tags, as rows of texts: the package's number and one of each."""
        if tags not in self.columns:
            words = ["rpm", "-qa", "--qf", "[%{=DBINSTANCE}" + "".join(f"\t%{{{tag}}}" for tag in tags) + "\\n]"]
            self.columns[tags] = [line.split("\t") for line in self.run("rpm", words) if line and "(none)" not in line.split("\t")]
        return self.columns[tags]

    def rows(self, option, key):
        """The number of a package for each of its elements that are this key, of a requirement with its flags."""
        if option == "--whatrequires":
            return [(row[0], int(row[1])) for row in self.column("REQUIREFLAGS", "REQUIRENAME") if row[2] == key]
        return [(row[0],) for row in self.column(TAGS[option]) if row[1] == key] if option in TAGS else []

    def compare(self, words, question, theirs, ours):
        """Counts one question and how the two answers differ."""
        self.asked += 1
        if theirs == ours:
            return
        used = []
        # (the order of an answer may differ before and after the other rules)
        for kind in [*RULES, "order"]:
            nearer = RULES[kind][1](self, question, theirs, ours)
            if nearer is not None and nearer != theirs:
                used.append(kind)
                theirs = nearer
            if theirs == ours:
                self.counts.update(used)
                return
        at = next((i for i, (one, other) in enumerate(zip(theirs, ours)) if one != other), min(len(theirs), len(ours)))
        shown = [lines[at][:200] if at < len(lines) else "(nothing)" for lines in (theirs, ours)]
        raise Unknown(f"{' '.join(words)[:300]} {question[1][:300]}\n  line {at + 1} of rpm: {shown[0]}\n  of this program: {shown[1]}")

    def ask(self, *words):
        """One question by all words."""
        if words[-2] == "--qf":
            form = BEFORE.decode() + "%{DBINSTANCE}" + AFTER.decode() + words[-1]
            texts = [cut_off(self.printed(whose, [*words[:-1], form])) for whose in self.folders]
            if sorted(texts[0]) != texts[0]:
                self.counts["order"] += 1
                texts[0].sort()
            texts = [b"".join(text for _, text in it) for it in texts]
        else:
            texts = [self.printed(whose, words) for whose in self.folders]
        lines = [[]] * 2 if texts[0] == texts[1] else [text.decode("utf-8", "surrogateescape").split("\n") for text in texts]
        self.compare(words, words[-2:], *lines)

    def ask_each(self, option, arguments):
        """One question for each argument, many in one process: what nobody has stands between two answers."""
        mark = str(self.mark) if option == "-f" else NOBODY
        words = ["rpm", "-q", "--qf", "%{DBINSTANCE}\\n"] + ([option] if option else [])
        for at in range(0, len(arguments), MOST_ARGUMENTS):
            some = arguments[at:at + MOST_ARGUMENTS]
            answers = [cut(self.run(whose, words + [word for it in some for word in (it, mark)]), mark) for whose in self.folders]
            if len(answers[0]) != len(some) or len(answers[1]) != len(some):
                raise Unknown(f"{' '.join(words)}: {len(some)} arguments, {len(answers[0])} answers of rpm, {len(answers[1])} of this program")
            for argument, theirs, ours in zip(some, *answers):
                self.compare(words, (option, argument), theirs, ours)


def cut_off(text):
    """The number of each package, and what was printed of it, in the order of printing."""
    return [(int(number), rest) for number, _, rest in (part.partition(AFTER) for part in text.split(BEFORE)[1:])]


def cut(lines, mark):
    """The answers between lines that name the mark."""
    answers, answer = [], []
    for line in lines:
        if mark in line:
            answers, answer = answers + [answer], []
        else:
            answer.append(line)
    return answers


def ask_formats(pair):
    tags = tags_of_both()
    pair.ask("rpm", "-qa", "--qf", "%{DBINSTANCE}\\n" + "".join(f"[{tag} %{{{tag}}}\\n]" for tag in tags))
    # (rpm forgets the text of the first conditions of a format with some thirty)
    for at in range(0, len(tags), 20):
        conditions = "".join(f"%|{tag}?{{ {tag} %{{#{tag}}}}}:{{ no {tag}}}|" for tag in tags[at:at + 20])
        pair.ask("rpm", "-qa", "--qf", "%{DBINSTANCE}" + conditions + "\\n")
    for form in FORMATS.values():
        pair.ask("rpm", "-qa", "--qf", form)
    pair.ask("rpm", "-q", "-a")
    pair.ask("rpm", "-qa", "-l")


def ask_keys(pair):
    lines = pair.run("rpm", ["rpm", "-qa", "--qf", "%{DBINSTANCE}\t" + "\t".join(LABELS) + "\\n"])
    rows = [line.split("\t") for line in lines if line]
    pair.labels = {row[0]: row[1:] for row in rows}
    pair.ask_each("", sorted({label for row in rows for label in row[1:] if "(none)" not in label}))
    pair.ask_each("-f", sampled(sorted({row[1] for row in pair.column("FILENAMES")}), PATHS) + ["/no/such/file"])
    for option, tag in TAGS.items():
        keys = sorted({row[1] for row in pair.column(tag)})
        pair.ask_each(option, [key for key in keys if not re.search(r"\s", key) or option == "-g"])
    for number in sampled(sorted({row[1] for row in pair.column("INSTALLTID")}), 8):
        pair.ask("rpm", "-q", "--qf", "%{DBINSTANCE}\\n", "--tid", number)
    pair.ask("rpm", "-q", "--querybynumber", *reversed(sorted(pair.labels)))


def ask_patterns(pair):
    names = sorted({labels[0] for labels in pair.labels.values()})
    parts = sorted({part for name in names for part in re.split("[-_.]", name)[1:] if len(part) > 2})
    letters = sorted({name[0] for name in names})
    for pattern in [f"{it}*" for it in sampled(letters, 5)] + [f"*-{it}" for it in sampled(parts, 4)] + ["*[0-9]*", "[a-c]*s", "*lib*"]:
        words = ["rpm", "-q", "-a", "--qf", "%{DBINSTANCE}\\n", pattern]
        pair.compare(words, ("-a", pattern), *(pair.run(whose, words) for whose in pair.folders))


def ask_unmet(pair):
    """The requirements that no package meets, in the words of this program's report."""
    theirs, ours = pair.run("rpm", ["rpm", "-Va", "--nofiles", "--noscripts"]), pair.run("ours", ["rpm", "-Va", "--nofiles"])
    said = [re.fullmatch(r"\t(.*) is needed by \(installed\) (.*)", line) for line in theirs]
    pair.compare(["rpm"], ("-Va", "--nofiles"), [f"{it[2]}: unsatisfied: {it[1]}" for it in said if it], ours[:-1])


def sampled(things, most):
    """So many of them, always the same."""
    return sorted(random.Random(1).sample(things, min(most, len(things))))


QUESTIONS = {"formats": ask_formats, "keys": ask_keys, "patterns": ask_patterns, "unmet requirements": ask_unmet}
