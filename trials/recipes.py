"""What trials/distributions.py asks of docs/RECIPES.md: whether a recipe that takes the place of an option of rpm prints what that option prints.

A recipe stands under a heading that names the option. Its first command is run over all packages of a system, without what cuts its output short, and is
compared line by line with rpm's own option. Where the two differ, a rule of RULES has to explain each line; any other difference ends the run.
"""
import collections
import os
import re
import subprocess

from folders import TOP
from questions import Unknown

PAGE = TOP / "docs" / "RECIPES.md"
PART = re.compile(r"^## rpm's options by a format\n(.*?)^### Compared with rpm\n", re.M | re.S)
RECIPE = re.compile(r"^### `(--[^`]*)`.*?\n    \$ ([^\n]*\n(?:    > [^\n]*\n)*)", re.M | re.S)
# A command as a recipe has it: its format, the package that it asks, and what it is passed through.
COMMAND = re.compile(r"rpm --dbpath d -qa? (--qf '[^']*'(?:\\\n'[^']*')*)(?: [\w.-]+)?((?:\s\|.*)?)", re.S)
SHORTENING = re.compile(r" \| (?:sed -n 1,\d+p|head -n \d+)$")
KINDS = {1 << 16: "in", 1 << 17: "un", 1 << 18: "postun", 1 << 25: "prein"}


def recipes():
    """The option of each recipe, its format and what follows the format."""
    part = PART.search(PAGE.read_text(encoding="utf-8"))
    for option, shown in RECIPE.findall(part[1]):
        command = COMMAND.fullmatch(re.sub(r"\n    > ", "\n", shown.rstrip("\n")))
        if not command:
            raise Unknown(f"docs/RECIPES.md: the command of {option} isn't one that can be asked of all packages")
        yield option, command[1], SHORTENING.sub("", command[2])


def printed(pair, whose, selection, rest):
    """The lines that a shell's command prints whose `rpm` is one of the two."""
    called = 'rpm() { "$program" rpm "$@"; }\n' if whose == "ours" else ""
    told = {"program": str(pair.program), "d": str(pair.folders[whose]), "LC_ALL": "C", "TZ": "UTC"}
    done = subprocess.run(["sh", "-c", f'{called}rpm --dbpath "$d" {selection} {rest}'], stdin=subprocess.DEVNULL, stdout=subprocess.PIPE,
                          stderr=subprocess.DEVNULL, env={**os.environ, **told}, check=False)
    return done.stdout.decode("utf-8", "surrogateescape").split("\n")[:-1]


def without(pattern):
    def rule(theirs, ours, _):
        """The lines of rpm without those that begin so."""
        return [line for line in theirs if not re.match(pattern, line)], ours
    return rule


def alike(pattern, text):
    def rule(theirs, ours, _):
        """The lines of both with one text in place of what fits."""
        return [re.sub(pattern, text, line) for line in theirs], [re.sub(pattern, text, line) for line in ours]
    return rule


def by_format(_, ours, ask_rpm):
    """What rpm prints by the recipe's own format."""
    return ask_rpm(), ours


def triggers(theirs, ours, _):
    """The conditions with their kinds, in any order, and the lines of all scripts."""
    heads = [re.fullmatch(r"trigger(\w+) scriptlet \(using .*?\) -- (.*)", line) for line in theirs]
    conditions = [f"{head[1]} {it}" for head in heads if head for it in head[2].split(", ")]
    found, scripts, before = [], [], None
    for line in ours:
        condition = re.fullmatch(r"\d+: (\d+) (.*)", line)
        if condition:
            found += [f"{kind} {condition[2].rstrip()}" for bit, kind in KINDS.items() if int(condition[1]) & bit]
        elif before is None or line:
            scripts.append(line)
        before = condition
    return sorted(conditions) + [line for line, head in zip(theirs, heads) if not head], sorted(found) + scripts


RULES = {
    "--info": ("the line `Signature`, and those of the tags `DISTTAG`, `PREFIXES` and `BUGURL`", without(r"(?:Signature |DistTag |Relocations |Bug URL ) *: ")),
    "--scripts": ("scripts around a whole transaction, and of a verification", by_format),
    "--list --verbose": ("how many names a file has, where it has several", alike(r"^(\S{10}) +\d+ ", r"\1 ")),
    "--dump": ("the zeros of files without a digest, where digests are MD5", alike(r" 0{32}(?:0{32})? ", " - ")),
    "--triggers": ("the line above a script has its kind and interpreter in words; conditions stand apart", triggers),
}


def ask_recipes(pair, selection="-qa"):
    """Compares each recipe with its option, and counts rpm's lines and those that differ."""
    for option, form, rest in recipes():
        theirs, ours = printed(pair, "rpm", selection, option), printed(pair, "ours", selection, form + rest)
        one, other = collections.Counter(theirs), collections.Counter(ours)
        differing = max((one - other).total(), (other - one).total())
        if theirs != ours and option in RULES:
            theirs, ours = RULES[option][1](theirs, ours, lambda: printed(pair, "rpm", selection, form + rest))
        if theirs != ours:
            at = next((i for i, lines in enumerate(zip(theirs, ours)) if lines[0] != lines[1]), min(len(theirs), len(ours)))
            raise Unknown(f"{selection}: the recipe of {option}: line {at + 1}\n  of rpm: {theirs[at:at + 1]}\n  here: {ours[at:at + 1]}")
        pair.recipes.append((option, one.total(), differing))
        pair.asked += 1


def table(pairs):
    """How many lines of each recipe were compared over all systems, and how many differ in which way."""
    text = "| Option | Lines of rpm | That differ | What differs |\n| --- | --- | --- | --- |\n"
    for rows in zip(*(pair.recipes for pair in pairs)):
        option, lines, differing = rows[0][0], sum(row[1] for row in rows), sum(row[2] for row in rows)
        text += f"| `{option}` | {lines:,} | {differing:,} | {RULES[option][0] if differing else ''} |\n"
    return text
