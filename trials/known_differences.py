"""By which rules the answers of rpm and of this program over the same packages may differ, as trials/questions.py counts them.

RULES has them all, in the order in which they are tried: a kind, the sentence that says what differs, and a function of the pair of databases, the question
(its option and its argument), rpm's answer and this program's. It gives rpm's answer brought as near to this program's as its sentence says, by what rpm itself
says of the packages, or None where the rule isn't for this question.
"""
import collections
import fnmatch
import os
import re

# Bits of a requirement's flags: needed by scripts of an installation, by those of an erasure, and by rpm itself.
INSTALL_ONLY, ERASURE, OF_RPM = 0x4000000 | 0x400 | 0x200 | 0x80 | 0x20, 0x1000 | 0x800, 0x1000000
TAGS = {"--whatprovides": "PROVIDENAME", "--whatrequires": "REQUIRENAME", "--whatconflicts": "CONFLICTNAME", "--whatobsoletes": "OBSOLETENAME",
        "--whatrecommends": "RECOMMENDNAME", "--triggeredby": "TRIGGERNAME", "-g": "GROUP"}


def numbers(lines):
    return [line for line in lines if line.isdigit()]


def in_order(_, question, theirs, ours):
    """The same lines, in this program's order."""
    return ours if question[0] != "--qf" and sorted(theirs) == sorted(ours) else None


def of_rpm(flags):
    """Of a requirement on a feature of rpm itself."""
    return flags & OF_RPM


def install_only(flags):
    """Of one that scripts of an installation have, and those of an erasure don't."""
    return flags & (INSTALL_ONLY | OF_RPM) and not flags & ERASURE


def doubled(pair, question, theirs, _):
    """A package exactly as often as its elements are in rpm's index, once."""
    rows, found = pair.rows(*question), collections.Counter(numbers(theirs))
    has = collections.Counter(row[0] for row in rows if len(row) == 1 or not install_only(row[1]))
    return sorted(found, key=int) if found and rows and all(count == has[number] for number, count in found.items()) else None


def unindexed(kind):
    def rule(pair, question, theirs, ours):
        """Packages whose elements rpm's index leaves out, all of them, by the flags."""
        missing, flags = set(numbers(ours)) - set(numbers(theirs)), collections.defaultdict(list)
        for number, flag in pair.rows(*question) if question[0] == "--whatrequires" else []:
            flags[number].append(flag)
        added = [number for number in missing if flags[number] and all(kind(flag) for flag in flags[number])]
        return sorted([*numbers(theirs), *added], key=int) if added else None
    return rule


def within_rich(pair, question, theirs, ours):
    """Packages with a rich dependency that has this name within."""
    if question[0] not in TAGS:
        return None
    rich = {row[0] for row in pair.column(TAGS[question[0]]) if row[1].startswith("(") and question[1] in re.split(r"[\s()]+", row[1])}
    added = set(numbers(theirs)) - set(numbers(ours))
    return [line for line in theirs if line not in added] if added and added <= rich else None


def on_this_disk(pair, question, theirs, ours):
    """Packages with files that this machine's folders make the same path, once for each of them."""
    if question[0] not in ("-f", "--whatprovides") or not question[1].startswith("/"):
        return None
    name, place = os.path.basename(question[1]), os.path.realpath(os.path.dirname(question[1]))
    same = collections.Counter(row[0] for row in pair.column("FILENAMES") if row[1].endswith("/" + name)
                               and os.path.realpath(os.path.dirname(row[1])) == place)
    found = collections.Counter(numbers(theirs))
    if not found or any(count > same[number] for number, count in found.items()):
        return None
    return sorted(set(found) & set(ours), key=int) or ours


def not_on_disk(_, question, theirs, ours):
    """A path that no package has: rpm's line is by what the disk has, and on standard error."""
    return ours if question[0] == "-f" and not theirs and ours == [f"file {question[1]} is not owned by any package"] else None


def not_normal(pair, question, theirs, ours):
    """Packages whose file of this path has another state than normal."""
    if question[0] not in ("-f", "--whatprovides"):
        return None
    missing = set(numbers(ours)) - set(numbers(theirs))
    states = {number for number, state, path in pair.column("FILESTATES", "FILENAMES") if path == question[1] and state != "0" and number in missing}
    return sorted({*numbers(theirs), *states}, key=int) if states else None


def by_provides(pair, question, theirs, ours):
    """A path that is found among the provides, since no package has the file."""
    givers = {row[0] for row in pair.column("PROVIDENAME") if row[1] == question[1]}
    return ours if question[0] == "-f" and numbers(theirs) and set(theirs) <= givers and not numbers(ours) else None


def name_first(pair, question, theirs, ours):
    """A label that is a package's by one form, and another's by a later form."""
    if question[0] != "" or not numbers(theirs):
        return None
    later = set(ours) - set(numbers(theirs))
    return sorted([*theirs, *later], key=int) if later and all(question[1] in pair.labels[number] for number in later) else None


def pattern_of_labels(pair, question, theirs, ours):
    """Packages of which the pattern fits another label than the name."""
    if question[0] != "-a":
        return None
    later = set(ours) - set(theirs)
    fits = [any(fnmatch.fnmatchcase(label, question[1]) for label in pair.labels[number][1:]) for number in later]
    return sorted([*filter(None, theirs), *later], key=int) + [""] if later and all(fits) else None


def missing_tag(_, question, theirs, ours):
    """The same without the lines `(none)`, which stand for brackets whose tags are missing."""
    return ours if question[0] == "--qf" and [line for line in ours if line != "(none)"] == theirs else None


def base64(_, question, theirs, ours):
    """The same without empty lines."""
    return ours if ":base64" in question[1] and [line for line in theirs if line] == [line for line in ours if line] else None


def without_epoch(_, question, theirs, __):
    """The same lines, with the package's label in place of its name with the epoch."""
    return [re.sub(r"^(\S+)-\d+:(\S+: unsatisfied: )", r"\1-\2", line) for line in theirs] if question[0] == "-Va" else None


def signed(flags, name, version):
    """A requirement as reports have it."""
    sign = "".join(text for bit, text in ((2, "<"), (4, ">"), (8, "=")) if flags & bit)
    return f"{name} {sign} {version}" if sign and version else name


def without_features(_, question, theirs, __):
    """The same lines without requirements on rpm itself."""
    return [line for line in theirs if ": unsatisfied: rpmlib(" not in line] if question[0] == "-Va" else None


def unmet_install(pair, question, theirs, ours):
    """The same, with what a package requires for scripts of its installation alone."""
    if question[0] != "-Va":
        return None
    flags = collections.defaultdict(list)
    for number, flag, name, version in pair.column("REQUIREFLAGS", "REQUIRENAME", "REQUIREVERSION"):
        flags[f"{pair.labels[number][5]}: unsatisfied: {signed(int(flag), name, version)}"].append(int(flag))
    return theirs + [line for line in ours if line not in set(theirs) and flags[line] and all(map(install_only, flags[line]))]


def unmet_once(_, question, theirs, ours):
    """The same, each as often as the package has it."""
    return ours if question[0] == "-Va" and set(theirs) == set(ours) else None


RULES = {
    "order": ("rpm prints the packages of an answer in another order.", in_order),
    "doubled": ("rpm prints a package once for each element that has the key, this program once.", doubled),
    "rpmlib": ("rpm's index leaves out requirements on rpm itself (flag RPMLIB).", unindexed(of_rpm)),
    "install only": ("rpm's index leaves out requirements that only scripts of an installation have.", unindexed(install_only)),
    "rich": ("rpm indexes each name within a rich dependency, this program its whole text.", within_rich),
    "disk": ("rpm compares folders by the disk of the machine that it runs on.", on_this_disk),
    "not there": ("for a path that no package has, rpm's line is by what the disk has.", not_on_disk),
    "state": ("rpm finds files alone whose state is normal.", not_normal),
    "path provided": ("rpm looks a path that no package has up among the provides.", by_provides),
    "label": ("rpm takes the first form of a label that finds a package, this program all six.", name_first),
    "glob": ("rpm compares a pattern with names, this program with all six labels.", pattern_of_labels),
    "missing tag": ("a bracket whose tag is missing prints nothing in rpm, here `(none)`.", missing_tag),
    "base64": ("rpm ends base64 with a newline of its own.", base64),
    "epoch": ("rpm's report of unmet requirements has the epoch in a package's name.", without_epoch),
    "unmet features": ("rpm built without a feature reports what requires it; this report leaves `rpmlib(..)` out.", without_features),
    "unmet installs": ("that report leaves out what only scripts of an installation require.", unmet_install),
    "unmet twice": ("it lists a requirement once that a package has several times.", unmet_once),
}
