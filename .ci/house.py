#!/usr/bin/env python3
"""How the names, definitions and lines of the tree keep house: .ci/house.py [--list ROW]

Prints a table of what a tidy tree has little of. Definitions are those of crates/*/specs and proofs/laws, tests aside, as .ci/definitions.py counts them. Each row has
a word, and --list WORD prints what the row counts, one item a line. It needs Python 3 alone, and takes some seconds; it is no part of the gate.

shared      names that definitions of two or more crates have
unlike      those of them whose definitions say different things
twins       definitions of two crates with the same text, under whatever name
rests       definitions that the theorem rests on
inner       those of them in specs/inner or specs/laws, which no reader has to believe
half        comments of definitions that begin as half a sentence
participles functions whose name is a bare participle
verbs       relations named by a bare verb: a record or a function to types whose name is a verb in the past, or one of a few in the third person that
            don't say of what (Does, Looks, Leaves), alone or before one of the small words of this script (WentBy, DoesOn)
twice       pairs of records of the crates of commands with five or more fields of equal names
wide        lines of specs/ past 120 columns
unused      crates that crates.txt names for a crate whose files don't use them
imports     lines of specs/ that are imports
"""
import argparse
import re
import sys
from collections import defaultdict
from functools import cache
from itertools import combinations

sys.dont_write_bytecode = True
from definitions import every, fragments, numbers
from reached import reached
from specs import CRATES, DEFINITIONS, FIELD, TOP, crates, lines_of

WIDE, EQUAL_FIELDS = 120, 5
OF_COMMANDS = ("rpm_effects", "rpm_commit", "rpm_tool")
IMPORT = re.compile(r"\s*(?:unfoldable |pub |ghost )*use ")

# Verbs that relations were named by, beside those that end in -ed; and words that may follow a verb and make no noun of it.
PAST = set("Went Did Told Gave Held Kept Left Made Met Put Read Said Sent Took Came Began Found Chose Stood Wrote".split())
PRESENT = set("Does Goes Looks Peeks Glances Leaves Ends Stops".split())
SMALL = ("By", "On", "In", "To", "At", "Of", "As", "Is", "Or", "Out", "Err", "Only", "Anew", "With", "Within", "Through", "Some", "Plain", "Opened",
         "Loaded", "")
OF_ROWS = ("rpm_rows", "rpm_row_files")


@cache
def definitions():
    """All definitions, those of tests aside."""
    return [it for it in every() if not it.crate.endswith("_tests")]


def place(it):
    """Where a definition is, and its name."""
    return f"{it.path.relative_to(CRATES)}: {it.name}"


def text_of(it):
    """What a definition says, without its own name and however it is laid out."""
    text = " ".join(" ".join(line.split()) for line in it.lines)
    return re.sub(rf"(?<![\w'◌]){re.escape(it.name)}(?![\w'◌])", "@", text)


def by(key, found):
    """What is found, grouped by a key, where two or more crates have it."""
    groups = defaultdict(list)
    for it in found:
        groups[key(it)].append(it)
    return {name: group for name, group in sorted(groups.items()) if len({it.crate for it in group}) > 1}


def shared():
    """The names that definitions of two or more crates have."""
    return [f"{name}: {', '.join(place(it).rpartition(':')[0] for it in group)}" for name, group in by(lambda it: it.name, definitions()).items()]


def unlike():
    """Those whose definitions aren't the same."""
    return [name for name, group in by(lambda it: it.name, definitions()).items() if len({text_of(it) for it in group}) > 1]


def twins():
    """The definitions of two crates with the same text."""
    return ["; ".join(map(place, group)) for group in by(text_of, definitions()).values()]


def rests():
    """The definitions that the theorem rests on, with their distance."""
    return [f"{deep:2} {place(it)}" for it, deep in reached() if it.kind in DEFINITIONS]


def inner():
    """Those in specs/inner and specs/laws."""
    return [place(it) for it, _ in reached() if it.kind in DEFINITIONS and {"inner", "laws"} & set(it.path.parts)]


def half():
    """The comments that begin as half a sentence."""
    return [f"{place(it)}: {it.comment}" for it in fragments()[0]]


def participles():
    """The functions whose name is a bare participle."""
    return [place(it) for it in fragments()[1]]


def is_relation(it):
    """Whether a definition is a record, or a function to types."""
    return it.kind == "record" or it.kind == "function" and bool(re.search(r"(?:→|:) Type [01]", " ".join(it.lines[:3])))


def is_verb(name):
    """Whether a name is a bare verb."""
    for small in SMALL:
        stem = name.removesuffix(small) if small else name
        if stem and (stem in PAST | PRESENT or re.fullmatch(r"[A-Z][a-z]*[a-df-z]ed", stem)) and (small == "" or stem != name):
            return True
    return False


def verbs():
    """The relations that are named by a bare verb."""
    return [place(it) for it in definitions() if is_relation(it) and is_verb(it.name)]


def twice():
    """The pairs of records of commands that have many fields of equal names."""
    records = [(it, set(FIELD.findall("\n".join(it.lines)))) for it in definitions() if it.kind == "record" and it.crate in OF_COMMANDS]
    return [f"{place(a)}, {place(b)}: {', '.join(sorted(first & second))}" for (a, first), (b, second) in combinations(records, 2)
            if len(first & second) >= EQUAL_FIELDS]


@cache
def files_below(folder, ending):
    """The files of a folder of each crate, those of tests and rows aside."""
    return [path for name in crates() if not name.endswith("_tests") and name not in OF_ROWS for path in sorted((CRATES / name / folder).rglob("*" + ending))]


def lines_in(folder, ending):
    """The lines of all of them."""
    return [line for path in files_below(folder, ending) for line in path.read_text(encoding="utf-8").splitlines()]


def wide():
    """The lines of specs/ past so many columns."""
    return [f"{path.relative_to(CRATES)}:{number}: {len(line)} columns" for path in files_below("specs", ".antt")
            for number, line in enumerate(path.read_text(encoding="utf-8").splitlines(), 1) if len(line) > WIDE]


def imports():
    """The lines of specs/ that are imports."""
    return [f"{path.relative_to(CRATES)}: {line.strip()}" for path in files_below("specs", ".antt") for line in lines_of(path) if IMPORT.match(line)]


def unused():
    """The crates that crates.txt names for a crate that has no word of them."""
    for line in (TOP / "crates.txt").read_text(encoding="utf-8").splitlines():
        name, _, others = line.partition(":")
        paths = [path for ending in (".rt", ".antt") for path in (CRATES / name).rglob("*" + ending) if "out" not in path.relative_to(CRATES).parts]
        text = "\n".join(path.read_text(encoding="utf-8") for path in paths)
        for other in others.split() if not line.startswith("#") else ():
            if not re.search(rf"\buse {other}\b|\b{other}::|\bRattle\.{other}\.", text):
                yield f"{name}: {other}"


ROWS = (("names that definitions of two or more crates have", shared), ("those that mean different things", unlike), ("twins", twins),
        ("definitions that the theorem rests on", rests), ("those of them in specs/inner or specs/laws", inner),
        ("comments that begin as half a sentence", half), ("names that are bare participles", participles),
        ("relations named by a bare verb", verbs), (f"pairs of records with {EQUAL_FIELDS} equal fields or more", twice),
        (f"lines of specs/ past {WIDE} columns", wide), ("crates named in crates.txt and not used", unused), ("lines of imports in specs/", imports))


def table():
    """The table."""
    made, source = numbers(), len(lines_in("src", ".rt"))
    specs, laws = (len(lines_in(folder, ".antt")) for folder in ("specs", "proofs/laws"))
    rows = [(f"{what} (`{find.__name__}`)", f"{len(list(find())):,}") for what, find in ROWS]
    rows.insert(4, ("their lines, and the steps from `run` to the last", f"{made['lines']:,}, {made['deep']}"))
    rows += [("lines of specs/, of proofs/laws/, and of src/", f"{specs:,}, {laws:,}, {source:,}"), ("specs/ to src/", f"{specs / source:.2f}")]
    return "| | |\n|---|---|\n" + "\n".join(f"| {what} | {count} |" for what, count in rows)


def main():
    parser = argparse.ArgumentParser(description=__doc__, formatter_class=argparse.RawDescriptionHelpFormatter)
    parser.add_argument("--list", choices=[find.__name__ for _, find in ROWS], metavar="ROW")
    chosen = parser.parse_args().list
    found = next((find for _, find in ROWS if find.__name__ == chosen), None)
    print("\n".join(found()) if found else table())


if __name__ == "__main__":
    main()
