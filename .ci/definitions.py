#!/usr/bin/env python3
"""docs/DEFINITIONS.md, and how many definitions the theorem rests on: .ci/definitions.py [--write | --check | --fragments | --bare]

A definition is a record, a data type, an abbreviation or an unfoldable function of crates/*/specs. Without a word the script prints how many of
them, and how many of their lines, are reached from the clauses of `run` (.ci/reached.py says how), by crate. Lines are those without comments and
blank ones.

--write makes docs/DEFINITIONS.md, which has these definitions first and each with the first sentence of its comment, and puts both numbers into
README.md and docs/PROVED.md. --check fails where one of the three isn't what --write would make, and where there are more fragments than the number
that stands in this script. --fragments lists the definitions whose comment begins as half a sentence, and the functions whose name is a bare
participle. --bare lists the public definitions without a comment. It needs Python 3 alone, and takes three seconds.
"""
import argparse
import collections
import re
import sys

sys.dont_write_bytecode = True
from reached import reached
from specs import CRATES, DEFINITIONS, TOP, crates, files, items

PAGE = TOP / "docs" / "DEFINITIONS.md"
NAMING = [TOP / "README.md", TOP / "docs" / "PROVED.md"]
NUMBERS = re.compile(r"(rests\s+on\s+)[\d,]+(\s+definitions\s+of\s+)[\d,]+(\s+lines)")
WIDE, MOST_WORDS = 158, 14

# These numbers may fall, and are lowered when they do: a comment is one whole sentence, and a name is a noun or a predicate.
MOST_FRAGMENTS, MOST_PARTICIPLES = 0, 4
OPENING = re.compile(
    r"(?:it|its|and|or|of|so|with|without|their|they|them|these|those|this|that|by|in|from|for|on|under|within|among|as|to|at|up|then|else|also|both"
    r"|another|either|neither|which|while|the same|the other|the rest)\b", re.I)
NOUNS = {"nothing", "meaning", "ending", "reading", "closing", "padding", "ordering"}
IRREGULAR = set("begun built cut drawn fed found given held hidden kept laid left lost made meant met put read said sealed sent shown shut spent spread "
                "taken told torn worn written chosen".split())

HEAD = """# The definitions

`.ci/definitions.py --write` makes this page of the files in `crates/*/specs`, and the merge gate checks that it is current. Files of `specs/laws/` hold words
of what crates above cite, those of `specs/inner/` what a crate's own functions say: nobody has to believe either, and they aren't listed.

The definitions are computed, without the code, on small inputs: by `Fixtures.antt`, `Asking.antt` and `Defaults.antt` in `crates/rpm_print/proofs/`, and by
`Fixtures.antt` in the `proofs/` of `rpm_qfparse`, `rpm_file` and `rpm_qfeval`.

# What the theorem rests on

The theorem rests on {definitions:,} definitions of {lines:,} lines, in {files:,} files, the last of them {deep} steps from `run`. The check refuses a
wrong proof, but nothing checks that a definition says what its sentence says: so these are what a reader has to believe, beside what `docs/PROVED.md` has under
"What is trusted". They stand here from the page of the theorem down, crate by crate, and each with the first sentence of its comment. The theorem also rests on
{types} types and traits of the code, which follow each crate's name, and on what the library of Rattle defines.

| Crate | Definitions | Lines |
|---|---|---|
{table}"""
REST = """
# The others

Contracts below `run` name these, and the theorem doesn't rest on them. Each has the beginning of its comment.
"""


def is_public(it):
    """Whether other files may use a definition."""
    return it.public and it.kind in DEFINITIONS


def sentence(text):
    """The first sentence of a comment, without a number before it."""
    return re.split(r"\.(?:\s|$)", re.sub(r"^\d+\. ", "", text))[0]


def shortened(text):
    """A text up to the end of its first clause, and of few words."""
    first = re.split(r"[:;](?:\s|$)", sentence(text))[0].split()
    if len(first) <= MOST_WORDS:
        return " ".join(first)
    kept = " ".join(first[:MOST_WORDS])
    part = kept.rpartition(",")[0]
    return part if len(part.split()) > 3 else kept + " .."


def filled(words, first, other):
    """Words in lines of the page's width, with what stands in front of the first line and of the others."""
    lines, line = [], first
    for word in words:
        if len(line) + len(word) > WIDE and line.strip():
            lines.append(line.rstrip())
            line = other
        line += word + " "
    return "\n".join(lines + [line.rstrip()]) + "\n"


def listed(path, found, said):
    """The definitions of a file: each with what is said of it, and those without a comment last."""
    if not found:
        return ""
    specs = path.relative_to(CRATES).parents[-3]
    text = f"\n`{path.relative_to(CRATES / specs).with_suffix('')}`:\n\n"
    text += "".join(filled(f"`{it.name}`: {said(it.comment)}".split(), "- ", "  ") for it in found if it.comment)
    bare = ", ".join(f"`{it.name}`" for it in found if not it.comment)
    return text + (filled(bare.split(), "- ", "  ") if bare else "")


def counts():
    """The definitions that the theorem rests on and the types of the code, by crate, from the top down, with their files nearest first."""
    table = collections.OrderedDict((name, ([], [], [])) for name in reversed(crates()))
    for it, _ in reached():
        found, types, paths = table[it.crate]
        (found if it.kind in DEFINITIONS else types).append(it)
        if it.kind in DEFINITIONS and it.path not in paths:
            paths.append(it.path)
    return {name: row for name, row in table.items() if row[0]}


def numbers():
    """How many definitions the theorem rests on, their lines and files, how deep they go, and how many types and traits there are."""
    found = [(it, deep) for it, deep in reached() if it.kind in DEFINITIONS]
    return {"definitions": len(found), "lines": sum(len(it.lines) for it, _ in found), "files": len({it.path for it, _ in found}),
            "deep": max(deep for _, deep in found), "types": len(reached()) - len(found)}


def page():
    """The whole text."""
    known, text = {(it.path, it.name) for it, _ in reached()}, ""
    table = "".join(f"| `{name}` | {len(found):,} | {sum(len(it.lines) for it in found):,} |\n" for name, (found, _, _) in counts().items())
    for name, (_, types, paths) in counts().items():
        of_code = ", ".join(f"`{it.name}`" for it in types)
        text += f"\n## `{name}`\n" + ("\n" + filled(f"Of the code: {of_code}.".split(), "", "") if types else "")
        for path in paths:
            text += listed(path, [it for it in items(path).values() if (path, it.name) in known and it.kind in DEFINITIONS], sentence)
    text += REST
    for name in crates():
        part = "".join(listed(path, [it for it in items(path).values() if is_public(it) and (path, it.name) not in known], shortened) for path in files(name))
        text += f"\n## Others of `{name}`\n{part}" if part else ""
    return HEAD.format(table=table, **numbers()) + text


def documents():
    """The pages that this script writes or has numbers in: each with its text as it is and as it should be."""
    made = numbers()
    yield PAGE, PAGE.read_text(encoding="utf-8") if PAGE.exists() else "", page()
    for path in NAMING:
        text = path.read_text(encoding="utf-8")
        if not NUMBERS.search(text):
            sys.exit(f"{path.relative_to(TOP)} doesn't say on how many definitions of how many lines the theorem rests")
        yield path, text, NUMBERS.sub(rf"\g<1>{made['definitions']:,}\g<2>{made['lines']:,}\g<3>", text)


def every():
    """All definitions, those of specs/inner, specs/laws and proofs/laws too."""
    paths = [path for name in crates() for folder in ("specs", "proofs/laws") for path in sorted((CRATES / name / folder).rglob("*.antt"))]
    return [it for path in paths for it in items(path).values() if it.kind in DEFINITIONS]


def is_participle(it):
    """Whether a function's name says what was done, and not to what."""
    name = it.name
    return it.kind == "function" and name not in NOUNS and bool(re.fullmatch(r"[a-z]+(ed|ing)", name) or name in IRREGULAR)


def fragments():
    """The definitions whose comment begins as half a sentence, and those whose name is a bare participle."""
    return [it for it in every() if OPENING.match(it.comment)], [it for it in every() if is_participle(it)]


def check():
    """What isn't as it should be."""
    old = [str(path.relative_to(TOP)) for path, text, made in documents() if text != made]
    if old:
        yield f"{', '.join(old)}: not current: run .ci/definitions.py --write"
    limits = ((MOST_FRAGMENTS, "comments that begin as half a sentence"), (MOST_PARTICIPLES, "names that are bare participles"))
    for found, (most, what) in zip(fragments(), limits):
        if len(found) > most:
            yield f"{len(found)} {what}, more than {most}: .ci/definitions.py --fragments lists them"


def told(options):
    """What is printed where nothing is written."""
    if options.bare:
        return [f"{it.path.relative_to(TOP)}: {it.name}" for name in crates() for path in files(name) for it in items(path).values()
                if is_public(it) and not it.comment]
    if options.fragments:
        half, participles = fragments()
        lines = [f"{it.path.relative_to(TOP)}: {it.name}: {it.comment}" for it in half] + [f"{it.path.relative_to(TOP)}: {it.name}" for it in participles]
        return lines + [f"{len(half)} comments begin as half a sentence (at most {MOST_FRAGMENTS}), "
                        f"{len(participles)} names are bare participles (at most {MOST_PARTICIPLES}), of {len(every()):,} definitions"]
    made = numbers()
    lines = [f"{len(found):6,}{sum(len(it.lines) for it in found):7,}  {name}" for name, (found, _, _) in counts().items()]
    where = f"in {made['files']} files, the last {made['deep']} steps from run; and {made['types']} types and traits of the code"
    return lines + [f"{made['definitions']:6,}{made['lines']:7,}  in all: definitions, and their lines, {where}"]


def main():
    parser = argparse.ArgumentParser(description=__doc__, formatter_class=argparse.RawDescriptionHelpFormatter)
    which = parser.add_mutually_exclusive_group()
    for name in ("--write", "--check", "--fragments", "--bare"):
        which.add_argument(name, action="store_true")
    options = parser.parse_args()
    if options.write:
        for path, _, made in documents():
            path.write_text(made, encoding="utf-8")
    elif options.check:
        found = list(check())
        if found:
            sys.exit("\n".join(found))
    else:
        print("\n".join(told(options)))


if __name__ == "__main__":
    main()
