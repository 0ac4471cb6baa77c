#!/usr/bin/env python3
"""What the documents say of the size of the tree: .ci/sizes.py [--write | --check]

Prints the table of docs/FIGURES.md that has the lines, clauses, must-fail edits, tests and worked rows of each crate, and the sentence of
README.md that sums it up. --write puts both into the documents, and into each row of the walks of crates/rpm_tool/README.md the lines of the
function's body and of its clauses; --check fails where they aren't current. Code and contracts are lines that are neither blank nor comments;
what a ghost use brings belongs to contracts. Of the rest all lines of a file count. Clauses are those of functions, as .ci/clauses.py reads
them. What crates of tests and rows have in src/ isn't counted as code. It needs Python 3 alone, and takes a second.
"""
import argparse
import re
import sys

sys.dont_write_bytecode = True
from clauses import read_source, read_tree
from specs import TOP, crates


HEAD = ("| Crate | Code | Contracts | Clauses | Definitions | Laws | Proofs | Must-fail edits | Tests | Worked rows | Lines of tests and rows |\n"
        "|---|---|---|---|---|---|---|---|---|---|---|\n")
TABLE = re.compile(r"\| Crate \| Code \|.*?\n\| in all \|[^\n]*\n", re.S)
SENTENCE = re.compile(r"The tree has [\d,]+ crates\b[^.]*\.")
WALKED = re.compile(r"^\| `(rpm_\w+)/(\w+\.rt):([\w:]+)` \|[ \d]*\|[ \d]*\|$", re.M)
COUNTS = ("code", "contracts", "clauses", "specs", "laws", "proofs", "edits", "tests", "rows", "tried")


def lines_below(folder, ending):
    """The lines of all files below a folder with this ending."""
    return [line for path in sorted(folder.rglob("*" + ending)) for line in path.read_text(encoding="utf-8").splitlines()]


def split_up(lines):
    """How many of these lines are code, and how many are contracts: requires and ensures to their closing brace, and ghost use."""
    code, contracts, depth = 0, 0, 0
    for line in (line.strip() for line in lines):
        if not line or line.startswith("//"):
            continue
        if depth or re.match(r"(requires|ensures)\b", line):
            depth += line.count("{") - line.count("}")
            contracts += 1
        elif line.startswith("ghost use"):
            contracts += 1
        else:
            code += 1
    return code, contracts


def row_of(name):
    """What is counted of a crate."""
    folder = TOP / "crates" / name
    source, data = lines_below(folder / "src", ".rt"), lines_below(folder / "data", ".rows")
    is_code = not name.endswith("_tests") and name not in ("rpm_rows", "rpm_row_files")
    items = read_tree(TOP, [name], "src", ".rt", read_source).values()
    code, contracts = split_up(source) if is_code else (0, 0)
    laws = len(lines_below(folder / "proofs" / "laws", ".antt"))
    return {
        "code": code,
        "contracts": contracts,
        "clauses": sum(not key.startswith("ghost") for item in items for key in item.clauses) if is_code else 0,
        "specs": len(lines_below(folder / "specs", ".antt")),
        "laws": laws,
        "proofs": len(lines_below(folder / "proofs", ".antt")) - laws,
        "edits": len(list((folder / "must-fail").glob("*.edit"))),
        "tests": sum(line.strip() == "#[test]" for line in source),
        "rows": sum(line.startswith("row ") for line in data),
        "tried": (0 if is_code else len(source)) + len(data),
    }


def counted():
    """The table, and the sentence."""
    rows = [(f"`{name}`", row_of(name)) for name in crates()]
    total = {key: sum(row[key] for _, row in rows) for key in COUNTS}
    table = HEAD + "".join(f"| {name} | " + " | ".join(f"{row[key]:,}" for key in COUNTS) + " |\n" for name, row in rows + [("in all", total)])
    sentence = (f"The tree has {len(rows)} crates: {total['code']:,} lines of code, {total['contracts']:,} of contracts with {total['clauses']:,} clauses,\n"
                f"{total['specs']:,} of definitions, {total['laws']:,} of laws, {total['proofs']:,} of proofs, "
                f"{total['edits']:,} must-fail edits, {total['tests']:,} tests and {total['rows']:,} worked rows.")
    return table, sentence


def function_lines(path, name):
    """The lines of a function up to its body, and those of its body. Where the name has a type, it is the first such function of that type."""
    owner, _, last = name.rpartition("::")
    lines = path.read_text(encoding="utf-8").splitlines()
    start = next(i for i, line in enumerate(lines) if not owner or re.match(rf"impl\b.*\b{owner}\b", line))
    first = next(i for i in range(start, len(lines)) if re.match(rf" *(pub(\(crate\))? )?fn {last}\b", lines[i]))
    indent = lines[first][:-len(lines[first].lstrip())]
    begin = next(i for i in range(first, len(lines)) if lines[i].endswith(" {") or lines[i] == indent + "{")
    end = next(i for i in range(begin, len(lines)) if lines[i] == indent + "}")
    return lines[first:begin], lines[begin + 1:end]


def walked(row):
    """A row of a walk, with the lines of its function's body and of its clauses."""
    crate, file, name = row.groups()
    head, body = function_lines(TOP / "crates" / crate / "src" / file, name)
    return f"| `{crate}/{file}:{name}` | {split_up(body)[0]} | {split_up(head)[1]} |"


def documents():
    """The documents, each with its text as it is and as it should be."""
    table, sentence = counted()
    for path, place, text in ((TOP / "README.md", SENTENCE, lambda _: sentence), (TOP / "docs" / "FIGURES.md", TABLE, lambda _: table),
                              (TOP / "crates" / "rpm_tool" / "README.md", WALKED, walked)):
        old = path.read_text(encoding="utf-8")
        if not place.search(old):
            sys.exit(f"{path.relative_to(TOP)} has no place for the counts")
        yield path, old, place.sub(text, old)


def main():
    parser = argparse.ArgumentParser(description=__doc__, formatter_class=argparse.RawDescriptionHelpFormatter)
    which = parser.add_mutually_exclusive_group()
    which.add_argument("--write", action="store_true")
    which.add_argument("--check", action="store_true")
    options = parser.parse_args()
    if options.write:
        for path, _, made in documents():
            path.write_text(made, encoding="utf-8")
    elif options.check:
        old = [str(path.relative_to(TOP)) for path, text, made in documents() if text != made]
        if old:
            sys.exit(f"{', '.join(old)}: the counts aren't current: run .ci/sizes.py --write")
    else:
        print("\n".join(counted()))


main()
