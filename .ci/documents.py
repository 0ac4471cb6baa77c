#!/usr/bin/env python3
"""The form of the documents: .ci/documents.py [--check]

The documents are the pages at the top, docs/*.md, and the README.md of each crate and folder. Prints how many words each has: runs of characters
without a blank that have a letter, so neither bars of tables nor figures count. With --check it prints what breaks a rule, and fails where
anything does. It needs Python 3 alone, and takes a second.

- No line is longer than 160 columns, and no paragraph, item or cell of a table has more than 120 words.
- What one reads to work here has at most 14,000 words: README.md, CONTRIBUTING.md, MAP, PROVED and DECISIONS of docs/, and the crates' pages.
  References, and pages of evidence, have as many as they need.
- The words of the glossary in docs/MAP.md are used: none of those that they replace stands outside of code.
- Each crate has a page, and a row in README.md and docs/MAP.md; each file of the crate that its page names is there, and all that it names under
  "Proved" is a word of the crate's src or specs; so is each field of the theorem that README.md and docs/PROVED.md name with a dot, as `plain.went`.
- docs/PROVED.md names each field of the theorem's page, from its first numbered part on.
- README.md names the greatest share of rpm's instructions that the table against rpm in docs/FIGURES.md has.
"""
import argparse
import re
import sys
from functools import cache

sys.dont_write_bytecode = True
from evidence import PAGES
from specs import TOP, crates

MADE = TOP / "docs" / "DEFINITIONS.md"
EVIDENCE = [*PAGES, TOP / "CHANGELOG.md", TOP / "docs" / "CHANGELOG.md"]
TO_WORK = [TOP / name for name in ("README.md", "CONTRIBUTING.md", "docs/MAP.md", "docs/PROVED.md", "docs/DECISIONS.md")]
KINDS = ("to work here", "reference", "evidence")
MOST_COLUMNS, MOST_IN_PARAGRAPH, MOST_TO_WORK = 160, 120, 14_000
REPLACED = re.compile(r"\b(?:behind|anew|tells|told|(?<!\.)stops? (?:leaves|at)|a stop|power cut)\b", re.I)

FILE = re.compile(r"`(?:(rpm_\w+)/)?(?:[\w/]*/)?(\w+\.(?:rt|antt|rows))`")
NAME = re.compile(r"\w+")
FIELD = re.compile(r"^ +pub (\w+) :", re.M)


def documents():
    """All documents, in the order of reading."""
    pages = [path for folder in ("*.md", "docs/*.md", "*/README.md", "example/*/README.md", "crates/*/README.md") for path in sorted(TOP.glob(folder))]
    return sorted(pages, key=lambda path: KINDS.index(kind_of(path)))


def words_of(text):
    """How many words a text has."""
    return sum(any(it.isalpha() for it in word) for word in text.split())


def kind_of(path):
    """What a document is counted among."""
    return "evidence" if path in EVIDENCE else "to work here" if path in TO_WORK or path.parent.parent == TOP / "crates" else "reference"


def words_in_all(texts, kind):
    """How many words all pages of a kind have."""
    return sum(words_of(text) for path, text in texts.items() if kind_of(path) == kind)


def paragraphs(lines):
    """Each paragraph, item and cell with the number of its first line; blocks of code are none."""
    start, text = 1, []
    for number, line in enumerate(lines + [""], 1):
        is_new = not line.strip() or line.startswith(("    ", "|", "#")) or re.match(r" *(?:[-*]|\d+\.) ", line)
        if is_new and text:
            yield start, " ".join(text)
            text = []
        if line.startswith("|"):
            yield from ((number, cell) for cell in line.split("|"))
        elif line.strip() and not line.startswith("    "):
            start, text = (number if not text else start), text + [line.strip()]


def faults_of_form(path, text):
    """What breaks a rule in one document."""
    lines = text.splitlines()
    for number, line in enumerate(lines, 1):
        if len(line) > MOST_COLUMNS:
            yield number, f"{len(line)} columns"
    for number, paragraph in paragraphs(lines):
        count = words_of(paragraph)
        if count > MOST_IN_PARAGRAPH:
            yield number, f"a paragraph of {count} words"
        if path != MADE:
            for found in REPLACED.finditer(re.sub(r"`[^`]*`", "", paragraph)):
                yield number, f"`{found.group(0)}` isn't the word of the glossary"


@cache
def files_of(crate):
    """The names of a crate's files, and of all rows."""
    folder = TOP / "crates"
    return {path.name for path in (folder / crate).rglob("*.*")} | {path.name for path in folder.glob("*/data/*.rows")}


def faults_of_crates(texts):
    """Crates without a page or a row, and files that a page names and its crate doesn't have."""
    for crate in crates():
        page = TOP / "crates" / crate / "README.md"
        if page not in texts:
            yield page, 1, "the crate has no page"
            continue
        for where in (TOP / "README.md", TOP / "docs" / "MAP.md"):
            if f"`{crate}`" not in texts[where]:
                yield where, 1, f"`{crate}` has no row"
        for number, line in enumerate(texts[page].splitlines(), 1):
            yield from ((page, number, f"there is no {name}") for other, name in FILE.findall(line) if name not in files_of(other or crate))
        known = named(NAME, page.parent / "src", "*.rt") | named(NAME, page.parent / "specs", "*.antt")
        proved = texts[page].partition("## Proved\n")[2].partition("\n## ")[0]
        for name in sorted(set(NAME.findall(" ".join(re.findall(r"`([\w: ]+)`", proved)))) - known):
            if not name.startswith("rpm_"):
                yield page, 1, f"under Proved: the crate has no {name}"


def faults_of_fields(texts):
    """Fields that README.md and docs/PROVED.md name and the theorem doesn't have, and the other way round."""
    specs, proved = TOP / "crates" / "rpm_tool" / "specs", TOP / "docs" / "PROVED.md"
    changes = (TOP / "crates" / "rpm_commit" / "specs" / "Answers.antt").read_text(encoding="utf-8")
    fields = named(FIELD, specs, "*.antt") | set(FIELD.findall(changes))
    page = (specs / "Theorem.antt").read_text(encoding="utf-8").partition("-- 1. ")[2] + changes
    yield from ((proved, 1, f"the theorem's field {name} isn't named") for name in FIELD.findall(page)
                if not re.search(rf"`(?:\w+\.)?{name}`", texts[proved]))
    for path in (TOP / "README.md", proved):
        for number, line in enumerate(texts[path].splitlines(), 1):
            for name in re.findall(r"`(?:plain|files|keyed|changes)\.(\w+)", line):
                if name not in fields:
                    yield path, number, f"the theorem has no field {name}"


def faults_of_figures(texts):
    """A share of rpm's instructions in README.md that isn't the greatest of the tables, over sqlite or over ndb, to two places."""
    readme, table = TOP / "README.md", texts[TOP / "docs" / "FIGURES.md"].partition("## Against rpm")[2].partition("\n## Updates")[0]
    most = max((float(share) for share in re.findall(r"(?<=\| )\d\.\d{3}(?= \|)", table)), default=0)
    if f"at most {most:.2f} of them" not in texts[readme]:
        yield readme, 1, f"the greatest share of rpm's instructions is {most:.2f}"


def named(pattern, folder, kind):
    """What this pattern names in the files of a folder."""
    return {name for path in folder.rglob(kind) for name in pattern.findall(path.read_text(encoding="utf-8"))}


def faults(texts):
    """All that breaks a rule: where, and what."""
    for path, text in texts.items():
        yield from ((path, number, fault) for number, fault in faults_of_form(path, text))
    yield from faults_of_crates(texts)
    yield from faults_of_fields(texts)
    yield from faults_of_figures(texts)
    words = words_in_all(texts, "to work here")
    if words > MOST_TO_WORK:
        yield TOP / "README.md", 1, f"all that one reads to work here has {words:,} words, more than {MOST_TO_WORK:,}"


def main():
    parser = argparse.ArgumentParser(description=__doc__, formatter_class=argparse.RawDescriptionHelpFormatter)
    parser.add_argument("--check", action="store_true")
    texts = {path: path.read_text(encoding="utf-8") for path in documents()}
    if parser.parse_args().check:
        found = [f"{path.relative_to(TOP)}:{number}: {fault}" for path, number, fault in faults(texts)]
        if found:
            sys.exit("\n".join(found))
        return
    for path, text in texts.items():
        print(f"{words_of(text):7,}  {path.relative_to(TOP)} ({kind_of(path)})")
    for kind in KINDS:
        print(f"{words_in_all(texts, kind):7,}  {kind}")


main()
