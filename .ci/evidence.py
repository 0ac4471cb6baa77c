#!/usr/bin/env python3
"""Of which program the pages of evidence are: .ci/evidence.py [--write | --check]

Each page of evidence, and in docs/FIGURES.md each part that was measured apart, has a line `*Of the program `DIGEST` ..*` with the first 16 digits of
the SHA-256 of the program that was tried. The rest of the line says that it is the one in release/, by release/MANIFEST, or how many files of
`src/` changed since the commit that released it. Where a script wrote `with the digest `DIGEST`` into the same part, that is the digest.

--write renews these lines; whoever measured again by hand puts the new digest there first. --check fails where a page has no such line, where one isn't
what --write would make, and where no release had the program. Without a word the lines are printed. It needs Python 3, and git with the commit of the
release: in a shallow clone, or without git, the numbers of files aren't compared. It takes two seconds.
"""
import argparse
import re
import subprocess
import sys

sys.dont_write_bytecode = True
from specs import TOP

PAGES = [TOP / "docs" / name for name in ("CRASHES.md", "DIFFERENCES.md", "FIGURES.md", "HARD_CASES.md", "TOGETHER.md", "MIGRATING.md", "REAL.md")]
LINE = re.compile(r"^\*Of the program `([0-9a-f]{16})`([^*\n]*)\*$", re.M)
WRITTEN = re.compile(r"with\s+the\s+digest\s+`([0-9a-f]{16})`")
SOURCES = "crates/*/src/*.rt"


def git(*words):
    """What git answers; nothing where there is no git, or it fails."""
    try:
        return subprocess.run(["git", "-C", str(TOP), *words], stdout=subprocess.PIPE, stderr=subprocess.DEVNULL, text=True, check=False).stdout.split()
    except OSError:
        return []


def is_whole():
    """Whether git has all commits."""
    return git("rev-parse", "--is-shallow-repository") == ["false"]


def released():
    """The digest of the program in release/."""
    return re.search(r"^program (\w{16})", (TOP / "release" / "MANIFEST").read_text(encoding="utf-8"), re.M).group(1)


def changed_since(digest):
    """How many files of the code changed since the release of a program; None where no commit released it, or the commit isn't here."""
    commits = git("log", "--reverse", "--format=%H", f"-S{digest}", "--", "release/MANIFEST")
    return len(git("diff", "--name-only", commits[0], "--", SOURCES)) if commits else None


def line_of(digest, kept):
    """The line of a program, or what it says already where that can't be known here."""
    if digest == released():
        return f"*Of the program `{digest}`, which is the one in `release/`.*"
    changed = changed_since(digest) if is_whole() else None
    return f"*Of the program `{digest}`; since its release {changed} files of `src/` changed.*" if changed is not None else kept


def renewed(text):
    """A page with the lines of all its parts as they have to be; a part with a digest and no line gets one under its title."""
    parts = re.split(r"(?=^## )", text, flags=re.M)
    for at, part in enumerate(parts):
        written = WRITTEN.findall(part)
        if written and not LINE.search(part):
            title, _, rest = part.partition("\n")
            part = f"{title}\n\n*Of the program `{written[0]}`.*\n{rest}"
        parts[at] = LINE.sub(lambda found: line_of(written[0] if written else found.group(1), found.group(0)), part)
    return "".join(parts)


def faults(path, text):
    """What is wrong with the lines of a page."""
    lines = list(LINE.finditer(text))
    if not lines:
        yield "doesn't say of which program it is"
    if renewed(text) != text:
        yield "is of another program than it says, or more files changed: run .ci/evidence.py --write"
    for digest in sorted({found.group(1) for found in lines} - {released()}):
        if is_whole() and changed_since(digest) is None:
            yield f"no release had the program {digest}"
    for digest in sorted(set(WRITTEN.findall(text)) - {found.group(1) for found in lines}):
        yield f"has no line of the program {digest}: run .ci/evidence.py --write"


def main():
    parser = argparse.ArgumentParser(description=__doc__, formatter_class=argparse.RawDescriptionHelpFormatter)
    which = parser.add_mutually_exclusive_group()
    which.add_argument("--write", action="store_true")
    which.add_argument("--check", action="store_true")
    options, texts = parser.parse_args(), {path: path.read_text(encoding="utf-8") for path in PAGES}
    if options.write:
        for path, text in texts.items():
            path.write_text(renewed(text), encoding="utf-8")
    elif options.check:
        found = [f"{path.relative_to(TOP)} {fault}" for path, text in texts.items() for fault in faults(path, text)]
        if found:
            sys.exit("\n".join(found))
    else:
        for path, text in texts.items():
            print("\n".join(f"{path.relative_to(TOP)}: {found.group(0).strip('*')}" for found in LINE.finditer(text)))


if __name__ == "__main__":
    main()
