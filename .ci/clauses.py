#!/usr/bin/env python3
"""What the contracts of two trees say: .ci/clauses.py [--all] [--words FILE] [--crate NAME ..] OLD NEW
How much one tree's contracts say:      .ci/clauses.py [--all] [--many N] --count TREE

A tree is a checkout, as a folder. Of each public function, of each trait and of each type with ghost fields the clauses are compared by kind,
name and text, however they are laid out; so is each definition of specs/. `-` stands before what only OLD says, `+` before what only NEW
says; of a clause that differs both texts are printed, and of a definition the lines that differ. A clause whose text stands under another
name of the same function is `=`. The exit status is 1 where anything differs.

--all compares or lists private functions too. --words FILE rewrites OLD's clauses first: each line of FILE is a regular expression, a tab and
what replaces it. --crate NAME keeps to crates of these names. --many N lists the functions with N clauses or more, 15 where it isn't given.
Tests are left out. What is read is the layout that `rt fmt` gives.
"""
import argparse
import collections
import difflib
import re
import signal
import sys
from pathlib import Path

WIDE = 120

OWNER = re.compile(r"^( *)(?:pub(?:\([^)]*\))? )?(?:unsafe )?(impl|trait|struct|enum|mod)\b(.*)\{$")
FUNCTION = re.compile(r"^( *)(pub(?:\([^)]*\))? )?(?:const |unsafe )*fn (\w+)")
CLAUSE = re.compile(r"^( *)(requires|ensures|ghost)\*? ?(\w*)(?::| =)? ?\{")
KEYWORDS = re.compile(r"^((?:abbrev|unfoldable|pub|record|data|mutual|infixl \d+|infixr \d+|infix \d+) )*")

# a function, trait or type: whether callers see it, and its clauses; a clause: its text on one line, and over how many lines it is laid out
Item = collections.namedtuple("Item", "public clauses")
Clause = collections.namedtuple("Clause", "text lines")


def joined(lines):
    """Lines as one, without comments, with single spaces."""
    kept = (line for line in lines if not line.lstrip().startswith(("//", "--")))
    return " ".join(" ".join(kept).split())


def source_files(tree, folder, suffix, crates, tests=False):
    """The crate and the path of each file of crates/*/FOLDER; tests are left out where they aren't asked for."""
    for crate in sorted(path for path in Path(tree, "crates").iterdir() if (path / folder).is_dir()):
        if crates and crate.name not in crates:
            continue
        for path in sorted((crate / folder).rglob("*" + suffix)):
            if tests or not any(re.search(r"(^|_)tests$", part) for part in path.relative_to(crate.parent).with_suffix("").parts):
                yield crate.name, path


# ---- clauses of .rt

def owner_name(kind, rest):
    """`Overlay<D> as Disk` of an impl of a trait, else the name of the type, the trait or the module; and whether all its functions are public."""
    if kind == "impl":
        ends = [i + 1 for i in range(len(rest)) if rest[:i + 1].count("<") == rest[:i + 1].count(">")]
        trait, _, owner = (rest[ends[0]:] if rest.startswith("<") else rest).rpartition(" for ")
        return (f"{owner.strip()} as {trait.strip()}", True) if trait else (owner.strip(), False)
    return re.match(r"\w*", rest.strip()).group(0), kind == "trait"


def clause_end(lines, start):
    """The index behind the clause that begins here: behind its last brace."""
    depth, i = 0, start
    while depth > 0 or i == start:
        depth += lines[i].count("{") - lines[i].count("}")
        i += 1
    return i


def read_clauses(lines, start, indent, is_end):
    """The clauses from here on that stand one level behind this indent, by kind and name, and the index behind the line that ends them."""
    clauses, i = {}, start
    while i < len(lines):
        found = CLAUSE.match(lines[i])
        if not found or found.group(1) != indent + "    ":
            i += 1
            if is_end(lines[i - 1], not clauses):
                break
            continue
        end = clause_end(lines, i)
        key = f"{found.group(2)} {found.group(3)}".strip()
        key = key if key not in clauses else f"{key} #{len(clauses)}"
        clauses[key] = Clause(joined(lines[i:end]).rstrip(";,"), end - i)
        i = end
        if found.group(2) != "ghost" and lines[end - 1].endswith("};"):
            break
    return clauses, i


def read_function(lines, start, indent):
    """The clauses of a function, and the index behind its body."""
    def is_end(line, bare):
        return line == indent + "{" or bare and line.endswith((" {", "{}", ";"))

    clauses, end = read_clauses(lines, start, indent, is_end)
    has_body = not lines[end - 1].endswith((";", "{}"))
    return clauses, lines.index(indent + "}", end) + 1 if has_body else end


def read_source(lines, where):
    """The functions, traits and types of a file, by path."""
    items, owners, i = {}, [], 0
    while i < len(lines):
        owner, function = OWNER.match(lines[i]), FUNCTION.match(lines[i])
        path = [where] + [name for _, name, _ in owners]
        if function:
            public = function.group(2) == "pub " or any(shown for _, _, shown in owners)
            clauses, i = read_function(lines, i, function.group(1))
            items["::".join(path + [function.group(3)])] = Item(public, clauses)
            continue
        if owner:
            indent, name, shown = owner.group(1), *owner_name(owner.group(2), owner.group(3))
            owners.append((indent, name, shown))
            clauses, _ = read_clauses(lines, i + 1, indent, lambda line, _: line == indent + "}")
            if any(key.startswith("ghost ") for key in clauses):
                items["::".join(path + [name])] = Item(True, {key: clause for key, clause in clauses.items() if key.startswith("ghost ")})
        elif owners and lines[i] == owners[-1][0] + "}":
            owners.pop()
        i += 1
    return items


# ---- definitions of .antt

def defined_name(line, known):
    """The name that a line at the level of its module begins to define, or goes on with."""
    bare = KEYWORDS.sub("", line)
    word = re.match(r"[^\s:({]*", bare).group(0)
    return word if bare != line or word in known or bare.startswith(word + " :") else None


def read_definitions(lines, where):
    """The lines of each definition of a file by path, without comments; those of a parameterised module begin with its head."""
    found, head, level, name, in_head = {}, [], 0, "", False
    for line in lines:
        rest = line.strip()
        if not rest or rest.startswith(("--", "use ", "pub mod ")):
            continue
        indent = len(line) - len(line.lstrip())
        if indent < level:
            head, level = [], 0
        if indent == level and rest.startswith("module "):
            head, level, in_head = [], indent + 2, True
        if in_head:
            head.append(rest)
            in_head = not rest.endswith("where")
            continue
        if indent == level:
            name = defined_name(rest, found) or name
        found.setdefault(name, list(head)).append(line.rstrip())
    return {f"{where} {name}": lines for name, lines in found.items()}


# ---- comparing, and counting

def read_tree(tree, crates, folder, suffix, read):
    """What `read` finds in each file of crates/*/FOLDER."""
    found = {}
    for crate, path in source_files(tree, folder, suffix, crates):
        where = "/".join(path.relative_to(Path(tree, "crates")).with_suffix("").parts)
        found.update(read(path.read_text(encoding="utf-8").splitlines(), where))
    return found


def compared_clauses(old, new, rules):
    """The lines that say in what two items' clauses differ."""
    said = {key: clause.text for key, clause in old.items()}
    for pattern, text in rules:
        said = {key: re.sub(pattern, text, clause) for key, clause in said.items()}
    now = {key: clause.text for key, clause in new.items()}
    body = {text[text.index("{"):]: key for key, text in now.items()}
    for key in list(said) + [key for key in now if key not in said]:
        before, after = said.get(key), now.get(key)
        if before == after:
            continue
        same = before and body.get(before[before.index("{"):])
        if after is None and same:
            yield f"  = {key} is now {same}"
            continue
        if before is not None:
            yield f"  - {before}"
        if after is not None:
            yield f"  + {after}"


def differences(options):
    """The name of each function, type and definition that the two trees say otherwise, and the lines that say in what."""
    rules = [line.split("\t") for line in options.words.read_text(encoding="utf-8").splitlines()] if options.words else []
    old, new = (read_tree(tree, options.crate, "src", ".rt", read_source) for tree in options.trees)
    for name in sorted(old.keys() | new.keys()):
        before, after = old.get(name, Item(False, {})), new.get(name, Item(False, {}))
        if options.all or before.public or after.public:
            lines = list(compared_clauses(before.clauses, after.clauses, rules))
            side = "" if name in old and name in new else f" (only in {'OLD' if name in old else 'NEW'})"
            if side or lines:
                yield name + side, lines
    old, new = (read_tree(tree, options.crate, "specs", ".antt", read_definitions) for tree in options.trees)
    for name in sorted(old.keys() | new.keys()):
        before, after = old.get(name, []), new.get(name, [])
        if joined(before) != joined(after):
            yield name, ["  " + line for line in difflib.ndiff(before, after) if line[0] in "+-"]


def compared(options):
    """Prints what two trees say otherwise, and answers 1 where that is anything."""
    told = [line for name, lines in differences(options) for line in [name] + lines]
    print("\n".join(told) or "the same")
    return int(bool(told))


def counted(options):
    """Prints a table of crates, and which functions have the most clauses."""
    tree, table, most = options.trees[0], collections.defaultdict(collections.Counter), []
    for name, item in read_tree(tree, options.crate, "src", ".rt", read_source).items():
        asked = [clause for key, clause in item.clauses.items() if not key.startswith("ghost")]
        columns = sum(len(clause.text) for clause in asked)
        table[name.split("/")[0]].update(clauses=len(asked), lines=sum(clause.lines for clause in asked), columns=columns)
        if (item.public or options.all) and len(asked) >= options.many:
            most.append((len(asked), columns, name))
    for crate, path in source_files(tree, "src", ".rt", options.crate, tests=True):
        lines = path.read_text(encoding="utf-8").splitlines()
        table[crate]["wide"] += sum(len(line) > WIDE and not line.lstrip().startswith("ghost use ") for line in lines)
    keys = ("clauses", "lines", "columns", "wide")
    print(" " * 14 + "".join(f"{key:>10}" for key in keys))
    for crate, row in sorted(table.items()) + [("all", sum(table.values(), collections.Counter()))]:
        print(f"{crate:14}" + "".join(f"{row[key]:10}" for key in keys))
    print(f"lines: of clauses; columns: of clauses as one line each; wide: lines of src past {WIDE} columns, imports aside\n")
    print(f"{len(most)} {'' if options.all else 'public '}functions with {options.many} clauses or more (clauses, columns)")
    for count, columns, name in sorted(most, reverse=True):
        print(f"{count:4}{columns:7}  {name}")


def main():
    parser = argparse.ArgumentParser(description=__doc__, formatter_class=argparse.RawDescriptionHelpFormatter)
    parser.add_argument("--all", action="store_true")
    parser.add_argument("--count", action="store_true")
    parser.add_argument("--words", type=Path)
    parser.add_argument("--crate", action="append")
    parser.add_argument("--many", type=int, default=15)
    parser.add_argument("trees", nargs="+", metavar="TREE")
    options = parser.parse_args()
    if len(options.trees) != (1 if options.count else 2):
        parser.error("one tree with --count, else two")
    return counted(options) if options.count else compared(options)


if __name__ == "__main__":
    signal.signal(signal.SIGPIPE, signal.SIG_DFL)
    sys.exit(main())
