"""The definitions in crates/*/specs, as their files have them, for .ci/definitions.py and .ci/reached.py."""
import re
from collections import namedtuple
from functools import cache
from pathlib import Path

TOP = Path(__file__).resolve().parent.parent
CRATES = TOP / "crates"

# A definition or a lemma: where it is, its comment, its lines without comments and blank ones, and the names that it mentions, each with the name
# after a dot.
Item = namedtuple("Item", "crate path name kind public comment lines names")
DEFINITIONS = ("function", "record", "data")

USE = re.compile(r"^\s*(?:unfoldable |pub |ghost )*use ([\w.]+?)(?:\.\{(.*?)\})?(?: as (\w+))?;?$")
HEAD = re.compile(r"^ *((?:abbrev |unfoldable |opaque |pub |record |data )*)([^\s:({]+)")
WORD = re.compile(r"[^\s(){}\[\],;]+")
BINDERS = (re.compile(r"λ ([^.→=]*)\.(?:\s|$)"), re.compile(r"[({]([^(){}:]+?) :\s"), re.compile(r"\blet (\S+)"))
FIELD = re.compile(r"^ +(?:pub )?([\w']+) :", re.M)


def crates():
    """The names of the crates, in the order of crates.txt."""
    lines = (TOP / "crates.txt").read_text(encoding="utf-8").splitlines()
    return [line.split(":")[0].strip() for line in lines if line.strip() and not line.startswith("#")]


def files(crate):
    """The files of a crate's definitions, by name; what lies in specs/inner and specs/laws is left out."""
    specs = CRATES / crate / "specs"
    return sorted(path for path in specs.rglob("*.antt") if not {"inner", "laws"} & set(path.relative_to(specs).with_suffix("").parts))


@cache
def lines_of(path):
    """The lines of a file, with an import over several lines as one."""
    found, held = [], ""
    for line in path.read_text(encoding="utf-8").splitlines():
        held = f"{held} {line.strip()}" if held else line
        if not re.match(r"\s*(?:unfoldable |pub |ghost )*use\b", held) or held.count("{") <= held.count("}"):
            found, held = found + [held], ""
    return found


@cache
def imports(path):
    """What a file's imports bring: by name the path and the name there, or the path alone where a file or a type gets a new name."""
    found = {}
    for use in filter(None, map(USE.match, lines_of(path))):
        of, names, alias = use.groups()
        if names is None:
            found[alias or of.rpartition(".")[2]] = (of, None) if alias else (of.rpartition(".")[0], of.rpartition(".")[2])
        for name in names.split(",") if names else ():
            name, _, new = name.strip().partition(" as ")
            found[new or name] = (of, name)
    return found


def words(text):
    """The words of a text up to their first dot, each with what stands after it."""
    for word in WORD.findall(text):
        first, _, rest = word.strip(".").partition(".")
        yield first, rest.partition(".")[0]


def parts(path):
    """The definitions and lemmas of a file: each its name, the words before it, its comment and its lines."""
    found, level, comment, name, in_head = {}, 0, [], None, False
    for line in lines_of(path):
        text, indent = line.strip(), len(line) - len(line.lstrip())
        if text.startswith("--") or not text:
            comment = comment + [text.lstrip("-").strip()] if text else []
            continue
        if in_head or re.match(r"(?:unfoldable |pub )*use |pub mod |infix|mutual", text):
            in_head = in_head and not text.endswith("where")
            level = 2 if text == "mutual" else level
        elif text.startswith("module ") and indent <= level:
            level, in_head = indent + 2, not text.endswith("where")
        else:
            level = min(level, indent)
            head = HEAD.match(line) if indent == level and text[0] not in "]})" else None
            if head:
                marks, name = head.groups()
                if marks or name not in found:
                    found[name] = (name, marks.split(), " ".join(comment), [])
            if name in found:
                found[name][3].append(line)
        comment = []
    return found.values()


def kind_of(marks):
    """What a definition is by the words before its name."""
    return "record" if "record" in marks else "data" if "data" in marks else "function" if {"abbrev", "unfoldable"} & set(marks) else "lemma"


def bound(name, lines):
    """The names that a definition binds itself: parameters, variables of its clauses, and the fields of a record that it declares. A field that a
    value is made with isn't one: another definition may have its name."""
    text = "\n".join(lines)
    clauses = [line.partition(" =")[0] for line in lines if line.strip().startswith(name + " ") and f"{line} ".count(" = ")]
    variables = {word for clause in clauses for word in WORD.findall(clause)[1:] if word[0].islower()}
    groups = [group for binder in BINDERS for group in binder.findall(text)]
    fields = set(FIELD.findall(text)) if "record" in lines[0].split() else set()
    return {word for group in groups for word in group.split()} | variables | fields | {name}


@cache
def items(path):
    """The definitions and lemmas of a file by name."""
    found = {}
    for name, marks, comment, lines in parts(path):
        own = bound(name, lines)
        named = {(first, second) for first, second in words("\n".join(lines)) if first not in own or second and first[0].isupper()}
        found[name] = Item(path.relative_to(CRATES).parts[0], path, name, kind_of(marks), "pub" in marks, comment, lines, frozenset(named))
    return found


@cache
def constructors(path):
    """The name of a type by each of its constructors, for the types of a file."""
    return {found: it.name for it in items(path).values() if it.kind == "data"
            for line in it.lines[1:] for made in re.findall(r"^ +(?:pub )?([^:]+) :", line) for found in made.split()}
