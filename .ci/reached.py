"""On which definitions the theorem rests: what is reached from the clauses of `run`, for .ci/definitions.py.

From the clauses of `run` and the types of its parameters it goes through each name to what it means: a definition of specs/, through imports, new
names and pages that hand on; and of the code a trait, whose clauses `run` supposes, or a type with its model. What the library of Rattle defines
isn't followed. A name that a definition binds itself, as a parameter or a field, isn't one of another file's.
"""
import re
from functools import cache

from specs import CRATES, Item, constructors, imports, items, words

ROOT = CRATES / "rpm_tool" / "src" / "command.rt"
TYPE = r"^(?:pub(?:\([^)]*\))? )?(struct|enum|trait) {name}\b"


@cache
def declared(crate, name):
    """A trait or a type of the code: a trait's clauses, and what the model of a type says, name other things."""
    for path in sorted((CRATES / crate / "src").rglob("*.rt")):
        lines = path.read_text(encoding="utf-8").splitlines()
        starts = [(at, found.group(1)) for at, line in enumerate(lines) for found in [re.match(TYPE.format(name=name), line)] if found]
        if starts:
            at, kind = starts[0]
            block = lines[at:lines.index("}", at) + 1] if not lines[at].endswith((";", "}")) else [lines[at]]
            models = [at for at, line in enumerate(lines) if re.match(rf"impl\b.*\bModel for {name}\b", line)]
            said = [line for at in models for line in lines[at:lines.index("}", at) + 1]]
            kept = [line for line in block + said if line.strip() and not line.strip().startswith("//")]
            names = frozenset(words("\n".join(block if kind == "trait" else said)))
            return Item(crate, path, name, kind, True, "", kept, names)
    return None


def meant(path, first, second, seen=()):
    """What a name means in a file, or None where it is the library's, or names no definition."""
    own = items(path) if path.suffix == ".antt" else {}
    if first in own:
        return own[first]
    if own and first in constructors(path):
        return own[constructors(path)[first]]
    uses = imports(path)
    if not first.startswith("◌") and (f"◌{first}◌" in uses or f"◌{first}◌" in own):
        return meant(path, f"◌{first}◌", "", seen)
    if first not in uses or len(seen) > 20:
        return None
    of, name = uses[first]
    return named(of, name or second, (*seen, path))


def named(of, name, seen):
    """What a name of a module is."""
    first, crate, *rest = of.split(".") + [""]
    if first != "Rattle" or not (CRATES / crate).is_dir():
        return None
    if "declared" in rest:
        types = [part for part in [*rest, name] if part[:1].isupper() and part != "TheVariants"]
        return declared(crate, types[0]) if types else None
    path = (CRATES / crate).joinpath(*rest[:-1]).with_suffix(".antt")
    return meant(path, name, "", seen) if name and path.exists() else None


def roots():
    """What the clauses of `run` name, and the types of its parameters and answers."""
    lines = ROOT.read_text(encoding="utf-8").splitlines()
    begin = next(at for at, line in enumerate(lines) if line.startswith("pub fn run"))
    text = "\n".join(line for line in lines[begin:lines.index("{", begin)] if not line.strip().startswith("//"))
    uses = re.findall(r"^use (rpm_\w+)::\{?([^};]+)\}?;", "\n".join(lines), re.M)
    types = {name: crate for crate, names in uses for name in names.split(", ")}
    found = [meant(ROOT, first, second) for first, second in sorted(set(words(text)))]
    return [it for it in found + [declared(types[name], name) for name in re.findall(r"\w+", text) if name in types] if it]


@cache
def reached():
    """All that the theorem rests on, nearest first: each item with the number of steps from `run`."""
    left, found = [(it, 1) for it in roots()], {}
    while left:
        it, deep = left.pop(0)
        if (it.path, it.name) not in found:
            found[it.path, it.name] = (it, deep)
            left += [(other, deep + 1) for first, second in sorted(it.names) for other in [meant(it.path, first, second)] if other]
    return list(found.values())
