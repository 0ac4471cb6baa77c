#!/usr/bin/env python3
"""Makes the completions of bash and zsh from the tables of the code: completion/make.py [--check]

Writes completion/rpm.bash and completion/_rpm: the options with what goes with which, the tags and the formatters, as the code spells them, and
then core.sh and the shell's own part. With --check it writes nothing, and fails where a file isn't current. What each argument is, beside a
number, stands below alone: an option of the code that isn't there is an error.
"""
import re
import sys
from pathlib import Path

HERE = Path(__file__).resolve().parent
CRATES = HERE.parent / "crates"

# The arguments of each selection and mode, in their order: files, names of packages, groups, or the elements of a tag.
ARGUMENTS = {"All": "names", "Label": "names", "Path": "files", "Group": "groups", "Package": "files", "Trigger": "TRIGGERNAME",
             "Directory": "DIRNAMES", "Number": "numbers", "Tid": "transactions", "Provides": "PROVIDENAME", "Requires": "REQUIRENAME",
             "Conflicts": "CONFLICTNAME", "Obsoletes": "OBSOLETENAME", "Recommends": "RECOMMENDNAME",
             "Query": "names", "Addpkg": "files", "Erasepkg": "numbers", "Replacepkg": "numbers,files,none"}
VALUES = {"Format": "format", "After": "numbers", "Folder": "folders", "Exercise": "number"}
ARM = re.compile(r"((?:Switch|Chosen|Command)::(?:[^=]|=(?!>))*?)\s*=>\s*(.*?),\n", re.S)


def text(file):
    return (CRATES / "rpm_words/src" / file).read_text(encoding="utf-8")


def body(code, head):
    """The code of the function with this head."""
    rest = code.partition(head)[2]
    return rest[:rest.index("\n    }\n")]


def names(pattern):
    """Each alternative of a pattern: (Choose, All), (Nofiles, None)."""
    return re.findall(r"(?:Switch|Chosen|Command)::(\w+)(?:\((?:Chosen::|Command::)?(\w+)\))?", pattern)


def arms(code):
    """The arms of a match: the alternatives, and what they give."""
    for pattern, given in ARM.findall(code):
        yield names(pattern), given


def modes():
    """All modes, by the type of the code."""
    return re.findall(r"^    (\w+),", text("switch.rt").partition("enum Command {")[2].partition("}")[0], re.M)


def modes_of(switch, inner):
    """The modes in which an option may stand."""
    if switch == "Mode":
        return [inner]
    for alternatives, given in arms(body(text("broken.rt"), "fn is_misplaced(self, command: Command) -> bool")):
        if (switch, inner) in alternatives or any(one == switch and other in ("", "_") for one, other in alternatives):
            if given == "false":
                return modes()
            if given.startswith("!matches!(command, "):
                return re.findall(r"Command::(\w+)", given)
    sys.exit(f"completion: in which modes {switch} {inner} may stand isn't said")


def rule_of(inner):
    """How the code names the arguments of a selection or a mode."""
    for alternatives, given in arms(body(text("takes.rt"), "fn takes(self) -> ArgumentRule") + body(text("takes.rt"), "fn takes(self, chosen: Chosen)")):
        if (inner, "") in alternatives:
            return given
    sys.exit(f"completion: which arguments {inner} takes isn't said")


def arguments_of(inner):
    """What the arguments of a selection or a mode are, which has to agree with the code."""
    rule = rule_of(inner)
    if "Nothing" in rule:
        return "none"
    if inner not in ARGUMENTS:
        sys.exit(f"completion: what the arguments of {inner} are isn't said")
    if ("Number" in rule) != (ARGUMENTS[inner].split(",")[0] in ("numbers", "transactions")):
        sys.exit(f"completion: whether the arguments of {inner} are numbers isn't as the code has it")
    return ARGUMENTS[inner]


def found(pattern, code, begin):
    """What a pattern finds in a table, whose rows begin so: as often as they do."""
    rows = re.findall(pattern, code)
    if not rows or len(rows) != code.count(begin):
        sys.exit(f"completion: not all rows {begin} could be read")
    return rows


def spellings():
    """Each option: the program, its spelling, and the code's names of it."""
    code = text("switch.rt")
    for table, program in (("RPM", "rpm"), ("RPMDB", "rpmdb")):
        rows = code.partition(f"const {table}: &[Spelling]")[2].partition("];")[0]
        yield from ((program, *row) for row in found(r'Spelling\("(--\w+)", Switch::(\w+)(?:\(\w+::(\w+)\))?\)', rows, "Spelling("))
    for letter, switch, inner in found(r"b'(\w)' => Some\(Switch::(\w+)(?:\(\w+::(\w+)\))?\)", code, "b'"):
        yield "rpm", f"-{letter}", switch, inner


def has_value(switch, inner):
    taken = names(body(text("purpose.rt"), "fn takes_value(self) -> bool"))
    return (switch, inner) in taken


def rows():
    """The arms of the shell's function: one for each option, with all its spellings."""
    grouped = {}
    for program, spelling, switch, inner in spellings():
        grouped.setdefault((program == "rpmdb", switch, inner), []).append(f"'{program} {spelling}'")
    for (_, switch, inner), spelled in grouped.items():
        kind = {"Mode": "mode", "Choose": "selection"}.get(switch, "option")
        value = VALUES[inner or switch] if has_value(switch, inner) else ""
        arguments = arguments_of(inner) if kind != "option" else ""
        yield (f"        {' | '.join(spelled)}) kind={kind} name={inner or switch} modes='{' '.join(modes_of(switch, inner))}'"
               f" value={value} arguments={arguments} ;;")


def listed(program, dashes):
    return " ".join(spelling for of, spelling, *_ in spellings() if of == program and spelling.startswith("--") == dashes)


def tables():
    """The tables as a shell reads them."""
    tags = found(r'Row\(Tag::[^"]*"(\w+)"', (CRATES / "rpm_tags/src/tag.rt").read_text(encoding="utf-8"), "Row(Tag::")
    shows = found(r'Row\(Show::\w+, "(\w+)"', (CRATES / "rpm_qfparse/src/tag.rt").read_text(encoding="utf-8"), "Row(Show::")
    return "\n".join([
        f"_juzkarg_modes='{' '.join(modes())}'", f"_juzkarg_rpm='{listed('rpm', True)}'", f"_juzkarg_short='{listed('rpm', False)}'",
        f"_juzkarg_rpmdb='{listed('rpmdb', True)}'", f"_juzkarg_formatters='{' '.join(shows)}'", f"_juzkarg_tags='{' '.join(tags)}'", "",
        "# What an option is: in which modes it may stand, what its value is, and what the arguments are that it asks for.",
        "_juzkarg_option() {", "    case $1 in", *rows(), "        *) return 1 ;;", "    esac", "}"])


def main():
    wanted = {}
    for file, head, shell in (("rpm.bash", "# bash completion of rpm and rpmdb", "bash.sh"),
                              ("_rpm", "#compdef rpm rpmdb juzkarg-rpm juzkarg-rpmdb", "zsh.sh")):
        parts = [(HERE / part).read_text(encoding="utf-8") for part in ("core.sh", shell)]
        wanted[file] = "\n".join([head, "# Made by completion/make.py.", "", tables(), "", *parts])
    if sys.argv[1:] == ["--check"]:
        stale = [file for file, made in wanted.items() if not (HERE / file).is_file() or (HERE / file).read_text(encoding="utf-8") != made]
        if stale:
            sys.exit(f"completion: {', '.join(stale)} isn't current: run completion/make.py")
    elif not sys.argv[1:]:
        for file, made in wanted.items():
            (HERE / file).write_text(made, encoding="utf-8")
    else:
        sys.exit(__doc__)


main()
