"""Tables of costs in docs/FIGURES.md, and costs that are noted from run to run. A part of bench/update.py and bench/against_rpm.py.

A cost is a dictionary: `seconds`, `memory`, `reads`, `calls`, `syncs`, `instructions`, each where it was measured.
"""
import hashlib
import json
import os
import subprocess
import sys
from pathlib import Path

PAGE = Path(__file__).resolve().parent.parent / "docs" / "FIGURES.md"


class Kept:
    """The costs that runs noted in a file, by what they are of."""

    def __init__(self, path, program):
        self.path, self.program = path, hashlib.sha256(program.read_bytes()).hexdigest()[:16]
        self.rows = json.loads(path.read_text(encoding="utf-8")) if path and path.exists() else {}

    def cost(self, work, side, measure):
        """The cost that was noted of a work by this side, or that is measured now."""
        whose = self.program if side.name == "here" else f"rpm over {side.name}"
        key = f"{whose}: {work.name}: {work.shown}"
        if key not in self.rows:
            self.rows[key] = {**measure(work, side), "load": os.getloadavg()[0]}
            print(f"{key}: {self.rows[key]}", file=sys.stderr, flush=True)
            if self.path:
                self.path.write_text(json.dumps(self.rows, indent=1), encoding="utf-8")
        return self.rows[key]


def line(*cells):
    return "| " + " | ".join(str(cell) for cell in cells) + " |\n"


def number(cost, name, shape, by=1):
    """A cell: a cost in its unit, or a bar where it wasn't measured."""
    return shape.format(cost[name] / by) if cost and name in cost else "-"


def share(ours, theirs, name="seconds"):
    """A cell: which part of their cost ours is, or a bar where one of the two wasn't measured."""
    return f"{ours[name] / theirs[name]:.3f}" if name in ours and theirs and name in theirs else "-"


def version_of_rpm():
    return subprocess.run(["rpm", "--version"], stdout=subprocess.PIPE, text=True, check=True).stdout.split()[-1]


def put_into_page(script, text):
    """Puts what a script made between the marks that the page has for it."""
    marks = f"<!-- made by {script} --write -->\n", f"<!-- end of what {script} made -->\n"
    before, rest = PAGE.read_text(encoding="utf-8").split(marks[0])
    PAGE.write_text(before + marks[0] + "\n" + text + "\n" + marks[1] + rest.split(marks[1], 1)[1], encoding="utf-8")
