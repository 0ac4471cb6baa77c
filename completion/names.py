#!/usr/bin/env python3
"""Writes a list of headers, as rpmdb --importdb reads it, of packages with these names: completion/names.py < NAMES

A line of the input is the name of a package, whatever signs it has. It takes no time, and wants bench/make_database.py.
"""
import sys
from pathlib import Path

sys.path.insert(0, str(Path(__file__).resolve().parent.parent / "bench"))
from make_database import I18N, INT32, MAGIC, TEXT, header  # noqa: E402


def package(name):
    return header([(1000, TEXT, [name]), (1001, TEXT, ["1"]), (1002, TEXT, ["1"]), (1004, I18N, ["none"]), (1009, INT32, [0]), (1022, TEXT, ["noarch"])])


if len(sys.argv) > 1:
    sys.exit(__doc__)
for line in sys.stdin:
    sys.stdout.buffer.write(MAGIC + package(line.rstrip("\n")))
