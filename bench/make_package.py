#!/usr/bin/env python3
"""Writes a package file that can be added to a database, to measure with: bench/make_package.py [--own] N FILE

It has the header of package N of make_database.py, with --own as there, behind a lead and a signature header that tells its size alone,
and no payload.
"""
import struct
import sys

sys.dont_write_bytecode = True
from make_database import INT32, MAGIC, common, header, own, package


def lead(name):
    return struct.pack(">4sBBHH66sHH16x", bytes.fromhex("edabeedb"), 3, 0, 0, 1, name.encode(), 1, 5)


def signature(blob):
    """A signature header: the size of what follows it, filled up to eight bytes."""
    entries = MAGIC + header([(1000, INT32, [len(MAGIC + blob)])])
    return entries + b"\0" * (-len(entries) % 8)


def main():
    words = [word for word in sys.argv[1:] if word != "--own"]
    if "--help" in words:
        print(__doc__)
        return
    if len(words) != 2:
        sys.exit(__doc__)
    number, path = int(words[0]), words[1]
    blob = package(number, parts=own if "--own" in sys.argv else common)
    with open(path, "wb") as file:
        file.write(lead(f"package{number}") + signature(blob) + MAGIC + blob)


if __name__ == "__main__":
    main()
