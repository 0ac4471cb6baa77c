#!/usr/bin/env python3
"""The packages that a Packages.db holds, read after docs/FORMATS.md alone, with nothing of the program.

    crates/rpm_rows/models/read_store.py FILE FOLDER    writes each package as FOLDER/NUMBER: the magic of a header list, and its header

It prints the number that the next package gets, and fails where a slot, a blob's frame or a checksum isn't as it has to be.
"""
import sys
import zlib
from pathlib import Path

sys.dont_write_bytecode = True
from model_store import MAGIC


def numbers(piece):
    """Numbers of four bytes, the lowest first."""
    return [int.from_bytes(piece[k:k + 4], "little") for k in range(0, len(piece), 4)]


def need(holds, fault):
    if not holds:
        sys.exit(f"read_store.py: {fault}")


def header_of(blocks, number):
    """The bytes that the blocks of a package hold."""
    magic, held, _, length = numbers(blocks[:16])
    checksum, again, end = numbers(blocks[-12:])
    need((magic, end) == tuple(numbers(b"BlbSBlbE")), f"package {number}: no blob")
    need((held, again, len(blocks)) == (number, length, (28 + length + 15) // 16 * 16), f"package {number}: another number or length")
    need(checksum == zlib.adler32(blocks[:-12]), f"package {number}: another checksum")
    return blocks[16:16 + length]


def main():
    if "--help" in sys.argv:
        print(__doc__)
        return
    if len(sys.argv) != 3:
        sys.exit(__doc__)
    file, folder = Path(sys.argv[1]).read_bytes(), Path(sys.argv[2])
    magic, version, _, pages = numbers(file[:16])
    need((magic, version) == (numbers(b"RpmP")[0], 0), "no Packages.db")
    following = numbers(file[16:20])[0]
    for at in range(32, pages * 4096, 16):
        magic, number, block, count = numbers(file[at:at + 16])
        need(magic == numbers(b"Slot")[0], f"no slot at {at}")
        if block:
            (folder / str(number)).write_bytes(MAGIC + header_of(file[16 * block:16 * (block + count)], number))
            following = max(following, number + 1)
    print(following)


main()
