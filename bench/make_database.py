#!/usr/bin/env python3
"""Writes a Packages.db with N packages, to measure with: bench/make_database.py [--states] [--own] [--real] N FOLDER [LIST]

The file is laid out by docs/FORMATS.md and owes nothing to the program. Each package has a header of some 40 entries with 20 files,
about 3 kB, which is the size of a small package of a distribution. Where a LIST is named, the same headers are written there, each
behind its magic, as rpmdb --importdb reads them. With --states each header also tells that its files are there, which rpm wants of the
packages beside one that it erases. All packages share their files and requirements; with --own, as in a distribution, each has 20 files
in two directories and 5 provides that no other has, and 20 requirements of which each is shared by five packages. With --real the
headers are as those of real packages (bench/real_packages.py): a region, 30 to 500 kB, base names that repeat within a package and over
packages, changelogs, up to 3,000 files; 157 MB for 1,000 packages.
"""
import struct
import sys
import zlib

sys.dont_write_bytecode = True
import real_packages

CHAR, INT16, INT32, TEXT, BIN, TEXTS, I18N = 1, 3, 4, 6, 7, 8, 9
SIZES = {INT16: 2, INT32: 4}
MAGIC = bytes.fromhex("8eade80100000000")


def header(entries):
    """The bytes of a header of (tag, type, values), each entry at the least aligned offset."""
    index, data = b"", b""
    for tag, kind, values in entries:
        size = SIZES.get(kind, 1)
        data += b"\0" * (-len(data) % size)
        offset = len(data)
        if kind in SIZES:
            data += b"".join(value.to_bytes(size, "big") for value in values)
        elif kind in (BIN, CHAR):
            data += bytes(values)
        else:
            data += b"".join(value.encode() + b"\0" for value in values)
        index += struct.pack(">IIII", tag, kind, offset, len(values))
    return struct.pack(">II", len(entries), len(data)) + index + data


def framed(number, generation, blob):
    """The blocks of a blob."""
    head = struct.pack("<4sIII", b"BlbS", number, generation, len(blob)) + blob
    head += b"\0" * (-(len(head) + 12) % 16)
    return head + struct.pack("<II4s", zlib.adler32(head), len(blob), b"BlbE")


def store(packages, next_number, pages=None, generation=1):
    """A Packages.db of (number, blob), in the order of their slots."""
    if pages is None:
        pages = (2 + len(packages) + 255) // 256
    slots, blobs, block = bytearray(), bytearray(), 256 * pages
    for number, blob in packages:
        blocks = framed(number, generation, blob)
        slots += struct.pack("<4sIII", b"Slot", number, block, len(blocks) // 16)
        blobs += blocks
        block += len(blocks) // 16
    slots += struct.pack("<4sIII", b"Slot", 0, 0, 0) * (256 * pages - 2 - len(packages))
    head = struct.pack("<4sIII", b"RpmP", 0, generation, pages) + struct.pack("<IIII", next_number, 0, 0, 0)
    return head + slots + blobs


def common(i):
    """What a package shares with all others: its provides, requirements, directories, and the names of its files."""
    return [f"package{i}", f"lib{i}.so.1"], [f"lib{k}.so.1" for k in range(5)], ["/usr/lib64/"], [f"file{k}.so" for k in range(20)]


def own(i):
    """The same, as a package of a distribution has it."""
    provides = [f"package{i}", f"package{i}(x86-64)", f"lib{i}.so.1()(64bit)", f"lib{i}-tools", f"pkgconfig(package{i})"]
    needs = [f"lib{i // 5 * 20 + k}.so.1()(64bit)" for k in range(20)]
    return provides, needs, [f"/usr/lib64/package{i}/", f"/usr/share/package{i}/"], [f"file{i}-{k}.so" for k in range(20)]


def package(i, states=False, parts=common):
    provides, needs, directories, files = parts(i)
    version = f"1.{i % 10}-1.fc40"
    there = [(1029, CHAR, [0] * 20)] if states else []
    return header(sorted(there + [
        (1000, TEXT, [f"package{i}"]), (1001, TEXT, [f"1.{i % 10}"]), (1002, TEXT, ["1.fc40"]), (1004, I18N, ["A package"]),
        (1005, I18N, ["A package that is there to be measured, with a few lines of text.\n" * 4]), (1006, INT32, [1700000000 + i]),
        (1007, TEXT, ["builder.example.org"]), (1009, INT32, [123456]), (1010, TEXT, ["A distribution"]), (1011, TEXT, ["A vendor"]),
        (1014, TEXT, ["MIT"]), (1015, TEXT, ["A packager"]), (1016, I18N, ["Unspecified"]), (1020, TEXT, ["https://example.org/"]),
        (1021, TEXT, ["linux"]), (1022, TEXT, ["x86_64"]), (1028, INT32, [1000] * 20), (1030, INT16, [33188] * 20),
        (1033, INT16, [0] * 20), (1034, INT32, [1700000000] * 20), (1035, TEXTS, ["0123456789abcdef" * 4] * 20),
        (1036, TEXTS, [""] * 20), (1037, INT32, [0] * 20), (1039, TEXTS, ["root"] * 20), (1040, TEXTS, ["root"] * 20),
        (1044, TEXT, [f"package{i}-{version}.src.rpm"]), (1047, TEXTS, provides), (1048, INT32, [12] * len(needs)), (1049, TEXTS, needs),
        (1050, TEXTS, [""] * len(needs)), (1064, TEXT, ["4.19"]), (1095, INT32, [1] * 20), (1096, INT32, list(range(20))),
        (1097, TEXTS, [""] * 20), (1112, INT32, [8] + [0] * (len(provides) - 1)), (1113, TEXTS, [version] + [""] * (len(provides) - 1)),
        (1116, INT32, [k % len(directories) for k in range(20)]), (1117, TEXTS, files), (1118, TEXTS, directories),
        (1124, TEXT, ["cpio"]), (1125, TEXT, ["zstd"]), (1126, TEXT, ["19"]),
    ]))


def main():
    words = [word for word in sys.argv[1:] if not word.startswith("--")]
    if "--help" in sys.argv:
        print(__doc__)
        return
    if len(words) not in (2, 3):
        sys.exit(__doc__)
    count, folder = int(words[0]), words[1]
    states, parts = "--states" in sys.argv, own if "--own" in sys.argv else common
    if "--real" in sys.argv:
        packages = [(i, real_packages.package(i)) for i in range(1, count + 1)]
    else:
        packages = [(i, package(i, states, parts)) for i in range(1, count + 1)]
    with open(f"{folder}/Packages.db", "wb") as file:
        file.write(store(packages, count + 1))
    for name in words[2:]:
        with open(name, "wb") as file:
            file.writelines(MAGIC + blob for _, blob in packages)


if __name__ == "__main__":
    main()
