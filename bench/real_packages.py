"""Headers as a distribution's packages have them, for bench/make_database.py --real.

Each has a region of all that the package file said, and behind it what an installation adds: a digest in every second one, states, times.
One has 120 to 2,000 files in directories of seven, each hundredth 3,000, and a changelog of 60 to 400 entries: so 30 to 500 kB. Base names repeat as
in trees of sources and of modules: within a package, since each directory has a `Makefile`, and over packages, since each has a `README`.
"""
import hashlib
import random
import struct

CHAR, INT16, INT32, TEXT, BIN, TEXTS, I18N = 1, 3, 4, 6, 7, 8, 9
SIZES = {INT16: 2, INT32: 4}
MAGIC = bytes.fromhex("8eade80100000000")
REGION = 63
# How many files the packages of a row of ten have.
FILES = (120, 200, 340, 500, 700, 900, 1200, 1500, 1800, 2000)
# The names that each directory has, and those of the packages' documents.
EACH = ("Makefile", "Kconfig", "__init__.py", "index.html", "main.c")
DOCUMENTS = ("README", "COPYING", "NEWS", "AUTHORS", "LICENSE")
WORDS = "fix build with new compiler rebuild for mass update security patch drop old macro bump release resolves bug".split()


def laid(entries, index=b"", data=b""):
    """The index and the data of (tag, type, values), behind those that are given."""
    for tag, kind, values in entries:
        size = SIZES.get(kind, 1)
        data += b"\0" * (-len(data) % size)
        offset = len(data)
        if kind in SIZES:
            data += b"".join((value % (1 << 8 * size)).to_bytes(size, "big") for value in values)
        elif kind in (BIN, CHAR):
            data += bytes(values)
        else:
            data += b"".join(value.encode() + b"\0" for value in values)
        index += struct.pack(">IIII", tag, kind, offset, len(values))
    return index, data


def with_region(entries, behind):
    """The bytes of a header whose region has these entries; what stands behind it is made of the region's SHA-256 as a text."""
    count = len(entries) + 1
    index, data = laid(entries)
    index = struct.pack(">IIII", REGION, BIN, len(data), 16) + index
    data += struct.pack(">IIiI", REGION, BIN, -16 * count, 16)
    region = struct.pack(">II", count, len(data)) + index + data
    dribbles = behind(hashlib.sha256(MAGIC + region).hexdigest())
    index, data = laid(dribbles, index, data)
    return struct.pack(">II", count + len(dribbles), len(data)) + index + data


def tree(i, rows):
    """The base names, the directory of each, and the directories of a package of so many files."""
    directories = [f"/usr/share/doc/package{i}/"]
    names, places = list(DOCUMENTS), [0] * len(DOCUMENTS)
    while len(names) < rows:
        directories.append(f"/usr/src/package{i}/tree{len(directories) // 9}/part{len(directories)}/")
        here = [*EACH, f"package{i}-{len(directories)}.o", f"part{len(directories) % 40}.h"]
        names += here[:rows - len(names)]
        places += [len(directories) - 1] * (len(names) - len(places))
    return names, places, directories


def changelog(i, rng):
    """The times, the names and the texts of a changelog, the newest entry first."""
    count = rng.randint(60, 400)
    times = [1700000000 - 86400 * 20 * k for k in range(count)]
    names = [f"Packager {rng.randint(1, 40)} <packager@example.org> - 1.{i % 10}-{count - k}" for k in range(count)]
    texts = ["\n".join("- " + " ".join(rng.choices(WORDS, k=rng.randint(5, 12))) for _ in range(rng.randint(1, 3))) for _ in range(count)]
    return times, names, texts


def package(i):
    """The header of package i, always the same."""
    rng = random.Random(i)
    rows = 3000 if i % 100 == 0 else FILES[i % 10]
    version = f"1.{i % 10}-1.el8"
    names, places, directories = tree(i, rows)
    times, authors, texts = changelog(i, rng)
    provides = [f"package{i}", f"package{i}(x86-64)", f"lib{i}.so.1()(64bit)", f"lib{i}-tools", f"pkgconfig(package{i})"]
    needs = [f"lib{rng.randint(1, i)}.so.1()(64bit)" for _ in range(20)] + ["/bin/sh", "libc.so.6(GLIBC_2.4)(64bit)", "rpmlib(FileDigests)"]
    digests = [f"{rng.getrandbits(256):064x}" for _ in range(rows)]
    entries = [
        (100, TEXTS, ["C"]), (1000, TEXT, [f"package{i}"]), (1001, TEXT, [f"1.{i % 10}"]), (1002, TEXT, ["1.el8"]), (1004, I18N, ["A package"]),
        (1005, I18N, ["A package as a distribution has it, with some lines of text.\n" * 12]), (1006, INT32, [1700000000 + i]),
        (1007, TEXT, ["builder.example.org"]), (1009, INT32, [rows * 9000]), (1010, TEXT, ["A distribution"]), (1011, TEXT, ["A vendor"]),
        (1014, TEXT, ["GPLv2+ and MIT"]), (1015, TEXT, ["A packager"]), (1016, I18N, [f"Group/{i % 40}"]), (1020, TEXT, ["https://example.org/"]),
        (1021, TEXT, ["linux"]), (1022, TEXT, ["x86_64"]), (1028, INT32, [rng.randint(1, 90000) for _ in range(rows)]), (1030, INT16, [33188] * rows),
        (1033, INT16, [0] * rows), (1034, INT32, [1700000000] * rows), (1035, TEXTS, digests), (1036, TEXTS, [""] * rows), (1037, INT32, [0] * rows),
        (1039, TEXTS, ["root"] * rows), (1040, TEXTS, ["root"] * rows), (1044, TEXT, [f"package{i}-{version}.src.rpm"]), (1045, INT32, [-1] * rows),
        (1047, TEXTS, provides), (1048, INT32, [0] * 20 + [0, 0, 0x0100000A]), (1049, TEXTS, needs), (1050, TEXTS, [""] * 22 + ["4.6.0-1"]),
        (1064, TEXT, ["4.14.3"]), (1080, INT32, times), (1081, TEXTS, authors), (1082, TEXTS, texts), (1095, INT32, [1] * rows),
        (1096, INT32, list(range(1, rows + 1))), (1097, TEXTS, [""] * rows), (1112, INT32, [8] + [0] * 4), (1113, TEXTS, [version] + [""] * 4),
        (1116, INT32, places), (1117, TEXTS, names), (1118, TEXTS, directories), (1124, TEXT, ["cpio"]), (1125, TEXT, ["xz"]), (1126, TEXT, ["2"]),
    ]

    def behind(digest):
        told = [(273, TEXT, [digest])] if i % 2 else []
        return told + [(1008, INT32, [1700500000 + i]), (1029, CHAR, [0] * rows), (1127, INT32, [0]), (1128, INT32, [1700500000])]

    return with_region(entries, behind)
