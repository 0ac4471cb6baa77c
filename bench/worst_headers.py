#!/usr/bin/env python3
"""Writes a Packages.db of one package whose header is made to hurt: bench/worst_headers.py CASE BYTES FOLDER

BYTES of data (67108864 at most) are shared by the entries, which overlap. The cases, and what to ask of each:
parse      65,535 lists of texts, each all of the data             -qa --qf 'x\\n'
value      an index for each byte of the data                      -qa --qf '%{FILENAMES}\\n'
files      the same: as many files as a header can have            -qa --qf '[%{FILENAMES}\\n]'
filenames  a file for each 4 bytes, in directories far apart       -qa --qf '[%{FILENAMES}\\n]'
one        a file for each 2 bytes, 254 directories, far apart      -qa --qf '[%{FILENAMES:perms}\\n]'
two        a file for each 3 bytes, 65,000 directories, far apart   -qa --qf '[%{FILENAMES:perms}\\n]'
four       a file for each 5 1/3 bytes, more directories, of 64 MiB -qa --qf '[%{FILENAMES:perms}\\n]'
long       half a file for a byte, two long directories in turn    -qa --qf '[%{FILENAMES:perms}\\n]'
bracket    17 lists of texts, each all of the data                 -qa --qf '[%{NAME}%{VERSION}..\\n]', the names of BRACKET
short      the same, with texts of one byte                        the same
numbers    17 lists of numbers, each all of the data               the same
label      four texts, each all of the data, in front of an index  -qa --qf '%{NEVRA}\\n', and NVR, NVRA, EVR
           of 65,535 entries
"""
import random
import struct
import sys

sys.dont_write_bytecode = True
from make_database import store

NULL, INT8, INT16, INT32, TEXT, TEXTS = 0, 2, 3, 4, 6, 8
NAME, VERSION, RELEASE, EPOCH, ARCH = 1000, 1001, 1002, 1003, 1022
DIRINDEXES, BASENAMES, DIRNAMES = 1116, 1117, 1118
BRACKET = [1000, 1001, 1002, 1004, 1005, 1007, 1010, 1011, 1014, 1015, 1016, 1018, 1019, 1020, 1021, 1022, 1023]
NAMES = "NAME VERSION RELEASE SUMMARY DESCRIPTION BUILDHOST DISTRIBUTION VENDOR LICENSE PACKAGER GROUP SOURCE PATCH URL OS ARCH PREIN".split()


# The zeros of so many strides are counted.
STRIDES = 262144


def header(entries, data):
    """The bytes of a header of (tag, type, offset, count) over this data."""
    return struct.pack(">II", len(entries), len(data)) + b"".join(struct.pack(">IIII", *entry) for entry in entries) + data


def far_directories(size):
    """The same bytes are the indexes, the names and the directories. An index is four bytes of which the first alone is zero: so
    directory i has three bytes, and ends at byte 4 i. Each file asks for a directory at the end of a stride, the
    dearest place, and for another one each time."""
    files = size // 4
    stride = max(64, 4 * files // (STRIDES - 1) + 1)
    ends = [stride * k // 4 - 1 for k in range(1, 4 * files // stride)]
    random.Random(1).shuffle(ends)
    indexes = [index for index in ends if index > 0 and 0 not in struct.pack(">I", index)[1:]]
    if not indexes:
        sys.exit("too few bytes")
    data = (struct.pack(f">{len(indexes)}I", *indexes) * (files // len(indexes) + 1))[:4 * files]
    return header([(DIRINDEXES, INT32, 0, files), (BASENAMES, TEXTS, 0, files), (DIRNAMES, TEXTS, 0, files)], data)


def far_ends(size, width):
    """Indexes of a width, in which rare zeros end directories, and the zeros that end the names, of which numbers of four bytes need
    as many in front of them to have no zero byte themselves. Two directories end in a stride of which the zeros are counted in one, at
    its end and far enough from each other to be looked for one by one: so each file has all of a stride read twice."""
    zeros = {1: size // 2, 2: size // 3, 4: 1 << 24}[width]
    region = (size - zeros) // width * width
    files = region // width
    most = {1: 250, 2: 65000, 4: 1 << 22}[width]
    stride = max(64, (region + (zeros if width == 4 else 0)) // (STRIDES - 1) + 1)
    first = zeros if width == 4 else 0
    step = -(-max(stride, 2 * region // most) // stride) * stride
    ends = [end // width * width - 1 - back for end in range(-(-first // step) * step + step, first + region, step) for back in (72, 0)]
    indexes = [index for index in range(first, first + len(ends)) if 0 not in index.to_bytes(width, "big") and (width > 1 or index % 16 == 3)]
    if len(indexes) < 2:
        sys.exit("too few bytes")
    random.Random(1).shuffle(indexes)
    data = bytearray(b"".join(index.to_bytes(width, "big") for index in (indexes * (files // len(indexes) + 1))[:files]))
    for end in ends:
        data[end - first] = 0
    kind = {1: INT8, 2: INT16, 4: INT32}[width]
    if width == 4:
        data = bytes(zeros) + data
        return header([(DIRINDEXES, kind, zeros, files), (BASENAMES, TEXTS, 0, files), (DIRNAMES, TEXTS, 0, zeros + len(ends))], data)
    return header([(DIRINDEXES, kind, 0, files), (BASENAMES, TEXTS, region, files), (DIRNAMES, TEXTS, 0, len(ends))], bytes(data + bytes(zeros)))


def long_directories(size):
    """Directories 17 and 33 are long, and each file asks for the one that the file before it didn't ask for. Of the data a quarter is
    indexes, a quarter the zeros of empty names and half the directories."""
    files = size // 4
    names = bytes(files)
    directory = b"d" * (size // 4 - 32)
    directories = bytes(17) + directory + bytes(16) + directory + bytes(1)
    data = b"\x11\x21" * (files // 2) + names[:files // 2 * 2] + directories
    files = files // 2 * 2
    return header([(DIRINDEXES, INT8, 0, files), (BASENAMES, TEXTS, files, files), (DIRNAMES, TEXTS, 2 * files, 34)], data)


def long_label(size):
    """The name, the version, the release and the architecture are one text, and the epoch is the greatest. They stand first in an index
    that is gone over from its end."""
    data = b"d" * (size - 9) + bytes(5) + b"\xff" * 4
    entries = [(tag, TEXT, 0, 1) for tag in (NAME, VERSION, RELEASE, ARCH)] + [(EPOCH, INT32, size - 4, 1)]
    return header(entries + [(9, NULL, 0, 0)] * (65535 - len(entries)), data)


def worst(case, size):
    zeros = bytes(size)
    if case == "parse":
        return header([(2000, TEXTS, 0, size)] * 65535, zeros)
    if case in ("value", "files"):
        return header([(DIRINDEXES, INT8, 0, size), (BASENAMES, TEXTS, 0, size), (DIRNAMES, TEXTS, 0, size)], zeros)
    if case == "filenames":
        return far_directories(size)
    if case in ("one", "two", "four"):
        return far_ends(size, {"one": 1, "two": 2, "four": 4}[case])
    if case == "long":
        return long_directories(size)
    if case == "bracket":
        return header([(tag, TEXTS, 0, size) for tag in BRACKET], zeros)
    if case == "short":
        return header([(tag, TEXTS, 0, size // 2) for tag in BRACKET], b"a\0" * (size // 2))
    if case == "numbers":
        return header([(tag, INT8, 0, size) for tag in BRACKET], zeros)
    if case == "label":
        return long_label(size // 4 * 4)
    sys.exit(__doc__)


def main():
    if "--help" in sys.argv:
        print(__doc__)
        return
    if len(sys.argv) != 4:
        sys.exit(__doc__)
    name, length, folder = sys.argv[1], int(sys.argv[2]), sys.argv[3]
    with open(f"{folder}/Packages.db", "wb") as file:
        file.write(store([(1, worst(name, length))], 2))


if __name__ == "__main__":
    main()
