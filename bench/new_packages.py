"""Package files of newer packages, made of headers as a database has them. A part of bench/update.py.

A header in a database is the header of the package file, called the immutable region, and behind it what rpm added when it installed the
package. The file that is made has the region alone, with another release in the place of the old one, and no payload.
"""
import re
import struct

from make_database import MAGIC
from make_package import lead, signature

REGION, RELEASE, ENTRY = 63, 1002, 16


def region_of(blob):
    """The header that the package file had."""
    count = struct.unpack_from(">I", blob)[0]
    tag, _, offset, _ = struct.unpack_from(">IIiI", blob, 8)
    if tag != REGION:
        raise ValueError("the header has no immutable region")
    data = 8 + ENTRY * count
    inside = -struct.unpack_from(">IIiI", blob, data + offset)[2] // ENTRY
    size = offset + ENTRY
    return struct.pack(">II", inside, size) + blob[8:8 + ENTRY * inside] + blob[data:data + size]


def newer_release(release):
    """A release of as many letters that comes after this one: its first digits, and one letter more, are nines."""
    first = len(re.match(rb"\d*", release).group(0)) + 1
    return b"9" * min(first, len(release)) + release[first:]


def newer(blob, version):
    """The header of the next release of a package that has this version."""
    header = region_of(blob)
    count = struct.unpack_from(">I", header)[0]
    entries = (struct.unpack_from(">IIiI", header, 8 + ENTRY * at) for at in range(count))
    at = 8 + ENTRY * count + next(offset for tag, _, offset, _ in entries if tag == RELEASE)
    old = header[at:header.index(b"\0", at)]
    new = newer_release(old)
    header = header[:at] + new + header[at + len(old):]
    return header.replace(version + b"-" + old + b"\0", version + b"-" + new + b"\0")


def package_file(name, header):
    """The bytes of a package file with this header."""
    return lead(name) + signature(header) + MAGIC + header
