#!/usr/bin/env python3
"""Writes a list of three headers whose summaries are hard to pass on: recipes/odd.py | rpmdb --dbpath DIR --importdb

The first has tabs, a line end, quotes of both kinds, a comma, a backslash, a letter beyond ASCII in UTF-8 and a byte that is no UTF-8. The second has
the text `(none)`, and the third has no summary. It takes no time; needs Python 3 alone.
"""
import struct
import sys

MAGIC = bytes.fromhex("8eade80100000000")
NAME, VERSION, RELEASE, SUMMARY, ARCH, STRING = 1000, 1001, 1002, 1004, 1022, 6
SUMMARIES = [b"tab\there, line\nend, 'single' and \"double\", back\\slash, \xc3\xa9 and \xff", b"(none)", None]


def header(texts):
    """The bytes of a header of texts, by their tags."""
    index, data = b"", b""
    for tag, text in texts.items():
        index += struct.pack(">IIII", tag, STRING, len(data), 1)
        data += text + b"\0"
    return MAGIC + struct.pack(">II", len(texts), len(data)) + index + data


def main():
    if sys.argv[1:]:
        sys.exit(print(__doc__) if sys.argv[1:] == ["--help"] else __doc__)
    for number, summary in enumerate(SUMMARIES, 1):
        texts = {NAME: b"odd%d" % number, VERSION: b"1", RELEASE: b"1", SUMMARY: summary, ARCH: b"noarch"}
        sys.stdout.buffer.write(header({tag: text for tag, text in texts.items() if text is not None}))


main()
