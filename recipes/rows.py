#!/usr/bin/env python3
"""Makes JSON Lines or CSV of tags that were printed by the formatter `shescape`.

    rpm -qa --qf '%{NAME:shescape} %{SUMMARY:shescape}\\n' | recipes/rows.py [--csv] NAME SUMMARY

The words are the names of the columns, one for each tag of the format, in its order. In the format one blank stands between two tags, and a line
end after the last. `shescape` prints a number bare, a text in quotes, and a missing tag as (none) without quotes, so each value comes back as the
package has it: with tabs, line ends, quotes, and the text `(none)` told apart from a missing tag. A missing tag is null in JSON Lines, and an empty
field without quotes in CSV. Bytes that are no UTF-8 are \\udc80 to \\udcff in JSON, as Python's `surrogateescape` reads them; CSV has the bytes.

The whole input is read first. The 518 packages of a CentOS 8 with their descriptions took 0.25 seconds of the processor, together with the question.
Needs Python 3 alone.
"""
import argparse
import json
import re
import sys

VALUE = re.compile(rb"'([^']*(?:'\\''[^']*)*)'|(\d+)|\(none\)")


def rows(text, columns):
    """The values of each line: bytes, numbers, and None for what is missing."""
    at, count = 0, 0
    while at < len(text):
        row = []
        for column in range(columns):
            found = VALUE.match(text, at)
            end = b"\n" if column + 1 == columns else b" "
            if not found or text[found.end():found.end() + 1] != end:
                sys.exit(f"rows.py: row {count + 1}: {text[at:at + 40]!r} isn't a value of shescape and {end!r}")
            row.append(found[1].replace(b"'\\''", b"'") if found[1] is not None else int(found[2]) if found[2] else None)
            at = found.end() + 1
        yield row
        count += 1


def field(value):
    """A value as a field of CSV."""
    if isinstance(value, bytes):
        return b'"' + value.replace(b'"', b'""') + b'"'
    return b"" if value is None else str(value).encode()


def main():
    asked = argparse.ArgumentParser(description=__doc__, formatter_class=argparse.RawDescriptionHelpFormatter)
    asked.add_argument("--csv", action="store_true")
    asked.add_argument("names", nargs="+", metavar="NAME")
    asked = asked.parse_args()
    if asked.csv:
        sys.stdout.buffer.write(",".join(asked.names).encode() + b"\n")
    for row in rows(sys.stdin.buffer.read(), len(asked.names)):
        if asked.csv:
            sys.stdout.buffer.write(b",".join(map(field, row)) + b"\n")
        else:
            texts = [it.decode("utf-8", "surrogateescape") if isinstance(it, bytes) else it for it in row]
            print(json.dumps(dict(zip(asked.names, texts))))


main()
