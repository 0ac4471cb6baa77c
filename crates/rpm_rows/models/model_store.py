#!/usr/bin/env python3
"""What worked rows expect of Packages.db: a second model of it, made from docs/FORMATS.md alone, nothing of the program.

    crates/rpm_rows/models/model_store.py blob NUMBER GENERATION HEX    the blocks of a package whose header is these bytes, as pieces of a row
    crates/rpm_rows/models/model_store.py imports COUNT                 package a so many times
    crates/rpm_rows/models/model_store.py replaced COUNT NUMBER         the same, then number NUMBER replaced by the package file at the moment 5
    crates/rpm_rows/models/model_store.py erased COUNT NUMBER           the same, then number NUMBER erased and the package file added at the moment 5
    crates/rpm_rows/models/model_store.py generated COUNT               the generated headers 1 to COUNT
    crates/rpm_rows/models/model_store.py exercise COUNT                what an exercise prints, how many changes it makes
    crates/rpm_rows/models/model_store.py exercise COUNT a              the same behind package a, which was added and erased

All but the first print how many slot pages, bytes and index records there are, and the SHA-256 of Packages.db.
"""
import hashlib
import sys
import zlib

MAGIC = bytes.fromhex("8eade80100000000")
NUMBERS, TEXT, TEXTS = 4, 6, 8
# The tags that are indexed by their texts; INSTALLTID (1128) is indexed by its numbers.
KEYED = (1000, 1117, 1016, 1047, 1049, 1054, 1090, 1066, 1118, 5046, 1128)


def big(number):
    return number.to_bytes(4, "big")


def little(number):
    return number.to_bytes(4, "little")


def header(entries):
    """The bytes of a header: (tag, type, elements) each, texts or numbers of four bytes."""
    index, data = b"", b""
    for tag, form, elements in entries:
        if form == NUMBERS:
            data += bytes(-len(data) % 4)
            made = b"".join(map(big, elements))
        else:
            made = b"".join(text.encode() + b"\0" for text in elements)
        index += big(tag) + big(form) + big(len(data)) + big(len(elements))
        data += made
    return big(len(entries)) + big(len(data)) + index + data


SMALL = [(1000, TEXT, ["a"]), (1001, TEXT, ["1"]), (1002, TEXT, ["2"]), (1022, TEXT, ["x"])]
INSTALLED = SMALL + [(257, NUMBERS, [88]), (1008, NUMBERS, [5]), (1128, NUMBERS, [5])]


def generated(i, leading=1):
    name, version = f"pkg{i}", f"{leading}.{i % 10}"
    return [(1000, TEXT, [name]), (1001, TEXT, [version]), (1002, TEXT, ["1"]), (1022, TEXT, ["noarch"]),
            (1047, TEXTS, [name, f"cap{i % 7}"]), (1112, NUMBERS, [8, 8]), (1113, TEXTS, [version + "-1", "1"]),
            (1049, TEXTS, [f"cap{(i + 1) % 7}"]), (1048, NUMBERS, [0]), (1050, TEXTS, [""]),
            (1117, TEXTS, [f"f{i}"]), (1116, NUMBERS, [0]), (1118, TEXTS, ["/opt/"])]


def blocks_of(length):
    return (28 + length + 15) // 16


def blob(number, generation, made):
    """The blocks of a header: head, bytes, zeros, and the checksum of these, length, end."""
    body = b"BlbS" + little(number) + little(generation) + little(len(made)) + made
    body += bytes(16 * blocks_of(len(made)) - 12 - len(body))
    return body + little(zlib.adler32(body)) + little(len(made)) + b"BlbE"


def first_fit(ranges, count, start):
    """The least block from `start` on at which so many blocks meet no range."""
    at = start
    for begin, length in sorted(ranges):
        if begin + length > at:
            if begin >= at + count:
                break
            at = begin + length
    return at


class Store:
    """Packages.db, and the packages that it holds."""

    def __init__(self):
        self.bytes = bytearray(4096)
        self.packages = {}
        self.slots = [None] * 254  # (number, first block, blocks)
        self.pages, self.generation, self.next = 1, 1, 1

    def put(self, block, made):
        end = 16 * block + len(made)
        self.bytes += bytes(max(0, end - len(self.bytes)))
        self.bytes[16 * block:end] = made

    def clear(self, begin, end):
        if begin < end:
            self.put(begin, bytes(16 * (end - begin)))

    def ranges(self):
        return [slot[1:] for slot in self.slots if slot]

    def add_page(self, count):
        """Moves what is in the way of one more page of slots; gives the place of so many blocks behind it."""
        end = 256 * (self.pages + 1)
        waiting = sorted(place for place in self.ranges() if place[0] < end)
        taken = [place for place in self.ranges() if place[0] >= end]
        places = []
        for k, (_, length) in enumerate(waiting):
            place = (first_fit(taken + waiting[k:], length, end), length)
            taken.append(place)
            places.append(place)
        at = first_fit(taken, count, end)
        for (begin, length), (place, _) in zip(waiting, places):
            self.put(place, bytes(self.bytes[16 * begin:16 * (begin + length)]))
            k = next(k for k, slot in enumerate(self.slots) if slot and slot[1] == begin)
            self.slots[k] = (self.slots[k][0], place, length)
            self.clear(max(begin, end), begin + length)
        self.pages += 1
        self.slots += [None] * 256
        return at

    def change(self, number, entries):
        """Puts a header under a number that is held, or under the next one where it is None."""
        made = header(entries)
        count = blocks_of(len(made))
        self.generation += 1
        if number is None and None not in self.slots:
            at = self.add_page(count)
        else:
            at = first_fit(self.ranges(), count, 256 * self.pages)
        old = None
        if number is None:
            number, self.next = self.next, self.next + 1
            k = self.slots.index(None)
        else:
            k = next(k for k, slot in enumerate(self.slots) if slot and slot[0] == number)
            old = self.slots[k]
        self.put(at, blob(number, self.generation, made))
        self.slots[k] = (number, at, count)
        if old:
            self.clear(old[1], old[1] + old[2])
        self.packages[number] = entries

    def erase(self, number):
        self.generation += 1
        k = next(k for k, slot in enumerate(self.slots) if slot and slot[0] == number)
        self.clear(self.slots[k][1], self.slots[k][1] + self.slots[k][2])
        self.slots[k] = None
        del self.packages[number]

    def file(self):
        head = b"RpmP" + little(0) + little(self.generation) + little(self.pages) + little(self.next) + bytes(12)
        slots = (b"Slot" + b"".join(map(little, slot or (0, 0, 0))) for slot in self.slots)
        front = head + b"".join(slots)
        return front + bytes(self.bytes[len(front):])

    def records(self):
        return sum(len(elements) for entries in self.packages.values() for tag, _, elements in entries if tag in KEYED)

    def list(self):
        return b"".join(MAGIC + header(self.packages[number]) for number in sorted(self.packages))


def exercise(store, count):
    """Adds, replaces and erases as the exercise does; gives the number of changes."""
    before = store.next - 1
    for i in range(1, count + 1):
        store.change(None, generated(i))
    for i in range(3, count + 1, 3):
        store.change(before + i, generated(i, 2))
    for i in range(5, count + 1, 5):
        store.erase(before + i)
    print("packages", len(store.packages))
    for k in range(7):
        print(f"cap{k}", sum(f"cap{k}" in elements for entries in store.packages.values() for tag, _, elements in entries if tag == 1047))
    print("sha256", hashlib.sha256(store.list()).hexdigest())
    print("changes", count + count // 3 + count // 5)


def print_blob(number, generation, made):
    frame = blob(number, generation, made)
    zeros = len(frame) - 28 - len(made)
    print("\"BlbS\"", frame[4:8].hex(), frame[8:12].hex(), frame[12:16].hex(), made.hex(), f"{zeros}*00", frame[-12:-8].hex(), frame[-8:-4].hex(), "\"BlbE\"")


def main():
    if "--help" in sys.argv:
        print(__doc__)
        return
    if len(sys.argv) < 3:
        sys.exit(__doc__)
    what, count = sys.argv[1], int(sys.argv[2])
    if what == "blob":
        print_blob(count, int(sys.argv[3]), bytes.fromhex(sys.argv[4]))
        return
    store = Store()
    if what == "exercise":
        if sys.argv[3:] == ["a"]:
            store.change(None, SMALL)
            store.erase(1)
        exercise(store, count)
    else:
        for i in range(1, count + 1):
            store.change(None, generated(i) if what == "generated" else SMALL)
    if what == "replaced":
        store.change(int(sys.argv[3]), INSTALLED)
    if what == "erased":
        store.erase(int(sys.argv[3]))
        store.change(None, INSTALLED)
    file = store.file()
    print("pages", store.pages, "bytes", len(file), "records", store.records())
    print("Packages.db", hashlib.sha256(file).hexdigest())


if __name__ == "__main__":
    main()
