#!/usr/bin/env python3
"""Writes a Packages.db for the reports, to measure with: bench/make_reports.py KIND N FOLDER [LIST]

Where a LIST is named, the same headers are written there, each behind its magic, as rpmdb --importdb reads them. Each package has 20
requirements and 20 files, and a size and a digest of each file. By KIND:

  mixed    requires libraries that stand before it; every hundredth lacks one, and is in a cycle with the next; its files are its own, but
           for one that it shares with nine others, and one that another has in another mode
  shared   as mixed, but all own the same 20 paths with the same facts
  chain    requires the next package alone, and has no files
  unmet    one package, without files, with N requirements that nothing meets
  givers   N packages without files, of which each provides `same` in a version of its own, and requires it in one that none provides
"""
import sys

sys.dont_write_bytecode = True
from make_database import INT16, INT32, MAGIC, TEXT, TEXTS, header, store

ANY, AT_LEAST = 0, 12
KINDS = ("mixed", "shared", "chain", "unmet", "givers")


def own_files(i):
    """The (folder, name, mode, size) of the files of a package, by rising path."""
    ten, pair = i // 10, i // 2
    own = [(f"/usr/share/package{i}/", f"file{k:02}", 33188, 100 * i + k) for k in range(18)]
    return sorted(own + [("/usr/lib/", f"common{ten}", 33188, ten), ("/usr/lib/", f"pair{pair}", 33188 if i % 2 else 33261, pair)])


def shared_files():
    return [("/usr/lib64/", f"file{k:02}.so", 33188, k) for k in range(20)]


def requirements(i, count):
    """The (name, flags, version) of the requirements of a package."""
    before = [(f"lib{max(1, i - 1 - k * k)}.so", ANY, "") for k in range(1, 17)]
    library = f"lib{min(i + 1, count)}.so" if i % 100 == 0 else "lib1.so"
    lacking = "libnone.so" if i % 100 == 0 else "lib2.so"
    back = f"lib{max(1, i - 1)}.so"
    return before + [("package1", AT_LEAST, "1"), (library, ANY, ""), (lacking, ANY, ""), (back, AT_LEAST, "1.0")]


def of_files(files):
    folders = sorted({folder for folder, _, _, _ in files})
    count = len(files)
    return [
        (1028, INT32, [size for _, _, _, size in files]), (1030, INT16, [mode for _, _, mode, _ in files]),
        (1035, TEXTS, [f"{size:064x}" for _, _, _, size in files]), (1036, TEXTS, [""] * count), (1037, INT32, [0] * count),
        (1039, TEXTS, ["root"] * count), (1040, TEXTS, ["root"] * count), (1116, INT32, [folders.index(f) for f, _, _, _ in files]),
        (1117, TEXTS, [name for _, name, _, _ in files]), (1118, TEXTS, folders),
    ] if files else []


def package(i, needs, files, gives=("lib{}.so", "1.0")):
    """The header of a package that also provides something, by its number, in a version."""
    return header(sorted(of_files(files) + [
        (1000, TEXT, [f"package{i}"]), (1001, TEXT, [f"1.{i % 10}"]), (1002, TEXT, ["1"]), (1022, TEXT, ["x86_64"]),
        (1047, TEXTS, [f"package{i}", gives[0].format(i)]), (1112, INT32, [8, 8]), (1113, TEXTS, [f"1.{i % 10}-1", gives[1].format(i)]),
        (1048, INT32, [flags for _, flags, _ in needs]), (1049, TEXTS, [name for name, _, _ in needs]),
        (1050, TEXTS, [version for _, _, version in needs]),
    ]))


def of_kind(kind, i, count):
    if kind == "chain":
        return package(i, [(f"lib{min(i + 1, count)}.so", ANY, "")], [])
    if kind == "unmet":
        return package(i, [(f"none{k}", ANY, "") for k in range(count)], [])
    if kind == "givers":
        return package(i, [("same", AT_LEAST, f"{count + i}")], [], ("same", "{}"))
    return package(i, requirements(i, count), own_files(i) if kind == "mixed" else shared_files())


def main():
    if "--help" in sys.argv:
        print(__doc__)
        return
    if len(sys.argv) not in (4, 5) or sys.argv[1] not in KINDS:
        sys.exit(__doc__)
    kind, count, folder = sys.argv[1], int(sys.argv[2]), sys.argv[3]
    packages = [(i, of_kind(kind, i, count)) for i in range(1, 1 + (1 if kind == "unmet" else count))]
    with open(f"{folder}/Packages.db", "wb") as file:
        file.write(store(packages, len(packages) + 1))
    for name in sys.argv[4:]:
        with open(name, "wb") as file:
            file.writelines(MAGIC + blob for _, blob in packages)


if __name__ == "__main__":
    main()
