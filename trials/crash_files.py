"""What a crash may leave of files, by a trace of the calls of a program, for trials/crashes.py.

Assumed is what docs/PROVED.md says under "What is trusted": units of 16 bytes are written whole; what was written since a file's last fsync is
there or not, unit by unit, in any order; the file's length is any between; a new name is durable once its folder was synced after it.
"""
import hashlib
import os
import posixpath
import random
import re
import subprocess
from dataclasses import dataclass

TRACED = "trace=%file,%desc,exit_group"
LINE = re.compile(r"(?:\d+ +)?(\w+)\((.*)\) += (-?\d+|\?)(?:<([^>]*)>)?(?: (E[A-Z]+))?")
HANDLE = re.compile(r"(\d+)<([^>]*)>")
TEXT = re.compile(r'"([^"]*)"')
# Calls that leave the database's files as they are. One that stands in neither list ends the script: nobody knows what it would do.
LOOKS = {"read", "pread64", "lseek", "close", "statx", "newfstatat", "fstat", "stat", "access", "faccessat2", "readlink", "readlinkat", "getcwd",
         "execve", "mmap", "fcntl", "flock", "ioctl", "exit_group", "dup", "dup2", "poll"}
CHANGES = {"openat", "mkdir", "pwrite64", "write", "ftruncate", "fsync", "fdatasync"}
LOG = "Hlog.db"
# Files and folders whose syncs count as none: to see that the images show a program that forgets one.
FORGOTTEN = set()


class Unknown(Exception):
    """The program makes a call that isn't understood here."""


@dataclass
class Call:
    """A call of a trace: its name, the how-manieth of that name it is, the path that it is about (below the folder of the run), and what it did."""
    name: str
    count: int
    path: str
    data: bytes = b""
    offset: int = 0
    failed: bool = False
    makes: bool = False

    def __str__(self):
        return f"{self.name} {self.count} of {self.path or '-'}"


def plain(text):
    """The bytes of a text of strace -xx."""
    return bytes.fromhex(text.replace("\\x", ""))


def path_of(arguments, below):
    """The path that a call is about, relative to the folder of the run; None where it lies elsewhere."""
    handle, text = HANDLE.match(arguments), TEXT.search(arguments)
    if handle:
        path = plain(handle.group(2)).decode() if handle.group(2).startswith("\\x") else handle.group(2)
    elif text:
        path = posixpath.normpath(posixpath.join(below, plain(text.group(1)).decode()))
    else:
        return None
    path = posixpath.relpath(path, below) if path.startswith("/") else path
    return None if path.startswith(("..", "pipe:", "socket:")) else path


def parsed(line, counts, below):
    """The call of a line; None where it has none."""
    found = LINE.match(line)
    if not found:
        return None
    name, arguments, result, _, error = found.groups()
    counts[name] = counts.get(name, 0) + 1
    path = path_of(arguments, below)
    call = Call(name, counts[name], path, failed=bool(error) or result == "?")
    if name not in LOOKS | CHANGES and path is not None or name == "mmap" and "MAP_SHARED" in arguments and "PROT_WRITE" in arguments:
        raise Unknown(line[:200])
    if name == "openat":
        call.makes = "O_CREAT" in arguments
        if "O_TRUNC" in arguments and path is not None:
            raise Unknown(line[:200])
    if name == "write" and path is not None and path.endswith(".db"):
        raise Unknown(line[:200])
    if name == "pwrite64" and not call.failed:
        call.data, call.offset = plain(TEXT.search(arguments).group(1)), int(arguments.rpartition(", ")[2])
        if len(call.data) != int(result):
            raise Unknown(line[:200])
    if name == "ftruncate":
        call.offset = int(arguments.rpartition(", ")[2])
    return call


def traced(words, below, given=b"", inject=""):
    """Runs the words in the folder `below` under strace. Gives status, both outputs, and the calls of the last program of a chain of execve; with
    something injected only those that change files and that into which it is."""
    trace = os.path.join(below, "trace")
    few = f"trace={','.join(sorted(CHANGES))},{inject.partition(':')[0]}"
    rules = ["-e", few, "-e", "inject=" + inject] if inject else ["-e", TRACED]
    if ":error=" in inject:  # (strace 6.1 injects no signal with this, which is faster)
        rules.insert(0, "--seccomp-bpf")
    done = subprocess.run(["strace", "-f", "-y", "-xx", "-s", "100000000", "-o", trace, *rules, *words], cwd=below, input=given, capture_output=True,
                          check=False)
    with open(trace, encoding="ascii", errors="replace") as lines:
        counts = {}
        calls = [call for call in (parsed(line, counts, below) for line in lines) if call]
    os.unlink(trace)
    begin = max((at for at, call in enumerate(calls) if call.name == "execve"), default=0)
    return done.returncode, done.stdout, done.stderr, calls[begin:]


class File:
    """A file: what is durable, and what was written (offset, bytes) or cut (offset, None) since."""

    def __init__(self, durable=b""):
        self.durable, self.pending = durable, []

    def image(self, chosen, longer=0.0):
        """What a crash leaves: `chosen(at, offset)` says whether the unit at this offset of the pending write `at` is there."""
        made = bytearray(self.durable)
        lengths = [len(made)]
        for at, (offset, data) in enumerate(self.pending):
            lengths.append(offset if data is None else max(lengths[-1], offset + len(data)))
            if data is None:
                if chosen(at, offset):
                    del made[offset:]
                continue
            for begin in range(0, len(data), 16):
                if chosen(at, offset + begin):
                    piece = data[begin:begin + 16]
                    made.extend(bytes(max(0, offset + begin - len(made))))
                    made[offset + begin:offset + begin + len(piece)] = piece
        made.extend(bytes(int(longer * max(0, max(lengths) - len(made)))))
        return bytes(made)

    def now(self):
        made = bytearray(self.durable)
        for offset, data in self.pending:
            if data is None:
                del made[offset:]
            else:
                made.extend(bytes(max(0, offset - len(made))))
                made[offset:offset + len(data)] = data
        return bytes(made)


class Disk:
    """Files and folders by the calls on them. `commit` is 0 before a commit record was written, 1 before it was synced, and then 2."""

    def __init__(self, files, folders):
        self.files = {path: File(data) for path, data in files.items()}
        self.folders, self.unsettled, self.commit = set(folders), set(), 0

    def apply(self, call):
        """What a call does that didn't fail; whether it changed anything here."""
        path = call.path
        if path is None or call.failed or call.name not in CHANGES:
            return False
        if call.name == "openat" and call.makes and path not in self.files:
            self.files[path] = File()
            self.unsettled.add(path)
        elif call.name == "mkdir":
            self.folders.add(path)
            self.unsettled.add(path)
        elif call.name in ("pwrite64", "ftruncate"):
            self.files[path].pending.append((call.offset, call.data if call.name == "pwrite64" else None))
            if path.endswith(LOG) and call.offset == 0 and call.data.startswith(b"RpmL"):
                self.commit = 1
        elif call.name in ("fsync", "fdatasync"):
            self.sync(path)
        else:
            return False
        return True

    def sync(self, path):
        if posixpath.basename(path) in FORGOTTEN:
            return
        if path in self.files:
            self.files[path] = File(self.files[path].now())
            if path.endswith(LOG) and self.commit == 1:
                self.commit = 2
        else:
            self.unsettled = {name for name in self.unsettled if (posixpath.dirname(name) or ".") != path}

    def now(self):
        """Files and folders as they read."""
        return {path: file.now() for path, file in self.files.items()}, set(self.folders)

    def left(self, chosen, is_lost=lambda name: False, longer=lambda: 0.0):
        """Files and folders of an image: `chosen(path, at, offset)` as in File, `is_lost(name)` of a name that isn't durable."""
        lost = {name for name in self.unsettled if is_lost(name)}
        here = {name for name in set(self.files) | self.folders if not any(name == it or name.startswith(it + "/") for it in lost)}
        files = {path: file.image(lambda at, offset, path=path: chosen(path, at, offset), longer())
                 for path, file in self.files.items() if path in here}
        return files, self.folders & here

    def mixed(self, seed):
        """An image by chance: unit by unit, or by pieces as systems write them, few or many of them old."""
        chance = random.Random(seed)
        grain, share, kept = chance.choice([16, 16, 512, 4096]), chance.choice([0.1, 0.5, 0.9]), {}

        def chosen(path, at, offset):
            return kept.setdefault((path, at, offset // grain), chance.random() < share)
        return self.left(chosen, lambda name: chance.random() < 0.5, lambda: chance.choice([0.0, 1.0, chance.random()]))


def images(disk, call, is_last, seed, mixes, most):
    """The images of a moment as (what it is, (files, folders)): `call` led to it; `is_last` where the next call that changes anything is a sync.
    At most `most` of the pending writes, spread over them, are taken alone and left out alone."""
    pending = [(path, at) for path, file in disk.files.items() for at in range(len(file.pending))]
    some = pending[::max(1, -(-len(pending) // most))]
    yield "all old", disk.left(lambda *_: False, lambda _: True)
    yield "all new", disk.left(lambda *_: True)
    if disk.unsettled:
        yield "all old, new names there", disk.left(lambda *_: False)
        yield "all new, new names lost", disk.left(lambda *_: True, lambda _: True)
        yield from ((f"all new, {name} lost", disk.left(lambda *_: True, lambda it, name=name: it == name)) for name in sorted(disk.unsettled))
    if call.name == "pwrite64":
        newest = (call.path, len(disk.files[call.path].pending) - 1)
        yield f"only {newest}", disk.left(lambda path, at, _: (path, at) == newest)
    if is_last:
        yield from ((f"only {one}", disk.left(lambda path, at, _, one=one: (path, at) == one)) for one in some)
        yield from ((f"all but {one}", disk.left(lambda path, at, _, one=one: (path, at) != one)) for one in some)
        for name in sorted({path for path, _ in pending}):
            yield f"only {name}", disk.left(lambda path, *_, name=name: path == name)
            yield f"all but {name}", disk.left(lambda path, *_, name=name: path != name)
            yield f"unit 0 of {name} old", disk.left(lambda path, _, offset, name=name: path != name or offset > 0)
            yield f"of {name} unit 0 alone", disk.left(lambda path, _, offset, name=name: path != name or offset == 0)
    if pending or disk.unsettled:
        yield from ((f"mixed {number}", disk.mixed(f"{seed} {number}")) for number in range(mixes))


def digest(files, folders):
    """What tells images apart."""
    made = hashlib.blake2b(repr(sorted(folders)).encode())
    for path in sorted(files):
        made.update(f"{path} {len(files[path])} ".encode() + files[path])
    return made.digest()
