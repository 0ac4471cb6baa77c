"""What a command costs: seconds of the processor, memory, reads, calls of the system, instructions. A part of bench/update.py.

A command is a list of words. Each function runs it once, with an environment and with a file on its standard input.
"""
import contextlib
import re
import resource
import subprocess
import tempfile
import time
from pathlib import Path

# strace holds the process at its last call, at most so many microseconds; there is read what it took.
HELD = 60_000_000
LAST = ["strace", "-f", "--seccomp-bpf", "-qqq", "-o", "/dev/null", "-e", "trace=exit_group", "-e", f"inject=exit_group:delay_enter={HELD}"]
EXIT_GROUP = 231
LINE = re.compile(r"^ *[\d.]+ +[\d.]+ +\d+ +(\d+) (?: *\d+)? *(\w+)$", re.M)


class Failed(Exception):
    """A command that ended otherwise than it has to, or took too long."""


@contextlib.contextmanager
def started(words, environment, feed):
    """The process of a command, whose output is thrown away; at the end it's waited for."""
    with open(feed, "rb") as given:
        process = subprocess.Popen([str(word) for word in words], env=environment, stdin=given, stdout=subprocess.DEVNULL, stderr=subprocess.DEVNULL)
    try:
        yield process
    finally:
        if process.returncode is None:
            process.kill()
            process.wait()


def child_of(process):
    """The folder in /proc of the process that strace follows, once there is one."""
    found = Path(f"/proc/{process.pid}/task/{process.pid}/children").read_text(encoding="ascii").split()
    return Path("/proc") / found[0]


def taken(child):
    """What a process took until its last call, where it makes that: its status, seconds, the most bytes it held in memory, and how often it read."""
    number, *arguments = (child / "syscall").read_text(encoding="ascii").split()
    if number != str(EXIT_GROUP):
        return None
    status, reads = (child / "status").read_text(encoding="ascii"), (child / "io").read_text(encoding="ascii")
    return {"status": int(arguments[0], 16), "seconds": int((child / "schedstat").read_text(encoding="ascii").split()[0]) / 1e9,
            "memory": int(re.search(r"^VmHWM:\s+(\d+) kB$", status, re.M).group(1)) * 1024, "reads": int(re.search(r"^syscr: (\d+)$", reads, re.M).group(1))}


def spent(words, environment, feed, most):
    """What a command takes of the processor, of memory, and of reads; it may take so many seconds of the processor."""
    found, limited = None, False
    with started([*LAST, *words], environment, feed) as process:
        while process.poll() is None and not found:
            with contextlib.suppress(OSError, IndexError, ValueError):
                child = child_of(process)
                if not limited and (child / "comm").read_text(encoding="ascii") != "strace\n":
                    resource.prlimit(int(child.name), resource.RLIMIT_CPU, (most, most))
                    limited = True
                found = limited and taken(child)
            time.sleep(0.01)
    if not found or found.pop("status") > 1:
        raise Failed(" ".join(map(str, words))[:200])
    return found


def calls(words, environment, feed):
    """How many calls of the system a command makes: of each name, as `strace -c -f` counts them."""
    with tempfile.NamedTemporaryFile("r", encoding="ascii") as told:
        with started(["strace", "-c", "-f", "-o", told.name, *words], environment, feed) as process:
            process.wait()
        return {name: int(count) for count, name in LINE.findall(told.read()) if name != "total"}


def instructions(words, environment, feed):
    """How many instructions a command takes, as callgrind counts them."""
    around = ["valgrind", "--tool=callgrind", "--callgrind-out-file=/dev/null"]
    with open(feed, "rb") as given:
        said = subprocess.run([*around, *map(str, words)], env=environment, stdin=given, stdout=subprocess.DEVNULL, stderr=subprocess.PIPE, check=False).stderr
    return int(re.search(rb"Collected : (\d+)", said).group(1))
