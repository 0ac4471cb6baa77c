"""Commands that run at one time: how they are started and how they ended, for trials/together.py and trials/beside_rpm.py."""
import re
import subprocess
import tempfile
import time
from dataclasses import dataclass

# What a command prints that another process kept out: the line of every fault of the disk, and one that says why.
REFUSED = re.compile(rb"rpm: the database could not be read or written\nrpm: another process [^\n]+\n")
# A command that takes longer than these seconds hangs: it may wait for a lock, but not for long.
LONGEST = 60


class Hangs(Exception):
    """A command doesn't end."""


@dataclass
class Ended:
    """How a command ended: its status and both outputs, the whole seconds of the clock in which it ran, and how long that was."""
    answer: tuple
    seconds: range
    took: float

    def is_refused(self):
        """Whether another process kept it out; then it has printed nothing else."""
        status, out, err = self.answer
        return (status, out) == (252, b"") and REFUSED.fullmatch(err) is not None


class Started:
    """A command that runs in a folder."""

    def __init__(self, words, folder, given=b"", **more):
        self.words, self.begin = words, time.time()
        with tempfile.TemporaryFile() as file:
            file.write(given)
            file.seek(0)
            self.process = subprocess.Popen(words, cwd=folder, stdin=file, stdout=subprocess.PIPE, stderr=subprocess.PIPE, close_fds=False, **more)

    def is_running(self):
        return self.process.poll() is None

    def wait(self):
        """Waits for its end."""
        try:
            out, err = self.process.communicate(timeout=LONGEST)
        except subprocess.TimeoutExpired:
            self.process.kill()
            self.process.communicate()
            raise Hangs(f"{' '.join(self.words)} runs for more than {LONGEST} s") from None
        end = time.time()
        return Ended((self.process.returncode, out, err), range(int(self.begin), int(end) + 1), end - self.begin)


def table(heads, rows):
    """A table of a page: its heads, and the cells of each row."""
    lines = [heads, *rows]
    text = ["| " + " | ".join(f"{cell:,}" if isinstance(cell, int) else cell for cell in line) + " |\n" for line in lines]
    return "".join([text[0], "|---" * len(heads) + "|\n", *text[1:]])
