"""A folder in which commands are run on files of a database, and looked at by a model of it; for trials/crashes.py and trials/together.py."""
import re
import shutil
import subprocess
import time
from pathlib import Path

import crash_files
import crash_states as states
from crash_files import LOG

# A fault of the disk has its line, and may have one that says what stood in the way. Where each opening fails, package files have lines before it.
FAILED = re.compile(rb"(?:error: open of [^\n]+ failed\n)*rpm: the database could not be read or written\n(?:rpm: [^\n]+\n)?")
NOWHERE = re.compile(rb"rpm: the database could not be read or written\nrpm: [^\n]*folder[^\n]*\n")


class Loss(Exception):
    """What was found isn't what has to be."""


def short(answer):
    """The beginning of an answer."""
    status, out, err = answer
    return f"status {status}, {len(out)} bytes {out[:200]!r}, {err[:200]!r}"


def is_failed(command, answer, wanted):
    """Whether a command ended by a fault of the disk, with its line, and with no more than a beginning of the right answer."""
    status, out, err = answer
    return status == 252 and wanted[1].startswith(out) and (2 in command.closed and not err or FAILED.fullmatch(err) is not None)


class Room:
    """A folder in which commands are run on files."""

    def __init__(self, program, folder):
        self.program, self.folder, self.at, self.turn = program, Path(folder), "db", False

    def words(self, words):
        """A command line on the database."""
        front = [str(self.program / words[0])] if self.program.is_dir() else [str(self.program), words[0]]
        return front + ["--dbpath", self.at, *words[1:]]

    def put(self, files, folders):
        """Makes the folder have these files alone."""
        for name in ("db", "new"):
            shutil.rmtree(self.folder / name, ignore_errors=True)
        for name in sorted(folders):
            (self.folder / name).mkdir()
        for path, data in files.items():
            (self.folder / path).write_bytes(data)

    def held(self):
        """Files and folders as they are."""
        below = [path for name in ("db", "new") for path in [self.folder / name, *(self.folder / name).rglob("*")] if path.exists()]
        return ({str(path.relative_to(self.folder)): path.read_bytes() for path in below if path.is_file()},
                {str(path.relative_to(self.folder)) for path in below if path.is_dir()})

    def ask(self, words, given=b""):
        done = subprocess.run(self.words(words), cwd=self.folder, input=given, capture_output=True, check=False)
        return done.returncode, done.stdout, done.stderr

    def traced(self, command, inject=""):
        """A command under strace: its answer, its calls, and the seconds in which it ran."""
        begin = int(time.time())
        status, out, err, calls = crash_files.traced(command.run_by(self.words(command.words)), str(self.folder), command.given, inject)
        return (status, out, err), calls, range(begin, int(time.time()) + 1)

    def want(self, words, wanted):
        found = self.ask(words)
        if found != wanted:
            raise Loss(f"{' '.join(words[:6])}: {short(found)} in place of {short(wanted)}")

    def look_nowhere(self, allowed):
        """Without a folder each question is refused, and no package may have been there: the state."""
        for words in (["rpmdb", "--exportdb"], ["rpm", "-qa"], ["rpm", "-q", "pkg1"]):
            status, out, err = self.ask(words)
            if (status, out) != (252, b"") or not NOWHERE.fullmatch(err):
                raise Loss(f"without a folder {' '.join(words)} answers {short((status, out, err))}")
        state = next((it for it in allowed if not it.packages), None)
        if state is None:
            raise Loss("there is no folder")
        return state

    def look(self, allowed, names, later=()):
        """Whether all answers are those of one of these states, before and after a transaction is finished; then of those that follow."""
        is_there = (self.folder / self.at).is_dir()
        self.look_later(self.look_there(allowed, names) if is_there else self.look_nowhere(allowed), names, later)

    def look_there(self, allowed, names):
        """The same of a folder that is there, without those that follow: the state."""
        exported = self.ask(["rpmdb", "--exportdb"])
        state = next((it for it in allowed if it.export() == exported), None)
        if state is None:
            raise Loss(f"--exportdb is of no state that may be here: {short(exported)}")
        self.want(["rpmdb", "--verifydb"], state.verify())
        self.want(["rpm", "-qa", "--qf", states.FORMAT], state.listing())
        few, self.turn = names[:12], not self.turn
        self.want(["rpm", "-q", "--noindex", "--qf", states.SHORT] + few, state.asked("", few))
        self.want(["rpm", "-q", "--qf", states.SHORT] + names, state.asked("", names))
        kind, arguments = ("-f", [f"/opt/f{name[3:]}" for name in few]) if self.turn else ("--whatprovides", ["cap0", "cap3", "cap7"])
        self.want(["rpm", "-q", "--qf", states.SHORT, kind] + arguments, state.asked(kind, arguments))
        self.want(["rpmdb", "--exportdb"], state.export())
        log = self.folder / self.at / LOG
        if log.exists() and any(log.read_bytes()[:16]):
            raise Loss("the log is open after a question by key")
        return state

    def look_later(self, state, names, later):
        """Runs commands that follow on a state, and looks at what each leaves."""
        for command in later:
            begin = int(time.time())
            answer = self.ask(command.words, command.given)
            if answer != command.prints(state):
                raise Loss(f"afterwards {' '.join(command.words)}: {short(answer)}")
            state = self.look_there([command.after(state, now) for now in range(begin, int(time.time()) + 1)], names)
