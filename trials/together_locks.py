"""The locks themselves, for trials/together.py: this script holds one while a command runs."""
import fcntl
import os
import time
from concurrent.futures import ThreadPoolExecutor
from dataclasses import dataclass
from pathlib import Path

import crash_states as states
from at_once import Hangs, Started, table
from crash_room import Loss, Room, short
from together_pairs import ASKED, FIRST, NAMES, by_key, listing, reached

HEADS = ["A lock that another process holds", "Command", "Held on", "Held for a second"]
# A refusal has to come between these seconds, of which the lock is asked for five.
LEAST, MOST = 2, 30


@dataclass(frozen=True)
class Held:
    """A lock of the database: its name, the file below the folder, how it is held, and which commands it lets in at once, and which after a while."""
    name: str
    path: str
    how: int
    at_once: tuple = ()
    late: tuple = ()

    def take(self, folder):
        """The handle that holds it."""
        handle = os.open(Path(folder) / self.path, os.O_RDONLY)
        fcntl.flock(handle, self.how)
        return handle


LOCKS = (Held("the folder's, alone", "", fcntl.LOCK_EX, ("`-qa`",), ("`-q`",)),
         Held("that of `Packages.db`, shared", "Packages.db", fcntl.LOCK_SH, ("`-q`", "`-qa`")),
         Held("that of `Packages.db`, alone", "Packages.db", fcntl.LOCK_EX))


def right(room, pairs, command, ended):
    """Raises what isn't as it has to be after a command that was let in."""
    if ended.answer != command.prints(pairs.state):
        raise Loss(f"it ended with {short(ended.answer)}")
    room.look(list(reached(pairs.state, [(command, ended.seconds)])), NAMES)


def held_on(room, pairs, name, command, lock):
    """Runs a command while the lock is held on: the cell."""
    handle = lock.take(room.folder / room.at)
    ended = Started(room.words(command.words), room.folder, command.given).wait()
    os.close(handle)
    if (ended.took < LEAST) != (name in lock.at_once) or ended.took > MOST:
        raise Loss(f"after {ended.took:.1f} s it ended with {short(ended.answer)}")
    when = "at once" if ended.took < LEAST else f"after {ended.took:.0f} s"
    if name in lock.at_once + lock.late:
        right(room, pairs, command, ended)
        return f"right {when}"
    if not ended.is_refused():
        raise Loss(f"after {ended.took:.1f} s it ended with {short(ended.answer)}")
    room.look([pairs.state], NAMES)
    return f"252 {when}"


def for_a_second(room, pairs, name, command, lock):
    """Runs a command while the lock is held for a second: the cell."""
    handle = lock.take(room.folder / room.at)
    started = Started(room.words(command.words), room.folder, command.given)
    time.sleep(1)
    has_waited = started.is_running()
    os.close(handle)
    ended = started.wait()
    if has_waited == (name in lock.at_once):
        raise Loss("it waited" if has_waited else f"it didn't wait, and ended with {short(ended.answer)}")
    right(room, pairs, command, ended)
    return "right after it" if has_waited else "right at once"


def tried(task):
    """A cell, and what is wrong in it."""
    program, folder, pairs, name, command, lock, run = task
    room = Room(program, folder)
    folder.mkdir()
    room.put(pairs.files, {"db"})
    try:
        return run(room, pairs, name, command, lock), None
    except (Loss, Hangs) as fault:
        return "wrong", f"{lock.name}, {name}: {fault}"


def locks(program, folder, pairs, is_quick, faults):
    """The table of all locks; with --quick of one that is held on, and of those that are held for a second."""
    commands = {"`--addpkg`": states.add(pairs.packages, FIRST), "`-q`": by_key("", ASKED), "`-qa`": listing()}
    cases = [(lock, name, run) for lock in LOCKS for name in commands for run in (held_on, for_a_second)]
    if is_quick:
        cases = [it for it in cases if it[2] is for_a_second or it[:2] == (LOCKS[0], "`--addpkg`")]
    tasks = [(program, Path(folder) / f"lock{at}", pairs, name, commands[name], lock, run) for at, (lock, name, run) in enumerate(cases)]
    with ThreadPoolExecutor(len(tasks)) as pool:
        found = dict(zip(cases, pool.map(tried, tasks)))
    faults.update(fault for _, fault in found.values() if fault)

    def cells(lock, name):
        return [found.get((lock, name, run), ("not tried", None))[0] for run in (held_on, for_a_second)]
    return table(HEADS, [[lock.name, name, *cells(lock, name)] for lock in LOCKS for name in commands])
