"""Commands that are killed, that meet faults, and whose files are left as a crash may leave them, for trials/crashes.py; and what is asked then."""
import copy
import hashlib
import os
import re
import tempfile
from dataclasses import dataclass
from pathlib import Path

import crash_cases
import crash_files
import crash_states as states
from crash_files import Unknown
from crash_room import Loss, Room, is_failed, short

# Of more reads of a command some fail, spread over all; --quick also takes only so many other calls.
MOST_READS, MOST_QUICK = 60, 12
READS = {"read", "pread64", "lseek", "statx", "close", "newfstatat", "fstat"}


def some(places, most):
    """At most so many of these, spread over them, with the first and the last."""
    if len(places) <= most:
        return places
    return [places[at * (len(places) - 1) // (most - 1)] for at in range(most)]


def is_sync(call):
    return call.name in ("fsync", "fdatasync")


@dataclass
class Plan:
    """A case that was run as it is: the disk before its last command, the calls of that, and the states."""
    case: crash_cases.Case
    disk: object
    calls: list
    before: states.State
    after: states.State
    names: list

    def disk_after(self, at):
        """The disk after the call at this place, and whether it changed anything."""
        disk, changed = copy.deepcopy(self.disk), False
        for call in self.calls[:at + 1]:
            changed = disk.apply(call)
        return disk, changed

    def moments(self):
        """The places of the calls that change anything."""
        disk = copy.deepcopy(self.disk)
        return [at for at, call in enumerate(self.calls) if disk.apply(call)]

    def tasks(self, is_quick):
        """What is to be tried: (kind, place of a call, what fails)."""
        moments = self.moments()
        near = {it for at, after in zip(moments, moments[1:]) for it in (at, after) if is_sync(self.calls[it]) or is_sync(self.calls[after])}
        kills = some([*moments, moments[-1] + 1], MOST_QUICK) if is_quick else sorted({*moments, *(at + 1 for at in moments)})
        faults = [at for at, call in enumerate(self.calls) if call.path is not None and call.name in READS | crash_files.CHANGES]
        reads = [at for at in faults if self.calls[at].name == "pread64"]
        faults = some(moments, MOST_QUICK) if is_quick else sorted(set(faults) - set(reads) | set(some(reads, MOST_READS)))
        for at in kills:
            yield "killed", at, None
        for at in [-1, *(sorted(near | set(some(moments, MOST_QUICK))) if is_quick else moments)]:
            yield "images", at, None
        yield from (("faults", at, "error=EACCES") for at, call in enumerate(self.calls) if call.name == "openat" and call.path is not None)
        for at in faults:
            yield "faults", at, "error=EIO"
            if self.calls[at].name not in READS and not is_quick:
                yield "faults", at, "error=ENOSPC"
                yield "faults", at, "error=ENOSPC, and from there on"


class Bench:
    """All that the processes share."""

    def __init__(self, program, base, seed, is_quick):
        self.program, self.base, self.seed, self.is_quick = program, base, seed, is_quick
        self.plans, self.room, self.seen, self.lost = [], None, set(), set()

    def digest(self):
        """Of the program itself, also where a folder has scripts that run it."""
        path = self.program
        if path.is_dir():
            path = path / "rpm"
            script = re.search(rb"^exec '([^']+)'", path.read_bytes(), re.M)
            path = Path(script.group(1).decode()) if script else path
        return hashlib.sha256(path.read_bytes()).hexdigest()[:16]

    def enter(self):
        """A folder of this process's own."""
        folder = Path(self.base) / str(os.getpid())
        folder.mkdir(exist_ok=True)
        self.room = Room(self.program, folder)

    def tried(self, case):
        """Runs a case as it is: the disk before its command, the calls of that, files and folders, and the states before and after it."""
        self.room.at = case.at
        self.room.put(case.files, case.folders)
        disk, state, calls = case.start(), case.state, []
        for command in [*case.acknowledged, case.command]:
            for call in calls:
                disk.apply(call)
            disk.commit = case.disk.commit if case.disk else 0
            answer, calls, seconds = self.room.traced(command)
            exported = self.room.ask(["rpmdb", "--exportdb"])
            before, state = state, next((it for it in (command.after(state, now) for now in seconds) if it.export() == exported), None)
            if state is None or answer != command.heard(command.prints(before)):
                raise Loss(f"{case.name} ({case.size}), run as it is: {short(answer)}; --exportdb: {short(exported)}")
        return disk, calls, self.room.held(), before, state

    def planned(self, case):
        """The plan of a case. What its calls do here has to be what they did there."""
        disk, calls, held, before, after = self.tried(case)
        names = {states.first(found, states.NAME) for state in (before, after) for _, found in state.readable()}
        plan = Plan(case, disk, calls, before, after, [*sorted(names, key=lambda name: (name not in ("pkg1", "pkg70", "pkg90"), name)), "nosuch"])
        if plan.disk_after(len(calls))[0].now() != held:
            raise Unknown(f"{case.name} ({case.size}): the calls of the trace don't make the files that are there")
        return plan

    def kept(self, plan, what, held, loss):
        """Keeps files that the first loss of a case was found in; says what it is, and where."""
        text = f"{plan.case.name} ({plan.case.size}), {what}: {loss}"
        if id(plan) in self.lost:
            return text
        self.lost.add(id(plan))
        folder = Path(tempfile.mkdtemp(prefix="crashes-"))
        room = Room(self.program, folder)
        room.put(*held)
        (folder / "HOW").write_text(f"{text}\nseed {self.seed}, the folder of the database: {plan.case.at}\n", encoding="utf-8")
        return f"{text}\n  see {folder}"

    def looked(self, plan, what, held, allowed, is_there=False):
        """Looks at files, which are put into the room where they aren't there; the lines of a loss."""
        if not is_there:
            self.room.put(*held)
        try:
            self.room.look(allowed, plan.names, plan.case.later)
        except Loss as loss:
            return [self.kept(plan, what, held, loss)]
        return []

    def did(self, kind, plan, at, error):
        """Does a task of a plan: how much was tried, and the lines of each loss."""
        self.room.at = plan.case.at
        return {"images": self.images, "killed": self.killed, "faults": self.faults}[kind](plan, at, error)

    def images(self, plan, at, _):
        """All images of the moment after a call."""
        disk, _ = plan.disk_after(at)
        moments, call = plan.moments(), plan.calls[max(at, 0)]
        following = next((plan.calls[it] for it in moments if it > at), None)
        allowed = {0: [plan.before], 1: [plan.before, plan.after], 2: [plan.after]}[disk.commit if following else 2]
        count, lost = 0, []
        is_last = following is None or is_sync(following)
        seed = f"{self.seed} {plan.case.name} {plan.case.size} {at}"
        for what, held in crash_files.images(disk, call, is_last, seed, *((3, 16) if self.is_quick else (8, 200))):
            known = (plan.case.name, plan.case.size, len(allowed), disk.commit, crash_files.digest(*held))
            if known not in self.seen:
                self.seen.add(known)
                count += 1
                lost += self.looked(plan, f"image '{what}' after call {at}, {call}", held, allowed)
        return count, lost

    def run(self, plan, call, what):
        """Runs the case's command with something at a call: its answer, what is held then, the disk by its own calls, how often `call` came, and
        the states after it. Calls may differ a little from run to run: the second in which a package is added decides where its keys lie."""
        self.room.put(*plan.disk.now())
        answer, calls, seconds = self.room.traced(plan.case.command, f"{call.name}:{what}")
        disk, held = copy.deepcopy(plan.disk), self.room.held()
        for it in calls:
            disk.apply(it)
        if disk.now() != held:
            raise Unknown(f"{plan.case.name} ({plan.case.size}), {call}, {what}: the calls of the trace don't make the files that are there")
        count = max((it.count for it in calls if it.name == call.name), default=0)
        return answer, held, disk, count, [plan.case.command.after(plan.before, now) for now in seconds]

    def killed(self, plan, at, _):
        """Killed as a call begins."""
        call = plan.calls[at]
        answer, held, disk, count, after = self.run(plan, call, f"signal=SIGKILL:when={call.count}")
        is_killed = answer[0] == -9
        if is_killed != (count >= call.count):
            raise Unknown(f"{plan.case.name} ({plan.case.size}) isn't killed at {call}: {short(answer)}")
        allowed = after if disk.commit else [plan.before]
        return int(is_killed), self.looked(plan, f"killed at call {at}, {call}", held, allowed, True)

    def faults(self, plan, at, error):
        """A call that fails. Then also images of a crash right after the command's end."""
        call, case = plan.calls[at], plan.case
        error, _, more = error.partition(",")
        answer, held, disk, count, after = self.run(plan, call, f"{error}:when={call.count}{'+' if more else ''}")
        if count < call.count:
            return 0, []
        what, wanted = f"{error}{more} at call {at}, {call}", case.command.heard(case.command.prints(plan.before))
        if answer == wanted:
            now = later = after
        elif is_failed(case.command, answer, wanted) and call.name == "openat":
            # What can't be opened is known before the log has any of the change: nothing of it is made, now or later. What was committed before stays.
            begun = case.disk.commit if case.disk else 0
            now, later = after if begun else [plan.before], [[plan.before], [plan.before] + after, after][begun]
        elif is_failed(case.command, answer, wanted):
            now, later = after if disk.commit else [plan.before], [[plan.before], [plan.before] + after, after][disk.commit]
        else:
            return 1, [self.kept(plan, what, held, f"it ended with {short(answer)}")]
        lost = self.looked(plan, what, held, now, True)
        left = [disk.left(lambda *_: False, lambda _: True)] + [disk.mixed(f"{self.seed} {case.name} {what} {it}") for it in range(2)]
        for number, image in enumerate(left if disk.now() != left[0] else []):
            lost += self.looked(plan, f"{what}, then image {number}", image, later)
        return 1, lost
