"""Changes by rpm and by this program in turn, for trials/beside_rpm.py."""
from beside_sides import Wrong, listed

ROUNDS = 7


def compared(sides, here, gone, faults, what):
    """Asks both everything: how many answers were compared."""
    count = 0
    for name, words, wanted, missing in sides.questions(here, gone):
        for side in ("rpm", "ours"):
            count += 1
            try:
                found = sides.ask(side, words, missing)
                if found != wanted:
                    raise Wrong(f"{side}: {sorted(set(wanted) - set(found))[:3]} are missing, {sorted(set(found) - set(wanted))[:3]} are too much")
            except Wrong as wrong:
                faults[f"in turn, {what}, {name}: {wrong}"] += 1
    try:
        sides.run("ours", ["rpmdb", "--verifydb"])
    except Wrong as wrong:
        faults[f"in turn, {what}: {wrong}"] += 1
    return count + 1


class Turns:
    """What is installed, by number, and the next number."""

    def __init__(self, sides):
        self.sides, self.here, self.gone, self.next, self.made = sides, {}, [], 1, 0

    def news(self, count):
        """Packages that are new, which get the next numbers."""
        made = range(self.made + 1, self.made + 1 + count)
        self.here.update(enumerate(made, self.next))
        self.made, self.next = made[-1], self.next + count
        return made

    def drop(self, count):
        """Some packages that are there, from the middle on: their numbers and names."""
        numbers = sorted(self.here)[len(self.here) // 2:][:count]
        self.gone = [self.here.pop(number) for number in numbers]
        return numbers, [f"package{i}" for i in self.gone]

    def replace(self):
        """The least number, whose package a new one replaces: the number, and the file of that."""
        number, self.made = min(self.here), self.made + 1
        self.gone, self.here[number] = [self.here[number]], self.made
        return str(number), self.sides.file_of(self.made)

    def changes(self):
        """The changes of a round: what it is, who makes it, its words, its input."""
        yield "an import by rpm", "rpm", ["rpmdb", "--importdb"], listed(self.news(5))
        yield "`--addpkg`", "ours", ["rpm", "--addpkg", *map(self.sides.file_of, self.news(3))], b""
        yield "an erasure by rpm", "rpm", ["rpm", "-e", "--justdb", "--nodeps", *self.drop(2)[1]], b""
        yield "`--erasepkg`", "ours", ["rpm", "--erasepkg", *map(str, self.drop(2)[0])], b""
        yield "`--replacepkg`", "ours", ["rpm", "--replacepkg", *self.replace()], b""
        yield "`--importdb`", "ours", ["rpmdb", "--importdb"], listed(self.news(4))


def in_turn(sides, rounds, faults):
    """Makes changes in turn, and compares all answers after each: how many changes each made, and how many answers were compared."""
    sides.fresh()
    turns, count, made = Turns(sides), 0, {"rpm": 0, "ours": 0}
    for _ in range(rounds):
        for what, side, words, given in turns.changes():
            try:
                sides.run(side, words, given)
            except Wrong as wrong:
                faults[f"in turn, {what}: {wrong}"] += 1
                return made, count
            made[side] += 1
            count += compared(sides, turns.here, turns.gone, faults, what)
    return made, count
