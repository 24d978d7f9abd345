"""One order of changes for many sessions: the plain table at each moment of it, and whether what each session was answered fits it."""
import heapq
from collections import defaultdict
from dataclasses import dataclass

from bench.oracle import plain
from bench.oracle.fuzz import Different

# Stands for a unit's tag. What a table says of a unit hangs on no tag, so a unit is asked of it once, under this one.
TAG, ONE = b"*", b"1"


class Table(plain.Element):
    """A plain element no middle of which goes out: so each entry finds its path."""

    def planned(self, change):
        return ()

    def key(self):
        """What tells it from others of the same users."""
        return frozenset(self.equipped), frozenset((pair, conn.cct) for pair, conn in self.connections.items())

    def behind(self, change):
        """The table that takes the change."""
        after = Table(self.sid, self.modules, self.slots, self.users, set(self.equipped), dict(self.connections))
        after.take(change)
        return after


@dataclass(slots=True)
class Answer:
    """What a session was answered to a unit, and how many changes it was told before and after."""

    asked: bytes
    code: str
    lines: tuple
    least: int
    most: int


@dataclass(slots=True)
class Done:
    """A change that some session was answered COMPLD: what it may be called, and its place in the order at least and at most."""

    texts: set
    least: int
    most: int
    number: int = None


def asked_by(text):
    """A unit that asks for a change, from its report's text."""
    code, names, *rest = text.split(":")
    if not rest or code.startswith("DLT"):
        return f"{code}::{names}:*" + (f"::{rest[0]}" if rest else "")
    return f"{code}::{names}:*::{rest[0]}"


class History:
    """The plain table behind so many of the changes, for each number of them. A table that comes again is kept once."""

    def __init__(self, first, texts):
        self.texts, self.tables, self.numbers, self.said = texts, [first], {first.key(): 0}, {}
        self.at = [0]
        for text in texts:
            self.at.append(self.behind(text))

    def behind(self, text):
        """The number of the table that comes of the next change."""
        is_done, lines, change = self.answer(self.at[-1], asked_by(text).encode())
        if not is_done or change.text() != text:
            raise Different(f"change {len(self.at)}, {text}: the plain table says {lines}")
        table = self.tables[self.at[-1]].behind(change)
        number = self.numbers.setdefault(table.key(), len(self.tables))
        if number == len(self.tables):
            self.tables.append(table)
        return number

    def answer(self, number, asked):
        """Whether the table grants the unit, the text lines, and the change."""
        if (number, asked) not in self.said:
            session = plain.Session(self.tables[number])
            session.user = session.element.users[0]
            _, is_done, lines = session.answer(asked.replace(TAG, ONE))
            self.said[number, asked] = is_done, tuple(lines), session.change
        return self.said[number, asked]

    def changes(self, answer):
        """The changes as which a completed answer fits, by their moments; a change leaves a moment behind it within the answer's."""
        for at in range(answer.least, answer.most):
            is_done, lines, change = self.answer(self.at[at], answer.asked)
            if change and is_done and lines == answer.lines:
                yield change.text()

    def fits(self, answer):
        """Whether the table says so at a moment, and no change came of it."""
        for at in range(answer.least, answer.most + 1):
            is_done, lines, change = self.answer(self.at[at], answer.asked)
            if not change and lines == answer.lines and is_done == (answer.code == "COMPLD"):
                return True
        return False

    def done(self, answers):
        """The completed changes among the answers. Each other answer is the table's at some moment."""
        found = []
        for answer in answers:
            texts = set(self.changes(answer)) if answer.code == "COMPLD" else ()
            if texts:
                found.append(Done(texts, answer.least + 1, answer.most))
            elif not self.fits(answer):
                raise Different(f"{answer}: no table between says so")
        return found

    def place(self, changes):
        """The completed changes stand in the order, each at a place of its own, and none besides. Of those that fit a place, it is given to the
        one that has to come first; where none is left, those before make room."""
        if len(changes) != len(self.texts):
            raise Different(f"{len(changes)} changes were completed, and {len(self.texts)} reported")
        coming, waiting, named, holders = sorted(changes, key=lambda it: -it.least), defaultdict(list), defaultdict(list), {}
        for number, text in enumerate(self.texts, 1):
            while coming and coming[-1].least <= number:
                change = coming.pop()
                for each in change.texts:
                    heapq.heappush(waiting[each], (change.most, id(change), change))
                    named[each].append(change)
            if not take(number, waiting[text], holders) and not self.make_room(number, named, holders):
                raise Different(f"change {number}, {text}, is nobody's")

    def make_room(self, number, named, holders):
        """Gives a place to a change that has another one, which goes to one that fits there, and so on to one that has none; false where no such
        row of changes is there."""
        found_at, going = {}, [number]
        while going:
            at = going.pop(0)
            for change in named[self.texts[at - 1]]:
                if id(change) in found_at or not change.least <= at <= change.most:
                    continue
                found_at[id(change)] = at
                if change.number is not None:
                    going.append(change.number)
                    continue
                while change:
                    at = found_at[id(change)]
                    change.number, holders[at], change = at, change, holders.get(at)
                return True
        return False


def take(number, waiting, holders):
    """Gives a place to the change that has to come first of those that fit it and have none; false where there is none."""
    while waiting:
        most, _, change = heapq.heappop(waiting)
        if most >= number and change.number is None:
            change.number, holders[number] = number, change
            return True
    return False
