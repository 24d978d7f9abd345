"""Writes rows of crates/worked_restarts: stops at each place of the gate and restarts after them, random walks, and the longest chains.

usage: bench/run rows restarts                writes crates/worked_restarts/data/stops.txt and points.txt
       bench/run rows restarts --check        ends with an error where one of these files is another one
       bench/run rows restarts --to FOLDER    writes them there

Stopped are an entry that needs three moves, and a middle that goes out of service and comes back; bench/rows/walk.py has walks and chains.
What the registers hold after each of the entry's writes is reckoned from the words before it and the writes, which are worked out by hand.
"""
from bench.rows import generated
from bench.rows.walk import walks

DATA = "crates/worked_restarts/data"

MODULES, MIDDLES, SLOTS = 3, 3, 2
WORDS = "0 1 0 1 0 0 1 2 0 3 2 0 0 1 3 0 0 0 0 769 514 257 1026 0"
# A register's kind and its two numbers, and the word that is written.
WRITES = """IN 1 2 1
MID 2 1 2
OUT 1 1 1283
MID 0 1 0
IN 1 0 0
IN 0 0 1
MID 0 1 1
OUT 1 0 1537
MID 1 1 0
IN 0 1 0
IN 1 1 1
MID 1 1 2
OUT 1 1 1794
MID 2 1 0
IN 1 2 0
IN 0 1 2
MID 1 0 1
OUT 0 0 2050"""
# A middle with two circuits goes out of service: each is moved to the spare, in order of their outputs. Then it comes back.
TAKEN = """IN 0 2 1
MID 2 1 1
OUT 1 0 1283
MID 1 1 0
IN 0 1 0
IN 2 2 2
MID 2 2 3
OUT 2 0 1539
MID 1 2 0
IN 2 1 0"""
BACK = """IN 0 1 1
MID 1 1 1
OUT 1 0 1794
MID 2 1 0
IN 0 2 0
IN 2 1 2
MID 1 2 3
OUT 2 0 2050
MID 2 2 0
IN 2 2 0"""
# The fifth circuit of the shelf is parted, its output first.
GONE = """OUT 2 0 0
MID 1 2 0
IN 2 1 0"""
FIRST = {"IN": (0, MIDDLES), "MID": (MODULES * MIDDLES, MODULES), "OUT": (2 * MODULES * MIDDLES, SLOTS)}


class Work:
    """The writes of a change, by what the registers hold, and what a frame is before it and after the write that it turns at, its last where nothing
    is said."""

    def __init__(self, part, words, writes, before, behind, turns=None):
        self.part, self.words, self.writes = part, words, writes.splitlines()
        self.before, self.behind = before, behind
        self.count = len(self.writes)
        self.turns = self.count if turns is None else turns
        # Before the journal, before each write, and before the end.
        self.places = self.count + 2

    def words_after(self, made):
        words = self.words.split()
        for write in self.writes[:made]:
            kind, first, second, word = write.split()
            start, each = FIRST[kind]
            words[start + each * int(first) + int(second)] = word
        return " ".join(words)

    def frame(self, made):
        return self.behind if made >= self.turns else self.before

    def parts(self):
        for made in range(self.count + 1):
            yield f"part {self.part}-{made}\nlast {self.frame(made)}\nwords {self.words_after(made)}\n"


ENTRY = Work("made", WORDS, WRITES, ".eacf.", "beacf.")
TAKE = Work("taken", WORDS, TAKEN, ".eacf.", ".eacf.")
PUT = Work("back", TAKE.words_after(TAKE.count), BACK, ".eacf.", ".eacf.")
# By whether the entry stands when the circuit is parted.
PART = {
    True: Work("gone-of-five", ENTRY.words_after(ENTRY.count), GONE, "beacf.", "beac..", 1),
    False: Work("gone-of-four", WORDS, GONE, ".eacf.", ".eac..", 1),
}
COUNT, PLACES, frame = ENTRY.count, ENTRY.places, ENTRY.frame


class Point:
    """How far a change came: whether the journal holds it, and how many of its writes are made."""

    def __init__(self, held, made, work=ENTRY):
        self.held, self.made, self.work = held, made, work

    @staticmethod
    def at(asking, work=ENTRY):
        return Point(asking > 0, min(max(asking - 1, 0), work.count), work)

    def left(self):
        return self.work.count - self.made if self.held else 0

    def behind(self, asking):
        """A restart was stopped at its asking of that number."""
        return Point(self.held, self.made + min(max(asking - 1, 0), self.left()), self.work)

    def ended(self):
        return Point(self.held, self.made + self.left(), self.work)


def fifth(asking):
    """The entry, after four others, stopped at that asking."""
    made = Point.at(asking).made
    asked = f"asked 1 {min(asking, COUNT)} {int(asking == PLACES - 1)}"
    return ["use four", "use fifth", f"stop {asking}", asked, f"frames .eacf. {frame(made)}", f"use made-{made}"]


def restart_stopped(point, asking, unit="restart"):
    made = point.behind(asking).made
    asked = f"asked 1 {min(asking, point.left())} {int(asking > point.left())}"
    return [f"use {unit}", f"stop {asking}", asked, f"frames {frame(point.made)} {frame(made)}", f"use made-{made}"]


def restart(point):
    """One that comes to its end."""
    made = point.ended().made
    listed = "five-listed" if point.held else "four-listed"
    return ["use restart", "use completed", f"use {listed}", f"asked 1 {point.left()} 1", f"frames {frame(point.made)} {frame(made)}", f"use made-{made}"]


def restarts():
    for asking in range(PLACES):
        yield f"a stop at place {asking}", fifth(asking) + restart(Point.at(asking))


def adoptions():
    """Another controller takes over at each stop, leaves the registers as they are, and makes the restart."""
    for asking in range(PLACES):
        point = Point.at(asking)
        found = ["session", "adopts", "login ANNA 1", "asked 0 0 0", f"use made-{point.made}"]
        yield f"a stop at place {asking}, and another controller", fifth(asking) + found + restart(point)


def stopped_at(asking, work):
    """The end of a session whose change was stopped at that asking."""
    made = Point.at(asking, work).made
    asked = f"asked 1 {min(asking, work.count)} {int(asking == work.places - 1)}"
    return [f"stop {asking}", asked, f"frames {work.before}", f"use {work.part}-{made}"]


def restarted(point):
    """A restart after it, which moves no more than what is left."""
    work, made = point.work, point.ended().made
    return ["use restart", "use completed", "use four-listed", f"asked 1 {point.left()} 1", f"frames {work.before}", f"use {work.part}-{made}"]


def middles():
    """A middle goes out of service and comes back, with a stop at each place; the fifth entry has no middle just while it is out."""
    denied = ["use fifth", "use no-middle", "asked 0 0 0", "frames .eacf."]
    entered = ["use fifth", "compld 2", f"asked 1 {COUNT} 1", "frames .eacf. beacf.", "last beacf."]
    taken = ["use taking", "compld 2", f"asked 1 {TAKE.count} 1", "frames .eacf.", f"use taken-{TAKE.count}"]
    for asking in range(TAKE.places):
        point = Point.at(asking, TAKE)
        lines = ["use four", "use taking"] + stopped_at(asking, TAKE) + restarted(point)
        yield f"a middle goes out, stopped at place {asking}", lines + (denied if point.held else entered)
    for asking in range(PUT.places):
        point = Point.at(asking, PUT)
        lines = ["use four"] + taken + denied + ["use putting"] + stopped_at(asking, PUT) + restarted(point)
        yield f"a middle comes back, stopped at place {asking}", lines + (entered if point.held else denied)


def second_stops():
    for asking in range(PLACES):
        point = Point.at(asking)
        for then in range(point.left() + 2):
            lines = fifth(asking) + restart_stopped(point, then) + restart(point.behind(then))
            yield f"stops at place {asking} and at place {then} of the restart", lines


def stops_of_deletions():
    """A deletion finds that a restart is due, and is stopped in that restart, or after it at one of its own places."""
    for asking in range(PLACES):
        point = Point.at(asking)
        for then in range(point.left() + 2):
            lines = fifth(asking) + restart_stopped(point, then, "deletion") + restart(point.behind(then))
            yield f"stops at place {asking} and at place {then} of the restart before a deletion", lines
        for own in range(PART[point.held].places):
            lines = fifth(asking) + deletion_stopped(point, own) + behind_deletion(point, own)
            yield f"stops at place {asking} and, the restart made, at place {own} of a deletion", lines


def deletion_stopped(point, own):
    """Its restart was made, and it is stopped at its own asking of that number."""
    work, made = PART[point.held], Point.at(own, PART[point.held]).made
    asked = f"asked 2 {point.left() + min(own, work.count)} {1 + int(own > work.count)}"
    seen = f"frames {frame(point.made)} {work.before} {work.frame(made)}"
    return ["use deletion", f"stop {point.left() + 2 + own}", asked, seen, f"use {work.part}-{made}"]


def behind_deletion(point, own):
    """The restart after a deletion that was stopped."""
    work, cut = PART[point.held], Point.at(own, PART[point.held])
    stands = "five" if point.held else "four"
    listed = f"{stands}-less-listed" if cut.held else f"{stands}-listed"
    seen = f"frames {work.frame(cut.made)} {work.frame(cut.ended().made)}"
    return ["use restart", "use completed", f"use {listed}", f"asked 1 {cut.left()} 1", seen, f"use {work.part}-{cut.ended().made}"]


def changes():
    """A change finds that a restart is due, and makes it first. Without the fifth entry, the one it enters needs three moves."""
    for name in ("deletes", "enters"):
        for asking in range(PLACES):
            point = Point.at(asking)
            writes = point.left() + (3 if name == "deletes" or point.held else COUNT)
            then = ["session", "login ANNA 1", "use allowed", f"use {name}", f"use {name}-{'held' if point.held else 'lost'}", f"asked 2 {writes} 2"]
            yield f"a stop at place {asking}, then one {name}", fifth(asking) + then


# Why a restart is due and what asks for it: the asking at which the entry was stopped, or None where the disk failed while its record was sealed,
# which a restart mends first; the unit; and how many calls of the disk a restart makes.
NEEDS = [(0, "restart", 11), (8, "restart", 13), (19, "restart", 13), (8, "deletion", 13), (None, "restart", 13)]


def faults():
    """Each call of the disk in a restart fails, with what comes of a write that fails, and a restart comes after it."""
    for stopped, unit, calls in NEEDS:
        point = Point.at(stopped or 0)
        first = ["use four", "use doubted"] if stopped is None else fifth(stopped)
        need = "a seal that failed" if stopped is None else f"a stop at place {stopped}, and a {unit}"
        for torn in ("lost", "whole", "other"):
            row = first + [f"torn {torn}"]
            yield f"{need}, {torn}", row + restart(point) + [f"calls {calls}"]
            for call in range(calls):
                asked = f"asked {int(stopped is not None or call >= 2)} 0 0"
                failed = [f"use {unit}", "use failed", f"fails {call}", asked, f"frames {frame(point.made)}", f"use made-{point.made}"]
                yield f"{need}, {torn}, call {call} of the restart", row + failed + restart(point)


def seals():
    """A crash came while a record was sealed: its seal byte may be any."""
    head = "a54458434a524e4c 0100000200010000 0000000000030000 0000000000000000"
    for seal in range(256):
        old = f"old {head} {seal:02x}01000000010001 0000000000000000 0000000000000000 0000000000000000 00"
        part = "sealed" if seal == 0xA5 else "unsealed"
        yield f"a seal of {seal:02x}", ["shelf 2 1", old, "session", "login ANNA 1", f"use {part}"]


def texts():
    points = [part for work in (ENTRY, TAKE, PUT, *PART.values()) for part in work.parts()]
    rows = [
        "\n".join([f"row {name}", *lines]) + "\n"
        for rows in (restarts(), adoptions(), second_stops(), stops_of_deletions(), changes(), middles(), faults(), seals(), walks())
        for name, lines in rows
    ]
    head = "# Stops at each place of an entry that needs three moves and of a middle that goes out and comes back, and restarts; the longest chains; and random walks. `bench/run rows restarts` writes them.\n\n"
    return {f"{DATA}/points.txt": "\n".join(points), f"{DATA}/stops.txt": head + "\n".join(rows)}


if __name__ == "__main__":
    generated.main(texts, __doc__)
