"""Writes rows of crates/worked_rows: journals that are old, torn, changed or left by a crash, and what comes of them.

usage: bench/run rows journals                writes crates/worked_rows/data/journals.txt
       bench/run rows journals --check        ends with an error where that file is another one
       bench/run rows journals --to FOLDER    writes it there

What comes of a row is reckoned by the plain element (bench/oracle/plain.py) over a plain journal (bench/oracle/journal.py).
"""
import functools
import itertools
import random

from bench.rows import generated
from bench.oracle import journal
from bench.oracle.journal import AREAS, File, header, record
from bench.oracle.paths import COLUMN, DIRECT, ROW, Paths
from bench.oracle.plain import Conn

ROWS = "crates/worked_rows/data/journals.txt"
HEAD = """# Worked rows of journals, over fakes in memory. `bench/run rows journals` writes them; `faults.txt` tells what a line says, and these say more.
#
#   shape M N      a shelf file of so many modules and slots, 2 and 1 where nothing is said
#   old HEX        bytes after those of the old journal so far; 00*N stands for N zeros        times N HEX    these bytes N times
#   from N         zeros up to this place            cut        it ends at N, the number for which the row is run
#   change BITS    its byte at N has these bits turned
#   torn HOW       what is left of a write that fails: lost, whole, front (its first half), sealed (filled with A5)
#   fails writes N     that write or sync of the run fails
#   crash HOW      all writes and syncs from N on fail, and the journal is then what such a crash leaves: this of those that no sync followed
#   any            whatever is written and however the run ends
#   enters M N C S     enters the first C ports of M modules of N slots, each to the one S after it; retrieves, lists: wants them so
#   calls N        how many writes and syncs the journal must see
#   length N       how many bytes the journal must then have            piece N HEX    which bytes it must have there
"""
LOGIN = "ACT-USER::ANNA:1::bc"
LEFTS = ("lost", "whole", "front", "sealed")
ONE, TWO = "DS0-1-1,DS0-2-1", "DS0-2-1,DS0-1-1"
OLD = bytes.fromhex("a54458434a524e4c 0100000200010000 0000000000030000 0000000000000000 a501000000010001" + "00" * 25)


def spelled(data):
    """Hexadecimal text, in which many zeros are counted."""
    words = []
    for is_zero, run in itertools.groupby(data, lambda byte: byte == 0):
        run = bytes(run)
        words.append(f"00*{len(run)}" if is_zero and len(run) > 2 else run.hex())
    return " ".join(words)


class Row:
    """A row with the journal as its runs leave it."""

    def __init__(self, name, modules=2, slots=1, old=b"", each=None):
        self.name, self.shape, self.content, self.each = name, (modules, slots), bytes(old), each
        self.first, self.lines = self.content, []
        self.old_lines = list(old_lines(self.content)) if old else []

    def text(self):
        head, lines = [f"row {self.name}"], self.lines
        head += [f"shape {self.shape[0]} {self.shape[1]}"] if self.shape != (2, 1) else []
        old, kind, more = self.old_lines, "", ""
        if self.each:
            first, last, what = self.each.split(" ", 2)
            head += [f"each {first} {last}"]
            kind, _, more = what.partition(" ")
        if kind in ("cut", "change"):
            old = [*old, what]
        if kind == "fail":
            head, lines = [*head, f"torn {more}"], [lines[0], "fails writes N", *lines[1:]]
        if kind == "crash":
            lines = [lines[0], what, *lines[1:]]
        return "\n".join(head + old + lines) + "\n"

    def script(self, *units, failing=None, calls=True):
        """A session that is sent these units after a log-in."""
        file = File(self.content, failing)
        units = (LOGIN, *units)
        answers = journal.script(file, *self.shape, units)
        self.content = bytes(file.content)
        self.lines += ["run script s j"] + [f"send {unit};" for unit in units]
        self.lines += self.refusal(file) if answers is None else [answer_line(*answer) for answer in answers]
        self.lines += [f"calls {len(file.calls)}"] if calls else []
        return self

    def check(self):
        file = File(self.content)
        rows = journal.check(file, *self.shape)
        self.content = bytes(file.content)
        self.lines += ["run check s j"] + (self.refusal(file) if rows is None else [f"list {line}" for line in rows])
        return self

    def refusal(self, file):
        failed = file.failing is not None and len(file.calls) > file.failing
        return ["status 5" if failed else "status 4"]

    def file(self, *pieces):
        """The journal's length, and the bytes in these ranges."""
        self.lines += [f"length {len(self.content)}"]
        self.lines += [f"piece {first} {spelled(self.content[first:last])}" for first, last in pieces or [(0, len(self.content))]]
        return self


@functools.lru_cache(maxsize=16)
def old_lines(content):
    """The lines of a journal's bytes. Zeros between the areas aren't spelled."""
    return tuple(lines_of_areas(content))


def lines_of_areas(content):
    first, second = content[: AREAS[1]], content[AREAS[1] :]
    kept = first.rstrip(b"\0")
    kept = first if len(kept) + 200 > len(first) else kept
    size = journal.SIZE[2 if kept[8:9] == b"\2" else 1]
    yield from repeated(kept, size)
    if len(kept) < len(content) and len(kept) < len(first):
        yield f"from {len(first)}"
    if second:
        yield f"old {spelled(second)}"


def repeated(content, size):
    """The bytes of an area, in which two records that come again and again are counted."""
    two = content[32 : 32 + 2 * size]
    times = 0
    while two and content[32 + 2 * size * times : 32 + 2 * size * (times + 1)] == two:
        times += 1
    if times < 4:
        yield f"old {spelled(content)}"
        return
    yield f"old {spelled(content[:32])}"
    yield f"times {times} {spelled(two)}"
    if rest := content[32 + 2 * size * times :]:
        yield f"old {spelled(rest)}"


def answer_line(tag, is_done, lines):
    if not is_done:
        code, text = lines
        return f"deny {tag} {code} {text.removeprefix('/* ').removesuffix(' */')}"
    if any(" " in line for line in lines):
        return "\n".join(["want H", f"want M  {tag} COMPLD", *(f"want    {line}" for line in lines), "want ;"])
    return " ".join([f"rows {tag}", *(line.strip('"') for line in lines)]) if lines else f"compld {tag}"


def enter(pair, tag="1", more=""):
    return f"ENT-CRS-T0::{pair}:{tag}{more}"


def delete(pair, tag="1"):
    return f"DLT-CRS-T0::{pair}:{tag}"


def area(version, generation, records, modules=2, slots=1):
    """An area of an element of which all modules are equipped."""
    return header(version, generation, journal.element_of(modules, slots)) + b"".join(records) + b"\0"


def two_areas(first, second):
    return first + bytes(AREAS[1] - len(first)) + second


def entry(pair, cct=0, label="", version=2, choices=((0, 0, 0),), modules=2, slots=1):
    return record(journal.element_of(modules, slots), "ENT-CRS-T0", Conn(pair, cct, label), choices[: cct + 1], version)


def deletion(pair, version=2, label=""):
    return record(journal.element_of(2, 1), "DLT-CRS-T0", Conn(pair, 0, label), [(0, 0, 0)], version)


FROM, BACK = ((1, 1), (2, 1)), ((2, 1), (1, 1))


def grouped(name, places, make):
    """Rows of the places; neighbours to which the same comes are one row."""
    for lines, group in itertools.groupby(places, lambda at: make(at).lines):
        group = list(group)
        row = make(group[0])
        row.name, row.lines = name, lines
        row.each = f"{group[0]} {group[-1]} {row.each}"
        yield row


def labels():
    yield Row("the smallest entry").script(enter(ONE)).file().check()
    edit = f"ED-CRS-T0::{ONE}"
    yield (
        Row("a label")
        .script(enter(ONE, 1, '::1WAY,"CIRCUIT 7"'), "RTRV-CRS-T0:::2", f'{edit}:3::1WAY,"CIRCUIT 7"', f"{edit}:4::1WAY,C8", f"{edit}:5::1WAY", "RTRV-CRS-T0:::6")
        .file()
        .check()
    )
    yield (
        Row("labels of 24 and 25 bytes, an empty one, one of printed text, and one with a control byte")
        .script(enter(ONE, 1, f"::,{'a' * 25}"), enter(ONE, 2, "::2WAY,\"x\ty\""), enter(ONE, 3, f"::2WAY,{'b' * 24}"), "RTRV-CRS-T0:::4", f"{edit}:5::2WAY,\"\"")
        .script(f"{edit}:2::1WAY,\"a:b;c,d 'e' ~!\"", "RTRV-CRS-T0:::3", delete(ONE, 4), enter(ONE, 5), f"{edit}:6::", f"{edit}:7::,C9", f"{edit}:8::2WAY,C9")
        .check()
        .script(delete(ONE))
        .file((0, 32), (32 + 64 * 5, 32 + 64 * 6 + 1))
    )


def middles():
    four = [enter("DS0-2-1,DS0-2-2"), enter("DS0-1-1,DS0-2-1"), enter("DS0-3-1,DS0-1-2"), enter("DS0-3-2,DS0-3-1")]
    fifth, listed = "DS0-1-2,DS0-1-1", "RTRV-CRS-T0:::9"
    yield (
        Row("a middle taken out and put back", 3, 2)
        .script(*four[:2], "RMV-MID::MID-1:6", "RMV-MID::MID-2:7", "RST-MID::MID-2:8", "RST-MID::MID-1:9", "RST-MID::MID-1:A")
        .file()
        .check()
    )
    yield (
        Row("no middle while one is out", 3, 2)
        .script(*four, "RMV-MID::MID-2:6", enter(fifth, 7), "RST-MID::MID-2:8", enter(fifth, 9), listed)
        .file()
        .check()
    )
    yield (
        Row("a start with a middle out, a chain of one leg, and a middle for each of two legs or for none", 3, 2)
        .script(*four, "RMV-MID::MID-1:6")
        .check()
        .script(delete("DS0-2-1,DS0-2-2"), enter(fifth, 7), enter("DS0-2-1,DS0-2-2", 8), "RMV-MID::MID-1:9", delete("DS0-3-1,DS0-1-2", "A"), "RST-MID::MID-1:B")
        .file((0, 32))
        .check()
    )
    yield Row("names of middles", 64, 96).script("RMV-MID::MID-0:1", "RMV-MID::MID-97:2", "RMV-MID::96:3", "RMV-MID::mid-96:4", "RST-MID::MID-95:5", "RST-MID::MID-96:6", "RMV-MID:::7", "RMV-MID::MID-1,MID-2:8", "RMV-MID::MID-1:9::1WAY")
    yield Row("names of ports of the largest shape", 64, 96).script(enter("DS0-64-96,DS0-1-1"), enter("DS0-65-1,DS0-1-1"), enter("DS0-1-97,DS0-1-1"), "RTRV-CRS-T0::MOD-64:2", "DLT-EQPT::MOD-63:3", "DLT-EQPT::MOD-64:4").file()


def chains():
    four = [enter("DS0-2-1,DS0-2-2"), enter("DS0-1-1,DS0-2-1"), enter("DS0-3-1,DS0-1-2"), enter("DS0-3-2,DS0-3-1")]
    two = Row("a chain of two legs", 3, 2).script(*four, enter("DS0-1-2,DS0-1-1"))
    assert two.content.endswith(entry(((1, 2), (1, 1)), choices=((1, ROW, 0),), modules=3, slots=2) + b"\0")
    yield two.file().check()
    three = [enter("DS0-1-1,DS0-1-2"), enter("DS0-2-1,DS0-2-2"), enter("DS0-2-2,DS0-2-1")]
    one = Row("the row's chain of two that are as long", 2, 2).script(*three, delete("DS0-2-1,DS0-2-2"), enter("DS0-1-2,DS0-2-2"))
    assert one.content.endswith(entry(((1, 2), (2, 2)), choices=((0, ROW, 1),), modules=2, slots=2) + b"\0")
    yield one.file().check()


def given_choices():
    """A circuit entered two way on middles 1 and 0, narrowed, widened on middle 1, and deleted; then a module comes and another goes."""
    records = [
        [1, 0, 0, 0, 2, 1, 2, 1, 0, 0, 0],
        [3, 0, 0, 0, 2, 0, 1, 0],
        [3, 0, 0, 0, 2, 1, 1, 1],
        [2, 0, 0, 0, 2, 1, 2, 1, 0, 0, 1],
        [4, 0, 2],
        [5],
    ]
    element = journal.element_of(3, 2)
    element.equipped = {1, 2}
    for count in range(1, len(records) + 1):
        old = header(1, 0, element) + b"".join(bytes([0xA5, *each]).ljust(32, b"\0") for each in records[:count]) + b"\0"
        yield Row(f"{count} records with choices that aren't the lowest", 3, 2, old).check()
    yield Row("a session after these records", 3, 2, old).script("RTRV-CRS-T0:::1", "ENT-EQPT::MOD-3:2", "ENT-EQPT::MOD-2:3", "ENT-EQPT::MOD-1:4").check()


def choices_while_out():
    """Legs on given middles of three modules of two slots, whose first middle is out; then a leg from module 1 to module 1."""
    port = lambda number: (number // 2 + 1, number % 2 + 1)
    element = journal.element_of(3, 2)

    def begun(legs, *choices):
        records = [record(element, "RMV-MID", 1, ())]
        records += [entry((port(from_port), port(to)), choices=((middle, DIRECT, 0),), modules=3, slots=2) for from_port, to, middle in legs]
        records += [entry((port(0), port(1)), choices=(choice,), modules=3, slots=2) for choice in choices]
        return area(2, 0, records, 3, 2)

    for legs, choice in [
        ([(1, 2, 1), (4, 0, 2), (5, 4, 1)], (1, ROW, 2)),
        ([(1, 2, 2), (4, 0, 1), (5, 4, 2)], (2, ROW, 1)),
        ([(1, 2, 1), (4, 5, 2), (3, 4, 1)], (2, DIRECT, 0)),
        ([(1, 2, 1), (2, 3, 2), (4, 0, 2)], (2, COLUMN, 1)),
    ]:
        row = Row(f"a choice while a middle is out: {choice}", 3, 2, begun(legs)).script(enter("DS0-1-1,DS0-1-2"))
        assert row.content == begun(legs, choice)
        yield row.file().check()
    two = [(1, 2, 1), (4, 0, 2)]
    for choice in [(2, COLUMN, 1), (2, ROW, 1), (0, DIRECT, 0), (0, ROW, 2), (3, DIRECT, 0)]:
        yield Row(f"a given choice while a middle is out: {choice}", 3, 2, begun(two, choice)).check()


# Shapes of which each choice of a leg is tried.
SMALL = ((2, 1), (3, 1), (2, 2), (3, 2), (4, 2), (2, 3), (3, 3))


def every_choice():
    """Random legs on their planned middles, and then one more by each choice that a record may spell, valid or not."""
    for modules, slots in SMALL:
        records, free = legs_at_random(modules, slots)
        middles = range(slots + 1)
        chains = [(middle, kind, other) for kind in (ROW, COLUMN) for middle in middles for other in middles]
        for choice in [(middle, DIRECT, 0) for middle in middles] + chains:
            old = area(2, 0, [*records, entry(free, choices=(choice,), modules=modules, slots=slots)], modules, slots)
            yield Row(f"each choice, {modules} by {slots}: {choice}", modules, slots, old).check()


def legs_at_random(modules, slots):
    """Records of entries by choices that needn't be the lowest, and a leg that finds no middle free at both ends, where there are two."""
    dice = random.Random(modules * 10 + slots)
    ports = [(module, slot) for module in range(1, modules + 1) for slot in range(1, slots + 1)]
    while True:
        outputs = dice.sample(ports, len(ports))
        legs = [leg for leg in zip(dice.sample(ports, len(ports)), outputs) if leg[0] != leg[1]]
        paths, choices = Paths(slots), []
        for leg in legs[:-1]:
            middles = [middle for middle in range(slots) if paths.is_free(0, leg, middle) and paths.is_free(1, leg, middle)]
            choices.append((dice.choice(middles), DIRECT, 0) if middles else paths.choice(leg))
            paths.join(leg, choices[-1])
        if legs and (slots == 1 or paths.choice(legs[-1])[1] != DIRECT):
            break
    records = [entry(leg, choices=(choice,), modules=modules, slots=slots) for leg, choice in zip(legs, choices)]
    return records, legs[-1]


def versions():
    yield Row("a journal of version 1 moves over", old=OLD).script(enter(TWO)).file((0, 65), (AREAS[1], AREAS[1] + 161)).check()
    yield Row("a journal of version 1 that nothing changes", old=OLD).script("RTRV-CRS-T0:::2").file().check()
    first, second = area(2, 0, [entry(FROM)]), area(2, 1, [entry(BACK, label="C8")])
    named = {
        "area 1 is the next generation": two_areas(first, second),
        "area 0 is the next generation": two_areas(area(2, 2, [entry(FROM)]), second),
        "area 0 is two generations on": two_areas(area(2, 0, [entry(FROM)]), area(2, 2, [entry(BACK)])),
        "both areas of one generation": two_areas(first, area(2, 0, [entry(BACK)])),
        "a generation of 3": area(2, 3, [entry(FROM)]),
        "a generation of 3 beside a good area": two_areas(first, area(2, 3, [entry(BACK)])),
        "a version of 3": area(3, 0, [entry(FROM)]),
        "a version of 0": area(0, 0, [entry(FROM)]),
        "area 1 alone": two_areas(b"\0" + first[1:], second),
        "area 0 of version 1, area 1 of version 2": two_areas(area(1, 0, [entry(FROM, version=1)]), second),
        "area 0 of version 2, area 1 of version 1": two_areas(area(2, 2, [entry(FROM)]), area(1, 1, [entry(BACK, version=1)])),
        "area 1 of version 1 is current": two_areas(area(1, 0, [entry(FROM, version=1)]), area(1, 1, [entry(BACK, version=1)])),
        "records of version 2 in an area of version 1": area(1, 0, [entry(FROM), deletion(FROM)]),
        "a record of version 1 in an area of version 2": area(2, 0, [entry(FROM, version=1), entry(BACK, version=1)]),
        "a middle out in version 1": area(1, 0, [record(journal.element_of(2, 1), "RMV-MID", 1, (), 1)]),
        "a deletion with another label": area(2, 0, [entry(FROM, label="A"), deletion(FROM, label="B")]),
        "a middle taken out twice": area(2, 0, [record(journal.element_of(2, 1), "RMV-MID", 1, ())] * 2),
        "a header of 32 bytes": area(2, 0, [])[:32],
        "an unsealed header of 33 bytes": b"\0" + area(2, 0, [])[1:],
        "an unsealed header of 34 bytes": b"\0" + area(2, 0, [])[1:] + b"\0",
        "another shape": area(2, 0, [entry(FROM)], 3, 1),
    }
    for name, old in named.items():
        row = Row(name, old=old).check()
        yield row.file((0, min(len(old), 200))) if "status 4" in row.lines else row.script(delete(ONE), enter(ONE), enter(TWO)).check()


def full_journals():
    pairs = [entry(FROM, version=1), deletion(FROM, version=1)]
    full = header(1, 0, journal.element_of(2, 1)) + b"".join(pairs) * 32_768 + b"\0"
    yield Row("a full journal of version 1", old=full).script(enter(ONE)).file((AREAS[1], AREAS[1] + 97)).check()
    for failing in (2, 5):
        row = Row("a full journal of version 1, and a call fails", old=full, each=f"{failing} {failing} fail lost")
        yield row.script(enter(ONE), enter(ONE, 2), failing=failing).check()
    pairs = [entry(FROM), deletion(FROM)]
    full = header(2, 0, journal.element_of(2, 1)) + b"".join(pairs) * 16_383 + pairs[0] + b"\0"
    yield Row("a full journal of version 2", old=full).script(delete(ONE), enter(TWO)).file((AREAS[1], AREAS[1] + 225)).check()
    back = two_areas(full, area(2, 2, [entry(BACK)]))
    yield Row("a full journal that turns back to a used area", old=back).script(delete(ONE)).file((AREAS[1], AREAS[1] + 161)).check()


def torn():
    """Journals that end at each byte, and journals with each byte of a header and a record changed."""
    first = area(2, 0, [entry(FROM, label="C8"), entry(BACK)])
    files = {
        "version 2, torn": (first, range(len(first) + 1)),
        "version 1, torn": (OLD, range(len(OLD) + 1)),
        "area 1, torn": (two_areas(area(2, 0, [entry(BACK)]), area(2, 1, [entry(FROM), entry(BACK)])), range(AREAS[1] - 2, AREAS[1] + 162)),
    }
    for name, (old, places) in files.items():
        yield from grouped(name, places, lambda at: cut(old, at))
    for bits in (0x01, 0x80, 0xA5):
        yield from grouped(f"bits {bits:02x} of each byte turned", range(96), lambda at: changed(area(2, 0, [entry(FROM, label="C8")]), at, bits))
        yield from grouped(f"bits {bits:02x} of each byte turned, version 1", range(64), lambda at: changed(OLD, at, bits))
    both = two_areas(area(2, 2, [entry(BACK)]), area(2, 0, [entry(FROM)]))
    yield from grouped("each header byte of area 1 turned", range(AREAS[1], AREAS[1] + 32), lambda at: changed(both, at, 1))
    yield from grouped("each header byte of area 0 turned", range(32), lambda at: changed(both, at, 1))


def like(row, old, content):
    """The row with the runs after this content; its old journal is spelled as it was before it was torn or changed."""
    row.content = content
    row.old_lines = list(old_lines(old))
    return row


def cut(old, at):
    return like(Row("", each="cut"), old, old[:at]).check().check()


def changed(old, at, bits):
    content = bytearray(old)
    content[at] ^= bits
    return like(Row("", each=f"change {bits}"), old, bytes(content)).check()


def crash(old, at, left, unit, calls, then=True):
    row = like(Row("", each=f"crash {left}"), old, journal.crashed(old, calls, at, left))
    row.lines += ["run script s j", "any", f"send {LOGIN};", f"send {unit};"]
    row.check()
    return row.script("RTRV-CRS-T0:::2", enter(TWO, 3), delete(ONE, 4), calls=False).check() if then else row


def calls_of(old, unit):
    file = File(old)
    journal.script(file, 2, 1, (LOGIN, unit))
    return file.calls


def crashes():
    """A crash in front of each write and sync of a making, a migration, checkpoints to either area, and the changes after them."""
    near = two_areas(area(1, 0, [entry(FROM, version=1)]), area(1, 1, [entry(BACK, version=1)]))
    for name, old, unit in (
        ("a making and an entry", b"", enter(ONE)),
        ("an entry", area(2, 0, [entry(BACK)]), enter(ONE, 1, "::1WAY,C8")),
        ("a migration", OLD, enter(TWO)),
        ("a migration to area 0", near, delete(TWO)),
        ("a migration with no change after it", near, "RMV-MID::MID-1:2"),
    ):
        calls = calls_of(old, unit)
        for left in LEFTS:
            yield from grouped(f"{name}, a crash", last_of(calls), lambda at: crash(old, at, left, unit, calls))
        if len(calls) > 50:
            for places in (range(20), range(480, last_of(calls)[0])):
                yield from grouped(f"{name}, a crash among its zeros", places, lambda at: crash(old, at, "front", unit, calls, False))
    yield from full_crashes()


def last_of(calls):
    """The places of all calls, or of those after the zeros between the areas."""
    return range(0 if len(calls) < 50 else len(calls) - 12, len(calls) + 1)


def full_crashes():
    pairs = [entry(FROM), deletion(FROM)]
    full = header(2, 0, journal.element_of(2, 1)) + b"".join(pairs) * 16_383 + pairs[0] + b"\0"
    unit = delete(ONE)
    calls = calls_of(full, unit)
    for left in LEFTS:
        yield from grouped("a checkpoint, a crash", range(len(calls) + 1), lambda at: crash(full, at, left, unit, calls))


def faults():
    """A write or sync that fails: the command is denied, and the same again is completed."""
    near = two_areas(area(1, 0, [entry(FROM, version=1)]), area(1, 1, [entry(BACK, version=1)]))
    for name, old, unit in (("a making and an entry", b"", enter(ONE)), ("a migration to area 0", near, enter(ONE)), ("a migration", OLD, enter(TWO))):
        calls = calls_of(old, unit)
        for left in LEFTS:
            yield from grouped(f"{name}, a call fails", last_of(calls), lambda at: fault(old, at, left, unit))
        if len(calls) > 50:
            yield from grouped(f"{name}, one of its zeros fails", range(20), lambda at: fault(old, at, "front", unit))


def fault(old, at, left, unit):
    row = Row("", old=old, each=f"fail {left}").script(unit, unit.replace(":1", ":2", 1), failing=at, calls=False)
    return row if "status 5" in row.lines else row.check()


def largest():
    """A full table of the largest shape, entered, retrieved, audited, and written as a checkpoint."""
    ports, login = 6_144, [f"send {LOGIN};", "compld 1"]
    more = journal.MOST[2] - ports
    return [
        "row a full table of 64 modules of 96 slots",
        "shape 64 96",
        "run script s j",
        *login,
        f"enters 64 96 {ports} 96",
        f"retrieves 64 96 {ports} 96",
        f"calls {6 + 4 * ports}",
        f"length {33 + 64 * ports}",
        "run check s j",
        f"lists 64 96 {ports} 96",
        f"list RECORDS {ports}",
        "run script s j",
        *login,
        f"fill {more // 2 + 1} {delete(ONE)};{enter(ONE)};",
        f"compldx {2 * (more // 2 + 1)} 1",
        f"calls {1 + 4 * more + 3 + ports - 1 + 3 + 4}",
        f"length {AREAS[1] + 33 + 64 * ports}",
        "run check s j",
        f"lists 64 96 {ports} 96",
        f"list RECORDS {ports}",
    ]


def blocks_of(lines, head):
    """How many lines, each with its ending, and how many bytes go into each block of a response."""
    blocks = [[0, len(head) + 1]]
    for line in lines:
        if blocks[-1][1] + len(line) > 4_096:
            blocks.append([0, len(head) + 1])
        blocks[-1][0] += 1
        blocks[-1][1] += len(line)
    return blocks


def eight_blocks():
    """A full table of 32 modules of 32 slots, which a retrieval tells in eight blocks."""
    name = lambda port: f"DS0-{port // 32 % 32 + 1}-{port % 32 + 1}"
    lines = [f'   "{name(port)},{name(port + 32)}:1WAY"\r\n' for port in range(1_024)]
    blocks = blocks_of(lines, "\r\n\n   DXC1 26-03-01 12:00:00\r\nM  1 COMPLD\r\n")
    assert [count for count, _ in blocks] == [142, 141, 133, 133, 133, 133, 133, 76]
    assert sum(length for _, length in blocks) == 30_944
    return ["row 1024 rows in eight blocks", "shape 32 32", "run script s j", f"send {LOGIN};", "compld 1", "enters 32 32 1024 32", "retrieves 32 32 1024 32", ""]


def rows():
    return itertools.chain(labels(), middles(), chains(), given_choices(), choices_while_out(), every_choice(), versions(), full_journals(), torn(), crashes(), faults())


def texts():
    return {ROWS: "\n".join([HEAD, *(row.text() for row in rows()), *eight_blocks(), *largest(), ""])}


if __name__ == "__main__":
    generated.main(texts, __doc__)
