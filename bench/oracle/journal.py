"""The journal's file, as docs/FORMATS.md describes it: which writes and syncs are made, and what a file stands for. Written from there alone."""
import copy
import struct
from dataclasses import dataclass

from bench.oracle import plain
from bench.oracle.paths import COLUMN, DIRECT, ROW, legs_of
from bench.shared.office import DIGEST

SEALED = 0xA5
AREAS = (0, 2_097_216)
SIZE = {1: 32, 2: 64}
MOST = {1: 65_536, 2: 32_767}
KINDS = {"ENT-CRS-T0": 1, "DLT-CRS-T0": 2, "ED-CRS-T0": 3, "ENT-EQPT": 4, "DLT-EQPT": 5, "RMV-MID": 6, "RST-MID": 7}
ZEROS = 4096


class Fault(Exception):
    """A call on the file failed."""


class Refused(Exception):
    """The file is no journal of the shape (number None), or the record of this number makes no change."""


@dataclass
class Call:
    """A write of bytes at a place, or a sync, where there are none."""

    at: int
    data: bytes | None


class File:
    """A file with the writes and syncs on it. The call of number `failing` fails, and leaves nothing."""

    def __init__(self, content, failing=None):
        self.content, self.calls, self.failing = bytearray(content), [], failing

    def counted(self, call):
        self.calls.append(call)
        if len(self.calls) - 1 == self.failing:
            raise Fault

    def write(self, at, data):
        self.counted(Call(at, bytes(data)))
        put(self.content, at, data)

    def sync(self):
        self.counted(Call(0, None))


def put(content, at, data):
    if len(content) < at + len(data):
        content.extend(bytes(at + len(data) - len(content)))
    content[at : at + len(data)] = data


def left_of(data, left):
    """What is left of a write."""
    return {"lost": b"", "whole": data, "front": data[: len(data) // 2], "sealed": bytes([SEALED]) * len(data)}[left]


def crashed(content, calls, number, left):
    """The file after a crash just before the call of this number, with this left of each write that no sync followed."""
    synced, pending = bytearray(content), []
    for call in calls[:number]:
        if call.data is not None:
            pending.append(call)
            continue
        for write in pending:
            put(synced, write.at, write.data)
        pending = []
    for write in pending:
        put(synced, write.at, left_of(write.data, left))
    return bytes(synced)


def header(version, generation, element):
    bits = sum(1 << module - 1 for module in element.equipped)
    return bytes([SEALED]) + b"DXCJRNL" + struct.pack(">BBHHQ", version, generation, element.modules, element.slots, bits) + bytes(10)


def number_of(element, port):
    return (port[0] - 1) * element.slots + port[1] - 1


def record(element, op, what, choices, version=2):
    """The record of a change with its choices."""
    fields, label = (KINDS[op], what if isinstance(what, int) else 0, 0, 0, len(choices)), b""
    if isinstance(what, plain.Conn):
        fields, label = (KINDS[op], *(number_of(element, port) for port in what.pair), what.cct, len(choices)), what.label.encode()
    else:
        fields = (KINDS[op], what - 1, 0, 0, 0)
    body = struct.pack(">BHHBB", *fields) + b"".join(bytes(choice) for choice in choices)
    body = body.ljust(13, b"\0") + bytes([len(label)]) + label
    return bytes([SEALED]) + body.ljust(SIZE[version] - 1, b"\0")


@dataclass
class Area:
    start: int
    version: int
    generation: int
    equipped: set
    records: list

    def end(self):
        """Where the byte after the last record is."""
        return self.start + 32 + SIZE[self.version] * len(self.records)


def area_at(content, start, modules, slots):
    head = bytes(content[start : start + 32])
    if len(head) < 32 or head[:8] != bytes([SEALED]) + b"DXCJRNL" or any(head[22:]):
        return None
    version, generation, *shape, bits = struct.unpack(">BBHHQ", head[8:22])
    if version not in SIZE or generation > 2 or shape != [modules, slots] or bits >> modules:
        return None
    size, first = SIZE[version], start + 32
    seals = bytes(content[first : first + size * MOST[version] : size])
    sealed = len(seals) - len(seals.lstrip(bytes([SEALED])))
    ends = first + size * min(sealed, (len(content) - first) // size)
    records = [bytes(content[at : at + size]) for at in range(first, ends, size)]
    return Area(start, version, generation, {module + 1 for module in range(modules) if bits >> module & 1}, records)


def is_new(content):
    return len(content) <= 1 or (len(content) <= 33 and content[0] != SEALED)


def current(content, modules, slots):
    """The area whose records stand."""
    areas = [area for area in (area_at(content, start, modules, slots) for start in AREAS) if area]
    if len(areas) == 2:
        areas = [one for one, two in (areas, areas[::-1]) if one.generation == (two.generation + 1) % 3]
    if len(areas) != 1:
        raise Refused(None)
    return areas[0]


class Journal:
    """The journal of an element, which is led to what the file stands for."""

    def __init__(self, file, element):
        self.file, self.element = file, element
        self.to_mend = self.turning = self.is_ready = False
        if is_new(file.content):
            self.make()
        else:
            self.open()

    def make(self):
        file, head = self.file, header(2, 0, self.element)
        if len(file.content) <= 1:
            file.write(0, b"\0")
            file.sync()
        file.write(1, head[1:] + b"\0")
        file.sync()
        file.write(0, head[:1])
        file.sync()
        self.area = Area(0, 2, 0, set(self.element.equipped), [])

    def open(self):
        file, element = self.file, self.element
        self.area = current(file.content, element.modules, element.slots)
        file.sync()
        end = self.area.end()
        if len(file.content) <= end or file.content[end] == SEALED:
            file.write(end, b"\0")
            file.sync()
        other = self.other().start
        self.is_ready = other < len(file.content) and file.content[other] != SEALED
        lead(element, self.area)

    def other(self):
        """The other area as a checkpoint makes it."""
        start = AREAS[1] if self.area.start == 0 else 0
        return Area(start, 2, (self.area.generation + 1) % 3, set(self.element.equipped), [])

    def is_due(self):
        """Whether a checkpoint comes before the next record."""
        return self.turning or self.area.version == 1 or len(self.area.records) == MOST[self.area.version]

    def keep(self, spelled, rows):
        """Makes the record stand, after a checkpoint of these rows where one is due."""
        if self.to_mend:
            self.file.write(self.area.end(), b"\0")
            self.file.sync()
            self.to_mend = False
        if self.is_due():
            self.checkpoint(rows)
        end = self.area.end()
        self.file.write(end + 1, spelled[1:] + b"\0")
        self.file.sync()
        self.to_mend = True
        self.file.write(end, spelled[:1])
        self.file.sync()
        self.to_mend = False
        self.area.records.append(spelled)

    def checkpoint(self, rows):
        file, other = self.file, self.other()
        self.turning = True
        if not self.is_ready:
            if len(file.content) <= other.start:
                for at in range(len(file.content), other.start + 1, ZEROS):
                    file.write(at, bytes(min(ZEROS, other.start + 1 - at)))
            else:
                file.write(other.start, b"\0")
            file.sync()
            self.is_ready = True
        head = header(2, other.generation, self.element)
        file.write(other.start + 1, head[1:] + b"\0")
        for row in rows:
            file.write(other.end(), row + b"\0")
            other.records.append(row)
        self.is_ready = False
        file.sync()
        file.write(other.start, head[:1])
        file.sync()
        self.area, self.turning = other, False


REPLAYS = {}


def lead(element, area):
    """Leads the element to what the area's records come to. A list of records is replayed once."""
    key = (element.modules, element.slots, area.version, frozenset(area.equipped), b"".join(area.records))
    if key not in REPLAYS:
        element.equipped = set(area.equipped)
        for number, found in enumerate(area.records):
            try:
                replayed(element, found, area.version)
            except plain.Denied as why:
                raise Refused(number) from why
        element.paths.log.clear()
        REPLAYS[key] = copy.deepcopy((element.equipped, element.connections, element.out, element.paths))
    element.equipped, element.connections, element.out, element.paths = copy.deepcopy(REPLAYS[key])


def checkpoint_rows(element):
    """The middle that is out, and each connection in the table's order with the middles of its legs."""
    paths = element.paths
    if element.out is not None:
        yield record(element, "RMV-MID", element.out, ())
    for _, conn in sorted(element.connections.items()):
        yield record(element, "ENT-CRS-T0", conn, [(paths.middles[leg], DIRECT, 0) for leg in conn.legs()])


def replayed(element, found, version):
    """The element takes the change that the record spells, by its choices. Denied: it spells none, or makes none."""
    kind, first, second, cct, count = struct.unpack(">BHHBB", found[1:8])
    op = {number: name for name, number in KINDS.items()}.get(kind, "")
    choices = [tuple(found[at : at + 3]) for at in (8, 11)[: min(count, 2)]]
    label = found[15 : 15 + found[14]].decode("latin-1") if version == 2 else ""
    what = first + 1 if kind > 3 else (port_of(element, first), port_of(element, second), cct, label)
    change = changed(element, op, what)
    if record(element, op, change.what, choices, version) != found or (version == 1 and kind > 5):
        raise plain.Denied("BadRecord")
    place(element, change, choices, version)
    element.take(change)


def port_of(element, number):
    if number >= element.modules * element.slots:
        raise plain.Denied("BadRecord")
    return (number // element.slots + 1, number % element.slots + 1)


def changed(element, op, what):
    """The change that the table grants, where it is the one that the record spells."""
    if not op or (isinstance(what, tuple) and (what[0] == what[1] or what[2] > 1 or not is_label(what[3]))):
        raise plain.Denied("BadRecord")
    if isinstance(what, int) and what > (element.slots if op.endswith("MID") else element.modules):
        raise plain.Denied("BadRecord")
    if isinstance(what, int):
        return element.verdict(op, what)
    return element.verdict(op, (what[:2], *what[2:]))


def is_label(label):
    return len(label) <= 24 and all(" " <= c <= "~" and c != '"' for c in label)


def place(element, change, choices, version):
    """Joins and parts the legs of the change by these choices."""
    paths = element.paths
    if change.op.endswith("MID"):
        paths.plan(change)
        return
    legs = legs_of(change)
    if version == 1 and change.op == "ED-CRS-T0" and not legs:
        raise plain.Denied("BadRecord")
    if len(legs) != len(choices):
        raise plain.Denied("BadRecord")
    for (leg, joins), choice in zip(legs, choices):
        if joins:
            if not is_valid(paths, leg, choice):
                raise plain.Denied("BadRecord")
            paths.join(leg, choice)
        else:
            if choice != (paths.middles[leg], DIRECT, 0):
                raise plain.Denied("BadRecord")
            paths.put(leg, None)


def is_valid(paths, leg, choice):
    """Whether a leg may be joined so."""
    middle, kind, other = choice
    serving = [number for number in range(paths.spare + 1) if number != (paths.spare if paths.out is None else paths.out)]
    free = [{number for number in serving if paths.is_free(side, leg, number)} for side in (0, 1)]
    if kind == DIRECT:
        return other == 0 and middle in free[0] & free[1]
    if kind not in (ROW, COLUMN) or middle not in serving or other not in serving or middle == other:
        return False
    a, b = (other, middle) if kind == ROW else (middle, other)
    if not (a in free[0] - free[1] and b in free[1] - free[0]):
        return False
    chain = paths.chain(0, leg[0][0], b, a) if kind == ROW else paths.chain(1, leg[1][0], a, b)
    return paths.out is None or len(chain) == 1


def element_of(modules, slots):
    return plain.Element(b"DXC1", modules, slots, [plain.User("ANNA", "S", b"a", bytes.fromhex(DIGEST))], set(range(1, modules + 1)))


def script(file, modules, slots, units):
    """The answers of a session that is sent these units: tag, whether it is completed, and text lines. None: the file is refused, or fails while
    it is opened."""
    element = element_of(modules, slots)
    try:
        journal = Journal(file, element)
    except (Fault, Refused):
        return None
    session, answers = plain.Session(element), []
    for unit in units:
        rows = list(checkpoint_rows(element)) if journal.is_due() else []
        tag, is_done, lines = session.answer(unit.encode())
        if session.change:
            try:
                journal.keep(record(element, session.change.op, session.change.what, session.choices), rows)
                element.make(session.change)
            except Fault:
                element.paths.undo()
                is_done, lines = False, plain.denial("DiskFault")
        answers.append((tag, is_done, lines))
    return answers


def check(file, modules, slots):
    """What an audit of the file writes; None where it is refused."""
    element = element_of(modules, slots)
    try:
        journal = Journal(file, element)
    except (Fault, Refused):
        return None
    return element.rows(lambda port: True) + [f"RECORDS {len(journal.area.records)}"]
