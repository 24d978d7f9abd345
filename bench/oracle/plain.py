"""The plain element: what each unit is answered, over one table, one unit after the other. Written from docs/FORMATS.md alone.

It plans each path by the rule of docs/THEOREMS.md, since a change may find none while a middle is out (bench/oracle/paths.py). Texts are bytes
without the header's date, the SID's line left out.
"""
import hashlib
import re
from dataclasses import dataclass, field

from bench.oracle.paths import Paths

MOST = 2048
KEPT = 1024
COMMANDS = {  # code: classes, parameters of the AID block, of the first payload block (True: it must be there)
    b"ACT-USER": ("RPS", (True,), (True,)),
    b"CANC-USER": ("RPS", (False,), ()),
    b"RTRV-HDR": ("RPS", (), ()),
    b"ALW-MSG-ALL": ("RPS", (False,), ()),
    b"INH-MSG-ALL": ("RPS", (False,), ()),
    b"RTRV-CRS-T0": ("RPS", (False,), ()),
    b"ENT-CRS-T0": ("PS", (True, True), (False, False)),
    b"ED-CRS-T0": ("PS", (True, True), (True, False)),
    b"DLT-CRS-T0": ("PS", (True, True), (False,)),
    b"ENT-EQPT": ("S", (True,), ()),
    b"DLT-EQPT": ("S", (True,), ()),
    b"RMV-MID": ("S", (True,), ()),
    b"RST-MID": ("S", (True,), ()),
    b"RTRV-MID": ("RPS", (), ()),
    b"INIT-SYS": ("S", (), ()),
    b"RTRV-SYS": ("RPS", (), ()),
    b"ENT-USER-SECU": ("S", (True,), (True, True)),
    b"ED-USER-SECU": ("S", (True,), (False, False)),
    b"DLT-USER-SECU": ("S", (True,), ()),
    b"RTRV-USER-SECU": ("S", (False,), ()),
    b"ED-PID": ("RPS", (True,), (True, True)),
    b"CANC-USER-SECU": ("S", (True,), ()),
}
CAUSES = {
    "TooLong": ("IISP", "UNIT LONGER THAN 2048 BYTES"),
    "BadText": ("IISP", "UNIT IS NOT A COMMAND"),
    "UnknownCommand": ("IICM", "COMMAND CODE UNKNOWN"),
    "BadCtag": ("IICT", "CTAG INVALID"),
    "OtherTarget": ("IITA", "TID IS NOT THIS ELEMENT"),
    "NotLoggedIn": ("PLNA", "LOG-IN REQUIRED"),
    "NotEntitled": ("PICC", "CLASS NOT ENTITLED"),
    "Missing": ("IPMS", "PARAMETER MISSING"),
    "TooMany": ("IPEX", "PARAMETER TOO MANY"),
    "GeneralBlock": ("IPNV", "GENERAL BLOCK NOT EMPTY"),
    "BadValue": ("IPNV", "VALUE NOT KNOWN"),
    "BadAid": ("IIAC", "AID INVALID"),
    "SamePort": ("IIAC", "FROM EQUALS TO"),
    "BadIdentity": ("PIUI", "USER OR PID INVALID"),
    "OtherUser": ("PIUI", "SESSION IS ANOTHER USERS"),
    "NotEquipped": ("ENEQ", "MODULE NOT EQUIPPED"),
    "AlreadyLoggedIn": ("SNVS", "ALREADY LOGGED IN"),
    "SideInUse": ("SNVS", "SIDE IN USE"),
    "SameCct": ("SNVS", "CCT AS IT IS"),
    "ModuleBusy": ("SNVS", "MODULE HAS CONNECTIONS"),
    "ModuleThere": ("SNVS", "MODULE ALREADY EQUIPPED"),
    "NoConnection": ("SNCC", "NOT A CONNECTION"),
    "UserThere": ("SNVS", "USER ALREADY THERE"),
    "UnknownUser": ("PIUI", "USER NOT KNOWN"),
    "LastOfClassS": ("SNVS", "LAST USER OF CLASS S"),
    "UsersFull": ("SSRE", "64 USERS ARE KEPT"),
    "MiddleOut": ("SNVS", "A MIDDLE IS OUT"),
    "MiddleIn": ("SNVS", "MIDDLE IS IN SERVICE"),
    "NoMiddle": ("SARB", "NO MIDDLE FOR THIS CONNECTION"),
    "DiskFault": ("SROF", "JOURNAL WRITE FAILED"),
}
CCTS = {b"1WAY": 0, b"2WAY": 1}
CCTS_BY_NUMBER = ("1WAY", "2WAY")
UID = re.compile(rb"[A-Za-z][A-Za-z0-9]{0,9}\Z")
MOST_USERS = 64
TAG = re.compile(rb"[A-Za-z0-9]{1,6}\Z")
CODE = re.compile(rb"[A-Za-z0-9]+(-[A-Za-z0-9]+){0,2}\Z")
PORT = re.compile(rb"DS0-([1-9][0-9]{0,2})-([1-9][0-9]{0,2})\Z", re.IGNORECASE)
MODULE = re.compile(rb"MOD-([1-9][0-9]{0,2})\Z", re.IGNORECASE)
MIDDLE = re.compile(rb"MID-([1-9][0-9]{0,2})\Z", re.IGNORECASE)
MOST_LABEL = 24
MOST_PLACES = 16
START = re.compile(r'"START=\d\d-\d\d-\d\d,\d\d:\d\d:\d\d"\Z')
PLACE = re.compile(r'"SESSION-(\d+):')


class Denied(Exception):
    """A unit is denied for a cause."""


def units(data):
    """The units that end in a stream, None for one that is too long, and the rest behind them."""
    found, at = [], 0
    while True:
        while data[at : at + 1] in (b" ", b"\r", b"\n"):
            at += 1
        end = end_of_unit(data, at)
        whole = end is not None
        if not whole:
            end = data.find(b";", at + MOST)
            if end < 0:
                return found, data[at:]
        found.append(data[at:end] if whole else None)
        at = end + 1


def end_of_unit(data, at):
    """The first `;` outside quotes among the unit's first bytes."""
    quoted = False
    for place in range(at, min(len(data), at + MOST)):
        if data[place] == 0x22:
            quoted = not quoted
        elif data[place] == 0x3B and not quoted:
            return place
    return None


def parted(text, by):
    """The parts of a text between the separators that stand outside quotes."""
    parts, quoted, begin = [], False, 0
    for at, byte in enumerate(text):
        if byte == 0x22:
            quoted = not quoted
        elif byte == by and not quoted:
            parts.append(text[begin:at])
            begin = at + 1
    return parts + [text[begin:]]


def value_of(parameter):
    if parameter[:1] == b'"':
        if len(parameter) < 2 or parameter.find(b'"', 1) != len(parameter) - 1:
            raise Denied("BadText")
        return parameter[1:-1]
    if any(byte in b' ",:;' for byte in parameter):
        raise Denied("BadText")
    return parameter


def blocks_of(text):
    """Each block's text and the values of its parameters."""
    if any(not 0x20 <= byte <= 0x7E for byte in text):
        raise Denied("BadText")
    texts = parted(text, 0x3A)
    if not 4 <= len(texts) <= 10:
        raise Denied("BadText")
    blocks = []
    for block in texts:
        parameters = parted(block, 0x2C)
        if len(parameters) > 8:
            raise Denied("BadText")
        blocks.append((block, [value_of(parameter) for parameter in parameters]))
    if not CODE.match(texts[0]):
        raise Denied("BadText")
    return blocks


def tag_of(text):
    """The CTAG of any text, None where it has none."""
    parts = parted(text, 0x3A)
    tag = parts[3] if len(parts) > 3 else b""
    return tag if TAG.match(tag) and tag.strip(b"0") else None


@dataclass
class User:
    name: str
    rank: str
    salt: bytes
    digest: bytes

    def has(self, pid):
        return hashlib.sha256(self.salt + pid).digest() == self.digest


@dataclass
class Conn:
    """A connection as a change spells it."""

    pair: tuple
    cct: int
    label: str = ""

    def legs(self):
        return [self.pair, self.pair[::-1]] if self.cct else [self.pair]

    def text(self):
        names = ",".join(f"DS0-{module}-{slot}" for module, slot in self.pair)
        return f"{names}:{CCTS_BY_NUMBER[self.cct]}" + (f":{self.label}" if self.label else "")


@dataclass
class Change:
    """A change that the table grants: the command that asks for it, and its connection, or the number of its module or middle."""

    op: str
    what: object
    old: Conn | None = None  # the connection that is edited, as it was

    def text(self):
        """The report's text."""
        what = self.what.text() if isinstance(self.what, Conn) else f"{self.op[4:7].replace('EQP', 'MOD')}-{self.what}"
        return f"{self.op}:{what}"


@dataclass
class Element:
    """The one table: connections with their CCT and label, equipped modules, the middle that is out, and the changes since the start."""

    sid: bytes
    modules: int
    slots: int
    users: list
    equipped: set
    connections: dict = field(default_factory=dict)
    changes: list = field(default_factory=list)
    out: int | None = None
    # what stands of the program, where it serves; no field
    program = None

    def __post_init__(self):
        self.paths = Paths(self.slots)

    def port(self, text):
        found = PORT.match(text)
        module, slot = (int(found[1]), int(found[2])) if found else (0, 0)
        if not (1 <= module <= self.modules and 1 <= slot <= self.slots):
            raise Denied("BadAid")
        return (module, slot)

    def module(self, text):
        found = MODULE.match(text)
        if not found or int(found[1]) > self.modules:
            raise Denied("BadAid")
        return int(found[1])

    def middle(self, text):
        found = MIDDLE.match(text)
        if not found or int(found[1]) > self.slots:
            raise Denied("BadAid")
        return int(found[1])

    def selection(self, text):
        """Whether a port is selected."""
        if text.upper() in (b"", b"ALL"):
            return lambda port: True
        if MODULE.match(text):
            module = self.module(text)
            return lambda port: port[0] == module
        selected = self.port(text)
        return lambda port: port == selected

    def used(self, side):
        """The ports whose input side (0) or output side (1) is in use."""
        return {leg[side] for conn in self.connections.values() for leg in conn.legs()}

    def rows(self, is_selected):
        return [conn.text() for pair, conn in sorted(self.connections.items()) if is_selected(pair[0]) or is_selected(pair[1])]

    def inventory(self, with_modules):
        """The rows of the equipped modules, where they are asked for, and of the middle that is out."""
        modules = [f"MOD-{number}:IS" for number in sorted(self.equipped)] if with_modules else []
        return modules + ([f"MID-{self.out}:OOS"] if self.out else [])

    def needs(self, wanted):
        if any(leg[0] in self.used(0) or leg[1] in self.used(1) for leg in wanted):
            raise Denied("SideInUse")

    def verdict(self, op, what):
        """The granted change, or the first cause of the table against it."""
        if op in ("ENT-CRS-T0", "ED-CRS-T0", "DLT-CRS-T0"):
            return self.connection_verdict(op, *what)
        if op == "RMV-MID" and self.out is not None:
            raise Denied("MiddleOut")
        if op == "RST-MID" and self.out != what:
            raise Denied("MiddleIn")
        if op == "ENT-EQPT" and what in self.equipped:
            raise Denied("ModuleThere")
        if op == "DLT-EQPT" and what not in self.equipped:
            raise Denied("NotEquipped")
        if op == "DLT-EQPT" and any(port[0] == what for pair in self.connections for port in pair):
            raise Denied("ModuleBusy")
        return Change(op, what)

    def connection_verdict(self, op, pair, cct, label):
        if any(port[0] not in self.equipped for port in pair):
            raise Denied("NotEquipped")
        has = self.connections.get(pair)
        if op == "ENT-CRS-T0":
            conn = Conn(pair, cct or 0, label)
            self.needs(conn.legs())
            return Change(op, conn)
        if op == "ED-CRS-T0":
            if has and has.cct == 0 and cct == 1:
                self.needs([pair[::-1]])
            if has and has.cct == cct and label in ("", has.label):
                raise Denied("SameCct")
        if has is None or (op == "DLT-CRS-T0" and cct not in (None, has.cct)):
            raise Denied("NoConnection")
        return Change(op, has) if op == "DLT-CRS-T0" else Change(op, Conn(pair, cct, label or has.label), has)

    def planned(self, change):
        """The choice of each leg that the change joins or parts. The paths have them then."""
        choices = self.paths.plan(change)
        if choices is None:
            raise Denied("NoMiddle")
        return choices

    def take(self, change):
        """The table takes the change."""
        if change.op in ("ENT-CRS-T0", "ED-CRS-T0"):
            self.connections[change.what.pair] = change.what
        elif change.op == "DLT-CRS-T0":
            del self.connections[change.what.pair]
        elif change.op == "RMV-MID":
            self.out = change.what
        elif change.op == "RST-MID":
            self.out = None
        elif change.op == "ENT-EQPT":
            self.equipped.add(change.what)
        else:
            self.equipped.discard(change.what)

    def make(self, change):
        self.take(change)
        self.changes.append(change.text())

    def named(self, uid):
        return next((user for user in self.users if user.name.encode() == uid.upper()), None)

    def granted(self, op, uid, pid, rank):
        """The user before a command and the one behind it, None for none, where it isn't denied."""
        user, last = self.named(uid), [user.name for user in self.users if user.rank == "S"]
        if op == "ENT":
            if user:
                raise Denied("UserThere")
            if len(self.users) == MOST_USERS:
                raise Denied("UsersFull")
            return None, self.under(uid, pid, rank)
        if not user:
            raise Denied("UnknownUser")
        if last == [user.name] and (op == "DLT" or rank not in ("", "S")):
            raise Denied("LastOfClassS")
        if op == "DLT":
            return user, None
        return user, self.under(uid, pid, rank or user.rank) if pid else User(user.name, rank or user.rank, user.salt, user.digest)

    def under(self, uid, pid, rank):
        salt = hashlib.sha256(self.sid + b"\0" + uid.upper()).digest()[:16]
        return User(uid.upper().decode(), rank, salt, hashlib.sha256(salt + pid).digest())

    def keep(self, was, now):
        self.users = sorted([user for user in self.users if user is not was] + ([now] if now else []), key=lambda user: user.name)


class Program:
    """What stands of a program that serves these sessions, of which RTRV-SYS tells. Its rows are as `settled` leaves them: without what hangs on the
    clock and on which place a caller came to."""

    def __init__(self, version, standby, sessions):
        self.version, self.standby, self.sessions = version, standby, sessions

    def rows(self):
        users = [session.user for session in self.sessions if session.user]
        return [f"VERSION={self.version}", "START=", f"STANDBY={self.standby}", *sorted(f"SESSION:{user.name},{user.rank}" for user in users)]


def settled(lines):
    """Text lines, without the moment of a START and the places of SESSIONs, which must be in order, from 1 to 16."""
    places = [int(found[1]) for line in lines if (found := PLACE.match(line))]
    if places != sorted(set(places) & set(range(1, MOST_PLACES + 1))):
        return [f"sessions at the places {places}"]
    plain_lines = [START.sub('"START="', line) for line in lines if not PLACE.match(line)]
    return plain_lines + sorted(PLACE.sub('"SESSION:', line) for line in lines if PLACE.match(line))


class Session:
    """What one session is answered. `change` is the change that the unit in hand is granted, with a path for each leg, which its caller makes
    where it was completed, and else takes back; `asks` whether the unit came to the table with a change, granted or not. `people` is the user
    before and behind a users' command that is granted, which its caller keeps where it was completed."""

    def __init__(self, element):
        self.element, self.user, self.cursor, self.change, self.choices, self.asks, self.people = element, None, None, None, (), False, None

    def answer(self, unit):
        """The tag, whether it is completed, and the text lines."""
        self.change, self.asks, self.people = None, False, None
        if unit is None:
            return "0", False, denial("TooLong")
        tag = (tag_of(unit) or b"0").decode()
        try:
            return tag, True, self.done(unit)
        except Denied as why:
            return tag, False, denial(str(why))

    def done(self, unit):
        blocks = blocks_of(unit)
        code = blocks[0][0].upper()
        if code not in COMMANDS:
            raise Denied("UnknownCommand")
        if tag_of(unit) is None:
            raise Denied("BadCtag")
        if blocks[1][0].upper() not in (b"", self.element.sid.upper()):
            raise Denied("OtherTarget")
        ranks, names, values = COMMANDS[code]
        if code != b"ACT-USER":
            if self.user is None:
                raise Denied("NotLoggedIn")
        if self.user is not None and self.user.rank not in ranks:
            raise Denied("NotEntitled")
        given = self.parameters(code, blocks, names, values)
        return self.act(code.decode(), given[: len(names)], given[len(names) :])

    def parameters(self, code, blocks, names, values):
        """The named parameters, empty where they aren't there."""
        aid, payload = blocks[2][1], [parameters for _, parameters in blocks[5:]]
        first = payload[0] if payload else []
        named = [(aid, at, must) for at, must in enumerate(names)] + [(first, at, must) for at, must in enumerate(values)]
        given = [block[at] if at < len(block) else b"" for block, at, _ in named]
        if any(must and not value for value, (_, _, must) in zip(given, named)) or (code == b"ED-USER-SECU" and not any(given[1:])):
            raise Denied("Missing")
        others = aid[len(names) :] + first[len(values) :] + [value for block in payload[1:] for value in block]
        if any(others):
            raise Denied("TooMany")
        if any(blocks[4][1] if len(blocks) > 4 else []):
            raise Denied("GeneralBlock")
        return given

    def act(self, code, names, values):
        element = self.element
        if code == "ACT-USER":
            return self.log_in(names[0], values[0])
        if code == "CANC-USER":
            if names[0] and names[0].decode().upper() != self.user.name:
                raise Denied("OtherUser")
            self.user = self.cursor = None
        elif code in ("ALW-MSG-ALL", "INH-MSG-ALL"):
            if names[0].upper() not in (b"", b"ALL"):
                raise Denied("BadAid")
            self.cursor = None if code[0] == "I" else len(element.changes) if self.cursor is None else self.cursor
        elif code == "ED-PID":
            return self.change_pid(names[0], *values)
        elif code.endswith("-USER-SECU"):
            return self.on_users(code.partition("-")[0], names[0], *values)
        elif code == "RTRV-CRS-T0":
            return [f'"{text}"' for text in element.rows(element.selection(names[0]))]
        elif code in ("RTRV-MID", "RTRV-SYS"):
            told = element.program.rows() if code == "RTRV-SYS" and element.program else []
            return [f'"{text}"' for text in element.inventory(code == "RTRV-SYS") + told]
        elif code == "INIT-SYS":
            return ['"WARM"']
        elif code in ("ENT-EQPT", "DLT-EQPT"):
            self.ask(code, element.module(names[0]))
        elif code in ("RMV-MID", "RST-MID"):
            self.ask(code, element.middle(names[0]))
        elif code != "RTRV-HDR":
            cct = CCTS.get(values[0].upper()) if values[0] else None
            label = values[1].decode() if len(values) > 1 else ""
            if (values[0] and cct is None) or len(label) > MOST_LABEL:
                raise Denied("BadValue")
            pair = (element.port(names[0]), element.port(names[1]))
            if pair[0] == pair[1]:
                raise Denied("SamePort")
            self.ask(code, (pair, cct, label))
        return []

    def ask(self, op, what):
        self.asks = True
        change = self.element.verdict(op, what)
        self.choices = self.element.planned(change)
        self.change = change

    def on_users(self, op, uid, pid=b"", rank=b""):
        if (op == "ENT" or rank) and rank not in (b"R", b"P", b"S"):
            raise Denied("BadValue")
        if (op != "RTRV" or uid) and not UID.match(uid):
            raise Denied("BadAid")
        if op == "CANC":
            return []  # a session that is alone goes on
        if op != "RTRV":
            self.people = self.element.granted(op, uid, pid, rank.decode())
            return []
        if uid and not self.element.named(uid):
            raise Denied("UnknownUser")
        return [f'"{user.name}:{user.rank}"' for user in self.element.users if user.name.encode() == uid.upper() or not uid]

    def change_pid(self, uid, old, new):
        if not UID.match(uid):
            raise Denied("BadAid")
        if uid.decode().upper() != self.user.name:
            raise Denied("OtherUser")
        user = self.element.named(uid)
        if not user or not user.has(old):
            raise Denied("BadIdentity")
        self.people = user, self.element.under(uid, new, user.rank)
        return []

    def log_in(self, uid, pid):
        user = self.element.named(uid)
        if user and user.has(pid):
            if self.user is not None:
                raise Denied("AlreadyLoggedIn")
            self.user = user
            return []
        raise Denied("BadIdentity")


def denial(cause):
    code, text = CAUSES[cause]
    return [code, f"/* {text} */"]
