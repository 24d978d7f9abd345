"""Sends random and mutated units over several TCP sessions, and compares each answer and report with a plain table's.

usage: bench/run oracle fuzz [UNITS [SEED]]     (a million units, seed 1, where nothing is given)

The plain table is bench/oracle/plain.py. The sessions take turns, so that there is one order; a session that is told changes may be written its reports at any time, in their order.
Calls on the journals fail at random: a change or an INIT-SYS may then be denied with SROF, exactly where such a call failed in it. The server is killed
and started again every few thousand units: the journal then stands for what was completed, or for that and the change that was in hand or denied
for a fault. It takes a C compiler, for a library that is loaded before the C library (bench/c/faults.c).
"""
import mmap
import os
import random
import re
import struct
import subprocess
import sys
import tempfile

from bench import Wrong
from bench.oracle import plain
from bench.shared import server
from bench.shared.compiled import library
from bench.shared.office import DIGEST, shelf_text
from bench.shared.program import PROGRAM, counted, version

MODULES, SLOTS, SESSIONS, LIFE, ONE_OF = 4, 3, 4, 4000, 60
RANKS = {"ANNA": "S", "BEN": "P", "CARA": "R"}
LOST = re.compile(r'"LOST=(\d+)"\Z')
MESSAGE = re.compile(rb"\r\n\n   ([!-~]+) \d\d-\d\d-\d\d \d\d:\d\d:\d\d\r\n([MA])  (\w+) ([A-Z ]+)\r\n((?:   [^\r]*\r\n)*)([;>])", re.DOTALL)
SHELF = shelf_text(MODULES, SLOTS, users=RANKS.items())


class Different(Wrong):
    """The program and the plain table differ."""


class Faults:
    """What the library shares: how many calls failed, one of how many fails (0: none does), its random state, and how many syncs failed."""

    def __init__(self, folder):
        self.name = os.path.join(folder, "faulted")
        with open(self.name, "wb") as file:
            file.write(struct.pack("QQQQ", 0, 0, random.getrandbits(64), 0))
        with open(self.name, "r+b") as file:
            self.words = mmap.mmap(file.fileno(), 32)

    def failed(self):
        return struct.unpack_from("Q", self.words)[0]

    def unsynced(self):
        return struct.unpack_from("Q", self.words, 24)[0]

    def fail(self, one_of):
        struct.pack_into("Q", self.words, 8, one_of)


class Caller(server.Caller):
    def __init__(self, port, element):
        super().__init__(port)
        self.rest, self.session, self.told, self.taken = b"", plain.Session(element), None, 0

    def message(self):
        """The next message: kind, tag or number, code, text lines, and how its block ends."""
        while True:
            found = MESSAGE.match(self.read, self.taken)
            if found:
                self.taken = found.end()
                lines = [line[3:] for line in found[5].decode().split("\r\n")[:-1]]
                return found[2].decode(), found[3].decode(), found[4].decode(), lines, found[6].decode()
            more = self.link.recv(65536)
            if not more:
                raise Different(f"the server closed a session; unread {self.read[self.taken :]!r}")
            self.read, self.taken = self.read[self.taken :] + more, 0

    def report(self, number, code, lines):
        """A report that was written: the next change's, or that some were lost."""
        changes = self.session.element.changes
        if code != "REPT DBCHG" or self.told is None:
            raise Different(f"a report {number} {code} {lines} that nobody asked for")
        lost = LOST.match(lines[0])
        if lost:
            if int(number) - self.told != int(lost[1]) or not self.told < int(number) <= len(changes) - plain.KEPT:
                raise Different(f"LOST at {number} {lines} behind {self.told} of {len(changes)}")
            self.told = int(number)
            return
        self.told += 1
        if self.told > len(changes) or int(number) != self.told or lines != [f'"{changes[self.told - 1]}"']:
            raise Different(f"report {number} {lines} where {self.told} of {changes[self.told - 1 : self.told]} comes next")

    def answer(self):
        """The response's tag, code and lines, its blocks put together, behind the reports that came before it."""
        lines = []
        while True:
            kind, tag, code, more, end = self.message()
            if kind == "A":
                self.report(tag, code, more)
                continue
            lines += more
            if end == ";":
                return tag, code, lines

    def reports(self):
        """The reports that are due behind a response."""
        while self.told is not None and self.told < len(self.session.element.changes):
            kind, tag, code, lines, _ = self.message()
            if kind != "A":
                raise Different(f"a response {tag} {code} {lines} where a report is due")
            self.report(tag, code, lines)


def name():
    return f"DS0-{random.randint(1, MODULES + (random.random() < 0.02))}-{random.randint(1, SLOTS)}"


def label():
    """Nothing in most cases, else a label, seldom one that is too long."""
    length = random.choice((0, 1, 5, 24, 25)) if random.random() < 0.3 else None
    return "" if length is None else ',"' + "".join(random.choice("ab Z9:,;'") for _ in range(length)) + '"'


def middle():
    return f"MID-{random.randint(1, SLOTS + (random.random() < 0.05))}"


def of_users(tag):
    """A users' command, of no user that the run itself logs in as."""
    uid, pid, rank = random.choice(("FAY", "gil", "HAL", "BEN", "CARA", "toolonganame")), random.choice(("bc", "cb", "")), random.choice("RPSx")
    return random.choice(
        (
            f"ENT-USER-SECU::{uid}:{tag}::{pid},{rank}",
            f"ED-USER-SECU::{uid}:{tag}::{pid}{random.choice(('', ',' + rank))}",
            f"DLT-USER-SECU::{uid}:{tag}",
            f"RTRV-USER-SECU::{random.choice(('', uid, 'anna'))}:{tag}",
            f"CANC-USER-SECU::{random.choice(('NOBODY', '1BEN', ''))}:{tag}",
            f"ED-PID::{random.choice((uid, 'fay', 'HAL'))}:{tag}::{random.choice(('bc', 'cb'))},{random.choice(('bc', 'cb'))}",
        )
    )


def sound_unit():
    tag, cct = random.choice(("1", "A7", "zz9", "00x")), random.choice(("", "::1WAY", "::2WAY", "::2way", f"::{label()}", f"::2WAY{label()}"))
    return random.choice(
        (
            lambda: f"ENT-CRS-T0::{name()},{name()}:{tag}{cct}",
            lambda: f"ENT-CRS-T0::{name()},{name()}:{tag}{cct}",
            lambda: f"DLT-CRS-T0::{name()},{name()}:{tag}",
            lambda: f"ED-CRS-T0::{name()},{name()}:{tag}::{random.choice(('1WAY', '2WAY'))}{label()}",
            lambda: f"{random.choice(('RMV', 'RST'))}-MID::{middle()}:{tag}",
            lambda: f"RTRV-CRS-T0::{random.choice(('', 'ALL', name(), f'MOD-{random.randint(1, MODULES)}'))}:{tag}",
            lambda: f"RTRV-HDR:{random.choice(('', 'DXC1', 'dxc1', 'OTHER'))}::{tag}",
            lambda: f"{random.choice(('ENT', 'DLT'))}-EQPT::MOD-{random.randint(1, MODULES)}:{tag}",
            lambda: f"{random.choice(('ALW', 'INH'))}-MSG-ALL::{random.choice(('', 'ALL', 'all', 'X'))}:{tag}",
            lambda: f"ACT-USER::{random.choice((*(*RANKS,) * 5, 'nobody', 'anna', 'fay', 'Hal'))}:{tag}::{random.choice(('bc',) * 15 + ('cb',))}",
            lambda: f"CANC-USER::{random.choice(('', *RANKS))}:{tag}" if random.random() < 0.2 else f"RTRV-HDR:::{tag}",
            lambda: f"INIT-SYS:::{tag}",
            lambda: f"RTRV-{random.choice(('MID', 'SYS'))}:::{tag}",
            lambda: of_users(tag),
        )
    )().encode()


def of_connection(element):
    """A deletion or an edit of a connection that is there, so that not all sides stay in use."""
    names = random.choice(list(element.connections.values())).text().split(":")[0]
    if random.random() < 0.3:
        return f"ED-CRS-T0::{names}:9::{random.choice(('1WAY', '2WAY'))}{label()}".encode()
    return f"DLT-CRS-T0::{names}:9".encode()


def mutated(unit):
    """Bytes put in, taken out and changed, some of them those that the grammar knows."""
    unit = bytearray(unit)
    for _ in range(random.randint(1, 4)):
        at, kind = random.randrange(len(unit) + 1), random.random()
        byte = random.choice(b':,;"- 019AZaz\r\n\t\x00\x7f\xff') if random.random() < 0.8 else random.randrange(256)
        if kind < 0.4:
            unit[at:at] = bytes([byte])
        elif kind < 0.7:
            del unit[at : at + random.randint(1, 3)]
        elif kind < 0.98:
            unit[at : at + 1] = bytes([byte])
        else:
            unit[at:at] = bytes([byte]) * random.choice((2030, 2047, 2048, 2060))
    return bytes(unit)


def text_of_unit(element):
    drawn = random.random()
    if drawn < 0.15 and element.connections:
        unit = of_connection(element)
    elif drawn < 0.18:
        unit = bytes(random.choice(b'ABC:,;"-1 ') for _ in range(random.randint(0, 30)))
    else:
        unit = sound_unit()
    return mutated(unit) if random.random() < 0.15 else unit


class Run:
    """The server through its lives, and the plain element beside it."""

    def __init__(self, folder):
        self.folder, self.faults, self.count, self.refused, self.lives = folder, Faults(folder), 0, 0, 0
        self.version = version()
        self.library = library("faults", folder)
        with open(self.path("shelf.toml"), "w", encoding="utf-8") as file:
            file.write(SHELF)
        open(self.path("lines.in"), "wb").close()
        users = [plain.User(name, rank, b"a", bytes.fromhex(DIGEST)) for name, rank in RANKS.items()]
        self.element = plain.Element(b"DXC1", MODULES, SLOTS, users, set(range(1, MODULES + 1)))
        # Changes that were denied for a fault since the last that was completed: the journal may hold one of them.
        self.doubts, self.is_due = [], False
        # The names of users whose change was denied for a fault since then.
        self.doubted = set()

    def path(self, name):
        return os.path.join(self.folder, name)

    def listed(self):
        checked = subprocess.run([PROGRAM, "check", "shelf.toml", "j"], cwd=self.folder, capture_output=True, text=True, check=False)
        if checked.returncode:
            raise Different(f"the journal is refused: {checked.stderr}")
        return checked.stdout.splitlines()[:-1]

    def rows(self):
        return self.element.rows(lambda port: True)

    def take_up(self):
        """What the journal stands for is what was completed, or that and one of the changes in doubt."""
        listed, kept = self.listed(), dict(self.element.connections)
        for change in self.doubts:
            if listed != self.rows() and "CRS" in change.op:
                self.element.connections = dict(kept)
                self.element.take(change)
                if listed == self.rows():
                    self.element.planned(change)
        if listed != self.rows():
            raise Different(f"the journal has {listed}, and the plain table {self.rows()}, in doubt {self.doubts}")
        self.element.changes.clear()

    def live(self, most):
        """One life of the server, of at least so many units."""
        self.take_up()
        self.is_due = False
        world = dict(os.environ, LD_PRELOAD=self.library, FAULTED=self.faults.name)
        with server.Server(self.folder, env=world) as running:
            try:
                callers = [Caller(running.port, self.element) for _ in range(SESSIONS)]
                self.element.program = plain.Program(self.version, "NONE", [caller.session for caller in callers])
                self.equip(callers[0])
                self.faults.fail(ONE_OF)
                until, unsynced = self.count + most, self.faults.unsynced()
                # After a sync that failed its file refuses every call until the program is started anew.
                while self.count < until and self.faults.unsynced() == unsynced:
                    self.turn(random.choice(callers), text_of_unit(self.element) + b";")
            finally:
                self.faults.fail(0)
        self.lives += 1

    def equip(self, caller):
        """Equips each module. Only what is in doubt may be otherwise than the plain table has it."""
        self.turn(caller, b"ACT-USER::ANNA:1::bc;")
        in_doubt = {change.what for change in self.doubts if "EQPT" in change.op}
        middles = {change.what for change in self.doubts if "MID" in change.op}
        self.doubts = []
        for name in self.doubted:
            self.let_go(caller, name)
        self.doubted = set()
        for number in middles:
            self.put_back(caller, number)
        for module in range(1, MODULES + 1):
            if module in in_doubt:
                caller.link.sendall(f"ENT-EQPT::MOD-{module}:1;".encode())
                _, code, _ = caller.answer()
                self.element.equipped.add(module)
                if code == "COMPLD":
                    self.element.changes.append(f"ENT-EQPT:MOD-{module}")
            else:
                self.turn(caller, f"ENT-EQPT::MOD-{module}:1;".encode())

    def let_go(self, caller, name):
        """Deletes a user who may be there or not."""
        caller.link.sendall(f"DLT-USER-SECU::{name}:1;".encode())
        caller.answer()
        self.element.keep(self.element.named(name.encode()), None)

    def put_back(self, caller, number):
        """Puts a middle back that may be out or not: its circuits are where they were in either case."""
        caller.link.sendall(f"RST-MID::MID-{number}:1;".encode())
        _, code, _ = caller.answer()
        change = plain.Change("RST-MID", number)
        if self.element.out == number:
            self.element.planned(change)
            self.element.take(change)
        if code == "COMPLD":
            self.element.changes.append(change.text())

    def turn(self, caller, text):
        """Sends a text, and compares the answers to the units that end in it."""
        before = self.faults.failed()
        caller.link.sendall(text)
        units, caller.rest = plain.units(caller.rest + text)
        for unit in units:
            self.compare(caller, unit, before)

    def compare(self, caller, unit, before):
        session = caller.session
        wanted = session.answer(unit)
        tag, code, lines = caller.answer()
        lines = plain.settled(lines)
        self.count += 1
        is_restart = wanted[2] == ['"WARM"']
        # A restart that failed is made again in front of the next change, whatever the table says of that one.
        may_fail = session.change or is_restart or (session.asks and self.is_due)
        if session.people:
            if lines[:1] == ["SROF"] and self.faults.failed() > before:
                wanted = (wanted[0], False, plain.denial("DiskFault"))
                self.refused += 1
                self.doubted.add(next(user.name for user in session.people if user))
            else:
                self.element.keep(*session.people)
                self.doubted = set()
        elif may_fail and lines[:1] == ["SROF"] and self.faults.failed() > before:
            wanted = (wanted[0], False, plain.denial("DiskFault"))
            self.refused += 1
            self.is_due |= is_restart
            if session.change:
                self.element.paths.undo()
            self.doubts += [session.change] if session.change else []
        elif session.asks or is_restart:
            self.is_due = False
            self.doubts = self.doubts if session.asks and not session.change else []
            if session.change:
                self.element.make(session.change)
        if (tag, code, lines) != (wanted[0], "COMPLD" if wanted[1] else "DENY", wanted[2]):
            raise Different(f"unit {unit!r}: {tag} {code} {lines}, and the plain table says {wanted}; {session.user}")
        if session.cursor is None:
            caller.told = None
        elif caller.told is None:
            caller.told = session.cursor
        caller.reports()


def main():
    most, seed = counted(1_000_000)
    random.seed(seed)
    with tempfile.TemporaryDirectory() as folder:
        run = Run(folder)
        try:
            while run.count < most:
                run.live(min(LIFE, most - run.count))
        except Different as why:
            sys.exit(f"bench/run oracle fuzz: behind {run.count} units: {why}")
        print(f"{run.count} units over {SESSIONS} sessions, {run.lives} lives, {run.faults.failed()} failed disk calls, {run.refused} units denied for them: 0 differences")


if __name__ == "__main__":
    main()
