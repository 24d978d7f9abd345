"""Technicians of an office: each calls the machine that serves, logs in, sends one change at a time, and notes what came of it and when."""
import contextlib
import dataclasses
import re
import threading
import time

from bench import Wrong
from bench.shared.changes import commands
from bench.shared.machines import Server
from bench.shared.server import Caller

# A log-out and a log-in come between so many changes.
CHANGES_A_LOG_IN = 9
# The most seconds that a technician rests behind an answer.
REST = 0.12


class Circuits:
    """Entries and deletions of circuits among some ports, which nobody else has."""

    listing = b"RTRV-CRS-T0::ALL:8;"

    def __init__(self, ports):
        self.ports = ports

    def change(self, rng, table):
        """A change, and what stands behind it."""
        return next(iter(commands(rng, table, 1, self.ports)))

    def rows(self, text):
        """Its own rows of a listing, of a session or of `dxc check`."""
        found = re.findall(r"(DS0-\d+-\d+),(DS0-\d+-\d+):1WAY", text)
        return frozenset(ends for ends in found if ends[0] in self.ports)


class Users:
    """Entries, changes and deletions of users beside the shelf file's."""

    listing = b"RTRV-USER-SECU:::8;"

    def __init__(self):
        self.count = 0

    def change(self, rng, table):
        """A change, and what stands behind it. Each user's name is new."""
        what = rng.choice(["ENT", "ENT", "ENT", "ED", "DLT"]) if len(table) < 40 else "DLT"
        if what == "ENT" or not table:
            self.count += 1
            uid, rank = f"U{self.count}", rng.choice("RP")
            return f"ENT-USER-SECU::{uid}:1::first-pid,{rank};", table | {(uid, rank)}
        uid, rank = rng.choice(sorted(table))
        others = table - {(uid, rank)}
        if what == "DLT":
            return f"DLT-USER-SECU::{uid}:1;", others
        other = "R" if rank == "P" else "P"
        return f"ED-USER-SECU::{uid}:1::,{other};", others | {(uid, other)}

    def rows(self, text):
        return frozenset(re.findall(r'"(U\d+):([RPS])"', text))


@dataclasses.dataclass
class Change:
    """A change that was sent to a server, or what was listed there, and what stands behind it."""

    text: str
    after: frozenset
    server: Server
    sent: float
    # When its answer was here, if one came.
    answered: float | None = None
    # Whether it was made, by its answer; none where that didn't come.
    is_made: bool | None = None
    # Once the answer was here: how often the server had called a standby, and whether it was joined, by its own lines.
    call: int = 0
    is_joined: bool = False

    def is_in(self, copy):
        """Whether a standby's copy has to have it, which the server joined by a call: it was answered before that, or while that one was joined."""
        return self.call < copy.call or (self.call == copy.call and self.is_joined)


@dataclasses.dataclass
class Found:
    """What a listing has of a technician's circuits or users: how many must be there, those that aren't, and those that nobody commanded."""

    must: int
    lost: frozenset
    strange: frozenset


class Technician(threading.Thread):
    """Goes on from session to session. `served` answers the server to call, or none; while `may_change` isn't set nothing is sent."""

    def __init__(self, work, rng, served, may_change):
        super().__init__(daemon=True)
        self.work, self.rng, self.served, self.may_change = work, rng, served, may_change
        self.table, self.changes, self.found = frozenset(), [], []
        # The server that it is logged in at.
        self.at = None
        # How many sessions it began.
        self.begun = 0
        self.is_busy = self.is_over = False

    def run(self):
        while not self.is_over:
            # A server that is gone, or not there yet.
            with contextlib.suppress(OSError, Wrong):
                self.session(self.served())
            self.at, self.is_busy = None, False
            time.sleep(0.05)

    def session(self, server):
        if not server:
            return
        server.machine.enter()
        caller = Caller(server.port)
        with contextlib.closing(caller.link):
            caller.log_in()
            self.begun += 1
            if self.changes and self.changes[-1].is_made is None:
                self.take_up(self.listed(caller), server, server)
            self.at = server
            while self.served() is server and not self.is_over:
                self.is_busy = True
                if self.may_change.is_set():
                    self.step(caller, server)
                self.is_busy = False
                time.sleep(self.rng.uniform(0, REST))

    def step(self, caller, server):
        if len(self.changes) % CHANGES_A_LOG_IN == CHANGES_A_LOG_IN - 1:
            caller.ask(b"CANC-USER:::2;")
            caller.log_in()
        text, after = self.work.change(self.rng, self.table)
        change = Change(text, after, server, time.time())
        self.changes.append(change)
        answer = caller.ask(text.encode())
        change.answered = time.time()
        # What the server said before it answered is here once the answer is.
        change.call, change.is_joined = server.joined_by()
        change.is_made = b"COMPLD" in answer
        if change.is_made:
            self.table = after

    def listed(self, caller):
        return self.work.rows(caller.ask(self.work.listing).decode())

    def take_up(self, rows, server, of, copy=None):
        """Goes on from what a server lists, which has the journal of a server (`of`), or a standby's copy of it; notes what is wrong with it."""
        found = self.compare(rows, of, copy)
        self.found.append(found)
        self.table = rows
        self.changes.append(Change("", rows, server, time.time(), is_made=True))
        return found

    def compare(self, rows, of, copy=None):
        """What these rows have of the changes that a server answered, or those before it; of a copy's, before its standby was joined, or while it was.
        Behind the last of them a beginning of those that came later may be there too."""
        tables = [frozenset()]
        for change in self.changes:
            if change.server.started > of.started:
                break
            if change.is_made and (not copy or change.server is not of or change.is_in(copy)):
                tables = [change.after]
            elif change.is_made is not False:
                tables.append(change.after)
        if rows in tables:
            return Found(len(tables[0]), frozenset(), frozenset())
        lost, strange = frozenset.intersection(*tables) - rows, rows - frozenset.union(*tables)
        # Each row may be there by right, and yet not with the others.
        return Found(len(tables[0]), lost, strange if lost or strange else rows ^ tables[0])

    def answered(self):
        """How many changes were answered as made."""
        return sum(change.is_made is True and change.answered is not None for change in self.changes)

    def longest_wait(self):
        """Of all changes that were answered, in seconds."""
        return max((change.answered - change.sent for change in self.changes if change.answered), default=0)
