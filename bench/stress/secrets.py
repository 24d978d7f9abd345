"""Looks through the memory of a running server for the PIDs that callers sent it.

usage: bench/run stress secrets [POINT..]     (all of them where none is named)

log_in    of who logged in, who was denied, who logged in in pieces of a byte each, and in front of a part of the next unit
entered   of users who were entered and changed by commands, and of who changed the own
both      of who changed the own and logged in within one read, in either order
gone      of callers who have hung up

Each point prints a line. A PID is looked for in each page that the process may write, as text, all of it and all but its first two bytes; what the
system holds of a connection is none of it. A unit that is refused for its form, or never ends, isn't looked for: it stays until others are written
over it.
"""
import hashlib
import os
import re
import socket
import subprocess
import sys
import tempfile
import time

from bench import Wrong
from bench.shared import office
from bench.shared.program import expect
from bench.shared.server import Server

MODULES, SLOTS = 4, 8
# No other text of the process has these in it.
ANNAS, BENS, NEXT, OWN, WRONG = (f"Zq{at}vK7wJx{at}Uy3" for at in range(5))
# Between a unit's answer and the look: the thread may still be about to write over what it read.
REST = 0.3
# A build that watches its memory keeps a map of it, which is larger than any part of this program's.
LARGEST = 1 << 30


def user(uid, rank, pid):
    digest = hashlib.sha256(b"a" + pid.encode()).hexdigest()
    return f'[[user]]\nuid = "{uid}"\nclass = "{rank}"\nsalt = "61"\ndigest = "{digest}"\n'


def pages(process):
    """Each part of its memory that the process may write, with its name."""
    with open(f"/proc/{process}/maps", encoding="ascii") as file:
        lines = file.read().splitlines()
    with open(f"/proc/{process}/mem", "rb", buffering=0) as memory:
        for line in lines:
            first, end, rights, name = re.fullmatch(r"(\w+)-(\w+) (\S+) \S+ \S+ \S+ *(.*)", line).groups()
            size = int(end, 16) - int(first, 16)
            if "w" in rights and not name.startswith("[v") and size < LARGEST:
                memory.seek(int(first, 16))
                yield name or "no name", int(first, 16), memory.read(size)


def found(process, pids):
    """Where a PID stands, or the larger part of one: its name, and the part of memory."""
    parts = {pid: pid[2:].encode() for pid in pids}
    time.sleep(REST)
    return [f"{pid} in {name} at {first + match.start():x}" for name, first, content in pages(process) for pid, part in parts.items() for match in re.finditer(re.escape(part), content)]


class Office(Server):
    def call(self):
        return socket.create_connection(("127.0.0.1", self.port), 10)

    def expect_none(self, what, *pids):
        places = found(self.process.pid, pids)
        expect(not places, f"{what}: {', '.join(places)}")


def answer(caller, units, many=None):
    got = b""
    for at in range(0, len(units), many or len(units)):
        caller.sendall(units[at : at + (many or len(units))].encode())
        time.sleep(0.01 if many else 0)
    while got.count(b"\n;") < units.count(";"):
        piece = caller.recv(65536)
        expect(piece, f"the connection ended after {got!r}")
        got += piece
    return got.decode()


def log_in(server):
    with server.call() as caller, server.call() as guesser, server.call() as slow:
        expect("COMPLD" in answer(caller, f"ACT-USER::ANNA:1::{ANNAS};"), "no log-in")
        server.expect_none("behind a log-in", ANNAS)
        expect("DENY" in answer(guesser, f"RTRV-HDR:::1;ACT-USER::ANNA:1::{WRONG};RTRV-HDR:::1;"), "no denial")
        server.expect_none("behind a denied log-in", WRONG)
        expect("COMPLD" in answer(slow, f"ACT-USER::BEN:1::{BENS};", 1), "no log-in in pieces")
        server.expect_none("behind a log-in in pieces", BENS)
        # Behind the unit with the PID another one has begun, and ends later.
        answer(caller, "CANC-USER:::2;")
        caller.sendall(f"ACT-USER::ANNA:3::{ANNAS};RTRV-H".encode())
        expect("COMPLD" in answer(caller, "DR:::4;"), "no log-in in front of a part of a unit")
        server.expect_none("behind a log-in and a part of the next unit", ANNAS)
    return "none is left"


def entered(server):
    with server.call() as caller:
        answer(caller, f"ACT-USER::ANNA:1::{ANNAS};")
        for what, unit, pids in (
            ("an entry of a user", f"ENT-USER-SECU::FAY:2::{BENS[::-1]},P;", [BENS[::-1]]),
            ("an entry of one who is there", f"ENT-USER-SECU::FAY:2::{NEXT},P;", [NEXT]),
            ("another PID", f"ED-USER-SECU::FAY:3::{NEXT};", [NEXT]),
            ("an own other PID", f"ED-PID::ANNA:4::{ANNAS},{OWN};", [ANNAS, OWN]),
            ("a wrong old PID", f"ED-PID::ANNA:5::{WRONG},{ANNAS};", [WRONG, ANNAS]),
        ):
            answer(caller, unit)
            server.expect_none(f"behind {what}", *pids)
    return "none is left"


def both(server):
    # Behind a log-in less of the stack is written over than behind a command that keeps users.
    with server.call() as caller:
        answer(caller, f"ACT-USER::ANNA:1::{ANNAS};")
        for what, old, new, units in (
            ("a log-in behind another PID", ANNAS, OWN, "ED-PID::ANNA:2::{old},{new};ACT-USER::ANNA:3::{new};"),
            ("another PID behind a log-in", OWN, NEXT, "ACT-USER::ANNA:4::{old};ED-PID::ANNA:5::{old},{new};"),
        ):
            got = answer(caller, units.format(old=old, new=new))
            expect(got.count("COMPLD") == 1 and got.count("ALREADY LOGGED IN") == 1, f"{what}: answered {got!r}")
            server.expect_none(what, old, new)
    return "none is left"


def gone(server):
    with server.call() as caller:
        answer(caller, f"ACT-USER::BEN:1::{BENS};")
    server.expect_none("behind a caller", BENS)
    return "none is left"


POINTS = (log_in, entered, both, gone)


def tried(point):
    with tempfile.TemporaryDirectory() as folder:
        with open(os.path.join(folder, "shelf.toml"), "w", encoding="utf-8") as file:
            file.write(office.shelf_text(MODULES, SLOTS, users=()) + user("ANNA", "S", ANNAS) + user("BEN", "R", BENS))
        with open(os.path.join(folder, "lines.in"), "wb"):
            pass
        try:
            with Office(folder) as server:
                print(f"{point.__name__} passed: {point(server)}", flush=True)
            return True
        except (Wrong, OSError, subprocess.TimeoutExpired) as why:
            print(f"{point.__name__} failed: {why}", flush=True)
            return False


def main():
    named = sys.argv[1:] or [point.__name__ for point in POINTS]
    if set(named) - {point.__name__ for point in POINTS}:
        sys.exit(__doc__)
    passed = [tried(point) for point in POINTS if point.__name__ in named]
    print(f"{sum(passed)} passed, {len(passed) - sum(passed)} failed")
    sys.exit(not all(passed))


if __name__ == "__main__":
    main()
