"""Asks a server with RTRV-SYS what stands of it, as its sessions and its standby come and go.

usage: bench/run stress standing [POINT..]     (all of them where none is named)

sessions  who is logged in at which place: two users at two places, of whom one logs out and another user logs in there, and one hangs up; a log-in
          that is denied, callers as whom nobody logs in, and a user whose sessions were ended are not among them; one who was deleted is until then
start     version and start: those of the program, from one start to the next
standby   none is named, one is joined, and one is killed and so lost, behind a change and without one; the sessions go on
again     one that comes back has the circuits alone until users are changed, and is joined then; where nobody stands by at a start it is lost
script    a session of `script` is told of the equipment alone

Each point prints a line, and ends by itself within half a minute.
"""
import os
import re
import subprocess
import sys
import tempfile
import time

from bench import Wrong
from bench.shared import office, server
from bench.shared.program import expect, run_program, version
from bench.shared.server import Server, await_listening, free_pair, free_port, until
from bench.stress.standby import start, start_pair, start_standby

MODULES, SLOTS = 2, 2
# The longest name that a user may have.
LONG = "PATRICIA12"
EQUIPMENT = ["MOD-1:IS", "MOD-2:IS"]
START = re.compile(r"START=(\d\d-\d\d-\d\d,\d\d:\d\d:\d\d)\Z")
SESSION = re.compile(r"SESSION-(\d+):(\w+,[RPS])\Z")
MOMENT = "%y-%m-%d,%H:%M:%S"
# Seconds within which the end of a connection is seen.
SEEN = 5


class Session(server.Caller):
    """A caller who asks one unit after the other."""

    def asked(self, unit):
        return self.ask(unit).decode()

    def named(self, user):
        expect("COMPLD" in self.asked(f"ACT-USER::{user}:1::bc;".encode()), f"{user} wasn't logged in")
        return self

    def told(self):
        """The rows of RTRV-SYS."""
        return re.findall(r'   "([^"]*)"\r\n', self.asked(b"RTRV-SYS:::9;"))

    def sessions(self):
        """The users that it is told of, by their places."""
        return {int(found[1]): found[2] for row in self.told() if (found := SESSION.match(row))}


def sessions(folder):
    with Server(folder) as running:
        anna, ben, other = (Session(running.port) for _ in range(3))
        anna.named("ANNA")
        first = anna.sessions()
        expect(list(first.values()) == ["ANNA,S"], f"one is logged in: {first}")
        ben.named("BEN")
        both = anna.sessions()
        expect(sorted(both.values()) == ["ANNA,S", "BEN,P"] and first.items() <= both.items(), f"two are logged in: {both}")
        expect(list(both) == sorted(both) and set(both) <= set(range(1, 17)), f"not in order of places: {both}")
        expect(ben.sessions() == both, "another session is told otherwise")
        expect("DENY" in other.asked(b"ACT-USER::ANNA:1::wrong;"), "a wrong PID was right")
        expect(anna.sessions() == both, "a log-in that was denied is told")
        expect("COMPLD" in ben.asked(b"CANC-USER::BEN:2;"), "no log-out")
        expect(anna.sessions() == first, f"who logged out is told: {anna.sessions()}")
        ben.named("CARA")
        place = next(place for place, user in both.items() if user == "BEN,P")
        expect(anna.sessions() == first | {place: "CARA,R"}, f"another at the same place: {anna.sessions()}")
        ben.link.close()
        expect(until(lambda: anna.sessions() == first, SEEN), f"who hung up is told: {anna.sessions()}")
        other.named(LONG.lower())
        expect(f"{LONG},P" in anna.sessions().values(), "a name of ten letters, given in lower case")
        expect("COMPLD" in anna.asked(f"DLT-USER-SECU::{LONG}:3;".encode()) and f"{LONG},P" in anna.sessions().values(), "one who was deleted, and goes on")
        expect("COMPLD" in anna.asked(f"CANC-USER-SECU::{LONG}:4;".encode()), "no end of the sessions")
        expect(until(lambda: anna.sessions() == first, SEEN), f"whose sessions were ended is told: {anna.sessions()}")
    return "those who are logged in, at their places"


def moment_of(rows):
    found = [START.match(row) for row in rows if row.startswith("START")]
    expect(len(found) == 1 and found[0], f"its start is told otherwise: {rows}")
    return found[0][1]


def start_and_version(folder):
    before = time.strftime(MOMENT, time.gmtime())
    with Server(folder) as running:
        session = Session(running.port).named("ANNA")
        rows = session.told()
        expect(rows[: len(EQUIPMENT) + 1] == [*EQUIPMENT, f"VERSION={version()}"], f"the first rows are {rows}")
        first = moment_of(rows)
        expect(before <= first <= time.strftime(MOMENT, time.gmtime()), f"it started at {first}, not before {before}")
        time.sleep(1.1)
        expect("COMPLD" in session.asked(b"INIT-SYS:::3;"), "no restart")
        expect(moment_of(session.told()) == first, "its start went on")
    time.sleep(1.1)
    with Server(folder) as running:
        again = moment_of(Session(running.port).named("ANNA").told())
    expect(first < again, f"a new start is told as {again}, behind {first}")
    return f"version {version()}, {first} and {again}"


def state(session):
    return [row for row in session.told() if row.startswith("STANDBY")]


def pair(folder):
    """A standby, and a session of the server that it is of."""
    names = [os.path.join(folder, name) for name in ("shelf.toml", "j", "copy", "lines")]
    standby, running, port = start_pair(*names)
    expect(await_listening(port, running), "the server didn't open its port")
    return standby, running, Session(port).named("ANNA")


def standby(folder):
    with Server(folder) as running:
        expect(state(Session(running.port).named("ANNA")) == ["STANDBY=NONE"], "a standby that wasn't named")
    for units in ([], [b"ENT-CRS-T0::DS0-1-1,DS0-2-1:2;"]):
        other, running, session = pair(folder)
        try:
            expect(state(session) == ["STANDBY=JOINED"], f"it is told as {state(session)}")
            end(other)
            for unit in units:
                expect("COMPLD" in session.asked(unit), "no change behind a lost standby")
                expect(state(session) == ["STANDBY=LOST"], f"lost, it is told as {state(session)}")
            expect(until(lambda: state(session) == ["STANDBY=LOST"], SEEN), f"lost, it is told as {state(session)}")
        finally:
            end(other, other.users, running)
        for name in ("copy", "copy.joining", "copy.users", "copy.users.joining"):
            if os.path.exists(os.path.join(folder, name)):
                os.remove(os.path.join(folder, name))
    return "none, joined and lost"


def end(*programs):
    for program in programs:
        program.kill()
        program.wait()


def again(folder):
    shelf, journal, lines = (os.path.join(folder, name) for name in ("shelf.toml", "j", "lines"))
    peer, port = free_pair(), free_port()
    running = start("serve", shelf, journal, f"127.0.0.1:{port}", lines, "1", f"127.0.0.1:{peer}")
    try:
        expect(await_listening(port, running), "the server didn't open its port")
        session = Session(port).named("ANNA")
        for copy in ("one", "two"):
            expect(state(session) == ["STANDBY=LOST"], f"where nobody stands by it is told as {state(session)}")
            other, _ = start_standby(os.path.join(folder, copy), peer)
            for unit, wanted in ((b"INIT-SYS:::3;", "CIRCUITS"), (b"ED-USER-SECU::BEN:4::,P;", "JOINED")):
                expect(until(lambda u=unit, w=wanted: called_by(session, u) == [f"STANDBY={w}"], SEEN), f"after {unit} it is told as {state(session)}")
            end(other, other.users)
            expect(until(lambda: state(session) == ["STANDBY=LOST"], SEEN), f"lost, it is told as {state(session)}")
    finally:
        end(running)
    return "lost, of the circuits alone and joined, twice"


def called_by(session, unit):
    """What it is told of the standby behind a change, which lets the server call."""
    expect("COMPLD" in session.asked(unit), f"{unit} was denied")
    return state(session)


def script(folder):
    told = run_program(["script", "shelf.toml", "j"], office.LOG_IN + "RTRV-SYS:::2;", cwd=folder).stdout
    expect(re.findall(r'"([^"]*)"', told) == EQUIPMENT, f"it is told {told}")
    return "the equipment alone"


POINTS = {"sessions": sessions, "start": start_and_version, "standby": standby, "again": again, "script": script}


def tried(name):
    with tempfile.TemporaryDirectory() as folder:
        with open(os.path.join(folder, "shelf.toml"), "w", encoding="utf-8") as file:
            file.write(office.shelf_text(MODULES, SLOTS, users=(("ANNA", "S"), ("BEN", "P"), ("CARA", "R"), (LONG, "P"))))
        with open(os.path.join(folder, "lines.in"), "wb"):
            pass
        try:
            print(f"{name} passed: {POINTS[name](folder)}", flush=True)
            return True
        except (Wrong, OSError, subprocess.TimeoutExpired) as why:
            print(f"{name} failed: {why}", flush=True)
            return False


def main():
    named = sys.argv[1:] or list(POINTS)
    if set(named) - set(POINTS):
        sys.exit(__doc__)
    passed = [tried(name) for name in named]
    print(f"{sum(passed)} passed, {len(passed) - sum(passed)} failed")
    sys.exit(not all(passed))


if __name__ == "__main__":
    main()
