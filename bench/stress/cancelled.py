"""Tries CANC-USER-SECU with real processes: it ends a user's sessions, and no others.

usage: bench/run stress cancelled [POINT..]     (all of them where none is named)

silent       a session that is silent is told that its user's sessions were ended, and let go, within a second; who was so can log in again
busy         so is one that sends unit after unit; each unit of a read is answered or none is, and nothing is answered behind that line
own          who ends the own sessions is answered first, and then let go, at each place
others       whoever else is logged in, or nobody, goes on, and so does who logs in anew
deleted      the session of a user who was deleted goes on with its class until it is ended so
again        a session that sends ACT-USER again and again of its own user is ended all the same
denied       a name that nobody has is completed, and ends nothing; class P is refused, and so is what isn't a name

Each point prints a line, and ends within ten seconds. The program is the checkout's, or the one that DXC_PROGRAM names. Nothing leaves the loopback.
"""
import contextlib
import os
import socket
import sys
import tempfile
import time

from bench import Wrong
from bench.shared import office
from bench.shared.program import expect
from bench.shared.server import Caller, Server, until

FAREWELL = b"dxc: your sessions were ended, log in again\r\n"
USERS = (("ANNA", "S"), ("BEN", "P"), ("CARA", "S"))
# A read's fifth of a second, and what a busy machine adds.
PROMPT = 1.0


def end_of(uid):
    return f"CANC-USER-SECU::{uid}:9;".encode()


class Office:
    """A server with three users, and its callers."""

    def __init__(self, folder):
        with open(os.path.join(folder, "shelf.toml"), "w", encoding="utf-8") as file:
            file.write(office.shelf_text(4, 8, users=USERS))
        with open(os.path.join(folder, "lines.in"), "wb"):
            pass
        self.server, self.held = Server(folder), contextlib.ExitStack()
        self.held.callback(self.server.end)

    def caller(self, uid=None):
        caller = Caller(self.server.port)
        self.held.callback(caller.link.close)
        if uid:
            expect(b"COMPLD" in caller.ask(f"ACT-USER::{uid}:1::bc;".encode()), f"no log-in of {uid}")
        return caller

    def __enter__(self):
        return self

    def __exit__(self, *_):
        self.held.close()


def done(caller, unit):
    said = caller.ask(unit)
    expect(b"COMPLD" in said, f"{unit.decode()} was answered {said.decode()!r}")


def goes_on(caller):
    done(caller, b"RTRV-HDR:::7;")


def rest_of(caller):
    """All that comes until the connection is closed."""
    said, caller.read = caller.read, b""
    with contextlib.suppress(ConnectionResetError):
        while more := caller.link.recv(65536):
            said += more
    return said


def is_let_go(caller, before=b""):
    """How long it takes until the caller is told so and let go, with nothing behind that line."""
    started = time.monotonic()
    said = rest_of(caller)
    took = time.monotonic() - started
    expect(said == before + FAREWELL, f"it was sent {said!r}")
    expect(took < PROMPT, f"it was let go after {took:.2f} s")
    return took


def silent(office_):
    anna, ben = office_.caller("ANNA"), office_.caller("BEN")
    time.sleep(0.3)
    done(anna, end_of("ben"))
    took = is_let_go(ben)
    goes_on(anna)
    goes_on(office_.caller("BEN"))
    return f"let go after {1000 * took:.0f} ms"


def busy(office_):
    anna, ben = office_.caller("ANNA"), office_.caller("BEN")
    unit, answered = b"RTRV-HDR:::%d;", 0
    started = time.monotonic()
    done(anna, end_of("BEN"))
    with contextlib.suppress(Wrong, BrokenPipeError, ConnectionResetError):
        while time.monotonic() - started < 5:
            ben.send(unit % (answered % 1000 + 1))
            ben.messages(1)
            answered += 1
    took = time.monotonic() - started
    expect(took < PROMPT, f"it went on for {took:.1f} s, and was answered {answered} units")
    expect(ben.read.endswith(FAREWELL), f"last it was sent {ben.read[-80:]!r}")
    goes_on(anna)
    return f"let go behind {answered} units"


def own(office_):
    one, other = office_.caller("ANNA"), office_.caller("ANNA")
    time.sleep(0.3)
    done(one, end_of("ANNA"))
    is_let_go(one)
    is_let_go(other)
    goes_on(office_.caller("ANNA"))
    return "answered, and let go at both places"


def others(office_):
    anna, cara, nobody = office_.caller("ANNA"), office_.caller("CARA"), office_.caller()
    ben, left = office_.caller("BEN"), office_.caller("BEN")
    done(left, b"CANC-USER:::2;")
    done(anna, end_of("BEN"))
    is_let_go(ben)
    expect(b"LOG-IN REQUIRED" in nobody.ask(b"RTRV-HDR:::2;") and b"LOG-IN REQUIRED" in left.ask(b"RTRV-HDR:::2;"), "who isn't logged in was let go")
    done(left, b"ACT-USER::BEN:3::bc;")
    time.sleep(0.5)
    for caller in (anna, cara, left):
        goes_on(caller)
    return "they go on"


def deleted(office_):
    anna, cara = office_.caller("ANNA"), office_.caller("CARA")
    done(anna, b"DLT-USER-SECU::CARA:2;")
    time.sleep(0.5)
    done(cara, b"RTRV-USER-SECU:::3;")
    done(anna, end_of("CARA"))
    is_let_go(cara)
    expect(b"USER OR PID INVALID" in office_.caller().ask(b"ACT-USER::CARA:1::bc;"), "a deleted user logs in")
    return "it went on until then"


def again(office_):
    anna, ben = office_.caller("ANNA"), office_.caller("BEN")
    done(anna, end_of("BEN"))
    tries, started = 0, time.monotonic()
    with contextlib.suppress(Wrong, BrokenPipeError, ConnectionResetError):
        while time.monotonic() - started < 5:
            ben.send(b"ACT-USER::BEN:4::bc;")
            expect(b"ALREADY LOGGED IN" in ben.messages(1)[0], "it logged in anew")
            tries += 1
    expect(time.monotonic() - started < PROMPT and ben.read.endswith(FAREWELL), f"it went on for {tries} log-ins")
    return f"let go behind {tries} log-ins"


def denied(office_):
    anna, ben = office_.caller("ANNA"), office_.caller("BEN")
    done(anna, end_of("NOBODY"))
    for caller, unit, why in ((ben, end_of("ANNA"), b"CLASS NOT ENTITLED"), (anna, end_of(""), b"PARAMETER MISSING"), (anna, end_of("1BEN"), b"AID INVALID")):
        said = caller.ask(unit)
        expect(b"DENY" in said and why in said, f"{unit.decode()} was answered {said.decode()!r}")
    time.sleep(0.5)
    goes_on(anna)
    goes_on(ben)
    return "nobody was let go"


POINTS = (silent, busy, own, others, deleted, again, denied)


def main():
    named = {point.__name__: point for point in POINTS}
    for name in sys.argv[1:] or named:
        with tempfile.TemporaryDirectory() as folder, Office(folder) as office_:
            print(f"{name:8} {named[name](office_)}", flush=True)


if __name__ == "__main__":
    main()
