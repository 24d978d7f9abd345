"""Looks at what a server notes on standard error while it serves, and at what it answers where nobody takes its notes.

usage: bench/run stress notes [POINT..]     (all of them where none is named)

callers   where it listens, who came to which place, and why each went: who hung up, and one whose connection was reset
commands  who logged in and out, a log-in that was denied, and what came of each command that changes something
users     what came of each command that changes users, and nothing of what only reads them or is refused for its form
ended     who ended whose sessions, and that those ended so; nothing of who may not, or names nobody
disk      what the disk failed of circuits and of users, each with its cause
worker    the frames of a worker that ended, at the input's end and within a frame
silent    standard error is a pipe that nobody reads: hundreds of callers are served as ever, and once it is read the count of lost lines is told
taken     standard error is closed, a full disk, or a pipe whose reader is gone: the server goes on, and its answers are the same
private   no PID, salt or digest is noted, whatever a caller sends

Each point prints a line, and ends by itself within half a minute.
"""
import os
import re
import select
import socket
import struct
import subprocess
import sys
import tempfile
import time

from bench import Wrong
from bench.shared import office
from bench.shared.compiled import library
from bench.shared.program import PROGRAM, expect
from bench.shared.server import Server, free_port

MODULES, SLOTS = 4, 8
PORTS = MODULES * SLOTS
UNITS = office.LOG_IN.encode() + b"ENT-CRS-T0::DS0-1-1,DS0-2-1:2;RTRV-CRS-T0::ALL:3;"
DELETION = b"DLT-CRS-T0::DS0-1-1,DS0-2-1:4;"
LINE = re.compile(r"dxc: \d{4}-\d\d-\d\d \d\d:\d\d:\d\d UTC: (.*)")
# Callers whose lines no pipe of 64 KiB holds.
CROWD = 700
# What a caller waits for an answer at most, on a busy machine too.
PROMPT = 5


class Noted(Server):
    """A server whose standard error is this file."""

    def __init__(self, folder, errors, **more):
        self.folder, self.port, self.workers = folder, free_port(), 1
        self.process = subprocess.Popen([PROGRAM, *self.words()], cwd=folder, stderr=errors, **more)
        self.wait_until_open()

    def call(self):
        return socket.create_connection(("127.0.0.1", self.port), PROMPT)

    def answered(self, units):
        """What a caller is answered who then hangs up."""
        with self.call() as caller:
            got = asked(caller, units.decode())
        return re.sub(rb"\d\d-\d\d-\d\d \d\d:\d\d:\d\d", b"MOMENT", got)


def asked(caller, units):
    """What a caller is answered."""
    caller.sendall(units.encode())
    got = b""
    while got.count(b"\n;") < units.count(";"):
        piece = caller.recv(65536)
        expect(piece, f"the connection ended after {got!r}")
        got += piece
    return got


def reset(caller):
    """Ends the connection so that what is read of it fails."""
    caller.setsockopt(socket.SOL_SOCKET, socket.SO_LINGER, struct.pack("ii", 1, 0))
    caller.close()


def noted(path, count, seconds=10):
    """What stands behind the moments, once there are so many lines."""
    end = time.monotonic() + seconds
    while True:
        with open(path, encoding="utf-8") as file:
            lines = file.read().splitlines()
        if len(lines) >= count or time.monotonic() > end:
            break
        time.sleep(0.05)
    found = [LINE.fullmatch(line) for line in lines]
    expect(all(found), f"a line has no moment: {lines}")
    return [line[1] for line in found]


def callers(folder):
    path = os.path.join(folder, "notes")
    with open(path, "wb") as errors, Noted(folder, errors) as server:
        at = []
        noted(path, 2)
        with server.call() as caller:
            at.append(caller.getsockname()[1])
            noted(path, 3)
        noted(path, 4)
        caller = server.call()
        at.append(caller.getsockname()[1])
        noted(path, 5)
        reset(caller)
        told = noted(path, 6)
        listening = f"listening at 127.0.0.1:{server.port}"
    # The worker's input is empty, and its frames end at once.
    expect(sorted(told[:2]) == sorted([listening, "worker 0: no more frames, its input ended"]), f"it noted {told[:2]}")
    wanted = [f"place N: caller from 127.0.0.1:{at[0]}", "place N: caller gone, it hung up", f"place N: caller from 127.0.0.1:{at[1]}", "place N: caller gone, nothing could be read from it"]
    expect([re.sub(r"place \d+:", "place N:", line) for line in told[2:]] == wanted, f"it noted {told[2:]}")
    places = [line.split(":")[0] for line in told[2:]]
    expect(places[0] == places[1] and places[2] == places[3], f"a caller went from another place than it came to: {places}")
    return "each came and went"


def commands(folder):
    path = os.path.join(folder, "notes")
    units = b"ACT-USER::ANNA:1::wrong;" + office.LOG_IN.encode() + b"ENT-CRS-T0::DS0-1-1,DS0-2-1:2;ENT-CRS-T0::DS0-1-1,DS0-3-1:3;RTRV-CRS-T0::ALL:4;ED-CRS-T0::DS0-1-1,DS0-2-1:5::2WAY;INIT-SYS:::6;DLT-CRS-T0::DS0-1-1,DS0-2-1:7;CANC-USER::ANNA:8;"
    with open(path, "wb") as errors, Noted(folder, errors) as server:
        server.answered(units)
        told = [line for line in noted(path, 12) if line.startswith("place")]
    wanted = ["a log-in was denied", "ANNA logged in"] + [
        "ANNA " + text
        for text in (
            "2 ENT-CRS-T0 DS0-1-1,DS0-2-1: done",
            "3 ENT-CRS-T0 DS0-1-1,DS0-3-1: denied, SNVS SIDE IN USE",
            "5 ED-CRS-T0 DS0-1-1,DS0-2-1: done",
            "6 INIT-SYS: done",
            "7 DLT-CRS-T0 DS0-1-1,DS0-2-1: done",
        )
    ] + ["its user logged out"]
    got = [re.sub(r"place \d+: ", "", line) for line in told]
    expect(got[1:-1] == wanted, f"it noted {got}")
    return f"{len(wanted)} lines"


def users(folder):
    path = os.path.join(folder, "notes")
    units = (
        office.LOG_IN + "ENT-USER-SECU::FAY:2::first,P;ENT-USER-SECU::fay:3::other,P;ED-USER-SECU::fay:4::second;RTRV-USER-SECU:::5;ENT-USER-SECU::GUS:6;"
        "ED-PID::ANNA:7::wrong,third;ED-PID::ANNA:8::bc,third;DLT-USER-SECU::FAY:9;DLT-USER-SECU::FAY:10;"
    )
    with open(path, "wb") as errors, Noted(folder, errors) as server:
        server.answered(units.encode())
        told = [line for line in noted(path, 13) if line.startswith("place")]
    wanted = [
        "ANNA logged in",
        "ANNA 2 ENT-USER-SECU FAY: done",
        "ANNA 3 ENT-USER-SECU fay: denied, SNVS USER ALREADY THERE",
        "ANNA 4 ED-USER-SECU fay: done",
        "ANNA 7 ED-PID ANNA: denied, PIUI USER OR PID INVALID",
        "a log-in was denied",
        "ANNA 8 ED-PID ANNA: done",
        "ANNA 9 DLT-USER-SECU FAY: done",
        "ANNA 10 DLT-USER-SECU FAY: denied, PIUI USER NOT KNOWN",
    ]
    got = [re.sub(r"place \d+: ", "", line) for line in told]
    expect(got[1:-1] == wanted, f"it noted {got}")
    return f"{len(wanted)} lines"


def ended(folder):
    path = os.path.join(folder, "notes")
    with open(path, "wb") as errors, Noted(folder, errors) as server, server.call() as anna, server.call() as ben:
        asked(anna, office.LOG_IN + "ENT-USER-SECU::BEN:2::first,P;CANC-USER-SECU::BEN:3;")
        asked(ben, "ACT-USER::BEN:1::first;CANC-USER-SECU::ANNA:2;")
        asked(anna, "CANC-USER-SECU:::4;CANC-USER-SECU::1BEN:5;CANC-USER-SECU::BEN:6;")
        expect(ben.recv(4096).startswith(b"dxc: your sessions were ended"), "BEN's session goes on")
        # Only once that is noted, so that the lines come in one order.
        noted(path, 10)
        asked(anna, "CANC-USER-SECU::ANNA:7;")
        told = [line for line in noted(path, 12) if line.startswith("place")]
    gone = "caller gone, its user's sessions were ended"
    wanted = [
        "ANNA logged in",
        "ANNA 2 ENT-USER-SECU BEN: done",
        "ANNA 3 CANC-USER-SECU BEN: done",
        "BEN logged in",
        "ANNA 6 CANC-USER-SECU BEN: done",
        gone,
        "ANNA 7 CANC-USER-SECU ANNA: done",
        gone,
    ]
    got = [re.sub(r"place \d+: ", "", line) for line in told]
    expect([line for line in got if not line.startswith("caller from")] == wanted, f"it noted {got}")
    return f"{len(wanted)} lines"


def disk(folder):
    path, failing = os.path.join(folder, "notes"), os.path.join(folder, "failing")
    world = dict(os.environ, LD_PRELOAD=library("syncs", folder), FAILING=failing)
    with open(path, "wb") as errors, Noted(folder, errors, env=world) as server, server.call() as anna:
        asked(anna, office.LOG_IN)
        with open(failing, "wb"):
            asked(anna, "ENT-CRS-T0::DS0-1-1,DS0-2-1:2;INIT-SYS:::3;DLT-CRS-T0::DS0-1-1,DS0-2-1:4;ENT-USER-SECU::BEN:5::first,P;")
        told = [line for line in noted(path, 8) if line.startswith("place")]
    why = "denied, SROF JOURNAL WRITE FAILED"
    wanted = ["ANNA logged in", f"ANNA 2 ENT-CRS-T0 DS0-1-1,DS0-2-1: {why}", f"ANNA 3 INIT-SYS: {why}"]
    wanted += [f"ANNA 4 DLT-CRS-T0 DS0-1-1,DS0-2-1: {why}", f"ANNA 5 ENT-USER-SECU BEN: {why}"]
    got = [re.sub(r"place \d+: ", "", line) for line in told]
    expect(got[1:] == wanted, f"it noted {got}")
    return f"{len(wanted) - 1} denials"


def worker(folder):
    for more, why in ((0, "its input ended"), (5, "its input ended within a frame")):
        path = os.path.join(folder, f"notes{more}")
        with open(os.path.join(folder, "lines.in"), "wb") as file:
            file.write(bytes(3 * PORTS + more))
        with open(path, "wb") as errors, Noted(folder, errors):
            expect(f"worker 0: no more frames, {why}" in noted(path, 2), f"it noted {noted(path, 2)}")
    return "told at the end and within a frame"


def waiting_in(reader):
    """What comes out of a pipe until nothing does for half a second."""
    text = b""
    while select.select([reader], [], [], 0.5)[0] and (piece := reader.read(65536)):
        text += piece
    return text


def silent(folder):
    ours, theirs = os.pipe()
    with open(ours, "rb", buffering=0) as reader, Noted(folder, theirs) as server:
        os.close(theirs)
        first = server.answered(UNITS + DELETION)
        longest = 0.0
        for _ in range(CROWD):
            started = time.monotonic()
            server.call().close()
            longest = max(longest, time.monotonic() - started)
        started = time.monotonic()
        expect(server.answered(UNITS + DELETION) == first, "the answers are others")
        longest = max(longest, time.monotonic() - started)
        expect(longest < PROMPT, f"a caller waited {longest:.1f} s")
        time.sleep(1)
        text = waiting_in(reader)
        expect(b"lost" not in text, "a line was told as lost before there was room")
        expect(server.answered(UNITS + DELETION) == first, "the answers are others once it is read")
        more = waiting_in(reader).decode().splitlines()
        count = [int(found[1]) for line in more if (found := re.search(r": (\d+) lines before this one were lost$", line))]
    lines = text.decode().splitlines()
    expect(all(map(LINE.fullmatch, lines + more)), "a line was cut")
    expect(count, f"how many were lost isn't told: {more}")
    # The two ends of each caller, what three of them did, and the server's own first lines; who found all places taken left none.
    told, all_lines = len(lines) + len(more) - len(count) + sum(count), 2 * (CROWD + 3) + 3 * 3 + 2
    expect(all_lines - CROWD // 10 <= told <= all_lines, f"of {all_lines} lines {told} were told or lost")
    return f"{sum(count)} lines lost, a caller waited {1000 * longest:.0f} ms at most"


def answers_where(folder, errors, **more):
    office.begin_anew(os.path.join(folder, "j"))
    with Noted(folder, errors, **more) as server:
        got = [server.answered(UNITS), server.answered(office.LOG_IN.encode() + DELETION)]
        expect(server.process.poll() is None, "the server ended")
    return got


def taken(folder):
    wanted = answers_where(folder, subprocess.DEVNULL)
    expect(answers_where(folder, None, preexec_fn=lambda: os.close(2)) == wanted, "closed: the answers are others")
    with open("/dev/full", "wb") as full:
        expect(answers_where(folder, full) == wanted, "a full disk: the answers are others")
    ours, theirs = os.pipe()
    os.close(ours)
    with open(theirs, "wb") as broken:
        expect(answers_where(folder, broken) == wanted, "a reader that is gone: the answers are others")
    return "answers are the same"


def private(folder):
    path = os.path.join(folder, "notes")
    with open(path, "wb") as errors, Noted(folder, errors) as server:
        server.answered(office.LOG_IN.encode() + b"ACT-USER::ANNA:2::secretpid;ENT-USER-SECU::BEN:3::otherpid,R;ED-USER-SECU::BEN:4::thirdpid;ED-PID::ANNA:5::wrongpid,newpid;")
        time.sleep(0.5)
        text = "\n".join(noted(path, 4))
    expect(not re.search(f"(secret|other|third|wrong|new)pid|::bc|{office.DIGEST[:12]}", text), f"it noted {text}")
    return "nothing of the kind"


POINTS = (callers, commands, users, ended, disk, worker, silent, taken, private)


def tried(point):
    with tempfile.TemporaryDirectory() as folder:
        office.write_shelf(folder, MODULES, SLOTS)
        with open(os.path.join(folder, "lines.in"), "wb"):
            pass
        try:
            print(f"{point.__name__} passed: {point(folder)}", flush=True)
            return True
        except (Wrong, OSError, subprocess.TimeoutExpired) as why:
            print(f"{point.__name__} failed: {why}", flush=True)
            return False


def main():
    named = sys.argv[1:] or [point.__name__ for point in POINTS]
    if set(named) - {point.__name__ for point in POINTS}:
        sys.exit(__doc__)
    passed = [tried(point) for point in POINTS if point.__name__ in named]
    print(f"{sum(passed)} passed, {len(passed) - sum(passed)} failed")
    sys.exit(not all(passed))


if __name__ == "__main__":
    main()
