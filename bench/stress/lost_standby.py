"""Loses a standby in each way that an office meets, and looks at what either end says and has.

usage: bench/run stress lost_standby

paused      the standby is stopped by SIGSTOP: a change waits for it five seconds, and no longer, a retrieval not at all; the primary hangs
            up, says so and goes on alone; let go on, the standby ends by itself, says when it was synced last, and its copy has every
            change that was answered while joined
killed      the standby is killed: the primary says so
one         one of the standby's two programs is killed, while nobody changes anything: the primary says so, and the other one ends
            within some seconds and says so too
ended       the primary is killed: the standby says so, and that its copy is whole
cut         a joining is cut off after each of some pieces: the copy opens as no journal, the standby says that it holds nothing, and
            another standby of the same name takes its place
scanned     callers that go at once, and leave nothing, are passed over: a primary can join after them
again       a copy that is whole isn't touched by a standby of its name

The primary's and the standby's lines on standard error are compared but for their moments.
"""
import os
import re
import signal
import socket
import struct
import subprocess
import sys
import tempfile
import time

from bench.shared.changes import MODULES, SLOTS
from bench.shared.office import write_shelf
from bench.shared.program import PROGRAM
from bench.stress.standby import LOG_IN, Listener, WAIT, await_listening, call, checked, free_port, run_alone, start, start_pair, start_standby

MOMENT = rb"\d{4}-\d\d-\d\d \d\d:\d\d:\d\d UTC"
# A wait of 25 reads of a fifth of a second, and what a busy machine adds.
LONGEST = 8
# Who only reads doesn't wait for a standby: a few milliseconds, and what a busy machine adds.
PROMPT = 1
# Whoever waits for callers looks after both connections at least every two seconds, and a busy machine adds to that.
SOON = 4
# Bytes of an item.
PIECE = 256
WHOLE = rb"dxc: " + MOMENT + rb": standby ended, (its primary hung up|its connection failed); \S+ is whole, and was synced last at " + MOMENT + rb"\n"
NOTHING = rb"dxc: " + MOMENT + rb": standby ended, (its primary hung up|its connection failed); \S+ holds nothing, since it was never whole\n"


def await_responses(heard, count, most=WAIT):
    """The seconds until so many responses were read."""
    begun = time.monotonic()
    while heard.responses() < count:
        if time.monotonic() - begun > most:
            sys.exit(f"{count} responses didn't come within {most} s: {heard.text!r}")
        time.sleep(0.005)
    return time.monotonic() - begun


def ended(process, what, *statuses):
    """What a process that ends by itself said."""
    try:
        process.wait(WAIT)
    except subprocess.TimeoutExpired:
        process.kill()
        sys.exit(f"{what} didn't end")
    if process.returncode not in statuses:
        sys.exit(f"{what} ended with status {process.returncode}")
    return process.stderr.read()


def says(told, pattern, what):
    # Callers and workers have lines of their own, at any moment.
    if not re.search(pattern + rb"\Z", b"".join(line for line in told.splitlines(True) if b": standby " in line)):
        sys.exit(f"{what} said {told!r}")


def lost(why):
    return rb"dxc: " + MOMENT + rb": standby lost, " + why + rb": serving alone\n"


def killed(process):
    process.kill()
    process.wait()
    return process.stderr.read()


def begun(folder):
    """A joined pair, and two callers of the primary."""
    shelf, lines = os.path.join(folder, "shelf.toml"), os.path.join(folder, "lines")
    journal, copy = os.path.join(folder, "primary.journal"), os.path.join(folder, "standby.journal")
    standby, server, port = start_pair(shelf, journal, copy, lines)
    if not await_listening(port, server):
        sys.exit("the server doesn't listen")
    return standby, server, [(caller, Listener(caller)) for caller in (call(port), call(port))]


def paused(folder):
    standby, server, ((changer, changed), (reader, read)) = begun(folder)
    changer.sendall(b"ENT-CRS-T0::DS0-1-1,DS0-2-1:2;")
    await_responses(changed, 1)
    os.kill(standby.pid, signal.SIGSTOP)
    changer.sendall(b"ENT-CRS-T0::DS0-1-2,DS0-2-2:3;")
    time.sleep(0.2)
    reader.sendall(b"RTRV-CRS-T0::ALL:4;")
    listed = await_responses(read, 1, LONGEST)
    if listed > PROMPT:
        sys.exit(f"a retrieval beside a standby that is stopped took {listed:.2f} s")
    waited = await_responses(changed, 2, LONGEST)
    changer.sendall(b"ENT-CRS-T0::DS0-2-1,DS0-1-1:5;")
    await_responses(changed, 3)
    os.kill(standby.pid, signal.SIGCONT)
    says(ended(standby, "a standby that was let go on", 0, 9), WHOLE, "a standby that was let go on")
    says(killed(server), lost(rb"it was silent for 25 reads"), "the primary of a standby that was stopped")
    rows = checked(os.path.join(folder, "shelf.toml"), os.path.join(folder, "standby.journal"))
    if "DS0-1-1,DS0-2-1:1WAY" not in rows or changed.text.count(b"COMPLD") != 4:
        sys.exit(f"a standby that was stopped has {rows!r}")
    return listed, waited + listed + 0.2


def killed_standby(folder):
    standby, server, ((changer, changed), _) = begun(folder)
    killed(standby)
    changer.sendall(b"ENT-CRS-T0::DS0-1-1,DS0-2-1:2;")
    await_responses(changed, 1)
    says(killed(server), lost(rb"(it hung up|the connection failed)"), "the primary of a standby that was killed")


def killed_one(folder):
    for is_users in (True, False):
        standby, server, _ = begun(folder)
        gone, left = (standby.users, standby) if is_users else (standby, standby.users)
        killed(gone)
        since = time.monotonic()
        says(ended(left, "the standby's other program", 0, 9), WHOLE, "the standby's other program")
        if time.monotonic() - since > SOON:
            sys.exit(f"the standby's other program ended after {time.monotonic() - since:.1f} s")
        says(killed(server), lost(rb"(it hung up|the connection failed)"), "the primary of a standby of which one program was killed")
        for name in os.listdir(folder):
            if "journal" in name:
                os.remove(os.path.join(folder, name))


def killed_primary(folder):
    standby, server, ((changer, changed), _) = begun(folder)
    changer.sendall(b"ENT-CRS-T0::DS0-1-1,DS0-2-1:2;")
    await_responses(changed, 1)
    killed(server)
    says(ended(standby, "the standby of a primary that was killed", 0, 9), WHOLE, "the standby of a primary that was killed")


def writes(whole):
    """The items in which a primary sends its file, but for the Sync."""
    pieces = [whole[at : at + PIECE] for at in range(0, len(whole), PIECE)]
    return [struct.pack(">BQQH", 1, number + 1, PIECE * number, len(piece)) + piece for number, piece in enumerate(pieces)]


def cut(folder):
    shelf, lines = os.path.join(folder, "shelf.toml"), os.path.join(folder, "lines")
    journal, copy = os.path.join(folder, "primary.journal"), os.path.join(folder, "standby.journal")
    ends = [f"DS0-{a}-{b},DS0-{3 - a}-{b}" for a in (1, 2) for b in range(1, 5)]
    run_alone(shelf, journal, [f"{verb}-CRS-T0::{pair}:1;" for pair in ends for verb in ("ENT", "DLT")])
    with open(journal, "rb") as file:
        items = writes(file.read())
    for count in range(1, len(items) + 1):
        port = free_port()
        standby = start("standby", copy, f"127.0.0.1:{port}")
        if not await_listening(port, standby):
            sys.exit(f"no standby takes the place of one that was cut off: {standby.poll()} {standby.stderr.read()!r}")
        with socket.create_connection(("127.0.0.1", port), timeout=WAIT) as primary:
            primary.sendall(b"".join(items[:count]))
        says(ended(standby, "a standby that was cut off in its joining", 0, 9), NOTHING, "a standby that was cut off in its joining")
        server = start("serve", shelf, copy, f"127.0.0.1:{free_port()}", lines, "1")
        if b"cannot open" not in ended(server, "a server on a copy that is none", 6):
            sys.exit("a copy that is none was opened")
    return len(items)


def scanned(folder):
    standby, peer = start_standby(os.path.join(folder, "standby.journal"))
    for abort in (False, True, False):
        with socket.create_connection(("127.0.0.1", peer), timeout=WAIT) as scan:
            if abort:
                # Closed by a reset.
                scan.setsockopt(socket.SOL_SOCKET, socket.SO_LINGER, struct.pack("ii", 1, 0))
        time.sleep(0.2)
        if standby.poll() is not None:
            sys.exit(f"a port scan ended the standby with status {standby.returncode}: {standby.stderr.read()!r}")
    port = free_port()
    words = [os.path.join(folder, name) for name in ("shelf.toml", "primary.journal")]
    server = start("serve", *words, f"127.0.0.1:{port}", os.path.join(folder, "lines"), "1", f"127.0.0.1:{peer}")
    if not await_listening(port, server):
        sys.exit("after a port scan no primary could join")
    killed(server)
    says(ended(standby, "a standby that was scanned", 0, 9), WHOLE, "a standby that was scanned")


def again(folder):
    shelf, journal = os.path.join(folder, "shelf.toml"), os.path.join(folder, "whole.journal")
    run_alone(shelf, journal, ["ENT-CRS-T0::DS0-1-1,DS0-2-1:1;"])
    with open(journal, "rb") as file:
        before = file.read()
    port = free_port()
    standby = start("standby", journal, f"127.0.0.1:{port}")
    await_listening(port, standby)
    with socket.create_connection(("127.0.0.1", port), timeout=WAIT) as primary:
        primary.sendall(struct.pack(">BQ", 2, 1))
        told = ended(standby, "a standby of a name that is taken", 13)
    with open(journal, "rb") as file:
        if file.read() != before or b"dxc: standby journal not empty\n" not in told:
            sys.exit(f"a copy that is whole was touched: {told!r}")


def main():
    def trial(made):
        with tempfile.TemporaryDirectory() as folder:
            write_shelf(folder, MODULES, SLOTS)
            with open(os.path.join(folder, "lines.in"), "wb"):
                pass
            return made(folder)

    cuts = trial(cut)
    trial(scanned)
    trial(again)
    trial(killed_standby)
    trial(killed_one)
    trial(killed_primary)
    listed, waited = trial(paused)
    print(f"standbys lost: stopped (a change waited {waited:.1f} s for it, a retrieval {1000 * listed:.0f} ms), killed, one of its programs killed, and cut off behind {cuts} pieces; both ends said so; callers that left nothing were passed over")


if __name__ == "__main__":
    main()
