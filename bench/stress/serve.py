"""Tries the server with real callers and frames on the loopback.

usage: bench/run stress serve

Callers: two see one another's changes; one that hangs, one that sends nothing, one that closes its half and one that resets its connection
hold nobody up. Frames: with one, three and eight workers each byte of a joined port comes out where it belongs, and 0x7F elsewhere. Words: a
port in use, lines that aren't there, and 0 or 9 workers end with their status, and nothing is changed.
"""
import os
import socket
import struct
import subprocess
import time

from bench.shared.office import LOG_IN
from bench.shared.program import PROGRAM, expect
from bench.shared.server import Caller, serving

IDLE = 0x7F


def callers_hold_nobody_up():
    with serving() as server:
        hangs, silent, half, resets = (Caller(server.port) for _ in range(4))
        hangs.send(LOG_IN.encode() + b"RTRV-HDR:::2;" * 200)
        half.send(LOG_IN.encode() + b"RTRV-HDR:::7;")
        half.link.shutdown(socket.SHUT_WR)
        resets.send(LOG_IN.encode() + b"RTRV-HD")
        resets.link.setsockopt(socket.SOL_SOCKET, socket.SO_LINGER, struct.pack("ii", 1, 0))
        resets.link.close()
        one, two = Caller(server.port).log_in(), Caller(server.port).log_in()
        two.ask(b"ALW-MSG-ALL:::2;")
        expect(b"COMPLD" in one.ask(b"ENT-CRS-T0::DS0-1-1,DS0-2-1:2;"), "an entry was denied beside callers that hang")
        report = two.messages(1)[0]
        expect(b"A  1 REPT DBCHG" in report and b'"ENT-CRS-T0:DS0-1-1,DS0-2-1:1WAY"' in report, f"a report reads {report}")
        expect(b"DS0-1-1,DS0-2-1" in two.ask(b"RTRV-CRS-T0:::3;"), "a caller doesn't see another's change")
        answers = half.messages(2)
        expect(b"M  7 COMPLD" in answers[1], "a caller that closed its half isn't answered")
        expect(half.link.recv(1) == b"", "a session goes on after the end of its input")
        silent.link.close()
    print("callers: each sees the other; one that hangs, is silent, closes its half or resets holds nobody up")


def frames_arrive(workers):
    ports, count = 8 * 24, 3000
    frame = bytes(port % 127 for port in range(ports))
    with serving(workers=workers, frames=frame * count, before=b"ENT-CRS-T0::DS0-1-2,DS0-8-24:2;") as server:
        deadline = time.monotonic() + 20
        while any(len(server.output(worker)) < ports * count for worker in range(workers)):
            expect(time.monotonic() < deadline, "the workers don't come to the end of their lines")
            time.sleep(0.05)
        for worker in range(workers):
            last = frame[1] if 7 % workers == worker else IDLE
            wanted = (bytes([IDLE]) * (ports - 1) + bytes([last])) * count
            expect(server.output(worker) == wanted, f"worker {worker} of {workers} wrote other frames")
    print(f"frames: {workers} workers wrote {count} frames each, with the one connection's byte where it belongs and 0x7F elsewhere")


def words_end(server):
    taken = subprocess.run([PROGRAM, *server.words(journal="k")], cwd=server.folder, capture_output=True, check=False)
    expect(taken.returncode == 6, f"a port in use gives {taken.returncode}")
    owned = subprocess.run([PROGRAM, *server.words(address="127.0.0.1:0")], cwd=server.folder, capture_output=True, check=False)
    expect(owned.returncode == 6, f"a journal in use gives {owned.returncode}")
    absent = subprocess.run([PROGRAM, *server.words(journal="l", lines="none", address="127.0.0.1:0")], cwd=server.folder, capture_output=True, check=False)
    expect(absent.returncode == 6, f"lines that aren't there give {absent.returncode}")
    for workers in (0, 9, "01", "1 "):
        ended = subprocess.run([PROGRAM, *server.words(journal="m", workers=workers)], cwd=server.folder, capture_output=True, check=False)
        expect(ended.returncode == 2 and ended.stderr.startswith(b"dxc: words not understood\n"), f"{workers} workers give {ended.returncode}")
    expect(not os.path.exists(server.path("m")), "words that weren't understood made a journal")
    print("words: a port, a journal in use, absent lines: status 6; 0, 9, 01 workers: status 2")


def main():
    callers_hold_nobody_up()
    for workers in (1, 3, 8):
        frames_arrive(workers)
    with serving() as server:
        words_end(server)


if __name__ == "__main__":
    main()
