"""Tries the server against many callers at once, with real processes.

usage: bench/run stress crowds [POINT..]     (all of them where none is named)

flood     three hundred callers at once: as many as there are places are served, each other one is told so and let go, and who is in is answered
deaf      sixteen callers that never read are given up, and sixteen others come in
cut       sixteen callers whose network is cut are gone within two minutes; meanwhile who calls is told that all places are taken. It wants root
          and `ip`, makes two network namespaces of its own, and takes them away again

Each point prints a line; `cut` takes two minutes at most, each other one half of one.
"""
import contextlib
import ctypes
import os
import selectors
import socket
import subprocess
import sys
import time

from bench.shared.office import LOG_IN
from bench.shared.program import PROGRAM, expect
from bench.shared.server import PLACES, ends_at
from bench.stress.outside_world import ENTRY, Element, answer, is_served, tried, until

CALLERS, BEFORE, FULL = 300, 4, b"dxc: all places are taken, call again later\r\n"
# Seconds in which each of the crowd has to be told something, and those in which who is in is answered meanwhile.
PATIENCE, PROMPT = 20, 2
# Addresses of the benchmark range (RFC 2544), within namespaces of their own.
NEAR, FAR, PORT = "198.18.0.1", "198.18.0.2", 3083
CLONE_NEWNET = 0x40000000


class Crowd:
    """Callers that call at once, log in, and keep what they are told."""

    def __init__(self, port):
        self.waiting, self.told = selectors.DefaultSelector(), {}
        for _ in range(CALLERS):
            caller = socket.socket()
            caller.setblocking(False)
            caller.connect_ex(("127.0.0.1", port))
            self.told[caller] = b""
            self.waiting.register(caller, selectors.EVENT_WRITE)

    def attend(self):
        """Sends and reads what can be at once."""
        for key, _ in self.waiting.select(0.01):
            caller = key.fileobj
            with contextlib.suppress(OSError):
                if key.events == selectors.EVENT_WRITE:
                    self.waiting.modify(caller, selectors.EVENT_READ)
                    caller.send(LOG_IN.encode())
                    continue
                self.told[caller] += caller.recv(4096)
            if self.is_told(caller):
                self.waiting.unregister(caller)

    def is_told(self, caller):
        return FULL in self.told[caller] or b"COMPLD" in self.told[caller]

    def count(self, text):
        return sum(text in told for told in self.told.values())

    def close(self):
        for caller in self.told:
            caller.close()


def flood(folder):
    with Element(folder) as server, contextlib.ExitStack() as held:
        own = f"/proc/{server.process.pid}"
        inside = [held.enter_context(server.call()) for _ in range(BEFORE)]
        expect(all(map(is_served, inside)), "not all who came first are served")
        threads, files = (len(os.listdir(f"{own}/{what}")) for what in ("task", "fd"))
        crowd, started, longest = Crowd(server.port), time.monotonic(), 0.0
        held.callback(crowd.close)
        while not all(map(crowd.is_told, crowd.told)):
            expect(time.monotonic() - started < PATIENCE, f"{CALLERS - sum(map(crowd.is_told, crowd.told))} of {CALLERS} were told nothing")
            crowd.attend()
            asked = time.monotonic()
            answer(inside[0], b"RTRV-CRS-T0::ALL:3;")
            longest = max(longest, time.monotonic() - asked)
        took = time.monotonic() - started
        served, refused = crowd.count(b"COMPLD"), crowd.count(FULL)
        expect((served, refused) == (PLACES - BEFORE, CALLERS - PLACES + BEFORE), f"{served} were served, {refused} told that all places are taken")
        expect(longest < PROMPT, f"who was in waited {longest:.2f} s for an answer")
        crowd.close()
        expect(until(lambda: len(os.listdir(f"{own}/fd")) == files, 5), "connections are left open")
        expect(len(os.listdir(f"{own}/task")) == threads, "threads are gone, or more")
        others = [held.enter_context(server.call()) for _ in range(PLACES - BEFORE)]
        expect(all(map(is_served, others)), "a place was lost")
    return f"{refused} told and let go within {took:.1f} s; who was in waited {1000 * longest:.0f} ms at most"


def deaf(folder):
    with Element(folder) as server, contextlib.ExitStack() as held:
        callers = [held.enter_context(server.call(4096)) for _ in range(PLACES)]
        expect(all(map(is_served, callers)), "not all of sixteen are served")
        ports, started = [caller.getsockname()[1] for caller in callers], time.monotonic()
        for caller in callers:
            caller.setblocking(False)

        def are_gone():
            for caller in callers:
                with contextlib.suppress(OSError):
                    caller.send(b"RTRV-HDR:::7;" * 4096)
            return not any(map(server.is_joined, ports))

        expect(until(are_gone, 60), f"{sum(map(server.is_joined, ports))} of {PLACES} callers that never read are there after a minute")
        took = time.monotonic() - started
        others = [held.enter_context(server.call()) for _ in range(PLACES)]
        expect(all(map(is_served, others)), "no place became free")
    return f"given up after {took:.0f} s"


def in_turn(*commands):
    for command in commands:
        subprocess.run(command.split(), check=True, capture_output=True)


@contextlib.contextmanager
def two_networks():
    """The names of two namespaces that one cable joins: that of the office, and that of its callers."""
    near, far = (f"dxc-{side}-{os.getpid()}" for side in ("office", "callers"))
    try:
        in_turn(f"ip netns add {near}", f"ip netns add {far}", f"ip -n {near} link add cable type veth peer name cable netns {far}")
        for name, address in ((near, NEAR), (far, FAR)):
            in_turn(f"ip -n {name} addr add {address}/30 dev cable", f"ip -n {name} link set cable up", f"ip -n {name} link set lo up")
        yield near, far
    finally:
        for name in (near, far):
            subprocess.run(["ip", "netns", "del", name], check=False, capture_output=True)


def go_into(network):
    """This thread's sockets are of the namespace from here on."""
    if ctypes.CDLL(None, use_errno=True).setns(network.fileno(), CLONE_NEWNET):
        raise OSError(ctypes.get_errno(), "setns")


@contextlib.contextmanager
def within(name):
    with open("/proc/thread-self/ns/net", "rb") as own, open(f"/run/netns/{name}", "rb") as other:
        go_into(other)
        try:
            yield
        finally:
            go_into(own)


def call(name):
    with within(name):
        return socket.create_connection((NEAR, PORT), timeout=10)


@contextlib.contextmanager
def served(folder, name):
    """A server within the namespace."""
    words = ["ip", "netns", "exec", name, PROGRAM, "serve", "shelf.toml", "j", f"{NEAR}:{PORT}", "lines", "1"]
    process = subprocess.Popen(words, cwd=folder, stderr=subprocess.DEVNULL)
    try:
        yield
    finally:
        process.kill()
        process.wait()


def joined(name):
    """How many connections the system holds at the office's end."""
    with within(name):
        return sum(state == "01" for _, state, _ in ends_at(PORT))


def cut(folder):
    with two_networks() as (near, far), served(folder, near), contextlib.ExitStack() as held:
        expect(until(lambda: is_there(near), 10), "the server didn't open its port")
        callers = [held.enter_context(call(far)) for _ in range(PLACES)]
        # A third is silent, a third has logged in, a third waits for reports.
        for at, caller in enumerate(callers):
            answer(caller, (b"", LOG_IN.encode(), LOG_IN.encode() + b"ALW-MSG-ALL:::2;")[at % 3])
        answer(callers[1], ENTRY)
        expect(joined(near) == PLACES, "not all of sixteen are in")
        in_turn(f"ip -n {far} link set cable down")
        started = time.monotonic()
        with call(near) as late:
            expect(late.recv(4096) == FULL, "the seventeenth wasn't told")
        gone = until(lambda: joined(near) == 0, 120)
        expect(gone, f"{joined(near)} of {PLACES} callers whose network is cut are there after two minutes")
        took = time.monotonic() - started
        others = [held.enter_context(call(near)) for _ in range(PLACES)]
        expect(all(map(is_served, others)), "no place became free")
    return f"gone after {took:.0f} s"


def is_there(name):
    with contextlib.suppress(OSError), call(name):
        return True
    return False


POINTS = (flood, deaf, cut)


def main():
    named = sys.argv[1:] or [point.__name__ for point in POINTS]
    if set(named) - {point.__name__ for point in POINTS}:
        sys.exit(__doc__)
    passed = [tried(point) for point in POINTS if point.__name__ in named]
    print(f"{sum(passed)} passed, {len(passed) - sum(passed)} failed")
    sys.exit(not all(passed))


if __name__ == "__main__":
    main()
