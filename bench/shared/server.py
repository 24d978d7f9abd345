"""A running server in a folder, and callers of it over TCP."""
import contextlib
import os
import re
import socket
import subprocess
import tempfile
import time

from bench.shared.office import LOG_IN, write_shelf
from bench.shared.program import PROGRAM, expect

# How many sessions a server has at most.
PLACES = 16
# Seconds until a server is given up that hasn't opened its port.
PATIENCE = 20
LISTENS = "0A"


def free_port():
    with socket.socket() as some:
        some.bind(("127.0.0.1", 0))
        return some.getsockname()[1]


def free_pair():
    """A port that is free, as is the one behind it: of a standby's copies, of the journal and of the users'."""
    while True:
        with socket.socket() as one, socket.socket() as other, contextlib.suppress(OSError, OverflowError):
            one.bind(("127.0.0.1", 0))
            port = one.getsockname()[1]
            other.bind(("127.0.0.1", port + 1))
            return port


def ends_at(port, process="self"):
    """The system's end of each connection at this port of the network that a process is in: the other port, the state, and how many bytes wait
    to be sent."""
    with open(f"/proc/{process}/net/tcp", encoding="ascii") as table:
        rows = [line.split()[1:5] for line in table.readlines()[1:]]
    for local, remote, state, queues in rows:
        if int(local.split(":")[1], 16) == port:
            yield int(remote.split(":")[1], 16), state, int(queues.split(":")[0], 16)


def is_listening(port, process="self"):
    """Whether some process listens at the port of this one's network. To call there would take a place, or a standby's one link."""
    with contextlib.suppress(OSError):
        return any(state == LISTENS for _, state, _ in ends_at(port, process))
    return False


def await_listening(port, process):
    """Waits until somebody listens at the port of the process's network; false where the process ends or the time is over first."""
    end = time.monotonic() + PATIENCE
    while not is_listening(port, process.pid):
        if process.poll() is not None or time.monotonic() > end:
            return False
        time.sleep(0.002)
    return True


def until(fact, seconds):
    """Whether the fact holds within so many seconds."""
    end = time.monotonic() + seconds
    while not fact():
        if time.monotonic() > end:
            return False
        time.sleep(0.05)
    return True


class Server:
    """The program as a server in a folder that has its shelf file and lines; `more` goes to its process."""

    def __init__(self, folder, workers=1, journal="j", lines="lines", program=PROGRAM, errors=subprocess.PIPE, **more):
        self.folder, self.port, self.workers = folder, free_port(), workers
        words = [program, *self.words(journal=journal, lines=lines)]
        self.started = time.monotonic()
        self.process = subprocess.Popen(words, cwd=folder, stderr=errors, **more)
        self.wait_until_open()

    def words(self, **other):
        words = dict(shelf="shelf.toml", journal="j", address=f"127.0.0.1:{self.port}", lines="lines", workers=self.workers) | other
        return ["serve", *(str(word) for word in words.values())]

    def wait_until_open(self):
        if not await_listening(self.port, self.process):
            self.end()
            expect(False, f"the server didn't open its port; its status is {self.process.returncode}")

    def path(self, name):
        return os.path.join(self.folder, name)

    def resident(self):
        """The most memory that it has had, in KiB."""
        with open(f"/proc/{self.process.pid}/status", encoding="ascii") as file:
            return int(re.search(r"VmHWM:\s+(\d+)", file.read())[1])

    def output(self, worker):
        with open(self.path(f"lines.{worker}.out"), "rb") as file:
            return file.read()

    def end(self):
        self.process.kill()
        self.process.communicate()

    def __enter__(self):
        return self

    def __exit__(self, *_):
        self.end()


def enter(folder, units):
    """Sends the units to a session on the folder's journal, in front of a server's start."""
    words = [PROGRAM, "script", "shelf.toml", "j"]
    subprocess.run(words, cwd=folder, input=LOG_IN.encode() + units, capture_output=True, check=True)


@contextlib.contextmanager
def serving(modules=8, slots=24, workers=1, frames=b"", before=b""):
    """A server in a new folder, with the frames of its lines, on a journal with what was entered before."""
    with tempfile.TemporaryDirectory() as folder:
        write_shelf(folder, modules, slots)
        with open(os.path.join(folder, "lines.in"), "wb") as file:
            file.write(frames)
        if before:
            enter(folder, before)
        with Server(folder, workers) as server:
            yield server


class Caller:
    """One session's connection."""

    def __init__(self, port):
        self.link = socket.create_connection(("127.0.0.1", port))
        self.link.setsockopt(socket.IPPROTO_TCP, socket.TCP_NODELAY, 1)
        self.link.settimeout(PATIENCE)
        self.read = b""

    def send(self, units):
        self.link.sendall(units)

    def messages(self, count):
        """The next messages, each up to its ending byte at a line's start."""
        found = []
        while len(found) < count:
            end = self.read.find(b"\n;")
            if end >= 0:
                found.append(self.read[: end + 2])
                self.read = self.read[end + 2 :]
                continue
            more = self.link.recv(65536)
            expect(more, "the server closed a caller's connection")
            self.read += more
        return found

    def ask(self, unit):
        self.send(unit)
        return self.messages(1)[0]

    def log_in(self):
        expect(b"COMPLD" in self.ask(LOG_IN.encode()), "a log-in was denied")
        return self
