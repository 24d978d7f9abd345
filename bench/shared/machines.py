"""Machines of an office on one host: each has a network and a small file system of its own where the system lets one make them, and programs that say what befalls them."""
import calendar
import contextlib
import ctypes
import os
import re
import signal
import subprocess
import sys
import threading
import time

from bench.shared.program import PROGRAM
from bench.shared.server import await_listening, free_pair, free_port

# Names the run that has been set apart.
APART = "BENCH_SET_APART"
# Room on a machine's file system: more than a trial writes, and soon filled.
ROOM = "4m"
NEW_NETWORK = 0x40000000
MOMENT = r"\d{4}-\d\d-\d\d \d\d:\d\d:\d\d UTC"


def set_apart():
    """Runs this program again with mounts, processes and names of networks of its own, all of which the system takes away as it ends, however it
    ends, and ends with its status. The run that is apart has room for files in /run. False where nobody may have that here."""
    if os.environ.get(APART):
        run("mount", "-t", "tmpfs", "tmpfs", "/run")
        return True
    words = ["unshare", "--mount", "--net", "--pid", "--fork", "--kill-child", "--mount-proc"]
    if os.geteuid() != 0:
        words += ["--user", "--map-root-user"]
    trial = "mount -t tmpfs tmpfs /run && ip netns add a && ip -n a link add x type veth peer name y && nsenter --net=/run/netns/a true"
    try:
        subprocess.run([*words, "sh", "-c", trial], capture_output=True, check=True)
    except (FileNotFoundError, subprocess.CalledProcessError):
        return False
    apart = subprocess.Popen([*words, sys.executable, *sys.orig_argv[1:]], env=os.environ | {APART: "yes"}, preexec_fn=end_with_parent)
    signal.signal(signal.SIGTERM, lambda *_: sys.exit(128 + signal.SIGTERM))
    try:
        sys.exit(apart.wait())
    finally:
        apart.kill()


def end_with_parent():
    """Lets the system kill this process where its parent ends."""
    ctypes.CDLL(None).prctl(1, signal.SIGKILL)


def run(*words):
    subprocess.run(words, capture_output=True, check=True)


class Machine:
    """One of the machines. What isn't apart has the host's network and its disk."""

    def __init__(self, name, folder, address, is_apart):
        self.name, self.folder = name, folder
        self.address = address if is_apart else "127.0.0.1"
        # Of its server, and of its standby, whose copy of the users' journal has the port behind that.
        self.port, self.peer = free_port(), free_pair()
        self.network = f"/run/netns/{name}" if is_apart else None
        os.mkdir(folder)
        if is_apart:
            run("mount", "-t", "tmpfs", "-o", f"size={ROOM},mode=700", "tmpfs", folder)
            run("ip", "netns", "add", name)
            run("ip", "-n", name, "link", "set", "lo", "up")

    def take_away(self):
        if self.network:
            run("ip", "netns", "del", self.name)
            run("umount", "--lazy", self.folder)

    def enter(self):
        """From here on the sockets that this thread makes are this machine's."""
        if not self.network:
            return
        with open(self.network, "rb") as network:
            if ctypes.CDLL(None, use_errno=True).setns(network.fileno(), NEW_NETWORK) != 0:
                raise OSError(ctypes.get_errno(), "setns")

    def path(self, name):
        return os.path.join(self.folder, name)

    def fill(self):
        """Leaves no room on the file system."""
        with contextlib.suppress(OSError), open(self.path("filling"), "wb", buffering=0) as file:
            while True:
                file.write(bytes(4096))

    def empty(self):
        with contextlib.suppress(FileNotFoundError):
            os.remove(self.path("filling"))


class Wire:
    """The one link between two machines."""

    def __init__(self, one, other):
        self.ends = (one, other)
        run("ip", "-n", one.name, "link", "add", "wire", "type", "veth", "peer", "name", "wire", "netns", other.name)
        for end in self.ends:
            run("ip", "-n", end.name, "address", "add", f"{end.address}/24", "dev", "wire")
        self.mend()

    def slow(self, rate="1mbit"):
        """From here on the first machine sends so many bits a second and no more, where the system can do that."""
        with contextlib.suppress(subprocess.CalledProcessError, FileNotFoundError):
            run("tc", "-n", self.ends[0].name, "qdisc", "add", "dev", "wire", "root", "tbf", "rate", rate, "burst", "10kb", "latency", "500ms")

    def cut(self, end):
        run("ip", "-n", end.name, "link", "set", "wire", "down")

    def mend(self):
        for end in self.ends:
            run("ip", "-n", end.name, "link", "set", "wire", "up")


class Program:
    """A program on a machine. Each line that it writes to standard error of what befalls it has the moment, to the second."""

    def __init__(self, machine, port, *words):
        self.machine, self.port, self.started = machine, port, time.monotonic()
        enters = ["nsenter", f"--net={machine.network}"] if machine.network else []
        streams = {"stdin": subprocess.DEVNULL, "stdout": subprocess.DEVNULL, "stderr": subprocess.PIPE}
        self.process = subprocess.Popen([*enters, PROGRAM, *words], cwd=machine.folder, **streams)
        os.set_blocking(self.process.stderr.fileno(), False)
        self.text, self.lock = "", threading.Lock()
        # When it was killed, and when it was let go on last, in seconds since 1970.
        self.gone, self.freed = None, 0

    def said(self):
        """All that it has said up to now."""
        with self.lock, contextlib.suppress(BlockingIOError):
            while piece := os.read(self.process.stderr.fileno(), 4096):
                self.text += piece.decode()
        return self.text

    def told(self, what):
        """The moment and the text of its first line that begins so; None where there is none."""
        found = re.search(rf"^dxc: ({MOMENT}): ({what}.*)$", self.said(), re.MULTILINE)
        return found and (second_of(found[1]), found[2])

    def runs(self):
        return self.process.poll() is None

    def listens(self):
        """Waits until it does; false where it ends first."""
        return await_listening(self.port, self.process)

    def stop(self):
        self.freed = float("inf")
        self.process.send_signal(signal.SIGSTOP)

    def go_on(self):
        self.freed = time.time()
        self.process.send_signal(signal.SIGCONT)

    def kill(self):
        if self.runs():
            self.gone = time.time()
            self.process.kill()
            self.process.wait()

    def close(self):
        self.kill()
        self.process.stderr.close()


class Standby(Program):
    """Makes a copy of a name that is new, and one of the users' journal beside it, by a program of its own."""

    def __init__(self, machine, copy):
        super().__init__(machine, machine.peer, "standby", copy, f"{machine.address}:{machine.peer}")
        self.users = Program(machine, machine.peer + 1, "standby", f"{copy}.users", f"{machine.address}:{machine.peer + 1}")
        self.copy = copy
        # The server that joined it, and by which of its calls.
        self.primary = self.call = None

    def is_begun(self):
        """Whether something of a server's journal has come, or all of it."""
        try:
            return os.path.getsize(self.machine.path(f"{self.copy}.joining")) > 0
        except FileNotFoundError:
            return True

    def is_joined(self):
        return self.told("standby joined") and self.users.told("standby joined")

    def listens(self):
        return super().listens() and self.users.listens()

    def stop(self):
        super().stop()
        self.users.stop()

    def go_on(self):
        self.users.go_on()
        super().go_on()

    def kill(self):
        super().kill()
        self.users.kill()

    def close(self):
        super().close()
        self.users.close()

    def synced(self):
        """The moment that its last line names, in seconds since 1970; None where it names none."""
        found = re.search(rf"was synced last at ({MOMENT})$", self.said(), re.MULTILINE)
        return found and second_of(found[1])


class Server(Program):
    """Serves from a journal, with the other machine's standby where one is named."""

    def __init__(self, machine, journal, at=None):
        peer = [f"{at.address}:{at.peer}"] if at else []
        super().__init__(machine, machine.port, "serve", "shelf.toml", journal, f"127.0.0.1:{machine.port}", "lines", "1", *peer)
        self.journal = journal

    def standby_lines(self):
        """What it said of standbys of its journal, and not of the users': the number of its call, the moment and the text of each line."""
        found = re.findall(rf"^dxc: ({MOMENT}): (standby (?:at .*: called|joined|lost).*)$", self.said(), re.MULTILINE)
        call = 0
        for moment, text in found:
            if "users" in text:
                continue
            call += "called" in text
            yield call, second_of(moment), text

    def joined_by(self):
        """How often it had called a standby, and whether it is joined now, by its own lines."""
        lines = list(self.standby_lines())
        return (lines[-1][0], lines[-1][2] == "standby joined") if lines else (0, False)

    def lost(self, call):
        """The moment and the text in which it says that it lost the standby of that call; None where it doesn't."""
        return next(((moment, text) for number, moment, text in self.standby_lines() if number == call and text.startswith("standby lost")), None)


def second_of(moment):
    """A line's moment, in seconds since 1970."""
    return calendar.timegm(time.strptime(moment, "%Y-%m-%d %H:%M:%S UTC"))
