"""Frames at a line's own pace, from a pipe, beside a copier, while sixteen callers change circuits: how late each comes, what held it up, and that no circuit loses a byte.

usage: bench/run measure paced [SECONDS [MODULES SLOTS]]     (10 seconds of 64 modules of 96 slots, where nothing is given)

Half of the ports have circuits that stand throughout; sixteen callers enter and delete others between the rest, as fast as they are
answered. Every 125 microseconds (8,000 times a second) bench/c/paced.c, which needs a C compiler, gives one worker a frame, and half a period
later one to a copier on the same processor: a plain C loop that reads and writes, and shows what the machine itself does in that moment.

Where there are three processors or more, worker and copier have one and the pacer another, all under SCHED_FIFO where the system grants that,
and callers with their sessions have the rest. The copier goes before the worker, so that a worker that takes long doesn't make it late.

A frame that comes later than its period has one of four causes (bench/measure/lateness.py), by what the pacer saw of itself and of the copier,
and by the system's account of the worker's thread: how long it had a processor, without the time that the machine took from it.

Where no shape is given, one worker then carries frames of full tables from a file, as fast as it can: how many ports one processor serves at
the line's pace.
"""
import contextlib
import os
import subprocess
import sys
import tempfile
import threading
import time

from bench.measure.lateness import Lateness, table, told
from bench.measure.streams import deletion, entry, full
from bench.shared.compiled import executable
from bench.shared.office import write_shelf
from bench.shared.program import expect
from bench.shared.server import PLACES, Caller, Server, enter

MICROSECONDS = 125
PATIENCE = 60
# The shapes of full tables, and so many bytes of frames for each.
SHAPES, CARRIED = ((8, 24), (32, 32), (64, 96)), 200_000_000
# So many processors and more are parted: one for who carries frames, one for the pacer, the rest for all others.
PARTED = 3
# Ranks under SCHED_FIFO: the copier goes before the worker.
WORKER, COPIER = 1, 2
READ = "0"
# Of a row of /proc/stat: the time that the machine gave to others, in hundredths of a second.
STOLEN = 8


def interruptions():
    """How many times devices have interrupted each processor."""
    with open("/proc/interrupts", encoding="ascii") as file:
        heading, *rows = (line.split() for line in file)
    counts = dict.fromkeys((int(name[3:]) for name in heading), 0)
    for row in rows:
        if row[0].rstrip(":").isdigit():
            for processor, count in zip(counts, row[1:]):
                counts[processor] += int(count)
    return counts


def stolen():
    """How many hundredths of a second the machine has taken from each processor."""
    with open("/proc/stat", encoding="ascii") as file:
        rows = [line.split() for line in file if line.startswith("cpu")]
    return {int(row[0][3:]): int(row[STOLEN]) for row in rows[1:]}


class Places:
    """Which processors are whose; all are everybody's where there are too few. Devices interrupt the carrier's least, then the pacer's."""

    def __init__(self):
        counts = interruptions()
        free = sorted(os.sched_getaffinity(0), key=lambda processor: counts.get(processor, 0))
        self.are_parted = len(free) >= PARTED
        self.carrier, self.pacer, self.others = ({free[0]}, {free[1]}, set(free[2:])) if self.are_parted else (set(free),) * 3
        self.before = stolen()

    def told(self, goes_first):
        if not self.are_parted:
            return "too few processors to part: all share them"
        under = ", all under SCHED_FIFO" if goes_first else ""
        return f"worker and copier on processor {min(self.carrier)}, the pacer on {min(self.pacer)}{under}; all others on {len(self.others)}"

    def stolen(self):
        now = stolen()
        taken = [10 * sum(now[processor] - self.before[processor] for processor in of) for of in (self.carrier, self.pacer, self.others)]
        return "the machine took {} milliseconds from the carrier's processor, {} from the pacer's, {} from the others".format(*taken)

    def go_first(self, thread, processors, rank=WORKER):
        """Gives the thread these processors, and where they are its own lets it go before all that isn't the system's; false where it may not."""
        os.sched_setaffinity(thread, processors)
        try:
            if self.are_parted:
                os.sched_setscheduler(thread, os.SCHED_FIFO, os.sched_param(rank))
        except PermissionError:
            return False
        return self.are_parted


@contextlib.contextmanager
def paced(modules, slots, before, places):
    """A server whose lines read a pipe with a name. The pipe has a writer before the server starts."""
    with tempfile.TemporaryDirectory(dir="/dev/shm") as folder:
        write_shelf(folder, modules, slots)
        enter(folder, before.encode())
        lines = os.path.join(folder, "lines.in")
        os.mkfifo(lines)
        pipe = os.open(lines, os.O_RDWR)
        try:
            with Server(folder, preexec_fn=lambda: os.sched_setaffinity(0, places.others)) as server:
                yield server
        finally:
            os.close(pipe)


def worker_of(server):
    """The thread that waits for frames: the one that is within a read of the lines."""
    process = f"/proc/{server.process.pid}"
    end = time.monotonic() + PATIENCE
    while time.monotonic() < end:
        for thread in os.listdir(f"{process}/task"):
            with open(f"{process}/task/{thread}/syscall", encoding="ascii") as file:
                call = file.read().split()
            if call[0] == READ and os.readlink(f"{process}/fd/{int(call[1], 16)}") == server.path("lines.in"):
                return int(thread)
        time.sleep(0.01)
    return expect(False, "no thread waits for frames")


def change(server, number, free, slots, stop, counts):
    """Enters and deletes circuits between the ports that are this caller's own."""
    caller = Caller(server.port).log_in()
    mine = free[number::PLACES]
    while not stop.is_set():
        for a, b in zip(mine, reversed(mine)):
            for unit in (entry(a, b, slots, 1), deletion(a, b, slots, 1)):
                expect(b"COMPLD" in caller.ask(unit.encode()), f"{unit} was denied")
                counts[number] += 1
            if stop.is_set():
                return


def served(modules, slots):
    """Tells how many frames of a full table one worker carries in a second, and how many ports that is at the line's pace."""
    ports = modules * slots
    count = CARRIED // ports
    with tempfile.TemporaryDirectory(dir="/dev/shm") as folder:
        write_shelf(folder, modules, slots)
        enter(folder, full(modules, slots).encode())
        with open(os.path.join(folder, "lines.in"), "wb") as file:
            file.write(bytes(port % 127 for port in range(ports)) * count)
        with Server(folder) as server:
            while os.path.getsize(os.path.join(folder, "lines.0.out")) < ports * count:
                time.sleep(0.01)
            rate = count / (time.monotonic() - server.started)
    print(f"{modules} by {slots}: {rate:.0f} frames a second of one worker; {rate * ports * MICROSECONDS / 1e6:.0f} ports at the line's pace", flush=True)


class Pacer:
    """Feeds frames of so many ports for so long to a server and to a copier, and notes what comes of them."""

    def __init__(self, room, places, ports, seconds):
        self.program, self.room, self.places, self.ports = executable("paced", room, "-O3"), room, places, ports
        self.frames, self.patience = seconds * 1_000_000 // MICROSECONDS, seconds + PATIENCE

    def path(self, name):
        return os.path.join(self.room, name)

    def run(self, lines, output, sides, thread):
        """Its status; what it noted of frames stands in the room. The circuits have these sides, and the thread is the worker's folder in /proc."""
        with open(self.path("sides"), "w", encoding="ascii") as file:
            file.writelines(f"{a} {b}\n" for a, b in sides)
        os.mkfifo(self.path("pipe"))
        copier = subprocess.Popen([self.program, "--copy", self.path("pipe"), self.path("out"), str(self.ports), str(self.frames)])
        try:
            self.places.go_first(copier.pid, self.places.carrier, COPIER)
            words = [self.program, *map(str, (self.ports, self.frames, MICROSECONDS)), self.path("sides"), self.path("notes"), thread]
            words += [lines, output, self.path("pipe"), self.path("out")]
            own = lambda: self.places.go_first(0, self.places.pacer)
            return subprocess.run(words, check=False, timeout=self.patience, preexec_fn=own).returncode
        finally:
            copier.kill()
            copier.wait()


def carried(pacer, server, worker, standing, free, slots):
    """The pacer's status while callers changed circuits, and how many changes they made."""
    stop, counts = threading.Event(), [0] * PLACES
    callers = [threading.Thread(target=change, args=(server, n, free, slots, stop, counts), daemon=True) for n in range(PLACES)]
    for caller in callers:
        caller.start()
    ran = pacer.run(server.path("lines.in"), server.path("lines.0.out"), standing, f"/proc/{server.process.pid}/task/{worker}")
    stop.set()
    for caller in callers:
        caller.join()
    return ran, sum(counts)


def main(words):
    seconds, modules, slots = (int(word) for word in (words + ["10", "64", "96"][len(words) :]))
    ports, places = modules * slots, Places()
    standing = [(p, (p * 5 + 3) % (ports // 2)) for p in range(ports // 2)]
    standing = list({b: (a, b) for a, b in standing}.values())
    free = list(range(ports // 2, ports))
    os.sched_setaffinity(0, places.others)
    with tempfile.TemporaryDirectory(dir="/dev/shm") as room:
        pacer = Pacer(room, places, ports, seconds)
        with paced(modules, slots, "".join(entry(a, b, slots, 1) for a, b in standing), places) as server:
            worker = worker_of(server)
            print(places.told(places.go_first(worker, places.carrier)), flush=True)
            status, changes = carried(pacer, server, worker, standing, free, slots)
        print(f"{changes} changes by {PLACES} callers meanwhile, {changes / seconds:.0f} a second", flush=True)
        if status == 0:
            run = Lateness(pacer.path("notes"), MICROSECONDS * 1000)
            print("\n".join((*table(run), places.stolen(), *told(run))), flush=True)
    for shape in SHAPES if len(words) < 2 else ():
        served(*shape)
    return status


if __name__ == "__main__":
    sys.exit(main(sys.argv[1:]))
