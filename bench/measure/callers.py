"""Answers a second of 1, 4 and 16 callers of a running server over the loopback, one unit and fifty at a time; and calls of the system an answer.

usage: bench/run measure callers [UNITS [FOLDER]]

Retrievals, denials and changes with the journal in memory, and changes with it on a disk, too. UNITS: of all callers together, 160000 where nothing is
said; changes are a tenth of them, and a hundredth on a disk. FOLDER: where the journal on a disk lies, the place of temporary files where nothing is
said. The callers are bench/c/callers.c, which needs a C compiler. Calls of futex are counted by perf and all calls of the system by strace, where these
are there: perf slows nothing down, but strace makes each call so slow that who waits for it sleeps more often.
"""
import contextlib
import os
import re
import shutil
import signal
import subprocess
import sys
import tempfile
import time

from bench.shared.compiled import executable
from bench.shared.office import write_shelf
from bench.shared.server import Server

MEMORY = "/dev/shm"
CALLERS = (1, 4, 16)
# A row of strace's table: its fourth number is how many calls there were.
CALLS = re.compile(r"^\s*[\d.]+\s+[\d.]+\s+\d+\s+(\d+)\s.*?(\w+)$", re.MULTILINE)
# A row of perf's.
COUNT = re.compile(r"^(\d+),", re.MULTILINE)


def even(count):
    """The next lower even number, at least 2: changes are entries and deletions in turn."""
    return max(2, count // 2 * 2)


def beside(counter, server, called, room):
    """What a counter of the server's calls writes while the callers call again."""
    table = os.path.join(room, "calls")
    with subprocess.Popen([*counter, "-p", str(server.process.pid), "-o", table], stderr=subprocess.DEVNULL) as counting:
        time.sleep(0.5)
        subprocess.run(called, stdout=subprocess.DEVNULL, check=True)
        counting.send_signal(signal.SIGINT)
    with open(table, encoding="ascii") as file:
        return file.read()


def futexes(server, called, answers, room):
    """The calls of futex an answer as perf counts them; None where it isn't there or may not."""
    if not shutil.which("perf"):
        return None
    found = COUNT.search(beside(["perf", "stat", "-x", ",", "-e", "syscalls:sys_enter_futex"], server, called, room))
    return int(found[1]) / answers if found else None


def counted(server, called, answers, room):
    calls = futexes(server, called, answers, room)
    return "" if calls is None else f"; {calls:.3f} futex calls an answer"


def traced(server, called, answers, room):
    """The calls of futex, and all calls of the system, an answer, as strace counts them; nothing where it isn't there."""
    if not shutil.which("strace"):
        return ""
    counts = {name: int(count) for count, name in CALLS.findall(beside(["strace", "-qq", "-c", "-f"], server, called, room))}
    return f"; slowed by strace {counts.get('futex', 0) / answers:.2f}, and {counts['total'] / answers:.2f} calls of the system an answer"


@contextlib.contextmanager
def served(place, **more):
    """A server whose journal lies in a new folder of this place."""
    with tempfile.TemporaryDirectory(dir=place) as folder:
        write_shelf(folder, 8, 24)
        open(os.path.join(folder, "lines.in"), "wb").close()
        with Server(folder, **more) as server:
            yield server


def words_of(callers, server, kind, count, units, batch):
    """The callers' command line, and how many units each sends; all together these are so many."""
    each = even(units // count)
    return [callers, *map(str, (server.port, count, each, batch, kind))], each


def measure(callers, place, room, kind, count, units, batch):
    """Prints a line of figures of so many callers."""
    with served(place) as server:
        words, each = words_of(callers, server, kind, count, units, batch)
        line = subprocess.run(words, stdout=subprocess.PIPE, text=True, check=True).stdout.strip()
        slowed, few = words_of(callers, server, kind, count, units // 10, batch)
        line += counted(server, words, count * each, room) + traced(server, slowed, count * few, room)
        print(f"{kind}, {count} callers, {batch} at a time: {line}", flush=True)


def main():
    units = int(sys.argv[1]) if len(sys.argv) > 1 else 160_000
    disk = sys.argv[2] if len(sys.argv) > 2 else tempfile.gettempdir()
    with tempfile.TemporaryDirectory() as room:
        callers = executable("callers", room, "-pthread")
        for count in CALLERS:
            for batch in (1, 50):
                for kind, part in (("retrievals", 1), ("denials", 1), ("changes", 10)):
                    measure(callers, MEMORY, room, kind, count, units // part, batch)
        print("the journal on a disk:")
        for count in CALLERS:
            measure(callers, disk, room, "changes", count, units // 100, 1)


if __name__ == "__main__":
    main()
