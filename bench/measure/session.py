"""Times the program over streams of commands on standard input, beside a plain pass over the same bytes.

usage: bench/run measure session [UNITS]     (100000 where nothing is given)

The streams, at 32 modules of 32 slots: denials alone, and retrievals of 1,000 connections, one for every 1,000 units, neither of which
calls the journal's disk; entries and deletions in turn on an empty table and beside 1,000 connections, at most 60,000 with the journal in
memory, and 2,000 on an empty table with it on the disk of the folder for temporary files; a start on the longest journal. Where valgrind is
there, the instructions of a unit of a mixed stream: of 100 units 40 entries, 22 deletions, 12 retrievals of a port, 13 headers, 13 that are no command.
"""
import os
import random
import subprocess
import sys
import tempfile
import time

from bench.shared import valgrind
from bench.shared.office import LOG_IN, begin_anew, shelf_text
from bench.shared.program import PROGRAM

MEMORY = "/dev/shm"
MOST_CHANGES = 60_000
CHANGES_ON_DISK = 2_000
SHELF = shelf_text(32, 32, "BENCH")


def port(index):
    return f"DS0-{index // 32 + 1}-{index % 32 + 1}"


def entered(count):
    """Entries of the first ports, each to the port of its slot on the next module."""
    return "".join(f"ENT-CRS-T0::{port(i)},{port((i + 32) % 1024)}:1;" for i in range(count))


def changes(units):
    """Entries and deletions in turn of one connection between the last port and the last that a thousand leave free."""
    ends = f"{port(1023)},{port(31)}"
    return f"ENT-CRS-T0::{ends}:1;DLT-CRS-T0::{ends}:1;" * (min(units, MOST_CHANGES) // 2)


def mixed(units):
    """Of 100 units 40 entries between random ports, 22 deletions, 12 retrievals of a port, 13 headers, 13 no command."""
    rng = random.Random(1)
    kinds = ["entry"] * 40 + ["deletion"] * 22 + ["retrieval"] * 12 + ["header"] * 13 + ["none"] * 13
    table, senders, text = {}, set(), []
    for _ in range(units):
        kind = rng.choice(kinds)
        if kind == "entry":
            a, b = rng.randrange(1024), rng.randrange(1024)
            if a != b and a not in senders and b not in table:
                table[b] = a
                senders.add(a)
            text.append(f"ENT-CRS-T0::{port(a)},{port(b)}:1;")
        elif kind == "deletion" and table:
            b = rng.choice(list(table))
            a = table.pop(b)
            senders.discard(a)
            text.append(f"DLT-CRS-T0::{port(a)},{port(b)}:1;")
        elif kind == "retrieval":
            text.append(f"RTRV-CRS-T0::{port(rng.randrange(1024))}:1;")
        elif kind == "header":
            text.append("RTRV-HDR:::1;")
        else:
            text.append("RTRV--HDR:::1;")
    return "".join(text)


def streams(units):
    """Name, commands, and whether the journal is on a disk."""
    yield "denials", LOG_IN + "ENT-CRS-T0::DS0-33-1,DS0-2-1:1;" * units, False
    yield "retrievals of 1,000 connections", LOG_IN + entered(1000) + "RTRV-CRS-T0:::1;" * (units // 1000), False
    yield "changes on an empty table", LOG_IN + changes(CHANGES_ON_DISK), True
    yield "changes on an empty table", LOG_IN + changes(units), False
    yield "changes beside 1,000 connections", LOG_IN + entered(1000) + changes(units), False


def measured(command, stream, journal=None):
    """Seconds and the largest resident memory in KiB of a command that reads the stream, on a new journal."""
    if journal:
        begin_anew(journal)
    memory = 0
    with open(stream, "rb") as given, open(os.devnull, "wb") as taken:
        start = time.perf_counter()
        child = subprocess.Popen(command, stdin=given, stdout=taken)
        while child.poll() is None:
            with open(f"/proc/{child.pid}/status") as status:
                peaks = [line.split()[1] for line in status if line.startswith("VmHWM")]
            memory = int(peaks[0]) if peaks else memory
            time.sleep(0.002)
        took = time.perf_counter() - start
    if child.returncode != 0:
        sys.exit(f"{command[0]} ended with status {child.returncode}")
    return took, memory


def instructions(shelf, journal, text):
    """Instructions of the program over a stream."""
    begin_anew(journal)
    return valgrind.instructions([PROGRAM, "script", shelf, journal], text.encode())[0]


def main():
    units = int(sys.argv[1]) if len(sys.argv) > 1 else 100_000
    with tempfile.TemporaryDirectory() as folder, tempfile.TemporaryDirectory(dir=MEMORY) as fast:
        shelf, stream = os.path.join(folder, "shelf.toml"), os.path.join(folder, "stream.tl1")
        with open(shelf, "w") as file:
            file.write(SHELF)
        for name, commands, is_on_disk in streams(units):
            with open(stream, "w") as file:
                file.write(commands)
            journal = os.path.join(folder if is_on_disk else fast, "office.journal")
            plain, _ = min(measured(["tr", ";", "\\n"], stream) for _ in range(3))
            served, memory = min(measured([PROGRAM, "script", shelf, journal], stream, journal) for _ in range(3))
            count = commands.count(";")
            place = "on a disk" if is_on_disk else "in memory"
            print(f"{name}, journal {place}: {count} units, {served / plain:.1f} times as long as tr, {count / served:,.0f} units a second, {memory} KiB")
        # The last journal has a record for each change.
        records = commands.count("CRS-T0")
        opened, _ = min(measured([PROGRAM, "check", shelf, journal], stream) for _ in range(5))
        print(f"a start on {records} records: {1e6 * opened / records:.2f} microseconds a record, with reading")
        if valgrind.is_here():
            journal = os.path.join(fast, "office.journal")
            few, many = (instructions(shelf, journal, LOG_IN + mixed(count)) for count in (2_000, 12_000))
            print(f"mixed: {(many - few) / 10_000:,.0f} instructions a unit")


if __name__ == "__main__":
    main()
