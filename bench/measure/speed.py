"""Instructions of a unit, by valgrind's callgrind, beside those of a conventional program of the same functions, which proves nothing.

usage: bench/run measure speed [--most RATIO] [FIGURE..]     (all figures where none is named; status 1 above the ratio, or where the output differs)

A stream (bench/measure/streams.py) is run with few and with many units; their difference is the cost of a unit without the start, and repeats to
the digit. Shelf and journal lie in memory. The conventional program isn't here: its figures, of its full functions, were measured once on
these very streams, and stand in bench/measure/conventional.json with the digest of what it wrote, dates and times masked; DIFFERS: ours writes
something else. Figures there without a digest are of its cost alone. The program is the one that `./dxc` built, or that DXC_PROGRAM names.
"""
import argparse
import hashlib
import json
import os
import re
import subprocess
import sys
import tempfile
import time

from bench import TOP
from bench.shared import valgrind
from bench.shared.office import begin_anew, shelf_text
from bench.shared.program import PROGRAM
from bench.measure.streams import LOG_IN, busy, chains, churn, direct, filled, full, headers, mixed, refused, retrievals

CONVENTIONAL = os.path.join(TOP, "bench", "measure", "conventional.json")
MEMORY = "/dev/shm"
STAMP = re.compile(rb"\d\d-\d\d-\d\d \d\d:\d\d:\d\d(?=\r\n)")

# What is measured: name, what a unit is, shape, whether the table is full at first, few and many units, and their stream.
STREAMS = [
    ("header", "a retrieved header", (8, 24), False, 2000, 12000, headers),
    ("malformed", "a unit that is no command", (8, 24), False, 2000, 12000, lambda n: refused(8, 24, n)),
    ("busy", "an entry whose sides are in use", (8, 24), True, 2000, 12000, lambda n: busy(8, 24, n)),
    ("port", "a retrieval of a port", (8, 24), True, 2000, 12000, lambda n: retrievals(8, 24, n, "{port}")),
    ("module", "a retrieval of a module", (8, 24), True, 2000, 12000, lambda n: retrievals(8, 24, n, "MOD-{module}")),
    ("all", "a retrieval of 192 rows", (8, 24), True, 100, 600, lambda n: retrievals(8, 24, n, "ALL")),
    ("mixed", "a unit of a mixed stream", (8, 24), False, 2000, 12000, lambda n: mixed(8, 24, n)),
    ("direct", "an entry with its deletion", (8, 24), False, 200, 1200, direct),
    ("chains8", "the longest chain, with deletion", (8, 2), False, 200, 1200, lambda n: chains(8, n)),
    ("chains16", "the longest chain, with deletion", (16, 2), False, 200, 1200, lambda n: chains(16, n)),
    ("chains32", "the longest chain, with deletion", (32, 2), False, 200, 1200, lambda n: chains(32, n)),
    ("chains64", "the longest chain, with deletion", (64, 2), False, 200, 1200, lambda n: chains(64, n)),
    ("churn8", "four changes of a full switch", (8, 24), True, 200, 1200, lambda n: churn(8, 24, n)),
    ("churn32", "four changes of a full switch", (32, 32), True, 200, 1200, lambda n: churn(32, 32, n)),
]
# Starts on a journal of few and of many units: name, what is counted, shape, the units, their stream, and how many records a unit makes.
STARTS = [
    ("start", "a record at a start", (8, 24), 200, 1200, direct, 2),
    ("start64", "a record at a start, 64 by 96", (64, 96), 200, 1200, direct, 2),
    ("startchn", "a record at a start, chains", (32, 2), 200, 1200, lambda n: chains(32, n), 2),
]
# The shapes of a start on an empty journal, and of the largest resident memory while a table is filled.
EMPTY, FULL = ((8, 24), (64, 96)), ((8, 24), (32, 32), (64, 96))
# The shape and two numbers of rows between which a checkpoint is counted.
CHECKPOINT = ((64, 96), 144, 6_144)


class Room:
    """A folder in memory with a shelf file, and journals that are new for each run."""

    def __init__(self, folder):
        self.shelf, self.journal = os.path.join(folder, "shelf.toml"), os.path.join(folder, "journal")
        self.written = os.path.join(folder, "written")

    def words(self, shape):
        with open(self.shelf, "w") as file:
            file.write(shelf_text(*shape, "BENCH", (("ANNA", "S"), ("BEN", "P"), ("CARA", "R"))))
        begin_anew(self.journal)
        return [PROGRAM, "script", self.shelf, self.journal]


def collected(words, text=""):
    """Instructions of a run, and the digest of what it wrote; None where it doesn't end well."""
    ran = valgrind.instructions(words, text.encode("latin-1"))
    return ran and (ran[0], hashlib.sha256(STAMP.sub(b"T", ran[1])).hexdigest())


def measured(room, shape, filled, text):
    words = room.words(shape)
    if filled:
        subprocess.run(words, input=full(*shape).encode(), stdout=subprocess.DEVNULL, check=True)
    return collected(words, text)


def started(room, shape, text):
    """Instructions of a start on the journal that the stream leaves."""
    words = room.words(shape)
    subprocess.run(words, input=text.encode(), stdout=subprocess.DEVNULL, check=True)
    return collected(words)[0]


def checkpoint(room, shape, rows):
    """Instructions of the change behind a full journal whose table has so many rows: it writes them into the other area first."""
    words = room.words(shape)
    fill, change = filled(*shape, rows)
    subprocess.run(words, input=fill.encode(), stdout=subprocess.DEVNULL, check=True)
    without = collected(words, LOG_IN)[0]
    return collected(words, LOG_IN + change)[0] - without


def resident(room, shape):
    """The largest resident memory in KiB while the table is filled and all of it is retrieved: read while the program still waits."""
    text = full(*shape) + "RTRV-CRS-T0::ALL:1;RTRV-HDR:::LAST;"
    with open(room.written, "wb") as written:
        program = subprocess.Popen(room.words(shape), stdin=subprocess.PIPE, stdout=written)
    program.stdin.write(text.encode())
    program.stdin.flush()
    while b"M  LAST" not in open(room.written, "rb").read()[-200:] and program.poll() is None:
        time.sleep(0.01)
    with open(f"/proc/{program.pid}/status") as status:
        most = int(re.search(r"VmHWM:\s*(\d+)", status.read())[1])
    program.stdin.close()
    program.wait()
    return most


class Sheet:
    """Prints a line a figure beside the conventional program's, and keeps what fails."""

    def __init__(self, most):
        self.most, self.failed = most, False
        with open(CONVENTIONAL, encoding="utf-8") as file:
            self.conventional = json.load(file)

    def line(self, kind, name, what, ours, wrote=None, key=None, unit="instructions"):
        known = self.conventional[kind].get(key or name, {}) if kind else {}
        ratio = ours / known[unit] if unit in known else None
        same = known.get("output") in (None, wrote)
        self.failed = self.failed or not same or (None not in (self.most, ratio) and ratio > self.most)
        print(f"{name:9} {what:33} {ours:12,.0f} {unit:12} {f'{ratio:5.2f}' if ratio else ''}{'' if same else ' DIFFERS'}", flush=True)


def streams(room, sheet, wanted):
    for name, what, shape, filled, few, many, stream in STREAMS:
        if wanted(name):
            (short, _), (long, wrote) = (measured(room, shape, filled, stream(units)) for units in (few, many))
            sheet.line("streams", name, what, (long - short) / (many - few), wrote)


def starts(room, sheet, wanted):
    for name, what, shape, few, many, stream, records in STARTS:
        if wanted(name):
            short, long = (started(room, shape, stream(units)) for units in (few, many))
            sheet.line("starts", name, what, (long - short) / (many - few) / records)
    for shape in EMPTY if wanted("empty") else ():
        sheet.line("empty", "empty", f"an empty journal, {by(shape)}", started(room, shape, ""), key=by(shape))


def others(room, sheet, wanted):
    if wanted("checkpnt"):
        shape, few, many = CHECKPOINT
        least, most = (checkpoint(room, shape, rows) for rows in (few, many))
        sheet.line(None, "checkpnt", f"a row of a checkpoint, {by(shape)}", (most - least) / (many - few))
    if wanted("load"):
        count, _ = collected([PROGRAM, "load", "0"])
        sheet.line("loads", "load", "all of load 0", count)
    for shape in FULL if wanted("memory") else ():
        sheet.line("memory", "memory", f"resident, a full {by(shape)}", resident(room, shape), key=by(shape), unit="KiB")


def by(shape):
    return f"{shape[0]} by {shape[1]}"


def main():
    parser = argparse.ArgumentParser(usage=__doc__.split("usage: ")[1].split("\n\n")[0])
    parser.add_argument("--most", type=float)
    parser.add_argument("figures", nargs="*")
    chosen = parser.parse_args()
    wanted = lambda name: not chosen.figures or name in chosen.figures
    sheet = Sheet(chosen.most)
    with tempfile.TemporaryDirectory(dir=MEMORY if os.path.isdir(MEMORY) else None) as folder:
        room = Room(folder)
        for figures in (streams, starts, others):
            figures(room, sheet, wanted)
    sys.exit(1 if sheet.failed else 0)


if __name__ == "__main__":
    main()
