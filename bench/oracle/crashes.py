"""Audits each file that a crash may leave of two runs.

usage: bench/run oracle crashes [EVERY [SEED]]     (each file where nothing is given, else one of so many, drawn by the seed)

One run makes five commands, the other goes on with a journal of version 1. The writes and syncs on a run's journal are those of the plain journal
(bench/oracle/journal.py), which the file is compared with. A crash leaves what was synced; of the writes after that nothing, all, or each one's range
filled with one byte; and of the write in hand any front of it besides. `dxc check` must tell the commands that were acknowledged before that moment, or
one more; and a further command on that file must go on from there.
"""
import os
import random
import tempfile

from bench import Wrong
from bench.oracle import journal
from bench.oracle.journal import File
from bench.shared.office import LOG_IN, write_shelf
from bench.shared.program import counted, expect, run_program

MODULES, SLOTS = 3, 2
# The last one moves three circuits.
ENTRIES = [("DS0-2-1", "DS0-2-2"), ("DS0-1-1", "DS0-2-1"), ("DS0-3-1", "DS0-1-2"), ("DS0-3-2", "DS0-3-1"), ("DS0-1-2", "DS0-1-1")]
FREE = ("DS0-2-2", "DS0-3-2")


def rows(entries):
    return [f"{a},{b}:1WAY" for a, b in sorted(entries)]


def units(entries):
    return [LOG_IN.rstrip(";")] + [f"ENT-CRS-T0::{a},{b}:1" for a, b in entries]


def sent(entries):
    return "".join(f"{unit};" for unit in units(entries))


def old_journal():
    """A journal of version 1 with the first four entries."""
    element = journal.element_of(MODULES, SLOTS)
    session, records = journal.plain.Session(element), []
    for unit in units(ENTRIES[:4]):
        session.answer(unit.encode())
        if session.change:
            records.append(journal.record(element, session.change.op, session.change.what, session.choices, 1))
            element.make(session.change)
    return journal.header(1, 0, journal.element_of(MODULES, SLOTS)) + b"".join(records) + b"\0"


def images(old, calls, number):
    """What a crash in front of the call of this number leaves, and what one leaves in it where it is a write."""
    for left in ("lost", "whole", "front", "sealed"):
        yield journal.crashed(old, calls, number, left)
    call = calls[number]
    if call.data is not None:
        for length in range(1, len(call.data) + 1, max(1, len(call.data) // 100)):
            image = bytearray(journal.crashed(old, calls, number, "whole"))
            journal.put(image, call.at, call.data[:length])
            yield bytes(image)


def audit(shelf, name, image, done):
    """How many entries the image stands for."""
    with open(name, "wb") as file:
        file.write(image)
    told = run_program(["check", shelf, name]).stdout.splitlines()[:-1]
    for count in (done, done + 1):
        if told == rows(ENTRIES[:count]):
            went_on = run_program(["script", shelf, name], sent([FREE])).stdout
            if went_on.count("COMPLD") == 2 and run_program(["check", shelf, name]).stdout.splitlines()[:-1] == rows(ENTRIES[:count] + [FREE]):
                return count
    raise Wrong(f"after {done} acknowledged commands check wrote {told} of a file of {len(image)} bytes")


def calls_of(old, entries):
    file = File(old)
    journal.script(file, MODULES, SLOTS, units(entries))
    return file


def tried(shelf, name, old, first, is_drawn):
    """Tries a run that makes the entries after the first few; how many files were audited, and in how many the one in hand stood."""
    with open(name, "wb") as file:
        file.write(old)
    run_program(["script", shelf, name], sent(ENTRIES[first:]))
    made = calls_of(old, ENTRIES[first:])
    with open(name, "rb") as file:
        expect(file.read() == made.content, "the journal isn't what the plain one makes of it")
    ends = [len(calls_of(old, ENTRIES[first:last]).calls) for last in range(first, len(ENTRIES) + 1)]
    count = more = 0
    for number in range(len(made.calls)):
        if number % 50 and 10 < number < len(made.calls) - 20:
            continue
        done = first + sum(end <= number for end in ends[1:])
        for image in filter(is_drawn, images(old, made.calls, number)):
            more += audit(shelf, name, image, done) - done
            count += 1
    return count, more


def main():
    every, seed = counted(1)
    rng = random.Random(seed)
    with tempfile.TemporaryDirectory() as folder:
        shelf, name = write_shelf(folder, MODULES, SLOTS), os.path.join(folder, "office.journal")
        for what, old, first in (("a new journal", b"", 0), ("one of version 1", old_journal(), 4)):
            count, more = tried(shelf, name, old, first, lambda _: rng.randrange(every) == 0)
            print(f"{what}: {count} files of a crash: each stands for the acknowledged commands, {more} of them for the one in hand besides")


if __name__ == "__main__":
    main()
