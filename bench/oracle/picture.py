"""Compares what tools/picture reads out of a journal with what `dxc check` says of it, over journals of random commands.

usage: bench/run oracle picture [ROUNDS [SEED]]     (20 rounds, seed 1, where nothing is given)

Middles go out of service and come back meanwhile. The picture's own rule of chains must find each new leg's middle free, and give the
connections that the program lists.
"""
import os
import random
import subprocess
import tempfile

from bench import TOP
from bench.shared.office import LOG_IN, write_shelf
from bench.shared.program import PROGRAM, counted, expect

PICTURE = os.path.join(TOP, "tools", "picture")


def ran(words, **more):
    return subprocess.run(words, capture_output=True, text=True, check=True, **more).stdout


def commands(modules, slots, count):
    yield LOG_IN
    entered = []
    for _ in range(count):
        if random.random() < 0.05:
            yield f"{random.choice(('RMV', 'RST'))}-MID::MID-{random.randint(1, slots)}:1;"
        if entered and random.random() < 0.4:
            yield f"DLT-CRS-T0::{entered.pop(random.randrange(len(entered)))}:1;"
            continue
        pair = ",".join(f"DS0-{random.randint(1, modules)}-{random.randint(1, slots)}" for _ in range(2))
        entered.append(pair)
        yield f"ENT-CRS-T0::{pair}:1::{payload()};"
        if random.random() < 0.2:
            yield f"ED-CRS-T0::{pair}:1::{payload()};"


def payload():
    """A CCT, and in half of the cases a label of printed text."""
    label = "".join(chr(random.choice([n for n in range(0x20, 0x7F) if n != 0x22])) for _ in range(random.randint(0, 24)))
    return random.choice(("1WAY", "2WAY")) + random.choice(("", f',"{label}"'))


def main():
    rounds, seed = counted(20)
    random.seed(seed)
    records = 0
    for number in range(rounds):
        modules, slots = random.choice(((2, 1), (3, 2), (4, 4), (8, 6), (64, 96)))
        with tempfile.TemporaryDirectory() as folder:
            shelf, journal = write_shelf(folder, modules, slots), os.path.join(folder, "j")
            ran([PROGRAM, "script", shelf, journal], input="".join(commands(modules, slots, 300)))
            wanted = ran([PROGRAM, "check", shelf, journal])
            found = ran([PICTURE, "--rows", journal])
            expect(found == wanted, f"round {number}, {modules} by {slots}: the picture has\n{found}and check says\n{wanted}")
            drawn = ran([PICTURE, journal]).count("<path")
            expect(drawn >= len(wanted.splitlines()) - 1, f"round {number}: a connection isn't drawn")
            records += int(wanted.rsplit(" ", 1)[1])
    print(f"{rounds} journals, {records} records: the picture reads what check says")


if __name__ == "__main__":
    main()
