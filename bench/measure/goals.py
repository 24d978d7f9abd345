"""What sixteen callers at once were to reach: each goal with what is measured of it, over several runs, and whether it is reached.

usage: bench/run measure goals [--runs COUNT] [--units COUNT] [--disk FOLDER] [--older PROGRAM]

A run measures, one after the other: retrievals, denials and changes of 1, 4 and 16 callers, one and fifty at a time, with the journal in memory;
changes of 1, 4 and 16 callers with the journal on a disk, each between two runs of a plain C loop (bench/c/appends.c) of the same writes and syncs in
the same folder, and the same with syncs that take a millisecond longer; retrievals beside a change whose syncs take ten seconds each, and beside one
that waits for a standby that is stopped. Where perf is there, it counts calls of futex in a second pass, which slows nothing down. All figures are
printed as the range over the runs (3 where nothing is said); a goal that compares two of a run has the range of their ratio, and is reached where each
run reaches it.

UNITS: of all callers together (160000); changes are a tenth of them, and a twentieth on a disk. FOLDER: where the journal on a disk lies, the place
of temporary files where nothing is said. PROGRAM: an older one, as of `git show COMMIT:dist/dxc.gz`: one caller's figures of it and of ours are measured
five times each, in turn, and the best are compared.
What the conventional program did isn't measured here: bench/measure/conventional.json has its changes of sixteen callers, one at a time, as a
share of what one caller of ours got of retrievals by fifty in the same hour. Wants a quiet machine of four processors, and takes about three minutes a run.
"""
import argparse
import collections
import json
import os
import signal
import subprocess
import tempfile
import time

from bench.measure import speed
from bench.measure.callers import CALLERS, MEMORY, futexes, served, words_of
from bench.shared.compiled import executable, library
from bench.shared.office import write_shelf
from bench.shared.program import PROGRAM, expect
from bench.shared.server import Caller
from bench.stress.lost_standby import begun

KINDS = (("retrievals", 1), ("denials", 1), ("changes", 10))
BATCHES = (1, 50)
# Seconds that a sync takes that is slow, and in which retrievals are asked beside it; a standby that is stopped is given up after five.
SLOW, BESIDE_SYNC, BESIDE_STANDBY = 10, 15, 4
# How often one caller's figures are measured of each program, and how much longer the syncs of a slower disk take, in milliseconds.
TURNS, LONGER = 5, 1
# Seconds between two retrievals.
PAUSE = 0.01
ENTRY, RETRIEVAL = b"ENT-CRS-T0::DS0-1-1,DS0-2-1:2;", b"RTRV-CRS-T0::DS0-1-1:3;"
DISKS = (("disk", "a disk"), ("slower disk", f"one whose syncs take {LONGER} ms longer"))
LONGEST_MS, FUTEXES, OF_SYNCS, OF_CONVENTIONAL = 50, 0.1, 0.8, 0.8


class Figures:
    """What each run found of each figure, in the order in which they were measured."""

    def __init__(self):
        self.found = collections.defaultdict(list)

    def add(self, name, value):
        if value is not None:
            self.found[name].append(value)

    def ratio(self, name, other, by=1.0):
        return [a / (by * b) for a, b in zip(self.found[name], self.found[other])]


def span(values, form=",.0f"):
    least, most = (format(value, form) for value in (min(values), max(values)))
    return least if least == most else f"{least} to {most}"


class Bench:
    def __init__(self, room, chosen):
        self.room, self.units, self.disk, self.older, self.figures = room, chosen.units, chosen.disk, chosen.older, Figures()
        self.callers, self.appends = executable("callers", room, "-pthread"), executable("appends", room)
        self.slow = library("syncs", room)

    def rate(self, server, kind, count, units, batch):
        """Answers a second, and calls of futex an answer."""
        words, each = words_of(self.callers, server, kind, count, units, batch)
        told = subprocess.run(words, stdout=subprocess.PIPE, text=True, check=True).stdout
        return float(told.split()[0]), futexes(server, words, count * each, self.room)

    def in_memory(self):
        for kind, part in KINDS:
            for batch in BATCHES:
                for count in CALLERS:
                    with served(MEMORY) as server:
                        rate, calls = self.rate(server, kind, count, self.units // part, batch)
                    self.figures.add((kind, batch, count), rate)
                    self.figures.add(("futex", kind, batch, count), calls)
                if self.older:
                    self.beside_older(kind, batch, self.units // part)

    def beside_older(self, kind, batch, units):
        """The best of what one caller gets of this program and of the older one, in turn."""
        best = {PROGRAM: 0.0, self.older: 0.0}
        for _ in range(TURNS):
            for program in best:
                with served(MEMORY, program=program) as server:
                    words, _ = words_of(self.callers, server, kind, 1, units, batch)
                    told = subprocess.run(words, stdout=subprocess.PIPE, text=True, check=True).stdout
                best[program] = max(best[program], float(told.split()[0]))
        self.figures.add(("best", kind, batch), best[PROGRAM])
        self.figures.add(("older", kind, batch), best[self.older])

    def allowed(self, changes, **more):
        """Changes a second of the plain loop."""
        with tempfile.TemporaryDirectory(dir=self.disk) as folder:
            words = [self.appends, os.path.join(folder, "file"), str(changes)]
            return float(subprocess.run(words, stdout=subprocess.PIPE, check=True, **more).stdout)

    def changes_on(self, disk, changes, **more):
        for count in CALLERS:
            before = self.allowed(changes, **more)
            with served(self.disk, **more) as server:
                rate, _ = self.rate(server, "changes", count, changes, 1)
            self.figures.add((disk, count), rate)
            self.figures.add((disk, "allows", count), (before + self.allowed(changes, **more)) / 2)

    def on_disk(self):
        self.changes_on("disk", self.units // 20)

    def on_slower_disk(self):
        self.changes_on("slower disk", self.units // 200, env=dict(os.environ, LD_PRELOAD=self.slow, MILLISECONDS=str(LONGER)))

    def longest(self, reader, seconds):
        """The longest of the retrievals of some seconds, in milliseconds."""
        most, end = 0.0, time.monotonic() + seconds
        while time.monotonic() < end:
            sent = time.monotonic()
            reader.ask(RETRIEVAL)
            most = max(most, time.monotonic() - sent)
            time.sleep(PAUSE)
        return 1000 * most

    def beside_sync(self):
        slow = os.path.join(self.room, "slow")
        with served(self.disk, env=dict(os.environ, LD_PRELOAD=self.slow, SLOW=slow, SECONDS=str(SLOW))) as server:
            changer, reader = Caller(server.port).log_in(), Caller(server.port).log_in()
            with open(slow, "wb"):
                pass
            changer.send(ENTRY)
            time.sleep(0.2)
            self.figures.add("beside a sync", self.longest(reader, BESIDE_SYNC))
            changer.link.setblocking(False)
            expect(not answered(changer), "the disk wasn't slow")
            os.remove(slow)

    def beside_standby(self):
        with tempfile.TemporaryDirectory() as folder:
            write_shelf(folder, 8, 24)
            with open(os.path.join(folder, "lines.in"), "wb"):
                pass
            standby, server, callers = begun(folder)
            (changer, changed), (reader, read) = callers
            os.kill(standby.pid, signal.SIGSTOP)
            changer.sendall(ENTRY)
            time.sleep(0.2)
            most, end = 0.0, time.monotonic() + BESIDE_STANDBY
            while time.monotonic() < end:
                sent, count = time.monotonic(), read.responses()
                reader.sendall(RETRIEVAL)
                while read.responses() == count:
                    time.sleep(0.0002)
                most = max(most, time.monotonic() - sent)
                time.sleep(PAUSE)
            expect(changed.responses() == 0, "the change didn't wait for its standby")
            self.figures.add("beside a standby", 1000 * most)
            for process in (server, standby):
                process.kill()
                process.wait()
            for caller, heard in callers:
                heard.join()
                caller.close()

    def run(self):
        for step in (self.in_memory, self.on_disk, self.on_slower_disk, self.beside_sync, self.beside_standby):
            step()


def answered(caller):
    """Whether something was sent to a caller that doesn't wait for it."""
    try:
        return bool(caller.link.recv(1))
    except BlockingIOError:
        return False


def tables(figures):
    print("\n| answers a second, the journal in memory | " + " | ".join(f"{count} caller{'s' * (count > 1)}" for count in CALLERS) + " |\n|---|---|---|---|")
    for kind, _ in KINDS:
        for batch in BATCHES:
            cells = []
            for count in CALLERS:
                calls = figures.found[("futex", kind, batch, count)]
                cells.append(span(figures.found[(kind, batch, count)]) + (f"; {span(calls, '.3f')} futex calls an answer" if calls else ""))
            print(f"| {kind}, {batch} at a time | {' | '.join(cells)} |")
    for disk, what in DISKS:
        cells = [f"{span(figures.found[(disk, count)])}; the plain loop {span(figures.found[(disk, 'allows', count)])}" for count in CALLERS]
        print(f"| changes, one at a time, the journal on {what} | {' | '.join(cells)} |")


def goals(figures, conventional):
    """Each goal, how its values are written, what they are, and whether one of them reaches it."""
    alone, of_conventional = ("retrievals", 50, 1), conventional["callers"]["changes of sixteen to one's retrievals"]
    at_least = lambda least: lambda value: value >= least
    yield "retrievals of sixteen by fifty, to those of one by fifty: 1", ".2f", figures.ratio(("retrievals", 50, 16), alone), at_least(1)
    ratio = figures.ratio(("changes", 1, 16), alone, of_conventional)
    yield f"changes of sixteen, one at a time, to the conventional program's: {OF_CONVENTIONAL}", ".2f", ratio, at_least(OF_CONVENTIONAL)
    for disk, what in DISKS:
        for count in CALLERS:
            ratio = figures.ratio((disk, count), (disk, "allows", count))
            yield f"changes of {count} on {what}, to what its syncs allow: {OF_SYNCS}", ".2f", ratio, at_least(OF_SYNCS)
    for kind, _ in KINDS:
        for batch in BATCHES:
            ratio = figures.ratio(("best", kind, batch), ("older", kind, batch))
            yield f"one caller's {kind}, {batch} at a time, to the older program's: 1", ".2f", ratio, at_least(1)
    for kind, _ in KINDS:
        calls = figures.found[("futex", kind, 50, 16)]
        yield f"futex calls an answer of sixteen callers' {kind} by fifty: at most {FUTEXES}", ".3f", calls, lambda value: value <= FUTEXES
    for name in ("beside a sync", "beside a standby"):
        what = f"a sync of {SLOW} seconds" if name == "beside a sync" else "a standby that is stopped"
        yield f"the longest retrieval beside {what}, in milliseconds: below {LONGEST_MS}", ".1f", figures.found[name], lambda value: value < LONGEST_MS


def main():
    parser = argparse.ArgumentParser(usage=__doc__.split("usage: ")[1].split("\n\n")[0])
    parser.add_argument("--runs", type=int, default=3)
    parser.add_argument("--units", type=int, default=160_000)
    parser.add_argument("--disk", default=tempfile.gettempdir())
    parser.add_argument("--older", type=os.path.abspath)
    chosen = parser.parse_args()
    with open(speed.CONVENTIONAL, encoding="utf-8") as file:
        conventional = json.load(file)
    print(f"{PROGRAM}, {os.cpu_count()} processors, load {os.getloadavg()[0]:.1f}", flush=True)
    with tempfile.TemporaryDirectory() as room:
        bench = Bench(room, chosen)
        for number in range(chosen.runs):
            began = time.monotonic()
            bench.run()
            print(f"run {number + 1}: {time.monotonic() - began:.0f} s, load {os.getloadavg()[0]:.1f}", flush=True)
    tables(bench.figures)
    print("\n| goal | measured | reached |\n|---|---|---|")
    for goal, form, values, reaches in goals(bench.figures, conventional):
        if values:
            count = sum(map(reaches, values))
            print(f"| {goal} | {span(values, form)} | {'yes' if count == len(values) else 'no' if count == 0 else f'in {count} of {len(values)} runs'} |")


if __name__ == "__main__":
    main()
