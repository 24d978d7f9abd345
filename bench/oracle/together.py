"""Sends random units over sixteen TCP sessions at once, beside eight workers that carry frames, and compares each answer and report with a plain table's.

usage: bench/run oracle together [ROUNDS [UNITS [SEED]]]     (10 rounds of 30 units a session, seed 1, where nothing is given)

The plain table is bench/oracle/plain.py. Each session is told all changes, so their order is that of the reports, which must be the same for
all. A change that was completed must stand in that order between the reports that its session was written before and after the answer; any
other answer must be the plain table's at some moment between them (bench/oracle/history.py). In each round the sessions send all their units
at once, each from a process of its own; a round of more than 60 units may lose reports, of which 1,024 are kept. Each answer and report has to
come within twenty seconds, and each session to its end: a wake-up that is lost would leave one waiting.

The workers read one pipe, so that each frame is some worker's. Each byte of it names its port: no output may have another than that of a port
which some circuit joins to it.
"""
import contextlib
import hashlib
import multiprocessing
import os
import random
import sys
import tempfile
import threading
import time

from bench.oracle import plain
from bench.oracle.fuzz import Caller, Different
from bench.oracle.history import TAG, Answer, History, Table
from bench.shared.office import DIGEST, LOG_IN, write_shelf
from bench.shared.program import expect, version
from bench.shared.server import PATIENCE, PLACES, Server

MODULES, SLOTS, SESSIONS, WORKERS, PAIRS = 8, 2, PLACES, 8, 16
PORTS, IDLE = MODULES * SLOTS, 0x7F
# Seconds between two gifts of so many frames to the pipe.
PAUSE, GIVEN = 0.001, 16
# Units of a round at most: of the changes of a round, 1,024 are kept for who is slow to be told them.
MOST = 250
# How many processes check answers at once, and what each of them was given: the history.
CHECKERS, KEPT = os.cpu_count(), []


class Told(Caller):
    """A session that keeps what it was written: its units with their answers, and how many changes it was told before and after each."""

    def __init__(self, port, seed):
        super().__init__(port, None)
        self.dice, self.texts, self.answers, self.slowest = random.Random(seed), [], [], 0.0
        self.link.sendall(LOG_IN.encode() + b"ALW-MSG-ALL:::2;")
        self.answer(), self.answer()

    def report(self, number, code, lines):
        if code != "REPT DBCHG" or int(number) != len(self.texts) + 1:
            raise Different(f"report {number} {code} {lines} after {len(self.texts)}")
        self.texts.append(sys.intern(lines[0].strip('"')))

    def reports(self, until):
        while len(self.texts) < until:
            kind, tag, code, lines, _ = self.message()
            if kind != "A":
                raise Different(f"a response {tag} {code} {lines} where a report is due")
            self.report(tag, code, lines)
        self.close()

    def round(self, pool, count):
        """Sends so many units at once, and keeps the answers; how many changes were completed."""
        asked = [(unit(self.dice, pool), str(len(self.answers) + at + 1)) for at in range(count)]
        self.link.sendall(b"".join(text.replace(TAG, tag.encode()) + b";" for text, tag in asked))
        return sum(self.keep(text, tag) for text, tag in asked)

    def keep(self, asked, sent):
        """Keeps the next answer, which is to this unit; whether it completed a change."""
        began = time.monotonic()
        tag, code, lines = self.answer()
        self.slowest = max(self.slowest, time.monotonic() - began)
        if tag != sent:
            raise Different(f"unit {asked!r} of {sent}: answered to {tag}")
        # (what was told before an answer was told after the one before it)
        self.close()
        self.answers.append(Answer(asked, code, tuple(plain.settled(lines)), len(self.texts), len(self.texts)))
        return code == "COMPLD" and not asked.startswith(b"RTRV")

    def close(self):
        """Notes how much was told after the last answer."""
        if self.answers:
            self.answers[-1].most = len(self.texts)


def name(dice):
    return f"DS0-{dice.randint(1, MODULES)}-{dice.randint(1, SLOTS)}"


def pairs(dice):
    """The pairs of ports that are asked for, so few that sessions meet."""
    drawn = ((name(dice), name(dice)) for _ in iter(int, 1))
    return [",".join(pair) for pair, _ in zip((pair for pair in drawn if pair[0] != pair[1]), range(PAIRS))]


def unit(dice, pool):
    pair, cct = dice.choice(pool), dice.choice(("1WAY", "2WAY"))
    drawn = dice.randrange(100)
    if drawn < 40:
        return f"ENT-CRS-T0::{pair}:*::{cct}".encode()
    if drawn < 70:
        return f"DLT-CRS-T0::{pair}:*{dice.choice(('', '::' + cct))}".encode()
    if drawn < 82:
        return f"ED-CRS-T0::{pair}:*::{cct}".encode()
    if drawn < 88:
        return f"{dice.choice(('ENT', 'DLT'))}-EQPT::MOD-{MODULES}:*".encode()
    if drawn < 91:
        return b"RTRV-SYS:::*"
    return f"RTRV-CRS-T0::{dice.choice(('', name(dice), f'MOD-{dice.randint(1, MODULES)}'))}:*".encode()


class Meeting:
    """Where the sessions meet behind each round."""

    def __init__(self):
        self.barrier, self.done = multiprocessing.Barrier(SESSIONS), multiprocessing.Value("q", 0)

    def together(self, count):
        """Adds what one has completed, and waits for all others; how many changes all have completed."""
        with self.done.get_lock():
            self.done.value += count
        self.barrier.wait()
        all_done = self.done.value
        self.barrier.wait()
        return all_done


def live(port, seed, rounds, units, pool, meeting):
    """One session to its end: what it was told and answered, and how long it waited for an answer at most."""
    caller = Told(port, seed)
    # (all are told changes before one asks for the first)
    meeting.together(0)
    for _ in range(rounds):
        caller.reports(meeting.together(caller.round(pool, units)))
    return caller


def tell(to, number, meeting, *what):
    """Sends what came of a session, or why it didn't come to its end. What it was told is a sum in its place, but of the first one."""
    try:
        caller = live(*what, meeting)
        to.send((sum_of(caller.texts), [] if number else caller.texts, caller.answers, caller.slowest))
    except (Different, OSError, threading.BrokenBarrierError) as why:
        meeting.barrier.abort()
        to.send(why)


def sum_of(texts):
    return hashlib.sha256("\n".join(texts).encode()).digest()


class Feeder:
    """Gives the workers frames all the time, each whole, and counts them."""

    def __init__(self, pipe):
        self.pipe, self.frames, self.is_over = pipe, multiprocessing.Value("q", 0), multiprocessing.Event()
        self.process = multiprocessing.Process(target=self.feed, daemon=True)
        self.process.start()

    def feed(self):
        while not self.is_over.wait(PAUSE):
            os.write(self.pipe, bytes(range(PORTS)) * GIVEN)
            self.frames.value += GIVEN

    def end(self):
        self.is_over.set()
        self.process.join()
        return self.frames.value


@contextlib.contextmanager
def serving():
    """A server, and who feeds its workers."""
    with tempfile.TemporaryDirectory() as folder:
        write_shelf(folder, MODULES, SLOTS)
        lines = os.path.join(folder, "lines.in")
        os.mkfifo(lines)
        pipe = os.open(lines, os.O_RDWR)
        try:
            with Server(folder, WORKERS) as server:
                yield server, Feeder(pipe)
        finally:
            os.close(pipe)


def place_of(port):
    _, module, slot = port.split("-")
    return (int(module) - 1) * SLOTS + int(slot) - 1


def check_frames(server, given, pool):
    """Each frame was some worker's, and each output has the byte of a port that a circuit joins to it, or of none; how many frames each carried."""
    allowed = {(worker, port): {IDLE} for worker in range(WORKERS) for port in range(PORTS)}
    for pair in pool:
        a, b = map(place_of, pair.split(","))
        for one, other in ((a, b), (b, a)):
            allowed[other // SLOTS % WORKERS, other].add(one)
    end = time.monotonic() + PATIENCE
    while sum(os.path.getsize(server.path(f"lines.{worker}.out")) for worker in range(WORKERS)) < given * PORTS and time.monotonic() < end:
        time.sleep(0.01)
    outputs = [server.output(worker) for worker in range(WORKERS)]
    if sum(map(len, outputs)) != given * PORTS:
        raise Different(f"{given} frames were given, and {[len(output) / PORTS for output in outputs]} carried")
    for (worker, port), bytes_of in allowed.items():
        if not set(outputs[worker][port::PORTS]) <= bytes_of:
            raise Different(f"worker {worker}, port {port} from 0: {set(outputs[worker][port::PORTS]) - bytes_of} of ports that nothing joins to it")
    return [len(output) // PORTS for output in outputs]


def run(rounds, units, seed):
    """What came of each session, and how many frames each worker carried."""
    pool, meeting = pairs(random.Random(seed)), Meeting()
    with serving() as (server, feeder):
        links = []
        for number in range(SESSIONS):
            link, to = multiprocessing.Pipe(False)
            what = (to, number, meeting, server.port, seed * SESSIONS + number, rounds, units, pool)
            multiprocessing.Process(target=tell, args=what, daemon=True).start()
            links.append(link)
        came = [link.recv() for link in links]
        for why in sorted((it for it in came if isinstance(it, Exception)), key=lambda it: isinstance(it, threading.BrokenBarrierError)):
            raise Different(f"a session didn't come to its end: {why!r}")
        return came, check_frames(server, feeder.end(), pool)


def keep(history):
    KEPT.append(history)


def done(answers):
    return KEPT[0].done(answers)


def logged_in(user):
    session = plain.Session(None)
    session.user = user
    return session


def check(texts, answers):
    """Compares all answers with the tables, and puts the completed changes into their order."""
    users = [plain.User("ANNA", "S", b"a", bytes.fromhex(DIGEST))]
    Table.program = plain.Program(version(), "NONE", [logged_in(users[0])] * SESSIONS)
    history = History(Table(b"DXC1", MODULES, SLOTS, users, set(range(1, MODULES + 1))), texts)
    with multiprocessing.Pool(CHECKERS, keep, (history,)) as checkers:
        history.place([change for changes in checkers.map(done, answers, 1) for change in changes])


def main():
    rounds, units, seed = (int(given) for given in (sys.argv[1:] + ["10", "30", "1"][len(sys.argv) - 1 :])[:3])
    expect(units <= MOST, f"a round of more than {MOST} units may lose reports")
    print(f"seed {seed}", flush=True)
    came, frames = run(rounds, units, seed)
    sums, texts, answers, slowest = zip(*came)
    if len(set(sums)) > 1:
        raise Different("two sessions were told changes in different orders")
    print(f"all came to their end; no answer took longer than {max(slowest) * 1000:.0f} ms", flush=True)
    check(texts[0], answers)
    print(f"{min(frames)} to {max(frames)} frames by each of {WORKERS} workers, none lost, each byte from a port that a circuit joins to its own")
    print(f"{sum(map(len, answers))} units over {SESSIONS} sessions at once, {len(texts[0])} changes told to each: 0 differences")


if __name__ == "__main__":
    main()
