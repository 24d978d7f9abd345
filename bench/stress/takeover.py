#!/usr/bin/env python3
"""Lets something go wrong in an office of two machines, takes over as OPERATING says, and compares with what was answered.

usage: bench/run stress takeover [TRIALS [SEED [OFFICES]]]     (200 trials, seed 1, four offices side by side, where nothing is given)

Each trial has a server and a standby, two technicians who change circuits and one who changes users. At a random moment, in front of the
joining, within it or behind it, one of these befalls them: the server or the standby is killed, or stopped for some seconds; the link between
their machines is cut, for good or for some seconds; one machine's disk is full; one of the two programs, or both, are started again as their
units do. In one trial of four nobody changes anything meanwhile, and in half of those in which the server goes on it is killed some
seconds later. Then the office looks at the last lines of both and does what they say (OPERATING, "A standby"): it goes on with the server,
starts it again from its own journal, or takes over on the standby's copy. At last the other machine comes back as a standby, which the server joins beside its
sessions: with a change, or by INIT-SYS where nobody changes anything.

- Every circuit and every user that was answered is there, and nothing that nobody commanded; of a copy, every one that was answered while its
  standby was joined, which is until the server said that it lost it. Each copy of circuits that is whole is audited so, also where nobody takes
  over on it.
- Each end that runs says within ten seconds that the joining is over, by the moment in its own line. Those begin with the trouble where that
  ends the joining at once, else with the first such line; for who was stopped, once it is let go on. So a slow machine changes little.
- The moment in the standby's last line isn't before the last change that was answered while it was joined, nor behind the line in which the
  server says that it goes on alone: by these two moments an office knows which journal is the newer.
- Who comes back has what the server has, and no session ended for it.

It takes Linux with namespaces (as root, or where users may have their own) and ip; where they can't be had it leaves out cut links and full disks,
and says so. Status 1: a circuit or a user was lost, or the end of a joining wasn't told, or not in time, or with a wrong moment.
"""
import collections
import contextlib
import dataclasses
import json
import os
import queue
import random
import subprocess
import sys
import tempfile
import threading
import time

from bench import Wrong
from bench.shared.joining import LIMIT, Joining
from bench.shared.machines import set_apart
from bench.shared.pair import PATIENCE, Office
from bench.shared.program import counted, expect
from bench.shared.server import until
from bench.shared.technicians import Circuits
from bench.shared.troubles import KINDS, Kind

# Seconds for which the office goes on where nothing ended.
REST = 1.5
# Seconds for which a server that was started again may yet join a standby.
COMING = 8
# Seconds between two tries to let a server join: it calls no sooner again.
AGAIN = 2.5
# Names the part of the trials that a run has to do.
PART = "BENCH_TAKEOVER_PART"


@dataclasses.dataclass
class Trial:
    """What came of one."""

    kind: Kind
    # Whether nobody changes anything meanwhile.
    is_quiet: bool
    # Whether the link is slow, and the joining with it.
    is_slow: bool
    begun: float = 0
    facts: list = dataclasses.field(default_factory=list)
    failures: list = dataclasses.field(default_factory=list)
    counts: collections.Counter = dataclasses.field(default_factory=collections.Counter)

    def note(self, fact):
        self.facts.append(fact)

    def fail(self, what, sort):
        self.failures.append(what)
        self.counts[sort] += 1


def live_through(office, trial, joining):
    """Lets the trouble begin and end, and perhaps kills the server; until all is told that must be, or it is too late."""
    kind, rng = trial.kind, office.rng
    trial.begun = time.time()
    joining.begun = trial.begun if kind.is_end else None
    kind.begin(office)
    plan = [(trial.begun + rng.uniform(1, 12), kind.end)] if kind.end else []
    if rng.random() < 0.5 and not kind.is_tended and office.server.runs():
        plan.append((trial.begun + rng.uniform(0.5, 9), kill_server(trial)))
    latest = trial.begun
    while plan or joining.is_awaited() or time.time() < latest + REST or (kind.is_tended and is_coming(office, latest)):
        for due in [some for some in plan if some[0] <= time.time()]:
            plan.remove(due)
            due[1](office)
            latest = time.time()
        (office.tend if kind.is_tended else office.note_joining)()
        time.sleep(0.02)


def kill_server(trial):
    def act(office):
        trial.note(f"server killed {time.time() - trial.begun:.1f} s later")
        office.server.kill()

    return act


def is_coming(office, since):
    """Whether the server may yet be there again, with its standby joined."""
    return not office.is_joined() and time.time() < since + COMING


def note_start(office, trial):
    """Notes what came of a server or a standby that was started again."""
    server = office.servers[-1]
    joined = office.is_joined()
    trial.note(f"behind {len(office.servers) - 1} further starts {'joined' if joined else 'not joined: ' + server.said().strip()}")
    trial.counts["not joined again"] += not joined


def judge_lines(trial, joining):
    """Notes what either said of the end of their joining, and whether that was in time."""
    for name, program, line in joining.ends():
        said = f'"{line[1]}" at {clock(line[0])}' if line else "dead" if program.gone else "said nothing"
        late = joining.is_late(program, line)
        trial.note(f"{name} {said}{' TOO LATE' if late else ''}")
        if late:
            trial.fail(f"the {name} didn't say within {LIMIT} s that the joining was over", f"untold by the {name}")


def clock(moment):
    return time.strftime("%H:%M:%S", time.gmtime(moment))


def judge_copies(office, trial):
    """Audits each copy that was joined, and compares the moment that its standby names."""
    for standby in office.standbys:
        if not standby.primary:
            continue
        text = office.audited(standby.machine, standby.copy)
        count(trial, [one.compare(one.work.rows(text), standby.primary, standby) for one in circuits_of(office)], f"the copy {standby.copy}")
        judge_moment(office, trial, standby)


def judge_moment(office, trial, standby):
    """The copy has each change that was answered while it was joined, and perhaps none of those behind that: so its last line has to say. Clocks
    that are read coarsely, and whole seconds, make one second of difference."""
    synced, lost = standby.synced(), standby.primary.lost(standby.call)
    changes = [change for one in circuits_of(office) for change in one.changes if change.server is standby.primary and (change.call, change.is_joined) == (standby.call, True)]
    newest = max((int(change.sent) for change in changes), default=0)
    if synced and synced + 1 < newest:
        trial.fail(f"the standby names {clock(synced)}, and its copy has a change of {clock(newest)}", "moment too early")
    if synced and lost and synced > lost[0] + 1:
        trial.fail(f"the standby names {clock(synced)}, and its server was alone from {clock(lost[0])} on", "moment too late")


def circuits_of(office):
    return [one for one in office.technicians if isinstance(one.work, Circuits)]


def count(trial, found, where):
    lost, strange = (frozenset().union(*(getattr(one, name) for one in found)) for name in ("lost", "strange"))
    if lost or strange:
        trial.fail(f"of {where} {sorted(lost)} lost, {sorted(strange)} strange", "lost")


def serve_on(office, trial):
    """Does what the lines of both say; the server that serves from here on, whose journal it has, and the standby whose copy that is, if it is one."""
    former = office.servers[-1]
    if former.runs() and former.listens():
        trial.note("goes on with the server")
        return former, former, None
    former.kill()
    copies = [standby for standby in office.standbys if standby.primary is former and former.joined_by() == (standby.call, True)]
    # A full disk is seen to first.
    for machine in office.machines:
        machine.empty()
    copy = copies[-1] if copies else None
    if copy:
        copy.kill()
        trial.note(f"takes over on {copy.copy}")
        server = office.start_server(copy.machine, copy.copy, office.other(copy.machine))
    else:
        trial.note("starts the server again from its own journal")
        server = office.start_server(former.machine, former.journal, office.other(former.machine))
    expect(server.listens(), f"the server doesn't start: {server.said()}")
    return server, former, copy


def judge(office, trial):
    office.rest()
    judge_copies(office, trial)
    server, of, copy = serve_on(office, trial)
    found = {one: one.take_up(rows, server, of, copy) for one, rows in zip(office.technicians, office.listed(server))}
    circuits, users = circuits_of(office), [one for one in office.technicians if not isinstance(one.work, Circuits)]
    count(trial, [found[one] for one in circuits] + [past for one in circuits for past in one.found[:-1]], "the server")
    # The users' copy is called for behind a change of users alone.
    if not copy or copy.users.told("standby joined"):
        count(trial, [past for one in users for past in one.found], "the server's users")
    answered, lost = sum(one.answered() for one in circuits), sum(len(found[one].lost) for one in users)
    trial.counts.update({"changes of circuits": answered, "changes of users": sum(one.answered() for one in users), "users lost": lost})
    must, gone = (sum(number) for number in zip(*((found[one].must, len(found[one].lost)) for one in circuits)))
    trial.note(f"circuits: {answered} changes answered, {must} to be there, {must - gone} kept, {gone} lost")
    trial.note(f"users: {sum(one.answered() for one in users)} changes answered, {lost} lost")
    trial.note(f"longest wait {max(one.longest_wait() for one in office.technicians):.1f} s")
    return server


def come_back(office, trial, server):
    """The other machine comes back as a standby, which the server joins beside its sessions."""
    for machine in office.machines:
        machine.empty()
    if office.wire:
        office.wire.mend()
    for standby in office.standbys:
        standby.kill()
    if not trial.is_quiet:
        office.may_change.set()
    expect(until(lambda: office.sessions() == len(office.technicians), PATIENCE), f"technicians can't log in: {server.said()}")
    standby, before = office.start_standby(office.other(server.machine)), office.begun()
    expect(standby.listens(), f"no standby comes back: {standby.said()}")
    took = let_join(office, trial, server)
    office.may_change.set()
    time.sleep(REST)
    expect(office.is_joined(), f"the standby that came back is lost: {server.said()}, {standby.said()}")
    expect(office.begun() == before and office.sessions() == len(office.technicians), f"a session ended: {server.said()}")
    office.rest()
    server.kill()
    expect(until(lambda: not standby.runs(), PATIENCE), "the standby that came back doesn't end")
    same = office.audited(server.machine, server.journal) == office.audited(standby.machine, standby.copy)
    expect(same, f"the standby that came back has another table than its server: {server.said()}, {standby.said()}")
    trial.note(f"came back in {took:.1f} s")


def let_join(office, trial, server):
    """How many seconds it takes until the standby that is there is joined."""
    began = asked = time.monotonic()
    while not office.is_joined():
        expect(time.monotonic() < began + PATIENCE, f"no standby joined: {server.said()}, {office.standby.said()}")
        if trial.is_quiet and time.monotonic() >= asked:
            office.restart(server)
            asked = time.monotonic() + AGAIN
        office.note_joining()
        time.sleep(0.02)
    return time.monotonic() - began


def start_both(office, is_slow):
    """Starts a standby and its server, and waits for a random moment: of the joining where that is slow, else of the start or the service."""
    rng, standby = office.rng, office.start_standby(office.machines[1])
    expect(standby.listens(), f"the standby doesn't listen: {standby.said()}")
    server = office.start_server(office.machines[0], "office.journal", office.machines[1])
    for technician in office.technicians:
        technician.start()
    if is_slow:
        expect(until(standby.is_begun, PATIENCE), f"the server doesn't join: {server.said()}")
        time.sleep(rng.uniform(0, 1.5))
    elif rng.random() < 0.1:
        time.sleep(rng.uniform(0, 0.1))
    else:
        expect(server.listens(), f"the server doesn't start: {server.said()}")
        time.sleep(rng.uniform(0, 4))


def tried(office, trial):
    start_both(office, trial.is_slow)
    if trial.is_quiet:
        office.rest()
    office.note_joining()
    joining = Joining(office.server, office.standby)
    live_through(office, trial, joining)
    judge_lines(trial, joining)
    if trial.kind.is_tended:
        note_start(office, trial)
    office.may_change.set()
    come_back(office, trial, judge(office, trial))


def trial_of(kind, rng, is_apart):
    trial, began = Trial(kind, rng.random() < 0.25, rng.random() < 0.2), time.monotonic()
    with tempfile.TemporaryDirectory(dir="/run" if is_apart else None) as folder, contextlib.closing(Office(folder, rng, is_apart, trial.is_slow)) as office:
        office.rng = rng
        try:
            tried(office, trial)
        except Wrong as what:
            trial.fail(str(what), "wrong")
    trial.note(f"{time.monotonic() - began:.1f} s")
    return trial


def line_of(number, trial):
    how = " in a slow joining" * trial.is_slow + " while nobody changed anything" * trial.is_quiet
    text = f"{number} {trial.kind.name}{how} at {clock(trial.begun)}: {'; '.join(trial.facts)}"
    return text + "".join(f"\n    FAILED: {what}" for what in trial.failures)


def summary(trials):
    """A line for each kind, and how many failed, of the trials' kinds, failures and counts."""
    for kind in KINDS:
        some = [trial for trial in trials if trial["kind"] == kind.name]
        total = sum((collections.Counter(trial["counts"]) for trial in some), collections.Counter())
        if some:
            failed = sum(trial["failed"] for trial in some)
            yield f"{kind.name}: {len(some)} trials, {failed} failed; " + ", ".join(f"{what} {total[what]}" for what in sorted(total))
    yield f"{len(trials)} trials, {sum(trial['failed'] for trial in trials)} failed"


def do_part(part, parts, count_of, seed):
    """Does the trials of this part, one behind the other, and writes what came of each."""
    is_apart = set_apart()
    kinds = [kind for kind in KINDS if is_apart or not kind.is_apart]
    if not is_apart and part == 0:
        print("no namespaces are to be had here: cut links and full disks are left out", flush=True)
    for number in range(part, count_of, parts):
        trial = trial_of(kinds[number % len(kinds)], random.Random(1_000_003 * seed + number), is_apart)
        came = {"kind": trial.kind.name, "failed": bool(trial.failures), "counts": trial.counts, "line": line_of(number, trial)}
        print(json.dumps(came), flush=True)


def came_of(parts):
    """What came of the trials of all parts, as it comes."""
    lines = queue.Queue()

    def pass_on(part):
        for line in part.stdout:
            lines.put(line)
        lines.put(None)

    for part in parts:
        threading.Thread(target=pass_on, args=(part,), daemon=True).start()
    for _ in parts:
        yield from iter(lines.get, None)


def main():
    if PART in os.environ:
        do_part(*json.loads(os.environ[PART]))
        return
    count_of, seed = counted(200)
    offices = int(sys.argv[3]) if len(sys.argv) > 3 else 4
    environments = [os.environ | {PART: json.dumps([part, offices, count_of, seed])} for part in range(offices)]
    parts = [subprocess.Popen([sys.executable, *sys.orig_argv[1:]], env=one, stdout=subprocess.PIPE, text=True) for one in environments]
    trials = []
    for line in came_of(parts):
        if line.startswith("{"):
            trials.append(json.loads(line))
            line = trials[-1]["line"] + "\n"
        print(line, end="", flush=True)
    print("\n".join(summary(trials)))
    sys.exit(len(trials) < count_of or any(trial["failed"] for trial in trials))


if __name__ == "__main__":
    main()
