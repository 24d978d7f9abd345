"""Kills the program at some moment of a session, again and again, and audits the journal that it leaves.

usage: bench/run stress kills [RUNS [SEED]]     (300 runs, seed 1, where nothing is given)

A run on a real file is killed by signal 9 after a random time. Each change that was acknowledged, by a response that ended, must be in the
journal, and at most the one after them besides: `dxc check` has the rows of a plain table after so many changes. A further session
on the same journal then begins with what was checked.
"""
import os
import random
import subprocess
import tempfile
import time

from bench import Wrong
from bench.shared.changes import MODULES, SLOTS, commands, listing
from bench.shared.office import LOG_IN, write_shelf
from bench.shared.program import PROGRAM, counted, expect, run_program

# More than a run comes to before it is killed, on most disks.
CHANGES = 1_200
# The latest moment of a kill, in seconds after a start.
LATEST = 0.12


def killed_run(rng, latest, shelf, journal, table, records):
    """Table and number of records that the journal has after a run that was killed."""
    made = list(commands(rng, table, CHANGES))
    child = subprocess.Popen([PROGRAM, "script", shelf, journal], stdin=subprocess.PIPE, stdout=subprocess.PIPE)
    child.stdin.write((LOG_IN + "".join(text for text, _ in made)).encode())
    child.stdin.flush()
    time.sleep(rng.uniform(0, latest))
    child.kill()
    written = child.stdout.read().decode()
    child.wait()
    child.stdin.close()
    # The first response is that to the log-in.
    acknowledged = max(written.count("\r\n;") - 1, 0)
    expect(written.count("COMPLD") >= acknowledged and "DENY" not in written, f"a change was denied: {written[-200:]}")
    tables = [table] + [after for _, after in made]
    checked = run_program(["check", shelf, journal])
    expect(checked.returncode == 0, f"check ended with status {checked.returncode}: {checked.stderr}")
    for more in (0, 1):
        done = acknowledged + more
        if done < len(tables) and checked.stdout == listing(tables[done], records + done):
            return tables[done], records + done, acknowledged, more
    raise Wrong(f"after {acknowledged} acknowledged changes check wrote\n{checked.stdout}")


def start_of(shelf, journal):
    """How long a start takes here, in seconds."""
    began = time.monotonic()
    run_program(["script", shelf, journal]).check_returncode()
    return time.monotonic() - began


def main():
    runs, seed = counted(300)
    rng = random.Random(seed)
    changes = in_hand = 0
    with tempfile.TemporaryDirectory() as folder:
        shelf = write_shelf(folder, MODULES, SLOTS)
        latest = start_of(shelf, os.path.join(folder, "first.journal")) + LATEST
        journal, table, records = None, frozenset(), 0
        for run in range(runs):
            # A journal of its own for every ten runs: new ones are killed, too.
            if run % 10 == 0:
                journal, table, records = os.path.join(folder, f"{run}.journal"), frozenset(), 0
            table, records, acknowledged, more = killed_run(rng, latest, shelf, journal, table, records)
            changes += acknowledged
            in_hand += more
    print(f"{runs} runs killed: {changes} acknowledged changes, all of them kept; {in_hand} times the one in hand besides")


if __name__ == "__main__":
    main()
