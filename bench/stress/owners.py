"""Tries the program against the world around it: closed streams, a second program on its journal, files that can't be had.

usage: bench/run stress owners [MOMENTS [SEED]]     (200 moments, seed 1, where nothing is given)

Closed streams: with each choice of descriptors 0, 1 and 2 closed, `script` and `check` leave the journal as it was or longer by whole records.
Owners: at each of MOMENTS random moments of a session a `check` of its journal finds whole records, a second `script` on it ends with status 6,
and the session's acknowledged changes are all in the journal at its end. Modes: with a umask that hides nothing from readers a journal and
its users' journal are made for their owner alone, and files that were there keep their modes. Files: a journal that may not be written, in a folder that may not be, that is a
folder or lies in none ends with status 6 and is left alone; a full device ends with status 9, and on a full disk a change is denied and nothing
that was acknowledged is lost. What wants an administrator's rights is left out without them, and said so.
"""
import itertools
import os
import random
import stat
import subprocess
import tempfile
import time

from bench.shared.office import LOG_IN, write_shelf
from bench.shared.program import PROGRAM, counted, expect, run_program

NOBODY = 65534
MODULES, SLOTS = 4, 8
ENTRY = "ENT-CRS-T0::DS0-1-1,DS0-2-1:1;"
DELETION = "DLT-CRS-T0::DS0-1-1,DS0-2-1:1;"
CANNOT_OPEN = 6
OWNER_ALONE = 0o600
# A record's bytes, and how many records an area of the journal holds.
RECORD, MOST = 64, 32_767
FAULT = "dxc: cannot open\n"


def content(journal):
    with open(journal, "rb") as file:
        return file.read()


def records(shelf, journal):
    checked = run_program(["check", shelf, journal])
    expect(checked.returncode == 0, f"check ended with status {checked.returncode}: {checked.stderr}")
    return int(checked.stdout.rsplit(" ", 1)[1])


def is_grown(before, after):
    """Whether the second journal is the first, or the first with whole records after it."""
    added = len(after) - len(before)
    return added % RECORD == 0 and added >= 0 and after.startswith(before[:-1])


def closed_streams(folder, shelf):
    journal = os.path.join(folder, "closed.journal")
    expect(run_program(["script", shelf, journal], LOG_IN + ENTRY).returncode == 0, "no journal was made")
    tried = 0
    for mode, closed in itertools.product(["check", "script"], itertools.product([False, True], repeat=3)):
        redirections = " ".join(f"{fd}{'<' if fd == 0 else '>'}&-" for fd in range(3) if closed[fd])
        before = content(journal)
        command = f'exec "$0" {mode} "$1" "$2" {redirections}'
        subprocess.run(["sh", "-c", command, PROGRAM, shelf, journal], input=(LOG_IN + DELETION + ENTRY).encode(), capture_output=True)
        expect(is_grown(before, content(journal)), f"{mode} with {redirections or 'no redirection'} wrote over the journal")
        records(shelf, journal)
        tried += 1
    return tried


def records_behind(count, changes):
    """How many records a journal of so many has after these changes, entries and deletions of one connection in turn from an empty table:
    where it is full, the next change's stands after those of the rows."""
    for change in range(changes):
        count = (change % 2 if count == MOST else count) + 1
    return count


def owners(folder, shelf, moments, seed):
    journal = os.path.join(folder, "owned.journal")
    rng = random.Random(seed)
    kept = count = 0
    for _ in range(moments):
        session = subprocess.Popen([PROGRAM, "script", shelf, journal], stdin=subprocess.PIPE, stdout=subprocess.PIPE)
        session.stdin.write(LOG_IN.encode())
        session.stdin.flush()
        while session.stdout.read(1) != b";":
            pass
        session.stdin.write((ENTRY + DELETION).encode() * 100)
        session.stdin.flush()
        time.sleep(rng.uniform(0, 0.02))
        expect(run_program(["check", shelf, journal]).returncode == 0, "a check beside a session failed")
        second = run_program(["script", shelf, journal], LOG_IN + ENTRY)
        wanted = (CANNOT_OPEN, "", f"{FAULT}dxc: {journal}: another program has it\n")
        expect((second.returncode, second.stdout, second.stderr) == wanted, f"a second program ended with {second}")
        session.stdin.close()
        written = session.stdout.read().decode()
        expect(session.wait() == 0, "the session failed")
        expect("DENY" not in written, f"the session was denied a change: {written[-200:]}")
        acknowledged = written.count("COMPLD")
        kept, count = kept + acknowledged, records_behind(count, acknowledged)
        expect(records(shelf, journal) == count, f"{kept} changes were acknowledged, and the journal hasn't {count} records")
    return kept


def is_refused(ended, name):
    return ended.returncode == CANNOT_OPEN and ended.stderr.startswith(f"{FAULT}dxc: {name}: ")


def permissions(name):
    return stat.S_IMODE(os.stat(name).st_mode)


def modes(folder, shelf):
    journal = os.path.join(folder, "own.journal")
    names = (journal, journal + ".users")
    before = os.umask(0o022)
    try:
        expect(run_program(["script", shelf, journal], LOG_IN).returncode == 0, "no journal was made")
    finally:
        os.umask(before)
    for name in names:
        expect(permissions(name) == OWNER_ALONE, f"{name} was made with mode {permissions(name):o}")
        os.chmod(name, 0o640)
    expect(run_program(["script", shelf, journal], LOG_IN).returncode == 0, "the journal wasn't taken up")
    for name in names:
        expect(permissions(name) == 0o640, f"{name} was given mode {permissions(name):o}")
    return f"{len(names)} files made with {OWNER_ALONE:o}"


def as_nobody():
    os.setgid(NOBODY)
    os.setuid(NOBODY)


def no_files(folder, shelf):
    tried = ["a folder that isn't there", "a folder as a journal"]
    for journal in (os.path.join(folder, "absent", "a.journal"), folder):
        ended = run_program(["script", shelf, journal], LOG_IN)
        expect(is_refused(ended, journal), f"{journal} ended with {ended}")
    if os.geteuid() == 0:
        journal = os.path.join(folder, "kept.journal")
        run_program(["script", shelf, journal], LOG_IN + ENTRY)
        before = content(journal)
        os.chmod(journal, 0o444)
        for name in (journal, os.path.join(folder, "new.journal")):
            ended = run_program(["script", shelf, name], LOG_IN, preexec_fn=as_nobody)
            expect(is_refused(ended, name), f"{name} ended with {ended}")
        expect(content(journal) == before, "a journal that may only be read was changed")
        tried += ["a journal that may only be read", "a folder that may only be read"]
    return tried


def full_devices(folder, shelf):
    tried = []
    for words in (["--help"], ["--version"], ["check", shelf, os.path.join(folder, "closed.journal")]):
        with open("/dev/full", "w") as full:
            ended = subprocess.run([PROGRAM, *words], stdout=full, stderr=subprocess.PIPE, text=True)
        expect((ended.returncode, ended.stderr) == (9, "dxc: terminal failed\n"), f"{words} on a full device ended with {ended}")
        tried.append(words[0])
    with open("/dev/full", "w") as full:
        ended = subprocess.run([PROGRAM, "nothing"], stderr=full)
    expect(ended.returncode == 2, "a text that can't be written changed the status")
    return tried


def full_disk(folder, shelf):
    """A file system of one page beside what stands on it: entries are acknowledged or denied, and none is lost."""
    place = os.path.join(folder, "small")
    os.mkdir(place)
    if os.geteuid() != 0 or subprocess.run(["mount", "-t", "tmpfs", "-o", "size=16k", "none", place], capture_output=True).returncode != 0:
        return "left out"
    try:
        journal = os.path.join(place, "a.journal")
        ended = run_program(["script", shelf, journal], LOG_IN + (ENTRY + DELETION) * 400)
        expect(ended.returncode == 0, f"a full disk ended with status {ended.returncode}")
        expect("JOURNAL WRITE FAILED" in ended.stdout, "the disk wasn't full")
        kept = ended.stdout.count("COMPLD") - 1
        standing = records(shelf, journal)
        # Behind the first denial each further command is about a connection that is there or isn't, so only whole records count.
        expect(standing == kept, f"{kept} changes were acknowledged, and {standing} stand")
        return f"{kept} changes kept"
    finally:
        subprocess.run(["umount", place])


def main():
    moments, seed = counted(200)
    with tempfile.TemporaryDirectory() as folder:
        os.chmod(folder, 0o755)
        shelf = write_shelf(folder, MODULES, SLOTS)
        print(f"closed streams: {closed_streams(folder, shelf)} choices, the journal kept")
        print(f"full devices: {', '.join(full_devices(folder, shelf))}")
        print(f"modes: {modes(folder, shelf)}")
        print(f"files: {', '.join(no_files(folder, shelf))}")
        print(f"full disk: {full_disk(folder, shelf)}")
        print(f"owners: {moments} moments, {owners(folder, shelf, moments, seed)} acknowledged changes, all of them kept")


if __name__ == "__main__":
    main()
