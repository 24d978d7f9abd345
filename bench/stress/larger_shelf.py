"""Tries the move of an office to a larger shelf: what `export` writes makes the same table there.

usage: bench/run stress larger_shelf [OFFICES [SEED]]     (8 offices, seed 1, where nothing is given)

Each office is a journal of random changes, as a technician of class S makes them: modules equipped and taken out, circuits of both kinds with
and without labels, edited and deleted, and a middle taken out. `export` of it is sent to a new element of the same shelf, and to one of a
larger shelf. Each command must be completed, and `check` and `export` of the new journal must write what those of the old one write, but for
the number of records. `export` changes no byte of any file, also beside a server, which has the journal meanwhile; where the words, a shelf
file, a journal or standard output are at fault it ends as `check` does.
"""
import os
import random
import subprocess
import tempfile

from bench.shared.office import LOG_IN, shelf_text
from bench.shared.program import PROGRAM, counted, expect, run_program
from bench.shared.server import Caller, Server

MODULES, SLOTS = 5, 4
LARGER_MODULES, LARGER_SLOTS = 7, 9
EQUIPPED = [1, 2, 4]
# A label of each byte that TL1 makes something of, one of the most bytes, and one of a blank.
LABELS = ["", "", "A: B, C; D", "x" * 24, " ", "L'1 & /*"]


def write_shelf(folder, name, modules, slots):
    path = os.path.join(folder, name)
    with open(path, "w", encoding="utf-8") as file:
        sid, rest = shelf_text(modules, slots).split("\n", 1)
        file.write(f"{sid}\nequipped = {EQUIPPED}\n{rest}")
    return path


def port(rng):
    return f"DS0-{rng.randint(1, MODULES)}-{rng.randint(1, SLOTS)}"


def change(rng, gone):
    """A random changing command, which doesn't equip this module. Many are denied, which changes nothing."""
    kind, label = rng.randrange(16), rng.choice(LABELS)
    value = rng.choice(["1WAY", "2WAY"]) + (f',"{label}"' if label else "")
    if kind < 8:
        return f"ENT-CRS-T0::{port(rng)},{port(rng)}:1::{value};"
    if kind < 11:
        return f"ED-CRS-T0::{port(rng)},{port(rng)}:1::{value};"
    if kind < 12:
        return f"DLT-CRS-T0::{port(rng)},{port(rng)}:1;"
    if kind < 14:
        module = rng.choice([module for module in range(1, MODULES + 1) if module != gone])
        return f"{rng.choice(['ENT', 'DLT'])}-EQPT::MOD-{module}:1;"
    return f"{rng.choice(['RMV', 'RST'])}-MID::MID-{rng.randint(1, SLOTS)}:1;"


def wrote(mode, shelf, journal):
    ran = run_program([mode, shelf, journal])
    expect((ran.returncode, ran.stderr) == (0, ""), f"{mode} of {journal} ended with {ran}")
    return ran.stdout


def rows(shelf, journal):
    """What `check` writes, without the number of records."""
    return wrote("check", shelf, journal).rsplit("RECORDS ", 1)[0]


def moved(old, new):
    """Sends the export of the old element to the new one; how many commands it has."""
    script = wrote("export", *old)
    commands = script.splitlines()
    expect(all(line.endswith(";") for line in commands), f"a line isn't one command: {script}")
    tags = [int(line.split(":")[3].rstrip(";")) for line in commands]
    expect(tags == list(range(1, len(commands) + 1)), f"the CTAGs are {tags}")
    ran = run_program(["script", *new], LOG_IN + script)
    completed = ran.stdout.count(" COMPLD")
    expect((ran.returncode, completed) == (0, len(commands) + 1), f"{completed} of {len(commands)} and the log-in were completed: {ran.stdout}")
    expect(rows(*new) == rows(*old), f"the rows of {new} aren't those of {old}")
    expect(wrote("export", *new) == script, f"equipment, middle or rows of {new} aren't those of {old}")
    return len(commands)


def files_of(folder):
    """Each file's name, bytes and time of change."""
    found = {}
    for name in sorted(os.listdir(folder)):
        path = os.path.join(folder, name)
        with open(path, "rb") as file:
            found[name] = (file.read(), os.stat(path).st_mtime_ns)
    return found


def offices(folder, count, seed):
    rng = random.Random(seed)
    old, new = write_shelf(folder, "old.toml", MODULES, SLOTS), write_shelf(folder, "new.toml", LARGER_MODULES, LARGER_SLOTS)
    sent, seen = 0, set()
    for office in range(count):
        journal, same, larger = (os.path.join(folder, f"{office}.{name}") for name in ("journal", "same", "larger"))
        gone = rng.choice([None, *EQUIPPED])
        changes = [change(rng, gone) for _ in range(rng.randint(20, 400))]
        run_program(["script", old, journal], LOG_IN + f"DLT-EQPT::MOD-{gone}:1;" * (gone is not None) + "".join(changes))
        before = files_of(folder)
        seen |= {line.split(":")[0] for line in wrote("export", old, journal).splitlines()}
        expect(files_of(folder) == before, "export changed a file")
        moved((old, journal), (old, same))
        sent += moved((old, journal), (new, larger))
    return sent, seen


def beside_a_server(folder):
    shelf = write_shelf(folder, "shelf.toml", MODULES, SLOTS)
    journal = os.path.join(folder, "j")
    run_program(["script", shelf, journal], LOG_IN + 'ENT-EQPT::MOD-5:1;ENT-CRS-T0::DS0-5-1,DS0-1-1:2::2WAY,"A B";')
    alone = wrote("export", shelf, journal)
    with open(os.path.join(folder, "lines.in"), "wb"):
        pass
    with Server(folder) as server:
        expect(wrote("export", shelf, journal) == alone, "export beside a server wrote something else")
        caller = Caller(server.port)
        caller.send((LOG_IN + "ENT-CRS-T0::DS0-2-1,DS0-1-2:3;").encode())
        got = b"".join(caller.messages(2))
        expect(b"DENY" not in got, f"the server was disturbed: {got}")
        expect("ENT-CRS-T0::DS0-2-1,DS0-1-2:2::1WAY;\n" in wrote("export", shelf, journal), "a change isn't in the export")


def faults(folder):
    shelf = write_shelf(folder, "faults.toml", MODULES, SLOTS)
    journal, absent, text = (os.path.join(folder, name) for name in ("some.journal", "absent", "notes"))
    run_program(["script", shelf, journal], LOG_IN + "ENT-CRS-T0::DS0-2-1,DS0-1-2:3;")
    with open(text, "w", encoding="utf-8") as file:
        file.write("circuits of MAY 1997")
    before = files_of(folder)
    expect(wrote("export", shelf, absent) == "", "export of no file")
    cases = [[], [shelf], [shelf, journal, "more"], [absent, journal], [journal, journal], [shelf, text], [shelf, shelf]]
    for words in cases:
        wanted, got = (run_program([mode, *words]) for mode in ("check", "export"))
        expect((got.returncode, got.stdout) == (wanted.returncode, wanted.stdout), f"export {words} ended with {got}, and check with {wanted}")
        expect(got.returncode != 0 and got.stderr == wanted.stderr, f"export {words} said {got.stderr}, and check {wanted.stderr}")
    with open("/dev/full", "w", encoding="ascii") as full:
        status = subprocess.run([PROGRAM, "export", shelf, journal], stdout=full, stderr=subprocess.DEVNULL, check=False).returncode
    expect(status == 9, f"export to a full device ended with status {status}")
    expect(files_of(folder) == before, "export changed a file")
    return len(cases) + 2


def main():
    count, seed = counted(8)
    with tempfile.TemporaryDirectory() as folder:
        sent, seen = offices(folder, count, seed)
        tried = faults(folder)
    with tempfile.TemporaryDirectory() as folder:
        beside_a_server(folder)
    wanted = {"ENT-EQPT", "DLT-EQPT", "ENT-CRS-T0", "RMV-MID"}
    expect(seen == wanted or count < 4, f"the offices had only {seen}")
    print(f"{count} offices moved to a larger shelf by {sent} commands, each completed; {tried} faults told as check tells them")


if __name__ == "__main__":
    main()
