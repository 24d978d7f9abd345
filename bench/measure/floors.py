"""What stands between the program and what the bytes of each stream cost at least: floors, and where the rest goes by function and cause.

usage: bench/run measure floors [--functions COUNT | --rows] [STREAM..]     (all streams of bench/run measure speed, and frames, where none is named)

A floor is bench/c/floors.c: a plain C loop that knows all answers beforehand, and reads, writes and syncs the same bytes, which this looks at:
answers and journal must come out the same. Of frames it is bench/c/frames.c, three loads an output byte. Instructions are those of callgrind,
of a unit as in bench/run measure speed; causes are told by bench/measure/causes.py. It needs valgrind, objdump and a C compiler (CC, else clang or cc).

A goal is a share of what the conventional program takes. Where ours takes more, `over` says by how much; the parts below tell where all of it
goes, each the functions of some crates, with what LLVM put into them. With --rows they are rows of docs/SPEED.md's first two
tables.
"""
import argparse
import collections
import json
import os
import re
import shutil
import signal
import struct
import subprocess
import sys
import tempfile
import time

from bench import TOP
from bench.measure import speed
from bench.measure.causes import ATOMIC, CLEARED, COPIED, Program, counted
from bench.measure.streams import full
from bench.shared.office import write_shelf
from bench.shared.program import PROGRAM
from bench.shared.server import enter, free_port

HEADER = re.compile(rb"\r\n\n   BENCH \d\d-\d\d-\d\d \d\d:\d\d:\d\d\r\n")
MARK, RECORD, JOURNAL_HEADER = b"\r\n", 64, 32
CHANGES = ("ENT-", "DLT-", "ED-")
COMPILER = os.environ.get("CC") or shutil.which("clang") or "cc"
FRAMES = ((8, 24), (32, 32), (64, 96))
FEW, MANY = 100, 300
# Each stream as docs/SPEED.md names it, and what it is to take at most, of what the conventional program takes; and a carried byte.
GOALS = {
    "header": ("a header", 0.70),
    "malformed": ("a unit that is no command", 0.70),
    "busy": ("an entry whose sides are in use", 0.75),
    "port": ("a retrieval of a port", 0.60),
    "module": ("a retrieval of a module", 0.70),
    "all": ("a retrieval of all 192 rows", 0.40),
    "mixed": ("a unit of a mixed stream", 0.80),
    "direct": ("an entry with its deletion, a middle free", 0.80),
    "chains8": ("the same, the longest chain, 8 modules of 2 slots", 0.80),
    "chains16": ("16 modules of 2 slots", 0.70),
    "chains32": ("32 modules of 2 slots", 0.60),
    "chains64": ("64 modules of 2 slots", 0.60),
    "churn8": ("four changes of a full switch", 0.80),
    "churn32": ("the same, 32 modules of 32 slots", 0.80),
}
CARRIED_GOAL = 1.0
# Parts of a unit's way by the names of functions, the first that fits.
PARTS = [
    ("turns and records", r"craft_session::(change|mend|seat)|xc_core|turnstile|journal_core|xc_journal|dxc_disk|dxc_host::host_disk"),
    ("session", r"craft_s|dxc_jobs|dxc_host|tl1_answer|dxc_aid::write"),
    ("cutting", r"tl1_text"),
    ("command", r"tl1_command|dxc_aid"),
    ("users", r"user_admin|sha2|shelf_file"),
    ("table", r"dxc_model|dbchg_reports"),
    ("plan", r"xc_recovery|paull_chain::(?!ops)|roll_plan|mid_service"),
    ("matrix", r"paull"),
    ("register writes", r"roll_engine|fabric_|frame_worker|atomic_table"),
    ("room cleared and copies by the C library", r"mem(cpy|move|set)$"),
]
REST = "the C library's rest"


def units_of(text):
    """The units of a stream, cut at each `;` outside quotes."""
    found, unit, is_quoted = [], [], False
    for byte in text:
        is_quoted ^= byte == '"'
        if byte == ";" and not is_quoted:
            found.append("".join(unit))
            unit = []
        else:
            unit.append(byte)
    return found


def answers_of(written):
    """The lines of each response, the M line first; an empty line where a block ends and the next begins."""
    answers, goes_on = [], False
    for block in HEADER.split(written)[1:]:
        lines = [line + MARK for line in block[:-1].split(MARK)[:-1]]
        answers[-1].extend([b""] + lines[1:]) if goes_on else answers.append(lines)
        goes_on = block.endswith(b">")
    return answers


def records_in(journal):
    with open(journal, "rb") as file:
        content = file.read()
    count = 0
    while content[JOURNAL_HEADER + count * RECORD : JOURNAL_HEADER + count * RECORD + 1] == b"\xa5":
        count += 1
    return count


def spell(name, units, answers, first, writes):
    """Writes what bench/c/floors.c reads; the register writes are spread over the changes."""
    is_change = [unit.startswith(CHANGES) and b"COMPLD" in answer[0] for unit, answer in zip(units, answers)]
    changes, heads, lines, done, number = sum(is_change), [], [], 0, 0
    for change, answer in zip(is_change, answers):
        number += change
        due = writes * number // changes - done if change else 0
        done += due
        heads.append(struct.pack("<IIB23x", len(answer), due, change))
        lines += [struct.pack("<B63s", len(line), line) for line in answer]
    with open(name, "wb") as file:
        file.write(struct.pack("<4Q", 32 + 32 * len(heads), first, 0, 0) + b"".join(heads) + b"".join(lines))
    return changes


class Bench:
    """A folder in memory with the program's shelf and journals, the floor's program, and what both read."""

    def __init__(self, folder):
        self.room, self.folder, self.floor = speed.Room(folder), folder, os.path.join(folder, "floor")
        subprocess.run([COMPILER, "-O2", "-static", "-o", self.floor, os.path.join(TOP, "bench", "c", "floors.c")], check=True)
        self.program = Program(PROGRAM)

    def path(self, name):
        return os.path.join(self.folder, name)

    def read(self, name):
        with open(self.path(name), "rb") as file:
            return file.read()

    def counts(self, shape, filled, text):
        """How often the program executes what, over the stream. What stood before lies in `before` then."""
        words, before = self.room.words(shape), full(*shape) if filled else ""
        subprocess.run(words, input=before.encode(), stdout=subprocess.DEVNULL, check=True)
        shutil.copy(self.room.journal, self.path("before"))
        return counted(words, text)

    def floor_of(self, shape, filled, text, writes):
        """A unit's floor, with so many register writes in all, and whether it wrote what the program did."""
        words = [PROGRAM, "script", self.room.shelf, self.room.journal]
        shutil.copy(self.path("before"), self.room.journal)
        wrote = subprocess.run(words, input=text.encode("latin-1"), capture_output=True, check=True).stdout
        shutil.copy(self.path("before"), self.path("floor.journal"))
        first, units = records_in(self.path("before")), units_of(text)
        changes = spell(self.path("answers"), units, answers_of(wrote), first, writes)
        grind = ["valgrind", "--tool=callgrind", "--toggle-collect=answer_units", "--callgrind-out-file=/dev/null"]
        floor = [self.floor, self.path("answers"), self.path("floor.journal"), self.room.journal]
        ran = subprocess.run(grind + floor, input=text.encode("latin-1"), capture_output=True, check=True)
        same = speed.STAMP.sub(b"T", ran.stdout) == speed.STAMP.sub(b"T", wrote)
        same = same and self.read("floor.journal") == self.read("journal") and changes == records_in(self.room.journal) - first
        return int(re.search(rb"Collected : (\d+)", ran.stderr)[1]) / len(units), same

    def register_writes(self, counts):
        is_one = lambda at: self.program.cause.get(at) == ATOMIC and self.program.function[at].startswith("roll_engine::")
        return sum(count for at, count in counts[0].items() if is_one(at))


class Share:
    """Instructions of a unit by function and by cause, of two runs of which one is longer."""

    def __init__(self, program, few, many, units):
        self.functions, self.causes, self.parts = collections.Counter(), collections.Counter(), collections.Counter()
        for at, count in (many[0] - few[0]).items():
            self.functions[program.function[at]] += count / units
            self.causes[program.cause[at]] += count / units
        for name, count in (many[1] - few[1]).items():
            plain = next((word for word in ("memcpy", "memmove", "memset") if word in name), name)
            self.functions[plain] += count / units
            self.causes[{"memcpy": COPIED, "memmove": COPIED, "memset": CLEARED}.get(plain, "C library")] += count / units
        for name, count in self.functions.items():
            self.parts[part_of(name)] += count

    def all(self):
        return sum(self.functions.values())


def part_of(function):
    return next((part for part, names in PARTS if re.match(names, function)), REST)


class Sheet:
    """Prints what was measured of each stream; with `rows` as docs/SPEED.md has it."""

    LARGEST = 5
    CAUSES = (
        ("room cleared",),
        ("toolchain's flag",),
        ("values kept on the stack",),
        ("functions entered and left",),
        ("copied",),
        ("values loaded, stored and moved",),
        ("compares and jumps", "checks that stop the program"),
        ("arithmetic",),
        ("atomic", "division", "C library"),
    )

    def __init__(self, functions, rows):
        self.functions, self.rows, self.shares = functions, rows, {}
        if not rows:
            print(f"{'':10} {'convent.':>9} {'goal':>9} {'floor':>9} {'ours':>9} {'ratio':>6} {'over':>9}")

    def stream(self, name, known, floor, share, same):
        (label, goal), ours = GOALS[name], share.all()
        self.shares[name] = share, ours - goal * known
        if self.rows:
            parts = ", ".join(f"{part} {count:,.0f}" for part, count in share.parts.most_common(self.LARGEST))
            print(f"| {label} | {known:,.0f} | {goal * known:,.0f} | {floor:,.0f} | {ours:,.0f} | {ours / known:.2f} | {parts} |", flush=True)
            return
        columns = f"{known:9,.0f} {goal * known:9,.0f} {floor:9,.0f} {ours:9,.0f} {ours / known:6.2f} {ours - goal * known:+9,.0f}"
        print(f"{name:10} {columns} {'' if same else 'DIFFERS'}", flush=True)
        for shares in (share.parts.most_common(), share.functions.most_common(self.functions), share.causes.most_common()):
            print("    " + ", ".join(f"{what} {count:,.0f}" for what, count in shares if count >= ours / 100))

    def carried(self, shape, known, floor, ours):
        if self.rows:
            print(f"| a carried byte, {speed.by(shape)} | {known:.1f} | {CARRIED_GOAL * known:.1f} | {floor:.1f} | {ours:.1f} | {ours / known:.2f} | |", flush=True)
            return
        columns = f"{known:6.2f} {CARRIED_GOAL * known:9.2f} {floor:9.2f} {ours:9.2f} {ours / known:6.2f} {ours - CARRIED_GOAL * known:+9.2f}"
        print(f"byte {speed.by(shape):8} {columns}", flush=True)

    def causes(self):
        """The same streams by cause, behind how much they are over their goals."""
        for name, (share, over) in self.shares.items() if self.rows else ():
            counts = [sum(share.causes[cause] for cause in causes) for causes in self.CAUSES]
            print(f"| {GOALS[name][0]} | {over:+,.0f} | {' | '.join(f'{count:,.0f}' for count in counts)} |")


def streams(bench, conventional, wanted, sheet):
    for name, _, shape, filled, few, many, stream in speed.STREAMS:
        if wanted(name):
            short, long = (bench.counts(shape, filled, stream(units)) for units in (few, many))
            share = Share(bench.program, short, long, (many - few))
            floor, same = bench.floor_of(shape, filled, stream(many), bench.register_writes(long))
            sheet.stream(name, conventional[name]["instructions"], floor * units_a_round(stream, many), share, same)


def units_a_round(stream, many):
    """How many units the stream has for each that bench/run measure speed counts: two of a change that is taken back, four of a round of changes."""
    return round(len(units_of(stream(many))) / many)


def ground(folder, shape, count):
    """The sheet of a server under callgrind that carried so many frames of a full table, and then was stopped."""
    ports, sheet = shape[0] * shape[1], os.path.join(folder, "sheet")
    write_shelf(folder, *shape)
    with open(os.path.join(folder, "lines.in"), "wb") as file:
        file.write(bytes(port % 127 for port in range(ports)) * count)
    enter(folder, full(*shape).encode())
    output = os.path.join(folder, "lines.0.out")
    grind = ["valgrind", "--tool=callgrind", f"--callgrind-out-file={sheet}"]
    serve = [PROGRAM, "serve", "shelf.toml", "j", f"127.0.0.1:{free_port()}", "lines", "1"]
    with subprocess.Popen([*grind, *serve], cwd=folder, stderr=subprocess.PIPE) as process:
        while process.poll() is None and (not os.path.exists(output) or os.path.getsize(output) < ports * count):
            time.sleep(0.05)
        process.send_signal(signal.SIGTERM)
        process.communicate()
    return sheet


def carried(shape, count):
    """Instructions of the functions that carry frames, in a run of so many."""
    with tempfile.TemporaryDirectory(dir=speed.MEMORY) as folder:
        sheet = ground(folder, shape, count)
        told = subprocess.run(["callgrind_annotate", "--threshold=100", sheet], capture_output=True, text=True, check=True).stdout
    of_frames = re.findall(r"^\s*([\d,]+) .*?frame_worker::(?:outputs|carry)::", told, re.M)
    return sum(int(text.replace(",", "")) for text in of_frames)


def frames(folder, conventional, wanted, sheet):
    plain = os.path.join(folder, "frames")
    subprocess.run([COMPILER, "-O2", "-o", plain, os.path.join(TOP, "bench", "c", "frames.c")], check=True)
    for shape in FRAMES if wanted("frames") else ():
        parts = (MANY - FEW) * shape[0] * shape[1]
        low, high = (speed.collected([plain, str(count), str(shape[0])])[0] for count in (FEW, MANY))
        few, many = (carried(shape, count) for count in (FEW, MANY))
        sheet.carried(shape, conventional[speed.by(shape)]["instructions"], (high - low) / parts, (many - few) / parts)


def main():
    parser = argparse.ArgumentParser(usage=__doc__.split("usage: ")[1].split("\n\n")[0])
    parser.add_argument("--functions", type=int, default=8)
    parser.add_argument("--rows", action="store_true")
    parser.add_argument("streams", nargs="*")
    chosen = parser.parse_args()
    wanted = lambda name: not chosen.streams or name in chosen.streams
    with open(speed.CONVENTIONAL, encoding="utf-8") as file:
        conventional = json.load(file)
    sheet = Sheet(chosen.functions, chosen.rows)
    with tempfile.TemporaryDirectory(dir=speed.MEMORY if os.path.isdir(speed.MEMORY) else None) as folder:
        streams(Bench(folder), conventional["streams"], wanted, sheet)
        frames(folder, conventional["frames"], wanted, sheet)
    sheet.causes()


if __name__ == "__main__":
    main()
