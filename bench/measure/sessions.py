"""Units a second of 1, 4 and 16 sessions at one state, each on a link in memory and a thread of its own; and instructions of a unit, where valgrind is there.

usage: bench/run measure sessions [UNITS]     (20000 of each session, at most 65000, where nothing is given)

It proves and builds bench/crates/sessions; it takes the prover.
"""
import re
import subprocess
import sys
import tempfile

from bench.measure.crate import proved
from bench.shared import valgrind

KINDS = ("rows", "denials", "changes")
FEW, MANY = 1000, 3000
ANSWERED = re.compile(r"(\d+) (?:completed|denied),")


def main():
    units = sys.argv[1] if len(sys.argv) > 1 else "20000"
    with tempfile.TemporaryDirectory() as room:
        program = proved("sessions", room)
        for line in subprocess.run([program, units], stdout=subprocess.PIPE, text=True, check=True).stdout.splitlines():
            answered, nanos = sum(map(int, ANSWERED.findall(line))), int(line.split()[-2])
            print(f"{line.split(': ')[0]}: {answered * 1_000_000_000 // nanos} units a second")
        for kind in KINDS if valgrind.is_here() else ():
            few, many = (valgrind.instructions([program, str(count), "1", kind])[0] for count in (FEW, MANY))
            print(f"{kind}: {(many - few) // (MANY - FEW)} instructions a unit")


if __name__ == "__main__":
    main()
