"""What an output byte costs in frames full of joins, beside plain C over the same words: time, and instructions where valgrind is there.

usage: bench/run measure frames [FRAMES]     (50000 frames, where nothing is given)

It proves and builds bench/crates/frames, and compiles bench/c/frames.c by clang, or what CC names; both print the same sums. It takes the prover.
"""
import subprocess
import sys
import tempfile

from bench.measure.crate import proved
from bench.shared import valgrind
from bench.shared.compiled import executable
from bench.shared.program import expect

SHAPES = ((8, 24), (32, 32), (64, 96))
FEW, MANY = 100, 300


def carried(program, *words):
    return subprocess.run([program, *words], stdout=subprocess.PIPE, text=True, check=True).stdout


def times(program, frames):
    """What it takes for a byte of each shape."""
    for line in carried(program, str(frames)).splitlines():
        words = line.split()
        modules, slots, nanos = int(words[0]), int(words[2].rstrip(":")), int(words[-2])
        print(f"{modules} by {slots}: {nanos * 1000 / frames / (modules * slots):.0f} picoseconds a byte")


def instructions(program):
    """What two hundred frames more cost."""
    for modules, slots in SHAPES:
        few, many = (valgrind.instructions([program, str(frames), str(modules)])[0] for frames in (FEW, MANY))
        print(f"{modules} by {slots}: {(many - few) / (MANY - FEW) / (modules * slots):.2f} instructions a byte")


def main():
    frames = int(sys.argv[1]) if len(sys.argv) > 1 else 50_000
    with tempfile.TemporaryDirectory() as room:
        programs = {"proved": proved("frames", room), "plain": executable("frames", room, compiler="clang")}
        expect(carried(programs["plain"]) == carried(programs["proved"]), "plain C carries other bytes")
        for name, program in programs.items():
            print(f"{name}:")
            times(program, frames)
            if valgrind.is_here():
                instructions(program)


if __name__ == "__main__":
    main()
