"""What rearranging comes to beyond 64 modules, by a simulation in plain C (bench/c/scale.c tells what each line says).

usage: bench/run measure scale MODULES SLOTS [SEED]     (seed 1, where nothing is given)
"""
import subprocess
import sys
import tempfile

from bench.shared.compiled import executable


def main():
    if len(sys.argv) not in (3, 4):
        sys.exit(__doc__)
    with tempfile.TemporaryDirectory() as room:
        subprocess.run([executable("scale", room), *(sys.argv[1:] + ["1"])[:3]], check=True)


if __name__ == "__main__":
    main()
