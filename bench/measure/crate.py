"""The crates of measures in bench/crates, which the gate leaves out for its time.

Their sources end in .in, since rt reads every .rt and .antt file of a checkout as one of a crate that crates.txt names.
"""
import os
import shutil
import subprocess

from bench import TOP
from bench.shared.program import expect


def proved(name, room):
    """Proves and builds a crate of measures in a copy of the checkout's crates, and compares what it prints with what it must; the program's path."""
    held, crate = os.path.join(TOP, "bench", "crates", name), os.path.join(room, "crates", f"bench_{name}")
    # With the times of files, by which the prover knows what is proved.
    subprocess.run(["cp", "-a", "crates", "crates.txt", "HANDLES", room], cwd=TOP, check=True)
    shutil.copytree(held, crate)
    for folder, _, files in os.walk(crate):
        for file in files:
            os.rename(os.path.join(folder, file), os.path.join(folder, file.removesuffix(".in")))
    with open(os.path.join(held, "libraries.txt"), encoding="utf-8") as libraries, open(os.path.join(room, "crates.txt"), "a", encoding="utf-8") as table:
        table.write(libraries.read())
    printed = subprocess.run(["rt", "run"], cwd=crate, stdout=subprocess.PIPE, text=True, check=True).stdout
    with open(os.path.join(held, "stdout"), encoding="utf-8") as file:
        expect(printed == file.read(), f"it prints\n{printed}")
    return os.path.join(crate, "out", f"bench_{name}")
