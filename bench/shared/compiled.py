"""The C programs and libraries in bench/c: CC names the compiler, cc where it names none."""
import os
import subprocess

from bench import TOP


def executable(name, folder, *flags, compiler="cc"):
    """Compiles a source of bench/c into the folder; the path of what came of it."""
    to = os.path.join(folder, name)
    source = os.path.join(TOP, "bench", "c", f"{name}.c")
    subprocess.run([os.environ.get("CC", compiler), "-O2", *flags, "-o", to, source], check=True)
    return to


def library(name, folder):
    """The same of a library that LD_PRELOAD puts before the C library."""
    return executable(name, folder, "-shared", "-fPIC", "-ldl")
