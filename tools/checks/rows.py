"""Rows: what their generators write is what the crates hold, and each word that begins a line is one of docs/ROWS.md."""
import os
import re
import subprocess
import sys

from checks import TOP, read, tracked

# Each ends with an error where a file of its own is another one (`--check`), and names it; bench/rows/walk.py's rows are among those of restarts.
GENERATORS = ("journals", "restarts", "users")


def run(generator, *words):
    return subprocess.run([sys.executable, os.path.join(TOP, "bench", "run"), "rows", generator, *words], capture_output=True, text=True, check=False)


def unknown_words():
    """A line for each word of a file that docs/ROWS.md hasn't."""
    known = set(re.findall(r"`([a-z]+)\b[^`]*`", read("docs/ROWS.md")))
    for name in tracked():
        if re.fullmatch(r"crates/worked_\w+/data/\w+\.txt", name):
            begun = {line.split(" ", 1)[0]: number for number, line in enumerate(read(name).splitlines(), 1) if line and not line.startswith("#")}
            yield from (f"{name}:{number}: the word {word} isn't in docs/ROWS.md" for word, number in begun.items() if word not in known)


def check(_):
    failed = list(unknown_words())
    for generator in GENERATORS:
        done = run(generator, "--check")
        if done.returncode:
            failed.append(f"bench/rows/{generator}.py:1: {(done.stderr or done.stdout).strip().splitlines()[-1]}")
    return len(GENERATORS), failed


def write():
    for generator in GENERATORS:
        run(generator).check_returncode()
