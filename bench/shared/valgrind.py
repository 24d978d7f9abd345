"""Instructions of a program, as valgrind's callgrind counts them: they repeat to the digit."""
import re
import shutil
import subprocess

COLLECTED = re.compile(rb"Collected : (\d+)")


def is_here():
    return shutil.which("valgrind") is not None


def instructions(words, text=b""):
    """How many a run over this input takes, with what it wrote; none where it doesn't end well."""
    grind = ["valgrind", "--tool=callgrind", "--callgrind-out-file=/dev/null"]
    done = subprocess.run(grind + words, input=text, capture_output=True, check=False)
    count = COLLECTED.search(done.stderr)
    return None if done.returncode or not count else (int(count[1]), done.stdout)
