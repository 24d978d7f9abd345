"""The program that is tried: the one that DXC_PROGRAM names, or that of this checkout, which the launcher makes ready; and what each trial does with it."""
import os
import subprocess
import sys

from bench import TOP, Wrong

LAUNCHER = os.path.abspath(os.environ.get("DXC_PROGRAM") or os.path.join(TOP, "dxc"))


def made_ready():
    """The program's path. Where there is none, the launcher has said why."""
    if os.environ.get("DXC_PROGRAM"):
        return LAUNCHER
    ran = subprocess.run([LAUNCHER, "--program"], stdin=subprocess.DEVNULL, stdout=subprocess.PIPE, text=True, check=False)
    return ran.stdout.strip() if ran.returncode == 0 else sys.exit(ran.returncode)


def counted(count):
    """The count and the seed that the script's words give, or this count and seed 1; the seed is printed."""
    words = [int(word) for word in sys.argv[1:3]]
    count, seed = words + [count, 1][len(words) :]
    print(f"seed {seed}", flush=True)
    return count, seed


def expect(fact, what):
    """Ends the trial with status 1 where the fact doesn't hold, and says what is wrong."""
    if not fact:
        raise Wrong(what)


def run_program(words, commands="", **more):
    """The program's run over these commands, with what it wrote."""
    return subprocess.run([PROGRAM, *words], input=commands, capture_output=True, text=True, check=False, **more)


def version():
    """The program's version."""
    return run_program(["--version"]).stdout.split()[1]


PROGRAM = made_ready()
