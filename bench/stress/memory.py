"""Refuses the program each of its growths of memory in turn, one a run, and looks at what it says and at its journal.

usage: bench/run stress memory

A run that is refused memory ends with status 8 (or, where what is refused isn't needed to serve, as it would have), says so, and the
journal after it stands for what it stood for, or for the commands that were answered COMPLD. A server whose thread is refused ends with
status 7 where no session runs, and else goes on with those that do. It takes a C compiler, for a library that
is loaded before the C library (bench/c/refusing.c).
"""
import os
import re
import socket
import subprocess
import tempfile
import time

from bench import TOP
from bench.shared.compiled import library
from bench.shared.office import LOG_IN, begin_anew
from bench.shared.program import PROGRAM, expect, run_program
from bench.shared.server import free_port

SHELF = os.path.join(TOP, "examples", "shelf.toml")
COMMANDS = LOG_IN + "ENT-CRS-T0::DS0-2-1,DS0-1-1:2;RTRV-CRS-T0:::3;"
KEPT = ["DS0-1-1,DS0-2-1:1WAY"]
ENTERED = "DS0-2-1,DS0-1-1:1WAY"
NO_MEMORY, NO_THREAD = 8, 7
# What it notes while it serves, which may be told or lost.
NOTED = re.compile(r"dxc: \d{4}-\d\d-\d\d \d\d:\d\d:\d\d UTC: .*\n")
SAYS = {NO_MEMORY: "dxc: no memory\n", NO_THREAD: "dxc: cannot start a thread\n"}


def run(words, commands="", **world):
    return run_program(words, commands, env=dict(os.environ, **world))


def rows(journal):
    checked = run(["check", SHELF, journal])
    expect(checked.returncode == 0, f"the journal is refused after a run: {checked.stderr}")
    return checked.stdout.splitlines()[:-1]


def answered(server, port):
    """What a session of the server is answered; nothing where it ends before it serves one."""
    while server.poll() is None:
        try:
            with socket.create_connection(("127.0.0.1", port), 5) as link:
                link.sendall(COMMANDS.encode())
                text = b""
                while text.count(b";") < COMMANDS.count(";"):
                    more = link.recv(4096)
                    if not more:
                        break
                    text += more
                return text.decode()
        except OSError:
            time.sleep(0.01)
    return ""


def served(folder, journal, **world):
    """A server that is sent the commands over one session, and then ended, as a run that came to its end."""
    lines = os.path.join(folder, "l")
    open(f"{lines}.in", "wb").close()
    port = free_port()
    words = [PROGRAM, "serve", SHELF, journal, f"127.0.0.1:{port}", lines, "2"]
    with subprocess.Popen(words, stderr=subprocess.PIPE, text=True, env=dict(os.environ, **world)) as server:
        text = answered(server, port)
        status = server.poll()
        server.kill()
        return subprocess.CompletedProcess(words, 0 if status is None else status, text, server.stderr.read())


def refused_in_turn(folder, refusing, mode):
    """Runs the mode with each growth refused; how many growths there were, and how many runs ended for want of memory."""
    journal, reached = os.path.join(folder, "j"), os.path.join(folder, "reached")
    ended = number = 0
    while True:
        number += 1
        begin_anew(journal)
        if os.path.exists(reached):
            os.remove(reached)
        made = run(["script", SHELF, journal], LOG_IN + "ENT-CRS-T0::DS0-1-1,DS0-2-1:2;")
        expect(made.returncode == 0 and rows(journal) == KEPT, "a journal can't be made")
        world = {"LD_PRELOAD": refusing, "REFUSED": str(number), "REACHED": reached}
        if mode == "serve":
            ran = served(folder, journal, **world)
        else:
            ran = run([mode, SHELF, journal], COMMANDS if mode == "script" else "", **world)
        expect(ran.returncode in (0, NO_MEMORY) or (mode == "serve" and ran.returncode == NO_THREAD), f"{mode}, growth {number}: status {ran.returncode}, {ran.stderr!r}")
        said = NOTED.sub("", ran.stderr)
        expect(said == SAYS.get(ran.returncode, ""), f"{mode}, growth {number}: it says {ran.stderr!r}")
        ended += ran.returncode != 0
        wanted = KEPT + [ENTERED] * ("M  2 COMPLD" in ran.stdout)
        expect(sorted(rows(journal)) == wanted, f"{mode}, growth {number}: the journal has {rows(journal)}")
        if not os.path.exists(reached):
            return number - 1, ended


def main():
    with tempfile.TemporaryDirectory() as folder:
        refusing = library("refusing", folder)
        for mode in ("script", "check", "serve"):
            growths, ended = refused_in_turn(folder, refusing, mode)
            expect(ended > 0, f"{mode}: no growth was refused")
            print(f"{mode}: {growths} growths, each refused in a run of its own: {ended} runs ended for want of memory, nothing was lost")


if __name__ == "__main__":
    main()
