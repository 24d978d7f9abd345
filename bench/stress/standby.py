"""Kills a primary at some moment of its work, again and again, and audits the journal that its standby has.

usage: bench/run stress standby [RUNS [SEED]]     (100 runs, seed 1, where nothing is given)

A standby and a server that has it as its peer run on the loopback. A caller sends changes of circuits one behind the other, another one changes
of users, and the server is killed by signal 9 at a random moment: while it joins, or while changes come. Each change that was acknowledged, by a
response that ended, must be in the standby's journal, and at most the one behind them besides: `dxc check` has the rows of a plain table after so
many changes. The standby ends by itself. Every few runs a server takes over on the standby's journals, and lists the same rows to a caller, and the
users behind the changes of them that were acknowledged, or behind one more. And every few runs the standby is killed instead: the server goes on
alone, and its own journal has every change. Behind one entry the standby's file is the primary's byte for byte; a standby on a journal that holds
bytes, one that is sent something else, and an address in use end with their statuses.
"""
import atexit
import os
import random
import re
import socket
import subprocess
import sys
import tempfile
import threading
import time

from bench.shared.changes import MODULES, SLOTS, commands, listing
from bench.shared.office import LOG_IN, write_shelf
from bench.shared.program import PROGRAM, counted
from bench.shared.server import await_listening, free_pair, free_port
from bench.shared.technicians import Users

# More than a run comes to before it is killed, on most disks.
CHANGES = 600
WAIT = 20


def user_commands(rng, count):
    """Changes of users beside the shelf file's, each with the table after it."""
    work, table = Users(), frozenset()
    for _ in range(count):
        text, table = work.change(rng, table)
        yield text, table


def start(*words):
    return subprocess.Popen([PROGRAM, *words], stdout=subprocess.DEVNULL, stderr=subprocess.PIPE)


def call(port):
    caller = socket.create_connection(("127.0.0.1", port), timeout=WAIT)
    caller.sendall(LOG_IN.encode())
    return caller


class Listener(threading.Thread):
    """Reads what a session is sent, to its end."""

    def __init__(self, caller):
        super().__init__()
        self.caller, self.text = caller, b""
        self.start()

    def run(self):
        try:
            while more := self.caller.recv(65536):
                self.text += more
        except OSError:
            pass

    def responses(self):
        return max(self.text.count(b"\r\n;") - 1, 0)


def start_standby(copy, peer=None):
    """A standby, which has the one of the users' journal beside it, and its port; at this port where one is given."""
    peer = peer or free_pair()
    standby = start("standby", copy, f"127.0.0.1:{peer}")
    standby.users = start("standby", f"{copy}.users", f"127.0.0.1:{peer + 1}")
    atexit.register(standby.users.kill)
    for program, at in ((standby, peer), (standby.users, peer + 1)):
        if not await_listening(at, program):
            sys.exit(f"the standby doesn't listen: {program.poll()}")
    return standby, peer


def start_pair(shelf, journal, copy, lines):
    """A standby, a server that has it as its peer, and the server's port."""
    port = free_port()
    standby, peer = start_standby(copy)
    return standby, start("serve", shelf, journal, f"127.0.0.1:{port}", lines, "1", f"127.0.0.1:{peer}"), port


def sent_changes(port, server, lists, rest):
    """How many changes of each list were acknowledged to a caller that sends them, where `rest` ends it."""
    if not await_listening(port, server):
        rest()
        return [0 for _ in lists]
    callers = [call(port) for _ in lists]
    heard = [Listener(caller) for caller in callers]
    for caller, texts in zip(callers, lists):
        try:
            caller.sendall("".join(texts).encode())
        except OSError:
            pass
    rest()
    for caller, one in zip(callers, heard):
        one.join(WAIT)
        caller.close()
        if b"DENY" in one.text:
            sys.exit(f"a change was denied: {one.text[-200:]}")
    return [one.responses() for one in heard]


def checked(shelf, journal):
    check = subprocess.run([PROGRAM, "check", shelf, journal], capture_output=True, text=True, timeout=WAIT)
    if check.returncode != 0:
        sys.exit(f"check of {journal} ended with status {check.returncode}: {check.stderr}")
    return check.stdout


def stands(shelf, journal, tables, records, acknowledged, least=0):
    """After how many changes the journal stands: those that were acknowledged, or one more."""
    listed = checked(shelf, journal)
    for done in range(max(acknowledged, least), min(acknowledged + 2, len(tables))):
        if listed == listing(tables[done], records + done):
            return done
    sys.exit(f"{journal} behind {acknowledged} acknowledged changes:\n{listed}")


def takes_over(shelf, copy, lines, table, users):
    """A server on the standby's journals lists the rows that stand in it, and one of these tables of users."""
    port = free_port()
    server = start("serve", shelf, copy, f"127.0.0.1:{port}", lines, "1")
    if not await_listening(port, server):
        sys.exit("no takeover: the server doesn't listen")
    caller = call(port)
    heard = Listener(caller)
    caller.sendall(b"RTRV-CRS-T0::ALL:2;RTRV-USER-SECU:::3;")
    end = time.monotonic() + WAIT
    while heard.responses() < 2 and time.monotonic() < end:
        time.sleep(0.005)
    server.kill()
    server.wait()
    heard.join(WAIT)
    caller.close()
    rows = re.findall(rb'"(DS0-\d+-\d+),(DS0-\d+-\d+):1WAY"', heard.text)
    if {(a.decode(), b.decode()) for a, b in rows} != set(table):
        sys.exit(f"after the takeover a caller was listed {heard.text!r}")
    if Users().rows(heard.text.decode()) not in users:
        sys.exit(f"after the takeover a caller was listed the users {heard.text!r}, none of {users}")


def primary_killed(rng, folder, number):
    shelf, lines = os.path.join(folder, "shelf.toml"), os.path.join(folder, "lines")
    journal, copy = os.path.join(folder, "primary.journal"), os.path.join(folder, "standby.journal")
    made = list(commands(rng, frozenset(), CHANGES))
    tables = [frozenset()] + [table for _, table in made]
    of_users = list(user_commands(rng, CHANGES))
    users = [frozenset()] + [table for _, table in of_users]
    before = rng.choice([0, 0, rng.randrange(1, 40)])
    records = run_alone(shelf, journal, [text for text, _ in made[:before]])
    standby, server, port = start_pair(shelf, journal, copy, lines)

    def rest():
        time.sleep(rng.uniform(0, 0.6))
        server.kill()

    done, users_done = sent_changes(port, server, [[text for text, _ in made[before:]], [text for text, _ in of_users]], rest)
    server.wait()
    # A killed process's connection is closed, or reset where a Have had come to it that it hadn't read.
    if standby.wait(WAIT) not in (0, 9):
        sys.exit(f"the standby ended with status {standby.returncode}: {standby.stderr.read()}")
    own = stands(shelf, journal, tables[before:], records, done)
    if b"holds nothing" in standby.stderr.read():
        if done > 0 or users_done > 0 or subprocess.run([PROGRAM, "check", shelf, copy], capture_output=True, timeout=WAIT).returncode != 6:
            sys.exit(f"{done} changes were acknowledged, and the copy holds nothing; or it is a journal")
        return done
    kept = stands(shelf, copy, tables[before:], records, done)
    if kept > own:
        sys.exit(f"the standby has {kept} changes, the primary {own}")
    if number % 5 == 1:
        standby.users.wait(WAIT)
        takes_over(shelf, copy, lines, tables[before + kept], users[users_done : users_done + 2])
    return done + users_done


def joining_killed(rng, folder):
    """How many bytes of a long file the standby has of a primary that was killed while it joined, beside a name that stands for none of them."""
    shelf, lines = os.path.join(folder, "shelf.toml"), os.path.join(folder, "lines")
    journal, copy = os.path.join(folder, "primary.journal"), os.path.join(folder, "standby.journal")
    # No journal, but it is joined before it is looked into.
    whole = rng.randbytes(8 << 20)
    with open(journal, "wb") as file:
        file.write(whole)
    standby, server, _ = start_pair(shelf, journal, copy, lines)
    time.sleep(rng.uniform(0, 0.03))
    server.kill()
    server.wait()
    end = time.monotonic() + 2
    while standby.poll() is None and time.monotonic() < end:
        time.sleep(0.005)
    # It may have been killed before it called.
    standby.kill()
    standby.wait()
    with open(copy, "rb") as file:
        part = file.read()
    if part == b"joining\n":
        with open(f"{copy}.joining", "rb") as file:
            part = file.read()
    elif part != whole:
        sys.exit("the name of a copy stands for a part")
    if part != whole[: len(part)]:
        sys.exit("a file that was joined in part isn't the first bytes of the primary's")
    return len(part)


def is_whole(copy, journal):
    """Whether the standby's file is the primary's."""
    with open(copy, "rb") as one, open(journal, "rb") as other:
        return one.read() == other.read()


def run_alone(shelf, journal, texts):
    """Makes these changes without a standby, and answers how many records there are."""
    session = subprocess.run([PROGRAM, "script", shelf, journal], input=(LOG_IN + "".join(texts)).encode(), capture_output=True, timeout=WAIT)
    if session.returncode != 0 or session.stdout.count(b"COMPLD") != len(texts) + 1:
        sys.exit(f"a session alone ended with status {session.returncode}: {session.stdout[-200:]}")
    return len(texts)


def standby_killed(rng, folder):
    shelf, lines = os.path.join(folder, "shelf.toml"), os.path.join(folder, "lines")
    journal, copy = os.path.join(folder, "primary.journal"), os.path.join(folder, "standby.journal")
    made = list(commands(rng, frozenset(), 60))
    standby, server, port = start_pair(shelf, journal, copy, lines)
    if not await_listening(port, server):
        sys.exit("the server doesn't listen")
    caller = call(port)
    heard = Listener(caller)
    for place, (text, _) in enumerate(made):
        caller.sendall(text.encode())
        if place == 20:
            standby.kill()
            standby.wait()
    end = time.monotonic() + WAIT
    while heard.responses() < len(made) and time.monotonic() < end:
        time.sleep(0.005)
    server.kill()
    server.wait()
    heard.join(WAIT)
    caller.close()
    if heard.text.count(b"COMPLD") != len(made) + 1:
        sys.exit(f"alone the server answered {heard.text[-200:]}")
    if checked(shelf, journal) != listing(made[-1][1], len(made)):
        sys.exit("alone the server's journal lacks a change")


def entered_once(folder):
    """Behind one entry the standby's file is the primary's."""
    shelf, lines = os.path.join(folder, "shelf.toml"), os.path.join(folder, "lines")
    journal, copy = os.path.join(folder, "primary.journal"), os.path.join(folder, "standby.journal")
    standby, server, port = start_pair(shelf, journal, copy, lines)
    if not await_listening(port, server):
        sys.exit("the server doesn't listen")
    caller = call(port)
    heard = Listener(caller)
    caller.sendall(b"ENT-CRS-T0::DS0-1-1,DS0-2-1:2;")
    end = time.monotonic() + WAIT
    while heard.responses() < 1 and time.monotonic() < end:
        time.sleep(0.005)
    if not is_whole(copy, journal) or os.path.getsize(journal) == 0:
        sys.exit("behind one entry the standby's file isn't the primary's")
    server.kill()
    server.wait()
    standby.wait(WAIT)
    heard.join(WAIT)
    caller.close()
    refuses(["standby", journal, f"127.0.0.1:{free_port()}"], b"", 13, b"dxc: standby journal not empty\n")
    refuses(["standby", os.path.join(folder, "new.journal"), f"127.0.0.1:{free_port()}"], b"GET / HTTP/1.0\r\n", 12, b"dxc: standby stream refused\n")
    with socket.socket() as taken:
        taken.bind(("127.0.0.1", 0))
        taken.listen()
        refuses(["standby", os.path.join(folder, "other.journal"), f"127.0.0.1:{taken.getsockname()[1]}"], None, 6, b"dxc: cannot open\n")
    # A name that has no address: one at which nobody answers is called again.
    refuses(["serve", shelf, journal, f"127.0.0.1:{free_port()}", lines, "1", "127.0.0.1"], None, 6, b"dxc: cannot open\n")


def refuses(words, sent, status, text):
    """The program ends with this status, and says this text; where something is sent, behind a call at its address that sends it."""
    program = start(*words)
    if sent is not None:
        port = int(words[2].rsplit(":", 1)[1])
        if not await_listening(port, program):
            sys.exit(f"{words[0]} doesn't listen")
        with socket.create_connection(("127.0.0.1", port), timeout=WAIT) as caller:
            caller.sendall(sent)
            program.wait(WAIT)
    if program.wait(WAIT) != status or text not in (told := program.stderr.read()):
        sys.exit(f"{words} ended with status {program.returncode}: {told!r}")


def main():
    runs, seed = counted(100)
    joined = kept = changes = alone = 0
    for number in range(runs):
        rng = random.Random(1_000_003 * seed + number)
        with tempfile.TemporaryDirectory() as folder:
            write_shelf(folder, MODULES, SLOTS)
            with open(os.path.join(folder, "lines.in"), "wb"):
                pass
            if number % 50 == 5:
                entered_once(folder)
                continue
            if number % 10 == 9:
                standby_killed(rng, folder)
                alone += 1
                continue
            if number % 10 == 4:
                joined += joining_killed(rng, folder)
                continue
            kept += 1
            changes += primary_killed(rng, folder, number)
    print(f"{runs} runs: {kept} primaries killed behind {changes} acknowledged changes, none lost; {joined} bytes of files that were joined in part; {alone} went on alone")


if __name__ == "__main__":
    main()
