"""Tries the program against what goes wrong around it, point by point, with real processes.

usage: bench/run stress outside_world [POINT..]     (all of them where none is named)

peer         a PEER that doesn't answer a call holds a start up for seconds, and is served without
check        `check` changes no byte of any file and runs beside a server; nothing but a journal or its beginning becomes one
sync         a disk whose sync failed refuses every change until the program is started anew, and then has all that was answered
waiting      while a change waits for a disk's sync, nobody else does who only reads, or whom the table denies
guesses      after three denied log-ins in a row each further one takes a second, also of who hangs up and calls again, and nobody else's does
dead         callers whose machines are gone are let go within two minutes, silent ones and ones with answers on their way
unattended   sixteen callers that are silent, or send what is refused, hold no place for more than a minute or so where nobody logs in; who is
             logged in and silent stays, and so does a script that waits for its first unit
idle         who is logged in and silent is let go by the minutes that the shelf file names for the class, and told in a note; who sends something in
             time stays, as does one of a class without a limit, and a script
full         the seventeenth caller is told so and let go, and comes in once a place is free
slow         a caller that takes nothing is given up after ten seconds
descriptors  a shortage of descriptors ends no place: after it sixteen callers are served again
accepts      so it is of each error of an accept that passes, and each place tells why it lets nobody in, once
told         each cause of "cannot open" is told by name, in a second line on any stream
users        a shelf file and a users' journal that disagree are told by the user's name, whatever the edit, and bear all others
lines        a FIFO without a writer, or whose writer comes again, stops nothing; one program at a time has an output, and keeps its bytes
             where it can't start

Each point prints a line, and ends by itself: `dead`, `unattended` and `idle` within two minutes, each other one within half of one. The program is the checkout's, or
the one that DXC_PROGRAM names. Nothing leaves the loopback.
"""
import contextlib
import ctypes
import errno
import os
import resource
import select
import socket
import struct
import subprocess
import sys
import tempfile
import time

from bench import Wrong
from bench.shared import office
from bench.shared.compiled import library
from bench.shared.program import PROGRAM, expect
from bench.shared.server import PLACES, Server, await_listening, ends_at, free_port, until

MODULES, SLOTS = 4, 8
# Who only reads waits for no disk: a few milliseconds, and what a busy machine adds.
PROMPT = 1
# Seconds in which who doesn't log in is let go: a minute where nothing comes, longer where units come, and what a busy machine adds.
SOONEST, LONGEST = 55, 110
LOG_IN = office.LOG_IN.encode()
ENTRY = b"ENT-CRS-T0::DS0-1-1,DS0-2-1:2;"
DELETION = b"DLT-CRS-T0::DS0-1-1,DS0-2-1:3;"
ROW = "DS0-1-1,DS0-2-1:1WAY\nRECORDS 1\n"
CANNOT_OPEN = (6, "dxc: cannot open")
# A filter that drops each packet that comes to a socket (linux/filter.h): its machine might as well be gone.
SO_ATTACH_FILTER, DROP_ALL = 26, struct.pack("HBBI", 0x06, 0, 0, 0)
ESTABLISHED = "01"


def write(path, content):
    with open(path, "wb") as file:
        file.write(content)


def content(path):
    with open(path, "rb") as file:
        return file.read()


def run(folder, words, commands=b"", **more):
    """The status, what came to standard output, and the lines of standard error."""
    ended = subprocess.run([PROGRAM, *words], cwd=folder, input=commands, capture_output=True, timeout=30, check=False, **more)
    return ended.returncode, ended.stdout.decode(), ended.stderr.decode().splitlines()


class Element(Server):
    """A server whose end of each connection is looked at."""

    def call(self, receive=None):
        """A caller, with so many bytes of room for what it doesn't read."""
        caller = socket.socket()
        if receive:
            caller.setsockopt(socket.SOL_SOCKET, socket.SO_RCVBUF, receive)
        caller.settimeout(10)
        caller.connect(("127.0.0.1", self.port))
        return caller

    def ends(self):
        """The server's end of each connection, by the caller's port: its state and how many bytes wait to be sent."""
        return {port: (state, waiting) for port, state, waiting in ends_at(self.port)}

    def is_joined(self, port):
        return self.ends().get(port, ("", 0))[0] == ESTABLISHED


def answer(caller, commands):
    """What comes of the commands, up to the end of so many answers."""
    caller.sendall(commands)
    got = b""
    while got.count(b"\n;") < commands.count(b";"):
        piece = caller.recv(65536)
        expect(piece, f"the connection ended after {got!r}")
        got += piece
    return got.decode()


def is_served(caller):
    with contextlib.suppress(OSError, Wrong):
        return "COMPLD" in answer(caller, LOG_IN)
    return False


def peer(folder):
    with socket.socket() as deaf, contextlib.ExitStack() as held:
        # Where as many wait as may, the system drops each further call.
        deaf.bind(("127.0.0.1", 0))
        deaf.listen(0)
        for _ in range(4):
            waiting = held.enter_context(socket.socket())
            waiting.setblocking(False)
            waiting.connect_ex(deaf.getsockname())
        time.sleep(0.2)
        address = f"127.0.0.1:{deaf.getsockname()[1]}"
        started = time.monotonic()
        port = free_port()
        process = subprocess.Popen([PROGRAM, "serve", "shelf.toml", "j", f"127.0.0.1:{port}", "lines", "1", address], cwd=folder, stderr=subprocess.PIPE)
        try:
            expect(await_listening(port, process), f"it doesn't serve; its status is {process.poll()}")
            took = time.monotonic() - started
            expect(took < 15, f"the start was held up for {took:.1f} s")
        finally:
            process.kill()
        said = process.communicate()[1].decode()
        expect(f": standby at {address}: connection timed out: serving alone, and calling again\n" in said, f"it said {said}")
    return f"serves alone after {took:.1f} s"


def files_of(folder):
    """Each file's bytes and time of change by its name, but for outputs: a server empties those when its workers begin."""
    paths = {name: os.path.join(folder, name) for name in os.listdir(folder) if not name.endswith(".out")}
    return {name: (content(path), os.stat(path).st_mtime_ns) for name, path in paths.items()}


def check(folder):
    def checked(journal):
        before = files_of(folder)
        ended = run(folder, ["check", "shelf.toml", journal])
        expect(files_of(folder) == before, f"check of {journal} changed a file")
        return ended

    expect(checked("absent")[:2] == (0, "RECORDS 0\n"), "check of no file")
    expect(run(folder, ["check", "shelf.toml", "none/j"])[0] == 6, "check in no folder")
    run(folder, ["script", "shelf.toml", "j"], LOG_IN + ENTRY)
    expect(checked("j")[:2] == (0, ROW), "check of a journal")
    with Element(folder) as server:
        expect(checked("j")[:2] == (0, ROW), "check beside a server")
        with server.call() as caller:
            expect("DENY" not in answer(caller, LOG_IN + DELETION), "the server was disturbed")
            expect(checked("j")[:2] == (0, "RECORDS 2\n"), "check after a change")
    notes = os.path.join(folder, "notes")
    write(notes, b"circuits of MAY 1997")
    told = [CANNOT_OPEN[1], "dxc: notes: it holds something else than a journal or the beginning of one"]
    for mode in ("check", "script"):
        expect(run(folder, [mode, "shelf.toml", "notes"]) == (6, "", told), f"{mode} of a text")
    expect(content(notes) == b"circuits of MAY 1997", "a text was written over")
    for beginning in (b"", b"\0", b"\0DXCJ", b"\0DXCJRNL\2"):
        write(os.path.join(folder, "begun"), beginning)
        expect(run(folder, ["script", "shelf.toml", "begun"], LOG_IN + ENTRY)[1].count("COMPLD") == 2, f"no journal was made of {beginning}")
    return "no byte changed"


def sync(folder):
    failing = os.path.join(folder, "failing")
    world = dict(os.environ, LD_PRELOAD=library("syncs", folder), FAILING=failing)
    script = [PROGRAM, "script", "shelf.toml", "j"]
    session = subprocess.Popen(script, cwd=folder, env=world, stdin=subprocess.PIPE, stdout=subprocess.PIPE, bufsize=0)

    def sent(commands):
        session.stdin.write(commands)
        got = b""
        while got.count(b"\n;") < commands.count(b";"):
            ready, _, _ = select.select([session.stdout], [], [], 10)
            expect(ready, f"no answer after {got!r}")
            got += os.read(session.stdout.fileno(), 65536)
        return got.decode()

    try:
        expect("DENY" not in sent(LOG_IN + ENTRY), "no entry")
        write(failing, b"")
        expect("JOURNAL WRITE FAILED" in sent(DELETION), "a sync that failed was answered")
        os.remove(failing)
        for commands in (b"INIT-SYS:::4;", DELETION, b"ENT-CRS-T0::DS0-1-2,DS0-2-2:5;"):
            expect("JOURNAL WRITE FAILED" in sent(commands), f"{commands.decode()} was completed on a disk whose sync had failed")
        expect("COMPLD" in sent(b"RTRV-CRS-T0:::6;"), "retrievals ended")
    finally:
        session.kill()
        session.communicate()
    expect("DENY" not in run(folder, ["script", "shelf.toml", "j"], LOG_IN + b"INIT-SYS:::4;ENT-CRS-T0::DS0-1-2,DS0-2-2:5;")[1], "a new start didn't go on")
    return "refused until it was started anew"


def waiting(folder):
    slow = os.path.join(folder, "slow")
    world = dict(os.environ, LD_PRELOAD=library("syncs", folder), SLOW=slow)
    asked = {
        "a retrieval": b"RTRV-CRS-T0::ALL:3;",
        "what stands of the system": b"RTRV-SYS:::4;",
        "a unit that is no command": b"ENT CRS;",
        "a command of no such port": b"ENT-CRS-T0::DS0-99-1,DS0-2-1:5;",
        "a look": b"ALW-MSG-ALL:::6;",
        "a denial": b"DLT-CRS-T0::DS0-1-2,DS0-2-2:7;",
    }
    with Element(folder, env=world) as server, server.call() as changer, server.call() as reader, server.call() as late:
        expect(is_served(changer) and is_served(reader), "no log-in")
        write(slow, b"")
        changer.sendall(ENTRY)
        time.sleep(0.3)
        longest = 0.0
        for what, unit in [*asked.items(), *asked.items()]:
            started = time.monotonic()
            answer(reader, unit)
            took = time.monotonic() - started
            expect(took < PROMPT, f"{what} took {took:.2f} s")
            longest = max(longest, took)
        started = time.monotonic()
        expect(is_served(late), "no log-in beside a slow disk")
        took = time.monotonic() - started
        expect(took < PROMPT, f"a log-in took {took:.2f} s")
        started = time.monotonic()
        expect("COMPLD" in answer(changer, b"") or "COMPLD" in changer.recv(65536).decode(), "the change wasn't made")
        waited = time.monotonic() - started
        expect(waited > 1, f"the disk was not slow: {waited:.2f} s")
        longest = max(longest, took, waits_for_users(server, changer, reader))
        os.remove(slow)
    return f"a reader waited {1000 * longest:.0f} ms at most, a change {waited:.1f} s"


def waits_for_users(server, changer, reader):
    """How long at most a log-in, a listing of users and a denied change of them take beside a change of users whose syncs are slow."""
    changer.sendall(b"ENT-USER-SECU::BERT:8::pw-nine,R;")
    time.sleep(0.3)
    longest = 0.0
    for what, unit in (("a listing of users", b"RTRV-USER-SECU::ALL:9;"), ("a denied change of users", b"DLT-USER-SECU::NOBODY:10;")):
        started = time.monotonic()
        answer(reader, unit)
        took = time.monotonic() - started
        expect(took < PROMPT, f"{what} took {took:.2f} s")
        longest = max(longest, took)
    started = time.monotonic()
    with server.call() as late:
        expect(is_served(late), "no log-in beside a change of users")
    took = time.monotonic() - started
    expect(took < PROMPT, f"a log-in beside a change of users took {took:.2f} s")
    started = time.monotonic()
    said = changer.recv(65536).decode()
    waited = time.monotonic() - started
    expect("COMPLD" in said and waited > 1, f"a change of users was answered {said!r} in {waited:.2f} s")
    return max(longest, took)


def guesses(folder):
    wrong = b"ACT-USER::ANNA:2::cb;"

    def took(caller, unit, code):
        started = time.monotonic()
        said = answer(caller, unit)
        expect(code in said, f"{unit.decode()} was answered {said!r}")
        return time.monotonic() - started

    with Element(folder) as server, contextlib.ExitStack() as held:
        # So that one place is left, which whoever calls next has.
        others = [held.enter_context(server.call()) for _ in range(PLACES - 1)]
        expect(all(map(is_served, others)), "not all are served")
        with server.call() as guesser:
            quick = max(took(guesser, wrong, "DENY") for _ in range(3))
            slow = min(took(guesser, wrong, "DENY") for _ in range(2))
        time.sleep(0.5)
        with server.call() as again:
            slow = min(slow, took(again, LOG_IN, "COMPLD"))
            quick = max(quick, took(again, b"CANC-USER:::3;", "COMPLD"), took(again, LOG_IN, "COMPLD"))
    expect(quick < 0.5 and slow > 0.9, f"quick ones took {quick:.2f} s, slow ones {slow:.2f} s")
    return f"each further one took {slow:.1f} s"


def lose(caller):
    """From here on nothing comes to the caller, and so nothing is acknowledged."""
    program = ctypes.create_string_buffer(DROP_ALL)
    caller.setsockopt(socket.SOL_SOCKET, SO_ATTACH_FILTER, struct.pack("HL", 1, ctypes.addressof(program)))


def dead(folder):
    with Element(folder) as server, contextlib.ExitStack() as held:
        callers = [held.enter_context(server.call()) for _ in range(3)]
        expect("DENY" not in answer(callers[0], LOG_IN + b"ALW-MSG-ALL:::2;"), "no reports")
        expect(is_served(callers[1]), "no log-in")
        ports = [caller.getsockname()[1] for caller in callers]
        expect(until(lambda: all(map(server.is_joined, ports)), 5), "not joined")
        for caller in callers:
            lose(caller)
        with server.call() as other:
            expect("DENY" not in answer(other, LOG_IN + ENTRY), "no change to be told of")
        started = time.monotonic()
        gone = until(lambda: not any(map(server.is_joined, ports)), 120)
        expect(gone, f"{sum(map(server.is_joined, ports))} of three callers whose machines are gone are there after two minutes")
    return f"gone after {time.monotonic() - started:.0f} s"


def knock(callers):
    """Sends a unit that is refused, since nobody is logged in, and takes what the server says; which of them it has let go."""
    gone = set()
    for caller in callers:
        try:
            caller.sendall(ENTRY)
            if not caller.recv(65536):
                gone.add(caller)
        except (BrokenPipeError, ConnectionResetError):
            gone.add(caller)
    return gone


def unattended(folder):
    with Element(folder) as server, contextlib.ExitStack() as held:
        callers = [held.enter_context(server.call()) for _ in range(PLACES)]
        attended, busy, silent = callers[0], callers[1:6], callers[6:]
        expect(is_served(attended), "no log-in")
        script = held.enter_context(subprocess.Popen([PROGRAM, "script", "shelf.toml", "other"], cwd=folder, stdin=subprocess.PIPE, stdout=subprocess.PIPE))
        started, left, knocked = time.monotonic(), set(callers[1:]), time.monotonic()
        ended = {}
        while left and time.monotonic() - started < LONGEST:
            gone = {caller for caller in select.select([caller for caller in silent if caller in left], [], [], 0.2)[0] if not caller.recv(1)}
            if time.monotonic() - knocked > 1:
                gone |= knock([caller for caller in busy if caller in left])
                knocked = time.monotonic()
            ended |= {caller: time.monotonic() - started for caller in gone}
            left -= gone
        expect(not left, f"{len(left)} callers who didn't log in are there after {LONGEST} s")
        soonest, longest = min(ended.values()), max(ended.values())
        expect(soonest > SOONEST, f"one was let go after {soonest:.0f} s")
        expect("DENY" not in answer(attended, ENTRY), "who is logged in isn't served")
        for _ in range(PLACES - 1):
            expect(is_served(held.enter_context(server.call())), "no place became free")
        said = script.communicate(LOG_IN, timeout=10)[0].decode()
        expect("COMPLD" in said and script.returncode == 0, f"a script that waited ended with {script.returncode} and {said!r}")
    return f"let go after {soonest:.0f} to {longest:.0f} s"


def ends_of(callers, seconds, attended=None):
    """After how many seconds each was let go, of those that were; every fifteen of them the attended one sends something."""
    started, ended, spoke = time.monotonic(), {}, time.monotonic()
    while time.monotonic() - started < seconds:
        for caller in select.select([caller for caller in callers if caller not in ended], [], [], 0.2)[0]:
            if not caller.recv(65536):
                ended[caller] = time.monotonic() - started
        if attended and time.monotonic() - spoke > 15:
            attended.sendall(b"\r\n")
            spoke = time.monotonic()
    return ended


def idle(folder):
    shelf = os.path.join(folder, "shelf.toml")
    users = (("ANNA", "S"), ("BEN", "P"), ("CARA", "R"))
    top, rest = office.shelf_text(MODULES, SLOTS, users=users).split("[[user]]", 1)
    write(shelf, f"{top}idle = {{ R = 1, P = 1 }}\n[[user]]{rest}".encode())
    with Element(folder) as server, contextlib.ExitStack() as held:
        silent, told, busy, free = (held.enter_context(server.call()) for _ in range(4))
        for caller, uid, more in ((silent, "CARA", ""), (told, "BEN", "ALW-MSG-ALL:::2;"), (busy, "CARA", ""), (free, "ANNA", "")):
            expect("DENY" not in answer(caller, f"ACT-USER::{uid}:1::bc;{more}".encode()), f"{uid} didn't log in")
        words = [PROGRAM, "script", "shelf.toml", "other"]
        script = held.enter_context(subprocess.Popen(words, cwd=folder, stdin=subprocess.PIPE, stdout=subprocess.PIPE, bufsize=0))
        script.stdin.write(b"ACT-USER::CARA:1::bc;")
        ended = ends_of([silent, told, busy, free], LONGEST, attended=busy)
        expect(set(ended) == {silent, told}, f"{len(ended)} were let go, after {sorted(ended.values())}")
        soonest, longest = min(ended.values()), max(ended.values())
        expect(soonest > SOONEST, f"one was let go after {soonest:.0f} s")
        expect("DENY" not in answer(free, ENTRY) and "DENY" not in answer(busy, b"RTRV-CRS-T0:::3;"), "who is logged in isn't served")
        said = script.communicate(b"RTRV-HDR:::2;", timeout=10)[0].decode()
        expect(said.count("COMPLD") == 2 and script.returncode == 0, f"a script that waited ended with {script.returncode} and {said!r}")
        server.process.kill()
        noted = server.process.stderr.read().decode()
        expect(noted.count("caller gone, nothing came from it for longer than its class may be idle") == 2, f"it noted {noted!r}")
    return f"let go after {soonest:.0f} to {longest:.0f} s"


def full(folder):
    with Element(folder) as server, contextlib.ExitStack() as held:
        callers = [held.enter_context(server.call()) for _ in range(PLACES)]
        expect(all(map(is_served, callers)), "not all of sixteen are served")
        for commands in (b"", LOG_IN):
            with server.call() as late:
                late.sendall(commands)
                late.settimeout(5)
                told = b""
                try:
                    while piece := late.recv(4096):
                        told += piece
                except TimeoutError:
                    raise Wrong(f"the seventeenth was told {told!r} and not let go") from None
                expect(told == b"dxc: all places are taken, call again later\r\n", f"the seventeenth was told {told!r}")
        callers[3].close()
        time.sleep(0.5)
        with server.call() as next_one:
            expect(is_served(next_one), "no place became free")
    return "told and let go"


def slow(folder):
    with Element(folder) as server, server.call(4096) as caller:
        expect("DENY" not in answer(caller, LOG_IN + ENTRY), "no log-in")
        port = caller.getsockname()[1]
        caller.setblocking(False)
        waiting, since = -1, time.monotonic()
        while server.is_joined(port):
            with contextlib.suppress(BlockingIOError, ConnectionError):
                caller.send(b"RTRV-CRS-T0:::7;" * 4096)
            now = server.ends().get(port, ("", waiting))[1]
            if now != waiting:
                waiting, since = now, time.monotonic()
            expect(time.monotonic() - since < 25, "it is there after 25 seconds")
            time.sleep(0.05)
        taken = time.monotonic() - since
    expect(9.0 <= taken <= 12.0, f"it was given up after {taken:.1f} s")
    return f"given up after {taken:.1f} s"


def limit(server, count):
    hard = resource.prlimit(server.process.pid, resource.RLIMIT_NOFILE)[1]
    resource.prlimit(server.process.pid, resource.RLIMIT_NOFILE, (count, hard))


def descriptors(folder):
    with Element(folder) as server:
        own = f"/proc/{server.process.pid}"
        time.sleep(0.5)
        threads = len(os.listdir(f"{own}/task"))
        with contextlib.ExitStack() as held:
            limit(server, max(int(name) for name in os.listdir(f"{own}/fd")) + 3)
            for _ in range(8):
                held.enter_context(server.call())
            time.sleep(6)
        limit(server, 1024)
        time.sleep(1)
        left = len(os.listdir(f"{own}/task"))
        with contextlib.ExitStack() as held:
            callers = [held.enter_context(server.call()) for _ in range(PLACES)]
            for caller in callers:
                caller.settimeout(2)
            served = sum(map(is_served, callers))
    expect((left, served) == (threads, PLACES), f"of {threads} threads {left} are left, and {served} callers are served")
    return "no place was lost"


def accepts(folder):
    refusing, notes = (os.path.join(folder, name) for name in ("refusing", "notes"))
    world = dict(os.environ, LD_PRELOAD=library("accepts", folder), REFUSING=refusing)
    passing = (errno.EMFILE, errno.ENFILE, errno.ENOMEM, errno.ECONNABORTED)
    with open(notes, "wb") as errors, Element(folder, errors=errors, env=world) as server:
        for number in passing:
            write(refusing + ".new", str(number).encode())
            os.rename(refusing + ".new", refusing)
            with contextlib.ExitStack() as held:
                callers = [held.enter_context(server.call()) for _ in range(PLACES)]
                # Longer than sixteen failed accepts take, which would close a place.
                time.sleep(2)
                os.remove(refusing)
                expect(all(map(is_served, callers)), f"not all are served behind {os.strerror(number)}")
            count = content(notes).decode().count(f": nobody can be let in: {os.strerror(number)} ")
            expect(1 <= count <= PLACES, f"{os.strerror(number)} was told {count} times")
    return f"{len(passing)} errors passed over"


def told_lines(folder, words, name, text):
    status, wrote, lines = run(folder, words)
    wanted = (CANNOT_OPEN[0], "", [CANNOT_OPEN[1], f"dxc: {name}: {text}"])
    # A standby that had begun its copy says in one line more what became of it.
    last = all("standby ended, no primary could call; copy holds nothing" in line for line in lines[2:])
    expect((status, wrote, lines[:2]) == wanted and last, f"{' '.join(words)} ended with {(status, wrote, lines)}")


def told(folder):
    absent, busy, taken = "No such file or directory", "Address already in use", "another program has it"
    os.mkdir(os.path.join(folder, "folder"))
    at = f"127.0.0.1:{free_port()}"
    serve = ["serve", "shelf.toml", "other"]
    with Element(folder) as server:
        used = f"127.0.0.1:{server.port}"
        causes = [
            (["check", "no.toml", "j"], "no.toml", absent),
            (["check", "folder", "j"], "folder", "Is a directory"),
            (["script", "shelf.toml", "none/j"], "none/j", absent),
            (["script", "shelf.toml", "folder"], "folder", "Is a directory"),
            (["script", "shelf.toml", "j"], "j", taken),
            (["script", "shelf.toml", "a\nb/j"], "a\\nb/j", absent),
            ([*serve, at, "nothing", "1"], "nothing.in", absent),
            ([*serve, used, "other", "1"], used, busy),
            ([*serve, "192.0.2.1:3083", "other", "1"], "192.0.2.1:3083", "Cannot assign requested address"),
            ([*serve, "here", "other", "1"], "here", "invalid socket address"),
            ([*serve, at, "other", "1", "there"], "there", "invalid socket address"),
            (["standby", "copy", used], used, busy),
            (["standby", "j", at], "j", taken),
        ]
        write(os.path.join(folder, "other.in"), b"")
        for words, name, text in causes:
            told_lines(folder, words, name, text)
    return f"{len(causes)} causes"


def lines(folder):
    fifo, output = os.path.join(folder, "fifo.in"), os.path.join(folder, "fifo.0.out")
    os.mkfifo(fifo)
    write(output, b"of the day before")
    held = socket.socket()
    with held:
        held.bind(("127.0.0.1", 0))
        held.listen()
        words = ["serve", "shelf.toml", "other", f"127.0.0.1:{held.getsockname()[1]}", "fifo", "1"]
        with contextlib.suppress(subprocess.TimeoutExpired):
            expect(run(folder, words)[0] == 6, "two had one address")
        expect(content(output) == b"of the day before", "the output of a server that didn't start was emptied")
    with Element(folder, lines="fifo"):
        for count in (1, 2):
            with open(fifo, "wb", buffering=0) as writer:
                writer.write(bytes(MODULES * SLOTS))
            expect(until(lambda c=count: os.stat(output).st_size == c * MODULES * SLOTS, 5), f"frame {count} didn't come out")
        ended = run(folder, ["serve", "shelf.toml", "other", f"127.0.0.1:{free_port()}", "fifo", "1"])
        expect(ended[0] == 6, "two servers had one output")
        expect(os.stat(output).st_size == 2 * MODULES * SLOTS, "a second server emptied the output")
    return "frames go on"


def users(folder):
    def shelf(*uids, digest=office.DIGEST):
        anna, others = (office.shelf_text(MODULES, SLOTS, users=[(uid, "S") for uid in some]) for some in (["ANNA"], uids))
        text = anna + "".join(others.partition("[[user]]")[1:]).replace(office.DIGEST, digest)
        write(os.path.join(folder, "shelf.toml"), text.encode())

    def ended(words=("check", "shelf.toml")):
        status, _, told = run(folder, [*words, "j"])
        return status, told

    # What a command did of whom, who stood in the file before, and who after.
    edits = {"DLT-USER-SECU::BEN:2;": (["BEN"], []), "ENT-USER-SECU::BEN:2::pid,P;": ([], ["BEN"]), "ED-USER-SECU::BEN:2::other;": (["BEN"], [])}
    for command, (before, after) in edits.items():
        office.begin_anew(os.path.join(folder, "j"))
        shelf(*before)
        expect(run(folder, ["script", "shelf.toml", "j"], LOG_IN + command.encode())[1].count("COMPLD") == 2, f"{command} was denied")
        shelf(*after)
        line = "dxc: user \"BEN\": shelf file and users' journal disagree: its record 0, counted from 0, makes no change"
        for mode in ("check", "script", "export"):
            expect(ended((mode, "shelf.toml")) == (4, ["dxc: journal refused", line]), f"{mode} after {command} ended with {ended()}")
        shelf(*before, "CARA")
        expect(ended() == (0, []), f"a further user isn't borne after {command}: {ended()}")
        shelf(*before, digest="00" * 32)
        expect(ended() == (0, []), f"another digest isn't borne after {command}: {ended()}")
        shelf(*before)
        expect(ended() == (0, []), f"the file as it was isn't taken up after {command}: {ended()}")
    return f"{len(edits)} edits told by name, the way back taken"


POINTS = (peer, check, sync, waiting, guesses, dead, unattended, idle, full, slow, descriptors, accepts, told, users, lines)


def tried(point):
    with tempfile.TemporaryDirectory() as folder:
        office.write_shelf(folder, MODULES, SLOTS)
        write(os.path.join(folder, "lines.in"), b"")
        try:
            print(f"{point.__name__} passed: {point(folder)}", flush=True)
            return True
        except (Wrong, OSError, subprocess.TimeoutExpired) as why:
            print(f"{point.__name__} failed: {why}", flush=True)
            return False


def main():
    named = sys.argv[1:] or [point.__name__ for point in POINTS]
    unknown = set(named) - {point.__name__ for point in POINTS}
    if unknown:
        sys.exit(__doc__)
    passed = [tried(point) for point in POINTS if point.__name__ in named]
    print(f"{sum(passed)} passed, {len(passed) - sum(passed)} failed")
    sys.exit(not all(passed))


if __name__ == "__main__":
    main()
