"""The users that commands keep, as docs/FORMATS.md describes them and their journal; writes the rows of crates/worked_disks.

usage: bench/run rows users                   writes crates/worked_disks/data/users.txt
       bench/run rows users --check           ends with an error where that file is another one
       bench/run rows users --to FOLDER       writes it there
"""
import contextlib
import hashlib
import io
import string
from dataclasses import dataclass, replace
from types import SimpleNamespace

from bench.rows import generated
from bench.oracle import journal

SID = b"DXC1"
ELEMENT = SimpleNamespace(modules=2, slots=1, equipped={1, 2})
CLASSES = "RPS"
THERE, UNKNOWN, LAST, FULL = "USER ALREADY THERE", "USER NOT KNOWN", "LAST USER OF CLASS S", "64 USERS ARE KEPT"
INVALID, OTHER = "USER OR PID INVALID", "SESSION IS ANOTHER USERS"
ASKING = "ANNA"  # who asks, in the rows
DONE = "COMPLD"


@dataclass(frozen=True)
class User:
    name: str
    letter: str
    salt: bytes
    digest: bytes


def digest_of(salt, pid):
    return hashlib.sha256(salt + pid).digest()


LONG = b"abcdefghijklmnopq"
SHELF = {
    "ANNA": User("ANNA", "S", b"a", digest_of(b"a", b"bc")),
    "CARA": User("CARA", "R", LONG, digest_of(LONG, b"long")),
}


def new_user(name, letter, pid):
    salt = hashlib.sha256(SID + b"\0" + name.encode()).digest()[:16]
    return User(name, letter, salt, digest_of(salt, pid.encode()))


class Bad(Exception):
    """Bytes that are no record, or one that doesn't fit."""


def spelled(kind, name, letter="R", salt=b"", digest=bytes(32), count=None):
    body = bytes([0xA5, kind, CLASSES.index(letter), len(name)]) + name.encode().ljust(10, b"\0")
    return body + bytes([len(salt) if count is None else count]) + salt.ljust(16, b"\0") + b"\0" + digest


def record_of(kind, user):
    if kind == 10:
        return spelled(10, user.name)
    if len(user.salt) > 16:
        return spelled(kind, user.name, user.letter, digest=bytes(32), count=255)
    return spelled(kind, user.name, user.letter, user.salt, user.digest)


def is_name(name):
    letters, digits = string.ascii_uppercase, string.digits
    return 1 <= len(name) <= 10 and name[0] in letters and all(it in letters + digits for it in name)


def change_of(record):
    """The kind of a record's change and its user."""
    kind, letter, size, count = record[1], record[2], record[3], record[14]
    if kind not in (8, 9, 10) or letter > 2 or size > 10:
        raise Bad
    name = record[4 : 4 + size].decode("latin-1")
    if not is_name(name):
        raise Bad
    user = User(name, CLASSES[letter], b"", bytes(32))
    if kind != 10 and count == 255:
        if name not in SHELF:
            raise Bad
        wanted = spelled(kind, name, user.letter, count=255)
        user = replace(SHELF[name], letter=user.letter)
    elif kind != 10:
        if count > 16:
            raise Bad
        user = replace(user, salt=record[15 : 15 + count], digest=record[32:])
        wanted = spelled(kind, name, user.letter, user.salt, user.digest)
    else:
        wanted = spelled(10, name)
    if record != wanted:
        raise Bad
    return kind, user


def take(users, kind, user):
    if (user.name in users) != (kind != 8) or (kind == 8 and len(users) >= 64):
        raise Bad
    if kind == 10:
        del users[user.name]
    else:
        users[user.name] = user


def listed(users):
    return " ".join(f"{name}:{users[name].letter}" for name in sorted(users))


def opened(content):
    """What an opening of these bytes comes to, and the users then."""
    users = dict(SHELF)
    if journal.is_new(content):
        return "users", users
    try:
        area = journal.current(content, ELEMENT.modules, ELEMENT.slots)
    except journal.Refused:
        return "header", None
    for number, record in enumerate(area.records):
        try:
            take(users, *change_of(record))
        except Bad:
            return f"record {number}", None
    return "users", users


class Kept:
    """The users with the records of their changes."""

    def __init__(self):
        self.users, self.records = dict(SHELF), []

    def last_of_s(self, name):
        return self.users[name].letter == "S" and not any(user.letter == "S" and user.name != name for user in self.users.values())

    def keep(self, kind, user):
        take(self.users, kind, user)
        self.records.append(record_of(kind, user))
        return DONE

    def enter(self, uid, pid, letter):
        name = uid.upper()
        if name in self.users:
            return THERE
        if len(self.users) >= 64:
            return FULL
        return self.keep(8, new_user(name, letter, pid))

    def edit(self, uid, pid="", letter=""):
        name = uid.upper()
        if name not in self.users:
            return UNKNOWN
        was = self.users[name]
        letter = letter or was.letter
        if self.last_of_s(name) and letter != "S":
            return LAST
        return self.keep(9, new_user(name, letter, pid) if pid else replace(was, letter=letter))

    def delete(self, uid):
        name = uid.upper()
        if name not in self.users:
            return UNKNOWN
        if self.last_of_s(name):
            return LAST
        return self.keep(10, self.users[name])

    def change_pid(self, uid, old, new):
        name = uid.upper()
        if name != ASKING:
            return OTHER
        if self.login(name, old) == "-":
            return INVALID
        return self.keep(9, new_user(name, self.users[name].letter, new))

    def end_sessions(self, _):
        """Nothing of it is kept, and no row tells of it."""
        return ""

    def rows(self, uid=""):
        name = uid.upper()
        if not name:
            return listed(self.users)
        return f"{name}:{self.users[name].letter}" if name in self.users else UNKNOWN

    def login(self, uid, pid):
        user = self.users.get(uid.upper())
        return user.letter if user and digest_of(user.salt, pid.encode()) == user.digest else "-"

    def bytes(self):
        return journal.header(2, 0, ELEMENT) + b"".join(self.records) + b"\0"


UNITS = {
    "enter": lambda uid, pid, letter: f"ENT-USER-SECU::{uid}:1::{pid},{letter}",
    "edit": lambda uid, pid="", letter="": f"ED-USER-SECU::{uid}:1::{pid},{letter}",
    "delete": lambda uid: f"DLT-USER-SECU::{uid}:1",
    "rows": lambda uid="": f"RTRV-USER-SECU::{uid}:1",
    "change_pid": lambda uid, old, new: f"ED-PID::{uid}:1::{old},{new}",
    "end_sessions": lambda uid: f"CANC-USER-SECU::{uid}:1",
}


def show(kept, steps):
    for word, *given in steps:
        if word == "raw":
            unit, want = given
            print(f"ask {unit}\nwant {want}")
        elif word == "login":
            print(f"login {' '.join(given)}\nwant {kept.login(*given)}")
        elif word == "list":
            print(f"list\nwant {listed(kept.users)}")
        else:
            print(f"ask {UNITS[word](*given)}\n" + f"want {getattr(kept, word)(*given)}".rstrip())


def row(name, *runs, after=True):
    """A row from a new journal, with an opening before each of the runs."""
    kept = Kept()
    print(f"\nrow {name}")
    for steps in runs:
        print("open users")
        show(kept, steps)
        if after:
            print(f"after {kept.bytes().hex()}")


def worked():
    row("users come, once each, and log in at a later opening",
        [("enter", "FAY", "x9", "P"), ("enter", "FAY", "x9", "P"), ("enter", "fay", "y1", "S"), ("rows",), ("delete", "ANNA"), ("login", "FAY", "x9"), ("login", "fay", "x8")],
        [("login", "FAY", "x9"), ("list",)])
    row("class S goes on, and its last user stays",
        [("raw", "ED-USER-SECU::CARA:1", "PARAMETER MISSING"), ("edit", "ANNA", "", "R"), ("edit", "ANNA", "", "S"), ("edit", "CARA", "", "S"), ("login", "CARA", "long"), ("delete", "ANNA"), ("delete", "ZOE"), ("edit", "ZOE", "", "R"), ("rows", "ZOE"), ("login", "ANNA", "bc"), ("edit", "CARA", "", "P")],
        [("list",), ("login", "CARA", "long"), ("login", "ANNA", "bc")])
    row("an edit with a PID has a new salt, one without leaves the secrets",
        [("edit", "ANNA", "k2"), ("login", "ANNA", "bc"), ("login", "ANNA", "k2"), ("edit", "CARA", "", "P"), ("login", "CARA", "long"), ("edit", "CARA", "m3", "S"), ("login", "CARA", "long"), ("login", "CARA", "m3"), ("edit", "ANNA", "", "R")],
        [("list",), ("login", "ANNA", "k2"), ("login", "CARA", "m3")])
    row("one's own PID is replaced by who knows the old one",
        [("change_pid", "ANNA", "bd", "k2"), ("login", "ANNA", "bc"), ("change_pid", "anna", "bc", "k2"), ("login", "ANNA", "bc"), ("login", "ANNA", "k2"), ("change_pid", "ANNA", "bc", "k3"), ("change_pid", "CARA", "long", "k3"), ("login", "CARA", "long"), ("rows",)],
        [("login", "ANNA", "bc"), ("login", "ANNA", "k2"), ("change_pid", "ANNA", "k2", "k2"), ("login", "ANNA", "k2"), ("enter", "B", "p1", "S"), ("delete", "ANNA"), ("change_pid", "ANNA", "k2", "k4"), ("list",)],
        [("login", "ANNA", "k2"), ("enter", "ANNA", "k5", "R"), ("change_pid", "ANNA", "k5", "k6"), ("login", "ANNA", "k6"), ("rows", "ANNA")])
    row("one who was deleted is entered again under another PID",
        [("enter", "B", "p1", "S"), ("delete", "b"), ("login", "B", "p1"), ("enter", "b", "p2", "R"), ("login", "B", "p1"), ("login", "B", "p2"), ("delete", "CARA"), ("enter", "cara", "long", "R"), ("login", "CARA", "long")],
        [("list",), ("login", "CARA", "long")])
    row("what a unit decides by itself comes first",
        [("raw", "ENT-USER-SECU::FAY:1::x9,p", "VALUE NOT KNOWN"), ("raw", "ENT-USER-SECU::ABCDEFGHIJK:1::x9,P", "AID INVALID"), ("raw", "ED-PID::ANNA:1::bc", "PARAMETER MISSING"), ("raw", "ED-PID::ANNA:1::,k2", "PARAMETER MISSING"), ("raw", "ED-PID:::1::bc,k2", "PARAMETER MISSING"), ("raw", "ED-PID::ANNA:1::bc,k2,k2", "PARAMETER TOO MANY"), ("raw", "ED-PID::1ANNA:1::bc,k2", "AID INVALID"), ("login", "ABCDEFGHIJK", "x9"), ("list",)])
    row("the end of a user's sessions leaves nothing in the journal, whether the user is there or not",
        [("end_sessions", "CARA"), ("end_sessions", "anna"), ("end_sessions", "ZOE"), ("raw", "CANC-USER-SECU:::1", "PARAMETER MISSING"), ("raw", "CANC-USER-SECU::CARA:1::x", "PARAMETER TOO MANY"), ("raw", "CANC-USER-SECU::CARA,ANNA:1", "PARAMETER TOO MANY"), ("raw", "CANC-USER-SECU::CARA:1:x", "GENERAL BLOCK NOT EMPTY"), ("raw", "CANC-USER-SECU::1CARA:1", "AID INVALID"), ("raw", "CANC-USER-SECU::ABCDEFGHIJK:1", "AID INVALID"), ("login", "CARA", "long"), ("list",)],
        [("login", "ANNA", "bc"), ("list",)])
    many = [f"U{number:02}" for number in range(62)]
    row("64 users are kept", [("enter", uid, f"p{uid}", "RPS"[number % 3]) for number, uid in enumerate(many)] + [("enter", "ONEMORE", "x", "R"), ("enter", "U00", "x", "R"), ("delete", "U31"), ("enter", "ONEMORE", "x", "R"), ("login", "U61", "pU61"), ("login", "ONEMORE", "x")],
        [("list",), ("login", "U30", "pU30"), ("login", "U31", "pU31")], after=False)


def three_changes():
    kept = Kept()
    for done in (kept.enter("FAY", "x9", "P"), kept.edit("CARA", "", "S"), kept.delete("ANNA")):
        assert done == DONE
    return kept.bytes()


def opening(content, name, line):
    how, users = opened(content)
    print(f"\nrow {name}\n{line}\nopen {how}")
    if users is not None:
        print(f"list\nwant {listed(users)}")


def torn_and_changed():
    whole = three_changes()
    print(f"\nfile {whole.hex()}")
    for size in range(len(whole) + 1):
        opening(whole[:size], f"the first {size} bytes of a journal", f"front {size}")
    for place, was in enumerate(whole):
        for turned in (1, 0x80):
            changed = bytearray(whole)
            changed[place] = was ^ turned
            opening(bytes(changed), f"byte {place} of a journal turned by {turned}", f"byte {place} {changed[place]}")


def images(kept, step, *runs):
    """A change, and what a crash leaves of it at these calls."""
    before = listed(kept.users)
    print("open users")
    show(kept, [step])
    for start, apart in runs:
        print(f"images {start} {apart}\nusers {before}\nusers {listed(kept.users)}")


def crashed():
    print("\nfile \n\nrow a crash at each call of four changes, and of the making of the journal")
    kept = Kept()
    for step in (("enter", "FAY", "x9", "P"), ("change_pid", "ANNA", "bc", "k2"), ("edit", "CARA", "", "S"), ("delete", "ANNA")):
        images(kept, step, (0, 1))
    print("open users")
    show(kept, [("list",)])
    print(f"\nfile {(journal.header(1, 0, ELEMENT) + bytes(1)).hex()}")
    print("\nrow a crash at calls of a checkpoint, and at each of the changes behind it")
    kept = Kept()
    images(kept, ("delete", "CARA"), (0, 64), (500, 1))
    images(kept, ("edit", "ANNA", "k2"), (0, 1))
    images(kept, ("enter", "CARA", "long", "R"), (0, 1))
    print("open users")
    show(kept, [("list",), ("login", "ANNA", "k2"), ("login", "CARA", "long")])


def rows():
    print("# Users that commands keep, as bench/run rows users reckons them.")
    print("#")
    print("#   file HEX       the journal's bytes for the rows behind it; none: a new one")
    print("#   row TEXT       begins a row                front N     of its journal only the first bytes")
    print("#   byte N B       one byte of it is this      open TEXT   an opening, and what it must come to")
    print("#   ask UNIT       ANNA of class S asks        login UID PID")
    print("#   list           the users in order          want TEXT   what must come of the line before; none: nothing is told")
    print("#   after HEX      what the journal is then")
    print("#   images N M     at each Mth call from N on a crash leaves one of these:   users TEXT")
    worked()
    torn_and_changed()
    crashed()


def texts():
    written = io.StringIO()
    with contextlib.redirect_stdout(written):
        rows()
    return {"crates/worked_disks/data/users.txt": written.getvalue()}


if __name__ == "__main__":
    generated.main(texts, __doc__)
