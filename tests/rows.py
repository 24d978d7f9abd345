#!/usr/bin/env python3
"""Runs the worked rows of one session over real files (crates/worked_rows/data/rows.txt, which tells what a line says) through the real program.

usage: tests/rows.py [NAME]     (the rows whose name has this in it, or all)

The clock isn't held here, so the date and time of each header are left out of the comparison, and of how a run ends its status is compared.
"""
import os
import re
import subprocess
import sys
import tempfile
import time

TOP = os.path.dirname(os.path.dirname(os.path.abspath(__file__)))
sys.path.insert(0, TOP)
from bench.shared.program import PROGRAM

DATA = os.path.join(TOP, "crates", "worked_rows", "data")
MOMENT = re.compile(rb" \d\d-\d\d-\d\d \d\d:\d\d:\d\d\r\n")
MASKED = b" 26-03-01 12:00:00\r\n"
SECONDS = 20
# How long nothing comes where a piece has no bytes, and between two pieces.
QUIET, APART = 0.02, 0.002
# The number of each status that a row names in full.
ENDS = {"Done": 0, "BadShelf": 3}


class Different(Exception):
    """A run did something else than its row says."""


def rows_of(lines):
    """Each row's name, the lines in front of its runs, and those of each run, as pairs of a word and the rest."""
    for line in lines:
        if not line or line.startswith("#"):
            continue
        word, _, rest = line.partition(" ")
        if word == "row":
            name, head, runs = rest, [], []
            yield name, head, runs
        elif word == "run":
            runs.append([(word, rest)])
        else:
            (runs[-1] if runs else head).append((word, rest))


def last(lines, word, other):
    return ([rest for given, rest in lines if given == word] or [other])[-1]


def bytes_of(lines, word):
    return b"".join(bytes.fromhex(rest) for given, rest in lines if given == word)


def shelf_of(head):
    with open(os.path.join(DATA, last(head, "shelf", None)), "rb") as file:
        text = file.read()
    swap = last(head, "swap", None)
    if swap is not None:
        old, new = swap.replace("~", "\n").encode().split(b"|")
        text = text.replace(old, new)
    return text.ljust(int(last(head, "pad", 0)), b"\n")


def message(sid, text):
    return f"\r\n\n   {sid}".encode() + MASKED + text.encode()


def completed(sid, tag):
    return message(sid, f"M  {tag} COMPLD\r\n;")


def denied(sid, rest):
    tag, code, text = rest.split(" ", 2)
    return message(sid, f"M  {tag} DENY\r\n   {code}\r\n   /* {text} */\r\n;")


def reported(sid, rest):
    number, text = rest.split(" ", 1)
    return message(sid, f'A  {number} REPT DBCHG\r\n   "{text}"\r\n;')


def listed(sid, rest):
    tag, *rows = rest.split(" ")
    return message(sid, f"M  {tag} COMPLD\r\n" + "".join(f'   "{row}"\r\n' for row in rows) + ";")


def line(sid, rest):
    return message(sid, "") if rest == "H" else (rest if rest in (";", ">") else rest + "\r\n").encode()


def log_in(rest):
    uid, tag = rest.split(" ")
    return f"ACT-USER::{uid}:{tag}::bc;".encode()


def filled(rest):
    count, text = rest.split(" ")
    return text.encode() * int(count)


# The bytes that a line of each word wants written, and those that it sends.
WANTED = {
    "login": lambda sid, rest: completed(sid, rest.split(" ")[1]),
    "want": line,
    "compld": completed,
    "deny": denied,
    "report": reported,
    "rows": listed,
    "list": lambda sid, rest: f"{rest}\n".encode(),
}
SENT = {"login": log_in, "send": str.encode, "hex": bytes.fromhex, "fill": filled}
# What else a run's lines say.
OTHER = {"run", "pieces", "after", "users", "status", "end"}


def feed(process, sent, pieces):
    """Sends the bytes in the pieces, and what is left over at once. One that ended before is told by what it wrote."""
    try:
        for length in pieces:
            time.sleep(APART if length else QUIET)
            process.stdin.write(sent[:length])
            process.stdin.flush()
            sent = sent[length:]
    except BrokenPipeError:
        sent = b""
    return sent


def run(folder, sid, lines):
    unknown = {word for word, _ in lines} - {*WANTED, *SENT, *OTHER}
    if unknown:
        raise Different(f"the words {unknown} aren't known here")
    wanted = b"".join(WANTED[word](sid, rest) for word, rest in lines if word in WANTED)
    sent = b"".join(SENT[word](rest) for word, rest in lines if word in SENT)
    pieces = [int(length) for length in last(lines, "pieces", "").split()]
    process = subprocess.Popen([PROGRAM, *lines[0][1].split()], cwd=folder, stdin=subprocess.PIPE, stdout=subprocess.PIPE, stderr=subprocess.DEVNULL)
    rest = feed(process, sent, pieces)
    try:
        written, _ = process.communicate(rest, timeout=SECONDS)
    except subprocess.TimeoutExpired:
        process.kill()
        raise Different(f"it hadn't ended after {SECONDS} s") from None
    return process.returncode, MOMENT.sub(MASKED, written), wanted


def content(folder, name):
    path = os.path.join(folder, name)
    if not os.path.exists(path):
        return b""
    with open(path, "rb") as file:
        return file.read()


def check_row(head, runs):
    with tempfile.TemporaryDirectory() as folder:
        for name, text in (("s", shelf_of(head)), ("j", bytes_of(head, "old")), ("j.users", bytes_of(head, "people"))):
            with open(os.path.join(folder, name), "wb") as file:
                file.write(text)
        for lines in runs:
            status, written, wanted = run(folder, last(head, "sid", "DXC1"), lines)
            end = last(lines, "end", None)
            due = ENDS[end.partition("(")[0]] if end else int(last(lines, "status", 0))
            if status != due:
                raise Different(f"status {status} in place of {due}")
            if written != wanted:
                raise Different(f"it wrote {written!r} in place of {wanted!r}")
            for word, name in (("after", "j"), ("users", "j.users")):
                if last(lines, word, None) is not None and content(folder, name) != bytes_of(lines, word):
                    raise Different(f"{name} holds {content(folder, name).hex()}")


def main():
    part = sys.argv[1] if len(sys.argv) > 1 else ""
    with open(os.path.join(DATA, "rows.txt"), encoding="utf-8") as file:
        rows = [row for row in list(rows_of(file.read().split("\n"))) if part in row[0]]
    failed = 0
    for name, head, runs in rows:
        try:
            check_row(head, runs)
        except Different as why:
            failed += 1
            print(f"row {name}: {why}")
    print(f"{len(rows)} rows, {failed} failed")
    sys.exit(failed > 0 or not rows)


if __name__ == "__main__":
    main()
