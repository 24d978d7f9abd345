"""The README of each crate: it is there, short, in the usual parts, and names files, clauses and laws of its own crate.

After the word "clause" or "clauses" names in backticks are clauses of the crate's functions, after "law" or "laws" functions of its laws. The names of all
other words are checked as in any document (names.py).
"""
import os
import re

from checks import TOP, line_of, read, tracked
from checks.edits import crates

LEAST, MOST = 60, 150
PARTS = ("**Contract.** ", "**Tested.** ", "**Look first at** ", "**Unlike what one might expect.** ")
NAMED = re.compile(r"\b(clause|law)s? ((?:`\w+`(?:, (?:by )?| and )?)+)")
WORD = re.compile(r"`(\w+)`")
OWN_FILE = re.compile(r"(?<![\w/-])(?:src|specs|proofs)/[\w./-]*\w")
CLAUSE = re.compile(r"\b(?:ensures|requires) (\w+) \{")
FUNCTION = re.compile(r"\bpub fn (\w+)")


def names_of(crate):
    """The clauses of the crate's functions, with the words of its specifications, and its public functions."""
    clauses, functions = set(), set()
    for file in tracked():
        if file.startswith((f"crates/{crate}/src/", f"crates/{crate}/specs/")):
            text = read(file)
            clauses |= set(CLAUSE.findall(text))
            functions |= set(FUNCTION.findall(text))
    return {"clause": clauses, "law": functions}


def faults_of(crate):
    name = f"crates/{crate}/README.md"
    if not os.path.isfile(os.path.join(TOP, name)):
        yield f"{name}:1: the crate has no README"
        return
    text = read(name)
    count = len(text.split())
    if not LEAST <= count <= MOST:
        yield f"{name}:1: {count} words, {LEAST} to {MOST} are wanted"
    heads = [part for part in PARTS if f"\n{part}" in text]
    if not text.startswith(f"# {crate}\n") or heads != list(PARTS):
        yield f"{name}:1: it wants the crate's name as its title, and these parts: {' '.join(PARTS)}"
    known = names_of(crate)
    for found in NAMED.finditer(text):
        for word in WORD.findall(found[2]):
            if word not in known[found[1]]:
                yield f"{name}:{line_of(text, found.start())}: the crate has no {found[1]} {word}"
    for file in OWN_FILE.finditer(text):
        if not os.path.exists(os.path.join(TOP, "crates", crate, file[0])):
            yield f"{name}:{line_of(text, file.start())}: the crate has no file {file[0]}"


def check(_):
    return len(crates()), [fault for crate in crates() for fault in faults_of(crate)]
