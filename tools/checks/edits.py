"""Edits: which crates have further edits alone, as docs/PROVED.md lists them, and that each crate has a row of docs/PLANTS.md. tools/checks/bodies.py counts edits."""
import os
import re

from checks import TOP, line_of, read

PLANTS, PROVED = "docs/PLANTS.md", "docs/PROVED.md"
ROW = re.compile(r"^\| (\w+) \|", re.MULTILINE)
ALONE = re.compile(r"These crates of the product have further edits alone: ([^.]*)\.")
TRIALS = ("worked_", "tried")


def crates():
    """The crates of crates.txt, in its order."""
    return re.findall(r"^(\w+)[^#\n]*?:", read("crates.txt"), re.MULTILINE)


def edits(crate, kind):
    """How many edits a crate has in the folder of that name."""
    folder = os.path.join(TOP, "crates", crate, kind)
    return sum(name.endswith(".edit") for name in os.listdir(folder)) if os.path.isdir(folder) else 0


def alone():
    """The crates of the product that the gate tries no edit of, though they have some, as a list in words."""
    product = [crate for crate in crates() if not crate.startswith(TRIALS)]
    found = [f"`{crate}`" for crate in product if edits(crate, "must-fail") == 0 < edits(crate, "further-edits")]
    return ", ".join(found[:-1]) + f" and {found[-1]}"


def check(_):
    rows = set(ROW.findall(read(PLANTS)))
    failed = [f"{PLANTS}:1: {crate} has no row" for crate in crates() if crate not in rows]
    proved = read(PROVED)
    listed = ALONE.search(proved)
    if listed and listed[1] != alone():
        failed.append(f"{PROVED}:{line_of(proved, listed.start())}: the crates with further edits alone are {alone()}")
    return len(rows) + 1, failed


def write():
    text = ALONE.sub(lambda _: f"These crates of the product have further edits alone: {alone()}.", read(PROVED))
    with open(os.path.join(TOP, PROVED), "w", encoding="utf-8") as file:
        file.write(text)
