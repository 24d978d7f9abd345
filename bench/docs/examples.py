"""Runs each example of documents as it stands, and compares what it writes with what the document says.

usage: bench/run docs examples [DOCUMENT..]     (README.md and docs/OPERATING.md where nothing is given)

An example is a block marked `sh` and the block marked `text` after it; a block without one must only succeed. All of a document run in
bash, in order, in one new folder with links to the checkout's launcher, or the program that DXC_PROGRAM names, to its examples and its tools.
Dates and times of headers, carriage returns, and blank lines beyond one are left out of the comparison.
"""
import os
import re
import subprocess
import sys
import tempfile

from bench.shared.program import LAUNCHER, TOP

BLOCK = re.compile(r"^```(sh|text)\n(.*?)^```$", re.MULTILINE | re.DOTALL)
MOMENT = re.compile(r"\b\d\d-\d\d-\d\d \d\d:\d\d:\d\d\b")
SECONDS = 60
DOCUMENTS = ("README.md", os.path.join("docs", "OPERATING.md"))
LINKED = {"dxc": LAUNCHER, "examples": os.path.join(TOP, "examples"), "tools": os.path.join(TOP, "tools")}


def examples(text):
    """Each block of commands with the text that is wanted of it, None where none is."""
    blocks = BLOCK.findall(text)
    for at, (kind, commands) in enumerate(blocks):
        if kind == "sh":
            behind = blocks[at + 1 : at + 2]
            yield commands, behind[0][1] if behind and behind[0][0] == "text" else None


def masked(text):
    """The text without dates, carriage returns, and blank lines beyond one."""
    return re.sub(r"\n{3,}", "\n\n", MOMENT.sub("YY-MM-DD HH:MM:SS", text.replace("\r", ""))).strip("\n")


def ended(commands, folder, world):
    """The status of the commands, and what they wrote; they are given up after a time."""
    how = {"cwd": folder, "env": world, "stdin": subprocess.DEVNULL, "stdout": subprocess.PIPE, "stderr": subprocess.STDOUT}
    try:
        ran = subprocess.run(["bash", "-c", commands], timeout=SECONDS, check=False, **how)
    except subprocess.TimeoutExpired as late:
        return f"none after {SECONDS} s", masked((late.stdout or b"").decode())
    return ran.returncode, masked(ran.stdout.decode())


def run(document):
    """How many examples of the document there are, and how many failed."""
    with open(document, encoding="utf-8") as file:
        text = file.read()
    failed = count = 0
    with tempfile.TemporaryDirectory() as folder:
        world = dict(os.environ, DXC=TOP, PATH=folder + os.pathsep + os.environ["PATH"], LC_ALL="C")
        for name, place in LINKED.items():
            os.symlink(place, os.path.join(folder, name))
        for commands, wanted in examples(text):
            status, written = ended(commands, folder, world)
            count += 1
            if written != masked(wanted) if wanted is not None else status != 0:
                failed += 1
                print(f"--- commands\n{commands}--- wanted\n{wanted}--- written\n{written}\n--- status {status}")
    return count, failed


def main():
    documents = sys.argv[1:] or [os.path.join(TOP, name) for name in DOCUMENTS]
    ran = [run(document) for document in documents]
    for document, (count, failed) in zip(documents, ran):
        print(f"{os.path.relpath(document)}: {count} examples, {failed} failed")
    sys.exit(any(failed for _, failed in ran))


if __name__ == "__main__":
    main()
