"""What `tools/documents` checks: one module a kind. Each has `check(documents)`, which answers how many things it looked at and a line for each failure."""
import os
import re
import subprocess

TOP = os.path.dirname(os.path.dirname(os.path.dirname(os.path.abspath(__file__))))
FENCE = re.compile(r"^```.*?^```", re.MULTILINE | re.DOTALL)


def tracked():
    """The names of all files of the checkout that git keeps or would keep, from the top."""
    listed = subprocess.run(["git", "ls-files", "-z", "-co", "--exclude-standard"], cwd=TOP, capture_output=True, text=True, check=True)
    return sorted(name for name in listed.stdout.split("\0") if name and os.path.isfile(os.path.join(TOP, name)))


def read(name):
    with open(os.path.join(TOP, name), encoding="utf-8") as file:
        return file.read()


def is_document(name):
    return name.endswith(".md")


def without_fences(text):
    """The text with each line of a fenced block left empty, so that lines keep their numbers."""
    return FENCE.sub(lambda found: "\n" * found[0].count("\n"), text)


def line_of(text, place):
    return text.count("\n", 0, place) + 1
