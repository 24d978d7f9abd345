"""What each program that makes rows does with them: writes the crates' data, or compares it."""
import os
import sys

from bench import TOP


def main(texts, usage):
    """Writes each text to its file, named from the top of the checkout; with --check ends with an error where a file is another one; with --to FOLDER writes
    them into that folder, for a comparison by hand."""
    match sys.argv[1:]:
        case []:
            write(texts(), TOP)
        case ["--to", folder]:
            write({os.path.basename(name): text for name, text in texts().items()}, folder)
        case ["--check"]:
            check(texts())
        case _:
            sys.exit(usage)


def write(texts, folder):
    for name, text in texts.items():
        with open(os.path.join(folder, name), "w", encoding="utf-8", newline="") as file:
            file.write(text)


def check(texts):
    for name, text in texts.items():
        with open(os.path.join(TOP, name), encoding="utf-8", newline="") as file:
            held = file.read()
        if held != text:
            lines = zip(held.splitlines() + [""], text.splitlines() + [""])
            number = next((at for at, (one, other) in enumerate(lines, 1) if one != other), 1)
            sys.exit(f"{name}:{number}: it isn't what {os.path.relpath(sys.argv[0], TOP)} writes")
