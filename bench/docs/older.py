"""Tries an older program on the files of this one, and this one on what that leaves, for the chapter on going back in docs/OPERATING.md.

usage: bench/run docs older OLDER     (the older program; it may be built without proofs, for a trial)

It writes how each run ended, whether the files were changed, and what each journal comes to.
"""
import os
import shutil
import subprocess
import sys
import tempfile

from bench.shared.changes import MODULES, SLOTS
from bench.shared.office import LOG_IN, write_shelf
from bench.shared.program import PROGRAM

CHANGES = LOG_IN + 'ENT-CRS-T0::DS0-1-1,DS0-2-1:2::2WAY,"C 7";RMV-MID::MID-1:3;ENT-USER-SECU::FAY:4::cb,P;'
MORE = LOG_IN + "ENT-CRS-T0::DS0-1-2,DS0-3-1:2;"
LOOKS = LOG_IN + "RTRV-CRS-T0:::2;"
FAY = "ACT-USER::FAY:1::cb;"


class Office:
    """A folder with a shelf file and a journal, and what a program does there."""

    def __init__(self, folder):
        self.folder = folder
        write_shelf(folder, MODULES, SLOTS)

    def content(self):
        names = [name for name in ("j", "j.users") if os.path.exists(os.path.join(self.folder, name))]
        return {name: open(os.path.join(self.folder, name), "rb").read() for name in names}

    def run(self, what, program, mode, commands=""):
        before = self.content()
        ran = subprocess.run([program, mode, "shelf.toml", "j"], cwd=self.folder, input=commands, capture_output=True, text=True, check=False)
        after = self.content()
        changed = [name for name in after if before.get(name) != after[name]]
        told = ran.stdout.split("\n")[:-1] if mode == "check" else f"{ran.stdout.count('COMPLD')} completed, {ran.stdout.count('DENY')} denied"
        print(f"{what}: status {ran.returncode} {ran.stderr.strip()!r}, {told}, changed {changed}, version {after['j'][8:9].hex()}")


def going_back(older):
    with tempfile.TemporaryDirectory() as folder:
        office = Office(folder)
        office.run("this one changes", PROGRAM, "script", CHANGES)
        office.run("the older one audits", older, "check")
        office.run("the older one looks", older, "script", LOOKS)
        office.run("a user entered by this one, at the older one", older, "script", FAY)
        office.run("the older one changes", older, "script", MORE)
        office.run("this one audits", PROGRAM, "check")
        office.run("that user, at this one", PROGRAM, "script", FAY)


def going_on(older):
    with tempfile.TemporaryDirectory() as folder:
        office = Office(folder)
        office.run("the older one changes", older, "script", MORE)
        for what, mode, commands in (("audits", "check", ""), ("looks", "script", LOOKS), ("changes", "script", CHANGES)):
            office.run(f"this one {what}", PROGRAM, mode, commands)
            shutil.copytree(folder, folder + ".copy")
            Office(folder + ".copy").run("the older one audits then", older, "check")
            shutil.rmtree(folder + ".copy")


if __name__ == "__main__":
    if len(sys.argv) != 2:
        sys.exit(__doc__.split("\n\n")[1])
    going_back(os.path.abspath(sys.argv[1]))
    going_on(os.path.abspath(sys.argv[1]))
