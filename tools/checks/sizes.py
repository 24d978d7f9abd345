"""How long documents may be, in words: what is to be read at one sitting stays short."""
import os

from checks import TOP, read

MOST = {"README.md": 900, "docs/ARCHITECTURE.md": 2000}


def check(_):
    there = [name for name in MOST if os.path.isfile(os.path.join(TOP, name))]
    counted = {name: len(read(name).split()) for name in there}
    return len(there), [f"{name}:1: {count} words, at most {MOST[name]} are wanted" for name, count in counted.items() if count > MOST[name]]
