"""The office of most trials: a shelf file whose one user is ANNA, and what logs her in."""
import os

# SHA-256 of the salt "a" and the PID "bc", which every user has.
DIGEST = "ba7816bf8f01cfea414140de5dae2223b00361a396177a9cb410ff61f20015ad"
LOG_IN = "ACT-USER::ANNA:1::bc;"


def shelf_text(modules, slots, sid="DXC1", users=(("ANNA", "S"),)):
    """The text of a shelf file with these users, each a UID and a class."""
    text = f'sid = "{sid}"\nmodules = {modules}\nslots = {slots}\n'
    return text + "".join(f'[[user]]\nuid = "{uid}"\nclass = "{rank}"\nsalt = "61"\ndigest = "{DIGEST}"\n' for uid, rank in users)


def write_shelf(folder, modules, slots):
    """Writes a shelf file into the folder; its path."""
    path = os.path.join(folder, "shelf.toml")
    with open(path, "w", encoding="utf-8") as file:
        file.write(shelf_text(modules, slots))
    return path


def begin_anew(journal):
    """Removes the journal, and that of the users beside it."""
    for name in (journal, journal + ".users"):
        if os.path.exists(name):
            os.remove(name)
