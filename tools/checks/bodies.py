"""Wrong bodies: docs/WRONG_BODIES.md is what docs/wrong_bodies.tsv and the folders of edits come to.

The table has a line a body: the crate, the edit's name, the function that it changes, what it would do, and the outcome. That is `refused` with
the clauses that refuse it, or `accepted` with the reason why it stands so. A refused one is a file of `must-fail` or `further-edits`, an accepted
one of `accepted-edits`; an accepted one is tried again where its call is changed.
"""
import os

from checks import TOP, read
from checks.edits import crates, edits

DATA, PAGE = "docs/wrong_bodies.tsv", "docs/WRONG_BODIES.md"
HEAD = ["crate", "edit", "function", "what it would do", "outcome"]
REFUSING = ("must-fail", "further-edits")
ACCEPTED = "accepted-edits"

TEXT = """# Wrong bodies

`tools/documents --write` writes this page from `docs/wrong_bodies.tsv` and from the folders of edits. A wrong body is an edit of a source, in its crate's `must-fail/`
(the gate tries those), `further-edits/` (`tools/further-edits` tries those) or `accepted-edits/`: the prover is to refuse the edits of the former two and accepts
those of the last. The table lists what was tried last: most by somebody who wrote none of the code, after a reading of public calls against their specification,
and those of new calls and laws by who wrote these.

## Accepted

{accepted}

## By the crate

How many edits there are of each kind; and of those tried last, how many were refused and how many accepted. `dxc_leaving` is a trait without bodies.
Both calls of `dxc_causes` give the one value of their type, so a wrong body of theirs can only stop or wait. `tried` holds tests alone; `dxc` and the
programs of rows carry no contract of the product, and what they have was in no round.

{counts}

## Tried last

{tried}
"""


def bodies():
    """The lines of the table, as lists of five texts."""
    lines = read(DATA).splitlines()
    return [line.split("\t") for line in lines[1:]]


def is_accepted(body):
    return body[4].startswith("accepted")


def cell(text):
    return text.replace("|", "\\|")


def table(head, rows):
    lines = ["| " + " | ".join(head) + " |", "|" + "---|" * len(head)]
    return "\n".join(lines + ["| " + " | ".join(cell(text) for text in row) + " |" for row in rows])


def counted(crate, of_crate):
    accepted = sum(is_accepted(body) for body in of_crate)
    kinds = [edits(crate, kind) for kind in (*REFUSING, ACCEPTED)]
    return [crate, *(str(number) for number in (*kinds, len(of_crate) - accepted, accepted))]


def page():
    known, order = bodies(), crates()
    by_crate = {crate: [body for body in known if body[0] == crate] for crate in order}
    accepted = [[f"`{crate}`", f"`{body[1]}`", f"`{body[2]}`", body[3], body[4].removeprefix("accepted: ")] for crate in order for body in by_crate[crate] if is_accepted(body)]
    rows = [counted(crate, by_crate[crate]) for crate in order]
    rows.append(["all", *(str(sum(int(row[at]) for row in rows)) for at in range(1, 6))])
    sections = []
    for crate in order:
        tried = [[f"`{body[1]}`", f"`{body[2]}`", body[3], body[4]] for body in by_crate[crate] if not is_accepted(body)]
        if tried:
            sections.append(f"### {crate}\n\n" + table(["edit", "function", "what it would do", "outcome"], tried))
    return TEXT.format(
        accepted=table(["crate", "edit", "function", "what it would do", "why it stands"], accepted),
        counts=table(["crate", "must-fail", "further", "accepted edits", "refused", "accepted"], rows),
        tried="\n\n".join(sections),
    )


def is_there(body):
    folders = (ACCEPTED,) if is_accepted(body) else REFUSING
    return any(os.path.isfile(os.path.join(TOP, "crates", body[0], folder, f"{body[1]}.edit")) for folder in folders)


def check(_):
    failed, lines = [], read(DATA).splitlines()
    if lines[0].split("\t") != HEAD:
        failed.append(f"{DATA}:1: the columns are {', '.join(HEAD)}")
    for number, line in enumerate(lines[1:], 2):
        body = line.split("\t")
        if len(body) != len(HEAD) or not all(body):
            failed.append(f"{DATA}:{number}: a line has {len(HEAD)} columns, none empty")
        elif not body[4].startswith(("refused: ", "accepted: ")):
            failed.append(f"{DATA}:{number}: an outcome is refused or accepted, with its clauses or its reason")
        elif not is_there(body):
            failed.append(f"{DATA}:{number}: {body[0]} has no edit {body[1]} that is so")
    if not failed:
        named = {(body[0], body[1]) for body in bodies() if is_accepted(body)}
        for crate in crates():
            folder = os.path.join(TOP, "crates", crate, ACCEPTED)
            for name in sorted(os.listdir(folder)) if os.path.isdir(folder) else []:
                if (crate, name.removesuffix(".edit")) not in named:
                    failed.append(f"{DATA}:1: the accepted edit {name} of {crate} has no line")
        if read(PAGE) != page():
            failed.append(f"{PAGE}:1: it isn't what tools/documents --write makes of {DATA}")
    return len(lines), failed


def write():
    with open(os.path.join(TOP, PAGE), "w", encoding="utf-8") as file:
        file.write(page())
