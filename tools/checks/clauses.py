"""Clauses that docs/THEOREMS.md names for each answer: those outside of brackets are clauses of the calls in whose row they stand."""
import re

from checks import line_of, read, tracked

TABLE = re.compile(r"^\| call \| answer \| when \| clause \|\n\|[-|]+\|\n((?:\|.*\n)+)", re.MULTILINE)
NAME = re.compile(r"`([\w:]+)`")
FUNCTION = re.compile(r"^( *)(?:pub )?(?:pub\(crate\) )?fn (\w+)\b(.*?)(?:^\1\{|;$)", re.MULTILINE | re.DOTALL)
CLAUSE = re.compile(r"\bensures (\w+) \{")


def clauses():
    """The names of the clauses of all functions of a name, by crate and name."""
    found = {}
    for file in tracked():
        if file.startswith("crates/") and file.endswith(".rt"):
            for function in FUNCTION.finditer(read(file)):
                found.setdefault((file.split("/")[1], function[2]), set()).update(CLAUSE.findall(function[3]))
    return found


def of_call(call, found):
    """The clauses of a call, which names its crate or not."""
    crate, _, rest = call.partition("::")
    name = call.rsplit("::", 1)[-1]
    named = [names for (where, function), names in found.items() if function == name and where == crate]
    return set().union(*(named or [names for (_, function), names in found.items() if function == name]))


def check(_):
    text, found, count, failed = read("docs/THEOREMS.md"), clauses(), 0, []
    for table in TABLE.finditer(text):
        calls, place = [], table.start(1)
        for row in table[1].splitlines(keepends=True):
            cells = [cell.strip() for cell in row.strip().strip("|").split("|")]
            calls = NAME.findall(cells[0]) or calls
            known = set().union(*(of_call(call, found) for call in calls))
            for clause in NAME.findall(re.sub(r"\([^)]*\)", "", cells[-1])):
                count += 1
                if clause not in known:
                    failed.append(f"docs/THEOREMS.md:{line_of(text, place)}: {calls[0]} has no clause {clause}")
            place += len(row)
    return count, failed
