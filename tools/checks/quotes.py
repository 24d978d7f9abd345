"""Clauses that documents quote: a block after `<!-- clauses FILE FUNCTION [NAME..] -->` is the function's head and those of its clauses.

Without names all clauses are quoted; `record` in place of FUNCTION's names a record of a specification: `<!-- record FILE NAME -->`.
"""
import os
import re
import textwrap

from checks import TOP, is_document, line_of, read, tracked

QUOTE = re.compile(r"<!-- (clauses|record) (\S+) (\w+)((?: \w+)*) -->\n```\w*\n(.*?)^```$", re.MULTILINE | re.DOTALL)
CLAUSE = re.compile(r"^ *(?:requires|ensures)(?: (\w+))? \{")


def function(text, name):
    """The lines of a function from its first to the one before its body."""
    found = re.search(rf"^( *)pub (?:async )?fn {name}\b.*?^\1\{{", text, re.MULTILINE | re.DOTALL)
    return found[0].splitlines()[:-1] if found else None


def parted(lines):
    """The head, and each clause as its name and its lines."""
    head, clauses = [], []
    for line in lines:
        clause = CLAUSE.match(line)
        if clause:
            clauses.append((clause[1], [line]))
        elif clauses:
            clauses[-1][1].append(line)
        else:
            head.append(line)
    return head, clauses


def record(text, name):
    """The comment in front of a definition, and the definition up to the blank line after it, without their indentation."""
    found = re.search(rf"(?:^ *--.*\n)*^( *)(?:(?:abbrev|unfoldable|pub|record|data) )*{name} [^=\n]*:(?:.*\n)+?(?=^ *$|\Z)", text, re.MULTILINE)
    return textwrap.dedent(found[0]) if found else None


def quoted(kind, file, name, wanted):
    """What has to stand in the block, or what is wrong."""
    if not os.path.isfile(os.path.join(TOP, file)):
        return None, f"{file} isn't there"
    text = read(file)
    if kind == "record":
        found = record(text, name)
        return (found, None) if found else (None, f"{file} has no definition {name}")
    lines = function(text, name)
    if lines is None:
        return None, f"{file} has no public function {name}"
    head, clauses = parted(lines)
    gone = set(wanted) - {clause for clause, _ in clauses}
    if gone:
        return None, f"{name} has no clause {', '.join(sorted(gone))}"
    return "\n".join(head + [line for clause, part in clauses if not wanted or clause in wanted for line in part]) + "\n", None


def check(_):
    count, failed = 0, []
    for document in filter(is_document, tracked()):
        text = read(document)
        for block in QUOTE.finditer(text):
            count += 1
            wanted, why = quoted(block[1], block[2], block[3], block[4].split())
            if why or wanted != block[5]:
                failed.append(f"{document}:{line_of(text, block.start())}: {why or f'{block[3]} stands otherwise in {block[2]}; tools/documents --write quotes it anew'}")
    return count, failed


def write():
    for document in filter(is_document, tracked()):
        text = read(document)

        def anew(block):
            wanted, why = quoted(block[1], block[2], block[3], block[4].split())
            return block[0] if why else block[0][: block.start(5) - block.start()] + wanted + "```"

        new = QUOTE.sub(anew, text)
        if new != text:
            with open(os.path.join(TOP, document), "w", encoding="utf-8") as file:
                file.write(new)
