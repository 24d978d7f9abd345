"""Names in backticks, files and links.

A name is each word of a span in backticks, and each word with an underscore beside them. It is there where it stands in the code of the repository
(comments left out), is part of a file's name, a word of the rows' files, of a crate's name or of an example that the document runs, or stands in
tools/checks/words.py with its reason.

 - `a::b` has to stand in one crate: in `a` where that is one, and in the module `a` where it is written small.
 - `laws::b` is a function of some crate's laws, and no other.
 - A TL1 command code stands whole in a source, and isn't looked into.
 - A file's name, with a slash or a known ending, is one of the top, of a crate, or one that an example makes.
 - A link leads to a file, and to a heading of it.
 - What `bench/run GROUP NAME` runs is a module of bench/.
 - A command of the manual page (`.Cm`) is a word of `dxc_args`.
"""
import os
import re

from checks import FENCE, TOP, is_document, line_of, read, tracked, without_fences
from checks.words import ALLOWED

SPAN = re.compile(r"`([^`\n]+)`")
WORD = re.compile(r"[A-Za-z_][A-Za-z0-9_]*")
SNAKE = re.compile(r"(?<![\w/.$#-])[a-z][a-z0-9]*(?:_[a-z0-9]+)+(?![\w/])")
COMMAND = re.compile(r"(?<![A-Z0-9-])(?:ENT|ED|DLT|RTRV|ACT|CANC|ALW|INH|INIT|RMV|RST)-[A-Z0-9-]*[A-Z0-9]")
PATH = re.compile(r"[A-Za-z_]\w*(?:::[A-Za-z_]\w*)+")
ENDINGS = ("py", "sh", "md", "toml", "tl1", "out", "txt", "service", "c", "rt", "antt", "edit", "svg")
FILE = re.compile(r"(?<![\w/.$-])(?:\.?[\w-]+/)+[\w.-]*|(?<![\w/.$-])[\w-]+\.(?:" + "|".join(ENDINGS) + r")\b")
OURS = re.compile(r"(?<![\w./$])(?:bench|tools|docs|dist|examples|man)/[\w./-]*\w")
BENCH = re.compile(r"\bbench/run (oracle|rows|stress|measure|docs) (\w+)")
COMMAND_OF_MAN = re.compile(r"^\.(?:It )?Cm (\w+)", re.MULTILINE)
LINK = re.compile(r"\]\(([^)\s]+)\)")
COMMENTS = {".rt": re.compile(r"//.*"), ".antt": re.compile(r"(?:^|(?<=\s))--.*", re.MULTILINE), ".py": re.compile(r"#.*"), ".sh": re.compile(r"#.*")}
PLACES = ("src", "specs", "proofs", "data", "must-fail", "further-edits", "accepted-edits")


class Sources:
    """The words of the code, by crate and of all, and the files' names."""

    def __init__(self):
        self.files = tracked()
        self.by_crate, self.by_module, self.all, self.laws, self.text = {}, {}, set(), set(), []
        for name in self.files:
            self.all |= set(WORD.findall(name))
            if not is_document(name) and not name.startswith(("tools/checks/", "man/")):
                self.take(name)
        self.folders = {os.path.dirname(name) for name in self.files}
        self.folders |= {os.path.dirname(name) for name in self.folders}

    def take(self, name):
        kind = os.path.splitext(name.removesuffix(".in"))[1]
        try:
            text = read(name)
        except UnicodeDecodeError:
            return
        if "/data/" in name:
            words = {line.split(" ", 1)[0] for line in text.splitlines()} | set(WORD.findall("".join(re.findall("^#.*", text, re.MULTILINE))))
        else:
            text = COMMENTS[kind].sub("", text) if kind in COMMENTS else text
            words = set(WORD.findall(text))
            self.text += [text] if kind == ".rt" else []
        parts = name.split("/")
        if parts[0] == "crates":
            self.by_crate.setdefault(parts[1], set()).update(words, WORD.findall(name))
            for module in [os.path.splitext(part)[0] for part in parts[2:]]:
                self.by_module.setdefault((parts[1], module), set()).update(words, WORD.findall(name))
            if "laws" in name and kind == ".rt":
                self.laws |= set(re.findall(r"\bfn (\w+)", text))
        self.all |= words

    def has_file(self, name):
        """Whether it is a file or a folder of the checkout, or one of some crate by its name there."""
        name = name.removeprefix("./").rstrip("/")
        if name in self.files or name in self.folders:
            return True
        ends = [f"/{name}", f"/{name}.rt", f"/{name}.antt"]
        return any(file.endswith(end) for end in ends for file in self.files) or any(folder.endswith(ends[0]) for folder in self.folders)

    def has_path(self, words):
        first, last = words[0], words[-1]
        if first in self.by_crate:
            return self.has_in(first, words[1:])
        if first == "laws":
            return last in self.laws
        return any(self.has_in(crate, words) for crate in self.by_crate)

    def has_in(self, crate, words):
        """Whether the words are of the crate, the last in the module that the one before it names."""
        module = words[-2] if len(words) > 1 else ""
        held = self.by_module.get((crate, module), set()) if module.islower() else self.by_crate[crate]
        return words[-1] in held and all(word in self.by_crate[crate] for word in words)


def missing(span, sources, made):
    """The names of a span that are nowhere. `made` has the words of the document's own examples."""
    known = lambda word: word in sources.all or word in ALLOWED or word in made
    for code in COMMAND.findall(span):
        if code not in ALLOWED and not any(code in text for text in sources.text):
            yield code
    span = COMMAND.sub(" ", span)
    for path in PATH.findall(span):
        words = path.split("::")
        if words[0] not in ALLOWED and not sources.has_path(words):
            yield path
    for file in FILE.findall(span):
        if file not in made and file not in ALLOWED and not sources.has_file(file):
            yield file
    yield from (word for word in WORD.findall(span) if len(word) > 1 and not known(word))


def in_document(name, text, sources):
    examples = "".join(FENCE.findall(text))
    made = set(WORD.findall(examples)) | set(FILE.findall(examples))
    for span in SPAN.finditer(text := without_fences(text)):
        for word in dict.fromkeys(missing(span[1], sources, made)):
            yield f"{name}:{line_of(text, span.start())}: `{word}` is in no source, file, command or table of allowed words"
    for word in SNAKE.finditer(SPAN.sub(lambda span: " " * len(span[0]), text)):
        if word[0] not in sources.all and word[0] not in ALLOWED and word[0] not in made:
            yield f"{name}:{line_of(text, word.start())}: {word[0]} is in no source or file"


def check(documents):
    """The names in backticks of these documents, of all where none is named."""
    sources, count, failed = Sources(), 0, []
    for name in documents or [file for file in sources.files if is_document(file)]:
        text = read(name)
        count += len(SPAN.findall(without_fences(text)))
        failed += in_document(name, text, sources)
    return count, failed


def headings(name):
    """The anchors of a document's headings."""
    titles = re.findall(r"^#+ (.*)$", without_fences(read(name)), re.MULTILINE)
    return {re.sub(r"[^\w\- ]", "", title.lower()).replace(" ", "-") for title in titles}


def lead_nowhere(name, text):
    for link in LINK.finditer(without_fences(text)):
        file, _, anchor = link[1].partition("#")
        to = os.path.normpath(os.path.join(os.path.dirname(name), file)) if file else name
        if "://" in link[1]:
            continue
        if not os.path.exists(os.path.join(TOP, to)) or (anchor and is_document(to) and anchor not in headings(to)):
            yield f"{name}:{line_of(text, link.start())}: the link {link[1]} leads nowhere"


def unknown_commands(name, text, sources):
    """The commands of a manual page that the program hasn't."""
    for command in COMMAND_OF_MAN.finditer(text) if name.startswith("man/") else ():
        if command[1] not in sources.by_crate["dxc_args"]:
            yield f"{name}:{line_of(text, command.start())}: the program has no command {command[1]}"


def check_files(_):
    """The scripts, documents and examples that any text of the repository names, the links of documents, and the manual page's commands."""
    sources, count, failed = Sources(), 0, []
    for name in sources.files:
        try:
            text = read(name)
        except UnicodeDecodeError:
            continue
        failed += unknown_commands(name, text, sources)
        if is_document(name):
            count += len(LINK.findall(text))
            failed += lead_nowhere(name, text)
        for file in OURS.finditer(text):
            count += 1
            if file[0] not in ALLOWED and not sources.has_file(file[0]):
                failed.append(f"{name}:{line_of(text, file.start())}: {file[0]} isn't there")
        for ran in BENCH.finditer(text):
            count += 1
            if f"bench/{ran[1]}/{ran[2]}.py" not in sources.files:
                failed.append(f"{name}:{line_of(text, ran.start())}: {ran[0]} isn't there")
    return count, failed
