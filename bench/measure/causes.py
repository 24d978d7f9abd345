"""Where the instructions of a run go: by function and by cause. bench/run measure floors prints it.

callgrind counts how often each instruction of the program was executed; its text, as objdump shows it, tells the cause. The causes are
told by the instruction alone, so they are shares for a guide: a zero that is stored is room that is cleared, a move of sixteen bytes is a
copy, what goes to or from a fixed place on the stack is a value that didn't stay in a register, and a jump to an instruction that stops the
program is a check. The toolchain's flag is a byte that it reads again and again in functions that may wait, so that LLVM keeps their loops.
"""
import collections
import os
import re
import subprocess
import tempfile

FUNCTION = re.compile(r"([0-9a-f]+) <(.*)>:$")
CODE = re.compile(r"\s*([0-9a-f]+):\t(\S+)\s*(.*)")
GENERIC = re.compile(r"::<[^<>]*>")
BRANCH, WIDE, PLAIN = re.compile(r"j\w+$"), re.compile(r"mov([aud]|q$|hps|lps)"), re.compile(r"mov[bwlq]?$")
CLEARED, COPIED, CALLED, STACK = "room cleared", "copied", "functions entered and left", "values kept on the stack"
ATOMIC, FLAG, CHECK = "atomic", "toolchain's flag", "checks that stop the program"


def counted(words, text=""):
    """How often each instruction of a run was executed: by address in the program, and by name what libraries took."""
    inside, beside = collections.Counter(), collections.Counter()
    with tempfile.NamedTemporaryFile() as sheet:
        grind = ["valgrind", "--tool=callgrind", "--dump-instr=yes", "--compress-pos=no", "--compress-strings=no"]
        subprocess.run([*grind, f"--callgrind-out-file={sheet.name}", *words], input=text.encode("latin-1"), capture_output=True, check=True)
        of_program, name, is_call = False, "", False
        for line in open(sheet.name, encoding="utf-8", errors="replace"):
            if line.startswith("ob="):
                of_program = os.path.realpath(line[3:].strip()) == os.path.realpath(words[0])
            elif line.startswith("fn="):
                name = line[3:].strip()
            elif line.startswith("calls="):
                is_call = True
            elif line.startswith("0x"):
                at, _, count = line.split()
                # Behind a call stands what the called took, which is counted where it stands itself.
                if not is_call and of_program:
                    inside[int(at, 16)] += int(count)
                elif not is_call:
                    beside[name] += int(count)
                is_call = False
    return inside, beside


class Program:
    """Each instruction of a program: its function and its cause."""

    def __init__(self, path):
        self.function, self.cause = {}, {}
        listing = subprocess.run(["objdump", "-d", "--no-show-raw-insn", path], capture_output=True, text=True, check=True).stdout
        function, body = None, []
        for line in listing.splitlines():
            if head := FUNCTION.match(line):
                self.add(function, body)
                function, body = short(head[2]), []
            elif code := CODE.match(line):
                body.append((int(code[1], 16), code[2], code[3]))
        self.add(function, body)

    def add(self, function, body):
        zeros, compared, stops = set(), None, {at for at, name, _ in body if name == "ud2"}
        for at, name, words in body:
            cause = cause_of(name, words, zeros)
            if is_jump(name, words) and int(words.split()[0], 16) in stops:
                cause = FLAG if compared and self.cause[compared] == FLAG else CHECK
                if compared and cause == CHECK:
                    self.cause[compared] = CHECK
            if name.startswith(("cmp", "test")):
                compared = at
            self.function[at], self.cause[at] = function, cause


def is_jump(name, words):
    """Whether it is a jump to an address."""
    return bool(BRANCH.match(name)) and not words.startswith("*")


def cause_of(name, words, zeros):
    """The cause of an instruction by itself; `zeros` are the wide registers that are zero."""
    source, target = words.split(",")[0], words.rsplit(",", 1)[-1].strip()
    to_memory = words.split("#")[0].strip().endswith(")")
    if name in ("xorps", "pxor", "xorpd") and source == target:
        zeros.add(target)
        return CLEARED
    if WIDE.match(name) and ("%xmm" in words or source == "$0x0"):
        if to_memory:
            return CLEARED if source in zeros or source == "$0x0" else COPIED
        zeros.discard(target)
        return COPIED
    if target.startswith("%xmm"):
        zeros.discard(target)
    if PLAIN.match(name) and source == "$0x0" and to_memory:
        return CLEARED
    if name.startswith("lock") or (name == "xchg" and "(" in words):
        return ATOMIC
    if name in ("push", "pop", "ret", "call") or (name in ("sub", "add") and words.endswith("%rsp")):
        return CALLED
    if name == "cmpb" and source == "$0x0" and "(%rip)" in words:
        return FLAG
    if name.startswith("mov"):
        return STACK if "(%rsp)" in words else "values loaded, stored and moved"
    if name.startswith(("cmp", "test")) or BRANCH.match(name):
        return "compares and jumps"
    return "division" if name.startswith(("div", "idiv")) else "arithmetic"


def short(name):
    """A function's name without what it is made for."""
    while GENERIC.search(name):
        name = GENERIC.sub("", name)
    return name
