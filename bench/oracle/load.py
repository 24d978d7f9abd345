"""Reckons anew what `dxc load NUMBER` has to write, and compares it.

usage: bench/run oracle load NUMBER..              runs `dxc load NUMBER` for each, and tells the first that writes something else
       bench/run oracle load --write NUMBER..      writes the summary of each number alone

The script is drawn from the number, and served by a plain table with Paull's choice of middles by lowest numbers. It shares nothing with the program.
"""
import sys

from bench.shared.program import expect, run_program

MODULES, SLOTS, COMMANDS = 8, 24, 10_000
PORTS = MODULES * SLOTS


def commands(number):
    """(enters, from, to, two-way) of each command; the last is None of a deletion."""
    draws, x = [], number
    for _ in range(2 * COMMANDS + 1):
        draws.append(x >> 33)
        x = (x * 6364136223846793005 + 1442695040888963407) % 2**64

    def entry(i):
        a, even = draws[2 * i - 1] % PORTS, draws[2 * i]
        return a, (a + 1 + even % 191) % PORTS, even // 191 % 2 == 1

    for i in range(1, COMMANDS + 1):
        if i % 4:
            yield True, *entry(i)
        else:
            yield False, *entry(i - 3)[:2], None


class Network:
    """The middles of the legs: row[i][m] is the output module that input module i reaches over middle m, column[j][m] the input module."""

    def __init__(self):
        self.row = [[None] * SLOTS for _ in range(MODULES)]
        self.column = [[None] * SLOTS for _ in range(MODULES)]
        self.legs = {}
        self.switches = 0

    def chain(self, at, in_rows, first, second):
        """The legs (input module, output module) of a chain, from a row or a column on, first over `first`, then over the two in turn."""
        legs = []
        while True:
            to = (self.row if in_rows else self.column)[at][first]
            if to is None:
                return legs
            legs.append((at, to, first) if in_rows else (to, at, first))
            at, in_rows, first, second = to, not in_rows, second, first

    def exchange(self, legs, a, b):
        for i, j, m in legs:
            self.row[i][m] = self.column[j][m] = None
        for i, j, m in legs:
            self.row[i][a + b - m], self.column[j][a + b - m] = j, i
        for leg, (i, j, m) in self.legs.items():
            if (i, j, m) in legs:
                self.legs[leg] = (i, j, a + b - m)
        self.switches += len(legs) + len(legs) // 2

    def join(self, x, y):
        i, j = x // SLOTS, y // SLOTS
        free_in_row = [m for m in range(SLOTS) if self.row[i][m] is None]
        free_in_column = [m for m in range(SLOTS) if self.column[j][m] is None]
        both = [m for m in free_in_row if m in free_in_column]
        if both:
            m = both[0]
        else:
            a, b = free_in_row[0], free_in_column[0]
            in_row, in_column = self.chain(i, True, b, a), self.chain(j, False, a, b)
            if len(in_row) <= len(in_column):
                self.exchange(in_row, a, b)
                m = b
            else:
                self.exchange(in_column, a, b)
                m = a
        assert self.row[i][m] is None and self.column[j][m] is None
        self.row[i][m], self.column[j][m] = j, i
        self.legs[x, y] = (i, j, m)
        self.switches += 1

    def part(self, x, y):
        i, j, m = self.legs.pop((x, y))
        self.row[i][m] = self.column[j][m] = None


def legs_of(x, y, two_way):
    return [(x, y), (y, x)] if two_way else [(x, y)]


def summary(number):
    network, table, completed, carried = Network(), {}, 0, 0
    for enters, x, y, two_way in commands(number):
        if enters:
            legs = legs_of(x, y, two_way)
            inputs, outputs = {a for a, _ in network.legs}, {b for _, b in network.legs}
            done = not any(a in inputs or b in outputs for a, b in legs)
            if done:
                table[x, y] = two_way
                for leg in legs:
                    network.join(*leg)
        else:
            done = (x, y) in table
            if done:
                for leg in legs_of(x, y, table.pop((x, y))):
                    network.part(*leg)
        completed += done
        carried += len(network.legs)
    return (
        f"COMMANDS {COMMANDS} COMPLD {completed} DENY {COMMANDS - completed} CONNECTIONS {len(table)}"
        f" SWITCHES {network.switches} FRAMES {COMMANDS} BYTES {carried}\n"
    )


def main(words):
    only_written = words[:1] == ["--write"]
    for word in words[only_written:]:
        wanted = summary(int(word))
        if only_written:
            print(wanted, end="")
            continue
        ran = run_program(["load", word])
        expect((ran.stdout, ran.returncode) == (wanted, 0), f"load {word}: status {ran.returncode}\nwrote:  {ran.stdout}wanted: {wanted}")
        print(f"load {word}: as reckoned")


if __name__ == "__main__":
    main(sys.argv[1:])
