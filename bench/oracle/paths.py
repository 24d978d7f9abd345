"""Which middle each leg goes over, by the rule of docs/THEOREMS.md: the plain slow program. Ports are (module, slot), as in names; middles count
from 0, and the spare is after the last."""
DIRECT, ROW, COLUMN = 0, 1, 2


class Paths:
    """The middle of each leg, and the leg that has a middle in an input module (side 0) or in an output module (side 1)."""

    def __init__(self, slots):
        self.spare, self.out, self.middles, self.at = slots, None, {}, ({}, {})
        self.log = []

    def put(self, leg, middle):
        """The leg goes over this middle from now on, or over none."""
        before = self.middles.pop(leg, None)
        self.log.append((leg, before))
        for side in (0, 1):
            if before is not None and self.at[side].get((leg[side][0], before)) == leg:
                del self.at[side][leg[side][0], before]
            if middle is not None:
                self.at[side][leg[side][0], middle] = leg
        if middle is not None:
            self.middles[leg] = middle

    def is_free(self, side, leg, middle):
        return (leg[side][0], middle) not in self.at[side]

    def chain(self, side, module, first, second):
        """The legs on `first` and `second` in turn that begin with the module's leg on `first`, each in a module of the one before."""
        legs = []
        while (leg := self.at[side].get((module, first))) is not None:
            legs.append(leg)
            side = 1 - side
            module, first, second = leg[side][0], second, first
        return legs

    def exchange(self, legs, first, second):
        """The legs of a chain take the other of its two middles."""
        there = {leg: second if self.middles[leg] == first else first for leg in legs}
        for leg in legs:
            self.put(leg, None)
        for leg, middle in there.items():
            self.put(leg, middle)

    def choice(self, leg):
        """The middle that a new leg takes, the kind of its chain, and the chain's other middle; None where there is none."""
        middles = [middle for middle in range(self.spare + 1) if middle != (self.spare if self.out is None else self.out)]
        in_row = [middle for middle in middles if self.is_free(0, leg, middle)]
        in_column = [middle for middle in middles if self.is_free(1, leg, middle)]
        for middle in in_row:
            if middle in in_column:
                return middle, DIRECT, 0
        if self.out is None:
            return self.shorter(leg, in_row[0], in_column[0])
        for a in in_row:
            for b in in_column:
                if len(self.chain(0, leg[0][0], b, a)) == 1:
                    return b, ROW, a
                if len(self.chain(1, leg[1][0], a, b)) == 1:
                    return a, COLUMN, b
        return None

    def shorter(self, leg, a, b):
        row, column = self.chain(0, leg[0][0], b, a), self.chain(1, leg[1][0], a, b)
        return (b, ROW, a) if len(row) <= len(column) else (a, COLUMN, b)

    def join(self, leg, choice):
        middle, kind, other = choice
        if kind == ROW:
            self.exchange(self.chain(0, leg[0][0], middle, other), middle, other)
        elif kind == COLUMN:
            self.exchange(self.chain(1, leg[1][0], middle, other), middle, other)
        self.put(leg, middle)

    def shift(self, source, target):
        for leg in [leg for leg, middle in self.middles.items() if middle == source]:
            self.put(leg, target)

    def plan(self, change):
        """The choices of a change that the table grants, which the paths have then; None where a leg finds no middle."""
        self.log, self.was_out = [], self.out
        if change.op == "RMV-MID":
            self.out = change.what - 1
            self.shift(self.out, self.spare)
            return ()
        if change.op == "RST-MID":
            self.shift(self.spare, self.out)
            self.out = None
            return ()
        choices = []
        for leg, joins in legs_of(change):
            choice = self.choice(leg) if joins else (self.middles[leg], DIRECT, 0)
            if choice is None:
                self.undo()
                return None
            self.join(leg, choice) if joins else self.put(leg, None)
            choices.append(choice)
        return tuple(choices)

    def undo(self):
        """Takes back the last plan."""
        log, self.log, self.out = self.log, [], self.was_out
        for leg, before in reversed(log):
            self.put(leg, before)
        self.log = []


def legs_of(change):
    """Each leg that the change joins, or parts, in order."""
    if change.op == "ENT-CRS-T0":
        return [(leg, True) for leg in change.what.legs()]
    if change.op == "DLT-CRS-T0":
        return [(leg, False) for leg in change.what.legs()]
    if change.op == "ED-CRS-T0" and change.what.cct != change.old.cct:
        return [(change.what.pair[::-1], change.what.cct == 1)]
    return []
