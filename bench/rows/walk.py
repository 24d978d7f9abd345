"""Rows of crates/worked_restarts by the plain paths (bench/oracle/paths.py): random walks of entries and deletions, with a middle that goes out of service and
comes back, and the longest chains. Of each step: what it is answered, how often the gate is asked, each frame meanwhile, and every register word after it."""
import random

from bench.oracle.journal import element_of, header, record
from bench.oracle.paths import DIRECT, ROW, Paths
from bench.oracle.plain import Conn

# Modules, slots, and how many walks of how many steps. Letters of frames begin anew after port 26, and a row has fewer than 100 sessions.
WALKS = ((3, 2, 4, 60), (6, 4, 9, 90), (2, 1, 1, 30), (3, 1, 1, 40), (2, 2, 1, 60), (2, 3, 1, 60), (3, 3, 1, 60), (4, 2, 1, 60))
# Shapes with two slots, of which the longest chain takes all modules but one: 3 (r - 1) / 2 moves, rounded down.
LONGEST = (2, 3, 8, 32, 64)
NO_MIDDLE = "use no-middle"


def name(port):
    return f"DS0-{port[0]}-{port[1]}"


class Walk:
    """The legs by their output, the middle of each, and what the registers hold."""

    def __init__(self, modules, slots, dice):
        self.modules, self.slots, self.dice = modules, slots, dice
        self.ports = [(module, slot) for module in range(1, modules + 1) for slot in range(1, slots + 1)]
        self.legs, self.paths, self.switches, self.numbers = {}, Paths(slots), 0, {}

    def frame(self):
        letters = (chr(ord("a") + self.ports.index(self.legs[port]) % 26) if port in self.legs else "." for port in self.ports)
        return "".join(letters)

    def words(self):
        """IN by module and middle, MID by middle and module, OUT by port."""
        middles = range(self.slots + 1)
        modules = range(1, self.modules + 1)
        over = {leg: middle for leg, middle in self.paths.middles.items()}
        ins = {(leg[0][0], middle): leg[0][1] for leg, middle in over.items()}
        mids = {(middle, leg[1][0]): leg[0][0] for leg, middle in over.items()}
        outs = {leg[1]: 256 * self.numbers[leg[1]] + middle + 1 for leg, middle in over.items()}
        words = [ins.get((module, middle), 0) for module in modules for middle in middles]
        words += [mids.get((middle, module), 0) for middle in middles for module in modules]
        words += [outs.get(port, 0) for port in self.ports]
        return " ".join(map(str, words))

    def switched(self, legs):
        for leg in legs:
            self.switches += 1
            self.numbers[leg[1]] = self.switches
        return len(legs)

    def exchanged(self, leg, choice):
        """How many moves the choice makes, each of which is a switch: where nothing is out, every second leg stands aside on the spare first."""
        middle, kind, other = choice
        if kind == DIRECT:
            return 0
        side, module = (0, leg[0][0]) if kind == ROW else (1, leg[1][0])
        chain = self.paths.chain(side, module, middle, other)
        if self.paths.out is not None:
            return self.switched(chain)
        return self.switched(chain[1::2] + chain[::2] + chain[1::2])

    def shifted(self, source, target):
        """A middle's legs go to the other one, in order of their outputs."""
        legs = sorted((leg for leg, middle in self.paths.middles.items() if middle == source), key=lambda leg: leg[1])
        self.paths.shift(source, target)
        return self.switched(legs)

    def free_leg(self):
        sources = [port for port in self.ports if port not in self.legs.values()]
        outputs = [port for port in self.ports if port not in self.legs]
        found = [(source, output) for source in sources for output in outputs if source != output]
        return self.dice.choice(found) if found else None

    def step(self):
        """What is sent, what comes of it, and how many register writes are made."""
        if self.dice.random() < 0.1:
            return self.middle()
        leg = self.free_leg()
        if leg is None or self.legs and self.dice.random() < 0.25:
            return self.deletion()
        return self.entry(leg)

    def middle(self):
        out = self.paths.out
        if out is None:
            out = self.dice.randrange(self.slots)
            moves = self.shifted(out, self.paths.spare)
            self.paths.out = out
            return f"RMV-MID::MID-{out + 1}:2", "compld 2", 5 * moves
        moves = self.shifted(self.paths.spare, out)
        self.paths.out = None
        return f"RST-MID::MID-{out + 1}:2", "compld 2", 5 * moves

    def deletion(self):
        output = self.dice.choice(sorted(self.legs))
        leg = self.legs.pop(output), output
        self.paths.put(leg, None)
        return f"DLT-CRS-T0::{name(leg[0])},{name(leg[1])}:2", "compld 2", 3

    def entry(self, leg):
        unit = f"ENT-CRS-T0::{name(leg[0])},{name(leg[1])}:2"
        choice = self.paths.choice(leg)
        if choice is None:
            return unit, NO_MIDDLE, None
        moves = self.exchanged(leg, choice)
        self.paths.join(leg, choice)
        self.switched([leg])
        self.legs[leg[1]] = leg[0]
        return unit, "compld 2", 5 * moves + 3

    def session(self, step=None):
        """A session that sends one unit: a random one, or what this step sends."""
        before = self.frame()
        unit, answer, writes = step() if step else self.step()
        asked = "asked 0 0 0" if writes is None else f"asked 1 {writes} 1"
        behind = self.frame()
        frames = before if behind == before else f"{before} {behind}"
        return ["session", "login ANNA 1", f"send {unit};", answer, asked, f"frames {frames}", f"last {behind}", f"words {self.words()}"]


class Crossing:
    """Legs on middles 0 and 1 over modules of two slots, and a leg whose two chains have as many legs as there are modules but one. No module is of
    both chains."""

    def __init__(self, modules):
        self.modules, self.legs = modules, []
        self.inputs, self.outputs = [0] * modules, [0] * modules
        rows, columns = iter(range(modules)), iter(range(modules))
        row = first = next(rows)
        for at in range(modules - 1):
            row, column = (row, next(columns)) if at % 2 == 0 else (next(rows), column)
            self.legs.append((self.leg(row, column), 1 - at % 2))
        column = last = next(columns)
        for at in range(modules - 1):
            row, column = (next(rows), column) if at % 2 == 0 else (row, next(columns))
            self.legs.append((self.leg(row, column), at % 2))
        self.new = self.leg(first, last)

    def leg(self, row, column):
        """A leg between free ports of an input and an output module; outputs are shifted by two modules, so that no leg joins a port to itself."""
        source = (row + 1, 1 + self.inputs[row])
        output = ((column + 2) % self.modules + 1, 2 - self.outputs[column])
        self.inputs[row] += 1
        self.outputs[column] += 1
        assert source != output
        return source, output


class Longest(Walk):
    """A controller that starts on a journal of these legs, and then joins the one that has the longest chains."""

    def __init__(self, modules):
        super().__init__(modules, 2, None)
        self.crossing = Crossing(modules)
        for leg, middle in self.crossing.legs:
            self.paths.put(leg, middle)
            self.legs[leg[1]] = leg[0]
        # A start joins the legs in order of their outputs.
        self.switched(sorted(self.paths.middles, key=lambda leg: leg[1]))

    def journal(self):
        element = element_of(self.modules, self.slots)
        records = (record(element, "ENT-CRS-T0", Conn(leg, 0), [(middle, DIRECT, 0)]) for leg, middle in self.crossing.legs)
        return (header(2, 0, element) + b"".join(records) + b"\0").hex()

    def join(self):
        unit, answer, writes = self.entry(self.crossing.new)
        assert writes == 5 * (3 * (self.modules - 1) // 2) + 3
        return unit, answer, writes

    def row(self):
        lines = [f"shelf {self.modules} {self.slots}", f"old {self.journal()}", *self.session(self.join)]
        return f"the longest chain of {self.modules} modules", lines


def walks():
    """The name and the lines of each row."""
    for modules, slots, count, steps in WALKS:
        for seed in range(count):
            walk = Walk(modules, slots, random.Random(seed))
            lines = [line for _ in range(steps) for line in walk.session()]
            yield f"a walk of {steps} steps, {modules} by {slots}, {seed}", [f"shelf {modules} {slots}", *lines]
    for modules in LONGEST:
        yield Longest(modules).row()
