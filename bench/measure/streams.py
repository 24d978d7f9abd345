"""Streams of TL1 units, each made by one seed, so that they repeat. bench/run measure speed runs them."""
import random

LOG_IN = "ACT-USER::ANNA:L::bc;"


def port(index, slots):
    return f"DS0-{index // slots + 1}-{index % slots + 1}"


def entry(a, b, slots, tag, tail=""):
    return f"ENT-CRS-T0::{port(a, slots)},{port(b, slots)}:{tag}{tail};"


def deletion(a, b, slots, tag):
    return f"DLT-CRS-T0::{port(a, slots)},{port(b, slots)}:{tag};"


class Table:
    """The connections so far, by from-port, so that units hit what they should."""

    def __init__(self):
        self.inputs, self.outputs, self.connections = set(), set(), {}

    @staticmethod
    def sides(a, b, two_way):
        return ({a, b}, {a, b}) if two_way else ({a}, {b})

    def enter(self, a, b, two_way):
        inputs, outputs = self.sides(a, b, two_way)
        if a != b and not inputs & self.inputs and not outputs & self.outputs:
            self.inputs |= inputs
            self.outputs |= outputs
            self.connections[a] = (b, two_way)

    def delete(self, a):
        b, two_way = self.connections.pop(a)
        inputs, outputs = self.sides(a, b, two_way)
        self.inputs -= inputs
        self.outputs -= outputs

    def edit(self, a, two_way):
        b, _ = self.connections[a]
        if not two_way:
            self.inputs.discard(b)
            self.outputs.discard(a)
        elif b in self.inputs or a in self.outputs:
            return
        self.inputs |= {b} if two_way else set()
        self.outputs |= {a} if two_way else set()
        self.connections[a] = (b, two_way)


MALFORMED = [
    "{c}", "ENT-CRS-T0", "ENT-CRS-T0::{a},{b}", "ENT-CRS-T0:: {a},{b}:{c}", "ENT--T0::{a},{b}:{c}",
    "RTRV-XYZ:::{c}", "RTRV-HDR:::000", "RTRV-HDR:::TOOLONG1", "RTRV-HDR:OTHER::{c}", "ENT-CRS-T0::{a}:{c}",
    "ED-CRS-T0::{a},{b}:{c}", "RTRV-HDR::{a}:{c}", "ENT-CRS-T0::{a},{b}:{c}:G", "ENT-CRS-T0::{a},{b}:{c}::3WAY",
    "ENT-CRS-T0::DS0-0-1,{b}:{c}", "ENT-CRS-T0::DS0-01-1,{b}:{c}", "ENT-CRS-T0::{a},{a}:{c}",
    "ENT-CRS-T0::\"{a}\"x,{b}:{c}", "ENT-CRS-T0::\"{a};{b}\":{c}", "ACT-USER::ANNA:{c}::bad", "CANC-USER::BEN:{c}",
    "RTRV-CRS-T0::MOD-99:{c}", "ENT-EQPT::MOD-1:{c}", "A:B:C:D:E:F:G:H:I:J:K", "A,B,C,D,E,F,G,H,I:::{c}",
    "ENT-CRS-T0::\x07{a},{b}:{c}", "ENT-CRS-T0::{a},{b}:{c}::1WAY,ABCDEFGHIJKLMNOPQRSTUVWXYZ",
]


def malformed(rng, modules, slots, tag):
    a, b = (port(rng.randrange(modules * slots), slots) for _ in range(2))
    if rng.random() < 0.01:
        return "A" * 2100 + ";"
    return rng.choice(MALFORMED).format(a=a, b=b, c=tag) + ";"


def mixed(modules, slots, units):
    """Of 100 units 40 entries, 22 deletions, 6 edits, 12 retrievals, 5 headers, 15 that are malformed or denied."""
    rng, table, ports = random.Random(1), Table(), modules * slots
    text = [LOG_IN]
    for i in range(1, units):
        tag, kind = i % 999999 + 1, rng.random()
        if kind < 0.40:
            a, b, two_way = rng.randrange(ports), rng.randrange(ports), rng.random() < 0.4
            table.enter(a, b, two_way)
            text.append(entry(a, b, slots, tag, "::2WAY" if two_way else rng.choice(["", "::1WAY"])))
        elif kind < 0.62:
            if table.connections and rng.random() < 0.8:
                a = rng.choice(list(table.connections)[:64])
                b = table.connections[a][0]
                table.delete(a)
            else:
                a, b = rng.randrange(ports), rng.randrange(ports)
            text.append(deletion(a, b, slots, tag))
        elif kind < 0.68 and table.connections:
            a = rng.choice(list(table.connections)[:64])
            b, was = table.connections[a]
            two_way = rng.random() < 0.5
            if two_way != was:
                table.edit(a, two_way)
            text.append(f"ED-CRS-T0::{port(a, slots)},{port(b, slots)}:{tag}::{'2WAY' if two_way else '1WAY'};")
        elif kind < 0.80:
            p = rng.randrange(ports)
            what = rng.choice([port(p, slots)] * 6 + [f"MOD-{p // slots + 1}"] * 3 + ["ALL"])
            text.append(f"RTRV-CRS-T0::{what}:{tag};")
        elif kind < 0.85:
            text.append(f"RTRV-HDR:::{tag};")
        else:
            text.append(malformed(rng, modules, slots, tag))
    return "".join(text)


def retrievals(modules, slots, units, selection):
    """Of random ports, of the modules of random ports, or of all."""
    rng = random.Random(2)
    text = [LOG_IN]
    for i in range(1, units):
        p = rng.randrange(modules * slots)
        text.append(f"RTRV-CRS-T0::{selection.format(port=port(p, slots), module=p // slots + 1)}:{i};")
    return "".join(text)


def headers(units):
    return LOG_IN + "".join(f"RTRV-HDR:::{i};" for i in range(1, units))


def refused(modules, slots, units):
    rng = random.Random(3)
    return LOG_IN + "".join(malformed(rng, modules, slots, i) for i in range(1, units))


def busy(modules, slots, units):
    """On a full table: entries whose sides are in use."""
    rng, ports = random.Random(3), modules * slots
    text = [LOG_IN]
    for i in range(1, units):
        a = rng.randrange(ports)
        text.append(entry(a, (a + 1 + rng.randrange(ports - 1)) % ports, slots, i, "::2WAY"))
    return "".join(text)


def permutation(ports):
    """A random one, and no port stays in its place."""
    outputs = list(range(ports))
    random.Random(4).shuffle(outputs)
    for i in range(ports):
        if outputs[i] == i:
            j = (i + 1) % ports
            outputs[i], outputs[j] = outputs[j], outputs[i]
    return outputs


def full(modules, slots):
    """Enters the permutation, in a random order."""
    outputs = permutation(modules * slots)
    order = list(range(len(outputs)))
    random.Random(5).shuffle(order)
    return LOG_IN + "".join(entry(a, outputs[a], slots, i + 1) for i, a in enumerate(order))


def filled(modules, slots, rows, records=32_767):
    """Enters so many connections, and then deletes and enters the first in turn, until the journal has so many records; and one change more."""
    ends = [(a, (a + slots) % (modules * slots)) for a in range(rows)]
    turns = [deletion(*ends[0], slots, 1), entry(*ends[0], slots, 1)]
    more = records - rows
    return LOG_IN + "".join(entry(a, b, slots, 1) for a, b in ends) + "".join(turns[i % 2] for i in range(more)), turns[more % 2]


def churn(modules, slots, rounds):
    """On a full table: two connections are deleted, and entered again crosswise. Most entries need a chain."""
    rng, outputs = random.Random(5), permutation(modules * slots)
    text, made = [LOG_IN], 0
    while made < rounds:
        a, b = rng.randrange(len(outputs)), rng.randrange(len(outputs))
        if a == b or outputs[a] == b or outputs[b] == a:
            continue
        pairs = [(deletion, a, outputs[a]), (deletion, b, outputs[b]), (entry, a, outputs[b]), (entry, b, outputs[a])]
        for i, (unit, x, y) in enumerate(pairs):
            text.append(unit(x, y, slots, (4 * made + i + 1) % 999999 + 1))
        outputs[a], outputs[b] = outputs[b], outputs[a]
        made += 1
    return "".join(text)


def direct(rounds):
    ends = "DS0-1-1,DS0-2-1"
    return LOG_IN + "".join(f"ENT-CRS-T0::{ends}:{i};DLT-CRS-T0::{ends}:{i};" for i in range(1, rounds + 1))


def chains(modules, rounds):
    """Two slots a module. Two paths of r - 1 legs each, r the greatest odd number of modules, on the middles 0 and 1; a leg from the one or
    the other end of the first path to an end of the second exchanges a chain of r - 1 legs, which is 3 (r - 1) / 2 moves."""
    count = modules - 1 + modules % 2
    half = (count - 1) // 2
    used_rows, used_columns, text = [0] * count, [0] * count, [LOG_IN]

    def leg(row, column):
        text.append(entry(2 * row + used_rows[row], 2 * ((column + 1) % count) + used_columns[column], 2, 1))
        used_rows[row] += 1
        used_columns[column] += 1

    for v in range(half):
        leg(v, half + 1 + v)
        leg(v + 1, half + 1 + v)
    for v in range(half, 0, -1):
        leg(half + v, v)
        leg(half + v, v - 1)
    for i in range(rounds):
        a, b = 1 if i % 2 == 0 else 2 * half + 1, 3
        text.append(entry(a, b, 2, i + 1) + deletion(a, b, 2, i + 1))
    return "".join(text)
