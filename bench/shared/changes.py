"""Random changes of a small element, each with the plain table after it: for trials that look at journals alone."""
MODULES, SLOTS = 3, 4
PORTS = [f"DS0-{module}-{slot}" for module in range(1, MODULES + 1) for slot in range(1, SLOTS + 1)]


def commands(rng, table, count, ports=PORTS):
    """Changes of these ports that a plain table grants, each with the table after it: entries, and deletions in two of five cases."""
    for _ in range(count):
        used = {port for ends in table for port in (("from", ends[0]), ("to", ends[1]))}
        free = [(a, b) for a in ports for b in ports if a != b and ("from", a) not in used and ("to", b) not in used]
        if table and (not free or rng.random() < 0.4):
            ends = rng.choice(sorted(table))
            table = table - {ends}
            yield f"DLT-CRS-T0::{ends[0]},{ends[1]}:1;", table
        else:
            ends = rng.choice(free)
            table = table | {ends}
            yield f"ENT-CRS-T0::{ends[0]},{ends[1]}:1;", table


def listing(table, records):
    """What `dxc check` writes of a table and so many records."""
    rows = sorted(table, key=lambda ends: (PORTS.index(ends[0]), PORTS.index(ends[1])))
    return "".join(f"{a},{b}:1WAY\n" for a, b in rows) + f"RECORDS {records}\n"
