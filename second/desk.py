"""Fill and Test, worked out once more from the words of the build specification.

It shares nothing with the library. A set of facts is a Python set of (box, state) pairs; the closure fires the twenty rules,
written as the specification says them, one at a time until none adds a fact; a list is tested by what the four kinds mean.
"""
OUT, IN, OPEN = 0, 1, 2
EQU, NOT, AND, OR = 1, 2, 3, 4
NONE = 65535


class Refused(Exception):
    """A refusal: its number and its place."""

    def __str__(self):
        """As the probe writes it."""
        return " ".join(["refused", *map(str, self.args)])


def record(kind, x, y, z=NONE, one=0):
    return bytes([kind, one]) + b"".join(box.to_bytes(2, "little") for box in (x, y, z))


def records_of(maker, depot):
    """The two tables act as one, the maker's records first: (kind, byte 1, x, y, z) each."""
    table = maker + depot
    rows = [table[at:at + 8] for at in range(0, len(table), 8)]
    return [(row[0], row[1], *(int.from_bytes(row[at:at + 2], "little") for at in (2, 4, 6))) for row in rows]


def is_bad(row, n):
    kind, one, x, y, z = row
    if kind not in (EQU, NOT, AND, OR) or one != 0:
        return True
    if kind in (EQU, NOT) and z != NONE:
        return True
    named = (x, y) if kind in (EQU, NOT) else (x, y, z)
    return any(box >= n for box in named) or len(set(named)) < len(named)


def check_tables(maker, depot, n):
    if n > 256:
        raise Refused(1, 0)
    if len(maker) % 8:
        raise Refused(2, 0)
    if len(depot) % 8:
        raise Refused(2, 1)
    rows = records_of(maker, depot)
    if len(rows) > 1024:
        raise Refused(2, 2)
    for number, row in enumerate(rows):
        if is_bad(row, n):
            raise Refused(3, number)
    return rows


def check_bytes(number, given, top):
    for place, byte in enumerate(given):
        if byte > top:
            raise Refused(number, place)


def rules_of(row):
    """The rules of one record: premises, then conclusions."""
    kind, _, x, y, z = row
    if kind == EQU:
        return [({(a, s)}, {(b, s)}) for a, b in ((x, y), (y, x)) for s in (OUT, IN)]
    if kind == NOT:
        return [({(a, s)}, {(b, 1 - s)}) for a, b in ((x, y), (y, x)) for s in (OUT, IN)]
    if kind == AND:
        return [
            ({(x, OUT)}, {(z, OUT)}),
            ({(y, OUT)}, {(z, OUT)}),
            ({(z, IN)}, {(x, IN), (y, IN)}),
            ({(x, IN), (y, IN)}, {(z, IN)}),
            ({(x, IN), (z, OUT)}, {(y, OUT)}),
            ({(y, IN), (z, OUT)}, {(x, OUT)}),
        ]
    return [
        ({(x, IN)}, {(z, IN)}),
        ({(y, IN)}, {(z, IN)}),
        ({(z, OUT)}, {(x, OUT), (y, OUT)}),
        ({(x, OUT), (y, OUT)}, {(z, OUT)}),
        ({(x, OUT), (z, IN)}, {(y, IN)}),
        ({(y, OUT), (z, IN)}, {(x, IN)}),
    ]


def closure(facts, rows):
    rules = [rule for row in rows for rule in rules_of(row)]
    closed = set(facts)
    grew = True
    while grew:
        grew = False
        for premises, conclusions in rules:
            if premises <= closed and not conclusions <= closed:
                closed |= conclusions
                grew = True
    return closed


def is_broken(row, listed):
    kind, _, x, y, z = row
    if kind == EQU:
        return listed[x] != listed[y]
    if kind == NOT:
        return (1 - listed[x]) != listed[y]
    if kind == AND:
        return min(listed[x], listed[y]) != listed[z]
    return max(listed[x], listed[y]) != listed[z]


def broken(rows, listed):
    """The numbers of the broken records, ascending."""
    return [number for number, row in enumerate(rows) if is_broken(row, listed)]


def fill(maker, depot, sheet, size):
    """The count and the filled sheet; `size` is the out buffer's."""
    rows = check_tables(maker, depot, len(sheet))
    check_bytes(4, sheet, 2)
    if size != len(sheet):
        raise Refused(5, 1)
    facts = closure({(box, state) for box, state in enumerate(sheet) if state != OPEN}, rows)
    if any((box, OUT) in facts and (box, IN) in facts for box in range(len(sheet))):
        raise Refused(7, 0)
    filled = [OUT if (box, OUT) in facts else IN if (box, IN) in facts else OPEN for box in range(len(sheet))]
    if OPEN not in filled and broken(rows, filled):
        raise Refused(8, broken(rows, filled)[0])
    return sum(a == OPEN and b != OPEN for a, b in zip(sheet, filled)), filled
