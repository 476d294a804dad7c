"""The bytes of a table: docs/FORMAT.md says what they are."""

from table_model import EDITIONS, FIRMNESS, GAP, KINDS, MOST_EDGES, MOST_STEPS, MUST, NAME_BYTE, NAME_LENGTH, WEIGHT
from table_model import Edge, Fault, Step, Table, span

PLAIN, WITH_FIRMNESS = EDITIONS


def number_bytes(number):
    """The shortest form of a number: seven bits a byte, the lowest first."""
    out = bytearray()
    while number > 0x7F:
        out.append(number & 0x7F | 0x80)
        number >>= 7
    out.append(number)
    return bytes(out)


def step_bytes(step):
    adds = b"" if step.number is None else number_bytes(step.number)
    return number_bytes(step.kind) + adds + number_bytes(len(step.name)) + step.name


def edge_bytes(edge, edition):
    numbers = edge if edition == WITH_FIRMNESS else edge[:-1]  # the firmness is the last
    return b"".join(map(number_bytes, numbers))


def table_bytes(table):
    """The shortest form of a table. The edition is the lowest that can tell the edges, so that equal tables have equal bytes."""
    edition = PLAIN if all(edge.firmness == MUST for edge in table.edges) else WITH_FIRMNESS
    parts = [number_bytes(edition), number_bytes(len(table.steps)), *map(step_bytes, table.steps), number_bytes(len(table.edges))]
    parts += [edge_bytes(edge, edition) for edge in table.edges]
    return b"".join(parts)


class Reader:
    """The fields of a table, taken from left to right. A fault names the place of its first byte, counted from 0."""

    def __init__(self, table):
        self.table = table
        self.at = 0

    def fault(self, at, refusal, message):
        return Fault(f"byte {at}: {message} (refusal {refusal})")

    def byte(self, what):
        if self.at == len(self.table):
            raise self.fault(self.at, 1, f"the table ends before {what} is complete")
        self.at += 1
        return self.table[self.at - 1]

    def number(self, what, allowed, refusal):
        start, value = self.at, 0
        for place in range(3):
            byte = self.byte(what)
            value |= (byte & 0x7F) << 7 * place
            if byte < 0x80:
                break
        else:
            raise self.fault(self.at - 1, 2, f"the third byte of {what} says that a fourth follows")
        if place > 0 and byte == 0:
            raise self.fault(self.at - 1, 2, f"the last byte of {what} is 00, so fewer bytes would do; convert shortens it")
        if value not in allowed:
            raise self.fault(start, refusal, f"{what} is {value}, not {span(allowed)}")
        return value

    def step(self, number):
        kind = self.number(f"the kind of step {number}", range(len(KINDS)), 5)
        _, adds, meaning = KINDS[kind]
        added = None if adds is None else self.number(f"the {meaning} of step {number}", adds, 6)
        length = self.number(f"the name length of step {number}", NAME_LENGTH, 6)
        name = bytes(self.name_byte(number) for _ in range(length))
        return Step(name, kind, added)

    def name_byte(self, number):
        byte = self.byte(f"the name of step {number}")
        if byte not in NAME_BYTE:
            raise self.fault(self.at - 1, 7, f"byte {byte:02X} in the name of step {number} is outside 21 to 7E")
        return byte

    def edge(self, number, steps, edition):
        tail = self.end(f"from of edge {number}", steps)
        start = self.at
        head = self.end(f"to of edge {number}", steps)
        if tail == head:
            raise self.fault(start, 9, f"from and to of edge {number} are both step {head}")
        gap = self.number(f"the gap of edge {number}", GAP, 6)
        weight = self.number(f"the weight of edge {number}", WEIGHT, 6)
        firmness = MUST if edition == PLAIN else self.number(f"the firmness of edge {number}", range(len(FIRMNESS)), 15)
        return Edge(tail, head, gap, weight, firmness)

    def end(self, what, steps):
        start = self.at
        number = self.number(what, range(1 << 21), 9)
        if number >= steps:
            raise self.fault(start, 9, f"{what} is {number}, and there are {steps} steps, numbered from 0")
        return number

    def whole(self):
        edition = self.number("the edition", EDITIONS, 3)
        steps = [self.step(i) for i in range(self.number("the step count", range(MOST_STEPS + 1), 4))]
        edges = [self.edge(i, len(steps), edition) for i in range(self.number("the edge count", range(MOST_EDGES + 1), 8))]
        if self.at < len(self.table):
            raise self.fault(self.at, 10, f"the table is complete, and {len(self.table) - self.at} more bytes follow")
        return Table(steps, edges)


def read_bytes(table):
    """The table that the bytes are, or the first fault from the left."""
    return Reader(table).whole()
