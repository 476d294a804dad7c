"""A second writer of tables, as texts and as bytes, and random tables for it.

A table is a list of steps (name, kind, number) and a list of edges (from, to, gap, weight, firmness).
"""

from collections import Counter

# The limits, and those of version 1.3: named here for the test, so that the tool is not held to its own.
MOST_STEPS, MOST_EDGES = 96, 288
OLD_STEPS, OLD_EDGES = 64, 192
# The bytes of the longest table: its edition and its counts; its steps with names of 16; its edges, each with a firmness.
LONGEST = 1 + 1 + MOST_STEPS * (1 + 2 + 1 + 16) + 2 + MOST_EDGES * (1 + 1 + 1 + 2 + 1)


def number(value, longer=0):
    """Seven bits a byte, lowest first, in up to `longer` more bytes than needed."""
    size = 1 if value < 0x80 else 2 if value < 0x4000 else 3
    size = min(3, size + longer)
    return bytes(value >> 7 * i & 0x7F | (0x80 if i + 1 < size else 0) for i in range(size))


def edition_of(edges):
    return 2 if any(firmness for *_, firmness in edges) else 1


def bytes_of(steps, edges, longer=lambda: 0, edition=None):
    edition = edition or edition_of(edges)
    out = number(edition, longer()) + number(len(steps), longer())
    for name, kind, added in steps:
        out += number(kind, longer()) + (number(added, longer()) if kind else b"") + number(len(name), longer()) + name
    out += number(len(edges), longer())
    for edge in edges:
        out += b"".join(number(value, longer()) for value in edge[: 3 + edition])
    return out


def first_long(table, shortest):
    """Where the first number of a table with long forms ends, which is the byte 00 that it can do without. `shortest` is the same table without
    long forms: the two differ first at the last byte that the number needs, whose high bit is set in the long form."""
    differ = next(i for i, byte in enumerate(shortest) if table[i] != byte)
    return table.index(0, differ)


def text_of(steps, edges):
    times = Counter(name for name, _, _ in steps)
    ends = [name if times[name] == 1 and name[:1] != b"@" else b"@%d" % i for i, (name, _, _) in enumerate(steps)]
    kinds = [b"check", b"adjust %d", b"wait %d"]
    lines = [b"step %s %s\n" % (name, kinds[kind] % added if kind else kinds[0]) for name, kind, added in steps]
    for tail, head, gap, weight, firmness in edges:
        lines.append(b"edge %s %s gap %d weight %d%s\n" % (ends[tail], ends[head], gap, weight, b" soft" if firmness else b""))
    return b"".join(lines)


ODD_NAMES = [b"@", b"@0", b"@1", b"@@", b"#", b"#1", b"1", b"step", b"edge", b"gap", b"weight", b"soft", b"must", b"check", b'"', b"\\", b"a=b", b"|2", b"~" * 16]


def random_name(rng):
    if rng.random() < 0.4:
        return rng.choice(ODD_NAMES)
    return bytes(rng.randint(0x21, 0x7E) for _ in range(rng.randint(1, 16)))


def random_step(rng):
    kind = rng.randrange(3)
    return random_name(rng), kind, [None, rng.choice([0, 127, 128, 9999]), rng.choice([1, 127, 128, 240])][kind]


def random_table(rng):
    steps = [random_step(rng) for _ in range(rng.choice([0, 1, 2, 3, 10, OLD_STEPS + 1, MOST_STEPS]))]
    count = rng.choice([0, 1, 5, 127, 128, MOST_EDGES]) if len(steps) > 1 else 0
    ends = [rng.sample(range(len(steps)), 2) for _ in range(count)]
    softness = rng.choice([0, 0, 0.02, 0.5, 1])
    return steps, [(*pair, rng.randint(1, 4), rng.choice([0, 1, 127, 128, 255]), int(rng.random() < softness)) for pair in ends]
