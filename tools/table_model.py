"""A table: its limits, its parts, and what is told of a faulty one."""

from collections import namedtuple

EDITIONS = range(1, 3)
MOST_STEPS = 96
MOST_EDGES = 288
NAME_LENGTH = range(1, 17)
NAME_BYTE = range(0x21, 0x7F)
GAP = range(1, 5)
WEIGHT = range(256)
FIRMNESS = [b"must", b"soft"]  # the place in the list is its number
MUST, SOFT = range(len(FIRMNESS))

# What a kind adds: the range of its number, and what that number is. The place in the list is the kind's number.
Kind = namedtuple("Kind", "word adds meaning")
KINDS = [Kind("check", None, None), Kind("adjust", range(10_000), "tolerance"), Kind("wait", range(1, 241), "number of minutes")]

Step = namedtuple("Step", "name kind number")
Edge = namedtuple("Edge", "tail head gap weight firmness")
Table = namedtuple("Table", "steps edges")


class Fault(Exception):
    """What is wrong with a text or a table, and where."""


def span(numbers):
    return f"{numbers[0]} {'or' if len(numbers) == 2 else 'to'} {numbers[-1]}"


def shown(word):
    """A word as it can stand in a message, whatever its bytes."""
    return '"' + "".join(chr(b) if b in NAME_BYTE else f"\\x{b:02X}" for b in word) + '"'
