"""The text of a table: docs/TABLES.md says what it looks like."""

import codecs
import re
from collections import namedtuple

from table_model import FIRMNESS, GAP, KINDS, MOST_EDGES, MOST_STEPS, MUST, NAME_BYTE, NAME_LENGTH, SOFT, WEIGHT
from table_model import Edge, Fault, Step, Table, shown, span

# The words behind the ends of an edge, and what each gives: a gap and a weight are numbers, the firmness is its own word.
EDGE_WORDS = {b"gap": "gap", b"weight": "weight", **dict.fromkeys(FIRMNESS, "firmness")}
EDGE_NUMBERS = {"gap": GAP, "weight": WEIGHT}

EdgeLine = namedtuple("EdgeLine", "line tail head gap weight firmness")


def decimal(digits):
    """The number; of a long one the first digits, which are beyond every limit too."""
    return int((digits.lstrip(b"0") or b"0")[:10])


class Words:
    """The words of one line, taken from left to right."""

    def __init__(self, line, text):
        self.line = line
        self.rest = text.split()

    def fault(self, message):
        return Fault(f"line {self.line}: {message}")

    def take(self, what):
        if not self.rest:
            raise self.fault(f"{what} is missing")
        return self.rest.pop(0)

    def take_number(self, what, allowed):
        word = self.take(f"the {what}")
        if not re.fullmatch(rb"[0-9]+", word):
            raise self.fault(f"the {what} is a number, not {shown(word)}")
        number = decimal(word)
        if number not in allowed:
            raise self.fault(f"the {what} is {span(allowed)}, not {word.decode()}")
        return number

    def end(self):
        """Nothing more is due: what may follow is a comment."""
        if self.rest and not self.rest[0].startswith(b"#"):
            raise self.fault(f"nothing more is due, but {shown(self.rest[0])} follows")


def parse_step(words):
    name = words.take("the name of the step")
    if len(name) not in NAME_LENGTH:
        raise words.fault(f"a name has {span(NAME_LENGTH)} bytes, not {len(name)}")
    for byte in name:
        if byte not in NAME_BYTE:
            raise words.fault(f"byte {byte:02X} in a name is outside 21 to 7E")
    word = words.take("the kind of the step")
    for kind, (kind_word, adds, meaning) in enumerate(KINDS):
        if word == kind_word.encode():
            return Step(name, kind, None if adds is None else words.take_number(meaning, adds))
    raise words.fault(f"a kind is check, adjust or wait, not {shown(word)}")


def parse_edge(words):
    tail = words.take("the step that the edge comes from")
    head = words.take("the step that the edge goes to")
    given = {}
    while words.rest and not words.rest[0].startswith(b"#"):
        word = words.take("a word")
        field = EDGE_WORDS.get(word)
        if field is None:
            raise words.fault(f"after the ends of an edge stand gap, weight, must or soft, not {shown(word)}")
        if field in given:
            raise words.fault(f"the {field} is given twice")
        given[field] = FIRMNESS.index(word) if word in FIRMNESS else words.take_number(field, EDGE_NUMBERS[field])
    return EdgeLine(words.line, tail, head, given.get("gap", 1), given.get("weight", 1), given.get("firmness", MUST))


def find_end(line, end, steps):
    """The number of the step that an end names: @ and its number, or a name that one step has."""
    named = [number for number, step in enumerate(steps) if step.name == end]
    by_number = " or ".join(f"@{number}" for number in named)
    if re.fullmatch(rb"@[0-9]+", end):
        number = decimal(end[1:])
        if number >= len(steps):
            raise Fault(f"line {line}: there is no step {end.decode()}: steps are numbered from 0, and there are {len(steps)}")
        return number
    if end.startswith(b"@"):
        hint = f", and the step of that name is written {by_number}" if named else ""
        raise Fault(f"line {line}: {shown(end)} is no step: after @ stands a step's number{hint}")
    if not named:
        raise Fault(f"line {line}: no step is named {shown(end)}")
    if len(named) > 1:
        raise Fault(f"line {line}: {len(named)} steps are named {shown(end)}: write {by_number}")
    return named[0]


def find_ends(edge_line, steps):
    tail = find_end(edge_line.line, edge_line.tail, steps)
    head = find_end(edge_line.line, edge_line.head, steps)
    if tail == head:
        raise Fault(f"line {edge_line.line}: an edge joins two different steps, and both its ends are @{tail}")
    return Edge(tail, head, edge_line.gap, edge_line.weight, edge_line.firmness)


def parse_line(words, steps, edge_lines):
    word = words.take("a word")
    if word == b"step":
        steps.append(parse_step(words))
        if len(steps) > MOST_STEPS:
            raise words.fault(f"a table has at most {MOST_STEPS} steps, and this is one more")
    elif word == b"edge":
        edge_lines.append(parse_edge(words))
        if len(edge_lines) > MOST_EDGES:
            raise words.fault(f"a table has at most {MOST_EDGES} edges, and this is one more")
    else:
        raise words.fault(f"unknown word {shown(word)}: a line starts with step, edge or #")
    words.end()


def parse_text(text):
    """The table of a text. Lines are judged first, each by itself; then the ends of the edges."""
    steps, edge_lines = [], []
    for line, line_text in enumerate(text.removeprefix(codecs.BOM_UTF8).split(b"\n"), 1):
        words = Words(line, line_text)
        if words.rest and not words.rest[0].startswith(b"#"):
            parse_line(words, steps, edge_lines)
    return Table(steps, [find_ends(edge_line, steps) for edge_line in edge_lines])


def end_text(number, steps):
    name = steps[number].name
    single = sum(step.name == name for step in steps) == 1
    return name.decode() if single and not name.startswith(b"@") else f"@{number}"


def table_text(table):
    lines = []
    for step in table.steps:
        added = "" if step.number is None else f" {step.number}"
        lines.append(f"step {step.name.decode()} {KINDS[step.kind].word}{added}\n")
    for edge in table.edges:
        tail, head = end_text(edge.tail, table.steps), end_text(edge.head, table.steps)
        soft = " soft" if edge.firmness == SOFT else ""
        lines.append(f"edge {tail} {head} gap {edge.gap} weight {edge.weight}{soft}\n")
    return "".join(lines).encode()
