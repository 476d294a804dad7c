"""What the text of a table, and the lists that the example prints of it, tell of the chart: names, kinds, edges, lines and points."""

import re
from itertools import takewhile


def read_text(path):
    """The names and the kinds of the steps; the ends of the edges as step numbers, whether each is soft, and its gap and weight."""
    lines = [line.split() for line in open(path) if line.split()]
    plain = lambda words: list(takewhile(lambda word: word[0] != "#", words))
    steps = [words for words in lines if words[0] == "step"]
    names, kinds = [words[1] for words in steps], [" ".join(plain(words[2:])) for words in steps]
    number = lambda end: int(end[1:]) if end[0] == "@" else names.index(end)
    edges = [words[:3] + plain(words[3:]) for words in lines if words[0] == "edge"]
    soft = ["soft" in words[3:] for words in edges]
    given = lambda words, what: int(words[words.index(what, 3) + 1]) if what in words[3:] else 1
    numbers = [(given(words, "gap"), given(words, "weight")) for words in edges]
    return names, kinds, [(number(words[1]), number(words[2])) for words in edges], soft, numbers


def read_lists(path):
    """The number of crossings; of each row its points from left to right, and their x if there are any."""
    text = open(path).read()
    listed = re.findall(r"(?m)^row  (?:points from left|the x of).*\n((?: *\d.*\n)*)", text)
    rows = [[[int(word) for word in line.split()[1:]] for line in part.splitlines()] for part in listed]
    return int(re.search(r"(?m)^crossings (\d+)$", text)[1]), rows[0], rows[1] if len(rows) > 1 else None


def read_row_order(path):
    """Of what the example prints with --row: the row; its points in the present order and in the one found, each a step, or for a dummy `|`
    with the first edge of its line; and the crossings of the order found: with the row above, with the row below if there is one, and all."""
    text = open(path).read()
    word = re.compile(r"(?:\[(\d+) \S+\]|[|^](\d+))(?= |$)")
    orders = [re.search(rf"(?m)^{which} +(\S.*)$", text)[1] for which in ("present", "found")]
    points = [[int(step) if step else f"|{edge}" for step, edge in word.findall(order)] for order in orders]
    crossings = re.search(r"(?m)^crossings .*\n((?:.*\d\n)*)", text)[1].splitlines()
    return int(re.search(r"(?m)^row +(\d+)$", text)[1]), points, [int(line.split()[-1]) for line in crossings]


def find_lines(ends, soft):
    """The numbers of the edges that each line stands for: those of the same ends and firmness, in the place of the first."""
    lines = {}
    for i, edge in enumerate(zip(ends, soft)):
        lines.setdefault(edge, []).append(i)
    return list(lines.values())


def leads(ends, start, goal):
    """Whether a way over edges of these ends leads from one step to another."""
    reached, size = {start}, 0
    while size < len(reached):
        size = len(reached)
        reached |= {head for tail, head in ends if tail in reached}
    return goal in reached


def find_turned(ends, soft):
    """Of each edge whether it is turned: a soft one that closes a loop with the must edges and the soft ones kept before it."""
    kept = [pair for pair, is_soft in zip(ends, soft) if not is_soft]
    turned = []
    for (tail, head), is_soft in zip(ends, soft):
        turned.append(is_soft and leads(kept, head, tail))
        if is_soft and not turned[-1]:
            kept.append((tail, head))
    return turned


def find_points(lines, ends, turned, row_of):
    """The points of each line from its first step to its last: dummies are numbered behind the steps, by line and rising row."""
    found, next_point = [], len(row_of)
    for line in lines:
        (tail, head), up = ends[line[0]], turned[line[0]]
        length = abs(row_of[head] - row_of[tail])
        dummies = list(range(next_point, next_point + length - 1))
        found.append([tail, *(dummies[::-1] if up else dummies), head])
        next_point += length - 1
    return found
