"""Frames with values, lists and children drawn by chance, lawful by tests/llrp11.tsv: the same ones each time."""
import random

from parts.standard import MESSAGES, PARAMETERS, Node, message

# How deep parameters stand that are drawn and not needed, how many more of them a group has at most, and how many octets a frame.
DEEP, MORE, MOST_OCTETS = 7, 3, 4000
# What texts are drawn from: characters of one to four octets.
LETTERS = "aZ09 ~\u00e9\u00df\u0416\u20ac\u4e2d\U0001f600"


def number(draw, most):
    """A number up to this one: as often one of the ends as any."""
    return draw.choice((0, most, draw.randint(0, most), draw.randint(0, most)))


def items(draw, kind):
    """What a list of this kind has: no item, or some."""
    count = draw.choice((0, 1, draw.randint(2, 40)))
    if kind == "utf8":
        return "".join(draw.choice(LETTERS) for _ in range(count)).encode()
    most = 255 if kind == "octets" else 2 ** int(kind[1:]) - 1
    return [draw.randint(0, most) for _ in range(count)]


def drawn(draw, row, level=0):
    """A message or parameter of this row. What stands deep has the children that it has to have."""
    values = [number(draw, field.greatest) for field in row.fields]
    children = []
    for group in row.groups:
        most = group.least + MORE if group.most is None else group.most
        count = draw.randint(group.least, most) if level < DEEP and draw.random() < 0.7 else group.least
        children += [drawn(draw, PARAMETERS[draw.choice(group.members)], level + 1) for _ in range(count)]
    draw.shuffle(children)
    return Node(row, values, [items(draw, kind) for _, kind in row.lists], children)


def mixed_frames(count):
    """Yields this many frames, of each message in turn: of one with more fields and groups more."""
    draw, left = random.Random(5084), count
    rows = [row for row in MESSAGES.values() for _ in range(1 + len(row.fields) + len(row.groups))]
    while left:
        row = rows[left % len(rows)]
        node = drawn(draw, row)
        frame = message(row.number, draw.getrandbits(32), node.inner(), draw.choice((1, 2)))
        if len(frame) <= MOST_OCTETS:
            left -= 1
            yield frame
