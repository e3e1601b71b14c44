"""Frames of each row of the whole of LLRP 1.1, lawful and damaged, with what a listing has to say of each by tests/llrp11.tsv."""
import sys
from typing import NamedTuple

from parts.standard import LINES, MESSAGES, PARAMETERS, ROWS, Frame, Node, message, number_text, tail_text


class Case(NamedTuple):
    """A frame with its listing, and what is special about it."""

    what: str
    frame: bytes
    listing: list
    # of a lawful one what it holds, its version and its id
    holds: tuple = ()


# ---- what a row holds


def spread(row, place, width):
    """A number of this many bits that no other field of a row has."""
    return (row.number * 131 + place + 1) * 0x9E3779B97F4A7C15F39CC0605CEDC835 >> 7 & 2**width - 1


def value_of(row, place, field, size):
    if size == "least" or field.is_reserved:
        return 0
    if size == "greatest":
        return field.greatest
    if field.width == 96:
        # no scheme of TDS has this header, so the word is written as a raw URI
        return 0xE2 << 88 | spread(row, place, 88)
    return spread(row, place, field.width) % (field.greatest + 1)


def items_of(row, place, kind, size):
    count = {"least": 0, "usual": 3, "greatest": 21}[size]
    if kind == "utf8":
        return "aß\u20ac".encode() * (count // 3)
    width = 8 if kind == "octets" else int(kind[1:])
    if size == "greatest":
        return [2**width - 1] * count
    return [spread(row, 50 * (place + 1) + item, width) for item in range(count)]


def node(row, size="usual", children=None):
    """A message or parameter of this row with these children, or with those that it has to have."""
    values = [value_of(row, place, field, size) for place, field in enumerate(row.fields)]
    items = [items_of(row, place, kind, size) for place, (_, kind) in enumerate(row.lists)]
    return Node(row, values, items, least_children(row, size) if children is None else children)


def least_children(row, size="usual", but=None):
    """The children that a row has to have, but for those of one group."""
    return [node(PARAMETERS[group.members[0]], size) for group in row.groups if group is not but for _ in range(group.least)]


def all_children(row):
    """Each parameter that may be a child: of a group for any number all of them twice, of another its last."""
    found = []
    for group in row.groups:
        members = group.members[-1:] if group.most == 1 else group.members * (2 if group.most is None else 1)
        found += [node(PARAMETERS[number]) for number in members]
    return found


# ---- the messages around a parameter


def parents():
    """For each parameter, the row that is nearest to a message and may have it as a child."""
    found, level = {}, list(MESSAGES.values())
    while level:
        below = []
        for row in level:
            for number in (it for group in row.groups for it in group.members if it not in found):
                found[number] = row
                below.append(PARAMETERS[number])
        level = below
    return found


PARENTS = parents()


def around(inner, identity=1, version=2):
    """The path of nodes from a message down to this one, as a frame: above it each has besides what it has to have."""
    while inner.row.form != "message":
        row = PARENTS[inner.row.number]
        inner = node(row, children=[*least_children(row, but=row.group_of(inner.row.number)), inner])
    return message(inner.row.number, identity, inner.inner(), version), inner


def words_of(it):
    """The words of a line after its name, from what a node holds."""
    line = LINES[it.row]
    if it.row.form == "TV" or len(line.fields) == 1 and len(it.values) > 1:
        return [number_text(line.fields[0], int.from_bytes(it.body(), "big"))]
    words = [number_text(field, value) for field, value in zip(line.fields, it.values) if not field.is_reserved]
    if len(line.fields) > len(it.values):
        words.append(str(len(it.items[0])))
    if line.tail == "words":
        words.append("w" + ",".join(map(str, it.items[0])))
    elif line.tail:
        counts = 2 if line.tail == "text" else 0
        words.append(tail_text(line.tail, it.body()[counts + sum(field.width for field in line.fields) // 8 :]))
    return words


def lines_of(it, level=0, words=()):
    """The lines of a message or parameter and of all below."""
    yield " ".join([str(level), it.row.name, *words, *words_of(it)])
    for child in it.children:
        yield from lines_of(child, level + 1)


def lawful(what, inner, identity=1, version=2):
    frame, whole = around(inner, identity, version)
    listing = list(lines_of(whole, 0, [str(version), str(identity)]))
    if Frame(frame).listing() != listing:
        sys.exit(f"WRONG: {what}: {Frame(frame).listing()} by the rules, {listing} by what it holds")
    return Case(what, frame, listing, (whole, version, identity))


def lawful_cases():
    """Frames of each row: with the least, usual and greatest values, with each child alone, and with all, in both orders."""
    for row in ROWS:
        for place, size in enumerate(("least", "usual", "greatest")):
            yield lawful(f"{row.name}, {size} values", node(row, size), (2**32 - 1) * place // 2, 2 - place % 2)
        for group in row.groups:
            for number in group.members:
                children = [*least_children(row, but=group), node(PARAMETERS[number])]
                yield lawful(f"{row.name} with {PARAMETERS[number].name}", node(row, children=children))
        if row.groups:
            yield lawful(f"{row.name} with all", node(row, children=all_children(row)))
            yield lawful(f"{row.name} with all, backwards", node(row, children=all_children(row)[::-1]))
