#!/usr/bin/env python3
"""Compares each field that `llrp explain --all` prints of lawful frames with what tshark shows of them: its first bit, its width and its
value, of all kinds of message and parameter.

usage: tests/fields_by_tshark.py [PROGRAM]

tshark is the judge: nothing of what the program prints is compared with a table of ours. The kinds whose fields it shows otherwise than the
standard has them are those of tests/parts/dissector.py, with what it does; of these the heads are compared. PROGRAM is llrp,
crates/llrp/out/llrp where none is given. tshark and text2pcap are needed. The last line is `N passed, M failed`; the status is 1 if
something failed.
"""
import re
import subprocess
import sys
from typing import NamedTuple

from parts.counting import finish
from parts.dissector import HEADS, LOST, SLIPS, children_of, dissected, own_fields, place_of
from parts.frames import lawful_cases
from parts.mixed_frames import mixed_frames
from parts.repository import program_given
from parts.standard import MESSAGES, PARAMETERS, ROWS

# How many frames are drawn by chance, and how many fields are compared at least, those of heads among them.
MIXED = 1000
LEAST = 59000
# Kinds of which the program has one field for several of tshark's, and which these are.
JOINED = {"C1G2EPCMemorySelector": "an octet, of which tshark shows the three flags and not the five reserved bits"}
# The names and widths of the fields of a head.
MESSAGE = [("reserved", 3), ("Version", 3), ("MessageType", 10), ("MessageLength", 32), ("MessageID", 32)]
LONG = [("reserved", 6), ("ParameterType", 10), ("ParameterLength", 16)]
SHORT = [("type and value", 1), ("ParameterType", 7)]
# What tshark may leave out: reserved bits of heads and of bodies, and the bit that says type and value.
UNSHOWN = ("reserved", "R", "type and value")


class Field(NamedTuple):
    """A line of `explain`: octets are a number, too."""

    bit: int
    width: int
    level: int
    name: str
    value: int
    is_octets: bool


class Part(NamedTuple):
    """A message or a parameter: its level, number and first octet, and the places, widths and values of its head's fields and its own."""

    level: int
    number: int
    octet: int
    head: list
    own: list


# ---- what the program prints


def field_of(line):
    bit, width, level, *name, value = line.split("\t")[0].split(" ")
    is_octets = value[0] == "x"
    # (a negative number is that of its bits in two's complement)
    return Field(int(bit), int(width), int(level), " ".join(name), int(value[1:], 16) if is_octets else int(value) % 2 ** int(width), is_octets)


def head_at(fields, at):
    """How many fields of a head begin at this place, 0 where none does."""
    for head in [MESSAGE] if at == 0 else [LONG, SHORT]:
        if [(field.name, field.width) for field in fields[at : at + len(head)]] == head:
            return len(head)
    return 0


def explained_parts(fields):
    """Returns the messages and parameters that the lines of a frame are, in their order."""
    parts, at = [], 0
    while at < len(fields):
        size = head_at(fields, at)
        if size:
            head, first = fields[at : at + size], fields[at]
            number = next(field.value for field in head if field.name.endswith("Type"))
            parts.append(Part(first.level, number, first.bit // 8, head, []))
        elif parts:
            parts[-1].own.append(fields[at])
        at += max(size, 1)
    return parts


def explained(program, frames):
    """Returns the parts of each frame as the program prints them."""
    done = subprocess.run([program, "explain", "--all"], input=b"".join(frames), capture_output=True, timeout=600)
    if done.returncode or done.stderr:
        sys.exit(f"WRONG: explain --all: status {done.returncode}, {done.stderr.decode()}")
    texts = re.split(r"(?m)^frame \d+, \d+ octets\nBIT WIDTH LEVEL FIELD VALUE\n", done.stdout.decode())[1:]
    return [explained_parts([field_of(line) for line in text.splitlines()]) for text in texts]


# ---- what tshark shows


def shown_parts(element, base, level=0, number=None, octet=0):
    """Yields a message or parameter that is shown, and those below it."""
    row = (PARAMETERS if level else MESSAGES)[number]
    head = [place_of(field, base) for field in element.findall("field") if field.get("name") in HEADS]
    own = [place_of(field, base) for field in own_fields(element) if int(field.get("size"))]
    end = 8 * (octet + row.head_octets)
    yield Part(level, number, octet, [it for it in head if it[0] < end], own + [it for it in head if it[0] >= end])
    if row.name not in LOST:
        for (number, octet, _), child in children_of(element, base):
            yield from shown_parts(child, base, level + 1, number, octet)


def shown(frame, element):
    return list(shown_parts(element, int(element.get("pos")), number=int.from_bytes(frame[:2], "big") & 1023))


# ---- the two beside each other


def row_of(part):
    return (PARAMETERS if part.level else MESSAGES)[part.number]


def without_lost(parts):
    """Yields the parts but those below a kind of which tshark does not find the children."""
    above = None
    for part in parts:
        if above is None or part.level <= above:
            above = part.level if row_of(part).name in LOST else None
            yield part


def units(fields):
    """Yields each field that is shown by itself: a text is shown with the count of its octets before it."""
    fields = list(fields)
    for at, field in enumerate(fields):
        after = fields[at + 1] if at + 1 < len(fields) else None
        if field.name == "count" and after and after.name == "text":
            fields[at + 1] = after._replace(bit=field.bit, width=16 + after.width, value=field.value << after.width | after.value)
        else:
            yield field


def agrees(name, field, inside):
    """Whether what is shown within a field of this kind is that field. Octets may be shown as several fields that follow one another, and
    of a joined field some of its bits."""
    if name in JOINED:
        rests = [(number, field.value >> (field.bit + field.width - bit - width) & (2**width - 1)) for bit, width, number in inside]
        return bool(rests) and all(number == wanted for number, wanted in rests)
    if not field.is_octets:
        return inside == [(field.bit, field.width, field.value)]
    at, value = field.bit, 0
    for bit, width, number in inside:
        if bit != at:
            return False
        at, value = at + width, value << width | number
    return (at, value) == (field.bit + field.width, field.value)


def compared(part, other):
    """Yields each field of a part that both have, and whether they agree; what one of them has alone is wrong."""
    name = row_of(part).name
    yield f"{name}: {other[:3]} in place of {part[:3]}", part[:3] == other[:3]
    for kind, fields, spans in (("head", part.head, other.head), ("own", part.own, other.own)):
        if kind == "own" and name in SLIPS:
            continue
        left = list(spans)
        for field in units(fields):
            inside = [it for it in left if field.bit <= it[0] < field.bit + field.width]
            left = [it for it in left if it not in inside]
            if inside or field.name not in UNSHOWN:
                yield f"{name}: {inside} in place of {field}", agrees(name if kind == "own" else None, field, inside)
        if left:
            yield f"{name}: {left} besides", False


def results(program):
    """Yields what was compared, and whether it is right."""
    frames = [*(case.frame for case in lawful_cases()), *mixed_frames(MIXED)]
    texts, elements, seen = explained(program, frames), dissected(frames), set()
    yield f"{len(texts)} texts and {len(elements)} packets of {len(frames)} frames", len(texts) == len(elements) == len(frames)
    for frame, ours, element in zip(frames, texts, elements):
        if element is None:
            yield f"{frame.hex()}: it is not shown", False
            continue
        ours, theirs = list(without_lost(ours)), shown(frame, element)
        yield f"{frame.hex()}: {len(theirs)} parts in place of {len(ours)}", len(ours) == len(theirs)
        for part, other in zip(ours, theirs):
            seen.add(row_of(part))
            for what, is_right in compared(part, other):
                yield f"{frame.hex()}: {what}", is_right
    for row in ROWS:
        yield f"{row.name} is in no frame", row in seen


def main():
    passed = failed = 0
    for what, is_right in results(program_given()):
        if is_right:
            passed += 1
        else:
            failed += 1
            print(f"WRONG: {what[-600:]}")
    return finish(passed, failed, LEAST)


if __name__ == "__main__":
    sys.exit(main())
