"""Damaged frames of each row of the whole of LLRP 1.1, with their first faults by tests/llrp11.tsv and the rules of docs/errors.md."""
import sys
from typing import NamedTuple

from parts.frames import PARENTS, Case, around, least_children, node
from parts.standard import DEEPEST, LINES, PARAMETERS, ROWS, Frame, message, parameter


class Raw(NamedTuple):
    """Octets in the place of a child."""

    found: bytes

    def octets(self):
        return self.found


def path_to(row):
    """The rows from a message down to this one."""
    return [row] if row.form == "message" else [*path_to(PARENTS[row.number]), row]


def framed(row, found):
    """A frame with these octets, head and all, in the place of a parameter of this row; of a message they are what follows its
    header."""
    if row.form == "message":
        return message(row.number, 1, found)
    above = PARENTS[row.number]
    it = node(above, children=[*least_children(above, but=above.group_of(row.number)), Raw(found)])
    return around(it)[0]


def headed(row, inner):
    """What stands in a frame for a parameter with these octets after its head; of a message these alone."""
    if row.form == "message":
        return inner
    return bytes([128 + row.number]) + inner if row.form == "TV" else parameter(row.number, inner)


def damaged(what, row, inner, reasons):
    """A damaged row. Where its tail is data, octets after it are more data."""
    if reasons and LINES[row].tail == "data" and not reasons & {"Reserved", "Value"}:
        reasons = None
    return what, framed(row, headed(row, inner)), reasons


def field_damages(row):
    """Each field above its greatest value, and each reserved bit set."""
    at = 0
    it = node(row)
    body = int.from_bytes(b"\1" + it.body(), "big")
    size = body.bit_length() - 1
    for field in row.fields:
        at += field.width
        if field.greatest < 2**field.width - 1:
            for value in [1 << bit for bit in range(field.width)] if field.is_reserved else [field.greatest + 1, 2**field.width - 1]:
                old = body >> size - at & 2**field.width - 1
                found = body ^ (old ^ value) << size - at
                inner = found.to_bytes(size // 8 + 1, "big")[1:] + b"".join(child.octets() for child in it.children)
                reasons = {"Reserved" if field.is_reserved else "Value"} if field in LINES[row].fields else None
                yield damaged(f"{row.name}, {field.name} of {value}", row, inner, reasons)


def length_damages(row):
    """Cut after each octet of what follows its head, with all lengths as they then are; and with octets after it."""
    inner = node(row, "greatest").inner()
    for size in range(len(inner)):
        yield damaged(f"{row.name} cut to {size}", row, inner[:size], None)
    for size in (1, 2, 3, 4, 5, 17):
        for octet in (0, 1, 128, 255):
            yield damaged(f"{row.name} with {size} of {octet} after it", row, inner + bytes([octet]) * size, None)


def child_damages(row):
    """Children that no row has, each parameter as a child, none of a group, and too many of one."""
    inner = node(row).inner()
    for number, found in ((0, b""), (13, bytes(12)), (364, b""), (1022, bytes(8))):
        yield damaged(f"{row.name} with an unknown {number}", row, inner + parameter(number, found), {"Extra", "ParamType"})
    for number in (0, 21, 127):
        yield damaged(f"{row.name} with an unknown {number}", row, inner + bytes([128 + number, 0, 0]), {"Extra", "ParamType"})
    for child in PARAMETERS.values():
        group = row.group_of(child.number)
        reasons = {"Misplaced", "Extra"} if not group else {"TooMany"} if group.most == 1 and group.least == 1 else None
        yield damaged(f"{row.name} and {child.name}", row, inner + node(child).octets(), reasons)
    for group in row.groups:
        name = PARAMETERS[group.members[0]].name
        if group.least:
            found = node(row, children=least_children(row, but=group)).inner()
            yield damaged(f"{row.name} without {name}", row, found, {"Missing"})
        if group.most:
            found = node(row, children=[*least_children(row, but=group), *[node(PARAMETERS[group.members[-1]])] * (group.most + 1)]).inner()
            yield damaged(f"{row.name} with too many {name}", row, found, {"TooMany"} if group.most == 1 else None)


def head_damages(row):
    """A parameter with a reserved bit in its head, with a length that is too small, that ends too early and too late."""
    found = node(row).octets()
    for bit in range(6):
        yield f"{row.name}, bit {bit} of its head", framed(row, bytes([found[0] ^ 128 >> bit]) + found[1:]), None
    for size in (0, 3, len(found) - 1, len(found) + 1, 65535):
        yield f"{row.name} of length {size}", framed(row, found[:2] + size.to_bytes(2, "big") + found[4:]), None


def octet_damages(row):
    """Each octet of a frame, but for its length, with its lowest and its highest bit changed."""
    frame = around(node(row))[0]
    for at in (it for it in range(len(frame)) if not 2 <= it < 6):
        for change in (1, 128):
            found = frame[:at] + bytes([frame[at] ^ change]) + frame[at + 1 :]
            yield f"{row.name} with octet {at} changed by {change}", found, None


def depth_damages():
    """ParameterErrors in each other, down to the deepest level and below it."""
    status, error = PARAMETERS[287], PARAMETERS[289]
    for count in (DEEPEST - 1, DEEPEST):
        it = node(error)
        for _ in range(count - 1):
            it = node(error, children=[it])
        frame = message(100, 1, node(status, children=[it]).octets())
        yield f"{count} ParameterErrors", frame, None if count < DEEPEST else {"TooDeep"}


def damages():
    for row in ROWS:
        yield from field_damages(row)
        yield from length_damages(row)
        yield from octet_damages(row)
        if row.form != "TV":
            yield from child_damages(row)
        if row.form == "TLV":
            yield from head_damages(row)
    yield from depth_damages()


def damaged_cases():
    """Damaged frames with what the rules say of them. Where the kind of damage leaves only some reasons, it must be one of these."""
    for what, frame, reasons in damages():
        listing = Frame(frame).listing()
        reason = listing[0].split(" ")[-1] if listing[0].startswith("!") else None
        if reasons and reason not in reasons:
            sys.exit(f"WRONG: {what}: {listing[0]} by the rules")
        yield Case(what, frame, listing)
