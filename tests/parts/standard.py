"""The messages and parameters of LLRP 1.1 by tests/llrp11.tsv, which was written from the standard and from none of the program's
tables: their octets, their lines of a listing, and what a frame is, read by the rules of docs/errors.md."""
import dataclasses
from typing import NamedTuple, Optional

from parts.counting import text_of

# The deepest level of a parameter, and the greatest frame.
DEEPEST = 16
LIMIT = 65536
# How many bits of fields a row of the program has at most; fields after these are data there.
MOST_BITS = 96


class Field(NamedTuple):
    name: str
    width: int
    greatest: int
    is_signed: bool = False

    @property
    def is_reserved(self):
        return self.name == "R"


class Group(NamedTuple):
    members: tuple
    least: int
    most: Optional[int]


@dataclasses.dataclass(frozen=True)
class Row:
    """What the standard says of a message or a parameter. A list is its name and what its items are."""

    form: str
    number: int
    name: str
    fields: tuple
    lists: tuple
    groups: tuple

    def group_of(self, child):
        """The group that has parameters of this number, or none."""
        return next((group for group in self.groups if child in group.members), None)

    @property
    def head_octets(self):
        return {"message": 10, "TLV": 4, "TV": 1}[self.form]


def field_of(text):
    name, width, *more = text.split(":")
    greatest = next((int(it[3:]) for it in more if it.startswith("0..")), 2 ** int(width) - 1)
    return Field(name, int(width), 0 if name == "R" else greatest, "s" in more)


def group_of(text):
    members, bounds = text.split(":")
    least, most = bounds.split("..")
    return Group(tuple(map(int, members.split("|"))), int(least), None if most == "n" else int(most))


def rows():
    """Yields the rows of the table."""
    for line in text_of("tests/llrp11.tsv").splitlines():
        if not line.startswith("#"):
            form, number, name, *parts = line.split("\t")
            fields, lists, groups = ([] if it == "-" else it.split(" ") for it in parts)
            lists = tuple(tuple(it.split(":")) for it in lists)
            yield Row(form, int(number), name, tuple(map(field_of, fields)), lists, tuple(map(group_of, groups)))


ROWS = tuple(rows())
MESSAGES = {row.number: row for row in ROWS if row.form == "message"}
# A parameter below 128 has type and value alone.
PARAMETERS = {row.number: row for row in ROWS if row.form != "message"}


# ---- what a message or parameter holds, and its octets


@dataclasses.dataclass
class Node:
    """A message or a parameter: a value for each field, the items of each list (of text and data the octets), and its children."""

    row: Row
    values: list
    items: list
    children: list

    def body(self):
        """The octets of its fields and lists, as the standard lays them out."""
        bits = "".join(f"{value:0{field.width}b}" for field, value in zip(self.row.fields, self.values))
        octets = int("1" + bits, 2).to_bytes(len(bits) // 8 + 1, "big")[1:]
        return octets + b"".join(list_octets(kind, items) for (_, kind), items in zip(self.row.lists, self.items))

    def inner(self):
        return self.body() + b"".join(child.octets() for child in self.children)

    def octets(self):
        """The octets of a parameter."""
        if self.row.form == "TV":
            return bytes([128 + self.row.number]) + self.inner()
        return parameter(self.row.number, self.inner())


def list_octets(kind, items):
    """A list: the count of its items and these, but for data, which has no count. Bits are filled up with zeros."""
    if kind == "octets":
        return bytes(items)
    if kind == "utf8":
        return len(items).to_bytes(2, "big") + bytes(items)
    width = int(kind[1:])
    bits = "".join(f"{item:0{width}b}" for item in items)
    bits += "0" * (-len(bits) % 8)
    return len(items).to_bytes(2, "big") + int("1" + bits, 2).to_bytes(len(bits) // 8 + 1, "big")[1:]


def parameter(number, inner):
    return number.to_bytes(2, "big") + (4 + len(inner)).to_bytes(2, "big") + inner


def message(number, identity, inner, version=2):
    return (version << 10 | number).to_bytes(2, "big") + (10 + len(inner)).to_bytes(4, "big") + identity.to_bytes(4, "big") + inner


# ---- the lines of a listing


class Line(NamedTuple):
    """What a line of a listing has of a row: fields, and a tail that is words, text, bits, data or none."""

    fields: tuple
    tail: Optional[str]


def line_of(row):
    """What the program's row has. It has fewer forms than the standard, as docs/tables.md says: one list alone, of 16 bits or of
    bits that the only field counts; any other is a field Count and data. Fields above 96 bits are data, a parameter of type and
    value has one field, and signed numbers have 8 bits."""
    fields = [field._replace(is_signed=field.is_signed and field.width == 8) for field in row.fields]
    if row.form == "TV":
        whole = sum(field.width for field in fields)
        return Line((fields[0] if len(fields) == 1 else Field(row.name, whole, 2**whole - 1),), None)
    if row.name == "C1G2EPCMemorySelector":
        return Line((Field("Selector", 8, 255),), None)
    kinds = [kind for _, kind in row.lists]
    count = Field("Count", 16, 65535)
    if kinds == ["u16"]:
        return Line(tuple(fields), "words")
    if kinds == ["utf8"]:
        return Line(tuple(fields), "text")
    if kinds == ["u1"] and not fields:
        return Line((count,), "bits")
    if kinds == ["octets"]:
        return Line(tuple(fields), "data")
    if kinds:
        return Line((*fields, count), "data")
    short = [field for at, field in enumerate(fields) if sum(it.width for it in fields[: at + 1]) <= MOST_BITS]
    return Line(tuple(short), "data" if len(short) < len(fields) else None)


LINES = {row: line_of(row) for row in ROWS}


def is_looser(row):
    """Whether the program's row allows more than the standard's, or does not tell apart what the standard does."""
    if row.name == "EPCData":
        return False
    kinds = {"words": ("u16",), "text": ("utf8",), "data": ("octets",), None: ()}
    return LINES[row].fields != row.fields or kinds[LINES[row].tail] != tuple(kind for _, kind in row.lists) or groups_of(row) != row.groups


def groups_of(row):
    """The groups of the program's row, which has none that ends at two."""
    return tuple(group._replace(most=None if group.most == 2 else group.most) for group in row.groups)


def number_text(field, value):
    if field.width == 96:
        return f"urn:epc:raw:96.x{value:024X}"
    return str(value - 2**field.width if field.is_signed and value >= 2 ** (field.width - 1) else value)


def tail_text(kind, octets):
    if kind == "words":
        return "w" + ",".join(str(int.from_bytes(octets[at : at + 2], "big")) for at in range(0, len(octets), 2))
    return "x" + octets.hex()


# ---- what a frame is


class Fault(Exception):
    """The first bit at which a frame fails, and why."""


class Frame:
    """Reads a frame by the rows and the rules, and keeps the lines of its listing."""

    def __init__(self, octets):
        self.octets = octets
        self.stop = 8 * len(octets)
        self.bits = int.from_bytes(octets, "big")
        self.lines = []

    def number(self, at, width):
        return self.bits >> (self.stop - at - width) & (2**width - 1)

    def listing(self):
        """The listing of a frame, of which its length is known to be right."""
        identity = self.number(48, 32)
        try:
            self.read_message()
        except Fault as fault:
            bit, reason = fault.args
            return [f"! {identity} {bit} {reason}"]
        return self.lines

    def read_message(self):
        must(self.number(0, 3) == 0, 0, "Reserved")
        must(self.number(3, 3) in (1, 2), 3, "Version")
        row = MESSAGES.get(self.number(6, 10))
        must(row is not None, 6, "MessageType")
        must(len(self.octets) <= LIMIT, 16, "MessageLength")
        self.read_node(row, 80, self.stop, 0, [str(self.number(3, 3)), str(self.number(48, 32))])

    def read_node(self, row, at, stop, level, words):
        """Reads what follows a head, and returns the bit after it."""
        line, values = LINES[row], []
        for field in line.fields:
            must(at + field.width <= stop, at, "Short")
            value = self.number(at, field.width)
            must(value <= field.greatest, at, "Reserved" if field.is_reserved else "Value")
            if not field.is_reserved:
                values.append(value)
                words.append(number_text(field, value))
            at += field.width
        if line.tail:
            at, octets = self.read_tail(line.tail, values, at, stop)
            words.append(tail_text(line.tail, octets))
        self.lines.append(" ".join([str(level), row.name, *words]))
        return at if row.form == "TV" else self.read_children(row, at, stop, level + 1)

    def read_tail(self, kind, values, at, stop):
        """Reads a tail. Returns the bit after it, and its octets."""
        begin = at
        if kind in ("words", "text"):
            must(at + 16 <= stop, at, "Short")
            size = self.number(at, 16) * (2 if kind == "words" else 1)
            at += 16
        else:
            size = (values[0] + 7) // 8 if kind == "bits" else (stop - at) // 8
        must(at + 8 * size <= stop, begin - 16 if kind == "bits" else begin, "Count")
        octets = self.octets[at // 8 : at // 8 + size]
        if kind == "text":
            try:
                octets.decode()
            except UnicodeDecodeError as error:
                raise Fault(at + 8 * error.start, "Utf8") from None
        return at + 8 * size, octets

    def read_children(self, row, at, stop, level):
        groups, found = groups_of(row), [0] * len(row.groups)
        while at < stop:
            must(groups, at, "Extra")
            at = self.read_child(groups, found, at, stop, level)
        must(all(count >= group.least for count, group in zip(found, groups)), stop, "Missing")
        return at

    def read_child(self, groups, found, at, stop, level):
        is_tv = self.number(at, 1)
        if not is_tv:
            must(at + 32 <= stop, at, "Short")
            must(self.number(at, 6) == 0, at, "Reserved")
        begin, width = (at + 1, 7) if is_tv else (at + 6, 10)
        row = PARAMETERS.get(self.number(begin, width))
        must(row and (row.form == "TV") == bool(is_tv), begin, "ParamType")
        place = next((place for place, group in enumerate(groups) if row.number in group.members), None)
        must(place is not None, at, "Misplaced")
        must(groups[place].most is None or found[place] < groups[place].most, at, "TooMany")
        must(level <= DEEPEST, at, "TooDeep")
        found[place] += 1
        if is_tv:
            return self.read_node(row, at + 8, stop, level, [])
        size = self.number(at + 16, 16)
        must(size >= 4 and at + 8 * size <= stop, at + 16, "ParamLength")
        return self.read_node(row, at + 32, at + 8 * size, level, [])


def must(holds, bit, reason):
    if not holds:
        raise Fault(bit, reason)
