"""Reads table.tsv, the rows of LLRP 1.1, and refuses a row that cannot be right."""
import re
from typing import NamedTuple, Optional

FORMS = ("message", "tv", "tlv")
TAILS = {"-": "Absent", "words": "Words", "text": "Text", "bits": "Bits", "data": "Data"}
# How many children a group has at least and at most, by the sign at its end.
BOUNDS = {"": (1, 1), "?": (0, 1), "+": (1, None), "*": (0, None)}
COLUMNS = 8
# The widest field, and the longest name.
BITS, LETTERS = 96, 48


class Refused(Exception):
    """A row that cannot be right: its line, what is wrong with it, and its table."""

    def __init__(self, line, what, table="table.tsv"):
        super().__init__(f"{table}, line {line}: {what}")


class Field(NamedTuple):
    """A field. Its range is the greatest lawful value where not every value of its bits is lawful; its enumeration has names of its numbers."""

    name: str
    bits: int
    range: Optional[int]
    is_signed: bool
    enumeration: Optional[str]

    @property
    def is_reserved(self):
        return self.name == "R"


class Group(NamedTuple):
    """Children that are counted together, by their names, and the least and the most of them."""

    members: tuple
    least: int
    most: Optional[int]


class Row(NamedTuple):
    """A row, with its line. The names are those of fields that the profile calls otherwise; None where it does not have the kind."""

    line: int
    form: str
    number: int
    name: str
    kind: str
    fields: tuple
    tail: str
    groups: tuple
    names: Optional[dict]

    @property
    def is_message(self):
        return self.form == "message"


def words_of(cell):
    return [] if cell == "-" else cell.split(" ")


def field_of(word):
    """A field as the table writes it."""
    form = re.fullmatch(r"([A-Z][\w-]*):(\d+)(?::0\.\.(\d+)|:(signed))?(?::=(\w+))?", word, re.ASCII)
    if not form:
        raise ValueError(f"{word} is no field")
    name, bits, greatest, signed, enumeration = form.groups()
    field = Field(name, int(bits), greatest and int(greatest), bool(signed), enumeration)
    if not 1 <= field.bits <= BITS:
        raise ValueError(f"{word} does not have 1 to {BITS} bits")
    if field.range is not None and field.range >= 2**field.bits:
        raise ValueError(f"the range of {word.split(':=')[0]} does not fit its width")
    if field.is_reserved and (greatest or signed or enumeration):
        raise ValueError(f"{word} is reserved and has values")
    return field


def group_of(word):
    """A group as the table writes it."""
    form = re.fullmatch(r"(?:([\w-]+)|\(([\w-]+(?:\|[\w-]+)+)\))([?+*]?)", word, re.ASCII)
    if not form:
        raise ValueError(f"{word} is no group")
    one, several, sign = form.groups()
    if several and sign == "?":
        raise ValueError(f"{word} is at most one of several, which no row has")
    return Group((one,) if one else tuple(several.split("|")), *BOUNDS[sign])


def names_of(cell, fields):
    """What the profile calls otherwise, of a row with these fields."""
    if cell in ("yes", "no"):
        return {} if cell == "yes" else None
    pairs = [word.split("=") for word in words_of(cell)]
    if not all(len(pair) == 2 and re.fullmatch(r"[A-Z]\w*", pair[1], re.ASCII) for pair in pairs):
        raise ValueError(f"{cell} is not yes, not no, and no names")
    names = dict(pairs)
    unknown = [name for name in names if name not in [field.name for field in fields]]
    if unknown or len(names) < len(pairs):
        raise ValueError(f"{cell} does not name each of its fields once")
    return names


def row_of(line, text):
    """A row as the table writes it, compared with no other."""
    cells = text.split("\t")
    try:
        if len(cells) != COLUMNS:
            raise ValueError(f"{len(cells)} columns in place of {COLUMNS}")
        form, number, name, kind, fields, tail, groups, profile = cells
        if form not in FORMS or tail not in TAILS or not number.isdecimal():
            raise ValueError(f"{form}, {number} and {tail} are no form, number and tail")
        if not re.fullmatch(r"[A-Z][\w-]*", name, re.ASCII) or len(name) > LETTERS or not re.fullmatch(r"[A-Z]\w*", kind, re.ASCII):
            raise ValueError(f"{name} and {kind} are no names")
        fields = tuple(map(field_of, words_of(fields)))
        groups = tuple(map(group_of, words_of(groups)))
        return Row(line, form, int(number), name, kind, fields, TAILS[tail], groups, names_of(profile, fields))
    except ValueError as wrong:
        raise Refused(line, wrong) from None


def check_form(row):
    """Refuses a row that its form does not allow."""
    least, most = {"message": (0, 1023), "tv": (1, 127), "tlv": (128, 1023)}[row.form]
    if not least <= row.number <= most:
        raise Refused(row.line, f"a {row.form} has a number from {least} to {most}, not {row.number}")
    if sum(field.bits for field in row.fields) % 8:
        raise Refused(row.line, f"the fields of {row.name} do not fill whole octets")
    if row.form == "tv" and ([field.name for field in row.fields] != [row.name] or row.tail != "Absent" or row.groups):
        raise Refused(row.line, f"{row.name} is more than one field with its name")


def check_first(rows, said, column):
    """Refuses a row that has what an earlier row has."""
    first = {}
    for row in rows:
        earlier = first.setdefault(column(row), row)
        if earlier is not row:
            raise Refused(row.line, f"{said} {column(row)} is that of line {earlier.line} too")


def check_members(rows):
    """Refuses a group with a member that is no parameter, and a member that a row has twice."""
    parameters = {row.name for row in rows if not row.is_message}
    for row in rows:
        members = [name for group in row.groups for name in group.members]
        for at, name in enumerate(members):
            if name not in parameters:
                raise Refused(row.line, f"{name} is no parameter")
            if name in members[:at]:
                raise Refused(row.line, f"{name} is in {row.name} twice")


def check_order(rows):
    """Refuses a row that does not come after those of its form with lower numbers."""
    for before, row in zip(rows, rows[1:]):
        if (FORMS.index(row.form), row.number) < (FORMS.index(before.form), before.number):
            raise Refused(row.line, f"{row.form} {row.number} comes after {before.form} {before.number}")


def rows_of(text):
    """The rows of the table."""
    lines = [(at, line) for at, line in enumerate(text.splitlines(), 1) if not line.startswith("#")]
    rows = [row_of(at, line) for at, line in lines]
    for row in rows:
        check_form(row)
    check_first([row for row in rows if row.is_message], "the number", lambda row: row.number)
    check_first([row for row in rows if not row.is_message], "the number", lambda row: row.number)
    check_first(rows, "the name", lambda row: row.name)
    check_first(rows, "the kind", lambda row: row.kind)
    check_members(rows)
    check_order(rows)
    return rows
