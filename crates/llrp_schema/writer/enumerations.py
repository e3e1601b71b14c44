"""Reads enumerations.tsv, the names of numbers, and refuses a row that cannot be right."""
import re
from typing import NamedTuple

from .table import Refused

TABLE = "enumerations.tsv"
# How sure a name is.
SURE = ("wireshark", "otherwise", "memory")


class Value(NamedTuple):
    """A number of an enumeration, its name, and how sure that is."""

    line: int
    enumeration: str
    number: int
    name: str
    sure: str


class Enumeration(NamedTuple):
    """An enumeration: its name, and its values in rising order of their numbers."""

    name: str
    values: tuple

    @property
    def variant(self):
        """Its name in the code, as RoSpecState for ROSpecState."""
        return re.sub(r"([A-Z])([A-Z]+)(?=[A-Z][a-z])", lambda it: it[1] + it[2].lower(), self.name)


def value_of(line, text):
    """A row as the table writes it, compared with no other."""
    cells = text.split("\t")
    if len(cells) != 4:
        raise Refused(line, f"{len(cells)} columns in place of 4", TABLE)
    enumeration, number, name, sure = cells
    if not all(re.fullmatch(r"[A-Z]\w*", it, re.ASCII) for it in (enumeration, name)) or not number.isdecimal() or sure not in SURE:
        raise Refused(line, f"{enumeration}, {number}, {name} and {sure} are no enumeration, number, name and how sure it is", TABLE)
    return Value(line, enumeration, int(number), name, sure)


def enumerations_of(text):
    """The enumerations of the table, by their names."""
    some = {}
    for line, row in enumerate(text.splitlines(), 1):
        if row.startswith("#"):
            continue
        value = value_of(line, row)
        before = some.setdefault(value.enumeration, [])
        if before and list(some)[-1] != value.enumeration:
            raise Refused(line, f"{value.enumeration} has rows before", TABLE)
        if before and value.number <= before[-1].number:
            raise Refused(line, f"{value.number} of {value.enumeration} comes after {before[-1].number}", TABLE)
        if value.name in [it.name for it in before]:
            raise Refused(line, f"{value.name} is in {value.enumeration} twice", TABLE)
        before.append(value)
    return {name: Enumeration(name, tuple(values)) for name, values in some.items()}


def check_fields(rows, enumerations):
    """Refuses a field whose enumeration is not there, or has a number that the field cannot have; and an enumeration without a field."""
    used = set()
    for row in rows:
        for field in row.fields:
            if field.enumeration is None:
                continue
            if field.enumeration not in enumerations:
                raise Refused(row.line, f"{field.enumeration} is no enumeration")
            used.add(field.enumeration)
            greatest = 2**field.bits - 1 if field.range is None else field.range
            last = enumerations[field.enumeration].values[-1]
            if last.number > greatest:
                raise Refused(last.line, f"{last.number} of {last.enumeration} is above the {greatest} of {field.name} in {row.name}", TABLE)
    for name, it in enumerations.items():
        if name not in used:
            raise Refused(it.values[0].line, f"{name} is of no field", TABLE)
