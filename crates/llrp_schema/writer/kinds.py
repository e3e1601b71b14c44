"""The kinds of both sets, from the rows of the table: what each is called in the code, its fields and its groups."""
import re
from typing import NamedTuple

PROFILE, STANDARD = "Profile", "Standard"
# The file of a parameter of the whole standard with type, length and value, by the first number that is no longer in it.
FILES = ((150, "capabilities"), (227, "operations"), (290, "reports"), (1024, "air_protocol"))


class Kind(NamedTuple):
    """A kind of a set: its row, its name in the code, and its fields and groups, whose members are kinds of the same set."""

    set: str
    row: object
    variant: str
    fields: tuple
    groups: tuple

    @property
    def enum(self):
        return "MsgKind" if self.row.is_message else "ParamKind"

    @property
    def path(self):
        return f"{self.enum}::{self.variant}"

    @property
    def static(self):
        """The name of its static, as RO_SPEC for RoSpec."""
        bound = r"(?<=[a-z])(?=[A-Z])|(?<=[0-9])(?=[A-Z][a-z])|(?<=[A-Za-z0-9])(?=[A-Z][a-z])"
        return re.sub(bound, "_", self.row.kind).upper()

    @property
    def module(self):
        """The module of its row, below src."""
        if self.row.is_message:
            name = "messages"
        elif self.row.form == "tv" or self.set == PROFILE:
            name = self.row.form
        else:
            name = next(name for bound, name in FILES if self.row.number < bound)
        return name if self.set == PROFILE else f"whole::{name}"


class Kinds:
    """The kinds of both sets, in the order of the enums: the profile's first, and in each set by form and number."""

    def __init__(self, rows):
        self.rows = {row.name: row for row in rows}
        sets = [self.of_set(rows, PROFILE), self.of_set(rows, STANDARD)]
        self.messages = [kind for kinds in sets for kind in kinds if kind.row.is_message]
        self.parameters = [kind for kinds in sets for kind in kinds if not kind.row.is_message]

    def of_set(self, rows, which):
        """The kinds of a set."""
        return [self.kind(row, which) for row in rows if which == STANDARD or row.names is not None]

    def kind(self, row, which):
        """The kind of a row in a set."""
        if which == STANDARD:
            groups = tuple(group._replace(members=tuple(map(self.whole, group.members))) for group in row.groups)
            return Kind(which, row, f"Whole{row.kind}", row.fields, groups)
        fields = tuple(field._replace(name=row.names.get(field.name, field.name)) for field in row.fields)
        groups = tuple(group for group in map(self.in_profile, row.groups) if group.members)
        return Kind(which, row, row.kind, fields, groups)

    def whole(self, name):
        return f"Whole{self.rows[name].kind}"

    def in_profile(self, group):
        """A group without the members that the profile does not have; they come by their numbers."""
        rows = [self.rows[name] for name in group.members if self.rows[name].names is not None]
        return group._replace(members=tuple(row.kind for row in sorted(rows, key=lambda row: row.number)))

    def names(self, members):
        """What the standard calls the members of a group."""
        names = {kind.variant: kind.row.name for kind in self.parameters}
        return [names[member] for member in members]

    def order(self, members):
        """The members of a group in the order of the enum."""
        return sorted(members, key=[kind.variant for kind in self.parameters].index)


def of_set(kinds, which):
    """Those of the kinds that are of a set."""
    return [kind for kind in kinds if kind.set == which]
