"""What the definitions of specs/Schema.antt have of the table: the rows, and the lists of all kinds."""
import textwrap

from .kinds import PROFILE, STANDARD, of_set
from .part import Part

FILE = "specs/Schema.antt"
# The word for a group by its bounds: where it has one member, and where it has several.
GROUPS = {
    (1, 1): ("one", "one_of"),
    (0, 1): ("at_most_one", "at_most_one"),
    (1, None): ("one_or_more", "some_of"),
    (0, None): ("any_number", "any_of"),
}
LISTS = {
    ("MsgKind", PROFILE): "message_kinds",
    ("ParamKind", PROFILE): "param_kinds",
    ("MsgKind", STANDARD): "whole_message_kinds",
    ("ParamKind", STANDARD): "whole_param_kinds",
}


def listed(words, joint=" "):
    """A list as a definition writes it."""
    return f"({joint.join(f'{word} ∷' for word in words)} [])" if words else "[]"


def field(it):
    if it.is_reserved:
        return f"reserved {it.bits}"
    if it.is_signed:
        return f'signed "{it.name}" {it.bits}'
    return f'any_field "{it.name}" {it.bits}' if it.range is None else f'field_to "{it.name}" {it.bits} {it.range}'


def group(it):
    one, several = GROUPS[it.least, it.most]
    return f"{one} {it.members[0]}" if len(it.members) == 1 else f"{several} {listed(it.members)}"


def rule(kind):
    """The row of a kind. It is laid out with a group on each line."""
    head = f'{kind.row.number} "{kind.row.name}"'
    if kind.row.form == "tv":
        return f"{'signed_tv' if kind.fields[0].is_signed else 'tv'} {head} {kind.fields[0].bits}"
    fields = listed(list(map(field, kind.fields)))
    groups = listed(list(map(group, kind.groups)), "\n    ")
    if kind.row.form == "tlv":
        return f"tlv {head}\n    {fields} {kind.row.tail}\n    {groups}"
    if kind.row.tail == "Data":
        return f"message_with_data {head}\n    {fields}"
    return f"message {head}\n    {fields}\n    {groups}"


def filled(words):
    """A list in lines of at most 100 columns, each of which ends after a word and its sign."""
    text = " ".join([f"{word}\xa0∷" for word in words] + ["[]"])
    return textwrap.fill(text, 100, initial_indent="    ", subsequent_indent="    ").replace("\xa0", " ")


def parts(kinds):
    """The parts of the definitions."""
    for enum, some, name in (("MsgKind", kinds.messages, "message_rule"), ("ParamKind", kinds.parameters, "param_rule")):
        yield Part(FILE, (f"declared.kinds.{enum}.TheVariants.{{",), "}", [", ".join(kind.variant for kind in some)])
        rules = [rule(kind) if kind.set == PROFILE else f"of_whole ({rule(kind)})" for kind in some]
        written = [f"{name} {kind.variant} = {text}" for kind, text in zip(some, rules)]
        yield Part(FILE, (f"unfoldable pub {name} : {enum} → KindRule\n",), "\n\n", written)
        for which in (PROFILE, STANDARD):
            written = filled([kind.variant for kind in of_set(some, which)])
            yield Part(FILE, (f"\n{LISTS[enum, which]} =\n",), "\n\n", [written], "")
