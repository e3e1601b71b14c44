"""The rows of docs/tables.md."""
from .kinds import PROFILE, STANDARD, of_set
from .part import Part

FILE = "../../docs/tables.md"
HEAD = {
    "message": "| Type | Name | Fields | Children |\n",
    "tv": "| Type | Name | Width |\n",
    "tlv": "| Type | Name | Fields | Tail | Children |\n",
}
# What the page says besides of a field or a tail of the profile, by the kind and the name.
REMARKS = {
    ("RoSpecStopTrigger", "Duration"): " (milliseconds)",
    ("KeepaliveSpec", "Period"): " (milliseconds)",
    ("C1G2EpcMemorySelector", "Selector"): ", whose bits are not interpreted",
    ("AiSpec", "words"): ": the antennas",
    ("LlrpStatus", "text"): ": what went wrong",
}


def either(names):
    """A list of names, any of which may be."""
    return f"{', '.join(names[:-1])} or {names[-1]}"


def field(kind, it):
    if it.is_reserved:
        return f"reserved {it.bits}"
    values = "" if it.range is None else f" (0 to {it.range})"
    return f"{it.name} {it.bits}{values}{', signed' if it.is_signed else ''}{REMARKS.get((kind.variant, it.name), '')}"


def fields(kind):
    """The fields of a kind; the profile's bits of a selector are said together."""
    flags = [it for it in kind.fields if it.bits == 1]
    if kind.set == PROFILE and len(flags) > 2:
        rest = [field(kind, it) for it in kind.fields if it not in flags]
        return "; ".join([f"one bit each: {', '.join(it.name for it in flags)}", *rest])
    return ", ".join([*(field(kind, it) for it in kind.fields), *(["data"] if kind.row.is_message and kind.row.tail == "Data" else [])])


def group(it, names):
    """A group with several members, or one that is said alone."""
    if len(names) > 1:
        return {(1, 1): "one that is ", (1, None): "one or more, each ", (0, None): "any number, each "}[it.least, it.most] + either(names)
    return {(1, 1): "%s", (1, None): "%s once or more"}[it.least, it.most] % names[0]


def together(bounds, names):
    """Groups with one member that come one after another, none of which needs a child."""
    if bounds == (0, 1):
        return f"at most one {'each of ' if len(names) > 1 else ''}{', '.join(names)}"
    return f"{', '.join(names[:-1])}{' and ' if len(names) > 1 else ''}{names[-1]} in any number"


def children(kind, names_of):
    """The groups of a kind."""
    said, open_names = [], None
    for it in kind.groups:
        names, bounds = names_of(it.members), (it.least, it.most)
        if len(names) > 1 or it.least:
            said.append(group(it, names))
            open_names = None
        elif open_names and said[-1][0] == bounds:
            open_names.append(names[0])
        else:
            open_names = names
            said.append((bounds, open_names))
    return "; ".join(it if isinstance(it, str) else together(*it) for it in said)


def tail(kind):
    word = "" if kind.row.tail == "Absent" else kind.row.tail.lower()
    return word + REMARKS.get((kind.variant, word), "")


def row(kind, names_of):
    """A row of the page."""
    cells = [str(kind.row.number), kind.row.name]
    if kind.row.form == "tv":
        cells.append(f"{kind.fields[0].bits}{', a signed number in two' + chr(39) + 's complement' if kind.fields[0].is_signed else ''}")
    else:
        cells.append(fields(kind))
        cells += [tail(kind)] if kind.row.form == "tlv" else []
        cells.append(children(kind, names_of))
    return "| " + " ".join(f"{cell} |" if cell else "|" for cell in cells)


def parts(kinds):
    """The tables of the profile, and those under the heading of the whole standard."""
    for which, heading in ((PROFILE, "\n## Messages\n"), (STANDARD, "\n## All of LLRP 1.1\n")):
        for form, head in HEAD.items():
            some = [kind for kind in of_set(kinds.messages + kinds.parameters, which) if kind.row.form == form]
            yield Part(FILE, (heading, head, "|\n"), "\n\n", [row(kind, kinds.names) for kind in some])
