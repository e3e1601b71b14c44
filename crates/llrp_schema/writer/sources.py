"""What the sources of llrp_schema have of the table."""
from .kinds import PROFILE, STANDARD, of_set
from .part import Part

LISTING = "../llrp_listing/src/encode/guess.rt"
# The kinds of the profile whose children in the whole standard have a function in places.rt, which is written by hand.
FREQUENT = ("RoAccessReport", "TagReportData")
# The macro of a group by its bounds: where it has one member, and where it has several.
GROUPS = {(1, 1): ("one", "one"), (0, 1): ("at_most_one",) * 2, (1, None): ("one_or_more", "some_of"), (0, None): ("any_number", "any_of")}
# Names of one length are looked up in a function for the shorter ones and one for each of these lengths, up to the next.
LENGTHS = {
    (PROFILE, "MsgKind"): {0: "messages_of_length"},
    (PROFILE, "ParamKind"): {0: "parameters_of_length", 14: "longer_parameters"},
    (STANDARD, "MsgKind"): {0: "whole_messages_of_length", 17: "whole_messages_of_length_from_17"},
    (STANDARD, "ParamKind"): {
        0: "whole_parameters_of_length",
        **{least: f"whole_parameters_of_length_from_{least}" for least in (11, 15, 20, 23)},
    },
}
UNFOLDING = (
    "#[tactic(auto, unfolding(crate::specs::Schema::groups_of, crate::specs::Schema::rule_of, %scrate::specs::Schema::param_rule, "
    "crate::specs::Schema::number_of, crate::specs::Schema::set_of_kind, crate::specs::Schema::key_of))]\n"
)


def field(it):
    if it.is_reserved:
        return f"reserved!({it.bits})"
    if it.is_signed:
        return f'signed!("{it.name}", {it.bits})'
    return f'field!("{it.name}", {it.bits}' + ("" if it.range is None else f", {it.range}") + ")"


def macro(group):
    return GROUPS[group.least, group.most][len(group.members) > 1]


def group(it):
    return f"{macro(it)}!({', '.join(it.members)})"


def static(kind):
    """The row of a message, or of a parameter with type, length and value."""
    public = "pub " if kind.set == STANDARD else "" if kind.row.is_message else "pub(crate) "
    return (
        f"{public}static {kind.static}: Definition = Definition {{\n    set: KindSet::{kind.set},\n    number: {kind.row.number},\n"
        f'    name: "{kind.row.name}",\n    fields: &[{", ".join(map(field, kind.fields))}],\n    tail: Tail::{kind.row.tail},\n'
        f"    groups: &[{', '.join(map(group, kind.groups))}],\n}};"
    )


def tv_static(kind):
    """The row of a parameter with type and value."""
    called = "tv" if kind.set == PROFILE else "whole_tv"
    return f'pub static {kind.static}: Definition = {called}!({kind.row.number}, "{kind.row.name}", {field(kind.fields[0])});'


def macros(kinds):
    """The macros that some rows are written in."""
    used = {field(it).split("!")[0] for kind in kinds for it in kind.fields}
    used |= {macro(it) for kind in kinds for it in kind.groups}
    if kinds[0].row.form == "tv":
        used.add("tv" if kinds[0].set == PROFILE else "whole_tv")
    return f"{{{', '.join(sorted(used))}}}"


def enums(kinds):
    """The enums of the kinds, and how many there are."""
    for enum, some in (("MsgKind", kinds.messages), ("ParamKind", kinds.parameters)):
        yield Part("src/kinds.rt", (f"pub enum {enum} {{\n",), "\n}\n", [f"    {kind.variant}," for kind in some])
    yield Part(LISTING, ("const KINDS: usize = ",), ";", [str(len(kinds.parameters))])
    for name, some in (("message_set", kinds.messages), ("parameter_set", kinds.parameters)):
        yield Part("src/tables.rt", (f"fn {name}(", "if index < "), " {", [str(len(of_set(some, PROFILE)))])


def rows(kinds):
    """The rows, the macros that they are written in, and the row of each kind."""
    modules = {}
    for kind in kinds.messages + kinds.parameters:
        modules.setdefault(kind.module, []).append(kind)
    for module, some in modules.items():
        file = f"src/{module.replace('::', '/')}.rt"
        written = list(map(tv_static if some[0].row.form == "tv" else static, some))
        yield Part(file, ("use crate::row_macros::",), ";\n", [macros(some)])
        if module == "messages":
            yield Part(file, ("use crate::whole;\n\n",), "\n\n/// The row of a message.", written, "\n\n")
        else:
            yield Part(file, ("use crate::row_macros::", ";\n\n"), "", written, "\n\n")
    for file, some in (("src/messages.rt", kinds.messages), ("src/parameters.rt", kinds.parameters)):
        arms = [f"        {kind.path} => &{kind.module.removeprefix('messages')}::{kind.static}," for kind in some]
        yield Part(file, ("match kind {\n",), "\n    }\n", [arm.replace("&::", "&") for arm in arms])


def label(kind):
    return f'    label!({len(kind.row.name)}, b"{kind.row.name:<48}"),'


def labels(kinds):
    """The names, and where those of each array begin."""
    whole = of_set(kinds.parameters, STANDARD)
    first, third = len(kinds.parameters) - len(whole), -(-len(whole) // 3)
    thirds = {name: whole[at * third : (at + 1) * third] for at, name in enumerate(("EARLY", "MIDDLE", "LATE"))}
    arrays = [("", "MESSAGES", of_set(kinds.messages, PROFILE)), ("", "PARAMETERS", of_set(kinds.parameters, PROFILE))]
    arrays += [("whole/", "MESSAGES", of_set(kinds.messages, STANDARD))]
    arrays += [("whole/", f"{name}_PARAMETERS", some) for name, some in thirds.items()]
    for folder, name, some in arrays:
        file, opening = f"src/{folder}labels.rt", f"static {name}: [Label; "
        yield Part(file, (opening,), "]", [str(len(some))])
        yield Part(file, (opening, "= [\n"), "\n];\n", list(map(label, some)))
    messages = len(of_set(kinds.messages, PROFILE))
    body = [
        f"    if index < {messages} {{\n        &MESSAGES[index]\n    }} else {{\n"
        f"        &labels::MESSAGES[index - {messages}]\n    }}"
    ]
    yield Part("src/labels.rt", ("fn message_label(", "as usize;\n"), "\n}\n", body)
    second, last = first + third, first + 2 * third
    body = [
        f"    if index < {first} {{\n        &PARAMETERS[index]\n    }} else if index < {second} {{\n"
        f"        &labels::EARLY_PARAMETERS[index - {first}]\n    }} else if index < {last} {{\n"
        f"        &labels::MIDDLE_PARAMETERS[index - {second}]\n    }} else {{\n        &labels::LATE_PARAMETERS[index - {last}]\n    }}"
    ]
    yield Part("src/labels.rt", ("fn parameter_label(", "as usize;\n"), "\n}\n", body)


def numbers(kinds):
    """The look-ups by number. The parameters of the whole standard with type, length and value are in two halves."""
    file, end = "src/by_number.rt", "\n        _ =>"
    tlv = [kind for kind in of_set(kinds.parameters, STANDARD) if kind.row.form == "tlv"]
    half = -(-len(tlv) // 2)
    some = {"whole_param_of_tlv": tlv[:half], "later_whole_tlv": tlv[half:]}
    some["msg_of"], some["whole_msg_of"] = of_set(kinds.messages, PROFILE), of_set(kinds.messages, STANDARD)
    for name, which, form in (("param_of_tlv", PROFILE, "tlv"), ("param_of_tv", PROFILE, "tv"), ("whole_param_of_tv", STANDARD, "tv")):
        some[name] = [kind for kind in of_set(kinds.parameters, which) if kind.row.form == form]
    for name, those in some.items():
        arms = [f"        {kind.row.number} => Some({kind.path})," for kind in those]
        yield Part(file, (f"fn {name}(", "match number {\n"), end, arms)
    yield Part(file, ("fn later_whole_tlv(", "(drop "), " ", [str(half)])
    first = len(of_set(kinds.parameters, PROFILE))
    ends = len(some["param_of_tv"]) - 1, first + len(some["whole_param_of_tv"]) - 1
    yield Part(file, ("fn is_tv(", "as usize {\n"), end, [f"        0..={ends[0]} | {first}..={ends[1]} => true,"])


def names(kinds):
    """The look-ups by name, in which the kinds are found by the lengths of their names."""
    for (which, enum), functions in LENGTHS.items():
        some = of_set(kinds.messages if enum == "MsgKind" else kinds.parameters, which)
        lengths = sorted({len(kind.row.name) for kind in some})
        for least, below in zip(functions, [*list(functions)[1:], 49]):
            arms = []
            for length in filter(lambda it: least <= it < below, lengths):
                paths = [kind.path for kind in some if len(kind.row.name) == length]
                arms.append(f"        {length} => &[{', '.join(paths)}],")
            yield Part("src/by_name.rt", (f"fn {functions[least]}(", "match octets {\n"), "\n        _ =>", arms)


def function(kind):
    """The name of the function that places the children of a kind."""
    return f"in_{kind.static.lower()}"


def place_function(kind, order):
    """The function that places the children of a kind of the profile."""
    sort = "Message" if kind.row.is_message else "Parameter"
    arms = []
    for at, it in enumerate(kind.groups):
        members = " | ".join(f"ParamKind::{member}" for member in order(it.members))
        arms.append(f"        {members} => {'once' if it.most else 'often'}!({at}),\n")
    return (
        f"/// The place of a child of `{kind.variant}`.\n"
        f"{UNFOLDING % ('crate::specs::Schema::message_rule, ' if kind.row.is_message else '')}"
        f"{'#[inline(always)]' + chr(10) if kind.variant == 'TagReportData' else ''}"
        f"fn {function(kind)}(child: ParamKind) -> Option<Place>\n"
        f"    ensures {{ result ≡ first_place (groups_of (Kind.{sort} {kind.variant})) child }}\n{{\n    match child {{\n"
        f"{''.join(arms)}        _ => None,\n    }}\n}}"
    )


def places(kinds):
    """The places of children. A message that has a status and nothing else is a response."""
    file, end = "src/places.rt", "\n        _ =>"
    parents = [kind for kind in of_set(kinds.messages + kinds.parameters, PROFILE) if kind.groups]
    responses = [kind for kind in parents if kind.row.is_message and [it.members for it in kind.groups] == [("LlrpStatus",)]]
    parents = [kind for kind in parents if kind not in responses]
    for enum, name in (("MsgKind", "in_message"), ("ParamKind", "in_parameter")):
        some = [kind for kind in parents if kind.enum == enum]
        frequent = [f"Whole{kind.variant}" for kind in some if kind.variant in FREQUENT]
        words = ", ".join([kind.variant for kind in some] + frequent)
        yield Part(file, (f"declared.kinds.{enum}.TheVariants.{{",), "}", [words])
        arms = []
        for kind in some:
            arms.append(f"        {kind.path} => {function(kind)}(child),")
            if kind.variant in FREQUENT:
                arms.append(f"        {enum}::Whole{kind.variant} => in_whole_{kind.static.lower()}(child),")
        if enum == "MsgKind":
            arms.append(f"        {' | '.join(kind.path for kind in responses)} => in_response(child),")
        yield Part(file, (f"fn {name}(", "match parent {\n"), end, arms)
    written = [place_function(kind, kinds.order) for kind in parents]
    by_hand = "\n\n/// The place of a child of `TagReportData` in the whole standard"
    yield Part(file, ("fn in_response(", "\n}\n\n"), by_hand, written, "\n\n")


def required_groups(kinds):
    """The groups that need a child, as bits."""
    for name, some in (("message_bits", kinds.messages), ("parameter_bits", kinds.parameters)):
        by_bits = {}
        for kind in some:
            bits = sum(1 << at for at, it in enumerate(kind.groups) if it.least)
            if bits:
                by_bits.setdefault(bits, []).append(kind.path)
        arms = [f"        {' | '.join(paths)} => {bits:#b}," for bits, paths in by_bits.items()]
        yield Part("src/required_groups.rt", (f"fn {name}(", "match kind {\n"), "\n        _ =>", arms)


def parts(kinds):
    """The parts of all sources."""
    for some in (enums, rows, labels, numbers, names, places, required_groups):
        yield from some(kinds)
