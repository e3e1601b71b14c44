"""What the crate llrp_enumerations, docs/tables.md and the package for Python have of the names of numbers."""
from .definitions import filled
from .part import Part

CRATE = "../llrp_enumerations/"
SPECS, KINDS = f"{CRATE}specs/Calls/Enumerations.antt", f"{CRATE}src/kinds.rt"
PAGE, PACKAGE = "../../docs/tables.md", "../../python/llrp_epc/enumerations.tsv"
# The function of a kind's fields, by its enum.
FUNCTIONS = (("MsgKind", "fields_of_message", "message_fields"), ("ParamKind", "fields_of_parameter", "parameter_fields"))


def enumerated(kind):
    """The fields of a kind that have an enumeration."""
    return [field for field in kind.fields if field.enumeration]


def value(it):
    """A value in the code."""
    return f'            value!({it.number}, "{it.name}"),\n'


def sources(some, by_name, enumerations):
    """The parts of the crate's code."""
    yield Part(f"{CRATE}src/enumeration.rt", ("pub enum Enumeration {\n",), "\n}\n", [f"    {it.variant}," for it in enumerations])
    arms = [f"        Enumeration::{it.variant} => &[\n{''.join(map(value, it.values))}        ]," for it in enumerations]
    yield Part(f"{CRATE}src/values.rt", ("match enumeration {\n",), "\n    }\n", arms)
    for enum, function, _ in FUNCTIONS:
        arms = []
        for kind in some:
            if kind.enum == enum:
                fields = "".join(f'            field!("{it.name}", {by_name[it.enumeration].variant}),\n' for it in enumerated(kind))
                arms.append(f"        {kind.path} => &[\n{fields}        ],")
        yield Part(KINDS, (f"fn {function}(", "match kind {\n"), "\n        _ =>", arms)


def definitions(some, by_name, enumerations):
    """The parts of the crate's definitions."""
    for enum, _, name in FUNCTIONS:
        kinds = [kind for kind in some if kind.enum == enum]
        yield Part(SPECS, (f"declared.kinds.{enum}.TheVariants.{{",), "}", [", ".join(kind.variant for kind in kinds)])
        written = []
        for kind in kinds:
            fields = " ∷ ".join(f'field "{it.name}" {by_name[it.enumeration].variant}' for it in enumerated(kind))
            written.append(f"{name} {kind.variant} = {fields} ∷ []")
        yield Part(SPECS, (f"unfoldable pub {name} : {enum} → List EnumeratedField\n",), f"\n{name} _ =", written)
    yield Part(SPECS, ("Enumeration.TheVariants.{",), "}", [", ".join(it.variant for it in enumerations)])
    written = []
    for it in enumerations:
        values = filled_values([f'value {one.number} "{one.name}"' for one in it.values])
        written.append(f"values_of {it.variant} =\n{values}")
    yield Part(SPECS, ("unfoldable pub values_of : Enumeration → List NamedValue\n",), "\n\n", written)


def filled_values(words):
    """A list in lines of at most 100 columns."""
    return filled([word.replace(" ", "\xa0") for word in words])


def row(it, kinds):
    """A row of the page: an enumeration, the fields that have it, its values, and which of their names Wireshark has."""
    fields = [f"{kind.row.name}.{field.name}" for kind in kinds for field in enumerated(kind) if field.enumeration == it.name]
    values = ", ".join(f"{one.number} {one.name}" for one in it.values)
    by_sure = {sure: [str(one.number) for one in it.values if one.sure == sure] for sure in ("wireshark", "otherwise")}
    alike = "all" if len(by_sure["wireshark"]) == len(it.values) else ", ".join(by_sure["wireshark"])
    others = ", ".join(f"not {number}" for number in by_sure["otherwise"])
    return f"| {it.name} | {', '.join(fields)} | {values} | {'; '.join(filter(None, (alike, others))) or 'none'} |"


def parts(kinds, by_name):
    """The parts of all files."""
    enumerations = list(by_name.values())
    some = [kind for kind in kinds.messages + kinds.parameters if enumerated(kind)]
    yield from sources(some, by_name, enumerations)
    yield from definitions(some, by_name, enumerations)
    whole = [kind for kind in some if kind.variant.startswith("Whole")]
    yield Part(PAGE, ("\n### Names of numbers\n", "| Enumeration |", "|\n", "|\n"), "\n\n", [row(it, whole) for it in enumerations])
    lines = [f"{one.enumeration}\t{one.number}\t{one.name}" for it in enumerations for one in it.values]
    yield Part(PACKAGE, ("split by tabs.\n",), "", lines)
