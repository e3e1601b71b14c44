"""The kinds of LLRP 1.1: what lines of JSON have of each, and what the XML of the LLRP Toolkits has of it."""
import os
import re
from typing import Dict, List, NamedTuple

from . import _typed
from ._llrp import Llrp, Message
from ._typed import Field, Mismatch, Names

HERE = os.path.dirname(os.path.abspath(__file__))
# The tail of a kind in lines of JSON: its member, and its type.
TAILS = {
    "words": Field("words", "u16v"),
    "text": Field("text", "utf8v"),
    "bits": Field("bits", "bytesToEnd"),
    "data": Field("octets", "bytesToEnd"),
}
# The members that an object has beside its fields.
MEMBERS = {"message", "parameter", "version", "id", "parameters"}
EPC_96 = "EPC-96"


class Kind(NamedTuple):
    """A message or parameter ("form" is message, tlv or tv): its fields in lines of JSON, its name and fields in XML, and the numbers of its
    parameters in the order of the toolkits' definitions."""

    form: str
    number: int
    name: str
    own: List[Field]
    xml_name: str
    xml: List[Field]
    order: List[int]

    @property
    def label(self) -> str:
        """Whether it is a message or a parameter."""
        return "message" if self.form == "message" else "parameter"


def rows_of(name: str) -> List[List[str]]:
    """Returns the words of each line of a table that comes with the package."""
    with open(os.path.join(HERE, name), encoding="utf-8") as lines:
        return [line.rstrip("\n").split("\t") for line in lines if line.strip() and line[0] != "#"]


def kind_of_row(row: List[str]) -> Kind:
    """Returns the kind of a line of standard.tsv."""
    form, number, name, own, tail, xml_name, xml, order = row
    tails = [TAILS[tail]] if tail != "-" else []
    numbers = [int(word) for word in re.findall(r"\d+", order)]
    return Kind(form, int(number), name, _typed.fields_of(own) + tails, xml_name, _typed.fields_of(xml), numbers)


def enumerations() -> Names:
    """Returns the names of numbers of enumerations.tsv."""
    names: Names = {}
    for name, number, text in rows_of("enumerations.tsv"):
        names.setdefault(name, {})[int(number)] = text
    return names


KINDS = [kind_of_row(row) for row in rows_of("standard.tsv")]
ENUMERATIONS = enumerations()
BY_NAME: Dict[str, Kind] = {kind.name: kind for kind in KINDS}
BY_XML_NAME: Dict[str, Kind] = {kind.xml_name: kind for kind in KINDS}


def kind_named(item: Message) -> Kind:
    """Returns the kind of an object."""
    label = "message" if "message" in item else "parameter"
    kind = BY_NAME.get(str(item.get(label)))
    if kind is None or kind.label != label:
        raise Mismatch(f"no {label} of LLRP 1.1: {item.get(label)!r}")
    return kind


def body_of(item: Message, kind: Kind, llrp: Llrp) -> bytes:
    """Returns the octets of an object's own fields and tail, without its header and its parameters."""
    own = ["EPC"] if kind.name == EPC_96 else [field.name for field in kind.own if not field.is_reserved]
    other = set(own) ^ (set(item) - MEMBERS)
    if other:
        raise Mismatch(f"{kind.name}: {', '.join(sorted(other))} is missing or unknown in a line of all of LLRP 1.1")
    if kind.name == EPC_96:
        return llrp.word_of_text(str(item["EPC"]))
    values = {name: item[name] for name in own}
    for field in kind.own:
        if field.type == "bytesToEnd":
            values[field.name] = _typed.octets_of(field, item[field.name])
    return _typed.write(kind.own, values)


def object_of(body: bytes, kind: Kind, llrp: Llrp) -> Message:
    """Returns the object of these octets, without its parameters; a message has neither version nor id yet."""
    item: Message = {kind.label: kind.name}
    if kind.name == EPC_96:
        return {**item, "EPC": llrp.text_of_word(body)}
    values, rest = _typed.read(kind.own, body)
    if rest:
        raise Mismatch("octets after the last field")
    return {**item, **{name: value.hex() if isinstance(value, bytes) else value for name, value in values.items()}}
