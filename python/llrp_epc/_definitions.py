"""Makers' definition files for the LLRP Toolkits (llrp-NAME-def.xml). Elements are known by their names, whatever their namespace."""
import xml.etree.ElementTree as ElementTree
from typing import Dict, List, Optional, Tuple

from ._typed import Field, Mismatch, Names

# What a row has: vendor, label, subtype, name, fields, and whether parameters may follow them.
Words = Tuple[int, str, int, str, List[Field], bool]
# The prefix and the URI of each vendor's XML.
Spaces = Dict[int, Tuple[str, str]]
LABELS = {"customMessageDefinition": "message", "customParameterDefinition": "parameter"}
ENUMERATIONS = ("customEnumerationDefinition", "enumerationDefinition")
# What else stands in such a file, of which nothing is read.
OTHERS = ("annotation", "choiceDefinition", "customChoiceDefinition")


class NoDoctype(ElementTree.TreeBuilder):
    """A tree of a document without a DOCTYPE, so that it has no entities of its own."""

    def doctype(self, name: str, public: Optional[str], system: Optional[str]) -> None:
        """Refuses a DOCTYPE."""
        raise Mismatch("a DOCTYPE is not read")


def tree_of(text: str) -> ElementTree.Element:
    """Returns the tree of a document."""
    try:
        return ElementTree.fromstring(text, ElementTree.XMLParser(target=NoDoctype()))
    except ElementTree.ParseError as error:
        raise Mismatch(str(error)) from None


def local(item: ElementTree.Element) -> str:
    """Returns the name of an element without its namespace; "" for a comment."""
    return item.tag.split("}")[-1] if isinstance(item.tag, str) else ""


def number(item: ElementTree.Element, name: str) -> int:
    """Returns the number that an attribute has."""
    text = item.get(name, "")
    if not text.isascii() or not text.isdigit():
        raise Mismatch(f"{local(item)}: {name}: no number: {text!r}")
    return int(text)


def word(item: ElementTree.Element, name: str) -> str:
    """Returns the text of an attribute, which has to be there."""
    text = item.get(name)
    if not text:
        raise Mismatch(f"{local(item)}: no {name}")
    return text


def field_of(part: ElementTree.Element) -> Field:
    """Returns the field of an element."""
    if local(part) == "reserved":
        return Field("-", f"r{number(part, 'bitCount')}")
    return Field(word(part, "name"), word(part, "type"), part.get("enumeration") or "", part.get("format") or "")


def row_of(item: ElementTree.Element, vendors: Dict[str, int]) -> Words:
    """Returns the row of a definition."""
    vendor = word(item, "vendor")
    if vendor not in vendors:
        raise Mismatch(f"{word(item, 'name')}: no vendorDefinition of {vendor}")
    fields = [field_of(part) for part in item if local(part) in ("field", "reserved")]
    has_parameters = any(local(part) in ("parameter", "choice") for part in item)
    return vendors[vendor], LABELS[local(item)], number(item, "subtype"), word(item, "name"), fields, has_parameters


def read(text: str) -> Tuple[List[Words], Names, Spaces]:
    """Returns the rows, the enumerations and the namespaces of a file."""
    rows: List[Words] = []
    vendors: Dict[str, int] = {}
    prefixes: Dict[str, str] = {}
    enumerations: Names = {}
    spaces: Spaces = {}
    for item in tree_of(text):
        kind = local(item)
        if kind == "vendorDefinition":
            vendors[word(item, "name")] = number(item, "vendorID")
        elif kind == "namespaceDefinition":
            prefixes[word(item, "prefix")] = word(item, "URI")
        elif kind in ENUMERATIONS:
            enumerations[word(item, "name")] = {number(entry, "value"): word(entry, "name") for entry in item if local(entry) == "entry"}
        elif kind in LABELS:
            rows.append(row_of(item, vendors))
            if item.get("namespace") in prefixes:
                spaces[rows[-1][0]] = word(item, "namespace"), prefixes[word(item, "namespace")]
        elif kind and kind not in OTHERS:
            raise Mismatch(f"no definition: {kind}")
    return rows, enumerations, spaces
