"""LLRP messages as the XML of the LLRP Toolkits (LTK), from lines of JSON and back.

    llrp show --all --json < stream | llrp-xml
    llrp-xml --read add_rospec.xml | llrp encode --all --json

Octets are read and written by the proved program or library alone. docs/xml.md says what the elements are, and which names are not sure.
"""
import argparse
import io
import json
import re
import sys
import xml.etree.ElementTree as ElementTree
from typing import Dict, Iterable, Iterator, List, Optional, Tuple
from xml.sax.saxutils import escape, quoteattr

from . import _standard, _texts, _typed
from ._definitions import local, tree_of
from ._llrp import Llrp, Message, Refused
from ._typed import Field, Mismatch, Names
from .makers import Makers, Row, line_of, shown

__all__ = ["Converter", "Mismatch", "main"]

SPACE = "http://www.llrp.org/ltk/schema/core/encoding/xml/1.0"
# Text that XML cannot say has its octets in an attribute of this namespace.
UTF8 = "urn:llrp-epc:utf8"
# Characters that XML 1.0 cannot say, and how those are written that a parser would change.
NOT_XML = re.compile("[^\t\n\r\u0020-\ud7ff\ue000-\ufffd\U00010000-\U0010ffff]")
REFERENCES = {"\r": "&#13;", "\n": "&#10;", "\t": "&#9;", "\x85": "&#133;", "\u2028": "&#8232;"}
# How deep elements may nest: a maker's data may have parameters of its own below the 16 levels of a message.
DEEPEST = 32
# The number of Custom, after which makers' elements stand in the order of the toolkits.
CUSTOM = 1023


class Converter:
    """What makes documents of messages, and messages of documents; with makers' tables makers' elements have their names.

    With `is_ordered` parameters stand in the order of the toolkits' definitions, else in that of the frame; with `has_lines` a document has
    several lines. What has no document, and what is none, raises Mismatch, with the path of the element."""

    def __init__(self, makers: Optional[Makers] = None, is_ordered: bool = False, has_lines: bool = False) -> None:
        self.makers = makers or Makers()
        self.llrp: Llrp = self.makers.llrp
        self.is_ordered, self.has_lines = is_ordered, has_lines

    # ---- to XML

    def xml(self, message: Message) -> str:
        """Returns the document of a message, which is a dict as `Llrp.messages` gives it with all=True."""
        if not isinstance(message, dict) or "message" not in message:
            raise Mismatch(f"no message: {json.dumps(message)[:80]}")
        spaces = {"": SPACE}
        body = self._element(self.makers.named(message), spaces, 0)
        heads = "".join(f" xmlns{':' if prefix else ''}{prefix}={quoteattr(uri)}" for prefix, uri in spaces.items())
        end = min(body.index(mark) for mark in (">", "/") if mark in body)
        return f'{body[:end]}{heads} MessageID="{int(message["id"])}" Version="{int(message["version"])}"{body[end:]}'

    def _element(self, item: Message, spaces: Dict[str, str], level: int) -> str:
        """Returns the element of an object, and notes the namespaces in it."""
        row = self.makers.names.get(str(item.get("message", item.get("parameter"))))
        prefix, uri = self.makers.spaces.get(row.vendor, ("", "")) if row else ("", "")
        if prefix:
            spaces[prefix] = uri
        name, fields, names = self._kind(item, row)
        values = self._values(item, row)
        start = f"{prefix}:" if prefix else ""
        texts = [self._field(one, values[one.name], names, start, spaces) for one in fields if not one.is_reserved]
        texts += [self._element(child, spaces, level + 1) for child in self._children(item, row)]
        if not texts:
            return f"<{start}{name}/>"
        gap, last = ("\n" + "  " * (level + 1), "\n" + "  " * level) if self.has_lines else ("", "")
        return f"<{start}{name}>" + "".join(gap + text for text in texts) + f"{last}</{start}{name}>"

    def _kind(self, item: Message, row: Optional[Row]) -> Tuple[str, List[Field], Names]:
        """Returns the name of an object's element, its fields, and the enumerations that they may have."""
        if row:
            return row.name, row.fields, self.makers.enumerations
        kind = _standard.kind_named(item)
        return kind.xml_name, kind.xml, _standard.ENUMERATIONS

    def _values(self, item: Message, row: Optional[Row]) -> Dict[str, _typed.Value]:
        """Returns the values of an object's fields: of the standard's they are read anew from its octets."""
        if row:
            return {one.name: self.makers.meant(one, item[one.name]) for one in row.fields if not one.is_reserved}
        kind = _standard.kind_named(item)
        values, rest = _typed.read(kind.xml, _standard.body_of(item, kind, self.llrp))
        if rest:
            raise Mismatch(f"{kind.name}: its counts and its octets do not agree")
        return values

    def _children(self, item: Message, row: Optional[Row]) -> List[Message]:
        """Returns the parameters of an object in the order in which they are written."""
        children: List[Message] = item.get("parameters", [])
        if row or not self.is_ordered:
            return children
        order = _standard.kind_named(item).order
        return sorted(children, key=lambda child: order.index(number_of(child)))

    def _field(self, one: Field, value: _typed.Value, names: Names, start: str, spaces: Dict[str, str]) -> str:
        """Returns the element of a field."""
        text, more = _texts.text_of(one, value, names), ""
        if one.type == "u1v":
            more = f' Count="{value[0]}"'
        elif one.type == "utf8v" and NOT_XML.search(text):
            spaces["u"], more = UTF8, f' u:utf8="{text.encode().hex()}"'
            text = NOT_XML.sub("\ufffd", text)
        return f"<{start}{one.name}{more}>{escape(text, REFERENCES)}</{start}{one.name}>"

    # ---- from XML

    def message(self, text: str) -> Message:
        """Returns the message of a document, as a line of JSON of all of LLRP 1.1 has it."""
        root = tree_of(text)
        name = local(root)
        item = self._object(root, name, 0)
        if "message" not in item:
            raise Mismatch(f"{name} is no message")
        head = {"version": _texts.number_of(root.get("Version", "1")), "id": _texts.number_of(root.get("MessageID", "0"))}
        made: Message = self.makers.plain({"message": item.pop("message"), **head, **item})
        return made

    def _object(self, element: ElementTree.Element, path: str, level: int) -> Message:
        """Returns the object of an element."""
        row, kind = self.makers.names.get(local(element)), _standard.BY_XML_NAME.get(local(element))
        if level > DEEPEST:
            raise Mismatch(f"{path}: nested too deep")
        if any((text or "").strip() for text in [element.text, *(child.tail for child in element)]):
            raise Mismatch(f"{path}: text between elements")
        if row is None and kind is None:
            raise Mismatch(f"{path}: no message or parameter")
        fields = row.fields if row else kind.xml if kind else []
        texts, others = split(element, {one.name for one in fields if not one.is_reserved})
        children = [self._object(child, f"{path}/{local(child)}", level + 1) for child in others]
        names = self.makers.enumerations if row else _standard.ENUMERATIONS
        try:
            values = {one.name: field_value(one, texts, names) for one in fields if not one.is_reserved}
            if row:
                item: Message = {row.label: row.name, **{name: shown(value) for name, value in values.items()}}
            elif kind:
                item = _standard.object_of(_typed.write(fields, values), kind, self.llrp)
        except (Mismatch, Refused, UnicodeDecodeError) as error:
            raise Mismatch(f"{path}: {error}") from None
        return {**item, "parameters": children} if children else item


def split(element: ElementTree.Element, wanted: Iterable[str]) -> Tuple[Dict[str, ElementTree.Element], List[ElementTree.Element]]:
    """Returns the elements of fields by their names, and those of parameters. A field may have the name of a parameter, as ROSpecID in ROSpecID:
    it is the one without elements, and comes first."""
    texts: Dict[str, ElementTree.Element] = {}
    others: List[ElementTree.Element] = []
    for child in element:
        name = local(child)
        if name in wanted and name not in texts and not len(child) and not others:
            texts[name] = child
        elif name:
            others.append(child)
    return texts, others


def field_value(one: Field, texts: Dict[str, ElementTree.Element], names: Names) -> _typed.Value:
    """Returns the value of a field's element."""
    element = texts.get(one.name)
    if element is None:
        raise Mismatch(f"{one.name} is missing")
    octets = element.get(f"{{{UTF8}}}utf8")
    if one.type == "utf8v" and octets is not None:
        return _typed.octets_of(one, octets).decode("utf-8")
    try:
        return _texts.value_of(one, element.text or "", names, element.get("Count"))
    except Mismatch as error:
        raise Mismatch(f"{one.name}: {error}") from None


def number_of(item: Message) -> int:
    """Returns the number by which a parameter is ordered: a maker's has that of Custom."""
    return _standard.kind_named(item).number if item["parameter"] in _standard.BY_NAME else CUSTOM


# ---- the command


def documents(text: str) -> List[str]:
    """Returns the documents of a file: one on each line if the first line is one, else one in all of it."""
    lines = [line for line in text.split("\n") if line.strip()]
    try:
        tree_of(lines[0] if lines else "")
        return lines
    except Mismatch:
        return [text]


def pieces(paths: List[str], is_read: bool) -> Iterator[Tuple[str, str]]:
    """Yields each line, or each document, of files with its place; "-" is standard input."""
    for path in paths or ["-"]:
        with io.open(sys.stdin.fileno() if path == "-" else path, encoding="utf-8-sig", closefd=path != "-") as stream:
            found: Iterable[str] = documents(stream.read()) if is_read else stream
            for at, piece in enumerate(found, 1):
                yield f"{path}:{at}", piece


def convert(converter: Converter, paths: List[str], is_read: bool) -> int:
    """Converts files to standard output. Returns 1 where a line or document was refused, which is left out, and else 0."""
    status = 0
    with open(sys.stdout.fileno(), "w", encoding="utf-8", closefd=False) as out:
        for place, piece in pieces(paths, is_read):
            try:
                made = line_of(converter.message(piece)) if is_read else converter.xml(json.loads(piece))
                out.write(made + "\n")
                out.flush()
            except (ValueError, RecursionError) as error:
                print(f"llrp-xml: {place}: {error}", file=sys.stderr)
                status = 1
    return status


def main(words: Optional[List[str]] = None) -> int:
    """Runs the command, and returns its status: 0, 1 if something was refused, 2 for a table that was, and 3 if reading or writing failed."""
    parser = argparse.ArgumentParser(prog="llrp-xml", description="LLRP messages as the XML of the LLRP Toolkits, from lines of JSON and back.")
    parser.add_argument("--read", action="store_true", help="from XML to lines of JSON")
    parser.add_argument("--ordered", action="store_true", help="parameters in the order of the toolkits' definitions")
    parser.add_argument("--lines", action="store_true", help="a document on several lines")
    parser.add_argument("--table", action="append", default=[], metavar="FILE", help="makers' elements by the names of a table")
    parser.add_argument("files", nargs="*", metavar="FILE", help="lines of JSON, or with --read documents; standard input without one")
    options = parser.parse_args(words)
    makers = Makers()
    for path in options.table:
        try:
            makers.load(path)
        except (OSError, ValueError) as error:
            print(f"llrp-xml: {path}: {error}", file=sys.stderr)
            return 2
    try:
        return convert(Converter(makers, options.ordered, options.lines), options.files, options.read)
    except (OSError, UnicodeDecodeError) as error:
        print(f"llrp-xml: {error}", file=sys.stderr)
        return 3


if __name__ == "__main__":
    sys.exit(main())
