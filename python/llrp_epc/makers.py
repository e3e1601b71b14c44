"""Makers' messages and parameters by name: what Custom and CUSTOM_MESSAGE carry, by a table of the maker's.

    llrp watch HOST | llrp-makers --table impinj.tsv
    llrp-makers --table llrp-impinj-def.xml --plain < lines | llrp encode --all --json

A Custom gets its name only if writing the named object gives the same octets, so nothing is lost whatever a table says, and a line with names
becomes with --plain the line that it was. docs/makers.md says what a table is.
"""
import argparse
import json
import os
import re
import sys
from typing import Any, Dict, List, NamedTuple, Optional, TextIO, Tuple

from . import _definitions, _typed
from ._llrp import Llrp, Message, Refused
from ._typed import Field, Mismatch

__all__ = ["Makers", "Mismatch", "Row", "main"]

# The names of what makers' data is in, and the members of its number.
CUSTOM = {"message": ("CUSTOM_MESSAGE", "MessageSubtype"), "parameter": ("Custom", "ParameterSubtype")}
# The greatest vendor, and the greatest subtype of each.
MOST_VENDOR, MOST_SUBTYPE = (1 << 32) - 1, {"message": (1 << 8) - 1, "parameter": (1 << 32) - 1}
NAME = re.compile(r"[A-Z][A-Za-z0-9_]{0,63}")
# The members that an object has beside its fields.
MEMBERS = {"message", "parameter", "version", "id", "parameters"}
# The messages in which parameters within makers' data are read and written by the library: what stands in none of these has no name.
WRAPPERS: Tuple[Tuple[str, Message], ...] = (
    ("RO_ACCESS_REPORT", {}),
    ("GET_READER_CONFIG_RESPONSE", {}),
    ("SET_READER_CONFIG", {"ResetToFactoryDefault": 0}),
    ("GET_READER_CAPABILITIES_RESPONSE", {}),
)
HEADER = 10
# How Python writes some control characters in JSON, and how `llrp show --json` does.
ESCAPES = {"\\b": "\\u0008", "\\t": "\\u0009", "\\n": "\\u000a", "\\f": "\\u000c", "\\r": "\\u000d"}


class Row(NamedTuple):
    """A maker's message or parameter ("label"): its numbers, its name, its fields, and whether parameters may follow them."""

    vendor: int
    label: str
    subtype: int
    name: str
    fields: List[Field]
    has_parameters: bool


class Makers:
    """The tables of makers' messages and parameters.

    Mismatch is raised where a table is refused, with the line, and where an object does not fit its row."""

    def __init__(self, llrp: Optional[Llrp] = None) -> None:
        self.llrp = llrp or Llrp()
        self.rows: Dict[Tuple[int, str, int], Row] = {}
        self.names: Dict[str, Row] = {}
        self.enumerations: _typed.Names = {}
        # The prefix and the URI of each vendor's elements in XML.
        self.spaces: Dict[int, Tuple[str, str]] = {}

    # ---- tables

    def load(self, path: str) -> "Makers":
        """Reads a table: lines of tabs, or a maker's definition file for the LLRP Toolkits. A name that is no file may be that of a table that comes
        with the package, as impinj.tsv. Returns the same object."""
        with open(_path_of(path), encoding="utf-8-sig") as file:
            text = file.read()
        if text.lstrip().startswith("<"):
            rows, enumerations, spaces = _definitions.read(text)
            self.spaces.update(spaces)
            for name, numbers in enumerations.items():
                self.enumerations.setdefault(name, {}).update(numbers)
            for row in rows:
                self.add(Row(*row))
        else:
            self._load_lines(text)
        self._check_enumerations()
        return self

    def add(self, row: Row) -> None:
        """Adds a row."""
        if row.label not in CUSTOM:
            raise Mismatch(f"neither message nor parameter: {row.label!r}")
        if not NAME.fullmatch(row.name):
            raise Mismatch(f"no name: {row.name!r}")
        if row.name in self.names or self._is_standard(row.name):
            raise Mismatch(f"a name that is taken: {row.name}")
        if not (0 <= row.vendor <= MOST_VENDOR and 0 <= row.subtype <= MOST_SUBTYPE[row.label]):
            raise Mismatch(f"{row.name}: a number that is out of range")
        if (row.vendor, row.label, row.subtype) in self.rows:
            raise Mismatch(f"{row.name}: vendor {row.vendor} has the {row.label} {row.subtype} twice")
        own = [field.name for field in row.fields if not field.is_reserved]
        if len(set(own)) < len(own) or MEMBERS & set(own):
            raise Mismatch(f"{row.name}: the name of a field is taken")
        _typed.check(row.fields)
        if row.has_parameters and row.fields and row.fields[-1].type == "bytesToEnd":
            raise Mismatch(f"{row.name}: parameters after {row.fields[-1].name}")
        self.rows[row.vendor, row.label, row.subtype] = self.names[row.name] = row

    def _is_standard(self, name: str) -> bool:
        """Returns whether a message or parameter of LLRP 1.1 has a name: the library refuses one that has not by this reason."""
        made: Message = {"version": 1, "id": 1}
        messages: Tuple[Message, Message] = (
            {"message": name, **made},
            {"message": "RO_ACCESS_REPORT", **made, "parameters": [{"parameter": name}]},
        )
        for message in messages:
            try:
                self.llrp.pack([message], all=True)
            except Refused as refused:
                if refused.name == "Name":
                    continue
            return True
        return False

    def _load_lines(self, text: str) -> None:
        """Reads lines of tabs: VENDOR, message or parameter, subtype, name, fields, "parameters" or "-", and a remark; or enum, an
        enumeration, a number and its name; or xml, VENDOR, the prefix and the URI of its elements in XML. Those that are empty or begin with #
        are passed over."""
        for at, line in enumerate(text.splitlines(), 1):
            if line and line[0] != "#":
                try:
                    self._load_line(line.split("\t"))
                except ValueError as error:
                    raise Mismatch(f"line {at}: {error}") from None

    def _load_line(self, words: List[str]) -> None:
        if words[0] == "enum":
            if len(words) != 4:
                raise Mismatch(f"{len(words)} words in place of 4")
            numbers = self.enumerations.setdefault(words[1], {})
            if int(words[2]) in numbers or words[3] in numbers.values():
                raise Mismatch(f"{words[1]} has {words[2]} or {words[3]} twice")
            numbers[int(words[2])] = words[3]
            return
        if words[0] == "xml":
            if len(words) != 4:
                raise Mismatch(f"{len(words)} words in place of 4")
            self.spaces[int(words[1])] = words[2], words[3]
            return
        if len(words) not in (6, 7) or words[5] not in ("parameters", "-"):
            raise Mismatch("no row: VENDOR, message or parameter, subtype, name, fields, and parameters or -")
        vendor, label, subtype, name, fields, parameters = words[:6]
        self.add(Row(int(vendor), label, int(subtype), name, _typed.fields_of(fields), parameters == "parameters"))

    def _check_enumerations(self) -> None:
        """Refuses a field of an enumeration that is nowhere."""
        for row in self.names.values():
            for field in row.fields:
                if field.enumeration and field.enumeration not in self.enumerations:
                    raise Mismatch(f"{row.name}: no enumeration {field.enumeration}")

    # ---- objects

    def named(self, item: Any) -> Any:
        """Returns a message, or a line of `watch`, with each of the makers' parameters and messages by its name, at any depth."""
        if not isinstance(item, dict):
            return item
        item = _with_parameters(item, self.named)
        label = _label_of(item)
        kind, subtype = CUSTOM[label]
        vendor, number = item.get("VendorIdentifier"), item.get(subtype)
        is_known = item.get(label) == kind and isinstance(vendor, int) and isinstance(number, int)
        row = self.rows.get((int(vendor or 0), label, int(number or 0))) if is_known else None
        return self._read(row, item) or item if row else item

    def plain(self, item: Any) -> Any:
        """Returns what `named` made, or what is written like it, without the makers' names. A number of an enumeration may have its name."""
        if not isinstance(item, dict):
            return item
        label = _label_of(item)
        row = self.names.get(str(item.get(label)))
        if row is None or row.label != label:
            return _with_parameters(item, self.plain)
        own = {field.name for field in row.fields if not field.is_reserved}
        wrong = own ^ (set(item) - MEMBERS)
        if wrong:
            raise Mismatch(f"{row.name}: {', '.join(sorted(wrong))} is missing or unknown")
        if "parameters" in item and not row.has_parameters:
            raise Mismatch(f"{row.name}: it has no parameters")
        values = {field.name: self.meant(field, item[field.name]) for field in row.fields if not field.is_reserved}
        octets = _typed.write(row.fields, values) + self._octets_of(_parameters_in(item))
        kind, subtype = CUSTOM[label]
        head = {key: item[key] for key in ("version", "id") if key in item}
        return {label: kind, **head, "VendorIdentifier": row.vendor, subtype: row.subtype, "octets": octets.hex()}

    def _read(self, row: Row, item: Message) -> Optional[Message]:
        """Returns the object with the row's name and fields; None where writing it does not give the same octets."""
        try:
            values, rest = _typed.read(row.fields, bytes.fromhex(item["octets"]))
            made: Message = {row.label: row.name, **{key: item[key] for key in ("version", "id") if key in item}}
            made.update({name: shown(value) for name, value in values.items()})
            if rest and row.has_parameters:
                made["parameters"] = [self.named(one) for one in self._parameters_of(rest)]
            return made if self.plain(made) == item else None
        except (ValueError, KeyError, TypeError):
            return None

    def meant(self, field: Field, value: Any) -> _typed.Value:
        """Returns the value of a field that an object says."""
        try:
            if field.type == "u1v":
                bits, octets = int(value["bits"]), bytes.fromhex(value["octets"])
                if (bits + 7) // 8 != len(octets):
                    raise Mismatch(f"{field.name}: {bits} bits in {len(octets)} octets")
                return bits, octets
            if field.type == "bytesToEnd":
                return bytes.fromhex(value)
        except (KeyError, TypeError, ValueError) as error:
            raise error if isinstance(error, Mismatch) else Mismatch(f"{field.name}: {value!r}") from None
        if isinstance(value, str) and field.type != "utf8v":
            return _typed.number_named(field, value, self.enumerations.get(field.enumeration))
        if not isinstance(value, list if field.is_list else str if field.type == "utf8v" else int):
            raise Mismatch(f"{field.name}: {value!r}")
        return value

    def _parameters_of(self, octets: bytes) -> List[Message]:
        """Returns the parameters that these octets are, as the library reads them in the first message that has room for them."""
        for name, fields in WRAPPERS:
            empty = self._front(name, fields)
            front = empty[:2] + (len(empty) + len(octets)).to_bytes(4, "big") + empty[6:]
            message = self.llrp.messages(front + octets, all=True)[0][0]
            if "message" in message:
                return _parameters_in(message)
        raise Mismatch("no parameters of LLRP 1.1")

    def _octets_of(self, items: List[Message]) -> bytes:
        """Returns the octets of parameters."""
        plain = [self.plain(one) for one in items]
        for name, fields in WRAPPERS if plain else ():
            try:
                octets = self.llrp.pack([{"message": name, "version": 1, "id": 1, **fields, "parameters": plain}], all=True)
                return octets[len(self._front(name, fields)) :]
            except Refused as refused:
                reason = refused
        if plain:
            raise Mismatch(f"parameters that stand in no message: {reason}")
        return b""

    def _front(self, name: str, fields: Message) -> bytes:
        """Returns the octets of a message of version 1 and id 1 before its parameters."""
        numbers = {"RO_ACCESS_REPORT": 61, "GET_READER_CONFIG_RESPONSE": 12, "SET_READER_CONFIG": 3, "GET_READER_CAPABILITIES_RESPONSE": 11}
        length = HEADER + len(fields)
        return (1 << 10 | numbers[name]).to_bytes(2, "big") + length.to_bytes(4, "big") + (1).to_bytes(4, "big") + bytes(len(fields))


def _path_of(name: str) -> str:
    """Returns the path of a table: a file's, or else that of one that comes with the package."""
    inside = os.path.join(os.path.dirname(os.path.abspath(__file__)), name)
    return inside if os.sep not in name and not os.path.exists(name) and os.path.exists(inside) else name


def _label_of(item: Message) -> str:
    return "message" if "message" in item else "parameter"


def _parameters_in(item: Message) -> List[Message]:
    found = item.get("parameters", [])
    if not isinstance(found, list) or not all(isinstance(one, dict) for one in found):
        raise Mismatch("parameters is no list of objects")
    return found


def _with_parameters(item: Message, change: Any) -> Message:
    """Returns an object whose parameters are changed, in their order."""
    if "parameters" not in item:
        return item
    return {**item, "parameters": [change(one) for one in _parameters_in(item)]}


def shown(value: _typed.Value) -> Any:
    """Returns how a value is written in JSON."""
    if isinstance(value, tuple):
        return {"bits": value[0], "octets": value[1].hex()}
    return value.hex() if isinstance(value, bytes) else value


# ---- the command


def line_of(item: Message) -> str:
    """Returns a line of JSON as `llrp show --json` writes it: control characters by their numbers."""
    text = json.dumps(item, ensure_ascii=False, separators=(",", ":"))
    return re.sub(r"\\.", lambda escape: ESCAPES.get(escape.group(), escape.group()), text)


def changed(makers: Makers, line: str, is_plain: bool) -> str:
    """Returns a line with the names put on or taken away. One in which there are none, or that is no object of JSON, stays as it is."""
    try:
        item = json.loads(line)
    except ValueError:
        return line
    made = makers.plain(item) if is_plain else makers.named(item)
    return line if made == item else line_of(made) + "\n"


def filter_lines(makers: Makers, lines: TextIO, is_plain: bool) -> int:
    """Changes lines, and writes each at once. Returns 1 where one was refused, which is written as it was, and else 0."""
    status = 0
    for at, line in enumerate(lines, 1):
        try:
            line = changed(makers, line, is_plain)
        except (ValueError, RecursionError) as error:
            print(f"llrp-makers: line {at}: {error}", file=sys.stderr)
            status = 1
        sys.stdout.write(line)
        sys.stdout.flush()
    return status


def main(words: Optional[List[str]] = None) -> int:
    """Runs the command, and returns its status: 0, 1 if a line was refused, 2 for a table that was, and 3 if reading or writing failed."""
    parser = argparse.ArgumentParser(prog="llrp-makers", description="Names makers' parameters and messages in lines of JSON.")
    parser.add_argument("--table", action="append", required=True, metavar="FILE", help="a table; impinj.tsv comes with the package")
    parser.add_argument("--plain", action="store_true", help="take the names away")
    options = parser.parse_args(words)
    makers = Makers()
    for path in options.table:
        try:
            makers.load(path)
        except (OSError, ValueError) as error:
            print(f"llrp-makers: {path}: {error}", file=sys.stderr)
            return 2
    try:
        with open(sys.stdin.fileno(), encoding="utf-8", errors="surrogateescape", newline="\n", closefd=False) as lines:
            with open(sys.stdout.fileno(), "w", encoding="utf-8", errors="surrogateescape", newline="\n", closefd=False) as sys.stdout:
                return filter_lines(makers, lines, options.plain)
    except OSError as error:
        print(f"llrp-makers: {error}", file=sys.stderr)
        return 3


if __name__ == "__main__":
    sys.exit(main())
