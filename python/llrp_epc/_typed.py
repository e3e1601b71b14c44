"""Fields with types, between octets and values, for the data of makers' messages and parameters.

The types are those of the definition files of the LLRP Toolkits: u1, u2, u8, s8, u16, s16, u32, s32, u64, s64 and u96 are numbers; u1v, u8v,
s8v, u16v, s16v, u32v, s32v and u64v are lists, whose count comes first, in 16 bits; utf8v is a text, whose octets are counted so; bytesToEnd
is all octets that are left; and r1, r2 and so on are reserved bits."""
import re
from dataclasses import dataclass
from typing import Any, Dict, List, Optional, Tuple

# A number, a text, octets, a list of numbers, or of u1v the number of bits and their octets.
Value = Any
# The names of the numbers of enumerations.
Names = Dict[str, Dict[int, str]]
TYPE = re.compile(r"u1|u2|[us](8|16|32|64)|u96|u1v|[us](8|16|32)v|u64v|utf8v|bytesToEnd|r[1-9][0-9]?")
# A field in a line of a table: its name, its type, its enumeration, and its format in XML.
FIELD = re.compile(r"([A-Za-z][\w-]*|-):(\w+)(?:=(\w+))?(?:/(Hex|Datetime))?", re.ASCII)
# The bits of a count.
COUNT = 16


class Mismatch(ValueError):
    """Octets or values that do not fit a table, or a table that fits no octets."""


@dataclass(frozen=True)
class Field:
    """A field of a row; a reserved one has the name "-"."""

    name: str
    type: str
    enumeration: str = ""
    format: str = ""

    @property
    def is_reserved(self) -> bool:
        """Whether it is of reserved bits."""
        return self.type[0] == "r"

    @property
    def is_signed(self) -> bool:
        """Whether its numbers have a sign."""
        return self.type[0] == "s"

    @property
    def is_list(self) -> bool:
        """Whether it is a list of numbers."""
        return self.type[-1] == "v" and self.type not in ("utf8v", "u1v")

    @property
    def is_counted(self) -> bool:
        """Whether a count comes first."""
        return self.type[-1] == "v"

    @property
    def bits(self) -> int:
        """The width of the number, of a number of the list, or of the reserved bits."""
        return int(re.sub(r"\D", "", self.type))


def fields_of(text: str) -> List[Field]:
    """Returns the fields of a line of a table: "-" for none, or NAME:TYPE, NAME:TYPE=ENUMERATION and NAME:TYPE/FORMAT with spaces between
    them."""
    fields = []
    for word in [] if text == "-" else text.split(" "):
        match = FIELD.fullmatch(word)
        if not match:
            raise Mismatch(f"no field: {word!r}")
        fields.append(Field(match[1], match[2], match[3] or "", match[4] or ""))
    return fields


def check(fields: List[Field]) -> None:
    """Refuses fields that no octets have: of an unknown type, a list within an octet, one after bytesToEnd, or an octet that is not full."""
    bits = 0
    for at, field in enumerate(fields):
        if not TYPE.fullmatch(field.type):
            raise Mismatch(f"{field.name}: no type: {field.type}")
        if (field.name == "-") != field.is_reserved:
            raise Mismatch(f"{field.name}: of the type {field.type}")
        is_fixed = not field.is_counted and field.type != "bytesToEnd"
        if not is_fixed and bits % 8:
            raise Mismatch(f"{field.name}: it begins within an octet")
        if field.type == "bytesToEnd" and at + 1 < len(fields):
            raise Mismatch(f"{field.name}: a field after it")
        bits += field.bits if is_fixed else 0
    if bits % 8:
        raise Mismatch("the fields do not fill whole octets")


class Bits:
    """The bits of some octets, one after another."""

    def __init__(self, octets: bytes) -> None:
        self.octets, self.at = octets, 0

    def number(self, bits: int, is_signed: bool = False) -> int:
        """Takes a number."""
        end = self.at + bits
        if end > 8 * len(self.octets):
            raise Mismatch("too few octets")
        word = int.from_bytes(self.octets[self.at // 8 : (end + 7) // 8], "big") >> -end % 8 & (1 << bits) - 1
        self.at = end
        return word - (1 << bits) if is_signed and word >> bits - 1 else word

    def take(self, count: int) -> bytes:
        """Takes octets."""
        first = self.at // 8
        if first + count > len(self.octets):
            raise Mismatch("too few octets")
        self.at += 8 * count
        return self.octets[first : first + count]

    def rest(self) -> bytes:
        """Takes all octets that are left."""
        return self.take(len(self.octets) - self.at // 8)


def value_in(field: Field, bits: Bits) -> Value:
    """Takes the value of a field."""
    if field.type == "bytesToEnd":
        return bits.rest()
    if field.type == "u1v":
        count = bits.number(COUNT)
        return count, bits.take((count + 7) // 8)
    if field.type == "utf8v":
        return bits.take(bits.number(COUNT)).decode("utf-8")
    if field.is_list:
        return [bits.number(field.bits, field.is_signed) for _ in range(bits.number(COUNT))]
    return bits.number(field.bits, field.is_signed)


def read(fields: List[Field], octets: bytes) -> Tuple[Dict[str, Value], bytes]:
    """Returns the values of fields by their names, and the octets after them."""
    bits, values = Bits(octets), {}
    for field in fields:
        value = value_in(field, bits)
        if not field.is_reserved:
            values[field.name] = value
        elif value:
            raise Mismatch("a reserved bit that is not 0")
    return values, bits.rest()


def numbers_of(field: Field, value: Value) -> List[Tuple[int, int]]:
    """Returns the numbers, each with its width, that a value is written as."""
    if field.is_reserved:
        return [(0, field.bits)]
    if field.type == "bytesToEnd":
        return [(octet, 8) for octet in value]
    if field.type == "u1v":
        return [(value[0], COUNT), *((octet, 8) for octet in value[1])]
    if field.type == "utf8v":
        octets = value.encode("utf-8")
        return [(len(octets), COUNT), *((octet, 8) for octet in octets)]
    items = value if field.is_list else [value]
    counts = [(len(items), COUNT)] if field.is_list else []
    least = -(1 << field.bits - 1) if field.is_signed else 0
    for item in items:
        if type(item) is not int:
            raise Mismatch(f"{field.name}: no number: {item!r}")
        if not least <= item < least + (1 << field.bits):
            raise Mismatch(f"{field.name}: {item} is out of its range")
    return counts + [(item & (1 << field.bits) - 1, field.bits) for item in items]


def write(fields: List[Field], values: Dict[str, Value]) -> bytes:
    """Returns the octets of fields with these values."""
    word = width = 0
    for field in fields:
        try:
            numbers = numbers_of(field, values.get(field.name))
        except (AttributeError, IndexError, TypeError, UnicodeEncodeError):
            raise Mismatch(f"{field.name}: not of the type {field.type}") from None
        for number, bits in numbers:
            if number >> bits:
                raise Mismatch(f"{field.name}: more than {(1 << bits) - 1}")
            word, width = word << bits | number, width + bits
    return word.to_bytes(width // 8, "big")


def number_named(field: Field, text: str, names: Optional[Dict[int, str]]) -> int:
    """Returns the number of a field's enumeration that has this name."""
    for number, name in (names or {}).items():
        if name == text:
            return number
    raise Mismatch(f"{field.name}: no name of {field.enumeration or 'an enumeration'}: {text!r}")


def octets_of(field: Field, digits: Any) -> bytes:
    """Returns the octets of hexadecimal digits."""
    try:
        return bytes.fromhex(digits)
    except (TypeError, ValueError):
        raise Mismatch(f"{field.name}: no octets: {digits!r}") from None
