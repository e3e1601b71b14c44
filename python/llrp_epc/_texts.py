"""The texts of typed values in the XML of the LLRP Toolkits, and the values of texts in any of the toolkits' spellings."""
import datetime
import re
from typing import Dict, List, Optional

from ._typed import Field, Mismatch, Names, Value

EPOCH = datetime.datetime(1970, 1, 1, tzinfo=datetime.timezone.utc)
MOMENT = re.compile(r"(\d{4}-\d\d-\d\dT\d\d:\d\d:\d\d)(?:\.(\d+))?(Z|[+-]\d\d:\d\d)?", re.ASCII)
NUMBER = re.compile(r"-?[0-9]{1,30}")
TRUTHS = {"true": 1, "1": 1, "false": 0, "0": 0}


def number_of(text: str, names: Optional[Dict[int, str]] = None) -> int:
    """Returns the number that a text says, or that has this name."""
    for number, name in (names or {}).items():
        if name == text:
            return number
    if not NUMBER.fullmatch(text):
        raise Mismatch(f"neither a number nor a name of this field: {text!r}")
    return int(text)


def moment_of(microseconds: int) -> str:
    """Returns the ISO 8601 of a moment in UTC, or the number where its year has not four digits."""
    try:
        return (EPOCH + datetime.timedelta(microseconds=microseconds)).strftime("%Y-%m-%dT%H:%M:%S.%f") + "Z"
    except OverflowError:
        return str(microseconds)


def microseconds_of(text: str) -> int:
    """Returns the microseconds of a moment with any zone and any number of digits, or of a number."""
    match = MOMENT.fullmatch(text)
    if not match:
        return number_of(text)
    try:
        moment = datetime.datetime.fromisoformat(match[1] + (match[3] or "Z").replace("Z", "+00:00")) - EPOCH
    except ValueError:
        raise Mismatch(f"no moment: {text!r}") from None
    return (moment.days * 86400 + moment.seconds) * 1000000 + int((match[2] or "0").ljust(6, "0")[:6])


def list_text(field: Field, items: List[int], names: Dict[int, str]) -> str:
    """Returns the text of a list."""
    if field.format != "Hex":
        return " ".join(names.get(item, str(item)) for item in items)
    digits = field.bits // 4
    return ("" if digits == 2 else " ").join(f"{item:0{digits}X}" for item in items)


def text_of(field: Field, value: Value, enumerations: Names) -> str:
    """Returns the text of a value."""
    names = enumerations.get(field.enumeration) or {}
    if field.type in ("bytesToEnd", "u1v"):
        octets: bytes = value[1] if field.type == "u1v" else value
        return octets.hex().upper()
    if field.type == "utf8v":
        return str(value)
    if field.is_list:
        return list_text(field, value, names)
    if field.type == "u1" and not names:
        return "true" if value else "false"
    if field.format == "Datetime":
        return moment_of(value)
    if field.format == "Hex":
        return f"{value:0{field.bits // 4}X}"
    return names.get(value, str(value))


def list_of(field: Field, words: List[str], names: Optional[Dict[int, str]]) -> List[int]:
    """Returns the numbers of a list's words; hexadecimal ones may stand without spaces."""
    if field.format != "Hex":
        return [number_of(word, names) for word in words]
    digits = field.bits // 4
    if len(words) == 1 and len(words[0]) % digits == 0:
        words = [words[0][at : at + digits] for at in range(0, len(words[0]), digits)]
    return [int(word, 16) for word in words]


def bits_of(octets: bytes, count: Optional[str]) -> Value:
    """Returns the value of bits; their number is `count`, or that of all bits of the octets."""
    bits = 8 * len(octets) if count is None else number_of(count)
    if (bits + 7) // 8 != len(octets):
        raise Mismatch(f"Count {count} with {len(octets)} octets")
    return bits, octets


def value_of(field: Field, text: str, enumerations: Names, count: Optional[str] = None) -> Value:
    """Returns the value of a text in any of the spellings of the toolkits for C++, .NET and Java; of u1v `count` is its attribute Count."""
    if field.type == "utf8v":
        return text
    names, words = enumerations.get(field.enumeration), text.split()
    joined = "".join(words)
    try:
        if field.type == "bytesToEnd":
            return bytes.fromhex(joined)
        if field.type == "u1v":
            return bits_of(bytes.fromhex(joined), count)
        if field.is_list:
            return list_of(field, words, names)
        if field.type == "u1" and not names:
            return TRUTHS[joined]
        if field.format == "Datetime":
            return microseconds_of(joined)
        return int(joined, 16) if field.format == "Hex" else number_of(joined, names)
    except (KeyError, ValueError) as error:
        raise error if isinstance(error, Mismatch) else Mismatch(f"not of the type {field.type}: {text!r}") from None
