#!/usr/bin/env python3
"""Writes python/llrp_epc/standard.tsv from the project's two tables: crates/llrp_schema/table.tsv, which says what lines of JSON have, and
tests/llrp11.tsv, which has the standard's lists by name. What the XML of the LLRP Toolkits has besides stands here: formats, names and the
order of parameters.

usage: python/write_standard.py [--check]

With --check nothing is written, and the status is 1 where the file is another one.
"""
import os
import sys
from typing import Dict, Iterator, List, Tuple

TOP = os.path.dirname(os.path.dirname(os.path.realpath(__file__)))
WRITTEN = os.path.join(TOP, "python/llrp_epc/standard.tsv")
HEAD = "# Written by python/write_standard.py. Form, number, name in lines of JSON, fields and tail there, name in the XML of the LLRP\n"
HEAD += "# Toolkits, fields there, and the order of parameters there.\n"
# The enumeration of a list; those of fields stand in crates/llrp_schema/table.tsv.
LISTED = {"PerAntennaAirProtocol.ProtocolID": "AirProtocols"}
# The fields whose texts are hexadecimal digits, and those whose texts are moments.
HEX = {"Identification.ReaderID", "C1G2Write.WriteData", "C1G2BlockWrite.WriteData", "C1G2ReadOpSpecResult.ReadData", "EPC-96.EPC"}
HEX |= {"C1G2BlockPermalock.BlockMask", "C1G2GetBlockPermalockStatusOpSpecResult.PermalockStatus"}
MOMENTS = {"UTCTimestamp.Microseconds", "FirstSeenTimestampUTC.Microseconds", "LastSeenTimestampUTC.Microseconds"}
# Names that the toolkits write otherwise, and the one message whose parameters have another order.
FIELDS = {"GPIPortCurrentState.GPIConfig": "Config"}
NAMES = {"EPC-96": "EPC_96", "C1G2-PC": "C1G2_PC", "C1G2-CRC": "C1G2_CRC"}
ORDER = {"SET_READER_CONFIG": "244 221 222 237 239 220 219 225 226 1023"}
LISTS = {"utf8": "utf8v", "octets": "bytesToEnd"}


def rows(path: str) -> Iterator[List[str]]:
    """Yields the words of the lines of a table."""
    with open(os.path.join(TOP, path), encoding="utf-8") as lines:
        for line in lines:
            if line.strip() and line[0] != "#":
                yield line.rstrip("\n").split("\t")


def words(text: str) -> List[str]:
    return [] if text == "-" else text.split()


def enumerations() -> Dict[str, str]:
    """Returns the enumeration of each field that has one, by its kind and its name."""
    fields = ((row[2], word) for row in rows("crates/llrp_schema/table.tsv") for word in words(row[4]) if ":=" in word)
    return {**LISTED, **{f"{kind}.{word.split(':')[0]}": word.split(":=")[1] for kind, word in fields}}


NAMED = enumerations()


def ending(key: str) -> str:
    """Returns the enumeration or the format of a field, as the file has it after the type."""
    if key in NAMED:
        return f"={NAMED[key]}"
    return "/Hex" if key in HEX else "/Datetime" if key in MOMENTS else ""


def own_field(word: str) -> str:
    """Returns a field of lines of JSON."""
    name, bits = word.split(":")[:2]
    return f"-:r{bits}" if name == "R" else f"{name}:{'s' if 'signed' in word else 'u'}{bits}"


def xml_field(kind: str, word: str) -> str:
    """Returns a field of the XML that has a fixed width."""
    name, bits, *more = word.split(":")
    key = f"{kind}.{name}"
    return f"-:r{bits}" if name == "R" else f"{FIELDS.get(key, name)}:{'s' if 's' in more else 'u'}{bits}{ending(key)}"


def xml_list(kind: str, word: str) -> str:
    """Returns a list of the XML."""
    name, sort = word.split(":")
    return f"{name}:{LISTS.get(sort, f'{sort}v')}{ending(f'{kind}.{name}')}"


def order_of(name: str, groups: str) -> str:
    """Returns the numbers of a kind's parameters in their order."""
    return ORDER.get(name) or " ".join(number for group in words(groups) for number in group.split(":")[0].split("|")) or "-"


def made() -> str:
    """Returns the file."""
    standard: Dict[Tuple[str, str], List[str]] = {(row[0].lower(), row[1]): row for row in rows("tests/llrp11.tsv")}
    lines = []
    for form, number, name, _, fields, tail, *_ in rows("crates/llrp_schema/table.tsv"):
        _, _, _, fixed, lists, groups = standard[form, number]
        own = " ".join(map(own_field, words(fields))) or "-"
        xml = [xml_field(name, word) for word in words(fixed)] + [xml_list(name, word) for word in words(lists)]
        lines.append([form, number, name, own, tail, NAMES.get(name, name), " ".join(xml) or "-", order_of(name, groups)])
    text = HEAD + "".join("\t".join(line) + "\n" for line in lines)
    unused = {key for key in NAMED if f"={NAMED[key]}" not in text}
    if unused:
        raise SystemExit(f"fields that are nowhere: {unused}")
    return text


def main() -> int:
    if sys.argv[1:] == ["--check"]:
        with open(WRITTEN, encoding="utf-8") as file:
            return int(file.read() != made())
    with open(WRITTEN, "w", encoding="utf-8") as file:
        file.write(made())
    return 0


if __name__ == "__main__":
    sys.exit(main())
