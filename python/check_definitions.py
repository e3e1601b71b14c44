#!/usr/bin/env python3
"""Compares the tables of LLRP 1.1 with a definition file of the LLRP Toolkits (llrp-1x0-def.xml), for whoever has one: numbers, names, types and
enumerations of fields, and how many of which parameters a kind has. The project has no other second source for the children, the signs and
most of the enumerations.

usage: python/check_definitions.py DEFINITIONS.xml

Prints a line for each difference; the last line is `K kinds and E enumerations of the file: D differences`. The status is 1 where there is one.
"""
import os
import sys
import xml.etree.ElementTree as ElementTree
from typing import Dict, FrozenSet, Iterator, List, Optional, Tuple

TOP = os.path.dirname(os.path.dirname(os.path.realpath(__file__)))
sys.path.insert(0, os.path.join(TOP, "python"))

from llrp_epc import _standard  # noqa: E402
from llrp_epc._definitions import field_of, local, tree_of  # noqa: E402
from llrp_epc._typed import Field  # noqa: E402

# How often a parameter occurs: in a definition file, and in tests/llrp11.tsv.
BOUNDS = {"1": "1..1", "0-1": "0..1", "0-N": "0..n", "1-N": "1..n"}
DEFINED = {"messageDefinition": "message", "parameterDefinition": "parameter"}
Groups = Dict[FrozenSet[str], Optional[str]]


def own_groups() -> Dict[Tuple[str, int], List[str]]:
    """Returns the groups of parameters of each kind of tests/llrp11.tsv."""
    with open(os.path.join(TOP, "tests/llrp11.tsv"), encoding="utf-8") as lines:
        rows = [line.rstrip("\n").split("\t") for line in lines if line.strip() and line[0] != "#"]
    return {(row[0].lower(), int(row[1])): [] if row[5] == "-" else row[5].split() for row in rows}


def shown(fields: List[Field]) -> str:
    return " ".join(f"{one.name}:{one.type}" + (f"={one.enumeration}" if one.enumeration else "") for one in fields)


def groups_there(item: ElementTree.Element, choices: Dict[str, List[str]]) -> Groups:
    """Returns how often which parameters stand in a definition."""
    parts = [one for one in item if local(one) in ("parameter", "choice")]
    kinds = [(one.get("type") or "", one.get("repeat") or "") for one in parts]
    return {frozenset(choices.get(kind, [kind])): BOUNDS.get(repeat, repeat) for kind, repeat in kinds}


def groups_here(groups: List[str]) -> Groups:
    """Returns how often which parameters stand in a kind of ours."""
    found: Groups = {}
    for group in groups:
        members, bounds = group.split(":")
        numbers = {int(number) for number in members.split("|")}
        found[frozenset(kind.xml_name for kind in _standard.KINDS if kind.number in numbers and kind.form != "message")] = bounds
    return found


def of_kind(item: ElementTree.Element, choices: Dict[str, List[str]], groups: Dict[Tuple[str, int], List[str]]) -> Iterator[str]:
    """Yields the differences of a definition."""
    number, name = int(item.get("typeNum") or 0), item.get("name") or ""
    form = "message" if DEFINED[local(item)] == "message" else "tv" if number < 128 else "tlv"
    kind = _standard.BY_XML_NAME.get(name)
    if kind is None or (kind.form, kind.number) != (form, number):
        yield f"{name}: {form} {number} there, {f'{kind.form} {kind.number}' if kind else 'nothing'} here"
        return
    there = [field_of(one) for one in item if local(one) in ("field", "reserved")]
    if shown(there) != shown(kind.xml):
        yield f"{name}: fields there {shown(there)}, here {shown(kind.xml)}"
    theirs, ours = groups_there(item, choices), groups_here(groups[form, number])
    for names in sorted({*theirs, *ours}, key=sorted):
        if theirs.get(names) != ours.get(names):
            yield f"{name}: {'|'.join(sorted(names))} {theirs.get(names)} there, {ours.get(names)} here"


def of_enumeration(item: ElementTree.Element) -> Iterator[str]:
    """Yields the differences of an enumeration."""
    name = item.get("name") or ""
    there = {int(one.get("value") or 0): one.get("name") for one in item if local(one) == "entry"}
    here = _standard.ENUMERATIONS.get(name, {})
    for number in sorted({*there, *here}):
        if there.get(number) != here.get(number):
            yield f"{name} {number}: {there.get(number)} there, {here.get(number)} here"


def main() -> int:
    with open(sys.argv[1], encoding="utf-8-sig") as file:
        root = tree_of(file.read())
    listed = [item for item in root if local(item) == "choiceDefinition"]
    choices = {item.get("name") or "": [one.get("type") or "" for one in item if local(one) == "parameter"] for item in listed}
    groups, kinds = own_groups(), [item for item in root if local(item) in DEFINED]
    enumerations = [item for item in root if local(item) == "enumerationDefinition"]
    found = [line for item in kinds for line in of_kind(item, choices, groups)]
    found += [line for item in enumerations for line in of_enumeration(item)]
    print("\n".join([*found, f"{len(kinds)} kinds and {len(enumerations)} enumerations of the file: {len(found)} differences"]))
    return int(bool(found))


if __name__ == "__main__":
    sys.exit(main())
