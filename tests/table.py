#!/usr/bin/env python3
"""Compares what crates/llrp_schema/write.py writes with the sources, and has it refuse tables with a fault.

usage: tests/table.py

The script also writes the names of numbers, crates/llrp_schema/enumerations.tsv, whose faults are looked for here too.

The last line is `N passed, M failed`; the status is 1 if something failed.
"""
import os
import re
import subprocess
import sys
import tempfile

from parts.counting import finish_results, text_of
from parts.repository import TOP

WRITE = "crates/llrp_schema/write.py"
TABLE, ENUMERATIONS = "crates/llrp_schema/table.tsv", "crates/llrp_schema/enumerations.tsv"
# What is changed in the row of a name, and what the script has to say of it.
REFUSED = (
    ("CLOSE_CONNECTION", "\t14\t", "\t13\t", "the number 13 is that of line"),
    ("Uptime", "\t129\t", "\t128\t", "the number 128 is that of line"),
    ("Custom", "\tCustom\tCustom\t", "\tROSpec\tCustom\t", "the name ROSpec is that of line"),
    ("Custom", "\tCustom\tCustom\t", "\tCustom\tRoSpec\t", "the kind RoSpec is that of line"),
    ("ROSpec", "AISpec|", "AiSpec|", "AiSpec is no parameter"),
    ("ROSpec", "AISpec|", "KEEPALIVE|", "KEEPALIVE is no parameter"),
    ("ROSpec", "LoopSpec|", "AISpec|", "AISpec is in ROSpec twice"),
    ("C1G2Filter", "T:2:0..2", "T:2:0..4", "the range of T:2:0..4 does not fit its width"),
    ("C1G2Filter", "R:6", "R:5", "the fields of C1G2Filter do not fill whole octets"),
    ("EPC-96", "EPC-96:96", "EPC-96:97", "EPC-96:97 does not have 1 to 96 bits"),
    ("AntennaID", "AntennaID:16", "Antenna:16", "AntennaID is more than one field with its name"),
    ("AntennaID", "\t1\t", "\t128\t", "a tv has a number from 1 to 127"),
    ("EPCData", "\tbits\t", "\tbit\t", "are no form, number and tail"),
    ("AISpecEvent", "EventType=Type", "Event=Type", "does not name each of its fields once"),
    ("KEEPALIVE", "\tyes", "", "7 columns in place of 8"),
    ("ROSpec", "=ROSpecState", "=ROSpecStates", "ROSpecStates is no enumeration"),
)
# What is changed in the row of a name, and the first line that is then not as the table says.
NOTICED = (
    ("Uptime", "\tyes", "\tno", ("src/kinds.rt", "found: Uptime,", "wanted: RoSpec,")),
    ("FieldError", "FieldNum=FieldNumber", "yes", ("src/tlv.rt", '[field!("FieldNumber", 16)', '[field!("FieldNum", 16)')),
    ("LoopSpec", "LoopCount:32", "LoopCount:24", ("src/whole/air_protocol.rt", '[field!("LoopCount", 32)]', '[field!("LoopCount", 24)]')),
    ("C1G2TagSpec", "C1G2TargetTag+", "C1G2TargetTag*", ("src/whole/air_protocol.rt", "one_or_more!", "any_number!")),
    ("MaximumReceiveSensitivity", "\t363\t", "\t364\t", ("src/whole/air_protocol.rt", "found: number: 363,", "wanted: number: 364,")),
)
# What is changed in a row of the names of numbers, and what the script has to say of it, or of the first line that is then another one.
REFUSED_NAMES = (
    ("ROSpecState\t2\tActive\tmemory", "ROSpecState\t3\tActive\tmemory", "3 of ROSpecState is above the 2 of CurrentState in ROSpec"),
    ("ROSpecState\t2\tActive\tmemory", "ROSpecState\t1\tActive\tmemory", "1 of ROSpecState comes after 1"),
    ("ROSpecState\t2\tActive\tmemory", "ROSpecState\t2\tInactive\tmemory", "Inactive is in ROSpecState twice"),
    ("ROSpecState\t2\tActive\tmemory", "AccessSpecs\t2\tActive\tmemory", "AccessSpecs is of no field"),
    ("ROSpecState\t2\tActive\tmemory", "AirProtocols\t2\tActive\tmemory", "AirProtocols has rows before"),
    ("ROSpecState\t2\tActive\tmemory", "ROSpecState\t2\tActive\tsure", "are no enumeration, number, name and how sure it is"),
    ("ROSpecState\t2\tActive\tmemory", "ROSpecState\t2\tActive", "3 columns in place of 4"),
)
NOTICED_NAMES = (
    ("ROSpecState\t2\tActive\tmemory", "ROSpecState\t2\tRunning\tmemory", ("docs/tables.md", "2 Running")),
    ("ROSpecState\t2\tActive\tmemory", "ROSpecState\t2\tActive\twireshark", ("docs/tables.md", "1 Inactive, 2 Active | 2 |")),
)
# A file of each kind that the script writes names into, and a line that is changed in it.
WRITTEN_NAMES = (
    "crates/llrp_enumerations/src/values.rt",
    "crates/llrp_enumerations/src/kinds.rt",
    "crates/llrp_enumerations/src/enumeration.rt",
    "crates/llrp_enumerations/specs/Calls/Enumerations.antt",
    "python/llrp_epc/enumerations.tsv",
)


def checked(*tables):
    """The status of the script, and what it says, over a table, or two."""
    words = [sys.executable, os.path.join(TOP, WRITE), "--check", *tables]
    done = subprocess.run(words, capture_output=True, text=True, timeout=60)
    return done.returncode, done.stdout + done.stderr


def checked_with(name, old, new):
    """What the script says of the table with the row of a name changed, and the row's line."""
    lines = text_of(TABLE).split("\n")
    at = next(at for at, line in enumerate(lines) if line.split("\t")[2:3] == [name])
    if lines[at].count(old) != 1:
        raise SystemExit(f"{TABLE} does not have {old!r} once in the row of {name}")
    lines[at] = lines[at].replace(old, new)
    with tempfile.NamedTemporaryFile("w", suffix=".tsv", encoding="utf-8") as table:
        table.write("\n".join(lines))
        table.flush()
        return at + 1, *checked(table.name)


def checked_with_name(old, new):
    """What the script says of the names of numbers with one row changed, and the row's line."""
    text = text_of(ENUMERATIONS)
    if text.count(old + "\n") != 1:
        raise SystemExit(f"{ENUMERATIONS} does not have {old!r} once")
    with tempfile.NamedTemporaryFile("w", suffix=".tsv", encoding="utf-8") as table:
        table.write(text.replace(old, new))
        table.flush()
        return text.split(old)[0].count("\n") + 1, *checked(os.path.join(TOP, TABLE), table.name)


def of_names():
    """Yields the same of the names of numbers, and whether each file of the crate and of the package has all of them."""
    for old, new, wanted in REFUSED_NAMES:
        line, status, said = checked_with_name(old, new)
        is_refused = status == 1 and said.startswith(f"enumerations.tsv, line {line}: ") and wanted in said
        yield f"{old!r} to {new!r}: {status}, {said}", is_refused
    for old, new, wanted in NOTICED_NAMES:
        _, status, said = checked_with_name(old, new)
        yield f"{old!r} to {new!r}: {status}, {said}", status == 1 and all(it in said for it in wanted)
    rows = [line.split("\t") for line in text_of(ENUMERATIONS).splitlines() if not line.startswith("#")]
    values, names, _, definitions, package = map(text_of, WRITTEN_NAMES)
    fields = len(re.findall(r":=", "".join(line for line in text_of(TABLE).splitlines(True) if not line.startswith("#"))))
    yield "values.rt has each row", re.findall(r'value!\((\d+), "(\w+)"\)', values) == [(number, name) for _, number, name, _ in rows]
    yield "the definitions have each row", re.findall(r'value (\d+) "(\w+)"', definitions) == [(number, name) for _, number, name, _ in rows]
    yield "the package has each row", re.findall(r"(?m)^(\w+)\t(\d+)\t(\w+)$", package) == [(it, number, name) for it, number, name, _ in rows]
    yield f"{fields} fields have names", names.count("field!(") - 1 >= fields and definitions.count(' ∷ []') > fields


def results():
    status, said = checked()
    yield f"the sources are not as the table says: {said}", (status, said) == (0, "")
    for name, old, new, wanted in REFUSED:
        line, status, said = checked_with(name, old, new)
        is_refused = status == 1 and said.startswith(f"table.tsv, line {line}: ") and wanted in said
        yield f"{name}, {old!r} to {new!r}: {status}, {said}", is_refused
    for name, old, new, wanted in NOTICED:
        _, status, said = checked_with(name, old, new)
        yield f"{name}, {old!r} to {new!r}: {status}, {said}", status == 1 and all(it in said for it in wanted)


def main():
    least = 1 + len(REFUSED) + len(NOTICED) + len(REFUSED_NAMES) + len(NOTICED_NAMES) + 4
    return finish_results([*results(), *of_names()], least)


if __name__ == "__main__":
    sys.exit(main())
