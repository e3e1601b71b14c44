#!/usr/bin/env python3
"""Compares what llrp_epc.makers names with what tshark shows of it: each field of each row of impinj.tsv. Puts names on random data, which have
to come off again; reads a made-up maker's definition file, and tables with a mistake each; and runs the command and the examples of
docs/makers.md.

usage: tests/makers.py [PROGRAM]

PROGRAM is llrp, crates/llrp/out/llrp where none is given. It needs what library.sh needs, tshark, text2pcap and groff. The last line is
`N passed, M failed`; the status is 1 if something failed.
"""
import contextlib
import io
import json
import os
import random
import re
import subprocess
import sys
import tempfile
from typing import NamedTuple

from parts.counting import finish_results, snippet, text_of
from parts.dissector import dissected
from parts.package import package_with_library
from parts.ports import held_port
from parts.repository import TOP, program_given

# How many comparisons there are; of how many values each field is compared with tshark, and how many random lines there are.
LEAST, TIMES, RANDOM = 5180, 8, 4000
LONGEST = 170
IMPINJ, ACME = 25882, 99999
# The fields that tshark 4.0 shows otherwise, each with what it does.
SLIPS = {
    "ImpinjSerializedTID.TID": "it steps over four of each eight octets",
    "ImpinjForkliftCompanionBoardInfo.HardwareVersion": "it reads it at the place of FirmwareVersion",
    "ImpinjGetBlockPermalockStatusOpSpecResult.PermalockStatus": "it takes it for parameters",
    "ImpinjBlockPermalock.BlockMask": "it reads one number of 16 bits",
}
# What tshark shows of a head.
HEADS = ("llrp.tlv_type", "llrp.tlv_len", "llrp.tv_type")
# What random data may end with: parameters, and what is none.
ENDS = ("03ff000c0000651a00000039", "03ff000e0000651a00000039ffc4", "810001", "011f000800000000", "8d" + "00" * 12, "00f100050005ff")
ENDS += ("03ff000c0000651a0000003903ff000e0000651a00000039ffc4", "ffff", "00")
# Tables that are refused, each with the reason; a row is written with spaces for tabs but in its fields, where they are commas.
ROW = "25882 parameter 57 {} {} -"
REFUSED = {
    "a word": "line 1: no row: VENDOR, message or parameter, subtype, name, fields, and parameters or -",
    "25882 parameter 57 Own A:u8": "line 1: no row: VENDOR, message or parameter, subtype, name, fields, and parameters or -",
    "25882 parameter 57 Own A:u8 more": "line 1: no row: VENDOR, message or parameter, subtype, name, fields, and parameters or -",
    "x parameter 57 Own A:u8 -": "line 1: invalid literal for int() with base 10: 'x'",
    "25882 thing 57 Own A:u8 -": "line 1: neither message nor parameter: 'thing'",
    "4294967296 parameter 57 Own A:u8 -": "line 1: Own: a number that is out of range",
    "25882 message 256 Own A:u8 -": "line 1: Own: a number that is out of range",
    "25882 parameter -1 Own A:u8 -": "line 1: Own: a number that is out of range",
    ROW.format("own", "A:u8"): "line 1: no name: 'own'",
    ROW.format("Own-1", "A:u8"): "line 1: no name: 'Own-1'",
    ROW.format("ROSpec", "A:u8"): "line 1: a name that is taken: ROSpec",
    ROW.format("EPC_96", "A:u8") + "\n" + ROW.format("EPC_96", "A:u8"): "line 2: a name that is taken: EPC_96",
    ROW.format("KEEPALIVE", "A:u8"): "line 1: a name that is taken: KEEPALIVE",
    ROW.format("Custom", "A:u8"): "line 1: a name that is taken: Custom",
    ROW.format("Own", "A:u8") + "\n" + ROW.format("Other", "A:u8"): "line 2: Other: vendor 25882 has the parameter 57 twice",
    ROW.format("Own", "A:u8,A:u8"): "line 1: Own: the name of a field is taken",
    ROW.format("Own", "parameters:u8"): "line 1: Own: the name of a field is taken",
    ROW.format("Own", "A"): "line 1: no field: 'A'",
    ROW.format("Own", "A:u7"): "line 1: A: no type: u7",
    ROW.format("Own", "A:r8"): "line 1: A: of the type r8",
    ROW.format("Own", "-:u8"): "line 1: -: of the type u8",
    ROW.format("Own", "A:u1"): "line 1: the fields do not fill whole octets",
    ROW.format("Own", "A:u1,B:u8v"): "line 1: B: it begins within an octet",
    ROW.format("Own", "A:u1,B:bytesToEnd"): "line 1: B: it begins within an octet",
    ROW.format("Own", "A:bytesToEnd,B:u8"): "line 1: A: a field after it",
    "25882 parameter 57 Own A:bytesToEnd parameters": "line 1: Own: parameters after A",
    ROW.format("Own", "A:u8=Mode"): "Own: no enumeration Mode",
    "enum Mode 1": "line 1: 3 words in place of 4",
    "enum Mode 1 One\nenum Mode 1 Two": "line 2: Mode has 1 or Two twice",
    "enum Mode 1 One\nenum Mode 2 One": "line 2: Mode has 2 or One twice",
}
# Definition files that are refused: what is put in place of what in tests/maker-def.xml, and the reason.
BROKEN = (
    ("<llrpdef", "<!DOCTYPE llrpdef [<!ENTITY a 'b'>]><llrpdef", "a DOCTYPE is not read"),
    ('vendorID="99999"', 'vendorID="x"', "vendorDefinition: vendorID: no number: 'x'"),
    ('vendorID="99999"', "", "vendorDefinition: vendorID: no number: ''"),
    ('vendor="Acme" subtype="1"', 'vendor="Other" subtype="1"', "ACME_HELLO: no vendorDefinition of Other"),
    ('bitCount="7"', 'bitCount="6"', "the fields do not fill whole octets"),
    ('type="s16"', 'type="s17"', "Phase: no type: s17"),
    ('name="AcmeTagPhase"', 'name="PeakRSSI"', "a name that is taken: PeakRSSI"),
    ('enumeration="AcmeMode"', 'enumeration="Other"', "AcmeTagPhase: no enumeration Other"),
    ("customEnumerationDefinition", "somethingDefinition", "no definition: somethingDefinition"),
    ("</llrpdef>", "", "no element found: line 22, column 0"),
    (' name="Fast"', "", "entry: no name"),
)
# A message of the made-up maker by name, and what its octets are, by its definition file.
HELLO = {
    "message": "ACME_HELLO",
    "version": 1,
    "id": 6,
    "Loud": 1,
    "parameters": [{"parameter": "AcmeTagPhase", "Phase": -7, "Mode": 1, "Mask": {"bits": 5, "octets": "f8"}, "More": "0102"}],
}
HELLO_DATA = "80" + "03ff" + "0014" + "0001869f" + "00000007" + "fff9" + "01" + "0005f8" + "0102"
# What `plain` refuses: what is changed in the parameter of that message, and the reason. None takes a member away.
CHANGED = (
    ({"Phase": None}, "AcmeTagPhase: Phase is missing or unknown"),
    ({"Phases": 1}, "AcmeTagPhase: Phases is missing or unknown"),
    ({"Phase": 40000}, "Phase: 40000 is out of its range"),
    ({"Phase": -32769}, "Phase: -32769 is out of its range"),
    ({"Phase": True}, "Phase: no number: True"),
    ({"Phase": 1.5}, "Phase: 1.5"),
    ({"Phase": "Fast"}, "Phase: no name of an enumeration: 'Fast'"),
    ({"Mode": "Faster"}, "Mode: no name of AcmeMode: 'Faster'"),
    ({"Mode": [1]}, "Mode: [1]"),
    ({"Mask": 5}, "Mask: 5"),
    ({"Mask": {"bits": 9, "octets": "f8"}}, "Mask: 9 bits in 1 octets"),
    ({"More": "0"}, "More: '0'"),
    ({"parameters": []}, "AcmeTagPhase: it has no parameters"),
)

PROGRAM = program_given()


class Case(NamedTuple):
    """Data of a row, with the values of its fields."""

    row: tuple
    values: dict
    octets: bytes


def tabbed(text):
    """Returns a table: its spaces are tabs, and its commas are spaces."""
    return text.replace(" ", "\t").replace(",", " ")


def random_value(chance, field):
    if field.type == "utf8v":
        return "".join(chance.choice("abcXYZ 0189.-ü") for _ in range(chance.randrange(1, 12)))
    if field.is_list:
        return [chance.getrandbits(field.bits) for _ in range(chance.randrange(1, 6))]
    number = chance.getrandbits(field.bits)
    return number - (1 << field.bits) if field.is_signed and number >> field.bits - 1 else number


def message_with(row, octets):
    """Returns a message with the data of a row."""
    if row.label == "message":
        data = {"VendorIdentifier": row.vendor, "MessageSubtype": row.subtype, "octets": octets.hex()}
        return {"message": "CUSTOM_MESSAGE", "version": 1, "id": 1, **data}
    data = {"VendorIdentifier": row.vendor, "ParameterSubtype": row.subtype, "octets": octets.hex()}
    return {"message": "RO_ACCESS_REPORT", "version": 1, "id": 1, "parameters": [{"parameter": "Custom", **data}]}


def is_shown(text, field, value):
    """Returns whether tshark's text is this value: of a list it is the count, or the octets of the numbers."""
    if field.is_list:
        numbers = b"".join(item.to_bytes(field.bits // 8, "big") for item in value)
        return text in (str(len(value)), numbers.hex(":"))
    if isinstance(value, str):
        return text == value
    return text in (str(value), f"0x{value:0{field.bits // 4}x}", str(bool(value)) if field.bits == 1 else "")


def by_tshark(makers, cases):
    """Yields whether tshark shows each field of each case at its place, with its value."""
    from llrp_epc import _typed

    frames = [makers.llrp.pack([message_with(case.row, case.octets)], all=True) for case in cases]
    found = {}
    for case, layer in zip(cases, dissected(frames)):
        base = int(layer.get("pos")) + (15 if case.row.label == "message" else 22)
        shown = {(int(it.get("pos")) - base, it.get("show") or "") for it in layer.iter("field") if it.get("name") not in HEADS}
        bit = 0
        for field in case.row.fields:
            if not field.is_reserved:
                is_right = any(at == bit // 8 and is_shown(text, field, case.values[field.name]) for at, text in shown)
                found.setdefault(f"{case.row.name}.{field.name}", []).append(is_right)
            bit += 8 * len(_typed.write([field], case.values)) if field.is_counted else field.bits
    for name, rights in found.items():
        for at, is_right in enumerate(rights):
            if name not in SLIPS:
                yield f"tshark shows {name} {at}", is_right
    slips = {name for name, rights in found.items() if not all(rights)}
    yield f"what tshark shows otherwise: {slips}", slips == set(SLIPS)


def of_rows(makers):
    """Yields what tshark shows of data of all rows, and whether names come on and off them."""
    from llrp_epc import _typed

    chance, cases = random.Random(1), []
    for row in makers.rows.values():
        for _ in range(TIMES):
            values = {field.name: random_value(chance, field) for field in row.fields if not field.is_reserved}
            cases.append(Case(row, values, _typed.write(row.fields, values)))
    yield from by_tshark(makers, cases)
    for case in cases:
        message = message_with(case.row, case.octets)
        named = makers.named(message)
        own = named if case.row.label == "message" else named["parameters"][0]
        is_named = own[case.row.label] == case.row.name and {name: own[name] for name in case.values} == case.values
        yield f"{case.row.name} {case.octets.hex()}", is_named and makers.plain(named) == message


def of_random_data(makers):
    """Yields whether what was named becomes what it was, whatever the data."""
    chance, rows, count = random.Random(2), list(makers.rows.values()), 0
    for _ in range(RANDOM):
        row = chance.choice(rows)
        octets = bytes(chance.choice([0, 0, 0, 1, 2, 4, 255, chance.getrandbits(8)]) for _ in range(chance.randrange(24)))
        if chance.random() < 0.3:
            octets += bytes.fromhex(chance.choice(ENDS))
        message = message_with(row, octets)
        named = makers.named(message)
        count += named != message
        yield f"the names come off {message}", makers.plain(named) == message
    yield f"{count} of {RANDOM} lines were named", RANDOM / 100 < count < RANDOM / 2


def of_definitions(folder):
    """Yields what a made-up maker's definition file gives, together with Impinj's table, and which changes of it are refused."""
    from llrp_epc import Llrp
    from llrp_epc.makers import Makers, Mismatch

    llrp, path = Llrp(), os.path.join(TOP, "tests/maker-def.xml")
    makers = Makers(llrp).load("impinj.tsv").load(path)
    frame = bytes.fromhex("07FF 00000024 00000006 0001869F 01" + HELLO_DATA)
    yield "a message of the definition file", llrp.messages(frame, all=True, makers=makers) == ([HELLO], len(frame))
    yield "its octets", llrp.pack([HELLO], all=True, makers=makers) == frame
    by_name = {**HELLO, "parameters": [{**HELLO["parameters"][0], "Mode": "Fast"}]}
    yield "a number by its name", llrp.pack([by_name], all=True, makers=makers) == frame
    names = {"readable": open_octets(frame)}
    with contextlib.redirect_stdout(io.StringIO()) as said:
        exec(snippet("docs/makers.md", "## In Python"), names)
    yield "the Python of docs/makers.md", json.loads(said.getvalue().replace("'", '"'))["message"] == "CUSTOM_MESSAGE"
    yield "a stream", list(llrp.stream(open_octets(frame + frame), all=True, makers=makers)) == [HELLO, HELLO]
    status = {"parameter": "LLRPStatus", "StatusCode": 0, "text": "ok"}
    nested = [{"parameter": "ImpinjEnablePeakRSSI", "PeakRSSIMode": 1}, {"parameter": "ImpinjEnableRFPhaseAngle", "RFPhaseAngleMode": 0}]
    for message in (
        {"message": "IMPINJ_ENABLE_EXTENSIONS_RESPONSE", "version": 1, "id": 5, "parameters": [status]},
        {**HELLO, "parameters": [{"parameter": "ImpinjTagReportContentSelector", "parameters": nested}]},
        {**HELLO, "parameters": [{"parameter": "Custom", "VendorIdentifier": 7, "ParameterSubtype": 7, "octets": "00"}, *HELLO["parameters"]]},
    ):
        octets = llrp.pack([message], all=True, makers=makers)
        yield f"nested parameters: {message}", llrp.messages(octets, all=True, makers=makers) == ([message], len(octets))
    for change, reason in CHANGED:
        own = {name: value for name, value in {**HELLO["parameters"][0], **change}.items() if value is not None}
        yield f"plain refuses {change}", refusal(lambda own=own: makers.plain({**HELLO, "parameters": [own]})) == reason
    loose = {**HELLO, "parameters": [{"parameter": "EPC-96", "EPC": "urn:epc:tag:gid-96:1.2.3"}]}
    yield "a parameter that stands in no message", refusal(lambda: makers.plain(loose)).startswith("parameters that stand in no message: ")
    text = text_of("tests/maker-def.xml")
    for old, new, reason in BROKEN:
        said = refusal(lambda old=old, new=new: Makers(llrp).load(written(folder, text.replace(old, new))))
        yield f"a definition file with {new!r} in place of {old!r}: {said}", old in text and said == reason
    yield "Mismatch is a ValueError", issubclass(Mismatch, ValueError)


def open_octets(octets):
    """Returns a file that is read for these octets."""
    read, write = os.pipe()
    with os.fdopen(write, "wb") as file:
        file.write(octets)
    return os.fdopen(read, "rb")


def written(folder, text):
    """Writes a table, and returns its path."""
    path = os.path.join(folder, "table")
    with open(path, "w", encoding="utf-8") as file:
        file.write(text)
    return path


def refusal(do):
    """Returns the reason for which something is refused; "" where it is not."""
    from llrp_epc.makers import Mismatch

    try:
        do()
    except Mismatch as error:
        return str(error)
    return ""


def of_tables(folder):
    """Yields whether tables with a mistake are refused, and for what."""
    from llrp_epc import Llrp
    from llrp_epc.makers import Makers

    llrp = Llrp()
    for table, reason in REFUSED.items():
        said = refusal(lambda table=table: Makers(llrp).load(written(folder, tabbed(table) + "\n")))
        yield f"the table {table!r}: {said}", said == reason
    makers = Makers(llrp).load(written(folder, "\n# a comment\n" + tabbed(ROW.format("Own", "A:u8") + " sure") + "\n"))
    yield "a table with a comment, an empty line and a remark", list(makers.names) == ["Own"]


def command(environment, *words, given=b""):
    """Runs the command. Returns its status and what it writes to both outputs, as octets."""
    run = [sys.executable, "-m", "llrp_epc.makers", *words]
    done = subprocess.run(run, env=environment, input=given, capture_output=True, timeout=LONGEST)
    return done.returncode, done.stdout, done.stderr.decode()


def of_lines(environment, folder):
    """Yields what the command does to lines: those of the program, those that are none, and those that are refused."""
    listing = '0 CLOSE_CONNECTION_RESPONSE 1 5\n1 LLRPStatus 0 xc3bc0a0d0901225c2f7f\n0 RO_ACCESS_REPORT 1 9\n1 Custom 25882 57 xe8a2\n'
    listing += "0 GET_READER_CONFIG_RESPONSE 1 9\n1 LLRPStatus 0 xc3bc0a0d090c0801225c2f7f\n1 Custom 25882 57 xe8a2\n"
    listing += "0 CUSTOM_MESSAGE 1 5 25882 22 x011f0010000000080a0d0901225c2fc3\n0 CUSTOM_MESSAGE 1 5 25882 22 x011f000c000000040a0d0901\n"
    octets = subprocess.run([PROGRAM, "encode", "--all"], input=listing.encode(), capture_output=True, timeout=LONGEST).stdout
    lines = subprocess.run([PROGRAM, "show", "--all", "--json"], input=octets, capture_output=True, timeout=LONGEST).stdout
    status, named, told = command(environment, "--table", "impinj.tsv", given=lines)
    yield f"names: {named}", (status, told) == (0, "") and named.count(b"ImpinjPeakRSSI") == 2 and named.count(b"EXTENSIONS_RESPONSE") == 1
    yield "control characters", b'"text":"\\u000a\\u000d\\u0009\\u0001"' in named and lines.count(b"\n") == 5
    yield "they come off", command(environment, "--table", "impinj.tsv", "--plain", given=named) == (0, lines, "")
    others = b'urn:epc:tag:gid-96:1.2.3 1 -60\n\n{"a" : 1}\n[1]\n\xff\xfe\r\nlast'
    for words in ([], ["--plain"]):
        yield f"lines that are no tags {words}", command(environment, "--table", "impinj.tsv", *words, given=others) == (0, others, "")
    wrong = b'{"parameter":"ImpinjPeakRSSI","RSSI":99999}\n' + named
    status, said, told = command(environment, "--table", "impinj.tsv", "--plain", given=wrong)
    yield f"a line that is refused: {told}", (status, told) == (1, "llrp-makers: line 1: RSSI: 99999 is out of its range\n")
    yield "the others are written, and it as it was", said == wrong.split(b"\n")[0] + b"\n" + lines
    table = written(folder, tabbed(ROW.format("own", "A:u8")))
    yield "a table that is refused", command(environment, "--table", table) == (2, b"", f"llrp-makers: {table}: line 1: no name: 'own'\n")
    status, _, told = command(environment, "--table", "/nowhere.tsv")
    yield f"no table: {told}", status == 2 and told.startswith("llrp-makers: /nowhere.tsv: ")
    yield "no word", command(environment)[0] == 2
    with open("/dev/full", "wb") as full:
        words = [sys.executable, "-m", "llrp_epc.makers", "--table", "impinj.tsv"]
        run = subprocess.run(words, env=environment, input=lines, stdout=full, stderr=subprocess.PIPE, timeout=LONGEST)
    yield f"nothing can be written: {run.stderr}", run.returncode == 3 and run.stderr.startswith(b"llrp-makers: ")


def of_pages(environment, folder):
    """Yields whether the example of the page gives what it shows, and what groff says of the manual page."""
    from llrp_epc import _typed

    shell = {**environment, "PATH": f"{folder}/bin:{environment['PATH']}"}
    os.makedirs(f"{folder}/bin")
    for name, words in (("llrp", f"{PROGRAM}"), ("llrp-makers", f"{sys.executable} -m llrp_epc.makers")):
        with open(f"{folder}/bin/{name}", "w", encoding="utf-8") as file:
            file.write(f'#!/bin/sh\nexec {words} "$@"\n')
        os.chmod(f"{folder}/bin/{name}", 0o755)
    lines = snippet("docs/makers.md", "as a simulated reader sends them:").splitlines()
    typed = "\n".join(line[2:] for line in lines if line.startswith("$ "))
    with held_port() as port:
        listens = f"until grep -q ':{port:04X} 00000000:0000 0A' /proc/net/tcp; do sleep 0.1; done"
        script = typed.replace("5084", str(port)).replace("sleep 1", listens).replace("127.0.0.1", f"127.0.0.1:{port}")
        script = script.replace("examples/", f"{TOP}/examples/") + "\nwait"
        done = subprocess.run(["bash", "-c", script], cwd=folder, env=shell, capture_output=True, text=True, timeout=LONGEST)
    said = re.sub(r'"at":"[^"]*"', '"at":".."', done.stdout).splitlines()
    yield f"the example of docs/makers.md: {done}", said == lines[2:] and len(said) == 1
    page, example = text_of("docs/makers.md"), snippet("docs/makers.md", "with tabs between the words:")
    with open(os.path.join(TOP, "python/llrp_epc/impinj.tsv"), encoding="utf-8") as table:
        rows = table.read().splitlines()
    for line in example.splitlines():
        yield f"impinj.tsv has {line}", any(row.startswith(line) for row in rows)
    told = re.findall(r"`(\w+)`", page.split("|---|---|")[1].split("\n\n")[0])
    yield f"the types of docs/makers.md: {told}", all(_typed.TYPE.fullmatch(name) for name in told) and len(told) == 21
    own = [row for row in rows if row.startswith(f"{IMPINJ}\t")]
    count = sum(not word.startswith("-") for row in own for word in row.split("\t")[4].split(" "))
    told = f"It has {len(own)} messages and parameters with {count} fields. Of {count - len(SLIPS)} of them"
    yield f"docs/makers.md: {told}", told in page
    manual = text_of("docs/llrp-makers.1")
    for option in ("table", "plain"):
        yield f"the manual page has --{option}", manual.count(f"Fl \\-{option}") >= 2
    done = subprocess.run(["groff", "-mdoc", "-ww", "-z", "-Tutf8", "docs/llrp-makers.1"], cwd=TOP, capture_output=True, text=True, timeout=LONGEST)
    yield "groff has nothing to say", (done.returncode, done.stdout, done.stderr) == (0, "", "")


def main():
    with tempfile.TemporaryDirectory() as folder:
        environment = package_with_library(folder)
        sys.path.insert(0, folder)
        sys.dont_write_bytecode = True
        from llrp_epc.makers import Makers

        makers = Makers().load("impinj.tsv")
        results = [*of_rows(makers), *of_random_data(makers), *of_definitions(folder), *of_tables(folder)]
        results += [*of_lines(environment, folder), *of_pages(environment, folder)]
    return finish_results(results, LEAST)


if __name__ == "__main__":
    sys.exit(main())
