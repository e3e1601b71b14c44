#!/usr/bin/env python3
"""Compares the octets that `llrp encode --json` makes of lines with the frames that the lines say, and its refusals with the words of a table.

usage: tests/json_read.py [PROGRAM]

The frames are those of the conformance vectors, of each row of the whole of LLRP 1.1, of texts with every sort of character, and of
examples/inventory.pcap; the lines are made of their listings by tests/json_lines.py, and once more with the members of each object in
another order, with white space, and with every character but those of ASCII as an escape. PROGRAM is llrp, crates/llrp/out/llrp where none is
given. jq is needed. The last line is `N passed, M failed`; the status is 1 if something failed.
"""
import json
import subprocess
import sys

from json_lines import MOST_FRAMES, PROFILE, TEXTS, WHOLE, error_message, lines_of, status_of
from parts.captures import payloads
from parts.counting import finish, text_of
from parts.frames import lawful_cases
from parts.repository import program_given
from parts.vectors import vectors

# How many cases there are.
LEAST = 590
KEEPALIVE = '{"message":"KEEPALIVE","version":2,"id":7}'
OCTETS = "083e0000000a00000007"
TAG = '{"message":"RO_ACCESS_REPORT","version":1,"id":1,"parameters":[{"parameter":"TagReportData","parameters":[%s]}]}'
STATUS = '{"message":"ERROR_MESSAGE","version":1,"id":9,"parameters":[{"parameter":"LLRPStatus","StatusCode":101,"text":%s}]}'
# Lines that are refused after a KEEPALIVE, options, and what the line on standard error says after its number.
REFUSED = [
    ("", "", "Json"),
    ("[1", "", "Json"),
    (KEEPALIVE + ",", "", "Json"),
    (KEEPALIVE + KEEPALIVE, "", "Json"),
    (STATUS % r'"\ud83d"', "", "Json"),
    (STATUS % r'"\x41"', "", "Json"),
    (STATUS % '"\x01"', "", "Json"),
    ("[1]", "", "Mistyped"),
    ("7", "", "Mistyped"),
    ('{"fault":"Reserved","id":7,"bit":0}', "", "message: Missing"),
    ('{"rest":4}', "", "message: Missing"),
    ('{"message":7,"version":2,"id":7}', "", "message: Mistyped"),
    ('{"message":"KEEPALIV","version":2,"id":7}', "", "message: Name"),
    ('{"message":"GET_READER_CAPABILITIES","version":1,"id":7,"RequestedData":0}', "", "message: Name"),
    ('{"message":"KEEPALIVE","version":2,"id":7,"ID":7}', "", "ID: Unknown"),
    ('{"message":"KEEPALIVE","version":2,"id":7,"ü\\u001b\\"\U0001f600":1}', "", r"\u00fc\u001b\u0022\ud83d\ude00: Unknown"),
    ('{"message":"KEEPALIVE","version":2}', "", "id: Missing"),
    ('{"message":"KEEPALIVE","version":2,"id":7,"id":7}', "", "id: Twice"),
    ('{"message":"KEEPALIVE","version":2,"id":7,"parameters":{}}', "", "parameters: Mistyped"),
    ('{"message":"KEEPALIVE","version":2,"id":"7"}', "", "id: Mistyped"),
    ('{"message":"KEEPALIVE","version":2,"id":7.0}', "", "id: Mistyped"),
    ('{"message":"KEEPALIVE","version":2,"id":7e0}', "", "id: Mistyped"),
    ('{"message":"KEEPALIVE","version":3,"id":7}', "", "version: Value"),
    ('{"message":"KEEPALIVE","version":2,"id":-7}', "", "id: Value"),
    ('{"message":"KEEPALIVE","version":2,"id":4294967296}', "", "id: Value"),
    (TAG % '{"parameter":"AntennaID","AntennaID":65536}', "", "parameters[0].parameters[0].AntennaID: Value"),
    (TAG % '{"parameter":"EPCData","BitCount":9,"bits":"aa80"},{"parameter":"PeakRSSI","PeakRSSI":-129}', "", "parameters[0].parameters[1].PeakRSSI: Value"),
    (TAG % '{"parameter":"EPCData","BitCount":9,"bits":"aA80"}', "", "parameters[0].parameters[0].bits: Value"),
    (TAG % '{"parameter":"EPC-96","EPC":"urn:epc:tag:sgtin-96:3.0614141.812345.007"}', "", "parameters[0].parameters[0].EPC: Epc LeadingZero"),
    (TAG % '{"parameter":"EPCData","BitCount":9,"bits":"aa"}', "", "parameters[0].parameters[0]: Node Tail"),
    (TAG % '{"parameter":"AntennaID","AntennaID":1}', "", "parameters[0]: Node Missing"),
    (TAG % "3", "", "parameters[0].parameters[0]: Mistyped"),
    (TAG % '{"parameter":"Uptime","Microseconds":3}', "", "parameters[0]: Node Misplaced"),
    (STATUS % '"' + "x" * 60 + '"', "", "Json"),
    (STATUS % ('"' + "x" * 60 + '"'), "--limit 64", "OverLimit"),
    (" " * 4097, "--limit 64", "Line"),
    (KEEPALIVE + " " * 4096, "--limit 64", "Line"),
]
# Lines that are taken, as they stand, and what they say.
TAKEN = [
    ("", ""),
    (KEEPALIVE, OCTETS),
    (KEEPALIVE + "\n", OCTETS),
    (f"{KEEPALIVE}\r\n\t {KEEPALIVE} \n", OCTETS * 2),
    ('{"id":7,"parameters":[],"message":"KEEP\\u0041LIVE","version":2}', OCTETS),
    ('{"message":"KEEPALIVE","version":1,"id":0}', "043e0000000a00000000"),
    ('{"message":"KEEPALIVE","version":2,"id":4294967295}', "083e0000000affffffff"),
    (STATUS % r'"a\u00fc\ud83d\ude00\n"', "04640000001a00000009011f00100065000861c3bcf09f98800a"),
    (STATUS % '"aü\U0001f600\\n"', "04640000001a00000009011f00100065000861c3bcf09f98800a"),
]


def run(program, options, given):
    """Returns the status of `encode --json`, what it writes, and its line on standard error."""
    done = subprocess.run([program, "encode", "--json", *options], input=given, capture_output=True, timeout=600)
    return done.returncode, done.stdout, done.stderr.decode()


def turned(value):
    """A value of JSON with the members of each of its objects in the other order."""
    if isinstance(value, dict):
        return {name: turned(value[name]) for name in reversed(value)}
    return [turned(it) for it in value] if isinstance(value, list) else value


def otherwise(line):
    """A line that says the same: its members in the other order, with white space and escapes."""
    return json.dumps(turned(json.loads(line)), separators=(" ,\t", " : "))


def are_octets(program, options, what, lines, stream):
    """Yields whether lines, and the same otherwise, are encoded to a stream."""
    for form, text in (("as show --json writes them", lines), ("otherwise", [otherwise(it) for it in lines])):
        found = run(program, options, "".join(line + "\n" for line in text).encode())
        yield f"{what}, {form}: {found[0]} {found[1][:200].hex()} {found[2]!r} in place of {stream[:200].hex()}", found == (0, stream, "")


def returned(program, options, what, stream):
    """Yields whether what `show --json` writes of a lawful stream is encoded to it, also once jq has read and written it."""
    shown = subprocess.run([program, "show", "--json", *options], input=stream, capture_output=True, timeout=600)
    found = run(program, options, shown.stdout)
    yield f"{what}: show --json ends with {shown.returncode}", shown.returncode == 0
    yield f"{what}: {found[0]} {found[1][:200].hex()} {found[2]!r} in place of {stream[:200].hex()}", found == (0, stream, "")


def sorted_by_jq(program, what, stream):
    """Yields whether lines whose members jq has sorted are encoded to the stream that they came from."""
    shown = subprocess.run([program, "show", "--json"], input=stream, capture_output=True, timeout=600)
    by_jq = subprocess.run(["jq", "-cS", "."], input=shown.stdout, capture_output=True, timeout=600)
    yield f"{what}, sorted by jq", run(program, [], by_jq.stdout) == (0, stream, "")


def vector_results(program):
    for it in vectors():
        if status_of(it.listing) == 0:
            yield from are_octets(program, [], f"vector {it.name}", lines_of(PROFILE, it.listing), it.stream)
            yield from returned(program, [], f"vector {it.name}", it.stream)


def case_results(program):
    """Every row of the standard, with the values at its bounds."""
    cases = list(lawful_cases())
    for at in range(0, len(cases), MOST_FRAMES):
        part = cases[at : at + MOST_FRAMES]
        listing = "".join(line + "\n" for case in part for line in case.listing)
        stream = b"".join(case.frame for case in part)
        yield from are_octets(program, ["--all"], f"frames from {at} on", lines_of(WHOLE, listing), stream)
        yield from returned(program, ["--all"], f"frames from {at} on", stream)


def text_results(program):
    for text in TEXTS:
        octets = text.encode()
        listing = f"0 ERROR_MESSAGE 2 7\n1 LLRPStatus 100 x{octets.hex()}\n"
        yield from are_octets(program, [], f"text {text!r}", lines_of(PROFILE, listing), error_message(octets))


def capture_results(program):
    for port in (True, False):
        stream = b"".join(data for source_port, data in payloads("examples/inventory.pcap") if (source_port == 5084) == port)
        what = f"examples/inventory.pcap, {'from' if port else 'to'} the reader"
        yield from returned(program, [], what, stream)
        yield from sorted_by_jq(program, what, stream)


def refused_results(program):
    """Of a line that is refused the frames before it are written, and its number, path and reason are said."""
    for line, options, words in REFUSED:
        for after in ("", "\n", "\n" + KEEPALIVE + "\n", "\n?\n"):
            if line or after:
                found = run(program, options.split(), f"{KEEPALIVE}\n{line}{after}".encode())
                wanted = (1, bytes.fromhex(OCTETS), f"llrp: line 2: {words}\n")
                yield f"{line[:200]!r} before {after!r} {options}: {found} in place of {wanted}", found == wanted
        yield f"docs/json.md or docs/errors.md has no {words}", f"`{words.split(': ')[-1].split(' ')[0]}" in text_of("docs/json.md") + text_of("docs/errors.md")


def taken_results(program):
    for given, wanted in TAKEN:
        found = run(program, [], given.encode())
        yield f"{given!r}: {found} in place of {wanted}", found == (0, bytes.fromhex(wanted), "")
        digits = run(program, ["--hex"], given.encode())
        yield f"{given!r} to digits: {digits}", digits == (0, (wanted.upper() + "\n" if wanted else "").encode(), "")
    found = run(program, ["--hex"], (KEEPALIVE + "\n[]\n").encode())
    yield f"a refusal with --hex: {found}", found == (1, b"", "llrp: line 2: Mistyped\n")
    found = run(program, [], (STATUS % '"\xff"').encode("latin-1"))
    yield f"a line that is no UTF-8: {found}", found == (1, b"", "llrp: line 1: Json\n")


def deep_line(levels):
    """A line whose parameters, of which none is one, are nested so many levels deep."""
    return '{"message":"KEEPALIVE","version":1,"id":1,"parameters":[' + '{"parameters":[' * levels + "]}" * levels + "]}"


def results(program):
    """Yields what was compared, and whether it is right."""
    yield from taken_results(program)
    yield from refused_results(program)
    for levels, words in ((3, "parameters[0].parameter: Missing"), (300, "Json")):
        found = run(program, [], deep_line(levels).encode())
        yield f"{levels} levels: {found}", found == (1, b"", f"llrp: line 1: {words}\n")
    yield from vector_results(program)
    yield from text_results(program)
    yield from capture_results(program)
    yield from case_results(program)


def main():
    program = program_given()
    passed = failed = 0
    for what, is_right in results(program):
        if is_right:
            passed += 1
        else:
            failed += 1
            print(f"WRONG: {what[:3000]}")
    return finish(passed, failed, LEAST)


if __name__ == "__main__":
    sys.exit(main())
