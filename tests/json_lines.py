#!/usr/bin/env python3
"""Compares `show --json` with lines that are worked out from listings, under the names of docs/tables.md and tests/llrp11.tsv, and reads
them with jq and with Python's json, which give back what `show` lists.

usage: tests/json_lines.py [PROGRAM]

The listings are those of the conformance vectors, of the frames of each row of the whole of LLRP 1.1, lawful and damaged, and of texts
with every sort of character, none of which is the program's own output. The lines of examples/inventory.pcap and of a million frames are
compared with the listing that `show` prints. PROGRAM is llrp, crates/llrp/out/llrp where none is given. jq is needed. The last line
is `N passed, M failed`; the status is 1 if something failed.
"""
import json
import os
import re
import subprocess
import sys
from typing import NamedTuple, Optional

from parts.captures import payloads
from parts.counting import finish, text_of
from parts.damages import damaged_cases
from parts.frames import lawful_cases
from parts.repository import TOP, program_given
from parts.standard import LINES, ROWS, message, parameter
from parts.vectors import vectors

# How many frames of rows the program reads in one run; how many frames with ids that count up there are, and how many of these in one run.
MOST_FRAMES = 4000
MANY_FRAMES = 1_000_000
NUMBERED_FRAMES = 100_000
# The greatest number up to which jq has each.
GREATEST_OF_JQ = 2**53
# How many cases there are.
LEAST = 41300
TAILS = {"words": "words", "text": "text", "bits": "bits", "data": "octets"}
# Texts with a quote, a backslash, controls, and characters of two, three and four octets; each is that of an LLRPStatus.
TEXTS = ["", '"', "\\", 'a"b\\c', "".join(map(chr, range(32))), "\x7f", "aß€", "\U0001f600\U00010000\U0010ffff", "\u2028\u2029\ufeff", "</script>"]


def run(program, options, stream):
    """Returns the status of `show`, with the text of an error if there is one, and what it prints."""
    done = subprocess.run([program, "show", *options], input=stream, capture_output=True, timeout=600)
    return (done.returncode, done.stderr) if done.stderr else done.returncode, done.stdout


def string(text):
    """A string of JSON, in the form of the program: a quote and a backslash are escaped, and controls."""
    return '"' + re.sub(r'["\\\x00-\x1f]', lambda it: "\\" + it[0] if it[0] in '"\\' else f"\\u{ord(it[0]):04x}", text) + '"'


def members(pairs):
    return ",".join(f"{string(name)}:{value}" for name, value in pairs)


# ---- the names of fields


class Kind(NamedTuple):
    """The names of the fields of a message or a parameter, and what its tail is, if it has one."""

    fields: tuple
    tail: Optional[str]


def names_in(cell):
    """The names of the fields in a cell of the profile's tables."""
    plain = re.sub(r"\(.*?\)", "", cell)
    if plain.startswith("one bit each: "):
        return tuple(plain.removeprefix("one bit each: ").split(";")[0].split(", "))
    return tuple(it for it in re.findall(r"(\w+) \d+", plain) if it != "reserved")


def profile_kinds():
    """The kinds of the profile, by the tables of docs/tables.md. A parameter of type and value has its own name as its field's."""
    page = text_of("docs/tables.md").split("\n## All of LLRP 1.1\n")[0]
    for heading in ("## Messages", "### Type and value", "### Type, length and value"):
        table = page.split(f"\n{heading}\n")[1].split("\n| Type | Name |")[1].split("\n\n")[0]
        for line in table.split("\n")[2:]:
            cells = [it.strip() for it in line.strip("|").split("|")]
            fields = (cells[1],) if heading == "### Type and value" else names_in(cells[2])
            yield cells[1], Kind(fields, cells[3].split(":")[0] or None if heading == "### Type, length and value" else None)


def whole_kinds():
    """The kinds of the whole standard, by its rows."""
    for row in ROWS:
        names = tuple(field.name for field in LINES[row].fields if not field.is_reserved)
        fields = (row.name,) if row.form == "TV" else ("BitCount",) if row.name == "EPCData" else names
        yield row.name, Kind(fields, LINES[row].tail)


PROFILE, WHOLE = dict(profile_kinds()), dict(whole_kinds())


# ---- from a listing to lines of JSON


def fields_of(kind, words):
    """The members of a line's fields. A field with an EPC has no name of its own."""
    return [("EPC", string(word)) if word.startswith("urn:") else (name, word) for name, word in zip(kind.fields, words)]


def tail_of(kind, word):
    """The member of a tail."""
    digits = word[1:]
    if kind == "words":
        return "words", f"[{digits}]"
    return TAILS[kind], string(bytes.fromhex(digits).decode() if kind == "text" else digits)


def head_of(kinds, level, name, words):
    """The members of a message or parameter before its parameters."""
    kind = kinds[name]
    first = [("parameter", string(name))] if level else [("message", string(name)), ("version", words.pop(0)), ("id", words.pop(0))]
    tail = [tail_of(kind.tail, words.pop())] if kind.tail else []
    return [*first, *fields_of(kind, words), *tail]


def object_of(nodes):
    """The object of the first of these nodes, which are levels and members, and the nodes that are not below it."""
    (level, head), *rest = nodes
    below = []
    while rest and rest[0][0] > level:
        child, rest = object_of(rest)
        below.append(child)
    parameters = [("parameters", f"[{','.join(below)}]")] if below else []
    return "{" + members([*head, *parameters]) + "}", rest


def end_of(line):
    """The line of a fault or of an end."""
    words = line.split(" ")
    if line == "! BROKEN":
        return '{"broken":true}'
    if words[0] == "?":
        return f'{{"rest":{words[1]}}}'
    return f'{{"fault":{string(words[3])},"id":{words[1]},"bit":{words[2]}}}'


def lines_of(kinds, listing):
    """The lines of JSON of a listing's items, in order."""
    found = []
    for part in re.split(r"(?m)^(?=0 |[!?] )", listing)[1:]:
        lines = part.splitlines()
        if lines[0][0] in "!?":
            found += [end_of(it) for it in lines]
            continue
        nodes = [(int(level), head_of(kinds, int(level), name, words)) for level, name, *words in (it.split(" ") for it in lines)]
        found.append(object_of(nodes)[0])
    return found


# ---- back from what JSON says to a listing


def words_of(kind, value):
    """The words of a line after its name."""
    words = [str(value["EPC"] if "EPC" in value else value[name]) for name in kind.fields]
    if kind.tail:
        tail = value[TAILS[kind.tail]]
        words.append("w" + ",".join(map(str, tail)) if kind.tail == "words" else "x" + (tail.encode().hex() if kind.tail == "text" else tail))
    return words


def listed(kinds, value, level=0):
    """Yields the lines of the listing that a value says."""
    if "message" in value or "parameter" in value:
        name = value["parameter"] if level else value["message"]
        first = [] if level else [str(value["version"]), str(value["id"])]
        yield " ".join([str(level), name, *first, *words_of(kinds[name], value)])
        for child in value.get("parameters", []):
            yield from listed(kinds, child, level + 1)
    elif "fault" in value:
        yield f"! {value['id']} {value['bit']} {value['fault']}"
    else:
        yield f"? {value['rest']}" if "rest" in value else "! BROKEN"


def listing_of(kinds, values):
    return "".join(line + "\n" for value in values for line in listed(kinds, value))


def without_great_numbers(listing):
    """A listing in which each number that is too great for jq is the same one."""
    return re.sub(r"(?<= )-?\d+(?= |$)", lambda it: "great" if abs(int(it[0])) > GREATEST_OF_JQ else it[0], listing, flags=re.M)


# ---- what is compared


def are_read(kinds, what, out, listing):
    """Yields whether Python and jq read each line, and say what the listing says."""
    values = [json.loads(line) for line in out.decode().split("\n")[:-1]]
    yield f"{what}: Python's json does not give back the listing", listing_of(kinds, values) == listing
    done = subprocess.run(["jq", "-c", "."], input=out, capture_output=True, timeout=600)
    found = [json.loads(line) for line in done.stdout.decode().split("\n")[:-1]]
    same = without_great_numbers(listing_of(kinds, found)) == without_great_numbers(listing)
    yield f"{what}: jq ends with {done.returncode}, or does not give back the listing: {done.stderr[-300:]}", done.returncode == 0 and same


def are_lines(program, options, what, stream, listing, ends):
    """Yields whether the lines of a stream are those of its listing, and whether they are read."""
    kinds = WHOLE if "--all" in options or "standard" in options else PROFILE
    status, out = run(program, ["--json", *options], stream)
    wanted = "".join(line + "\n" for line in lines_of(kinds, listing))
    yield f"{what}: {out[:1000]} in place of {wanted[:1000].encode()}", out == wanted.encode()
    yield f"{what}: status {status} in place of {ends}", status == ends
    yield from are_read(kinds, what, out, listing)


def status_of(listing):
    return 1 if re.search(r"(?m)^[!?] ", listing) else 0


def vector_results(program):
    for it in vectors():
        yield from are_lines(program, [], f"vector {it.name}", it.stream, it.listing, status_of(it.listing))
        digits = subprocess.run([program, "show", "--json", "--hex"], input=it.stream.hex().encode(), capture_output=True, timeout=600)
        yield f"vector {it.name} as digits", digits.stdout == run(program, ["--json"], it.stream)[1] and digits.returncode == status_of(it.listing)


def case_results(program):
    """Each frame of the whole standard has a line of its own, so that one run says of each whether it is right."""
    cases = [*lawful_cases(), *damaged_cases()]
    for at in range(0, len(cases), MOST_FRAMES):
        part = cases[at : at + MOST_FRAMES]
        listing = "".join(line + "\n" for case in part for line in case.listing)
        status, out = run(program, ["--json", "--all"], b"".join(case.frame for case in part))
        yield f"frames from {at} on: status {status}", status == status_of(listing)
        found = out.decode().split("\n")[:-1]
        yield f"frames from {at} on: {len(found)} lines of {len(part)}", len(found) == len(part)
        for case, line in zip(part, [*found, *[""] * len(part)]):
            wanted = lines_of(WHOLE, "\n".join(case.listing))[0]
            yield f"{case.what}: {line[:1000]} in place of {wanted[:1000]}", line == wanted
        yield from are_read(WHOLE, f"frames from {at} on", out, listing)


def name_results(program):
    """Lines under the names of the standard: those of vectors, and of each row's frames, a message of the profile has the line of --all."""
    for it in vectors():
        yield from are_lines(program, ["--names", "standard"], f"vector {it.name}, standard names", it.stream, it.listing, status_of(it.listing))
        for options, others in ((["--names", "profile"], []), (["--all", "--names", "standard"], ["--all"]), (["--all", "--names", "profile"], ["--all"])):
            same = run(program, ["--json", *options], it.stream) == run(program, ["--json", *others], it.stream)
            yield f"vector {it.name}: {options} in place of {others}", same
    cases = [*lawful_cases(), *damaged_cases()]
    for at in range(0, len(cases), MOST_FRAMES):
        part = cases[at : at + MOST_FRAMES]
        stream = b"".join(case.frame for case in part)
        own, named = (run(program, ["--json", *options], stream)[1].decode().split("\n")[:-1] for options in ([], ["--names", "standard"]))
        wanted = [line if line.startswith('{"fault"') else lines_of(WHOLE, "\n".join(case.listing))[0] for case, line in zip(part, own)]
        yield f"frames from {at} on, standard names", len(named) == len(part) and named == wanted
    frame = bytes.fromhex("083E0000000A00000007")
    for options in (["--names", "standard"], ["--json", "--names", "whole"], ["--json", "--names", ""], ["--names", "profile", "--all"]):
        status, out = run(program, options, frame)
        yield f"{options}: {status}", status[0] == 2 and b"--json --names standard" in status[1] and out == b""


def error_message(text):
    status = parameter(287, (100).to_bytes(2, "big") + len(text).to_bytes(2, "big") + text)
    return message(100, 7, status)


def text_results(program):
    for text in TEXTS:
        octets = text.encode()
        listing = f"0 ERROR_MESSAGE 2 7\n1 LLRPStatus 100 x{octets.hex()}\n"
        yield from are_lines(program, [], f"text {text!r}", error_message(octets), listing, 0)


def shown_results(program, what, stream):
    """Yields whether the lines say what `show` lists."""
    status, listing = run(program, [], stream)
    yield from are_lines(program, [], what, stream, listing.decode(), status)


def capture_results(program):
    for port in (True, False):
        stream = b"".join(data for source_port, data in payloads("examples/inventory.pcap") if (source_port == 5084) == port)
        yield from shown_results(program, f"examples/inventory.pcap, {'from' if port else 'to'} the reader", stream)


def numbered_report(report, number):
    """A report of one tag with another id, and the same number in the last 32 bits of its word."""
    return report[:6] + number.to_bytes(4, "big") + report[10:23] + number.to_bytes(4, "big") + report[27:]


def many_results(program):
    """The first frames are reports of a tag, and the others KEEPALIVEs."""
    with open(os.path.join(TOP, "examples/report.hex"), "rb") as file:
        report = bytes.fromhex(file.read().decode())
    for first in range(0, MANY_FRAMES, NUMBERED_FRAMES):
        numbers = range(first, first + NUMBERED_FRAMES)
        frames = [message(62, number, b"") if first else numbered_report(report, number) for number in numbers]
        yield from shown_results(program, f"{NUMBERED_FRAMES} frames from {first} on", b"".join(frames))


def limit_results(program):
    frame = error_message(b"a" * 100)
    for all_kinds in ([], ["--all"]):
        yield from are_lines(program, [*all_kinds, "--limit", "50"], f"a frame above --limit, {all_kinds}", frame, "! 7 16 MessageLength\n", 1)


def end_results(program):
    """Each end of a stream, after a message that both sets have and after nothing, and in digits of both cases."""
    frame, listing = bytes.fromhex("083E0000000A000000AB"), "0 KEEPALIVE 2 171\n"
    ends = [("", b"", 0), ("? 4\n", bytes.fromhex("083E0000"), 1), ("! BROKEN\n", bytes.fromhex("083E00000009000000AB") + frame, 1)]
    for all_kinds in ([], ["--all"]):
        for line, octets, status in ends:
            for before, lines in ((b"", ""), (frame, listing)):
                stream, what = before + octets, f"{lines + line!r} {all_kinds}"
                yield from are_lines(program, all_kinds, what, stream, lines + line, status)
                for digits in (stream.hex(), stream.hex().upper()):
                    found = run(program, ["--json", "--hex", *all_kinds], digits.encode())
                    yield f"{what}, as digits {digits}", found == run(program, ["--json", *all_kinds], stream)


def instructions(program, options, stream):
    """Counts the instructions of `show` over a stream."""
    words = ["valgrind", "--tool=callgrind", "--callgrind-out-file=/dev/null", program, "show", *options]
    done = subprocess.run(words, input=stream, capture_output=True, timeout=600)
    return int(re.search(rb"Collected : (\d+)", done.stderr)[1])


def length_results(program):
    """Whether an octet of a frame that comes in many reads costs what one of a short frame does, but for one in two."""
    tag = bytes.fromhex("00F000228D3074257BF7194E4000001A8581000186C4820005AF3107A40000880001")
    for all_kinds in ([], ["--all"]):
        options = ["--json", *all_kinds]
        start = instructions(program, options, b"")
        short, long = ((instructions(program, options, message(61, 1, tag * tags)) - start) / tags for tags in (100, 1900))
        yield f"{options}: {short:.0f} instructions a tag in a frame of 3,410 octets, {long:.0f} in one of 64,610", long < 1.5 * short


def results(program):
    """Yields what was compared, and whether it is right."""
    yield from length_results(program)
    yield from vector_results(program)
    yield from name_results(program)
    yield from text_results(program)
    yield from limit_results(program)
    yield from end_results(program)
    yield from capture_results(program)
    yield from case_results(program)
    yield from many_results(program)


def main():
    program = program_given()
    passed = failed = 0
    for what, is_right in results(program):
        if is_right:
            passed += 1
        else:
            failed += 1
            print(f"WRONG: {what[:3000]}")
    return finish(passed, failed, LEAST)


if __name__ == "__main__":
    sys.exit(main())
