#!/usr/bin/env python3
"""Compares `show --all` and `encode --all` with the rows of the whole of LLRP 1.1, these with Wireshark's dissector, and
docs/tables.md, the profile's tables too, with them and with the definition of EPC words.

usage: tests/whole_rows.py [PROGRAM]

The rows are those of tests/llrp11.tsv, which were written from the standard and not from the program's tables. PROGRAM is llrp,
crates/llrp/out/llrp where none is given. tshark and text2pcap are needed. The last line is `N passed, M failed`; the status is 1
if something failed.
"""
import re
import subprocess
import sys

from parts.counting import finish
from parts.damages import damaged_cases
from parts.dissector import differences, dissected
from parts.frames import lawful_cases
from parts.repository import program_given
from parts.standard import LINES, ROWS, groups_of
from parts.table_page import compared, epc_compared, further_compared, profile_compared

# How many frames the program reads in one run.
MOST_FRAMES = 4000
# How many cases there are.
LEAST = 42090


def run(program, command, given, *options):
    """Returns the status of a command, with the text of an error if there is one, and what it prints."""
    done = subprocess.run([program, command, "--all", *options], input=given, capture_output=True, timeout=600)
    return (done.returncode, done.stderr) if done.stderr else done.returncode, done.stdout


def shown(listing):
    """The listings of the frames of a stream."""
    return [it.splitlines() for it in re.split(r"(?m)^(?=0 |[!?] )", listing.decode())[1:]]


def are_listed(program, cases):
    """Lists the frames in one stream. Yields each, and whether its listing is right."""
    status, out = run(program, "show", b"".join(case.frame for case in cases))
    found = shown(out)
    wanted = 1 if any(case.listing[0].startswith("!") for case in cases) else 0
    yield f"show: status {status}, {len(found)} listings of {len(cases)} frames", (status, len(found)) == (wanted, len(cases))
    for case, lines in zip(cases, [*found, *[[]] * len(cases)]):
        yield f"{case.what}: {case.frame.hex()}: {lines} in place of {case.listing}", lines == case.listing


def are_encoded(program, cases):
    """Encodes the listings of lawful frames in one text. Yields each, and whether its octets are right."""
    text = "".join(line + "\n" for case in cases for line in case.listing)
    status, out = run(program, "encode", text.encode())
    size = sum(len(case.frame) for case in cases)
    yield f"encode: status {status}, {len(out)} octets of {size}", (status, len(out)) == (0, size)
    at = 0
    for case in cases:
        found = out[at : at + len(case.frame)]
        at += len(case.frame)
        yield f"{case.what}: {found.hex()} in place of {case.frame.hex()}", found == case.frame


def are_dissected(cases):
    """Yields each lawful frame, and whether the dissector shows it as it is."""
    for case, element in zip(cases, dissected([case.frame for case in cases])):
        wrong = differences(*case.holds, element)
        yield f"{case.what}: {case.frame.hex()}: the dissector has {wrong}", not wrong


def are_ended(program):
    """Yields whether `show --all` and `encode --all` end as they have to, of nothing, of digits, of a rest, a break and a refused line."""
    frame, listing = bytes.fromhex("0BFF0000001000000007 0000651A 25AA"), b"0 CUSTOM_MESSAGE 2 7 25882 37 xaa\n"
    yield "show of nothing", run(program, "show", b"") == (0, b"")
    yield "encode of nothing", run(program, "encode", b"") == (0, b"")
    yield "show of a message", run(program, "show", frame) == (0, listing)
    for digits in (frame.hex(), frame.hex().upper()):
        yield f"show of digits {digits}", run(program, "show", digits.encode(), "--hex") == (0, listing)
    yield "encode as digits", run(program, "encode", listing, "--hex") == (0, frame.hex().upper().encode() + b"\n")
    yield "show of a rest", run(program, "show", frame + frame[:5]) == (1, listing + b"? 5\n")
    yield "show of a break", run(program, "show", bytes.fromhex("083E00000009000000AB") + frame) == (1, b"! BROKEN\n")
    yield "show of a longer frame than the limit", run(program, "show", frame, "--limit", "15") == (1, b"! 7 16 MessageLength\n")
    refused, longer = b"llrp: line 3: Name\n", b"llrp: line 1: OverLimit\n"
    yield "encode of a refused line", run(program, "encode", 2 * listing + b"0 CUSTOM 2 7 25882 37 xaa\n") == ((1, refused), frame)
    yield "encode of a longer message than the limit", run(program, "encode", listing, "--limit", "15") == ((1, longer), b"")


TAILS = {"words": ["words"], "text": ["text"], "bits": ["bits"], "data": ["octets"], None: []}
# By which form and number the lines of `fields` are in order.
FORMS = ("message", "TV", "TLV")


def told_field(field):
    if field.is_reserved:
        return f"reserved {field.width}"
    # (the field that counts bits has a name of its own)
    values = " signed" if field.is_signed else f" (0..{field.greatest})" if field.greatest < 2**field.width - 1 else ""
    return f"{field.name} {field.width}{values}"


def told_group(group):
    """Returns parameters that are counted together as they are named, and each by itself where any number of them may be there."""
    names = [next(row.name for row in ROWS if row.form != "message" and row.number == number) for number in group.members]
    times = {(0, 1): "?", (1, 1): "", (0, None): "*", (1, None): "+"}[group.least, group.most]
    if times == "*":
        return [f"{name}*" for name in names]
    return [(f"({' or '.join(names)})" if len(names) > 1 else names[0]) + times]


def told(row, order):
    """Returns the line of `fields` of a row, with its parameters in an order of their own."""
    line = LINES[row]
    # (the field of a parameter with type and value alone is named as that)
    own = [field._replace(name=row.name) for field in line.fields] if row.form == "TV" else line.fields
    fields = ", ".join([*map(told_field, own), *TAILS[line.tail]]) or "-"
    groups = sorted(it for group in groups_of(row) for it in told_group(group)) or ["-"]
    places = [it.name for it in order if any(row.number in group.members for group in it.groups)]
    return f"{row.number} {row.name}: {fields}", groups, "" if row.form == "message" else f"in {', '.join(places) or '-'}"


def taken_apart(line):
    """Returns a line of `fields` as `told` has it."""
    begin, groups, *places = line.split("; ")
    found = []
    for group in groups.split(", "):
        found += [f"{name}*" for name in group.strip("()*").split(" or ")] if group.endswith("*") else [group]
    return begin.replace(": BitCount 16, bits", ": Count 16, bits"), sorted(found), "".join(places)


def distance(name, other):
    """How many octets have to be put in, left out or changed to make one name of the other, in either case (Wagner and Fischer, 1974)."""
    row = range(len(other) + 1)
    for count, letter in enumerate(name.encode().lower(), 1):
        before, row = row, [count]
        for place, beside in enumerate(other.encode().lower()):
            row.append(min(row[-1] + 1, before[place + 1] + 1, before[place] + (letter != beside)))
    return row[-1]


def nearest(name, order):
    """The names of the table that are nearest to a name, by their numbers, of which the first five count."""
    found = [(distance(name, row.name), row.name) for row in order]
    return ", ".join([it for count, it in found if count == min(found)[0]][:5])


def are_told(program):
    """Yields each row, and whether `fields --all` says of it what the table does, and what `fields` does with a name."""
    order = sorted(ROWS, key=lambda row: (FORMS.index(row.form), row.number))
    status, out = run(program, "fields", b"")
    lines = out.decode().splitlines()
    yield f"fields --all: status {status}, {len(lines)} lines", (status, len(lines)) == (0, len(order))
    for row, line in zip(order, lines):
        yield f"fields --all: {line} in place of {told(row, order)}", taken_apart(line) == told(row, order)
        yield f"fields --all {row.name}", run(program, "fields", b"", row.name) == (0, line.encode() + b"\n")
    for name in ["KEEPALIV", "rospecs", "a", "\u00e4", *(row.name[1:] for row in order)]:
        if name not in [row.name for row in order]:
            line = f"llrp: name; nearest: {nearest(name, order)}\n"
            yield f"fields --all {name}: {line}", run(program, "fields", b"", name) == ((1, line.encode()), b"")


def chunks(cases):
    return [cases[at : at + MOST_FRAMES] for at in range(0, len(cases), MOST_FRAMES)]


def results(program):
    """Yields what was compared, and whether it is right."""
    lawful, damaged = list(lawful_cases()), list(damaged_cases())
    for part in chunks(lawful):
        yield from are_listed(program, part)
        yield from are_encoded(program, part)
    for part in chunks(damaged):
        yield from are_listed(program, part)
    yield from are_dissected(lawful)
    yield from are_ended(program)
    yield from are_told(program)
    yield from compared()
    yield from profile_compared()
    yield from epc_compared()
    yield from further_compared()


def main():
    program = program_given()
    passed = failed = 0
    for what, is_right in results(program):
        if is_right:
            passed += 1
        else:
            failed += 1
            print(f"WRONG: {what[:2000]}")
    return finish(passed, failed, LEAST)


if __name__ == "__main__":
    sys.exit(main())
