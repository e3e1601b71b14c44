#!/usr/bin/env python3
"""Compares what `llrp explain` prints of frames with their layouts in LLRP 1.1 (sections 16 and 17), worked out by hand: a frame with each of the
fifteen faults, each form of tail, both sets of kinds, and each end of a stream; with --json, each as one object of JSON on a line; with --only,
the frames of one id alone; with --hex, digits that come in pieces or are refused; and that a frame is printed before the input ends.

usage: tests/explain.py [PROGRAM]

The last line is the count.
"""
import json
import os
import subprocess
import sys
import time

from parts.counting import finish_results
from parts.repository import TOP, program_given

LEAST = 241
# How long the next piece of an input waits for the one before it to be read, in seconds.
REST = 0.005
# Lines of 21 octets in 50 MB, and the most memory that reading them may take, in kilobytes.
LINES_OF_LONG = 2_400_000
MOST_MEMORY = 65_536
COLUMNS = "BIT WIDTH LEVEL FIELD VALUE"
# 16 ParameterErrors, each in the one before, in the LLRPStatus of an ERROR_MESSAGE.
DEEP = "0464 00000092 00000009 011F 0088 0000 0000" + "".join(f"0121 {8 * level:04X} 0000 0000" for level in range(16, 0, -1))


def names_of(*forms):
    """Returns the names of the messages or parameters of LLRP 1.1 by their numbers, of a table that was written from the standard by itself."""
    with open(os.path.join(TOP, "tests/llrp11.tsv"), encoding="utf-8") as lines:
        rows = [line.split("\t") for line in lines if line.strip() and line[0] != "#"]
    return {int(number): name for form, number, name, *_ in rows if form.lower() in forms}


KINDS, PARAMETERS = names_of("message"), names_of("tv", "tlv")


def refused_head(bit, level, kind, *octets):
    """Returns the lines of the head of a parameter with a length, which begins at this bit: up to its type, or with the length. It is refused."""
    fields = ((0, 6, "reserved", 0), (6, 10, "ParameterType", kind), *((16, 16, "ParameterLength", count) for count in octets))
    return [f"{bit + place} {width} {level} {name} {number}" for place, width, name, number in fields]


def long_head(bit, level, kind, octets):
    """Returns the same of one that is read, whose type has its name after a tab."""
    first, number, length = refused_head(bit, level, kind, octets)
    return [first, f"{number}\t{PARAMETERS[kind]}", length]


def nested(bit, level, count):
    """Returns the lines of this many ParameterErrors, each in the one before."""
    if count == 0:
        return []
    fields = [f"{bit + 32} 16 {level} ParameterType 0", f"{bit + 48} 16 {level} ErrorCode 0\tM_Success"]
    return long_head(bit, level, 289, 8 * (count + 1)) + fields + nested(bit + 64, level + 1, count - 1)


STATUS = [*long_head(80, 1, 287, 8), "112 16 1 StatusCode 0\tM_Success"]
# A frame; the numbers of its header, if that passes its checks: reserved, version, type, length, id; the lines after them; the lines of what is
# refused; the reason of its first fault, its bit, and its octet.
FAULTS = [
    ("243E 0000000A 00000007", None, [], ["0 3 0 reserved 1"], "Reserved", 0, 0),
    ("0C3E 0000000A 00000007", None, [], ["0 3 0 reserved 0", "3 3 0 Version 3"], "Version", 3, 0),
    ("0405 0000000A 00000007", None, [], ["0 3 0 reserved 0", "3 3 0 Version 1", "6 10 0 MessageType 5"], "MessageType", 6, 0),
    ("043E 00000015 00000007" + "00" * 11, None, [],
        ["0 3 0 reserved 0", "3 3 0 Version 1", "6 10 0 MessageType 62", "16 32 0 MessageLength 21"], "MessageLength", 16, 2),
    ("0418 0000000A 00000001", (0, 1, 24, 10, 1), [], [], "Short", 80, 10),
    ("0414 00000014 00000001 00B1 000A 00000001 08 00", (0, 1, 20, 20, 1), [*long_head(80, 1, 177, 10), "112 32 1 ROSpecID 1"],
        ["144 8 1 Priority 8"], "Value", 144, 18),
    ("041E 00000012 00000001 011F 0008 0000 0005", (0, 1, 30, 18, 1), STATUS, ["128 16 1 count 5"], "Count", 128, 16),
    ("041E 00000013 00000001 011F 0009 0000 0001 FF", (0, 1, 30, 19, 1), [*long_head(80, 1, 287, 9), "112 16 1 StatusCode 0\tM_Success"], [], "Utf8", 144, 18),
    ("041E 0000000E 00000001 0005 0004", (0, 1, 30, 14, 1), [], refused_head(80, 1, 5), "ParamType", 86, 10),
    ("041E 0000000E 00000001 00B1 0004", (0, 1, 30, 14, 1), [], refused_head(80, 1, 177), "Misplaced", 80, 10),
    ("041E 0000001A 00000001 011F 0008 0000 0000 011F 0008 0000 0000", (0, 1, 30, 26, 1), [*STATUS, "128 16 1 count 0"],
        refused_head(144, 1, 287), "TooMany", 144, 18),
    (DEEP, (0, 1, 100, 146, 9), [*long_head(80, 1, 287, 136), "112 16 1 StatusCode 0\tM_Success", "128 16 1 count 0", *nested(144, 2, 15)],
        refused_head(1104, 17, 289), "TooDeep", 1104, 138),
    ("041E 0000000E 00000001 011F 0003", (0, 1, 30, 14, 1), [], refused_head(80, 1, 287, 3), "ParamLength", 96, 12),
    ("043E 0000000B 00000007 00", (0, 1, 62, 11, 7), [], [], "Extra", 80, 10),
    ("041E 0000000A 00000001", (0, 1, 30, 10, 1), [], [], "Missing", 80, 10),
]
# A frame of a message, and its lines after those of its header.
MESSAGES = [
    ("083E 0000000A 00000007", (0, 2, 62, 10, 7), []),
    # a report of a tag with type and value alone, EPC-96
    ("043D 0000001B 00000001 00F0 0011 8D 3074257BF7194E4000001A85", (0, 1, 61, 27, 1), [
        "80 6 1 reserved 0", "86 10 1 ParameterType 240\tTagReportData", "96 16 1 ParameterLength 17",
        "112 1 2 type and value 1", "113 7 2 ParameterType 13\tEPC-96", f"120 96 2 EPC-96 {0x3074257BF7194E4000001A85}"]),
    # bits: EPCData of 20 bits in three octets
    ("043D 00000017 00000001 00F0 000D 00F1 0009 0014 ABCDE0", (0, 1, 61, 23, 1), [
        "80 6 1 reserved 0", "86 10 1 ParameterType 240\tTagReportData", "96 16 1 ParameterLength 13",
        "112 6 2 reserved 0", "118 10 2 ParameterType 241\tEPCData", "128 16 2 ParameterLength 9", "144 16 2 BitCount 20", "160 24 2 bits xabcde0"]),
    # text, and a parameter in a parameter
    ("041E 0000001C 00000001 011F 0012 0064 0002 6F6B 0121 0008 00B1 0065", (0, 1, 30, 28, 1), [
        "80 6 1 reserved 0", "86 10 1 ParameterType 287\tLLRPStatus", "96 16 1 ParameterLength 18", "112 16 1 StatusCode 100\tM_ParameterError",
        "128 16 1 count 2", "144 16 1 text x6f6b", "160 6 2 reserved 0", "166 10 2 ParameterType 289\tParameterError",
        "176 16 2 ParameterLength 8", "192 16 2 ParameterType 177", "208 16 2 ErrorCode 101\tM_FieldError"]),
    # signed numbers of 8 bits: -128, -1, 0 and 127; and a status of no name
    *((f"043D 0000001D 00000001 00F0 0013 8D 3074257BF7194E4000001A85 86 {octet}", (0, 1, 61, 29, 1), [
        "80 6 1 reserved 0", "86 10 1 ParameterType 240\tTagReportData", "96 16 1 ParameterLength 19",
        "112 1 2 type and value 1", "113 7 2 ParameterType 13\tEPC-96", f"120 96 2 EPC-96 {0x3074257BF7194E4000001A85}",
        "216 1 2 type and value 1", "217 7 2 ParameterType 6\tPeakRSSI", f"224 8 2 PeakRSSI {number}"])
      for octet, number in (("80", -128), ("FF", -1), ("00", 0), ("7F", 127))),
    ("041E 00000012 00000001 011F 0008 FFFF 0000", (0, 1, 30, 18, 1), [
        "80 6 1 reserved 0", "86 10 1 ParameterType 287\tLLRPStatus", "96 16 1 ParameterLength 8", "112 16 1 StatusCode 65535", "128 16 1 count 0"]),
]
# The same, of the profile, and of the whole standard, which calls some fields otherwise.
PERIODIC = "0403 00000014 00000001 00 00DC 0009 01 00002710"
PERIODIC_LINES = ["80 1 0 ResetToFactoryDefault 0", "81 7 0 R 0", *long_head(88, 1, 220, 9)]
PROFILE = [
    # a trigger by its name
    (PERIODIC, (0, 1, 3, 20, 1), [*PERIODIC_LINES, "120 8 1 Type 1\tPeriodic", "128 32 1 Period 10000"]),
]
WHOLE = [
    (PERIODIC, (0, 1, 3, 20, 1), [*PERIODIC_LINES, "120 8 1 KeepaliveTriggerType 1\tPeriodic", "128 32 1 PeriodicTriggerValue 10000"]),
    # data after the fields of a message
    ("07FF 00000011 00000001 00001234 05 AABB", (0, 1, 1023, 17, 1), [
        "80 32 0 VendorIdentifier 4660", "112 8 0 MessageSubtype 5", "120 16 0 octets xaabb"]),
]
# A start of an ADD_ROSPEC whose ROSpec, 28 octets from bit 80 on, has a ROBoundarySpec and no more.
BARE_ROSPEC = "0414 00000026 00000001 00B1 001C 00000001 00 00 00B2 0012 00B3 0005 00 00B6 0009 00 00000000"
# A frame with a fault, and the last line of what is written of it: the bits at which parts end are 8 times the octets before them.
SENTENCES = [
    ("243E 0000000A 00000007", "fault at bit 0, octet 0: Reserved: 3 bits are 1, not 0", ()),
    ("0C3E 0000000A 00000007", "fault at bit 3, octet 0: Version: 3, not 1 or 2", ()),
    ("0405 0000000A 00000007", "fault at bit 6, octet 0: MessageType: 5 is of no message of the profile", ()),
    ("0405 0000000A 00000007", "fault at bit 6, octet 0: MessageType: 5 is of no message of the standard", ("--all",)),
    ("043E 00000015 00000007" + "00" * 11, "fault at bit 16, octet 2: MessageLength: 21 octets, the limit is 20", ("--limit", "20")),
    ("0418 0000000A 00000001", "fault at bit 80, octet 10: Short: ROSpecID ends at bit 112, ENABLE_ROSPEC at bit 80", ()),
    ("041E 00000011 00000001 011F 0007 0000 05", "fault at bit 128, octet 16: Short: the count ends at bit 144, LLRPStatus at bit 136", ()),
    ("041E 0000000C 00000001 011F", "fault at bit 80, octet 10: Short: the head of a parameter ends at bit 112, ADD_ROSPEC_RESPONSE at bit 96", ()),
    ("041E 0000000E 00000001 051F 0004", "fault at bit 80, octet 10: Reserved: 6 bits are 1, not 0", ()),
    ("0414 00000014 00000001 00B1 000A 00000001 08 00", "fault at bit 144, octet 18: Value: Priority is 8, at most 7", ()),
    ("041E 00000012 00000001 011F 0008 0000 0005",
        "fault at bit 128, octet 16: Count: 5 octets of text end at bit 184, LLRPStatus at bit 144", ()),
    ("043D 00000015 00000001 00F0 000B 00F1 0007 0014 AB",
        "fault at bit 144, octet 18: Count: 20 bits end at bit 184, EPCData at bit 168", ()),
    ("041E 00000013 00000001 011F 0009 0000 0001 FF", "fault at bit 144, octet 18: Utf8: no character begins here", ()),
    ("041E 0000000E 00000001 0005 0004", "fault at bit 86, octet 10: ParamType: 5 is of no parameter of the profile", ()),
    ("041E 0000000E 00000001 0005 0004", "fault at bit 86, octet 10: ParamType: 5 is of no parameter of the standard", ("--all",)),
    ("041E 0000000B 00000001 E3", "fault at bit 81, octet 10: ParamType: 99 is of no parameter of the profile", ()),
    ("041E 0000000E 00000001 00B1 0004", "fault at bit 80, octet 10: Misplaced: ROSpec is no parameter of ADD_ROSPEC_RESPONSE", ()),
    ("041E 0000000D 00000001 81 0001", "fault at bit 80, octet 10: Misplaced: AntennaID is no parameter of ADD_ROSPEC_RESPONSE", ()),
    ("041E 0000001A 00000001 011F 0008 0000 0000 011F 0008 0000 0000",
        "fault at bit 144, octet 18: TooMany: ADD_ROSPEC_RESPONSE has no place for one more LLRPStatus", ()),
    (DEEP, "fault at bit 1104, octet 138: TooDeep: ParameterError is at level 17, the deepest is 16", ()),
    ("041E 0000000E 00000001 011F 0003", "fault at bit 96, octet 12: ParamLength: 3 octets, at least 4", ()),
    ("041E 0000000E 00000001 011F 0008",
        "fault at bit 96, octet 12: ParamLength: 8 octets from bit 80 end at bit 144, ADD_ROSPEC_RESPONSE at bit 112", ()),
    ("043E 0000000B 00000007 00", "fault at bit 80, octet 10: Extra: KEEPALIVE has no parameters and ends at bit 88", ()),
    ("041E 0000000A 00000001", "fault at bit 80, octet 10: Missing: ADD_ROSPEC_RESPONSE ends without LLRPStatus", ()),
    (BARE_ROSPEC, "fault at bit 304, octet 38: Missing: ROSpec ends without AISpec", ()),
    (BARE_ROSPEC, "fault at bit 304, octet 38: Missing: ROSpec ends without AISpec or RFSurveySpec or LoopSpec or Custom", ("--all",)),
]
# An end of a stream after a message: its octets, its line, and its line with --json.
ENDS = [("", "", ""), ("04", "? 1\n", '{"rest":1}\n'), ("043E 0000000A 000000", "? 9\n", '{"rest":9}\n'),
    ("043E 00000009 00000007", "! BROKEN\n", '{"broken":true}\n')]


def run(program, given, *flags):
    done = subprocess.run([program, "explain", *flags], input=given, capture_output=True, timeout=60)
    return done.returncode, done.stdout.decode(), done.stderr


def head(numbers):
    """Returns the lines of a header."""
    fields = ((0, 3, "reserved"), (3, 3, "Version"), (6, 10, "MessageType"), (16, 32, "MessageLength"), (48, 32, "MessageID"))
    readings = ("", "", f"\t{KINDS[numbers[2]]}", "", "")
    return [f"{bit} {width} 0 {name} {number}{reading}" for (bit, width, name), number, reading in zip(fields, numbers, readings)]


def text(index, frame, lines):
    return "\n".join([f"frame {index}, {len(frame)} octets", COLUMNS, *lines, ""])


def is_fault(written, frame, numbers, lines, refused, reason, bit, octet):
    """Whether this was written of a frame with a fault, whatever the words after the reason's name are."""
    before = [] if numbers is None else head(numbers) + lines
    heading = ["then, refused:", *refused] if refused else []
    front = text(1, frame, before + heading) + f"fault at bit {bit}, octet {octet}: {reason}: "
    return written.startswith(front) and written.count("\n") == front.count("\n") + 1


def field(line, refused=False):
    """Returns the object of a field's line."""
    columns, _, reading = line.partition("\t")
    bit, width, level, *name, what = columns.split(" ")
    value = {"hex": what[1:]} if what[0] == "x" else {"value": int(what)}
    ends = {**({"reading": reading} if reading else {}), **({"refused": True} if refused else {})}
    return {"bit": int(bit), "width": int(width), "name": " ".join(name), "level": int(level), **value, **ends}


def told(line):
    """Returns the object of a fault's line."""
    place, reason, words = line.split(": ", 2)
    bit, octet = place.removeprefix("fault at bit ").split(", octet ")
    return {"bit": int(bit), "octet": int(octet), "reason": reason, "text": words}


def line_of(index, frame, fields, fault=None):
    """Returns the line of a frame with --json."""
    whole = {"frame": index, "octets": len(frame), "fields": fields, **({"fault": fault} if fault else {})}
    return json.dumps(whole, separators=(",", ":")) + "\n"


def json_results(program):
    """The same with --json: the objects are those of the lines."""
    for digits, numbers, lines, refused, reason, bit, octet in FAULTS:
        frame = bytes.fromhex(digits)
        limit = ("--limit", "20") if reason == "MessageLength" else ()
        status, out, error = run(program, frame, "--json", *limit)
        words = json.loads(out)["fault"]["text"]
        fields = [field(line) for line in (head(numbers) + lines if numbers else [])] + [field(line, True) for line in refused]
        fault = {"bit": bit, "octet": octet, "reason": reason, "text": words}
        yield f"{reason} --json", (status, out, error) == (1, line_of(1, frame, fields, fault), b"") and words != ""
    for rows, flags in ((MESSAGES, ()), (PROFILE, ()), (WHOLE, ("--all",))):
        for digits, numbers, lines in rows:
            frame = bytes.fromhex(digits)
            wanted = line_of(1, frame, [field(line) for line in head(numbers) + lines])
            yield f"{digits} --json", run(program, frame, "--json", *flags) == (0, wanted, b"")
    for digits, sentence, flags in SENTENCES:
        yield f"{sentence} --json", json.loads(run(program, bytes.fromhex(digits), "--json", *flags)[1])["fault"] == told(sentence)


def id_of(frame):
    """Returns the id that octets 6 to 9 of a frame spell."""
    return int.from_bytes(frame[6:10], "big")


def only_results(program):
    """With --only: the frames of the id are printed as they are without it, and the others print nothing and count."""
    frames = [bytes.fromhex(row[0]) for row in (*FAULTS, *MESSAGES)]
    stream = b"".join(frames)
    for flags in ((), ("--json",)):
        # what is printed of each frame, whose number is that of its place
        printed = []
        for end in range(1, len(frames) + 1):
            whole = run(program, b"".join(frames[:end]), *flags)[1]
            printed.append(whole.removeprefix("".join(printed)))
        for wanted in sorted({id_of(frame) for frame in frames}):
            alone = "".join(part for part, frame in zip(printed, frames) if id_of(frame) == wanted)
            for way, given in (((), stream), (("--hex",), stream.hex().encode())):
                got = run(program, given, "--only", str(wanted), *flags, *way)
                yield f"--only {wanted} {flags} {way}", alone != "" and got == (1, alone, b"")
    first, second = bytes.fromhex("083E0000000A00000007"), bytes.fromhex("083E0000000AFFFFFFFF")
    both = [text(1, first, head((0, 2, 62, 10, 7))), text(2, second, head((0, 2, 62, 10, 4294967295)))]
    faulty = bytes.fromhex("0C3E0000000A00000005")
    for digits, line, told_line in ENDS:
        end = bytes.fromhex(digits)
        status = 1 if digits else 0
        for number, wanted in (("7", both[0]), ("4294967295", both[1]), ("007", both[0]), ("0", ""), ("8", "")):
            got = run(program, first + second + end, "--only", number)
            yield f"--only {number}, end {digits}", got == (status, wanted + line, b"")
        got = run(program, first + end, "--only", "8", "--json")
        yield f"--only 8 --json, end {digits}", got == (status, told_line, b"")
        got = run(program, first + faulty + second + end, "--only", "7")
        yield f"the status of all frames, end {digits}", got == (1, both[0] + line, b"")
    version = text(2, faulty, ["then, refused:", "0 3 0 reserved 0", "3 3 0 Version 3"]) + "fault at bit 3, octet 0: Version: 3, not 1 or 2\n"
    yield "the id of a refused header", run(program, first + faulty, "--only", "5") == (1, version, b"")
    yield "an odd digit", run(program, first.hex().encode() + b"0", "--only", "7", "--hex") == (1, both[0], b"llrp: hex\n")
    refused = (("4294967296", "4294967296 is not in 0..=4294967295"), ("-1", "-1 is not in 0..=4294967295"),
        ("x7", "invalid digit found in string"), ("0x7", "invalid digit found in string"), ("", "cannot parse integer from empty string"))
    for word, reason in refused:
        said = f"error: invalid value '{word}' for '--only <ID>': {reason}\n\nFor more information, try '--help'.\n"
        got = run(program, first, f"--only={word}")
        yield f"--only={word}: {got}", got == (2, "", said.encode())


def is_prompt(program, given, wanted, *flags):
    """Whether this is printed of the octets before the input ends."""
    with subprocess.Popen([program, "explain", *flags], stdin=subprocess.PIPE, stdout=subprocess.PIPE) as running:
        running.stdin.write(given)
        running.stdin.flush()
        got = running.stdout.read(len(wanted))
        running.stdin.close()
        return got == wanted and running.stdout.read() == b"" and running.wait(60) == 0


def in_pieces(program, pieces, *flags):
    """Returns the status, what is printed and the error lines of an input that comes in these pieces, each after a rest."""
    with subprocess.Popen([program, "explain", *flags], stdin=subprocess.PIPE, stdout=subprocess.PIPE, stderr=subprocess.PIPE) as running:
        for piece in pieces:
            running.stdin.write(piece)
            running.stdin.flush()
            time.sleep(REST)
        out, error = running.communicate(timeout=60)
        return running.returncode, out.decode(), error


def refused_at_once(program, given):
    """Returns the status, what is printed and the error lines where the input does not end."""
    with subprocess.Popen([program, "explain", "--hex"], stdin=subprocess.PIPE, stdout=subprocess.PIPE, stderr=subprocess.PIPE) as running:
        running.stdin.write(given)
        running.stdin.flush()
        status = running.wait(60)
        return status, running.stdout.read().decode(), running.stderr.read()


def memory_of_long(program, line, count):
    """Returns the status of the digits of a frame, this many times, and the most memory in kilobytes that it took."""
    with subprocess.Popen(["sh", "-c", f"yes {line} | head -n {count}"], stdout=subprocess.PIPE) as lines:
        with subprocess.Popen([program, "explain", "--hex"], stdin=lines.stdout, stdout=subprocess.DEVNULL) as running:
            _, status, used = os.wait4(running.pid, 0)
            running.returncode = os.waitstatus_to_exitcode(status)
            return running.returncode, used.ru_maxrss


def hex_results(program):
    """With --hex: digits are read piece by piece, and where they are refused the frames before are printed."""
    first, second = "083E0000000A00000007", "083e0000000a0000 0008"
    frames = [bytes.fromhex(first), bytes.fromhex(second)]
    written = [text(n, frame, head((0, 2, 62, 10, 6 + n))) for n, frame in enumerate(frames, 1)]
    both = "".join(written)
    spaced = f" {first[:1]}\t{first[1:]}\r\n{second}\n"
    yield "digits one by one", in_pieces(program, [bytes([it]) for it in spaced.encode()], "--hex") == (0, both, b"")
    for at in range(1, len(first), 3):
        given = [first[:at].encode(), first[at:].encode() + second.encode()]
        yield f"digits cut after {at}", in_pieces(program, given, "--hex") == (0, both, b"")
        yield f"digits cut after {at}, --only", in_pieces(program, given, "--hex", "--only", "8") == (0, written[1], b"")
    objects = "".join(line_of(n, frame, [field(line) for line in head((0, 2, 62, 10, 6 + n))]) for n, frame in enumerate(frames, 1))
    yield "digits one by one, --json", in_pieces(program, [bytes([it]) for it in spaced.encode()], "--hex", "--json") == (0, objects, b"")
    yield "a frame before the digits end", is_prompt(program, first.encode(), written[0].encode(), "--hex")
    refused = (1, both, b"llrp: hex\n")
    for end in ("0", " 0 \n", "083E0000000A0000000"):
        yield f"an odd digit after two frames: {end!r}", run(program, (first + second + end).encode(), "--hex") == refused
    for wrong in ("x", "08g", "083E0000000A0000000x7", ":0", "\f", "\0"):
        yield f"a wrong digit after two frames: {wrong!r}", run(program, (first + second + wrong + first).encode(), "--hex") == refused
    yield "a wrong digit before the input ends", refused_at_once(program, (first + second + "0x").encode()) == refused
    yield "a wrong digit first", run(program, ("x" + first).encode(), "--hex") == (1, "", b"llrp: hex\n")
    broken = (1, both + "! BROKEN\n", b"")
    yield "a break before a wrong digit", run(program, (first + second + "043E0000000900000007x").encode(), "--hex") == broken
    yield "digits of half a frame", run(program, (first + second + "08 3").encode() + b"E", "--hex") == (1, both + "? 2\n", b"")
    yield "white space alone", run(program, b" \t\r\n", "--hex") == (0, "", b"")
    status, memory = memory_of_long(program, first, LINES_OF_LONG)
    yield f"50 MB of digits in {memory} kB", status == 0 and memory < MOST_MEMORY


def results(program):
    for digits, numbers, lines, refused, reason, bit, octet in FAULTS:
        frame = bytes.fromhex(digits)
        limit = ("--limit", "20") if reason == "MessageLength" else ()
        for flags in ((), ("--all",)):
            status, out, error = run(program, frame, *flags, *limit)
            yield f"{reason} {flags}", status == 1 and error == b"" and is_fault(out, frame, numbers, lines, refused, reason, bit, octet)
    for rows, sets in ((MESSAGES, ((), ("--all",))), (PROFILE, ((),)), (WHOLE, (("--all",),))):
        for digits, numbers, lines in rows:
            frame = bytes.fromhex(digits)
            wanted = (0, text(1, frame, head(numbers) + lines), b"")
            for flags in sets:
                yield f"{digits} {flags}", run(program, frame, *flags) == wanted
                yield f"{digits} --hex {flags}", run(program, digits.encode(), "--hex", *flags) == wanted
    for digits, sentence, flags in SENTENCES:
        yield sentence, run(program, bytes.fromhex(digits), *flags)[1].splitlines()[-1] == sentence
    first = bytes.fromhex("083E0000000A00000007")
    second = bytes.fromhex("083E0000000A00000008")
    both = text(1, first, head((0, 2, 62, 10, 7))) + text(2, second, head((0, 2, 62, 10, 8)))
    objects = "".join(line_of(n, frame, [field(line) for line in head((0, 2, 62, 10, 6 + n))]) for n, frame in ((1, first), (2, second)))
    for digits, line, told_line in ENDS:
        given = first + second + bytes.fromhex(digits)
        yield f"end {digits}", run(program, given) == (1 if digits else 0, both + line, b"")
        yield f"end {digits} --json", run(program, given, "--json") == (1 if digits else 0, objects + told_line, b"")
    yield from json_results(program)
    yield from only_results(program)
    yield from hex_results(program)
    yield "a frame before the input ends", is_prompt(program, first, text(1, first, head((0, 2, 62, 10, 7))).encode())
    last = text(2, first, head((0, 2, 62, 10, 7))).encode()
    yield "a frame before the input ends, with --only", is_prompt(program, second + first, last, "--only", "7")
    yield "odd digits", run(program, b"083", "--hex") == (1, "", b"llrp: hex\n")


def main():
    return finish_results(list(results(program_given())), LEAST)


if __name__ == "__main__":
    sys.exit(main())
