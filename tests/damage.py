#!/usr/bin/env python3
"""Reads frames that were cut or damaged, in pieces and octet by octet, and malicious nests. Of all of LLRP 1.1, the frames of
each row, lawful ones cut anywhere and damaged ones octet by octet.

usage: tests/damage.py [PROGRAM]

PROGRAM is that of the crate `test_damaged_frames`, in its folder out/, where none is given. The last line is `N passed, M failed`;
the status is 1 if something failed.
"""
import subprocess
import sys

from parts.counting import finish
from parts.damages import damaged_cases
from parts.frames import lawful_cases
from parts.repository import program_given
from parts.vectors import octets_of, vectors

# Frames up to this length are cut and changed at each octet, longer ones cut at this many places at each end.
LONGEST = 100
PLACES = 40
# How many rows there are, and how many of all of LLRP 1.1.
LEAST = 370 + 40400


def header(kind, octets, number):
    """Returns the header of a message of LLRP 1.1 (version 2)."""
    return (2 << 10 | kind).to_bytes(2, "big") + octets.to_bytes(4, "big") + number.to_bytes(4, "big")


def parameter(kind, body):
    return kind.to_bytes(2, "big") + (4 + len(body)).to_bytes(2, "big") + body


def nested_errors(count):
    """Returns an ERROR_MESSAGE whose LLRPStatus has this many ParameterErrors, each in the one before."""
    inner = b""
    for _ in range(count):
        inner = parameter(289, octets_of("0001 0002") + inner)
    status = parameter(287, octets_of("0000 0000") + inner)
    return header(100, 10 + len(status), 9) + status


def longest_parameter():
    """Returns a report of 65,544 octets: a TagReportData of EPC-96 and 21,839 C1G2-CRC."""
    tag = parameter(240, octets_of("8D 3074257BF7194E4000001A85") + octets_of("8B1D0F") * 21839)
    return header(61, 10 + len(tag), 1) + tag


def report(*tags):
    """Returns a RO_ACCESS_REPORT of tags, each of which is the octets of its parameters."""
    data = b"".join(parameter(240, tag) for tag in tags)
    return header(61, 10 + len(data), 1) + data


def longest_message(more=0):
    """Returns a report of 1,048,576 octets, and this many tags more."""
    epc = octets_of("8D 3074257BF7194E4000001A85")
    return report(*[epc] * (61677 + more), *[epc + octets_of("86C4")] * 3)


def reports():
    """Yields the name and the octets of long reports: one of 64 tags, and one of 65,536 octets."""
    epc = octets_of("8D 3074257BF7194E4000001A85")
    yield "a report of 64 tags", report(*[epc + octets_of("810001 86C4")] * 64)
    yield "a report of 65,536 octets", report(*[epc] * 3850, *[epc + octets_of("86C4")] * 4)


def unknown_parameter():
    """Returns a report of 65,536 octets whose first parameter is of no known type."""
    return header(61, 65536, 1) + octets_of("00BB0004") + bytes(65522)


def places(octets):
    """Returns at how many places a stream of this many octets is cut into two."""
    return max(octets - 1, 0) if octets <= LONGEST else 2 * PLACES


def rows():
    """Returns a name, what to do with a stream, the stream, and what it holds, where that is said."""
    for it in vectors():
        yield it.name, "same", it.stream, None
        yield it.name, "pieces", it.stream, f"{places(len(it.stream))} places"
        if it.is_lawful and len(it.frames) == 1 and len(it.stream) <= LONGEST:
            yield it.name, "cuts", it.stream, None
            yield it.name, "changes", it.stream, None
    for name, octets in reports():
        yield name, "same", octets, "message, Clean"
        yield name, "pieces", octets, f"{2 * PLACES} places"
    yield "a parameter of no known type", "same", unknown_parameter(), "1 86 ParamType, Clean"
    yield "a parameter of no known type", "pieces", unknown_parameter(), f"{2 * PLACES} places"
    yield "the deepest nest", "same", nested_errors(15), "message, Clean"
    yield "the deepest nest", "cuts", nested_errors(15), None
    yield "the deepest nest", "changes", nested_errors(15), None
    yield "a nest that is too deep", "same", nested_errors(16), "9 1104 TooDeep, Clean"
    yield "the longest parameter", "same", longest_parameter(), "message, Clean"
    yield "the longest message", "same", longest_message(), "message, Clean"
    yield "a message over the limit", "same", longest_message(1), "1 16 MessageLength, Clean"
    huge = header(61, 4294967295, 1) + header(62, 10, 7)
    yield "a frame of 4,294,967,295 octets", "same", huge, f"Rest({len(huge)})"


def failure(what, octets, wanted, told):
    """Returns what is wrong with the lines that the program wrote for a row, or None."""
    wrong = [line for line in told if line.startswith("WRONG")]
    if wrong or not told:
        return (wrong or ["no answer"])[0]
    if wanted is not None and told != [f"{what} {wanted}"]:
        return f"{told} in place of {wanted}"
    if what == "cuts" and told != [f"cuts {len(octets)}"]:
        return f"{told} in place of {len(octets)} fronts"
    if what == "changes" and (len(told) != 1 or not told[0].startswith(f"changes {len(octets)} octets, ")):
        return f"{told} in place of changes of {len(octets)} octets"
    return None


def whole_rows():
    """Yields the same of frames of all of LLRP 1.1, with the line that the program has to write."""
    for case in lawful_cases():
        yield case.what, f"all pieces {case.frame.hex()}", f"pieces {places(len(case.frame))} places"
        yield case.what, f"all cuts {case.frame.hex()}", f"cuts {len(case.frame)}"
    for case in damaged_cases():
        fault = case.listing[0].removeprefix("! ") if case.listing[0].startswith("!") else "message"
        yield case.what, f"all same {case.frame.hex()}", f"same {fault}, Clean"


def whole_results(program):
    """Yields what was read of all of LLRP 1.1, all by one run, and whether it is right."""
    wanted = list(whole_rows())
    given = "".join(line + "\n" for _, line, _ in wanted)
    done = subprocess.run([program], input=given, capture_output=True, text=True, timeout=600)
    told = done.stdout.splitlines()
    yield f"all of LLRP 1.1: status {done.returncode}, {len(told)} lines of {len(wanted)}", (done.returncode, len(told)) == (0, len(wanted))
    for (name, line, right), found in zip(wanted, [*told, *[""] * len(wanted)]):
        yield f"{name}, {line[:300]}: {found} in place of {right}", found == right


def main():
    program = program_given("test_damaged_frames")
    passed = failed = 0
    for name, what, octets, wanted in rows():
        line = f"{what} {octets.hex()}\n"
        done = subprocess.run([program], input=line, capture_output=True, text=True, timeout=600)
        told = done.stdout.splitlines()
        wrong = f"status {done.returncode}" if done.returncode else failure(what, octets, wanted, told)
        if wrong:
            failed += 1
            print(f"WRONG: {name}, {what}: {wrong[:300]}")
        else:
            passed += 1
            print(f"{name}: {told[0][:100]}")
    for what, is_right in whole_results(program):
        if is_right:
            passed += 1
        else:
            failed += 1
            print(f"WRONG: {what}")
    return finish(passed, failed, LEAST)


if __name__ == "__main__":
    sys.exit(main())
