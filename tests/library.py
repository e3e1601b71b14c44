#!/usr/bin/env python3
"""Builds the example for C over the library, and runs it and the package for Python on the rows of the tests and on a capture; calls each
function through the header; compares docs/llrp.3 with the header; and compiles the C that README.md, docs/library.md, docs/llrp.3 and the
library's own page show.

usage: tests/library.py [PROGRAM]

PROGRAM is bench_calls, crates/bench_calls/out/bench_calls where none is given. It needs cc, c++, ar, nm and objcopy beside the toolchain's
command rt. The last line is `N passed, M failed`; the status is 1 if something failed.
"""
import dataclasses
import json
import os
import re
import subprocess
import sys
import tempfile

import explain
import json_lines
from parts.captures import payloads
from parts.counting import finish_results, snippet, text_of
from parts.frames import lawful_cases
from parts.refusing import build_library
from parts.repository import TOP, program_given
from parts.refusing import run as run_refused
from parts.rows import digits_of, rows_in
from parts.vectors import vectors

sys.path.insert(0, os.path.join(TOP, "python"))
from llrp_epc import Llrp, Refused, _library  # noqa: E402  (the package of this checkout)

CFLAGS = ["-std=c11", "-Wall", "-Wextra", "-Wpedantic", "-Werror", "-g", "-fsanitize=address,undefined", "-fno-sanitize-recover=all"]
HEADER = "include/llrp.h"
# How many frames are listed by one call.
FRAMES_AT_ONCE = 4000
# How many cases there are: the functions of the header, the rows of the tests' tables, and what is compared of each.
LEAST = 1075
# How the header writes a parameter of the library's source, without `alloc`, which the toolchain passes.
IN_C = {
    "&[u8]": "const uint8_t *{0}, size_t {0}_length",
    "&mut usize": "size_t *{0}",
    "&mut u32": "uint32_t *{0}",
    "&mut u64": "uint64_t *{0}",
    "&mut [Tag]": "struct llrp_tag *{0}, size_t {0}_room",
    "u32": "uint32_t {0}",
}
RESULTS = {"u32": "uint32_t", "usize": "size_t"}
# What the programs of the crate bench_calls print for words and a text: two tags, the second without a tag URI; two frames, and one.
PROGRAMS = [
    (
        ["texts"],
        "3074257BF7194E4000001A85\n3003A3529440000000000000\n",
        "urn:epc:tag:sgtin-96:3.0614141.812345.6789\nurn:epc:raw:96.x3003A3529440000000000000\n",
    ),
    (
        ["stream", "2", "3"],
        "043D0000001B0000000100F000118D3074257BF7194E4000001A85083E0000000A00000002\n",
        "2 items 2 times and 2 frames 3 times\n",
    ),
    (
        ["tree", "2", "3"],
        "043D0000001B0000000100F000118D3074257BF7194E4000001A85\n",
        "27 octets decoded 2 times and encoded 3 times\n",
    ),
]


def build(folder, source_file):
    """Builds a program for C over the library, and returns its path."""
    program = os.path.join(folder, os.path.basename(source_file).removesuffix(".c"))
    words = ["cc", *CFLAGS, "-I", "include", source_file, "out/libllrp_c.a", "-o", program]
    subprocess.run(words, cwd=TOP, check=True)
    return program


def declarations():
    """Returns how the header declares each function of the library's source."""
    text = "".join(text_of(f"crates/llrp_c/src/{name}") for name in sorted(os.listdir(os.path.join(TOP, "crates/llrp_c/src"))))
    declared = []
    for name, parameters, result in re.findall(r'pub extern "C" fn (\w+)\(([^)]*)\) -> (\w+)', text):
        pairs = re.findall(r"(\w+): ([^,]+?)(?:,|$)", parameters.strip())
        words = []
        for parameter, kind in pairs:
            if kind == "&mut [u8]":
                room = "length" if parameter == "word" else "room"
                words.append(f"uint8_t *{parameter}, size_t {parameter}_{room}")
            elif parameter != "alloc":
                words.append(IN_C[kind].format("status" if parameter == "code" else parameter))
        declared.append(f"{RESULTS[result]} {name}({', '.join(words)});")
    return declared


def checks_of_calls(folder):
    """Yields whether the header declares what the source has, and whether each function answers through it."""
    declared = declarations()
    yield "twenty-five functions", len(declared) == 25
    table = text_of("docs/library.md").split("| Function | What it does |")[1].split("\n\n")[0]
    rows = re.findall(r"(?m)^\| (`[^|]*`) \|", table)
    named = sorted(re.findall(r"llrp_\w+", "".join(rows)))
    yield "the functions of docs/library.md", named == sorted(re.search(r"llrp_\w+", it)[0] for it in declared)
    statuses = {it for page in ("docs/library.md", "docs/errors.md", "README.md") for it in re.findall(r"LLRP_[A-Z_]+", text_of(page))}
    there = set(re.findall(r"LLRP_[A-Z0-9_]+", text_of(HEADER)))
    yield f"the names of the header on the pages: {statuses - there}", statuses <= there
    found = re.findall(r"(?m)^\w+ llrp_\w+\(.*\);$", text_of(HEADER))
    yield "the header's declarations", sorted(found) == sorted(declared)
    status, out, err = run(build(folder, "tests/calls.c"))
    yield f"calls through the header: {out}{err}", (status, out, err) == (0, "84 passed, 0 failed\n", "")


def checks_of_manual(folder):
    """Yields whether docs/llrp.3 is what docs/manual.py writes of the header, declares the same functions, and has an example that works."""
    path, found = os.path.join(folder, "llrp.3"), text_of("docs/llrp.3")
    subprocess.run(["docs/manual.py", path], cwd=TOP, check=True, timeout=60)
    yield "docs/llrp.3 is written anew by docs/manual.py", text_of(path) == found
    parts = re.findall(r'(?m)^\.Ft (\w+)\n\.Fo (\w+)\n((?:\.Fa "[^"]*"\n)*)\.Fc$', found)
    declared = [f"{result} {name}({', '.join(parameters.split(chr(34))[1::2])});" for result, name, parameters in parts]
    yield "the declarations of docs/llrp.3", declared == re.findall(r"(?m)^\w+ llrp_\w+\(.*\);$", text_of(HEADER))
    pairs = re.findall(r"(?m)^\.It Dv (LLRP_\w+)\n(\d+)", found)
    yield "the numbers of docs/llrp.3", sorted(pairs) == sorted(re.findall(r"(?m)\b(LLRP_\w+)(?: =)? (\d+)\b", text_of(HEADER)))
    example = re.search(r"(?s)\.Bd -literal -offset indent\n(.*?)\.Ed", found)[1].replace("\\-", "-")
    yield "the example of docs/llrp.3", word_by_c(folder, '#include "llrp.h"', example) == (0, "0 3074257BF7194E4000001A85", "")


def checks_of_names():
    """Yields whether the libraries have the functions of the header, and no other name that programs see."""
    wanted = sorted(re.findall(r"(?m)^\w+ (llrp_\w+)\(", text_of(HEADER)))
    for words in (["nm", "-gj", "--defined-only", "out/libllrp_c.a"], ["nm", "-Dj", "--defined-only", "out/libllrp_c.so.0"]):
        found = subprocess.run(words, cwd=TOP, capture_output=True, text=True, timeout=60).stdout
        yield f"{' '.join(words)}\n{found}", sorted(re.findall(r"(?m)^\w+$", found)) == wanted


def checks_of_cpp(folder):
    """Yields whether C++ takes the header, twice in a file, and links the functions by their names in C."""
    path = os.path.join(folder, "twice.cc")
    with open(path, "w", encoding="utf-8") as file:
        file.write('#include "llrp.h"\n#include "llrp.h"\n')
        file.write("int main() { uint8_t room[LLRP_NAME_ROOM]; return (int)llrp_name(LLRP_OK, room, sizeof room) - 2; }\n")
    words = ["c++", "-Wall", "-Wextra", "-Werror", "-I", "include", path, "out/libllrp_c.a", "-o", os.path.join(folder, "twice")]
    done = subprocess.run(words, cwd=TOP, capture_output=True, text=True, timeout=60)
    yield f"C++ takes the header: {done.stderr}", done.returncode == 0 and run(os.path.join(folder, "twice")) == (0, "", "")


class Stub:
    """A library that has too little room at first, refuses a line above 2^32, and has no memory for a text, nor for all of LLRP 1.1."""

    LISTING, LINE = b"0 KEEPALIVE 2 7\n" * 100, 2**32 + 1

    def llrp_list(self, _stream, _length, room, length, used, written):
        written._obj.value = len(self.LISTING)
        if length < len(self.LISTING):
            return _library.ROOM
        room.raw, used._obj.value = self.LISTING.ljust(length, b"\0"), 10
        return _library.OK

    def llrp_encode(self, _listing, _length, _octets, length, written, line):
        if length < 5000:
            written._obj.value = 5000
            return _library.ROOM
        line._obj.value = self.LINE
        return 50

    def llrp_name(self, status, _name, _room):
        return 0

    def without_memory(self, *_):
        return _library.MEMORY

    def llrp_encode_json(self, _lines, _length, room, length, written, line, path, path_length, path_written):
        path_written._obj.value = 300
        if path_length == 300:
            path.raw, line._obj.value = b"a" * 300, self.LINE
        return 97

    llrp_word_of_text = llrp_list_all = llrp_list_json_all = llrp_explain_all = llrp_encode_all = llrp_encode_json_all = without_memory


def runs_out_of_memory(call, *arguments, **how):
    """Returns whether a call ends with MemoryError."""
    try:
        call(*arguments, **how)
    except MemoryError:
        return True
    except (Refused, AttributeError):
        return False  # (another answer, or a call of another function)
    return False


def checks_of_binding(llrp):
    """Yields whether the package for Python calls again with more room, and keeps the number of a line whole."""
    real, llrp.library = llrp.library, Stub()
    yield "more room for a listing", llrp.list(b"\x08") == (Stub.LISTING.decode(), 10, True)
    yield "a line above 2^32", refused(llrp.encode, "") == ("", Stub.LINE)
    yield "more room for a path", refused(llrp.pack, []) == ("", Stub.LINE)
    for call, argument in ((llrp.list, b""), (llrp.messages, b""), (llrp.explain, b""), (llrp.encode, ""), (llrp.pack, [])):
        yield f"{call.__name__} without memory", runs_out_of_memory(call, argument, all=True)
    yield "word_of_text without memory", runs_out_of_memory(llrp.word_of_text, "")
    llrp.library = real
    for name, status in (("OK", 0), ("FAULTY", 1), ("BROKEN", 2), ("ROOM", 3), ("MEMORY", 7), ("HEADER", 16), ("ZEROS", 20), ("CODE", 22)):
        is_right = getattr(_library, name) == status and re.search(rf"(?m)^    LLRP_{name} = {status},", text_of(HEADER))
        yield f"the package's {name}", is_right is not None
    for name in ("WORD_OCTETS", "TEXT_ROOM", "NAME_ROOM", "MOST_OCTETS", "TAG_WORD", "TAG_ANTENNA", "TAG_RSSI", "TAG_FIRST_SEEN", "TAG_COUNT"):
        yield f"the package's {name}", f"#define LLRP_{name} {getattr(_library, name)}\n" in text_of(HEADER)


def checks_of_whole(llrp):
    """Yields whether all=True takes each message of LLRP 1.1, and without it those of the profile alone are taken."""
    cases = list(lawful_cases())
    for at in range(0, len(cases), FRAMES_AT_ONCE):
        part = cases[at : at + FRAMES_AT_ONCE]
        stream, listing = b"".join(it.frame for it in part), "".join(line + "\n" for it in part for line in it.listing)
        yield f"frames from {at} on: listing", llrp.list(stream, all=True) == (listing, len(stream), True)
        objects = [json.loads(line) for line in json_lines.lines_of(json_lines.WHOLE, listing)]
        yield f"frames from {at} on: messages", llrp.messages(stream, all=True) == (objects, len(stream))
        yield f"frames from {at} on: octets", llrp.encode(listing, all=True) == stream
        yield f"frames from {at} on: octets of messages", llrp.pack(objects, all=True) == stream
    custom = bytes.fromhex("0BFF0000001000000007 0000651A 25AA")
    yield "a CUSTOM_MESSAGE in the profile", llrp.list(custom) == ("! 7 6 MessageType\n", len(custom), False)
    yield "its object in the profile", llrp.messages(custom) == ([{"fault": "MessageType", "id": 7, "bit": 6}], len(custom))
    yield "its listing in the profile", refused(llrp.encode, "0 CUSTOM_MESSAGE 2 7 25882 37 xaa\n") == ("Name", 1)


def run(program, *words, given=b""):
    done = subprocess.run([program, *words], input=given, capture_output=True, timeout=60)
    return done.returncode, done.stdout.decode(), done.stderr.decode()


def texts_and_lines():
    """Returns the texts of the rows of `epc`, and the lines that are printed of each."""
    return [(bytes.fromhex(it.words[0]).decode(), bytes.fromhex(digits_of(it.wanted[1])).decode().splitlines()) for it in rows_in("epc")]


def tags():
    """Returns the words with a tag URI of the tests' rows, and those texts."""
    rows = [(text, lines[0]) for text, lines in texts_and_lines() if lines[0].startswith("urn:epc:tag:")]
    return [(digits, text) for digits, text in rows if digits == digits.upper()]


def raw_words():
    """Returns the words without a tag URI of the tests' rows, with their raw URI, the part that fails and its bit."""
    return [(digits, lines[0], *lines[1].split()[1:]) for digits, lines in texts_and_lines() if lines[0].startswith("urn:epc:raw:")]


def refused_texts():
    """Returns the texts that the tests' rows have refused, and the rules."""
    return [(text, lines[0].removeprefix("! ")) for text, lines in texts_and_lines() if lines[0].startswith("! ")]


def checks_of_header(llrp):
    """Yields whether the header's constants are the definitions' codes, and whether their names are those of docs/errors.md."""
    named = dict(re.findall(r"(?m)^    LLRP_([A-Z0-9_]+) = (\d+)", text_of(HEADER)))
    rows = re.findall(r"(?m)^(word|uri|node|key|json|\w*)_?code(?:_of)? (?:\w+\.)?(\w+) = (\d+)$", text_of("crates/llrp_c/specs/Status.antt"))
    codes = {(f"{kind}_" if kind in ("node", "key", "json") else "") + name: code for kind, name, code in rows}
    spelled = {re.sub(r"(?<=[a-z])(?=[A-Z])", "_", name).upper().replace("DONE", "OK"): code for name, code in codes.items()}
    yield "the header has each code", spelled == named
    for name, code in named.items():
        words = re.sub("^(NODE|KEY|JSON)_", "", name).title().replace("_", "")
        yield f"name of {name}", llrp.name(int(code)) == (f"Node {words}" if name.startswith("NODE_") else words)
    yield "no other status has a name", [code for code in range(256) if llrp.name(code)] == sorted(map(int, named.values()))


def checks_of_tags(llrp, program):
    """Yields whether each word and its text are each other's, by both examples."""
    # (a word and its text are a row each, and one word is there in lower case)
    counts = 2 * len(tags()) + 2 * len(raw_words()) + len(refused_texts()) + 1
    yield "all rows are found", counts == len(texts_and_lines()) and min(len(raw_words()), len(refused_texts())) > 0
    for digits, text in tags():
        word = bytes.fromhex(digits)
        yield f"text of {digits}", llrp.text_and_fault(word) == (text, None)
        yield f"word of {text}", llrp.word_of_text(text) == word
        yield f"C: word of {text}", run(program, text) == (0, f"{digits} {text}\n", "")
    for digits, text, part, bit in raw_words():
        yield f"text of {digits}", llrp.text_and_fault(bytes.fromhex(digits)) == (text, (part, int(bit)))
        yield f"C: word of {text}", run(program, text) == (0, f"{digits} {text}\n", "")
    for text, rule in refused_texts():
        yield f"refusal of {text}", refused(llrp.word_of_text, text) == (rule, 0)
        yield f"C: refusal of {text}", run(program, text) == (1, f"! {rule}\n", "")


def refused(call, argument):
    """Returns the name and the line of a refusal."""
    try:
        call(argument)
    except Refused as refusal:
        return refusal.name, refusal.line
    return None


def whole(stream):
    """Returns the octets of a stream's whole frames, as their length fields say."""
    at = 0
    while at + 6 <= len(stream):
        length = int.from_bytes(stream[at + 2 : at + 6], "big")
        if length < 10 or at + length > len(stream):
            break
        at += length
    return at


def checks_of_streams(llrp, program):
    """Yields whether the conformance vectors are listed and encoded as their rows say."""
    for name, stream, listing in vectors():
        lines = listing.splitlines(keepends=True)
        rest = [line for line in lines if line.startswith("?")]
        frames = "".join(line for line in lines if line not in rest)
        broken = "! BROKEN\n" in lines
        lawful = not any(line.startswith("!") for line in lines)
        used = len(stream) if broken else whole(stream)
        yield f"{name}: listing", llrp.list(stream) == (frames, used, lawful)
        yield f"{name}: messages", llrp.messages(stream) == ([json.loads(line) for line in json_lines.lines_of(json_lines.PROFILE, frames)], used)
        yield f"{name}: length", broken or llrp.frame_length(stream) == (int.from_bytes(stream[2:6], "big") if len(stream) >= 6 else 0)
        if lawful and not rest:
            yield f"{name}: octets", llrp.encode(listing) == stream
            yield f"{name}: octets of messages", llrp.pack(llrp.messages(stream)[0]) == stream
        yield f"C: {name}", run(program, given=stream) == (0 if lawful and not rest else 1, listing, "")


def checks_of_refusals(llrp):
    """Yields whether listings are refused with their line and reason, and what is too small or wrong is refused."""
    for listing, reason in (
        ("0 KEEPALIVE 2 7\n0 KEEPALIV 2 7\n", ("Name", 2)),
        ("0 KEEPALIVE 2 7", ("Line", 1)),
        ("0 RO_ACCESS_REPORT 1 1\n1 TagReportData\n", ("Node Missing", 2)),
        ("0 RO_ACCESS_REPORT 1 1\n1 TagReportData\n2 EPC-96 urn:epc:tag:sgtin-96:3.0614141.812345.007\n", ("LeadingZero", 3)),
    ):
        yield f"refusal {reason}", refused(llrp.encode, listing) == reason
    yield "a word of eleven octets", refused(llrp.text_of_word, bytes(11)) == ("Length", 0)
    yield "a stream after a break", llrp.list(bytes.fromhex("083E0000000900000007") + bytes(5000))[0] == "! BROKEN\n"
    yield "a break", refused(llrp.frame_length, bytes.fromhex("083E0000000900000007")) == ("Broken", 0)
    yield "many frames", llrp.list(bytes.fromhex("083E0000000A00000007") * 3000)[1:] == (30000, True)
    yield "octets in a larger room", llrp.encode("0 KEEPALIVE 2 7\n" * 3000) == bytes.fromhex("083E0000000A00000007") * 3000


def checks_of_explaining(llrp):
    """Yields whether the fields of frames, lawful and not, are those that the rows of tests/explain.py have."""
    for digits, numbers, lines, refused_lines, reason, bit, octet in explain.FAULTS:
        # (the row of a limit is one of the command)
        if reason != "MessageLength":
            frame = bytes.fromhex(digits)
            for whole in (False, True):
                written = llrp.explain(frame, all=whole)
                yield f"explain {digits}, {whole}", explain.is_fault(written, frame, numbers, lines, refused_lines, reason, bit, octet)
    for rows, wholes in ((explain.MESSAGES, (False, True)), (explain.WHOLE, (True,))):
        for digits, numbers, lines in rows:
            frame = bytes.fromhex(digits)
            for whole in wholes:
                yield f"explain {digits}, {whole}", llrp.explain(frame, all=whole) == explain.text(1, frame, explain.head(numbers) + lines)
    for digits, line, _ in explain.ENDS:
        frame = bytes.fromhex("083E0000000A00000007")
        yield f"explain an end {digits}", llrp.explain(frame + bytes.fromhex(digits)) == explain.text(1, frame, explain.head((0, 2, 62, 10, 7))) + line
    many = bytes.fromhex("083E0000000A00000007") * 3000
    yield "explain many frames", llrp.explain(many).count("MessageID 7\n") == 3000


def lawful_messages():
    """Yields the frame and the listing of each message of the tests' tables whose stream has nothing else."""
    rows = [(it.frame, [line + "\n" for line in it.listing]) for it in lawful_cases()]
    rows += [(stream, listing.splitlines(keepends=True)) for _, stream, listing in vectors() if not re.search("(?m)^[!?]", listing)]
    for stream, lines in rows:
        starts = [at for at, line in enumerate(lines) if line.startswith("0 ")]
        for first, end in zip(starts, [*starts[1:], len(lines)]):
            length = int.from_bytes(stream[2:6], "big")
            yield stream[:length], lines[first:end]
            stream = stream[length:]


def tags_of_listing(lines):
    """Yields what the listing of a message says of each tag, by the words of its lines: all but the word."""
    for report in re.findall(r"(?m)^1 TagReportData\n((?:[2-9] .*\n)*)", "".join(lines)):
        said = dict(re.findall(r"(?m)^2 (\S+) (.*)$", report))
        numbers = (int(said[name]) if name in said else None for name in ("AntennaID", "PeakRSSI", "FirstSeenTimestampUTC", "TagSeenCount"))
        yield (said.get("EPC-96"), *numbers)


def line_of_tag(text, antenna, rssi, *_):
    """Returns how the example in C prints a tag."""
    words = (text or "-", f" antenna {antenna}" if antenna is not None else "", f" {rssi} dBm" if rssi is not None else "")
    return "".join(words) + "\n"


def checks_of_reports(llrp, folder):
    """Yields whether the tags of messages are those that their listings have, and whether the example in C prints them."""
    program, stream, lines = build(folder, "examples/c/seen.c"), b"", []
    for frame, listing in lawful_messages():
        wanted, found = list(tags_of_listing(listing)), llrp.tags(frame)
        stream, lines = stream + frame, lines + [line_of_tag(*it) for it in wanted]
        if wanted or found:
            words = [it.word in frame if it.text else it.word is None for it in found]
            yield f"tags of {listing}", [dataclasses.astuple(it)[1:] for it in found] == wanted and all(words)
    yield "messages have tags", len(lines) > 20
    yield "C: tags of a stream", run(program, given=stream) == (0, "".join(lines), "")
    yield "C: tags of a stream that is cut", run(program, given=stream + bytes(5)) == (1, "".join(lines), "")
    fault, broken = bytes.fromhex("083E0000000B0000000700"), bytes.fromhex("083E0000000900000007")
    yield "C: tags after a fault", run(program, given=fault + stream) == (1, "".join(["! 7 80 Extra\n", *lines]), "")
    yield "C: tags before a break", run(program, given=stream + broken + stream) == (1, "".join([*lines, "! BROKEN\n"]), "")
    for octets, name in ((frame[:-1], "Length"), (frame + bytes(1), "Length"), (b"", "Length"), (fault, "Faulty")):
        yield f"tags of what is {name}", refused(llrp.tags, octets) == (name, 0)


def checks_of_example(folder):
    """Yields whether the example in C stops at a break, whatever follows, and ends with status 3 where a request for memory is refused."""
    plain = os.path.join(folder, "plain")
    subprocess.run(["cc", "-std=c11", "-I", "include", "examples/c/tags.c", "out/libllrp_c.a", "-o", plain], cwd=TOP, check=True)
    frame, broken = bytes.fromhex("083E0000000A00000007"), bytes.fromhex("083E0000000900000007")
    listed = f"0 KEEPALIVE 2 7\n! BROKEN\n"
    yield "C: a break and what follows it", run(plain, given=frame + broken + frame * 1000) == (1, listed, "")
    library, stream = build_library(folder), frame * 500
    ample = run_refused(library, plain, [], "0", stream, whole=True)
    yield "C: with memory", ample.status == 0 and ample.requests > 4
    ends = [run_refused(library, plain, [], f"{number}..", stream, whole=True) for number in range(1, ample.requests + 1)]
    yield "C: each request for memory refused", all(it.answer == ample.answer or it.status == 3 and ample.out.startswith(it.out) for it in ends)
    yield "C: the first request for memory refused", ends[0].status == 3


def checks_of_capture(llrp, program):
    """Yields whether both ways of a capture are listed, however the segments cut the frames."""
    for port, first in ((True, "0 READER_EVENT_NOTIFICATION 1 1"), (False, "0 ADD_ROSPEC 1 1")):
        stream = b"".join(data for source_port, data in payloads("examples/inventory.pcap") if (source_port == 5084) == port)
        listing, used, lawful = llrp.list(stream)
        yield f"capture, {first}", lawful and used == len(stream) and listing.startswith(first + "\n")
        yield f"C: capture, {first}", run(program, given=stream) == (0, listing, "")
        yield f"capture and back, {first}", llrp.encode(listing) == stream
        yield f"capture and back by JSON, {first}", llrp.pack(llrp.messages(stream)[0]) == stream


def checks_of_programs():
    """Yields whether the example of docs/library.md, and the programs beside it, print what they should."""
    for words, given, wanted in PROGRAMS:
        found = run(program_given("bench_calls"), *words, given=given.encode())
        yield f"bench_calls {words[0]}: {found}", found == (0, wanted, "")


def checks_of_documents(folder):
    """Yields whether docs/library.md shows the code that the gate builds, and the C that it and README.md show compiles and runs."""
    shown = re.findall(r"(?s)```rust\n(.*?)```", text_of("docs/library.md"))
    yield "the code of docs/library.md", shown == [text_of("crates/bench_calls/src/texts.rt")]
    yield from checks_of_programs()
    yield from checks_of_c(folder)


def word_by_c(folder, include, body):
    """Returns how lines of C end that set `status` and `word`, and what these are then."""
    path = os.path.join(folder, "snippet.c")
    with open(path, "w", encoding="utf-8") as file:
        file.write(f"{include}\n#include <stdio.h>\n#include <string.h>\nint main(void) {{\n{body}")
        file.write('printf("%u ", status);\nfor (int i = 0; i < 12; i++) printf("%02X", word[i]);\nreturn 0;\n}\n')
    return run(build(folder, path))


def checks_of_c(folder):
    """Yields whether the C of README.md and of the library's own page gives the word, and the commands of docs/library.md do as it
    says."""
    wanted = (0, "0 3074257BF7194E4000001A85", "")
    include, body = snippet("README.md", "In C:").split("\n", 1)
    yield "the C of README.md", word_by_c(folder, include, body) == wanted
    text = 'const uint8_t text[] = "urn:epc:tag:sgtin-96:3.0614141.812345.6789";\nconst size_t text_length = sizeof text - 1;\n'
    page = re.search(r"(?ms)^//! ```c\n(.*?)^//! ```$", text_of("crates/llrp_c/src/lib.rt"))[1]
    yield "the C of crates/llrp_c", word_by_c(folder, include, text + re.sub(r"(?m)^//! ", "", page)) == wanted
    commands = snippet("docs/library.md", "### From C").splitlines()
    yield "the commands of docs/library.md", len(commands) == 3
    wanted = ["", "3074257BF7194E4000001A85 urn:epc:tag:sgtin-96:3.0614141.812345.6789\n", text_of("examples/report.txt")]
    subprocess.run(["rm", "-f", "out/tags"], cwd=TOP, check=True)
    for command, text in zip(commands, wanted):
        done = subprocess.run(["bash", "-o", "pipefail", "-c", command], cwd=TOP, capture_output=True, text=True, timeout=600)
        yield command, (done.returncode, done.stdout, done.stderr) == (0, text, "")


def main():
    subprocess.run([os.path.join(TOP, "library.sh")], check=True)
    with tempfile.TemporaryDirectory() as folder:
        program = build(folder, "examples/c/tags.c")
        llrp = Llrp(os.path.join(TOP, "out/libllrp_c.so.0"))
        results = [
            *checks_of_calls(folder),
            *checks_of_names(),
            *checks_of_manual(folder),
            *checks_of_cpp(folder),
            *checks_of_header(llrp),
            *checks_of_tags(llrp, program),
            *checks_of_streams(llrp, program),
            *checks_of_refusals(llrp),
            *checks_of_explaining(llrp),
            *checks_of_binding(llrp),
            *checks_of_whole(llrp),
            *checks_of_capture(llrp, program),
            *checks_of_reports(llrp, folder),
            *checks_of_example(folder),
            *checks_of_documents(folder),
        ]
    return finish_results(results, LEAST)


if __name__ == "__main__":
    sys.exit(main())
