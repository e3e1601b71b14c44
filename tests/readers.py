#!/usr/bin/env python3
"""Runs `inventory` with its options against a small reader over a socket, which has habits of real ones: it reports late, reports nothing at
first, has a ROSpec from before, and starts an immediate ROSpec as soon as it is enabled. A file of `--rospec` that is refused is named before a
connection is made. `loop` runs against the simulated reader, by a script.

usage: tests/readers.py [PROGRAM]

The reader is written from LLRP 1.1 alone, and answers by a table of its own. Each run has to send the messages of its row in order, and to print
its lines. Then two whole exchanges are cut after each octet. Build the program first, by ./llrp --help. The last line is `N passed, M failed`, and the
status is 1 if a run failed.
"""
import concurrent.futures
import json
import os
import socket
import struct
import subprocess
import sys
import tempfile
import threading
import time
from typing import NamedTuple

from parts.counting import finish
from parts.repository import program_given

# How many runs there are.
LEAST = 734
# How long a run may take, and how late a late reader reports, in seconds.
LONGEST, LATE = 20, 0.05
# How many runs at a time.
AT_ONCE = 4

# Types of messages, and of what is read in them (LLRP 1.1, sections 17.1 and 17.2).
GET_ROSPECS_RESPONSE, REPORT, EVENT, KEEPALIVE = 36, 61, 63, 62
REQUESTS = {20: "ADD", 21: "DELETE", 22: "START", 23: "STOP", 24: "ENABLE", 25: "DISABLE", 26: "GET_ROSPECS", 60: "GET_REPORT", 14: "CLOSE", 72: "ACK"}
RESPONSES = {20: 30, 21: 31, 22: 32, 23: 33, 24: 34, 25: 35, 14: 4}
ACCEPTED = bytes.fromhex("00F60016 0080000C0000000000000000 010000060000")
TAG = bytes.fromhex("00F00016 8D3074257BF7194E4000001A85 810001 86C4")
TAG_LINE = "urn:epc:tag:sgtin-96:3.0614141.812345.6789 1 -60\n"
TAG_OBJECT = '{"epc":"urn:epc:tag:sgtin-96:3.0614141.812345.6789","antenna":1,"rssi":-60}\n'
# The same tag with a parameter of a maker's own after the others: Custom (1023) has a vendor, a subtype and data (LLRP 1.1, section 17.2.9).
MAKERS_TAG = bytes.fromhex("00F00024 8D3074257BF7194E4000001A85 810001 86C4 03FF000E 0000651A 00000025 AABB")
# Files of `--rospec` by their names: their lines, and the octets of the ROSpec (LLRP 1.1, section 17.2), or the reason of a refusal.
LINES = """\
1 ROSpec 7 0 0
2 ROBoundarySpec
3 ROSpecStartTrigger {start}
3 ROSpecStopTrigger 0 0
2 AISpec w1,2
3 AISpecStopTrigger 0 0
3 InventoryParameterSpec 1 1
{settings}2 ROReportSpec 2 1
3 TagReportContentSelector 0 0 0 1 0 1 0 0 0 0
"""
# Of the whole standard: a filter of tags whose EPC begins with 3074 (hexadecimal), and a maker's parameter.
FILTER = "4 AntennaConfiguration 1\n5 C1G2InventoryCommand 0\n6 C1G2Filter 1\n7 C1G2TagInventoryMask 1 32 16 x3074\n3 Custom 25882 37 xaabb\n"
POWERS = "4 AntennaConfiguration 1\n5 RFTransmitter 1 0 61\n4 AntennaConfiguration 2\n5 RFTransmitter 1 0 81\n"
IMMEDIATE = (
    "00B1004300000007 0000 00B20012 00B3000501 00B600090000000000 00B7001A 000200010002 00B800090000000000 00BA0007000101"
    "00ED000D020001 00EE00061400"
)
POWERED = (
    "00B1006300000007 0000 00B20012 00B3000500 00B600090000000000 00B7003A 000200010002 00B800090000000000 00BA0027000101"
    "00DE00100001 00E0000A 00010000003D 00DE00100002 00E0000A 000100000051 00ED000D020001 00EE00061400"
)
FILTERED = (
    "00B1006C00000007 0000 00B20012 00B3000501 00B600090000000000 00B70043 000200010002 00B800090000000000 00BA0022000101"
    "00DE001B0001 014A001500 014B001040 014C000B 40 0020 0010 3074 03FF000E 0000651A 00000025 AABB 00ED000D020001 00EE00061400"
)
FILES = {
    "immediate": LINES.format(start=1, settings=""), "powers": LINES.format(start=0, settings=POWERS), "filter": LINES.format(start=1, settings=FILTER),
    "survey": "1 ROSpec 9 3 0\n2 ROBoundarySpec\n3 ROSpecStartTrigger 0\n3 ROSpecStopTrigger 0 0\n2 RFSurveySpec 1 865700 866300\n3 RFSurveySpecStopTrigger 0 0 0\n",
}
NO_ROSPECS = {
    "empty": ("", "line 1: Node Missing"),
    "short": ("1 ROSpec 7 0\n", "line 1: Fields"),
    "unended": (LINES.format(start=0, settings="").rstrip("\n"), "line 9: Line"),
    "unknown": (LINES.format(start=4, settings=""), "line 3: Node Value"),
    "double": (2 * LINES.format(start=0, settings=""), "line 1: Node TooMany"),
    "followed": (LINES.format(start=0, settings="") + "0 KEEPALIVE 1 2\n", "line 10: Level"),
    "whole": ("0 ADD_ROSPEC 1 1\n" + LINES.format(start=0, settings=""), "line 1: Node Missing"),
    "all": (LINES.format(start=0, settings="").replace("ROSpec 7 0 0", "ROSpec 0 0 0"), "line 1: Node Value"),
    "enabled": (LINES.format(start=0, settings="").replace("ROSpec 7 0 0", "ROSpec 7 0 1"), "line 1: Node Value"),
    "long": (LINES.format(start=0, settings="4 AntennaConfiguration 0\n" * 1000), "line 1: OverLimit"),
}
# A ROSpec of another client, with id 1.
OTHER = bytes.fromhex("00B10034000000010000 00B20012 00B3000500 00B600090000000000 00B7001800010000 00B800090000000000 00BA0007000101")
# One with id 9, priority 3 and an RFSurveySpec of antenna 1, from 865,700 to 866,300 kHz, with its stop trigger, in place of an AISpec, which the
# profile of docs/tables.md does not have.
SURVEY = bytes.fromhex("00B10037000000090300 00B20012 00B3000500 00B600090000000000 00BB001B 0001 000D35A4 000D37FC 00BC000D 00 00000000 00000000")
OWN = {"immediate": bytes.fromhex(IMMEDIATE), "powers": bytes.fromhex(POWERED), "filter": bytes.fromhex(FILTERED), "survey": SURVEY}


def frame(kind, number, body=b""):
    return struct.pack(">HII", 0x0400 | kind, 10 + len(body), number) + body


def status(code):
    return struct.pack(">HHHH", 287, 8, code, 0)


class Habits(NamedTuple):
    """What a reader does: how many empty reports it sends before those with a tag, once a ROSpec runs, and how many of those; whether it waits
    before them; whether it reports before it answers START_ROSPEC or ENABLE_ROSPEC; the ROSpecs that it has at first; whether its tags have a
    parameter of its maker's own; and how many tags a report has."""

    empty: int = 0
    tagged: int = 0
    late: bool = False
    early: bool = False
    has: tuple = ()
    makers: bool = False
    tags: int = 1


class Reader:
    """A reader over a socket. It keeps the names of the requests that came, and the ROSpecs that were added."""

    def __init__(self, peer, habits):
        self.peer, self.habits = peer, habits
        self.table = {self.id_of(rospec): [rospec, 0] for rospec in habits.has}
        self.came, self.added = [], []
        self.next = 1000

    @staticmethod
    def id_of(rospec):
        return struct.unpack(">I", rospec[4:8])[0]

    @staticmethod
    def is_immediate(rospec):
        return rospec[18] == 1

    def send(self, kind, number, body=b""):
        self.peer.sendall(frame(kind, number, body))

    def send_own(self, kind, body=b""):
        self.next += 1
        self.send(kind, self.next, body)

    def read(self, count):
        octets = b""
        while len(octets) < count:
            more = self.peer.recv(count - len(octets))
            if not more:
                return None
            octets += more
        return octets

    def report(self):
        if self.habits.late:
            time.sleep(LATE)
        for _ in range(self.habits.empty):
            self.send_own(REPORT)
        for _ in range(self.habits.tagged):
            self.send_own(REPORT, (MAKERS_TAG if self.habits.makers else TAG) * self.habits.tags)

    def named(self, body):
        number = struct.unpack(">I", body[:4])[0]
        return [key for key in self.table if number in (0, key)]

    def answer(self, kind, number, body):
        """Answers a request; returns whether it starts a ROSpec."""
        runs = False
        if kind == 20:
            self.added.append(body)
            if self.id_of(body) in self.table:
                return self.send(RESPONSES[kind], number, status(101))
            self.table[self.id_of(body)] = [body, 0]
        elif kind == 21:
            for key in self.named(body):
                del self.table[key]
        elif kind == 24:
            for key in self.named(body):
                runs = runs or self.is_immediate(self.table[key][0])
                self.table[key][1] = 1
        elif kind == 22:
            runs = True
        elif kind == 25:
            for key in self.named(body):
                self.table[key][1] = 0
        if runs and self.habits.early:
            self.send_own(REPORT, TAG)
        self.send(RESPONSES[kind], number, status(0))
        return runs

    def serve(self):
        self.send_own(EVENT, ACCEPTED)
        while True:
            header = self.read(10)
            if header is None:
                return
            kind, length, number = struct.unpack(">HII", header)
            body = self.read(length - 10)
            kind &= 1023
            self.came.append(REQUESTS.get(kind, str(kind)))
            if kind == 60:
                self.send_own(REPORT)
            elif kind == 26:
                listed = b"".join(rospec[:9] + bytes([state]) + rospec[10:] for rospec, state in self.table.values())
                self.send(GET_ROSPECS_RESPONSE, number, status(0) + listed)
            elif kind in RESPONSES and self.answer(kind, number, body):
                self.report()
            if kind == 14:
                return


class Row(NamedTuple):
    """What is run against which reader; what it has to end with, print and send; and N of the standard ROSpec that it adds, or the name of the
    file whose ROSpec it adds."""

    words: str
    habits: Habits
    ends: int
    lines: str
    error: str
    came: str
    adds: object = 0

    def is_added(self, rospec):
        if isinstance(self.adds, str):
            return rospec == OWN[self.adds]
        return struct.unpack(">H", rospec[57:59])[0] == self.adds


# PORT stands for the reader's.
CONNECTED = "llrp: note: connected to 127.0.0.1:PORT\nllrp: note: the reader accepted the connection\n"
STANDARD = "ADD ENABLE START GET_REPORT STOP DELETE CLOSE"
AWAITING = "ADD ENABLE START STOP DELETE CLOSE"
ROWS = [
    # Without options any report ends the plan: here the first one that comes after GET_REPORT.
    Row("", Habits(tagged=2, late=True), 0, TAG_LINE + "= 1\n" + TAG_LINE + "= 1\n= 0\ntotal 2 3\n", "", STANDARD),
    Row("--reports 2", Habits(empty=2, tagged=2, late=True), 0, "= 0\n= 0\n" + 2 * (TAG_LINE + "= 1\n") + "total 2 4\n", "", AWAITING, 1),
    Row("--reports 2", Habits(tagged=2, early=True), 0, 3 * (TAG_LINE + "= 1\n") + "total 3 3\n", "", AWAITING, 1),
    Row("--reports 1 --polls 2", Habits(tagged=1), 0, TAG_LINE + "= 1\n= 0\n= 0\ntotal 1 3\n", "", "ADD ENABLE START GET_REPORT GET_REPORT STOP DELETE CLOSE", 1),
    Row("--reports 1 --every 5", Habits(tagged=1), 0, TAG_LINE + "= 1\ntotal 1 1\n", "", AWAITING, 5),
    # It does not stay silent for ever.
    Row("--reports 1 --timeout 1", Habits(empty=3), 3, 3 * "= 0\n", "llrp: read\n", "ADD ENABLE START", 1),
    # Lines of JSON.
    Row("--json", Habits(), 0, '{"report":0}\n{"tags":0,"reports":1}\n', "", STANDARD),
    Row("--json --reports 2", Habits(empty=1, tagged=2), 0, '{"report":0}\n' + 2 * (TAG_OBJECT + '{"report":1}\n') + '{"tags":2,"reports":3}\n', "", AWAITING, 1),
    # A maker's parameters: a report with one is ignored, but with --all its tags are taken.
    Row("--reports 1 --timeout 1", Habits(tagged=1, makers=True), 3, "", "llrp: read\n", "ADD ENABLE START", 1),
    Row("--all --reports 2", Habits(empty=1, tagged=2, makers=True, late=True), 0, "= 0\n" + 2 * (TAG_LINE + "= 1\n") + "total 2 3\n", "", AWAITING, 1),
    Row("--all --json --clean --reports 1 --check", Habits(tagged=1, makers=True, has=(OTHER,)), 0, TAG_OBJECT + '{"report":1}\n{"tags":1,"reports":1}\n', "", "DELETE ADD ENABLE START STOP GET_ROSPECS DELETE CLOSE", 1),
    # A ROSpec of another client that the profile cannot say stands in the reader's table all the same.
    Row("--all --check", Habits(has=(SURVEY,)), 1, "= 0\n", "llrp: strange\n", "ADD ENABLE START GET_REPORT STOP GET_ROSPECS"),
    Row("--all --check", Habits(), 0, "= 0\ntotal 0 1\n", "", "ADD ENABLE START GET_REPORT STOP GET_ROSPECS DELETE CLOSE"),
    Row("--all --check --clean", Habits(has=(SURVEY, OTHER)), 0, "= 0\ntotal 0 1\n", "", "DELETE ADD ENABLE START GET_REPORT STOP GET_ROSPECS DELETE CLOSE"),
    # A report of 185 tags has 4,080 octets, and one of 186 tags 4,102.
    Row("--limit 4096 --reports 1", Habits(tagged=1, tags=185), 0, 185 * TAG_LINE + "= 185\ntotal 185 1\n", "", AWAITING, 1),
    Row("--limit 4101 --reports 1", Habits(tagged=1, tags=186), 1, "", "llrp: strange\n", "ADD ENABLE START", 1),
    Row("--limit 4102 --reports 1", Habits(tagged=1, tags=186), 0, 186 * TAG_LINE + "= 186\ntotal 186 1\n", "", AWAITING, 1),
    # What is said besides.
    Row("--verbose", Habits(), 0, "= 0\ntotal 0 1\n", CONNECTED, STANDARD),
    # A ROSpec of before.
    Row("", Habits(has=(OTHER,)), 1, "", "llrp: status 101\n", "ADD"),
    Row("--clean", Habits(has=(OTHER,)), 0, "= 0\ntotal 0 1\n", "", "DELETE " + STANDARD),
    Row("--clean --check", Habits(has=(OTHER,)), 0, "= 0\ntotal 0 1\n", "", "DELETE ADD ENABLE START GET_REPORT STOP GET_ROSPECS DELETE CLOSE"),
    Row("--clean --reports 1 --check", Habits(tagged=1, late=True), 0, TAG_LINE + "= 1\ntotal 1 1\n", "", "DELETE ADD ENABLE START STOP GET_ROSPECS DELETE CLOSE", 1),
    # A ROSpec of one's own, which is disabled and not stopped: one that is started, and one that the reader starts.
    Row("--rospec powers", Habits(tagged=1, late=True), 0, TAG_LINE + "= 1\n= 0\ntotal 1 2\n", "", "ADD ENABLE START GET_REPORT DISABLE DELETE CLOSE", "powers"),
    Row("--rospec powers --polls 0", Habits(), 0, "total 0 0\n", "", "ADD ENABLE START DISABLE DELETE CLOSE", "powers"),
    Row("--rospec immediate", Habits(), 0, "= 0\ntotal 0 1\n", "", "ADD ENABLE GET_REPORT DISABLE DELETE CLOSE", "immediate"),
    Row("--rospec immediate --reports 2", Habits(empty=1, tagged=2, early=True), 0, TAG_LINE + "= 1\n= 0\n" + 2 * (TAG_LINE + "= 1\n") + "total 3 4\n", "", "ADD ENABLE DISABLE DELETE CLOSE", "immediate"),
    Row("--rospec immediate --reports 1 --timeout 1", Habits(empty=2), 3, 2 * "= 0\n", "llrp: read\n", "ADD ENABLE", "immediate"),
    Row("--rospec immediate --clean --reports 1 --check", Habits(tagged=1, late=True, has=(OTHER, OWN["powers"])), 0, TAG_LINE + "= 1\ntotal 1 1\n", "", "DELETE ADD ENABLE DISABLE GET_ROSPECS DELETE CLOSE", "immediate"),
    # With --all one of the whole standard: it is added as it is, also one that the profile cannot say, and the reader's table is compared with it.
    Row("--all --rospec filter", Habits(tagged=1, late=True), 0, TAG_LINE + "= 1\n= 0\ntotal 1 2\n", "", "ADD ENABLE GET_REPORT DISABLE DELETE CLOSE", "filter"),
    Row("--all --check --rospec survey", Habits(has=()), 0, "= 0\ntotal 0 1\n", "", "ADD ENABLE START GET_REPORT DISABLE GET_ROSPECS DELETE CLOSE", "survey"),
    Row("--all --rospec powers", Habits(), 0, "= 0\ntotal 0 1\n", "", "ADD ENABLE START GET_REPORT DISABLE DELETE CLOSE", "powers"),
    Row("--rospec immediate", Habits(has=(OWN["powers"],)), 1, "", "llrp: status 101\n", "ADD", "immediate"),
]
def plan_rows():
    """Yields a row for each of two reports that are awaited or none, three GET_REPORTs that are asked for or none, a ROSpec of a file or the
    standard one, and all other options of a plan or none."""
    for reports, polls, awaited, asked in ((None, None, 0, 1), (None, 3, 0, 3), (2, None, 2, 0), (2, 3, 2, 3)):
        for file in ("", "powers"):
            for options in ("", "--check --clean --json --all"):
                words = [f"--rospec {file}"] * bool(file) + [f"--reports {reports}"] * bool(reports) + [f"--polls {polls}"] * bool(polls)
                tag, end, total = (TAG_OBJECT, '{{"report":{}}}\n', '{{"tags":{},"reports":{}}}\n') if options else (TAG_LINE, "= {}\n", "total {} {}\n")
                lines = awaited * (tag + end.format(1)) + asked * end.format(0) + total.format(awaited, awaited + asked)
                came = ["DELETE"] * bool(options) + ["ADD", "ENABLE", "START"] + ["GET_REPORT"] * asked + ["DISABLE" if file else "STOP"]
                came += ["GET_ROSPECS"] * bool(options) + ["DELETE", "CLOSE"]
                yield Row(" ".join([*words, options]), Habits(tagged=awaited), 0, lines, "", " ".join(came), file or min(awaited, 1))


ROWS += plan_rows()
# After how many tags a reader reports.
ROWS += [Row(f"--every {it}", Habits(), 0, "= 0\ntotal 0 1\n", "", STANDARD, it) for it in (0, 1, 5)]
# Words that are refused before a connection is made, and how the line that says so begins.
REFUSED = [
    ("--reports 0", "error: "),
    ("--reports 65536", "error: "),
    ("--limit 4095", "error: "),
    ("--limit 1048577", "error: "),
    ("--reports 1 --every 0", "error: the argument '--every 0' cannot be used with '--reports <K>'"),
    ("--rospec immediate --every 0", "error: the argument '--rospec <FILE>' cannot be used with '--every <N>'"),
    ("--rospec missing --every 1", "error: the argument '--rospec <FILE>' cannot be used with '--every <N>'"),
    ("--rospec", "error: "),
]


class Exchange(NamedTuple):
    """A whole exchange: the words, what the reader sends, what is printed, and after which of the frames."""

    words: str
    down: list
    printed: list
    prints: list


ACCEPTS = "043F0000002000000001 00F60016 0080000C0000000000000000 010000060000"
TAGGED = "043D0000002000000064 00F00016 8D3074257BF7194E4000001A85 810001 86C4"
EMPTY = "043D0000000A00000065"


def response(kind, number):
    """Returns the response of this type to a request, with the status 0."""
    return f"{0x0400 | kind:04X}00000012{number:08X} 011F000800000000"


STANDARD_ROSPEC = "00B10041000000010001 00B20012 00B3000500 00B600090000000000 00B7001800010000 00B800090000000000 00BA0007000101 00ED000D020001 00EE00061400"
EXCHANGES = [
    Exchange(
        "--clean --reports 2 --polls 1 --check",
        [ACCEPTS, response(31, 1), response(30, 2), response(34, 3), response(32, 4), TAGGED, EMPTY, TAGGED, EMPTY, response(33, 6),
         "04240000005300000007 011F000800000000" + STANDARD_ROSPEC, response(31, 8), response(4, 9)],
        [TAG_LINE + "= 1\n", "= 0\n", TAG_LINE + "= 1\n", "= 0\n", "total 2 4\n"],
        [5, 6, 7, 8, 12],
    ),
    Exchange(
        "--clean --rospec immediate --reports 1 --polls 1 --check",
        [ACCEPTS, response(31, 1), response(30, 2), TAGGED, response(34, 3), EMPTY, TAGGED, EMPTY, response(35, 5),
         "04240000005500000006 011F000800000000" + IMMEDIATE, response(31, 7), response(4, 8)],
        [TAG_LINE + "= 1\n", "= 0\n", TAG_LINE + "= 1\n", "= 0\n", "total 2 4\n"],
        [3, 5, 6, 7, 11],
    ),
]


# What the client sends without options, frame after frame, and what comes before each of these: ADD_ROSPEC, ENABLE_ROSPEC, START_ROSPEC,
# GET_REPORT, STOP_ROSPEC, DELETE_ROSPEC and CLOSE_CONNECTION. The last response ends the plan.
SENT = [
    "04140000004B00000001" + STANDARD_ROSPEC.replace("00ED000D020001", "00ED000D020000").replace("00B10041000000010001", "00B10041000000010000"),
    "04180000000E0000000200000001", "04160000000E0000000300000001", "043C0000000A00000004", "04170000000E0000000500000001",
    "04150000000E0000000600000001", "040E0000000A00000007",
]
COMES = [ACCEPTS, response(30, 1), response(34, 2), response(32, 3), TAGGED, response(33, 5), response(31, 6), response(4, 7)]
# Scripts of `loop`: its words, the script, the status, and what is written to standard output and standard error.
SIGHTINGS = "".join(f"3 {at}000 seen {tag}\n" for at, tag in enumerate((
    "1 -60 urn:epc:tag:sgtin-96:3.0614141.812345.6789", "1 -61 urn:epc:tag:sscc-96:0.0614141.0000000001", "2 -62 urn:epc:tag:gid-96:1.2.3"), 1))
SEEN = (
    TAG_LINE + "urn:epc:tag:sscc-96:0.0614141.0000000001 1 -61\n= 2\nurn:epc:tag:gid-96:1.2.3 2 -62\n= 1\ntotal 3 2\n"
)
LOOPS = [
    ("--every 2", SIGHTINGS, 0, SEEN, ""), ("--every 2 --check", SIGHTINGS, 0, SEEN, ""), ("", "", 0, "= 0\ntotal 0 1\n", ""),
    ("", "0 5 tick\n", 0, "= 0\ntotal 0 1\n", ""), ("", "0 5 tick\n0 4 tick\n", 1, "", "llrp: script line 2\n"),
]


def octets(frames):
    return bytes.fromhex("".join(frames))


# The folder that the files of `--rospec` are in.
FOLDER = tempfile.TemporaryDirectory()


def write_files():
    for name, text in [*FILES.items(), *((name, text) for name, (text, _) in NO_ROSPECS.items())]:
        with open(os.path.join(FOLDER.name, name), "w", encoding="ascii") as file:
            file.write(text)


def start(program, words, port, command="inventory"):
    address = ["127.0.0.1", str(port)] if command == "inventory" else []
    how = {"stdin": subprocess.PIPE, "stdout": subprocess.PIPE, "stderr": subprocess.PIPE, "cwd": FOLDER.name}
    return subprocess.Popen([program, command, *address, *words.split()], **how)


def accept(listener):
    listener.settimeout(LONGEST)
    peer, _ = listener.accept()
    peer.settimeout(LONGEST)
    return peer


def is_right(program, row):
    """Whether a row ends, prints and sends what it has to."""
    with socket.create_server(("127.0.0.1", 0)) as listener:
        port = listener.getsockname()[1]
        run = start(program, row.words, port)
        with accept(listener) as peer:
            reader = Reader(peer, row.habits)
            serving = threading.Thread(target=reader.serve, daemon=True)
            serving.start()
            out, err = run.communicate(timeout=LONGEST)
            serving.join(LONGEST)
    found = (run.returncode, out.decode(), err.decode().replace(f":{port}\n", ":PORT\n"), " ".join(reader.came))
    if "--json" in row.words and not all(isinstance(json.loads(line), dict) for line in out.splitlines()):
        return False
    return found == (row.ends, row.lines, row.error, row.came) and [row.is_added(rospec) for rospec in reader.added] == [True]


def is_refused(program, words, ends, begins):
    """Whether both commands end so: `inventory` before it connects, to a port where nothing listens, and `loop` before it reads its input, which
    does not end."""
    for command in ("inventory", "loop"):
        run = start(program, words, 1, command)
        status = run.wait(LONGEST)
        out, err = run.communicate()
        if (status, out) != (ends, b"") or not err.decode().startswith(begins):
            return False
    return True


def is_cut_well(program, exchange, count):
    """Whether the exchange that ends after this many octets is early, and prints the lines of the frames that came."""
    down = octets(exchange.down)
    with socket.create_server(("127.0.0.1", 0)) as listener:
        run = start(program, exchange.words, listener.getsockname()[1])
        with accept(listener) as peer:
            peer.sendall(down[:count])
            peer.shutdown(socket.SHUT_WR)
            while peer.recv(4096):
                pass
        out, err = run.communicate(timeout=LONGEST)
    lines = [line for line, at in zip(exchange.printed, exchange.prints) if len(octets(exchange.down[: at + 1])) <= count]
    ends = (0, "") if count == len(down) else (1, "llrp: early\n")
    return (run.returncode, err.decode(), out.decode()) == (*ends, "".join(lines))


def read_to_end(peer):
    read = b""
    while more := peer.recv(4096):
        read += more
    return read


def is_sent_well(program, count):
    """Whether the client of a reader that sends so many frames and closes its side sends the octets of so many frames, and prints what came."""
    with socket.create_server(("127.0.0.1", 0)) as listener:
        run = start(program, "", listener.getsockname()[1])
        with accept(listener) as peer:
            peer.sendall(octets(COMES[:count]))
            peer.shutdown(socket.SHUT_WR)
            sent = read_to_end(peer)
        out, err = run.communicate(timeout=LONGEST)
    ends, error, total = (0, "", "total 1 1\n") if count == len(COMES) else (1, "llrp: early\n", "")
    lines = (TAG_LINE + "= 1\n") * (COMES.index(TAGGED) < count) + total
    return (run.returncode, err.decode(), out.decode(), sent) == (ends, error, lines, octets(SENT[:count]))


def is_looped_well(program, words, script, ends, lines, error):
    """Whether `loop` ends so by a script."""
    done = subprocess.run([program, "loop", *words.split()], input=script, capture_output=True, text=True, timeout=LONGEST, check=False)
    return (done.returncode, done.stdout, done.stderr) == (ends, lines, error)


def main():
    program = program_given()
    write_files()
    refused = [(words, 2, begins) for words, begins in REFUSED]
    refused += [(f"--rospec {name}", 1, f"llrp: rospec {told}\n") for name, (_, told) in NO_ROSPECS.items()]
    refused += [("--rospec filter", 1, "llrp: rospec line 10: Name\n"), ("--rospec survey", 1, "llrp: rospec line 5: Name\n")]
    refused += [(f"--all --rospec {name}", 1, f"llrp: rospec {told}\n") for name, (_, told) in NO_ROSPECS.items()]
    refused += [(f"--rospec {name}", 3, "llrp: rospec\n") for name in ("missing", ".", "short/file")]
    cases = [(f"{row.words or 'no options'}: {row.habits}", is_right, (row,)) for row in ROWS]
    cases += [(f"the words {it[0]}", is_refused, it) for it in refused]
    cases += [(f"{it.words}, cut after {count} octets", is_cut_well, (it, count)) for it in EXCHANGES for count in range(len(octets(it.down)) + 1)]
    cases += [(f"what is sent after {count} frames", is_sent_well, (count,)) for count in range(len(COMES) + 1)]
    cases += [(f"loop {it[0]} with the script {it[1]!r}", is_looped_well, it) for it in LOOPS]
    passed = failed = 0
    with concurrent.futures.ThreadPoolExecutor(AT_ONCE) as pool:
        for (name, _, _), right in zip(cases, pool.map(lambda case: case[1](program, *case[2]), cases)):
            passed += right
            failed += not right
            if not right:
                print(f"WRONG: {name}")
    return finish(passed, failed, LEAST)


if __name__ == "__main__":
    sys.exit(main())
