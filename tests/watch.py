#!/usr/bin/env python3
"""Runs `watch` and `stop` against a reader that behaves as bought ones do: it keeps its ROSpecs between two connections, reports late, adds
Custom parameters, falls silent, closes, and refuses with a text. It counts the tags that it sent, with which the printed lines are
compared.

usage: tests/watch.py [PROGRAM]

PROGRAM is llrp, crates/llrp/out/llrp where none is given. The reader is written from LLRP 1.1 only. The last line is `N passed, M failed`;
the status is 1 if something failed.
"""
import concurrent.futures
import datetime
import json
import os
import random
import re
import socket
import struct
import subprocess
import sys
import tempfile
import threading
import time

from parts.counting import finish_results
from parts.ports import free_port
from parts.repository import TOP, program_given

# How many comparisons there are.
LEAST = 355 + 15
# How long a run may take, in seconds, and how many parts run at a time.
LONGEST = 20
PARTS_AT_ONCE = 8

ACCEPTED = bytes.fromhex("043F000000200000000100F600160080000C0000000000000000010000060000")
REFUSED = ACCEPTED[:-1] + b"\x01"
OWN_ID = 5084
# The ROSpec that is made, with that id and a report for each tag (LLRP 1.1, sections 11 and 14): ROSpec, ROBoundarySpec with both of its
# triggers, AISpec of all antennas with its trigger and an InventoryParameterSpec for C1G2, ROReportSpec with its selector.
MADE = bytes.fromhex(
    "00B10041000013DC0000 00B20012 00B3000500 00B60009 0000000000 00B70018 00010000 00B800090000000000 00BA0007000101"
    " 00ED000D020001 00EE00061F80"
)
# SET_READER_CONFIG without a reset, and a KeepaliveSpec with a period of ten seconds (section 13).
KEEPALIVES = bytes.fromhex("00 00DC0009 01 00002710")
# The same with antennas 1 and 2.
MADE_OF_TWO = bytes.fromhex(
    "00B10043000013DC0000 00B20012 00B3000500 00B60009 0000000000 00B7001A 000200010002 00B800090000000000 00BA0007000101"
    " 00ED000D020001 00EE00061F80"
)
# A word of the EPC Tag Data Standard 1.13, appendix E, of the scheme GIAI-96, with its tag URI and its raw URI, and the GTIN of the other tags,
# which that standard works out of their company prefix and item (section 7.1).
GIAI = bytes.fromhex("3474257BF40000000000162E")
GIAI_TEXT, GIAI_KEY = "urn:epc:tag:giai-96:3.0614141.5678", "06141415678"
RAW_TEXT = "urn:epc:raw:96.x3474257BF40000000000162E"
GTIN = "80614141123458"
NO_POWER = "invalid value for '--power <DBM>': expected a number from -327.68 to 327.67 with at most two decimals"
NO_ANTENNAS = "invalid value for '--antennas <LIST>': expected numbers from 1 to 65535 with commas between them"
NO_ADDRESS = "invalid value for '<HOST>': expected HOST, HOST:PORT, [IPV6] or [IPV6]:PORT"
# What is said where a run of --for cannot know whether its ROSpec is gone.
LEFT = "llrp: note: the ROSpec 5084 may still be active on the reader; llrp stop deletes it\n"
LABEL_CLASH = "--keys goes with lines of JSON, --schemes takes all, and neither goes with '--messages'"
# How many reports the reader sends in one write.
AT_ONCE = 1000
# After how many tags the memory of a run is read, and how much it may have grown then, in KiB.
(FEW, MANY) = (72_000, 720_000)
MOST_GROWTH = 64

# How far the clock of this script may be from that of the program, in seconds.
CLOCK = 0.1
# How long a reader that sends pieces waits after each, in seconds.
PIECE_PAUSE = 0.002
# LLRP's own port, as the registry of IANA has it.
LLRP_PORT = 5084

# message types of LLRP 1.1, section 17.1
(CLOSE, ADD, DELETE, START, STOP, ENABLE, DISABLE, SET_CONFIG, CAPABILITIES) = (14, 20, 21, 22, 23, 24, 25, 3, 1)
(REPORT, KEEPALIVE, EVENT, KEEPALIVE_ACK) = (61, 62, 63, 72)
(ADD_ACCESS, DELETE_ACCESS, ENABLE_ACCESS, DISABLE_ACCESS) = (40, 41, 42, 43)
RESPONSES = {CLOSE: 4, ADD: 30, DELETE: 31, START: 32, STOP: 33, ENABLE: 34, DISABLE: 35, SET_CONFIG: 13, CAPABILITIES: 11}
RESPONSES |= {ADD_ACCESS: 50, DELETE_ACCESS: 51, ENABLE_ACCESS: 52, DISABLE_ACCESS: 53}


def frame(kind, number, body=b""):
    """A message of version 1."""
    return struct.pack(">HII", 0x0400 | kind, 10 + len(body), number) + body


def status_parameter(code, text=""):
    """LLRPStatus with a text, and for a refusal with a FieldError."""
    said = text.encode()
    rest = struct.pack(">HHHH", 288, 8, 0, code) if code else b""
    return struct.pack(">HHHH", 287, 8 + len(said) + len(rest), code, len(said)) + said + rest


def tag_report(number, serial, custom=False, data=b"\xaa\xbb", result=False, word=None):
    """RO_ACCESS_REPORT of one tag with its antenna, RSSI, first time and count, with the result of a read of two words (section 16.2.1.5,
    C1G2ReadOpSpecResult) or none, and with a maker's Custom parameter or none; the tag may have another word."""
    epc = word or bytes.fromhex("3074257BF7194E40") + struct.pack(">I", serial)
    parts = b"\x8d" + epc + b"\x81\x00\x01" + b"\x86\xc4" + b"\x82" + struct.pack(">Q", 1600000000000000) + b"\x88\x00\x01"
    if result:
        parts += struct.pack(">HHBHH", 349, 13, 0, 1, 2) + b"\xe2\x00\x34\x12"
    if custom:
        parts += struct.pack(">HHII", 1023, 12 + len(data), 25882, 37) + data
    return frame(REPORT, number, struct.pack(">HH", 240, 4 + len(parts)) + parts)


# Frames that are odd, without their ids. GET_ROSPECS, which readers do not send, is one of them; the others are no messages, with what show has
# after the id: a KEEPALIVE with a reserved bit of its header (section 17.1), which is the first octet's second bit, and one with an octet too
# many.
RESERVED = (lambda number: b"\x44" + frame(KEEPALIVE, number)[1:], "0 Reserved")
LONG = (lambda number: frame(KEEPALIVE, number, b"\0"), "80 Extra")
REQUEST = (lambda number: frame(26, number), None)


def parameter(kind, body):
    """A parameter of type, length and value."""
    return struct.pack(">HH", kind, 4 + len(body)) + body


# A power table, as pairs of an index and hundredths of a dBm; not in order, and with two entries of one power.
POWERS = ((1, 1000), (5, 3000), (2, 1500), (3, 2550), (4, 2575), (6, 2550))
# FrequencyHopTable: HopTableID, 8 reserved bits, and the frequencies in kHz (section 17.2.3); FixedFrequencyTable has the latter alone.
HOPS = b"\x80" + b"".join(parameter(147, struct.pack(">BBHII", number, 0, 2, 902750, 903250)) for number in (7, 1))
CHANNELS = b"\x00" + parameter(148, struct.pack(">HII", 2, 865700, 866300))


def regulatory(powers=POWERS, information=HOPS):
    """RegulatoryCapabilities of a reader in the United States: its UHF band with the power table, FrequencyInformation, and C1G2UHFRFModeTable with
    one entry (section 17.2.3)."""
    band = b"".join(parameter(145, struct.pack(">Hh", index, power)) for index, power in powers) + parameter(146, information)
    mode = parameter(329, struct.pack(">IBBBBIIIII", 1, 0x80, 0, 2, 2, 64000, 2000, 12500, 25000, 0))
    return parameter(143, struct.pack(">HH", 840, 1) + parameter(144, band + parameter(328, mode)))


def keepalives(period):
    """SET_READER_CONFIG without a reset, and a KeepaliveSpec with a period in milliseconds (section 13)."""
    return b"\0" + parameter(220, struct.pack(">BI", 1, period))


def made_of(antennas):
    """The ROSpec that is made, with these antennas in place of all (section 11.2.2): its AISpec and itself are longer by the other numbers."""
    more = 2 * len(antennas) - 2
    numbers = struct.pack(">HH", 0xB7, 0x18 + more) + struct.pack(f">H{len(antennas)}H", len(antennas), *antennas)
    return struct.pack(">HH", 0xB1, 0x41 + more) + MADE[4:].replace(bytes.fromhex("00B70018 00010000"), numbers)


def made_with(hop_table, channel, power):
    """The ROSpec that is made, with an AntennaConfiguration of all antennas whose RFTransmitter has these fields (section 17.2.5)."""
    transmitter = parameter(222, struct.pack(">H", 0) + parameter(224, struct.pack(">HHH", hop_table, channel, power)))
    made = MADE.replace(bytes.fromhex("00BA0007000101"), bytes.fromhex("00BA0017000101") + transmitter)
    return made.replace(bytes.fromhex("00B70018"), bytes.fromhex("00B70028")).replace(bytes.fromhex("00B10041"), bytes.fromhex("00B10051"))


def whole_rospec():
    """The ROSpec of WHOLE_FILE (LLRP 1.1, section 17.2): of fields of less than an octet the bits come first."""
    mask = parameter(332, struct.pack(">BHH", 1 << 6, 32, 16) + b"\x30\x74")
    filters = parameter(331, bytes([1 << 6]) + mask + parameter(334, b"\0"))
    command = parameter(330, b"\0" + parameter(335, struct.pack(">HH", 1000, 0)) + filters)
    configuration = parameter(222, struct.pack(">H", 1) + command)
    inventory = parameter(186, struct.pack(">HB", 1, 1) + configuration)
    makers = parameter(1023, struct.pack(">II", 25882, 37) + b"\xaa\xbb")
    antennas = parameter(183, struct.pack(">HH", 1, 1) + parameter(184, struct.pack(">BI", 0, 0)) + inventory + makers)
    boundary = parameter(178, parameter(179, b"\0") + parameter(182, struct.pack(">BI", 0, 0)))
    reporting = parameter(237, struct.pack(">BH", 2, 1) + parameter(238, b"\x14\x00"))
    return parameter(177, struct.pack(">IBB", 9, 0, 0) + boundary + antennas + reporting)


class Reader:
    """A reader that serves one connection after another, and keeps its ROSpecs."""

    def __init__(
            self, tags=3, custom=False, end="close", refusals=0, denied=(), host="127.0.0.1", data=b"\xaa\xbb", odd=None, before=b"",
            offers=b"", beside=(b"", b""), result=False, port=0, piece=0, text="no\x1b[1m"):
        self.tags, self.custom, self.end, self.data, self.result = tags, custom, end, data, result
        # how many octets of its frames the reader sends at a time (0 for all), and the text of a refusal
        self.piece, self.text = piece, text
        # a frame between the reports, or, with the id of a request, before its response; and one before the connection is accepted
        self.odd, self.before = odd, before
        # what its capabilities have after LLRPStatus, and the frames in front of that answer and after it
        self.offers, self.beside = offers, beside
        self.refusals, self.denied = refusals, set(denied)
        self.rospecs, self.asked, self.sent, self.said = set(), [], 0, b""
        # held while something is sent and noted, so that no tag goes out once DISABLE_ROSPEC is noted
        self.turn = threading.RLock()
        self.accesses = set()
        self.socket = socket.create_server((host, port), family=socket.AF_INET6 if ":" in host else socket.AF_INET)
        self.port = self.socket.getsockname()[1]
        threading.Thread(target=self.serve, daemon=True).start()

    def serve(self):
        """Takes connections until the socket is closed."""
        while True:
            try:
                client, _ = self.socket.accept()
            except OSError:
                return
            with client:
                client.setsockopt(socket.IPPROTO_TCP, socket.TCP_NODELAY, 1)
                try:
                    self.talk(client)
                except OSError:
                    pass

    def talk(self, client):
        """Answers what one client asks."""
        if self.refusals:
            self.refusals -= 1
            self.say(client, REFUSED)
            return
        self.say(client, self.before + ACCEPTED)
        while True:
            head = self.read(client, 10)
            if not head:
                return
            kind, length, number = struct.unpack(">HII", head)
            body = self.read(client, length - 10)
            kind &= 1023
            with self.turn:
                self.asked.append((kind, body))
            if kind == KEEPALIVE_ACK:
                continue
            if self.end == "mute" and kind == DISABLE:
                continue
            if self.odd and self.end == "pending" and kind == ADD:
                self.say(client, self.odd(number))
            said = frame(RESPONSES[kind], number, self.answer(kind, body))
            if kind == CAPABILITIES:
                said = self.beside[0] + said + self.beside[1]
            self.say(client, said)
            if kind == CLOSE:
                return
            if kind == START and not self.report(client):
                return

    def say(self, client, frames):
        """Sends frames, in pieces if it is to."""
        with self.turn:
            self.said += frames
            size = self.piece or len(frames) or 1
            for start in range(0, len(frames), size):
                client.sendall(frames[start : start + size])
                if self.piece:
                    time.sleep(PIECE_PAUSE)

    def answer(self, kind, body):
        """The LLRPStatus of an answer, and what the request does to the ROSpecs."""
        if kind in self.denied:
            return status_parameter(101, self.text)
        if kind == CAPABILITIES:
            return status_parameter(0) + self.offers
        if kind in (ADD_ACCESS, DELETE_ACCESS, ENABLE_ACCESS, DISABLE_ACCESS):
            return self.answer_access(kind, body)
        if kind == ADD:
            rospec = struct.unpack(">I", body[4:8])[0]
            if rospec in self.rospecs:
                return status_parameter(101, "there is one")
            self.rospecs.add(rospec)
        if kind == DELETE:
            rospec = struct.unpack(">I", body)[0]
            if rospec not in self.rospecs:
                return status_parameter(101, "no such ROSpec")
            self.rospecs.discard(rospec)
        return status_parameter(0)

    def answer_access(self, kind, body):
        """The same of a request on AccessSpecs, of which the id 0 means all (section 12)."""
        number = struct.unpack(">I", body[4:8] if kind == ADD_ACCESS else body)[0]
        if (number in self.accesses) == (kind == ADD_ACCESS) and number:
            return status_parameter(101, "there is one" if kind == ADD_ACCESS else "no such AccessSpec")
        if kind == ADD_ACCESS:
            self.accesses.add(number)
        if kind == DELETE_ACCESS:
            self.accesses -= {number} if number else set(self.accesses)
        return status_parameter(0)

    def report(self, client):
        """Sends the tags, late, and ends as it is to: closes, falls silent, or goes on."""
        time.sleep(0.2)
        for first in range(0, self.tags, AT_ONCE):
            serials = range(first, min(first + AT_ONCE, self.tags))
            odd = self.odd(9000) if self.odd and self.end != "pending" else b""
            with self.turn:
                self.sent += len(serials)
                self.say(client, odd.join(tag_report(100 + serial, serial, self.custom, self.data, self.result) for serial in serials))
        if self.end == "silent":
            time.sleep(60)
        if self.end in ("busy", "mute"):
            threading.Thread(target=self.go_on, args=(client,), daemon=True).start()
        if self.end == "odd":
            self.say(client, frame(RESPONSES[START], 9999, status_parameter(0)))
        if self.end == "torn":
            client.sendall(tag_report(99, 99)[:-1])
        return self.end not in ("close", "torn")

    def go_on(self, client):
        """Sends a tag ten times a second until the ROSpec is disabled."""
        while True:
            with self.turn:
                if DISABLE in [kind for kind, _ in self.asked]:
                    return
                try:
                    self.say(client, tag_report(100 + self.sent, self.sent))
                except OSError:
                    return
                self.sent += 1
            time.sleep(0.1)

    @staticmethod
    def read(client, size):
        """The next `size` bytes, or none at the end."""
        data = b""
        while len(data) < size:
            more = client.recv(size - len(data))
            if not more:
                return b""
            data += more
        return data


PROGRAM = program_given()
NAMES = {
    CLOSE: "CLOSE", ADD: "ADD", DELETE: "DELETE", START: "START", STOP: "STOP", ENABLE: "ENABLE", DISABLE: "DISABLE", SET_CONFIG: "SET_CONFIG",
    CAPABILITIES: "CAPABILITIES", KEEPALIVE_ACK: "ACK", ADD_ACCESS: "ADD_ACCESS", DELETE_ACCESS: "DELETE_ACCESS", ENABLE_ACCESS: "ENABLE_ACCESS",
    DISABLE_ACCESS: "DISABLE_ACCESS"
}
MOMENT = re.compile(r"\d{4}-\d\d-\d\dT\d\d:\d\d:\d\d\.\d{6}Z")
# A ROSpec of the whole standard: a filter of tags whose EPC begins with 3074 (hexadecimal), and a maker's parameter of an AISpec.
WHOLE_FILE = (
    "1 ROSpec 9 0 0\n2 ROBoundarySpec\n3 ROSpecStartTrigger 0\n3 ROSpecStopTrigger 0 0\n2 AISpec w1\n3 AISpecStopTrigger 0 0\n"
    "3 InventoryParameterSpec 1 1\n4 AntennaConfiguration 1\n5 C1G2InventoryCommand 0\n6 C1G2RFControl 1000 0\n6 C1G2Filter 1\n"
    "7 C1G2TagInventoryMask 1 32 16 x3074\n7 C1G2TagInventoryStateUnawareFilterAction 0\n3 Custom 25882 37 xaabb\n2 ROReportSpec 2 1\n"
    "3 TagReportContentSelector 0 0 0 1 0 1 0 0 0 0\n"
)
TEXT_FILE = (
    "1 ROSpec 7 0 0\n2 ROBoundarySpec\n3 ROSpecStartTrigger 0\n3 ROSpecStopTrigger 0 0\n2 AISpec w1,2\n3 AISpecStopTrigger 0 0\n"
    "3 InventoryParameterSpec 1 1\n2 ROReportSpec 2 1\n3 TagReportContentSelector 0 0 0 1 0 1 0 0 0 0\n"
)


def run(reader, *words, seconds=LONGEST):
    """Status, standard output and standard error of a command at a reader; a status of None where it had to be killed."""
    return run_at(f"127.0.0.1:{reader.port}", *words, seconds=seconds)


def run_at(address, *words, seconds=LONGEST):
    """The same of a command at an address."""
    command = [PROGRAM, words[0], address, *words[1:]]
    process = subprocess.Popen(command, stdout=subprocess.PIPE, stderr=subprocess.PIPE, text=True)
    try:
        out, err = process.communicate(timeout=seconds)
        return process.returncode, out, err
    except subprocess.TimeoutExpired:
        process.kill()
        out, err = process.communicate()
        return None, out, err


def epc_text(serial):
    """The tag URI of a tag of the reader: company prefix and item as in each EPC, and its serial number."""
    return f"urn:epc:tag:sgtin-96:3.0614141.812345.{serial}"


def serials(out):
    """The EPCs of the printed objects."""
    return [json.loads(line)["epc"] for line in out.splitlines()]


def asked(reader):
    """The names of the requests that came."""
    return [NAMES.get(kind, kind) for kind, _ in reader.asked]


def bodies(reader, wanted):
    """What the requests of one kind had after their heads."""
    return [body for kind, body in reader.asked if kind == wanted]


def deleted(reader):
    """The ids of the ROSpecs that were to be deleted."""
    return [struct.unpack(">I", body)[0] for body in bodies(reader, DELETE)]


def plain_runs():
    """A reader that sends tags and closes, once and with what an earlier run left."""
    reader = Reader()
    for name in ("first", "second"):
        reader.asked.clear()
        status, out, err = run(reader, "watch", "--keepalive", "0")
        yield f"{name}: status and error", (status, err) == (1, "llrp: early\n")
        yield f"{name}: each tag", serials(out) == [epc_text(serial) for serial in range(reader.tags)]
        yield f"{name}: the requests", asked(reader) == ["DELETE", "ADD", "ENABLE", "START"]
        yield f"{name}: the ROSpec that is made", bodies(reader, ADD) == [MADE]
        yield f"{name}: its own ROSpec", deleted(reader) == [OWN_ID] and reader.rospecs == {OWN_ID}
    members = json.loads(out.splitlines()[0])
    yield "the members", list(members) == ["at", "epc", "antenna", "rssi", "FirstSeenTimestampUTC", "TagSeenCount"]
    members.pop("at", None)
    yield "their values", members == {
        "epc": epc_text(0), "antenna": 1, "rssi": -60, "FirstSeenTimestampUTC": 1600000000000000, "TagSeenCount": 1}


def all_of_a_tag():
    """What the profile of LLRP has no name for in a tag is under `parameters`, as `show --json --all` has it; --text has none of it."""
    read = {"parameter": "C1G2ReadOpSpecResult", "Result": 0, "OpSpecID": 1, "words": [0xE200, 0x3412]}
    custom = {"parameter": "Custom", "VendorIdentifier": 25882, "ParameterSubtype": 37, "octets": "aabb"}
    for name, words, others in (
            ("a result and Custom", {"result": True, "custom": True}, [read, custom]), ("a result", {"result": True}, [read]),
            ("Custom", {"custom": True}, [custom])):
        reader = Reader(**words)
        _, out, _ = run(reader, "watch")
        lines = [json.loads(line) for line in out.splitlines()]
        yield f"{name}: the other parameters", [it.get("parameters") for it in lines] == [others] * reader.tags
        yield f"{name}: the last member", {list(it)[-1] for it in lines} == {"parameters"}
        reports = [json.loads(line) for line in shown(reader.said).splitlines() if "RO_ACCESS_REPORT" in line]
        tags = [report["parameters"][0]["parameters"] for report in reports]
        yield f"{name}: as show has them", [tag[-len(others):] for tag in tags] == [others] * reader.tags
    _, out, _ = run(Reader(tags=1, result=True, custom=True), "watch", "--text")
    yield "--text has no other parameters", out.startswith(f"{epc_text(0)} 1 -60 ") and len(out.split()) == 4


def key_members(serial):
    """The members of the key of a tag of the reader."""
    return f',"gtin":"{GTIN}","serial":"{serial}"'


def tag_object(text, members=""):
    """The object that `inventory --json` prints of a tag."""
    return f'{{"epc":"{text}","antenna":1,"rssi":-60{members}}}'


def inventory_lines(*tags):
    """Those of tags that come in a report each."""
    return "".join(f'{tag}\n{{"report":1}}\n' for tag in tags) + f'{{"tags":{len(tags)},"reports":{len(tags)}}}\n'


def label_runs():
    """--keys and --schemes, of `watch` and of `inventory`."""
    reader = Reader(tags=2, odd=lambda number: tag_report(number, 0, word=GIAI), result=True, custom=True)
    tags = [json.loads(line) for line in run(reader, "watch", "--keys", "--schemes", "all", "--name", "dock")[1].splitlines()]
    yield "watch: the texts of all schemes", [tag["epc"] for tag in tags] == [epc_text(0), GIAI_TEXT, epc_text(1)]
    keys = [[("gtin", GTIN), ("serial", str(serial))] for serial in (0, 1)]
    yield "watch: the keys are the last members", [list(tag.items())[-2:] for tag in tags[::2]] == keys
    others = {"at", "reader", "epc", "antenna", "rssi", "FirstSeenTimestampUTC", "TagSeenCount"}
    is_last = list(tags[1].items())[-1] == ("giai", GIAI_KEY)
    yield "watch: the key of a further scheme", is_last and set(tags[1]) == {*others, "giai"}
    alone = [json.loads(line) for line in run(reader, "watch", "--keys", "--name", "dock")[1].splitlines()]
    yield "watch: no key among the seven schemes", set(alone[1]) == others and "gtin" in alone[0]
    plain = [json.loads(line) for line in run(reader, "watch", "--name", "dock")[1].splitlines()]
    yield "watch: without them", [tag["epc"] for tag in plain] == [epc_text(0), RAW_TEXT, epc_text(1)] and not any("gtin" in tag for tag in plain)
    kept = [{name: value for name, value in tag.items() if name not in ("at", "epc", "gtin", "giai", "serial")} for tag in tags]
    yield "watch: all else is the same", kept == [{name: value for name, value in tag.items() if name not in ("at", "epc")} for tag in plain]
    words = run(reader, "watch", "--text", "--schemes", "all")[1]
    wanted = [f"{text} 1 -60" for text in (epc_text(0), GIAI_TEXT, epc_text(1))]
    yield "watch --text: the texts of all schemes", [line.rsplit(" ", 1)[0] for line in words.splitlines()] == wanted
    reader = Reader(tags=2, odd=lambda number: tag_report(number, 0, word=GIAI), end="stays")
    inventory = ("inventory", str(reader.port), "--reports", "3")
    wanted = inventory_lines(tag_object(epc_text(0), key_members(0)), tag_object(GIAI_TEXT, f',"giai":"{GIAI_KEY}"'), tag_object(epc_text(1), key_members(1)))
    yield "inventory", run_at("127.0.0.1", *inventory, "--json", "--keys", "--schemes", "all") == (0, wanted, "")
    wanted = inventory_lines(tag_object(epc_text(0)), tag_object(RAW_TEXT), tag_object(epc_text(1)))
    yield "inventory: without them", run_at("127.0.0.1", *inventory, "--json") == (0, wanted, "")
    words = [line for text in (epc_text(0), GIAI_TEXT, epc_text(1)) for line in (f"{text} 1 -60", "= 1")]
    yield "inventory: words", run_at("127.0.0.1", *inventory, "--schemes", "all") == (0, "\n".join([*words, "total 3 3", ""]), "")


def seconds_of(moment):
    """The seconds since 1970 that a line has, or 0 where that is no moment in UTC with six digits of a second."""
    if not MOMENT.fullmatch(moment):
        return 0
    return datetime.datetime.strptime(moment, "%Y-%m-%dT%H:%M:%S.%f%z").timestamp()


def shown(octets):
    """What `show` prints of octets, with the limit of `watch`."""
    words = [PROGRAM, "show", "--json", "--all", "--limit", "1048576"]
    return subprocess.run(words, input=octets, capture_output=True, check=False).stdout.decode()


def messages_runs():
    """--messages: what show prints of the octets that the reader sent, a connection by itself; the last one's end is cut off."""
    for name, how in {
        "plain": {}, "Custom parameters": {"custom": True}, "a result": {"result": True}, "long ones": {"custom": True, "data": bytes(60000)},
        "a reserved bit": {"odd": RESERVED[0]}, "an octet too many": {"odd": LONG[0]}, "a request": {"odd": REQUEST[0]},
        "many": {"tags": 3 * AT_ONCE},
    }.items():
        reader = Reader(**how)
        status, out, err = run(reader, "watch", "--messages")
        yield f"--messages: {name}", out == shown(reader.said) and len(out.splitlines()) > reader.tags
        yield f"--messages: {name}: its end", status == 1 and err.endswith("llrp: early\n")
        kinds = [json.loads(line).get("message") for line in out.splitlines()]
        yield f"--messages: {name}: the reports", kinds.count("RO_ACCESS_REPORT") == reader.tags
    for size in (1, 9, 33):
        reader = Reader(custom=True, piece=size)
        _, out, _ = run(reader, "watch", "--messages")
        yield f"--messages: pieces of {size}", out == shown(reader.said) and out.count("RO_ACCESS_REPORT") == reader.tags
    reader = Reader(odd=lambda number: bytes.fromhex("083E00000009"))
    status, out, err = run(reader, "watch", "--messages")
    lawful = reader.said[: reader.said.index(b"\x08\x3e")]
    yield "--messages: nothing after a length field of 9", (status, out) == (1, shown(lawful)) and out.count("RO_ACCESS_REPORT") == 1
    reader = Reader(end="torn")
    _, out, _ = run(reader, "watch", "--messages")
    yield "--messages: a torn frame has no line", out == shown(reader.said)
    reader = Reader(custom=True, data=bytes(5000))
    _, out, _ = run(reader, "watch", "--messages", "--limit", "4096")
    lines = [json.loads(line) for line in out.splitlines()]
    yield "--messages: above --limit", [it["fault"] for it in lines if "fault" in it] == ["MessageLength"] * reader.tags
    reader = Reader(before=bytes.fromhex("043F00000009"))
    status, out, err = run(reader, "watch", "--messages")
    yield "--messages: a length field of 9", (status, out) == (1, "") and err.endswith("llrp: broken\n")
    reader = Reader(tags=2)
    status, out, _ = run(reader, "watch", "--messages", "--again", "1", seconds=4)
    yield "--messages and --again", status is None and shown(reader.said).startswith(out) and out.count("RO_ACCESS_REPORT") > reader.tags
    reader = Reader(end="busy")
    status, out, err = run(reader, "watch", "--messages", "--for", "1")
    yield "--messages and --for", (status, err) == (0, "") and out == shown(reader.said) and reader.sent > 5
    reader = Reader(end="stay", tags=3 * AT_ONCE)
    command = [PROGRAM, "watch", f"127.0.0.1:{reader.port}", "--messages"]
    with subprocess.Popen(command, stdout=subprocess.PIPE, stderr=subprocess.PIPE, text=True) as process:
        process.stdout.readline()
        process.stdout.close()
        err = process.stderr.read()
    yield "--messages and standard output is closed", (process.returncode, err) == (3, "llrp: write\n") and not reader.rospecs
    for words in ((), ("--name", "dock")):
        reader = Reader(refusals=9)
        _, out, err = run(reader, "watch", "--messages", "--again", "60", *words, seconds=4)
        # after 0, 1 and 3 seconds: what a connection that was refused says is no tag
        yield f"--messages: the pauses {words}", len(out.splitlines()) == err.count("status 1") == 3 and "dock" not in out


# The line of a tag with a result of a read and a maker's parameter, as docs/client.md has the members; the moment is left out.
WHOLE_LINE = (
    '{"at":"MOMENT","reader":"dock \\"1\\"","epc":"urn:epc:tag:sgtin-96:3.0614141.812345.0","antenna":1,"rssi":-60,'
    '"FirstSeenTimestampUTC":1600000000000000,"TagSeenCount":1,"parameters":['
    '{"parameter":"C1G2ReadOpSpecResult","Result":0,"OpSpecID":1,"words":[57856,13330]},'
    '{"parameter":"Custom","VendorIdentifier":25882,"ParameterSubtype":37,"octets":"aabb"}]}\n'
)


def moments():
    """The host's time and the reader's name in each line, with JSON and with words."""
    for words in ((), ("--text",)):
        reader = Reader()
        before = time.time()
        _, out, _ = run(reader, "watch", *words)
        after = time.time()
        texts = [line.split(" ")[3] if words else json.loads(line)["at"] for line in out.splitlines()]
        times = [seconds_of(text) for text in texts]
        yield f"the time of each line {words}", len(times) == reader.tags and all(before - CLOCK <= it <= after + CLOCK for it in times)
        # the reader reports 0.2 seconds after the start
        yield f"it is that of the report {words}", times == sorted(times) and times[0] >= before + 0.2 - CLOCK
    for name in ("dock 1", 'dock "1"', "\\\t\x01", "\u00e9\u2028\U0001f600", ""):
        _, out, _ = run(Reader(tags=2), "watch", "--name", name)
        lines = [json.loads(line) for line in out.split("\n")[:-1]]
        yield f"--name {name!r}", [list(it)[:3] for it in lines] == [["at", "reader", "epc"]] * 2 and {it["reader"] for it in lines} == {name}
    _, out, _ = run(Reader(tags=1), "watch", "--name", "dock", "--text")
    yield "--name and --text", out.startswith(f"{epc_text(0)} 1 -60 ") and "dock" not in out
    for size in (0, 1, 30):
        how = {"tags": 1, "result": True, "custom": True, "piece": size}
        _, out, _ = run(Reader(**how), "watch", "--name", 'dock "1"')
        yield f"a whole line, pieces of {size}", MOMENT.sub("MOMENT", out) == WHOLE_LINE
        _, out, _ = run(Reader(**how), "watch", "--text")
        yield f"a whole line of words, pieces of {size}", MOMENT.sub("MOMENT", out) == f"{epc_text(0)} 1 -60 MOMENT\n"


def ends_by_the_clock():
    """--for: the plan ends as it does, while tags come and where none come, and the time counts over all connections."""
    end = ["DISABLE", "DELETE", "CLOSE"]
    for name, words in (("words", ("--keepalive", "0", "--text")), ("JSON", ())):
        reader = Reader(end="busy")
        start = time.monotonic()
        status, out, err = run(reader, "watch", "--for", "2", *words)
        took = time.monotonic() - start
        yield f"--for and {name}: status", (status, err) == (0, "") and 2 <= took < 10
        yield f"--for and {name}: the requests", asked(reader)[-4:] == ["START", *end] and not reader.rospecs
        yield f"--for and {name}: each tag", len(out.splitlines()) == reader.sent > 5
    with tempfile.NamedTemporaryFile("w", suffix=".rospec") as file:
        file.write(TEXT_FILE)
        file.flush()
        reader = Reader(tags=1, end="stay")
        status, _, err = run(reader, "watch", "--for", "1", "--rospec", file.name)
        yield "--for and nothing comes", (status, err) == (0, "") and asked(reader)[-4:] == ["START", *end] and not reader.rospecs
    reader = Reader(end="silent")
    start = time.monotonic()
    status, out, err = run(reader, "watch", "--for", "1", "--keepalive", "0")
    yield "--for and a dead reader", (status, err, len(out.splitlines())) == (3, "llrp: read\n" + LEFT, 3) and time.monotonic() - start < 15
    reader = Reader(end="mute")
    start = time.monotonic()
    status, _, err = run(reader, "watch", "--for", "1", "--keepalive", "1")
    yield "--for and no response", (status, err) == (3, "llrp: read\n") and time.monotonic() - start < 15
    reader = Reader(denied=[DISABLE], end="busy")
    status, _, err = run(reader, "watch", "--for", "1")
    yield "--for and a refused DISABLE_ROSPEC", (status, err) == (1, "llrp: status 101\n") and not reader.rospecs
    reader = Reader(tags=1)
    start = time.monotonic()
    status, out, err = run(reader, "watch", "--for", "3", "--again", "60")
    took = time.monotonic() - start
    yield "--for and --again", status == 1 and set(err.splitlines()) == {"llrp: early"} and 3 <= took < 10
    yield "--for and --again: more than one connection", len(out.splitlines()) == reader.sent > 1
    yield from ends_far_away()
    yield "--for and no reader", run_at(f"127.0.0.1:{free_port()}", "watch", "--for", "1") == (3, "", "llrp: network\n")
    for number in ("0", "4294967296", "x", ""):
        yield f"--for {number}", run_at("127.0.0.1", "watch", "--for", number)[0] == 2


def ends_far_away():
    """--for: an end in an hour changes neither how long a reader may be silent nor the pauses between connections; one that is near cuts both."""
    for words in ((), ("--for", "3600")):
        start = time.monotonic()
        status, _, err = run(Reader(end="silent"), "watch", "--keepalive", "1", *words)
        yield f"silence, and an end far away: {words}", (status, err) == (3, "llrp: read\n") and 3 <= time.monotonic() - start < 12
        reader = Reader(refusals=9)
        status, _, err = run(reader, "watch", "--again", "60", *words, seconds=5)
        # after 0, 1 and 3 seconds, and not after 7
        yield f"pauses, and an end far away: {words}", status is None and err == 3 * "llrp: status 1\n"
    # the reader is silent from 0.2 seconds on; for a second after the end something could come, and for four more it could close the connection
    start = time.monotonic()
    status, _, err = run(Reader(end="silent"), "watch", "--for", "1", "--keepalive", "0")
    yield "silence, and an end that is near", (status, err) == (3, "llrp: read\n" + LEFT) and 6 <= time.monotonic() - start < 13
    start = time.monotonic()
    status, _, err = run(Reader(refusals=9), "watch", "--for", "2", "--again", "60")
    yield "a pause, and an end that is near", status == 1 and err == 2 * "llrp: status 1\n" and 2 <= time.monotonic() - start < 6


def odd_frames():
    """Frames that are no messages, and messages that no reader sends: where they are passed over, and where they end the run."""
    # one is said, and the others are counted
    note = "llrp: note: a frame that is no message\nllrp: note:   ! 9000 {}\n"
    more = "llrp: note: a frame that is no message, and 1 more since the last note of it\n"
    for name, (odd, fault) in {"reserved": RESERVED, "long": LONG, "request": REQUEST}.items():
        reader = Reader(odd=odd)
        status, out, err = run(reader, "watch")
        yield f"odd: {name}: each tag", serials(out) == [epc_text(serial) for serial in range(reader.tags)]
        said = note.format(fault) + more if fault else ""
        yield f"odd: {name}: what is said", (status, err) == (1, said + "llrp: early\n")
        notes, _ = notes_of(Reader(odd=odd))
        words = "a frame that is no message" if fault else "a message that is passed over"
        yield f"odd: {name}: --verbose", (notes.count(words), notes.count(f"{words}, and 1 more since the last note of it")) == (1, 1)
        # under the id of ADD_ROSPEC, before its response
        reader = Reader(odd=odd, end="pending")
        status, out, err = run(reader, "watch")
        if fault:
            yield f"odd: {name}: a pending id", (status, out) == (1, "") and err.endswith("\nllrp: strange\n") and asked(reader)[-2:] == ["DELETE", "CLOSE"]
        else:
            yield f"odd: {name}: a pending id", len(out.splitlines()) == 3 and err == ""
        status, out, err = run(Reader(before=odd(1)), "watch")
        yield f"odd: {name}: before it is accepted", (status, out) == (1, "") and err.endswith("llrp: strange\n")
    # reports of 64 octets and a limit above that leave the report with more octets than it out
    reader = Reader(odd=lambda number: frame(KEEPALIVE, number, bytes(4096)))
    status, out, err = run(reader, "watch", "--limit", "4096")
    yield "odd: above --limit", len(out.splitlines()) == 3 and err.count("MessageLength") == 1 and err.count("and 1 more since") == 1 and "strange" not in err


def option_runs():
    """The options, each with what it changes."""
    reader = Reader(custom=True)
    status, out, _ = run(reader, "watch", "--id", "77")
    yield "KEEPALIVEs are asked for", asked(reader) == ["DELETE", "SET_CONFIG", "ADD", "ENABLE", "START"]
    yield "how often", bodies(reader, SET_CONFIG) == [KEEPALIVES]
    yield "--id", deleted(reader) == [77] and reader.rospecs == {77}
    yield "Custom parameters", serials(out) == [epc_text(serial) for serial in range(reader.tags)]
    reader.asked.clear()
    run(reader, "watch", "--antennas", "1,2")
    yield "--antennas", bodies(reader, ADD) == [MADE_OF_TWO]
    for numbers in ([1], [65535], [4, 3, 2, 1]):
        reader.asked.clear()
        run(reader, "watch", "--antennas", ",".join(map(str, numbers)))
        yield f"--antennas {numbers}", bodies(reader, ADD) == [made_of(numbers)]
    for seconds in (1, 65535):
        reader.asked.clear()
        run(reader, "watch", "--keepalive", str(seconds))
        yield f"--keepalive {seconds}", bodies(reader, SET_CONFIG) == [keepalives(1000 * seconds)]
    status, out, _ = run(reader, "watch", "--text")
    yield "--text", [line.rsplit(" ", 1)[0] for line in out.splitlines()] == [f"{epc_text(serial)} 1 -60" for serial in range(reader.tags)]
    with tempfile.NamedTemporaryFile("w", suffix=".rospec") as file:
        file.write(TEXT_FILE)
        file.flush()
        run(reader, "watch", "--rospec", file.name)
        yield "--rospec", 7 in reader.rospecs
        run(reader, "stop", "--rospec", file.name)
        yield "stop --rospec", 7 not in reader.rospecs
    reader.asked.clear()
    with tempfile.NamedTemporaryFile("w", suffix=".rospec") as file:
        file.write(WHOLE_FILE)
        file.flush()
        status, out, _ = run(reader, "watch", "--keepalive", "0", "--rospec", file.name)
        yield "--rospec of the whole standard", bodies(reader, ADD) == [whole_rospec()] and asked(reader) == ["DELETE", "ADD", "ENABLE", "START"]
        yield "its id and its tags", deleted(reader) == [9] and 9 in reader.rospecs and len(serials(out)) == reader.tags
        run(reader, "stop", "--rospec", file.name)
        yield "stop --rospec of the whole standard", 9 not in reader.rospecs
    yield "no file", run(reader, "watch", "--rospec", "/nonexistent", "--again", "1")[::2] == (3, "llrp: rospec\n")


def powers():
    """--power: which entry of the power table is taken, and what is asked and done besides."""
    for power, fields in (
        ("25.5", (7, 0, 3)), ("25.50", (7, 0, 3)), ("25.74", (7, 0, 3)), ("25.75", (7, 0, 4)), ("+29.99", (7, 0, 4)), ("30", (7, 0, 5)), ("327.67", (7, 0, 5)),
        ("10", (7, 0, 1)), ("14.99", (7, 0, 1))
    ):
        reader = Reader(offers=regulatory())
        status, out, err = run(reader, "watch", "--keepalive", "0", "--power", power)
        yield f"--power {power}", bodies(reader, ADD) == [made_with(*fields)] and (status, err, len(out.splitlines())) == (1, "llrp: early\n", 3)
    yield "--power: the requests", asked(reader) == ["CAPABILITIES", "DELETE", "ADD", "ENABLE", "START"]
    yield from powers_read()
    yield from powers_said()
    yield "--power: what is asked for", bodies(reader, CAPABILITIES) == [b"\x03"]
    reader = Reader(offers=regulatory(((1, -250), (2, -150)), CHANNELS))
    run(reader, "watch", "--power=-2")
    yield "--power: a fixed channel and a negative power", bodies(reader, ADD) == [made_with(0, 1, 1)]
    for words in ((), ("--again", "1")):
        reader = Reader(offers=regulatory())
        yield f"--power: none that low {words}", run(reader, "watch", "--power", "9.99", *words) == (1, "", "llrp: power least 10.00\n")
        yield f"--power: what is said then {words}", asked(reader) == ["CAPABILITIES", "DELETE", "CLOSE"]
    yield "--power: a negative least", run(Reader(offers=regulatory(((1, -105),))), "watch", "--power=-1.06")[2] == "llrp: power least -1.05\n"
    yield "--power: no power table", run(Reader(), "watch", "--power", "30") == (1, "", "llrp: power\n")
    reader = Reader(denied=[CAPABILITIES])
    yield "--power: a refused request", run(reader, "watch", "--power", "30") == (1, "", "llrp: status 101\n")
    yield "--power: what is said after it", asked(reader) == ["CAPABILITIES", "DELETE", "CLOSE"]
    yield "--power: a refused connection", run(Reader(refusals=1), "watch", "--power", "30") == (1, "", "llrp: status 1\n")
    # KEEPALIVEs in front of the answer and after it, in one write with it
    reader = Reader(offers=regulatory(), beside=(frame(KEEPALIVE, 900), frame(KEEPALIVE, 901)))
    status, out, err = run(reader, "watch", "--power", "30", "--keepalive", "0")
    yield "--power: KEEPALIVEs beside the answer", sorted(asked(reader)) == sorted(["ACK", "ACK", "CAPABILITIES", "DELETE", "ADD", "ENABLE", "START"])
    yield "--power: each tag then", len(out.splitlines()) == reader.tags
    with tempfile.TemporaryDirectory() as folder:
        reader = Reader(offers=regulatory())
        run(reader, "watch", "--power", "30", "--save", os.path.join(folder, "dock"))
        with open(os.path.join(folder, "dock"), "rb") as file:
            yield "--power and --save", file.read() == reader.said
    reader = Reader(offers=regulatory(), end="busy")
    status, out, err = run(reader, "watch", "--power", "30", "--for", "1")
    yield "--power and --for", (status, err) == (0, "") and len(out.splitlines()) == reader.sent and not reader.rospecs
    reader = Reader(offers=regulatory(), tags=1)
    status, out, err = run(reader, "watch", "--power", "30", "--again", "1", seconds=4)
    yield "--power and --again", asked(reader).count("CAPABILITIES") >= 2 and set(bodies(reader, ADD)) == {made_with(7, 0, 5)}
    notes, _ = notes_of(Reader(offers=regulatory()), "--power", "30")
    yield "--power and --verbose", notes[1] == "the reader accepted the connection" and notes.count(notes[1]) == 1


# Texts of powers, and the hundredths of a dBm that each writes; and texts that write none, or one beyond the bounds of TransmitPowerValue, which is
# a signed number of 16 bits (LLRP 1.1, section 17.2.3).
READ_POWERS = (
    ("25.5", 2550), ("25.50", 2550), ("+25.5", 2550), ("0", 0), ("-0", 0), ("0.01", 1), ("-0.01", -1), ("30", 3000), ("31.5", 3150), ("007.05", 705),
    ("327.67", 32767), ("-327.68", -32768), ("-10", -1000), ("10.00", 1000),
)
NO_POWERS = ("", "-", "+", ".", "1.", ".5", "1.234", "1,5", "1e2", " 1", "1 ", "--1", "+-1", "327.68", "-327.69", "1000", "1.5.2")


def powers_read():
    """Which power a text writes: of entries a hundredth of a dBm below it, at it and above it the reader is to use the one at it."""
    for text, power in READ_POWERS:
        entries = [(index, it) for index, it in enumerate((power - 1, power, power + 1), 1) if -32768 <= it <= 32767]
        reader = Reader(tags=1, offers=regulatory(entries))
        run(reader, "watch", "--keepalive", "0", f"--power={text}")
        yield f"--power={text}: its entry", bodies(reader, ADD) == [made_with(7, 0, 2)]
    for text in NO_POWERS:
        wanted = (2, "", f"error: {NO_POWER}\n\nFor more information, try '--help'.\n")
        yield f"--power={text!r}", run_at("127.0.0.1", "watch", f"--power={text}") == wanted


def powers_said():
    """How a power is written where the least of a reader is above the one that is asked for: with two decimals. Nothing is below -327.68."""
    for power, text in ((2550, "25.50"), (0, "0.00"), (-1, "-0.01"), (32767, "327.67"), (-32767, "-327.67"), (1005, "10.05")):
        wanted = (1, "", f"llrp: power least {text}\n")
        yield f"--power: the least is {text}", run(Reader(offers=regulatory(((1, power),))), "watch", "--power=-327.68") == wanted


# The AccessSpec of examples/tid.access (LLRP 1.1, sections 12 and 16): AccessSpec 9 for all antennas, C1G2 and ROSpec 5084, its stop trigger,
# AccessCommand with a C1G2TagSpec for each tag and a C1G2Read of six words of bank 2, and AccessReportSpec.
READ_TID = bytes.fromhex(
    "00CF003E 00000009 0000 01 00 000013DC 00D00007 00 0000 00D10022 0152000F 0153000B 60 0020 0000 0000 0155000F 0001 00000000 80 0000 0006"
    " 00EF0005 00"
)
TID_FILE = os.path.join(TOP, "examples/tid.access")
# What is sent with that file, up to the first report, and at the end.
BEGINNING = ["DELETE_ACCESS", "DELETE", "ADD", "ADD_ACCESS", "ENABLE_ACCESS", "ENABLE", "START"]
LEAVING = ["DELETE_ACCESS", "DELETE", "CLOSE"]


def access_runs():
    """--access: what is sent beside the plan, and where."""
    words = ("--keepalive", "0", "--access", TID_FILE)
    reader = Reader()
    for name in ("first", "second"):
        reader.asked.clear()
        status, out, err = run(reader, "watch", *words)
        yield f"--access: {name}: the requests", asked(reader) == BEGINNING and bodies(reader, ADD_ACCESS) == [READ_TID]
        yield f"--access: {name}: the end", (status, err, len(out.splitlines())) == (1, "llrp: early\n", 3) and reader.accesses == {9}
    reader = Reader(end="busy")
    status, out, err = run(reader, "watch", *words, "--for", "1")
    yield "--access and --for", (status, err) == (0, "") and len(out.splitlines()) == reader.sent
    yield "--access and --for: the requests", asked(reader) == [*BEGINNING, "DISABLE", *LEAVING] and not reader.accesses | reader.rospecs
    reader = Reader(end="silent")
    status, out, err = run(reader, "watch", "--access", TID_FILE, "--for", "2")
    yield "--access, --for and silence: tags", (err, len(out.splitlines())) == ("llrp: read\n" + LEFT, 3)
    reader = Reader(tags=1)
    status, out, err = run(reader, "watch", *words, "--again", "1", seconds=4)
    again = asked(reader)
    yield "--access and --again", again.count("START") >= 2 and again[: 2 * len(BEGINNING)] == 2 * BEGINNING
    reader = Reader(offers=regulatory())
    run(reader, "watch", *words, "--power", "30")
    yield "--access and --power", asked(reader) == ["CAPABILITIES", *BEGINNING]
    reader = Reader(result=True)
    _, out, _ = run(reader, "watch", *words, "--messages")
    yield "--access and --messages", out == shown(reader.said) and out.count("C1G2ReadOpSpecResult") == reader.tags
    reader = Reader(end="busy")
    with subprocess.Popen([PROGRAM, "watch", f"127.0.0.1:{reader.port}", *words], stdout=subprocess.PIPE, stderr=subprocess.PIPE) as process:
        process.stdout.readline()
        process.stdout.close()
        err = process.stderr.read()
    yield "--access and standard output is closed", err == b"llrp: write\n" and asked(reader)[-3:] == LEAVING and not reader.accesses
    with tempfile.TemporaryDirectory() as folder:
        path = os.path.join(folder, "all.access")
        with open(path, "w", encoding="ascii") as file, open(TID_FILE, encoding="ascii") as read:
            file.write("0 DELETE_ACCESSSPEC 1 4294967289 0\n" + read.read())
        reader = Reader(tags=1)
        reader.accesses = {8}
        run(reader, "watch", "--keepalive", "0", "--access", path)
        yield "--access: the deletion of all", asked(reader) == [*BEGINNING[:3], "DELETE_ACCESS", *BEGINNING[3:]] and reader.accesses == {9}


def access_refusals():
    """--access: what a reader refuses, and what is said of it."""
    words = ("--keepalive", "0", "--access", TID_FILE)
    for name, kind in (("ADD", ADD_ACCESS), ("ENABLE", ENABLE_ACCESS)):
        reader = Reader(end="stay", denied=[kind])
        start = time.monotonic()
        status, _, err = run(reader, "watch", *words)
        yield f"--access: a refused {name}_ACCESSSPEC", (status, err) == (1, "llrp: status 101\n") and time.monotonic() - start < 10
        yield f"--access: the requests then: {name}", asked(reader)[-3:] == LEAVING and not reader.accesses | reader.rospecs
    reader = Reader(end="stay", denied=[ADD_ACCESS])
    status, _, err = run(reader, "watch", *words, "--again", "1", seconds=4)
    yield "--access: a refusal and --again", status is None and err.count("llrp: status 101\n") >= 2
    status, out, err = run(Reader(denied=[DELETE_ACCESS]), "watch", *words)
    yield "--access: a refused DELETE_ACCESSSPEC", (status, err, len(out.splitlines())) == (1, "llrp: early\n", 3)
    refusal = lambda number: frame(RESPONSES[ADD_ACCESS], number, status_parameter(101))
    status, out, err = run(Reader(odd=refusal), "watch", "--keepalive", "0")
    yield "without --access: its responses", (status, err, len(out.splitlines())) == (1, "llrp: early\n", 3)
    notes, _ = notes_of(Reader(), *words)
    yield "--access and --verbose", not [it for it in notes if "answers no request" in it]
    notes, others = notes_of(Reader(end="stay", denied=[ADD_ACCESS]), *words)
    at = notes.index("  0 ADD_ACCESSSPEC_RESPONSE 1 4294967290")
    yield "--access and --verbose: a refusal", "a request was refused: status 101, M_FieldError" in notes[:at] and others == ["llrp: status 101"]


def access_files():
    """--access: files that are refused, of which nothing is sent."""
    with open(TID_FILE, encoding="ascii") as file:
        lines = file.read().splitlines(keepends=True)
    reader = Reader()
    for name, text, said in (
        ("another message", "".join([*lines[:8], "0 KEEPALIVE_ACK 1 7\n", *lines[8:]]), "line 9: Name"),
        ("another one first", "0 GET_ACCESSSPECS 1 7\n" + "".join(lines), "line 1: Name"),
        ("a line that is none", "".join(lines).replace("C1G2Read 1 0 2", "C1G2Read 1 0 4"), "line 7: Node Value"),
        ("no line feed", "".join(lines)[:-1], "line 10: Line"),
    ):
        with tempfile.TemporaryDirectory() as folder:
            path = os.path.join(folder, "some.access")
            with open(path, "w", encoding="ascii") as file:
                file.write(text)
            yield f"--access: {name}", run(reader, "watch", "--access", path, "--again", "1") == (1, "", f"llrp: access {said}\n")
    yield "--access: no file", run(reader, "watch", "--access", "/nonexistent/tid") == (3, "", "llrp: access\n")
    yield "--access: a folder", run(reader, "watch", "--access", "/") == (3, "", "llrp: access\n")
    yield "--access: nothing is sent", not reader.asked


def bad_ends():
    """What a reader does that ends a run, and how it ends."""
    start = time.monotonic()
    status, out, err = run(Reader(end="silent"), "watch", "--keepalive", "1")
    yield "silence", (status, err) == (3, "llrp: read\n") and 3 <= time.monotonic() - start < 12
    yield "the tags before it", len(out.splitlines()) == 3
    status, _, err = run(Reader(denied=[ADD]), "watch")
    yield "a refused ADD_ROSPEC", (status, err) == (1, "llrp: status 101\n")
    status, _, err = run(Reader(denied=[DELETE], tags=1), "watch")
    yield "a refused DELETE_ROSPEC", (status, err) == (1, "llrp: early\n")
    status, _, err = run(Reader(refusals=1), "watch")
    yield "a refused connection", (status, err) == (1, "llrp: status 1\n")
    # with a Custom parameter of 12 octets and its data a report has 56 and the data
    for size, limit, tags in ((4096, "4096", 3), (4097, "4096", 0), (4097, "4097", 3)):
        _, out, _ = run(Reader(custom=True, data=bytes(size - 56)), "watch", "--limit", limit)
        yield f"--limit {limit} and reports of {size}", len(out.splitlines()) == tags
    yield "no reader", run_at(f"127.0.0.1:{free_port()}", "watch") == (3, "", "llrp: network\n")


def words_that_clash():
    """Words that ask for nothing, with what is said of them."""
    for words, said in (
        (("watch", "--rospec", "x", "--every", "1"), "the argument '--rospec <FILE>' cannot be used with '--every <N>'"),
        (("watch", "--rospec", "x", "--id", "1"), "the argument '--rospec <FILE>' cannot be used with '--id <N>'"),
        (("watch", "--rospec", "x", "--antennas", "1"), "the argument '--rospec <FILE>' cannot be used with '--antennas <LIST>'"),
        (("watch", "--rospec", "x", "--power", "1"), "the argument '--rospec <FILE>' cannot be used with '--power <DBM>'"),
        (("watch", "--power", "25.555"), NO_POWER),
        (("watch", "--messages", "--text"), "the argument '--messages' cannot be used with '--text'"),
        (("watch", "--text", "--keys"), LABEL_CLASH),
        (("watch", "--messages", "--keys"), LABEL_CLASH),
        (("watch", "--messages", "--schemes", "all"), LABEL_CLASH),
        (("watch", "--schemes", "most"), LABEL_CLASH),
        (("inventory", "5084", "--keys"), LABEL_CLASH),
        (("inventory", "5084", "--json", "--schemes", "most"), LABEL_CLASH),
        *((("watch", "--antennas", it), NO_ANTENNAS) for it in ("", "0", "1,", ",1", "1,,2", "01", "+1", "1 2", "65536", "all", "1;2")),
        (("stop", "--rospec", "x", "--id", "1"), "the argument '--rospec <FILE>' cannot be used with '--id <N>'"),
    ):
        wanted = (2, "", f"error: {said}\n\nFor more information, try '--help'.\n")
        yield " ".join(words), run_at("127.0.0.1", *words) == wanted
    for command in ("watch", "stop"):
        for address in ("", ":5084", "reader:", "reader:0", "reader:65536", "reader:http", "[::1", "[::1]5084"):
            yield f"{command} '{address}'", run_at(address, command) == (2, "", f"error: {NO_ADDRESS}\n\nFor more information, try '--help'.\n")


def addresses():
    """Where it connects: at LLRP's port where no port is given. An IPv6 address stands in brackets where a port follows."""
    # (an address of this machine that nothing else listens at; the IPv6 address that stands for it reaches the same socket)
    host = f"127.{random.randrange(1, 255)}.{random.randrange(256)}.{random.randrange(1, 255)}"
    for port in (LLRP_PORT, 65535):
        reader = Reader(host=host, port=port)
        own = port == LLRP_PORT
        for address, shown_host in ((host, host), (f"::ffff:{host}", f"[::ffff:{host}]"), (f"[::ffff:{host}]", f"[::ffff:{host}]")):
            if own or not address.startswith("::"):
                notes, _ = notes_of_address(address if own else f"{address}:{port}")
                yield f"{address}, {port}", notes[:1] == [f"connected to {shown_host}:{port}"]
        yield f"a host and port {port}", serials(run_at(f"{host}:{port}", "watch")[1]) == [epc_text(serial) for serial in range(reader.tags)]
        reader.socket.close()
    reader = Reader()
    yield "a name and a port", serials(run_at(f"localhost:{reader.port}", "watch")[1]) == [epc_text(serial) for serial in range(reader.tags)]
    yield "the least port", run_at(f"{host}:1", "watch") == (3, "", "llrp: network\n")
    if os.path.exists("/proc/net/if_inet6"):
        reader = Reader(host="::1")
        _, out, _ = run_at(f"[::1]:{reader.port}", "watch")
        yield "an IPv6 address", serials(out) == [epc_text(serial) for serial in range(reader.tags)]


def most_memory(process):
    """The most memory that a process has had, in KiB."""
    with open(f"/proc/{process.pid}/status", encoding="ascii") as lines:
        return next(int(line.split()[1]) for line in lines if line.startswith("VmHWM:"))


def long_runs():
    """Many tags as fast as they go: none is lost, none is printed twice, and memory does not grow with them."""
    reader = Reader(tags=MANY, end="silent")
    with subprocess.Popen([PROGRAM, "watch", f"127.0.0.1:{reader.port}"], stdout=subprocess.PIPE) as process:
        wrong, memory = 0, {}
        for serial in range(MANY):
            if f'Z","epc":"{epc_text(serial)}","antenna":1,' not in process.stdout.readline().decode():
                wrong += 1
            if serial + 1 in (FEW, MANY):
                memory[serial + 1] = most_memory(process)
        process.kill()
    yield f"each of {MANY} tags", wrong == 0 and reader.sent == MANY
    yield f"memory after {memory}", memory[MANY] - memory[FEW] <= MOST_GROWTH


def ends_of_its_own():
    """Runs that end by themselves while the reader goes on: the ROSpec is deleted, and the connection closed."""
    reader = Reader(end="stay", denied=[ENABLE])
    status, _, err = run(reader, "watch", "--keepalive", "0")
    yield "a refused ENABLE_ROSPEC", (status, err) == (1, "llrp: status 101\n")
    yield "the requests then", asked(reader) == ["DELETE", "ADD", "ENABLE", "DELETE", "CLOSE"] and deleted(reader) == [OWN_ID] * 2
    yield "no ROSpec is left then", not reader.rospecs
    for words in ((), ("--again", "1")):
        reader = Reader(end="stay", tags=3 * AT_ONCE)
        command = [PROGRAM, "watch", f"127.0.0.1:{reader.port}", "--keepalive", "0", *words]
        with subprocess.Popen(command, stdout=subprocess.PIPE, stderr=subprocess.PIPE, text=True) as process:
            process.stdout.readline()
            process.stdout.close()
            err = process.stderr.read()
        yield f"standard output is closed {words}", (process.returncode, err) == (3, "llrp: write\n")
        yield f"the requests then {words}", asked(reader)[-2:] == ["DELETE", "CLOSE"] and asked(reader).count("START") == 1
        yield f"no ROSpec is left then {words}", not reader.rospecs
    reader = Reader(end="odd")
    status, out, err = run(reader, "watch")
    yield "something strange", (status, err, len(serials(out))) == (1, "llrp: strange\n", reader.tags) and not reader.rospecs
    reader = Reader(tags=0, end="odd")
    status, out, err = run(reader, "watch")
    yield "something strange before a tag", (status, out, err) == (1, "", "llrp: strange\n") and not reader.rospecs


def save_runs():
    """The stream beside the tags: whole frames alone, appended, and what happens where they cannot be."""
    with tempfile.TemporaryDirectory() as folder:
        path = os.path.join(folder, "dock.llrp")
        reader = Reader(tags=2 * AT_ONCE, end="torn")
        for name in ("first", "second"):
            _, out, err = run(reader, "watch", "--save", path)
            with open(path, "rb") as file:
                yield f"--save: the frames: {name}", file.read() == reader.said and len(out.splitlines()) == reader.tags
        with open(path, "rb") as file:
            shown = subprocess.run([PROGRAM, "show", "--all", "--limit", "1048576"], stdin=file, capture_output=True, check=False)
        yield "--save: it is read through", shown.returncode == 0 and shown.stdout.count(b"EPC-96") == 2 * reader.tags
        reader = Reader(custom=True, data=bytes(5000))
        run(reader, "watch", "--limit", "4096", "--save", path + "2")
        with open(path + "2", "rb") as file:
            saved = file.read()
        yield "--save: no long frame", saved == reader.said[: len(saved)] and b"Custom" not in saved and 0 < len(saved) < 4096
        for size in (0, 1000, 4095, 4097):
            for octets in (4096, 4097):
                odd = frame(KEEPALIVE, 9000, bytes(octets - 10))
                reader, path = Reader(odd=lambda number, it=odd: it, piece=size), os.path.join(folder, f"{size}.{octets}")
                run(reader, "watch", "--limit", "4096", "--save", path)
                with open(path, "rb") as file:
                    wanted = reader.said if octets == 4096 else reader.said.replace(odd, b"")
                    yield f"--save: a frame of {octets}, pieces of {size}", file.read() == wanted and reader.said.count(odd) == 2
    reader = Reader()
    yield "--save: no folder", run(reader, "watch", "--save", "/nonexistent/dock") == (3, "", "llrp: save\n") and not reader.asked
    status, out, err = run(Reader(), "watch", "--save", "/dev/full")
    yield "--save: a full disk", (status, err) == (1, "llrp: save\nllrp: early\n") and len(out.splitlines()) == 3


def notes_of(reader, *words, **how):
    """The notes of a run, without what stands in front of each, and the other lines."""
    return notes_of_address(f"127.0.0.1:{reader.port}", *words, **how)


def notes_of_address(address, *words, **how):
    """The same of a run at an address."""
    _, _, err = run_at(address, "watch", "--verbose", *words, **how)
    lines = err.splitlines()
    return [it.removeprefix("llrp: note: ") for it in lines if it.startswith("llrp: note: ")], [it for it in lines if "note: " not in it]


def journal_lines(reader, named="{device}:{inode}"):
    """The lines of a run whose standard error is named as the journal's, or otherwise."""
    read, write = os.pipe()
    data = os.fstat(write)
    environment = {**os.environ, "JOURNAL_STREAM": named.format(device=data.st_dev, inode=data.st_ino)}
    command = [PROGRAM, "watch", f"127.0.0.1:{reader.port}", "--verbose"]
    with subprocess.Popen(command, stdout=subprocess.DEVNULL, stderr=write, env=environment):
        os.close(write)
        with os.fdopen(read, encoding="utf-8") as lines:
            return lines.read().splitlines()


def verbose_runs():
    """What --verbose says of a connection, and nothing without it."""
    reader = Reader()
    begin = [f"connected to 127.0.0.1:{reader.port}", "the reader accepted the connection"]
    notes, others = notes_of(reader)
    yield "--verbose: connected and accepted", notes[:2] == begin and others == ["llrp: early"]
    yield "--verbose: no ROSpec was there", notes[2] == "a request was refused: status 101, M_FieldError"
    yield "--verbose: nothing else", not [it for it in notes[3:] if not it.startswith("  ")]
    notes, others = notes_of(Reader(refusals=1))
    said = "the reader refused the connection: ConnectionAttemptEvent 1, a connection that the reader began exists"
    yield "--verbose: a refused connection", notes[1:] == [said] and others == ["llrp: status 1"]
    notes, others = notes_of(Reader(denied=[ADD]))
    at = notes.index("a request was refused: status 101, M_FieldError", 3)
    yield "--verbose: a refused request", "  0 ADD_ROSPEC_RESPONSE 1 3" in notes[at:] and others == ["llrp: status 101"]
    yield "--verbose: the reader's own text", "  the reader says: no\\x1b[1m" in notes[at:]
    yield "--verbose: its text and its field", any("LLRPStatus 101" in it for it in notes[at:]) and any("FieldError" in it for it in notes[at:])
    yield "--verbose: printable alone", all(it.isprintable() for it in notes)
    notes, others = notes_of(Reader(end="odd"))
    yield "--verbose: something strange", "START_ROSPEC_RESPONSE answers no request; pending is none" in notes and others == ["llrp: strange"]
    yield "--verbose: which message", any(it.startswith("  0 START_ROSPEC_RESPONSE 1 9999") for it in notes)
    lines = journal_lines(Reader(denied=[ADD]))
    yield "--verbose: for the journal", lines[0].startswith("<6>llrp: note: connected to ") and any(it.startswith("<4>llrp: note: a req") for it in lines)
    for named in ("", "{device}", "{device}:", "{device}:x", "{device}:{inode}:2", ":{inode}", "{inode}:{device}", "0:18446744073709551615"):
        lines = journal_lines(Reader(tags=1), named)
        yield f"--verbose: JOURNAL_STREAM is {named!r}", lines[0].startswith("llrp: note: connected to ") and not [it for it in lines if it.startswith("<")]
    yield from verbose_answers()
    yield from verbose_texts()


# ERROR_MESSAGE (LLRP 1.1, section 17.1), and an event that is no ConnectionAttemptEvent: an AntennaEvent (section 14.2.2), as antenna 2 is
# connected.
ERROR_MESSAGE = 100
ANTENNA_EVENT = parameter(246, parameter(128, struct.pack(">Q", 0)) + parameter(255, struct.pack(">BH", 1, 2)))


def verbose_answers():
    """What --verbose says of a response under the id of ADD_ROSPEC, before the one that is awaited, or under another."""
    done = status_parameter(0)
    for name, odd, said in (
        ("its own, another id", lambda number: frame(RESPONSES[ADD], number + 1, done), "ADD_ROSPEC_RESPONSE answers no request; pending is ADD_ROSPEC"),
        ("another's, its id", lambda number: frame(RESPONSES[START], number, done), "START_ROSPEC_RESPONSE answers no request; pending is ADD_ROSPEC"),
        ("ERROR_MESSAGE", lambda number: frame(ERROR_MESSAGE, number, status_parameter(101)), "a request was refused: status 101, M_FieldError"),
    ):
        notes, _ = notes_of(Reader(odd=odd, end="pending"), "--keepalive", "0")
        # (DELETE_ROSPEC of a ROSpec that is not there was refused before it)
        yield f"--verbose: an answer: {name}: {notes}", said in notes[notes.index("  2 FieldError 0 101") + 1 :]
    # a KEEPALIVE before it, which the client acknowledges, leaves the request pending
    notes, _ = notes_of(Reader(odd=lambda number: frame(KEEPALIVE, number), end="pending", piece=10), "--keepalive", "0", "--for", "1")
    yield "--verbose: KEEPALIVE_ACK is no request", not [it for it in notes if "answers no request" in it]
    notes, _ = notes_of(Reader(odd=lambda number: frame(EVENT, number, ANTENNA_EVENT)))
    yield "--verbose: an event", notes.count("an event") == 2 and notes.count("  2 AntennaEvent 1 2") == 2


def verbose_texts():
    """What --verbose says of the text that a reader gives to a refusal: printable ASCII as it is, other octets by their digits."""
    for text, said in (("no", ["no"]), ("n\x1b[", ["n\\x1b["]), ("\u00e9", ["\\xc3\\xa9"]), ("", [])):
        notes, _ = notes_of(Reader(denied=[ADD], text=text), "--keepalive", "0")
        at = notes.index("  0 ADD_ROSPEC_RESPONSE 1 2")
        told = [it.removeprefix("  the reader says: ") for it in notes[at - 2 : at] if "the reader says" in it]
        yield f"--verbose: the reader's text {text!r}", told == said


def again_runs():
    """Connections one after another, each with a new plan."""
    reader = Reader(tags=2)
    status, out, err = run(reader, "watch", "--again", "1", seconds=6)
    yield "it goes on", status is None and err.count("llrp: early\n") >= 3
    yield "each tag of each connection", len(serials(out)) == reader.sent
    starts = asked(reader).count("START")
    yield "no START without its DELETE", starts >= 3 and asked(reader).count("DELETE") >= starts


def stop_runs():
    """The ROSpec that was left is deleted, and one that is not there too."""
    reader = Reader()
    reader.rospecs = {1, OWN_ID}
    for name in ("left", "none"):
        reader.asked.clear()
        yield f"stop: {name}", run(reader, "stop") == (0, "", "")
        yield f"stop: the requests: {name}", asked(reader) == ["DELETE", "CLOSE"] and reader.rospecs == {1}
    reader = Reader(refusals=2)
    yield "stop: a reader that refuses twice", run(reader, "stop") == (0, "", "") and asked(reader) == ["DELETE", "CLOSE"]
    yield "stop: a reader that refuses", run(Reader(refusals=9), "stop", "--timeout", "1")[::2] == (1, "llrp: status 1\n")


def stop_with_words_of_watch():
    """What `watch` takes `stop` takes too: it deletes what the words say, and passes over the rest."""
    with tempfile.TemporaryDirectory() as folder:
        saved = os.path.join(folder, "saved")
        for words in (
            ("--antennas", "1,2", "--power", "25.5"),
            ("--antennas", "none", "--power", "much", "--schemes", "most"),
            ("--every", "3", "--keepalive", "0", "--again", "60", "--for", "1", "--limit", "4096"),
            ("--text", "--messages", "--keys", "--verbose", "--schemes", "all", "--name", "dock"),
            ("--save", saved),
        ):
            reader = Reader()
            reader.rospecs = {1, OWN_ID}
            name = "stop " + " ".join(words)
            yield name, run(reader, "stop", *words) == (0, "", "") and asked(reader) == ["DELETE", "CLOSE"] and reader.rospecs == {1}
        yield "stop --save opens no file", not os.path.exists(saved)
    reader = Reader()
    reader.rospecs = {1, 7}
    yield "stop --id", run(reader, "stop", "--id", "7", "--every", "3") == (0, "", "") and reader.rospecs == {1}
    for words in (("--every", "0"), ("--limit", "4095"), ("--for", "none")):
        yield f"stop {' '.join(words)}", run(reader, "stop", *words)[0] == 2


def stop_with_access():
    """stop --access: what deletes one AccessSpec goes before the deletion of the ROSpec."""
    words = ("--keepalive", "0", "--access", TID_FILE)
    reader = Reader()
    run(reader, "watch", *words)
    is_left = OWN_ID in reader.rospecs and reader.accesses == {9}
    reader.rospecs.add(1)
    reader.accesses.add(8)
    for name in ("left", "none"):
        reader.asked.clear()
        is_right = run(reader, "stop", *words) == (0, "", "") and asked(reader) == LEAVING
        yield f"stop --access: {name}", is_left and is_right and (reader.rospecs, reader.accesses) == ({1}, {8})
    reader = Reader(denied=[DELETE_ACCESS])
    yield "stop --access: a refused DELETE_ACCESSSPEC", run(reader, "stop", *words) == (0, "", "") and asked(reader) == LEAVING
    with tempfile.TemporaryDirectory() as folder:
        path = os.path.join(folder, "some.access")
        with open(path, "w", encoding="ascii") as file, open(TID_FILE, encoding="ascii") as lines:
            file.write(lines.read() + "0 KEEPALIVE_ACK 1 7\n")
        reader = Reader()
        yield "stop --access: a file that is refused", run(reader, "stop", "--access", path) == (1, "", "llrp: access line 11: Name\n")
    yield "stop --access: no file", run(reader, "stop", "--access", "/nonexistent/tid") == (3, "", "llrp: access\n")
    yield "stop --access: nothing is sent then", not reader.asked


# Parts that run side by side, since each run has a reader of its own and most of it is waiting; those that wait longest first.
SIDE_BY_SIDE = (
    ends_by_the_clock, messages_runs, access_runs, access_refusals, powers, bad_ends, odd_frames, again_runs, verbose_runs, save_runs, label_runs,
    option_runs, plain_runs, all_of_a_tag, access_files, addresses, words_that_clash, ends_of_its_own, stop_runs, stop_with_words_of_watch,
    stop_with_access,
)
# Parts that measure moments or memory run alone.
ALONE = (moments, long_runs)


def made(part):
    """Returns the results of a part. A part that ends by an error has one that says so."""
    try:
        return list(part())
    except Exception as error:
        return [(f"{part.__name__}: {error!r}", False)]


def main():
    """Makes all runs."""
    with concurrent.futures.ThreadPoolExecutor(PARTS_AT_ONCE) as pool:
        results = [result for each in pool.map(made, SIDE_BY_SIDE) for result in each]
    return finish_results([*results, *(result for part in ALONE for result in made(part))], LEAST)


if __name__ == "__main__":
    sys.exit(main())
