#!/usr/bin/env python3
"""Runs `ask` against a reader that answers as its rows say: at once, late, with a refusal, with an ERROR_MESSAGE, or not at all; that sends
KEEPALIVEs and reports meanwhile, cuts its frames, and closes early. It keeps the octets that the client sends, which have to be those of the
file, the acknowledgements and a CLOSE_CONNECTION, and compares what is printed with what `show --all` prints of the octets that it sent. Then
`ask` speaks to `llrp sim --all`.

usage: tests/ask.py [PROGRAM]

PROGRAM is llrp, crates/llrp/out/llrp where none is given. The reader is written from LLRP 1.1 only. The last line is `N passed, M failed`;
the status is 1 if something failed.
"""
import socket
import struct
import subprocess
import sys
import tempfile
import threading
import time

from parts.counting import finish_results
from parts.ports import free_port, held_port, listens_at
from parts.repository import program_given

# How many comparisons there are.
LEAST = 75
# How long a run may take, in seconds.
LONGEST = 20

PROGRAM = program_given()

# message types of LLRP 1.1, section 17.1
(CAPABILITIES, CLOSE, REPORTS, KEEPALIVE, ACK, ERROR, CUSTOM) = (1, 14, 61, 62, 72, 100, 1023)
# READER_EVENT_NOTIFICATION with a ConnectionAttemptEvent of status 0, and of status 1
ACCEPTED = bytes.fromhex("043F000000200000000100F600160080000C0000000000000000010000060000")
REFUSED = ACCEPTED[:-1] + b"\x01"
# The id of the CLOSE_CONNECTION that the file has not.
OWN_ID = 4294967295
REPORT = bytes.fromhex("043D0000001B00000005 00F00011 8D3074257BF7194E4000001A85")

# Requests as lines and as octets, the second worked out from the layouts of section 17.
GET_CAPABILITIES = ("0 GET_READER_CAPABILITIES 1 1 0\n", "04010000000B0000000100")
DELETE_ROSPEC = ("0 DELETE_ROSPEC 1 2 7\n", "04150000000E0000000200000007")
GET_REPORT = ("0 GET_REPORT 1 3\n", "043C0000000A00000003")
ENABLE_EVENTS = ("0 ENABLE_EVENTS_AND_REPORTS 1 4\n", "04400000000A00000004")
VENDOR = ("0 CUSTOM_MESSAGE 1 5 25882 21 x00ff\n", "07FF0000001100000005 0000651A 15 00FF")
CLOSING = ("0 CLOSE_CONNECTION 1 6\n", "040E0000000A00000006")
GET_ACCESSSPECS = ("0 GET_ACCESSSPECS 2 9\n", "082C0000000A00000009")


def frame(kind, number, body=b"", version=1):
    """A message."""
    return struct.pack(">HII", version << 10 | kind, 10 + len(body), number) + body


def status(code, text=""):
    """LLRPStatus with a text."""
    said = text.encode()
    return struct.pack(">HHHH", 287, 8 + len(said), code, len(said)) + said


def response_to(kind):
    """The type of a response: ten more than that of its request, but for CLOSE_CONNECTION."""
    return 4 if kind == CLOSE else kind + 10


class Reader:
    """A reader that serves one connection. `answers` has what it does for each request of a type: a list of octets, sent one after
    another, each after a number of seconds. None is no answer."""

    def __init__(self, answers=None, accepted=ACCEPTED, cut=None, stays=False):
        self.answers, self.accepted, self.cut, self.stays = answers or {}, accepted, cut, stays
        self.came, self.times, self.said = [], [], b""
        self.socket = socket.create_server(("127.0.0.1", 0))
        self.port = self.socket.getsockname()[1]
        self.thread = threading.Thread(target=self.serve, daemon=True)
        self.thread.start()

    def serve(self):
        client, _ = self.socket.accept()
        client.setsockopt(socket.IPPROTO_TCP, socket.TCP_NODELAY, 1)
        with client:
            try:
                self.talk(client)
            except OSError:
                pass
        self.socket.close()

    def say(self, client, octets):
        """Sends octets, in pieces where it is to."""
        self.said += octets
        for at in range(0, len(octets), self.cut or len(octets) or 1):
            client.sendall(octets[at : at + (self.cut or len(octets))])

    def talk(self, client):
        self.say(client, self.accepted)
        while head := self.read(client, 10):
            kind, length, number = struct.unpack(">HII", head)
            self.came.append(head + self.read(client, length - 10))
            self.times.append(time.monotonic())
            version, kind = kind >> 10, kind & 1023
            if kind == ACK:
                continue
            default = [(0, frame(response_to(kind), number, status(0), version))] if kind not in (60, 64, CUSTOM) else []
            for wait, octets in self.answers.get(kind, default):
                time.sleep(wait)
                if octets is None:
                    return
                self.say(client, octets)
            if kind == CLOSE:
                return

    @staticmethod
    def read(client, size):
        """The next `size` octets, or none at the end."""
        octets = b""
        while len(octets) < size:
            more = client.recv(size - len(octets))
            if not more:
                return b""
            octets += more
        return octets

    def heard(self):
        """The octets that came, but for the CLOSE_CONNECTION that no file has."""
        return [it for it in self.came if it[2:] != frame(CLOSE, OWN_ID)[2:]]


def run(port, text, *words, seconds=LONGEST):
    """Status, standard output and standard error of `ask` with a file of this text."""
    with tempfile.NamedTemporaryFile("w", suffix=".txt") as file:
        file.write(text)
        file.flush()
        done = subprocess.run([PROGRAM, "ask", f"127.0.0.1:{port}", file.name, *words], capture_output=True, timeout=seconds, check=False)
    return done.returncode, done.stdout, done.stderr.decode()


def shown(octets, *words):
    """What `show --all` prints of octets."""
    return subprocess.run([PROGRAM, "show", "--all", *words], input=octets, capture_output=True, timeout=LONGEST, check=False).stdout


def octets(*requests):
    """The octets of requests, one after another."""
    return [bytes.fromhex(it) for _, it in requests]


def text(*requests):
    """The lines of requests, one after another."""
    return "".join(it for it, _ in requests)


def plain_runs():
    """Requests that are answered at once."""
    requests = (GET_CAPABILITIES, DELETE_ROSPEC, GET_REPORT, ENABLE_EVENTS, GET_ACCESSSPECS)
    reader = Reader()
    result = run(reader.port, text(*requests))
    yield "status and error", result[::2] == (0, "")
    yield "the octets of the file, and CLOSE_CONNECTION", reader.came == [*octets(*requests), frame(CLOSE, OWN_ID, version=2)]
    yield "what show --all prints", result[1] == shown(reader.said)
    yield "a line of it", b"\n0 GET_READER_CAPABILITIES_RESPONSE 1 1\n1 LLRPStatus 0 x\n" in result[1]
    reader = Reader()
    result = run(reader.port, text(*requests), "--json")
    yield "--json", result == (0, shown(reader.said, "--json"), "") and result[1].startswith(b'{"message":"READER_EVENT_NOTIFICATION"')
    reader = Reader()
    result = run(reader.port, "")
    yield "an empty file", result == (0, shown(reader.said), "") and reader.came == [frame(CLOSE, OWN_ID)]
    reader = Reader()
    result = run(reader.port, text(GET_CAPABILITIES, CLOSING))
    yield "CLOSE_CONNECTION in the file", result[::2] == (0, "") and reader.came == octets(GET_CAPABILITIES, CLOSING)
    reader = Reader(cut=1)
    result = run(reader.port, text(*requests))
    yield "octets one by one", result == (0, shown(reader.said), "") and reader.heard() == octets(*requests)


def waits():
    """What is waited for, and how long."""
    late = {CAPABILITIES: [(0.3, REPORT), (0.3, frame(KEEPALIVE, 77)), (0.3, frame(11, 8, status(0))), (0.3, frame(11, 1, status(0)))]}
    reader = Reader(late)
    result = run(reader.port, text(GET_CAPABILITIES, DELETE_ROSPEC))
    yield "a late response", result == (0, shown(reader.said), "")
    yield "the order", reader.heard() == [*octets(GET_CAPABILITIES), frame(ACK, 77), *octets(DELETE_ROSPEC)]
    yield "not before the response", reader.times[2] - reader.times[0] >= 1.1
    reader = Reader({CUSTOM: []})
    start = time.monotonic()
    result = run(reader.port, text(VENDOR, DELETE_ROSPEC), "--timeout", "1")
    yield "a CUSTOM_MESSAGE without an answer", result == (0, shown(reader.said), "") and reader.heard() == octets(VENDOR, DELETE_ROSPEC)
    yield "its time", 1 <= time.monotonic() - start < 8
    answer = frame(CUSTOM, 5, bytes.fromhex("0000651A160A"))
    reader = Reader({CUSTOM: [(0.2, answer)]})
    start = time.monotonic()
    result = run(reader.port, text(VENDOR, DELETE_ROSPEC), "--timeout", "9")
    yield "a CUSTOM_MESSAGE with an answer", result == (0, shown(reader.said), "") and time.monotonic() - start < 8
    reader = Reader({60: [(0.3, REPORT), (0.3, REPORT), (0.3, frame(KEEPALIVE, 78, version=2))]})
    result = run(reader.port, text(GET_REPORT) + "= 1.5s\n" + text(DELETE_ROSPEC))
    yield "a pause", result == (0, shown(reader.said), "") and result[1].count(b"\n0 RO_ACCESS_REPORT 1 5\n") == 2
    yield "its acknowledgement", reader.heard() == [*octets(GET_REPORT), frame(ACK, 78, version=2), *octets(DELETE_ROSPEC)]
    yield "its length", 1.5 <= reader.times[2] - reader.times[0] < 6
    reader = Reader()
    result = run(reader.port, "= 0s\n= 0.1s\n" + text(GET_CAPABILITIES) + "= 0.1s\n= 0.1s\n")
    yield "pauses in a row", result[::2] == (0, "") and reader.heard() == octets(GET_CAPABILITIES)


def bad_ends():
    """What a reader does that ends a run, and how it ends."""
    requests = (GET_CAPABILITIES, DELETE_ROSPEC, GET_REPORT)
    refusal = {CAPABILITIES: [(0, frame(11, 1, status(101, "no")))], 21: [(0, frame(31, 2, status(109)))]}
    reader = Reader(refusal)
    result = run(reader.port, text(*requests))
    yield "a refusal", result == (1, shown(reader.said), "llrp: status 101\n")
    yield "what is sent then", reader.came == [*octets(GET_CAPABILITIES), frame(CLOSE, OWN_ID)]
    reader = Reader(refusal)
    result = run(reader.port, text(*requests), "--go-on")
    yield "--go-on", result == (1, shown(reader.said), "llrp: status 101\n") and reader.heard() == octets(*requests)
    reader = Reader({21: [(0, frame(ERROR, 3, status(0)) + frame(ERROR, 2, status(112)))]})
    result = run(reader.port, text(*requests))
    yield "an ERROR_MESSAGE", result == (1, shown(reader.said), "llrp: status 112\n") and reader.heard() == octets(*requests[:2])
    reader = Reader({CUSTOM: [(0, frame(ERROR, 5, status(110)))]})
    result = run(reader.port, text(VENDOR, DELETE_ROSPEC))
    yield "an ERROR_MESSAGE to a CUSTOM_MESSAGE", result[::2] == (1, "llrp: status 110\n") and reader.heard() == octets(VENDOR)
    alive = [(0.3, frame(KEEPALIVE, number)) for number in range(20)]
    reader = Reader({CAPABILITIES: alive})
    start = time.monotonic()
    result = run(reader.port, text(*requests), "--timeout", "1")
    yield "no response", result[::2] == (3, "llrp: read\n") and 1 <= time.monotonic() - start < 5
    yield "nothing is sent then", reader.heard()[:1] == octets(GET_CAPABILITIES) and all(it[1] == ACK for it in reader.heard()[1:])
    reader = Reader({CAPABILITIES: [(0, frame(11, 2, status(0)) + frame(12, 1, status(0))), (5, None)]})
    result = run(reader.port, text(*requests), "--timeout", "1")
    yield "another id and another type", result[::2] == (3, "llrp: read\n")
    reader = Reader({CAPABILITIES: [(0, REPORT[:20]), (0, None)]})
    result = run(reader.port, text(*requests))
    yield "an early end", result == (1, shown(reader.said), "llrp: early\n") and result[1].endswith(b"? 20\n")
    reader = Reader({CAPABILITIES: [(0, frame(11, 1, status(0)) + bytes.fromhex("043D00000009"))], 21: []})
    result = run(reader.port, text(*requests))
    yield "a length below 10", result[0] == 1 and result[1] == shown(reader.said) and result[1].endswith(b"! BROKEN\n") and result[2] == "llrp: broken\n"
    reader = Reader({CAPABILITIES: [(0, bytes.fromhex("043D00100001") + bytes(4))]})
    result = run(reader.port, text(*requests))
    yield "a frame of 1,048,577 octets", result[::2] == (1, "llrp: strange\n") and result[1].endswith(b"? 10\n")
    fault = bytes.fromhex("043D0000000E00000009 00F00004")
    reader = Reader({CAPABILITIES: [(0, fault[:-1] + b"\x05" + frame(11, 1, status(0)))]})
    result = run(reader.port, text(*requests))
    yield "a faulty frame", result == (1, shown(reader.said), "") and b"\n! 9 " in result[1] and reader.heard() == octets(*requests)
    reader = Reader(accepted=REFUSED)
    result = run(reader.port, text(*requests))
    yield "a connection that is not accepted", result == (1, shown(REFUSED), "llrp: status 1\n") and not reader.came
    reader = Reader(accepted=b"")
    result = run(reader.port, text(*requests), "--timeout", "1")
    yield "one of which nothing is said", result == (3, b"", "llrp: read\n") and not reader.came
    yield "no reader", run(free_port(), text(*requests)) == (3, b"", "llrp: network\n")


def raw_octets():
    """Files with octets that are sent as they are."""
    long_report = bytes.fromhex("043C 0000000B 00000003 FF")
    reader = Reader()
    result = run(reader.port, "! 043C 0000 000B 0000 0003 fF\n" + text(DELETE_ROSPEC), "--raw")
    yield "a message with an octet too many", result == (0, shown(reader.said), "") and reader.heard() == [long_report, *octets(DELETE_ROSPEC)]
    reader = Reader()
    result = run(reader.port, text(GET_CAPABILITIES) + "! 0415000000\n= 0.4s\n! 0E00000002\t00000007\n= 0.4s\n", "--raw")
    sent = reader.heard()
    yield "a message in two parts", result[::2] == (0, "") and sent == octets(GET_CAPABILITIES, DELETE_ROSPEC)
    reader = Reader()
    result = run(reader.port, f"! {CLOSING[1]}\n= 0.4s\n", "--raw")
    yield "a close among octets", result[0] == 1 and reader.came[:1] == octets(CLOSING)
    reader = Reader()
    result = run(reader.port, text(GET_REPORT), "--raw", "--json")
    yield "--raw without octets", result == (0, shown(reader.said, "--json"), "") and reader.heard() == octets(GET_REPORT)
    for lines, said in (
        ("! 0\n", "line 1: Tail"),
        ("!\n", "line 1: Tail"),
        ("! \n", "line 1: Tail"),
        ("!00\n", "line 1: Tail"),
        ("! 0x00\n", "line 1: Tail"),
        ("0 GET_REPORT 1 1\n! 00\n= 1s\n! 1 96 ParamLength\n", "line 4: Tail"),
        ("! 00", "line 1: Line"),
        ("0 GET_REPORT 1 1\n! 00\n= 1\n", "line 3: Number"),
        ("! 00\n0 KEEPALIV 1 2\n", "line 2: Name"),
    ):
        reader = Reader()
        yield f"--raw {lines!r}", run(reader.port, lines, "--raw") == (1, b"", f"llrp: {said}\n") and not reader.said


def refused_files():
    """Files that are refused, and at which line; nothing is sent."""
    for lines, said in (
        ("0 GET_READER_CAPABILITIES 1 1\n", "line 1: Fields"),
        ("0 KEEPALIVE 1 1\n= 1s\n0 KEEPALIV 1 2\n", "line 3: Name"),
        ("0 ADD_ROSPEC 1 1\n= 1s\n", "line 1: Node Missing"),
        ("= 2.55s\n", "line 1: Number"),
        ("= 2,5s\n", "line 1: Number"),
        ("= 02s\n", "line 1: Number"),
        ("= .5s\n", "line 1: Number"),
        ("= 86401s\n", "line 1: Number"),
        ("= 1\n", "line 1: Number"),
        ("=1s\n", "line 1: Number"),
        ("= 1 s\n", "line 1: Number"),
        ("= 1s\n= 1s", "line 2: Line"),
        ("0 GET_REPORT 1 1\n= 0.5s\n= 0s\n0 GET_REPORT 1 2\n= -1s\n", "line 5: Number"),
        ("! 00\n", "line 1: Level"),
        ("\n", "line 1: Level"),
        ("0 GET_REPORT 1 1", "line 1: Line"),
    ):
        reader = Reader()
        yield repr(lines), run(reader.port, lines) == (1, b"", f"llrp: {said}\n") and not reader.said
    command = [PROGRAM, "ask", "127.0.0.1:1", "/nonexistent/file"]
    done = subprocess.run(command, capture_output=True, text=True, timeout=LONGEST, check=False)
    yield "no file", (done.returncode, done.stdout, done.stderr) == (3, "", "llrp: file\n")
    for words in (("ask",), ("ask", "reader"), ("ask", "reader:0", "x"), ("ask", "reader", "x", "--timeout", "0"), ("ask", "reader", "x", "y")):
        done = subprocess.run([PROGRAM, *words], capture_output=True, text=True, timeout=LONGEST, check=False)
        yield " ".join(words), (done.returncode, done.stdout) == (2, "") and done.stderr.startswith("error: ")


def simulated():
    """An exchange with the simulated reader."""
    rospec = (
        "1 ROSpec 7 0 0\n2 ROBoundarySpec\n3 ROSpecStartTrigger 0\n3 ROSpecStopTrigger 0 0\n2 AISpec w0\n3 AISpecStopTrigger 0 0\n"
        "3 InventoryParameterSpec 1 1\n2 ROReportSpec 2 1\n3 TagReportContentSelector 0 0 0 1 0 1 0 0 0 0\n"
    )
    lines = (
        text(GET_CAPABILITIES) + "0 GET_SUPPORTED_VERSION 1 2\n0 ADD_ROSPEC 1 3\n" + rospec
        + "0 ENABLE_ROSPEC 1 4 7\n0 START_ROSPEC 1 5 7\n= 0.5s\n0 GET_ROSPECS 1 6\n0 DELETE_ROSPEC 1 7 7\n0 DELETE_ROSPEC 1 8 7\n"
    )
    with held_port() as port:
        with subprocess.Popen([PROGRAM, "sim", "--all", str(port)], stdin=subprocess.PIPE, stderr=subprocess.PIPE, text=True) as sim:
            sim.stdin.write("3 1000 seen 1 -60 urn:epc:tag:gid-96:1.2.3\n")
            sim.stdin.close()
            while not listens_at(port):
                time.sleep(0.02)
            done = run(port, lines, "--timeout", "5")
            sim.wait(timeout=LONGEST)
    out = done[1].decode()
    yield "the last DELETE_ROSPEC is refused", done[::2] == (1, "llrp: status 101\n")
    for line in (
        "0 GET_READER_CAPABILITIES_RESPONSE 1 1\n", "0 GET_SUPPORTED_VERSION_RESPONSE 1 2", "0 ADD_ROSPEC_RESPONSE 1 3\n1 LLRPStatus 0 x\n",
        "2 EPC-96 urn:epc:tag:gid-96:1.2.3\n", "0 GET_ROSPECS_RESPONSE 1 6\n1 LLRPStatus 0 x\n1 ROSpec 7 0 2\n", "0 CLOSE_CONNECTION_RESPONSE 1 4294967295\n",
    ):
        yield f"{line!r} of the simulated reader", line in out


def main():
    results = [it for rows in (plain_runs, waits, bad_ends, raw_octets, refused_files, simulated) for it in rows()]
    return finish_results(results, LEAST)


if __name__ == "__main__":
    sys.exit(main())
