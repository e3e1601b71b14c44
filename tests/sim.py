#!/usr/bin/env python3
"""Runs `sim` with the options of test benches over real sockets: it says that it listens before anything else, serves clients one after another,
each as a new reader by the whole script, says how one that is at fault ended and serves the next, and listens where it is to and nowhere else.
With --clock what comes by itself comes at its moment.

usage: tests/sim.py [PROGRAM]

PROGRAM is llrp, crates/llrp/out/llrp where none is given. What a reader says first is written from LLRP 1.1 only. The last line is
`N passed, M failed`; the status is 1 if something failed.
"""
import contextlib
import os
import socket
import struct
import subprocess
import sys
import tempfile
import time

from parts.counting import finish_results, text_of
from parts.ports import held_port, listens_at, wait_until
from parts.repository import TOP, program_given

# How many comparisons there are.
LEAST = 156
# How long a run may take, in seconds.
LONGEST = 60

PROGRAM = program_given()

# READER_EVENT_NOTIFICATION with a ConnectionAttemptEvent of status 0, at the moment 0 (LLRP 1.1, section 14.1)
ACCEPTED = bytes.fromhex("043F000000200000000100F600160080000C0000000000000000010000060000")
# CLOSE_CONNECTION and its response, and the front of a frame.
CLOSE = bytes.fromhex("040E0000000A00000005")
CLOSED = bytes.fromhex("0404 00000012 00000005 011F 0008 0000 0000")
FRONT = bytes.fromhex("043E0000000A00")
BROKEN = bytes.fromhex("043E0000000900000001")

# Types of messages (LLRP 1.1, section 17.1).
SET_READER_CONFIG, CLOSE_CONNECTION, ADD_ROSPEC, START_ROSPEC, ENABLE_ROSPEC, GET_ROSPECS, GET_SUPPORTED_VERSION = 3, 14, 20, 22, 24, 26, 46
SET_READER_CONFIG_RESPONSE, ADD_ROSPEC_RESPONSE, START_ROSPEC_RESPONSE, ENABLE_ROSPEC_RESPONSE = 13, 30, 32, 34
CLOSE_CONNECTION_RESPONSE, GET_SUPPORTED_VERSION_RESPONSE, RO_ACCESS_REPORT, KEEPALIVE, EVENT = 4, 56, 61, 62, 63
# By how much something may come late, in seconds, or early after what the client heard late: the machine's other work holds both up.
LATE = 1.0
EARLY = 0.2


@contextlib.contextmanager
def simulated(*words, script=""):
    """Gives a running `sim`, whose script is read, and ends it where it still runs."""
    run = subprocess.Popen([PROGRAM, "sim", *words], stdin=subprocess.PIPE, stdout=subprocess.PIPE, stderr=subprocess.PIPE, text=True)
    try:
        run.stdin.write(script)
        run.stdin.close()
        yield run
    finally:
        run.kill()
        run.wait(timeout=LONGEST)
        run.stdout.close()
        run.stderr.close()


def ended(run):
    """The status of a run, and what it wrote to standard error after what was read of that."""
    return run.wait(timeout=LONGEST), run.stderr.read()


def talk(port, sent, host="127.0.0.1"):
    """All that a reader sends to a client that sends these octets and then closes its side."""
    with socket.create_connection((host, port), timeout=LONGEST) as client:
        client.sendall(sent)
        client.shutdown(socket.SHUT_WR)
        said = b""
        while more := client.recv(4096):
            said += more
        return said


def hears_nothing(client):
    """Whether nothing comes for a while."""
    client.settimeout(0.3)
    try:
        client.recv(1)
        return False
    except TimeoutError:
        return True


def is_refused(port, host):
    """Whether nothing listens there."""
    try:
        with socket.create_connection((host, port), timeout=LONGEST):
            return False
    except ConnectionRefusedError:
        return True


def ready():
    """A client connects as soon as the line is there."""
    for _ in range(10):
        with held_port() as port, simulated(str(port), "--ready", script="0 5 tick\n") as run:
            line = run.stderr.readline()
            yield "the line of --ready", line == f"llrp: listening on 127.0.0.1:{port}\n"
            yield "what a client hears at once", talk(port, CLOSE) == ACCEPTED + CLOSED and ended(run) == (0, "")


def one_after_another():
    """Clients that come one after another, or wait for one another."""
    with held_port() as port, simulated(str(port), "--clients", "3", "--ready") as run:
        run.stderr.readline()
        yield "three clients hear the same", [talk(port, it) for it in (CLOSE, b"", CLOSE)] == [ACCEPTED + CLOSED, ACCEPTED, ACCEPTED + CLOSED]
        yield "then it ends", ended(run) == (0, "") and is_refused(port, "127.0.0.1")
    with held_port() as port, simulated(str(port), "--clients", "4", "--ready") as run:
        run.stderr.readline()
        said = [talk(port, it) for it in (FRONT, BROKEN, CLOSE, b"")]
        yield "clients at fault end alone", said == [ACCEPTED, ACCEPTED, ACCEPTED + CLOSED, ACCEPTED]
        yield "how they ended", ended(run) == (1, "llrp: early\nllrp: broken\n")
    with held_port() as port, simulated(str(port), "--clients", "0", "--ready") as run:
        run.stderr.readline()
        yield "two hundred clients", all(talk(port, CLOSE) == ACCEPTED + CLOSED for _ in range(200)) and run.poll() is None
    with held_port() as port, simulated(str(port), "--clients", "2", "--ready") as run:
        run.stderr.readline()
        with socket.create_connection(("127.0.0.1", port), timeout=LONGEST) as first:
            first.recv(len(ACCEPTED), socket.MSG_WAITALL)
            with socket.create_connection(("127.0.0.1", port), timeout=LONGEST) as second:
                yield "a second client hears nothing meanwhile", hears_nothing(second)
                first.close()
                second.settimeout(LONGEST)
                yield "until the first has ended", second.recv(len(ACCEPTED), socket.MSG_WAITALL) == ACCEPTED
        yield "both ended well", ended(run) == (0, "")


# Of version 2: ADD_ROSPEC with a ROSpec of all antennas, and its response (LLRP 1.1, sections 11 and 17.1).
ADD_TWO = bytes.fromhex(
    "08140000003E00000002 00B10034000000010000 00B20012 00B3000500 00B600090000000000 00B7001800010000 00B800090000000000 00BA0007000101"
)
ADDED_TWO = bytes.fromhex("081E0000001200000002 011F000800000000")


def requests_of_version_two():
    """A reader of the profile takes requests of version 2 too; a request that is cut is an end that comes early."""
    for sent, said, end in (
        (ADD_TWO, ACCEPTED + ADDED_TWO, (0, "")), (ADD_TWO[:61], ACCEPTED, (1, "llrp: early\n")), (ADD_TWO[:9], ACCEPTED, (1, "llrp: early\n")),
        (bytes.fromhex("083E00000009"), ACCEPTED, (1, "llrp: broken\n")),
    ):
        with held_port() as port, simulated(str(port), "--ready") as run:
            run.stderr.readline()
            yield f"{len(sent)} octets of version 2", talk(port, sent) == said and ended(run) == end


def whole_scripts():
    """Each client sees all that the script says."""
    script = text_of("examples/sightings.script")
    wanted = "urn:epc:tag:sgtin-96:3.0614141.812345.6789 1 -60\nurn:epc:tag:sscc-96:0.0614141.0000000001 2 -64\n= 2\ntotal 2 1\n"
    with held_port() as port, simulated(str(port), "--clients", "3", "--ready", script=script) as run:
        run.stderr.readline()
        for number in range(3):
            command = [PROGRAM, "inventory", "127.0.0.1", str(port), "--polls", "1"]
            done = subprocess.run(command, capture_output=True, text=True, timeout=LONGEST, check=False)
            yield f"the tags of client {number}", (done.returncode, done.stdout, done.stderr) == (0, wanted, "")
        yield "the three ended well", ended(run) == (0, "")


def addresses():
    """It listens where it is to, and nowhere else."""
    with held_port() as port, simulated(str(port)) as run:
        wait_until(lambda: listens_at(port), LONGEST, "sim listens")
        yield "without --bind another address is closed", is_refused(port, "127.0.0.2")
        yield "and this one is open, for one client", talk(port, CLOSE) == ACCEPTED + CLOSED and ended(run) == (0, "")
    with held_port() as port, simulated(str(port), "--bind", "127.0.0.2", "--ready") as run:
        yield "the line of another address", run.stderr.readline() == f"llrp: listening on 127.0.0.2:{port}\n"
        yield "127.0.0.1 is closed", is_refused(port, "127.0.0.1")
        yield "the other address is open", talk(port, CLOSE, "127.0.0.2") == ACCEPTED + CLOSED and ended(run) == (0, "")
    with held_port() as port, simulated(str(port), "--bind", "0.0.0.0", "--ready", "--clients", "2") as run:
        yield "the line of all addresses", run.stderr.readline() == f"llrp: listening on 0.0.0.0:{port}\n"
        yield "each is open", [talk(port, b"", it) for it in ("127.0.0.1", "127.0.0.2")] == [ACCEPTED] * 2 and ended(run) == (0, "")


def refusals():
    """What ends it before a client comes."""
    with held_port() as port, simulated(str(port), "--ready", "--clients", "2", script="0 5 tick\n0 4 tick\n") as run:
        yield "a script that is refused", ended(run) == (1, "llrp: script line 2\n")
    with socket.create_server(("127.0.0.1", 0)) as taken:
        with simulated(str(taken.getsockname()[1]), "--ready") as run:
            yield "a port that is taken", ended(run) == (3, "llrp: network\n")
    with held_port() as port, simulated(str(port), "--ready", "--bind", "no.such.host.invalid") as run:
        yield "a host that there is not", ended(run) == (3, "llrp: network\n")
    for words in (("0",), ("5084", "--clients", "65536"), ("5084", "--clients", "-1"), ("5084", "--clients"), ("5084", "--bind")):
        with simulated(*words) as run:
            status, said = ended(run)
            yield " ".join(words), status == 2 and said.startswith("error: ")


# ---- with --clock


def message(kind, number, body=b""):
    """A message of version 1."""
    return struct.pack(">HII", 0x400 + kind, 10 + len(body), number) + body


def parameter(kind, body):
    """A parameter of type, length and value."""
    return struct.pack(">HH", kind, 4 + len(body)) + body


def rospec(duration=0):
    """ROSpec 1 for each antenna, which reports each tag, and runs for `duration` milliseconds if that is not 0 (LLRP 1.1, section 11)."""
    stop = parameter(182, struct.pack(">BI", 1 if duration else 0, duration))
    boundary = parameter(178, parameter(179, b"\0") + stop)
    antennas = parameter(183, struct.pack(">HH", 1, 0) + parameter(184, struct.pack(">BI", 0, 0)) + parameter(186, struct.pack(">HB", 1, 1)))
    report = parameter(237, struct.pack(">BH", 2, 1) + parameter(238, b"\x10\0"))
    return parameter(177, struct.pack(">IBB", 1, 0, 0) + boundary + antennas + report)


def started(duration=0):
    """The messages with which a client starts that ROSpec."""
    number = struct.pack(">I", 1)
    return message(ADD_ROSPEC, 1, rospec(duration)) + message(ENABLE_ROSPEC, 2, number) + message(START_ROSPEC, 3, number)


class Client:
    """A client that takes what its reader sends, message by message, and when each came."""

    def __init__(self, port):
        self.connection = socket.create_connection(("127.0.0.1", port), timeout=LONGEST)
        self.held = b""

    def __enter__(self):
        return self

    def __exit__(self, *_):
        self.connection.close()

    def send(self, octets):
        self.connection.sendall(octets)

    def frame(self, seconds):
        """The next frame within a time, or b"" if none comes, and None at the end."""
        until = time.monotonic() + seconds
        while len(self.held) < 6 or len(self.held) < struct.unpack(">I", self.held[2:6])[0]:
            left = until - time.monotonic()
            if left <= 0:
                return b""
            self.connection.settimeout(left)
            try:
                more = self.connection.recv(4096)
            except TimeoutError:
                return b""
            if not more:
                return None
            self.held += more
        length = struct.unpack(">I", self.held[2:6])[0]
        frame, self.held = self.held[:length], self.held[length:]
        return frame

    def heard(self, seconds):
        """The types of the messages that come within a time, each with when it came, from now on; None for the end."""
        begun = time.monotonic()
        heard = []
        while (left := begun + seconds - time.monotonic()) > 0:
            frame = self.frame(left)
            if frame is None:
                return heard + [(None, time.monotonic() - begun)]
            if frame:
                heard.append((kind_of(frame), time.monotonic() - begun))
        return heard

    def await_kind(self, kind):
        """Takes messages until one of this kind has come, and returns it."""
        while frame := self.frame(LONGEST):
            if kind_of(frame) == kind:
                return frame
        raise OSError(f"no message of type {kind} came")


def kind_of(frame):
    """The type of a message."""
    return struct.unpack(">H", frame[:2])[0] & 0x3FF


@contextlib.contextmanager
def living(*words, script="", clock="real", ready=True):
    """Gives a port where `sim` serves clients by a clock, and the running `sim`, once it listens if it is to."""
    with held_port() as port, simulated(str(port), "--clock", clock, "--ready", *words, script=script) as run:
        if ready:
            run.stderr.readline()
        yield port, run


def comes_at(heard, kind, moments):
    """Whether messages of a type come at these moments, and no others do."""
    came = [moment for its, moment in heard if its == kind]
    return len(came) == len(moments) and all(wanted - EARLY <= moment <= wanted + LATE for moment, wanted in zip(came, moments))


def time_passes():
    """What comes by itself comes at its moment."""
    with living() as (port, run), Client(port) as client:
        accepted = client.await_kind(EVENT)
        stamp = struct.unpack(">Q", accepted[18:26])[0] / 1_000_000
        yield "the time of the first event", abs(stamp - time.time()) < LATE + 1 and accepted[:14] == ACCEPTED[:14]
        client.send(message(SET_READER_CONFIG, 1, b"\0" + parameter(220, struct.pack(">BI", 1, 250))))
        client.await_kind(SET_READER_CONFIG_RESPONSE)
        heard = client.heard(1.1)
        yield "KEEPALIVEs come by themselves", [kind for kind, _ in heard] in ([KEEPALIVE] * 3, [KEEPALIVE] * 4)
        yield "each a period after the other", all(0.25 - EARLY < b - a < 0.25 + LATE for (_, a), (_, b) in zip(heard, heard[1:]))
        client.send(CLOSE)
        client.await_kind(CLOSE_CONNECTION_RESPONSE)
        yield "it ends well", ended(run) == (0, "")
    with living() as (port, run), Client(port) as client:
        client.send(started(duration=500))
        client.await_kind(START_ROSPEC_RESPONSE)
        yield "a ROSpec starts, and ends by itself", comes_at(client.heard(1.2), EVENT, [0, 0.5])
    with living() as (port, run), Client(port) as client:
        client.await_kind(EVENT)
        yield "a client that says nothing hears nothing", client.heard(0.5) == [] and run.poll() is None
        client.send(message(GET_SUPPORTED_VERSION, 9))
        yield "and is served then", client.await_kind(GET_SUPPORTED_VERSION_RESPONSE)[6:10] == struct.pack(">I", 9)


def lines_with_moments():
    """Lines of a script happen at their moments, in its order."""
    tag = "seen 1 -60 urn:epc:tag:gid-96:1.2.3\n"
    with living(script=f"started+300ms {tag}started+800ms {tag}accepted+0s {tag}") as (port, _), Client(port) as client:
        client.send(started())
        client.await_kind(START_ROSPEC_RESPONSE)
        yield "tags at their moments", comes_at(client.heard(1.4), RO_ACCESS_REPORT, [0.3, 0.8])
    with living(script=f"accepted+1s {tag}") as (port, _), Client(port) as client:
        client.send(started())
        client.await_kind(START_ROSPEC_RESPONSE)
        yield "a moment after the connection", comes_at(client.heard(1.8), RO_ACCESS_REPORT, [1])
    script = "".join(f"started+{at}ms seen 1 -60 urn:epc:tag:gid-96:1.2.{serial}\n" for at, serial in ((600, 3), (300, 1), (300, 2), (600, 4)))
    with living(script=script) as (port, _), Client(port) as client:
        client.send(started())
        serials = [client.await_kind(RO_ACCESS_REPORT)[-4] for _ in range(4)]
        yield "lines of one moment in the script's order", [it & 15 for it in serials] == [1, 2, 3, 4]
    with living(script=f"started+4s {tag}", clock="real*10") as (port, _), Client(port) as client:
        client.send(started())
        client.await_kind(START_ROSPEC_RESPONSE)
        yield "ten times as fast", comes_at(client.heard(1.2), RO_ACCESS_REPORT, [0.4])
    with living(script=f"started+100ms every 20ms for 1s {tag}") as (port, _), Client(port) as client:
        client.send(started())
        client.await_kind(START_ROSPEC_RESPONSE)
        reports = [moment for kind, moment in client.heard(1.8) if kind == RO_ACCESS_REPORT]
        yield "every 20 milliseconds for a second", len(reports) == 50 and reports[0] < 0.1 + LATE and 1.08 - EARLY < reports[-1] < 1.08 + LATE
    with living(script=f"3 0 {tag}") as (port, _), Client(port) as client:
        client.send(message(GET_SUPPORTED_VERSION, 9) + started())
        yield "a line after the client's third frame", comes_at(client.heard(0.6), RO_ACCESS_REPORT, [0])


def clients_that_misbehave():
    """Clients that cut their frames anywhere, fall silent within one, reset, and two hundred one after another."""
    tag = "3 0 seen 1 -60 urn:epc:tag:gid-96:1.2.3\n"
    talk_of = [EVENT, ADD_ROSPEC_RESPONSE, ENABLE_ROSPEC_RESPONSE, START_ROSPEC_RESPONSE, EVENT, RO_ACCESS_REPORT, CLOSE_CONNECTION_RESPONSE]
    octets = started() + message(CLOSE_CONNECTION, 4)
    for size in (1, 3, 7, 11, 64, 4096):
        with living(script=tag) as (port, run), Client(port) as client:
            client.connection.setsockopt(socket.IPPROTO_TCP, socket.TCP_NODELAY, 1)
            for start in range(0, len(octets), size):
                client.send(octets[start : start + size])
            heard = [kind for kind, _ in client.heard(LONGEST)]
            yield f"frames cut into pieces of {size}", heard == talk_of + [None] and ended(run) == (0, "")
    with living("--clients", "3") as (port, run):
        with Client(port) as client:
            client.send(FRONT)
            yield "a client that falls silent within a frame", client.heard(0.5) != [] and run.poll() is None
        with Client(port) as client:
            client.await_kind(EVENT)
            client.connection.setsockopt(socket.SOL_SOCKET, socket.SO_LINGER, struct.pack("ii", 1, 0))
        with Client(port) as client:
            client.send(CLOSE)
            yield "a client after one that reset", [kind for kind, _ in client.heard(LONGEST)] == [EVENT, CLOSE_CONNECTION_RESPONSE, None]
        yield "how they ended", ended(run) == (3, "llrp: early\nllrp: read\n")
    with living("--clients", "200") as (port, run):
        for _ in range(200):
            with Client(port) as client:
                client.send(CLOSE)
                if [kind for kind, _ in client.heard(LONGEST)] != [EVENT, CLOSE_CONNECTION_RESPONSE, None]:
                    break
        yield "two hundred clients by the clock", ended(run) == (0, "")


def beside_one(serving, label):
    """A client that comes while another is served is refused, and one that comes after it is served."""
    refused = bytes.fromhex("043F 00000020 00000001 00F6 0016 0080 000C")
    with serving("--clients", "2") as (port, run):
        with Client(port) as first:
            first.await_kind(EVENT)
            for number in range(2):
                with Client(port) as second:
                    second.send(message(GET_SUPPORTED_VERSION, 9))
                    said, end = second.frame(1), second.frame(1)
                    yield f"{label}: client {number} beside the first is refused", (said[:18], said[26:], end) == (refused, b"\1\0\0\6\0\2", None)
            first.send(message(GET_SUPPORTED_VERSION, 9))
            heard = [kind for kind, _ in first.heard(0.3)]
            yield f"{label}: the first is served on, and heard of both", heard == [EVENT, EVENT, GET_SUPPORTED_VERSION_RESPONSE]
            first.send(CLOSE)
            first.await_kind(CLOSE_CONNECTION_RESPONSE)
        with Client(port) as third:
            third.send(CLOSE)
            yield f"{label}: a client after it is served", [kind for kind, _ in third.heard(LONGEST)] == [EVENT, CLOSE_CONNECTION_RESPONSE, None]
        yield f"{label}: both ended well", ended(run) == (0, "")
    with serving("--clients", "100") as (port, run):
        served = 0
        for _ in range(100):
            with Client(port) as client:
                served += client.frame(LONGEST)[26:] == b"\1\0\0\6\0\0"
        yield f"{label}: none of a hundred that come at once after another is refused", served == 100 and ended(run) == (0, "")


def second_clients():
    """Clients beside one that is served by a clock."""
    yield from beside_one(living, "by a clock")


def second_general_clients():
    """Clients beside one that is served with --all and without a clock."""
    yield from beside_one(general, "--all")


def readers_that_misbehave():
    """What a script makes a reader do on purpose."""
    with living(script="accepted+300ms close\n") as (port, run), Client(port) as client:
        heard = client.heard(2)
        yield "it closes the connection", [kind for kind, _ in heard] == [EVENT, None] and 0.3 - EARLY < heard[1][1] < 0.3 + LATE and ended(run) == (0, "")
    with living(script="accepted+0s silent 600ms\n") as (port, run), Client(port) as client:
        client.await_kind(EVENT)
        client.send(message(GET_SUPPORTED_VERSION, 9))
        yield "it falls silent, and then says what it would have", comes_at(client.heard(1.5), GET_SUPPORTED_VERSION_RESPONSE, [0.57])


# Versions of LLRP (1.1, section 17.1): SET_PROTOCOL_VERSION is type 47, its response 57, and ERROR_MESSAGE 100; M_UnsupportedVersion is 110.
SET_PROTOCOL_VERSION, SET_PROTOCOL_VERSION_RESPONSE, ERROR_MESSAGE, KEEPALIVE_ACK, CUSTOM_MESSAGE = 47, 57, 100, 72, 1023


def status(code):
    """LLRPStatus without a text."""
    return parameter(287, struct.pack(">HH", code, 0))


def second(octets):
    """A message of version 1 as one of version 2."""
    return struct.pack(">H", struct.unpack(">H", octets[:2])[0] + 0x400) + octets[2:]


def agrees_on_versions(port, label):
    """A connection begins in version 1, and goes on in the one that is agreed."""
    with Client(port) as client:
        client.await_kind(EVENT)
        for sent, wanted in (
            (second(message(GET_SUPPORTED_VERSION, 2)), second(message(GET_SUPPORTED_VERSION_RESPONSE, 2, b"\1\2" + status(0)))),
            (second(message(KEEPALIVE_ACK, 3)), message(ERROR_MESSAGE, 3, status(110))),
            (second(message(SET_PROTOCOL_VERSION, 4, b"\2")), second(message(SET_PROTOCOL_VERSION_RESPONSE, 4, status(0)))),
            (message(KEEPALIVE_ACK, 5), message(ERROR_MESSAGE, 5, status(110))),
            (second(message(SET_PROTOCOL_VERSION, 6, b"\3")), second(message(SET_PROTOCOL_VERSION_RESPONSE, 6, status(110)))),
            (second(message(CLOSE_CONNECTION, 7)), second(message(CLOSE_CONNECTION_RESPONSE, 7, status(0)))),
        ):
            client.send(sent)
            yield f"{label}: message {sent[9]}", client.frame(LONGEST) == wanted


def asks_for_versions(label, *words):
    """A client that asks for versions, or asks in one that was not agreed on, and closes its side at once, is answered all the same."""
    for sent, wanted in (
        (second(message(GET_SUPPORTED_VERSION, 7)), second(message(GET_SUPPORTED_VERSION_RESPONSE, 7, b"\1\2" + status(0)))),
        (second(message(GET_ROSPECS, 8)), message(ERROR_MESSAGE, 8, status(110))),
    ):
        with held_port() as port, simulated(str(port), "--ready", *words) as run:
            run.stderr.readline()
            yield f"{label}: message {sent[9]}, and its end", talk(port, sent) == ACCEPTED + wanted and ended(run) == (0, "")


def versions():
    """Versions by a clock."""
    with living() as (port, _):
        yield from agrees_on_versions(port, "versions")


# Further messages: DELETE_ROSPEC, DELETE_ACCESSSPEC, and their responses; M_FieldError is 101, and A_OutOfRange of a field 301.
DELETE_ROSPEC, DELETE_ROSPEC_RESPONSE, DELETE_ACCESSSPEC, DELETE_ACCESSSPEC_RESPONSE = 21, 31, 41, 51


@contextlib.contextmanager
def general(*words, script=""):
    """Gives a port where `sim --all` serves clients without a clock, and the running `sim`, once it listens."""
    with held_port() as port, simulated(str(port), "--all", "--ready", *words, script=script) as run:
        run.stderr.readline()
        yield port, run


def code_of(frame):
    """The status with which a response begins."""
    return struct.unpack(">H", frame[14:16])[0]


def general_clients():
    """With --all and without a clock general clients are served as by a clock, but time stands still."""
    yield from asks_for_versions("--all", "--all")
    with general("--clients", "2") as (port, run):
        yield from agrees_on_versions(port, "--all")
        with Client(port) as client:
            yield "the next client begins in version 1, at moment 0", client.frame(LONGEST) == ACCEPTED
            for sent, wanted in (
                (message(DELETE_ACCESSSPEC, 1, bytes(4)), message(DELETE_ACCESSSPEC_RESPONSE, 1, status(0))),
                (message(SET_READER_CONFIG, 2, b"\0" + parameter(239, b"\0")), message(SET_READER_CONFIG_RESPONSE, 2, status(0))),
                (message(DELETE_ROSPEC, 3, struct.pack(">I", 7)), message(DELETE_ROSPEC_RESPONSE, 3, parameter(287, struct.pack(">HH", 101, 0) + parameter(288, struct.pack(">HH", 1, 301))))),
                (message(CUSTOM_MESSAGE, 4, struct.pack(">IB", 25882, 21)), message(ERROR_MESSAGE, 4, status(109))),
            ):
                client.send(sent)
                yield f"--all: message {sent[9]} of type {kind_of(sent)}", client.frame(LONGEST) == wanted
            client.send(message(DELETE_ROSPEC, 5, b"\0"))
            refused = client.frame(LONGEST)
            yield "a frame that is no message", kind_of(refused) == ERROR_MESSAGE and len(refused) > len(message(ERROR_MESSAGE, 5, status(100)))
            client.send(CLOSE)
            client.await_kind(CLOSE_CONNECTION_RESPONSE)
        yield "both ended well", ended(run) == (0, "")
    enable = message(CUSTOM_MESSAGE, 9, struct.pack(">IBI", 25882, 21, 0))
    enabled = message(CUSTOM_MESSAGE, 9, struct.pack(">IB", 25882, 22) + status(0))
    with general("--clients", "2", "--answers", os.path.join(TOP, "examples/answers")) as (port, run):
        for number in (1, 2):
            with Client(port) as client:
                client.await_kind(EVENT)
                client.send(enable)
                yield f"--all: an answer of a file to client {number}", client.frame(LONGEST) == enabled
        yield "and all is well", ended(run) == (0, "")
    for words, codes in (((), [0, 0]), (("--keep",), [0, 101])):
        with general("--clients", "2", *words) as (port, run):
            said = []
            for _ in codes:
                with Client(port) as client:
                    client.await_kind(EVENT)
                    client.send(message(ADD_ROSPEC, 1, rospec()))
                    said.append(code_of(client.await_kind(ADD_ROSPEC_RESPONSE)))
            yield f"--all: a ROSpec of the client before {words}", said == codes and ended(run) == (0, "")
    counted = "1 1000 seen 1 -60 urn:epc:tag:gid-96:1.2.3\n3 2000 seen 1 -60 urn:epc:tag:gid-96:1.2.3\n"
    with general(script=counted) as (port, run), Client(port) as client:
        client.await_kind(EVENT)
        client.send(message(GET_SUPPORTED_VERSION, 1) + message(DELETE_ACCESSSPEC, 2, bytes(4)) + started())
        report = client.await_kind(RO_ACCESS_REPORT)
        yield "a script does not count what is answered by itself", report is not None and client.frame(0.3) == b""
        client.send(CLOSE)
        client.await_kind(CLOSE_CONNECTION_RESPONSE)
        yield "and it ends well", ended(run) == (0, "")
    with held_port() as port, simulated(str(port), "--keep") as run:
        code, said = ended(run)
        yield "--keep alone", code == 2 and said.startswith("error: the argument '--keep' needs '--all' or '--clock <CLOCK>'")


def answered():
    """Messages that the reader does not know are answered by a file, for each client, and files are refused at their lines."""
    enable = message(CUSTOM_MESSAGE, 9, struct.pack(">IBI", 25882, 21, 0))
    enabled = message(CUSTOM_MESSAGE, 9, struct.pack(">IB", 25882, 22) + status(0))
    with living("--clients", "2", "--answers", os.path.join(TOP, "examples/answers")) as (port, _):
        for number in (1, 2):
            with Client(port) as client:
                client.await_kind(EVENT)
                client.send(enable)
                yield f"an answer of a file to client {number}", client.frame(LONGEST) == enabled
                client.send(message(CUSTOM_MESSAGE, 8, struct.pack(">IB", 25882, 23)))
                yield f"no answer to another, client {number}", client.frame(LONGEST) == message(ERROR_MESSAGE, 8, status(109))
                client.send(CLOSE)
                client.await_kind(CLOSE_CONNECTION_RESPONSE)
    with living() as (port, _), Client(port) as client:
        client.await_kind(EVENT)
        client.send(enable)
        yield "without a file", client.frame(LONGEST) == message(ERROR_MESSAGE, 9, status(109))
    for text, said in (
        ("0 KEEPALIVE 1 1\n", "llrp: answers line 1: Line\n"),
        ("? 0 CUSTOM_MESSAGE * *\n", "llrp: answers line 1: Fields\n"),
        ("? 0 KEEPALIVE * *\n0 KEEPALIVE 1 1\n? 0 KEEPALIVES * *\n", "llrp: answers line 3: Name\n"),
        ("? 0 KEEPALIVE * *\n0 KEEPALIVE 3 1\n", "llrp: answers line 2: Number\n"),
    ):
        with tempfile.NamedTemporaryFile("w", suffix=".answers") as file:
            file.write(text)
            file.flush()
            with held_port() as port, simulated(str(port), "--clock", "real", "--answers", file.name) as run:
                yield f"the answers {text!r}", ended(run) == (1, said)
    with held_port() as port, simulated(str(port), "--clock", "real", "--answers", "/no/such/file") as run:
        yield "no file of answers", ended(run) == (3, "llrp: answers\n")
    with held_port() as port, simulated(str(port), "--answers", "/no/such/file") as run:
        status_, said = ended(run)
        yield "answers without a clock", status_ == 2 and said.startswith("error: the argument '--answers <FILE>' needs '--all' or '--clock <CLOCK>'")


def refused_clocks():
    """Clocks and lines that are none."""
    tag = "seen 1 -60 urn:epc:tag:gid-96:1.2.3\n"
    for clock in ("", "fast", "real*", "real*0", "real*01", "real*1001", "real*x", "Real"):
        with held_port() as port, simulated(str(port), "--clock", clock, "--ready") as run:
            status, said = ended(run)
            yield f"--clock {clock!r}", status == 2 and said.startswith("error: invalid value for '--clock <CLOCK>'")
    for line in (
        f"accepted+1 {tag}", f"accepted+ms {tag}", f"accepted+01s {tag}", f"accepted 1s {tag}", f"Accepted+1s {tag}", f"+1s {tag}", f"ended+1s {tag}",
        f"accepted+1s  {tag}", "accepted+1s\n", "accepted+1s seen 1 -60 urn:epc:tag:gid-96:1.2\n", f"accepted+1000000001s {tag}", "accepted+1s close now\n",
        f"started+1s every 0ms for 1s {tag}", f"started+1s every 1ms {tag}", "accepted+1s silent\n", "accepted+1s close", f"accepted+1s 0 0 {tag}",
    ):
        with held_port() as port, simulated(str(port), "--clock", "real", "--ready", script=f"0 0 tick\n{line}") as run:
            yield f"the line {line!r}", ended(run) == (1, "llrp: script line 2\n")
    with held_port() as port, simulated(str(port), "--ready", script=f"accepted+1s {tag}") as run:
        yield "a moment without a clock", ended(run) == (1, "llrp: script line 1\n")
    with held_port() as port, simulated(str(port), "--clock", "real", "--ready", script=f"3 5 tick\naccepted+1s {tag}3 4 tick\n") as run:
        yield "NOW that falls", ended(run) == (1, "llrp: script line 3\n")


def examples():
    """The example of a test by pytest passes, each test with a reader of its own."""
    words = ["pytest-3", "-q", "-p", "no:cacheprovider", os.path.join(TOP, "examples/python/test_client.py")]
    environment = {**os.environ, "LLRP": PROGRAM, "PYTHONDONTWRITEBYTECODE": "1"}
    done = subprocess.run(words, capture_output=True, text=True, timeout=LONGEST, check=False, env=environment)
    yield "examples/python/test_client.py", done.returncode == 0 and "2 passed" in done.stdout


PLAIN = (ready, one_after_another, requests_of_version_two, whole_scripts, addresses, refusals, general_clients, second_general_clients, examples)
BY_CLOCK = (time_passes, lines_with_moments, clients_that_misbehave, second_clients, readers_that_misbehave, versions, answered, refused_clocks)


def main():
    results = [it for rows in PLAIN + BY_CLOCK for it in rows()]
    return finish_results(results, LEAST)


if __name__ == "__main__":
    sys.exit(main())
