#!/usr/bin/env python3
"""Runs `sim --clock` as test benches do, over real sockets: on a free port, with ROSpecs that it keeps, with lines of a script that expect
messages of the client, that let something happen to antennas and inputs, and that send octets or half a message; with a stub of a general
client's first talk; and with two hundred thousand sightings.

usage: tests/benches.py [PROGRAM]

PROGRAM is llrp, crates/llrp/out/llrp where none is given. What a reader says is written from LLRP 1.1 only. The last line is
`N passed, M failed`; the status is 1 if something failed.
"""
import collections
import socket
import struct
import sys
import tempfile
import time

from parts.counting import finish_results
from sim import ACCEPTED, CLOSE, EVENT, KEEPALIVE, LATE, LONGEST, RO_ACCESS_REPORT, Client, ended, kind_of, living, message, parameter, rospec, second, simulated, started, status, talk

# How many comparisons there are.
LEAST = 151

# Types of messages and parameters (LLRP 1.1, section 17).
GET_READER_CAPABILITIES, GET_READER_CONFIG, SET_READER_CONFIG, DELETE_ROSPEC, ADD_ROSPEC, GET_ROSPECS = 1, 2, 3, 21, 20, 26
ENABLE_ROSPEC, START_ROSPEC, DELETE_ACCESSSPEC, GET_SUPPORTED_VERSION, CUSTOM_MESSAGE, GET_REPORT = 24, 22, 41, 46, 1023, 60
STOP_ROSPEC, DISABLE_ROSPEC, STOP_ROSPEC_RESPONSE, DISABLE_ROSPEC_RESPONSE = 23, 25, 33, 35
GET_READER_CAPABILITIES_RESPONSE, GET_READER_CONFIG_RESPONSE, SET_READER_CONFIG_RESPONSE, DELETE_ROSPEC_RESPONSE = 11, 12, 13, 31
ADD_ROSPEC_RESPONSE, GET_ROSPECS_RESPONSE, ENABLE_ROSPEC_RESPONSE, START_ROSPEC_RESPONSE, DELETE_ACCESSSPEC_RESPONSE = 30, 36, 34, 32, 51
GET_SUPPORTED_VERSION_RESPONSE, CLOSE_CONNECTION_RESPONSE, ERROR_MESSAGE = 56, 4, 100
LLRP_STATUS, EVENT_DATA, TIMESTAMP, GPI_EVENT, ANTENNA_EVENT, CONNECTION_ATTEMPT = 287, 246, 128, 248, 255, 256
EVENT_SPEC, EVENT_STATE = 244, 245
FIELD_ERROR, PARAMETER_ERROR = 288, 289
ROSPEC, BOUNDARY, START_TRIGGER, STOP_TRIGGER, AISPEC, AI_STOP_TRIGGER, KEEPALIVE_SPEC, REPORT_SPEC, CUSTOM = 177, 178, 179, 182, 183, 184, 220, 237, 1023
TAG = "seen 1 -60 urn:epc:tag:gid-96:1.2.3\n"


def number_of(frame):
    """The id of a message."""
    return struct.unpack(">I", frame[6:10])[0]


def antenna_of(frame):
    """The antenna of a report's one tag, which comes after its EPC."""
    return struct.unpack(">H", frame[28:30])[0]


def event_in(frame):
    """The event in a READER_EVENT_NOTIFICATION, after the data's head and the time."""
    return frame[10 + 4 + 12 :]


def asks_for(kinds, reset=0):
    """SET_READER_CONFIG that asks for events, each of an EventType and with its state (LLRP 1.1, section 13)."""
    states = b"".join(parameter(EVENT_STATE, struct.pack(">HB", kind, 0x80 if state else 0)) for kind, state in kinds)
    return message(SET_READER_CONFIG, 1, bytes([reset << 7]) + (parameter(EVENT_SPEC, states) if kinds else b""))


def refused_at(types, field):
    """LLRPStatus of M_FieldError, for the value of a field in parameters of these types, the outermost first (LLRP 1.1, section 15): FieldError of
    A_OutOfRange, in a ParameterError for each parameter, where the innermost has P_FieldError and those around it have P_ParameterError."""
    errors = parameter(FIELD_ERROR, struct.pack(">HH", field, 301))
    for kind in reversed(types):
        errors = parameter(PARAMETER_ERROR, struct.pack(">HH", kind, 201 if kind == types[-1] else 200) + errors)
    return parameter(LLRP_STATUS, struct.pack(">HH", 101, 0) + errors)


def changed(octets, at, value):
    """These octets with another one in a place."""
    return octets[:at] + bytes([value]) + octets[at + 1 :]


def free_ports():
    """It listens on a free port, which it says."""
    for clock in ((), ("--clock", "real")):
        with simulated("0", "--ready", "--clients", "2", *clock) as run:
            line = run.stderr.readline()
            yield f"the line {clock}", line.startswith("llrp: listening on 127.0.0.1:") and 0 < int(line.rsplit(":", 1)[1]) < 65536
            for _ in range(2):
                with Client(int(line.rsplit(":", 1)[1])) as client:
                    client.send(CLOSE)
                    yield f"a client there {clock}", [kind for kind, _ in client.heard(LONGEST)] == [EVENT, CLOSE_CONNECTION_RESPONSE, None]
            yield f"it ends well {clock}", ended(run) == (0, "")
        with simulated("0", *clock) as run:
            code, said = ended(run)
            yield f"a free port that nothing says {clock}", code == 2 and said.startswith("error: invalid value '0' for '<PORT>'") and "--ready" in said


def tables():
    """ROSpecs stay from client to client with --keep, and else do not."""
    for words, stays in ((("--keep",), True), ((), False)):
        with living("--clients", "3", *words) as (port, run):
            with Client(port) as client:
                first = number_of(client.await_kind(EVENT))
                client.send(started())
                client.await_kind(START_ROSPEC_RESPONSE)
                second = number_of(client.await_kind(EVENT))
                yield f"{words}: its own ids rise", (first, second) == (1, 2)
            with Client(port) as client:
                third = number_of(client.await_kind(EVENT))
                yield f"{words}: and go on, or begin again", third == (3 if stays else 1)
                client.send(message(GET_ROSPECS, 5))
                listed = client.await_kind(GET_ROSPECS_RESPONSE)[10 + 8 :]
                kept = rospec()[:9] + b"\1" + rospec()[10:]
                yield f"{words}: the ROSpec is Inactive, or gone", listed == (kept if stays else b"")
                client.send(message(START_ROSPEC, 6, struct.pack(">I", 1)) + CLOSE)
                wanted = status(0) if stays else refused_at((), 1)
                yield f"{words}: it may be started again", client.await_kind(START_ROSPEC_RESPONSE)[10:] == wanted
                client.await_kind(CLOSE_CONNECTION_RESPONSE)
            with Client(port) as client:
                client.await_kind(EVENT)
                client.send(message(GET_ROSPECS, 5) + CLOSE)
                yield f"{words}: and after one that said goodbye", client.await_kind(GET_ROSPECS_RESPONSE)[10 + 8 :] == (kept if stays else b"")
            yield f"{words}: they ended well", ended(run) == (0, "")
    with simulated("5084", "--keep") as run:
        code, said = ended(run)
        yield "--keep without a clock", code == 2 and said.startswith("error: the argument '--keep' needs '--all' or '--clock <CLOCK>'")


def expectations():
    """A message that is expected comes, comes late, or does not come."""
    script = "accepted+0s expect SET_READER_CONFIG within 500ms\naccepted+0s expect GET_ROSPECS within 2s\n"
    both = asks_for(()) + message(GET_ROSPECS, 2)
    for name, first, wait, later, wanted in (
        ("both in time", both + CLOSE, 0, b"", (0, "")),
        ("the second a second later", asks_for(()), 1, message(GET_ROSPECS, 2) + CLOSE, (0, "")),
        ("the first too late", b"", 1, both + CLOSE, (1, "llrp: expect: line 1\n")),
        ("the first not", message(GET_ROSPECS, 2), 1, CLOSE, (1, "llrp: expect: line 1\n")),
        ("the second not before it closes", asks_for(()) + CLOSE, 0, b"", (1, "llrp: expect: line 2\n")),
        ("a message of the kind that is none", message(SET_READER_CONFIG, 1) + message(GET_ROSPECS, 2), 1, CLOSE, (1, "llrp: expect: line 1\n")),
    ):
        with living(script=script) as (port, run), Client(port) as client:
            client.await_kind(EVENT)
            client.send(first)
            time.sleep(wait)
            try:
                client.send(later)
            except OSError:
                pass
            yield f"expect: {name}", ended(run) == wanted
    with living(script="0 0 tick\nstarted+200ms expect GET_REPORT within 300ms\n") as (port, run), Client(port) as client:
        client.send(message(GET_REPORT, 4) + started())
        client.await_kind(START_ROSPEC_RESPONSE)
        begun = time.monotonic()
        yield "expect: one before its moment does not count", ended(run) == (1, "llrp: expect: line 2\n") and 0.3 < time.monotonic() - begun < 0.5 + LATE
    with living("--clients", "2", script="accepted+0s expect GET_ROSPECS within 100ms\n") as (port, run):
        with Client(port) as client:
            yield "expect: the connection is closed", [kind for kind, _ in client.heard(LONGEST)] == [EVENT, None]
        with Client(port) as client:
            client.send(message(GET_ROSPECS, 5) + CLOSE)
            yield "expect: the next client is served", client.await_kind(GET_ROSPECS_RESPONSE) is not None
        yield "expect: and the greatest status counts", ended(run) == (1, "llrp: expect: line 1\n")


def side_events():
    """What happens to antennas and inputs is said where a client asked for it, under ids that rise."""
    script = "".join(
        f"started+{at}ms {what}\n" for at, what in enumerate(("antenna 2 off", "gpi 1 high", TAG.rstrip(), "antenna 2 on", "gpi 65535 low", TAG.rstrip()), 300)
    )
    off, on = parameter(ANTENNA_EVENT, b"\0\0\2"), parameter(ANTENNA_EVENT, b"\1\0\2")
    high, low = parameter(GPI_EVENT, b"\0\1\x80"), parameter(GPI_EVENT, b"\xff\xff\0")
    for name, asked, wanted in (
        ("nothing", [()], []),
        ("antennas", [((8, 1),)], [off, on]),
        ("inputs", [((1, 1),)], [high, low]),
        ("both", [((1, 1), (2, 1), (8, 1))], [off, high, on, low]),
        ("antennas, and then inputs", [((8, 1),), ((1, 1),)], [off, high, on, low]),
        ("antennas no more", [((8, 1), (1, 1)), ((8, 0),)], [high, low]),
    ):
        with living(script=script) as (port, _), Client(port) as client:
            for kinds in asked:
                client.send(asks_for(kinds))
            client.send(started())
            client.await_kind(START_ROSPEC_RESPONSE)
            client.await_kind(EVENT)
            frames = [client.frame(LONGEST) for _ in range(len(wanted) + 2)]
            yield f"side events: {name}", [event_in(it) for it in frames if kind_of(it) == EVENT] == wanted
            yield f"side events: {name}, ids that rise", [number_of(it) for it in frames] == list(range(3, 3 + len(frames)))
    with living(script=script) as (port, _), Client(port) as client:
        refused = message(SET_READER_CONFIG, 1, b"\0" + parameter(220, struct.pack(">BI", 1, 0)) + parameter(EVENT_SPEC, parameter(EVENT_STATE, b"\0\x08\x80")))
        client.send(refused + started())
        heard = [kind for kind, _ in client.heard(1.5)]
        yield "side events: a request that is refused asks for nothing", collections.Counter(heard)[EVENT] == 2
    with living(script=script) as (port, _), Client(port) as client:
        client.send(asks_for(((8, 1), (1, 1))) + asks_for((), reset=1) + started())
        heard = [kind for kind, _ in client.heard(1.5)]
        yield "side events: and one that sets back hears of none", collections.Counter(heard)[EVENT] == 2


def second_clients():
    """The first client hears of one that is refused, by ConnectionAttemptEvent 4."""
    with living() as (port, _), Client(port) as first:
        first.await_kind(EVENT)
        with Client(port) as second:
            yield "the second is refused", event_in(second.frame(1)) == parameter(CONNECTION_ATTEMPT, b"\0\2")
        said = first.frame(LONGEST)
        yield "the first hears of it, under the next id", (number_of(said), event_in(said)) == (2, parameter(CONNECTION_ATTEMPT, b"\0\4"))


def misbehaviour():
    """Octets that are no message, and a message that is cut."""
    with living(script="accepted+100ms octets 04Ff0000000A\naccepted+300ms octets 00000007\n") as (port, _), Client(port) as client:
        client.await_kind(EVENT)
        yield "octets, in two pieces", client.frame(LONGEST) == bytes.fromhex("04FF0000000A00000007")
        client.send(message(GET_SUPPORTED_VERSION, 9))
        yield "and messages after them", kind_of(client.frame(LONGEST)) == GET_SUPPORTED_VERSION_RESPONSE
    script = "accepted+100ms send\n0 KEEPALIVE 2 8\n0 GET_ROSPECS_RESPONSE 1 9\n1 LLRPStatus 101 x\naccepted+300ms octets 04Ff0000000A00000007\n"
    with living(script=script) as (port, _), Client(port) as client:
        client.await_kind(EVENT)
        wanted = [second(message(KEEPALIVE, 8)), message(GET_ROSPECS_RESPONSE, 9, status(101)), bytes.fromhex("04FF0000000A00000007")]
        yield "messages below a line", [client.frame(LONGEST) for _ in wanted] == wanted
    for text, at in (("", 3), ("0 KEEPALIVE 2 8\n0 KEEPALIVES 2 9\n", 4), ("0 KEEPALIVE 2 8", 3)):
        with living(script=f"0 0 tick\naccepted+1s send\n{text}", ready=False) as (_, run):
            yield f"messages below a line: {text!r}", ended(run) == (1, f"llrp: script line {at}\n")
    for count in (0, 1, 9, 19, 1000):
        with living(script=f"accepted+0s cut {count}\n") as (port, run), Client(port) as client:
            client.await_kind(EVENT)
            client.send(message(GET_SUPPORTED_VERSION, 9) + message(GET_ROSPECS, 10))
            held = b""
            client.connection.settimeout(LONGEST)
            while more := client.connection.recv(4096):
                held += more
            whole = bytes.fromhex("043800000014000000090102011F000800000000")
            yield f"a message cut after {count} octets", held == whole[:count] and ended(run) == (0, "")


def statuses():
    """A response that says another status, once."""
    script = "accepted+0s status 401 ADD_ROSPEC_RESPONSE no room\naccepted+0s status 0 START_ROSPEC_RESPONSE\n"
    with living(script=script) as (port, _), Client(port) as client:
        client.await_kind(EVENT)
        client.send(message(ADD_ROSPEC, 1, rospec()) + message(ADD_ROSPEC, 2, rospec()) + message(START_ROSPEC, 3, struct.pack(">I", 9)))
        refusal = parameter(LLRP_STATUS, struct.pack(">HH", 401, 7) + b"no room")
        yield "a status and a text", client.frame(LONGEST) == message(ADD_ROSPEC_RESPONSE, 1, refusal)
        yield "once, and it was added", client.frame(LONGEST) == message(ADD_ROSPEC_RESPONSE, 2, refused_at((ROSPEC,), 1))
        yield "a status without a text", client.frame(LONGEST) == message(START_ROSPEC_RESPONSE, 3, status(0))
    script = "accepted+0s status 401 GET_ROSPECS_RESPONSE\naccepted+0s status 402 GET_ROSPECS_RESPONSE\n"
    with living(script=script) as (port, _), Client(port) as client:
        client.await_kind(EVENT)
        client.send(b"".join(message(GET_ROSPECS, number) for number in (1, 2, 3)))
        wanted = [message(GET_ROSPECS_RESPONSE, number, status(code)) for number, code in ((1, 401), (2, 402), (3, 0))]
        yield "two for one kind, one after the other", [client.frame(LONGEST) for _ in wanted] == wanted


def files_of_tags():
    """A line sees the tags of a file one after another, with the next antenna and signal strength."""
    with tempfile.TemporaryDirectory() as folder:
        path = f"{folder}/tags.txt"
        with open(path, "w", encoding="ascii") as file:
            file.writelines(f"urn:epc:tag:gid-96:1.2.{serial}\n" for serial in (3, 4, 5))
        script = f"started+100ms every 50ms for 350ms seen 1,2 -70..-69 {path}\n"
        with living(script=script) as (port, _), Client(port) as client:
            client.send(started())
            heard = [client.await_kind(RO_ACCESS_REPORT) for _ in range(7)]
            yield "files of tags: each in its turn", [frame[26] & 15 for frame in heard] == [3, 4, 5, 3, 4, 5, 3]
            yield "files of tags: and their antennas", [antenna_of(frame) for frame in heard] == [1, 2, 1, 2, 1, 2, 1]
        for text, at in (("", 1), ("urn:epc:tag:gid-96:1.2.3\nurn:epc:tag:gid-96\n", 2), ("urn:epc:tag:gid-96:1.2.3", 1)):
            with open(path, "w", encoding="ascii") as file:
                file.write(text)
            with living(script=f"0 0 tick\n{script}", ready=False) as (_, run):
                yield f"files of tags: the text {text!r}", ended(run) == (1, f"llrp: script line 2: {path}:{at}\n")
        gone = f"{folder}/none"
        with living(script=f"accepted+1s seen 1 -60 {gone}\n", ready=False) as (_, run):
            yield "files of tags: one that is not there", ended(run) == (3, f"llrp: script line 1: {gone}\n")


def places():
    """An ERROR_MESSAGE for a frame that is none says which field or parameter is refused."""
    with living() as (port, _), Client(port) as client:
        client.await_kind(EVENT)
        spec = bytearray(rospec())
        spec[8] = 9
        field = parameter(FIELD_ERROR, struct.pack(">HH", 2, 301))
        for name, sent, code, errors in (
            ("a field of a parameter", message(ADD_ROSPEC, 1, bytes(spec)), 101, parameter(PARAMETER_ERROR, struct.pack(">HH", 177, 201) + field)),
            ("a parameter in another", message(ADD_ROSPEC, 2, parameter(177, rospec()[4:10] + parameter(178, parameter(1000, b"")))), 100,
             parameter(PARAMETER_ERROR, struct.pack(">HH", 177, 200) + parameter(PARAMETER_ERROR, struct.pack(">HH", 178, 200)
                       + parameter(PARAMETER_ERROR, struct.pack(">HH", 1000, 207))))),
            ("a message's field", message(DELETE_ROSPEC, 3, b"\0"), 100, parameter(FIELD_ERROR, struct.pack(">HH", 1, 300))),
        ):
            client.send(sent)
            wanted = parameter(LLRP_STATUS, struct.pack(">HH", code, 0) + errors)
            yield f"places: {name}", client.frame(LONGEST)[10:] == wanted
        client.send(message(1022, 4))
        yield "places: a message that is none has none", client.frame(LONGEST) == message(ERROR_MESSAGE, 4, status(109))


def refused_rospecs():
    """The response to an ADD_ROSPEC that is refused for a field says which: the first of several in the order of these rows, but for the ROSpecID."""
    spec = rospec()
    custom = parameter(CUSTOM, struct.pack(">II", 25882, 1))
    # two such ROSpecs would not fit one message
    antennas = parameter(AISPEC, struct.pack(">H", 20_000) + bytes(40_000) + spec[36:52])
    long = parameter(ROSPEC, changed(spec[4:28], 3, 2) + antennas + spec[52:])
    trigger = (ROSPEC, BOUNDARY, START_TRIGGER)
    with living() as (port, _), Client(port) as client:
        client.await_kind(EVENT)
        for name, sent, wanted in (
            ("CurrentState", changed(spec, 9, 1), refused_at((ROSPEC,), 3)),
            ("a periodic start", changed(spec, 18, 2), refused_at(trigger, 1)),
            ("a start by an input", changed(spec, 18, 3), refused_at(trigger, 1)),
            ("a stop by an input", changed(spec, 23, 2), refused_at((ROSPEC, BOUNDARY, STOP_TRIGGER), 1)),
            ("an AISpec that stops after a time", changed(spec, 40, 1), refused_at((ROSPEC, AISPEC, AI_STOP_TRIGGER), 1)),
            ("by an input", changed(spec, 40, 2), refused_at((ROSPEC, AISPEC, AI_STOP_TRIGGER), 1)),
            ("by what it saw", changed(spec, 40, 3), refused_at((ROSPEC, AISPEC, AI_STOP_TRIGGER), 1)),
            ("ROReportTrigger 3", changed(spec, 56, 3), refused_at((ROSPEC, REPORT_SPEC), 1)),
            ("ROReportTrigger 255", changed(spec, 56, 255), refused_at((ROSPEC, REPORT_SPEC), 1)),
            ("ROSpecID 0", changed(spec, 7, 0), refused_at((ROSPEC,), 1)),
            ("several", changed(changed(changed(spec, 7, 0), 23, 2), 18, 2), refused_at(trigger, 1)),
            ("one with a maker's parameter", parameter(ROSPEC, changed(spec[4:28], 14, 2) + parameter(AISPEC, spec[32:45] + parameter(186, spec[49:52] + custom)) + spec[52:]), refused_at(trigger, 1)),
            ("none", spec, status(0)),
            ("a ROSpecID that is there", spec, refused_at((ROSPEC,), 1)),
            ("none of a long one", long, status(0)),
            ("none of one for which there is no room", changed(long, 7, 3), status(100)),
        ):
            client.send(message(ADD_ROSPEC, 7, sent))
            yield f"refused ROSpecs: {name}", client.frame(LONGEST) == message(ADD_ROSPEC_RESPONSE, 7, wanted)
    with simulated("0", "--ready") as run:
        port = int(run.stderr.readline().rsplit(":", 1)[1])
        yield "refused ROSpecs: without a clock", talk(port, message(ADD_ROSPEC, 7, changed(spec, 9, 1))) == ACCEPTED + message(ADD_ROSPEC_RESPONSE, 7, status(101))


def refused_requests():
    """And so do responses to settings, and to requests that name a ROSpec."""
    report = [parameter(REPORT_SPEC, struct.pack(">BH", trigger, 1) + parameter(238, b"\x10\0")) for trigger in range(4)]
    keepalive = [parameter(KEEPALIVE_SPEC, struct.pack(">BI", 1, period)) for period in (0, 60_000)]
    one, other = struct.pack(">I", 1), struct.pack(">I", 9)
    with living() as (port, _), Client(port) as client:
        client.await_kind(EVENT)
        client.send(message(ADD_ROSPEC, 1, rospec()))
        client.await_kind(ADD_ROSPEC_RESPONSE)
        for name, kind, body, answer, wanted in (
            ("ROReportTrigger", SET_READER_CONFIG, b"\0" + keepalive[1] + report[3], SET_READER_CONFIG_RESPONSE, refused_at((REPORT_SPEC,), 1)),
            ("a period", SET_READER_CONFIG, b"\0" + keepalive[0] + report[2], SET_READER_CONFIG_RESPONSE, refused_at((KEEPALIVE_SPEC,), 2)),
            ("both", SET_READER_CONFIG, b"\0" + keepalive[0] + report[3], SET_READER_CONFIG_RESPONSE, refused_at((REPORT_SPEC,), 1)),
            ("none", SET_READER_CONFIG, b"\0" + keepalive[1] + report[2], SET_READER_CONFIG_RESPONSE, status(0)),
            ("DELETE_ROSPEC", DELETE_ROSPEC, other, DELETE_ROSPEC_RESPONSE, refused_at((), 1)),
            ("ENABLE_ROSPEC", ENABLE_ROSPEC, other, ENABLE_ROSPEC_RESPONSE, refused_at((), 1)),
            ("DISABLE_ROSPEC", DISABLE_ROSPEC, other, DISABLE_ROSPEC_RESPONSE, refused_at((), 1)),
            ("START_ROSPEC", START_ROSPEC, other, START_ROSPEC_RESPONSE, refused_at((), 1)),
            ("START_ROSPEC of one that is Disabled", START_ROSPEC, one, START_ROSPEC_RESPONSE, refused_at((), 1)),
            ("STOP_ROSPEC", STOP_ROSPEC, one, STOP_ROSPEC_RESPONSE, refused_at((), 1)),
            ("a DELETE_ROSPEC that is done", DELETE_ROSPEC, one, DELETE_ROSPEC_RESPONSE, status(0)),
        ):
            client.send(message(kind, 7, body))
            yield f"refused requests: {name}", client.frame(LONGEST) == message(answer, 7, wanted)


def idle_clients():
    """A client that reads nothing does not stop the reader: another is refused, of which it hears once it reads."""
    script = "".join(f"started+0s every 1ms for 40s seen 1 -60 urn:epc:tag:gid-96:1.2.{serial}\n" for serial in range(10))
    with living(script=script, clock="real*10") as (port, run), Client(port) as client:
        client.connection.setsockopt(socket.SOL_SOCKET, socket.SO_RCVBUF, 4096)
        client.send(started())
        time.sleep(4)
        with Client(port) as second_client:
            yield "idle clients: another is refused meanwhile", event_in(second_client.frame(LONGEST)) == parameter(CONNECTION_ATTEMPT, b"\0\2")
        attempt = parameter(CONNECTION_ATTEMPT, b"\0\4")
        while (frame := client.frame(LONGEST)) and not (kind_of(frame) == EVENT and event_in(frame) == attempt):
            pass
        yield "idle clients: and the first hears of it", bool(frame)
        client.send(CLOSE)
        client.await_kind(CLOSE_CONNECTION_RESPONSE)
        yield "idle clients: and it ends well", ended(run) == (0, "")


def refused_lines():
    """Lines that are none."""
    for line in (
        "accepted+1s octets", "accepted+1s octets 0", "accepted+1s octets 0g", "accepted+1s octets 00 00", f"accepted+1s octets {'00' * 65}",
        "accepted+1s cut", "accepted+1s cut -1", "accepted+1s cut 01", "accepted+1s cut 1000000001", "accepted+1s antenna 1", "accepted+1s antenna 1 of",
        "accepted+1s antenna 65536 on", "accepted+1s antenna 1 high", "accepted+1s gpi 1 on", "accepted+1s gpi 1  low", "accepted+1s gpo 1 low",
        "accepted+1s expect GET_ROSPEC within 1s", "accepted+1s expect GET_ROSPECS", "accepted+1s expect GET_ROSPECS within 1", "1 1 cut 5",
        "accepted+1s expect get_rospecs within 1s", "0 0 antenna 1 off", "accepted+1s status 65536 ADD_ROSPEC_RESPONSE", "accepted+1s status 1",
        f"accepted+1s status 1 ADD_ROSPEC_RESPONSE {'x' * 65}", "accepted+1s seen 1,,2 -60 tags", "accepted+1s seen 1 -50..-60 tags", "1 1 send",
        "accepted+1s seen 1 -60 urn:tags", f"accepted+1s seen 1 -60 {'x' * 65}", "1 1 seen 1,2 -60 tags", "accepted+1s send 1",
    ):
        with living(script=f"0 0 tick\n{line}\n", ready=False) as (_, run):
            yield f"the line {line[:40]!r}", ended(run) == (1, "llrp: script line 2\n")


def first_talks():
    """A stub of a general client gets on: each request and the response to it, and then tags."""
    standard = parameter(177, struct.pack(">IBB", 7, 0, 0) + rospec()[10:])
    config = bytes([0x80]) + parameter(220, struct.pack(">BI", 1, 10000)) + parameter(226, b"\0") + parameter(239, b"\0")
    config += parameter(EVENT_SPEC, b"".join(parameter(EVENT_STATE, struct.pack(">HB", kind, 0x80)) for kind in range(10)))
    seven = struct.pack(">I", 7)
    talk = (
        (GET_READER_CAPABILITIES, b"\0", GET_READER_CAPABILITIES_RESPONSE),
        (GET_READER_CONFIG, bytes(7), GET_READER_CONFIG_RESPONSE),
        (DELETE_ROSPEC, bytes(4), DELETE_ROSPEC_RESPONSE),
        (DELETE_ACCESSSPEC, bytes(4), DELETE_ACCESSSPEC_RESPONSE),
        (CUSTOM_MESSAGE, struct.pack(">IBI", 25882, 21, 0), ERROR_MESSAGE),
        (SET_READER_CONFIG, config, SET_READER_CONFIG_RESPONSE),
        (ADD_ROSPEC, standard, ADD_ROSPEC_RESPONSE),
        (ENABLE_ROSPEC, seven, ENABLE_ROSPEC_RESPONSE),
        (START_ROSPEC, seven, START_ROSPEC_RESPONSE),
    )
    with living(script=f"started+100ms every 50ms for 150ms {TAG}") as (port, run), Client(port) as client:
        client.await_kind(EVENT)
        for number, (kind, body, response) in enumerate(talk, 1):
            client.send(message(kind, number, body))
            said = client.frame(LONGEST)
            code = 109 if response == ERROR_MESSAGE else 0
            yield f"first talk: message {kind}", (kind_of(said), number_of(said)) == (response, number) and said[10:14] + said[14:16] == status(code)[:6]
        heard = [client.await_kind(RO_ACCESS_REPORT) for _ in range(3)]
        yield "first talk: tags", len({number_of(it) for it in heard}) == 3
        client.send(CLOSE)
        client.await_kind(CLOSE_CONNECTION_RESPONSE)
        yield "first talk: it ends well", ended(run) == (0, "")


def many_sightings():
    """Two hundred thousand sightings in two seconds, each reported once."""
    script = "".join(f"started+1s every 1ms for 20s seen 1 -60 urn:epc:tag:gid-96:1.2.{serial}\n" for serial in range(10))
    with living(script=script, clock="real*10") as (port, run), Client(port) as client:
        client.connection.setsockopt(socket.SOL_SOCKET, socket.SO_RCVBUF, 1 << 20)
        client.send(started())
        tags = collections.Counter()
        ids = []
        while sum(tags.values()) < 200_000 and (frame := client.frame(LONGEST)):
            if kind_of(frame) == RO_ACCESS_REPORT:
                tags[frame[26] & 15] += 1
                ids.append(number_of(frame))
        yield "two hundred thousand sightings", tags == {serial: 20_000 for serial in range(10)}
        yield "each in a report of its own, with ids that rise", ids == list(range(ids[0], ids[0] + len(ids)))
        client.send(CLOSE)
        client.await_kind(CLOSE_CONNECTION_RESPONSE)
        yield "and it ends well", ended(run) == (0, "")


ROWS = (free_ports, tables, expectations, side_events, second_clients, misbehaviour, statuses, files_of_tags, places, refused_rospecs, refused_requests, idle_clients,
        refused_lines, first_talks, many_sightings)


def main():
    return finish_results([it for rows in ROWS for it in rows()], LEAST)


if __name__ == "__main__":
    sys.exit(main())
