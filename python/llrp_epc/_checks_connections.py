"""The checks of connections, versions and errors: chapters 9, 14, 15 and 17 of LLRP 1.1."""
import time
from typing import Tuple

from ._bench import OWN, Bench, Link, Skip, check, has, named, require, status_of
from ._llrp import Llrp
from ._messages import child, event_in, keepalive_spec, kind_of, message_of, rospec

# Status codes (LLRP 1.1, section 15).
UNSUPPORTED_MESSAGE, UNSUPPORTED_VERSION = 109, 110
# The type of ROSpec (section 17), as a ParameterError says it.
ROSPEC = 177


@check(14, "nothing", "the first message of a connection is READER_EVENT_NOTIFICATION with ConnectionAttemptEvent, status 0")
def connection_event(bench: Bench) -> None:
    message = bench.connect().receive()
    require(message is not None, "nothing came")
    status = has(message or {}, "ReaderEventNotificationData", "ConnectionAttemptEvent")["Status"]
    require(status == 0, f"status {status}")


@check(
    14,
    "a second connection beside the first",
    "the second is told ConnectionAttemptEvent with status 2 and is closed, the first goes on; NOTE where the first is not told status 4",
)
def second_client(bench: Bench) -> None:
    first, second = bench.open(), bench.connect()
    status = second.event("ConnectionAttemptEvent", "ConnectionAttemptEvent for the second connection")["Status"]
    require(status == 2, f"the second connection was told status {status}")
    require(second.receive() is None and second.is_closed, "the second connection was not closed")
    first.done("GET_ROSPECS")
    told = [event for one in first.others if (event := event_in(one, "ConnectionAttemptEvent"))]
    bench.should([event["Status"] for event in told] == [4], "the first connection was not told that another was attempted")


def requests(llrp: Llrp, *numbers: int) -> bytes:
    """Returns GET_ROSPECS with these ids, one after another."""
    return llrp.pack([message_of("GET_ROSPECS", 1, number) for number in numbers], all=True)


@check(17, "two GET_ROSPECS in one segment", "both are answered, in their order, each with the id of its request")
def two_in_one(bench: Bench) -> None:
    link = bench.open()
    link.octets(requests(bench.llrp, 77, 4294967295))
    found = [link.wait(named("GET_ROSPECS_RESPONSE"), "GET_ROSPECS_RESPONSE")["id"] for _ in range(2)]
    require(found == [77, 4294967295], f"ids {found}")


@check(17, "GET_ROSPECS octet by octet", "it is answered as one that comes whole")
def in_pieces(bench: Bench) -> None:
    link = bench.open()
    for octet in requests(bench.llrp, 78):
        link.octets(bytes([octet]))
        time.sleep(0.01)
    require(kind_of(link.answer(78, "GET_ROSPECS in pieces")) == "GET_ROSPECS_RESPONSE", "another answer")


def versions(link: Link) -> Tuple[int, int]:
    """Returns the version in use and the greatest; skips the check where the reader knows of no versions, as those of LLRP 1.0.1."""
    message = link.ask("GET_SUPPORTED_VERSION", version=2)
    status = status_of(message)
    if kind_of(message) == "ERROR_MESSAGE":
        require(status in (UNSUPPORTED_MESSAGE, UNSUPPORTED_VERSION), f"ERROR_MESSAGE with status {status}")
        raise Skip("a reader of LLRP 1.0.1")
    require(status == 0, f"status {status}")
    current, greatest = message["CurrentVersion"], message["SupportedVersion"]
    require(current == 1 <= greatest, f"version {current} in use of {greatest}")
    return current, greatest


@check(9, "GET_SUPPORTED_VERSION, in version 2", "the version in use, which is 1 on a new connection, and the greatest")
def supported_version(bench: Bench) -> None:
    versions(bench.open())


@check(
    9,
    "SET_PROTOCOL_VERSION 2, then GET_ROSPECS in version 2 and in version 1",
    "the first GET_ROSPECS is answered in version 2, and the second refused with M_UnsupportedVersion",
    "that these messages are of version 2 in any state: fairly",
)
def set_version(bench: Bench) -> None:
    link = bench.open()
    if versions(link)[1] < 2:
        raise Skip("the reader has version 1 alone")
    link.done("SET_PROTOCOL_VERSION", ProtocolVersion=2, version=2)
    link.version = 2
    require(link.done("GET_ROSPECS")["version"] == 2, "the response is not of version 2")
    status = status_of(link.refused("a request of version 1", "GET_ROSPECS", version=1))
    require(status == UNSUPPORTED_VERSION, f"status {status}, not M_UnsupportedVersion (110)")


@check(9, "SET_PROTOCOL_VERSION 7", "it is refused with M_UnsupportedVersion")
def unknown_version(bench: Bench) -> None:
    link = bench.open()
    versions(link)
    status = status_of(link.refused("version 7", "SET_PROTOCOL_VERSION", ProtocolVersion=7, version=2))
    require(status == UNSUPPORTED_VERSION, f"status {status}, not M_UnsupportedVersion (110)")


def is_error(link: Link, octets: str, number: int, status: int) -> None:
    """Sends octets, which have to be answered by ERROR_MESSAGE with this id and status, after which the connection goes on."""
    link.octets(bytes.fromhex(octets))
    message = link.answer(number, octets)
    require(
        kind_of(message) == "ERROR_MESSAGE" and status_of(message) == status,
        f"{kind_of(message)} with status {status_of(message)}, not ERROR_MESSAGE with {status}",
    )
    link.done("GET_ROSPECS")


@check(
    15,
    "a message of type 999, which LLRP does not have",
    "ERROR_MESSAGE with its id and M_UnsupportedMessage, and the connection goes on",
    "that it goes on: fairly",
)
def unknown_message(bench: Bench) -> None:
    is_error(bench.open(), "07E7 0000000A 000002EE", 750, UNSUPPORTED_MESSAGE)


@check(
    15,
    "a CUSTOM_MESSAGE of a vendor that nobody is (4294967294)",
    "ERROR_MESSAGE with its id and M_UnsupportedMessage, and the connection goes on",
    "fairly",
)
def unknown_custom(bench: Bench) -> None:
    is_error(bench.open(), "07FF 0000000F 000002F1 FFFFFFFE FA", 753, UNSUPPORTED_MESSAGE)


@check(
    15,
    "GET_ROSPECS of version 5",
    "ERROR_MESSAGE with its id and M_UnsupportedVersion, and the connection goes on",
    "that it goes on: fairly",
)
def foreign_version(bench: Bench) -> None:
    is_error(bench.open(), "141A 0000000A 000002EF", 751, UNSUPPORTED_VERSION)


@check(
    15,
    "ADD_ROSPEC without a ROSpec, and one with a Priority of 9",
    "both are refused, nothing is added, and a place that is named is the ROSpec",
    "sure; which number a field has is not said by the standard, and is not checked",
)
def error_places(bench: Bench) -> None:
    link = bench.open()
    link.octets(bytes.fromhex("0414 0000000A 000002F0"))
    require(status_of(link.answer(752, "ADD_ROSPEC without a ROSpec")) != 0, "ADD_ROSPEC without a ROSpec was answered with status 0")
    frame = bytearray(bench.llrp.pack([message_of("ADD_ROSPEC", 1, 753, (rospec(OWN),))], all=True))
    # (the octet after the header of the message, that of the ROSpec and its ROSpecID)
    frame[18] = 9
    link.octets(bytes(frame))
    message = link.answer(753, "ADD_ROSPEC with Priority 9")
    require(status_of(message) != 0, "a Priority of 9 was answered with status 0")
    place = child(message, "LLRPStatus", "ParameterError") or {"ParameterType": ROSPEC}
    require(place["ParameterType"] == ROSPEC, f"the place named is parameter {place['ParameterType']}, not ROSpec (177)")
    require(OWN not in link.states(), "the refused ROSpec is listed")


@check(
    14,
    "SET_READER_CONFIG with a KeepaliveSpec of half a second, then one that switches it off",
    "three KEEPALIVEs within 0.9 to 3 seconds, and none from a second after it is off",
    "sure; the bounds are ours",
)
def keepalive(bench: Bench) -> None:
    link = bench.open()
    link.configure(keepalive_spec(500))
    began = time.monotonic()
    for at in (1, 2, 3):
        link.wait(named("KEEPALIVE"), f"KEEPALIVE {at} of 3", 3)
    passed = time.monotonic() - began
    require(0.9 <= passed <= 3, f"3 KEEPALIVEs of half a second took {passed:.1f} s")
    link.configure(keepalive_spec(0))
    link.others.clear()
    require("KEEPALIVE" not in map(kind_of, link.during(1.5)), "a KEEPALIVE came after it was switched off")


@check(
    14,
    "a KeepaliveSpec of 0.2 seconds, and no KEEPALIVE_ACK for 1.5 seconds",
    "either the connection goes on or it is closed; where it is closed, a new one is accepted",
    "fairly: the standard lets a reader close it",
)
def missing_acks(bench: Bench) -> None:
    link = bench.open()
    link.acknowledges = False
    link.configure(keepalive_spec(200))
    require("KEEPALIVE" in map(kind_of, link.during(1.5)), "no KEEPALIVE came")
    link.acknowledges = True
    if link.is_closed:
        link = bench.open()
    link.configure(keepalive_spec(0))


@check(
    13,
    "CLOSE_CONNECTION",
    "it is answered with status 0; NOTE where the reader does not close the connection",
    "sure; that the reader closes it: fairly",
)
def goodbye(bench: Bench) -> None:
    link = bench.open()
    link.done("CLOSE_CONNECTION")
    link.during(bench.seconds)
    bench.should(link.is_closed, "the connection stayed open")
