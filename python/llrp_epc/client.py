"""A client of a reader: it connects, sends requests, and yields the tags that are reported.

    from llrp_epc.client import Reader

    with Reader("192.0.2.17") as reader:
        reader.add(open("rospec.txt").read())
        reader.start(1)
        for tag in reader.tags(seconds=60):
            print(tag.epc, tag.antenna, tag.rssi)

Each wait has a limit. At the end of the block, also by an exception, the ROSpecs that were added are deleted and the connection is closed. What is
sent and received goes through the proved library; that it is the right thing at the right moment is tested.
"""
import contextlib
import socket
import time
from collections import deque
from dataclasses import dataclass, field
from typing import Any, Deque, Dict, Iterator, List, Optional, Tuple, Type, Union

from ._llrp import Llrp, Message, Namer, Refused
from ._messages import child, event_in, kind_of, message_of, tags_in

__all__ = ["ConnectionLost", "Reader", "ReaderError", "RequestRefused", "Sighting", "TimedOut"]

PORT = 5084
# The longest frame that is taken, in octets, and how many events are kept.
LONGEST_FRAME, MOST_EVENTS = 1 << 20, 64
VERSION, MOST_ID = 1, 0xFFFFFFFF


class ReaderError(Exception):
    """The reader did not do what was asked of it."""


class ConnectionLost(ReaderError):
    """The connection ended, or broke."""


class TimedOut(ReaderError):
    """An answer did not come in time."""


class RequestRefused(ReaderError):
    """A request was refused: its `name`, the `status` of LLRP 1.1, and the reader's `text`."""

    def __init__(self, name: str, status: int, text: str) -> None:
        super().__init__(f"{name} was refused: status {status}" + (f", {text}" if text else ""))
        self.name, self.status, self.text = name, status, text


@dataclass(frozen=True)
class Sighting:
    """What a report says of a tag; None where it does not say it.

    `epc` is the text of an EPC-96, and of a longer or shorter EPC its hexadecimal digits; `rssi` is in dBm, `first_seen` and `last_seen` in
    microseconds since 1970, and `count` says how often the tag was seen. `parameters` has all else that the report says of the tag, makers'
    parameters among it."""

    epc: Optional[str] = None
    antenna: Optional[int] = None
    rssi: Optional[int] = None
    first_seen: Optional[int] = None
    last_seen: Optional[int] = None
    count: Optional[int] = None
    parameters: List[Message] = field(default_factory=list)


# The member of a Sighting for each parameter, and the parameter's own member.
SAID = {
    "EPC-96": ("epc", "EPC"),
    "EPCData": ("epc", "bits"),
    "AntennaID": ("antenna", "AntennaID"),
    "PeakRSSI": ("rssi", "PeakRSSI"),
    "FirstSeenTimestampUTC": ("first_seen", "FirstSeenTimestampUTC"),
    "LastSeenTimestampUTC": ("last_seen", "LastSeenTimestampUTC"),
    "TagSeenCount": ("count", "TagSeenCount"),
}


def sighting_of(tag: Message) -> Sighting:
    """Returns what a TagReportData says."""
    said, others = {}, []
    for one in tag.get("parameters", []):
        if one["parameter"] in SAID:
            member, own = SAID[one["parameter"]]
            said[member] = one[own]
        else:
            others.append(one)
    return Sighting(**said, parameters=others)


class Reader:
    """A connection to a reader. `seconds` is the longest wait for an answer; with makers' tables, makers' parameters have their names.

    `events` has the last 64 messages of the reader that are neither answers, reports nor KEEPALIVEs."""

    def __init__(self, host: str, port: int = PORT, seconds: float = 10, makers: Optional[Namer] = None, llrp: Optional[Llrp] = None) -> None:
        """Connects to a reader, which has to accept the connection."""
        self.llrp, self.makers, self.seconds = llrp or Llrp(), makers, seconds
        self.events: Deque[Message] = deque(maxlen=MOST_EVENTS)
        self._seen: Deque[Sighting] = deque()
        self._received, self._number = bytearray(), 0
        self._added: List[int] = []
        self._answer: Optional[Message] = None
        try:
            self._connection = socket.create_connection((host, port), timeout=seconds)
        except OSError as error:
            raise ConnectionLost(f"{host}:{port}: {error}") from None
        try:
            self._greet()
        except BaseException:
            self._connection.close()
            raise

    def __enter__(self) -> "Reader":
        return self

    def __exit__(self, kind: Optional[Type[BaseException]], *_: object) -> None:
        if kind is None:
            self.close()
        else:
            with contextlib.suppress(ReaderError):
                self.close()

    # ---- requests

    def ask(self, name: str, *parameters: Message, **fields: Any) -> Message:
        """Sends a request with these parameters and fields, named as in docs/tables.md with --all. Returns its response, or raises RequestRefused
        where its status is not 0."""
        self._number = self._number % MOST_ID + 1
        self._send(self.llrp.pack([message_of(name, VERSION, self._number, parameters, fields)], True, self.makers))
        self._answer, end = None, time.monotonic() + self.seconds
        while self._answer is None:
            self._take_before(end, f"an answer to {name}")
        answer, self._answer = self._answer, None
        status = child(answer, "LLRPStatus") or {}
        if status.get("StatusCode") != 0 or kind_of(answer) == "ERROR_MESSAGE":
            raise RequestRefused(name, status.get("StatusCode", 0), status.get("text", ""))
        return answer

    def add(self, rospec: Union[Message, str]) -> int:
        """Adds a ROSpec, which is a parameter or the lines of a listing, and returns its id. It is deleted when the connection is closed."""
        added = self._listed(rospec) if isinstance(rospec, str) else rospec
        number = int(added["ROSpecID"])
        self._added.append(number)
        try:
            self.ask("ADD_ROSPEC", added)
        except RequestRefused:
            self._added.remove(number)
            raise
        return number

    def _listed(self, lines: str) -> Message:
        """Returns the ROSpec that the lines of a listing say."""
        octets = self.llrp.encode(f"0 ADD_ROSPEC {VERSION} 1\n{lines}", all=True)
        rospec: Message = self.llrp.messages(octets, all=True)[0][0]["parameters"][0]
        return rospec

    def start(self, number: int) -> None:
        """Enables a ROSpec, and starts it."""
        self.ask("ENABLE_ROSPEC", ROSpecID=number)
        self.ask("START_ROSPEC", ROSpecID=number)

    def tags(self, seconds: float) -> Iterator[Sighting]:
        """Yields each tag that was reported, and those that are within this time. Where the connection ends, ConnectionLost is raised after the
        tags that came before."""
        end = time.monotonic() + seconds
        while True:
            while self._seen:
                yield self._seen.popleft()
            left = end - time.monotonic()
            if left <= 0:
                return
            self._take(left)

    def close(self) -> None:
        """Deletes the ROSpecs that were added, and closes the connection. Raises the first error on the way, after all is done."""
        requests: List[Tuple[str, Dict[str, int]]] = [("DELETE_ROSPEC", {"ROSpecID": number}) for number in self._added]
        requests.append(("CLOSE_CONNECTION", {}))
        self._added, errors = [], []
        for name, fields in requests if self._connection.fileno() >= 0 else []:
            try:
                self.ask(name, **fields)
            except ReaderError as error:
                errors.append(error)
                if isinstance(error, ConnectionLost):
                    break
        self._connection.close()
        if errors:
            raise errors[0]

    # ---- what goes over the connection

    def _greet(self) -> None:
        """Waits until the reader says that it accepts the connection."""
        end = time.monotonic() + self.seconds
        while not self.events:
            self._take_before(end, "READER_EVENT_NOTIFICATION")
        event = event_in(self.events[0], "ConnectionAttemptEvent")
        if event is None or event["Status"] != 0:
            raise ReaderError(f"the connection was not accepted: {self.events[0]}")

    def _send(self, octets: bytes) -> None:
        try:
            self._connection.settimeout(self.seconds)
            self._connection.sendall(octets)
        except OSError as error:
            raise ConnectionLost(str(error)) from None

    def _take_before(self, end: float, what: str) -> None:
        """Takes what comes before a moment, when it is late."""
        left = end - time.monotonic()
        if left <= 0:
            raise TimedOut(f"{what} did not come within {self.seconds:g} seconds")
        self._take(left)

    def _take(self, seconds: float) -> None:
        """Takes what comes first within this time, if something does: whole messages, or a piece of one."""
        self._connection.settimeout(seconds)
        try:
            piece = self._connection.recv(65536)
        except socket.timeout:
            return
        except OSError as error:
            raise ConnectionLost(str(error)) from None
        if not piece:
            raise ConnectionLost("the reader ended the connection")
        self._received += piece
        while self._has_frame():
            messages, used = self.llrp.messages(self._received, True, self.makers)
            del self._received[:used]
            for message in messages:
                self._take_message(message)

    def _has_frame(self) -> bool:
        """Returns whether the octets that came begin with a whole frame."""
        try:
            length = self.llrp.frame_length(self._received)
        except Refused as error:
            raise ReaderError(f"the reader's octets are no frames: {error}") from None
        if length > LONGEST_FRAME:
            raise ReaderError(f"a frame of {length} octets")
        return 0 < length <= len(self._received)

    def _take_message(self, message: Message) -> None:
        """Answers a KEEPALIVE, keeps the tags of a report, an answer and an event."""
        name = kind_of(message)
        if not name:
            raise ReaderError(f"a frame that is no message: {message}")
        if name == "KEEPALIVE":
            self._send(self.llrp.pack([message_of("KEEPALIVE_ACK", message["version"], message["id"])]))
        elif name == "RO_ACCESS_REPORT":
            self._seen.extend(map(sighting_of, tags_in(message)))
        elif name.endswith(("_RESPONSE", "ERROR_MESSAGE")) and message["id"] == self._number:
            self._answer = message
        else:
            self.events.append(message)
