"""What the checks of llrp_epc.conform stand on: connections to a reader that is checked, with all octets kept, and verdicts."""
import contextlib
import socket
import time
from dataclasses import dataclass, field
from typing import Any, Callable, Dict, List, Optional, Tuple

from ._llrp import Llrp, Message
from ._messages import child, children, event_in, kind_of, message_of

# The ids of this run's ROSpecs and AccessSpecs begin here: those below are other clients'.
OWN = 900000001
# RequestedData of GET_READER_CONFIG for what the checks change, and the parameters that say it (LLRP 1.1, section 13).
CHANGED = {5: "ReaderEventNotificationSpec", 8: "KeepaliveSpec", 11: "EventsAndReports"}
# The longest frame that is taken, in octets.
LONGEST_FRAME = 1 << 20
HEADER = 10
# Who sent a frame, ">" for the client and "<" for the reader, and its octets.
Log = List[Tuple[str, bytes]]


class Fail(Exception):
    """The reader does not do what the standard requires."""


class Skip(Exception):
    """The check says nothing of this reader."""


@dataclass(frozen=True)
class Check:
    """A check: its name, which is never changed, the standard's chapter, what is sent, what has to come, and how sure that is."""

    name: str
    chapter: int
    sent: str
    wanted: str
    sure: str
    run: Callable[["Bench"], None]


@dataclass
class Result:
    """What became of a check: PASS, FAIL, NOTE or SKIP, why, and all octets."""

    check: Check
    verdict: str
    reason: str
    log: Log = field(default_factory=list)


CHECKS: List[Check] = []


def check(chapter: int, sent: str, wanted: str, sure: str = "sure") -> Callable[[Callable[["Bench"], None]], None]:
    """Makes a function a check of its name."""

    def add(run: Callable[["Bench"], None]) -> None:
        CHECKS.append(Check(run.__name__, chapter, sent, wanted, sure, run))

    return add


def require(is_right: bool, text: str) -> None:
    """Fails the check where something is not right."""
    if not is_right:
        raise Fail(text)


def has(item: Message, *path: str) -> Message:
    """Returns the parameter at a path, which has to be there."""
    found = child(item, *path)
    if found is None:
        raise Fail(f"{kind_of(item)} has no {'/'.join(path)}")
    return found


def status_of(message: Message) -> int:
    """Returns the StatusCode of a response or an ERROR_MESSAGE."""
    return int(has(message, "LLRPStatus")["StatusCode"])


def named(name: str) -> Callable[[Message], bool]:
    """Returns whether a message has this name, as a function."""
    return lambda message: kind_of(message) == name


class Link:
    """One connection to the reader. Whatever it sends is read by the library first: a frame that is no message fails the check."""

    def __init__(self, bench: "Bench") -> None:
        self.bench, self.version, self.is_closed = bench, 1, False
        # Whether KEEPALIVEs are answered.
        self.acknowledges = True
        self.buffer = bytearray()
        # What came while another message was waited for.
        self.others: List[Message] = []
        self.greeting: Message = {}
        self.socket = socket.create_connection(bench.address, timeout=bench.seconds)
        self.socket.setsockopt(socket.IPPROTO_TCP, socket.TCP_NODELAY, 1)

    # ---- octets

    def octets(self, octets: bytes) -> None:
        """Sends octets."""
        self.bench.log.append((">", octets))
        try:
            self.socket.settimeout(self.bench.seconds)
            self.socket.sendall(octets)
        except OSError as error:
            raise Fail(f"the connection broke: {error}") from None

    def frame(self) -> Optional[bytes]:
        """Returns the frame that the octets received begin with, and takes it from them; None where it is not whole."""
        if len(self.buffer) < HEADER:
            return None
        length = int.from_bytes(self.buffer[2:6], "big")
        require(HEADER <= length <= LONGEST_FRAME, f"a frame of {length} octets")
        if len(self.buffer) < length:
            return None
        frame = bytes(self.buffer[:length])
        del self.buffer[:length]
        self.bench.log.append(("<", frame))
        return frame

    def awaited_frame(self, seconds: float) -> Optional[bytes]:
        """Returns the next frame; None if none comes in time, or at the end of the connection, which `is_closed` says then."""
        end = time.monotonic() + seconds
        while True:
            frame = self.frame()
            left = end - time.monotonic()
            if frame is not None or left <= 0 or self.is_closed:
                return frame
            self.socket.settimeout(left)
            try:
                piece = self.socket.recv(65536)
            except socket.timeout:
                continue
            except OSError:
                piece = b""
            self.is_closed = not piece
            self.buffer += piece

    # ---- messages

    def send(self, name: str, *parameters: Message, **fields: Any) -> int:
        """Sends a message, and returns its id."""
        self.bench.id += 1
        version = fields.pop("version", self.version)
        self.octets(self.bench.llrp.pack([message_of(name, version, self.bench.id, parameters, fields)], all=True))
        return self.bench.id

    def receive(self, seconds: Optional[float] = None) -> Optional[Message]:
        """Returns the next message; None if none comes in time, or at the end of the connection. A KEEPALIVE is answered."""
        frame = self.awaited_frame(self.bench.seconds if seconds is None else seconds)
        if frame is None:
            return None
        message = self.bench.llrp.messages(frame, all=True)[0][0]
        require("message" in message, f"a frame that is no message of LLRP 1.1: {message.get('fault')} at bit {message.get('bit')}")
        if kind_of(message) == "KEEPALIVE" and self.acknowledges:
            self.octets(self.bench.llrp.pack([message_of("KEEPALIVE_ACK", message["version"], message["id"])], all=True))
        return message

    def during(self, seconds: float) -> List[Message]:
        """Returns the messages that came before and that come within this time."""
        end = time.monotonic() + seconds
        while (left := end - time.monotonic()) > 0 and (came := self.receive(left)):
            self.others.append(came)
        found, self.others = self.others, []
        return found

    def wait(self, is_wanted: Callable[[Message], bool], what: str, seconds: Optional[float] = None) -> Message:
        """Returns the first message that is wanted, of those that came before or come in time."""
        for at, message in enumerate(self.others):
            if is_wanted(message):
                return self.others.pop(at)
        end = time.monotonic() + (self.bench.seconds if seconds is None else seconds)
        while (left := end - time.monotonic()) > 0 and (came := self.receive(left)):
            if is_wanted(came):
                return came
            self.others.append(came)
        raise Fail(f"{what} did not come" + (": the connection was closed" if self.is_closed else ""))

    def event(self, name: str, what: str, seconds: Optional[float] = None) -> Message:
        """Returns the next event of a name."""
        message = self.wait(lambda it: event_in(it, name) is not None, what, seconds)
        return has(message, "ReaderEventNotificationData", name)

    # ---- requests

    def answer(self, number: int, what: str) -> Message:
        """Returns what answers this id: a response or an ERROR_MESSAGE."""
        endings = ("_RESPONSE", "ERROR_MESSAGE")
        return self.wait(lambda it: bool(it["id"] == number and it["message"].endswith(endings)), f"an answer to {what}")

    def ask(self, name: str, *parameters: Message, **fields: Any) -> Message:
        """Sends a request, and returns what answers it."""
        return self.answer(self.send(name, *parameters, **fields), name)

    def done(self, name: str, *parameters: Message, **fields: Any) -> Message:
        """Sends a request, and returns its response, whose status has to be 0."""
        message = self.ask(name, *parameters, **fields)
        require(kind_of(message) == f"{name}_RESPONSE", f"{name} was answered by {kind_of(message)} with status {status_of(message)}")
        require(status_of(message) == 0, f"{name} was refused with status {status_of(message)}")
        return message

    def refused(self, what: str, name: str, *parameters: Message, **fields: Any) -> Message:
        """Sends a request that has to be refused, and returns what answers it."""
        message = self.ask(name, *parameters, **fields)
        require(status_of(message) != 0, f"{what} was answered with status 0")
        return message

    def accepted(self, what: str, name: str, *parameters: Message, **fields: Any) -> None:
        """Sends a request that a reader may refuse for want of what it asks for: the check is skipped then."""
        message = self.ask(name, *parameters, **fields)
        if status_of(message) != 0:
            raise Skip(f"the reader does not take {what}: status {status_of(message)}")

    def configure(self, *parameters: Message) -> None:
        """Sets parts of the reader's configuration."""
        self.done("SET_READER_CONFIG", *parameters, ResetToFactoryDefault=0)

    def configuration(self, requested: int) -> Message:
        """Asks for a part of the reader's configuration, and returns the answer."""
        return self.done("GET_READER_CONFIG", AntennaID=0, RequestedData=requested, GPIPortNum=0, GPOPortNum=0)

    def capability(self, name: str) -> Message:
        """Returns a part of the reader's capabilities."""
        return has(self.done("GET_READER_CAPABILITIES", RequestedData=0), name)

    def states(self) -> Dict[int, int]:
        """Returns the states of this run's own ROSpecs, by their ids."""
        found = children(self.done("GET_ROSPECS"), "ROSpec")
        return {one["ROSpecID"]: one["CurrentState"] for one in found if one["ROSpecID"] >= OWN}

    def access_states(self) -> Dict[int, int]:
        """Returns the states of this run's own AccessSpecs, by their ids."""
        found = children(self.done("GET_ACCESSSPECS"), "AccessSpec")
        return {one["AccessSpecID"]: one["CurrentState"] for one in found if one["AccessSpecID"] >= OWN}

    def close(self) -> None:
        """Closes the connection at this end."""
        self.socket.close()


class Bench:
    """A reader that is checked. `with` sets back at its end what the checks change of the reader's configuration, and deletes what a run
    that was interrupted left.

    `seconds` is the longest wait for an answer, and `tags` for a tag."""

    def __init__(self, host: str, port: int = 5084, seconds: float = 5, tags: float = 3) -> None:
        self.address, self.seconds, self.tags = (host, port), seconds, tags
        self.llrp, self.id, self.is_greeted = Llrp(), 1000, True
        self.log: Log = []
        self.notes: List[str] = []
        self.links: List[Link] = []
        self.before: List[Message] = []

    def __enter__(self) -> "Bench":
        self._quietly(self._read_configuration)
        return self

    def __exit__(self, *_: object) -> None:
        if self.before:
            self._quietly(lambda: self.open().configure(*self.before))

    def connect(self) -> Link:
        """Connects to the reader."""
        link = Link(self)
        self.links.append(link)
        return link

    def open(self) -> Link:
        """Returns a connection that the reader has accepted: it may need a while after the one before."""
        if not self.is_greeted:
            raise Skip("no connection is accepted: see connection_event")
        end = time.monotonic() + self.seconds
        while True:
            link = self.connect()
            link.greeting = link.wait(named("READER_EVENT_NOTIFICATION"), "READER_EVENT_NOTIFICATION with ConnectionAttemptEvent")
            status = has(link.greeting, "ReaderEventNotificationData", "ConnectionAttemptEvent")["Status"]
            if status == 0 or time.monotonic() > end:
                require(status == 0, f"the connection was refused with status {status}")
                return link
            link.close()
            time.sleep(0.2)

    def should(self, is_right: bool, text: str) -> None:
        """Notes where the reader does not do what the standard recommends, or leaves to it."""
        if not is_right:
            self.notes.append(text)

    def run(self, one: Check) -> Result:
        """Runs a check, and removes what it left on the reader."""
        self.log, self.links, self.notes = [], [], []
        try:
            verdict, reason = self._verdict(one)
            kept = self.log
        finally:
            self.log = []
            self._leave_all()
        self.is_greeted = self.is_greeted and (verdict, one.name) != ("FAIL", "connection_event")
        return Result(one, verdict, reason, kept)

    def _verdict(self, one: Check) -> Tuple[str, str]:
        """Runs a check, and returns its verdict and the reason."""
        try:
            one.run(self)
        except Skip as skip:
            return "SKIP", str(skip)
        except Fail as fail:
            return "FAIL", str(fail)
        except OSError as error:
            return "FAIL", f"no connection: {error}"
        return ("NOTE", "; ".join(self.notes)) if self.notes else ("PASS", "")

    def _read_configuration(self) -> None:
        """Keeps what the reader says of the parts of its configuration that the checks change."""
        link = self.open()
        for requested, name in CHANGED.items():
            message = link.ask("GET_READER_CONFIG", AntennaID=0, RequestedData=requested, GPIPortNum=0, GPOPortNum=0)
            self.before += children(message, name)[:1]

    def _quietly(self, do: Callable[[], object]) -> None:
        """Does something for which no verdict is given."""
        self.links = []
        with contextlib.suppress(Fail, Skip, OSError):
            do()
        self._leave_all()

    def _leave_all(self) -> None:
        """Removes this run's ROSpecs and AccessSpecs, and closes its connections."""
        for link in self.links:
            if not link.is_closed and link.socket.fileno() >= 0:
                self._leave(link)
            link.close()
        self.links = []

    def _leave(self, link: Link) -> None:
        """Removes this run's ROSpecs and AccessSpecs, as far as the reader lets it, and ends a connection."""
        with contextlib.suppress(Fail):
            for number in link.access_states():
                link.ask("DELETE_ACCESSSPEC", AccessSpecID=number)
        with contextlib.suppress(Fail):
            for number in link.states():
                link.ask("DELETE_ROSPEC", ROSpecID=number)
            link.ask("CLOSE_CONNECTION")
