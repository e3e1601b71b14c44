"""Tests of llrp_epc.client, over a reader that says what it is told to say."""
import contextlib
import pathlib
import socket
import threading
import time
from typing import Iterator, List, Tuple

import pytest

from llrp_epc import Llrp, Message
from llrp_epc.client import ConnectionLost, Reader, ReaderError, RequestRefused, Sighting, TimedOut
from llrp_epc.makers import Makers

LLRP = Llrp()
# What a reader says first: a ConnectionAttemptEvent with this status (LLRP 1.1, section 14).
EVENT = "0 READER_EVENT_NOTIFICATION 1 1\n1 ReaderEventNotificationData\n2 UTCTimestamp 0\n2 ConnectionAttemptEvent {}\n"
TAG = "1 TagReportData\n2 EPC-96 urn:epc:tag:gid-96:1.2.{}\n2 AntennaID 1\n2 PeakRSSI -60\n"
ROSPEC = """\
1 ROSpec 5 0 0
2 ROBoundarySpec
3 ROSpecStartTrigger 0
3 ROSpecStopTrigger 0 0
2 AISpec w0
3 AISpecStopTrigger 0 0
3 InventoryParameterSpec 1 1
2 ROReportSpec 2 1
3 TagReportContentSelector 0 0 0 1 0 1 0 0 0 0
"""
# How long a test may take, in seconds.
LONGEST = 20


def octets(listing: str) -> bytes:
    return LLRP.encode(listing, all=True)


def report(*numbers: int) -> bytes:
    """A report of tags with these serial numbers."""
    return octets("0 RO_ACCESS_REPORT 1 9\n" + "".join(TAG.format(number) for number in numbers))


class Peer:
    """A reader that answers each request with status 0, or as it is told to."""

    def __init__(self) -> None:
        self.listener = socket.create_server(("127.0.0.1", 0))
        self.port: int = self.listener.getsockname()[1]
        self.greeting = octets(EVENT.format(0))
        # What is sent in place of a response, or after it, by the name of the request; b"" is no answer.
        self.instead: List[Tuple[str, bytes]] = []
        self.after: List[Tuple[str, bytes]] = []
        self.ends_after = ""
        self.came: List[Message] = []
        self.thread = threading.Thread(target=self.serve, daemon=True)
        self.thread.start()

    def serve(self) -> None:
        """Serves a client to its end, if one comes."""
        with contextlib.suppress(OSError):
            connection, _ = self.listener.accept()
            with connection:
                connection.settimeout(LONGEST)
                connection.sendall(self.greeting)
                self.answer_all(connection)

    def answer_all(self, connection: socket.socket) -> None:
        """Answers what comes until the client ends."""
        for message in LLRP.stream(connection.makefile("rb"), all=True):
            self.came.append(message)
            name = message.get("message", "")
            if name != "KEEPALIVE_ACK":
                connection.sendall(self.answer(name, message.get("id", 0)))
            if name == self.ends_after:
                return

    def answer(self, name: str, number: int) -> bytes:
        """What is sent to a request."""
        instead = dict(self.instead).get(name)
        usual = octets(f"0 {name}_RESPONSE 1 {number}\n1 LLRPStatus 0 x\n") if instead is None else instead
        return usual + dict(self.after).get(name, b"")

    def names(self) -> List[str]:
        """The names of what came, once the client has ended."""
        self.thread.join(LONGEST)
        return [str(message.get("message")) for message in self.came]


@pytest.fixture
def peer() -> Iterator[Peer]:
    made = Peer()
    yield made
    made.listener.close()


def reader_of(peer: Peer, seconds: float = LONGEST) -> Reader:
    return Reader("127.0.0.1", peer.port, seconds, llrp=LLRP)


def test_takes_inventory(peer: Peer) -> None:
    peer.after = [("START_ROSPEC", report(1, 2) + report(3))]
    with reader_of(peer) as reader:
        reader.start(reader.add(ROSPEC))
        tags = reader.tags(LONGEST)
        assert [next(tags) for _ in range(3)] == [Sighting(f"urn:epc:tag:gid-96:1.2.{number}", 1, -60) for number in (1, 2, 3)]
    assert peer.names() == ["ADD_ROSPEC", "ENABLE_ROSPEC", "START_ROSPEC", "DELETE_ROSPEC", "CLOSE_CONNECTION"]
    assert [message["id"] for message in peer.came] == [1, 2, 3, 4, 5]
    assert [message.get("ROSpecID") for message in peer.came] == [None, 5, 5, 5, None]
    assert octets(f"0 ADD_ROSPEC 1 1\n{ROSPEC}") == LLRP.pack([peer.came[0]], all=True)


def test_the_page_shows_it(peer: Peer, capsys: "pytest.CaptureFixture[str]", monkeypatch: pytest.MonkeyPatch) -> None:
    top = pathlib.Path(__file__).parent.parent.parent
    monkeypatch.chdir(top)
    text = (top / "docs/library.md").read_text(encoding="utf-8").split("for a program that wants its tags:\n\n")[1].split("\n\n|")[0]
    lines = [line[4:] for line in text.splitlines()]
    peer.after = [("START_ROSPEC", report(1, 2))]
    exec("\n".join(lines).replace('"192.0.2.17"', f'"127.0.0.1", {peer.port}').replace("seconds=60", "seconds=0.5"))
    assert capsys.readouterr().out == "".join(f"urn:epc:tag:gid-96:1.2.{number} 1 -60\n" for number in (1, 2))


def test_ends_when_the_time_is_over(peer: Peer) -> None:
    with reader_of(peer) as reader:
        began = time.monotonic()
        assert list(reader.tags(0.3)) == [] and 0.3 <= time.monotonic() - began < LONGEST


def test_says_all_of_a_tag(peer: Peer) -> None:
    listing = "0 RO_ACCESS_REPORT 1 9\n1 TagReportData\n2 EPCData 16 xabcd\n2 FirstSeenTimestampUTC 5\n2 LastSeenTimestampUTC 6\n2 TagSeenCount 7\n"
    peer.after = [("GET_REPORT", b"")]
    peer.greeting += octets(listing + "2 ChannelIndex 3\n2 Custom 25882 57 xe8a2\n")
    makers = Makers(LLRP).load("impinj.tsv")
    with Reader("127.0.0.1", peer.port, LONGEST, makers) as reader:
        others = [{"parameter": "ChannelIndex", "ChannelIndex": 3}, {"parameter": "ImpinjPeakRSSI", "RSSI": -5982}]
        assert next(reader.tags(LONGEST)) == Sighting("abcd", None, None, 5, 6, 7, others)


def test_answers_keepalives(peer: Peer) -> None:
    peer.after = [("ENABLE_ROSPEC", octets("0 KEEPALIVE 1 70\n") + report(1))]
    with reader_of(peer) as reader:
        reader.ask("ENABLE_ROSPEC", ROSpecID=5)
        next(reader.tags(LONGEST))
    assert peer.names() == ["ENABLE_ROSPEC", "KEEPALIVE_ACK", "CLOSE_CONNECTION"] and peer.came[1]["id"] == 70


def test_keeps_events_and_reports_beside_answers(peer: Peer) -> None:
    event = octets("0 READER_EVENT_NOTIFICATION 1 2\n1 ReaderEventNotificationData\n2 UTCTimestamp 0\n2 ROSpecEvent 0 5 0\n")
    peer.instead = [("ENABLE_ROSPEC", report(1) + event + octets("0 ENABLE_ROSPEC_RESPONSE 1 1\n1 LLRPStatus 0 x\n"))]
    with reader_of(peer) as reader:
        assert reader.ask("ENABLE_ROSPEC", ROSpecID=5)["message"] == "ENABLE_ROSPEC_RESPONSE"
        assert [message["id"] for message in reader.events] == [1, 2]
        assert next(reader.tags(LONGEST)).epc == "urn:epc:tag:gid-96:1.2.1"


def test_takes_pieces(peer: Peer) -> None:
    whole = peer.greeting + report(1)
    peer.greeting = whole[:-7]
    peer.after = [("ENABLE_ROSPEC", b"")]
    peer.instead = [("ENABLE_ROSPEC", whole[-7:] + octets("0 ENABLE_ROSPEC_RESPONSE 1 1\n1 LLRPStatus 0 x\n"))]
    with reader_of(peer) as reader:
        assert list(reader.tags(0.1)) == []
        reader.ask("ENABLE_ROSPEC", ROSpecID=5)
        assert len(list(reader.tags(0.1))) == 1


@pytest.mark.parametrize("answer", ["0 START_ROSPEC_RESPONSE 1 3\n1 LLRPStatus 101 x6e6f\n", "0 ERROR_MESSAGE 1 3\n1 LLRPStatus 101 x6e6f\n"])
def test_is_refused(peer: Peer, answer: str) -> None:
    peer.instead = [("START_ROSPEC", octets(answer))]
    with pytest.raises(RequestRefused, match="START_ROSPEC was refused: status 101, no") as refused, reader_of(peer) as reader:
        reader.start(reader.add(ROSPEC))
    assert (refused.value.name, refused.value.status, refused.value.text) == ("START_ROSPEC", 101, "no")
    assert peer.names() == ["ADD_ROSPEC", "ENABLE_ROSPEC", "START_ROSPEC", "DELETE_ROSPEC", "CLOSE_CONNECTION"]


def test_deletes_nothing_that_was_not_added(peer: Peer) -> None:
    peer.instead = [("ADD_ROSPEC", octets("0 ADD_ROSPEC_RESPONSE 1 1\n1 LLRPStatus 101 x\n"))]
    with pytest.raises(RequestRefused), reader_of(peer) as reader:
        reader.add(ROSPEC)
    assert peer.names() == ["ADD_ROSPEC", "CLOSE_CONNECTION"]


def test_closes_on_an_exception(peer: Peer) -> None:
    with pytest.raises(ZeroDivisionError), reader_of(peer) as reader:
        reader.add(ROSPEC)
        raise ZeroDivisionError
    assert peer.names() == ["ADD_ROSPEC", "DELETE_ROSPEC", "CLOSE_CONNECTION"]


def test_says_that_it_could_not_delete(peer: Peer) -> None:
    peer.instead = [("DELETE_ROSPEC", octets("0 DELETE_ROSPEC_RESPONSE 1 2\n1 LLRPStatus 101 x\n"))]
    with pytest.raises(RequestRefused, match="DELETE_ROSPEC"), reader_of(peer) as reader:
        reader.add(ROSPEC)
    assert peer.names() == ["ADD_ROSPEC", "DELETE_ROSPEC", "CLOSE_CONNECTION"]


def test_loses_the_connection_after_the_tags(peer: Peer) -> None:
    peer.after, peer.ends_after = [("START_ROSPEC", report(1, 2))], "START_ROSPEC"
    found = []
    with pytest.raises(ConnectionLost), reader_of(peer) as reader:
        reader.start(reader.add(ROSPEC))
        for tag in reader.tags(LONGEST):
            found.append(tag.epc)
    assert found == ["urn:epc:tag:gid-96:1.2.1", "urn:epc:tag:gid-96:1.2.2"]


def test_waits_no_longer_than_it_may(peer: Peer) -> None:
    peer.instead = [("ENABLE_ROSPEC", b"")]
    with reader_of(peer, 0.5) as reader:
        with pytest.raises(TimedOut, match="an answer to ENABLE_ROSPEC did not come within 0.5 seconds"):
            reader.ask("ENABLE_ROSPEC", ROSpecID=5)


def test_another_id_is_no_answer(peer: Peer) -> None:
    peer.instead = [("ENABLE_ROSPEC", octets("0 ENABLE_ROSPEC_RESPONSE 1 77\n1 LLRPStatus 0 x\n"))]
    with reader_of(peer, 0.5) as reader, pytest.raises(TimedOut):
        reader.ask("ENABLE_ROSPEC", ROSpecID=5)


def test_is_not_accepted(peer: Peer) -> None:
    peer.greeting = octets(EVENT.format(2))
    with pytest.raises(ReaderError, match="was not accepted"):
        reader_of(peer)


def test_hears_nothing(peer: Peer) -> None:
    peer.greeting = b""
    with pytest.raises(TimedOut, match="READER_EVENT_NOTIFICATION"):
        reader_of(peer, 0.5)


def test_nobody_listens(peer: Peer) -> None:
    with socket.create_server(("127.0.0.1", 0)) as listener:
        port = listener.getsockname()[1]
    with pytest.raises(ConnectionLost):
        Reader("127.0.0.1", port, 1, llrp=LLRP)
    socket.create_connection(("127.0.0.1", peer.port)).close()


@pytest.mark.parametrize(
    "octets_sent, reason",
    [
        (bytes.fromhex("04FF0000000A00000001"), "no message"),
        (bytes.fromhex("043E0000000900000001"), "no message"),
        (bytes.fromhex("043D00200000") + bytes(100), "a frame of 2097152 octets"),
    ],
)
def test_refuses_frames(peer: Peer, octets_sent: bytes, reason: str) -> None:
    peer.greeting += octets_sent
    with pytest.raises(ReaderError, match=reason), reader_of(peer, 1) as reader:
        list(reader.tags(LONGEST))
