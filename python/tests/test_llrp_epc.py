"""Tests of the package, for pytest. The octets and texts are written out from LLRP 1.1 and from the examples of TDS 1.13."""
import ctypes
import io
import pickle
import socket
from concurrent.futures import ThreadPoolExecutor
from typing import Callable, Iterator, List, Optional

import pytest
from llrp_epc import Llrp, Message, Octets, Refused, Tag, _library

WORD, TEXT = bytes.fromhex("3074257BF7194E4000001A85"), "urn:epc:tag:sgtin-96:3.0614141.812345.6789"
# Two messages of LLRP 1.1 and one of LLRP 1.0.1, a frame with reserved bits that are not zero, and a length field below 10 (section 16).
KEEPALIVE, ACK, CLOSE = bytes.fromhex("083E0000000A00000007"), bytes.fromhex("08480000000A00000007"), bytes.fromhex("040E0000000A00000001")
FAULTY, BROKEN = bytes.fromhex("283E0000000A00000007"), bytes.fromhex("083E0000000900000007")
MESSAGES: List[Message] = [
    {"message": "KEEPALIVE", "version": 2, "id": 7},
    {"message": "KEEPALIVE_ACK", "version": 2, "id": 7},
    {"message": "CLOSE_CONNECTION", "version": 1, "id": 1},
]
# A CUSTOM_MESSAGE (type 1023), which is no message of the profile.
CUSTOM = bytes.fromhex("0BFF0000001000000007 0000651A 25AA")
# A TagReportData (type 240) of WORD with antenna 2, -60 dBm, a time and a count of 65,534, and one of an EPCData of eight bits (section 14).
ALL_SAID, EPC_DATA = bytes.fromhex("00F00022 8D3074257BF7194E4000001A85 810002 86C4 820005AF3107A40000 88FFFE"), bytes.fromhex("00F0000B 00F100070008AB")
# Each way to hand over octets.
FORMS: List[Callable[[bytes], Octets]] = [
    bytes,
    bytearray,
    memoryview,
    lambda octets: memoryview(bytearray(octets)),
    lambda octets: memoryview(bytearray(b"\1" + octets + b"\1"))[1:-1],
    lambda octets: memoryview(b"\1" + octets + b"\1")[1:-1],
    lambda octets: memoryview(bytes(it for octet in octets for it in (octet, 1)))[::2],
    lambda octets: memoryview(bytearray(it for octet in octets for it in (octet, 1)))[::2],
    lambda octets: memoryview(bytearray(octets)).cast("B", [2, len(octets) // 2]),
    lambda octets: memoryview(bytearray(octets)).cast("H"),
]


@pytest.fixture
def llrp() -> Llrp:
    return Llrp()


class Pieces:
    """What is read in these pieces, without a buffer."""

    def __init__(self, pieces: List[bytes]) -> None:
        self.pieces, self.reads = pieces, 0

    def read(self, size: int, /) -> bytes:
        self.reads += 1
        assert len(self.pieces[0] if self.pieces else b"") <= size
        return self.pieces.pop(0) if self.pieces else b""


@pytest.mark.parametrize("form", FORMS)
def test_octets_in_each_form(llrp: Llrp, form: Callable[[bytes], Octets]) -> None:
    assert llrp.text_of_word(form(WORD)) == TEXT
    assert llrp.messages(form(KEEPALIVE + CLOSE)) == ([MESSAGES[0], MESSAGES[2]], 20)
    assert llrp.list(form(KEEPALIVE)) == ("0 KEEPALIVE 2 7\n", 10, True)
    assert llrp.frame_length(form(KEEPALIVE)) == 10


@pytest.mark.parametrize("form", FORMS[:4])
def test_no_octets(llrp: Llrp, form: Callable[[bytes], Octets]) -> None:
    assert llrp.messages(form(b"")) == ([], 0)
    assert llrp.list(form(b"")) == ("", 0, True)
    assert llrp.frame_length(form(b"")) == 0


def test_octets_are_not_copied() -> None:
    octets = bytearray(KEEPALIVE)
    place = ctypes.addressof(ctypes.c_char.from_buffer(octets))
    assert _library.passed(KEEPALIVE)[0] is KEEPALIVE
    assert ctypes.addressof(_library.passed(octets)[0]) == place
    assert ctypes.addressof(_library.passed(memoryview(octets)[3:])[0]) == place + 3


def test_a_bytearray_is_free_after_a_call(llrp: Llrp) -> None:
    received = bytearray(KEEPALIVE + ACK[:4])
    _, used = llrp.messages(received)
    del received[:used]
    assert received == ACK[:4]
    received[:] = BROKEN
    try:
        llrp.frame_length(received)
    except Refused:
        received.clear()  # (a BufferError, if the refusal kept the octets)
    assert not received


@pytest.mark.parametrize("wrong", ["text", 7, None, [8, 62]])
def test_what_is_not_octets(llrp: Llrp, wrong: Octets) -> None:
    calls: List[Callable[[Octets], object]] = [llrp.text_of_word, llrp.messages, llrp.list, llrp.explain, llrp.frame_length]
    for call in calls:
        with pytest.raises(TypeError):
            call(wrong)


def test_words_and_texts(llrp: Llrp) -> None:
    assert llrp.word_of_text(TEXT) == WORD
    assert llrp.text_and_fault(bytes.fromhex("340000000000000000000000")) == ("urn:epc:raw:96.x340000000000000000000000", ("Header", 0))
    asset, coupon = bytes.fromhex("3474257BF40000000000162E"), "urn:epc:tag:sgcn-96:3.4012345.67890.04711"
    assert llrp.text_of_word(asset, all_schemes=True) == "urn:epc:tag:giai-96:3.0614141.5678"
    assert llrp.word_of_text(coupon, all_schemes=True).hex() == "3f74f4e4e612640000019907"
    nothing = "urn:epc:raw:96.x3F74F4E4E612640000000001"
    assert llrp.text_and_fault(bytes.fromhex("3F74F4E4E612640000000001"), all_schemes=True) == (nothing, ("Serial", 55))
    with pytest.raises(Refused, match="^LeadingZero$"):
        llrp.word_of_text("urn:epc:tag:sgtin-96:3.0614141.812345.007")
    with pytest.raises(Refused, match="^Length$"):
        llrp.text_of_word(WORD[1:])


# The forms of the first word, and keys with what they do not say: an SSCC, a GLN without an extension, and a GRAI (TDS 1.13, section 7).
WORD_FORMS = {
    "tag": TEXT,
    "pure": "urn:epc:id:sgtin:0614141.812345.6789",
    "element": "(01)80614141123458(21)6789",
    "link": "https://id.gs1.org/01/80614141123458/21/6789",
    "hex": "3074257BF7194E4000001A85",
    "key": "gtin 80614141123458 6789",
}
KEYS = [("(00)106141412345678908", 3, 7, "3174257BF4499602D2000000"), ("gln 0614141123452 5678", 3, 7, "3274257BF46072000000162E")]


# The words of GIAI-96, GSRNP-96, SGCN-96 and CPI-96 with filter value 3 and a company prefix of seven digits, and their forms between tag URI and
# digits (TDS 1.13, sections 6 and 7, and appendix E).
FURTHER = [
    (
        "3474257BF40000000000162E",
        "urn:epc:tag:giai-96:3.0614141.5678",
        ["urn:epc:id:giai:0614141.5678", "(8004)06141415678", "https://id.gs1.org/8004/06141415678", "giai 06141415678"],
    ),
    (
        "2E74257BF4499602D2000000",
        "urn:epc:tag:gsrnp-96:3.0614141.1234567890",
        [
            "urn:epc:id:gsrnp:0614141.1234567890",
            "(8017)061414112345678902",
            "https://id.gs1.org/8017/061414112345678902",
            "gsrnp 061414112345678902",
        ],
    ),
    (
        "3F74F4E4E612640000019907",
        "urn:epc:tag:sgcn-96:3.4012345.67890.04711",
        [
            "urn:epc:id:sgcn:4012345.67890.04711",
            "(255)401234567890104711",
            "https://id.gs1.org/255/401234567890104711",
            "gcn 4012345678901 04711",
        ],
    ),
    (
        "3C74257BF400C0E680003039",
        "urn:epc:tag:cpi-96:3.0614141.98765.12345",
        [
            "urn:epc:id:cpi:0614141.98765.12345",
            "(8010)061414198765(8011)12345",
            "https://id.gs1.org/8010/061414198765/8011/12345",
            "cpi 061414198765 12345",
        ],
    ),
]
# Texts of further schemes, and the rules that refuse them.
REFUSED_IN_ALL = [
    ("(255)401234567890204711", "Check 1"),
    ("(8010)061414198765", "Serial"),
    ("(8004)0614141", "Length"),
    ("urn:epc:id:usdod:2I194.1", "Code"),
]


def test_forms(llrp: Llrp) -> None:
    assert llrp.forms(WORD) == WORD_FORMS
    raw = bytes.fromhex("E20000000000000000000001")
    assert llrp.forms(raw) == {"tag": f"urn:epc:raw:96.x{raw.hex().upper()}", "hex": raw.hex().upper()}
    with pytest.raises(Refused, match="^Length$"):
        llrp.forms(WORD[1:])


@pytest.mark.parametrize(("digits", "tag", "others"), FURTHER)
def test_forms_of_further_schemes(llrp: Llrp, digits: str, tag: str, others: List[str]) -> None:
    word = bytes.fromhex(digits)
    texts = [tag, *others[:3], digits, others[3]]
    assert llrp.forms(word, all_schemes=True) == dict(zip(["tag", "pure", "element", "link", "hex", "key"], texts))
    assert llrp.forms(word) == {"tag": f"urn:epc:raw:96.x{digits}", "hex": digits}
    for text in texts:
        assert llrp.word(text, filter=3, prefix_digits=7, all_schemes=True) == word
        if text != digits:
            with pytest.raises(Refused):
                llrp.word(text, filter=3, prefix_digits=7)


def test_forms_in_all_schemes(llrp: Llrp) -> None:
    assert llrp.forms(WORD, all_schemes=True) == WORD_FORMS
    for text in WORD_FORMS.values():
        assert llrp.word(text, filter=3, prefix_digits=7, all_schemes=True) == WORD
    word, pure = "2F32032533139342DFDC1C35", "urn:epc:id:usdod:2S194.12345678901"
    supplier = {"tag": "urn:epc:tag:usdod-96:3.2S194.12345678901", "pure": pure, "hex": word}
    assert llrp.forms(bytes.fromhex(word), all_schemes=True) == supplier
    assert llrp.word(pure, filter=3, all_schemes=True) == bytes.fromhex(word)
    for text, said in REFUSED_IN_ALL:
        with pytest.raises(Refused) as caught:
            llrp.word(text, filter=3, prefix_digits=7, all_schemes=True)
        assert str(caught.value) == said
    with pytest.raises(Refused, match="^Prefix$"):
        llrp.word("giai 06141415678", filter=3, all_schemes=True)
    with pytest.raises(Refused, match="^Length$"):
        llrp.forms(WORD[1:], all_schemes=True)


def test_words_of_forms(llrp: Llrp) -> None:
    for text in WORD_FORMS.values():
        assert llrp.word(text, filter=3, prefix_digits=7) == WORD
    for text, filter, digits, word in KEYS:
        assert llrp.word(text, filter, digits) == bytes.fromhex(word)
    assert llrp.word("urn:epc:id:sgtin:0614141.812345.6789") == bytes.fromhex("3014257BF7194E4000001A85")
    assert llrp.word(" ".join(f"{octet:02x}" for octet in WORD)) == WORD


@pytest.mark.parametrize(
    ("text", "filter", "digits", "said"),
    [
        ("(01)80614141123458(21)6789", 3, None, "Prefix"),
        ("(01)80614141123451(21)6789", 3, 7, "Check 8"),
        ("(01)8061414112345", 3, 7, "Length"),
        ("(00)106141412345678908(21)1", 3, 7, "Serial"),
        ("(02)80614141123458", 3, 7, "Start"),
        ("30", 3, 7, "Hex"),
        ("(01)" + "9" * 97, 3, 7, "Long"),
        ("(01)80614141123458(21)6789", 8, 7, "Filter"),
        ("(01)80614141123458(21)6789", -1, 7, "Filter"),
        ("(01)80614141123458(21)6789", 2**32, 7, "Filter"),
        ("(01)80614141123458(21)6789", 3, 5, "Digits"),
        ("(01)80614141123458(21)6789", 3, 13, "Digits"),
    ],
)
def test_refused_keys(llrp: Llrp, text: str, filter: int, digits: Optional[int], said: str) -> None:
    with pytest.raises(Refused) as caught:
        llrp.word(text, filter, digits)
    for refusal in (caught.value, pickle.loads(pickle.dumps(caught.value))):
        assert str(refusal) == said
        assert refusal.right == ("8" if said == "Check 8" else "")


def test_a_refusal(llrp: Llrp) -> None:
    assert issubclass(Refused, ValueError)
    with pytest.raises(Refused) as caught:
        llrp.encode("0 KEEPALIVE 2 7\n0 KEEPALIV 2 7\n")
    for refusal in (caught.value, pickle.loads(pickle.dumps(caught.value))):
        assert (refusal.status, refusal.name, refusal.line, str(refusal)) == (50, "Name", 2, "line 2: Name")


def test_listings(llrp: Llrp) -> None:
    assert llrp.encode("0 KEEPALIVE 2 7\n0 CLOSE_CONNECTION 1 1\n") == KEEPALIVE + CLOSE
    assert llrp.encode("0 KEEPALIVE 2 7\n" * 3000) == KEEPALIVE * 3000
    assert llrp.list(KEEPALIVE * 3000) == ("0 KEEPALIVE 2 7\n" * 3000, 30000, True)
    assert llrp.encode("0 CUSTOM_MESSAGE 2 7 25882 37 xaa\n", all=True) == CUSTOM


# A report of a tag's EPC-96, antenna and signal strength (TDS 1.13, section 6.3.1; LLRP 1.1, section 17.2).
REPORT = bytes.fromhex("043D0000002000000001 00F00016 8D 3074257BF7194E4000001A85 81 0001 86 C4")
TAG: Message = {"parameter": "TagReportData", "parameters": [{"parameter": "EPC-96", "EPC": TEXT}, {"AntennaID": 1, "parameter": "AntennaID"}, {"parameter": "PeakRSSI", "PeakRSSI": -60}]}
SEEN: Message = {"id": 1, "parameters": [TAG], "version": 1, "message": "RO_ACCESS_REPORT"}


# The fields of the header of KEEPALIVE, which has no others (LLRP 1.1, section 16), and of the frame with reserved bits those up to these.
COLUMNS = "BIT WIDTH LEVEL FIELD VALUE\n"
EXPLAINED = f"frame 1, 10 octets\n{COLUMNS}0 3 0 reserved 0\n3 3 0 Version 2\n6 10 0 MessageType 62\tKEEPALIVE\n16 32 0 MessageLength 10\n48 32 0 MessageID 7\n"
REFUSED = f"frame 1, 10 octets\n{COLUMNS}then, refused:\n0 3 0 reserved 1\nfault at bit 0, octet 0: Reserved: 3 bits are 1, not 0\n"


@pytest.mark.parametrize("form", FORMS)
def test_fields(llrp: Llrp, form: Callable[[bytes], Octets]) -> None:
    assert llrp.explain(form(KEEPALIVE)) == EXPLAINED
    assert llrp.explain(form(FAULTY)) == REFUSED


def test_fields_of_what_is_no_frame(llrp: Llrp) -> None:
    assert llrp.explain(b"") == ""
    assert llrp.explain(KEEPALIVE + ACK[:4]) == f"{EXPLAINED}? 4\n"
    assert llrp.explain(BROKEN) == "! BROKEN\n"
    assert llrp.explain(CUSTOM).endswith("fault at bit 6, octet 0: MessageType: 1023 is of no message of the profile\n")
    assert llrp.explain(CUSTOM, all=True).endswith("80 32 0 VendorIdentifier 25882\n112 8 0 MessageSubtype 37\n120 8 0 octets xaa\n")
    assert llrp.explain(KEEPALIVE * 3000).count("MessageID 7\n") == 3000


def test_messages_of_dicts(llrp: Llrp) -> None:
    assert llrp.pack([]) == b""
    assert llrp.pack(MESSAGES) == KEEPALIVE + ACK + CLOSE
    assert llrp.pack(iter([SEEN])) == REPORT
    assert llrp.pack(llrp.messages(REPORT)[0]) == REPORT
    assert llrp.pack(llrp.stream(io.BytesIO(KEEPALIVE * 3000))) == KEEPALIVE * 3000
    assert llrp.pack(llrp.messages(CUSTOM, all=True)[0], all=True) == CUSTOM
    status: Message = {"parameter": "LLRPStatus", "StatusCode": 100, "text": "a\u00fc\U0001f600\n"}
    frame = bytes.fromhex("04640000001A00000002 011F0010 0064 0008 61C3BCF09F98800A")
    assert llrp.pack([{"message": "ERROR_MESSAGE", "version": 1, "id": 2, "parameters": [status]}]) == frame


@pytest.mark.parametrize(
    "wrong, name, path",
    [
        ({"rest": 4}, "Missing", "message"),
        ({**MESSAGES[0], "id": 7.5}, "Mistyped", "id"),
        ({**MESSAGES[0], "id": float("nan")}, "Json", ""),
        ({**MESSAGES[0], "version": 3}, "Value", "version"),
        ({**MESSAGES[0], "ID" * 1000: 7}, "Unknown", "ID" * 1000),
        ({**MESSAGES[0], "\u00fc": 7}, "Unknown", "\\u00fc"),
        ({**MESSAGES[0], "message": "KEEPALIV"}, "Name", "message"),
        ({**SEEN, "parameters": [TAG, {"parameter": "TagReportData"}]}, "Node Missing", "parameters[1]"),
        ({**SEEN, "parameters": [{**TAG, "parameters": [{"parameter": "EPC-96", "EPC": TEXT[:-4] + "007"}]}]}, "LeadingZero", "parameters[0].parameters[0].EPC"),
        ({"message": "CUSTOM_MESSAGE", "version": 2, "id": 7, "VendorIdentifier": 25882, "MessageSubtype": 37, "octets": "aa"}, "Name", "message"),
    ],
)
def test_dicts_that_are_no_messages(llrp: Llrp, wrong: Message, name: str, path: str) -> None:
    with pytest.raises(Refused) as caught:
        llrp.pack([*MESSAGES, wrong, wrong])
    for refusal in (caught.value, pickle.loads(pickle.dumps(caught.value))):
        assert (refusal.name, refusal.line, refusal.path) == (name, 4, path)
        assert str(refusal) == (f"line 4: {path}: {name}" if path else f"line 4: {name}")


@pytest.mark.parametrize("size", range(1, 31))
def test_a_stream_in_pieces(llrp: Llrp, size: int) -> None:
    stream = KEEPALIVE + ACK + CLOSE
    pieces = [stream[at : at + size] for at in range(0, len(stream), size)]
    assert list(llrp.stream(Pieces(pieces))) == MESSAGES


def test_a_message_comes_before_the_next_read(llrp: Llrp) -> None:
    readable = Pieces([KEEPALIVE[:7], KEEPALIVE[7:] + ACK[:1], ACK[1:]])
    messages = llrp.stream(readable)
    assert (next(messages), readable.reads) == (MESSAGES[0], 2)
    assert (next(messages), readable.reads) == (MESSAGES[1], 3)


def test_a_connection(llrp: Llrp) -> None:
    reader, client = socket.socketpair()
    with reader, client, client.makefile("rb") as readable:
        messages = llrp.stream(readable)
        reader.sendall(KEEPALIVE + ACK[:3])
        assert next(messages) == MESSAGES[0]
        reader.sendall(ACK[3:])
        assert next(messages) == MESSAGES[1]
        reader.shutdown(socket.SHUT_WR)
        assert list(messages) == []


def test_a_long_stream(llrp: Llrp) -> None:
    assert list(llrp.stream(io.BytesIO((KEEPALIVE + CLOSE) * 10_000))) == [MESSAGES[0], MESSAGES[2]] * 10_000


@pytest.mark.parametrize(
    "stream, wanted",
    [
        (b"", []),
        (KEEPALIVE + FAULTY + ACK, [MESSAGES[0], {"fault": "Reserved", "id": 7, "bit": 0}, MESSAGES[1]]),
        (KEEPALIVE + BROKEN + ACK, [MESSAGES[0], {"broken": True}]),
        (KEEPALIVE + ACK[:9], [MESSAGES[0], {"rest": 9}]),
        (ACK[:3], [{"rest": 3}]),
        (CUSTOM, [{"fault": "MessageType", "id": 7, "bit": 6}]),
    ],
)
def test_what_is_no_message(llrp: Llrp, stream: bytes, wanted: List[Message]) -> None:
    assert list(llrp.stream(io.BytesIO(stream))) == wanted
    assert list(llrp.stream(Pieces([bytes([it]) for it in stream]))) == wanted


def test_all_of_llrp(llrp: Llrp) -> None:
    (message,) = llrp.stream(io.BytesIO(CUSTOM), all=True)
    assert (message["message"], message["octets"]) == ("CUSTOM_MESSAGE", "aa")
    assert llrp.messages(CUSTOM, all=True) == ([message], 16)


def head(length: int) -> bytes:
    """Returns the head of a KEEPALIVE with this length."""
    return b"\x08\x3e" + length.to_bytes(4, "big") + bytes(4)


def test_a_frame_that_is_too_long(llrp: Llrp) -> None:
    assert list(llrp.stream(Pieces([head(2**20)]))) == [{"rest": 10}]
    readable = Pieces([KEEPALIVE + head(2**20 + 1)] + [bytes(1000)] * 2000)
    messages = llrp.stream(readable)
    assert next(messages) == MESSAGES[0]
    with pytest.raises(Refused, match="^MessageLength$"):
        next(messages)
    assert readable.reads <= 2


def test_threads(llrp: Llrp) -> None:
    def run(number: int) -> Iterator[Message]:
        frame = KEEPALIVE[:6] + number.to_bytes(4, "big")
        return llrp.stream(io.BytesIO(frame * 200))

    with ThreadPoolExecutor(8) as pool:
        for number, messages in enumerate(pool.map(lambda it: list(run(it)), range(8))):
            assert messages == [{"message": "KEEPALIVE", "version": 2, "id": number}] * 200


def test_no_library() -> None:
    with pytest.raises(OSError):
        Llrp("no/such/library.so")


def report(*tags: bytes) -> bytes:
    """Returns the frame of an RO_ACCESS_REPORT (type 61) of version 1."""
    return bytes.fromhex("043D") + (10 + len(b"".join(tags))).to_bytes(4, "big") + bytes.fromhex("00000001") + b"".join(tags)


@pytest.mark.parametrize("count", [0, 1, 16, 17, 500])
def test_tags(llrp: Llrp, count: int) -> None:
    said, other = Tag(WORD, TEXT, 2, -60, 1600000000000000, 65534), Tag(None, None, None, None, None, None)
    assert llrp.tags(report(*[ALL_SAID] * count, EPC_DATA)) == [said] * count + [other]


@pytest.mark.parametrize("form", FORMS)
def test_tags_of_no_report(llrp: Llrp, form: Callable[[bytes], Octets]) -> None:
    assert llrp.tags(form(KEEPALIVE)) == []


@pytest.mark.parametrize("octets, name", [(b"", "Length"), (KEEPALIVE[:9], "Length"), (KEEPALIVE * 2, "Length"), (FAULTY, "Faulty"), (BROKEN, "Length")])
def test_tags_of_what_is_no_message(llrp: Llrp, octets: bytes, name: str) -> None:
    with pytest.raises(Refused) as refusal:
        llrp.tags(octets)
    assert (refusal.value.name, str(refusal.value)) == (name, name)
