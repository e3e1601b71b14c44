"""The class Llrp, with what it takes, returns and raises."""
import ctypes
import json
from dataclasses import dataclass
from typing import Any, Callable, Dict, Iterable, Iterator, List, Optional, Protocol, Tuple

from . import _library
from ._library import Octets

# A message, or a frame that is none, as docs/json.md says.
Message = Dict[str, Any]
# How many octets `stream` reads at a time, at most.
PIECE = 65536


class Readable(Protocol):
    """A file or a connection that is read in binary, such as sys.stdin.buffer or connection.makefile("rb")."""

    def read(self, size: int, /) -> bytes:
        """Returns at most this many octets, and none at the end."""


class Namer(Protocol):
    """What names makers' parameters, as llrp_epc.makers.Makers."""

    def named(self, item: Any, /) -> Any:
        """Returns a message with the names."""

    def plain(self, item: Any, /) -> Any:
        """Returns a message without the names."""


@dataclass(frozen=True)
class Tag:
    """What a report says of a tag; None where it does not say it.

    `word` and `text` are those of an EPC-96, `rssi` is in dBm, `first_seen` in microseconds since 1970, and `count` says how often the tag
    was seen."""

    word: Optional[bytes]
    text: Optional[str]
    antenna: Optional[int]
    rssi: Optional[int]
    first_seen: Optional[int]
    count: Optional[int]


class Refused(ValueError):
    """A text, a listing, a message or a stream was refused: `name` says why, `line` at which line of a listing, or which of the messages
    from 1 on, `path` at which of its members, and `right` the check digit that a key would have."""

    def __init__(self, status: int, name: str, line: int = 0, right: str = "", path: str = "") -> None:
        super().__init__(status, name, line, right, path)
        self.status, self.name, self.line, self.right, self.path = status, name, line, right, path

    def __str__(self) -> str:
        if self.line:
            return f"line {self.line}: {self.path}: {self.name}" if self.path else f"line {self.line}: {self.name}"
        return f"{self.name} {self.right}" if self.right else self.name


class Llrp:
    """The functions of the library.

    No call keeps anything, so threads may share an object. Octets are bytes, or a bytearray or memoryview that no other thread writes to
    during the call. With all=True a call knows every message and parameter of LLRP 1.1, in place of those of the profile
    (docs/tables.md)."""

    def __init__(self, path: Optional[str] = None) -> None:
        """Loads the library at a path, such as out/libllrp_c.so.0.

        Without a path it is the library in the package, as a wheel has it, the one that install.sh puts below the same prefix, or else the one
        that the system's loader finds."""
        self.library = _library.load(path)

    # ---- tags

    def text_of_word(self, word: Octets, all_schemes: bool = False) -> str:
        """Returns the tag URI of a tag's twelve octets, or their raw URI where they have none.

        With all_schemes=True words of GIAI-96, GSRNP-96, SGCN-96, CPI-96 and USDoD-96 have tag URIs too."""
        return self.text_and_fault(word, all_schemes)[0]

    def text_and_fault(self, word: Octets, all_schemes: bool = False) -> Tuple[str, Optional[Tuple[str, int]]]:
        """Returns the text of a tag's twelve octets, and None or why it is no tag URI: the name of the part and its first bit."""
        function = self.library.llrp_text_in_all if all_schemes else self.library.llrp_text_of_word
        count, bit = ctypes.c_size_t(), ctypes.c_uint32()
        status, text = _library.filled(function, word, _library.TEXT_ROOM, count, count, bit)
        if status != _library.OK and not _library.HEADER <= status <= _library.CODE:
            raise self._refusal(status)
        return text.decode(), None if status == _library.OK else (self.name(status), bit.value)

    def word_of_text(self, text: str, all_schemes: bool = False) -> bytes:
        """Returns the twelve octets of a tag URI or a raw URI."""
        function = self.library.llrp_word_in_all if all_schemes else self.library.llrp_word_of_text
        word = ctypes.c_size_t(_library.WORD_OCTETS)
        status, octets = _library.filled(function, text.encode(), word.value, word)
        if status != _library.OK:
            raise self._refusal(status)
        return octets

    # ---- keys

    def forms(self, word: Octets, all_schemes: bool = False) -> Dict[str, str]:
        """Returns each form of a tag's word by its name, as `llrp epc --forms` prints them: tag and hex, and where the word has them pure,
        element, link and key.

        With all_schemes=True words of GIAI-96, GSRNP-96, SGCN-96 and CPI-96 have these forms too, and those of USDoD-96 tag and pure."""
        function = self.library.llrp_forms_in_all if all_schemes else self.library.llrp_forms
        written = ctypes.c_size_t()
        status, lines = _library.filled(function, word, _library.FORMS_ROOM, written, written)
        if status != _library.OK:
            raise self._refusal(status)
        return dict(line.split(" ", 1) for line in lines.decode().splitlines())

    def word(self, text: str, filter: int = 0, prefix_digits: Optional[int] = None, all_schemes: bool = False) -> bytes:
        """Returns the twelve octets of a text in any form: a GS1 key, a pure identity URI, a tag URI, a raw URI or 24 digits.

        A key and a pure identity URI do not say the filter value, 0 to 7, and a key not how many digits its company prefix has, 6 to 12:
        without it no key is read. With all_schemes=True the text may be of GIAI-96, GSRNP-96, SGCN-96, CPI-96 or USDoD-96 too. Raises Refused
        with the first rule that refuses the text; of a wrong check digit `right` is the right one."""
        octets, word, right = text.encode(), ctypes.create_string_buffer(_library.WORD_OCTETS), ctypes.c_uint32()
        unsaid = (_library.number(filter), _library.number(prefix_digits or 0))
        function = self.library.llrp_word_of_key_in_all if all_schemes else self.library.llrp_word_of_key
        status: int = function(octets, len(octets), *unsaid, word, _library.WORD_OCTETS, ctypes.byref(right))
        if status != _library.OK:
            raise self._refusal(status, right=chr(right.value) if right.value else "")
        return word.raw

    # ---- messages

    def stream(self, readable: Readable, all: bool = False, makers: Optional[Namer] = None) -> Iterator[Message]:
        """Yields each message of a stream as soon as it is whole, as a line of `llrp show --json` has it, with the names of makers' tables.

        A frame that is no message is a dict with `fault`, `id` and `bit`. The last dict may have `broken`, where nothing can be found after
        it, or `rest`, the number of octets of an unfinished frame. A frame of more than 1,048,576 octets is not kept: it raises Refused
        with the name MessageLength."""
        read: Callable[[int], bytes] = getattr(readable, "read1", readable.read)
        received = bytearray()
        while piece := read(PIECE):
            received += piece
            if self._has_frame(received):
                messages, used = self.messages(received, all, makers)
                del received[:used]
                yield from messages
                if "broken" in messages[-1]:
                    return
        if received:
            yield {"rest": len(received)}

    def messages(self, stream: Octets, all: bool = False, makers: Optional[Namer] = None) -> Tuple[List[Message], int]:
        """Returns a dict for each of a stream's whole frames, and how many octets they have. With all=True and makers' tables, makers'
        parameters have their names (llrp_epc.makers).

        A frame that is no message is a dict with `fault`, `id` and `bit`. A last dict with `broken` says that nothing can be found after
        it."""
        function = self.library.llrp_list_json_all if all else self.library.llrp_list_json
        lines, used, _ = self._listed(function, stream)
        found = [json.loads(line) for line in lines.split("\n")[:-1]]
        return [makers.named(message) for message in found] if makers else found, used

    def list(self, stream: Octets, all: bool = False) -> Tuple[str, int, bool]:
        """Returns the listing of a stream's whole frames, how many octets they have, and whether each is a message.

        A listing that ends with the line ! BROKEN says that nothing can be found after it."""
        function = self.library.llrp_list_all if all else self.library.llrp_list
        listing, used, status = self._listed(function, stream)
        return listing, used, status == _library.OK

    def explain(self, octets: Octets, all: bool = False) -> str:
        """Returns what `llrp explain` prints of the octets of a frame, or of several: a line for each field of a message, with its bit, width,
        level, name and value.

        The octets need not be messages: of a frame that is none the text has the fields before its first fault, those that are refused, and
        a sentence with what stands there and what may."""
        function = self.library.llrp_explain_all if all else self.library.llrp_explain
        written = ctypes.c_size_t()
        room = 64 * memoryview(octets).nbytes + 256
        status, text = _library.filled(function, octets, room, written, written)
        if status not in (_library.OK, _library.FAULTY):
            raise self._refusal(status)
        return text.decode()

    def tags(self, frame: Octets) -> "List[Tag]":
        """Returns what the message of one frame says of its tags, in their order: those of an RO_ACCESS_REPORT of LLRP 1.1.

        Raises Refused with the name Length where the octets are not exactly one frame, and Faulty where the frame is no message."""
        where, length = _library.passed(frame)
        count, room = ctypes.c_size_t(), 16
        while True:
            structs = (_library.TagStruct * room)()
            status: int = self.library.llrp_tags(where, length, structs, room, ctypes.byref(count))
            if status != _library.ROOM:
                break
            room = count.value
        if status != _library.OK:
            raise self._refusal(status)
        return [_tag_of(structs[at]) for at in range(count.value)]

    def encode(self, listing: str, all: bool = False) -> bytes:
        """Returns the octets of the messages of a listing, or raises Refused with the line and the reason."""
        function = self.library.llrp_encode_all if all else self.library.llrp_encode
        written, line = ctypes.c_size_t(), ctypes.c_uint64()
        status, octets = _library.filled(function, listing.encode(), 4096, written, written, line)
        if status != _library.OK:
            raise self._refusal(status, line.value)
        return octets

    def pack(self, messages: Iterable[Message], all: bool = False, makers: Optional[Namer] = None) -> bytes:
        """Returns the octets of messages, which are dicts as `messages` and `stream` give them, with their members in any order.

        Raises Refused for the first that is none, with its number, counted from 1, as `line`, and with the path of the member as `path`,
        such as parameters[0].AntennaID; docs/json.md explains the names. With makers' tables, makers' parameters may have their names."""
        function = self.library.llrp_encode_json_all if all else self.library.llrp_encode_json
        plain = map(makers.plain, messages) if makers else messages
        lines = "".join(f"{json.dumps(message)}\n" for message in plain).encode()
        room, path_room = len(lines), _library.PATH_ROOM
        while True:
            octets, path = ctypes.create_string_buffer(room + 1), ctypes.create_string_buffer(path_room)
            written, line, length = ctypes.c_size_t(), ctypes.c_uint64(), ctypes.c_size_t()
            counts = (ctypes.byref(written), ctypes.byref(line))
            status: int = function(lines, len(lines), octets, room, *counts, path, path_room, ctypes.byref(length))
            if status == _library.ROOM:
                room = written.value
            elif length.value > path_room:
                path_room = length.value
            else:
                break
        if status != _library.OK:
            raise self._refusal(status, line.value, path=ctypes.string_at(path, length.value).decode())
        return ctypes.string_at(octets, written.value)

    def frame_length(self, stream: Octets) -> int:
        """Returns the length of the first frame of a stream, or 0 where more octets are wanted."""
        status, length = self._frame_length(stream)
        if status != _library.OK:
            raise self._refusal(status)
        return length

    # ---- names

    def name(self, status: int) -> str:
        """Returns the name of a status, as LeadingZero."""
        room = ctypes.create_string_buffer(_library.NAME_ROOM)
        length: int = self.library.llrp_name(status, room, _library.NAME_ROOM)
        return room.raw[:length].decode()

    # ---- what the calls share

    def _refusal(self, status: int, line: int = 0, right: str = "", path: str = "") -> Exception:
        """Returns the exception for a status."""
        return MemoryError() if status == _library.MEMORY else Refused(status, self.name(status), line, right, path)

    def _frame_length(self, stream: Octets) -> Tuple[int, int]:
        """Returns the status of llrp_frame_length, and the length."""
        count = ctypes.c_size_t()
        status: int = self.library.llrp_frame_length(*_library.passed(stream), ctypes.byref(count))
        return status, count.value

    def _has_frame(self, stream: bytearray) -> bool:
        """Returns whether a stream begins with a whole frame, or with a break, so that there is a line for it."""
        status, length = self._frame_length(stream)
        if length > _library.MOST_OCTETS:
            raise Refused(_library.FAULTY, "MessageLength")
        return status == _library.BROKEN or 0 < length <= len(stream)

    def _listed(self, function: Any, stream: Octets) -> Tuple[str, int, int]:
        """Returns what a function writes of a stream, how many octets it used, and the status."""
        used, written = ctypes.c_size_t(), ctypes.c_size_t()
        room = 16 * memoryview(stream).nbytes + 256
        status, text = _library.filled(function, stream, room, written, used, written)
        if status not in (_library.OK, _library.FAULTY, _library.BROKEN):
            raise self._refusal(status)
        return text.decode(), used.value, status


def _tag_of(struct: _library.TagStruct) -> Tag:
    """Returns what a struct of the library says."""

    def said(bit: int, value: Any) -> Any:
        return value if struct.has & bit else None

    text = bytes(struct.text)[: struct.text_length].decode()
    return Tag(
        said(_library.TAG_WORD, bytes(struct.word)),
        said(_library.TAG_WORD, text),
        said(_library.TAG_ANTENNA, struct.antenna),
        said(_library.TAG_RSSI, struct.rssi),
        said(_library.TAG_FIRST_SEEN, struct.first_seen),
        said(_library.TAG_COUNT, struct.count),
    )
