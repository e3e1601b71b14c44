"""The functions of libllrp_c, as ctypes calls them. include/llrp.h says what each one does."""
import ctypes
import os
from typing import Any, Optional, Tuple, Union

# The name of the library's file, as programs that are linked with it have it.
NAME = "libllrp_c.so.0"
# Numbers of include/llrp.h: the statuses that the package reads, the first and the last for which a word has no tag URI, without further
# schemes and with them, and lengths.
OK, FAULTY, BROKEN, ROOM, MEMORY = 0, 1, 2, 3, 7
HEADER, ZEROS, CODE = 16, 20, 22
WORD_OCTETS, TEXT_ROOM, NAME_ROOM, MOST_OCTETS = 12, 64, 16, 1048576
# More than all forms of a word have, so that no call is made twice; and more than the path of most members has.
FORMS_ROOM, PATH_ROOM = 512, 256
# The bits of what a report says of a tag, in the order of TagStruct's members that have their names.
TAG_WORD, TAG_ANTENNA, TAG_RSSI, TAG_FIRST_SEEN, TAG_COUNT = 1, 2, 4, 8, 16

Octets = Union[bytes, bytearray, memoryview]


class TagStruct(ctypes.Structure):
    """What a report says of a tag: struct llrp_tag."""

    _fields_ = [
        ("first_seen", ctypes.c_uint64),
        ("has", ctypes.c_uint32),
        ("antenna", ctypes.c_uint16),
        ("count", ctypes.c_uint16),
        ("rssi", ctypes.c_int8),
        ("text_length", ctypes.c_uint8),
        ("word", ctypes.c_uint8 * WORD_OCTETS),
        ("text", ctypes.c_uint8 * TEXT_ROOM),
    ]


def load(path: Optional[str]) -> ctypes.CDLL:
    """Returns the library at a path. Without one it is the library in the package, the one that is installed below the same prefix, or else the
    one that the system's loader finds."""
    package = os.path.dirname(os.path.abspath(__file__))
    places = [package]
    if package.endswith("/lib/python3/dist-packages/llrp_epc"):
        places.append(package[: -len("/python3/dist-packages/llrp_epc")])
    found = [os.path.join(place, NAME) for place in places if os.path.exists(os.path.join(place, NAME))]
    library = ctypes.CDLL(path or (found[0] if found else NAME))
    declare(library)
    return library


def declare(library: ctypes.CDLL) -> None:
    """Gives ctypes the types of the library's functions."""
    size, pointer = ctypes.c_size_t, ctypes.POINTER
    octets = (ctypes.c_char_p, size)  # (what is read, or room for what is written)
    listed = (*octets, *octets, pointer(size), pointer(size))
    encoded = (*octets, *octets, pointer(size), pointer(ctypes.c_uint64))
    packed = (*encoded, *octets, pointer(size))
    keyed = (*octets, ctypes.c_uint32, ctypes.c_uint32, *octets, pointer(ctypes.c_uint32))
    for name, arguments in {
        "llrp_text_of_word": (*octets, *octets, pointer(size), pointer(ctypes.c_uint32)),
        "llrp_word_of_text": (*octets, *octets),
        "llrp_text_in_all": (*octets, *octets, pointer(size), pointer(ctypes.c_uint32)),
        "llrp_word_in_all": (*octets, *octets),
        "llrp_forms": (*octets, *octets, pointer(size)),
        "llrp_word_of_key": keyed,
        "llrp_forms_in_all": (*octets, *octets, pointer(size)),
        "llrp_word_of_key_in_all": keyed,
        "llrp_frame_length": (*octets, pointer(size)),
        "llrp_list": listed,
        "llrp_list_all": listed,
        "llrp_list_json": listed,
        "llrp_list_json_all": listed,
        "llrp_explain": (*octets, *octets, pointer(size)),
        "llrp_explain_all": (*octets, *octets, pointer(size)),
        "llrp_tags": (*octets, pointer(TagStruct), size, pointer(size)),
        "llrp_encode": encoded,
        "llrp_encode_all": encoded,
        "llrp_encode_json": packed,
        "llrp_encode_json_all": packed,
        "llrp_name": (ctypes.c_uint32, *octets),
    }.items():
        function = getattr(library, name)
        function.argtypes, function.restype = arguments, ctypes.c_uint32
    library.llrp_name.restype = size


def number(value: int) -> int:
    """Returns how a number is passed to a function: one of 32 bits as it is, and any other as the greatest of those."""
    return value if 0 <= value < 2**32 else 2**32 - 1


def passed(octets: Octets) -> Tuple[Any, int]:
    """Returns how octets are passed to a function: where they are and how many.

    They are copied only where ctypes cannot say where they are: if they are a memoryview that is read-only or has gaps."""
    if isinstance(octets, bytes):
        return octets, len(octets)
    view = memoryview(octets)
    if view.readonly or not view.c_contiguous or view.nbytes == 0:
        return view.tobytes(), view.nbytes
    return (ctypes.c_char * view.nbytes).from_buffer(view), view.nbytes


def filled(function: Any, octets: Octets, room: int, written: ctypes.c_size_t, *numbers: Any) -> Tuple[int, bytes]:
    """Calls a function that reads octets and writes some to room and some numbers, of which `written` says how much room it used or needs.

    It is called again with more room where it needs it. Returns the status and what is written."""
    where, length = passed(octets)
    while True:
        buffer = ctypes.create_string_buffer(room)
        status: int = function(where, length, buffer, room, *map(ctypes.byref, numbers))
        if status != ROOM:
            return status, ctypes.string_at(buffer, written.value)
        room = written.value
