"""What a capture has of the TCP segments in it."""
import os
import struct

from parts.repository import TOP


def payloads(name):
    """Yields the source port and the octets of each TCP segment of a capture."""
    with open(os.path.join(TOP, name), "rb") as file:
        capture = file.read()
    order = "<" if capture[:4] in (b"\xd4\xc3\xb2\xa1", b"\x4d\x3c\xb2\xa1") else ">"
    link = {1: 14, 101: 0, 113: 16, 276: 20}[struct.unpack(order + "I", capture[20:24])[0]]
    at = 24
    while at < len(capture):
        length = struct.unpack(order + "I", capture[at + 8 : at + 12])[0]
        packet, at = capture[at + 16 + link : at + 16 + length], at + 16 + length
        tcp = packet[4 * (packet[0] & 15) : struct.unpack(">H", packet[2:4])[0]]
        yield struct.unpack(">H", tcp[:2])[0], tcp[4 * (tcp[12] >> 4) :]
