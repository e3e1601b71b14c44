"""Compares frames with what Wireshark's dissector of LLRP shows of them: each parameter's type, place and length, and each field's
place, width and value."""
import re
import subprocess
import tempfile
import xml.etree.ElementTree as ET

from parts.standard import list_octets

# Rows of which the dissector (Wireshark 4.0) shows something else than the standard has, and what. They are not compared.
SLIPS = {
    "CUSTOM_MESSAGE": "of a vendor that it does not know it shows no subtype",
    "SET_PROTOCOL_VERSION": "it reads the version in the header once more, and not the field",
    "C1G2SingulationDetails": "it reads the second number at the place of the first",
    "GeneralDeviceCapabilities": "it reads the first of the two flags in the number of antennas before them",
    "ClientRequestResponse": "it reads two octets of the four of AccessSpecID, and what follows two octets too early",
    "Identification": "it does not count the octets that have the length of ReaderID, so it finds the parameter too long",
    "C1G2GetBlockPermalockStatus": "it does not step over the password, and reads the three fields after it four octets too early",
    "Custom": "of a vendor that it does not know it shows subtype and data as one",
}
# Those of which the children are not found either.
LOST = {"ClientRequestResponse"}
# What it shows of a head, which is compared as the type, place and length of a parameter.
HEADS = {"llrp.version", "llrp.type", "llrp.length", "llrp.id", "llrp.tlv_type", "llrp.tlv_len", "llrp.tv_type"}


def dissected(frames):
    """Returns what tshark shows of each frame, or none where it finds none."""
    with tempfile.TemporaryDirectory() as folder:
        octets = "\n".join("000000 " + frame.hex(" ") for frame in frames)
        capture = f"{folder}/frames.pcap"
        subprocess.run(["text2pcap", "-q", "-T", "40000,5084", "-", capture], input=octets.encode(), check=True)
        done = subprocess.run(["tshark", "-r", capture, "-T", "pdml"], capture_output=True, check=True)
    return [packet.find("proto[@name='llrp']") for packet in ET.fromstring(done.stdout).findall("packet")]


def place_of(field, base):
    """The first bit of a shown field, counted from the frame's first, its width and its value. Of a field that is less than octets
    the dissector shows the bits, with dots for those of others."""
    first, size = 8 * (int(field.get("pos")) - base), 8 * int(field.get("size"))
    bits = re.match(r"([.01 ]+) = ", field.get("showname") or "")
    if not bits:
        return first, size, int(field.get("value") or "0", 16)
    bits = bits[1].replace(" ", "")
    own = bits.strip(".")
    return first + bits.index(own[0]), len(own), int(own, 2)


def own_fields(element):
    """What is shown in a message or parameter beside its head and its children."""
    for field in element.findall("field"):
        if field.get("name") != "llrp.param" and field.get("name") not in HEADS:
            yield field
            yield from field.findall("field")


def children_of(element, base):
    """Yields the type, first octet and length of each parameter that is shown as a child, with itself."""
    for child in element.findall("field[@name='llrp.param']"):
        types = [it.get("show") for it in child.findall("field") if it.get("name") in ("llrp.tlv_type", "llrp.tv_type")]
        yield (int(types[0]), int(child.get("pos")) - base, int(child.get("size"))), child


def spans(node, at):
    """The first bit, width and value of each field and list of a node whose body begins at this bit, and what it is."""
    for field, value in zip(node.row.fields, node.values):
        yield at, field.width, value, "reserved" if field.is_reserved else "field"
        at += field.width
    for (_, kind), items in zip(node.row.lists, node.items):
        octets = list_octets(kind, items)
        yield at, 8 * len(octets), int.from_bytes(octets, "big"), "list"
        at += 8 * len(octets)


def is_list(shown, at, width, value):
    """Whether these fields, in their order, are a list: they begin with it, each where the one before ends, and have its bits."""
    found = 0
    for first, size, number in shown:
        if first != at:
            return False
        found, at, width = found << size | number, at + size, width - size
    return width == 0 and found == value


def wrong_fields(node, element, base, at):
    """Yields what is shown of a node's own fields and lists otherwise than it is."""
    shown = [place_of(field, base) for field in own_fields(element) if int(field.get("size"))]
    if any(field.get("name") == "_ws.expert" for field in own_fields(element)):
        yield f"{node.row.name}: it finds a mistake"
    for first, width, value, kind in spans(node, at):
        inside = [it for it in shown if first <= it[0] < first + width]
        shown = [it for it in shown if it not in inside]
        is_right = is_list(inside, first, width, value) if kind == "list" else inside == [(first, width, value)]
        if not is_right and not (kind == "reserved" and not inside):
            yield f"{node.row.name}: {inside} in place of {(first, width, value)}"
    if shown:
        yield f"{node.row.name}: {shown} besides"


def wrong(node, element, base, at=0):
    """Yields what is shown of a message or parameter that begins at this octet, and of all below, otherwise than it is."""
    body = at + node.row.head_octets
    if node.row.name not in SLIPS:
        yield from wrong_fields(node, element, base, 8 * body)
    if node.row.name in LOST:
        return
    begin, wanted = body + len(node.body()), []
    for child in node.children:
        size = len(child.octets())
        wanted.append((child.row.number, begin, size))
        begin += size
    found = list(children_of(element, base))
    if [place for place, _ in found] != wanted:
        yield f"{node.row.name}: {[place for place, _ in found]} in place of {wanted}"
        return
    for child, (place, shown) in zip(node.children, found):
        yield from wrong(child, shown, base, place[1])


def differences(node, version, identity, element):
    """Returns what is shown of a message otherwise than it is."""
    if element is None:
        return ["it is not shown"]
    head = tuple(element.find(f"field[@name='llrp.{name}']").get("show") for name in ("version", "type", "id"))
    wanted = (str(version), str(node.row.number), str(identity))
    return [*([] if head == wanted else [f"{head} in place of {wanted}"]), *wrong(node, element, int(element.get("pos")))]
