#!/usr/bin/env python3
"""Compares what `llrp show --segments` lists of captures with what `show` lists of the octets that each side sent: two readers in one file,
segments lost, repeated, swapped and one over the other, a capture that begins late, IPv6. The captures are written here, octet by octet,
and read by llrp-capture, so by tshark; the lines of further ones are written here. Of llrp-capture itself: its options, its statuses, what it
makes of VLANs, fragments, tunnels and messages of ICMP, and its manual page.

usage: tests/capture.py [PROGRAM]

The last line is the count.
"""
import json
import os
import re
import shutil
import struct
import subprocess
import sys
import tempfile

from parts.counting import finish_results, text_of
from parts.repository import TOP, program_given

LEAST = 95
FIN, SYN, PSH, ACK = 1, 2, 8, 16
KEEPALIVE = [bytes.fromhex("083E0000000A") + struct.pack(">I", number) for number in range(40)]
REPORT = bytes.fromhex("043D0000001B0000000100F000118D3074257BF7194E4000001A85")


class Side:
    """The segments that one end of a connection sends."""

    def __init__(self, stream, source, target, first, reader):
        self.stream, self.source, self.target, self.next, self.reader = stream, source, target, first, reader

    def send(self, octets=b"", flags=PSH | ACK, at=None):
        """Returns a segment with the next octets, or with octets from another place on."""
        sequence = self.next if at is None else at
        if at is None:
            self.next = (self.next + len(octets) + (1 if flags & (SYN | FIN) else 0)) % 2**32
        return self, sequence, flags, octets


def connection(stream, reader, client, first=1000):
    """Returns both sides of a connection between two ends, each an address and a port."""
    return Side(stream, reader, client, first, True), Side(stream, client, reader, (first + 77) % 2**32, False)


def packed(address):
    """Returns an address of IPv4, or a short one of IPv6, in octets."""
    if "::" in address:
        front, back = ([int(it, 16) for it in part.split(":") if it] for part in address.split("::"))
        return struct.pack(">8H", *front, *[0] * (8 - len(front) - len(back)), *back)
    return bytes(map(int, address.split(".")))


def packet(segment):
    """Returns the frame of Ethernet of a segment."""
    side, sequence, flags, octets = segment
    (source, from_port), (target, to_port) = side.source, side.target
    tcp = struct.pack(">HHIIBBHHH", from_port, to_port, sequence, 1, 5 << 4, flags, 65535, 0, 0) + octets
    if "::" in source:
        return b"\0" * 12 + b"\x86\xdd" + struct.pack(">IHBB", 6 << 28, len(tcp), 6, 64) + packed(source) + packed(target) + tcp
    header = struct.pack(">BBHHHBBH", 0x45, 0, 20 + len(tcp), 1, 0, 64, 6, 0) + packed(source) + packed(target)
    return b"\0" * 12 + b"\x08\0" + header + tcp


def pcap(packets):
    """Returns a capture of frames of Ethernet, one each half second."""
    made = struct.pack("<IHHiIII", 0xA1B2C3D4, 2, 4, 0, 0, 65535, 1)
    for number, octets in enumerate(packets):
        made += struct.pack("<IIII", 1700000000 + number // 2, number % 2 * 500000, len(octets), len(octets)) + octets
    return made


def around(frame, protocol, front=b""):
    """Returns a frame of Ethernet of which the IPv4 packet of another one is the payload, after some octets."""
    inner = front + frame[14:]
    header = struct.pack(">BBHHHBBH", 0x45, 0, 20 + len(inner), 2, 0, 64, protocol, 0) + packed("198.51.100.1") + packed("198.51.100.2")
    return frame[:14] + header + inner


def in_vlan(frame):
    return frame[:12] + b"\x81\x00\x00\x2a" + frame[12:]


def in_fragments(frame):
    """Returns two frames, of which the first has 24 octets of the payload of IPv4 of a frame and the second the rest."""
    header, inner = frame[14:34], frame[34:]
    parts = [(inner[:24], 0x2000), (inner[24:], 3)]
    return [frame[:14] + header[:2] + struct.pack(">HHH", 20 + len(part), 9, flags) + header[8:] + part for part, flags in parts]


def ways_of_packets():
    """Yields ways in which frames of Ethernet have the segments of the two readers, and the frames of each."""
    frames = [packet(it) for it in two_readers()[0]]
    yield "VLANs", [in_vlan(it) for it in frames]
    yield "tunnels", [around(it, 4) if it[12:14] == b"\x08\0" else it for it in frames]
    is_long = [it[12:14] == b"\x08\0" and len(it) > 60 for it in frames]
    yield "fragments", [part for it, long in zip(frames, is_long) for part in (in_fragments(it) if long else [it])]
    # (a router says of each segment that its time is over, and quotes it)
    yield "messages of ICMP", [it for frame in frames for it in (frame, around(frame, 1, bytes([11, 0, 0, 0, 0, 0, 0, 0])))]


def time_of(number):
    return f"{1700000000 + number // 2}.{number % 2 * 500000:06}000"


def line(number, segment):
    """Returns the line that tshark prints of a segment."""
    side, sequence, flags, octets = segment
    address = ("", side.source[0]) if "::" in side.source[0] else (side.source[0], "")
    return "\t".join([time_of(number), str(side.stream), *address, str(side.source[1]), f"0x{flags:04x}", str(sequence), octets.hex()])


def run(program, words, given):
    return subprocess.run([program, "show", *words], input=given, capture_output=True, timeout=60)


def listed(program, octets, words=()):
    """Returns what `show` prints of octets."""
    return run(program, words, octets).stdout.decode()


def parted(listing):
    """Returns each block of a listing of segments: its time, its stream, its side, and its lines."""
    parts = re.split(r"(?m)^# (\S+) (\d+) (\w+)\n", listing)
    return list(zip(parts[1::4], parts[2::4], parts[3::4], parts[4::4]))


def of_side(listing, side):
    """Returns the lines of one side, in their order."""
    name = "reader" if side.reader else "client"
    return "".join(lines for _, stream, word, lines in parted(listing) if (int(stream), word) == (side.stream, name))


def two_readers():
    """Two readers and their clients, one of IPv6: whole sides."""
    a, b = connection(0, ("192.0.2.17", 5084), ("192.0.2.1", 40000), 4294967290)
    c, d = connection(1, ("2001:db8::17", 5084), ("2001:db8::1", 40001))
    stream = REPORT + b"".join(KEEPALIVE[:5])
    segments = [b.send(flags=SYN), a.send(flags=SYN | ACK), d.send(flags=SYN), c.send(flags=SYN | ACK)]
    begun = a.next
    pieces = [stream[:7], stream[7:30], stream[30:41], stream[41:]]
    sent = [a.send(piece) for piece in pieces]
    # swapped, repeated whole, and one over the other
    segments += [sent[0], c.send(KEEPALIVE[6]), sent[2], sent[1], b.send(KEEPALIVE[7]), sent[1], sent[3]]
    segments += [a.send(stream[20:41], at=(begun + 20) % 2**32), d.send(KEEPALIVE[8] + KEEPALIVE[9][:4]), d.send(KEEPALIVE[9][4:])]
    segments += [a.send(flags=FIN | ACK), b.send(flags=FIN | ACK), c.send(REPORT)]
    return segments, [(a, stream), (b, KEEPALIVE[7]), (c, KEEPALIVE[6] + REPORT), (d, KEEPALIVE[8] + KEEPALIVE[9])]


def with_gap():
    """A reader of which a segment is lost: 12 octets, the end of one frame and the front of the next."""
    a, _ = connection(0, ("192.0.2.17", 5084), ("192.0.2.1", 40000))
    segments = [a.send(flags=SYN | ACK), a.send(KEEPALIVE[0] + KEEPALIVE[1][:3])]
    a.send(KEEPALIVE[1][3:] + KEEPALIVE[2][:5])
    segments.append(a.send(KEEPALIVE[2][5:] + KEEPALIVE[3] + KEEPALIVE[4]))
    return segments, a


def late():
    """A reader's side that begins within a frame."""
    a, _ = connection(0, ("192.0.2.17", 5084), ("192.0.2.1", 40000))
    return [a.send(REPORT[4:] + KEEPALIVE[0]), a.send(KEEPALIVE[1]), a.send(KEEPALIVE[2])], a


def lines_of(segments):
    return "".join(line(number, it) + "\n" for number, it in enumerate(segments)).encode()


def of_script(program, *words, **environment):
    """Returns the status of llrp-capture, what it printed, and its errors but what tshark says to root."""
    how = {"capture_output": True, "text": True, "timeout": 60, "env": {**os.environ, "LLRP": program, **environment}}
    done = subprocess.run([os.path.join(TOP, "llrp-capture"), *words], **how)
    return done.returncode, done.stdout, re.sub(r"(?m)^Running as user .*\n", "", done.stderr)


def of_octets(program, octets, *words, options=()):
    """Returns the same for a file with these octets, after some words and before others."""
    with tempfile.TemporaryDirectory(prefix="a space ") as folder:
        path = os.path.join(folder, "capture.pcap")
        with open(path, "wb") as file:
            file.write(octets)
        return of_script(program, *words, path, *options)


def by_tshark(program, segments):
    """Returns what llrp-capture prints of a capture."""
    return of_octets(program, pcap(map(packet, segments)))[1]


def followed(octets, stream):
    """Returns the octets of the two sides of a connection, as tshark follows it."""
    words = ["tshark", "-q", "-r", "-", "-z", f"follow,tcp,raw,{stream}"]
    told = subprocess.run(words, input=octets, capture_output=True, timeout=60).stdout.decode()
    lines = re.findall(r"(?m)^(\t?)([0-9a-f]+)$", told)
    return [bytes.fromhex("".join(digits for tab, digits in lines if tab == side)) for side in ("", "\t")]


def of_captures(program):
    """Yields what was compared, of whole captures and of such with a gap or a late start, and whether it is right."""
    segments, sides = two_readers()
    for what, listing in [("lines", run(program, ["--segments"], lines_of(segments)).stdout.decode()),
                          ("tshark", by_tshark(program, segments))]:
        for side, octets in sides:
            yield f"{what}: stream {side.stream}, reader {side.reader}", of_side(listing, side) == listed(program, octets)
        times = [time for time, *_ in parted(listing)]
        yield f"{what}: in the order of the capture", times == sorted(times) and len(times) == 11
        yield f"{what}: the time of the last segment of a frame", times[0] == time_of(5)
    segments, side = with_gap()
    for what, listing in [("lines", run(program, ["--segments"], lines_of(segments)).stdout.decode()),
                          ("tshark", by_tshark(program, segments))]:
        wanted = listed(program, KEEPALIVE[0]) + "? GAP 20\n" + listed(program, KEEPALIVE[3] + KEEPALIVE[4])
        yield f"{what}: a gap", of_side(listing, side) == wanted
    segments, side = late()
    for what, listing in [("lines", run(program, ["--segments"], lines_of(segments)).stdout.decode()),
                          ("tshark", by_tshark(program, segments))]:
        wanted = f"? GAP {len(REPORT) - 4}\n" + listed(program, b"".join(KEEPALIVE[:3]))
        yield f"{what}: a late start", of_side(listing, side) == wanted


def of_readers(program):
    """Yields what llrp-capture prints of a file with two readers: who is at the ends, what each of them said, and the same of other packets."""
    segments, sides = two_readers()
    octets = pcap(map(packet, segments))
    whole = of_octets(program, octets)
    ends = "0 192.0.2.17:5084 192.0.2.1:40000\n1 [2001:db8::17]:5084 [2001:db8::1]:40001\n"
    yield "who is at the ends", of_octets(program, octets, "--connections") == (0, ends, "")
    yield "who is at the ends, at another port", of_octets(program, octets, "--port", "40001", "--connections")[1] == "1 [2001:db8::1]:40001 [2001:db8::17]:5084\n"
    for address, stream in [("192.0.2.17", 0), ("192.0.2.1", 0), ("2001:db8::17", 1), ("2001:DB8:0:0::1", 1), ("192.0.2.18", None)]:
        wanted = "".join(f"# {time} {number} {side}\n{lines}" for time, number, side, lines in parted(whole[1]) if int(number) == stream)
        yield f"only {address}", of_octets(program, octets, "--only", address) == (0, wanted, "")
    for what, packets in ways_of_packets():
        status, listing, _ = of_octets(program, pcap(packets))
        yield f"{what}", status == 0 and [it[1:] for it in parted(listing)] == [it[1:] for it in parted(whole[1])]
    for stream in (0, 1):
        found = sorted(listed(program, it) for it in followed(octets, stream))
        yield f"what tshark follows of stream {stream}", found == sorted(of_side(whole[1], side) for side, _ in sides if side.stream == stream)
    wanted = run(program, ["--segments", "--json", "--all"], lines_of(segments)).stdout.decode()
    yield "options of show", of_octets(program, octets, options=["--json", "--all"]) == (0, wanted, "")
    yield "a word of show", of_octets(program, octets, "--port", "5084", options=["--limit", "20"])[1].count(" 16 MessageLength\n") == 2


def of_failures(program):
    """Yields how llrp-capture ends where tshark fails or is missing, and for mistakes in the command line."""
    segments, side = with_gap()
    octets = pcap(map(packet, segments))
    status, listing, told = of_octets(program, octets)
    yield "a gap has status 1", (status, listing, told) == (1, by_tshark(program, segments), "")
    status, listing, told = of_octets(program, octets[:-3])
    is_listed = of_side(listing, side) == listed(program, KEEPALIVE[0] + KEEPALIVE[1][:3])
    yield f"a file that is cut: {told}", status == 3 and is_listed and re.fullmatch(r"tshark: .*\nllrp-capture: tshark ended with [1-9]\d*\n", told)
    refused = "1700000000.0\t0\t192.0.2.17\t\t5084\t0x0010\t1\tno\n"
    for what, rest in [("as tshark ends well", "seq 100000"), ("as tshark fails", "seq 100000; exit 7")]:
        with tempfile.TemporaryDirectory() as folder:
            with open(os.path.join(folder, "tshark"), "w", encoding="utf-8") as file:
                file.write(f"#!/bin/sh\nprintf '{refused}'; {rest}\n")
            os.chmod(file.name, 0o755)
            found = of_script(program, "x", PATH=f"{folder}:{os.environ['PATH']}")
        ended = (3, "llrp: line 1: Payload\nllrp-capture: tshark ended with 7\n") if "7" in rest else (1, "llrp: line 1: Payload\n")
        yield f"a line that is refused, {what}: {found}", found == (ended[0], "", ended[1])
    status, listing, told = of_script(program, "/nowhere.pcap")
    yield f"no file: {told}", (status, listing) == (3, "") and re.search(r"(?m)^llrp-capture: tshark ended with [1-9]\d*\n\Z", told)
    with tempfile.TemporaryDirectory() as folder:
        for tool in ("bash", "dirname", "readlink", "env"):
            os.symlink(shutil.which(tool), os.path.join(folder, tool))
        wanted = (3, "", "llrp-capture: tshark is missing; Debian's package tshark has it\n")
        yield "no tshark", of_script(program, "x", PATH=folder) == wanted
    for words, told in [([], "no FILE"), (["--port"], "--port"), (["--port", "0", "x"], "--port"), (["--port", "65536", "x"], "--port"),
                        (["--port", "5084 || tcp", "x"], "--port"), (["--only", "reader.example", "x"], "--only"), (["--all", "x"], "after FILE"),
                        (["--only", "1.2.3.4||tcp", "x"], "--only"), (["--connections", "x", "--json"], "--connections")]:
        status, listing, error = of_script(program, *words)
        yield f"{words}: {error}", (status, listing) == (2, "") and error.startswith("llrp-capture: ") and told in error
    status, listing, error = of_octets(program, octets, options=["--hex"])
    yield f"a word that show refuses: {error}", (status, listing) == (2, "") and "--hex" in error


def of_manual(program):
    """Yields whether the help and the manual page have the same options, and what groff says of the page."""
    status, told, _ = of_script(program, "--help")
    manual = text_of("docs/llrp-capture.1")
    options = set(re.findall(r"(?m)^  --(\w+)", told))
    yield "the help", status == 0 and told.startswith("usage: llrp-capture ") and len(options) == 4
    yield "the manual page", set(re.findall(r"(?m)^\.It Fl \\-(\w+)", manual)) == options
    done = subprocess.run(["groff", "-mdoc", "-ww", "-z", "-Tutf8", "docs/llrp-capture.1"], cwd=TOP, capture_output=True, text=True, timeout=60)
    yield "groff has nothing to say", (done.returncode, done.stdout, done.stderr) == (0, "", "")


def of_long_frames(program):
    """Yields that of frames that are longer than a message may be, whole or not, a side's lines are those of `show`."""
    long = bytes.fromhex("043D00000040") + bytes(range(58))
    for what, stream, pieces in [("whole", KEEPALIVE[0] + long + KEEPALIVE[1], [3, 14, 17, 30, 73, 80]), ("at once", long + KEEPALIVE[1], []),
                                 ("two", long + long + KEEPALIVE[1], [64, 70]), ("not whole", KEEPALIVE[0] + long[:40], [16]),
                                 ("no header", KEEPALIVE[0] + long[:8], [17]), ("a length below ten", KEEPALIVE[0] + long[:4] + bytes(12), [14])]:
        side, _ = connection(0, ("192.0.2.17", 5084), ("192.0.2.1", 40000))
        cuts = [0, *pieces, len(stream)]
        segments = [side.send(flags=SYN | ACK), *(side.send(stream[a:b]) for a, b in zip(cuts, cuts[1:]))]
        for words in (["--limit", "30"], ["--limit", "30", "--json"]):
            made = run(program, ["--segments", *words], lines_of(segments))
            wanted = run(program, words, stream)
            if "--json" in words:
                mine = [{key: value for key, value in json.loads(it).items() if key not in ("time", "stream", "from")} for it in made.stdout.splitlines()]
                is_right = mine == [json.loads(it) for it in wanted.stdout.splitlines()]
            else:
                is_right = of_side(made.stdout.decode(), side) == wanted.stdout.decode()
            yield f"a long frame, {what}: {words}", is_right and made.returncode == wanted.returncode


def of_json(program):
    """Yields the same of lines of JSON: each has the members of the line that `show --json` prints, after three more."""
    segments, sides = two_readers()
    for words in ([], ["--all"]):
        made = run(program, ["--segments", "--json", *words], lines_of(segments)).stdout.decode()
        objects = [json.loads(it) for it in made.splitlines()]
        yield f"JSON {words}: the members before", all(list(it)[:3] == ["time", "stream", "from"] for it in objects)
        for side, octets in sides:
            name = "reader" if side.reader else "client"
            found = [it for it in objects if (it["stream"], it["from"]) == (side.stream, name)]
            rest = [{key: value for key, value in it.items() if key not in ("time", "stream", "from")} for it in found]
            wanted = [json.loads(it) for it in listed(program, octets, ["--json", *words]).splitlines()]
            yield f"JSON {words}: stream {side.stream}, {name}", rest == wanted
    segments, _ = with_gap()
    made = run(program, ["--segments", "--json"], lines_of(segments)).stdout.decode()
    yield "JSON: a gap", [json.loads(it).get("gap") for it in made.splitlines()] == [None, 20, None, None]


def of_refusals(program):
    """Yields what is refused, and with which line and status."""
    good = "1.5\t0\t192.0.2.1\t\t5084\t0x0018\t1\t"
    many = "".join(f"1.5\t{number}\t192.0.2.1\t\t5084\t0x0002\t1\t\n" for number in range(1001))
    for given, message in [(good[:-1], "line 1: Fields"), (good + "\n\n", "line 2: Fields"), (good.replace("1.5", "now"), "line 1: Time"),
                           (good.replace("\t0\t", "\tx\t"), "line 1: Stream"), (good.replace("5084", "port"), "line 1: Port"),
                           (good.replace("0x", ""), "line 1: Flags"), (good.replace("\t1\t", "\t4294967296\t"), "line 1: Sequence"),
                           (good + "abc", "line 1: Payload"), (many, "line 1001: Connections")]:
        done = run(program, ["--segments"], given.encode())
        yield message, (done.returncode, done.stderr.decode()) == (1, f"llrp: {message}\n")
    for words in (["--segments", "--port", "0"], ["--segments", "--port", "65536"], ["--segments", "--port", "x"], ["--port", "5084"],
                  ["--segments", "--hex"], ["--segments", "--names", "profile"]):
        done = run(program, words, b"")
        yield f"{words}", done.returncode == 2 and done.stdout == b"" and b"--segments" in done.stderr
    done = run(program, ["--segments"], b"")
    yield "no lines", (done.returncode, done.stdout, done.stderr) == (0, b"", b"")
    wrong = run(program, ["--segments", "--port", "5085"], lines_of(two_readers()[0])).stdout.decode()
    yield "another port", all(side == "client" for _, _, side, _ in parted(wrong))


def of_pages():
    """Yields whether docs/capture.md has the reasons of the sources, and how much the listing of segments holds."""
    page, reasons = text_of("docs/capture.md"), set()
    for source, function in (("llrp_sides/src/failure.rt", "pub fn name"), ("llrp_sides/src/failure.rt", "fn segment_name")):
        body = text_of(f"crates/{source}").split(function)[1].split("\n}\n")[0]
        reasons |= set(re.findall(r'=> "(\w+)"', body))
    table = page.split("| Reason | What is wrong |")[1].split("\n\n")[0]
    named = set(re.findall(r"`(\w+)`", "".join(re.findall(r"(?m)^\| ([^|]*) \|", table))))
    yield f"docs/capture.md: the reasons {named ^ reasons}", named == reasons - {"Memory"} and len(reasons) > 8
    for source, name, told in (
        ("llrp_capture/src/connections.rt", "MOST_CONNECTIONS", "At most {} connections may be open at once"),
        ("llrp_capture/src/connections.rt", "MOST_CONNECTIONS", "it begins a connection, and {} are open"),
        ("llrp_sides/src/line_reader.rt", "LONGEST_LINE", "has more than {} octets"),
    ):
        number = re.search(rf"const {name}: usize = ([\d_]+);", text_of(f"crates/{source}"))[1].replace("_", "")
        words = told.format(f"{int(number):,}")
        yield f"docs/capture.md: {words}", words in " ".join(page.split())
    reach = int(re.search(r"const REACH: usize = ([\d_]+);", text_of("crates/llrp_capture/src/reassembly.rt"))[1].replace("_", "")) // 1024
    yield f"docs/capture.md: {reach} KiB", f"if they are no more than {reach} KiB ahead" in " ".join(page.split())


def main():
    program = program_given()
    results = [*of_captures(program), *of_readers(program), *of_failures(program), *of_manual(program), *of_long_frames(program), *of_json(program), *of_refusals(program), *of_pages()]
    return finish_results(results, LEAST)


if __name__ == "__main__":
    sys.exit(main())
