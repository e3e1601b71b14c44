#!/usr/bin/env python3
"""Runs `access` against a reader with tags that have memory of their own: banks, passwords and locks. Its rows read a TID, write and verify
user memory, give a new EPC, lock, and go wrong in each way that has a name: a wrong password, a locked bank, a bank too short, two tags, no
tag, a status with a text, a lost connection, no report. Tags whose EPCs begin alike are told apart, by readers that each misbehave in one
way. Then a thousand tags each get an EPC and a word, which are verified.

usage: tests/access.py [PROGRAM]

PROGRAM is llrp, crates/llrp/out/llrp where none is given. The reader and its tags are written from LLRP 1.1 and EPC C1G2 only. The last
line is `N passed, M failed`; the status is 1 if something failed.
"""
import json
import select
import socket
import struct
import subprocess
import sys
import tempfile
import threading
import time

from parts.counting import finish_results
from parts.repository import program_given

# How many comparisons there are.
LEAST = 1115
# How long a run may take, in seconds.
LONGEST = 20
# How many tags the last rows write, and how many at a time.
TAGS, AT_ONCE = 1000, 50

PROGRAM = program_given()

# message types of LLRP 1.1, section 17.1
(CLOSE, ADD_ROSPEC, DELETE_ROSPEC, START_ROSPEC, ENABLE_ROSPEC) = (14, 20, 21, 22, 24)
(ADD_ACCESS, DELETE_ACCESS, ENABLE_ACCESS, REPORTS, KEEPALIVE, ACK) = (40, 41, 42, 61, 62, 72)
# READER_EVENT_NOTIFICATION with a ConnectionAttemptEvent of status 0, and of status 1
ACCEPTED = bytes.fromhex("043F000000200000000100F600160080000C0000000000000000010000060000")
REFUSED = ACCEPTED[:-1] + b"\x01"
# The id that the client's AccessSpec and ROSpec have.
OWN_ID = 5084

# Two EPCs, with the text of the second.
OLD, NEW = bytes.fromhex("3074257BF7194E4000001A85"), bytes.fromhex("3074257BF7194E4000001A86")
# The first of them with a word more, the front that both have, and an EPC that begins one of six octets.
LONGER, FRONT, SHORT = OLD + b"\x01\x02", OLD[:10], bytes.fromhex("E28011223344")
OLD_URI, NEW_URI = "urn:epc:tag:sgtin-96:3.0614141.812345.6789", "urn:epc:tag:sgtin-96:3.0614141.812345.6790"
TID = [0xE200, 0x3412, 0x0130, 0xF000, 0x0001, 0x0002]


def frame(kind, number, body=b"", version=1):
    """A message."""
    return struct.pack(">HII", version << 10 | kind, 10 + len(body), number) + body


def parameter(kind, body):
    """A parameter with a length."""
    return struct.pack(">HH", kind, 4 + len(body)) + body


def status(code, text=""):
    """LLRPStatus with a text."""
    said = text.encode()
    return parameter(287, struct.pack(">HH", code, len(said)) + said)


def parameters(octets):
    """The type and the body of each parameter with a length."""
    while octets:
        kind, length = struct.unpack(">HH", octets[:4])
        yield kind & 1023, octets[4:length]
        octets = octets[length:]


def words_of(octets):
    """Octets as words of 16 bits."""
    return list(struct.unpack(f">{len(octets) // 2}H", octets))


def octets_of(words):
    """The other way round."""
    return struct.pack(f">{len(words)}H", *words)


def bits_of(octets):
    """The bits of octets, as digits."""
    return "".join(f"{octet:08b}" for octet in octets)


class Tag:
    """A tag of C1G2: bank 0 has the passwords, 1 the checksum, the control word and the EPC, 2 the TID, 3 the user's words."""

    def __init__(self, epc, password=0, user=8, locked=()):
        control = len(epc) // 2 << 11
        self.banks = {0: [0, 0, password >> 16, password & 65535], 1: [0, control] + words_of(epc), 2: list(TID), 3: [0] * user}
        self.password, self.locked = password, set(locked)

    def epc(self):
        """As many words as the control word counts."""
        count = self.banks[1][1] >> 11
        return octets_of((self.banks[1] + [0] * 40)[2 : 2 + count])

    def fits(self, target):
        """Whether the bits of a bank from a pointer on are the data of a C1G2TargetTag, where its mask has a one; each has to be there."""
        head, pointer, count = struct.unpack(">BHH", target[:5])
        mask = bits_of(target[5:])[:count]
        rest = target[5 + (count + 7) // 8 :]
        data = bits_of(rest[2:])[: struct.unpack(">H", rest[:2])[0]]
        there = bits_of(octets_of(self.banks[head >> 6]))[pointer : pointer + count]
        agree = len(there) == len(data) == count and all(m == "0" or d == b for m, d, b in zip(mask, data, there))
        return agree == bool(head & 32)

    def may(self, password):
        """Whether the password opens what is locked; where the tag has none nothing is."""
        return password == self.password

    def do(self, kind, body):
        """The result parameter of an operation."""
        number, password = struct.unpack(">HI", body[:6])
        if password and not self.may(password):
            failed = {341: 6, 342: 7, 344: 5}[kind]
            return self.result(kind, failed, number, [])
        if kind == 341:
            bank, pointer, count = body[6] >> 6, *struct.unpack(">HH", body[7:11])
            words = self.banks[bank][pointer : pointer + count if count else None]
            fits = pointer + count <= len(self.banks[bank])
            return self.result(kind, 0 if fits else 4, number, words if fits else [])
        if kind == 342:
            bank, pointer = body[6] >> 6, struct.unpack(">H", body[7:9])[0]
            words = words_of(body[11:])
            if pointer + len(words) > len(self.banks[bank]):
                return self.result(kind, 1, number, [])
            if bank in self.locked and not (password and self.may(password)):
                return self.result(kind, 2, number, [])
            self.banks[bank][pointer : pointer + len(words)] = words
            return self.result(kind, 0, number, words)
        for _, payload in parameters(body[6:]):
            self.locked.add({2: 1, 3: 2, 4: 3}.get(payload[1], 0))
        return self.result(kind, 0, number, [])

    @staticmethod
    def result(kind, code, number, words):
        """A C1G2ReadOpSpecResult, C1G2WriteOpSpecResult or C1G2LockOpSpecResult."""
        head = struct.pack(">BH", code, number)
        if kind == 341:
            return parameter(349, head + struct.pack(">H", len(words)) + octets_of(words))
        return parameter(350, head + struct.pack(">H", len(words))) if kind == 342 else parameter(352, head)


class Reader:
    """A reader that serves one connection after another. `answers` has a status and a text for requests of a type; `breaks` the type of a
    request after which it closes the connection, and whether the operations were done then."""

    def __init__(self, *tags, accepted=ACCEPTED, answers=None, breaks=None, connections=1):
        self.tags, self.accepted, self.answers, self.breaks = list(tags), accepted, answers or {}, breaks
        self.came, self.connections = [], connections
        self.socket = socket.create_server(("127.0.0.1", 0))
        self.port = self.socket.getsockname()[1]
        threading.Thread(target=self.serve, daemon=True).start()

    def serve(self):
        for _ in range(self.connections):
            client, _ = self.socket.accept()
            client.setsockopt(socket.IPPROTO_TCP, socket.TCP_NODELAY, 1)
            with client:
                try:
                    self.talk(client)
                except OSError:
                    pass
        self.socket.close()

    def talk(self, client):
        self.running, self.enabled, self.spec, self.octets = False, False, None, b""
        client.sendall(self.accepted)
        while True:
            ready, _, _ = select.select([client], [], [], 0.02)
            if ready:
                more = client.recv(65536)
                if not more:
                    return
                self.octets += more
            while len(self.octets) >= 10:
                kind, length, number = struct.unpack(">HII", self.octets[:10])
                if len(self.octets) < length:
                    break
                body, self.octets = self.octets[10:length], self.octets[length:]
                self.came.append((kind & 1023, number, body))
                if self.answer(client, kind & 1023, number, body):
                    return
            if self.running:
                self.report(client)

    def answer(self, client, kind, number, body):
        """Answers a request. Returns whether the connection ends."""
        if kind == ACK:
            return False
        code, text = self.answers.get(kind, (0, ""))
        if kind == ADD_ACCESS and not code:
            self.spec = self.parsed(body)
        if kind == DELETE_ACCESS:
            code, text = (code, text) if code or self.spec else (101, "no such AccessSpec")
            self.spec, self.enabled = None, False
        self.enabled = self.enabled or kind == ENABLE_ACCESS
        self.running = (self.running or kind == START_ROSPEC) and kind != DELETE_ROSPEC
        if self.breaks and kind == self.breaks[0]:
            if self.breaks[1]:
                for tag in self.tags:
                    self.results(tag)
            client.shutdown(socket.SHUT_WR)
            while client.recv(65536):
                pass
            return True
        client.sendall(frame(4 if kind == CLOSE else kind + 10, number, status(code, text)))
        return kind == CLOSE

    @staticmethod
    def parsed(body):
        """The id, the antenna, the targets and the operations of an AccessSpec, which is for C1G2 and disabled."""
        (kind, spec), = parameters(body)
        assert kind == 207 and spec[6:8] == b"\x01\x00"
        found = {"id": struct.unpack(">I", spec[:4])[0], "antenna": struct.unpack(">H", spec[4:6])[0], "operations": []}
        for kind, inner in parameters(spec[12:]):
            if kind != 209:
                continue
            for kind, part in parameters(inner):
                if kind == 338:
                    found["targets"] = [target for _, target in parameters(part)]
                else:
                    found["operations"].append((kind, part))
        return found

    def results(self, tag):
        """What the AccessSpec does to a tag, once."""
        if not (self.enabled and self.spec and all(tag.fits(it) for it in self.spec["targets"])):
            return b""
        done = struct.pack(">BI", 0x90, self.spec["id"]) + b"".join(tag.do(*it) for it in self.spec["operations"])
        self.spec = None
        return done

    def report(self, client):
        """Reports each tag."""
        for tag in self.tags:
            epc = tag.epc()
            done = self.results(tag)
            client.sendall(frame(REPORTS, 0, parameter(240, self.named(epc, done) + b"\x81\x00\x01\x86\xc4" + done)))
        client.sendall(frame(KEEPALIVE, 7))

    def named(self, epc, _done):
        """The EPC-96 or EPCData under which a tag is reported."""
        return b"\x8d" + epc if len(epc) == 12 else parameter(241, struct.pack(">H", 8 * len(epc)) + epc)


class Mute(Reader):
    """A reader that reports nothing once its AccessSpec is enabled."""

    def report(self, client):
        if not self.enabled:
            super().report(client)


class Late(Mute):
    """A reader that reports what its AccessSpec did only after it was deleted."""

    def answer(self, client, kind, number, body):
        done = self.results(self.tags[0]) if kind == DELETE_ACCESS and self.enabled else b""
        ended = super().answer(client, kind, number, body)
        if done:
            client.sendall(frame(REPORTS, 0, parameter(240, b"\x8d" + OLD + done)))
        return ended


class Leaving(Reader):
    """A reader before which the tags are others once its AccessSpec is added."""

    def __init__(self, tag, other):
        super().__init__(tag)
        self.other = other

    def answer(self, client, kind, number, body):
        if kind == ADD_ACCESS:
            self.tags = [self.other]
        return super().answer(client, kind, number, body)


class Other(Reader):
    """A reader that reports what was done under another EPC."""

    def named(self, epc, done):
        return super().named(NEW if done else epc, done)


class Odd(Reader):
    """A reader that reports EPCs of 90 bits."""

    def named(self, epc, _done):
        return parameter(241, struct.pack(">H", 90) + epc)


class Narrow(Reader):
    """A reader that takes one C1G2TargetTag and no more."""

    def answer(self, client, kind, number, body):
        if kind == ADD_ACCESS:
            self.answers = {ADD_ACCESS: (101, "") if len(self.parsed(body)["targets"]) > 1 else (0, "")}
        return super().answer(client, kind, number, body)


class Forgetful(Reader):
    """A reader that reports the first result alone."""

    def results(self, tag):
        kept, self.spec = self.spec, self.spec and {**self.spec, "operations": self.spec["operations"][:1]}
        done = super().results(tag)
        self.spec = None if done else kept
        return done


def saying(code, count=None):
    """A tag that answers each operation with this Result, and each write with this count of words where there is one."""
    tag = Tag(OLD)

    def result(kind, _code, number, words):
        return Tag.result(kind, code, number, words if count is None or kind == 344 else [0] * count)

    tag.result = result
    return tag


def run_full(reader, *words):
    """Status and standard error of `access` where standard output takes nothing."""
    command = [PROGRAM, "access", f"127.0.0.1:{reader.port}", *words]
    with open("/dev/full", "wb") as full:
        done = subprocess.run(command, stdout=full, stderr=subprocess.PIPE, timeout=LONGEST, check=False, text=True)
    return done.returncode, done.stderr


def run(reader, *words):
    """Status, standard output and standard error of `access`."""
    done = subprocess.run([PROGRAM, "access", f"127.0.0.1:{reader.port}", *words], capture_output=True, timeout=LONGEST, check=False, text=True)
    return done.returncode, done.stdout, done.stderr


def kinds(reader):
    """The types of the requests that came, without acknowledgements."""
    return [it for it, _, _ in reader.came if it != ACK]


WHOLE = [DELETE_ACCESS, DELETE_ROSPEC, ADD_ROSPEC, ENABLE_ROSPEC, START_ROSPEC, ADD_ACCESS, ENABLE_ACCESS, DELETE_ACCESS, DELETE_ROSPEC, CLOSE]
UNDONE = [DELETE_ACCESS, DELETE_ROSPEC, ADD_ROSPEC, ENABLE_ROSPEC, START_ROSPEC, DELETE_ACCESS, DELETE_ROSPEC, CLOSE]


def reads():
    """What is read."""
    reader = Reader(Tag(OLD))
    result = run(reader, "--tag", "any", "--read", "tid:0:6")
    yield "TID", result == (0, f"{OLD_URI} read tid:0:6 Success e20034120130f00000010002\n", "")
    yield "the requests", kinds(reader) == WHOLE
    yield "the acknowledgements", all(number == 7 for kind, number, _ in reader.came if kind == ACK)
    reader = Reader(Tag(NEW), Tag(OLD))
    result = run(reader, "--tag", OLD_URI, "--read", "epc:2:6", "--read", "user:0:2", "--json")
    lines = [json.loads(it) for it in result[1].splitlines()]
    yield "the tag that is meant", lines[0] == {"epc": OLD_URI, "operation": "read epc:2:6", "result": "Success", "words": OLD.hex()}
    yield "two reads", result[0] == 0 and lines[1] == {"epc": OLD_URI, "operation": "read user:0:2", "result": "Success", "words": "00000000"}
    reader = Reader(Tag(OLD))
    result = run(reader, "--tag", OLD.hex(), "--read", "user:7:2")
    yield "a bank too short", result == (1, f"{OLD_URI} read user:7:2 MemoryOverrunError\n", "llrp: not done\n")
    reader = Reader(Tag(OLD, password=0x12345678))
    with tempfile.NamedTemporaryFile("w") as file:
        file.write("12345679\n")
        file.flush()
        result = run(reader, "--tag", "any", "--read", "user:0:1", "--password-file", file.name)
    yield "a wrong password", result == (1, f"{OLD_URI} read user:0:1 IncorrectPasswordError\n", "llrp: not done\n")


def changes():
    """What is written and locked."""
    tag = Tag(OLD)
    reader = Reader(tag)
    start = time.monotonic()
    result = run(reader, "--tag", OLD_URI, "--write", "user:1=1234ABCD", "--verify")
    yield "a write", result == (0, f"{OLD_URI} write user:1 Success\n{OLD_URI} read user:1:2 Success 1234abcd\n", "")
    yield "the tag's memory", tag.banks[3][:4] == [0, 0x1234, 0xABCD, 0]
    yield "the time for further tags", 1 <= time.monotonic() - start < 8
    yield "the requests of a change", kinds(reader) == WHOLE
    tag = Tag(OLD)
    result = run(Reader(tag), "--tag", OLD_URI, "--epc", NEW_URI, "--verify")
    yield "a new EPC", result == (0, f"{OLD_URI} write epc:2 Success\n{OLD_URI} read epc:2:6 Success {NEW.hex()}\n", "")
    yield "its words, and the control word as it was", tag.epc() == NEW and tag.banks[1][1] == 6 << 11
    tag = Tag(bytes(4))
    tag.banks[1] += [0] * 8
    result = run(Reader(tag), "--tag", "any", "--epc", NEW_URI)
    yield "an EPC of another length", result == (0, "00000000 write epc:1 Success\n", "") and tag.epc() == NEW
    tag = Tag(OLD)
    reader = Reader(tag, connections=2)
    run(reader, "--tag", OLD_URI, "--epc", NEW_URI)
    result = run(reader, "--tag", OLD_URI, "--epc", NEW_URI, "--timeout", "1")
    yield "a second try writes nothing", result == (1, "", "llrp: no tag\n") and ADD_ACCESS not in kinds(reader)[10:]
    tag = Tag(OLD, password=0xAABBCCDD)
    with tempfile.NamedTemporaryFile("w") as file:
        file.write("AABBCCDD\n")
        file.flush()
        result = run(Reader(tag), "--tag", "any", "--lock", "user=lock", "--password-file", file.name)
    yield "a lock", result == (0, f"{OLD_URI} lock user=lock Success\n", "") and tag.locked == {3}
    result = run(Reader(tag), "--tag", "any", "--write", "user:0=0001")
    yield "a locked bank", result == (1, f"{OLD_URI} write user:0 TagMemoryLockedError\n", "llrp: not done\n")
    result = run(Reader(Tag(OLD)), "--tag", "any", "--write", "user:7=00010002")
    yield "an overrun", result == (1, f"{OLD_URI} write user:7 TagMemoryOverrunError\n", "llrp: not done\n")
    tag = Tag(OLD)
    tag.result = lambda kind, code, number, words: Tag.result(kind, code, number, [1] if kind == 341 else words)
    result = run(Reader(tag), "--tag", "any", "--write", "user:0=0002", "--verify")
    yield "other words read back", result == (1, f"{OLD_URI} write user:0 Success\n{OLD_URI} read user:0:1 Success 0001\n", "llrp: not done\n")


def bad_ends():
    """What ends a run before something was done."""
    first, second = Tag(OLD), Tag(NEW)
    reader = Reader(first, second)
    result = run(reader, "--tag", "any", "--write", "user:0=0001")
    yield "two tags", result == (1, "", "llrp: several tags\n")
    yield "nothing was written", first.banks[3][0] == second.banks[3][0] == 0 and kinds(reader) == UNDONE
    longer = Tag(LONGER)
    reader = Reader(first, longer)
    result = run(reader, "--tag", OLD.hex(), "--write", "user:0=0001")
    yield "a longer EPC that begins so", result == (1, "", "llrp: several tags\n") and kinds(reader) == UNDONE
    reader = Reader(longer)
    result = run(reader, "--tag", OLD.hex(), "--write", "user:0=0001", "--timeout", "2")
    yield "that alone", result == (1, "", "llrp: no tag\n") and longer.banks[3][0] == 0
    reader = Reader()
    start = time.monotonic()
    result = run(reader, "--tag", OLD.hex(), "--read", "tid:0:1", "--timeout", "1")
    yield "no tag", result == (1, "", "llrp: no tag\n") and 1 <= time.monotonic() - start < 8 and kinds(reader) == WHOLE
    reader = Reader(second)
    result = run(reader, "--tag", OLD.hex(), "--lock", "user=lock", "--timeout", "1")
    yield "another tag", result == (1, "", "llrp: no tag\n") and kinds(reader) == UNDONE
    reader = Reader(first, answers={ADD_ACCESS: (101, "no AccessSpecs")})
    result = run(reader, "--tag", "any", "--read", "tid:0:1")
    yield "a status with a text", result == (1, "", "llrp: status 101\n")
    yield "what is deleted then", kinds(reader) == WHOLE[:6] + WHOLE[7:]
    reader = Reader(first, answers={ADD_ROSPEC: (100, "")})
    result = run(reader, "--tag", "any", "--read", "tid:0:1")
    yield "a ROSpec that is refused", result == (1, "", "llrp: status 100\n") and kinds(reader) == WHOLE[:3] + WHOLE[7:]
    result = run(Reader(first, accepted=REFUSED), "--tag", "any", "--read", "tid:0:1")
    yield "a connection that is refused", result == (1, "", "llrp: status 1\n")
    tag = Tag(OLD)
    result = run(Reader(tag, breaks=(ENABLE_ACCESS, True)), "--tag", "any", "--write", "user:0=0001")
    yield "a connection lost after the write", result == (4, "", "llrp: unknown, read again\n") and tag.banks[3][0] == 1
    tag = Tag(OLD)
    result = run(Reader(tag, breaks=(ADD_ACCESS, False)), "--tag", "any", "--write", "user:0=0001")
    yield "one lost before it", result == (1, "", "llrp: early\n") and tag.banks[3][0] == 0
    result = run(Reader(tag, breaks=(ENABLE_ACCESS, True)), "--tag", "any", "--read", "user:0:1")
    yield "one lost in a read", result == (1, "", "llrp: early\n")
    result = run(Reader(tag, breaks=(CLOSE, False)), "--tag", "any", "--read", "tid:0:1")
    yield "one lost at the end", result == (0, f"{OLD_URI} read tid:0:1 Success e200\n", "")


def full_output():
    """Results that cannot be written: what became of a change is not known, and of a read the error is said."""
    yield "a change whose line is lost", run_full(Reader(Tag(OLD)), "--tag", "any", *WRITE) == (4, NOT_KNOWN)
    yield "a read whose line is lost", run_full(Reader(Tag(OLD)), "--tag", "any", "--read", "tid:0:1") == (3, "llrp: write\n")


def silences():
    """Readers that take the AccessSpec, and report nothing in time."""
    reader = Mute(Tag(OLD))
    result = run(reader, "--tag", OLD_URI, "--write", "user:0=0001", "--timeout", "1")
    yield "a write without a report", result == (4, "", "llrp: unknown, read again\n") and kinds(reader) == WHOLE
    result = run(Mute(Tag(OLD)), "--tag", "any", "--lock", "user=lock", "--timeout", "1")
    yield "a lock without a report", result == (4, "", "llrp: unknown, read again\n")
    reader = Mute(Tag(OLD))
    result = run(reader, "--tag", "any", "--read", "tid:0:1", "--timeout", "1")
    yield "a read without a report", result == (1, "", "llrp: no tag\n") and kinds(reader) == WHOLE
    reader = Mute(Tag(OLD), answers={ENABLE_ACCESS: (100, "")})
    result = run(reader, "--tag", "any", "--write", "user:0=0001")
    yield "an AccessSpec that is not enabled", result == (1, "", "llrp: status 100\n") and kinds(reader) == WHOLE
    reader = Late(Tag(OLD))
    result = run(reader, "--tag", "any", "--write", "user:0=0001", "--timeout", "1")
    yield "a report that comes late", result == (0, f"{OLD_URI} write user:0 Success\n", "") and kinds(reader) == WHOLE


HINT = "llrp: hint: the AccessSpec has two C1G2TargetTags, and the reader may take one alone\n"
NOT_DONE, NOT_KNOWN, WRITE = "llrp: not done\n", "llrp: unknown, read again\n", ("--write", "user:0=00010002")


def alike():
    """Tags whose EPCs begin alike, and tags that cannot be named."""
    first, longer = Tag(OLD), Tag(LONGER)
    longer.banks[3][0] = 7
    result = run(Reader(longer, first), "--tag", OLD_URI, "--read", "user:0:1")
    yield "the shorter is read", result == (0, f"{OLD_URI} read user:0:1 Success 0000\n", "")
    result = run(Reader(first, longer), "--tag", LONGER.hex(), "--read", "user:0:1")
    yield "the longer is read", result == (0, f"{LONGER.hex()} read user:0:1 Success 0007\n", "")
    result = run(Reader(Tag(SHORT)), "--tag", SHORT[:2].hex(), "--read", "tid:0:1", "--timeout", "1")
    yield "an EPC that begins so is not read", result == (1, "", "llrp: no tag\n")
    result = run(Reader(Tag(SHORT)), "--tag", SHORT.hex(), "--read", "tid:0:1", "--json")
    yield "its digits as its name", result[0] == 0 and json.loads(result[1])["epc"] == SHORT.hex()
    for what, words in {"write": WRITE + ("--verify",), "EPC": ("--epc", NEW_URI), "lock": ("--lock", "user=permanent-lock")}.items():
        other = Tag(LONGER)
        result = run(Leaving(Tag(OLD), other), "--tag", OLD_URI, *words, "--timeout", "1")
        yield f"a tag left, no {what} of another", result == (4, "", NOT_KNOWN)
        yield f"the other's memory after a {what}", (other.banks, other.locked) == (Tag(LONGER).banks, set())
    other = Tag(FRONT)
    result = run(Leaving(Tag(OLD), other), "--tag", "any", *WRITE, "--timeout", "1")
    yield "a shorter one that comes", result == (4, "", NOT_KNOWN) and other.banks == Tag(FRONT).banks
    for what, reader in {"an EPC of no bits": Reader(Tag(b"")), "an EPC of no whole words": Odd(Tag(OLD))}.items():
        result = run(reader, "--tag", "any", *WRITE)
        yield what, result == (1, "", "llrp: no epc\n") and kinds(reader) == UNDONE and reader.tags[0].banks[3][0] == 0
    result = run(Reader(Tag(b"")), "--tag", "any", "--read", "tid:0:1")
    yield "the TID of a tag without EPC", result == (0, "- read tid:0:1 Success e200\n", "")
    result = run(Reader(Tag(b""), Tag(OLD)), "--tag", "any", *WRITE)
    yield "one without an EPC and another", result == (1, "", "llrp: several tags\n")


def narrow():
    """A reader that takes one C1G2TargetTag alone: a hint says so where there were two, and nowhere else."""
    refused = "llrp: status 101\n"
    for what, words in {"a URI": (OLD_URI, *WRITE), "any tag": ("any", *WRITE), "digits": (OLD.hex(), "--read", "tid:0:1")}.items():
        tag = Tag(OLD)
        reader = Narrow(tag)
        result = run(reader, "--tag", *words)
        yield f"a second target for {what}", result == (1, "", refused + HINT) and tag.banks == Tag(OLD).banks
        yield f"no second try for {what}", kinds(reader) == WHOLE[:6] + WHOLE[7:]
    result = run(Narrow(Tag(OLD)), "--tag", "any", "--read", "tid:0:1")
    yield "one target", result == (0, f"{OLD_URI} read tid:0:1 Success e200\n", "")
    for kind in (ENABLE_ROSPEC, ENABLE_ACCESS):
        result = run(Mute(Tag(OLD), answers={kind: (101, "")}), "--tag", OLD_URI, *WRITE)
        yield f"a refusal of {kind}", result == (1, "", refused)


def orders():
    """What is sent for all options together: in which order, under which ids, with which password, for which tag."""
    words = ("--lock", "epc=lock", "--write", "user:0=0001", "--epc", NEW_URI, "--read", "tid:0:1", "--lock", "user=unlock", "--read", "user:1:2")
    with tempfile.NamedTemporaryFile("w") as file:
        file.write("01020304")
        file.flush()
        reader = Reader(Tag(OLD, password=0x01020304))
        result = run(reader, "--tag", OLD_URI, "--antenna", "2", "--verify", "--password-file", file.name, *words)
    spec = Reader.parsed(next(body for kind, _, body in reader.came if kind == ADD_ACCESS))
    wanted = [
        (341, b"\x80" + bytes.fromhex("00000001")),
        (341, b"\xc0" + bytes.fromhex("00010002")),
        (342, b"\xc0" + bytes.fromhex("000000010001")),
        (342, b"\x40" + bytes.fromhex("00020006") + NEW),
        (344, bytes.fromhex("015900060002")),
        (344, bytes.fromhex("015900060304")),
        (341, b"\xc0" + bytes.fromhex("00000001")),
        (341, b"\x40" + bytes.fromhex("00020006")),
    ]
    yield "all options", result[0] == 0 and result[1].count(" Success") == len(wanted)
    yield "their order", [(kind, body[6:]) for kind, body in spec["operations"]] == wanted
    yield "their ids", [struct.unpack(">H", body[:2])[0] for _, body in spec["operations"]] == list(range(1, len(wanted) + 1))
    yield "their password", {body[2:6].hex() for _, body in spec["operations"]} == {"01020304"}
    yield "their antenna and id", (spec["antenna"], spec["id"]) == (2, OWN_ID)
    bits = struct.pack(">H", 96)
    targets = [b"\x60" + bytes.fromhex("00100005f8000530"), b"\x60" + bytes.fromhex("00200060") + b"\xff" * 12 + bits + OLD]
    yield "their tag", spec["targets"] == targets


def antennas():
    """The antenna that is asked for."""
    for words, wanted in (((), 0), (("--antenna", "3"), 3)):
        reader = Reader(Tag(OLD))
        result = run(reader, "--tag", "any", "--read", "tid:0:1", *words)
        bodies = {kind: body for kind, _, body in reader.came}
        inventory = [part for _, spec in parameters(bodies[ADD_ROSPEC]) for kind, part in parameters(spec[6:]) if kind == 183]
        yield f"the antenna {wanted} of the AccessSpec", result[0] == 0 and Reader.parsed(bodies[ADD_ACCESS])["antenna"] == wanted
        yield f"the antenna {wanted} of the ROSpec", [it[:4] for it in inventory] == [struct.pack(">HH", 1, wanted)]


def results_in_part():
    """Results that do not say that all was done, to the tag that was meant."""
    line = f"{OLD_URI} write user:0"
    rows = {
        "an EPC of another": (Other(Tag(OLD)), WRITE, 4, f"{NEW_URI} write user:0 Success\n"),
        "a lock of another": (Other(Tag(OLD)), ("--lock", "user=lock"), 4, f"{NEW_URI} lock user=lock Success\n"),
        "a read of another": (Other(Tag(OLD)), ("--read", "tid:0:1"), 1, f"{NEW_URI} read tid:0:1 Success e200\n"),
        "one word of two written": (Reader(saying(0, 1)), WRITE, 4, f"{line} Success\n"),
        "no word of two written": (Reader(saying(0, 0)), WRITE, 4, f"{line} Success\n"),
        "three words of two": (Reader(saying(0, 3)), WRITE, 4, f"{line} Success\n"),
        "three words for four": (Reader(saying(0, 3)), ("--read", "tid:0:4"), 1, f"{OLD_URI} read tid:0:4 Success 000000000000\n"),
        "no word for all": (Reader(saying(0, 0)), ("--read", "tid:0:0"), 1, f"{OLD_URI} read tid:0:0 Success\n"),
        "NonspecificTagError": (Reader(saying(4, 0)), WRITE, 4, f"{line} NonspecificTagError\n"),
        "NoResponseFromTag": (Reader(saying(5, 0)), WRITE, 4, f"{line} NoResponseFromTag\n"),
        "NonspecificReaderError": (Reader(saying(6, 0)), WRITE, 4, f"{line} NonspecificReaderError\n"),
        "InsufficientPower": (Reader(saying(3, 0)), WRITE, 1, f"{line} InsufficientPower\n"),
        "a failed write that wrote": (Reader(saying(2, 1)), WRITE, 4, f"{line} TagMemoryLockedError\n"),
        "a number without a name": (Reader(saying(9, 0)), WRITE, 4, f"{line} Unknown 9\n"),
        "a lock without an answer": (Reader(saying(3)), ("--lock", "user=lock"), 4, f"{OLD_URI} lock user=lock NoResponseFromTag\n"),
        "a lock with another number": (Reader(saying(8)), ("--lock", "user=lock"), 4, f"{OLD_URI} lock user=lock Unknown 8\n"),
        "a read without an answer": (Reader(saying(2, 0)), ("--read", "tid:0:1"), 1, f"{OLD_URI} read tid:0:1 NoResponseFromTag\n"),
        "a read with another number": (Reader(saying(7, 0)), ("--read", "tid:0:1"), 1, f"{OLD_URI} read tid:0:1 Unknown 7\n"),
        "one result of two": (Forgetful(Tag(OLD)), WRITE + ("--verify",), 4, f"{line} Success\n{OLD_URI} read user:0:2 NoResult\n"),
        "one read of two": (
            Forgetful(Tag(OLD)),
            ("--read", "tid:0:1", "--read", "tid:1:1"),
            1,
            f"{OLD_URI} read tid:0:1 Success e200\n{OLD_URI} read tid:1:1 NoResult\n",
        ),
    }
    for what, (reader, words, code, lines) in rows.items():
        result = run(reader, "--tag", OLD_URI, *words)
        yield what, result == (code, lines, NOT_KNOWN if code == 4 else NOT_DONE)
    result = run(Other(Tag(OLD)), "--tag", OLD_URI, "--epc", NEW_URI, "--verify")
    yield "results under the new EPC", result[0] == 0 and result[1].startswith(f"{NEW_URI} write epc:2 Success\n")
    result = run(Other(Tag(OLD)), "--tag", "any", "--read", "tid:0:1")
    yield "any tag is what one report says", result == (0, f"{NEW_URI} read tid:0:1 Success e200\n", "")
    result = run(Reader(saying(9, 0)), "--tag", OLD_URI, *WRITE, "--json")
    yield "a number in an object", json.loads(result[1]) == {"epc": OLD_URI, "operation": "write user:0", "result": "Unknown 9"}


def watched():
    """The messages of `watch --access`: those that add and enable stand before ENABLE_ROSPEC, the one that deletes before DELETE_ROSPEC."""
    reader = Reader(Tag(OLD))
    command = [PROGRAM, "watch", f"127.0.0.1:{reader.port}", "--access", "examples/tid.access", "--for", "1"]
    done = subprocess.run(command, capture_output=True, timeout=LONGEST, check=False)
    came = [it for it in kinds(reader) if it in (DELETE_ACCESS, DELETE_ROSPEC, ADD_ACCESS, ENABLE_ACCESS, ENABLE_ROSPEC)]
    wanted = [DELETE_ACCESS, DELETE_ROSPEC, ADD_ACCESS, ENABLE_ACCESS, ENABLE_ROSPEC, DELETE_ACCESS, DELETE_ROSPEC]
    yield "a file of watch", done.returncode == 0 and came == wanted


def bad_words():
    """Words that ask for nothing: the reader hears nothing of them."""
    rows = {
        "an operation": (),
        "a form": ("--read", "tid:0"),
        "a bank": ("--read", "tag:0:1"),
        "a place": ("--write", "user:x=0001"),
        "a count": ("--read", "tid:0:65536"),
        "half a word": ("--write", "user:0=12345"),
        "no word": ("--write", "user:0="),
        "a field": ("--lock", "all=lock"),
        "a manner": ("--lock", "user=kill"),
        "a URI": ("--epc", "urn:epc:id:sgtin:0614141.812345.6789"),
    }
    reader = Reader()
    for what, words in rows.items():
        result = run(reader, "--tag", "any", *words)
        yield what, result[:2] == (2, "") and result[2].startswith("error: ") and result[2].endswith("try '--help'.\n")
    for tag in ("", "123", "30742", "urn:epc:tag:sgtin-96:3"):
        result = run(reader, "--tag", tag, "--read", "tid:0:1")
        yield f"the tag {tag!r}", result[:2] == (2, "") and "'--tag <TAG>'" in result[2]
    yield "no --tag", run(reader, "--read", "tid:0:1")[0] == 2
    yield "no password", run(reader, "--tag", "any", "--read", "tid:0:1", "--password-file", "no/such/file") == (3, "", "llrp: password\n")
    yield "nothing was asked", reader.came == []


def label(number):
    """Begins to give a tag an EPC and the first of its words. Returns the tag, both, and the run."""
    tag, serial = Tag(OLD), 0x2000 + number
    words = ("--tag", OLD_URI, "--epc", f"{OLD_URI.rpartition('.')[0]}.{serial}", "--write", f"user:0={number:04X}", "--verify")
    command = [PROGRAM, "access", f"127.0.0.1:{Reader(tag).port}", *words]
    return tag, OLD[:-2] + struct.pack(">H", serial), number, subprocess.Popen(command, stdout=subprocess.PIPE, stderr=subprocess.PIPE, text=True)


def labels():
    """Tags that each get an EPC and the first of their words, some at a time."""
    for first in range(0, TAGS, AT_ONCE):
        for tag, epc, number, done in [label(number) for number in range(first, first + AT_ONCE)]:
            out, err = done.communicate(timeout=60)
            yield f"label {number}", (done.returncode, err, tag.epc(), tag.banks[3][0]) == (0, "", epc, number) and out.count(" Success") == 4


def main():
    results = [*reads(), *changes(), *bad_ends(), *full_output(), *silences(), *alike(), *narrow(), *orders(), *antennas(), *results_in_part(), *watched(), *bad_words(), *labels()]
    return finish_results(results, LEAST)


if __name__ == "__main__":
    sys.exit(main())
