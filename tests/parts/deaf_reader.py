"""A reader that lives and does not answer: it sends KEEPALIVEs that no one asked for, is deaf to some requests, sends the rest of a frame octet by
octet, or takes nothing. It is written from LLRP 1.1 only."""
import contextlib
import socket
import struct
import threading
import time

# message types of LLRP 1.1, section 17.1
(CLOSE, ADD, DELETE, START, STOP, ENABLE, DISABLE, SET_CONFIG, CAPABILITIES) = (14, 20, 21, 22, 23, 24, 25, 3, 1)
(GET_REPORT, REPORT, KEEPALIVE, EVENT, KEEPALIVE_ACK) = (60, 61, 62, 63, 72)
# READER_EVENT_NOTIFICATION with a ConnectionAttemptEvent of status 0 (section 17.2.7.6.9).
ACCEPTED = bytes.fromhex("043F000000200000000100F600160080000C0000000000000000010000060000")
# LLRPStatus of status 0 (section 17.2.8.1).
FINE = bytes.fromhex("011F0008 0000 0000")
# EPC-96 of the first worked example of the EPC Tag Data Standard 1.13, appendix E.
WORD = bytes.fromhex("3074257BF7194E4000001A85")
# A KEEPALIVE with a reserved bit of its header, which is the first octet's second one.
FAULTY = bytes.fromhex("443E 0000000A 00000005")
# The header of an RO_ACCESS_REPORT of 60,000 octets, and how long the reader waits after each octet of the rest, in seconds.
LONG = struct.pack(">HII", 0x0400 | REPORT, 60_000, 7)
DRIP = 0.3
# How many KEEPALIVEs are sent at a time where none of the answers is taken, and how many octets of them the reader's system keeps.
FLOOD, KEPT = 1000, 4096


def frame(kind, number, body=b""):
    """A message of version 1."""
    return struct.pack(">HII", 0x0400 | kind, 10 + len(body), number) + body


def response_kind(kind):
    """The type of the response to a request (section 17.1)."""
    return 4 if kind == CLOSE else kind + 10


def report(number):
    """RO_ACCESS_REPORT of one tag with its EPC-96 alone."""
    return frame(REPORT, number, struct.pack(">HH", 240, 4 + 13) + b"\x8d" + WORD)


class DeafReader:
    """Serves one connection after another, until it is closed.

    deaf: the types of the requests that it does not answer.
    accepts: it says that it accepts the connection, and does not begin with a long frame whose rest comes octet by octet.
    chatter: after how many seconds it sends a KEEPALIVE each time; 0 is never.
    drips: it begins a long frame after the response to a request of this type, and sends its rest octet by octet.
    strange: after the response to START_ROSPEC it sends a second one, which no client asked for.
    floods: once the ROSpec was started, it sends KEEPALIVEs as fast as they are taken, and takes nothing.
    first: after how many seconds it sends a report once the ROSpec was started; None is never.
    faulty: how many frames that are no messages it sends once the ROSpec was started; it then closes the connection.
    """

    def __init__(self, deaf=(), accepts=True, chatter=0.25, drips=None, strange=False, floods=False, first=None, faulty=0):
        self.deaf, self.accepts, self.chatter, self.drips, self.strange, self.floods = set(deaf), accepts, chatter, drips, strange, floods
        self.first, self.faulty = first, faulty
        self.asked, self.connections = [], []
        self.turn = threading.RLock()
        self.socket = socket.socket()
        if floods:
            self.socket.setsockopt(socket.SOL_SOCKET, socket.SO_RCVBUF, KEPT)
        self.socket.bind(("127.0.0.1", 0))
        self.socket.listen()
        self.port = self.socket.getsockname()[1]
        threading.Thread(target=self.serve, daemon=True).start()

    def serve(self):
        """Takes connections until the socket is closed."""
        while True:
            try:
                client, _ = self.socket.accept()
            except OSError:
                return
            self.connections.append(time.monotonic())
            threading.Thread(target=self.talk, args=(client,), daemon=True).start()

    def talk(self, client):
        """Answers what one client asks, as far as it does."""
        with client, contextlib.suppress(OSError):
            client.setsockopt(socket.IPPROTO_TCP, socket.TCP_NODELAY, 1)
            if not self.accepts:
                self.drip(client)
                return
            self.say(client, ACCEPTED)
            if self.chatter:
                threading.Thread(target=self.chat, args=(client,), daemon=True).start()
            while head := self.read(client, 10):
                kind, length, number = struct.unpack(">HII", head)
                self.read(client, length - 10)
                if not self.answer(client, kind & 1023, number):
                    return

    def answer(self, client, kind, number):
        """Answers a request, unless it is deaf to it. Returns whether the connection goes on."""
        if kind == KEEPALIVE_ACK:
            return True
        self.asked.append(kind)
        if kind in self.deaf:
            return True
        if kind == GET_REPORT:
            self.say(client, report(number))
            return True
        self.say(client, frame(response_kind(kind), number, FINE))
        if kind == self.drips:
            threading.Thread(target=self.drip, args=(client,), daemon=True).start()
        if kind == START and self.strange:
            self.say(client, frame(response_kind(kind), number, FINE))
        if kind == START and self.floods:
            self.flood(client)
            return False
        if kind == START and self.faulty:
            self.say(client, FAULTY * self.faulty)
            return False
        if kind == START and self.first is not None:
            threading.Timer(self.first, self.say, (client, report(9))).start()
        return kind != CLOSE

    def say(self, client, octets):
        with self.turn, contextlib.suppress(OSError):
            client.sendall(octets)

    def chat(self, client):
        """Sends KEEPALIVEs until the connection ends."""
        with contextlib.suppress(OSError):
            while True:
                with self.turn:
                    client.sendall(frame(KEEPALIVE, 5))
                time.sleep(self.chatter)

    def drip(self, client):
        """Begins a long frame, and sends its rest octet by octet until the connection ends."""
        with self.turn, contextlib.suppress(OSError):
            client.sendall(LONG)
            while True:
                client.sendall(b"\0")
                time.sleep(DRIP)

    @staticmethod
    def flood(client):
        """Sends KEEPALIVEs until the client takes no more for a minute."""
        client.settimeout(60)
        while True:
            client.sendall(frame(KEEPALIVE, 5) * FLOOD)

    @staticmethod
    def read(client, size):
        """The next `size` octets, or none at the end."""
        octets = b""
        while len(octets) < size:
            more = client.recv(size - len(octets))
            if not more:
                return b""
            octets += more
        return octets
