#!/usr/bin/env python3
"""Measures many readers on one machine: a stub for each in one process, and a `llrp watch` for each. It prints the processor time of a
watch, its memory, and how many tags a second came, and compares the printed lines with the tags that were sent.

usage: bench/watch.py [PROGRAM [READERS [TAGS [SECONDS]]]]

PROGRAM is llrp, crates/llrp/out/llrp where none is given. Each of READERS (200) sends TAGS a second (50), each tag in a report of its own,
for SECONDS (30). The status is 1 if a line is missing or too many.
"""
import asyncio
import os
import resource
import struct
import subprocess
import sys
import tempfile

TOP = os.path.dirname(os.path.dirname(os.path.abspath(__file__)))
ACCEPTED = bytes.fromhex("043F000000200000000100F600160080000C0000000000000000010000060000")
# message types of LLRP 1.1, section 17.1
(CLOSE, START, REPORT, KEEPALIVE_ACK) = (14, 22, 61, 72)
# CLOSE_CONNECTION_RESPONSE has no number near its request's, SET_READER_CONFIG_RESPONSE neither.
RESPONSES = {CLOSE: 4, 3: 13}
SUCCESS = struct.pack(">HHHH", 287, 8, 0, 0)
# How often a reader sends what came meanwhile, each second.
TURNS = 10


def frame(kind, number, body=b""):
    """A message of version 1."""
    return struct.pack(">HII", 0x0400 | kind, 10 + len(body), number) + body


def report(serial):
    """RO_ACCESS_REPORT of a tag with its antenna, RSSI, first time and count."""
    epc = bytes.fromhex("3074257BF7194E40") + struct.pack(">I", serial)
    parts = b"\x8d" + epc + b"\x81\x00\x01" + b"\x86\xc4" + b"\x82" + struct.pack(">Q", 1600000000000000 + serial) + b"\x88\x00\x01"
    return frame(REPORT, 100 + serial, struct.pack(">HH", 240, 4 + len(parts)) + parts)


class Reader:
    """A reader that sends tags at a steady pace once it was started, and then closes."""

    def __init__(self, pace, seconds):
        self.pace, self.seconds, self.sent = pace, seconds, 0

    async def serve(self, reader, writer):
        writer.write(ACCEPTED)
        try:
            while True:
                kind, length, number = struct.unpack(">HII", await reader.readexactly(10))
                await reader.readexactly(length - 10)
                kind &= 1023
                if kind == KEEPALIVE_ACK:
                    continue
                writer.write(frame(RESPONSES.get(kind, kind + 10), number, SUCCESS))
                if kind == START:
                    await self.report(writer)
                    return
        except (asyncio.IncompleteReadError, ConnectionError):
            pass
        finally:
            writer.close()

    async def report(self, writer):
        loop = asyncio.get_running_loop()
        begin = loop.time()
        for turn in range(self.seconds * TURNS):
            await asyncio.sleep(max(0, begin + turn / TURNS - loop.time()))
            due = self.pace * (turn + 1) // TURNS
            writer.write(b"".join(report(serial) for serial in range(self.sent, due)))
            self.sent = due
            await writer.drain()


def lines_in(path):
    with open(path, "rb") as file:
        return sum(1 for _ in file)


def status_of(pid):
    """The memory of a process and its own share of it, in KiB."""
    with open(f"/proc/{pid}/smaps_rollup", encoding="ascii") as lines:
        found = {line.split(":")[0]: int(line.split()[1]) for line in lines if line.startswith(("Rss", "Pss:"))}
    return found["Rss"], found["Pss"]


async def main():
    program = os.path.abspath(sys.argv[1] if len(sys.argv) > 1 else os.path.join(TOP, "crates/llrp/out/llrp"))
    count, pace, seconds = (int(sys.argv[i]) if len(sys.argv) > i else it for i, it in ((2, 200), (3, 50), (4, 30)))
    readers = [Reader(pace, seconds) for _ in range(count)]
    servers = [await asyncio.start_server(it.serve, "127.0.0.1", 0) for it in readers]
    with tempfile.TemporaryDirectory() as folder:
        runs, paths = [], [os.path.join(folder, str(i)) for i in range(count)]
        for server, path in zip(servers, paths):
            port = server.sockets[0].getsockname()[1]
            with open(path, "wb") as out:
                runs.append(subprocess.Popen([program, "watch", f"127.0.0.1:{port}"], stdout=out, stderr=subprocess.DEVNULL))
        await asyncio.sleep(seconds * 0.8)
        memory = [status_of(it.pid) for it in runs]
        while any(it.poll() is None for it in runs):
            await asyncio.sleep(0.2)
        used = resource.getrusage(resource.RUSAGE_CHILDREN)
        printed = sum(map(lines_in, paths))
    sent = sum(it.sent for it in readers)
    spent = used.ru_utime + used.ru_stime
    print(f"{count} readers, {sent} tags in {seconds} s: {sent / seconds:.0f} tags a second; {printed} lines")
    print(f"processor: {spent:.2f} s in all, {100 * spent / seconds / count:.3f} % of one for each, {1e6 * spent / sent:.1f} us a tag")
    print(f"memory of each: {max(it[0] for it in memory)} KiB at most, {sum(it[1] for it in memory) / count:.0f} KiB of its own")
    return 0 if printed == sent else 1


if __name__ == "__main__":
    sys.exit(asyncio.run(main()))
