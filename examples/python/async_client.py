#!/usr/bin/env python3
"""Takes inventory of several readers at a time, and prints each tag with its antenna and its signal strength.

usage: examples/python/async_client.py ROSPEC TAGS HOST:PORT..

ROSPEC is a file with the lines of ROSpec 1, such as examples/rospec.txt. Each reader is asked until it has TAGS tags or more.
"""
import asyncio
import sys
from typing import List

from llrp_epc import Llrp, Message

LLRP = Llrp()
PRINTED = ("EPC", "bits", "AntennaID", "PeakRSSI")


class Client:
    def __init__(self, reader: asyncio.StreamReader, writer: asyncio.StreamWriter) -> None:
        self.reader, self.writer = reader, writer
        self.received, self.requests, self.tags = bytearray(), 0, 0
        self.messages: List[Message] = []

    async def take(self) -> Message:
        """Waits for the next message and returns it. KEEPALIVE is answered, and tags are printed."""
        while not self.messages:
            self.received += await self.reader.read(65536) or sys.exit("the reader ended the connection")
            self.messages, used = LLRP.messages(self.received)
            del self.received[:used]
        message = self.messages.pop(0)
        if message.get("message") == "KEEPALIVE":
            self.writer.write(LLRP.encode(f"0 KEEPALIVE_ACK {message['version']} {message['id']}\n"))
        for report in message.get("parameters", []):
            if report["parameter"] == "TagReportData":
                print(*[value for it in report["parameters"] for name, value in it.items() if name in PRINTED], flush=True)
                self.tags += 1
        return message

    async def request(self, name: str, fields: str = "", below: str = "") -> None:
        """Sends a request, and waits for its response."""
        self.requests += 1
        self.writer.write(LLRP.encode(f"0 {name} 1 {self.requests}{fields}\n{below}"))
        while (message := await self.take()).get("message") not in (f"{name}_RESPONSE", "ERROR_MESSAGE"):
            pass
        if message["parameters"][0]["StatusCode"] != 0:
            sys.exit(f"{name} was refused: {message}")


async def inventory(address: str, rospec: str, tags: int) -> None:
    """Takes inventory of the reader at HOST:PORT."""
    client = Client(*await asyncio.open_connection(*address.rsplit(":", 1)))
    await client.take()  # READER_EVENT_NOTIFICATION: the reader took the connection
    await client.request("ADD_ROSPEC", below=rospec)
    await client.request("ENABLE_ROSPEC", " 1")
    await client.request("START_ROSPEC", " 1")
    while client.tags < tags:
        await client.take()
    await client.request("DELETE_ROSPEC", " 1")
    await client.request("CLOSE_CONNECTION")
    client.writer.close()


async def inventories(rospec: str, tags: int, *addresses: str) -> None:
    await asyncio.gather(*(inventory(it, rospec, tags) for it in addresses))


if __name__ == "__main__":
    with open(sys.argv[1], encoding="utf-8") as lines:
        asyncio.run(inventories(lines.read(), int(sys.argv[2]), *sys.argv[3:]))
