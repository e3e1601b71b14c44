"""A test of an LLRP client by pytest: each test has a simulated reader of its own.

    LLRP=./llrp pytest-3 examples/python/test_client.py
"""
import os
import pathlib
import socket
import subprocess
from typing import Iterator

import pytest

SCRIPT = pathlib.Path(__file__).parent.parent / "sightings.script"


@pytest.fixture
def reader() -> Iterator[int]:
    """The port of a simulated reader, once it listens."""
    words = [os.environ.get("LLRP", "llrp"), "sim", "0", "--all", "--ready"]
    with open(SCRIPT, encoding="utf-8") as script, subprocess.Popen(words, stdin=script, stderr=subprocess.PIPE, text=True) as run:
        line = run.stderr.readline() if run.stderr else ""
        assert "listening" in line
        yield int(line.rsplit(":", 1)[1])
        run.kill()


def test_is_accepted(reader: int) -> None:
    with socket.create_connection(("127.0.0.1", reader), timeout=10) as client:
        # READER_EVENT_NOTIFICATION of 32 octets, whose last parameter is ConnectionAttemptEvent 0
        assert client.recv(32, socket.MSG_WAITALL).endswith(bytes.fromhex("0100 0006 0000"))


def test_says_goodbye(reader: int) -> None:
    with socket.create_connection(("127.0.0.1", reader), timeout=10) as client:
        client.recv(32, socket.MSG_WAITALL)
        client.sendall(bytes.fromhex("040E 0000000A 00000005"))
        # CLOSE_CONNECTION_RESPONSE with the status 0
        assert client.recv(18, socket.MSG_WAITALL) == bytes.fromhex("0404 00000012 00000005 011F 0008 0000 0000")
