#!/usr/bin/env python3
"""Compares the hints that `llrp` writes on a terminal after a refused input with what a person did, and finds none where there is no terminal.

usage: tests/hints.py [PROGRAM]

Standard error is a terminal of its own here; standard input and output are pipes. The last line is the count.
"""
import os
import pty
import re
import subprocess
import sys

from parts.counting import finish_results, text_of
from parts.repository import program_given

LEAST = 77
KEEPALIVE = bytes.fromhex("083E0000000A00000007")
# What was given to a command, and a word of the hint; none where there is nothing to say.
MISTAKES = [
    (["show"], b"083E0000000A00000007\n", "--hex"),
    (["show"], b"04 3D 00 00", "--hex"),
    (["show"], bytes.fromhex("D4C3B2A1020004000000000000000000"), "llrp-capture FILE"),
    (["show"], bytes.fromhex("0A0D0D0A1C0000004D3C2B1A01000000"), "llrp-capture FILE"),
    (["show"], b"HTTP/1.1 400 Bad Request\r\n\r\n", "protocol"),
    (["show", "--all"], b"SSH-2.0-OpenSSH_9.2\r\n", "protocol"),
    (["show"], b"0 KEEPALIVE 1 7\n", "encode"),
    (["show"], b'{"message":"KEEPALIVE"}\n', "JSON"),
    (["show"], KEEPALIVE[:7], None),
    (["show", "--hex"], b"0x083E0000000A00000007", "0x"),
    (["show", "--hex"], b"08:3E:00:00:00:0A:00:00:00:07", "tr -d"),
    (["show", "--hex"], KEEPALIVE, "--hex"),
    (["show", "--hex"], b"0 KEEPALIVE 1 7\n", "encode"),
    (["show", "--hex"], b"083E0", None),
    (["encode"], b"0 KEEPALIVE 1 7\r\n", "LF"),
    (["encode"], b"1 TagReportData\n", "0"),
    (["encode"], b"# a comment\n0 KEEPALIVE 1 7\n", "comment"),
    (["encode"], KEEPALIVE, "show"),
    (["encode"], b"083E0000000A00000007\n", "show --hex"),
    (["encode", "--all"], b'{"message":"KEEPALIVE"}\n', "--json"),
    (["encode", "--json"], b"0 KEEPALIVE 1 7\n", "--json"),
    (["encode", "--json"], b'[{"message":"KEEPALIVE"}]\n', "jq"),
    (["encode", "--json", "--all"], b'{\n  "message": "KEEPALIVE"\n}\n', "jq"),
    (["encode", "--json"], KEEPALIVE, "show --json"),
    (["encode", "--json"], b'{"message":"KEEPALIVES","version":1,"id":7}\n', None),
    (["encode"], b"0 KEEPALIVES 1 7\n", None),
    (["epc", "x"], b"", None),
]


def on_terminal(program, words, given):
    """Returns the status of a command whose standard error is a terminal, and what it wrote there."""
    screen, terminal = pty.openpty()
    done = subprocess.run([program, *words], input=given, stdout=subprocess.DEVNULL, stderr=terminal, timeout=60)
    os.close(terminal)
    written = b""
    try:
        while part := os.read(screen, 4096):
            written += part
    except OSError:
        pass
    os.close(screen)
    return done.returncode, written.decode().replace("\r\n", "\n")


def results(program):
    """Yields what was compared, and whether it is right."""
    page = text_of("docs/errors.md")
    for words, given, wanted in MISTAKES:
        what = f"{words} of {given[:24]!r}"
        status, written = on_terminal(program, words, given)
        hints = re.findall(r"(?m)^llrp: hint: (.*)$", written)
        is_right = status == 1 and len(hints) == (wanted is not None) and all(wanted in hint for hint in hints)
        yield f"{what}: status {status}, {written!r}", is_right
        piped = subprocess.run([program, *words], input=given, capture_output=True, timeout=60)
        yield f"{what}, without a terminal", b"hint" not in piped.stderr and written.startswith(piped.stderr.decode())
        yield from ((f"docs/errors.md has no hint {hint!r}", hint in page) for hint in hints)
    status, written = on_terminal(program, ["show"], KEEPALIVE)
    yield "a stream that is taken has no hint", (status, written) == (0, "")


def main():
    program = program_given()
    return finish_results(list(results(program)), LEAST)


if __name__ == "__main__":
    sys.exit(main())
