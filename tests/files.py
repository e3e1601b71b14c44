#!/usr/bin/env python3
"""Runs `show`, `encode` and `explain` over files: the conformance vectors in turn, with standard input among them, files that cannot be
read, and options before and after the files.

usage: tests/files.py [PROGRAM]

The last line is `N passed, M failed`; the status is 1 if something failed.
"""
import os
import subprocess
import sys
import tempfile

from parts.counting import finish_results
from parts.repository import program_given
from parts.vectors import vectors

# How many runs there are at least.
LEAST = 240
KEEPALIVE, ACK = bytes.fromhex("083E0000000A00000007"), bytes.fromhex("08480000000A00000007")
# A message that has fields of other names in the whole standard.
ROSPEC = bytes.fromhex("043F0000002700000001 00F6001D 0080000C0005AF3107A40000 00F9000D000000000100000000")
LINE, ACK_LINE = b"0 KEEPALIVE 2 7\n", b"0 KEEPALIVE_ACK 2 7\n"


def run(program, folder, *words, given=b""):
    """Returns the status, the output and the errors of a command in a folder."""
    done = subprocess.run([program, *words], cwd=folder, input=given, capture_output=True, timeout=60)
    return done.returncode, done.stdout, done.stderr


def write(folder, name, octets):
    with open(os.path.join(folder, name), "wb") as file:
        file.write(octets)
    return name


def checks_of_vectors(program, folder):
    """Yields whether three vectors in turn are listed as each of them, and those that are messages are encoded so."""
    rows = vectors()
    for number, row in enumerate(rows):
        three = [rows[(number + it) % len(rows)] for it in range(3)]
        names = [write(folder, f"{it}.bin", vector.stream) for it, vector in enumerate(three)]
        listing, status = "".join(it.listing for it in three).encode(), 0 if all(it.is_lawful for it in three) else 1
        yield f"show of {[it.name for it in three]}", run(program, folder, "show", *names) == (status, listing, b"")
        lawful = [it for it in three if it.is_lawful]
        names = [write(folder, f"{it}.txt", vector.listing.encode()) for it, vector in enumerate(lawful)]
        wanted = 0, b"".join(it.stream for it in lawful), b""
        if names:
            yield f"encode of {[it.name for it in lawful]}", run(program, folder, "encode", *names) == wanted


def explained(program, octets):
    """Returns what `explain` prints of octets on standard input."""
    return run(program, None, "explain", given=octets)[1]


def named(program, octets):
    """Returns the line of JSON with the standard's names of octets on standard input."""
    return run(program, None, "show", "--json", "--names", "standard", given=octets)[1]


def checks_of_words(program, folder):
    """Yields whether options may stand anywhere, `-` is standard input, and a mistake in the words is told before a file is read."""
    write(folder, "ack", ACK)
    write(folder, "digits", KEEPALIVE.hex().encode())
    write(folder, "-odd", KEEPALIVE)
    write(folder, "named", ROSPEC)
    for words, given, wanted in [
        (["show", "ack", "-", "ack"], KEEPALIVE, ACK_LINE + LINE + ACK_LINE),
        (["show", "digits", "--hex"], b"", LINE),
        (["show", "--limit", "10", "ack"], b"", ACK_LINE),
        (["show", "ack", "--limit", "10", "ack"], b"", ACK_LINE * 2),
        (["show", "--limit=10", "--all", "ack"], b"", ACK_LINE),
        (["show", "./-odd"], b"", LINE),
        (["show", "--", "-odd", "ack"], b"", LINE + ACK_LINE),
        (["show", "-", "-"], KEEPALIVE, LINE),
        (["encode", "--hex", "-"], LINE, KEEPALIVE.hex().upper().encode() + b"\n"),
        (["explain", "ack", "-"], KEEPALIVE, explained(program, ACK) + explained(program, KEEPALIVE)),
        (["show", "--json", "--names", "standard", "named", "-"], ROSPEC, named(program, ROSPEC) * 2),
        (["show", "--json", "ack"], b"", b'{"message":"KEEPALIVE_ACK","version":2,"id":7}\n'),
    ]:
        yield f"{words}", run(program, folder, *words, given=given) == (0, wanted, b"")
    yield "names that are others", named(program, ROSPEC) != run(program, folder, "show", "--json", "named")[1]
    for mistake in ("show --names standard ack ack", "show ack --no", "encode ack --limit", "show --limit ack", "show -odd", "sim ack", "epc 1 2"):
        words = mistake.split()
        status, out, err = run(program, folder, *words)
        yield f"{words}", (status, out) == (2, b"") and err.startswith(b"error: ") and err.count(b"error: ") == 1
    yield "help", run(program, folder, "show", "ack", "--help") == run(program, folder, "show", "--help")


def checks_of_failures(program, folder):
    """Yields whether a file that fails is named, the others are read, and the worst status counts."""
    write(folder, "cut", KEEPALIVE + ACK[:9])
    write(folder, "text", LINE + ACK_LINE + b"0 KEEPALIV 2 7\n")  # (the message before a refused line stays open, so it is not written)
    os.mkdir(os.path.join(folder, "below"))
    for words, wanted in [
        (["show", "none", "ack"], (3, ACK_LINE, b"llrp: none: read\n")),
        (["show", "ack", "below", "ack"], (3, ACK_LINE * 2, b"llrp: below: read\n")),
        (["show", "cut", "ack"], (1, LINE + b"? 9\n" + ACK_LINE, b"")),
        (["show", "none", "cut"], (3, LINE + b"? 9\n", b"llrp: none: read\n")),
        (["show", "--hex", "ack", "digits"], (1, LINE, b"llrp: ack: hex\n")),
        (["explain", "none", "none"], (3, b"", b"llrp: none: read\n" * 2)),
        (["encode", "--json", "text", "none"], (3, b"", b"llrp: text: line 1: Json\nllrp: none: read\n")),
        (["encode", "text", "text"], (1, KEEPALIVE * 2, b"llrp: text: line 3: Name\n" * 2)),
    ]:
        yield f"{words}", run(program, folder, *words) == wanted
    with open("/dev/full", "wb") as full:
        done = subprocess.run([program, "show", "ack", "ack"], cwd=folder, stdout=full, stderr=subprocess.PIPE, timeout=60)
    yield "a full disk", (done.returncode, done.stderr) == (3, b"llrp: write\n")


def main():
    program = program_given()
    with tempfile.TemporaryDirectory() as folder:
        parts = (checks_of_vectors, checks_of_words, checks_of_failures)
        return finish_results([it for part in parts for it in part(program, folder)], LEAST)


if __name__ == "__main__":
    sys.exit(main())
