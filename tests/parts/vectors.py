"""The conformance vectors of tests/rows/vectors.rows: streams of octets, and the listing of each."""
import ast
import os
import re
import sys
from typing import NamedTuple

from parts.repository import TESTS


class Vector(NamedTuple):
    """A stream of octets, and its listing."""

    name: str
    stream: bytes
    listing: str

    @property
    def frames(self):
        """The stream's frames, or none where it does not end with a frame."""
        found, at = [], 0
        while at + 6 <= len(self.stream):
            length = int.from_bytes(self.stream[at + 2 : at + 6], "big")
            if length < 10 or at + length > len(self.stream):
                return []
            found.append(self.stream[at : at + length])
            at += length
        return found if at == len(self.stream) else []

    @property
    def is_lawful(self):
        return not any(line.startswith(("!", "?")) for line in self.listing.splitlines())


def octets_of(digits):
    return bytes.fromhex(digits.replace(" ", ""))


def vector_of(line):
    """Returns the vector of a line of the file."""
    name, digits, listing = line.split("\t")
    return Vector(name, octets_of(digits.replace('"', "")), ast.literal_eval(listing))


def vectors():
    """Returns the conformance vectors; ends the script where there are not as many as the file's first line says."""
    with open(os.path.join(TESTS, "rows", "vectors.rows"), encoding="utf-8") as file:
        heading, *lines = file.read().splitlines()
    found = [vector_of(line) for line in lines if not line.startswith("#")]
    there = re.fullmatch(r"# (\d+) vectors: name, octets and listing, split by tabs", heading)
    if not there or not found or len(found) != int(there[1]):
        sys.exit(f"WRONG: {len(found)} vectors were read: {heading}")
    return found
