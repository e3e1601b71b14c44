#!/usr/bin/env python3
"""Counts the instructions that the program takes for an octet of input in each row of bench/rows.tsv, under callgrind, and compares each with
what stands there: more than two parts in a hundred above it is a failure, and as much below it asks for the row to be written anew.

usage: tests/instructions.py [--write] [PROGRAM]

The instructions are the difference of a run over three copies of an input and one over one copy, so starting costs nothing. An octet is one
of what the command reads; for `encode --json` it is one of the frames that the lines say. The inputs are made here: reports of 100 tags
with five parameters, rich ones of 40 tags with thirteen, KEEPALIVE messages, events that a ROSpec started, and reports cut in their last
parameter. --write writes the table anew. PROGRAM is llrp, crates/llrp/out/llrp where none is given; what a build without its proofs takes
does not compare. valgrind is needed. The last line is `N passed, M failed`; the status is 1 if something failed.
"""
import os
import re
import subprocess
import sys
import tempfile
from typing import NamedTuple

from parts.counting import finish_results, text_of
from parts.repository import TOP, built

TABLE = "bench/rows.tsv"
HEAD = "# Instructions an octet of input of the proved program, by tests/instructions.py: the words, the input, the instructions.\n"
# How far above its row a command may be before the script fails, as a part of it, and how far below before the row is to be written anew.
ROOM = 0.02
# How many rows there are at least.
LEAST = 30

WORDS = ["3074257BF7194E4000001A85", "3114257BF400000001000000", "35FFFFFFFFFFFFFFFFFFFFFF", "3003A3529440000000000000", "320000000000040000000000"]


def report(number):
    """A report of tags with an SGTIN-96, an antenna, a signal strength, a moment and a count."""
    tag = "00F000228D3074257BF7194E4000{:06X}81{:04X}86{:02X}820005B{:011X}88{:04X}"
    tags = [tag.format(number * 100 + it, it % 4 + 1, 196 + it % 20, number * 1000003 + it, it % 7 + 1) for it in range(100)]
    return bytes.fromhex(f"043D00000D52{number:08X}" + "".join(tags))


def rich_report(number):
    """A report of tags that have all thirteen parameters of type and value, of four schemes and a raw word."""
    tag = (
        "00F000568D{}81{:04X}86{:02X}820005B{:011X}83{:016X}840005B{:011X}85{:016X}"
        "87{:04X}88{:04X}89{:08X}8A{:04X}8B{:04X}8C{:04X}8E{:04X}90{:08X}"
    )
    tags = []
    for it in range(40):
        moments = number * 1003 + it, number * 7 + it, number * 1003 + it + 50, number * 7 + it + 50
        counts = it % 16 + 1, it % 7 + 1, 1, 1, 4660 + it, 12288, 1, 0
        tags.append(tag.format(WORDS[it % 5], it % 4 + 1, 196 + it % 20, *moments, *counts))
    return bytes.fromhex(f"043D{10 + 40 * 86:08X}{number:08X}" + "".join(tags))


def keepalive(number):
    return bytes.fromhex(f"083E0000000A{number:08X}")


def event(number):
    """An event: at a moment a ROSpec started."""
    return bytes.fromhex(f"043F00000027{number:08X}00F6001D0080000C{number:016X}00F9000D000000000100000000")


def cut_report(number):
    """A report whose last parameter is longer than what is left."""
    return bytes.fromhex(f"043D0000001B{number:08X}00F000128D3074257BF7194E4000001A85")


# Of each kind of frames: how one is made, and how many of them an input has.
KINDS = {"reports": (report, 20), "rich": (rich_report, 20), "keepalives": (keepalive, 7000), "events": (event, 1700), "faulty": (cut_report, 2500)}
# The commands that are measured over frames, over their listing, and over their lines of JSON, and the kinds for each.
COMMANDS = {
    "show": ("frames", ("reports", "rich", "keepalives", "events", "faulty")),
    "show --all": ("frames", ("reports", "rich", "keepalives", "events")),
    "show --json": ("frames", ("reports", "rich", "keepalives", "events")),
    "show --all --json": ("frames", ("reports", "rich", "events")),
    "show --keys": ("frames", ("reports", "rich")),
    "encode": ("listing", ("reports", "rich", "keepalives", "events")),
    "encode --all": ("listing", ("reports", "rich", "events")),
    "encode --json": ("lines", ("reports", "rich", "keepalives", "events")),
    "explain": ("frames", ("reports",)),
}


class Row(NamedTuple):
    """The words of a command, and the kind of its input."""

    words: str
    kind: str

    def __str__(self):
        return f"{self.words}, {self.kind}"


def rows():
    return [Row(words, kind) for words, (_, kinds) in COMMANDS.items() for kind in kinds]


def table():
    """Returns what bench/rows.tsv has for each row."""
    if not os.path.exists(os.path.join(TOP, TABLE)):
        return {}
    lines = [line.split("\t") for line in text_of(TABLE).splitlines() if line and not line.startswith("#")]
    return {Row(words, kind): float(count) for words, kind, count in lines}


def output_of(program, words, octets):
    return subprocess.run([program, *words.split()], input=octets, capture_output=True, timeout=300).stdout


def inputs_of(program, kind):
    """Returns the frames of a kind, with their listing and their lines of JSON."""
    make, count = KINDS[kind]
    frames = b"".join(make(number + 1) for number in range(count))
    return {"frames": frames, "listing": output_of(program, "show", frames), "lines": output_of(program, "show --json", frames)}


def instructions(program, words, octets):
    """Returns how many instructions a run over these octets takes."""
    with tempfile.TemporaryFile() as given:
        given.write(octets)
        given.seek(0)
        how = {"stdin": given, "stdout": subprocess.DEVNULL, "stderr": subprocess.PIPE, "timeout": 600}
        command = ["valgrind", "--tool=callgrind", "--callgrind-out-file=/dev/null", program, *words.split()]
        said = subprocess.run(command, **how).stderr.decode(errors="replace")
    return int(re.search(r"Collected : (\d+)", said)[1])


def measured(program, row, inputs):
    """Returns the instructions of a row for an octet of its input, or of the frames that its lines say."""
    octets = inputs[COMMANDS[row.words][0]]
    length = len(inputs["frames"] if row.words == "encode --json" else octets)
    return (instructions(program, row.words, octets * 3) - instructions(program, row.words, octets)) / (2 * length)


def compared(row, count, wanted):
    """Returns what was compared, and whether it is right."""
    if wanted is None:
        return f"{row}: {count:.1f} instructions an octet, and {TABLE} has no such row", False
    if count < wanted * (1 - ROOM):
        print(f"{row}: {count:.1f} instructions an octet in place of {wanted:.1f}: write {TABLE} anew, by --write")
    return f"{row}: {count:.1f} instructions an octet in place of {wanted:.1f}", count <= wanted * (1 + ROOM)


def write_table(counts):
    with open(os.path.join(TOP, TABLE), "w", encoding="utf-8") as file:
        file.write(HEAD)
        file.writelines(f"{row.words}\t{row.kind}\t{count:.1f}\n" for row, count in counts.items())


def main():
    words = [it for it in sys.argv[1:] if it != "--write"]
    program = os.path.abspath(words[0]) if words else built("llrp")
    inputs = {kind: inputs_of(program, kind) for kind in KINDS}
    counts = {row: measured(program, row, inputs[row.kind]) for row in rows()}
    if "--write" in sys.argv:
        write_table(counts)
    wanted = table()
    results = [compared(row, count, wanted.get(row)) for row, count in counts.items()]
    results += [(f"{TABLE}: {row} is not measured", row in counts) for row in wanted]
    return finish_results(results, LEAST)


if __name__ == "__main__":
    sys.exit(main())
