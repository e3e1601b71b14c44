#!/usr/bin/env python3
"""Compares what calls answer with the rows below tests/rows/, whose expected answers come from the standards, and with the conformance vectors:
each stream of these is listed, whole and cut at each of its places, and the listing of a lawful one is encoded back.

usage: tests/rows.py [PROGRAM PROGRAM PROGRAM]

The programs are those of the crates `test_calls`, `test_tag_calls` and `test_end_calls`, in their folders out/, where none are given. The last line is `N passed, M failed`; the status is 1
if something failed.
"""
import os
import subprocess
import sys
from concurrent.futures import ThreadPoolExecutor

from parts.counting import finish
from parts.rows import FOLDER, Row, are_same, given_to, program_of, programs_given, rows_in
from parts.vectors import vectors

# How many rows there are, with those of the vectors.
LEAST = 1840
# How long a call may take, in seconds.
LONGEST = 120
# The file of vectors, whose rows are none of calls.
VECTORS = "vectors.rows"
MARKS = ("@refuse", "@ample")


def names_of_files():
    return sorted(it.removesuffix(".rows") for it in os.listdir(FOLDER) if it.endswith(".rows") and it != VECTORS)


def quoted(text):
    """Returns a column that stands for the octets of a text."""
    return '"' + text.replace("\\", "\\\\").replace('"', '\\"').replace("\n", "\\n") + '"'


def vector_rows():
    """Yields the calls of the vectors: each stream is listed, and a lawful one comes back; a message is the same in the whole standard."""
    for it in vectors():
        stream, listing = it.stream.hex(), it.listing.encode().hex()
        verdict = "Ok(Lawful)" if it.is_lawful else "Ok(Faulty)"
        for call in ("show", "show-cut"):
            yield Row(it.name, call, [stream], [verdict, quoted(it.listing)])
        if it.is_lawful:
            for call in ("list", "list-cut"):
                yield Row(it.name, call, [listing], ["Ok(())", stream])
        if it.is_lawful and len(it.frames) == 1:
            yield Row(it.name, "own", [stream], ["true", stream])


def answered(program, row):
    """Returns the lines that a call answers, without their names, or how the program ended."""
    done = subprocess.run([program], input=given_to(row), capture_output=True, timeout=LONGEST, check=False)
    if done.returncode != 0:
        return [f"status {done.returncode}: {done.stderr.decode(errors='replace')[-300:]}"]
    return [line.partition(" ")[2].strip() for line in done.stdout.decode().splitlines() if line not in MARKS]


def fault(row, found):
    """What is wrong with what a call answered, or None."""
    if len(found) != len(row.wanted):
        return f"{len(found)} lines in place of {len(row.wanted)}: {found}"
    for at, (line, wanted) in enumerate(zip(found, row.wanted)):
        if not are_same(line, wanted):
            return f"line {at + 1}: {line[:300]} in place of {wanted[:300]}"
    return None


def main():
    programs = programs_given()
    rows = [*vector_rows(), *(row for name in names_of_files() for row in rows_in(name) if row.is_compared)]
    with ThreadPoolExecutor(os.cpu_count()) as pool:
        faults = list(pool.map(lambda row: fault(row, answered(program_of(row.call, programs), row)), rows))
    for row, wrong in zip(rows, faults):
        if wrong:
            print(f"WRONG: {row.name}, {row.call}: {wrong[:700]}")
    failed = sum(map(bool, faults))
    return finish(len(rows) - failed, failed, LEAST)


if __name__ == "__main__":
    sys.exit(main())
