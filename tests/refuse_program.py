#!/usr/bin/env python3
"""Runs the program llrp with each of its requests for memory refused in turn: each alone, and each with all after it.

usage: tests/refuse_program.py [PROGRAM]

Every such run has to end as it does with enough memory, or with status 3 and the line `llrp: memory`, after a front of
what it writes with enough memory. Build the program first, by ./llrp --help. The requests of making the commands that words are compared with
come first and are the same in each row, so they are refused in the rows without a command alone. Some run of
each row has to end with that line. The last line is `N passed, M failed`; the status is 1 if one of these failed.
"""
import collections
import concurrent.futures
import os
import sys
import tempfile

from parts.counting import finish
from parts.refusing import build_library, each_refused, run
from parts.repository import TOP, program_given

# How many rows run at a time.
AT_ONCE = 2
KEPT = "as with enough memory"
REFUSED = "llrp: memory"
# A ROSpec on two antennas, with a report for each tag.
ROSPEC = os.path.join(TOP, "examples/two_antennas.rospec")
# How many runs there are at least: some hundred for each row, one for each request.
LEAST = 9732
# How many requests at the end of a run that says the version may be of saying it, and not of making the commands.
OF_VERSION = 20


def example(name):
    with open(os.path.join(TOP, "examples", name), "rb") as file:
        return file.read()


def rows():
    """Returns a name, the program's words and its input, for each row."""
    keepalive, report, listing = (example(it) for it in ("keepalive.hex", "report.hex", "report.txt"))
    script = example("inventory.script")
    objects = (
        b'{"message":"RO_ACCESS_REPORT","version":1,"id":1,"parameters":[{"parameter":"TagReportData","parameters":'
        b'[{"parameter":"EPC-96","EPC":"urn:epc:tag:sgtin-96:3.0614141.812345.6789"},{"parameter":"AntennaID","AntennaID":1}]}]}\n'
    )
    labelled = listing.replace(b".6789\n", b".6789\tgtin 80614141123458 6789\n")
    segment = b"1.5\t%d\t192.0.2.1\t\t5084\t0x0018\t%d\t083E0000000A00000007\n"
    segments = b"".join(segment % (stream, 1 + 10 * at) for at in (0, 1, 3) for stream in (0, 1))
    lists = b"urn:epc:tag:sgtin-96:3.0614141.812345.6789\nurn:epc:tag:giai-96:3.0614141.5678\nurn:epc:tag:sgtin-96:3.0614141.812345.x\n"
    return [
        ("no command", [], b""),
        ("help", ["--help"], b""),
        ("help of show", ["show", "--help"], b""),
        ("help of sim", ["sim", "--all", "--help"], b""),
        ("a wrong word", ["shwo"], b""),
        ("a wrong number", ["inventory", "localhost", "0"], b""),
        ("show, a keepalive", ["show", "--hex"], keepalive),
        ("show, a report", ["show", "--hex"], report),
        ("show, 40 reports and a fault", ["show", "--hex"], report * 40 + b"283E0000000A00000007"),
        ("show, no digits", ["show", "--hex"], b"0G"),
        ("encode, a report", ["encode"], listing),
        ("encode --hex, 40 reports", ["encode", "--hex"], listing * 40),
        ("encode, a line that is refused", ["encode"], listing + b"0 KEEPALIVE 9 7\n"),
        ("epc, a word", ["epc", "3074257BF7194E4000001A85"], b""),
        ("epc, a text", ["epc", "urn:epc:tag:sgtin-96:3.0614141.812345.6789"], b""),
        ("epc, no text", ["epc", "urn:epc:tag:sgtin-96:3.0614141.812345.x"], b""),
        ("epc, all forms", ["epc", "--forms", "--schemes", "all", "urn:epc:tag:giai-96:3.0614141.5678"], b""),
        ("epc, all forms as an object", ["epc", "--json", "3074257BF7194E4000001A85"], b""),
        ("epc, a list", ["epc", "--list", "--to", "pure"], lists * 5),
        ("epc, a list of all schemes as objects", ["epc", "--list", "--json", "--schemes", "all"], lists * 5),
        ("show --json", ["show", "--hex", "--json"], report * 3),
        ("show --json, names of the standard and a fault", ["show", "--hex", "--json", "--names", "standard"], report + b"283E0000000A00000007"),
        ("encode --json", ["encode", "--json"], objects * 3),
        ("encode --json, a line that is refused", ["encode", "--json", "--hex"], objects + b'{"message":"KEEPALIVES"}\n'),
        ("show --keys", ["show", "--hex", "--keys", "--schemes", "all"], report * 3),
        ("encode --keys", ["encode", "--keys"], labelled * 3),
        ("encode --keys, a key that is refused", ["encode", "--keys"], labelled.replace(b"58 6789", b"57 6789")),
        ("show --segments", ["show", "--segments"], segments),
        ("show --segments --json, a line that is refused", ["show", "--segments", "--json"], segments + b"none\n"),
        ("explain", ["explain", "--hex"], report * 2),
        ("explain --json, a fault", ["explain", "--hex", "--json"], report + b"283E0000000A00000007"),
        ("fields", ["fields", "TagReportData"], b""),
        ("fields --all", ["fields", "--all", "C1G2Read"], b""),
        ("fields, no name", ["fields", "Keepalive"], b""),
        ("help by its word", ["help", "watch"], b""),
        ("a file that is missing", ["show", "/there/is/no/such/file"], b""),
        ("loop", ["loop", "--every", "2"], script),
        ("loop, reports that are awaited", ["loop", "--reports", "3", "--check"], script),
        ("loop, a clean start", ["loop", "--clean"], script),
        ("loop, a ROSpec of its own", ["loop", "--rospec", ROSPEC, "--reports", "3", "--check"], script),
        ("loop, a ROSpec that is refused", ["loop", "--rospec", os.path.join(TOP, "examples/report.txt")], script),
        ("loop, a script that is refused", ["loop"], b"1 1 tock\n"),
    ]


def kind_of(ended, ample):
    """Returns how a run ended, or None where it must not end so."""
    if ended.answer == ample.answer:
        return KEPT
    is_told = ended.status == 3 and ended.err == b"llrp: memory\n"
    return REFUSED if is_told and ample.out.startswith(ended.out) else None


def refused_in(library, program, name, words, given, first):
    """Runs a row with its requests refused from one on. Returns how many runs passed and failed, and what is said of them."""
    ample = run(library, program, words, "0", given, whole=True)
    seen, said = collections.Counter(), []
    for which, ended in each_refused(library, program, words, given, whole=True, first=first):
        kind = kind_of(ended, ample)
        seen[kind] += 1
        if kind is None:
            said.append(f"FAILED: {name}, refused {which}: status {ended.status}, {ended.out[-60:]!r}, {ended.err[-200:]!r}")
    if seen[REFUSED] == 0:
        said.append(f"FAILED: {name}: no run ended with {REFUSED}, so no request of it was refused")
    said.append(f"{name}: status {ample.status}, {ample.requests} requests; {seen[REFUSED]} runs {REFUSED}, {seen[KEPT]} {KEPT}")
    return seen[REFUSED] + seen[KEPT], len(said) - 1, said


def main():
    program = program_given()
    passed = failed = 0
    with tempfile.TemporaryDirectory() as folder, concurrent.futures.ThreadPoolExecutor(AT_ONCE) as pool:
        library = build_library(folder)
        making = run(library, program, ["--version"], "0", whole=True).requests - OF_VERSION
        begun = [pool.submit(refused_in, library, program, *row, 1 if row[1][:1] in ([], ["--help"]) else making) for row in rows()]
        for good, bad, said in (it.result() for it in begun):
            passed, failed = passed + good, failed + bad
            print("\n".join(said), flush=True)
    return finish(passed, failed, LEAST)


if __name__ == "__main__":
    sys.exit(main())
