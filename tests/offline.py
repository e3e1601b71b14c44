#!/usr/bin/env python3
"""Compares the program of the commands that need no socket with the whole program: for the same words and input both have to write the same,
on standard output and as errors, and end with the same status.

usage: tests/offline.py [PROGRAM [OFFLINE]]

The words are the helps of all commands, each option of `show`, `encode`, `epc`, `fields` and `explain` alone, twice and in pairs, with good
words and bad ones, over octets, digits, listings and lines of JSON, with FILEs that are there and one that is not. What they should print is
for other scripts to say. PROGRAM is crates/llrp/out/llrp and OFFLINE crates/llrp_offline/out/llrp_offline where none is given. The last line
is `N passed, M failed`; the status is 1 if something failed.
"""
import itertools
import os
import subprocess
import sys
import tempfile

from parts.counting import finish_results
from parts.repository import TOP, built

# How many runs there are at least.
LEAST = 1300
COMMANDS = ["show", "encode", "epc", "fields", "explain"]
NETWORK = ["sim", "inventory", "loop", "watch", "stop", "ask", "access"]
# The options of each command, with words for those that take one: good ones, and one that is refused.
OPTIONS = {
    "show": ["--hex", "--all", "--json", "--names plain", "--names wrong", "--keys", "--schemes all", "--schemes few", "--segments", "--port 5084", "--port 0", "--limit 50", "--limit 9"],
    "encode": ["--hex", "--all", "--json", "--keys", "--schemes all", "--schemes few", "--limit 50", "--limit x"],
    "epc": ["--forms", "--list", "--json", "--to key", "--to none", "--prefix-digits 7", "--prefix-digits 5", "--filter 3", "--filter 8", "--schemes all", "--prefixes {prefixes}", "3074257BF7194E4000001A85"],
    "fields": ["--all", "TagReportData", "tagreportdata", "C1G2Read"],
    "explain": ["--hex", "--all", "--json", "--limit 50", "--limit 9", "--only 7", "--only x"],
}
REPORT = "043D0000002C0000000100F000228D3074257BF7194E4000001A8581000186C4820005AF3107A40000880001"
INPUTS = {
    "nothing": b"",
    "octets": bytes.fromhex(REPORT) + bytes.fromhex("283E0000000A00000007083E0000000A00000008"),
    "digits": REPORT.encode() + b" 083e0000000A00000008\n",
    "a listing": b"0 KEEPALIVE 2 8\n0 RO_ACCESS_REPORT 1 1\n1 TagReportData\n2 EPC-96 urn:epc:tag:sgtin-96:3.0614141.812345.6789\n2 AntennaID 1\n",
    "a text": b"urn:epc:tag:sgtin-96:3.0614141.812345.6789\nnone\n3074257BF7194E4000001A85\n",
}
# What each command is given beside nothing.
GIVEN = {"show": ["octets", "digits"], "encode": ["a listing"], "epc": ["a text"], "fields": [], "explain": ["octets", "digits"]}


def word_lists():
    """Yields lists of words, none of which names a file."""
    yield from ([], ["--help"], ["-h"], ["--version"], ["-V"], ["help"], ["nonsense"], ["--nonsense"], ["show", "--", "--hex"])
    for command in COMMANDS + NETWORK:
        yield from ([command, "--help"], [command, "-h"], ["help", command])
    for command, options in OPTIONS.items():
        yield [command]
        yield [command, "--nonsense"]
        for some in [[it] for it in options] + [list(it) for it in itertools.product(options, repeat=2)]:
            yield [command, *" ".join(some).split()]


def result(program, words, octets, folder):
    """Returns what the program writes, and its status."""
    done = subprocess.run([program, *words], input=octets, capture_output=True, cwd=folder, timeout=60)
    return done.returncode, done.stdout, done.stderr


def cases(folder):
    """Yields the words and the input of each run."""
    for words in word_lists():
        words = [it.format(prefixes=os.path.join(folder, "prefixes")) for it in words]
        for name in ["nothing", *GIVEN.get(words[0] if words else "", [])]:
            yield words, name
    for command, options in itertools.product(["show", "encode", "explain"], ([], ["--json"], ["--hex"])):
        for files in (["octets"], ["none"], ["octets", "-"], ["none", "listing"], ["listing", "octets", "none"], ["."]):
            yield [command, *options, *files], "digits"


def write_files(folder):
    for name, octets in (("octets", INPUTS["octets"]), ("listing", INPUTS["a listing"]), ("prefixes", b"0614141\n")):
        with open(os.path.join(folder, name), "wb") as file:
            file.write(octets)


def main():
    program, offline = ([os.path.abspath(it) for it in sys.argv[1:3]] + [built("llrp"), built("llrp_offline")][len(sys.argv[1:3]) :])[:2]
    results = []
    with tempfile.TemporaryDirectory() as folder:
        write_files(folder)
        for words, name in cases(folder):
            whole, part = (result(it, words, INPUTS[name], folder) for it in (program, offline))
            results.append((f"llrp {' '.join(words)}, over {name}", whole == part))
    return finish_results(results, LEAST)


if __name__ == "__main__":
    sys.exit(main())
