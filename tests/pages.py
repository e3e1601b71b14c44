#!/usr/bin/env python3
"""Compares what pages say without a command with what it is taken from: the exchanges of docs/reader.md and docs/client.md, the answers and statuses of
docs/sim.md, the ROSpec of docs/client.md, the members of docs/json.md, the statuses of docs/reader.md, and the commands and flags that any
page names.

usage: tests/pages.py [PROGRAM]

PROGRAM is llrp, crates/llrp/out/llrp where none is given. The last line is `N passed, M failed`; the status is 1 if something failed.
"""
import contextlib
import json
import os
import pathlib
import re
import shlex
import socket
import struct
import subprocess
import sys

from parts.counting import finish_results, text_of
from parts.ports import held_port, listens_at, wait_until
from readers import OTHER, status
from parts.repository import TOP, program_given
from words import flags_of

LEAST = 82
LONGEST = 20
# What a client sends in docs/sim.md, and closes.
REQUESTS = "0 GET_READER_CAPABILITIES 1 5 0\n0 GET_READER_CONFIG 1 6 0 0 0 0\n0 GET_SUPPORTED_VERSION 1 7\n0 CLOSE_CONNECTION 1 8\n"
# The answer to GET_ROSPECS of docs/reader.md: that ROSpec, enabled.
LISTED = (bytes.fromhex("08240000004600000003") + status(0) + OTHER[:9] + b"\1" + OTHER[10:]).hex().upper()
# The member of each kind of tail, by what docs/tables.md calls it (docs/json.md says the rest).
TAILS = {"words": "words", "text": "text", "bits": "bits", "data": "octets"}
# A stream with each kind of line, and the members of its lines.
STREAM = "043D0000000A00000001 043D0000001100000001 00F00007 810001 083E0000000900000007"
MEMBERS = [["message", "version", "id"], ["fault", "id", "bit"], ["broken"]]


def squeezed(text):
    return re.sub(r"[\s\\]", "", text).upper()


def checks_of_exchanges():
    """Yields whether each frame of the exchanges is one that the tests have, whose octets were worked out from the standard."""
    folders = ("test_libraries/src", "test_ends/src", "llrp_session/src", "llrp_counterexamples/src")
    sources = [it for folder in folders for it in pathlib.Path(TOP, "crates", folder).glob("**/*.rt")]
    sources += pathlib.Path(TOP, "tests", "rows").glob("*.rows")
    there = squeezed("".join(it.read_text(encoding="utf-8") for it in sources)) + LISTED
    for page in ("docs/reader.md", "docs/client.md"):
        for frame in re.findall(r"`((?:[0-9A-F]{2,} ?){8,}|[0-9A-F]{20,}(?: [0-9A-F]+)*)`", text_of(page)):
            yield f"{page}: {frame}", squeezed(frame) in there


@contextlib.contextmanager
def general_reader(program):
    """Runs `sim --all`, and gives its port."""
    with held_port() as port:
        run = subprocess.Popen([program, "sim", str(port), "--all"], stdin=subprocess.DEVNULL)
        try:
            wait_until(lambda: listens_at(port) or run.poll() is not None, LONGEST, "sim listens")
            yield port
            run.wait(LONGEST)
        finally:
            run.kill()


def answered_by_sim(program):
    """Returns the listing of what `sim --all` answers to the requests, but the first and the last message."""
    octets = subprocess.run([program, "encode", "--all"], input=REQUESTS.encode(), capture_output=True, timeout=LONGEST).stdout
    with general_reader(program) as port, socket.create_connection(("127.0.0.1", port), timeout=LONGEST) as peer:
        peer.sendall(octets)
        said = b""
        while piece := peer.recv(4096):
            said += piece
    listing = subprocess.run([program, "show", "--all"], input=said, capture_output=True, timeout=LONGEST).stdout.decode()
    return re.split(r"(?m)^(?=0 )", listing)[2:-1]


def block_after(page, words):
    """Returns the lines of the first indented block of a page after these words."""
    return re.sub(r"(?m)^    ", "", re.search(r"\n\n((?:    .*\n|\n(?=    ))+)", text_of(page).split(words)[1])[1])


def checks_of_blocks(program):
    """Yields whether the blocks without a command have what the program answers, and what the file has."""
    shown = block_after("docs/sim.md", "each the same\nwhatever part is asked for:").replace("\n\n", "\n")
    yield "docs/sim.md: the answers of sim --all", shown == "".join(answered_by_sim(program))
    with general_reader(program) as port:
        script = block_after("docs/client.md", "HOST is the reader's address:").replace("/dev/tcp/HOST/5084", f"/dev/tcp/127.0.0.1/{port}")
        script = script.replace("./llrp", shlex.quote(program))
        done = subprocess.run(["bash", "-c", script], capture_output=True, text=True, timeout=LONGEST)
    wanted = [line for line in shown.split("0 GET_READER_CONFIG")[0].splitlines() if re.search("TransmitPower|Frequency", line)]
    yield "docs/client.md: the powers of a reader", done.stdout.splitlines() == wanted != []
    rospec = block_after("docs/client.md", "`examples/two_antennas.rospec` is one")
    yield "docs/client.md: examples/two_antennas.rospec", rospec == text_of("examples/two_antennas.rospec")
    access = block_after("docs/client.md", "`examples/tid.access` reads")
    yield "docs/client.md: examples/tid.access", access == text_of("examples/tid.access")


def checks_of_json(program):
    """Yields whether docs/json.md has the members of each kind of line, and of each tail."""
    octets = bytes.fromhex(STREAM)
    for stream, wanted in ((octets, MEMBERS), (bytes(4), [["rest"]])):
        out = subprocess.run([program, "show", "--json"], input=stream, capture_output=True, timeout=LONGEST).stdout
        yield f"the members of lines {wanted}", [list(json.loads(line)) for line in out.splitlines()] == wanted
    page = text_of("docs/json.md")
    rows = [re.findall(r"`(\w+)`", row) for row in re.findall(r"(?m)^\| [^|`]*\| (`.*) \|$", page.split("| What comes |")[1].split("\n\n")[0])]
    without_parts = [[it for it in row if it not in ("parameters", "true")] for row in rows]
    yield f"docs/json.md: the members of lines: {rows}", without_parts == [MEMBERS[0], ["parameter"], MEMBERS[1], ["rest"], ["broken"]]
    for tail, member in TAILS.items():
        yield f"docs/json.md: the member of a tail of {tail}", re.search(rf"(?m)^\| a tail of {tail}[^|]*\| `{member}`,", page) is not None
    escaped = 'only `"`, `\\` and the controls U+0000 to U+001F are escaped, as `\\"`, `\\\\` and `\\u00xx` in lower-case digits'
    yield "docs/json.md: what is escaped", escaped in " ".join(page.split())


def checks_of_reader():
    """Yields whether docs/reader.md has the statuses of the sources, by their names, and how many reports are held."""
    page, source = " ".join(text_of("docs/reader.md").split()), text_of("crates/llrp_session/src/reader/status.rt")
    statuses = {name.replace("_", "").lower(): int(it) for name, it in re.findall(r"const (\w+): u16 = (\d+);", source)}
    named = {name.removeprefix("M_").lower(): int(it) for it, name in re.findall(r"(\d+) (M_\w+)", page)}
    yield f"docs/reader.md: the statuses {named}", named == statuses
    rules = page.split("## The rules")[1].split("## Sightings")[0]
    yield "docs/reader.md: statuses of the rules", {int(it) for it in re.findall(r"\b1\d\d\b", rules)} <= set(statuses.values())
    held = re.search(r"const MOST_HELD: usize = (\d+);", text_of("crates/llrp_session/src/reader/sightings.rt"))[1]
    yield "docs/reader.md: how many are held", set(re.findall(r"(?:If|at most) (\d+) (?:reports )?are held", page)) == {held}


# What docs/sim.md says that a client meets, and what shows it: frames that begin a connection in the profile, and the status of the ERROR_MESSAGE
# that answers each (LLRP 1.1, section 15: 100 M_ParameterError, 101 M_FieldError, 109 M_UnsupportedMessage, 110 M_UnsupportedVersion).
MEETS = (
    ("a message that the profile has and the reader does not serve", "043E0000000A00000007", 109),
    ("a message of a kind that the profile leaves out", "04010000000B0000000700", 109),
    ("a frame of another version than 1 and 2", "0C3E0000000A00000007", 110),
    ("a frame with a field out of its range, a reserved bit", "843E0000000A00000007", 101),
    ("any other frame that is not a message", "043E0000000B0000000700", 100),
)


def checks_of_statuses(program):
    """Yields whether docs/sim.md has the status that LLRP has for each frame, and the reader answers with."""
    rows = [[it.strip() for it in line.strip("|").split("|")] for line in text_of("docs/sim.md").split("| A client sends |")[1].split("\n\n")[0].split("\n")[2:]]
    for begins, octets, wanted in MEETS:
        told = [re.findall(r"status (\d+)", answer) for sent, answer in rows if sent.startswith(begins)]
        yield f"docs/sim.md: {begins}: {told}", told == [[str(wanted)]]
        with held_port() as port:
            run = subprocess.Popen([program, "sim", str(port)], stdin=subprocess.DEVNULL, stderr=subprocess.DEVNULL)
            wait_until(lambda: listens_at(port) or run.poll() is not None, LONGEST, "sim listens")
            with socket.create_connection(("127.0.0.1", port), timeout=LONGEST) as peer:
                peer.sendall(bytes.fromhex(octets))
                peer.shutdown(socket.SHUT_WR)
                said = b""
                while piece := peer.recv(4096):
                    said += piece
            run.wait(LONGEST)
        yield f"sim: {begins}", (said[32:34], said[46:48]) == (bytes.fromhex("0464"), struct.pack(">H", wanted))


def checks_of_limits():
    """Yields of each page whether it lists what may have longer frames with the whole standard: a file that `watch` saved."""
    for page in (f"docs/{it}" for it in sorted(os.listdir(os.path.join(TOP, "docs"))) if it.endswith(".md")):
        wrong = [it for it in re.findall(r"llrp show[^|;`\n]*--limit 1048576[^|;`\n]*", text_of(page)) if "--all" not in it]
        yield f"{page}: {wrong}", not wrong


def code_of(page):
    """Returns the commands of a page: its code between words, and its indented lines."""
    text = text_of(page).replace("\\\n", " ")
    return [*re.findall(r"`([^`\n]+)`", text), *re.findall(r"(?m)^    (.*)$", text), *re.findall(r"(?ms)^```sh\n(.*?)^```", text)]


def is_known(command, rest, flags):
    """Returns whether these words are a command of the program, or a flag of its own, with flags that it has."""
    if command.startswith("-"):
        return command in flags[""] | {"-h", "-V", "--unproved"}
    return command in flags and set(re.findall(r"(?<!\S)\[?(--[a-z-]+)", rest)) <= flags[command]


def checks_of_commands(program):
    """Yields of each page whether it names commands and flags of the program alone."""
    flags = flags_of(program)
    for page in ["README.md", "CONTRIBUTING.md", *(f"docs/{it}" for it in sorted(os.listdir(os.path.join(TOP, "docs"))) if it.endswith(".md"))]:
        wrong = []
        for code in [it for it in code_of(page) if not it.startswith("from ")]:
            for command, rest in re.findall(r"(?:\./|(?<![\w./@-]))llrp (?:--unproved )?(--?[a-z]+|[a-z]+)([^|;&<>]*)", code):
                if command != "help" and not is_known(command, rest, flags):
                    wrong.append(f"llrp {command}{rest}")
            wrong += re.findall(r"\./(?!llrp\b)l\w*p\b|\blrlp\b", code)
        yield f"{page}: {wrong}", not wrong


def main():
    program = program_given()
    results = [*checks_of_exchanges(), *checks_of_blocks(program), *checks_of_json(program), *checks_of_reader(), *checks_of_commands(program)]
    results += [*checks_of_statuses(program), *checks_of_limits()]
    return finish_results(results, LEAST)


if __name__ == "__main__":
    sys.exit(main())
