#!/usr/bin/env python3
"""Runs the commands of README.md and of documents under docs/, and compares what they print with what the document shows, and their
status with what docs/errors.md says. Compares the example at the head of each library with the tests that run it.

usage: tests/documents.py [PROGRAM]

PROGRAM is llrp, crates/llrp/out/llrp where none is given. The commands need tshark, text2pcap and jq. The last line is
`N passed, M failed`; the status is 1 if something failed.
"""
import os
import re
import shlex
import signal
import subprocess
import sys
import tempfile

from parts.counting import finish, text_of
from parts.ports import free_port
from parts.repository import TOP, program_given

# How many commands each document has.
DOCUMENTS = {"README.md": 8, "docs/capture.md": 8, "docs/client.md": 1, "docs/errors.md": 3, "docs/json.md": 6, "docs/sim.md": 20}
# How many libraries have an example, and where the tests are that run them.
LIBRARIES = 33
TESTS = ("crates/test_libraries/src/examples", "crates/test_ends/src")
# Libraries whose example is a sketch of how the programs call them, since they are over the words and files of a process.
SKETCHES = ("llrp_files", "llrp_words")
# Comes after what a command prints, with its status.
MARK = "--- status"
# How long a block may take, in seconds, and how long one that the toolchain compiles anew, which takes a minute and a half of the processor.
LONGEST, LONGEST_UNPROVED = 300, 1800
# Waits until a command succeeds, for a minute at most.
AWAIT = 'await() { for ((n = 0; n < 1200; n++)); do "$@" && return; sleep 0.05; done; echo "waited in vain: $*"; }'


def examples(name):
    """Yields each block of commands of a document: the commands, which begin with `$ `, and the lines that each has to print."""
    for block in re.findall(r"(?m)(?:^    .*\n)+", text_of(name)):
        if block.startswith("    $ "):
            lines = re.sub(r"(?m)^    ", "", block).replace("\\\n", "")
            commands = [it.rstrip("\n").split("\n") for it in re.split(r"(?m)^\$ ", lines)[1:]]
            yield [(command, wanted) for command, *wanted in commands]


def script_of(commands, program, folder):
    """Returns the commands as a script of bash, over the program, with a port that is free. At the end it waits for those that were
    begun in the background, and gives the status of the last one."""
    port = free_port()
    # a reader that is begun in the background is waited for, until it listens, where it is given its port
    listens = f"await grep -q ':{port:04X} 00000000:0000 0A' /proc/net/tcp"
    lines = [AWAIT, f"export LLRP={shlex.quote(program)}"]
    for command in commands:
        # what answers without the proofs is the script itself
        ready = re.sub(r"\./llrp(?!-| --unproved)", lambda _: shlex.quote(program), command)
        for file in ("report.pcap", "sim.log"):
            ready = ready.replace(file, shlex.quote(f"{folder}/{file}"))
        if re.search(r"\b(sim|127\.0\.0\.1)\b", command):
            ready = ready.replace("5084", str(port))
        lines += [ready, listens] if command.endswith("&") and " sim 0 " not in command else [ready]
        lines.append(f'printf "%s %d\\n" {shlex.quote(MARK)} $?')
    return "\n".join([*lines, "wait $!"])


def wanted_status(wanted):
    """Returns the status of a command that prints these lines: a listing with a frame that is not a message ends with 1."""
    return 1 if any(line.startswith(("! ", '{"fault"')) for line in wanted) else 0


def ended(script, folder):
    """Runs a script of bash, whose temporary files are below a folder, so that none is left of one that is ended. Returns its status, none where
    it took too long, what it printed and its errors."""
    how = {"cwd": TOP, "stdout": subprocess.PIPE, "stderr": subprocess.PIPE, "text": True, "start_new_session": True, "env": {**os.environ, "TMPDIR": folder}}
    longest = LONGEST_UNPROVED if "--unproved" in script else LONGEST
    process = subprocess.Popen(["bash", "-c", script], **how)
    try:
        out, err = process.communicate(timeout=longest)
        return process.returncode, out, err
    except subprocess.TimeoutExpired:
        os.killpg(process.pid, signal.SIGKILL)
        return None, *process.communicate()


def failures(block, program):
    """Yields the commands of a block that do not print what is shown, or end otherwise, and what they printed."""
    with tempfile.TemporaryDirectory(prefix="a space ") as folder, tempfile.TemporaryDirectory(ignore_cleanup_errors=True) as temporary:
        status, out, err = ended(script_of([command for command, _ in block], program, folder), temporary)
    printed = re.findall(rf"(?ms)(.*?^{MARK} \d+\n)", out)
    for (command, wanted), found in zip(block, [*printed, *[""] * len(block)]):
        if found.splitlines() != [*wanted, f"{MARK} {wanted_status(wanted)}"]:
            yield command, found + err[-300:]
    if status != 0:
        yield block[0][0], f"status {status} at the end"


def squeezed(text):
    """Returns a text without spaces, and without the commas before a bracket, which the layout adds."""
    return re.sub(r",(?=[\])}])", "", re.sub(r"\s", "", text))


def is_sketch(example, text):
    """Returns whether the functions that an example calls are those that the library gives."""
    given = " ".join(re.findall(r"(?ms)^pub use (.*?);", text))
    called = re.findall(r"(?<![.\w])([a-z]\w+)\(", example)
    return called != [] and all(re.search(rf"\b{it}\b", given) for it in called)


def libraries():
    """Yields each library that has an example, and whether the tests whose names begin with the library's have its lines in order, or where it is
    a sketch whether the library has what it calls."""
    files = [f"{folder}/{name}" for folder in TESTS for name in sorted(os.listdir(os.path.join(TOP, folder)))]
    tests = re.sub(r"(?m)^ *//.*", "", "".join(map(text_of, files)))
    for crate in sorted(os.listdir(os.path.join(TOP, "crates"))):
        path = f"crates/{crate}/src/lib.rt"
        text = text_of(path) if os.path.exists(os.path.join(TOP, path)) else ""
        for example in re.findall(r"(?ms)^//! ```\n(.*?)^//! ```$", text):
            lines = re.sub(r"(?m)^//! ?", "", example).splitlines()
            found = squeezed("".join(re.findall(rf"(?ms)^fn {crate}_\w+\(.*?^}}", tests)))
            is_run = re.search(".*".join(re.escape(squeezed(line)) for line in lines if line), found) is not None
            yield crate, is_sketch(example, text) if crate in SKETCHES else is_run


def main():
    program = program_given()
    passed = failed = 0
    for name, count in DOCUMENTS.items():
        blocks = list(examples(name))
        found = sum(map(len, blocks))
        if found != count:
            failed += 1
            print(f"WRONG: {name}: {found} commands in place of {count}")
        for block in blocks:
            wrong = list(failures(block, program))
            passed, failed = passed + max(len(block) - len(wrong), 0), failed + len(wrong)
            for command, what in wrong:
                print(f"WRONG: {name}: {command}\n{what}")
    for crate, is_run in libraries():
        passed, failed = passed + is_run, failed + (not is_run)
        if not is_run:
            print(f"WRONG: {crate}: its example is not what its test runs, or calls what it does not have")
    return finish(passed, failed, sum(DOCUMENTS.values()) + LIBRARIES)


if __name__ == "__main__":
    sys.exit(main())
