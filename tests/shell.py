#!/usr/bin/env python3
"""Has shellcheck look for faults of each shell script of the repository.

usage: tests/shell.py

It needs shellcheck. The last line is `N passed, M failed`; the status is 1 if something failed.
"""
import os
import subprocess
import sys

from parts.counting import finish_results
from parts.repository import TOP

# How many scripts there are.
LEAST = 16
# What is sourced, and so has no line that says which shell runs it.
SOURCED = ("bench/common.sh", "completions/llrp.bash")


def is_shell(path):
    """Returns whether a file begins as a script of sh or bash."""
    with open(path, "rb") as file:
        first = file.readline().split()
    return first[:1] in ([b"#!/bin/sh"], [b"#!/bin/bash"]) or first == [b"#!/usr/bin/env", b"bash"]


def scripts():
    """Yields the shell scripts, but what the toolchain and git made."""
    for folder, below, names in os.walk(TOP):
        below[:] = sorted(it for it in below if it not in (".git", "out"))
        for name in sorted(names):
            path = os.path.join(folder, name)
            if os.path.isfile(path) and is_shell(path):
                yield os.path.relpath(path, TOP)


def checks():
    """Yields each script with what shellcheck says of it, and whether that is nothing."""
    for name in [*scripts(), *SOURCED]:
        words = ["shellcheck", "-x", *(["--shell=bash"] if name in SOURCED else []), name]
        done = subprocess.run(words, cwd=TOP, capture_output=True, text=True, timeout=120)
        yield f"{name}\n{done.stdout}{done.stderr}", (done.returncode, done.stdout, done.stderr) == (0, "", "")


if __name__ == "__main__":
    sys.exit(finish_results(list(checks()), LEAST))
