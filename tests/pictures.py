#!/usr/bin/env python3
"""Draws the pictures of the documents again, and compares them with those in docs/.

usage: tests/pictures.py [PROGRAM]

PROGRAM is llrp, crates/llrp/out/llrp where none is given. The last line is `N passed, M failed`; the status is 1 if something failed.
"""
import os
import subprocess
import sys

from parts.counting import finish
from parts.repository import TOP, program_given

# How many pictures there are.
LEAST = 3


def main():
    words = [sys.executable, os.path.join(TOP, "docs/pictures/draw.py"), "--check", program_given()]
    done = subprocess.run(words, capture_output=True, text=True, timeout=60)
    *wrong, last = done.stdout.splitlines() or [""]
    for line in [*wrong, *done.stderr.splitlines()]:
        print(line)
    passed, failed = (int(it) for it in last.split()[::2]) if done.returncode in (0, 1) and last.endswith("failed") else (0, LEAST)
    return finish(passed, max(failed, done.returncode), LEAST)


if __name__ == "__main__":
    sys.exit(main())
