"""What the tests of refused memory share: the library that refuses requests, and a run of a program under it."""
import os
import subprocess
import tempfile
from typing import NamedTuple, Optional

from parts.repository import TESTS

# How long a run may take, in seconds.
LONGEST = 60


class Ended(NamedTuple):
    """How a run ended: its status, what it wrote, and how many requests for memory were counted and refused.
    A run that took too long has no status, and one that a signal ended has no counts."""

    status: Optional[int]
    out: bytes
    err: bytes
    requests: Optional[int]
    refusals: Optional[int]

    @property
    def answer(self):
        return self.status, self.out, self.err


def build_library(folder):
    """Compiles the library into a folder, and returns its path."""
    library = os.path.join(folder, "refuse.so")
    source = os.path.join(TESTS, "refuse.c")
    subprocess.run(["cc", "-O2", "-shared", "-fPIC", "-o", library, source, "-ldl"], check=True)
    return library


def run(library, program, words, which, given=b"", whole=False):
    """Runs a program while the requests that `which` names are refused; with `whole` they are counted from its start."""
    with tempfile.NamedTemporaryFile() as report:
        environment = {"LD_PRELOAD": library, "REFUSE": which, "REFUSE_REPORT": report.name, "REFUSE_ALL": str(int(whole))}
        try:
            how = {"input": given, "env": environment, "capture_output": True, "timeout": LONGEST}
            done = subprocess.run([program, *words], **how)
            ended = done.returncode, done.stdout, done.stderr
        except subprocess.TimeoutExpired as late:
            ended = None, late.stdout or b"", late.stderr or b""
        counts = [int(it) for it in report.read().split()] or [None, None]
    return Ended(*ended, *counts)


def each_refused(library, program, words, given=b"", whole=False, first=1):
    """Yields which request was refused and how that run ended: each request alone, then each with all after it, from the
    first one, or another, until a run ends with none refused."""
    ample = run(library, program, words, "0", given, whole)
    for tail in ("", ".."):
        number, refused = first - 1, None
        # (a run that a signal ended has no counts: there are no more requests than with enough memory)
        while refused != 0 and not (refused is None and number > (ample.requests or 0)):
            number += 1
            ended = run(library, program, words, f"{number}{tail}", given, whole)
            refused = ended.refusals
            yield f"{number}{tail}", ended
