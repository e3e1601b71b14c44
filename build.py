#!/usr/bin/env python3
"""Proves the crates of which the program llrp is made, and builds it: crates/llrp/out/llrp. With the word `library` it does so for the
library for C: crates/llrp_c/out/libllrp_c.a, which library.sh makes into what others link with; with the word `offline` for the program
of the commands that need no socket: crates/llrp_offline/out/llrp_offline.

usage: build.py [library | offline]

As many crates are proved side by side as there are processors and memory for (at most four), those first that have most above them. The
first is proved here and each other in a copy, since the toolchain proves no two crates of a checkout at a time that stand on a third. The
program or library comes last. What was proved before is kept, so only crates that changed and those above them are proved. How far it is goes to
standard error: on a terminal one line that changes, else a line for each crate. The status is 0 where all is built, 1 where it is not, 2
where the words are others, and 128 and the signal's number where a signal ends it.
"""
import contextlib
import fcntl
import os
import re
import select
import shutil
import signal
import subprocess
import sys
import time
from typing import NamedTuple

TOP = os.path.dirname(os.path.realpath(__file__))


class Product(NamedTuple):
    """What is built: what people call it, the crate that it is built of last, how the toolchain proves and builds that one, and what is there
    then."""

    what: str
    crate: str
    last: tuple
    built: str


PROGRAM = Product("the program", "llrp", ("run", ["--", "--help"]), f"{TOP}/crates/llrp/out/llrp")
OFFLINE = Product(
    "the program of commands that need no socket", "llrp_offline", ("run", ["--", "--help"]), f"{TOP}/crates/llrp_offline/out/llrp_offline"
)
LIBRARY = Product("the library for C", "llrp_c", ("lib", []), f"{TOP}/crates/llrp_c/out/libllrp_c.a")
# More were not tried, and each takes memory.
MOST_JOBS = 4
# By how many jobs a crate of so many lines is proved that has most above it, since others wait for it. A smaller one takes longer by several
# jobs than by one: tag_epc 126 seconds by four, and 86 by one.
FIRST_JOBS = 2
LARGE = 2500
# Where the copies are, in folders 1, 2 and so on.
COPIES = f"{TOP}/out/beside"
# What ends a build, with all that it began.
SIGNALS = (signal.SIGINT, signal.SIGTERM, signal.SIGHUP)
KILOBYTES_A_JOB = 3_000_000
# The first line of an error in what a check prints: at a place in a file, or of a function that is not proved.
ERROR = re.compile(r"^(\S+:\d+:\d+: )?error(\[[\w-]+\])?:|^fn \S+: (not proved|no proof)")


def dependencies():
    """Returns the repository's crates, and for each those that it uses directly."""
    with open(f"{TOP}/crates.txt", encoding="utf-8") as lines:
        pairs = [line.split(":") for line in lines if not line.startswith("#") and ":" in line]
    uses = {name.split()[0]: used.split() for name, used in pairs}
    return {name: [it for it in used if it in uses] for name, used in uses.items()}


def below(crate, uses):
    """Returns the crates that a crate uses, each after those that it uses itself."""
    found = []
    for used in uses[crate]:
        found += [it for it in [*below(used, uses), used] if it not in found]
    return found


def jobs():
    """Returns by how many jobs a crate is proved."""
    with open("/proc/meminfo", encoding="utf-8") as lines:
        free = next(int(line.split()[1]) for line in lines if line.startswith("MemAvailable:"))
    return max(1, min(MOST_JOBS, len(os.sched_getaffinity(0)), free // KILOBYTES_A_JOB))


def clock(seconds):
    return f"{int(seconds) // 60}:{int(seconds) % 60:02}"


class Progress:
    """Says which crates are being proved, and how long each took."""

    def __init__(self, crates, product):
        self.crates, self.done, self.begun = crates, [], {}
        self.is_terminal = sys.stderr.isatty()
        self.shown = ""
        sys.stderr.write(f"llrp: proving {len(crates)} crates, and building {product.what}\n")
        if product in (PROGRAM, OFFLINE):
            sys.stderr.write("llrp: meanwhile, in another terminal: ./llrp --unproved WORDS answers without the proofs\n")
        sys.stderr.flush()

    def begin(self, crate):
        """Notes that the proof of a crate begins."""
        self.begun[crate] = time.monotonic()
        self.show()

    def read(self, proofs, line):
        """Takes a line of a check. What a check writes of a crate ends in a line on its modules and one that says whether it is proved."""
        if modules := re.match(r"crate (\w+): modules ", line):
            proofs.last = modules[1]
        elif line.startswith("logic=proved"):
            self.end(proofs.last, is_new=True)
        elif " waiting for " in line and line.startswith("rt: "):
            self.wipe()
            sys.stderr.write(f"llrp: {line.removeprefix('rt: ')}\n")

    def end(self, crate, is_new):
        """Notes that a crate is done. Nothing is said of one that had nothing new to prove."""
        if crate not in self.crates or crate in self.done:
            return
        took = time.monotonic() - self.begun.get(crate, time.monotonic())
        self.done.append(crate)
        if is_new and not self.is_terminal:
            sys.stderr.write(f"llrp: proved crate {len(self.done)} of {len(self.crates)}: {crate}, in {clock(took)}\n")
            sys.stderr.flush()

    def show(self):
        """Shows on a terminal what is being proved, in the place of what it showed before."""
        if not self.is_terminal:
            return
        running = [it for it in self.begun if it not in self.done]
        now = ", ".join(f"{it} {clock(time.monotonic() - self.begun[it])}" for it in running) or "linking"
        number = min(len(self.done) + 1, len(self.crates))
        line = f"llrp: proving crate {number} of {len(self.crates)} ({now})"
        width = os.get_terminal_size(sys.stderr.fileno()).columns
        self.shown = line[: max(width - 1, 0)] if width else line
        sys.stderr.write(f"\r{self.shown}\x1b[K")
        sys.stderr.flush()

    def wipe(self):
        """Takes away what is shown on a terminal."""
        if self.shown:
            sys.stderr.write("\r\x1b[K")
            sys.stderr.flush()
            self.shown = ""


class Run:
    """A command of the toolchain in a crate's folder, which ends with this process."""

    def __init__(self, top, crate, jobs, *words):
        how = {"cwd": f"{top}/crates/{crate}", "stdin": subprocess.DEVNULL}
        how.update(stdout=subprocess.PIPE, stderr=subprocess.STDOUT, start_new_session=True, preexec_fn=let_signals_in)
        self.process = subprocess.Popen(["rt", words[0], "--jobs", str(jobs), *words[1:]], **how)
        self.top, self.crate, self.jobs, self.last = top, crate, jobs, None
        self.text, self.rest, self.is_open = "", b"", True

    def read(self):
        """Returns the lines that the command ended since the last call; of its last line, what is there once it closes its output."""
        read = os.read(self.process.stdout.fileno(), 65536)
        self.is_open = bool(read)
        *whole, self.rest = (self.rest + read).split(b"\n")
        lines = [line.decode(errors="replace") for line in (whole if read else [self.rest])]
        self.text += "".join(f"{line}\n" for line in lines)
        return lines

    def end(self):
        return self.process.wait()

    def stop(self):
        """Ends the command, which ends all that it began."""
        if self.process.poll() is None:
            os.killpg(self.process.pid, signal.SIGTERM)
            self.process.wait()


def let_signals_in():
    signal.pthread_sigmask(signal.SIG_UNBLOCK, SIGNALS)


def started(runs, *given):
    """Begins a command, and notes it. A signal waits meanwhile, so that it ends what has begun."""
    signal.pthread_sigmask(signal.SIG_BLOCK, SIGNALS)
    try:
        runs.append(Run(*given))
    finally:
        let_signals_in()
    return runs[-1]


def read_until_end(running, progress):
    """Reads what the commands write until one of them closes its output."""
    while all(it.is_open for it in running):
        ready = select.select([it.process.stdout for it in running], [], [], 1)[0]
        if not ready:
            progress.show()
        for it in running:
            if it.process.stdout in ready:
                for line in it.read():
                    progress.read(it, line)


def first_error(text):
    """Returns the lines of a check's first error, or else its last lines."""
    lines = text.rstrip("\n").split("\n")
    at = next((i for i, line in enumerate(lines) if ERROR.search(line)), None)
    if at is None:
        return lines[-5:]
    end = next((i for i in range(at + 1, len(lines)) if not lines[i].startswith(" ")), len(lines))
    return lines[at : min(end, at + 8)]


def tell_failure(text, crate, product):
    """Says that a crate failed, or the one that its first error is in, and shows that error."""
    place = re.search(r"/crates/(\w+)/", "\n".join(first_error(text)))
    sys.stderr.write(f"llrp: the crate {place[1] if place else crate} is not proved, so {product.what} was not built\n")
    sys.stderr.writelines(f"{line}\n" for line in first_error(text))


@contextlib.contextmanager
def held(folder):
    """Holds a folder against other builds, as the toolchain holds a crate's."""
    lock = os.open(folder, os.O_RDONLY)
    try:
        # (some file systems have no locks)
        with contextlib.suppress(OSError):
            fcntl.flock(lock, fcntl.LOCK_EX)
        yield
    finally:
        os.close(lock)


def link_or_copy(one, other):
    """Gives a file a second name. The toolchain removes such a file before it makes it anew, and never writes into it."""
    try:
        os.link(one, other)
    except OSError:
        shutil.copy2(one, other)


def lend(crate, source, target, parts=("incremental", "rlib")):
    """Gives a checkout what another one has made of a crate."""
    with held(f"{target}/crates/{crate}"):
        for part in parts:
            made, to = (f"{top}/crates/{crate}/out/{part}" for top in (source, target))
            if os.path.isdir(made):
                shutil.rmtree(to, ignore_errors=True)
                shutil.copytree(made, to, copy_function=link_or_copy)


def has_library(top, crate):
    """Returns whether a checkout has the library of a crate that is there at the top, too."""
    stamps = [f"{it}/crates/{crate}/out/rlib/stamp" for it in (top, TOP)]
    with contextlib.suppress(OSError):
        texts = [open_text(it) for it in stamps]
        return texts[0] == texts[1]
    return False


def open_text(path):
    with open(path, encoding="utf-8") as file:
        return file.read()


def make_copy(top, crates):
    """Makes a copy of the sources of these crates."""
    shutil.rmtree(top, ignore_errors=True)
    for crate in crates:
        os.makedirs(f"{top}/crates/{crate}")
        for part in ("src", "specs", "proofs"):
            if os.path.isdir(f"{TOP}/crates/{crate}/{part}"):
                shutil.copytree(f"{TOP}/crates/{crate}/{part}", f"{top}/crates/{crate}/{part}")
    with open(f"{TOP}/crates.txt", encoding="utf-8") as lines, open(f"{top}/crates.txt", "w", encoding="utf-8") as copied:
        copied.writelines(line for line in lines if re.split("[ :]", line)[0] in crates)


def lines_of(crate):
    """Returns how many lines of code a crate has."""
    lines = 0
    for folder, _, names in os.walk(f"{TOP}/crates/{crate}/src"):
        lines += sum(open_text(f"{folder}/{name}").count("\n") for name in names if name.endswith(".rt"))
    return lines


def lines_above(crates, uses):
    """Returns of each crate how many lines of code it has, with those of the longest chain of crates that wait for it."""
    found = {}
    for crate in reversed(crates):
        found[crate] = lines_of(crate) + max((found[it] for it in found if crate in uses[it]), default=0)
    return found


def ended(proofs, progress, product):
    """Takes a command that closed its output, and returns whether its crate is proved."""
    progress.wipe()
    if proofs.end():
        tell_failure(proofs.text, proofs.crate, product)
        return False
    progress.end(proofs.crate, is_new=False)
    return True


def begin(crate, top, by, progress, runs, uses):
    """Begins the proof of a crate in a checkout, over the libraries that were proved in others."""
    if top != TOP:
        for it in below(crate, uses):
            if not has_library(top, it):
                lend(it, TOP, top, ["rlib"])
        lend(crate, TOP, top)
    progress.begin(crate)
    return started(runs, top, crate, by, "lib")


def prove_side_by_side(progress, runs, uses, most, product):
    """Proves all crates but the last, as many at a time as there are jobs. Returns whether they are proved."""
    left = progress.crates[:-1]
    tops = [TOP, *(f"{COPIES}/{number}" for number in range(1, most))]
    for top in tops[1:]:
        make_copy(top, left)
    order, proved, running = lines_above(progress.crates, uses), set(), {}
    left.sort(key=order.get, reverse=True)
    while left or running:
        while ready := [it for it in left if proved.issuperset(uses[it])]:
            free = most - sum(it.jobs for it in running.values())
            if free < 1:
                break
            is_first = all(order[ready[0]] >= order[it.crate] for it in running.values())
            # (a large crate takes what no other can use, too)
            by = min(max(FIRST_JOBS if is_first else 1, free - len(ready) + 1), free) if lines_of(ready[0]) >= LARGE else 1
            top = next(it for it in tops if it not in running)
            running[top] = begin(ready[0], top, by, progress, runs, uses)
            left.remove(ready[0])
        read_until_end(list(running.values()), progress)
        for top, proofs in [it for it in running.items() if not it[1].is_open]:
            if top != TOP:
                lend(proofs.crate, top, TOP)
            if not ended(proofs, progress, product):
                return False
            proved.add(proofs.crate)
            del running[top]
    return True


def prove_in_turn(progress, runs, product):
    """Proves all crates but the last, one after another. Returns whether they are proved."""
    for crate in progress.crates[:-1]:
        progress.begin(crate)
        proofs = started(runs, TOP, crate, 1, "lib")
        read_until_end([proofs], progress)
        if not ended(proofs, progress, product):
            return False
    return True


def build(progress, runs, uses, most, product):
    """Proves all crates, and builds the product with the last: a command more would check it once more. Returns whether it is built."""
    if not (prove_side_by_side(progress, runs, uses, most, product) if most > 1 else prove_in_turn(progress, runs, product)):
        return False
    progress.begin(product.crate)
    command, words = product.last
    proofs = started(runs, TOP, product.crate, most, command, *words)
    read_until_end([proofs], progress)
    if not ended(proofs, progress, product):
        return False
    if not os.path.exists(product.built):
        tell_failure(proofs.text, product.crate, product)
        return False
    return True


def end_by(number, _):
    """Ends this process by a signal. Those that follow change nothing, so that what it began is ended."""
    for it in SIGNALS:
        signal.signal(it, signal.SIG_IGN)
    sys.exit(128 + number)


def main():
    product = {"": PROGRAM, "library": LIBRARY, "offline": OFFLINE}.get(" ".join(sys.argv[1:]))
    if not product:
        sys.stderr.write("usage: build.py [library | offline]\n")
        return 2
    uses = dependencies()
    progress = Progress([*below(product.crate, uses), product.crate], product)
    runs = []
    for it in SIGNALS:
        signal.signal(it, end_by)
    os.makedirs(f"{TOP}/out", exist_ok=True)
    with held(f"{TOP}/out"):
        try:
            return 0 if build(progress, runs, uses, jobs(), product) else 1
        except FileNotFoundError as error:
            sys.stderr.write(f"llrp: {error.filename}: not found; the toolchain's command rt builds the program\n")
            return 1
        finally:
            for it in runs:
                it.stop()
            # What was proved of the crates that were stopped is kept.
            for it in runs:
                if it.top != TOP and it.crate not in progress.done:
                    lend(it.crate, it.top, TOP)
            shutil.rmtree(COPIES, ignore_errors=True)
            progress.wipe()


if __name__ == "__main__":
    sys.exit(main())
