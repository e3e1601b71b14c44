#!/usr/bin/env python3
"""Runs `watch`, `stop`, `inventory` and `ask` against readers that live and do not answer: each wait ends in its time, whatever comes meanwhile.

usage: tests/nights.py [PROGRAM]

PROGRAM is llrp, crates/llrp/out/llrp where none is given. The readers are in parts/deaf_reader.py. The last line is `N passed, M failed`;
the status is 1 if something failed.
"""
import concurrent.futures
import subprocess
import sys
import tempfile
import time

from parts.counting import finish_results
from parts.deaf_reader import ADD, CLOSE, DELETE, DISABLE, ENABLE, GET_REPORT, SET_CONFIG, START, DeafReader
from parts.repository import program_given

PROGRAM = program_given()
# How many comparisons there are, and how many runs go at a time.
LEAST = 65
RUNS_AT_ONCE = 12
# How much later than its time a run may end, in seconds, and how long one may take at most.
SLACK, FILLS = 10, 60
LONGEST = 120
# The waits of `watch` (docs/client.md): with a KEEPALIVE a second, and without any.
KEPT, UNKEPT = 5, 30
READ, WRITE = "llrp: read\n", "llrp: write\n"
LEFT = "llrp: note: the ROSpec 5084 may still be active on the reader; llrp stop deletes it\n"
WATCH = ("watch", "--keepalive", "1")


def run(reader, *words, seconds=LONGEST):
    """Status, output, errors and duration of a command at a reader; a status of None where it had to be killed."""
    address = ["127.0.0.1", str(reader.port)] if words[0] == "inventory" else [f"127.0.0.1:{reader.port}"]
    began = time.monotonic()
    with subprocess.Popen([PROGRAM, words[0], *address, *words[1:]], stdout=subprocess.PIPE, stderr=subprocess.PIPE, text=True) as process:
        try:
            out, err = process.communicate(timeout=seconds)
            status = process.returncode
        except subprocess.TimeoutExpired:
            process.kill()
            out, err = process.communicate()
            status = None
    return status, out, err, time.monotonic() - began


def ends_so(name, reader, words, error, least, more=SLACK, other=None):
    """A command ends with status 3 and an error, or another one, after its wait, and not later."""
    status, _, err, took = run(reader, *words, seconds=least + more + 5)
    yield f"{name}: {status} {err!r}", status == 3 and err in (error, other)
    yield f"{name}: after {took:.1f} seconds", least <= took <= least + more


def unanswered(request, name):
    """`watch`, with a reader that lives and is deaf to a request."""
    yield from ends_so(f"watch, {name} without an answer", DeafReader(deaf=[request]), WATCH, READ, KEPT)


def requests():
    return [lambda it=it: unanswered(*it) for it in ((DELETE, "DELETE"), (SET_CONFIG, "SET_CONFIG"), (ADD, "ADD"), (ENABLE, "ENABLE"), (START, "START"))]


def unaccepted():
    yield from ends_so("watch, never accepted", DeafReader(accepts=False), WATCH, READ, KEPT)


def dripping(request, name):
    yield from ends_so(f"watch, an octet at a time after {name}", DeafReader(drips=request, chatter=0), WATCH, READ, KEPT)


def without_keepalives():
    yield from ends_so("watch --keepalive 0, ADD without an answer", DeafReader(deaf=[ADD]), ("watch", "--keepalive", "0"), READ, UNKEPT)


def taking_nothing():
    # (the systems at both ends keep some of what is written)
    yield from ends_so("watch, nothing is taken", DeafReader(floods=True, chatter=0), WATCH, WRITE, KEPT, FILLS)
    yield from ends_so("watch --keepalive 0, nothing is taken", DeafReader(floods=True, chatter=0), ("watch", "--keepalive", "0"), WRITE, UNKEPT, FILLS)


def again():
    """With --again the next connection follows."""
    reader = DeafReader(deaf=[ADD])
    status, _, err, _ = run(reader, *WATCH, "--again", "1", seconds=2 * KEPT + 4 + SLACK)
    yield f"--again goes on: {status}", status is None
    yield f"--again connects: {len(reader.connections)}", len(reader.connections) >= 3
    # (it may be killed between a connection and the next)
    yield f"--again says so each time: {err!r}", err in (READ * (len(reader.connections) - 1), READ * len(reader.connections))


def silent_fault():
    """A reader that lives and reports nothing is well: its first tag comes after all bounds."""
    reader = DeafReader(first=KEPT + 3)
    status, out, err, _ = run(reader, *WATCH, seconds=KEPT + 5 + SLACK)
    yield f"no tag is no fault: {status} {err!r}", (status, err) == (None, "")
    yield f"the tag is printed: {out!r}", out.count("\n") == 1 and "0614141.812345.6789" in out


def ending(request, name, note):
    """--for ends at most five seconds after its seconds, and says that the ROSpec may be there, unless the reader closed the connection when all was
    said once more."""
    status, _, err, took = run(DeafReader(deaf=[request]), *WATCH, "--for", "2")
    yield f"--for 2, deaf to {name}: {status} {err!r}", status == 3 and err in (READ + note, WRITE + note)
    yield f"--for 2, deaf to {name}: after {took:.1f} seconds", 2 <= took <= 7 + SLACK


def ended():
    """With a reader that answers it ends at its time, and says nothing; so it does where nothing comes."""
    for chatter in (0.25, 0):
        reader = DeafReader(chatter=chatter)
        status, _, err, took = run(reader, "watch", "--for", "2")
        yield f"--for 2, chatter {chatter}: {status} {err!r}", (status, err) == (0, "")
        yield f"--for 2, chatter {chatter}: after {took:.1f} seconds", 2 <= took <= 2 + SLACK


def stopping(name, **words):
    # (its time may be over as it answers a KEEPALIVE)
    yield from ends_so(f"stop --timeout 2, {name}", DeafReader(**words), ("stop", "--timeout", "2"), READ, 2, other=WRITE)


def stops():
    return [
        lambda: stopping("deaf to DELETE", deaf=[DELETE]), lambda: stopping("deaf to CLOSE", deaf=[CLOSE]),
        lambda: stopping("never accepted", accepts=False), lambda: stopping("an octet at a time", drips=DELETE, chatter=0)]


def inventories():
    """Each wait of `inventory --timeout` ends in its time."""
    words = ("inventory", "--timeout", "2")
    for name, reader, more in (
            ("deaf to ADD", DeafReader(deaf=[ADD]), ()), ("no report", DeafReader(), ("--reports", "1")),
            ("deaf to GET_REPORT", DeafReader(deaf=[GET_REPORT]), ("--polls", "1")), ("deaf to CLOSE", DeafReader(deaf=[CLOSE], first=0.1), ()),
            ("never accepted", DeafReader(accepts=False), ()), ("an octet at a time", DeafReader(drips=START, chatter=0), ())):
        yield from ends_so(f"inventory --timeout 2 {name}", reader, (*words, *more), READ, 2)


def unbounded():
    """Without --timeout it waits as long as it takes."""
    status, out, err, _ = run(DeafReader(first=4), "inventory", "--reports", "1")
    yield f"inventory without --timeout: {status} {err!r}", (status, err) == (0, "")
    yield f"inventory without --timeout: {out!r}", "0614141.812345.6789" in out


def farewells():
    """After something strange the farewell takes five seconds at most, whatever comes."""
    reader = DeafReader(strange=True, deaf=[CLOSE])
    status, _, err, took = run(reader, *WATCH)
    yield f"strange: {status} {err!r}", (status, err) == (1, "llrp: strange\n")
    yield f"strange: after {took:.1f} seconds", took <= 5 + SLACK
    yield "strange: the ROSpec is deleted", reader.asked[-2:] == [DELETE, CLOSE]


def notes():
    """Of notes of one kind one is written a minute, and the others are counted."""
    status, _, err, _ = run(DeafReader(faulty=20_000), *WATCH)
    said = [
        "llrp: note: a frame that is no message", "llrp: note:   ! 5 0 Reserved",
        "llrp: note: a frame that is no message, and 19999 more since the last note of it", "llrp: early"]
    yield f"20,000 faulty frames: {status} {err[:400]!r}", (status, err.splitlines()) == (1, said)


def asking():
    """`ask` waits for a response in all, and not for octets."""
    with tempfile.NamedTemporaryFile("w", suffix=".txt") as file:
        file.write("0 GET_ROSPECS 1 7\n")
        file.flush()
        yield from ends_so("ask --timeout 2", DeafReader(deaf=[26]), ("ask", file.name, "--timeout", "2"), READ, 2)


def main():
    parts = [
        *requests(), unaccepted, lambda: dripping(DELETE, "DELETE"), lambda: dripping(START, "START"), without_keepalives, taking_nothing, again,
        silent_fault, *(lambda it=it: ending(*it) for it in ((ADD, "ADD", ""), (DISABLE, "DISABLE", ""), (CLOSE, "CLOSE", LEFT))), ended, *stops(), inventories,
        unbounded, farewells, notes, asking]
    with concurrent.futures.ThreadPoolExecutor(RUNS_AT_ONCE) as pool:
        results = [result for part in pool.map(lambda part: list(part()), parts) for result in part]
    return finish_results(results, LEAST)


if __name__ == "__main__":
    sys.exit(main())
