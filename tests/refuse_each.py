#!/usr/bin/env python3
"""Makes single calls with each of their requests for memory refused in turn: each alone, and each with all after it.

usage: tests/refuse_each.py [PROGRAM PROGRAM PROGRAM]

The programs are those of the crates `test_calls`, `test_tag_calls` and `test_end_calls`, in their folders out/, where none are given. Every such run has to answer what
the call answers with enough memory, or Memory with what the call promises to leave then; and some run of each call that takes
memory has to answer Memory. The last line is `N passed, M failed`; the status is 1 if something failed.
"""
import collections
import sys
import tempfile

from parts.counting import finish
from parts.exchanges import client_rows, reader_rows
from parts.refusing import build_library, each_refused, run
from parts.rows import Row, given_to, program_of, programs_given, rows_in
from parts.vectors import vectors

# Calls that write: after Memory a front of what they write with enough memory was written.
WRITING = ("show", "list", "serve", "inventory", "epc", "ask", "among", "segments")
# The other calls: each has to have rows.
OTHERS = ("decode", "feed", "encode", "clone", "clone-node", "reader", "client", "script", "plan", "rospec", "digits", "explain")
# Calls that take no memory.
WITHOUT_MEMORY = ("write", "skip")
# Machines over bytes: they answer their error again, and append nothing then.
ENDS = ("serving", "gathering")
# The files below tests/rows/ whose rows count here, beside the vectors and the exchanges.
FILES = ("refused", "talks", "explained")
# How many rows there are. Each has two runs or more.
ROWS = 1080
# How many runs of them there are.
LEAST = 7000


def frame_rows():
    """Yields the rows of the calls on frames, streams and listings, of the conformance vectors."""
    for it in vectors():
        calls = [(call, it.stream) for call in ("feed", "show") if it.stream]
        if it.frames:
            calls.append(("decode", it.frames[0]))
            if it.is_lawful:
                calls += [(call, it.frames[0]) for call in ("encode", "write", "clone")]
                if "\n1 " in it.listing:
                    calls.append(("clone-node", it.frames[0]))
        if it.is_lawful and it.listing:
            calls.append(("list", it.listing.encode()))
        for call, octets in calls:
            yield Row(it.name, call, [octets.hex()], [], False)
    # A report of 65,536 octets whose first parameter is of no known type: its head decides the fault.
    yield Row("a parameter of no known type", "skip", ["043D000100000000000100BB0004", "65522"], [], False)


def all_rows():
    """Returns all rows; ends the script where there are fewer than there have to be."""
    known = {*WRITING, *OTHERS, *WITHOUT_MEMORY, *ENDS}
    rows = [*frame_rows(), *reader_rows(), *client_rows(), *(row for name in FILES for row in rows_in(name) if row.call in known)]
    if len(rows) < ROWS:
        sys.exit(f"WRONG: {len(rows)} rows in place of {ROWS} or more")
    return rows


def lines_of(ended):
    """Returns the lines that a run printed, by their first word."""
    return dict((line + " ").split(" ", 1) for line in ended.out.decode().splitlines())


def is_memory(call, lines):
    """Whether the call answered Memory."""
    answer = lines.get("answer", "").strip()
    if call == "feed":
        return answer.split(" ")[-1] == "Memory"
    if call in ENDS:
        return answer.split(" ")[-1] == "Err(Memory)"
    return answer == ("Err(Memory)" if call in WRITING else "Memory")


def not_a_front(ample, lines):
    """Returns what was written or reported that is no front of what is with enough memory."""
    for name in ("wrote", "reported"):
        if not ample.get(name, "").startswith(lines.get(name, "").strip()):
            return f"{name} {lines[name]} in place of {ample.get(name)}"
    return None


def fault_of_end(ample, lines):
    """What is wrong with a machine that answered Memory, or None."""
    told, wanted = lines["answer"].split(), ample["answer"].split()
    first = told.index("Err(Memory)")
    if told[:first] != wanted[:first] or any(it != "Err(Memory)" for it in told[first:]):
        return f"answers {told} in place of {wanted}"
    if lines.get("after", "").strip() != "Err(Memory) false":
        return f"the state after Memory: {lines.get('after')}"
    return not_a_front(ample, lines)


def fault(call, ample, ended):
    """What is wrong with a run, or None."""
    lines = lines_of(ended)
    after = lines.get("after", "").strip()
    if ended.status != 0 or "answer" not in lines:
        return f"status {ended.status}, {ended.err[-200:]!r}"
    if not is_memory(call, lines):
        return None if lines == ample else f"answers {lines} in place of {ample}"
    if call in WRITING:
        return not_a_front(ample, lines)
    if call in ENDS:
        return fault_of_end(ample, lines)
    if call == "feed":
        found = lines["answer"].strip().removesuffix("Memory").rstrip()
        is_right = ample["answer"].startswith(found) and after == "held 0 Dead Some(Dead)"
    else:
        is_right = after in ("same", "sent 0") and (lines.get("again"), lines.get("wrote")) == (ample["answer"], ample.get("wrote"))
    return None if is_right else f"answers {lines}, and {ample} with enough memory"


def run_row(library, program, row):
    """Runs a row. Returns the ample run, how many runs answered Memory, the ample answer or otherwise, and what was wrong."""
    call, given = row.call, given_to(row)
    ample_run = run(library, program, [], "0", given)
    ample = lines_of(ample_run)
    seen, wrong = collections.Counter(), []
    if ample_run.status != 0 or is_memory(call, ample):
        wrong.append(f"with enough memory: status {ample_run.status}, {ample_run.err[-200:]!r}")
    if call in WITHOUT_MEMORY and ample_run.requests != 0:
        wrong.append(f"asks for memory {ample_run.requests} times")
    for which, ended in each_refused(library, program, [], given):
        found = fault(call, ample, ended)
        seen["failed" if found else "memory" if is_memory(call, lines_of(ended)) else "same"] += 1
        if found:
            wrong.append(f"refused {which}: {found}")
    return ample_run, seen, wrong


def main():
    programs = programs_given()
    calls, total = {}, collections.Counter()
    with tempfile.TemporaryDirectory() as folder:
        library = build_library(folder)
        for row in all_rows():
            ample, seen, wrong = run_row(library, program_of(row.call, programs), row)
            count = calls.setdefault(row.call, collections.Counter())
            count.update(seen, rows=1, requests=ample.requests or 0)
            total["failed"] += max(seen["failed"], bool(wrong))
            total["passed"] += seen["memory"] + seen["same"]
            for it in wrong:
                print(f"WRONG: {row.name}, {row.call}, {it[:400]}")
    for call in sorted({*WRITING, *WITHOUT_MEMORY, *ENDS, *OTHERS} - set(calls)):
        total["failed"] += 1
        print(f"WRONG: {call}: no row calls it")
    for call, count in calls.items():
        if count["memory"] == 0 and call not in WITHOUT_MEMORY:
            total["failed"] += 1
            print(f"WRONG: {call}: no request of it was refused")
        print(
            f"{call}: {count['rows']} rows, {count['requests']} requests for memory; "
            f"{count['memory']} runs answered Memory, {count['same']} as with enough memory"
        )
    return finish(total["passed"], total["failed"], LEAST)


if __name__ == "__main__":
    sys.exit(main())
