"""Checks of a reader by what LLRP 1.1 requires, over real connections: each with the standard's chapter, a verdict and all octets.

    python3 -m llrp_epc.conform HOST[:PORT] [--only NAME,..] [--json] [--junit FILE] [--seconds N] [--tags N]
    pytest --pyargs llrp_epc.test_conform --llrp HOST[:PORT]

docs/conform.md has a table of the checks. They add ROSpecs and AccessSpecs with ids from 900000001 on alone, and remove them; what they
change of the reader's configuration is set back at the end, if the reader says what it was. They are checks, no certification.
"""
import argparse
import json
import sys
import xml.etree.ElementTree as ElementTree
from typing import Callable, Iterable, List, Optional, Tuple

from . import _checks_access, _checks_connections, _checks_readers, _checks_rospecs
from ._bench import Bench, Check, Result
from ._bench import CHECKS as FOUND

__all__ = ["CHECKS", "Bench", "Check", "Result", "address_of", "main", "shown"]

# LLRP's own port, how many frames of a failed check are shown, and the exit statuses.
PORT, SHOWN = 5084, 8
PASSED, FAILED, USAGE, NO_READER = 0, 1, 2, 3
VERDICTS = ("PASS", "FAIL", "NOTE", "SKIP")
# The checks in the order in which they run: where no connection is accepted, the first one says so, and the others are skipped.
MODULES = [it.__name__ for it in (_checks_connections, _checks_readers, _checks_rospecs, _checks_access)]
CHECKS = sorted(FOUND, key=lambda one: MODULES.index(one.run.__module__))


def address_of(text: str) -> Tuple[str, int]:
    """Returns the host and the port that a text names: HOST, HOST:PORT, [ADDRESS]:PORT, or an address of IPv6 alone."""
    host, colon, port = text.rpartition(":")
    if colon and port.isdigit() and (":" not in host or host.endswith("]")):
        return host.strip("[]"), int(port)
    return text.strip("[]"), PORT


def shown(result: Result) -> str:
    """Returns what is printed of a check: its verdict, chapter and name; why it has not passed; and of one that failed also what was sent, what
    has to come, and the last frames."""
    check = result.check
    line = f"{result.verdict} {check.chapter} {check.name}"
    if result.verdict == "PASS":
        return line
    lines = [f"{line}: {result.reason}"]
    if result.verdict == "FAIL":
        lines += [f"    sent: {check.sent}", f"    has to come: {check.wanted}"]
        lines += [f"    {side} {octets.hex().upper()}" for side, octets in result.log[-SHOWN:]]
    return "\n".join(lines)


def as_json(result: Result) -> str:
    """Returns the line of JSON of a check."""
    check = result.check
    said = {"verdict": result.verdict, "check": check.name, "chapter": check.chapter, "sent": check.sent, "wanted": check.wanted, "sure": check.sure}
    return json.dumps({**said, "reason": result.reason, "octets": [[side, octets.hex()] for side, octets in result.log]})


def as_junit(results: Iterable[Result], reader: str) -> bytes:
    """Returns the checks as a file of JUnit."""
    suite = ElementTree.Element("testsuite", name=f"llrp-conform {reader}")
    counts = {"tests": 0, "failures": 0, "errors": 0, "skipped": 0}
    for result in results:
        counts["tests"] += 1
        case = ElementTree.SubElement(suite, "testcase", classname=f"llrp.chapter{result.check.chapter}", name=result.check.name)
        if result.verdict == "FAIL":
            counts["failures"] += 1
            ElementTree.SubElement(case, "failure", message=result.reason).text = shown(result)
        elif result.verdict == "SKIP":
            counts["skipped"] += 1
            ElementTree.SubElement(case, "skipped", message=result.reason)
        elif result.verdict == "NOTE":
            ElementTree.SubElement(case, "system-out").text = shown(result)
    suite.attrib.update({name: str(count) for name, count in counts.items()})
    octets: bytes = ElementTree.tostring(suite, encoding="utf-8")
    return octets + b"\n"


def chosen(names: Optional[str]) -> List[Check]:
    """Returns the checks of these names, or all; ValueError names one that there is not."""
    if names is None:
        return list(CHECKS)
    wanted = names.split(",")
    unknown = [name for name in wanted if name not in {one.name for one in CHECKS}]
    if unknown:
        raise ValueError(f"no check {unknown[0]}")
    return [one for one in CHECKS if one.name in wanted]


def positive(text: str) -> float:
    """Returns a number of seconds above 0."""
    seconds = float(text)
    if not 0 < seconds <= 3600:
        raise ValueError(text)
    return seconds


def parser() -> argparse.ArgumentParser:
    """Returns what reads the words of the command."""
    made = argparse.ArgumentParser(prog="llrp-conform", description="Checks a reader by what LLRP 1.1 requires.")
    made.add_argument("reader", metavar="HOST[:PORT]", nargs="?", help="the reader, whose antennas transmit for some seconds")
    made.add_argument("--only", metavar="NAME,..", help="these checks alone")
    made.add_argument("--list", action="store_true", help="print the names of the checks, and what has to come")
    made.add_argument("--json", action="store_true", help="print a line of JSON for each check, with all octets")
    made.add_argument("--junit", metavar="FILE", help="write a file of JUnit, too")
    made.add_argument("--seconds", type=positive, default=5, metavar="N", help="the longest wait for an answer (5)")
    made.add_argument("--tags", type=positive, default=3, metavar="N", help="the longest wait for a tag (3)")
    return made


def run(bench: Bench, checks: List[Check], show: Callable[[Result], str]) -> List[Result]:
    """Runs checks, and prints what became of each as it ends."""
    results = []
    with bench:
        for one in checks:
            results.append(bench.run(one))
            print(show(results[-1]), flush=True)
    return results


def is_there(bench: Bench) -> bool:
    """Returns whether something listens at the reader's address, and says so where nothing does."""
    try:
        bench.connect().close()
    except OSError as error:
        print(f"llrp-conform: {error}", file=sys.stderr)
        return False
    return True


def main(words: Optional[List[str]] = None) -> int:
    """Runs the command, and returns its status: 0 if no check fails, 1 if one does, 3 if there is no reader."""
    made = parser()
    options = made.parse_args(words)
    try:
        checks = chosen(options.only)
    except ValueError as error:
        made.error(str(error))
    if options.list:
        print("\n".join(f"{one.name}\t{one.chapter}\t{one.wanted}" for one in checks))
        return PASSED
    if options.reader is None:
        made.error("HOST[:PORT] is missing")
    bench = Bench(*address_of(options.reader), options.seconds, options.tags)
    if not is_there(bench):
        return NO_READER
    results = run(bench, checks, as_json if options.json else shown)
    if options.junit:
        with open(options.junit, "wb") as file:
            file.write(as_junit(results, options.reader))
    counts = {verdict: sum(one.verdict == verdict for one in results) for verdict in VERDICTS}
    print(" ".join(f"{count} {verdict}" for verdict, count in counts.items()), file=sys.stderr)
    return FAILED if counts["FAIL"] else PASSED


if __name__ == "__main__":
    sys.exit(main())
