#!/usr/bin/env python3
"""Runs the checks of llrp_epc.conform over the simulated reader, over a stub that is right, over one that answers late, and over stubs with one
mistake each, which the check that is meant for it has to find. Runs the command and its plugin of pytest, and compares docs/conform.md and the
manual page with the checks.

usage: tests/conform.py [PROGRAM]

PROGRAM is llrp, crates/llrp/out/llrp where none is given. It needs what library.sh needs, groff, and Debian's package python3-pytest. The last
line is `N passed, M failed`; the status is 1 if something failed.
"""
import contextlib
import json
import os
import re
import subprocess
import sys
import tempfile
import xml.etree.ElementTree as ElementTree
from concurrent.futures import ThreadPoolExecutor

from parts.counting import finish_results, snippet, text_of
from parts.package import package_with_library
from parts.ports import free_port
from parts.repository import TOP, program_given
from parts.stub_reader import LATE, MISTAKES, Reader

# How many comparisons there are.
LEAST = 262
# How long a run may take, and a tag may be waited for, in seconds; and how many readers run at a time.
LONGEST, TAGS, SIDE_BY_SIDE = 170, 1.5, 8
# What the simulated reader does not do as the standard says: once it does, it is taken out here.
GAPS = {"config_back", "events_off"}
# What it has not, with the page that says so and the words.
LACKS = {
    "periodic": ("docs/reader.md", "start trigger 2 (periodic)"),
    "access_specs": ("docs/sim.md", "ADD_ACCESSSPEC is refused"),
    "tid_read": ("docs/sim.md", "ADD_ACCESSSPEC is refused"),
    "held_over_reconnect": ("docs/sim.md", "1 LLRPCapabilities 0 0 0 0 0 8 0 0 0 "),
    "max_rospecs": ("docs/sim.md", "1 LLRPCapabilities 0 0 0 0 0 8 0 0 0 "),
    "c1g2_filter": ("docs/sim.md", "1 C1G2LLRPCapabilities 0 0 0 0 0 0 0\n"),
}
# The id of a ROSpec of another client.
OTHER = 5

PROGRAM = program_given()
PAGE = text_of("docs/conform.md")
# What the page's reader sees: a tag five times a second, on each connection.
SCRIPT = re.search(r"printf '(.*)\\n' \| llrp sim", PAGE)[1] + "\n"


@contextlib.contextmanager
def simulated():
    """Gives the port of a simulated reader in real time."""
    words = [PROGRAM, "sim", "0", "--clock", "real", "--keep", "--clients", "0", "--ready"]
    run = subprocess.Popen(words, stdin=subprocess.PIPE, stderr=subprocess.PIPE, text=True)
    try:
        run.stdin.write(SCRIPT)
        run.stdin.close()
        yield int(run.stderr.readline().rsplit(":", 1)[1])
    finally:
        run.kill()
        run.wait(LONGEST)
        run.stderr.close()


def command(environment, *words):
    """Runs the command. Returns its status, and what it writes to both outputs."""
    run = [sys.executable, "-m", "llrp_epc.conform", *words]
    done = subprocess.run(run, env=environment, stdin=subprocess.DEVNULL, capture_output=True, text=True, timeout=LONGEST)
    return done.returncode, done.stdout, done.stderr


def named(results, verdict):
    """Returns the names of the checks with a verdict, of lines of JSON."""
    return {one["check"] for one in results if one["verdict"] == verdict}


def checks_of_junit(path, results):
    """Yields whether a file of JUnit has the verdicts of lines of JSON."""
    suite = ElementTree.parse(path).getroot()
    found = {case.get("name"): {one.tag for one in case} for case in suite.iter("testcase")}
    tags = {"PASS": set(), "NOTE": {"system-out"}, "FAIL": {"failure"}, "SKIP": {"skipped"}}
    yield "the file of JUnit", found == {one["check"]: tags[one["verdict"]] for one in results}
    wanted = [len(results), len(named(results, "FAIL")), len(named(results, "SKIP"))]
    yield "its counts", [int(suite.get(it)) for it in ("tests", "failures", "skipped")] == wanted


def over_sim(environment, folder):
    """Yields what becomes of all checks over the simulated reader."""
    from llrp_epc import Llrp
    from llrp_epc._messages import rospec
    from llrp_epc.conform import CHECKS, Bench

    with simulated() as port:
        bench, junit = Bench("127.0.0.1", port), os.path.join(folder, "sim.xml")
        link = bench.open()
        link.done("ADD_ROSPEC", rospec(OTHER))
        link.done("CLOSE_CONNECTION")
        status, lines, told = command(environment, f"127.0.0.1:{port}", "--json", "--junit", junit)
        results = [json.loads(line) for line in lines.splitlines()]
        link = bench.open()
        left = [one["ROSpecID"] for one in link.done("GET_ROSPECS")["parameters"] if one["parameter"] == "ROSpec"]
        link.done("DELETE_ROSPEC", ROSpecID=OTHER)
        link.close()
    yield "the checks over sim", [one["check"] for one in results] == [one.name for one in CHECKS]
    yield f"what fails over sim: {named(results, 'FAIL')}", named(results, "FAIL") == GAPS and status == 1
    yield f"what is skipped over sim: {named(results, 'SKIP')}", named(results, "SKIP") == set(LACKS)
    yield f"what is noted over sim: {named(results, 'NOTE')}", not named(results, "NOTE")
    counts = [len(named(results, it)) for it in ("PASS", "FAIL", "NOTE", "SKIP")]
    yield f"the last line: {told}", told == "{} PASS {} FAIL {} NOTE {} SKIP\n".format(*counts)
    yield f"what docs/conform.md says of sim: {counts}", f"Of it {counts[0]} pass, {counts[3]} are skipped, and two fail" in PAGE and counts[1] == 2
    yield f"how many checks there are: {len(CHECKS)}", len(CHECKS) == 41 and "forty-one things" in PAGE
    yield f"what is left on the reader: {left}", left == [OTHER]
    yield from checks_of_junit(junit, results)
    for one in results:
        sides = [side for side, _ in one["octets"]]
        said = b"".join(bytes.fromhex(octets) for side, octets in one["octets"] if side == "<")
        messages, used = Llrp().messages(said, all=True)
        is_whole = used == len(said) and len(messages) == sides.count("<") > 0 and all("message" in it for it in messages)
        yield f"the octets of {one['check']}", is_whole and sides[0] == "<"
    for name, (page, words) in LACKS.items():
        yield f"{page} says that sim has not what {name} asks for", words in text_of(page)


def over_stub(mistake):
    """Yields whether a stub that makes no mistake passes all checks."""
    from llrp_epc.conform import CHECKS, Bench, shown

    with Reader(mistake) as reader, Bench("127.0.0.1", reader.port, tags=TAGS) as bench:
        for one in CHECKS:
            result = bench.run(one)
            yield f"the stub {mistake or 'that is right'}: {shown(result)}", result.verdict == "PASS"
        yield "it keeps nothing of the checks", (reader.table, reader.access) == ({}, {})


def over_mistake(mistake):
    """Yields whether the check that is meant for a mistake finds it, and does not without it."""
    from llrp_epc.conform import CHECKS, Bench, shown

    name, verdict = MISTAKES[mistake]
    with Reader(mistake) as reader:
        bench = Bench("127.0.0.1", reader.port, tags=TAGS)
        result = bench.run(next(one for one in CHECKS if one.name == name))
    yield f"the mistake {mistake}: {shown(result)}", result.verdict == verdict and result.reason
    if mistake in ("reserved_bit", "latin1_text"):
        fault = {"reserved_bit": "Reserved at bit 0", "latin1_text": "Utf8 at bit "}[mistake]
        yield f"what the decoder says of it: {result.reason}", f"a frame that is no message of LLRP 1.1: {fault}" in result.reason


def as_the_page_shows(environment):
    """Yields whether the command shows what the page does, which leaves out most frames."""
    shown = snippet("docs/conform.md", "for `llrp explain --hex --all`:")
    names = re.findall(r"(?m)^[A-Z]+ \d+ (\w+)", shown)
    with simulated() as port:
        _, said, _ = command(environment, f"127.0.0.1:{port}", "--only", ",".join(names))
    lines = [[line for line in text.splitlines() if not line.startswith(("    >", "    <"))] for text in (said, shown)]
    yield f"what the page shows: {said}", len(names) == 3 and lines[0] == lines[1]
    counts = [sum(line.startswith(f"    {side} ") for line in said.splitlines()) for side in "<>"]
    yield f"how many frames: {counts}", sum(counts) == 7


def sets_back():
    """Yields whether the reader's configuration is as it was."""
    from llrp_epc._messages import keepalive_spec, notification
    from llrp_epc.conform import CHECKS, Bench

    with Reader() as reader:
        link = Bench("127.0.0.1", reader.port).open()
        link.configure(keepalive_spec(60000), notification(2, True))
        link.close()
        with Bench("127.0.0.1", reader.port, tags=TAGS) as bench:
            for one in CHECKS:
                if one.name in ("config_back", "events_off"):
                    yield f"{one.name} passes", bench.run(one).verdict == "PASS"
            yield "a check changes the configuration", (reader.period, reader.has_events) == (0.0, False)
        yield "the configuration is set back", (reader.period, reader.has_events) == (60.0, True)


def words_of_command(environment):
    """Yields what the command says to words."""
    from llrp_epc.conform import CHECKS, address_of

    status, said, told = command(environment, f"127.0.0.1:{free_port()}")
    yield f"no reader: {told}", (status, said) == (3, "") and told.startswith("llrp-conform: ") and "refused" in told
    status, said, told = command(environment, "--only", "states,nothing", "127.0.0.1")
    yield f"no such check: {told}", (status, said) == (2, "") and "no check nothing" in told
    yield "no word", command(environment)[0] == 2
    yield "no such time", command(environment, "--seconds", "0", "127.0.0.1")[0] == 2
    listed = [line.split("\t") for line in command(environment, "--list")[1].splitlines()]
    yield "the list of checks", listed == [[one.name, str(one.chapter), one.wanted] for one in CHECKS]
    for text, wanted in {
        "reader": ("reader", 5084),
        "reader:14150": ("reader", 14150),
        "192.0.2.17:1": ("192.0.2.17", 1),
        "2001:db8::17": ("2001:db8::17", 5084),
        "[2001:db8::17]": ("2001:db8::17", 5084),
        "[2001:db8::17]:14150": ("2001:db8::17", 14150),
    }.items():
        yield f"the address {text}: {address_of(text)}", address_of(text) == wanted


def shown_by_command(environment):
    """Yields what the command shows of checks that pass, fail and are noted."""
    with Reader("no_regulatory") as reader:
        status, said, told = command(environment, f"127.0.0.1:{reader.port}", "--only", "capabilities,clock")
    lines = said.splitlines()
    yield f"a check that fails: {said}", lines[0] == "FAIL 10 capabilities: RequestedData 0: no RegulatoryCapabilities"
    yield "its octets", lines[1].startswith("    sent: ") and lines[2].startswith("    has to come: ") and lines[3].startswith("    < 043F")
    yield "one that passes", lines[-1] == "PASS 14 clock" and (status, told) == (1, "1 PASS 1 FAIL 0 NOTE 0 SKIP\n")
    with Reader("one_antenna") as reader:
        done = command(environment, f"127.0.0.1:{reader.port}", "--only", "antennas")
    yield f"one that is noted: {done}", done[0] == 0 and done[1].startswith("NOTE 13 antennas: ") and done[2] == "0 PASS 0 FAIL 1 NOTE 0 SKIP\n"


def by_pytest(environment, folder):
    """Yields what pytest says of the checks."""
    path = os.path.join(folder, "pytest.xml")
    words = ["pytest-3", "-q", "-p", "no:cacheprovider", "-p", "llrp_epc.conform_pytest", "--pyargs", "llrp_epc.test_conform", f"--junitxml={path}"]

    def run(*more):
        done = subprocess.run([*words, *more], cwd=folder, env=environment, capture_output=True, text=True, timeout=LONGEST)
        cases = ElementTree.parse(path).getroot().iter("testcase")
        return done.returncode, {case.get("name"): {one.tag for one in case} - {"properties"} for case in cases}, done.stdout

    status, cases, _ = run()
    yield "without a reader all are skipped", status == 0 and len(cases) > 40 and set(map(tuple, cases.values())) == {("skipped",)}
    with Reader("no_regulatory") as reader:
        status, cases, said = run("--llrp", f"127.0.0.1:{reader.port}", "-k", "capabilities or clock")
    wanted = {"test_reader[capabilities]": {"failure"}, "test_reader[clock]": set()}
    yield f"one fails and one passes\n{said}", status == 1 and cases == wanted and "no RegulatoryCapabilities" in said
    with Reader("one_antenna") as reader:
        status, cases, said = run("--llrp", f"127.0.0.1:{reader.port}", "-k", "antennas")
    yield f"what is noted is a warning\n{said}", status == 0 and re.search(r"1 passed, .*1 warning", said)


def pages():
    """Yields whether the page has a row for each check, and the manual page each option; and what groff says of the latter."""
    from llrp_epc.conform import CHECKS, parser

    rows = re.findall(r"(?m)^\| `(\w+)` \| (\d+) \| (.*) \| (.*) \| (.*) \|$", PAGE)
    wanted = [(one.name, str(one.chapter), one.sent, one.wanted, one.sure) for one in CHECKS]
    yield f"the table of docs/conform.md: {set(rows) ^ set(wanted)}", rows == wanted
    manual = text_of("docs/llrp-conform.1")
    for option in (text for action in parser()._actions for text in action.option_strings if text.startswith("--") and text != "--help"):
        yield f"the manual page has {option}", manual.count(f"Fl \\-{option[2:]}") == 2 and f"`{option}" in PAGE
    done = subprocess.run(["groff", "-mdoc", "-ww", "-z", "-Tutf8", "docs/llrp-conform.1"], cwd=TOP, capture_output=True, text=True, timeout=60)
    yield "groff has nothing to say", (done.returncode, done.stdout, done.stderr) == (0, "", "")


def each_check_is_found():
    """Yields whether each check finds a mistake."""
    from llrp_epc.conform import CHECKS

    found = {name for name, _ in MISTAKES.values()}
    for one in CHECKS:
        yield f"a mistake for {one.name}", one.name in found


def main():
    with tempfile.TemporaryDirectory() as folder, ThreadPoolExecutor(SIDE_BY_SIDE) as pool:
        environment = package_with_library(folder)
        sys.path.insert(0, folder)
        sys.dont_write_bytecode = True
        # (those that take longest first)
        runs = [pool.submit(lambda: list(over_stub(LATE))), pool.submit(lambda: list(over_stub("")))]
        runs += [pool.submit(lambda: list(over_sim(environment, folder))), pool.submit(lambda: list(sets_back()))]
        runs += [pool.submit(lambda mistake=mistake: list(over_mistake(mistake))) for mistake in MISTAKES]
        results = [*words_of_command(environment), *shown_by_command(environment), *as_the_page_shows(environment)]
        results += [*by_pytest(environment, folder), *pages(), *each_check_is_found()]
        results += [result for run in runs for result in run.result()]
    return finish_results(results, LEAST)


if __name__ == "__main__":
    sys.exit(main())
