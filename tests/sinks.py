#!/usr/bin/env python3
"""Runs the service that passes tags on, by the command lines of its units, against a reader, a database and a broker of its own, with faults, and
compares what the reader sent with the lines, the rows and the messages, tag by tag. Then it tries what a user meets beside that: the settings of an
earlier version, a file that got shorter, a long line, a web service; whether systemd finds the units well, and docs/service.md says what they have.

usage: tests/sinks.py [PROGRAM]
       tests/sinks.py PROGRAM --mistakes

PROGRAM is llrp, crates/llrp/out/llrp where none is given. It needs postgresql, mosquitto, mosquitto-clients, curl and systemd, whose services need not
run. With --mistakes each of the mistakes below is planted in a copy of the files, and has to be seen (ten minutes). The last line is `N passed, M
failed`; the status is 1 if something failed.
"""
import contextlib
import glob
import http.server
import os
import re
import shutil
import signal
import subprocess
import sys
import tempfile
import threading
import time
from collections import Counter

from parts.counting import finish_results
from parts.ports import wait_until
from parts.repository import TOP, program_given
from parts.sites import LONGEST, Reader, Site, end, tags_in

# How many comparisons there are.
LEAST = 38
# The folders with the units and with the commands of the sinks.
UNITS, SINKS = "examples/systemd", "examples/sinks"
SERVICES = os.environ.get("LLRP_SERVICES", TOP)
# Planted mistakes: a file, what stands there once, what stands there then.
MISTAKES = {
    "the place is remembered before the command": (
        f"{UNITS}/llrp-forward",
        '        FILE=$file "$@" <text || return\n        from=$((from + taken))\n        remember "$from" || return\n',
        '        from=$((from + taken))\n        remember "$from" || return\n        FILE=$file "$@" <text || return\n',
    ),
    "a failed command is passed over": (f"{UNITS}/llrp-forward", '"$@" <text || return', '"$@" <text'),
    "half lines are passed on": (f"{UNITS}/llrp-forward", 'head -n "$(wc -l <new)" new >lines', "cp new lines"),
    "control octets are passed on": (f"{UNITS}/llrp-forward", "LC_ALL=C tr -d '\\000-\\010\\013-\\037' <lines >text", "cp lines text"),
    "a file that got shorter is not begun again": (f"{UNITS}/llrp-forward", "        from=0\n    fi", "    fi"),
    "a long line is waited for": (f"{UNITS}/llrp-forward", "size=$((size * 2))", "return 0"),
    "a folder that is away is passed over": (f"{UNITS}/llrp-forward", ">found || return", ">found"),
    "> in place of >>": (f"{UNITS}/llrp-watch@.service", ">>", ">"),
    "one file for all starts": (f"{UNITS}/llrp-watch@.service", "%%S.%%NZ", ""),
    "no ROSPEC": (f"{UNITS}/llrp-watch@.service", "$$ROSPEC ", ""),
    "stop has no OPTIONS": (f"{UNITS}/llrp-watch@.service", "$ROSPEC $OPTIONS\nUser", "$ROSPEC\nUser"),
    "a line that comes twice is odd": (f"{SINKS}/schema.sql", "from tag_of(it) as its on conflict do nothing;", "from tag_of(it) as its;"),
    "no acknowledgement": (f"{SINKS}/broker", " -q 1", ""),
    "a web service may refuse": (f"{SINKS}/web", " --fail", ""),
}


def services(name):
    """Returns the path of a file of the services."""
    return os.path.join(SERVICES, name)


def text_of(name):
    with open(services(name), encoding="utf-8") as file:
        return file.read()


def with_faults(site, reader):
    """Runs the services while one thing after another fails, until the reader has sent all."""
    broker = site.begin_broker()
    site.subscribe()
    forwards = [site.forward("database"), site.forward("broker")]
    watching = site.watch(reader.port, OPTIONS="--keepalive 0")

    def again(how):
        for it in forwards:
            end(it, how)
        forwards[:] = [site.forward("database"), site.forward("broker")]

    time.sleep(3)
    site.cluster_does("-m", "fast", "restart")
    time.sleep(1)
    end(broker)
    time.sleep(2)
    site.begin_broker()
    for _ in range(4):
        time.sleep(0.7)
        again(signal.SIGKILL)
    site.psql("-c", "alter table tags rename to tags_away")
    with open(glob.glob(f"{site.logs}/*.jsonl")[0], "ab") as file:
        file.write(b"half a\0 line\n")
    time.sleep(2)
    site.psql("-c", "alter table tags_away rename to tags")
    end(watching, signal.SIGKILL)
    site.cluster_does("-m", "immediate", "stop")
    watching = site.watch(reader.port, OPTIONS="--keepalive 0")
    time.sleep(1)
    again(signal.SIGTERM)
    site.cluster_does("start")
    os.rename(site.logs, f"{site.logs}.away")
    time.sleep(1.5)
    os.rename(f"{site.logs}.away", site.logs)
    end(watching)
    watching = site.watch(reader.port, OPTIONS="--keepalive 0")
    with open(os.path.join(site.logs, "by.hand.jsonl"), "ab", buffering=0) as file:
        file.write(b"a line ")
        time.sleep(2.5)
        file.write(b"in two\n")
    reader.over.wait(LONGEST)
    end(watching)
    return forwards


def faults(site):
    """Yields whether the lines, rows and messages are those of the tags that were sent, whatever failed."""
    reader = Reader()
    forwards = with_faults(site, reader)
    files = sorted(glob.glob(f"{site.logs}/dock1.*.jsonl"))
    lines = tags_in(files)
    with contextlib.suppress(TimeoutError):
        wait_until(lambda: all(site.has_passed_on(it) for it in ("database", "broker")) and len(tags_in([site.heard])) >= len(lines), 15, "all tags")
    # All once more: no row comes twice.
    end(forwards[0])
    for path in glob.glob(os.path.join(site.work, "database", "*")):
        os.remove(path)
    forwards[0] = site.forward("database")
    with contextlib.suppress(TimeoutError):
        wait_until(lambda: site.has_passed_on("database"), 15, "all tags once more")
    rows, messages = Counter(site.psql("-c", "select epc from tags").split()), tags_in([site.heard])
    odd = site.psql("-c", "select line from tags_odd").splitlines()
    for it in forwards:
        end(it)
    print(f"sent {reader.sent}, lines {sum(lines.values())}, rows {sum(rows.values())}, messages {sum(messages.values())} of {len(messages)} tags")
    for name, there in (("rows", rows), ("messages", messages)):
        serials = sorted(int(it.rsplit(".", 1)[1]) for it in set(lines) - set(there))
        yield f"each tag is among the {name}: {len(serials)} are not: {serials[:1]} to {serials[-1:]} of {reader.sent}", not serials
        yield f"no other tag is among the {name}", set(there) <= set(lines)
    yield "each tag is one row", max(rows.values(), default=0) == 1
    each = [sorted(int(it.rsplit(".", 1)[1]) for it in tags_in([path])) for path in files]
    spans = [(it[0], it[-1]) for it in each if it]
    is_right = all(last - first + 1 == len(it) for (first, last), it in zip(spans, each)) and spans[:1] and spans[0][0] == 0
    yield f"each tag is one line, but what stood in a socket at an end: {spans} of {reader.sent}", is_right and max(lines.values()) == 1
    yield f"what is no line of a tag: {odd[:4]}", set(odd) == {"a line in two", "half a line"} and min(Counter(odd).values()) > 1
    yield f"a file for each start: {len(files)}", len(files) == 3
    queried = site.run("psql", "-XqAtd", "postgres", "-v", "ON_ERROR_STOP=1", "-f", services(f"{SINKS}/queries.sql"))
    yield f"queries.sql: {queried.stderr}", queried.returncode == 0 and f"|{len(rows)}" in queried.stdout


def earlier_settings(site):
    """Yields whether a file of settings of an earlier version still does what it said, and the end of the service deletes its ROSpec and its empty file."""
    with tempfile.NamedTemporaryFile("w", suffix=".rospec", dir=site.work) as file:
        with open(os.path.join(TOP, "examples/two_antennas.rospec"), encoding="ascii") as rospec:
            file.write(rospec.read())
        file.flush()
        own = int(re.search(r"1 ROSpec (\d+)", open(file.name, encoding="ascii").read())[1])
        for name, settings, number in (
            ("ROSPEC", {"ROSPEC": f"--rospec {file.name}"}, own),
            ("OPTIONS", {"OPTIONS": "--antennas 1,2 --id 77 --every 3 --save /nonexistent/saved"}, 77),
            ("neither", {}, 5084),
        ):
            reader = Reader()
            watching = site.watch(reader.port, **settings)
            with contextlib.suppress(TimeoutError):
                wait_until(lambda: reader.deleted or watching.poll() is not None, 5, "DELETE_ROSPEC")
            end(watching)
            is_right = name == "OPTIONS" or reader.deleted == [number]
            open(os.path.join(site.logs, "dock1.0.jsonl"), "w", encoding="ascii").close()
            reader.deleted.clear()
            ended = site.after_watch(reader.port, **settings)
            yield f"{name}: what the service runs at its end: {ended}", is_right and ended == [(0, ""), (0, "")] and reader.deleted == [number]
            yield f"{name}: an empty file goes", not os.path.exists(os.path.join(site.logs, "dock1.0.jsonl"))


def small_cases(site):
    """Yields what llrp-forward does with odd files, one round at a time, by a command that keeps what it gets."""
    folder, place, kept = (os.path.join(site.work, it) for it in ("small", "place", "kept"))
    for it in (folder, place):
        os.mkdir(it)
    path = os.path.join(folder, "dock1.a.jsonl")

    def forwarded(content, how="wb", command='cat >>"$0"; echo "$FILE" >"$0.file"'):
        with open(path, how) as file:
            file.write(content)
        with contextlib.suppress(FileNotFoundError):
            os.remove(kept)
        done = site.run(services(f"{UNITS}/llrp-forward"), "--once", folder, "sh", "-c", command, kept, cwd=place)
        return done.returncode, done.stderr, open(kept, "rb").read() if os.path.exists(kept) else b""

    yield "whole lines are passed on", forwarded(b"one\ntwo\nthr") == (0, "", b"one\ntwo\n")
    yield "the command has the file's path", open(f"{kept}.file", encoding="utf-8").read() == f"{path}\n"
    yield "then what is new", forwarded(b"ee\n", "ab") == (0, "", b"three\n")
    yield "and nothing twice", forwarded(b"", "ab") == (0, "", b"")
    long_line = b"x" * 3_000_000 + b"\n"
    yield "a line of 3,000,000 octets", forwarded(long_line + b"after\n", "ab") == (0, "", long_line + b"after\n")
    status, err, _ = forwarded(b"refused\n", "ab", "cat >/dev/null; exit 5")
    yield "a command that fails", (status, err) == (1, "")
    yield "its lines come again", forwarded(b"more\n", "ab") == (0, "", b"refused\nmore\n")
    said = f"llrp-forward: {path}: shorter than what was passed on of it; it is passed on from its beginning again\n"
    yield "a file that got shorter", forwarded(b"one\nfour\n") == (0, said, b"one\nfour\n")
    with open(os.path.join(place, "dock1.a.jsonl.place"), "w", encoding="ascii") as file:
        file.write("")
    yield "a place that was lost", forwarded(b"five\n", "ab") == (0, "", b"one\nfour\nfive\n")
    yield "a folder that is away", site.run(services(f"{UNITS}/llrp-forward"), "--once", f"{folder}.away", "true", cwd=place).returncode == 1
    yield "no words", site.run(services(f"{UNITS}/llrp-forward"), cwd=place).returncode == 2


class Web(http.server.BaseHTTPRequestHandler):
    """A web service that keeps what it gets, and refuses the first request."""

    got, statuses = [], [500, 200]

    def do_POST(self):
        body = self.rfile.read(int(self.headers["Content-Length"]))
        status = self.statuses.pop(0)
        if status == 200:
            self.got.append(body)
        self.send_response(status)
        self.send_header("Content-Length", "0")
        self.end_headers()

    def log_message(self, *_):
        pass


def web(site):
    """Yields whether a web service gets lines that it refused at first, once."""
    server = http.server.HTTPServer(("127.0.0.1", 0), Web)
    threading.Thread(target=server.serve_forever, daemon=True).start()
    folder, place = (os.path.join(site.work, it) for it in ("web", "web.place"))
    for it in (folder, place):
        os.mkdir(it)
    with open(os.path.join(folder, "dock1.a.jsonl"), "wb") as file:
        file.write(b'{"epc":1}\n{"epc":2}\n')
    site.environment["LLRP_WEB"] = f"http://127.0.0.1:{server.server_address[1]}/tags"
    statuses = [site.run(services(f"{UNITS}/llrp-forward"), "--once", folder, services(f"{SINKS}/web"), cwd=place).returncode for _ in range(2)]
    server.shutdown()
    yield "a web service", statuses == [1, 0] and Web.got == [b'{"epc":1}\n{"epc":2}\n']


def units_are_verified():
    """Yields whether systemd finds nothing wrong with the units, with programs that are there."""
    with tempfile.TemporaryDirectory() as folder:
        names = sorted(it for it in os.listdir(services(UNITS)) if it.endswith((".service", ".timer")))
        for name in names:
            with open(os.path.join(folder, name), "w", encoding="utf-8") as copy:
                copy.write(re.sub(r"/usr/local/(bin|lib)/\S*", "/bin/true", text_of(f"{UNITS}/{name}")))
        done = subprocess.run(["systemd-analyze", "verify", "--man=no", *(os.path.join(folder, it) for it in names)], capture_output=True, text=True, timeout=LONGEST)
    yield f"systemd finds no fault in {names}: {done.stderr}", (done.returncode, done.stderr) == (0, "") and len(names) == 4


def page():
    """Yields whether docs/service.md says of the units what they have."""
    told = " ".join(text_of("docs/service.md").split())
    watch, forward = (text_of(f"{UNITS}/llrp-{it}@.service") for it in ("watch", "forward"))
    again, pause, age = re.search(r"--again (\d+)", watch)[1], re.search(r"RestartSec=(\d+)", watch)[1], re.search(r"(\d+)d\n", text_of(f"{UNITS}/tmpfiles.conf"))[1]
    for words in (
        f"no later than {again} seconds after it", f"systemd begins it again {pause} seconds after it ended itself", f"Files go {age} days after their last line",
        "systemctl enable --now llrp-watch@dock1 llrp-day.timer", "systemctl enable --now llrp-forward@database", "systemctl enable --now llrp-forward@broker",
        "/etc/llrp/forward.conf",
    ):
        yield f"docs/service.md: {words}", words in told
    yield "the settings of the sinks", "EnvironmentFile=-/etc/llrp/forward.conf\n" in forward
    named = set(re.findall(r"\bLLRP_[A-Z]+\b", told))
    used = {name for it in ("broker", "database", "web", "kafka") for name in re.findall(r"\bLLRP_[A-Z]+\b", text_of(f"{SINKS}/{it}"))}
    yield f"the settings that the page names: {named - used}", named <= used
    mebibyte = int(re.search(r"(?m)^most=(\d+)$", text_of(f"{UNITS}/llrp-forward"))[1])
    yield "how much a command gets at once", mebibyte == 2**20 and "at most a mebibyte of lines" in told


def mistaken(program):
    """Yields whether each planted mistake is seen."""
    for name, (path, old, new) in MISTAKES.items():
        with tempfile.TemporaryDirectory() as copy:
            for part in ("examples", "docs"):
                shutil.copytree(os.path.join(TOP, part), os.path.join(copy, part))
            os.chmod(copy, 0o755)
            target = os.path.join(copy, path)
            with open(target, encoding="utf-8") as file:
                text = file.read()
            with open(target, "w", encoding="utf-8") as file:
                file.write(text.replace(old, new))
            environment = {**os.environ, "LLRP_SERVICES": copy}
            done = subprocess.run([sys.executable, __file__, program], env=environment, capture_output=True, text=True, timeout=10 * LONGEST)
        said = [it for it in done.stdout.splitlines() if it.startswith("WRONG")]
        print(f"{name}: {said}")
        yield f"{name} is not seen", text.count(old) == 1 and done.returncode == 1 and said


def results_of(program):
    """Yields all comparisons of the files as they are."""
    yield from units_are_verified()
    yield from page()
    with tempfile.TemporaryDirectory() as work:
        places = {"/usr/local/bin/llrp": program, "/usr/local/lib/llrp": services(UNITS), "/etc/llrp/forward": services(SINKS)}
        site = Site(work, services(UNITS), places)
        try:
            site.begin_database(services(f"{SINKS}/schema.sql"))
            yield from faults(site)
            yield from earlier_settings(site)
            yield from small_cases(site)
            yield from web(site)
        finally:
            site.close()


def main():
    program = program_given()
    if "--mistakes" in sys.argv:
        return finish_results(list(mistaken(program)), len(MISTAKES))
    return finish_results(list(results_of(program)), LEAST)


if __name__ == "__main__":
    sys.exit(main())
