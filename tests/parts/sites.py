"""What the scripts share of services: a reader that numbers its tags, what systemd makes of a line of a unit, and a folder with a database and a broker in
which the units' commands run."""
import asyncio
import contextlib
import glob
import json
import os
import pwd
import re
import signal
import struct
import subprocess
import threading
import time
from collections import Counter

from parts.ports import free_port, listens_at, wait_until

# How long a command may take, in seconds.
LONGEST = 60
# How many tags a second the reader sends, and for how many seconds.
RATE, SECONDS = 300, 22
# READER_EVENT_NOTIFICATION with a ConnectionAttemptEvent of success, and LLRPStatus of success (LLRP 1.1, sections 13 and 17).
ACCEPTED = bytes.fromhex("043F000000200000000100F600160080000C0000000000000000010000060000")
SUCCESS = struct.pack(">HHHH", 287, 8, 0, 0)
(CLOSE, SET_CONFIG, DELETE, START, REPORT, KEEPALIVE_ACK) = (14, 3, 21, 22, 61, 72)
# The types of the responses that are not ten above their requests.
RESPONSES = {CLOSE: 4, SET_CONFIG: 13}


def frame(kind, number, body=b""):
    return struct.pack(">HII", 0x0400 | kind, 10 + len(body), number) + body


def report(serial):
    """RO_ACCESS_REPORT of one SGTIN-96 with this serial number, its antenna, strength and count."""
    parts = b"\x8d" + bytes.fromhex("3074257BF7194E40") + struct.pack(">I", serial) + b"\x81\x00\x01\x86\xc4\x88\x00\x01"
    return frame(REPORT, serial, struct.pack(">HH", 240, 4 + len(parts)) + parts)


class Reader:
    """Sends RATE tags a second while a client listens, each with a serial number of its own, for SECONDS after the first START_ROSPEC. It keeps the ids
    that it was asked to delete."""

    def __init__(self):
        self.sent, self.began, self.port, self.over, self.deleted = 0, None, None, threading.Event(), []
        ready = threading.Event()
        threading.Thread(target=lambda: asyncio.run(self.main(ready)), daemon=True).start()
        ready.wait(LONGEST)

    async def main(self, ready):
        server = await asyncio.start_server(self.serve, "127.0.0.1", 0)
        self.port = server.sockets[0].getsockname()[1]
        ready.set()
        while not (self.began and time.monotonic() - self.began > SECONDS):
            await asyncio.sleep(0.1)
        await asyncio.sleep(0.5)
        self.over.set()
        await asyncio.sleep(LONGEST)

    async def serve(self, reader, writer):
        writer.write(ACCEPTED)
        task = None
        try:
            while True:
                kind, length, number = struct.unpack(">HII", await reader.readexactly(10))
                body = await reader.readexactly(length - 10)
                kind &= 1023
                if kind == DELETE:
                    self.deleted.append(int.from_bytes(body, "big"))
                if kind != KEEPALIVE_ACK:
                    writer.write(frame(RESPONSES.get(kind, kind + 10), number, SUCCESS))
                if kind == START:
                    task = asyncio.create_task(self.tell(writer))
                if kind == CLOSE:
                    break
        except (asyncio.IncompleteReadError, asyncio.CancelledError, ConnectionError):
            pass
        finally:
            if task:
                task.cancel()
            writer.close()

    async def tell(self, writer):
        self.began = self.began or time.monotonic()
        while time.monotonic() - self.began < SECONDS:
            await asyncio.sleep(0.1)
            writer.write(b"".join(report(self.sent + i) for i in range(RATE // 10)))
            self.sent += RATE // 10
            await writer.drain()


def expanded(line, environment):
    """Returns what systemd makes of a line of Exec for the instance dock1, as words: ${NAME} is one word, $NAME words without blanks of their own; what
    stands between apostrophes is one word, in which $$ is a dollar and %% a percent sign (systemd.service(5), Command lines)."""
    words = []
    for quoted, plain in re.findall(r"'([^']*)'|(\S+)", line.lstrip("-")):
        if re.fullmatch(r"\$\w+", plain):
            words += environment.get(plain[1:], "").split()
            continue
        word = re.sub(r"\$\{(\w+)\}", lambda it: environment.get(it[1], ""), quoted or plain)
        words.append(re.sub(r"%(.)", lambda it: {"i": "dock1", "%": "%"}[it[1]], word).replace("$$", "$"))
    return words


class Site:
    """A folder with a database, a broker and what the services have, whose units stand in a folder, and name places that are elsewhere here."""

    def __init__(self, work, units, places):
        self.work, self.units, self.running = work, units, []
        os.chmod(work, 0o777)
        self.logs, self.cluster, self.heard = (os.path.join(work, it) for it in ("log", "cluster", "heard"))
        os.mkdir(self.logs)
        postgres = {"user": "postgres", "group": "postgres"} if os.getuid() == 0 else {}
        self.as_user, owner = postgres, "postgres" if postgres else pwd.getpwuid(os.getuid()).pw_name
        server = sorted(glob.glob("/usr/lib/postgresql/*/bin"))[-1]
        self.broker_port, self.subscriber = free_port(), None
        self.environment = {
            **os.environ, "PATH": f"{server}:{os.environ['PATH']}", "PGHOST": work, "PGUSER": owner, "LLRP_DATABASE": "postgres", "LC_ALL": "C",
            "LLRP_PORT": str(self.broker_port), "HOME": work,
        }
        self.places = {**places, "/var/log/llrp": self.logs}

    def lines_of(self, unit, key):
        """Returns the values of a key of a unit."""
        with open(os.path.join(self.units, unit), encoding="utf-8") as file:
            return re.findall(rf"(?m)^{key}=(.*)$", file.read())

    def words_of(self, line, environment):
        """Returns what systemd makes of a line of Exec, at this site's places."""
        words = expanded(line, environment)
        for name, place in self.places.items():
            words = [it.replace(name, place) for it in words]
        return words

    def run(self, *words, **how):
        return subprocess.run(words, env=self.environment, capture_output=True, text=True, timeout=LONGEST, **how)

    def cluster_does(self, *words):
        options = f"-k {self.work} -c listen_addresses='' -c fsync=off"
        command = ["pg_ctl", "-D", self.cluster, "-w", "-l", os.path.join(self.cluster, "log"), "-o", options, *words]
        subprocess.run(command, env=self.environment, cwd="/", stdout=subprocess.DEVNULL, check=True, timeout=LONGEST, **self.as_user)

    def psql(self, *words):
        done = self.run("psql", "-XqAtd", "postgres", "-v", "ON_ERROR_STOP=1", *words)
        if done.returncode:
            raise ValueError(done.stderr)
        return done.stdout

    def begin(self, words, folder=None, **more):
        """Begins a process as the leader of a group of its own, which appends its errors to a file."""
        folder = folder or self.work
        os.makedirs(folder, exist_ok=True)
        with open(os.path.join(self.work, "errors"), "ab") as errors:
            it = subprocess.Popen(words, cwd=folder, env={**self.environment, **more}, start_new_session=True, stderr=errors)
        self.running.append(it)
        return it

    def begin_database(self, schema):
        initdb = ["initdb", "-A", "trust", "-D", self.cluster]
        subprocess.run(initdb, env=self.environment, cwd="/", stdout=subprocess.DEVNULL, check=True, timeout=LONGEST, **self.as_user)
        self.cluster_does("start")
        self.psql("-f", schema)

    def begin_broker(self):
        configuration = os.path.join(self.work, "broker.conf")
        with open(configuration, "w", encoding="ascii") as file:
            file.write(f"listener {self.broker_port} 127.0.0.1\nallow_anonymous true\npersistence true\npersistence_location {self.work}/\n")
            file.write("autosave_interval 1\nmax_queued_messages 0\n")
        broker = self.begin(["mosquitto", "-c", configuration])
        wait_until(lambda: listens_at(self.broker_port), LONGEST, "the broker listens")
        return broker

    def subscribe(self):
        words = ["mosquitto_sub", "-p", str(self.broker_port), "-t", "llrp/dock1", "-q", "1", "-c", "-i", "gate"]
        with open(self.heard, "wb") as heard:
            self.subscriber = subprocess.Popen(words, stdout=heard, stderr=subprocess.DEVNULL)

    def forward(self, name):
        """Begins llrp-forward@NAME, which begins again 0.3 seconds after it ended."""
        words = self.words_of(self.lines_of("llrp-forward@.service", "ExecStart")[0].replace("%i", name), {})
        return self.begin(["sh", "-c", 'while :; do "$@"; sleep 0.3; done', "sh", *words], os.path.join(self.work, name))

    def settings(self, port, settings):
        """Returns what llrp-watch@dock1 has in its environment with these settings of its file."""
        own = dict(it.split("=", 1) for it in self.lines_of("llrp-watch@.service", "Environment")[0].split())
        return {"LOGS_DIRECTORY": self.logs, **own, "HOST": f"127.0.0.1:{port}", **settings}

    def watch(self, port, **settings):
        """Begins llrp-watch@dock1 with these settings of its file."""
        environment = self.settings(port, settings)
        return self.begin(self.words_of(self.lines_of("llrp-watch@.service", "ExecStart")[0], environment), **environment)

    def after_watch(self, port, **settings):
        """Runs what llrp-watch@dock1 runs at its end, and returns the statuses and errors."""
        environment = self.settings(port, settings)
        commands = [self.words_of(it, environment) for it in self.lines_of("llrp-watch@.service", "ExecStopPost")]
        return [(done.returncode, done.stderr) for done in (self.run(*it) for it in commands)]

    def has_passed_on(self, name):
        """Returns whether llrp-forward@NAME has looked at the whole of each file."""
        for path in glob.glob(f"{self.logs}/*.jsonl"):
            place = os.path.join(self.work, name, f"{os.path.basename(path)}.place")
            if not os.path.exists(place):
                return False
            with open(place, encoding="ascii") as file:
                if file.read().split()[-1:] != [str(os.path.getsize(path))]:
                    return False
        return True

    def close(self):
        for it in self.running:
            end(it, signal.SIGKILL)
        if self.subscriber:
            self.subscriber.kill()
            self.subscriber.wait()
        with contextlib.suppress(subprocess.CalledProcessError):
            self.cluster_does("-m", "immediate", "stop")


def end(it, how=signal.SIGTERM):
    """Ends a process with its group."""
    with contextlib.suppress(ProcessLookupError):
        os.killpg(it.pid, how)
    it.wait(LONGEST)


def tags_in(paths):
    """Returns how often each EPC is in the lines of files."""
    found = Counter()
    for path in paths:
        with open(path, encoding="ascii", errors="replace") as file:
            found.update(json.loads(it)["epc"] for it in file if it.startswith("{") and it.endswith("}\n"))
    return found
