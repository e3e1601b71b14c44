#!/usr/bin/env python3
"""Runs the recipes of docs/recipes.md, and compares what they print with what the page shows; and runs the examples of clients in Python
with every octet of their connection apart and with a KEEPALIVE between any two frames, and against readers that refuse a request.

usage: tests/recipes.py PROGRAM

PROGRAM is llrp. The recipe of live traffic is left out for a user who may not capture. It needs mosquitto, mosquitto-clients, jq, sqlite3,
postgresql, gnuplot, stunnel4, openssl, parallel, tshark and xxd. The last line is `N passed, M failed`; the status is 1 if something failed or too little
was run.
"""
import os
import re
import shlex
import shutil
import signal
import socket
import subprocess
import sys
import tempfile
import threading

from parts.counting import finish, text_of
from documents import AWAIT, MARK, examples
from parts.ports import free_port, listens_at, wait_until
from readers import Habits, Reader, accept, status
from parts.repository import TOP

PAGE = "docs/recipes.md"
# How many commands the page has that are run.
COMMANDS = 84
# How long a recipe may take, in seconds.
LONGEST = 120
# A KEEPALIVE of the reader, and the answer to it.
KEEPALIVE, ANSWER = bytes.fromhex("043E0000000A00000063"), bytes.fromhex("04480000000A00000063")


def prepare(folder, program):
    """Puts into a folder what a recipe reads: the program, the examples, the library for C and the package for Python."""
    for name in ("examples", "python/llrp_epc"):
        shutil.copytree(os.path.join(TOP, name), os.path.join(folder, name))
    shutil.copy(program, os.path.join(folder, "llrp"))
    os.mkdir(os.path.join(folder, "out"))
    shutil.copy(os.path.join(TOP, "out/libllrp_c.so.0"), os.path.join(folder, "out"))


def waits_for(command, port, broker):
    """Returns the commands that wait until what a command began in the background is ready."""
    listens = "await grep -q ':{:04X} 00000000:0000 0A' /proc/net/tcp"
    if command.startswith("mosquitto -p"):
        return [listens.format(broker)]
    if command.startswith("./llrp sim"):
        return [listens.format(port)]
    if command.startswith("mosquitto_sub"):
        return [f"await grep -q ':{broker:04X} [0-9A-F:]* 01' /proc/net/tcp"]
    if command.startswith("tshark"):
        return ["await grep -sq Capturing tshark.log"]
    return []


def script_of(commands):
    """Returns the commands as a script of bash, with ports that are free."""
    port, broker = free_port(), free_port()
    others = {name: str(free_port()) for name in ("5085", "5086")}
    lines = [AWAIT]
    for command in commands:
        ready = command.replace("5084", str(port)).replace("1883", str(broker))
        for name, other in others.items():
            ready = ready.replace(name, other)
        lines += [ready, *(waits_for(command, port, broker) if command.endswith("&") else []), f"printf '%s\\n' {shlex.quote(MARK)}"]
    return "\n".join(lines)


def printed_by(script, folder, is_root):
    """Runs a script in a folder, as nobody where it may not be root, and returns what it prints after each command."""
    words = ["bash", "-c", script]
    if not is_root and os.geteuid() == 0:
        subprocess.run(["chown", "-R", "nobody", folder], check=True)
        words = ["setpriv", "--reuid=65534", "--regid=65534", "--clear-groups", *words]
    with open(os.path.join(folder, "printed"), "w+", encoding="utf-8") as printed:
        process = subprocess.Popen(words, cwd=folder, stdout=printed, stderr=subprocess.STDOUT, start_new_session=True)
        try:
            process.wait(LONGEST)
        except subprocess.TimeoutExpired:
            print(f"took more than {LONGEST} seconds:\n{script}")
        end_group(process.pid)
        printed.seek(0)
        return printed.read().split(MARK + "\n")


def end_group(group):
    """Ends what a script left in the background, such as a broker."""
    try:
        os.killpg(group, signal.SIGKILL)
    except ProcessLookupError:
        pass


def captures(block):
    """Returns whether the commands of a block capture live traffic."""
    return any(command.startswith("tshark") for command, _ in block)


def may_capture():
    """Returns whether this user may capture live traffic."""
    words = ["dumpcap", "-q", "-i", "lo", "-a", "duration:1", "-w", os.devnull]
    return os.geteuid() == 0 or subprocess.run(words, capture_output=True, timeout=60).returncode == 0


def run_page(program):
    """Yields for each command of the page what it is, what it printed and what it has to print."""
    blocks = list(examples(PAGE))
    for block in blocks if may_capture() else [it for it in blocks if not captures(it)]:
        with tempfile.TemporaryDirectory() as folder:
            prepare(folder, program)
            commands = [command for command, _ in block]
            printed = printed_by(script_of(commands), folder, captures(block))
        for (command, wanted), found in zip(block, [*printed, *[""] * len(block)]):
            yield command, found.splitlines(), wanted


def filters_at_once():
    """Returns whether what stands in the page between `inventory` and the broker hands on each tag as it comes."""
    words = re.search(r"\./llrp inventory [^|]*\| (.*?) \| mosquitto_pub", text_of(PAGE))[1]
    run = subprocess.Popen(["bash", "-c", words], stdin=subprocess.PIPE, stdout=subprocess.PIPE, start_new_session=True)
    tag, found = b"urn:epc:tag:gid-96:1.2.3 2 -62\n", []
    run.stdin.write(tag + b"= 1\n")
    run.stdin.flush()
    reading = threading.Thread(target=lambda: found.append(run.stdout.readline()), daemon=True)
    reading.start()
    reading.join(10)
    is_right = found == [tag]
    end_group(run.pid)
    run.wait(LONGEST)
    return is_right


def tags_are_rows():
    """Returns whether examples/seen.awk makes of each tag of a listing its EPC, its antenna and its time."""
    for name in ("examples/shift.txt", "examples/report.txt"):
        wanted = []
        for report in re.split(r"(?m)^1 TagReportData\n", text_of(name))[1:]:
            has = {line.split(" ")[1]: line.split(" ")[-1] for line in report.splitlines() if line.startswith("2 ")}
            epc = next(it for kind, it in has.items() if kind.startswith("EPC"))
            wanted += [f"{epc}|{has.get('AntennaID', '')}|{has['FirstSeenTimestampUTC']}"] if "FirstSeenTimestampUTC" in has else []
        with open(os.path.join(TOP, name), encoding="utf-8") as listing:
            done = subprocess.run(["awk", "-f", "examples/seen.awk"], cwd=TOP, stdin=listing, capture_output=True, text=True, timeout=60)
        if done.stdout.splitlines() != wanted or not wanted:
            return False
    return True


def next_octet(stream):
    """Returns the next octet of a socket, or none where the other side ended."""
    try:
        return stream.recv(1)
    except ConnectionResetError:
        return b""


def frames(stream):
    """Yields each frame that comes from a socket, until the other side ends."""
    frame = b""
    while octet := next_octet(stream):
        frame += octet
        if len(frame) >= 6 and len(frame) == int.from_bytes(frame[2:6], "big"):
            yield frame
            frame = b""


class Apart:
    """A way between a client and a reader that hands on each octet of a frame apart, sends the client a KEEPALIVE after each frame of
    the reader, and counts the answers, which the reader does not get."""

    def __init__(self, port):
        self.listener = socket.create_server(("127.0.0.1", 0))
        self.reader = socket.create_connection(("127.0.0.1", port))
        self.asked = self.answered = 0
        threading.Thread(target=self.run, daemon=True).start()

    def run(self):
        self.client, _ = self.listener.accept()
        for end in (self.client, self.reader):
            end.setsockopt(socket.IPPROTO_TCP, socket.TCP_NODELAY, 1)
        threading.Thread(target=self.hand_up, daemon=True).start()
        for frame in frames(self.reader):
            for octet in frame + KEEPALIVE:
                self.client.sendall(bytes([octet]))
            self.asked += 1

    def hand_up(self):
        for frame in frames(self.client):
            if frame == ANSWER:
                self.answered += 1
            else:
                for octet in frame:
                    self.reader.sendall(bytes([octet]))


def client_works(program, client):
    """Returns whether a client prints the script's tags and answers each KEEPALIVE, with its connection in single octets."""
    port = free_port()
    seen = [line.split() for line in text_of("examples/inventory.script").splitlines()]
    with open(os.path.join(TOP, "examples/inventory.script"), encoding="utf-8") as script:
        reader = subprocess.Popen([program, "sim", str(port)], stdin=script)
    try:
        wait_until(lambda: listens_at(port), LONGEST, "sim listens")
        way = Apart(port)
        done = client(way.listener.getsockname()[1], len(seen))
        ended = reader.wait(LONGEST)
    except (TimeoutError, subprocess.TimeoutExpired):
        return False
    finally:
        reader.kill()
    tags = [f"{text} {antenna} {rssi}" for _, _, _, antenna, rssi, text in seen]
    # (the last one comes after the client has ended)
    answered = way.asked - 1 <= way.answered > 0
    return ended == 0 and done.returncode == 0 and done.stdout.splitlines() == tags and answered


def run_python(*words):
    """Runs an example in Python over the package and the library of this checkout."""
    environment = {**os.environ, "PYTHONPATH": "python", "LD_LIBRARY_PATH": "out"}
    return subprocess.run([sys.executable, *words], cwd=TOP, env=environment, capture_output=True, text=True, timeout=20)


def run_client(port, count):
    """Runs the client with a reader at this port until it has this many tags."""
    return run_python("examples/python/client.py", "127.0.0.1", str(port), "examples/rospec.txt", str(count))


def run_async_client(port, count):
    """Runs the client for several readers with one at this port until it has this many tags."""
    return run_python("examples/python/async_client.py", "examples/rospec.txt", str(count), f"127.0.0.1:{port}")


class Refusing(Reader):
    """A reader that refuses a request, by its response or by an ERROR_MESSAGE."""

    def __init__(self, peer, refuses, by_error):
        super().__init__(peer, Habits(tagged=1))
        self.refuses, self.by_error = refuses, by_error

    def answer(self, kind, number, body):
        if kind != self.refuses:
            return super().answer(kind, number, body)
        self.send(100 if self.by_error else kind + 10, number, status(101))
        return False


def client_with(client, refuses, by_error):
    """Returns how a client ends with a reader that refuses this request, and what came to the reader."""
    with socket.create_server(("127.0.0.1", 0)) as listener:
        came = []

        def serve():
            with accept(listener) as peer:
                reader = Refusing(peer, refuses, by_error)
                try:
                    reader.serve()
                except OSError:
                    pass  # (the client ended)
                came.extend(reader.came)

        serving = threading.Thread(target=serve, daemon=True)
        serving.start()
        try:
            done = client(listener.getsockname()[1], 1)
        except subprocess.TimeoutExpired:
            return None, "", []
        serving.join(LONGEST)
        return done.returncode, done.stderr.split(":")[0], came


def client_is_refused(client, leaves):
    """Returns whether a client sends its requests in order, and ends at the first one that is refused, in either way; one that leaves deletes the
    ROSpec that it added and closes the connection then."""
    requests = {20: "ADD", 24: "ENABLE", 22: "START", 21: "DELETE"}
    if client_with(client, None, False) != (0, "", [*requests.values(), "CLOSE"]):
        return False
    for number, (kind, name) in enumerate(requests.items(), 1):
        for by_error in (False, True):
            sent = list(requests.values())[:number]
            if leaves:
                sent += [*(["DELETE"] if 1 < number < len(requests) else []), "CLOSE"]
            wanted = (1, f"{name}_ROSPEC was refused", sent)
            if client_with(client, kind, by_error) != wanted:
                return False
    return True


def main():
    program = os.path.abspath(sys.argv[1])
    subprocess.run([os.path.join(TOP, "library.sh")], check=True)
    ran = list(run_page(program))
    wrong = [f"{command}\n" + "\n".join(found) for command, found, wanted in ran if found != wanted]
    most = COMMANDS if may_capture() else COMMANDS - sum(len(it) for it in examples(PAGE) if captures(it))
    wrong += [f"{len(ran)} commands are run, and not {most}"] if len(ran) != most else []
    others = {
        "the filter before the broker": filters_at_once(),
        "examples/seen.awk": tags_are_rows(),
        "examples/python/client.py": client_works(program, run_client),
        "examples/python/client.py, refused": client_is_refused(run_client, True),
        "examples/python/async_client.py": client_works(program, run_async_client),
        "examples/python/async_client.py, refused": client_is_refused(run_async_client, False),
    }
    wrong += [what for what, is_right in others.items() if not is_right]
    for it in wrong:
        print(f"WRONG: {it}")
    return finish(max(len(ran) + len(others) - len(wrong), 0), len(wrong), most + len(others))


if __name__ == "__main__":
    sys.exit(main())
