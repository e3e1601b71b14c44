#!/usr/bin/env python3
"""Runs the program llrp over devices that fail: a standard output that is closed, full or closes early, peers that close, reset or
pause the connection after each octet of a whole exchange, readers that fall silent, and terminals.

usage: tests/failing_devices.py [PROGRAM]

Each run has to end by itself with a documented status, and with one line on standard error where the status is not 0. What it
wrote is a front of what it writes without failure, and no tag line is lost or doubled. Build the program first, by
./llrp --help. The last line is `N passed, M failed`, and the status is 1 if a run failed.
"""
import collections
import concurrent.futures
import contextlib
import functools
import os
import pty
import re
import socket
import struct
import subprocess
import sys
import termios
import time

from parts.counting import finish
from parts.ports import held_port, listens_at, wait_until
from parts.repository import TOP, program_given

# How many runs there are: with each device, and with a peer that does each of three things after each octet.
LEAST = 2285
# How long a run may take, and how long a peer that pauses does nothing, in seconds.
LONGEST, PAUSE = 20, 0.02
# How many connections at a time.
AT_ONCE = 4

# An exchange of three sightings, reported after two and when they are asked for (LLRP 1.1, section 17.1).
with open(os.path.join(TOP, "examples/inventory.script"), "rb") as file:
    SCRIPT = file.read()
# A ROSpec on two antennas, with a report for each tag.
ROSPEC = os.path.join(TOP, "examples/two_antennas.rospec")
FIRST_LINES = b"""\
urn:epc:tag:sgtin-96:3.0614141.812345.6789 1 -60
urn:epc:tag:sscc-96:0.0614141.0000000001 1 -61
= 2
"""
SECOND_LINES = b"urn:epc:tag:gid-96:1.2.3 2 -62\n= 1\n"
TOTAL_LINE = b"total 3 2\n"
LINES = FIRST_LINES + SECOND_LINES + TOTAL_LINE
# The same sightings where each is awaited by itself.
AWAITED_LINES = b"".join(line + b"= 1\n" for line in (FIRST_LINES + SECOND_LINES).splitlines(True) if b"=" not in line) + b"total 3 3\n"
# What the client sends: ADD_ROSPEC, ENABLE_ROSPEC, START_ROSPEC, GET_REPORT, STOP_ROSPEC, DELETE_ROSPEC, CLOSE_CONNECTION.
REQUESTS = [
    "04140000004B00000001 00B10041000000010000 00B20012 00B3000500 00B600090000000000 00B7001800010000 00B800090000000000"
    "00BA0007000101 00ED000D020002 00EE00061400",
    "04180000000E0000000200000001",
    "04160000000E0000000300000001",
    "043C0000000A00000004",
    "04170000000E0000000500000001",
    "04150000000E0000000600000001",
    "040E0000000A00000007",
]
# What the reader sends, the second frame of each report and event among them.
ANSWERS = [
    "043F0000002000000001 00F60016 0080000C0000000000000000 010000060000",
    "041E0000001200000001 011F000800000000",
    "04220000001200000002 011F000800000000",
    "04200000001200000003 011F000800000000",
    "043F0000002700000002 00F6001D 0080000C0000000000000000 00F9000D000000000100000000",
    "043D0000003600000003 00F00016 8D3074257BF7194E4000001A85 810001 86C4"
    "00F00016 8D3114257BF400000001000000 810001 86C3",
    "043D0000002000000004 00F00016 8D350000001000002000000003 810002 86C2",
    "043F0000002700000005 00F6001D 0080000C0000000000000BB8 00F9000D010000000100000000",
    "04210000001200000005 011F000800000000",
    "041F0000001200000006 011F000800000000",
    "04040000001200000007 011F000800000000",
]
FIRST_REPORT, SECOND_REPORT = 5, 6
# A report of two tags in the place of the first: of the second one EPCData has 4 bits, and nothing else is said of it (LLRP 1.1, section 17.2.7).
OTHER_TAGS = "043D0000002B00000003 00F00016 8D3074257BF7194E4000001A85 810001 86C4 00F0000B 00F10007 0004 A0"
KEEPALIVES = bytes.fromhex("043E0000000A00000063") * 1000
# The documented error lines, and their statuses.
STATUS_OF = {b"llrp: early\n": 1, b"llrp: read\n": 3, b"llrp: write\n": 3, b"llrp: network\n": 3}


def octets(frames):
    return bytes.fromhex("".join(frames))


UP, DOWN = octets(REQUESTS), octets(ANSWERS)

# A client of `sim`: the options that it needs, what it sends, what it is answered, and how many frames before any request and
# after each.
Client = collections.namedtuple("Client", "options requests answers by_request")
PLAIN = Client([], REQUESTS, ANSWERS, [1, 1, 1, 3, 1, 2, 1, 1])
# It begins with GET_SUPPORTED_VERSION and GET_READER_CONFIG, which only `sim --all` answers.
GENERAL = Client(
    ["--all"],
    ["082E0000000A00000007", "0402000000110000000600000000000000", *REQUESTS],
    [
        ANSWERS[0],
        "083800000014000000070102 011F000800000000",
        "040C0000003300000006 011F000800000000 00DA000F0000080000000000000000 00DD00098000010000 00DD00098000020000",
        *ANSWERS[1:],
    ],
    [1, 1, *PLAIN.by_request],
)


def start(program, words, out=subprocess.PIPE, before=None):
    how = {"stdin": subprocess.PIPE, "stdout": out, "stderr": subprocess.PIPE, "preexec_fn": before}
    return subprocess.Popen([program, *words], **how)


def end(run, given=None):
    """Returns the status, standard output and standard error of a run that ends by itself."""
    try:
        out, err = run.communicate(given, timeout=LONGEST)
    except subprocess.TimeoutExpired:
        run.kill()
        run.communicate()
        return None, b"", b"no end"
    return run.returncode, out or b"", err


def is_documented(status, err):
    """Whether a run that did not come to its fine end has one documented line, and that line's status."""
    return err in STATUS_OF and STATUS_OF[err] == status


# ---- standard output


def stream_commands():
    """Returns the words, the input and the output of each command that prints."""
    def example(name):
        with open(os.path.join(TOP, "examples", name), "rb") as file:
            return file.read()

    keepalive, text = example("keepalive.hex"), example("report.txt")
    report = bytes.fromhex(example("report.hex").decode())
    return [
        (["show", "--hex"], keepalive, b"0 KEEPALIVE 2 7\n"),
        (["show"], report, text),
        (["show"], report * 3000, text * 3000),
        (["encode"], text, report),
        (["encode"], text * 5000, report * 5000),
        (["encode", "--hex"], text, report.hex().upper().encode() + b"\n"),
        (["epc", "3074257BF7194E4000001A85"], b"", b"urn:epc:tag:sgtin-96:3.0614141.812345.6789\n"),
        (["loop", "--every", "2"], SCRIPT, LINES),
        (["loop", "--reports", "3", "--check"], SCRIPT, AWAITED_LINES),
        (["loop", "--rospec", ROSPEC, "--reports", "3"], SCRIPT, AWAITED_LINES),
    ]


def close_output():
    os.close(1)


def over_closed(program, words, given, wanted):
    status, _, err = end(start(program, words, None, close_output), given)
    return (status, err) == (3, b"llrp: write\n")


def over_full(program, words, given, wanted):
    with open("/dev/full", "wb") as full:
        status, _, err = end(start(program, words, full), given)
    return (status, err) == (3, b"llrp: write\n")


def over_broken_pipe(program, words, given, wanted):
    """The pipe has no reader from the start."""
    reading, writing = os.pipe()
    os.close(reading)
    run = start(program, words, writing)
    os.close(writing)
    status, _, err = end(run, given)
    return (status, err) == (3, b"llrp: write\n")


def over_closing_pipe(program, words, given, wanted):
    """The pipe's reader takes a first piece and closes. What is longer than a pipe holds can't be written."""
    reading, writing = os.pipe()
    run = start(program, words, writing)
    os.close(writing)
    feeding = concurrent.futures.ThreadPoolExecutor(1).submit(end, run, given)
    piece = os.read(reading, 10)
    os.close(reading)
    status, _, err = feeding.result()
    fine = (status, err) == (0, b"") and len(wanted) < 65_536
    return wanted.startswith(piece) and (fine or (status, err) == (3, b"llrp: write\n"))


def output_runs(program):
    for words, given, wanted in stream_commands():
        name = f"{' '.join(words)}, {len(given)} octets in"
        status, out, err = end(start(program, words), given)
        yield f"{name}, no failure", (status, out, err) == (0, wanted, b"")
        for device in (over_closed, over_full, over_broken_pipe, over_closing_pipe):
            yield f"{name}, {device.__name__}", device(program, words, given, wanted)


# ---- peers


def reset(peer):
    """Closes a connection so that the other end meets a reset."""
    peer.setsockopt(socket.SOL_SOCKET, socket.SO_LINGER, struct.pack("ii", 1, 0))
    peer.close()


def read_to_end(peer):
    said = b""
    try:
        while piece := peer.recv(4096):
            said += piece
    except ConnectionError:
        pass
    return said


def read_count(peer, count):
    said = b""
    while len(said) < count and (piece := peer.recv(4096)):
        said += piece
    return said


def whole_frames(frames, count):
    """Returns how many of the frames are whole in the first `count` octets."""
    place = number = 0
    for frame in frames:
        place += len(octets([frame]))
        number += place <= count
    return number


def lines_after(count):
    """Returns the lines of the reports that are whole in the first `count` octets from the reader."""
    number = whole_frames(ANSWERS, count)
    lines = FIRST_LINES * (number > FIRST_REPORT) + SECOND_LINES * (number > SECOND_REPORT)
    return lines + TOTAL_LINE * (number == len(ANSWERS))


def asked_after(count):
    """Returns the requests that a client has sent once it took `count` octets: one at the connection and at each answer
    that leads on; the first report leads on from GET_REPORT."""
    number = whole_frames(ANSWERS, count)
    leading = [0, 1, 2, 3, FIRST_REPORT, 8, 9]
    return octets(REQUESTS[: sum(number > place for place in leading)])


def connect(port, run):
    """Connects to a port where a run will listen."""
    wait_until(lambda: listens_at(port) or run.poll() is not None, LONGEST, "sim listens")
    if run.poll() is not None:
        raise OSError("sim ended before its client came")
    return socket.create_connection(("127.0.0.1", port), timeout=LONGEST)


def listening(program, options=()):
    """Returns a run of `sim` with these options, and a connection to it."""
    with held_port() as port:
        run = start(program, ["sim", str(port), *options])
        run.stdin.write(SCRIPT)
        run.stdin.close()
        run.stdin = None
        return run, connect(port, run)


def serve(client, program, count, how):
    """Runs `sim`; this client sends `count` octets, and then closes, resets or pauses. Returns how it ended, what the
    client met, and what the script's reader has to say to the whole frames."""
    sent = octets(client.requests)
    run, peer = listening(program, client.options)
    peer.sendall(sent[:count])
    if how == "resets":
        time.sleep(PAUSE)
        said = b""
        reset(peer)
    else:
        if how == "pauses":
            time.sleep(PAUSE)
            peer.sendall(sent[count:])
        peer.shutdown(socket.SHUT_WR)
        said = read_to_end(peer)
        peer.close()
    return (*end(run), said)


def said_after(client, count):
    """Returns what the reader says to the first `count` octets of a client: its frames by the request that they follow."""
    number = whole_frames(client.requests, count)
    return octets(client.answers[: sum(client.by_request[: number + 1])])


def serves_well(client, program, count, how):
    status, out, err, said = serve(client, program, count, how)
    if how == "pauses":
        return (status, out, err, said) == (0, b"", b"", octets(client.answers))
    at_frame = count in {len(octets(client.requests[:number])) for number in range(len(client.requests) + 1)}
    if how == "closes":
        ended = (0, b"") if at_frame else (1, b"llrp: early\n")
        return (status, err) == ended and out == b"" and said == said_after(client, count)
    return out == b"" and ((status, err) == (0, b"") and count == len(octets(client.requests)) or is_documented(status, err))


def take_inventory(program, count, how):
    """Runs `inventory`; its reader sends `count` octets, and then closes, resets or pauses. Returns how it ended, and what
    the client sent."""
    with socket.create_server(("127.0.0.1", 0)) as listener:
        words = ["inventory", "127.0.0.1", str(listener.getsockname()[1]), "--every", "2"]
        run = start(program, words)
        listener.settimeout(LONGEST)
        peer, _ = listener.accept()
        peer.settimeout(LONGEST)
        peer.sendall(DOWN[:count])
        if how == "resets":
            sent = read_count(peer, len(asked_after(count)))
            time.sleep(PAUSE)
            reset(peer)
        else:
            if how == "pauses":
                time.sleep(PAUSE)
                peer.sendall(DOWN[count:])
            peer.shutdown(socket.SHUT_WR)
            sent = read_to_end(peer)
            peer.close()
        return (*end(run), sent)


def inventory_from(program, frames, *options):
    """Returns the status and the error line of `inventory` with these options, whose reader sends these frames and closes."""
    with socket.create_server(("127.0.0.1", 0)) as listener:
        run = start(program, ["inventory", "127.0.0.1", str(listener.getsockname()[1]), "--every", "2", *options])
        listener.settimeout(LONGEST)
        peer, _ = listener.accept()
        with peer:
            peer.settimeout(LONGEST)
            peer.sendall(octets(frames))
            peer.shutdown(socket.SHUT_WR)
            read_to_end(peer)
        status, _, err = end(run)
        return status, err.decode()


def sim_to(program, stream):
    """Returns the status and the error line of `sim`, whose client sends this stream and closes."""
    run, peer = listening(program)
    with peer:
        peer.sendall(stream)
        peer.shutdown(socket.SHUT_WR)
        read_to_end(peer)
    status, _, err = end(run)
    return status, err.decode()


def inventories_well(program, count, how):
    status, out, err, sent = take_inventory(program, count, how)
    if how == "pauses" or (how == "closes" and count == len(DOWN)):
        return (status, out, err, sent) == (0, LINES, b"", UP)
    if how == "closes":
        return (status, out, err, sent) == (1, lines_after(count), b"llrp: early\n", asked_after(count))
    fine = (status, err) == (0, b"") and count == len(DOWN)
    return out == lines_after(count) and sent == asked_after(count) and (fine or is_documented(status, err))


def is_well(runs_well, *row):
    """Whether a row ends as it has to; a connection that the script itself can't use counts as failed."""
    try:
        return runs_well(*row)
    except OSError as error:
        print(f"{row}: {error}", flush=True)
        return False


def peer_runs(program):
    rows = [
        ("sim", functools.partial(serves_well, PLAIN), UP),
        ("sim --all", functools.partial(serves_well, GENERAL), octets(GENERAL.requests)),
        ("inventory", inventories_well, DOWN),
    ]
    with concurrent.futures.ThreadPoolExecutor(AT_ONCE) as pool:
        for name, runs_well, stream in rows:
            for how in ("closes", "resets", "pauses"):
                counts = range(len(stream) + 1)
                runs = [pool.submit(is_well, runs_well, program, count, how) for count in counts]
                for count, run in zip(counts, runs):
                    yield f"{name}, whose peer {how} after {count} octets", run.result()


def inventory_over(program, device):
    """Runs `inventory` over a standard output that fails, with a reader that says all."""
    with socket.create_server(("127.0.0.1", 0)) as listener:
        words = ["inventory", "127.0.0.1", str(listener.getsockname()[1]), "--every", "2"]
        if device == "closed":
            run = start(program, words, None, close_output)
        else:
            with open("/dev/full", "wb") as full:
                run = start(program, words, full)
        listener.settimeout(LONGEST)
        peer, _ = listener.accept()
        peer.settimeout(LONGEST)
        peer.sendall(DOWN)
        sent = read_to_end(peer)
        peer.close()
        status, _, err = end(run)
        return (status, err) == (3, b"llrp: write\n") and UP.startswith(sent)


def inventory_of_silence(program, count):
    """Runs `inventory --timeout 1` with a reader that says `count` octets and then nothing, with the connection open."""
    with socket.create_server(("127.0.0.1", 0)) as listener:
        words = ["inventory", "127.0.0.1", str(listener.getsockname()[1]), "--every", "2", "--timeout", "1"]
        run = start(program, words)
        listener.settimeout(LONGEST)
        peer, _ = listener.accept()
        with peer:
            peer.sendall(DOWN[:count])
            status, out, err = end(run)
        return (status, out, err) == (3, lines_after(count), b"llrp: read\n")


def inventory_of_deafness(program):
    """Runs `inventory --timeout 1` with a reader that sends KEEPALIVEs without an end and reads none of the answers."""
    with socket.create_server(("127.0.0.1", 0)) as listener:
        listener.setsockopt(socket.SOL_SOCKET, socket.SO_RCVBUF, 4096)
        run = start(program, ["inventory", "127.0.0.1", str(listener.getsockname()[1]), "--timeout", "1"])
        listener.settimeout(LONGEST)
        peer, _ = listener.accept()
        with peer:
            peer.settimeout(LONGEST)
            try:
                peer.sendall(octets(ANSWERS[:1]))
                while run.poll() is None:
                    peer.sendall(KEEPALIVES)
            except OSError:
                pass  # (the client ended, or takes no more)
            return end(run) == (3, b"", b"llrp: write\n")


def in_terminal(program, words, given):
    """Runs the program with a terminal as standard input and standard error, at which somebody types, and returns its status, its
    output, and what the terminal shows but what was typed."""
    screen, terminal = pty.openpty()
    modes = termios.tcgetattr(terminal)
    modes[3] &= ~termios.ECHO
    termios.tcsetattr(terminal, termios.TCSANOW, modes)
    run = subprocess.Popen([program, *words], stdin=terminal, stdout=subprocess.PIPE, stderr=terminal)
    os.write(screen, given + b"\x04")
    out, _ = run.communicate(timeout=LONGEST)
    os.close(terminal)
    shown = b""
    try:
        while piece := os.read(screen, 4096):
            shown += piece
    except OSError:
        pass  # (how a terminal ends that no one else has open)
    os.close(screen)
    return run.returncode, out, shown.replace(b"\r\n", b"\n")


def terminal_runs(program):
    """Yields whether `show` and `encode` say once that they wait for input, and only to a person."""
    waiting = b"llrp: waiting for input on this terminal; Ctrl-D ends it\n"
    listing, digits = b"0 KEEPALIVE 2 7\n", b"083E0000000A00000007\n"
    yield "show in a terminal", in_terminal(program, ["show", "--hex"], digits) == (0, listing, waiting)
    yield "encode in a terminal", in_terminal(program, ["encode", "--hex"], listing) == (0, digits, waiting)
    yield "loop in a terminal", b"waiting" not in in_terminal(program, ["loop"], b"")[2]
    yield from (("the count of loop in a terminal" + option, counts_in_terminal(program, option)) for option in ("", " --json"))
    yield from (("the count of inventory in a terminal" + option, counts_of_inventory(program, option)) for option in ("", " --json"))
    yield "help in a terminal", in_terminal(program, ["show", "--help"], b"")[2] == b""
    run = start(program, ["show", "--hex"])
    yield "show in a pipe", end(run, digits) == (0, listing, b"")


def counts_to(shown, tags):
    """Returns whether a terminal shows a count from none to so many tags, each number in the place of the one before, and in the end none."""
    counts = [int(it) for it in re.findall(rb"\rllrp: connected, (\d+) tags\r\x1b\[K", shown)]
    is_whole = re.fullmatch(rb"(?:\rllrp: connected, \d+ tags\r\x1b\[K)+", shown) is not None
    return is_whole and counts == sorted(counts) and (counts[0], counts[-1]) == (0, tags)


def counts_in_terminal(program, option):
    """Returns whether `loop` shows how many tags it printed so far."""
    status, out, shown = in_terminal(program, f"loop --every 2{option}".split(), SCRIPT)
    return status == 0 and out.count(b"urn:epc:") == 3 and counts_to(shown, 3)


def counts_of_inventory(program, option):
    """Returns whether `inventory` counts a tag whose EPC has four bits as it does the others, and no other line."""
    frames = [*ANSWERS[:FIRST_REPORT], OTHER_TAGS, *ANSWERS[SECOND_REPORT:]]

    def answer(listener):
        peer, _ = listener.accept()
        with peer:
            peer.sendall(octets(frames))
            peer.shutdown(socket.SHUT_WR)
            read_to_end(peer)

    with socket.create_server(("127.0.0.1", 0)) as listener, concurrent.futures.ThreadPoolExecutor(1) as pool:
        listener.settimeout(LONGEST)
        answering = pool.submit(answer, listener)
        port = str(listener.getsockname()[1])
        status, out, shown = in_terminal(program, ["inventory", "127.0.0.1", port, "--every", "2", *option.split()], b"")
        answering.result(LONGEST)
    return (status, out.count(b"urn:epc:"), out.count(b"bits 4 xa0")) == (0, 2, 1) and counts_to(shown, 3)


def pipe_with(octets):
    """Returns the reading end of a pipe that holds these octets, as a path, and the end itself."""
    reading, writing = os.pipe()
    os.write(writing, octets)
    os.close(writing)
    return f"/dev/fd/{reading}", reading


def over_rospec(program, octets):
    """Runs `loop` with a ROSpec that comes through a pipe and ends after these octets."""
    path, reading = pipe_with(octets)
    how = {"input": SCRIPT, "capture_output": True, "timeout": LONGEST, "pass_fds": [reading]}
    done = subprocess.run([program, "loop", "--rospec", path, "--reports", "3"], **how)
    os.close(reading)
    return done.returncode, done.stdout, done.stderr


def rospec_runs(program):
    """Yields whether a file of `--rospec` that cannot be read, or is cut after any octet, ends the command before anything is read or sent."""
    refused = (3, b"", b"llrp: rospec\n")
    for path in ("/", "/there/is/no/such/file", ROSPEC + "/file", "", "/proc/self/mem"):
        run = start(program, ["loop", "--rospec", path])
        yield f"--rospec {path}", end(run, SCRIPT) == refused
    run = start(program, ["loop", "--rospec", ROSPEC, "--reports", "3"], None, close_output)
    yield "--rospec, its descriptor that of a closed standard output", end(run, SCRIPT)[::2] == (3, b"llrp: write\n")
    run = start(program, ["loop", "--rospec", ROSPEC], before=lambda: os.close(0))
    yield "--rospec, its descriptor that of a closed standard input", end(run)[::2] == (3, b"llrp: read\n")
    with open(ROSPEC, "rb") as file:
        text = file.read()
    yield "--rospec through a pipe", over_rospec(program, text) == (0, AWAITED_LINES, b"")
    lines = text.splitlines(True)
    # what may end the ROSpec: the InventoryParameterSpec and each line of its settings
    whole = {len(b"".join(lines[:number])) for number in range(7, 12)}
    for count in sorted(set(range(len(text))) - whole):
        status, out, err = over_rospec(program, text[:count])
        is_told = (status, out) == (1, b"") and err.startswith(b"llrp: rospec line ") and err.count(b"\n") == 1
        yield f"--rospec, cut after {count} octets", is_told


def is_served_at_home_only(program):
    """Returns whether `sim` takes no connection to another address of this machine than 127.0.0.1, and then serves its client."""
    with held_port() as port:
        run = start(program, ["sim", str(port)])
        run.stdin.close()
        run.stdin = None
        wait_until(lambda: listens_at(port) or run.poll() is not None, LONGEST, "sim listens")
        try:
            socket.create_connection(("127.0.0.2", port), timeout=LONGEST).close()
            is_taken = True
        except ConnectionRefusedError:
            is_taken = False
        with contextlib.suppress(OSError), connect(port, run) as peer:
            peer.shutdown(socket.SHUT_WR)
            read_to_end(peer)
        return end(run) == (0, b"", b"") and not is_taken


def all_runs(program):
    yield from output_runs(program)
    yield from terminal_runs(program)
    yield from rospec_runs(program)
    yield "sim, a connection to 127.0.0.2", is_well(is_served_at_home_only, program)
    for count in (0, 5, len(DOWN) // 2):
        yield f"inventory of a reader that is silent after {count} octets", is_well(inventory_of_silence, program, count)
    yield "inventory of a reader that reads nothing", is_well(inventory_of_deafness, program)
    for device in ("closed", "full"):
        yield f"inventory, its output {device}", is_well(inventory_over, program, device)
    yield from peer_runs(program)


def main():
    program = program_given()
    passed = failed = 0
    for name, well in all_runs(program):
        passed, failed = passed + well, failed + (not well)
        if not well:
            print(f"FAILED: {name}", flush=True)
    return finish(passed, failed, LEAST)


if __name__ == "__main__":
    sys.exit(main())
