#!/usr/bin/env python3
"""Runs the scripts beside the program: ./llrp, build.py, library.sh, install.sh, and those below bench/ on their least input.

usage: tests/programs.py [PROGRAM]

PROGRAM is llrp, crates/llrp/out/llrp where none is given; it and the library for C have to be newer than their sources. What build.py,
library.sh and ./llrp call is a stub of the toolchain's command. The last line is `N passed, M failed`; the status is 1 if something
failed.
"""
import ctypes
import io
import os
import pty
import re
import shutil
import signal
import subprocess
import sys
import tempfile
import time

from parts.counting import finish_results, text_of
from parts.repository import TOP, program_given

LEAST = 185 + 36
# What stubs of the toolchain do: each notes where and with which words it is called; then it proves and links, or fails in one of these.
CALLED = 'echo "${PWD##*/} $*" >>"$(dirname "$0")/calls"\n'
LINKS = 'mkdir -p out; printf "#!/bin/sh\\necho built \\$*; exit 5" >out/${PWD##*/}; chmod +x out/${PWD##*/}'
PROVES = 'echo "crate ${{PWD##*/}}: modules loaded=1 checked=1"; echo "logic=proved"; touch edited.rt; if [ "$1" = run ]; then {}; fi'
REFUSES = 'echo "src/lib.rt:1:1: error: no proof"; echo "crate ${PWD##*/}: modules loaded=1 checked=1"; echo "logic=not-proved"; exit 1'
FAILURES = {
    "not proved": (REFUSES, " is not proved, so the program was not built\nsrc/lib.rt:1:1: error: no proof\n"),
    "an end without a word": (f'if [ "$1" = run ]; then exit 2; else {LINKS}; fi', "the crate llrp is not proved"),
    "no program": (PROVES.format("true"), "the crate llrp is not proved"),
    "an end while it links": (PROVES.format(f"{LINKS}; exit 2"), "the crate llrp is not proved"),
}
UNPROVED = 'echo "0 KEEPALIVE 2 7"; echo "run=ended status=1 " >&2; exit 1'
# The library for C that the stub makes of these, and the heap that the toolchain adds.
LIBRARY = 'if [ "$1" = doc ]; then echo "$(dirname "$0")/page"; else mkdir -p out; cp "$(dirname "$0")/given.a" out/libllrp_c.a; fi'
ARCHIVES = {"given.a": "int heap(void); int llrp_given(void) { return heap() + 12; }", "c/liblibc_c.a": "int heap(void) { return 34; }"}
# A folder's name with what a script has to quote.
ODD = "a 'b\" $c "
# How long a script may take until it is where it is interrupted, in seconds.
LONGEST = 60
# The package for Python: where install.sh puts it, its files and its commands.
PACKAGE = "lib/python3/dist-packages/llrp_epc"
MODULES = (
    "__init__.py _bench.py _checks_access.py _checks_connections.py _checks_readers.py _checks_rospecs.py _definitions.py _library.py _llrp.py"
    " _messages.py _standard.py _texts.py _typed.py client.py conform.py conform_pytest.py enumerations.tsv impinj.tsv ltkxml.py makers.py py.typed"
    " standard.tsv test_conform.py"
)
COMMANDS = ("llrp-conform", "llrp-makers", "llrp-xml")
PAGES = "capture client conform errors json library makers recipes service sim tables xml"
# Where install.sh puts each file.
INSTALLED = {
    "bin/llrp": "crates/llrp/out/llrp",
    "bin/llrp-capture": "llrp-capture",
    "lib/libllrp_c.a": "out/libllrp_c.a",
    "lib/libllrp_c.so": "out/libllrp_c.so.0",
    "lib/libllrp_c.so.0": "out/libllrp_c.so.0",
    **{f"{PACKAGE}/{it}": f"python/llrp_epc/{it}" for it in MODULES.split()},
    **{f"bin/{it}": f"python/bin/{it}" for it in COMMANDS},
    **{f"share/man/man1/{it}.1": f"docs/{it}.1" for it in COMMANDS},
    "include/llrp.h": "include/llrp.h",
    "share/man/man1/llrp.1": "docs/llrp.1",
    "share/man/man1/llrp-capture.1": "docs/llrp-capture.1",
    "share/man/man3/llrp.3": "docs/llrp.3",
    **{f"share/doc/llrp/{it}.md": f"docs/{it}.md" for it in PAGES.split()},
    "share/bash-completion/completions/llrp": "completions/llrp.bash",
    "share/zsh/site-functions/_llrp": "completions/_llrp",
    "share/fish/vendor_completions.d/llrp.fish": "completions/llrp.fish",
}
EXAMPLES = (
    "add_rospec.xml answers c/seen.c c/tags.c explain.py fault.hex inventory.pcap inventory.script keepalive.hex makers.script python/async_client.py"
    " python/client.py python/test_client.py report.hex report.txt requests.txt rospec.txt seen.awk shift.txt sightings.script sinks/kafka"
    " sinks/queries.sql sinks/schema.sql sinks/web tid.access two_antennas.rospec"
)
INSTALLED |= {f"share/doc/llrp/examples/{it}": f"examples/{it}" for it in EXAMPLES.split()}
INSTALLED |= {
    "lib/systemd/system/llrp-day.service": "examples/systemd/llrp-day.service",
    "lib/systemd/system/llrp-day.timer": "examples/systemd/llrp-day.timer",
    "lib/sysusers.d/llrp.conf": "examples/systemd/sysusers.conf",
    "lib/llrp/llrp-forward": "examples/systemd/llrp-forward",
    "lib/llrp/forward/broker": "examples/sinks/broker",
    "lib/llrp/forward/database": "examples/sinks/database",
}
# What install.sh writes itself: what pkg-config says, and files with PREFIX in the place of /usr/local.
MADE = "lib/pkgconfig/llrp.pc"
WRITTEN = {
    "lib/systemd/system/llrp-watch@.service": "examples/systemd/llrp-watch@.service",
    "lib/systemd/system/llrp-forward@.service": "examples/systemd/llrp-forward@.service",
    "lib/tmpfiles.d/llrp.conf": "examples/systemd/tmpfiles.conf",
}
# Values of PREFIX with what a unit, a shell or pkg-config would read as a word of its own.
ODD_PREFIXES = ("/tmp/llrp a", "/tmp/llrp|a", "/tmp/llrp&a", "/tmp/llrp\\a", "/tmp/llrp%a", "/tmp/llrp$a", "/tmp/llrp'a", '/tmp/llrp"a', "/tmp/llrp\na", "/tmp/llrp;a")
CONFIGURATION = """\
prefix={prefix}
libdir=${{prefix}}/lib
includedir=${{prefix}}/include

Name: llrp
Description: EPC tags, and listings of streams of LLRP
Version: {version}
Libs: -L${{libdir}} -lllrp_c
Cflags: -I${{includedir}}
"""
# Each benchmark with its least input, how its lines with figures begin, and the form of the figures.
HEADING = re.compile(r" {9}|For each octet|\d+ reports, ")
RATE = r" +[\d.]+ MB/s by wall +[\d.]+ MB/s by processor +[\d.]+ MB of memory"
KINDS = ["reports", "rich", "keepalives", "events"]
OPTIONS = ["show --all", "encode --all", "show --json", "show --all --json"]
COSTS = []
for kind in KINDS:
    COSTS += [f"{kind:12} {command:6}" for command in ("show", "encode")]
    COSTS += [f"{kind:12} {words:18}" for words in OPTIONS if kind != "keepalives"]
SCHEMES = ["sgtin", "sscc", "sgln", "grai", "gdti", "gsrn", "gid", "raw", "mix"]
BENCHMARKS = [
    ("show.sh", ["1"], {}, ["cat", "wc -l", "xxd -p", "llrp show", "llrp encode"], RATE),
    ("encode.sh", ["1"], {}, ["cat", "llrp encode", "reports:", "KEEPALIVE lines:"], RATE + r"| [\d.]+ instructions an octet"),
    ("costs.sh", [], {"MB": "1"}, [*COSTS, f"{'faulty':12} show  "], r" +[\d.]+( +[\d.]+)?"),
    ("tree.sh", ["100"], {}, ["decode_frame", "encode_into"] * 2, r" +[\d.]+ MB/s +[\d.]+ MB/s"),
    ("stream.sh", [], {}, ["reports", "events", "keepalive"], r" +[\d.]+ by a listener that does nothing +[\d.]+ by the decoder"),
    ("epc.sh", ["21"], {}, SCHEMES, r" +\d+ +\d+ +[\d.]+ +[\d.]+"),
    ("list.sh", ["21"], {}, ["tag", "pure", "element", "link", "key", "hex"], r" +\d+ +\d+"),
]

# Runs two functions of the benchmarks over a million octets: two seconds by the wall and four by the processor, 3,000 KB; and three times.
FIGURES = """
work=$1
source <(sed -n '/^measure()/,/^}/p' bench/common.sh; sed -n '/^least()/,/^}/p' bench/costs.sh)
/usr/bin/time() { echo '2 1 3 3000' > "$4"; }
head -c 1000000 /dev/zero > "$work/long"
measure name "$work/long" true
printf '3\\n1\\n2\\n' > "$work/seconds"
least "$work/seconds"
"""


def run(*words, cwd=TOP, **environment):
    """Returns the status, standard output and standard error of a command."""
    how = {"cwd": cwd, "env": {**os.environ, **environment}, "stdin": subprocess.DEVNULL}
    done = subprocess.run(words, capture_output=True, text=True, timeout=1200, **how)
    return done.returncode, done.stdout, done.stderr


def version():
    """Returns the version of the sources."""
    return re.search(r'const VERSION: &str = "([^"]+)"', text_of("crates/llrp_words/src/arguments/commands.rt"))[1]


def octets_of(path):
    with open(path, "rb") as file:
        return file.read()


def checks_of_llrp(program, folder):
    """Yields whether ./llrp runs the program that was built, by its own name and by a link."""
    link = os.path.join(folder, "link")
    os.symlink(os.path.join(TOP, "llrp"), link)
    for words in ([program], ["./llrp"], [link]):
        yield f"{words} --version", run(*words, "--version") == (0, f"llrp {version()}\n", "")
    yield "./llrp passes its words and its status on", run("./llrp", "epc", "x")[:2] == run(program, "epc", "x")[:2] == (1, "! Start\n")


def crates_of(last):
    """Returns a crate of crates.txt, and all of that file's that it stands on."""
    rows = dict(re.findall(r"(?m)^(\w+)[^:#\n]*:(.*)$", text_of("crates.txt")))
    found, left = set(), [last]
    while left:
        found.add(crate := left.pop())
        left += [it for it in rows[crate].split() if it in rows and it not in found]
    return found


def copy_of_sources(folder, name):
    """Copies what the scripts read into a folder of its own, and returns that."""
    copy = os.path.join(folder, name)
    os.mkdir(copy)
    for file in ("llrp", "build.py", "library.sh", "crates.txt"):
        shutil.copy(os.path.join(TOP, file), copy)
    for line in text_of("crates.txt").splitlines():
        if ":" in line and not line.startswith("#"):
            os.makedirs(os.path.join(copy, "crates", line.split(":")[0].split()[0]))
    return copy


class Toolchain:
    """A stub of the toolchain's command."""

    def __init__(self, folder, body):
        self.place = tempfile.mkdtemp(dir=folder)
        self.path = f"{self.place}:{os.environ['PATH']}"
        with open(os.path.join(self.place, "rt"), "w", encoding="utf-8") as file:
            file.write(f"#!/bin/bash\n{CALLED}{body}\n")
        os.chmod(os.path.join(self.place, "rt"), 0o755)

    def calls(self):
        """Returns in which folders and with which words it was called."""
        calls = os.path.join(self.place, "calls")
        return octets_of(calls).decode().splitlines() if os.path.exists(calls) else []


def without_toolchain(folder):
    """Returns a PATH with the tools that the scripts need, and without the toolchain's command."""
    place = os.path.join(folder, "tools")
    os.mkdir(place)
    for tool in ("bash", "python3", "env", "dirname", "readlink", "find", "date", "touch"):
        os.symlink(os.path.realpath(shutil.which(tool)), os.path.join(place, tool))
    return place


def later(path):
    """Makes a file, or keeps the one that is there, newer than all others."""
    with open(path, "a", encoding="utf-8"):
        pass
    os.utime(path, (4e9, 4e9))


def checks_of_failures(folder):
    """Yields how build.py and ./llrp end where the toolchain fails, is missing, or is interrupted."""
    missing = without_toolchain(folder)
    paths = {what: (Toolchain(folder, body).path, told) for what, (body, told) in FAILURES.items()}
    for what, (path, told) in {**paths, "no toolchain": (missing, "rt: not found")}.items():
        for name, status, *words in (("./build.py", 1), ("./llrp", 125, "loop")):
            found, out, err = run(name, *words, cwd=copy_of_sources(folder, f"{what} {name[2:]}"), PATH=path)
            yield f"{name}, {what}", (found, out) == (status, "") and told in err


def checks_of_signals(folder):
    """Yields whether ./llrp and build.py end by a signal, to all processes or to one, once or twice, with its status and all that they began."""
    for name in ("./llrp", "./build.py"):
        for what, number, to_all, times in [
            ("Ctrl-C", signal.SIGINT, True, 1),
            ("SIGTERM", signal.SIGTERM, False, 1),
            ("SIGTERM twice", signal.SIGTERM, False, 2),
            ("SIGHUP", signal.SIGHUP, False, 1),
        ]:
            waits = Toolchain(folder, 'echo $$ >>"$(dirname "$0")/process"; exec sleep 60')
            copy = copy_of_sources(folder, f"{name[2:]}, {what}")
            yield f"{name}, {what}", interrupted(name, copy, waits, number, to_all, times) == 128 + number
            began = octets_of(os.path.join(waits.place, "process")).split()
            yield f"{name}, what goes on after {what}", not any([goes_on(int(it)) for it in began])


def interrupted(name, copy, waits, number, to_all, times):
    """Returns the status of a script that gets a signal while it proves; none where it did not begin to."""
    how = {"cwd": copy, "env": {**os.environ, "PATH": waits.path}, "stdin": subprocess.DEVNULL, "stderr": subprocess.DEVNULL}
    process = subprocess.Popen([name], start_new_session=True, **how)
    late = time.monotonic() + LONGEST
    while not os.path.exists(os.path.join(waits.place, "process")):
        if time.monotonic() > late:
            os.killpg(process.pid, signal.SIGKILL)
            return None
        time.sleep(0.02)
    # (several crates have begun by then)
    time.sleep(0.3)
    for _ in range(times):
        (os.killpg if to_all else os.kill)(process.pid, number)
        time.sleep(0.05)
    try:
        return process.wait(20)
    except subprocess.TimeoutExpired:
        os.killpg(process.pid, signal.SIGKILL)
        return None


def goes_on(process):
    """Returns whether a process still runs, and ends it."""
    try:
        os.kill(process, signal.SIGKILL)
        return True
    except ProcessLookupError:
        return False


def checks_of_build(folder):
    """Yields whether build.py and ./llrp prove and build where the program is missing or a source is newer, and only there."""
    copy, proves, refuses = copy_of_sources(folder, "built"), Toolchain(folder, PROVES.format(LINKS)), Toolchain(folder, REFUSES)
    crates = crates_of("llrp")
    found, out, err = run("./build.py", cwd=copy, PATH=proves.path)
    yield "./build.py, proved", (found, out) == (0, "") and f" of {len(crates)}: tag_bits" in err
    calls = re.fullmatch(f"(\\w+ lib --jobs [1-4]\n){{{len(crates) - 1}}}llrp run --jobs [1-4] -- --help", "\n".join(proves.calls()))
    yield "what ./build.py calls", calls is not None
    yield "which crates ./build.py proves", {it.split()[0] for it in proves.calls()} == crates
    yield "other words of ./build.py", run("./build.py", "program", cwd=copy, PATH=refuses.path) == (2, "", "usage: build.py [library | offline]\n")
    yield "./llrp runs what is built", run("./llrp", "x", cwd=copy, PATH=refuses.path) == (5, "built x\n", "")
    later(os.path.join(copy, "crates/llrp/out/later.antt"))
    yield "./llrp looks at sources alone", run("./llrp", "x", cwd=copy, PATH=refuses.path) == (5, "built x\n", "")
    for name in ("crates/llrp/later.rt", "crates/tag_bits/later.antt", "crates.txt"):
        later(os.path.join(copy, name))
        yield f"./llrp builds anew after a change of {name}", run("./llrp", cwd=copy, PATH=refuses.path)[0] == 125
        os.utime(os.path.join(copy, name), (1e9, 1e9))
    copy, proves = copy_of_sources(folder, "offline"), Toolchain(folder, PROVES.format(LINKS))
    yield "./llrp builds what needs no socket", run("./llrp", "show", cwd=copy, PATH=proves.path)[:2] == (5, "built show\n")
    yield "which crates that takes", {it.split()[0] for it in proves.calls()} == crates_of("llrp_offline")
    yield "./llrp builds the whole for a socket", run("./llrp", "loop", cwd=copy, PATH=refuses.path)[0] == 125
    copy = copy_of_sources(folder, "edited")
    yield "./llrp builds and runs", run("./llrp", "x", cwd=copy, PATH=proves.path)[:2] == (5, "built x\n")
    yield "./llrp builds anew after a change during the build", run("./llrp", cwd=copy, PATH=refuses.path)[0] == 125


def one_processor():
    os.sched_setaffinity(0, [min(os.sched_getaffinity(0))])


def checks_of_jobs(folder):
    """Yields whether build.py proves by as many jobs as there are processors and memory for, and says on a terminal what it proves."""
    copy, proves = copy_of_sources(folder, "one processor"), Toolchain(folder, PROVES.format(LINKS))
    how = {"cwd": copy, "env": {**os.environ, "PATH": proves.path}, "stdin": subprocess.DEVNULL, "capture_output": True, "timeout": LONGEST}
    yield "./build.py on one processor", subprocess.run(["./build.py"], preexec_fn=one_processor, **how).returncode == 0
    crates = len(proves.calls()) - 1
    calls = re.fullmatch(f"(\\w+ lib --jobs 1\n){{{crates}}}llrp run --jobs 1 -- --help", "\n".join(proves.calls()))
    yield "what ./build.py calls on one processor", calls is not None
    sys.path.insert(0, TOP)
    import build

    for gigabytes, most in ((1, 1), (7, 2), (400, 4)):
        build.open = lambda *_, size=gigabytes, **__: io.StringIO(f"MemTotal: 1 kB\nMemAvailable: {size * 1_000_000} kB\n")
        yield f"jobs with {gigabytes} GB", build.jobs() == min(most, len(os.sched_getaffinity(0)))
    del build.open
    yield "a clock", [build.clock(it) for it in (9, 61, 3600)] == ["0:09", "1:01", "60:00"]
    yield from checks_of_terminal(folder)


def checks_of_terminal(folder):
    """Yields whether build.py shows on a terminal one line that changes, and wipes it."""
    copy, proves = copy_of_sources(folder, "terminal"), Toolchain(folder, f"sleep 0.1; {PROVES.format(LINKS)}")
    screen, terminal = pty.openpty()
    how = {"cwd": copy, "env": {**os.environ, "PATH": proves.path}, "stdin": subprocess.DEVNULL, "stdout": subprocess.DEVNULL}
    process = subprocess.Popen(["./build.py"], stderr=terminal, **how)
    os.close(terminal)
    shown = b""
    try:
        while piece := os.read(screen, 4096):
            shown += piece
    except OSError:
        pass  # (how a terminal ends that no one else has open)
    os.close(screen)
    yield "./build.py at a terminal", process.wait(LONGEST) == 0
    numbers = [int(it) for it in re.findall(rb"\rllrp: proving crate (\d+) of \d+ \(", shown)]
    yield "what ./build.py shows at a terminal", numbers == sorted(numbers) and numbers[:1] == [1] and len(set(numbers)) > 5
    yield "./build.py wipes it", shown.endswith(b"\r\x1b[K") and b"proved crate" not in shown


def checks_of_unproved(folder):
    """Yields whether ./llrp --unproved hands on what the program prints and its status, and says where there is none."""
    copy, none = copy_of_sources(folder, "unproved"), Toolchain(folder, "echo run=none >&2; exit 2")
    for command in ("show", "encode", "epc"):
        answers = Toolchain(folder, UNPROVED)
        found, out, err = run("./llrp", "--unproved", command, "x", cwd=copy, PATH=answers.path)
        is_right = (found, out) == (1, "0 KEEPALIVE 2 7\n") and err.endswith("llrp: nothing was proved\n")
        yield f"./llrp --unproved {command}", is_right and answers.calls() == [f"llrp try -- {command} x"]
    found, out, err = run("./llrp", "--unproved", "show", cwd=copy, PATH=none.path)
    yield "./llrp --unproved, no answer", (found, out) == (125, "") and err.endswith("llrp: no answer without the proofs\n")
    yield "./llrp --unproved takes three commands", run("./llrp", "--unproved", "loop", cwd=copy, PATH=none.path)[:2] == (2, "")


def checks_of_library(folder):
    """Yields whether library.sh builds both libraries of what the toolchain gives, where they are missing or a source is newer."""
    copy, refuses, gives = copy_of_sources(folder, "library"), Toolchain(folder, REFUSES), Toolchain(folder, LIBRARY)
    os.mkdir(os.path.join(gives.place, "c"))
    for archive, code in ARCHIVES.items():
        member = os.path.join(gives.place, os.path.basename(archive).replace(".a", ".o"))
        subprocess.run(["cc", "-fPIC", "-xc", "-c", "-o", member, "-"], input=code.encode(), check=True)
        subprocess.run(["ar", "rc", os.path.join(gives.place, archive), member], check=True)
    found, out, err = run("./library.sh", cwd=copy, PATH=refuses.path)
    told = " is not proved, so the library for C was not built\nsrc/lib.rt:1:1: error: no proof\n"
    yield "./library.sh, not proved", (found, out) == (1, "") and told in err and "--unproved" not in err
    found, out, err = run("./library.sh", cwd=copy, PATH=gives.path)
    crates = crates_of("llrp_c")
    yield "./library.sh", (found, out) == (0, "") and err.startswith(f"llrp: proving {len(crates)} crates, and building the library for C\n")
    calls = re.fullmatch(f"(\\w+ lib --jobs [1-4]\n){{{len(crates) - 1}}}llrp_c lib --jobs [1-4]\n\\w+ doc", "\n".join(gives.calls()))
    yield "what ./library.sh calls", calls is not None
    library = ctypes.CDLL(os.path.join(copy, "out/libllrp_c.so.0"))
    yield "the library that is loaded", library.llrp_given() == 46
    for words in (["nm", "-gj", "--defined-only", "out/libllrp_c.a"], ["nm", "-Dj", "--defined-only", "out/libllrp_c.so.0"]):
        yield f"the names of {' '.join(words)}", re.findall(r"(?m)^\w+$", run(*words, cwd=copy)[1]) == ["llrp_given"]
    yield "its name", "Library soname: [libllrp_c.so.0]" in run("readelf", "-d", "out/libllrp_c.so.0", cwd=copy)[1]
    yield "its link", os.readlink(os.path.join(copy, "out/libllrp_c.so")) == "libllrp_c.so.0"
    yield "what ./library.sh leaves", sorted(os.listdir(os.path.join(copy, "out"))) == ["libllrp_c.a", "libllrp_c.so", "libllrp_c.so.0"]
    yield from checks_of_half_library(folder, gives)
    yield "./library.sh, built", run("./library.sh", cwd=copy, PATH=refuses.path) == (0, "", "")
    for name in ("crates/llrp_c/later.rt", "crates/tag_bits/later.antt", "crates.txt"):
        later(os.path.join(copy, name))
        yield f"./library.sh builds anew after a change of {name}", run("./library.sh", cwd=copy, PATH=refuses.path)[0] == 1
        os.utime(os.path.join(copy, name), (1e9, 1e9))


def checks_of_half_library(folder, gives):
    """Yields whether library.sh that fails at its end leaves no library that counts as built, and none of its files."""
    copy, stops = copy_of_sources(folder, "half a library"), tempfile.mkdtemp(dir=folder)
    with open(os.path.join(stops, "cc"), "w", encoding="utf-8") as file:
        file.write("#!/bin/sh\necho no linker >&2; touch libllrp_c.so.0; exit 1\n")
    os.chmod(os.path.join(stops, "cc"), 0o755)
    status, out, err = run("./library.sh", cwd=copy, PATH=f"{stops}:{gives.path}")
    yield "./library.sh without a linker", (status, out) == (1, "") and err.endswith("no linker\n")
    yield "what it leaves", not os.listdir(os.path.join(copy, "out"))


def below(folder):
    """Returns the paths of the files and folders below a folder, in it."""
    return {os.path.relpath(os.path.join(at, name), folder) for at, folders, names in os.walk(folder) for name in (*folders, *names)}


def wanted_mode(path, name):
    """Returns the mode that an installed file or folder has to have."""
    return 0o755 if os.path.isdir(path) or name.startswith(("bin/", "lib/llrp/")) else 0o644


def checks_of_install(folder):
    """Yields whether install.sh puts each file below PREFIX, as it is and readable for all, and no other, and removes them again."""
    with tempfile.TemporaryDirectory(dir="/tmp", prefix="llrp.") as plain:
        yield from checks_of_prefix(os.path.join(plain, "prefix"))
    for prefix in ODD_PREFIXES:
        status, out, err = run("./install.sh", PREFIX=prefix)
        yield f"install.sh below {prefix!r}", (status, out) == (2, "") and err.startswith("llrp: PREFIX may have letters") and not os.path.exists(prefix)
    for where, below_it in (("/usr", "/usr"), ("", "/usr/local")):
        package = tempfile.mkdtemp(dir=folder)
        done = run("./install.sh", DESTDIR=package, PREFIX=where)[:2]
        is_there = os.path.exists(f"{package}{below_it}/bin/llrp") and f"prefix={below_it}\n".encode() in octets_of(f"{package}{below_it}/{MADE}")
        yield f"install.sh into a package, below {below_it}", done == (0, f"llrp: installed below {package}{below_it}\n") and is_there
    yield from checks_of_link(tempfile.mkdtemp(dir=folder))


def checks_of_link(package):
    """Yields whether install.sh puts the library's link in the place of a link to a folder, writes nothing into that, and ends where a folder is there."""
    os.makedirs(f"{package}/usr/lib/other")
    link = f"{package}/usr/lib/libllrp_c.so"
    os.symlink("other", link)
    done = run("./install.sh", DESTDIR=package, PREFIX="/usr")
    yield "install.sh over a link to a folder", done[0] == 0 and os.readlink(link) == "libllrp_c.so.0" and not os.listdir(f"{package}/usr/lib/other")
    os.remove(link)
    os.mkdir(link)
    done = run("./install.sh", DESTDIR=package, PREFIX="/usr")
    yield "install.sh over a folder", done[:2] == (1, "") and not os.listdir(link)


def checks_of_prefix(prefix):
    """Yields the same of one value of PREFIX, and what is removed again."""
    done = run("bash", "-c", "umask 077; CDPATH=/usr ./install.sh", PREFIX=prefix)
    yield "install.sh", done[:2] == (0, f"llrp: installed below {prefix}\n")
    found = below(prefix)
    files = {it for it in found if not os.path.isdir(os.path.join(prefix, it))}
    wanted = {*INSTALLED, MADE, *WRITTEN}
    yield f"the files of install.sh: {files ^ wanted}", files == wanted
    for name in sorted(found):
        path = os.path.join(prefix, name)
        is_right = os.stat(path).st_mode & 0o7777 == wanted_mode(path, name)
        yield f"installed {name}", is_right and (name not in INSTALLED or octets_of(path) == octets_of(os.path.join(TOP, INSTALLED[name])))
    yield "the installed link", os.readlink(os.path.join(prefix, "lib/libllrp_c.so")) == "libllrp_c.so.0"
    yield "what pkg-config says", octets_of(os.path.join(prefix, MADE)).decode() == CONFIGURATION.format(prefix=prefix, version=version())
    for name, source in WRITTEN.items():
        wanted = text_of(source).replace("/usr/local", prefix)
        yield f"the installed {name}", octets_of(os.path.join(prefix, name)).decode() == wanted and prefix in wanted
    yield "the installed program runs", run(os.path.join(prefix, "bin/llrp"), "--version")[0] == 0
    status, out, err = run("./install.sh", PREFIX=os.path.join(prefix, "bin/llrp"))
    yield "install.sh, where PREFIX is no folder", status != 0 and out == "" and err != ""
    os.mkdir(f"{prefix}/{PACKAGE}/__pycache__")
    yield "install.sh --uninstall", run("./install.sh", "--uninstall", PREFIX=prefix) == (0, f"llrp: removed below {prefix}\n", "")
    left = {it for it in below(prefix) if not os.path.isdir(os.path.join(prefix, it)) or "doc/llrp" in it or "lib/llrp" in it or PACKAGE in it}
    yield f"what install.sh --uninstall leaves: {left}", not left
    for words, where in ((["--remove"], prefix), ([], "usr"), ([], "./usr")):
        status, out, err = run("./install.sh", *words, PREFIX=where)
        yield f"install.sh {words} {where}", (status, out, err.count("\n")) == (2, "", 1) and not os.path.exists(os.path.join(TOP, "usr"))


def are_right(lines, names, figures):
    """Whether there is a line for each name, with figures of this form, none of which is 0; no two lines have the same figures, and where
    these are one number, no two of a kind."""
    pairs = [(name.split()[0], line[len(name) :]) for line, name in zip(lines, names) if line.startswith(name)]
    rests = [rest for _, rest in pairs]
    positive = all(float(it) > 0 for rest in rests for it in re.findall(r"\d[\d.]*", rest))
    counted = [(kind if len(it.split()) == 1 else "", *it.split()) for kind, it in pairs if " MB" not in it]
    are_apart = len(set(counted)) == len(counted)
    return len(lines) == len(names) == len(rests) and all(re.fullmatch(figures, it) for it in rests) and positive and are_apart


def checks_of_figures(folder):
    """Yields whether the benchmarks work out their figures right, of a million octets, and times and a memory that are given."""
    work = tempfile.mkdtemp(dir=folder)
    status, out, err = run("bash", "-c", FIGURES, "figures", work)
    wanted = ["name", "0.5", "MB/s", "by", "wall", "0.2", "MB/s", "by", "processor", "3.0", "MB", "of", "memory", "1000.00"]
    yield f"the figures of the benchmarks: {out!r} {err!r}", (status, out.split(), err) == (0, wanted, "")


def checks_of_benchmarks(folder):
    """Yields whether each benchmark ends well, with the lines that it should print and figures in each, and leaves no file."""
    scripts = sorted(name for name in os.listdir(os.path.join(TOP, "bench")) if name not in ("common.sh", "rows.tsv", "watch.py"))
    yield "all benchmarks", scripts == sorted(name for name, *_ in BENCHMARKS)
    status, out, err = run("python3", "bench/watch.py", "crates/llrp/out/llrp", "2", "10", "2", cwd=TOP)
    yield f"bench/watch.py: {out!r} {err!r}", status == 0 and out != ""
    for name, words, environment, names, figures in BENCHMARKS:
        room = tempfile.mkdtemp(dir=folder)
        status, out, err = run(f"bench/{name}", *words, TMPDIR=room, **environment)
        lines = [line for line in out.splitlines() if line and not HEADING.match(line)]
        is_right = status == 0 and are_right(lines, names, figures) and not os.listdir(room)
        yield f"bench/{name}: status {status}, {out[-200:]!r} {err[-200:]!r}", is_right


def main():
    program = program_given()
    parts = (checks_of_failures, checks_of_signals, checks_of_build, checks_of_jobs, checks_of_unproved, checks_of_library, checks_of_install)
    with tempfile.TemporaryDirectory(prefix=ODD) as folder:
        os.environ["TMPDIR"] = room = tempfile.mkdtemp(dir=folder)
        results = [*checks_of_llrp(program, folder), *(it for part in (*parts, checks_of_figures, checks_of_benchmarks) for it in part(folder))]
        results.append((f"what the scripts leave in TMPDIR: {os.listdir(room)}", not os.listdir(room)))
    return finish_results(results, LEAST)


if __name__ == "__main__":
    sys.exit(main())
