#!/usr/bin/env python3
"""Compares the tables of docs/errors.md and the lists of the manual page with the words that the sources have, row by row, and runs
the examples of docs/errors.md.

usage: tests/errors.py [PROGRAM]

PROGRAM is llrp, crates/llrp/out/llrp where none is given. The last line is `N passed, M failed`; the status is 1 if something failed.
"""
import os
import re
import subprocess
import sys
import tempfile
import threading

from parts.counting import finish_results, text_of
from damage import nested_errors
from failing_devices import ANSWERS, inventory_from, sim_to
from parts.ports import free_port
from parts.repository import TOP, program_given

LEAST = 154
PAGE = "docs/errors.md"
# The most memory that refusing an endless script or ROSpec may take, in kilobytes.
MOST_MEMORY = 65_536
# Where the words of each table are: the source, its function, and how many it has.
LINES = ("crates/llrp_commands/src/command.rt", "write_error", 11)
# The first words of the lines that the program writes itself, some of two lines.
ELSEWHERE = (
    "FILE access access answers answers expect file line name network no no not password power prefixes prefixes rospec rospec save script script several unknown,"
).split()
REASONS = ("crates/llrp_listing/src/outcome.rt", "names", 9)
NODES = ("crates/llrp_listing/src/outcome.rt", "node_fault_name", 8)
RULES = ("crates/tag_uri/src/fault.rt", "name", 10)
PARTS = ("crates/tag_epc/src/fault.rt", "name", 5)
FRAMES = ("crates/llrp_listing/src/reason.rt", "reason_name", 15)
# The head of each table of the page, and the line before each list of the manual page.
TABLES = {
    "| Line |": LINES,
    "| Reason | What is wrong | A listing": REASONS,
    "| After `Node` |": NODES,
    "| Rule |": RULES,
    "| Reason | What is wrong | A word": PARTS,
    "| Reason | What is wrong | A frame": FRAMES,
}
LISTS = {
    "An error is one line on standard error:": LINES,
    "refuses a line:": REASONS,
    "Why the text of a tag is refused:": RULES,
    "Why a word has no tag URI:": PARTS,
    "Why a frame is not a message:": FRAMES,
}
# The lines before an example, and the number of the line that is refused.
REPORT = "0 RO_ACCESS_REPORT 1 1\n"
TAG = REPORT + "1 TagReportData\n"
ADD = "0 ADD_ROSPEC 1 1\n"
BEFORE = {
    ("Line", 1): "",
    ("Level", 1): "",
    ("Name", 1): "",
    ("Fields", 1): "",
    ("Number", 1): "",
    ("Tail", 3): ADD + "1 ROSpec 1 0 0\n",
    ("Epc RULE", 3): TAG,
    ("Epc Key", 3): TAG,
    ("Node FaultName", 2): REPORT,
    ("OverLimit", 1): "",
    ("Value", 2): ADD,
    ("Node Tail", 3): TAG,
    ("Misplaced", 1): "",
    ("TooMany", 2): TAG + "2 EPC-96 urn:epc:tag:gid-96:1.2.3\n2 AntennaID 1\n",
    ("Missing", 2): REPORT,
    ("TooLong", 2): TAG + "2 EPC-96 urn:epc:tag:gid-96:1.2.3\n" + "2 C1G2-CRC 7439\n" * 21840,
}


def words_of(name, function, count):
    """Returns the words that a function of a source gives, without what is put in for a number."""
    body = re.split(rf"fn {function}\b", text_of(name))[1].split("\n    }\n")[0]
    found = {re.match(r"(llrp: )?(\w+)", it)[2] for it in re.findall(r'"((?:llrp: )?[A-Za-z0-9][^"\\]*)', body)}
    return found if len(found) == count else set()


def rows(head):
    """Returns the cells of each row of the page's table with this head."""
    table = text_of(PAGE).split(f"\n{head}")[1].split("\n\n")[0]
    return [[cell.strip() for cell in line.strip("|").split(" | ")] for line in table.splitlines()[2:]]


def entries(before):
    """Returns the entries of the manual page's list after a line."""
    listed = text_of("docs/llrp.1").split(f"\n{before}\n")[1].split("\n.El\n")[0]
    return [it for line in re.findall(r"(?m)^\.It (.*)$", listed) for it in line.split(" , ")]


def first_words(names):
    """Returns the first word of each name, without the program's own."""
    return sorted(re.sub(r"^llrp: ", "", it.strip("`| ")).split()[0].rstrip(":;") for it in names)


def checks_of_rows():
    """Yields whether each table and each list has exactly the words of its source, and those that are said elsewhere; Epc has a second row in a listing."""
    for where, names in [(TABLES, lambda head: [row[0] for row in rows(head)]), (LISTS, entries)]:
        for head, source in where.items():
            others = ELSEWHERE if source == LINES else ["Epc"] if head.endswith("A listing") else []
            wanted = [*words_of(*source), *others]
            yield f"the source of {head}", len(wanted) >= source[2]
            yield f"the rows after {head}", first_words(names(head)) == sorted(wanted)
    yield "the exit statuses", [row[0] for row in rows("| Exit status |")] == ["0", "1", "2", "3", "4", "125"]
    statuses = re.findall(r"(?m)^    LLRP_(\w+) = (\d+)", text_of("include/llrp.h"))
    of_calls = sorted(name.title() for name, code in statuses if int(code) < 16)
    yield "the names of the library for C alone", first_words(row[0] for row in rows("| Name |")) == of_calls
    nodes = re.search(r"is not lawful: ([^.]*)\.", text_of("docs/llrp.1").replace("\n", " "))[1]
    yield "the faults after Node in the manual page", set(re.findall(r"[A-Z]\w+", nodes)) == words_of(*NODES)


WORDS = "one two three four five six seven eight nine ten".split()


def constant(name, source):
    """Returns a number of a source, as the pages write it."""
    return f"{int(re.search(rf'const {name}: [a-z0-9]+ = ([0-9_]+);', text_of(source))[1].replace('_', '')):,}"


def figures():
    """Yields what the pages say with a number, and the number: words with a place for it, and what it has to be there."""
    listing, tree = "crates/llrp_listing/src", "crates/llrp_tree/src/lib.rt"
    limit = constant("LIMIT", "crates/llrp_commands/src/command.rt")
    longest, whole = (constant(name, f"{listing}/parse_line.rt") for name in ("LONGEST_LINE", "LONGEST_WHOLE_LINE"))
    yield r"longer than (\d+(?:,\d{3})*) (?:bytes|octets)(?= \(with| \.Pq)|at most `longest` printed bytes \((\d+(?:,\d{3})*)", longest
    yield r"with `--all` (\d+(?:,\d{3})*)\)|with Fl -all No (\d+(?:,\d{3})*)|(\d+(?:,\d{3})*) in all of LLRP 1\.1\)", whole
    yield r"(\d+(?:,\d{3})*) reads", constant("MOST_READS", f"{listing}/devices.rt")
    yield r"(?:asks for|at most|pieces of|in reads of) (\d,\d{3}) (?:bytes|octets)", constant("READ_SIZE", f"{listing}/devices.rt")
    yield r"length field(?: is)? below (\d+(?:,\d{3})*)", constant("HEADER_OCTETS", tree)
    yield r"`(?:--limit|OverLimit)`[^|]*\| the (?:message|frame) is longer than the limit: (\d+(?:,\d{3})*) octets", limit
    yield r"filter value is not one digit 0 to (\d+)", str(2 ** 3 - 1)
    yield r"(?:more than|above) (\d+)(?= levels|, or no line)", constant("MAX_DEPTH", tree)
    yield r"not (?:printable ASCII|a number) or is above (\d+)", constant("MAX_DEPTH", tree)
    kinds = re.search(r"(?s)pub enum Kind \{(.*?)\n\}", text_of("crates/tag_epc/src/kind.rt"))[1]
    yield rf"\b({'|'.join(WORDS)}) schemes\b", WORDS[len(re.findall(r"(?m)^    \w+,", kinds)) - 1]
    yield rf"\b({'|'.join(WORDS)}) for each (?:open )?node", WORDS[1]
    yield r"or a message than (\d+(?:,\d{3})*)", constant("MAX_LIMIT", tree)
    yield r"`OverLimit` above (\d+(?:,\d{3})*) octets", constant("LONGEST_ROSPEC", "crates/llrp_endpoints/src/plan.rt")
    # (a line that is longer than it may be by one octet)
    yield r"a line has (\d+) octets without", str(int(constant("LONGEST_ENTRY", "crates/llrp_endpoints/src/script.rt")) + 1)


def checks_of_figures():
    """Yields whether each number that stands on the pages is that of the sources, wherever it stands."""
    names = sorted(it for it in os.listdir(os.path.join(TOP, "docs")) if it.endswith((".md", ".1")))
    pages = {it: " ".join(text_of(it).replace("\\-", "-").split()) for it in ["README.md", "crates/README.md", *(f"docs/{name}" for name in names)]}
    for words, number in figures():
        found = [(page, next(filter(None, it.groups()))) for page, text in pages.items() for it in re.finditer(words, text)]
        yield f"{words}: {[it for it in found if it[1] != number]} in place of {number}", found and all(it == number for _, it in found)


def run(program, *words, given=b""):
    """Returns the status, and what was written to standard output and standard error."""
    given = given.encode() if isinstance(given, str) else given
    done = subprocess.run([program, *words], capture_output=True, input=given, timeout=60)
    return done.returncode, done.stdout, done.stderr.decode()


def refused_by(program, reason, line, listing, *words):
    """Whether encode refuses a listing at a line for a reason."""
    status, _, error = run(program, "encode", *words, given=listing)
    return (status, error) == (1, f"llrp: line {line}: {reason}\n")


def checks_of_listings(program):
    """Yields whether each listing of the page is refused for the reason beside it, at its line."""
    twice = {"Tail": "Node Tail"}
    for head, of_node in (("| Reason | What is wrong | A listing", False), ("| After `Node` |", True)):
        for name, _, example in rows(head):
            name = name.strip("`")
            row = twice.get(name, name) if of_node else name
            if example.startswith("none: "):
                continue
            line, before = next((line, before) for (key, line), before in BEFORE.items() if key == row)
            reason = f"Node {name}" if of_node else {"Epc RULE": "Epc LeadingZero", "Node FaultName": "Node Missing"}.get(name, name)
            shown = "\n".join(re.findall(r"`(\d+ [^`]*)`", example.split(": 18")[0]))
            words = ["--limit", re.search(r"--limit (\d+)", example)[1]] if "--limit" in example else ["--keys"] if "--keys" in example else []
            end_line = "" if "without a line feed" in example else "\n"
            yield f"{reason}: {shown}", refused_by(program, reason, line, before + shown + (end_line if shown else ""), *words)


def checks_of_tags(program):
    """Yields whether each text is refused by the rule beside it, and each word has the line beside it."""
    for rule, _, example in rows("| Rule |"):
        text = example.strip("`")
        rule = rule.strip("`")
        yield f"{text} is refused by {rule}", run(program, "epc", text) == (1, f"! {rule}\n".encode(), "")
        line = f"{TAG}2 EPC-96 {text}\n"
        yield f"{text} is refused in a listing", refused_by(program, f"Epc {rule}", 3, line)
    for part, _, example in rows("| Reason | What is wrong | A word"):
        digits, line = re.fullmatch(r"`([0-9A-F]{24})`: `(# [^`]+)`", example).groups()
        wanted = f"urn:epc:raw:96.x{digits}\n{line}\n".encode()
        yield f"{digits} is answered by {line}", line.split()[1] == part.strip("`") and run(program, "epc", digits) == (0, wanted, "")


def checks_of_forms(program):
    """Yields whether the page has the words for texts that are refused in a form, and whether each text is refused by its word."""
    words = {word.strip("`").split()[0]: example for word, _, example in rows("| Word |")}
    sources = ("crates/tag_keys/src/fault.rt", *(f"crates/tag_forms/src/{it}.rt" for it in ("fault", "list", "answer")))
    named = {it for source in sources for it in re.findall(r'(?:=> |b)?"(?:! )?([A-Z]\w+)"', text_of(source))}
    yield f"the words of forms: {named ^ set(words)}", named == set(words)
    for word, example in words.items():
        text, digit = re.match(r"`([^`]+)`", example), re.search(r"D is (\d)", example)
        wanted = f"! {word} {digit[1]}\n" if digit else f"! {word}\n"
        form = "pure" if "`--to" in example or "with `--to" in example else "key"
        if text:
            yield f"{text[1]} is refused by {word}", run(program, "epc", "--to", form, text[1]) == (1, wanted.encode(), "")


def checks_of_frames(program):
    """Yields whether each frame is listed by the line beside it."""
    for reason, _, example in rows("| Reason | What is wrong | A frame"):
        *digits, line = re.findall(r"`([^`]+)`", example)
        if digits:
            frame = bytes.fromhex(digits[0])
        else:
            frame = nested_errors(16)
        more = re.search(r"and ([\d,]+) octets more", example)
        frame += bytes(int(more[1].replace(",", ""))) if more else b""
        is_right = line.split()[3] == reason.strip("`") and run(program, "show", given=frame) == (1, f"{line}\n".encode(), "")
        yield f"{reason} is listed by {line}", is_right


def checks_of_rospecs(program):
    """Yields whether the examples of files of `--rospec` are refused before the script is read, and before a connection is made."""
    told = {row[0].strip("`"): row[2].strip("`") for row in rows("| Line |") if "rospec" in row[0]}
    with tempfile.NamedTemporaryFile() as file:
        file.write(told["llrp: rospec line N: REASON"].encode() + b"\n")
        file.flush()
        for words in (["loop"], ["inventory", "127.0.0.1", str(free_port())]):
            yield "a refused ROSpec", run(program, *words, "--rospec", file.name, given="tock") == (1, b"", "llrp: rospec line 1: Fields\n")
            yield "no such file", run(program, *words, *told["llrp: rospec"].split(), given="tock") == (3, b"", "llrp: rospec\n")


def checks_of_prefixes(program):
    """Yields whether the examples of files of `--prefixes` are refused before a list is read, and whether a file is used."""
    told = {row[0].strip("`"): re.findall(r"`([^`]*)`", row[2]) for row in rows("| Line |") if "prefixes" in row[0]}
    key, line = "(01)80614141123458(21)6789", "llrp: prefixes line"
    with tempfile.TemporaryDirectory() as folder:
        path = os.path.join(folder, "prefixes")
        example, word = told[f"{line} N: REASON"]
        for name, number, example in ((word, 1, [example]), ("Two", 3, ["061414 7", "061414 7", "061414 8"])):
            with open(path, "w", encoding="ascii") as file:
                file.write("".join(f"{it}\n" for it in example))
            wanted = (1, b"", f"{line} {number}: {name}\n")
            yield f"prefixes: {name}", run(program, "epc", "--list", "--to", "hex", "--prefixes", path, given=key) == wanted
        yield "no such file of prefixes", run(program, "epc", "--forms", *told["llrp: prefixes"][0].split(), key) == (3, b"", "llrp: prefixes\n")
        with open(path, "w", encoding="ascii") as file:
            file.write("06 11\n061414 7\n02 0\n")
        words = ("epc", "--prefixes", path, "--filter", "3")
        yield "a file of prefixes", run(program, *words, "--to", "hex", key) == (0, b"3074257BF7194E4000001A85\n", "")
        yield "a list by a file", run(program, *words, "--list", "--to", "pure", given=f"{key}\ngln 0214141123454\n") == (
            1, b"urn:epc:id:sgtin:0614141.812345.6789\n! Prefix\n", "")
        status, out, said = run(program, *words, "--prefix-digits", "7", "--to", "hex", key)
        yield "a file and a number", (status, out) == (2, b"") and said.startswith("error: epc takes")


def checks_of_lines(program):
    """Yields whether each example of an error of a run ends with its line; `bound` would take a million reads, and `memory` is
    what tests/refuse_program.py is for."""
    example = {row[0].strip("`").split()[1].rstrip(":"): row[2] for row in reversed(rows("| Line |"))}
    code = {name: re.findall(r"`([^`]*)`", text) for name, text in example.items()}
    listing = TAG + "2 EPC-96 urn:epc:tag:sgtin-96:3.0614141.812345.007\n"
    yield "line", run(program, "encode", given=listing)[::2] == (1, code["line"][0] + "\n")
    yield "script", run(program, "loop", given=code["script"][0] + "\n") == (1, b"", "llrp: script line 1\n")
    yield "hex", run(program, "show", "--hex", given=code["hex"][0]) == (1, b"", "llrp: hex\n")
    with open("/dev/full", "wb") as full:
        done = subprocess.run([program, "epc", "0" * 24], stdout=full, stderr=subprocess.PIPE, timeout=60)
    yield "write", (done.returncode, done.stderr) == (3, b"llrp: write\n")
    status, out, said = run(program, *code["name;"][0].split()[1:])
    nearest = said.removeprefix("llrp: name; nearest: ").rstrip("\n").split(", ")
    is_told = said.startswith("llrp: name; nearest: ") and said.count("\n") == 1 and "KEEPALIVE" in nearest and len(nearest) <= 5
    yield f"name: {said}", (status, out) == (1, b"") and is_told
    yield "network", run(program, "inventory", "127.0.0.1", str(free_port())) == (3, b"", "llrp: network\n")
    yield "broken", sim_to(program, bytes.fromhex(code["broken"][0])) == (1, "llrp: broken\n")
    refusal = "041E0000001200000001 011F000800650000"
    yield "status", inventory_from(program, [ANSWERS[0], refusal]) == (1, code["status"][0] + "\n")
    yield "strange", inventory_from(program, [*ANSWERS[:2], ANSWERS[1]]) == (1, "llrp: strange\n")
    yield "strange, a reserved bit", inventory_from(program, ["283E0000000A00000007"]) == (1, "llrp: strange\n")
    longer = "043E0000000B0000000700"
    for options in ([], ["--all"]):
        yield f"strange, an octet after the last part, {options}", inventory_from(program, [longer], *options) == (1, "llrp: strange\n")
    custom = "07FF0000001000000001 0000000105AA"
    yield "a CUSTOM_MESSAGE with data is ignored", inventory_from(program, [custom, *ANSWERS], "--all") == (0, "")
    yield "early", inventory_from(program, ANSWERS[:1]) == (1, "llrp: early\n")


def refusal_of(program, words, source):
    """Returns the status and the line of a command that reads a source without an end, and whether its memory stayed small."""
    with subprocess.Popen([program, *words], stdin=source, stdout=subprocess.DEVNULL, stderr=subprocess.PIPE) as process:
        timer = threading.Timer(60, process.kill)
        timer.start()
        said = process.stderr.read().decode()
        _, status, used = os.wait4(process.pid, 0)
        process.returncode = os.waitstatus_to_exitcode(status)
        timer.cancel()
    return process.returncode, said, used.ru_maxrss < MOST_MEMORY


def checks_of_endless_scripts(program):
    """Yields whether a script without an end is refused at its first line that is, by a process of little memory."""
    for words in (["loop"], ["sim", str(free_port())]):
        with open("/dev/zero", "rb") as source:
            yield f"{words[0]}: no line", refusal_of(program, words, source) == (1, "llrp: script line 1\n", True)
        for line, number in (("0 5 tock", 1), ("0 0 tick", 10001)):
            with subprocess.Popen(["yes", line], stdout=subprocess.PIPE) as lines:
                found = refusal_of(program, words, lines.stdout)
                lines.stdout.close()
            yield f"{words[0]}: endless {line}", found == (1, f"llrp: script line {number}\n", True)
        source, end = os.pipe()
        os.write(end, b"0 0 tick\n" + b"0" * 129)
        yield f"{words[0]}: a line of 129 octets", refusal_of(program, words, source) == (1, "llrp: script line 2\n", True)
        os.close(source)
        os.close(end)


def checks_of_endless_rospecs(program):
    """Yields whether a ROSpec without an end is refused by a process of little memory, before the script is read and before a connection
    is made."""
    place = ["127.0.0.1", str(free_port())]
    spec = "2 AISpec w0\n3 AISpecStopTrigger 0 0\n3 InventoryParameterSpec 1 1"
    lawful = f"printf '1 ROSpec 1 0 0\\n2 ROBoundarySpec\\n3 ROSpecStartTrigger 0\\n3 ROSpecStopTrigger 0 0\\n'; exec yes '{spec}'"
    for words in (["loop"], ["inventory", *place], ["watch", ":".join(place)], ["stop", ":".join(place)]):
        found = refusal_of(program, [*words, "--rospec", "/dev/zero"], subprocess.DEVNULL)
        yield f"{words[0]}: no line of a ROSpec", found == (1, "llrp: rospec line 1: Line\n", True)
        for command, wanted in ((["yes"], "1: Level"), (["yes", "1 ROSpec 1 0 0"], "1: Node Missing"), (["sh", "-c", lawful], "[0-9]+: .*")):
            with subprocess.Popen(command, stdout=subprocess.PIPE) as lines:
                status, said, small = refusal_of(program, [*words, "--rospec", "/dev/stdin"], lines.stdout)
                lines.stdout.close()
            yield f"{words[0]}: an endless ROSpec, {command[-1]}", status == 1 and small and re.fullmatch(f"llrp: rospec line {wanted}\n", said) is not None


def main():
    program = program_given()
    parts = (checks_of_listings, checks_of_tags, checks_of_forms, checks_of_frames, checks_of_lines, checks_of_endless_scripts, checks_of_rospecs,
             checks_of_endless_rospecs, checks_of_prefixes)
    return finish_results([*checks_of_rows(), *checks_of_figures(), *(it for part in parts for it in part(program))], LEAST)


if __name__ == "__main__":
    sys.exit(main())
