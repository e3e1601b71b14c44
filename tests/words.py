#!/usr/bin/env python3
"""Compares the commands, flags and values that the program's help names with the manual page, README.md and the completions of bash, zsh
and fish, which these shells answer; compares what the help says of an option with the manual page and the completions; compares bounds,
defaults, statuses and other figures of the pages with the program and its sources;
runs the examples of the manual page and of the help; gives the program arguments that are no UTF-8; compares the copies of the script of
three sightings, and the toolchain that README.md names with the one that is there; looks for the files that the pages name; and has groff
look for faults of the manual pages.

usage: tests/words.py [PROGRAM]

PROGRAM is llrp, crates/llrp/out/llrp where none is given. The last line is `N passed, M failed`; the status is 1 if
something failed.
"""
import os
import re
import shlex
import subprocess
import sys

from parts.counting import finish_results, text_of
from parts.repository import TOP, program_given

LEAST = 475
BASH = """
source completions/llrp.bash
compopt() {{ echo "compopt $*"; }}
COMP_WORDS=(llrp {command} '')
COMP_CWORD=$((${{#COMP_WORDS[@]}} - 1))
_llrp
printf '%s\\n' "${{COMPREPLY[@]}}"
"""


ZSH = """
_arguments() {{ print -rl -- "$@" }}
_describe() {{ print -rl -- ${{(P)2}} }}
words=(llrp {command} '')
CURRENT=$#words
source completions/_llrp
"""
# The words that flags with such a value take: the forms of a word's text, and the sets of names and of schemes.
CHOICES = {"FORM": "tag pure element link hex key", "SET": "profile standard", "SCHEMES": "all"}
# What each shell says of the program's completion, once it has read the file as it does where that is installed.
BOUND = {
    "bash": ("source completions/llrp.bash; complete -p llrp", "complete -o default -F _llrp llrp"),
    "zsh": ("fpath=($PWD/completions $fpath); autoload -Uz compinit; compinit -u -D; print $_comps[llrp]", "_llrp"),
}
# The numbers below twenty in words, and the tens.
SMALL = "zero one two three four five six seven eight nine ten eleven twelve thirteen fourteen fifteen sixteen seventeen eighteen nineteen".split()
TENS = "zero ten twenty thirty forty fifty sixty seventy eighty ninety".split()
FISH = "source completions/llrp.fish; complete -C 'llrp {command}'; complete -C 'llrp {command}-'; complete -C 'llrp {command}--'"


def output(*words):
    return subprocess.run(words, cwd=TOP, capture_output=True, text=True, timeout=60).stdout


def completed(command):
    """Yields each shell, and the commands and long flags that it offers after a command, or at first where that is empty."""
    yield "bash", set(output("bash", "-c", BASH.format(command=command)).split())
    for shell, text in (("zsh", output("zsh", "-fc", ZSH.format(command=command))),
                        ("fish", output("fish", "--no-config", "-c", FISH.format(command=f"{command} " if command else "")))):
        found = {re.split(r"[:\t[]", line)[0] for line in text.splitlines() if re.match(r"--|[a-z]+(:[A-Z]|\t|$)", line)}
        # (of the files that it offers beside them one has a name as a command)
        yield shell, found - set(os.listdir(TOP))


def descriptions(shell, command):
    """Returns what zsh or fish says of each command, or of each long flag of a command."""
    if shell == "zsh":
        lines = output("zsh", "-fc", ZSH.format(command=command)).splitlines()
        pairs = [re.fullmatch(r"(--[\w-]+)\[([^]]*)\].*|(\w+):(.*)", line) for line in lines]
        return {it[1] or it[3]: (it[2] or it[4]).lower() for it in pairs if it and not (it[3] or "").isdigit()}
    lines = output("fish", "--no-config", "-c", FISH.format(command=f"{command} " if command else "")).splitlines()
    return {name: words.lower() for name, words in (line.split("\t") for line in lines if "\t" in line) if re.match(r"--|\w", name)}


def values_in(text):
    """Returns the value's name of each long flag of a help that has one."""
    return dict(re.findall(r"(?m)^ +(?:-\w, )?(--[\w-]+) <(\w+)>", text))


def choices_completed(shell, words):
    """Returns what a shell offers after a flag that takes one of some words."""
    if shell == "bash":
        return set(output("bash", "-c", BASH.format(command=words)).split())
    if shell == "zsh":
        command, flag = words.split()
        spec = next(it for it in output("zsh", "-fc", ZSH.format(command=command)).splitlines() if it.startswith(f"{flag}["))
        return set(re.search(r":[A-Z]+:\(([a-z ]+)\)$", spec)[1].split())
    offered = output("fish", "--no-config", "-c", f"source completions/llrp.fish; complete -C 'llrp {words} '").splitlines()
    return {it.split("\t")[0] for it in offered}


def is_value_completed(shell, command, flag, value):
    """Returns whether a shell offers files after a flag with a file, the words after one that takes some, and nothing after one with a number."""
    is_file = value == "FILE"
    words = f"{command} {flag}"
    if value in CHOICES:
        return choices_completed(shell, words) == set(CHOICES[value].split())
    if shell == "bash":
        return output("bash", "-c", BASH.format(command=words)).split("\n") == (["", ""] if is_file else ["compopt +o default", "", ""])
    if shell == "zsh":
        spec = next(it for it in output("zsh", "-fc", ZSH.format(command=command)).splitlines() if it.startswith(f"{flag}["))
        return spec.split("]")[1] == (":FILE:_files" if is_file else f":{value}")
    offered = output("fish", "--no-config", "-c", f"source completions/llrp.fish; complete -C 'llrp {words} '").splitlines()
    return ("README.md" in offered) == is_file and (is_file or not offered)


def commands_in(text):
    """Returns the commands that the program's help names."""
    listed = text.split("Commands:\n")[1].split("\n\n")[0]
    return set(re.findall(r"(?m)^  (\w+) ", listed))


def flags_in(text):
    """Returns the long flags that a help names among its options."""
    return set(re.findall(r"--[a-z-]+", text.split("Options:\n")[1].split("\n\n")[0]))


def flags_of(program):
    """Returns the long flags of each command, and under "" those of none."""
    top = output(program, "--help")
    commands = sorted(commands_in(top) - {"help"})
    return {"": flags_in(top), **{command: flags_in(output(program, command, "--help")) for command in commands}}


def checks(program):
    """Yields whether the manual page, README.md and each completion have exactly the commands and flags of the program."""
    flags = flags_of(program)
    commands = set(flags) - {""}
    yield "twelve commands", len(commands) == 12
    for shell, name in (("bash", "llrp.bash"), ("zsh", "_llrp"), ("fish", "llrp.fish")):
        done = subprocess.run([shell, "-n", f"completions/{name}"], cwd=TOP, capture_output=True, timeout=60)
        yield f"{shell} -n", (done.returncode, done.stderr) == (0, b"")
    for shell, (words, bound) in BOUND.items():
        yield f"{shell} completes llrp by its function", output(shell, *(["-f"] if shell == "zsh" else []), "-c", words) == f"{bound}\n"
    for command, wanted in flags.items():
        for shell, found in completed(command):
            yield f"{shell} completes '{command}': {sorted(found)}", found == wanted | ({*commands, "help"} if command == "" else set())
    for shell, found in completed("help"):
        yield f"{shell} completes help: {sorted(found)}", commands <= found <= commands | {"--help", "help"}
    for command in sorted(flags):
        yield f"zsh and fish describe '{command}' alike", descriptions("zsh", command) == descriptions("fish", command)
    abouts = dict(re.findall(r"(?m)^  (\w+) +(.+)$", output(program, "--help").split("Commands:\n")[1].split("\n\n")[0]))
    del abouts["help"]
    described = descriptions("zsh", "")
    yield "the commands are described as by the help", {it: described[it] for it in abouts} == {it: text.lower() for it, text in abouts.items()}
    for command in sorted(commands):
        for flag, value in values_in(output(program, command, "--help")).items():
            for shell in ("bash", "zsh", "fish"):
                yield f"{shell} completes after {command} {flag} {value}", is_value_completed(shell, command, flag, value)
    yield from checks_of_pages(flags)


def checks_of_pages(flags):
    """Yields whether the manual page and the table of README.md have the commands, and the flags of each."""
    manual = text_of("docs/llrp.1").replace("\\-", "-")
    synopsis, described = manual.split(".Sh DESCRIPTION")
    usages = re.findall(r"(?m)^\.Cm (\w+)\n((?:\.(?:Op|Ar|Fl) .*\n)*)", synopsis)
    yield "the synopsis", sorted(name for name, _ in usages) == sorted({*flags, "help"} - {""})
    table = re.findall(r"(?m)^\| `llrp (\w+)([^`]*)` \|", text_of("README.md"))
    yield "the table of README.md", sorted(name for name, _ in table) == sorted(set(flags) - {""})
    for name, usage in [*((name, usage.replace("Fl -", "--")) for name, usage in usages if name != "help"), *table]:
        of_watch = flags["watch"] if "option of watch" in usage.lower() else set()
        named = set(re.findall(r"--[a-z-]+", usage)) | of_watch
        yield f"the flags of {name}", named - {"--help"} == flags[name] - {"--help"}
    listed = [re.findall(r"(?m)^\.It (?:Cm|Fl) (.*)$", part) for part in described.split(".Sh EXIT STATUS")[0].split("The options are")]
    yield "the entries of commands", sorted(it.split()[0] for it in listed[0]) == sorted(set(flags) - {""})
    options = sorted("-" + re.search(r"-[a-z-]+", it.split(", Fl ")[-1])[0] for it in listed[1])
    yield "the entries of options", options == sorted(set.union(*flags.values()))


def checks_of_files_read(program):
    """Yields whether the manual page, README.md, zsh and fish know which commands read files."""
    manual, readme = text_of("docs/llrp.1").split(".Sh DESCRIPTION")[0], text_of("README.md")
    for command in sorted(commands_in(output(program, "--help")) - {"help"}):
        reads = "[FILE]..." in output(program, command, "--help")
        synopsis = manual.split(f"\n.Cm {command}\n")[1].split("\n.Nm\n")[0]
        yield f"the files of {command} in the manual page", (".Op Ar FILE ..." in synopsis) == reads
        yield f"the files of {command} in README.md", bool(re.search(rf"(?m)^\| `llrp {command}\b[^`]* \[FILE\]\.\.`", readme)) == reads
        specs = output("zsh", "-fc", ZSH.format(command=command)).splitlines()
        yield f"zsh completes the files of {command}", ("*:file:_files" in specs) == reads
        offered = output("fish", "--no-config", "-c", f"source completions/llrp.fish; complete -C 'llrp {command} READ'")
        yield f"fish completes the files of {command}", ("README.md" in offered) == (reads or command == "ask")


def entries_of_options():
    """Returns the text of each option of the manual page, on one line."""
    options = text_of("docs/llrp.1").replace("\\-", "-").split("The options are as follows:")[1].split("\n.El\n")[0]
    return {name: " ".join(body.split()) for name, body in re.findall(r"(?ms)^\.It Fl (--?[\w-]+)[^\n]*\n(.*?)(?=^\.It |\Z)", options)}


def with_commas(number):
    return f"{int(number):,}"


def checks_of_bounds(program):
    """Yields whether the manual page has the bounds that the program has, and its defaults those of the sources."""
    entries, found = entries_of_options(), set()
    for command in sorted(commands_in(output(program, "--help")) - {"help"}):
        for flag, value in values_in(output(program, command, "--help")).items():
            done = subprocess.run([program, command, flag, "4294967296"], capture_output=True, text=True, timeout=60)
            bounds = re.search(r"is not in (\d+)\.\.=(\d+)", done.stderr)
            if value not in ("ADDRESS", "CLOCK", "DBM", "FILE", "FORM", "LIST", "PORT", "SCHEMES", "SET", "TAG", "TEXT", "URI") and (flag, bounds and bounds.groups()) not in found:
                found.add((flag, bounds and bounds.groups()))
                low, high = map(with_commas, bounds.groups())
                yield f"the bounds of {flag} in the manual page", f"from {low} to {high}" in entries[flag.removeprefix("-")]
    plan = text_of("crates/llrp/src/plan.rt")
    some, none = re.search(r"Some\(_\) => words\.polls\.unwrap_or\((\d+)\),\s+None => words\.polls\.unwrap_or\((\d+)\)", plan).groups()
    yield "the default of --polls in the manual page", f"; {none} by default, and {some} with .Fl -reports ." in entries["-polls"]
    helps = [output(program, it, "--help") for it in ("inventory", "loop")]
    times = {"0": "never", "1": "once", "2": "twice"}[none]
    yield "the default of --polls in the help", all(re.search(rf"--polls <P> +[^\n]*; without it {times}\n", it) for it in helps)
    yield "the default of --polls in docs/client.md", f"P is {none} by default, and {some} with `--reports`" in text_of("docs/client.md")
    some, none = re.search(r"Some\(_\) => words\.every\.unwrap_or\((\d+)\),\s+None => words\.every\.unwrap_or\((\d+)\)", plan).groups()
    yield "the default of --every in the help", all(re.search(rf"--every <N> +[^\n]*; without it {none}, ", it) for it in helps)
    yield "the default of --every in the manual page", f"; with {none}, the default without .Fl -reports ," in entries["-every"]
    page = " ".join(text_of("docs/client.md").split())
    yield "the default of --every in docs/client.md", f"with N of {none} (the default) it holds them" in page and f"N is {some} then, unless" in page
    yield from checks_of_watch(program, entries)
    yield from checks_of_patience(entries)
    address = re.search(r'const THIS_MACHINE: &str = "([\d.]+)";', text_of("crates/llrp/src/sim.rt"))[1]
    entry = re.search(r"(?s)\.It Cm sim .*?(?=\.It )", text_of("docs/llrp.1"))[0]
    yield "the address of sim in the manual page", re.findall(r"\d+\.\d+\.\d+\.\d+", entry) == [address]


def checks_of_watch(program, entries):
    """Yields whether the helps, the manual page and docs/client.md have the defaults of `watch` and `stop` that the sources have."""
    plan, run = text_of("crates/llrp/src/watch_plan.rt"), text_of("crates/llrp/src/watch.rt")
    own, alive = (re.search(rf"pub const {name}: u\d+ = (\d+);", plan)[1] for name in ("OWN_ID", "KEEPALIVE"))
    patience = re.search(r"const PATIENCE: u\d+ = (\d+);", run)[1]
    periods = re.search(r"const SILENT_PERIODS: u\d+ = (\d+);", text_of("crates/llrp/src/patience.rt"))[1]
    every = re.search(r"words\.every\.unwrap_or\((\d+)\)", run)[1]
    port = re.search(r"const LLRP_PORT: u16 = (\d+);", text_of("crates/llrp/src/address.rt"))[1]
    watch, stop = output(program, "watch", "--help"), output(program, "stop", "--help")
    page = " ".join(text_of("docs/client.md").split())
    yield "the default of --id", all(f"without it {own}\n" in it for it in (watch, stop)) and f"; {own} by default." in entries["-id"]
    yield "the default of --keepalive", f"without it {alive}, " in watch and f"; {alive} by default." in entries["-keepalive"]
    is_told = f", and {every} by default." in entries["-every"]
    yield "the default of --every of watch", f"make a report; without it {every}\n" in watch and is_told
    is_told = f"it is how long all of it may take, {patience} seconds by default." in entries["-timeout"]
    yield "the default of --timeout of stop", f"without it {patience}\n" in stop and is_told
    yield "the port of watch and stop", all(f"the port is {port} without one" in it for it in (watch, stop))
    told = (f"the id {own}", f"every {alive} seconds", f"{int(periods) * int(alive)} seconds")
    yield "watch in docs/client.md", all(it in page for it in told)


# What pages say with numbers, and where those numbers stand: a page, its words with a place for each number, and for each the source and the
# constant.
FIGURES = (
    ("docs/sim.md", "After {} seconds by the time of day in which it took nothing `sim` says `llrp: write`", ("llrp/src/speech.rt", "PATIENCE")),
    ("docs/sim.md", "A client that comes while another is served is refused within a second, with `--all` too: it hears a ConnectionAttemptEvent of 2,"),
    ("docs/sim.md", "with `--all` or `--clock` it is refused, as said"),
    ("docs/sim.md", "A line has at most {} octets, and the script at most {} lines", ("llrp_live/src/script_reader.rt", "LONGEST_LINE"), ("llrp_endpoints/src/script.rt", "MOST_ENTRIES")),
    ("docs/sim.md", "and there are at most {} lines", ("llrp_endpoints/src/script.rt", "MOST_ENTRIES")),
    ("docs/sim.md", "and after {} lines, so an input without an end", ("llrp_endpoints/src/script.rt", "MOST_ENTRIES")),
    ("docs/sim.md", "with their own ids, {} octets of text at most", ("llrp_live/src/script_reader.rt", "LONGEST_LISTING")),
    ("docs/client.md", "then reads until the reader closes the connection, for 5 seconds in all at most."),
    ("docs/client.md", "then `--settle` seconds ({}) for further ones", ("llrp/src/access_command.rt", "SETTLE")),
    ("docs/client.md", "It waits `--timeout` seconds ({}) for the connection", ("llrp/src/access_command.rt", "TIMEOUT")),
    ("docs/client.md", "It waits `--timeout` seconds for each of these, {} if nothing is said", ("llrp/src/ask.rt", "PATIENCE")),
    ("docs/client.md", "All of this takes SECONDS at most, {} if nothing is said", ("llrp/src/watch.rt", "PATIENCE")),
    ("docs/capture.md", "At most {} connections may be open at once", ("llrp_capture/src/connections.rt", "MOST_CONNECTIONS")),
)


def constant(source, name):
    """Returns a number of a source, as the pages write it."""
    return with_commas(re.search(rf"const {name}: \w+ = ([\d_]+);", text_of(f"crates/{source}"))[1].replace("_", ""))


def checks_of_patience(entries):
    """Yields whether the manual page and the pages have the times and sizes of `sim`, `ask`, `access` and `watch` that the sources have."""
    settle, timeout, patience = (constant(f"llrp/src/{it}.rt", name) for it, name in (("access_command", "SETTLE"), ("access_command", "TIMEOUT"), ("ask", "PATIENCE")))
    yield "the default of --settle", f"to 65,535 seconds; {settle} by default." in entries["-settle"]
    yield "the default of --timeout of ask and access", timeout == patience and f"to 65,535 seconds; {timeout} by default." in entries["-timeout"]
    clients = re.search(r"None => (\d+),", text_of("crates/llrp/src/clients.rt"))[1]
    yield "the default of --clients", f"where 0 is no end; {clients} by default." in entries["-clients"]
    rate = re.search(r"const MOST_RATE: u16 = ([\d_]+);", text_of("crates/llrp/src/live_clock.rt"))[1].replace("_", "")
    yield "the bounds of --clock", f"N times as fast, from 1 to {with_commas(rate)}." in entries["-clock"]
    yield "the bounds of --clock in docs/sim.md", f"any N from 1 to {rate} stands in place of 10" in " ".join(text_of("docs/sim.md").split())
    # (an AccessPassword has 32 bits, as docs/tables.md has it)
    yield "the digits of a password", entries["-password-file"].endswith(f", {32 // 4} hexadecimal digits.")
    for page, words, *numbers in FIGURES:
        told = words.format(*(constant(*it) for it in numbers))
        yield f"{page}: {told}", told in " ".join(text_of(page).split())


# Words that say nothing of an option, and those of helps that their manual page says otherwise, by their first letters.
PLAIN_WORDS = set("all and are besides does each first for from has have how its many not once that the this too what where which with without".split())
SAID_OTHERWISE = {
    "--all": "outs set", "--answers": "know", "--check": "sees tabl", "--every": "leav poll", "--keepalive": "neve", "--keys": "comp",
    "--lock": "bank pass", "--prefixes": "file says", "--reports": "plac poll", "--verbose": "stra", "--write": "abcd hex user",
}


def stems(text):
    """Returns the first letters of the words of a text."""
    return {it[:4] for it in re.findall(r"[a-z]{3,}", text.lower()) if it not in PLAIN_WORDS}


def checks_of_helps(program):
    """Yields whether what the help says of an option is said with words of the manual page, in its entry or in the command's, or of the
    completions."""
    entries = entries_of_options()
    described = text_of("docs/llrp.1").replace("\\-", "-").split(".Sh DESCRIPTION")[1].split("The options are")[0]
    of_commands = dict(re.findall(r"(?ms)^\.It Cm (\w+)[^\n]*\n(.*?)(?=^\.It Cm |\Z)", described))
    for command in sorted(commands_in(output(program, "--help")) - {"help"}):
        listed = output(program, command, "--help").split("Options:\n")[1].split("\n\n")[0]
        completed_by = descriptions("zsh", command)
        for flag, said in re.findall(r"(?m)^ +(--[\w-]+)(?: <\w+>)? +(.*)$", listed):
            known = " ".join([entries[flag[1:]], of_commands[command], completed_by[flag], SAID_OTHERWISE.get(flag, "")])
            others = stems(said) - stems(known)
            yield f"the help of {command} {flag}: {others}", not others


def checks_of_names(program):
    """Yields whether each name in capital letters in README.md stands in a help, on a page of docs/ or as a file too."""
    helps = [output(program, it, "--help") for it in commands_in(output(program, "--help")) - {"help"}]
    pages = [text_of(f"docs/{it}") for it in os.listdir(os.path.join(TOP, "docs")) if it.endswith((".md", ".1"))]
    named, known = (set(re.findall(r"\b[A-Z]{3,}\b", it)) for it in (text_of("README.md"), " ".join([*helps, *pages, *os.listdir(TOP)])))
    yield f"names in README.md alone: {named - known}", named <= known


def statuses_of(text):
    """Returns the exit statuses of a text with their words: `0 if all is well, 1 if ..`."""
    return {int(status): words for status, words in re.findall(r"(\d+) (?:if|for) ([a-z ,]+?)(?=,? (?:and )?\d|,? \()", text)}


def checks_of_statuses():
    """Yields whether the pages have the exit statuses of docs/errors.md, with its words, and the statuses of the sources no other."""
    table = text_of("docs/errors.md").split("| Exit status | Meaning |\n|---|---|\n")[1].split("\n\n")[0]
    wanted = {int(it): words for it, words in re.findall(r"(?m)^\| (\d+) \| (.*) \|$", table)}
    scripts = {it for it, words in wanted.items() if "./llrp" in words}
    program = {it: words for it, words in wanted.items() if it not in scripts}
    manual = text_of("docs/llrp.1").split(".Sh EXIT STATUS")[1].split(".El")[0]
    found = {int(it): words.rstrip(".") for it, words in re.findall(r"(?m)^\.It (\d+)\n(.*)$", manual)}
    yield f"the statuses of the manual page: {found}", {it: words[0].lower() + words[1:] for it, words in found.items()} == program
    readme = " ".join(text_of("README.md").split()).split("The exit status is ")[1].split(" An error is")[0]
    told = {it: words.rstrip(",") for it, words in statuses_of(readme).items()}
    yield f"the statuses of README.md: {told}", told == program and f"({max(scripts)} if `./llrp`" in readme
    sources = "".join(text_of(f"crates/{it}") for it in ("llrp/src/network.rt", "llrp/src/plan.rt", "llrp/src/access_command.rt", "llrp_commands/src/command.rt"))
    constants = {int(it) for it in re.findall(r"(?m)^(?:pub )?const \w+: u8 = (\d+);", sources)}
    yield f"the statuses of the sources: {constants}", constants and constants <= set(program)
    yield "the status of the script", f"exit $((status > 128 ? status : {max(scripts)}))" in text_of("llrp")


def examples_of(program):
    """Yields each command of the manual page and of the helps with the lines that it has to print. Those that need a reader are left out."""
    manual = text_of("docs/llrp.1").split(".Sh EXAMPLES")[1].split(".Sh ")[0].replace("\\-", "-")
    texts = ["\n".join(re.findall(r"(?s)\.Bd -literal -offset indent\n(.*?)\n\.Ed", manual))]
    for command in sorted(commands_in(output(program, "--help")) - {"help"}):
        texts.append(re.sub(r"(?m)^  ", "", re.split(r"\nExamples?:\n", output(program, command, "--help"))[1]))
    for text in texts:
        for command, wanted in re.findall(r"(?m)^\$ (.*)\n((?:(?!\$ ).*\n?)*)", text.rstrip("\n") + "\n"):
            # (what writes a file is there for a command over a network)
            if not re.search(r"llrp (sim|inventory|watch|stop|ask|access)\b| > ", command):
                yield command, wanted


def checks_of_examples(program):
    """Yields whether each example prints what stands below it, and ends well."""
    for command, wanted in examples_of(program):
        script = re.sub(r"\bllrp (?=\w)", lambda _: f"{shlex.quote(program)} ", command)
        done = subprocess.run(["bash", "-o", "pipefail", "-c", script], capture_output=True, text=True, timeout=60)
        yield f"the example {command}: {done.stdout}", (done.returncode, done.stdout, done.stderr) == (0, wanted, "")


def checks_of_toolchain():
    """Yields whether README.md and the pages name the toolchain that is there, wherever they name one."""
    there = output("rt", "version").strip()
    yield "the toolchain in README.md", f"(`{there}`)" in text_of("README.md")
    for page in ("README.md", *(f"docs/{it}" for it in os.listdir(os.path.join(TOP, "docs")) if it.endswith(".md"))):
        for named in re.findall(r"rattle-kit-\w+(?: logic \w+)?", text_of(page)):
            yield f"the toolchain in {page}: {named}", named in (there, there.split()[0])


def checks_of_limits(program):
    """Yields whether the limits that are stated are those of the code."""
    tree, tool = text_of("crates/llrp_tree/src/lib.rt"), text_of("crates/llrp_commands/src/command.rt")
    most, depth = (re.search(rf"pub const {name}: u\d+ = ([\d_]+);", tree)[1].replace("_", "") for name in ("MAX_LIMIT", "MAX_DEPTH"))
    limit = re.search(r"pub const LIMIT: u32 = ([\d_]+);", tool)[1].replace("_", "")
    for command in ("show", "encode"):
        told = output(program, command, "--help")
        yield f"{command}'s default limit", f"[default: {limit}]" in told
        yield f"{command}'s greatest limit and depth", f"{int(most):,}" in told and f"{depth} levels" in told
    told = output(program, "watch", "--help")
    yield "watch's default limit", f"[default: {most}]" in told
    yield "the greatest message of the library for C", f"#define LLRP_MOST_OCTETS {most}\n" in text_of("include/llrp.h")
    for name in ("README.md", "docs/tables.md", "docs/errors.md", "docs/llrp.1"):
        yield f"the limits in {name}", all(f"{int(it):,}" in text_of(name) for it in (most, limit)) and depth in text_of(name)


def spelled(number):
    """Returns a number below 100 in words."""
    tens, ones = divmod(number, 10)
    if number < 20:
        return SMALL[number]
    return TENS[tens] + (f"-{SMALL[ones]}" if ones else "")


def checks_of_figures():
    """Yields whether README.md counts the crates of the program and the functions for C as they are."""
    readme = text_of("README.md")
    sys.path.insert(0, TOP)
    import build  # (the script that knows which crates are below another)

    uses = build.dependencies()
    crates = len(build.below("llrp", uses)) + 1
    yield "how many crates make up the program", f"{spelled(crates)} crates that make up the program" in readme
    functions = len(re.findall(r"(?m)^\w+ llrp_\w+\(", text_of("include/llrp.h")))
    yield "how many functions the header has", f"declares {spelled(functions)} functions" in readme


def checks_of_version(program):
    """Yields whether the version is the source's, and said as help is."""
    version = re.search(r'const VERSION: &str = "([^"]+)"', text_of("crates/llrp_words/src/arguments/commands.rt"))[1]
    done = subprocess.run([program, "--version"], capture_output=True, text=True, timeout=60)
    yield "version", (done.returncode, done.stdout, done.stderr) == (0, f"llrp {version}\n", "")
    alone = subprocess.run([program], capture_output=True, text=True, timeout=60)
    yield "no command", (alone.returncode, alone.stdout) == (2, "") and all(it in alone.stderr for it in ("show", "encode", "inventory"))


def checks_of_arguments(program):
    """Yields whether an argument that is no UTF-8 is a mistake in the command line: one line of error."""
    for words in ([b"\xff"], [b"show", b"--hex\xff"], [b"epc", b"3074257BF7194E4000001A8\xc3"]):
        done = subprocess.run([program.encode(), *words], capture_output=True, input=b"", timeout=60)
        told = b"error: invalid UTF-8 was detected in one or more arguments\n"
        yield f"an argument that is no UTF-8: {words}", (done.returncode, done.stdout, done.stderr) == (2, b"", told)


def checks_of_script():
    """Yields whether those who cannot read the script of three sightings from its file have its lines."""
    lines = text_of("examples/inventory.script").splitlines()
    yield "three sightings", len(lines) == 3
    for name in ("crates/test_devices/src/sightings.rt", "tests/rows/refused.rows"):
        yield f"the three sightings in {name}", all(line in text_of(name) for line in lines)


def files_named(page):
    """Yields the paths of the files that a page links to, or names with the folder that they are in."""
    text = text_of(page)
    yield from (os.path.join(os.path.dirname(page), it) for it in re.findall(r"\]\(([^)#:]+)", text))
    yield from re.findall(r"`((?:bench|completions|crates|docs|examples|include|tests)/[\w./-]+)`", text)


def checks_of_files():
    """Yields whether each file that a page names is there."""
    pages = ["README.md", "CONTRIBUTING.md", *(f"docs/{it}" for it in os.listdir(os.path.join(TOP, "docs")) if it.endswith(".md"))]
    missing = [(page, it) for page in pages for it in files_named(page) if not os.path.exists(os.path.join(TOP, it))]
    yield f"the files that pages name: {missing}", not missing


def checks_of_manual():
    """Yields whether the manual pages are set without a warning."""
    for page in ("docs/llrp.1", "docs/llrp.3"):
        done = subprocess.run(["groff", "-mdoc", "-ww", "-z", "-Tutf8", page], cwd=TOP, capture_output=True, text=True, timeout=60)
        yield f"groff has nothing to say of {page}", (done.returncode, done.stdout, done.stderr) == (0, "", "")


def main():
    program = program_given()
    parts = (checks, checks_of_helps, checks_of_names, checks_of_files_read, checks_of_version, checks_of_arguments, checks_of_limits, checks_of_bounds, checks_of_examples)
    others = (checks_of_statuses, checks_of_toolchain, checks_of_figures, checks_of_script, checks_of_files, checks_of_manual)
    results = [*(it for part in parts for it in part(program)), *(it for part in others for it in part())]
    return finish_results(results, LEAST)


if __name__ == "__main__":
    sys.exit(main())
