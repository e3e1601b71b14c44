#!/usr/bin/env python3
"""Writes docs/llrp.3, the manual page of the library for C, from include/llrp.h: its declarations, and the words of its comments.

usage: docs/manual.py [PATH]
"""
import os
import re
import sys
import textwrap

TOP = os.path.dirname(os.path.dirname(os.path.realpath(__file__)))
HEADER, PAGE = os.path.join(TOP, "include/llrp.h"), os.path.join(TOP, "docs/llrp.3")
# The day of the page, and what it has besides the header.
HEAD = [".Dd November 27, 2026", ".Dt LLRP 3", ".Os", ".Sh NAME"]
END = r"""
.Sh EXAMPLES
The word of a tag URI:
.Bd -literal -offset indent
const char *text = "urn:epc:tag:sgtin\-96:3.0614141.812345.6789";
uint8_t word[LLRP_WORD_OCTETS];
uint32_t status = llrp_word_of_text((const uint8_t *)text, strlen(text), word, sizeof word);
.Ed
.Pp
A program is compiled and linked so:
.Bd -literal -offset indent
cc program.c $(pkg\-config \-\-cflags \-\-libs llrp)
.Ed
.Sh SEE ALSO
.Xr llrp 1
""".strip().splitlines()
COMMENT = r"/\* ((?:(?!\*/)[\s\S])*?)\s*\*/\n"
FUNCTION = re.compile(COMMENT + r"(\w+) (llrp_\w+)\(([^)]*)\);")
CONSTANTS = re.compile(COMMENT + r"((?:#define LLRP_\w+ \d+\n)+)")
STRUCT = re.compile(COMMENT + r"(struct llrp_\w+) \{\n([^}]*)\};")


def text(words):
    """Returns words as lines of the page, with a new line for each sentence."""
    words = " ".join(words.split())
    words = re.sub(r"`([^`]*)`", lambda it: rf"\(lq{it[1]}\(rq", words)
    words = re.sub(r"\burn:\S+|--", lambda it: it[0].replace("-", r"\-"), words)
    how = {"break_long_words": False, "break_on_hyphens": False}
    return [line for sentence in re.split(r"(?<=[.;:]) (?=[A-Z*])", words) for line in textwrap.wrap(sentence, 100, **how)]


def items(lines, first):
    """Returns the entries of a list, of which each begins with a line of this form and the next lines belong to it."""
    found = []
    for line in lines:
        if entry := re.fullmatch(first, line):
            found.append(list(entry.groups("")))
        else:
            found[-1][-1] += f" {line.strip()}"
    return found


def paragraph(lines):
    """Returns a paragraph of a comment: a list of rules, a list of parameters, or sentences."""
    if lines[0].startswith(" - "):
        return [".Bl -bullet -compact", *(it for (rule,) in items(lines, r" - (.*)") for it in (".It", *text(rule))), ".El"]
    if re.match(r"\w+  +", lines[0]):
        return tagged(((f"Fa {name}", words) for name, words in items(lines, r"(\w+)  +(.*)")), "stream_length")
    return [".Pp", *text(" ".join(lines))]


def tagged(entries, widest):
    """Returns a list of names with what is said of each."""
    return [".Pp", f".Bl -tag -width {widest} -compact", *(it for name, words in entries for it in (f".It {name}", *text(words))), ".El"]


def described(comment):
    """Returns what a comment says."""
    plain = re.sub(r"(?m)^ \*(?: |$)", "", comment)
    return section(it for block in plain.split("\n\n") for it in paragraph(block.split("\n")))


def section(lines):
    """Returns the lines of a section, which does not begin with a break between paragraphs."""
    first, *others = lines
    return others if first == ".Pp" else [first, *others]


def synopsis(functions):
    """Returns the declarations."""
    for _, result, name, parameters in functions:
        yield from (f".Ft {result}", f".Fo {name}", *(f'.Fa "{it.strip()}"' for it in parameters.split(",")), ".Fc")


def statuses(header):
    """Returns the statuses, with what the header says of each group and of each one."""
    for group in re.search(r"(?s)enum llrp_status \{\n(.*?)\};", header)[1].split("\n\n"):
        if about := re.match(r" +/\* (.*) \*/\n", group):
            yield from (".Pp", *text(about[1]))
        rows = re.findall(r"(?m)^ +(LLRP_\w+) = (\d+),?(?: +/\* (.*) \*/)?$", group)
        entries = ((f"Dv {name}", f"{number}: {words}" if words else number) for name, number, words in rows)
        yield from tagged(entries, "LLRP_NODE_FIELD_COUNT")


def constants(header):
    """Returns the constants, with what the header says of each group."""
    for about, lines in CONSTANTS.findall(header):
        rows = re.findall(r"#define (\w+) (\d+)", lines)
        yield from (".Pp", *text(about), *tagged(((f"Dv {name}", number) for name, number in rows), "LLRP_WORD_OCTETS"))


def structs(header):
    """Returns the structs, with what the header says of each and of its members."""
    for about, name, members in STRUCT.findall(header):
        rows = re.findall(r"(?m)^ +(\w+) (\w+)(\[\d+\])?; +/\* (.*) \*/$", members)
        entries = ((f"Vt {kind} {member}{count}", words) for kind, member, count, words in rows)
        yield from (f".Ss {name}", *section([".Pp", *text(about)]), *tagged(entries, "uint64_t_first_seen"))


def page(header):
    """Returns the manual page for a header."""
    functions = FUNCTION.findall(header)
    about, rules = re.match(r"/\* llrp\.h: (.*?)\.\n \*\n([\s\S]*?)\n \*/", header).groups()
    lines = [*HEAD, *(f".Nm {name} ," for _, _, name, _ in functions)]
    lines[-1] = lines[-1].removesuffix(" ,")
    lines += [f".Nd {about}", ".Sh SYNOPSIS", ".In llrp.h", *synopsis(functions), ".Sh DESCRIPTION", *described(rules)]
    for comment, _, name, _ in functions:
        lines += [f".Ss {name}", *described(comment)]
    lines += [*structs(header), ".Ss Constants", *section(constants(header)), ".Sh RETURN VALUES", "How a call ends:", *statuses(header), *END]
    return "\n".join(lines) + "\n"


if __name__ == "__main__":
    with open(HEADER, encoding="utf-8") as source, open(sys.argv[1] if sys.argv[1:] else PAGE, "w", encoding="utf-8") as file:
        file.write(page(source.read()))
