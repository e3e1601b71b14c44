"""The rows below tests/rows/: calls of the programs test_calls, test_tag_calls and test_end_calls, and what each has to answer.

The first line of a file says how many rows it has, and a line that begins with # is a comment. A row is a line whose columns are split
by tabs: its name, the call, the call's words, => and a column for each line that the call answers. Steps of an exchange follow their row
in lines that begin with a tab: the step's word or none, the line that it answers, and how often it comes where that is not once.

A column with octets has hexadecimal digits, with spaces for reading; "TEXT" stands for the octets of a literal of Python's, <FILE> for
those of a file below tests/rows/help/, *N after one of these, or after several between parentheses, for N copies. A word that begins with
$ and a space stands for the words of a command line. A line that has to begin so only ends in a space and three points, and
three points are any line.
"""
import ast
import os
import re
import shlex
import sys
from typing import List, NamedTuple, Optional, Tuple

from parts.repository import TESTS, built

FOLDER = os.path.join(TESTS, "rows")
PIECE = re.compile(r'\s*(?:("(?:[^"\\]|\\.)*")|<([\w.]+)>|([0-9A-Fa-f]+)|(\())')
TIMES = re.compile(r"\*(\d+)")
HEADING = r"# (\d+) rows: name, call, words, =>, what it answers, split by tabs"


# The calls of words, texts and keys of tags, and those of ends of a connection, scripts and plans; test_calls has the others.
TAG_CALLS = """
    add-prefix all-parts all-text all-word company count-digits form form-named form-of forms further-id further-key further-key-of id id-of
    key key-of list-of-texts object prefix read-form supplier-id
""".split()
END_CALLS = """
    among among-failing ask ask-failing client gathering gathering-cut inventory own plan reader rospec script script-read segments-failing
    serve serving serving-cut steps
""".split()
PROGRAMS = ("test_calls", "test_tag_calls", "test_end_calls")


def programs_given():
    """Returns the programs that the script's words name, in the order of PROGRAMS, or where it has none those of the crates."""
    return [os.path.abspath(it) for it in sys.argv[1:]] or [built(it) for it in PROGRAMS]


def program_of(call, programs):
    """Returns which of these programs makes a call."""
    return programs[1 if call in TAG_CALLS else 2 if call in END_CALLS else 0]


class Row(NamedTuple):
    """A call with its words, and the lines that it has to answer."""

    name: str
    call: str
    words: List[str]
    wanted: List[str]
    # (a row without => says nothing of its answer: it is there for tests/refuse_each.py)
    is_compared: bool = True


def piece_at(text: str, at: int) -> Optional[Tuple[str, int]]:
    """Returns the digits of the piece at a place and the place after it; nothing where there is none."""
    found = PIECE.match(text, at)
    if not found:
        return None
    quoted, file, digits, _ = found.groups()
    at = found.end()
    if quoted is not None:
        digits = ast.literal_eval(f"b{quoted}").hex()
    elif file is not None:
        with open(os.path.join(FOLDER, "help", file), "rb") as help_text:
            digits = help_text.read().hex()
    elif digits is None:
        digits, at = pieces_at(text, at)
        if text[at : at + 1] != ")":
            return None
        at += 1
    times = TIMES.match(text, at)
    return (digits * int(times[1]), times.end()) if times else (digits, at)


def pieces_at(text: str, at: int) -> Tuple[str, int]:
    """Returns the digits of the pieces from a place on, and the place after them."""
    digits = ""
    while (found := piece_at(text, at)) is not None:
        digits, at = digits + found[0], found[1]
    return digits, at


def digits_of(column: str) -> str:
    """Returns the digits of a column's octets, or the column where it does not stand for octets."""
    if not set('"<*') & set(column):
        return column
    digits, at = pieces_at(column, 0)
    return column if column[at:].strip() else digits


def words_of(column: str) -> List[str]:
    """Returns the words of a column."""
    return shlex.split(column[2:]) if column.startswith("$ ") else [digits_of(column)]


def row_of(columns: List[str]) -> Row:
    """Returns the row of the columns of a line."""
    name, call, *words = columns
    at = words.index("=>") if "=>" in words else len(words)
    return Row(name, call, [word for it in words[:at] for word in words_of(it)], words[at + 1 :], "=>" in words)


def with_step(row: Row, columns: List[str]) -> Row:
    """Returns a row with a step more: its word or none, its answer, and how often it comes."""
    word, answer, *times = columns
    count = int(times[0]) if times else 1
    words = [digits_of(word)] * count if word else []
    return row._replace(words=row.words + words, wanted=row.wanted + [answer] * count)


def rows_in(name: str) -> List[Row]:
    """Returns the rows of a file; ends the script where it does not have as many as its first line says."""
    with open(os.path.join(FOLDER, f"{name}.rows"), encoding="utf-8") as file:
        heading, *lines = file.read().splitlines()
    rows: List[Row] = []
    for line in lines:
        if line.startswith("\t"):
            rows[-1] = with_step(rows[-1], line.split("\t")[1:])
        elif line and not line.startswith("#"):
            rows.append(row_of(line.split("\t")))
    there = re.fullmatch(HEADING, heading)
    if not there or not rows or len(rows) != int(there[1]):
        sys.exit(f"WRONG: {len(rows)} rows of tests/rows/{name}.rows: {heading}")
    return rows


def given_to(row: Row) -> bytes:
    """Returns what the program test_calls reads for a row: its call and its words, a line each."""
    return "".join(f"{word}\n" for word in [row.call, *row.words]).encode()


def are_same(found: str, wanted: str) -> bool:
    """Whether a line that was answered is the one that a column has."""
    if wanted == "...":
        return True
    if wanted.endswith(" ..."):
        return found.startswith(digits_of(wanted.removesuffix(" ...")))
    digits = digits_of(wanted).lower()
    return found.lower() in (digits, digits.replace(" ", ""))
