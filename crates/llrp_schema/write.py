#!/usr/bin/env python3
"""Writes what table.tsv has of each message and parameter of LLRP 1.1, and enumerations.tsv of the names of numbers, into the sources, the
definitions, docs/tables.md and the package for Python.

usage: crates/llrp_schema/write.py [--check] [TABLE [ENUMERATIONS]]

It writes the lists of kinds, the rows and the look-ups of src/, the rows and lists of specs/Schema.antt, the number of kinds in
crates/llrp_listing/src/encode/guess.rt, and the rows of docs/tables.md; and of the names of numbers those of the crate llrp_enumerations and
python/llrp_epc/enumerations.tsv. A row that cannot be right is refused with its line, and then
nothing is written. What a file has already keeps its layout, so an unchanged row is written octet for octet as it stands; after a change
`rt fmt` lays out the new lines. With --check nothing is written: the first line that differs is named, and the status is 1 if there is one.

Written by hand are all other functions, contracts and heads of these files, the bounds in them (at most 18 groups), and in src/places.rt
the two functions for reports of the whole standard, which find only a part of the children at once.
"""
import argparse
import itertools
import sys
from pathlib import Path

sys.dont_write_bytecode = True

from writer import definitions, names, page, sources
from writer.enumerations import check_fields, enumerations_of
from writer.kinds import Kinds
from writer.part import with_part
from writer.table import Refused, rows_of

HERE = Path(__file__).resolve().parent


def text_of(path):
    return path.read_text(encoding="utf-8")


def parts_of(table, enumerations):
    """The parts that two tables say."""
    rows, by_name = rows_of(table), enumerations_of(enumerations)
    check_fields(rows, by_name)
    kinds = Kinds(rows)
    return itertools.chain(sources.parts(kinds), definitions.parts(kinds), page.parts(kinds), names.parts(kinds, by_name))


def texts_of(parts):
    """The text of each file with all of its parts written."""
    texts = {}
    for part in parts:
        text = texts.get(part.file) or text_of(HERE / part.file)
        texts[part.file] = with_part(text, part)
    return texts


def difference(file, text):
    """The first line of a file that is not as the tables say, or None."""
    lines = itertools.zip_longest(text_of(HERE / file).splitlines(), text.splitlines(), fillvalue="")
    for number, (found, wanted) in enumerate(lines, 1):
        if found != wanted:
            return f"{(HERE / file).resolve()}:{number}: not as the tables say\n found: {found.strip()}\nwanted: {wanted.strip()}"
    return None


def main():
    words = argparse.ArgumentParser(description="Writes what table.tsv has of each message and parameter into the sources.")
    words.add_argument("--check", action="store_true", help="write nothing, and name the first line that differs")
    words.add_argument("table", nargs="?", default=HERE / "table.tsv", type=Path, help="another table")
    words.add_argument("enumerations", nargs="?", default=HERE / "enumerations.tsv", type=Path, help="another table of the names of numbers")
    given = words.parse_args()
    try:
        texts = texts_of(parts_of(text_of(given.table), text_of(given.enumerations)))
    except Refused as refused:
        print(refused)
        return 1
    changed = {file: text for file, text in texts.items() if text != text_of(HERE / file)}
    if given.check:
        for file, text in changed.items():
            print(difference(file, text))
            break
        return 1 if changed else 0
    for file, text in changed.items():
        (HERE / file).write_text(text, encoding="utf-8")
        print(f"written: {file}")
    return 0


if __name__ == "__main__":
    sys.exit(main())
