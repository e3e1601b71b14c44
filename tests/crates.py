#!/usr/bin/env python3
"""Compares crates/README.md with crates.txt: the headings, the crates below each and what each has; and both with the folders. Looks for
the paths of crates that crates/README.md names.

usage: tests/crates.py

The last line is `N passed, M failed`; the status is 1 if something failed.
"""
import os
import re
import sys

from parts.counting import finish_results, text_of
from parts.repository import TOP

LEAST = 82


def listed():
    """Returns the crates of crates.txt by their headings, each with the comment above it."""
    found, words = {}, []
    for line in text_of("crates.txt").splitlines():
        if line.startswith("# == "):
            found[line[len("# == "):]] = []
        elif line.startswith("# "):
            words.append(line[2:])
        elif line:
            list(found.values())[-1].append((re.match(r"\w+", line)[0], " ".join(words)))
        if not line.startswith("# ") or line.startswith("# == "):
            words = []
    return found


def mapped():
    """Returns the crates of the tables of crates/README.md by their headings, each with what it has."""
    sections = re.findall(r"(?ms)^## (.*?)\n(.*?)(?=^## |\Z)", text_of("crates/README.md"))
    tables = {heading: re.findall(r"(?m)^\| `(\w+)` \| (.*?) \|", body) for heading, body in sections if "\n| Crate |" in body}
    return {heading: table for heading, table in tables.items() if table}


def paths_named(crates):
    """Yields each path of a crate that crates/README.md names, and whether a crate has it that the same section names before."""
    for section in text_of("crates/README.md").split("\n## ")[1:]:
        named = []
        for row in section.split("\n"):
            words = re.findall(r"`([\w./]+)`", row)
            named = [*([] if row.startswith("| ") else named), *(it for it in words if it in crates)]
            for path in (it for it in words if it.startswith(("src/", "specs/"))):
                yield f"crates/README.md: {path}", any(os.path.exists(os.path.join(TOP, "crates", crate, path)) for crate in named)


def checks():
    """Yields what is compared, and whether it is right."""
    by_list, by_map = listed(), mapped()
    yield f"the headings {list(by_map)}", list(by_map) == list(by_list)
    for heading, crates in by_list.items():
        table = by_map.get(heading, [])
        yield f"the crates of {heading}: {[crate for crate, _ in table]}", [crate for crate, _ in table] == [crate for crate, _ in crates]
        for crate, words in crates:
            yield f"what {crate} has: {words}", [it for it in table if it[0] == crate] == [(crate, words)]
    crates = sorted(crate for table in by_list.values() for crate, _ in table)
    folders = sorted(it.name for it in os.scandir(os.path.join(TOP, "crates")) if it.is_dir())
    yield f"the folders {folders}", folders == crates
    yield from paths_named(crates)


if __name__ == "__main__":
    sys.exit(finish_results(list(checks()), LEAST))
