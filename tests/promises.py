#!/usr/bin/env python3
"""Looks in the sources for each call and each clause that docs/promises.md names.

usage: tests/promises.py

The last line is `N passed, M failed`; the status is 1 if something failed.
"""
import pathlib
import re
import sys

from parts.counting import finish_results, text_of
from parts.definitions import Tree
from parts.repository import TOP

LEAST = 540
NAME = r"`((?:\w+::)*[\w]+)`"


def rows():
    """Yields of each row of the page the calls that it names, or the row before that names some, and the names among its clauses."""
    calls = []
    for call, clauses, _ in re.findall(r"(?m)^\| (.*?) \| (.*?) \| (.*) \|$", text_of("docs/promises.md")):
        calls = re.findall(NAME, call) or calls
        yield call, calls, re.findall(NAME, clauses)


def ghosts():
    """Returns the names of what an implementation of a trait says of its calls."""
    sources = pathlib.Path(TOP, "crates").glob("*/src/**/*.rt")
    return {it for source in sources for it in re.findall(r"ghost (\w+) =", source.read_text(encoding="utf-8"))}


def contracts_of(tree, call):
    """Returns the contracts of the calls with this name."""
    return [text for name, (_, text) in tree.contracts.items() if f"::{name}".endswith(f"::{call}")]


def has_clause(contracts, clause):
    return any(re.search(rf"\b(?:ensures|requires) {clause} \{{", text) for text in contracts)


def checks(tree):
    """Yields what is looked for, and whether it is there."""
    said_by_impls = ghosts()
    for it in sorted(set(re.findall(r"`((?:\w+::)+[a-z_]+)`", text_of("docs/promises.md")))):
        yield f"docs/promises.md: no call {it}", bool(contracts_of(tree, it))
    for call, calls, clauses in rows():
        for it in calls if call.strip() else []:
            yield f"docs/promises.md: no call {it}", bool(contracts_of(tree, it)) or it in {"main", "sim", "loop", "inventory"}
        contracts = [text for it in [*calls, *(it for it in clauses if "::" in it)] for text in contracts_of(tree, it)]
        for it in [it for it in clauses if "::" not in it and it.islower()]:
            yield f"docs/promises.md: {calls}: no clause {it}", has_clause(contracts, it) or it in said_by_impls


if __name__ == "__main__":
    sys.exit(finish_results(list(checks(Tree(pathlib.Path(TOP)))), LEAST))
