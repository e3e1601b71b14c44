#!/usr/bin/env python3
"""Compares the table of docs/gate.md with the list of .ci/run: each script below tests/, the tools that it needs, and their packages.

usage: tests/gate.py

The last line is `N passed, M failed`; the status is 1 if something failed.
"""
import os
import re
import sys

from parts.counting import finish_results, text_of
from parts.repository import TOP

# How many scripts there are, with the two lists of them.
LEAST = 43 + 2


def scripts_there():
    """Returns the scripts below tests/ that can be run."""
    names = os.listdir(os.path.join(TOP, "tests"))
    return {it for it in names if it.endswith(".py") and re.search(r"(?m)^if __name__", text_of(f"tests/{it}"))}


def packages_in(text):
    """Returns the packages of the tools that .ci/run gives another name than the tool's."""
    body = re.search(r"(?ms)^package_of\(\) \{$(.*?)^\}", text)[1]
    cases = re.findall(r"(?m)^ +([^*\n]+)\) echo ([^;]*) ;;$", body)
    return {tool: packages.split() for tools, packages in cases for tool in tools.split(" | ")}


def listed_in(text):
    """Returns the tools and the packages of each script of .ci/run."""
    packages = packages_in(text)
    parts = [re.search(rf"(?ms)^{it}=\($(.*?)^\)", text)[1] for it in ("ports", "others", "library")]
    rows = [it.split() for it in re.findall(r'(?m)^    "([^"]*)"$', "".join(parts))]
    return {name: (set(tools), {it for tool in tools for it in packages.get(tool, [tool])}) for name, _, *tools in rows}


def shown_in(page):
    """Returns the tools and the packages of each script of the page's table."""
    table = page.split("\n| Script | ")[1].split("\n\n")[0].splitlines()[2:]
    rows = [[set(re.findall(r"`([^`]*)`", cell)) for cell in line.strip("|").split("|")] for line in table]
    return {name: (tools, packages) for names, tools, packages in rows for name in names}


def checks():
    """Yields what is compared, and whether it is right."""
    listed, shown, there = listed_in(text_of(".ci/run")), shown_in(text_of("docs/gate.md")), scripts_there()
    yield f"the scripts of .ci/run: {set(listed) ^ there}", set(listed) == there
    yield f"the scripts of docs/gate.md: {set(shown) ^ there}", set(shown) == there
    for name, needs in listed.items():
        yield f"docs/gate.md: {name}: {shown.get(name)} in place of {needs}", shown.get(name) == needs


if __name__ == "__main__":
    sys.exit(finish_results(list(checks()), LEAST))
