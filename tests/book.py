#!/usr/bin/env python3
"""Writes out/believe.html by docs/book.py, and compares it with the definitions, the contracts and the planted mistakes.

usage: tests/book.py

No link may lead nowhere and no place may be there twice; each believed definition has to be there once, to the letter, and so has each
contract of a promise and each planted mistake. The last line is `N passed, M failed`; the status is 1 if something failed.
"""
import html.parser
import os
import pathlib
import subprocess
import sys

import believed
from parts.counting import finish_results, text_of
from parts.definitions import Tree
from parts.repository import TOP

LEAST = 2000
# Elements without an end.
VOID = ("meta",)


class Page(html.parser.HTMLParser):
    """What a page has: its places, its links, its text in each `pre`, and the elements that are not ended in their order."""

    def __init__(self):
        super().__init__()
        self.places, self.links, self.texts, self.open, self.wrong = [], [], {}, [], []
        self.place = self.pre = None

    def handle_starttag(self, tag, attrs):
        attrs = dict(attrs)
        if tag not in VOID:
            self.open.append(tag)
        if "id" in attrs:
            self.places.append(attrs["id"])
            self.place = attrs["id"]
        if "href" in attrs:
            self.links.append(attrs["href"])
        if tag == "pre":
            self.pre = ""

    def handle_data(self, data):
        if self.pre is not None:
            self.pre += data

    def handle_endtag(self, tag):
        if not self.open or self.open.pop() != tag:
            self.wrong.append(f"{tag} ends at {self.getpos()}")
        if tag == "pre":
            self.texts.setdefault(self.place, []).append(self.pre)
            self.pre = None


def written():
    """The page, written anew."""
    subprocess.run([sys.executable, os.path.join(TOP, "docs/book.py")], check=True, stdout=subprocess.DEVNULL, timeout=120)
    page = Page()
    page.feed(text_of("out/believe.html"))
    return page


def definitions(tree, page):
    """Whether each believed definition is there once, to the letter."""
    for it in believed.count_of(tree, [*believed.PROMISES, believed.WORDS]).definitions:
        place = f"{it.crate}.{it.module}.{it.name}"
        text = "\n".join(it.lines).rstrip("\n")
        yield f"the definition {place}", page.places.count(place) == 1 and page.texts.get(place) == [text]


def contracts(tree, page):
    """Whether each contract of a promise is there, to the letter."""
    for table in (believed.PROMISES, believed.BESIDES, believed.COMMANDS):
        for title, names in table.items():
            for name in names.split():
                place = f"contract.{title.split()[0]}.{name.split('/')[0].replace('::', '.')}"
                _, text = believed.contract_of(tree, name)
                yield f"the contract {name}", page.places.count(place) == 1 and page.texts.get(place, [""])[0] == text


def mistakes(page):
    """Whether each planted mistake is there once."""
    for path in pathlib.Path(TOP).glob("crates/*/must-fail/*.edit"):
        place = f"mistake.{path.parts[-3]}.{path.stem}"
        yield f"the planted mistake {place}", page.places.count(place) == 1


def results():
    tree, page = Tree(pathlib.Path(TOP)), written()
    yield f"elements are not ended: {page.open} {page.wrong[:3]}", not page.open and not page.wrong
    yield f"there are links: {len(page.links)}", len(page.links) > 5000
    places = set(page.places)
    broken = [link for link in page.links if link.removeprefix("#") not in places]
    yield f"links lead nowhere: {broken[:3]}", not broken
    twice = [place for place in places if page.places.count(place) > 1]
    yield f"places are there twice: {twice[:3]}", not twice
    yield from definitions(tree, page)
    yield from contracts(tree, page)
    yield from mistakes(page)


if __name__ == "__main__":
    sys.exit(finish_results(list(results()), LEAST))
