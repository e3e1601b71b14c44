#!/usr/bin/env python3
"""Writes all that has to be believed as one page, from docs/believe.md, the contracts and the definitions.

usage: docs/book.py [FILE]

The page is out/believe.html, or FILE. It has README's sentence of each promise, what docs/believe.md says of it, its contracts with their
files and planted mistakes, and each definition once, after the contract or the definition that first names it. Every name is a link. It
needs nothing but a browser, and can be read on a small screen and printed.
"""
import html
import re
import subprocess
import sys
from pathlib import Path

TOP = Path(__file__).resolve().parent.parent
sys.dont_write_bytecode = True
sys.path[:0] = [str(TOP / "tests"), str(TOP / "docs")]

import believed
import markdown
from parts.definitions import WORD, Tree

STYLE = """
:root { color-scheme: light dark; }
body { overflow-wrap: anywhere; max-width: 60rem; margin: 0 auto; padding: 0 1rem 4rem; font: 1rem/1.5 system-ui, sans-serif; }
pre { background: light-dark(#f6f8fa, #20242b); padding: .6rem; overflow-x: auto; font-size: .85rem; line-height: 1.4; }
code, pre { font-family: ui-monospace, monospace; }
blockquote { margin: 1rem 0; padding-left: 1rem; border-left: .25rem solid #8c959f; font-size: 1.1rem; }
.where { margin: 1.2rem 0 0; font-size: .8rem; color: light-dark(#57606a, #9aa4b0); }
.where + pre { margin-top: 0; }
.remark { color: light-dark(#57606a, #9aa4b0); }
.wide { overflow-x: auto; }
li > p:first-child { margin: .3rem 0; }
table { border-collapse: collapse; }
th, td { min-width: 3.5rem; border: 1px solid #8c959f; padding: .2rem .5rem; text-align: left; vertical-align: top; }
a { text-decoration-thickness: 1px; text-underline-offset: .15em; }
pre a { color: inherit; text-decoration-style: dotted; }
:target { outline: .2rem solid #bf8700; }
del { text-decoration: none; background: light-dark(#ffebe9, #53282d); }
ins { text-decoration: none; background: light-dark(#dafbe1, #1f4429); }
@media (max-width: 45rem) { pre { white-space: pre-wrap; } }
@media print { body { max-width: none; font-size: 10pt; } pre { white-space: pre-wrap; } }
"""


def text_of(name):
    return (TOP / name).read_text(encoding="utf-8")


def commit():
    """Which commit the page is of."""
    words = ["git", "-C", str(TOP), "describe", "--always", "--dirty=, with changes", "--abbrev=16"]
    done = subprocess.run(words, capture_output=True, text=True)
    return f"commit {done.stdout.strip()}" if done.returncode == 0 else "a copy without its history"


def sections(page):
    """The sections of a page by their headings, and what comes before the first."""
    head, *rest = re.split(r"(?m)^## ", page)
    return head, {part.split("\n")[0]: part.split("\n")[1:] for part in rest}


def promised():
    """README's sentence of each promise, by its number."""
    found = re.search(r"(?ms)^## What is proved\n(.*?)^[A-Z]", text_of("README.md"))[1]
    return {int(number): " ".join(text.split()) for number, text in re.findall(r"(?ms)^(\d+)\. (.*?)(?=^\d+\. |\Z)", found)}


def planted():
    """The planted mistakes by the file that each changes: their names, and what is changed."""
    found = {}
    for path in sorted(TOP.glob("crates/*/must-fail/*.edit")):
        text = path.read_text(encoding="utf-8")
        file = path.parent.parent / re.search(r"(?m)^file: *(\S+)", text)[1]
        changes = re.findall(r"(?ms)^old: ?(.*?)$\n^new: ?(.*?)$", text)
        found.setdefault(str(file.relative_to(TOP)), []).append((path.stem, changes))
    return found


class Book:
    """The page, part after part. A definition that is written has its place; a planted mistake of a file comes after its first contract."""

    def __init__(self):
        self.tree = Tree(TOP)
        self.definitions = believed.count_of(self.tree, [*believed.PROMISES, believed.WORDS]).definitions
        self.mistakes, self.written, self.parts = planted(), [], []

    def anchor(self, definition):
        return f"{definition.crate}.{definition.module}.{definition.name}"

    def is_written(self, definition):
        return definition in self.definitions and definition.key() not in believed.HANDED_ON

    def found(self, word, imports, module):
        """The definition that a word of a contract or of a module's text names, if it is one of the page."""
        first, *rest = word.split(".")
        own = module.own(first) if module else None
        others = [self.tree.find(*path, *more) for path in sorted(imports.get(first, ())) for more in ((), rest)]
        return next((it for it in [own, *others] if it and self.is_written(it)), None)

    def line(self, text, imports, module):
        """A line of a definition or a contract, in which each name is a link."""
        if text.lstrip().startswith(("--", "//")):
            return f'<span class="remark">{html.escape(text)}</span>'
        parts, at = [], 0
        for word in WORD.finditer(text):
            definition = self.found(word[0], imports, module)
            name = html.escape(word[0])
            linked = f'<a href="#{html.escape(self.anchor(definition))}">{name}</a>' if definition else name
            parts += [html.escape(text[at:word.start()]), linked]
            at = word.end()
        return "".join([*parts, html.escape(text[at:])])

    def code(self, text, imports, module=None):
        lines = "\n".join(self.line(line, imports, module) for line in text.split("\n"))
        return f"<pre>{lines}</pre>"

    def ordered(self, contracts):
        """The definitions that contracts reach: after each those that it names first."""
        seen, left = [], []
        for imports, text in contracts:
            left += sorted(self.tree.named_in(text, imports), key=self.anchor)
        while left:
            definition = left.pop(0)
            if definition in seen or not self.is_written(definition):
                continue
            seen.append(definition)
            module = self.tree.modules[definition.crate, definition.module]
            named = self.tree.named_in("\n".join(definition.lines), module.imports, module)
            left = sorted(named - set(seen), key=self.anchor) + left
        return seen

    def write_mistakes(self, file):
        """Writes the planted mistakes of a file, once."""
        mistakes = self.mistakes.pop(file, [])
        if mistakes:
            self.parts.append(f"<p>Planted mistakes in {html.escape(file)}, each refused by the prover:</p>\n<ul>")
            for name, changes in mistakes:
                shown = "".join(f"<pre><del>- {html.escape(old)}</del>\n<ins>+ {html.escape(new)}</ins></pre>" for old, new in changes)
                self.parts.append(f'<li id="mistake.{html.escape(file.split("/")[1])}.{name}"><code>{name}</code>{shown}</li>')
            self.parts.append("</ul>")

    def write_contract(self, title, name):
        """Writes a contract of a promise, with its file."""
        imports, text = believed.contract_of(self.tree, name)
        file = str(self.tree.sources[name.split("/")[0]].relative_to(TOP))
        self.parts.append(f'<h4 id="{contract_anchor(title, name)}"><code>{html.escape(name.split("/")[0])}</code></h4>')
        self.parts.append(f'<p class="where">{html.escape(file)}</p>\n{self.code(text, imports)}')
        self.write_mistakes(file)

    def write_definition(self, definition):
        """Writes a definition with its file, and its place in the page."""
        module = self.tree.modules[definition.crate, definition.module]
        file = f"crates/{definition.crate}/specs/{definition.module.replace('.', '/')}.antt"
        text = self.code("\n".join(definition.lines).rstrip("\n"), module.imports, module)
        self.parts.append(f'<div id="{html.escape(self.anchor(definition))}"><p class="where">{file}</p>\n{text}</div>')
        self.written.append(definition)

    def link(self, title, word):
        """A name in backquotes of what docs/believe.md says: a contract of the promise, the first definition of a module, or a definition."""
        name = html.escape(word)
        for contract in names_of(title):
            if contract.split("/")[0].endswith(f"::{word.removesuffix('()')}"):
                return f'<a href="#{contract_anchor(title, contract)}"><code>{name}</code></a>'
        modules = [it for it in self.order if it.module.split(".")[-1] == word]
        found = modules or [it for it in self.order if it.name == word and re.search("[_A-Z]", word)]
        nearest = [it for it in found if it in self.of_promise.get(title, ())] or found
        return f'<a href="#{html.escape(self.anchor(nearest[0]))}"><code>{name}</code></a>' if nearest else f"<code>{name}</code>"

    def place_all(self):
        """Finds in which order the definitions come, and with which promise."""
        self.order, self.of_promise = [], {}
        for title in [*believed.PROMISES, believed.WORDS]:
            contracts = [believed.contract_of(self.tree, name) for name in names_of(title)]
            new = [it for it in self.ordered(contracts) if it not in self.order]
            self.of_promise[title] = new
            self.order += new

    def write_promise(self, heading, title, lines, sentence):
        """Writes a promise: README's sentence, what docs/believe.md says, the contracts and the definitions that are new."""
        self.parts.append(f'<section id="{section_anchor(heading)}">\n<h2>{markdown.inline(heading, self.code_word)}</h2>')
        if sentence:
            self.parts.append(f"<blockquote>{markdown.inline(sentence, self.code_word)}</blockquote>")
        self.parts.append(markdown.blocks(lines, lambda word: self.link(title, word)))
        if title:
            self.parts.append("<h3>Contracts</h3>")
            for name in names_of(title):
                self.write_contract(title, name)
            new = self.of_promise[title]
            all_of_it = len(believed.count_of(self.tree, [title]).definitions)
            self.parts.append(f"<h3>Definitions</h3>\n<p>It rests on {all_of_it:,} definitions, of which {len(new):,} are new here.</p>")
            for definition in new:
                self.write_definition(definition)
        self.parts.append("</section>")

    def code_word(self, word):
        return f"<code>{html.escape(word)}</code>"

    def write_index(self):
        """Writes the names of all definitions in the order of the alphabet."""
        self.parts.append('<section id="index">\n<h2>All definitions</h2>\n<p>')
        names = sorted(self.order, key=lambda it: (it.name.lower(), self.anchor(it)))
        links = [f'<a href="#{html.escape(self.anchor(it))}">{html.escape(it.name)}</a>' for it in names]
        self.parts.append(", \n".join(links) + "</p></section>")

    def write_other_mistakes(self):
        """Writes the planted mistakes of the files that no contract above is in."""
        self.parts.append('<section id="mistakes">\n<h2>The other planted mistakes</h2>')
        for file in sorted(self.mistakes):
            self.write_mistakes(file)
        self.parts.append("</section>")

    def text(self):
        """The whole page."""
        self.place_all()
        head, parts = sections(text_of("docs/believe.md"))
        titles = {title.split()[0]: title for title in believed.PROMISES}
        sentences = promised()
        first = head.split("\n", 2)[2].split("\n")
        contents = "".join(f'<li><a href="#{section_anchor(it)}">{markdown.inline(it, html.escape)}</a></li>\n' for it in parts)
        more = '<li><a href="#mistakes">The other planted mistakes</a></li>\n<li><a href="#index">All definitions</a></li>\n'
        self.parts += [f"<p>This page is of {html.escape(commit())}.</p>", markdown.blocks(first, lambda word: self.link("", word))]
        self.parts.append(f'<nav><h2>Contents</h2>\n<ul class="contents">\n{contents}{more}</ul></nav>')
        for heading, lines in parts.items():
            number = heading.split(".")[0]
            title = titles.get(number) or (believed.WORDS if heading.endswith(believed.WORDS) else None)
            self.write_promise(heading, title, lines, sentences.get(int(number)) if number.isdecimal() else None)
        self.write_other_mistakes()
        self.write_index()
        body = "\n".join(self.parts)
        title = "What you have to believe"
        return (
            '<!doctype html>\n<html lang="en">\n<head>\n<meta charset="utf-8">\n<meta name="viewport" content="width=device-width">\n'
            f"<title>{title}</title>\n<style>{STYLE}</style>\n</head>\n<body>\n<h1>{title}</h1>\n{body}\n</body>\n</html>\n"
        )


def names_of(title):
    """The contracts of a promise."""
    return " ".join(table.get(title, "") for table in (believed.PROMISES, believed.BESIDES, believed.COMMANDS)).split()


def contract_anchor(title, name):
    return f"contract.{title.split()[0]}.{name.split('/')[0].replace('::', '.')}"


def section_anchor(heading):
    return "promise-" + re.sub(r"\W+", "-", heading.split(".")[0].lower())


def main():
    path = Path(sys.argv[1]) if sys.argv[1:] else TOP / "out/believe.html"
    book = Book()
    text = book.text()
    path.parent.mkdir(exist_ok=True)
    path.write_text(text, encoding="utf-8")
    print(f"{path}: {len(book.written):,} definitions, {text.count('<a href='):,} links")
    return 0


if __name__ == "__main__":
    sys.exit(main())
