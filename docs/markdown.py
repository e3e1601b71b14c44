"""Turns the Markdown that the pages of docs/ are written in into HTML: headings, paragraphs, lists, tables, code, emphasis."""
import html
import re

INLINE = re.compile(r"`([^`]+)`|\[([^\]]+)\]\(([^)]+)\)|\*\*([^*]+)\*\*|\*([^*]+)\*")
ITEM = re.compile(r"( *)(?:- |(\d+)\. )(.*)")


def inline(text, link):
    """A piece of text; `link` turns a name in backquotes into HTML. Another page is named and not linked, since it may not be at hand."""
    def turned(found):
        code, words, page, strong, emphasis = found.groups()
        if code:
            return link(code)
        if page:
            return html.escape(words)
        return f"<strong>{inline(strong, link)}</strong>" if strong else f"<em>{inline(emphasis, link)}</em>"

    parts, at = [], 0
    for found in INLINE.finditer(text):
        parts += [html.escape(text[at:found.start()]), turned(found)]
        at = found.end()
    return "".join([*parts, html.escape(text[at:])])


def table(lines, link):
    """A table: its head, and its rows."""
    rows = [[cell.strip() for cell in line.strip("|").split("|")] for line in lines if not re.fullmatch(r"[|\- ]+", line)]
    cells = [[inline(cell, link) for cell in row] for row in rows]
    head = "".join(f"<th>{cell}</th>" for cell in cells[0])
    body = "".join(f"<tr>{''.join(f'<td>{cell}</td>' for cell in row)}</tr>\n" for row in cells[1:])
    return f'<div class="wide"><table><tr>{head}</tr>\n{body}</table></div>'


def item_lines(lines):
    """The lines of a list, as items: for each its number if it has one, its own lines, and those below it."""
    items, indent = [], len(ITEM.match(lines[0])[1])
    for line in lines:
        found = ITEM.match(line)
        if found and len(found[1]) == indent:
            items.append((found[2], [found[3]]))
        else:
            items[-1][1].append(line[indent + 2:] if not line.strip() or line.startswith(" " * (indent + 2)) else line)
    return items


def listed(lines, link):
    """A list, whose items may have lists and paragraphs of their own."""
    items = item_lines(lines)
    word = "ol" if items[0][0] else "ul"
    return f"<{word}>\n{''.join(f'<li>{blocks(own, link)}</li>' + chr(10) for _, own in items)}</{word}>"


def block(lines, link):
    """A block: lines up to one that is empty, or all lines of a list."""
    heading = re.match(r"(#+) (.*)", lines[0])
    if heading:
        level = len(heading[1])
        return f"<h{level}>{inline(heading[2], link)}</h{level}>"
    if lines[0].startswith("|"):
        return table(lines, link)
    if lines[0].startswith("    "):
        code = "\n".join(line[4:] for line in lines)
        return f"<pre>{html.escape(code)}</pre>"
    if ITEM.match(lines[0]):
        return listed(lines, link)
    return f"<p>{inline(' '.join(line.strip() for line in lines), link)}</p>"


def split(lines):
    """The blocks of some lines. A list goes on over an empty line where what follows is indented, and begins at its first item."""
    found, is_list = [], False
    for at, line in enumerate(lines):
        if not line.strip():
            goes_on = is_list and at + 1 < len(lines) and lines[at + 1].startswith("  ")
            if goes_on:
                found[-1].append("")
            elif found and found[-1]:
                found.append([])
                is_list = False
            continue
        begins = bool(ITEM.match(line)) and not is_list
        if not found or begins and found[-1]:
            found.append([])
        is_list = is_list or begins
        found[-1].append(line)
    return [lines for lines in found if lines]


def blocks(lines, link):
    """Some lines of a page."""
    return "\n".join(block(part, link) for part in split(lines))
