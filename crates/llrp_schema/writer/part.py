"""A part of a file that the table says: what stands between two texts."""
import re
from typing import NamedTuple

# Where a line of a part is the first of an item: it is indented as the part's first line is, and neither closes nor goes on with something.
FIRST_LINE = r"\n(?=%s[^\s|\])}])"


class Part(NamedTuple):
    """What stands in a file after some texts, found one after another, and before the end, or that of the file: items with a text
    between them, or one item where that text is empty."""

    file: str
    after: tuple
    end: str
    items: list
    joint: str = "\n"


def plain(text):
    """A text without what only its layout has."""
    return re.sub(r",(?=[\])}])", "", re.sub(r"\s+", "", text))


def items_in(text, joint):
    """The items of a part that is laid out."""
    if joint != "\n":
        return text.split(joint) if joint else [text]
    indent = re.match(r" *", text)[0]
    return re.split(FIRST_LINE % indent, text)


def laid_out(part, old):
    """The text of a part. An item that the old text has keeps its layout; `rt fmt` lays out the others."""
    known = {plain(item): item for item in items_in(old, part.joint)}
    return part.joint.join(known.get(plain(item), item) for item in part.items)


def with_part(text, part):
    """The text of a file with a part of it written."""
    start = 0
    for anchor in part.after:
        found = text.find(anchor, start)
        if found < 0:
            raise SystemExit(f"write.py: {part.file} does not have {anchor!r}")
        start = found + len(anchor)
    end = text.find(part.end, start) if part.end else len(text.rstrip("\n"))
    if end < 0:
        raise SystemExit(f"write.py: {part.file} does not have {part.end!r} after {part.after[-1]!r}")
    return text[:start] + laid_out(part, text[start:end]) + text[end:]
