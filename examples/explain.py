#!/usr/bin/env python3
"""Draws a frame of `llrp explain --json` as a picture: its octets as boxes in the colours of their fields, a row for the message and for each
parameter, and beside each row its fields with their values. The octets of a fault have a red edge, or a red line stands where octets are
missing, and the sentence of the fault says what is wrong.

usage: llrp explain --json < FRAMES | examples/explain.py [NUMBER] > frame.svg

NUMBER says which of the frames, counted from 1; without it the first is drawn.
"""
import json
import sys
import textwrap
from html import escape

INK, PALE, RED = "#24292f", "#57606a", "#cf222e"
# The colours of the fields of heads and of values, which take turns, of reserved bits, and of what was not read.
HEADS, VALUES, RESERVED, UNREAD = ("#ddf4ff", "#b6e3ff"), ("#fff8c5", "#dafbe1", "#fbefff", "#ffe7d1"), "#eaeef2", "#ffffff"
# The names of reserved bits, in a head and after it.
RESERVED_NAMES = ("reserved", "R")
STYLE = f"""<style>
text {{ font: 13px sans-serif; fill: {INK}; }}
.mono {{ font-family: monospace; }}
.small {{ font-size: 11px; fill: {PALE}; }}
.middle {{ text-anchor: middle; }}
.fault {{ fill: {RED}; }}
</style>"""
# The sizes of an octet's box, how many stand in a row, how far a level stands to the right, up to which one, and where the fields begin.
WIDE, HIGH, MOST, LEVEL, LEVELS, BESIDE = 26, 22, 16, 16, 4, 546
# How many characters a line of fields has, and the width of the picture.
LINE, WIDTH = 66, 1080
# How many octets of a long field are drawn.
SHOWN = 48


def text(x, y, words, kind=""):
    return f'<text x="{x}" y="{y}" class="{kind}">{escape(words)}</text>'


def value_of(field):
    """Returns the number that stands in a field: a number is in decimal, and octets are hexadecimal."""
    return int(field["value"]) if "value" in field else int(field["hex"], 16)


def words_of(field):
    """Returns a field's name with what stands there: of many bits hexadecimal digits, and of many octets the first."""
    if field["width"] <= 64 and "value" in field:
        return " ".join([field["name"], str(field["value"]), *([field["reading"]] if "reading" in field else [])])
    digits = f"{value_of(field):0{field['width'] // 4}X}"
    return f"{field['name']} x{digits[:24]}" + (".." if len(digits) > 24 else "")


def left_of(field):
    """Returns where the boxes of a field's row begin."""
    return 60 + LEVEL * min(field["level"], LEVELS)


def is_told(field):
    """Whether a field is among those beside a row: not if it can have one value alone, and has it."""
    return (field["name"], field.get("value")) not in (*((name, 0) for name in RESERVED_NAMES), ("type and value", 1))


def rows_of(fields):
    """Returns the fields in rows: those of the message, and of each parameter, which begins with its head."""
    rows = []
    for at, field in enumerate(fields):
        after = fields[at + 1]["name"] if at + 1 < len(fields) else ""
        begins = field["name"] == "type and value" or field["name"] == "reserved" and field["width"] == 6 and after == "ParameterType"
        if begins or not rows:
            rows.append([])
        rows[-1].append(field)
    return rows


def colours_of(row):
    """Returns the colour of each field of a row."""
    head = 5 if row[0]["bit"] == 0 else 2 if row[0]["name"] == "type and value" else 3
    found, turns = [], {HEADS: 0, VALUES: 0}
    for at, field in enumerate(row):
        colours = HEADS if at < head else VALUES
        if field["name"] in RESERVED_NAMES:
            found.append(RESERVED)
        else:
            found.append(colours[turns[colours] % len(colours)])
            turns[colours] += 1
    return found


class Picture:
    """What is drawn, from the top down."""

    def __init__(self, frame):
        self.fields, self.count, self.fault = frame["fields"], frame["octets"], frame.get("fault")
        self.parts, self.y = [], 44
        self.bits = {}
        for field in self.fields:
            self.keep(field)

    def keep(self, field):
        """Keeps each bit of a field, by its place."""
        value = value_of(field)
        for place in range(field["width"]):
            self.bits[field["bit"] + place] = value >> (field["width"] - 1 - place) & 1

    def octet(self, at):
        """Returns the digits of an octet, or dots where it was not read to its end."""
        bits = [self.bits.get(8 * at + place) for place in range(8)]
        return "··" if None in bits else f"{int(''.join(map(str, bits)), 2):02X}"

    def is_faulty(self, at):
        """Whether an octet has a bit of the field at which the fault is, or the fault's bit itself."""
        if not self.fault:
            return False
        first = self.fault["bit"]
        width = next((field["width"] for field in self.fields if field["bit"] == first), 8)
        return first < 8 * (at + 1) and 8 * at < first + width

    def boxes(self, left, first, last, colour_at):
        """Draws these octets in rows, of many the first and the last; `colour_at` says the colour of a bit. Returns how high they are."""
        octets = list(range(first, last))
        if len(octets) > SHOWN:
            octets = [*octets[: SHOWN - 2], None, octets[-1]]
        for place, at in enumerate(octets):
            x, y = left + WIDE * (place % MOST), self.y + (HIGH + 4) * (place // MOST)
            if at is None:
                self.parts.append(text(x + WIDE // 2, y + 15, "…", "middle"))
                continue
            bit = 8 * at
            while bit < 8 * at + 8:
                colour, begin = colour_at(bit), bit
                while bit < 8 * at + 8 and colour_at(bit) == colour:
                    bit += 1
                start, size = WIDE * (begin - 8 * at) / 8, WIDE * (bit - begin) / 8
                self.parts.append(f'<rect x="{x + start:g}" y="{y}" width="{size:g}" height="{HIGH}" fill="{colour}"/>')
            edge = f'stroke="{RED}" stroke-width="2.5"' if self.is_faulty(at) else f'stroke="{PALE}"'
            self.parts.append(f'<rect x="{x}" y="{y}" width="{WIDE}" height="{HIGH}" rx="3" fill="none" {edge}/>')
            self.parts.append(text(x + WIDE // 2, y + 15, self.octet(at), "mono middle"))
        if last == self.count and self.fault and self.fault["bit"] == 8 * last:
            self.parts.append(f'<path d="M {x + WIDE + 4} {y} V {y + HIGH}" stroke="{RED}" stroke-width="3"/>')
        return (HIGH + 4) * ((len(octets) + MOST - 1) // MOST)

    def beside(self, row, colours):
        """Writes the fields of a row, each after its colour. Returns how high they are."""
        x, y, used = BESIDE, self.y, 0
        for field, colour in zip(row, colours):
            if not is_told(field):
                continue
            words = words_of(field)
            if used and used + len(words) + 4 > LINE:
                x, y, used = BESIDE, y + 20, 0
            self.parts.append(f'<rect x="{x}" y="{y + 5}" width="11" height="11" fill="{colour}" stroke="{PALE}"/>')
            wrong = self.fault and field["bit"] == self.fault["bit"]
            self.parts.append(text(x + 16, y + 15, words, "mono fault" if wrong else "mono"))
            used += len(words) + 4
            x += 8 * (len(words) + 4)
        return y + 20 - self.y

    def row(self, row):
        """Draws the message's own part, or a parameter's."""
        first, end = row[0]["bit"], row[-1]["bit"] + row[-1]["width"]
        colours = colours_of(row)
        known = {bit: colour for field, colour in zip(row, colours) for bit in range(field["bit"], field["bit"] + field["width"])}
        self.parts.append(text(16, self.y + 15, str(first), "small mono"))
        left = left_of(row[0])
        high = self.boxes(left, first // 8, (end + 7) // 8, lambda bit: known.get(bit, UNREAD))
        self.y += max(high, self.beside(row, colours)) + 10

    def unread(self):
        """Draws the octets after those that were read."""
        first = max((field["bit"] + field["width"] + 7 for field in self.fields), default=0) // 8
        if first < self.count:
            self.parts.append(text(16, self.y + 15, str(8 * first), "small mono"))
            left = left_of(self.fields[-1] if self.fields else {"level": 0})
            high = self.boxes(left, first, self.count, lambda bit: UNREAD)
            self.parts.append(text(BESIDE, self.y + 15, "not read", "small"))
            self.y += high + 10

    def sentence(self):
        """Writes what is wrong."""
        words = f"fault at bit {self.fault['bit']}, octet {self.fault['octet']}: {self.fault['reason']}: {self.fault['text']}"
        for line in textwrap.wrap(words, 120):
            self.parts.append(text(16, self.y + 15, line, "mono fault"))
            self.y += 20

    def drawn(self):
        self.parts += [text(16, 24, "The octets of a frame, each row from its bit"), text(BESIDE, 24, "Its fields")]
        for row in rows_of(self.fields):
            self.row(row)
        self.unread()
        if self.fault:
            self.sentence()
        self.parts.append(text(16, self.y + 15, "Blue: the header of the message, and the heads of its parameters. Grey: reserved. Others: values.", "small"))
        high, title = self.y + 30, "A frame, octet by octet, beside its fields"
        head = f'<svg xmlns="http://www.w3.org/2000/svg" viewBox="0 0 {WIDTH} {high}" width="{WIDTH}" height="{high}" role="img">'
        back = f'<rect width="{WIDTH}" height="{high}" fill="white"/>'
        return "\n".join([head, f"<title>{title}</title>", STYLE, back, *self.parts, "</svg>", ""])


def main():
    number = int(sys.argv[1]) if len(sys.argv) > 1 else 1
    frames = [json.loads(line) for line in sys.stdin if line.strip()]
    frame = next((it for it in frames if it.get("frame") == number), None)
    if frame is None:
        sys.exit(f"explain.py: there is no frame {number}")
    sys.stdout.write(Picture(frame).drawn())


if __name__ == "__main__":
    main()
