#!/usr/bin/env python3
"""Draws the pictures of the documents: docs/frame.svg, docs/fault.svg and docs/crates.svg.

usage: docs/pictures/draw.py [--check] [PROGRAM]

The frames are those of examples/report.hex and examples/fault.hex, which PROGRAM explains: llrp, crates/llrp/out/llrp where none is given.
Without that program the crates alone are drawn, which are those of crates.txt. With --check nothing is written; the last line is
`N passed, M failed`, and the status is 1 where a picture is not what this script draws.
"""
import os
import re
import subprocess
import sys
from html import escape, unescape

DOCS = os.path.dirname(os.path.dirname(os.path.realpath(__file__)))
TOP = os.path.dirname(DOCS)
INK, PALE, HEAD, VALUE, WAY = "#24292f", "#57606a", "#ddf4ff", "#fff8c5", "#cf222e"
STYLE = f"""<style>
text {{ font: 13px sans-serif; fill: {INK}; }}
.mono {{ font-family: monospace; }}
.small {{ font-size: 11px; fill: {PALE}; }}
.middle {{ text-anchor: middle; }}
.line {{ stroke: {PALE}; stroke-width: 1; fill: none; }}
.way {{ stroke: {WAY}; stroke-width: 2; fill: none; }}
</style>"""


def text_of(name):
    with open(os.path.join(TOP, name), encoding="utf-8") as file:
        return file.read()


def text(x, y, words, kind=""):
    return f'<text x="{x}" y="{y}" class="{kind}">{escape(words)}</text>'


def box(x, y, width, height, fill):
    return f'<rect x="{x}" y="{y}" width="{width}" height="{height}" rx="3" fill="{fill}" stroke="{PALE}"/>'


def room_of(words, kind):
    """Returns more than the width of a text: that of its size, with three fifths of it for each character."""
    return len(words) * (11 if "small" in kind else 13) * 3 / 5


def cut_off(width, parts):
    """Returns the texts that do not end before the right edge of a picture."""
    texts = re.findall(r'<text x="(\d+)" y="\d+" class="([^"]*)"[^>]*>([^<]*)</text>', "\n".join(parts))
    ends = [(int(x) + room_of(unescape(words), kind) / (2 if "middle" in kind else 1), words) for x, kind, words in texts]
    return [words for end, words in ends if end > width]


def picture(width, height, title, parts):
    assert not cut_off(width, parts), cut_off(width, parts)
    head = f'<svg xmlns="http://www.w3.org/2000/svg" viewBox="0 0 {width} {height}" width="{width}" height="{height}" role="img">'
    return "\n".join([head, f"<title>{escape(title)}</title>", STYLE, f'<rect width="{width}" height="{height}" fill="white"/>', *parts, "</svg>", ""])


# ---- a frame beside its fields


def frame(program, name):
    """Returns the picture of a frame of a file of hexadecimal digits, as examples/explain.py draws it of what the program prints."""
    explained = subprocess.run([program, "explain", "--hex", "--json"], input=text_of(name).encode(), capture_output=True, timeout=60)
    words = [sys.executable, os.path.join(TOP, "examples/explain.py")]
    return subprocess.run(words, input=explained.stdout, capture_output=True, timeout=60, check=True).stdout.decode()


# ---- the crates, and the way of a frame through them

# What each crate of the product is for, in two or three words.
CRATES = {
    "tag_bits": "bit fields",
    "tag_epc": "EPCs and words",
    "tag_uri": "texts of words",
    "tag_keys": "GS1 keys of EPCs",
    "tag_schemes": "further schemes",
    "tag_scheme_keys": "their keys",
    "tag_forms": "forms of words",
    "tag_memory": "banks of tags",
    "llrp_schema": "the tables of LLRP",
    "llrp_enumerations": "names of numbers",
    "llrp_tree": "messages, frames, faults",
    "llrp_stream": "reading streams",
    "llrp_session": "reader and client",
    "llrp_versions": "versions of LLRP",
    "llrp_power": "powers in dBm",
    "llrp_operations": "operations on a tag",
    "llrp_capture": "sides of a capture",
    "llrp_access": "AccessSpecs on tags",
    "llrp_listing": "show, encode, epc",
    "llrp_keys": "keys and lists of texts",
    "llrp_labels": "keys in listings",
    "llrp_texts": "listings in memory",
    "llrp_answers": "answers of a file",
    "llrp_json": "lines of JSON",
    "llrp_json_read": "JSON read back",
    "llrp_explain": "a line for each field",
    "llrp_sides": "frames of a capture",
    "llrp_waits": "how long a client waits",
    "llrp_ask": "a client that asks",
    "llrp_endpoints": "both ends over bytes",
    "llrp_live": "a reader in real time",
    "llrp_general": "general clients",
    "llrp_words": "words of commands",
    "llrp_commands": "the command line",
    "llrp_files": "commands without sockets",
    "llrp_tool": "all under one name",
    "llrp": "the program",
    "llrp_offline": "without sockets",
    "llrp_c": "the library for C",
}
WIDTH, HEIGHT = 160, 44
# How far apart the rows are, the boxes of a row, and the arrows that go by them.
ROW, APART, LANE = 84, 24, 16
# How often the boxes of each row are put above and below those that they are linked with.
SWEEPS = 24
# What a frame becomes at each crate that it comes through.
FRAME = [("octets, read into the parts of a message", "llrp_stream"), ("lines", "llrp_listing")]


def uses():
    """Returns the crates of the product that each of them uses directly, but those that others of these use."""
    product = text_of("crates.txt").split("# == Tests")[0]
    rows = [line.split(":") for line in product.splitlines() if ":" in line and not line.startswith("#")]
    used = {name.split()[0]: names.split() for name, names in rows}
    used = {name: [it for it in names if it in used] for name, names in used.items()}
    return {name: [it for it in names if not any(it in below(other, used) for other in names)] for name, names in used.items()}


def below(crate, used):
    """Returns the crates that a crate uses."""
    return {it for lower in used[crate] for it in (lower, *below(lower, used))}


def height(crate, used):
    """Returns how many rows of crates stand below a crate."""
    return max((height(it, used) + 1 for it in used[crate]), default=0)


def layers(used):
    """Returns the rows, lowest first, and the links between neighbours in them. An arrow that goes by a row has a place there of its own."""
    heights = {crate: height(crate, used) for crate in used}
    rows = [[crate for crate in used if heights[crate] == at] for at in range(max(heights.values()) + 1)]
    links = []
    for crate, lower in used.items():
        for it in lower:
            way = [it, *((crate, it, at) for at in range(heights[it] + 1, heights[crate])), crate]
            for at, place in enumerate(way[1:-1], heights[it] + 1):
                rows[at].append(place)
            links += zip(way, way[1:])
    return rows, links


def width_of(place):
    return WIDTH if isinstance(place, str) else LANE


def spread(row, wanted):
    """Returns where the places of a row begin: in the order of where they want to be, as near to that as they can stand apart."""
    row.sort(key=lambda place: (wanted[place], str(place)))
    starts, at = {}, 0
    for place in row:
        starts[place] = max(at, wanted[place] - width_of(place) / 2)
        at = starts[place] + width_of(place) + APART
    at = starts[row[-1]] + width_of(row[-1]) + APART
    for place in reversed(row):
        starts[place] = min(starts[place], max(at - APART - width_of(place), 0))
        at = starts[place]
    return starts


def places(used):
    """Returns the middle of each place, by rows."""
    rows, links = layers(used)
    middles = {place: at * (WIDTH + APART) for row in rows for at, place in enumerate(row)}
    for sweep in range(SWEEPS):
        for row in rows if sweep % 2 else reversed(rows):
            wanted = {}
            for place in row:
                ends = [middles[b if a == place else a] for a, b in links if place in (a, b)]
                wanted[place] = sum(ends) / len(ends) if ends else middles[place]
            middles |= {place: start + width_of(place) / 2 for place, start in spread(row, wanted).items()}
    left = min(middle - width_of(place) / 2 for place, middle in middles.items()) - 16
    return rows, links, {place: round(middle - left) for place, middle in middles.items()}


def crates():
    """Draws each crate above those that it uses. An arrow that others imply is left out, and none crosses a box."""
    used, parts = uses(), []
    assert set(used) == set(CRATES), set(used) ^ set(CRATES)
    rows, links, middles = places(used)
    top = {place: 16 + ROW * (len(rows) - 1 - at) for at, row in enumerate(rows) for place in row}
    for lower, upper in links:
        way, tip = f"M {middles[upper]} {top[upper] + HEIGHT} L {middles[lower]} {top[lower]}", ""
        if isinstance(lower, str):
            tip = ' marker-end="url(#tip)"'
        else:
            way += f" V {top[lower] + HEIGHT}"
        parts.append(f'<path d="{way}" class="line"{tip}/>')
    for crate, what in CRATES.items():
        x, y, fill = middles[crate] - WIDTH // 2, top[crate], VALUE if crate in ("llrp", "llrp_c") else HEAD
        parts += [box(x, y, WIDTH, HEIGHT, fill), text(x + WIDTH // 2, y + 18, crate, "mono middle"), text(x + WIDTH // 2, y + 35, what, "small middle")]
    for number, (what, crate) in enumerate(FRAME, 1):
        x, y = middles[crate] + WIDTH // 2, top[crate]
        parts += [f'<circle cx="{x}" cy="{y}" r="10" fill="{WAY}"/>', f'<text x="{x}" y="{y + 5}" class="middle" style="fill: white">{number}</text>']
    way = "; ".join(f"{number} {what} ({crate})" for number, (what, crate) in enumerate(FRAME, 1))
    bottom = 16 + ROW * len(rows)
    parts += [text(16, bottom, "An arrow leads to a crate that is used.", "small"), text(16, bottom + 16, f"The way of a frame through show: {way}.", "small")]
    tip = f'<defs><marker id="tip" viewBox="0 0 10 10" refX="9" refY="5" markerWidth="7" markerHeight="7" orient="auto"><path d="M 0 0 L 10 5 L 0 10 z" fill="{PALE}"/></marker></defs>'
    most = max(middle + width_of(place) // 2 for place, middle in middles.items()) + 16
    return picture(max(most, 620), bottom + 32, "The crates, and the way of a frame through them", [tip, *parts])


def main():
    words = [word for word in sys.argv[1:] if word != "--check"]
    program = os.path.abspath(words[0]) if words else os.path.join(TOP, "crates/llrp/out/llrp")
    pictures = {"crates.svg": crates()}
    if os.path.exists(program):
        pictures |= {"frame.svg": frame(program, "examples/report.hex"), "fault.svg": frame(program, "examples/fault.hex")}
    failed = 0
    for name, drawn in pictures.items():
        path = os.path.join(DOCS, name)
        if "--check" not in sys.argv:
            with open(path, "w", encoding="utf-8") as file:
                file.write(drawn)
        elif text_of(f"docs/{name}") != drawn:
            print(f"WRONG: docs/{name}")
            failed += 1
    if "--check" in sys.argv:
        print(f"{len(pictures) - failed} passed, {failed} failed")
    return 1 if failed else 0


if __name__ == "__main__":
    sys.exit(main())
