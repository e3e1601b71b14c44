#!/usr/bin/env python3
"""Takes inventory of a reader, and prints each tag with its antenna and its signal strength.

usage: examples/python/client.py HOST PORT ROSPEC TAGS

ROSPEC is a file with the lines of a ROSpec, such as examples/rospec.txt. It ends after TAGS tags or more, or after a minute without one.
"""
import sys

from llrp_epc.client import Reader, ReaderError


def inventory(host: str, port: int, rospec: str, count: int) -> None:
    """Prints the tags that a reader reports for this ROSpec until there are so many."""
    with Reader(host, port) as reader:
        reader.start(reader.add(rospec))
        printed = 0
        while printed < count:
            tag = next(reader.tags(seconds=60), None)
            if tag is None:
                sys.exit("no tag came for a minute")
            print(*[it for it in (tag.epc, tag.antenna, tag.rssi) if it is not None], flush=True)
            printed += 1


if __name__ == "__main__":
    host, port, path, count = sys.argv[1:]
    with open(path, encoding="utf-8") as lines:
        text = lines.read()
    try:
        inventory(host, int(port), text, int(count))
    except ReaderError as error:
        sys.exit(str(error))
