#!/usr/bin/env python3
"""Cuts and changes TZ strings, and compares the answers of tzq and of another program with its command line over them.

usage: altered_texts.py --tzq PATH --other PATH [--show N]

Each beginning of a text is tried, and the text with each of its bytes replaced by each of some others. A text stands in the footer of a
file, once of version 2, where it is an ordinary one, and once of version 3, where it is an extended one. What differs is named as by
altered_files.py.
"""
import argparse
import collections
import pathlib
import random
import sys
import tempfile

from altered_files import answer, differences, query_lines

TEXTS = [
    "HST10",
    "<-03>3",
    "IST-1GMT0,M10.5.0,M3.5.0/1",
    "CET-1CEST,M3.5.0,M10.5.0/3",
    "EST5EDT,0/0,J365/23:59:59",
    "EST5EDT,0/0,J365/25",
    "<-03>3<-02>,M3.5.0/-2,M10.5.0/-1",
    "A-0:0:1B+24:59:59,J60/-167,365/167:59:59",
]
BYTES = b"0123456789+-:,./<>JMx \0\n\xff"


def file_of(version, text):
    """A file with one type, no transitions, and the text in its footer."""
    header = (
        b"TZif"
        + version
        + bytes(15)
        + b"".join(count.to_bytes(4, "big") for count in (0, 0, 0, 0, 1, 4))
    )
    unit = header + bytes(6) + b"UTC\0"
    return unit + unit + b"\n" + text + b"\n"


def near(text):
    """The beginnings of the text, and the text with one byte replaced."""
    for length in range(len(text) + 1):
        yield text[:length]
    for place, byte in enumerate(text):
        for other in BYTES:
            if other != byte:
                yield text[:place] + bytes([other]) + text[place + 1 :]


def main():
    ask = argparse.ArgumentParser(description="Compares two programs over altered TZ strings.")
    ask.add_argument("--tzq", required=True)
    ask.add_argument("--other", required=True)
    ask.add_argument(
        "--show", type=int, default=5, help="how many differences of each kind are shown"
    )
    given = ask.parse_args()
    lines = query_lines(random.Random(1))
    tried, answered, differing, seen = 0, 0, 0, collections.Counter()
    with tempfile.TemporaryDirectory() as room:
        file = pathlib.Path(room) / "altered"
        for text in dict.fromkeys(it for whole in TEXTS for it in near(whole.encode())):
            for version in (b"2", b"3"):
                file.write_bytes(file_of(version, text))
                ours, theirs = answer(given.tzq, file, lines), answer(given.other, file, lines)
                tried, answered = tried + 1, answered + (ours[0] == 0)
                found = differences(lines, ours, theirs)
                differing += bool(found)
                for kind, what in found:
                    seen[kind] += 1
                    if seen[kind] <= given.show:
                        print(f"{kind}: version {version.decode()}, {text!r}: {what}")
    print(f"{tried} tried, {answered} answered, {differing} differ")
    for kind, count in sorted(seen.items()):
        print(f"{kind}: {count}")
    return 1 if differing else 0


if __name__ == "__main__":
    sys.exit(main())
