#!/usr/bin/env python3
"""Measures how the markup of a part is cut into events, beside expat, and prints one table
(docs/PERFORMANCE.md). With `--book FILE.xlsx` it compares what each part of a workbook is cut into
with what tools/reading/markup.py does, in place of that.

The script writes the markup of a sheet of bench/file.py with 400,000 cells, and of one with twice
as many. The program cut_events cuts each, and looks at each text of each event; it is run once over
and 21 times over, and a twentieth of the difference is one cutting. Expat is Python's, over the
same bytes at once, with functions for starts, ends and texts that do nothing. Seconds are those of
processor time, of each run the least of the repeats. The program has to be built (`rt run` in
crates/cut_events).
"""

import argparse
import os
import subprocess
import sys
import tempfile
import zipfile

from books import Formulas, sheet
from measure import TOP, add_repeats, measured, mib, table

sys.path.insert(0, str(TOP / "tools"))

from support.cutting import BUILDS, OUT, UTF_16, found, wanted  # noqa: E402

PROGRAM = str(OUT / BUILDS[0])
MORE = 20

# Tells a text to functions that do nothing, and prints the seconds.
EXPAT = """\
import sys, time
from xml.parsers import expat
data = sys.stdin.buffer.read()
def ignored(*given):
    pass
parser = expat.ParserCreate()
parser.StartElementHandler = parser.EndElementHandler = parser.CharacterDataHandler = ignored
begin = time.process_time()
parser.Parse(data, True)
print(time.process_time() - begin)
"""


class Size:
    """A sheet with so many rows of four cells, and the seconds of runs on it."""

    def __init__(self, folder, rows):
        self.rows = rows
        self.path = os.path.join(folder, f"sheet-{rows}.xml")
        self.lines = os.path.join(folder, f"lines-{rows}.txt")
        with open(self.path, "w", encoding="utf-8", newline="") as out:
            out.writelines(sheet(Formulas(), rows))
        self.once, self.more, self.expat, self.peaks = [], [], [], []

    def run(self):
        once = measured([PROGRAM, "count", "1"], self.path, self.lines)
        more = measured([PROGRAM, "count", str(1 + MORE)], self.path, self.lines)
        self.once.append(once.processor)
        self.peaks.append(once.peak)
        self.more.append(more.processor)
        with open(self.path, "rb") as text:
            ran = subprocess.run(
                [sys.executable, "-c", EXPAT], stdin=text, capture_output=True, check=True
            )
        self.expat.append(float(ran.stdout))

    def cutting(self):
        return (min(self.more) - min(self.once)) / MORE

    def fields(self):
        with open(self.lines, encoding="ascii") as lines:
            events = int(lines.read().split()[0])
        cutting, expat = self.cutting(), min(self.expat)
        return [
            *(f"{4 * self.rows:,}", f"{os.path.getsize(self.path):,}", f"{events:,}"),
            *(f"{min(self.once):.3f}", f"{cutting:.4f}", f"{expat:.3f}"),
            *(f"{cutting / expat:.3f}", mib(min(self.peaks))),
        ]


def compare(path):
    """Compares the parts of a workbook."""
    count = events = 0
    with zipfile.ZipFile(path) as book:
        for name in book.namelist():
            data = book.read(name)
            if not name.endswith((".xml", ".rels", ".vml")) or data.startswith(UTF_16):
                continue
            lines = wanted(data)
            if found(BUILDS[0], data) != lines:
                sys.exit(f"markup.py: {name} is cut into other events")
            count, events = count + 1, events + len(lines)
    print(f"{count} parts are cut alike, into {events:,} events")


def main():
    parser = argparse.ArgumentParser(
        description=__doc__, formatter_class=argparse.RawDescriptionHelpFormatter
    )
    parser.add_argument(
        "--rows", type=int, default=100_000, help="rows of four cells (default: 100,000)"
    )
    parser.add_argument("--book", help="compare the parts of this workbook, and measure nothing")
    add_repeats(parser, 5)
    asked = parser.parse_args()
    if asked.book:
        compare(asked.book)
        return
    with tempfile.TemporaryDirectory() as folder:
        sizes = [Size(folder, rows) for rows in (asked.rows, 2 * asked.rows)]
        for _ in range(asked.repeats):
            for size in sizes:
                size.run()
        head = ["cells", "bytes", "events", "whole", "cutting", "expat", "ratio", "peak MiB"]
        table(head, [size.fields() for size in sizes])
        growth = sizes[1].cutting() / sizes[0].cutting()
        print(f"twice the bytes take {growth:.2f} times the seconds of cutting")


if __name__ == "__main__":
    main()
