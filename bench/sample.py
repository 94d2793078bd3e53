#!/usr/bin/env python3
"""Measures `sample 10000` and `sample 20000` of xlsx_tool, which read a workbook that they make in
memory, beside `cells Sample` on the same workbook as a package text, and prints one table
(docs/PERFORMANCE.md). It fails where twice the rows take more than 2.1 times the seconds."""

import argparse
import os
import sys
import tempfile

from cells import cell_events, line_of, text_child
from measure import (
    OFFICE,
    Listing,
    add_program,
    add_repeats,
    check,
    each,
    end,
    measured,
    mib,
    program_of,
    relationships,
    start,
    table,
    write_part,
)

STRINGS = ["red", "green", "blue"]
YELLOW = "#FFFF00"

# The most that the seconds may grow by where the rows are twice as many.
MOST_GROWTH = 2.1

WORKBOOK = [
    start("workbook"),
    start("sheets"),
    start("sheet", ' name="Sample" sheetId="1" r:id="rId1"'),
    end("sheet"),
    end("sheets"),
    end("workbook"),
]


def element(name, attributes="", *inside):
    yield start(name, attributes)
    for events in inside:
        yield from events
    yield end(name)


def strings():
    texts = (element("si", "", element("t", "", [["t", text]])) for text in STRINGS)
    return element("sst", "", *texts)


def fill(pattern, *inside):
    return element("fill", "", element("patternFill", f' patternType="{pattern}"', *inside))


def styles():
    color = element("fgColor", ' rgb="FFFFFF00"')
    fills = element("fills", "", fill("none"), fill("gray125"), fill("solid", color))
    formats = element(
        "cellXfs", "", element("xf", ' fillId="0"'), element("xf", ' fillId="2"')
    )
    return element("styleSheet", "", fills, formats)


def row_events(row, rows):
    master = "f", f' t="shared" ref="B1:B{rows}" si="0"', [["t", "A1*2"]]
    derived = "f", ' t="shared" si="0"', []
    style = ' s="1"' if row % 2 else ""
    return element(
        "row",
        f' r="{row}"',
        cell_events(f' r="A{row}"', text_child("v", str(row))),
        cell_events(
            f' r="B{row}"', master if row == 1 else derived, text_child("v", str(2 * row))
        ),
        cell_events(f' r="C{row}"{style} t="s"', text_child("v", str(row % 3))),
    )


def sheet(rows):
    data = (row_events(row, rows) for row in range(1, rows + 1))
    return element("worksheet", "", element("sheetData", "", *data))


def row_lines(row):
    """The lines of a row: a string without a style of its own stands in the styled area."""
    return (
        line_of(f"A{row}", f"n:{row}")
        + line_of(f"B{row}", f"n:{2 * row}", f"A{row}*2")
        + line_of(f"C{row}", f"s:{STRINGS[row % 3]}", None, YELLOW if row % 2 else "-")
    )


def sample_lines(rows):
    counts = [3 * rows, rows, (rows + 1) // 2, rows - 1 + rows % 2]
    names = ["cells", "formulas", "styled", "runs"]
    lines = [f"{name} {count}\n" for name, count in zip(names, counts)]
    return "".join([*lines, f"last B{rows} =A{rows}*2\n"])


class Sample:
    """A sample of so many rows, and the same workbook as a package text."""

    def __init__(self, folder, program, rows):
        self.rows = rows
        self.own, self.read = [program, "sample", str(rows)], [program, "cells", "Sample"]
        self.package = os.path.join(folder, f"package-{rows}.json")
        self.lines = os.path.join(folder, f"lines-{rows}.txt")
        self.write()
        self.made, self.listed = Listing(), Listing()
        self.made.add(sample_lines(rows).encode())
        for row in range(1, rows + 1):
            self.listed.add(row_lines(row).encode())
        self.ours, self.texts = [], []

    def write(self):
        parts = [
            OFFICE,
            (
                "xl/_rels/workbook.xml.rels",
                relationships([("worksheet", "worksheets/sheet1.xml")]),
            ),
            ("xl/workbook.xml", WORKBOOK),
            ("xl/worksheets/sheet1.xml", sheet(self.rows)),
            ("xl/sharedStrings.xml", strings()),
            ("xl/styles.xml", styles()),
        ]
        with open(self.package, "w", encoding="ascii", newline="") as out:
            out.write('{"version":1,"parts":[')
            for place, part in enumerate(parts):
                out.write("," if place else "")
                write_part(out, *part)
            out.write("]}")

    def run(self):
        self.ours.append(measured(self.own, os.devnull, self.lines))
        check(self.lines, self.made)
        self.texts.append(measured(self.read, self.package, self.lines))
        check(self.lines, self.listed)

    def best(self):
        return each(min, self.ours), each(min, self.texts)

    def row(self):
        ours, texts = self.best()
        return [
            f"{self.rows:,}",
            f"{ours.seconds:.3f}",
            mib(ours.peak),
            f"{texts.seconds:.3f}",
            mib(texts.peak),
            f"{ours.seconds / texts.seconds:.2f}",
        ]


def main():
    parser = argparse.ArgumentParser(description=__doc__)
    add_repeats(parser, 5)
    add_program(parser)
    asked = parser.parse_args()
    if asked.repeats < 1:
        parser.error("--repeats takes at least 1")
    program = program_of(asked)
    with tempfile.TemporaryDirectory() as folder:
        half, whole = (Sample(folder, program, rows) for rows in (10_000, 20_000))
        for _ in range(asked.repeats):
            half.run()
            whole.run()
    growth = whole.best()[0].seconds / half.best()[0].seconds
    head = ["rows", "sample, seconds", "peak MiB", "cells Sample", "peak MiB", "ratio"]
    table(head, [half.row(), whole.row()])
    print(f"growth: {growth:.2f}")
    if growth > MOST_GROWTH:
        sys.exit(f"sample.py: twice the rows take more than {MOST_GROWTH} times the seconds")


if __name__ == "__main__":
    main()
