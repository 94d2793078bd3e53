#!/usr/bin/env python3
"""Measures the opening of workbooks with many sheets and defined names, and the lists of these,
beside json.load of the same text, and prints one table (docs/PERFORMANCE.md).

`bench/opening.py` writes a package whose workbook has 5,000 sheets and 50,000 defined names, and as
many relationships as sheets; and another with twice as many of each. The workbook's part and its
relationships have 170,008 events, and 340,008, and opening reads all of them. The parts of the
sheets are left out, since opening reads none.

No command only opens, so the opening is the difference of two runs: `xlsx_tool cells absent`, which
ends with status 6 as soon as the workbook is open, and the same on a text as long in which the
program finds no workbook to open. `sheets` and `names` are the same difference with these commands.
Of each, the median of the repeats counts, in seconds of processor time.
"""

import argparse
import os
import sys
import tempfile
from statistics import median

from measure import (
    JSON_LOAD,
    OFFICE,
    add_program,
    add_repeats,
    each,
    end,
    measured,
    mib,
    program_of,
    relationships,
    start,
    table,
    write_part,
)

SHEETS, NAMES = 5_000, 50_000

# No sheet has this name, so the program ends once the workbook is open, and reads no sheet.
ABSENT = "absent"
NO_SHEET = 6
# The commands that open the workbook and print a list.
LISTS = ("sheets", "names")
# What the program may end with where it doesn't find the workbook's parts.
NOT_FOUND = (6, 9)

# The workbook's relationships and the workbook, by the names that opening looks for, and by others
# as long.
FOUND = ("xl/_rels/workbook.xml.rels", "xl/workbook.xml")
RENAMED = ("xl/_rels/workbook.xml.relx", "xl/workbook.xmx")


def sheet_name(number):
    return f"Goods &amp; prices {number}" if number % 10 == 0 else f"Sheet {number}"


def workbook(sheets, names):
    yield start("workbook")
    yield start("sheets")
    for number in range(1, sheets + 1):
        attributes = f' name="{sheet_name(number)}" sheetId="{number}" r:id="rId{number}"'
        yield start("sheet", attributes)
        yield end("sheet")
    yield end("sheets")
    yield start("definedNames")
    for number in range(1, names + 1):
        yield start("definedName", f' name="Total_{number}"')
        yield ["t", f"'Sheet {number % sheets + 1}'!$B$2:$D${number}"]
        yield end("definedName")
    yield end("definedNames")
    yield end("workbook")


def write_package(path, part_names, sheets, names):
    """Writes a package, and answers the number of events of the parts with these names."""
    targets = (("worksheet", f"worksheets/sheet{n}.xml") for n in range(1, sheets + 1))
    with open(path, "w", encoding="ascii", newline="") as out:
        out.write('{"version":1,"parts":[')
        write_part(out, *OFFICE)
        out.write(",")
        count = write_part(out, part_names[0], relationships(targets))
        out.write(",")
        count += write_part(out, part_names[1], workbook(sheets, names))
        out.write("]}")
    return count


class Size:
    """A package in two spellings. They differ in nothing but the names of the workbook's two parts:
    the program reads as much JSON of both and builds as large a package, and finds a workbook to
    open in the first alone. So what the first takes longer than the second is the opening."""

    def __init__(self, folder, program, times):
        self.program = program
        self.words = [program, "cells", ABSENT]
        self.found = os.path.join(folder, f"found-{times}.json")
        self.renamed = os.path.join(folder, f"renamed-{times}.json")
        self.said = os.path.join(folder, "said.txt")
        sheets, names = SHEETS * times, NAMES * times
        self.events = write_package(self.found, FOUND, sheets, names)
        write_package(self.renamed, RENAMED, sheets, names)
        self.bytes = os.path.getsize(self.found)
        assert os.path.getsize(self.renamed) == self.bytes
        self.opened, self.unopened, self.json = [], [], []
        self.listed = {command: [] for command in LISTS}

    def refused(self, package, statuses):
        """Runs the program, and answers what was measured and what it said."""
        result = measured(self.words, package, stderr=self.said, statuses=statuses)
        with open(self.said, encoding="utf-8") as said:
            return result, said.read()

    def run(self):
        opened, no_sheet = self.refused(self.found, (NO_SHEET,))
        unopened, not_found = self.refused(self.renamed, NOT_FOUND)
        if no_sheet == not_found:
            sys.exit(f"opening.py: with and without a workbook it said {no_sheet!r}")
        self.opened.append(opened)
        self.unopened.append(unopened)
        self.json.append(measured(JSON_LOAD, self.found))
        for command in LISTS:
            self.listed[command].append(measured([self.program, command], self.found))

    def result(self):
        """The seconds with, without and of opening, of the two lists and of json.load, and the peak
        memory of opening and json.load."""
        runs = (self.opened, self.unopened, self.json)
        opened, unopened, json = (each(median, of) for of in runs)
        opening, *lists = (
            median(one.processor - other.processor for one, other in zip(runs, self.unopened))
            for runs in (self.opened, *self.listed.values())
        )
        if opening <= 0:
            sys.exit("opening.py: the opening is lost in the noise: ask for more --repeats")
        seconds = opened.processor, unopened.processor, opening, *lists, json.processor
        return *seconds, opened.peak, json.peak


HEAD = [
    "text",
    "bytes",
    "events",
    "opened",
    "unopened",
    "opening",
    *LISTS,
    "events/s",
    "json.load",
    "ratio",
    "peak MiB",
    "json.load",
    "ratio",
]


def row_of(name, size):
    opened, unopened, opening, sheets, names, json_seconds, peak, json_peak = size.result()
    return [
        name,
        f"{size.bytes:,}",
        f"{size.events:,}",
        f"{opened:.3f}",
        f"{unopened:.3f}",
        f"{opening:.3f}",
        f"{sheets:.3f}",
        f"{names:.3f}",
        f"{size.events / opening:,.0f}",
        f"{json_seconds:.3f}",
        f"{opening / json_seconds:.2f}",
        mib(peak),
        mib(json_peak),
        f"{peak / json_peak:.2f}",
    ]


def growth_of(single, double):
    sizes = [(single.bytes, double.bytes), (single.events, double.events)]
    pairs = [*sizes, *zip(single.result(), double.result())]
    grown = [f"{b / a:.2f}" for a, b in pairs]
    return ["growth", *grown[:7], "", grown[7], "", *grown[8:], ""]


def main():
    parser = argparse.ArgumentParser(description=__doc__)
    add_repeats(parser, 25)
    add_program(parser)
    asked = parser.parse_args()
    if asked.repeats < 1:
        parser.error("--repeats takes at least 1")
    program = program_of(asked)
    with tempfile.TemporaryDirectory() as folder:
        single, double = Size(folder, program, 1), Size(folder, program, 2)
        for _ in range(asked.repeats):
            single.run()
            double.run()
        rows = [row_of("single", single), row_of("double", double)]
        table(HEAD, [*rows, growth_of(single, double)])


if __name__ == "__main__":
    main()
