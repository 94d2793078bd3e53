#!/usr/bin/env python3
"""Measures `./xlsx FILE.xlsx cells S`, from the file to the lines, beside openpyxl, and prints one
table; with `--csv` it measures `csv S` beside openpyxl and the writer of Python's `csv`, and with
`--dates` `csv S --dates` (docs/PERFORMANCE.md).

The script writes workbook files with four cells in a row: texts and formulas, or with `--dates` a
date, a shared string, a number, and a date with a time of day. It runs in turn `./xlsx` and
openpyxl, which opens the workbook and goes once over all cells, with `read_only` and without; it
tells their formulas so, or else their values, where `cells` tells both. Rows are written by
openpyxl with `read_only` and by `csv.writer`. Seconds are those of processor time of all processes
that a run starts, `of its markup` the peak by the bytes that the sheet's part unpacks to, and
growth that of the seconds from the row above. What `./xlsx` wrote is compared with the lines that
are wanted, or with the other's rows.
"""

import argparse
import filecmp
import os
import subprocess
import sys
import tempfile
import zipfile

from books import Dates, Formulas, run_by, write_book
from cells import Listing, check
from measure import TOP, add_repeats, build, each, measured, mib, table

# Reads every cell once, and answers how many there are.
CELLS = """\
import sys
from openpyxl import load_workbook
book = load_workbook(sys.argv[1], read_only=sys.argv[2] == "True")
print(sum(cell.value is not None for row in book["S"].iter_rows() for cell in row))
"""

# Writes the rows of the values as CSV.
ROWS = """\
import csv, sys
from openpyxl import load_workbook
book = load_workbook(sys.argv[1], read_only=True, data_only=True)
csv.writer(sys.stdout, lineterminator="\\n").writerows(book["S"].iter_rows(values_only=True))
"""

# The same, with dates as `--dates` writes them.
ROWS_OF_DATES = """\
import csv, sys
from datetime import datetime
from openpyxl import load_workbook
def told(value):
    return value.isoformat().removesuffix("T00:00:00") if type(value) is datetime else value
book = load_workbook(sys.argv[1], read_only=True, data_only=True)
rows = (map(told, row) for row in book["S"].iter_rows(values_only=True))
csv.writer(sys.stdout, lineterminator="\\n").writerows(rows)
"""


class Size:
    """A workbook with so many rows, and the runs on it."""

    mix, words = Formulas(), ("cells", "S")

    def __init__(self, folder, python, rows):
        self.rows, self.python = rows, python
        self.book = os.path.join(folder, f"book-{rows}.xlsx")
        self.lines, self.theirs = (os.path.join(folder, name) for name in ("lines", "theirs"))
        write_book(self.book, {"S": self.mix}, rows)
        with zipfile.ZipFile(self.book) as book:
            self.markup = book.getinfo("xl/worksheets/sheet1.xml").file_size
        self.ours, self.full, self.read_only = [], [], []

    def run_ours(self):
        words = [str(TOP / "xlsx"), self.book, *self.words]
        self.ours.append(measured(words, os.devnull, self.lines))

    def run_theirs(self, runs, *words):
        runs.append(measured([self.python, "-c", *words], os.devnull, self.theirs))


class Cells(Size):
    """The cells, each looked at once."""

    head = ["openpyxl", "ratio", "read_only", "ratio"]

    def __init__(self, *given):
        super().__init__(*given)
        self.listing = Listing()
        for row in range(1, self.rows + 1):
            self.listing.add(self.mix.texts.row_lines(row).encode())

    def run(self):
        self.run_ours()
        check(self.lines, self.listing)
        for runs, is_read_only in ((self.full, False), (self.read_only, True)):
            self.run_theirs(runs, CELLS, self.book, str(is_read_only))
            with open(self.theirs, encoding="ascii") as found:
                assert int(found.read()) == 4 * self.rows

    def fields(self, ours):
        full, read_only = each(min, self.full), each(min, self.read_only)
        of_both = (
            field
            for theirs in (full, read_only)
            for field in (f"{theirs.processor:.2f}", f"{ours.processor / theirs.processor:.2f}")
        )
        return [*of_both]


class Rows(Size):
    """The rows of the values, written by both."""

    words, theirs_by = ("csv", "S"), ROWS
    head = ["read_only", "ratio"]

    def run(self):
        self.run_ours()
        self.run_theirs(self.read_only, self.theirs_by, self.book)
        if not filecmp.cmp(self.lines, self.theirs, shallow=False):
            sys.exit("file.py: the rows aren't those of csv.writer")

    def fields(self, ours):
        theirs = each(min, self.read_only)
        ratio = ours.processor / theirs.processor
        return [f"{theirs.processor:.2f}", f"{ratio:.2f}"]


class RowsOfDates(Rows):
    """The same of dates, as dates."""

    mix, words, theirs_by = Dates(), ("csv", "S", "--dates"), ROWS_OF_DATES


def row_of(size, before):
    """A row of the table, behind that of the size before, if any."""
    ours = each(min, size.ours)
    growth = f"{ours.processor / each(min, before.ours).processor:.2f}" if before else ""
    return [
        f"{4 * size.rows:,}",
        f"{os.path.getsize(size.book):,}",
        f"{ours.processor:.2f}",
        growth,
        *size.fields(ours),
        mib(ours.peak),
        f"{ours.peak / size.markup:.2f}",
        mib(each(min, size.read_only).peak),
    ]


def main():
    parser = argparse.ArgumentParser(
        description=__doc__, formatter_class=argparse.RawDescriptionHelpFormatter
    )
    parser.add_argument(
        "--rows",
        type=int,
        default=25_000,
        help="rows of four cells (default: 25,000, and twice and four times that)",
    )
    parser.add_argument(
        "--python", default=sys.executable, help="an interpreter that has openpyxl (default: this)"
    )
    kinds = parser.add_mutually_exclusive_group()
    for option, kind, what in (
        ("--csv", Rows, "the rows as CSV"),
        ("--dates", RowsOfDates, "rows with dates as CSV"),
    ):
        kinds.add_argument(
            option, dest="kind", action="store_const", const=kind, help=f"measure {what}"
        )
    parser.set_defaults(kind=Cells)
    add_repeats(parser, 5)
    asked = parser.parse_args()
    if asked.rows < 1 or asked.repeats < 1:
        parser.error("--rows and --repeats take at least 1")
    if subprocess.run(
        [asked.python, "-c", "import openpyxl"], stderr=subprocess.DEVNULL
    ).returncode:
        sys.exit(f"file.py: {asked.python} has no openpyxl: name one that has with --python")
    build()
    with tempfile.TemporaryDirectory() as folder:
        python = run_by(asked.python, folder)
        sizes = [asked.kind(folder, python, times * asked.rows) for times in (1, 2, 4)]
        for _ in range(asked.repeats):
            for size in sizes:
                size.run()
        head = ["cells", "bytes", "seconds", "growth", *asked.kind.head]
        head += ["peak MiB", "of its markup", "read_only"]
        table(head, [row_of(size, before) for before, size in zip([None, *sizes], sizes)])


if __name__ == "__main__":
    main()
