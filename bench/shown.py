#!/usr/bin/env python3
"""Measures `csv S --shown` of xlsx_tool beside `csv S` over numbers under `#,##0.00`, and beside
`csv S --dates` over dates, and prints one table (docs/PERFORMANCE.md). What is shown must be what
Python writes of the same numbers and dates."""

import argparse
import datetime
import os
import tempfile

from measure import Listing, add_program, add_repeats, check, each, measured, mib, program_of, table

from support.noted import SHEET_NAME, package_with, with_data
from test_shown import styles_of

ROWS = 200_000
DAY = datetime.timedelta(days=1)
FIRST = datetime.date(1899, 12, 30)


class Numbers:
    """Numbers of many sizes with quarters, which are exact."""

    name, code, beside, most = "numbers", "#,##0.00", ("csv", "S"), 1.25

    def value(self, row):
        return f"{row * 7919 % 10_000_000 / 4 - 500_000}"

    def shown(self, row):
        return f"{row * 7919 % 10_000_000 / 4 - 500_000:,.2f}"


class Dates:
    """Days from 1927 to 2201."""

    name, code, beside, most = "dates", "yyyy-mm-dd", ("csv", "S", "--dates"), 1.15

    def value(self, row):
        return str(10_000 + row * 7919 % 100_000)

    def shown(self, row):
        return (FIRST + (10_000 + row * 7919 % 100_000) * DAY).isoformat()


class Compared:
    """One mix in a package, and the runs of the two commands on it."""

    def __init__(self, folder, mix, rows):
        self.mix, self.rows = mix, rows
        self.path, self.lines = os.path.join(folder, mix.name), os.path.join(folder, "lines")
        cells = "".join(
            f'<row r="{row}"><c r="A{row}" s="1"><v>{mix.value(row)}</v></c></row>'
            for row in range(1, rows + 1)
        )
        parts = (SHEET_NAME, with_data(cells)), styles_of(["General", mix.code])
        with open(self.path, "wb") as package:
            package.write(package_with(*parts))
        self.runs = {mix.beside: [], ("csv", "S", "--shown"): []}

    def run(self, program):
        for words, runs in self.runs.items():
            runs.append(measured([program, *words], self.path, self.lines))
        wanted = Listing()
        for row in range(1, self.rows + 1):
            text = self.mix.shown(row)
            wanted.add((f'"{text}"\n' if "," in text else f"{text}\n").encode())
        check(self.lines, wanted)

    def row(self):
        beside, shown = (each(min, runs) for runs in self.runs.values())
        return [
            self.mix.name,
            " ".join(self.mix.beside),
            f"{beside.processor:.3f}",
            f"{shown.processor:.3f}",
            f"{shown.processor / beside.processor:.2f}",
            f"{self.mix.most}",
            mib(beside.peak),
            mib(shown.peak),
        ]


def main():
    parser = argparse.ArgumentParser(description=__doc__)
    parser.add_argument("--rows", type=int, default=ROWS, help=f"rows (default: {ROWS:,})")
    add_repeats(parser, 5)
    add_program(parser)
    asked = parser.parse_args()
    program = program_of(asked)
    with tempfile.TemporaryDirectory() as folder:
        both = [Compared(folder, mix, asked.rows) for mix in (Numbers(), Dates())]
        for _ in range(asked.repeats):
            for compared in both:
                compared.run(program)
        names = ["values", "beside", "seconds", "`--shown`", "ratio", "at most", "MiB", "MiB"]
        table(names, [compared.row() for compared in both])


if __name__ == "__main__":
    main()
