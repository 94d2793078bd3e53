#!/usr/bin/env python3
"""Measures `./xlsx FILE.xlsx WORDS` on a workbook of many sheets, and of one, and prints one table
(docs/PERFORMANCE.md).

A row of a sheet has a shared string, a number, a formula and the number of the sheet. Seconds are
those of processor time of all processes that a run starts. The lines of `cells` are those that are
wanted.
"""

import argparse
import os
import tempfile

from books import Numbered, write_book
from cells import Listing, check
from measure import TOP, add_repeats, build, each, measured, mib, table

# The sheet that is asked for, of many.
SHEET = 7
COMMANDS = (("cells", f"S{SHEET}"), ("csv", f"S{SHEET}"), ("sheets",), ("props",))


def mixes_of(sheets):
    names = (f"S{number}" for number in range(1, sheets + 1)) if sheets > 1 else ["S"]
    return {name: Numbered(number) for number, name in enumerate(names, 1)}


def listing_of(mix, rows):
    listing = Listing()
    for row in range(1, rows + 1):
        listing.add(mix.row_lines(row).encode())
    return listing


class Words:
    """One command on a workbook file of some sheets, and its runs."""

    def __init__(self, folder, mixes, rows, words):
        self.rows, self.mixes, self.words, self.runs = rows, mixes, words, []
        self.path = os.path.join(folder, f"book-{len(mixes)}.xlsx")
        self.lines = os.path.join(folder, "lines")
        if not os.path.exists(self.path):
            write_book(self.path, mixes, rows)

    def run(self):
        command = [str(TOP / "xlsx"), self.path, *self.words]
        self.runs.append(measured(command, os.devnull, self.lines))
        if self.words[0] == "cells":
            check(self.lines, listing_of(self.mixes[self.words[1]], self.rows))

    def row(self):
        best = each(min, self.runs)
        return [
            f"{len(self.mixes):,}",
            f"{os.path.getsize(self.path):,}",
            " ".join(self.words),
            f"{best.processor:.3f}",
            mib(best.peak),
        ]


def main():
    parser = argparse.ArgumentParser(
        description=__doc__, formatter_class=argparse.RawDescriptionHelpFormatter
    )
    parser.add_argument("--sheets", type=int, default=20, help="how many sheets (default: 20)")
    parser.add_argument(
        "--rows", type=int, default=5_000, help="rows of four cells in each (default: 5,000)"
    )
    add_repeats(parser, 3)
    asked = parser.parse_args()
    if asked.sheets < SHEET or asked.rows < 1 or asked.repeats < 1:
        parser.error(f"--sheets takes at least {SHEET}, --rows and --repeats at least 1")
    build()
    with tempfile.TemporaryDirectory() as folder:
        many, one = mixes_of(asked.sheets), mixes_of(1)
        all_words = [Words(folder, many, asked.rows, words) for words in COMMANDS]
        all_words.append(Words(folder, one, asked.rows, ("cells", "S")))
        for _ in range(asked.repeats):
            for words in all_words:
                words.run()
        head = ["sheets", "bytes", "words", "seconds", "peak MiB"]
        table(head, [words.row() for words in all_words])


if __name__ == "__main__":
    main()
