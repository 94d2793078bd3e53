#!/usr/bin/env python3
"""Counts the instructions that `cells` takes on a workbook file of 4,000 rows of 10 cells, by
callgrind, and prints where they go (docs/PERFORMANCE.md). Needs valgrind.

What the compiler put into another function counts there. Functions of the standard library, and of
the system, are rows of their own.
"""

import argparse
import collections
import os
import re
import subprocess
import sys
import tempfile

from books import Formulas, write_book
from measure import add_program, program_of, table

ROWS, CELLS = 4_000, 10

# Which crates do what; all others read.
PLACES = {
    "unpacking": ("inflate", "crc32", "zip_archive"),
    "cutting": ("markup", "text_package", "workbook_file", "memchr", "simdutf8", "input_package"),
    "lines": ("sheet_listing", "escaped_text", "list_lines", "xlsx_tool", "itoa"),
    "library": ("std", "std_alloc", "std_io", "std_collections", "std_heap", "core"),
}
FUNCTION = re.compile(r"^ *([\d,]+) \([^)]*\) +\S*?:(\S.*?)(?: \[.*\])?$")


class Wide(Formulas):
    """Texts and formulas of texts, and numbers behind them."""

    def cells(self, row):
        yield from super().cells(row)
        for place, column in enumerate("EFGHIJ"):
            yield f'<c r="{column}{row}"><v>{row * (place + 1) / 4}</v></c>'


def place_of(name):
    crate = re.match(r"\w+", name)
    for place, crates in PLACES.items():
        if crate is not None and crate[0] in crates:
            return place
    return "reading" if "::" in name else "the system"


def counted(program, path, folder):
    """The instructions of each place."""
    out = os.path.join(folder, "callgrind")
    words = ["valgrind", "--tool=callgrind", f"--callgrind-out-file={out}", program, "cells", "S"]
    with open(path, "rb") as book:
        given = {"stdin": book, "stdout": subprocess.DEVNULL, "stderr": subprocess.DEVNULL}
        subprocess.run(words, check=True, **given)
    words = ["callgrind_annotate", "--threshold=100", "--auto=no", out]
    text = subprocess.run(words, stdout=subprocess.PIPE, check=True, text=True).stdout
    counts = collections.Counter()
    for line in text.splitlines():
        found = FUNCTION.match(line)
        if found is not None and "PROGRAM TOTALS" not in line:
            counts[place_of(found[2])] += int(found[1].replace(",", ""))
    return counts


def main():
    parser = argparse.ArgumentParser(description=__doc__.split("\n\n")[0])
    add_program(parser)
    asked = parser.parse_args()
    with tempfile.TemporaryDirectory() as folder:
        path = os.path.join(folder, "book.xlsx")
        write_book(path, {"S": Wide()}, ROWS)
        counts = counted(program_of(asked), path, folder)
    whole = sum(counts.values())
    if not whole:
        sys.exit("instructions.py: callgrind_annotate told nothing")
    rows = [[place, f"{n:,}", f"{n / whole:.2f}"] for place, n in counts.most_common()]
    cells = f"{whole / (ROWS * CELLS):,.0f} a cell"
    table(["where", "instructions", "of all"], [*rows, ["all", f"{whole:,}", cells]])


if __name__ == "__main__":
    main()
