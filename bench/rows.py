#!/usr/bin/env python3
"""Measures the rows that `csv S` of xlsx_tool writes beside Python's csv.writer over the same rows,
which it has as lists, and prints one table (docs/PERFORMANCE.md)."""

import argparse
import csv
import filecmp
import multiprocessing
import os
import sys
import tempfile
import time

from cells import FRAME, MIXES, PRINTED, cell_events, text_child, write_package
from measure import (
    LIMIT,
    add_program,
    add_repeats,
    each,
    end,
    measured,
    mib,
    program_of,
    spelled,
    start,
    table,
    write_part,
)

# The text of a cell that makes the area of every sheet too large.
FAR = list(cell_events(' r="XFD1048576"', text_child("v", "1")))
TOO_LARGE = 10


class Filled:
    """The rows of a mix, as many as fit."""

    def __init__(self, mix):
        self.mix = mix

    def write(self, path, limit):
        """Writes the package, and answers its rows' number."""
        _, count, _ = write_package(path, limit, MIXES[self.mix](), PRINTED["csv"])
        return count

    def fields(self, count):
        mix = MIXES[self.mix]()
        return [mix.row_fields(row) for row in range(1, count + 1)]


class Sparse:
    """Two numbers, in the first and the last column of as many rows as are written at most."""

    rows, columns = 1024, 16_384

    def write(self, path, limit):
        first = cell_events(' r="A1"', text_child("v", "1"))
        last = cell_events(f' r="XFD{self.rows}"', text_child("v", "2"))
        data = [start("sheetData"), *first, *last, end("sheetData")]
        sheet = [start("worksheet"), *data, end("worksheet")]
        with open(path, "w", encoding="ascii", newline="") as out:
            out.write('{"version":1,"parts":[')
            for part in FRAME:
                write_part(out, *part)
                out.write(",")
            write_part(out, "xl/worksheets/sheet1.xml", sheet)
            out.write("]}")
        return self.rows

    def fields(self, count):
        rows = [[""] * self.columns for _ in range(count)]
        rows[0][0], rows[-1][-1] = "1", "2"
        return rows


SHEETS = {"texts": Filled("texts"), "values": Filled("values"), "sparse": Sparse()}


def apart(function, *given):
    """What a function answers in a process of its own: the peak that the system counts of a program
    is at least that of the process that starts it."""
    with multiprocessing.Pool(1) as pool:
        return pool.apply(function, given)


def write_packages(name, package, far, limit):
    """Writes a package, and another with a cell more, which lets its sheet be read and no row be
    written. Answers the number of its rows."""
    count = SHEETS[name].write(package, limit)
    with open(package, encoding="ascii") as text:
        front, behind, tail = text.read().rpartition("," + spelled(end("sheetData")))
    with open(far, "w", encoding="ascii", newline="") as out:
        out.write(front + "".join("," + spelled(event) for event in FAR) + behind + tail)
    return count


def seconds_of_writer(name, count, path):
    rows = SHEETS[name].fields(count)
    began = time.process_time()
    with open(path, "w", encoding="utf-8", newline="") as out:
        csv.writer(out, lineterminator="\n").writerows(rows)
    return time.process_time() - began


SECONDS = ["seconds", "to read", "to write", "csv.writer", "ratio"]
HEAD = ["sheet", "rows", *SECONDS, "peak MiB", "text MiB", "ratio"]


def row_of(name, folder, program, limit, repeats):
    kinds = "json", "far", "out", "csv"
    package, far, ours, theirs = (os.path.join(folder, f"{name}.{kind}") for kind in kinds)
    count = apart(write_packages, name, package, far, limit)
    words = [program, "csv", "S"]
    whole, reading, writer = [], [], []
    for _ in range(repeats):
        whole.append(measured(words, package, ours))
        reading.append(measured(words, far, os.devnull, os.devnull, (TOO_LARGE,)))
        writer.append(apart(seconds_of_writer, name, count, theirs))
        if not filecmp.cmp(ours, theirs, shallow=False):
            sys.exit(f"rows.py: the rows of {name} aren't those of csv.writer")
    best, read, size = each(min, whole), each(min, reading).processor, os.path.getsize(ours)
    return [
        name,
        f"{count:,}",
        f"{best.processor:.2f}",
        f"{read:.2f}",
        f"{best.processor - read:.2f}",
        f"{min(writer):.2f}",
        f"{(best.processor - read) / min(writer):.2f}",
        mib(best.peak),
        mib(size),
        f"{best.peak / size:.2f}",
    ]


def main():
    parser = argparse.ArgumentParser(description=__doc__)
    # The far cell needs some room of its own.
    most = LIMIT - 1000
    parser.add_argument("--bytes", type=int, default=most, help="the size that a text may have")
    parser.add_argument("--sheet", choices=SHEETS, action="append", help="measure this sheet alone")
    add_repeats(parser, 5)
    add_program(parser)
    asked = parser.parse_args()
    if not 1 <= asked.bytes <= most or asked.repeats < 1:
        parser.error(f"--bytes takes 1 to {most}, and --repeats at least 1")
    program = program_of(asked)
    with tempfile.TemporaryDirectory() as folder:
        given = folder, program, asked.bytes, asked.repeats
        table(HEAD, [row_of(name, *given) for name in asked.sheet or SHEETS])


if __name__ == "__main__":
    main()
