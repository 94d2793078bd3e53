#!/usr/bin/env python3
"""Measures `precedents S`, `dependents S REF`, `check S` or `csv S` of xlsx_tool beside `cells S`
on the same package, and prints one table (docs/PERFORMANCE.md)."""

import argparse
import os
import tempfile

from cells import MIXES, FRAME, Listing, cell_events, check, text_child, write_package
from measure import LIMIT, add_program, add_repeats, each, end, measured, mib, program_of, start
from measure import table


class Sums:
    """Three numbers and five formulas over them in each row, of which three have their value."""

    frame = FRAME

    def formulas(self, row):
        """Each formula with what it comes to and what its cell holds, for A = row, B = 3, C = 1."""
        return [
            (f"A{row}*B{row}+C{row}-2", 3 * row - 1, 3 * row - 1),
            (f"(A{row}+B{row})*2-C{row}", 2 * row + 5, 2 * row + 5),
            (f"SUM(A{row}:C{row})", row + 4, row + 4),
            (f"A{row}-B{row}-C{row}", row - 4, row),
            (f"-A{row}*B{row}+0.5*2", 1 - 3 * row, 1),
        ]

    def row_events(self, row):
        yield start("row", f' r="{row}"')
        for letter, value in zip("ABC", (row, 3, 1)):
            yield from cell_events(f' r="{letter}{row}"', text_child("v", str(value)))
        for letter, (formula, _, held) in zip("DEFGH", self.formulas(row)):
            children = text_child("f", formula), text_child("v", str(held))
            yield from cell_events(f' r="{letter}{row}"', *children)
        yield end("row")

    def check_lines(self, row):
        return "".join(
            f"{letter}{row}\t" + ("agrees\n" if value == held else f"differs\tn:{value}\n")
            for letter, (_, value, held) in zip("DEFGH", self.formulas(row))
        )


def named_by(mix, row):
    """The cells of a row of formulas, each with the column and the rows of what it names."""
    if mix == "shared":
        return [("B", "A", row, row), ("C", "A", (row - 1) // 1000 * 1000 + 1, row)]
    return [(column, summed, 1, row) for column, summed in MIXES[mix].columns]


def precedents_lines(mix, row):
    return "".join(
        f"{cell}{row}\t{column}{first}:{column}{last}\n"
        for cell, column, first, last in named_by(mix, row)
    )


def dependents_lines(mix, row, asked):
    """The lines of a row where the cell of this column and row is asked for."""
    return "".join(
        f"{cell}{row}\n"
        for cell, column, first, last in named_by(mix, row)
        if column == asked[0] and first <= asked[1] <= last
    )


# The cell whose dependents are asked for, by the mix.
ASKED = {"shared": ("A", 1500), "one_master": ("K", 5)}


class Beside:
    """Runs of a command beside those of `cells` on a package."""

    def __init__(self, folder, program, limit, mix, words, printed):
        self.package = os.path.join(folder, f"{limit}.json")
        self.lines = os.path.join(folder, "lines.txt")
        own = Sums() if mix == "sums" else MIXES[mix]()
        _, self.rows, self.listing = write_package(self.package, limit, own, printed)
        self.words, self.cells = [program, *words], [program, "cells", "S"]
        self.ours, self.others = [], []

    def run(self):
        self.ours.append(measured(self.words, self.package, self.lines))
        check(self.lines, self.listing)
        self.others.append(measured(self.cells, self.package, self.lines))

    def row(self, name):
        ours, others = each(min, self.ours), each(min, self.others)
        return [
            name,
            f"{self.rows:,}",
            f"{ours.processor:.2f}",
            f"{others.processor:.2f}",
            f"{ours.processor / others.processor:.2f}",
            mib(ours.peak),
            mib(others.peak),
            f"{ours.peak / others.peak:.2f}",
        ]


def asked_words(command, mix):
    """The program's words, and what is printed of a row."""
    if command == "check":
        return ["check", "S"], lambda own, row: own.check_lines(row)
    if command == "csv":
        # The cells of the other mix have no values.
        return ["csv", "S"], lambda own, row: f"{row},{row}\n" if mix == "shared" else ""
    if command == "precedents":
        return ["precedents", "S"], lambda own, row: precedents_lines(mix, row)
    column, at = ASKED[mix]
    words = ["dependents", "S", f"{column}{at}"]
    return words, lambda own, row: dependents_lines(mix, row, (column, at))


HEAD = ["text", "rows", "seconds", "cells", "ratio", "peak MiB", "cells", "ratio"]


def main():
    parser = argparse.ArgumentParser(description=__doc__)
    parser.add_argument("command", choices=("precedents", "dependents", "check", "csv"))
    parser.add_argument("--mix", choices=ASKED, default="shared", help="what formulas are named of")
    parser.add_argument("--bytes", type=int, default=LIMIT - 1, help="the size of the larger text")
    add_repeats(parser, 3)
    add_program(parser)
    asked = parser.parse_args()
    program = program_of(asked)
    mix = "sums" if asked.command == "check" else asked.mix
    words, printed = asked_words(asked.command, mix)
    with tempfile.TemporaryDirectory() as folder:
        half = Beside(folder, program, asked.bytes // 2, mix, words, printed)
        whole = Beside(folder, program, asked.bytes, mix, words, printed)
        for _ in range(asked.repeats):
            half.run()
            whole.run()
        best = [each(min, size.ours).processor for size in (half, whole)]
        growth = ["growth", "", f"{best[1] / best[0]:.2f}", "", "", "", "", ""]
        table(HEAD, [half.row("half"), whole.row("whole"), growth])


if __name__ == "__main__":
    main()
