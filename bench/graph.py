#!/usr/bin/env python3
"""Measures `graph`, `order`, `cycles` and `dependents S A1 --all` of xlsx_tool beside
`precedents S` and `cells S` over formulas of several shapes, and prints one table
(docs/PERFORMANCE.md). What the last three print of as many formulas must be what a plain
computation in Python finds (tools/support/graphs.py), whose rounds must be those that the shape
tells. With `--file` the input is a workbook file, else a package text. With `--compare` nothing is
measured. With `--instructions` millions of instructions are counted, by callgrind of valgrind, in
place of seconds, and no memory is told."""

import argparse
import os
import re
import subprocess
import sys
import tempfile

from measure import Run, add_program, add_repeats, each, measured, mib, program_of, table

from support.fixtures import archive
from support.graphs import Graph, reference
from support.noted import RELATIONSHIPS, ROOT, SHEET_NAME, WORKBOOK, package_of, with_data

FORMULAS = 100_000
LAST_ROW = 1_048_576
COMMANDS = (
    ("cells", "S"),
    ("precedents", "S"),
    ("graph",),
    ("order",),
    ("cycles",),
    ("dependents", "S", "A1", "--all"),
)

# Each of these gives so many formulas row by row: the cell, the text, the areas that it names, each
# by its first row and column and its last, and the round in which it is computed, if it ever is.


def chain_down(count):
    for row in range(1, count + 1):
        yield (row + 1, 1), f"A{row}+1", [(row, 1, row, 1)], row - 1


def chain_up(count):
    for row in range(1, count + 1):
        yield (row, 1), f"A{row + 1}+1", [(row + 1, 1, row + 1, 1)], count - row


def chain_of_twos(count):
    for row in range(1, count + 1):
        yield (row + 1, 1), f"A{row}+A{row}", [(row, 1, row, 1)] * 2, row - 1


def running_sums(count):
    for row in range(2, count + 2):
        yield (row, 1), f"SUM(A$1:A{row - 1})", [(1, 1, row - 1, 1)], row - 2


def sums_of_a_chain(count):
    half = count // 2
    for row in range(1, half + 1):
        yield (row, 1), f"A{row + 1}+1", [(row + 1, 1, row + 1, 1)], half - row
        yield (row, 2), f"SUM(A$1:A{row})", [(1, 1, row, 1)], half


def sums_of_a_column(count):
    for row in range(1, count // 2 + 1):
        yield (row, 1), "2", [], 0
        yield (row, 2), "SUM(A:A)", [(1, 1, LAST_ROW, 1)], 1


def one_cycle(count):
    for row in range(1, count + 1):
        yield (row, 1), "SUM(A:A)", [(1, 1, LAST_ROW, 1)], None


def square(count):
    side = int(count**0.5)
    for row in range(2, side + 2):
        for column in range(2, side + 2):
            area = (1, 1, row - 1, column - 1)
            text = f"SUM($A$1:{reference((row - 1, column - 1))})"
            yield (row, column), text, [area], min(row, column) - 2


# The shapes, with what of so many formulas is measured.
SHAPES = {
    "A2 = A1+1": (chain_down, 1),
    "A1 = A2+1": (chain_up, 1),
    "A2 = A1+A1": (chain_of_twos, 1),
    "A3 = SUM(A$1:A2)": (running_sums, 1),
    "B1 = SUM(A$1:A1), A1 = A2+1": (sums_of_a_chain, 1),
    "B1 = SUM(A:A), A1 = 2": (sums_of_a_column, 1),
    "A1 = SUM(A:A)": (one_cycle, 1),
    "a square, each a square": (square, 10),
}


def written(formulas, is_file):
    """The workbook of a sheet with these formulas, as a file or as a package text."""
    cells = (
        f'<c r="{reference(cell)}"><f>{text}</f><v>1</v></c>' for cell, text, *_ in formulas
    )
    parts = [ROOT, RELATIONSHIPS, WORKBOOK, (SHEET_NAME, with_data("".join(cells)))]
    return archive(parts) if is_file else package_of(parts)


def compare(program, name, shape, count, is_file):
    """Compares what is printed of so many formulas."""
    cells, _, named, rounds = zip(*shape(count))
    graph = Graph(cells, named)
    shown = f"{len(cells)} formulas {name}"
    if rounds != tuple(map(graph.rounds.get, range(len(cells)))):
        sys.exit(f"graph.py: {shown} have other rounds")
    source, wanted = written(shape(count), is_file), graph.lines()
    for words in COMMANDS:
        if words[0] in wanted:
            given = {"input": source, "stdout": subprocess.PIPE}
            ran = subprocess.run([program, *words], check=True, **given)
            if ran.stdout != wanted[words[0]].encode():
                sys.exit(f"graph.py: {words[0]} of {shown} prints other lines")
    return len(cells)


def counted(words, path):
    """The millions of instructions of a run, in place of the seconds of processor time."""
    with open(path, "rb") as source, tempfile.NamedTemporaryFile() as counts:
        callgrind = ["valgrind", "--tool=callgrind", f"--callgrind-out-file={counts.name}"]
        given = {"stdin": source, "stdout": subprocess.DEVNULL, "stderr": subprocess.PIPE}
        ran = subprocess.run([*callgrind, *words], text=True, check=True, **given)
    return Run(0, int(re.search(r"Collected : (\d+)", ran.stderr)[1]) / 1e6, 0)


class Measured:
    """So many formulas of a shape in a workbook, and the runs of the commands on it."""

    def __init__(self, folder, shape, count, is_file):
        self.path = os.path.join(folder, f"{shape.__name__}-{count}")
        formulas = list(shape(count))
        self.count = len(formulas)
        with open(self.path, "wb") as file:
            file.write(written(formulas, is_file))
        self.runs = {words[0]: [] for words in COMMANDS}

    def run(self, program, measure):
        for words in COMMANDS:
            self.runs[words[0]].append(measure([program, *words], self.path))

    def best(self, word):
        return each(min, self.runs[word])


def row_of(name, whole, double):
    """A row of the table: seconds or instructions, ratios, growth and memory."""
    cells, precedents, graph, order, cycles, needing = (whole.best(own[0]) for own in COMMANDS)
    growths = (
        double.best(word).processor / own.processor
        for word, own in (("order", order), ("cycles", cycles), ("dependents", needing))
    )
    return [
        f"`{name}`" if "=" in name else name,
        f"{whole.count:,}",
        f"{cells.processor:.2f}",
        f"{graph.processor / precedents.processor:.2f}",
        f"{order.processor / cells.processor:.2f}",
        f"{cycles.processor / cells.processor:.2f}",
        f"{needing.processor / cells.processor:.2f}",
        *(f"{growth:.2f}" for growth in growths),
        mib(cells.peak),
        f"{max(graph.peak, order.peak, cycles.peak, needing.peak) / max(cells.peak, 1):.2f}",
    ]


HEAD = [
    "formulas",
    "number",
    "cells",
    "graph / precedents",
    "order / cells",
    "cycles / cells",
    "--all / cells",
    "order, growth",
    "cycles, growth",
    "--all, growth",
    "MiB",
    "ratio",
]


def main():
    parser = argparse.ArgumentParser(description=__doc__)
    parser.add_argument("--formulas", type=int, default=FORMULAS, help="how many are measured")
    parser.add_argument("--shape", choices=SHAPES, action="append", help="these alone")
    parser.add_argument("--file", action="store_true", help="measure workbook files")
    parser.add_argument("--compare", action="store_true", help="compare alone")
    parser.add_argument("--instructions", action="store_true", help="count these, once")
    add_repeats(parser, 3)
    add_program(parser)
    asked = parser.parse_args()
    program = program_of(asked)
    measure, repeats = (counted, 1) if asked.instructions else (measured, asked.repeats)
    rows = []
    with tempfile.TemporaryDirectory() as folder:
        for name in asked.shape or SHAPES:
            shape, part = SHAPES[name]
            count = asked.formulas // part
            compared = compare(program, name, shape, count, asked.file)
            if asked.compare:
                print(f"{name}: {compared:,} formulas", flush=True)
                continue
            whole, double = (Measured(folder, shape, own, asked.file) for own in (count, 2 * count))
            for _ in range(repeats):
                whole.run(program, measure)
                double.run(program, measure)
            rows.append(row_of(name, whole, double))
    if rows:
        table(HEAD, rows)


if __name__ == "__main__":
    main()
