#!/usr/bin/env python3
"""Measures `cells S`, `csv S`, `upgrade`, `cells S --json` or `rows S --json` of xlsx_tool beside
json.load of the same text, and prints one table (docs/PERFORMANCE.md).

The script writes a package of one worksheet with as many rows as fit just under 67,108,864 bytes,
the largest input that the program takes, and another of half that size. The package text is written
without spaces or line breaks, so that it holds the most events for its size. `--mix` says what the
cells are:

- `texts`: two cells of a row have a text, and two a formula and a text. The attributes stand in any
  order, with spaces between them, and some texts have characters that are escaped.
- `shared`: two columns of shared formulas, each with a master for every thousand rows.
- `one_master`: one shared formula, and 950,000 that are derived from it, in cells that name no
  positions; `leaving`: the same, where the reference leaves the sheet from row 2 on.
- `values`: numbers, booleans, inline strings, and in a third of the cells one of 20,000 shared
  strings.
- `styled`: numbers, dates, formulas and shared strings, each cell in one of 39 styles with a fill,
  and a second sheet, which isn't asked for.
- `fills`: styled positions alone, written from right to left, each in another style than its
  neighbors; at the whole size some 1.4 million style ids.
"""

import argparse
import csv
import datetime
import io
import json
import os
import shutil
import sys
import tempfile
from decimal import Decimal

from measure import (
    FORMS,
    LIMIT,
    OFFICE,
    Listing,
    Measured,
    add_program,
    add_repeats,
    check,
    each,
    end,
    growth_of,
    head_of,
    measured,
    mib,
    program_of,
    relationships,
    spelled,
    start,
    table,
    upgraded,
)

TAB = "\t"
KINDS = ["nut", "bolt", "washer", "hex key", "tab\there", "back\\slash"]

WORKBOOK = [
    start("workbook"),
    start("sheets"),
    start("sheet", ' name="S" sheetId="1" r:id="rId1"'),
    end("sheet"),
    end("sheets"),
    end("workbook"),
]

# The parts before the worksheet's.
FRAME = [
    OFFICE,
    (
        "xl/_rels/workbook.xml.rels",
        list(relationships([("worksheet", "worksheets/sheet1.xml")])),
    ),
    ("xl/workbook.xml", WORKBOOK),
]


def escaped(text):
    return text.replace("\\", "\\\\").replace("\t", "\\t")


def line_of(reference, value="-", formula=None, fill="-"):
    return f"{reference}\t{value}\t{'-' if formula is None else '=' + escaped(formula)}\t{fill}\n"


def record_of(fields):
    """A record of CSV as Python's own writer has it."""
    out = io.StringIO()
    csv.writer(out, lineterminator="\n").writerow(fields)
    return out.getvalue()


def unescaped(text):
    return text.replace("\\t", "\t").replace("\\\\", "\\")


def date_of(days):
    """The text of a serial from 1900 on that has a date, of milliseconds at most."""
    day, time = divmod(round(Decimal(days) * 86_400_000), 86_400_000)
    if day == 0:
        date = ""
    elif day == 60:
        date = "1900-02-29"
    else:
        first = datetime.date(1899, 12, 31 if day < 60 else 30)
        date = (first + datetime.timedelta(day)).isoformat()
    seconds, left = divmod(time, 1000)
    clock = f"{seconds // 3600:02}:{seconds // 60 % 60:02}:{seconds % 60:02}"
    clock += f".{left:03}" if left else ""
    return "T".join(part for part in (date, clock if time or not date else "") if part)


def typed(field):
    """The type and the value of a field of `cells` as JSON; a date has its text behind it."""
    mark, _, text = field.partition(":")
    if mark == "t":
        days, kind, _ = text.split(" ")
        return kind, f'{days},"date":"{date_of(days)}"'
    if mark == "s":
        return "text", json.dumps(unescaped(text), ensure_ascii=False)
    return {"n": ("number", text), "b": ("boolean", text), "-": ("none", None)}[mark]


def object_of(line):
    """The object that `cells --json` has of a line of `cells`."""
    reference, value, formula, fill = line.split("\t")
    typ, own = typed(value)
    told = f'{{"cell":"{reference}","type":"{typ}"'
    told += "" if own is None else f',"value":{own}'
    if formula != "-":
        told += f',"formula":{json.dumps(unescaped(formula[1:]), ensure_ascii=False)}'
    return told + ("" if fill == "-" else f',"fill":"{fill}"') + "}\n"


def array_of(lines):
    """The array that `rows --json` has of the lines of a row."""
    return f"[{','.join(typed(line.split(TAB)[1])[1] or 'null' for line in lines)}]\n"


def cell_events(attributes, *children):
    """A cell with its children, each the name, the attributes and the events in it."""
    yield start("c", attributes)
    for name, own, inside in children:
        yield from (start(name, own), *inside, end(name))
    yield end("c")


def text_child(name, text, own=""):
    return name, own, [["t", text]]


class Texts:
    """Texts and formulas, with attributes in any order and spaces between them."""

    frame = FRAME

    def cells_of(self, row):
        """The cells of a row: reference, formula or None, text."""
        kind = KINDS[row % len(KINDS)]
        return [
            (f"A{row}", None, f"item {row}"),
            (f"B{row}", f"UPPER(A{row})", f"ITEM {row}"),
            (f"C{row}", None, kind),
            (f"D{row}", f'CONCATENATE(A{row},", ",C{row})', f"item {row}, {kind}"),
        ]

    def row_events(self, row):
        yield start("row", f'  spans="1:4" r="{row}"')
        for reference, formula, text in self.cells_of(row):
            children = [] if formula is None else [text_child("f", formula)]
            children.append(text_child("v", text))
            yield from cell_events(f' t = "str"  r="{reference}"', *children)
        yield end("row")

    def row_lines(self, row):
        return "".join(
            line_of(reference, f"s:{escaped(text)}", formula)
            for reference, formula, text in self.cells_of(row)
        )

    def row_fields(self, row):
        return [text for _, _, text in self.cells_of(row)]


class Shared:
    """Two columns of shared formulas, each with a master for each thousand rows."""

    frame = FRAME

    def row_events(self, row):
        first = (row - 1) // 1000 * 1000 + 1
        index = first // 1000
        yield start("row", f' r="{row}"')
        for column, group, text in (("B", 0, f"A{first}*2"), ("C", 1, f"SUM($A${first}:A{first})")):
            own = f' t="shared" si="{2 * index + group}"'
            if row == first:
                own += f' ref="{column}{first}:{column}{first + 999}"'
                child = text_child("f", text, own)
            else:
                child = "f", own, []
            yield from cell_events(f' r="{column}{row}"', child, text_child("v", str(row)))
        yield end("row")

    def row_lines(self, row):
        first = (row - 1) // 1000 * 1000 + 1
        return line_of(f"B{row}", number(row), f"A{row}*2") + line_of(
            f"C{row}", number(row), f"SUM($A${first}:A{row})"
        )


class OneMaster:
    """One shared formula, and derived ones in all other cells, which name no positions."""

    frame = FRAME
    columns = list(zip("ABCDEFGHIJ", "KLMNOPQRST"))
    master = "K$1:K1"

    def row_events(self, row):
        yield start("row", "")
        for place in range(len(self.columns)):
            own, inside = ' t="shared" si="0"', []
            if row == 1 and place == 0:
                own, inside = own + ' ref="A1:J1048576"', [["t", f"SUM({self.master})"]]
            yield from cell_events("", ("f", own, inside))
        yield end("row")

    def row_lines(self, row):
        return "".join(
            line_of(f"{column}{row}", formula=f"SUM({self.moved(summed, row)})")
            for column, summed in self.columns
        )

    def moved(self, column, row):
        return f"{column}$1:{column}{row}"


class Leaving(OneMaster):
    """The same, where what is summed leaves the worksheet from the second row on."""

    master = "K$1:K1048576"

    def moved(self, column, row):
        return f"{column}$1:{column}1048576" if row == 1 else "#REF!"


def number(value):
    """A whole number as the program prints it."""
    return f"n:{value}"


class Values:
    """Numbers, booleans, inline strings, and shared strings in a third of the cells."""

    def __init__(self):
        strings = [start("sst", ' count="20000" uniqueCount="20000"')]
        for place in range(20_000):
            strings += [start("si"), start("t"), ["t", self.string(place)], end("t"), end("si")]
        strings.append(end("sst"))
        self.frame = [*FRAME, ("xl/sharedStrings.xml", strings)]

    def string(self, place):
        return f"string number {place}"

    def row_events(self, row):
        place = row * 7919 % 20_000
        yield start("row", f' r="{row}"')
        yield from cell_events(f' r="A{row}"', text_child("v", f"{row}.25"))
        yield from cell_events(f' r="B{row}" t="s"', text_child("v", str(place)))
        yield from cell_events(f' r="C{row}" t="b"', text_child("v", str(row % 2)))
        yield from cell_events(f' r="D{row}" t="n"', text_child("v", str(row)))
        yield from cell_events(f' r="E{row}" t="s"', text_child("v", str(row % 20_000)))
        inline = [start("t"), ["t", f"inline {row}"], end("t")]
        yield from cell_events(f' r="F{row}" t="inlineStr"', ("is", "", inline))
        yield end("row")

    def row_lines(self, row):
        place = row * 7919 % 20_000
        return (
            line_of(f"A{row}", f"n:{row}.25")
            + line_of(f"B{row}", f"s:{self.string(place)}")
            + line_of(f"C{row}", "b:true" if row % 2 else "b:false")
            + line_of(f"D{row}", number(row))
            + line_of(f"E{row}", f"s:{self.string(row % 20_000)}")
            + line_of(f"F{row}", f"s:inline {row}")
        )

    def row_fields(self, row):
        place = row * 7919 % 20_000
        truth = "true" if row % 2 else "false"
        texts = [self.string(row % 20_000), f"inline {row}"]
        return [f"{row}.25", self.string(place), truth, str(row), *texts]


class Styled:
    """Numbers, dates, formulas and shared strings, over 40 cell formats; and another sheet."""

    formats = 40
    colors = [f"{place * 12:02X}{255 - place * 12:02X}80" for place in range(20)]

    def __init__(self):
        strings = [start("sst")]
        for place in range(1000):
            strings += [start("si"), start("t"), ["t", f"kind {place}"], end("t"), end("si")]
        strings.append(end("sst"))
        sheets = [("worksheet", "worksheets/sheet1.xml"), ("worksheet", "worksheets/sheet2.xml")]
        other = [start("worksheet"), start("sheetData")]
        for row in range(1, 1001):
            other += self.row_events(row)
        other += [end("sheetData"), end("worksheet")]
        workbook = [*WORKBOOK[:4], start("sheet", ' name="T" sheetId="2" r:id="rId2"')]
        self.frame = [
            OFFICE,
            ("xl/_rels/workbook.xml.rels", list(relationships(sheets))),
            ("xl/workbook.xml", [*workbook, *WORKBOOK[3:]]),
            ("xl/sharedStrings.xml", strings),
            ("xl/styles.xml", list(self.style_events())),
            ("xl/worksheets/sheet2.xml", other),
        ]

    def style_events(self):
        yield from (start("styleSheet"), start("fonts"), start("font"))
        yield from (start("b"), end("b"), end("font"), end("fonts"), start("fills"))
        for color in self.colors:
            yield from (start("fill"), start("patternFill", ' patternType="solid"'))
            yield from (start("fgColor", f' rgb="FF{color}"'), end("fgColor"))
            yield from (end("patternFill"), end("fill"))
        yield from (end("fills"), start("cellXfs"))
        for place in range(self.formats):
            number_format = 14 if self.is_date(place) else 0
            own = f' numFmtId="{number_format}" fontId="0" fillId="{place % len(self.colors)}"'
            yield from (start("xf", own), end("xf"))
        yield from (end("cellXfs"), end("styleSheet"))

    def is_date(self, place):
        return place % 4 == 0

    def place_of(self, row, column):
        """The cell format of a cell, which is never number 0."""
        return 1 + (row * 4 + column) % (self.formats - 1)

    def row_events(self, row):
        yield start("row", f' r="{row}"')
        for column, letter in enumerate("ABCD"):
            own = f' r="{letter}{row}" s="{self.place_of(row, column)}"'
            if letter == "B":
                yield from cell_events(own + ' t="s"', text_child("v", str(row % 1000)))
            elif letter == "C":
                formula = text_child("f", f"A{row}*2")
                yield from cell_events(own, formula, text_child("v", str(row * 2)))
            else:
                yield from cell_events(own, text_child("v", f"{row}.25"))
        yield end("row")

    def row_lines(self, row):
        lines = []
        for column, letter in enumerate("ABCD"):
            place = self.place_of(row, column)
            written = str(row * 2) if letter == "C" else f"{row}.25"
            value = f"t:{written} date 1900" if self.is_date(place) else f"n:{written}"
            if letter == "B":
                value = f"s:kind {row % 1000}"
            formula = f"A{row}*2" if letter == "C" else None
            fill = "#" + self.colors[place % len(self.colors)]
            lines.append(line_of(f"{letter}{row}", value, formula, fill))
        return "".join(lines)


class Fills(Styled):
    """Styled positions alone, each in another style than those beside it, written from right to
    left in each row."""

    letters = "ABCDEFGHIJKLMNOP"

    def __init__(self):
        self.frame = [*FRAME, ("xl/styles.xml", list(self.style_events()))]

    def place_of(self, row, column):
        return 1 + (row * 7 + column * 3) % (self.formats - 1)

    def row_events(self, row):
        yield start("row", f' r="{row}"')
        for column, letter in reversed(list(enumerate(self.letters))):
            yield from cell_events(f' r="{letter}{row}" s="{self.place_of(row, column)}"')
        yield end("row")

    def row_lines(self, row):
        fills = (
            self.colors[self.place_of(row, column) % len(self.colors)]
            for column in range(len(self.letters))
        )
        return "".join(
            line_of(f"{letter}{row}", fill=f"#{fill}") for letter, fill in zip(self.letters, fills)
        )


MIXES = {
    "texts": Texts,
    "shared": Shared,
    "one_master": OneMaster,
    "leaving": Leaving,
    "values": Values,
    "styled": Styled,
    "fills": Fills,
}


# What a command prints of a row of a mix; `csv` takes those of values alone, and what `upgrade`
# prints isn't told by rows.
PRINTED = {
    "cells": lambda mix, row: mix.row_lines(row),
    "csv": lambda mix, row: record_of(mix.row_fields(row)),
    "upgrade": lambda mix, row: "",
    "cells --json": lambda mix, row: "".join(map(object_of, mix.row_lines(row).splitlines())),
    "rows --json": lambda mix, row: array_of(mix.row_lines(row).splitlines()),
}


def write_package(path, limit, mix, printed, version=1):
    """Writes a package with as many rows as fit into the limit. Answers its size, its rows and what
    is printed of them."""
    form = FORMS[version]
    frame = "".join(
        f"{spelled({'name': name, 'events': list(form(events))})}," for name, events in mix.frame
    )
    front = f'{{"version":{version},"parts":[{frame}{{"name":"xl/worksheets/sheet1.xml","events":['
    head = ",".join(map(spelled, [start("worksheet"), start("sheetData")]))
    tail = "," + ",".join(map(spelled, [end("sheetData"), end("worksheet")])) + "]}]}"
    listing, rows = Listing(), 0
    size = len(front) + len(head) + len(tail)
    with open(path, "w", encoding="ascii", newline="") as out:
        out.write(front + head)
        while True:
            text = "".join("," + spelled(event) for event in form(mix.row_events(rows + 1)))
            if size + len(text) > limit:
                break
            rows += 1
            size += len(text)
            out.write(text)
            listing.add(printed(mix, rows).encode())
        out.write(tail)
    if rows == 0:
        sys.exit("cells.py: not one row fits into this size")
    assert os.path.getsize(path) == size
    return size, rows, listing


class Size(Measured):
    def __init__(self, folder, program, limit, mix, command, version):
        word, *options = command.split(" ")
        words = [program, word] if command == "upgrade" else [program, word, "S", *options]
        super().__init__(folder, limit, words)
        written = write_package(self.package, limit, mix, PRINTED[command], version)
        self.size, self.rows, self.listing = written
        if command == "upgrade":
            self.listing = Listing()
            self.listing.add(upgraded(self.package))


# The runs that end with a stage: what the stage gives, whether the text is a package, the sheet,
# and the status.
STAGES = (
    ("the JSON value", False, "S", 5),
    ("the package, and its opening", True, "X", 6),
    ("the lines", True, "S", 0),
)


def stage_rows(size, repeats):
    """A row for each stage: the seconds and the memory up to its end, and what it adds."""
    other = f"{size.package}.other"
    shutil.copyfile(size.package, other)
    with open(other, "r+b") as text:
        # The same JSON with another version is no package.
        text.write(b'{"version":3')
    runs = {name: [] for name, *_ in STAGES}
    for _ in range(repeats):
        for name, is_package, sheet, status in STAGES:
            words, text = [*size.words[:2], sheet], size.package if is_package else other
            run = measured(words, text, size.lines, os.devnull, (status,))
            runs[name].append(run)
        check(size.lines, size.listing)
    best = {name: each(min, of) for name, of in runs.items()}
    before = 0
    for name, run in best.items():
        yield [name, f"{run.processor:.2f}", f"{run.processor - before:.2f}", mib(run.peak)]
        before = run.processor
    value, lines = best[STAGES[0][0]], best[STAGES[-1][0]]
    speed = size.listing.lines / (lines.processor - value.processor)
    yield ["cells a second behind the value", "", f"{speed:,.0f}", ""]


STAGE_HEAD = ["run to the end of", "seconds", "more", "peak MiB"]


def main():
    parser = argparse.ArgumentParser(description=__doc__)
    parser.add_argument(
        "--bytes",
        type=int,
        default=LIMIT - 1,
        help="the size that the larger text may have (default: just under the program's limit)",
    )
    parser.add_argument("--mix", choices=MIXES, default="texts", help="what the cells hold")
    parser.add_argument(
        "--version",
        type=int,
        choices=FORMS,
        default=1,
        help="the version of the texts (default: 1)",
    )
    parser.add_argument(
        "--command", choices=PRINTED, default="cells", help="what prints them (default: cells)"
    )
    parser.add_argument(
        "--stages",
        action="store_true",
        help="measure what each stage adds on the larger text, and nothing beside it",
    )
    add_repeats(parser, 5)
    add_program(parser)
    asked = parser.parse_args()
    if not 1 <= asked.bytes <= LIMIT or asked.repeats < 1:
        parser.error(f"--bytes takes 1 to {LIMIT}, and --repeats at least 1")
    program = program_of(asked)
    with tempfile.TemporaryDirectory() as folder:
        mix = MIXES[asked.mix]()
        if asked.command in ("csv", "rows --json") and not hasattr(mix, "row_fields"):
            parser.error("rows are measured of values and texts")
        if asked.command not in ("cells", "csv") and asked.stages:
            parser.error("the stages are those of cells and csv")
        if asked.stages:
            whole = Size(folder, program, asked.bytes, mix, asked.command, asked.version)
            table(STAGE_HEAD, list(stage_rows(whole, asked.repeats)))
            return
        half = Size(folder, program, asked.bytes // 2, mix, asked.command, asked.version)
        whole = Size(folder, program, asked.bytes, mix, asked.command, asked.version)
        for _ in range(asked.repeats):
            half.run()
            whole.run()
        rows = [half.row("half"), whole.row("whole")]
        table(head_of("rows"), [*rows, growth_of(half, whole)])


if __name__ == "__main__":
    main()
