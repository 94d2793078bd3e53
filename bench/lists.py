#!/usr/bin/env python3
"""Measures `merges S`, `links S`, `comments S`, `widths S`, `props`, `tables`, `table T1`, `pivots` and
`pivot S P1` of xlsx_tool beside json.load of the same text, and prints a table for each list
(docs/PERFORMANCE.md).

`bench/lists.py` writes a package for each list, at its whole size and at half of it, and runs on
each the program with the list's words and Python's `json.load`, as bench/cells.py does:

- `merges`: 250,000 areas of merged cells;
- `links`: 65,530 links over as many relationships, which stand in the other order, each link with a
  displayed text and a tooltip;
- `comments`: 100,000 comments of two runs each, by ten authors;
- `widths`: 250,000 hidden rows;
- `properties`: 200,000 names that users gave, in no order, each with a text;
- `merges_behind_cells`: ten areas of merged cells behind 100,000 cells;
- `table`: the values of a table of 100,000 rows of three numbers, in a sheet of twice as many rows;
- `tables`: 2,000 tables of 20 columns on one sheet;
- `pivot`: the 60,000 records of a cache over ten fields, of which five have shared items;
- `tables_of_sheets`, `pivots_of_sheets`: 4,000 sheets with a table and a pivot table each, of which
  the tables and the pivot tables are listed;
- `sheets_of_one_part`: the tables of 4,000 sheets of one part, which has as many relationships,
  none of them to a table.
"""

import argparse
import os
import tempfile

from cells import FRAME, cell_events, text_child
from measure import (
    OFFICE,
    TYPES,
    Listing,
    Measured,
    add_program,
    add_repeats,
    end,
    growth_of,
    head_of,
    program_of,
    relationships,
    start,
    table,
    write_part,
)


def element(name, attributes):
    yield start(name, attributes)
    yield end(name)


def sheet_part(*pieces):
    """The part of the sheet, with these pieces in it."""
    yield start("worksheet")
    for events in pieces:
        yield from events
    yield end("worksheet")


def merged_cells(count):
    yield start("mergeCells", f' count="{count}"')
    for row in range(1, count + 1):
        yield from element("mergeCell", f' ref="A{row}:C{row}"')
    yield end("mergeCells")


def merge_lines(count):
    for row in range(1, count + 1):
        yield f"A{row}:C{row}\n"


class Merges:
    """Areas of merged cells."""

    words, count = ["merges", "S"], 250_000

    def parts(self, count):
        yield "xl/worksheets/sheet1.xml", sheet_part(merged_cells(count))

    def lines(self, count):
        return merge_lines(count)


class MergesBehindCells:
    """Ten areas of merged cells behind so many cells."""

    words, count, areas = ["merges", "S"], 100_000, 10

    def cells(self, count):
        yield start("sheetData")
        for row in range(1, count // 10 + 1):
            yield start("row", f' r="{row}"')
            for column in "ABCDEFGHIJ":
                yield from cell_events(f' r="{column}{row}"', text_child("v", f"{row}.25"))
            yield end("row")
        yield end("sheetData")

    def parts(self, count):
        events = sheet_part(self.cells(count), merged_cells(self.areas))
        yield "xl/worksheets/sheet1.xml", events

    def lines(self, count):
        return merge_lines(self.areas)


class Links:
    """Links, over as many relationships, in the other order."""

    words, count = ["links", "S"], 65_530

    def target(self, number):
        return f"https://example.com/item?number={number}"

    def links(self, count):
        yield start("hyperlinks")
        for row in range(1, count + 1):
            texts = f' tooltip="item {row} &amp; more" display="item {row}"'
            yield from element("hyperlink", f' ref="A{row}" r:id="rId{row}"{texts}')
        yield end("hyperlinks")

    def relationships(self, count):
        yield start("Relationships")
        for number in range(count, 0, -1):
            own = f' Id="rId{number}" Type="{TYPES}hyperlink" Target="{self.target(number)}"'
            yield from element("Relationship", f'{own} TargetMode="External"')
        yield end("Relationships")

    def parts(self, count):
        yield "xl/worksheets/_rels/sheet1.xml.rels", self.relationships(count)
        yield "xl/worksheets/sheet1.xml", sheet_part(self.links(count))

    def lines(self, count):
        for row in range(1, count + 1):
            yield f"A{row}:A{row}\t={self.target(row)}\t-\t=item {row}\t=item {row} & more\n"


class Widths:
    """Hidden rows."""

    words, count = ["widths", "S"], 250_000

    def rows(self, count):
        for row in range(1, count + 1):
            yield from element("row", f' r="{row}" hidden="1"')

    def parts(self, count):
        events = sheet_part([start("sheetData")], self.rows(count), [end("sheetData")])
        yield "xl/worksheets/sheet1.xml", events

    def lines(self, count):
        for row in range(1, count + 1):
            yield f"A{row}:XFD{row}\t-\thidden\n"


class Comments:
    """Comments of two runs each, by ten authors."""

    words, count = ["comments", "S"], 100_000

    def comments(self, count):
        yield from (start("comments"), start("authors"))
        for number in range(10):
            yield from (start("author"), ["t", f"Author {number}"], end("author"))
        yield from (end("authors"), start("commentList"))
        for row in range(1, count + 1):
            yield from (start("comment", f' ref="A{row}" authorId="{row % 10}"'), start("text"))
            for text in ("note:", f"item {row}"):
                yield from (start("r"), start("t"), ["t", text], end("t"), end("r"))
            yield from (end("text"), end("comment"))
        yield from (end("commentList"), end("comments"))

    def parts(self, count):
        related = relationships([("comments", "../comments1.xml")])
        yield "xl/worksheets/_rels/sheet1.xml.rels", related
        yield "xl/comments1.xml", self.comments(count)
        yield "xl/worksheets/sheet1.xml", sheet_part()

    def lines(self, count):
        for row in range(1, count + 1):
            yield f"A{row}\t=Author {row % 10}\t=note:item {row}\n"


class Properties:
    """Names that users gave, in no order."""

    words, count = ["props"], 200_000

    def name(self, place, count):
        # 7919 is a prime, so no two of fewer places have one name.
        return f"Property {place * 7919 % count:06}"

    def properties(self, count):
        yield start("Properties")
        for place in range(count):
            own = f' fmtid="{{D5CDD505}}" pid="{place + 2}" name="{self.name(place, count)}"'
            yield from (start("property", own), start("vt:lpwstr"))
            yield from (["t", f"text of {self.name(place, count)}"], end("vt:lpwstr"))
            yield end("property")
        yield end("Properties")

    def parts(self, count):
        yield "docProps/custom.xml", self.properties(count)

    def lines(self, count):
        for place in range(count):
            yield f"custom:Property {place:06}\t=text of Property {place:06}\n"


def rows_of(count):
    """Rows of three numbers each."""
    yield start("sheetData")
    for row in range(1, count + 1):
        yield start("row", f' r="{row}"')
        for column in "ABC":
            yield from cell_events(f' r="{column}{row}"', text_child("v", f"{row}.25"))
        yield end("row")
    yield end("sheetData")


def table_part(number, area, columns):
    yield start("table", f' id="{number}" displayName="T{number}" ref="{area}"')
    yield start("tableColumns", f' count="{len(columns)}"')
    for place, column in enumerate(columns, 1):
        yield from element("tableColumn", f' id="{place}" name="{column}"')
    yield end("tableColumns")
    yield end("table")


def part_of_table(number):
    return f"xl/tables/table{number}.xml"


def pivot_parts(number):
    """The part of a pivot table, its relationships, and those of its definitions."""
    path = f"pivotTable{number}.xml"
    yield f"xl/pivotTables/{path}", element("pivotTableDefinition", f' name="P{number}"')
    cache = f"pivotCacheDefinition{number}.xml"
    related = [("pivotCacheDefinition", f"../pivotCache/{cache}")]
    yield f"xl/pivotTables/_rels/{path}.rels", relationships(related)
    related = [("pivotCacheRecords", f"pivotCacheRecords{number}.xml")]
    yield f"xl/pivotCache/_rels/{cache}.rels", relationships(related)


class TableData:
    """The values of a table of so many rows, in a sheet of twice as many."""

    words, count = ["table", "T1"], 100_000

    def parts(self, count):
        related = relationships([("table", "../tables/table1.xml")])
        yield "xl/worksheets/_rels/sheet1.xml.rels", related
        yield part_of_table(1), table_part(1, f"A1:C{count + 1}", ("One", "Two", "Three"))
        yield "xl/worksheets/sheet1.xml", sheet_part(rows_of(2 * count))

    def lines(self, count):
        for row in range(2, count + 2):
            for column in "ABC":
                yield f"{column}{row}\tn:{row}.25\n"


class Tables:
    """Tables of 20 columns on one sheet."""

    words, count = ["tables"], 2_000
    columns = [f"Column &amp; {place}" for place in range(1, 21)]

    def parts(self, count):
        targets = [("table", f"../tables/table{number}.xml") for number in range(1, count + 1)]
        yield "xl/worksheets/_rels/sheet1.xml.rels", relationships(targets)
        for number in range(1, count + 1):
            yield part_of_table(number), table_part(number, f"A1:T{number + 1}", self.columns)
        yield "xl/worksheets/sheet1.xml", sheet_part(rows_of(1))

    def lines(self, count):
        names = "".join(f"\tColumn & {place}" for place in range(1, 21))
        for number in range(1, count + 1):
            yield f"T{number}\tS\tA2:T{number + 1}{names}\n"


class PivotRecords:
    """The records of a cache over ten fields, of which five have shared items."""

    words, count, items = ["pivot", "S", "P1"], 60_000, 20

    def fields(self):
        yield start("pivotCacheDefinition")
        yield start("cacheFields", ' count="10"')
        for place in range(10):
            yield start("cacheField", f' name="Field {place}"')
            yield start("sharedItems")
            for number in range(self.items if place < 5 else 0):
                yield from element("s", f' v="item {number} of {place}"')
            yield end("sharedItems")
            yield end("cacheField")
        yield end("cacheFields")
        yield end("pivotCacheDefinition")

    def records(self, count):
        yield start("pivotCacheRecords", f' count="{count}"')
        for row in range(count):
            yield start("r")
            for place in range(5):
                yield from element("x", f' v="{(row + place) % self.items}"')
            for place in range(4):
                yield from element("n", f' v="{row * 10 + place}.25"')
            yield from element("s", f' v="text {row}"')
            yield end("r")
        yield end("pivotCacheRecords")

    def parts(self, count):
        related = relationships([("pivotTable", "../pivotTables/pivotTable1.xml")])
        yield "xl/worksheets/_rels/sheet1.xml.rels", related
        yield from pivot_parts(1)
        yield "xl/pivotCache/pivotCacheDefinition1.xml", self.fields()
        yield "xl/pivotCache/pivotCacheRecords1.xml", self.records(count)

    def lines(self, count):
        yield "\t".join(f"s:Field {place}" for place in range(10)) + "\n"
        for row in range(count):
            values = [f"s:item {(row + place) % self.items} of {place}" for place in range(5)]
            values += [f"n:{row * 10 + place}.25" for place in range(4)]
            yield "\t".join([*values, f"s:text {row}"]) + "\n"


class TablesOfSheets:
    """Sheets with a table and a pivot table each: the tables."""

    words, count = ["tables"], 4_000

    def frame(self, count):
        numbers = range(1, count + 1)
        sheets = [("worksheet", f"worksheets/sheet{number}.xml") for number in numbers]
        yield OFFICE
        yield "xl/_rels/workbook.xml.rels", relationships(sheets)
        yield "xl/workbook.xml", self.workbook(count)

    def related(self, number):
        """The Id of the relationship to the part of a sheet."""
        return f"rId{number}"

    def workbook(self, count):
        yield start("workbook")
        yield start("sheets")
        for number in range(1, count + 1):
            own = f' name="Sheet {number}" sheetId="{number}" r:id="{self.related(number)}"'
            yield from element("sheet", own)
        yield end("sheets")
        yield end("workbook")

    def parts(self, count):
        for number in range(1, count + 1):
            related = [
                ("table", f"../tables/table{number}.xml"),
                ("pivotTable", f"../pivotTables/pivotTable{number}.xml"),
            ]
            yield f"xl/worksheets/_rels/sheet{number}.xml.rels", relationships(related)
            yield f"xl/worksheets/sheet{number}.xml", sheet_part(rows_of(1))
            yield part_of_table(number), table_part(number, "A1:C9", ("One", "Two", "Three"))
            yield from pivot_parts(number)

    def lines(self, count):
        for number in range(1, count + 1):
            yield f"T{number}\tSheet {number}\tA2:C9\tOne\tTwo\tThree\n"


class SheetsOfOnePart(TablesOfSheets):
    """Sheets of one part, which has as many relationships, none of them to a table."""

    def frame(self, count):
        yield OFFICE
        target = [("worksheet", "worksheets/sheet1.xml")]
        yield "xl/_rels/workbook.xml.rels", relationships(target)
        yield "xl/workbook.xml", self.workbook(count)

    def related(self, number):
        return "rId1"

    def parts(self, count):
        links = relationships(("hyperlink", "t") for _ in range(count))
        yield "xl/worksheets/_rels/sheet1.xml.rels", links
        yield "xl/worksheets/sheet1.xml", sheet_part(rows_of(1))

    def lines(self, count):
        return ()


class PivotsOfSheets(TablesOfSheets):
    """Sheets with a table and a pivot table each: the pivot tables."""

    words = ["pivots"]

    def lines(self, count):
        for number in range(1, count + 1):
            yield f"Sheet {number}\tP{number}\n"


LISTS = {
    "merges": Merges,
    "links": Links,
    "comments": Comments,
    "widths": Widths,
    "properties": Properties,
    "merges_behind_cells": MergesBehindCells,
    "table": TableData,
    "tables": Tables,
    "tables_of_sheets": TablesOfSheets,
    "pivots_of_sheets": PivotsOfSheets,
    "sheets_of_one_part": SheetsOfOnePart,
    "pivot": PivotRecords,
}


def frame_of(kind, count):
    """The parts of the workbook before those of its lists."""
    return kind.frame(count) if hasattr(kind, "frame") else FRAME


class Size(Measured):
    def __init__(self, folder, program, name, kind, rows):
        super().__init__(folder, f"{name}-{rows}", [program, *kind.words])
        self.rows, self.listing = rows, Listing()
        with open(self.package, "w", encoding="ascii", newline="") as out:
            out.write('{"version":1,"parts":[')
            for place, part in enumerate([*frame_of(kind, rows), *kind.parts(rows)]):
                out.write("," if place else "")
                write_part(out, *part)
            out.write("]}")
        for line in kind.lines(rows):
            self.listing.add(line.encode())
        self.size = os.path.getsize(self.package)


def main():
    parser = argparse.ArgumentParser(description=__doc__)
    parser.add_argument(
        "--of", type=int, default=1, help="measure this fraction of each list (default: 1, all)"
    )
    parser.add_argument("--list", choices=LISTS, action="append", help="measure this list alone")
    add_repeats(parser, 5)
    add_program(parser)
    asked = parser.parse_args()
    if asked.of < 1 or asked.repeats < 1:
        parser.error("--of and --repeats take at least 1")
    program = program_of(asked)
    with tempfile.TemporaryDirectory() as folder:
        for name in asked.list or LISTS:
            kind = LISTS[name]()
            counts = (kind.count // asked.of // 2, kind.count // asked.of)
            half, whole = (Size(folder, program, name, kind, count) for count in counts)
            for _ in range(asked.repeats):
                half.run()
                whole.run()
            print(f"{name}: {kind.__doc__}")
            rows = [half.row("half"), whole.row("whole")]
            table(head_of("rows"), [*rows, growth_of(half, whole)])
            print()


if __name__ == "__main__":
    main()
