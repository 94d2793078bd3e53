#!/usr/bin/env python3
"""Makes the workbooks of this folder. It needs openpyxl 3.0, XlsxWriter and LibreOffice, as
Debian's packages python3-openpyxl, python3-xlsxwriter and libreoffice-calc-nogui, and is no part of
the tests."""

import datetime
import pathlib
import subprocess
import sys
import tempfile
import zipfile

import openpyxl
import xlsxwriter
from openpyxl.styles import Font, PatternFill
from openpyxl.styles.colors import Color
from openpyxl.writer.theme import theme_xml

HERE = pathlib.Path(__file__).resolve().parent
sys.path.insert(0, str(HERE.parent / "tools"))

from support.fixtures import MIXED, MIXED_LINES, archive, relationships, with_sheets

MADE = datetime.datetime(2024, 1, 2, 3, 4, 5)


def written(name, **options):
    """A workbook of XlsxWriter, which writes its file when it is closed."""
    book = xlsxwriter.Workbook(str(HERE / name), options)
    book.set_properties({"title": name, "author": "Ann & Bo", "created": MADE})
    return book


def values_and_formulas():
    """Values of every kind but dates, and formulas, in a workbook without styles."""
    (HERE / "values_and_formulas.xlsx").write_bytes(archive(MIXED))
    (HERE / "values_and_formulas.lines").write_bytes(MIXED_LINES)


def shared_formulas():
    """Groups of shared formulas: down a column, over rows and columns, along a row, of whole rows
    and columns, past the last row, and of one cell. One formula more is not shared."""
    book = openpyxl.Workbook()
    sheet = book.active
    sheet.title = "Sales"
    for row in range(1, 6):
        sheet.cell(row, 1, row * 10)
        sheet.cell(row, 2, row * row)
        sheet.cell(row, 3, f"=SUM(A$1:A{row})*$B{row}")
        for column in (4, 5):
            sheet.cell(row, column, f"='Sales'!A{row}&\"A1\"")
    shared(sheet, "C1:C5", 0)
    shared(sheet, "D1:E5", 1)
    sheet["G1"] = "=LOG10(A1)"
    # A master alone has its text. The others tell that they have a formula.
    for area, formula in (
        ("A7:D7", "=A1+$B1+C$1+LOG10(A1)"),
        ("A8:A10", "=SUM(B:C)+SUM(1:2)+SUM($1:2)+'Q1'!A1"),
        ("C9:C10", "=A1+B1048576"),
        ("E7:E7", "=A1*2"),
    ):
        for cell in (cell for row in sheet[area] for cell in row):
            cell.value = formula
        shared(sheet, area, len(sheet.formula_attributes))
    book.create_sheet("Q1")
    book.save(HERE / "shared_formulas.xlsx")


def shared(sheet, area, index):
    """Has the area's first cell keep its formula for the others."""
    for cell in (cell for row in sheet[area] for cell in row):
        sheet.formula_attributes[cell.coordinate] = {"t": "shared", "si": str(index)}
    sheet.formula_attributes[area.split(":")[0]]["ref"] = area


def dates():
    """Dates, times and durations, counted from 1900 and from 1904."""
    for epoch in (1900, 1904):
        book = written(f"dates_{epoch}.xlsx", date_1904=epoch == 1904)
        sheet = book.add_worksheet("Dates")
        # Codes, and the numbers of formats without one.
        codes = ("yyyy-mm-dd", "h:mm:ss", "[h]:mm", '"day" 0', "d mmm yy h:mm", 14, 22, 46, 9)
        for row, code in enumerate(codes):
            kind = book.add_format({"num_format": code})
            sheet.write_datetime(row, 0, MADE, kind)
            sheet.write_number(row, 1, 45_292.25, kind)
        sheet.write_number(len(codes), 0, 45_292.25)
        book.close()


def rich_text():
    """Strings with runs, white space at their ends, line ends, and what is escaped."""
    book = written("rich_text.xlsx")
    sheet = book.add_worksheet("Goods & prices")
    bold = book.add_format({"bold": True, "font_color": "red"})
    sheet.write_rich_string("A1", " plain ", bold, "bold ", "<end> ")
    for row, text in enumerate((" a ", "b\nc", "_x000D_", "\u00e9\U0001f330", 'a&b<c>"d"', ""), 1):
        sheet.write_string(row, 0, text, bold if text == "" else None)
    book.close()


def themes_and_tints():
    """Fills by theme and tint, by palette and by colour, over a theme of its own, and a hidden
    sheet."""
    book = openpyxl.Workbook()
    book.loaded_theme = theme_xml.replace("1F497D", "404040").replace("4F81BD", "336699")
    sheet = book.active
    sheet.title = "Fills"
    tints = (0.0, 0.3999755851924192, -0.249977111117893)
    colors = [Color(theme=theme, tint=tint) for theme in range(10) for tint in tints]
    colors += [Color(indexed=index) for index in (10, 22, 64)] + [Color(rgb="80FF9900")]
    for row, color in enumerate(colors, 1):
        sheet.cell(row, 1, row).fill = PatternFill("solid", fgColor=color)
        sheet.cell(row, 2).font = Font(bold=True)
    book.create_sheet("Hidden").sheet_state = "hidden"
    book.save(HERE / "themes_and_tints.xlsx")


def chart_sheet():
    """A chart sheet between two worksheets, a chart on one of them, and defined names."""
    book = written("chart_sheet.xlsx")
    sheet, chart_sheet = book.add_worksheet("Data"), book.add_chartsheet("Chart")
    other = book.add_worksheet("More")
    sheet.write_column("A1", [3, 1, 2])
    for place in (chart_sheet, other):
        chart = book.add_chart({"type": "line"})
        chart.add_series({"values": "=Data!$A$1:$A$3"})
        place.set_chart(chart) if place is chart_sheet else place.insert_chart("B2", chart)
    book.define_name("Total", "=SUM(Data!$A$1:$A$3)")
    book.define_name("More!Local", "=1&2")
    book.close()


def inline_strings():
    """Strings in the cells themselves."""
    book = written("inline_strings.xlsx", constant_memory=True)
    sheet = book.add_worksheet("S")
    for row, text in enumerate(("nut", " bolt ", "a&b")):
        sheet.write_row(row, 0, [text, row, row % 2 == 0])
    book.close()


def replaced(name, part, old, new):
    """Writes a workbook again with another text in one of its parts."""
    with zipfile.ZipFile(HERE / name) as made:
        parts = {entry.filename: made.read(entry) for entry in made.infolist()}
    before, found, behind = parts[part].partition(old)
    assert found and old not in behind
    (HERE / name).write_bytes(archive({**parts, part: before + new + behind}))


def tables_links_and_merges():
    """A table, links out of the workbook, inside it and to nowhere, one of them on an area, merged
    cells on two sheets, and properties of its own."""
    name = "tables_links_and_merges.xlsx"
    book = written(name)
    book.set_custom_property("Owner", "Ann & Bo")
    book.set_custom_property("Checked", True)
    sheet, other = book.add_worksheet("S"), book.add_worksheet("T")
    names = [{"header": "Name", "total_string": "Total"}, {"header": "Qty"}]
    data = [["nut", 3], ["bolt", 2]]
    sheet.add_table("A1:B4", {"name": "Goods", "columns": names, "data": data, "total_row": True})
    sheet.write_url("A6", "https://example.com/?a=1&b=2", string="link", tip="a&b")
    sheet.write_url("B6", "internal:S!A1")
    sheet.write_url("A7", "internal:Gone!B2", string="lost", tip=" back\\slash ")
    sheet.merge_range("A8:B9", "merged")
    sheet.write_url("A8", "https://example.com/#part", string="merged")
    other.merge_range("A1:C1", "header")
    other.merge_range("A2:A3", "side")
    book.close()
    # XlsxWriter writes the links of cells alone.
    replaced(name, "xl/worksheets/sheet1.xml", b'hyperlink ref="A8"', b'hyperlink ref="A8:B9"')


def tables():
    """Three tables on two sheets: one with totals and a line break in the name of a column, one
    without a header row, and one of a single row."""
    name = "tables.xlsx"
    book = written(name)
    sheet, other = book.add_worksheet("Goods & prices"), book.add_worksheet("Notes")
    names = [{"header": "Line\nbreak", "total_string": "Total"}, {"header": "Qty"}]
    data = [["nut", 3], ["bolt", 2.5]]
    sheet.add_table("A1:B4", {"name": "Sales", "columns": names, "data": data, "total_row": True})
    sheet.add_table("D3:E4", {"name": "Rates", "header_row": False, "data": [[1, 2], [3, 4]]})
    names = [{"header": "Key"}, {"header": "Text"}]
    other.add_table("B2:C3", {"name": "Words", "columns": names, "data": [[True, "a\tb"]]})
    book.close()
    # A spreadsheet program escapes a line break there as in cells; XlsxWriter refers to it.
    replaced(name, "xl/tables/table1.xml", b"Line&#xA;break", b"Line_x000a_break")


# The parts of a pivot table on the second of two sheets, as spreadsheet programs write them: its
# cache has texts, numbers, a date, booleans and a blank.
PIVOT = {
    **with_sheets(
        ('name="Data" sheetId="1"', "worksheet"), ('name="Report" sheetId="2"', "worksheet")
    ),
    "xl/worksheets/sheet1.xml": "<worksheet><sheetData/></worksheet>",
    "xl/worksheets/sheet2.xml": "<worksheet><sheetData/></worksheet>",
    "xl/worksheets/_rels/sheet2.xml.rels": relationships(
        ("pivotTable", "../pivotTables/pivotTable1.xml")
    ),
    "xl/pivotTables/pivotTable1.xml": (
        '<pivotTableDefinition name="Sold &amp; paid" cacheId="1" dataCaption="Values">'
        '<location ref="A3:B6" firstHeaderRow="1" firstDataRow="1" firstDataCol="1"/>'
        '<pivotFields count="4"><pivotField axis="axisRow"/><pivotField/><pivotField/>'
        "<pivotField/></pivotFields></pivotTableDefinition>"
    ),
    "xl/pivotTables/_rels/pivotTable1.xml.rels": relationships(
        ("pivotCacheDefinition", "../pivotCache/pivotCacheDefinition1.xml")
    ),
    "xl/pivotCache/_rels/pivotCacheDefinition1.xml.rels": relationships(
        ("pivotCacheRecords", "pivotCacheRecords1.xml")
    ),
    "xl/pivotCache/pivotCacheDefinition1.xml": (
        '<pivotCacheDefinition r:id="rId1" recordCount="3"><cacheSource type="worksheet">'
        '<worksheetSource ref="A1:D4" sheet="Data"/></cacheSource><cacheFields count="4">'
        '<cacheField name="Item"><sharedItems count="2"><s v="nut"/><s v="bolt"/></sharedItems>'
        '</cacheField><cacheField name="Price"><sharedItems containsNumber="1"/></cacheField>'
        '<cacheField name="Sold on"><sharedItems count="2"><d v="2024-01-02T00:00:00"/><m/>'
        '</sharedItems></cacheField><cacheField name="Paid"><sharedItems/></cacheField>'
        "</cacheFields></pivotCacheDefinition>"
    ),
    "xl/pivotCache/pivotCacheRecords1.xml": (
        '<pivotCacheRecords count="3"><r><x v="1"/><n v="3"/><x v="0"/><b v="1"/></r>'
        '<r><x v="0"/><n v="2.50"/><x v="1"/><b v="0"/></r>'
        '<r><x v="0"/><m/><x v="0"/><e v="#N/A"/></r></pivotCacheRecords>'
    ),
}


def pivot_table():
    """A pivot table, with its cache, and no cell."""
    (HERE / "pivot_table.xlsx").write_bytes(archive(PIVOT))


# The parts of comments on a sheet, as spreadsheet programs write them: of two authors, with a name
# in front in bold, a line end, blanks at the ends and pronunciation.
COMMENTS = {
    **with_sheets(('name="Goods" sheetId="1"', "worksheet")),
    "xl/worksheets/sheet1.xml": (
        '<worksheet><sheetData><row r="2"><c r="B2"><v>3</v></c></row></sheetData>'
        '<legacyDrawing r:id="rId2"/></worksheet>'
    ),
    "xl/worksheets/_rels/sheet1.xml.rels": relationships(
        ("comments", "../comments1.xml"), ("vmlDrawing", "../drawings/vmlDrawing1.vml")
    ),
    "xl/comments1.xml": (
        "<comments><authors><author>Ann &amp; Bo</author><author/></authors><commentList>"
        '<comment ref="B2" authorId="0" shapeId="0"><text><r><rPr><b/><sz val="9"/></rPr>'
        '<t>Ann:</t></r><r><rPr><sz val="9"/></rPr><t xml:space="preserve">\ncount again </t></r>'
        '</text></comment><comment ref="C4" authorId="1"><text><t>\u6771\u4eac</t>'
        '<rPh sb="0" eb="2"><t>\u30c8\u30a6</t></rPh></text></comment>'
        '<comment ref="A7" authorId="2"><text/></comment></commentList></comments>'
    ),
}


def comments():
    """Comments of two authors, and one of none."""
    (HERE / "comments.xlsx").write_bytes(archive(COMMENTS))


# Formulas over two sheets: of a defined name, a table, two sheets at once, another file and a
# computed reference, an array over two cells, and two that need each other.
GRAPH = {
    **with_sheets(
        ('name="Plan" sheetId="1"', "worksheet"),
        ('name="It\'s" sheetId="2"', "worksheet"),
        names='<definedName name="Rate">\'It\'\'s\'!$A$1</definedName>',
    ),
    "xl/worksheets/sheet1.xml": (
        '<worksheet><sheetData><row r="1"><c r="A1"><f>Rate*2</f><v>3</v></c>'
        '<c r="B1"><f>B2</f><v>0</v></c><c r="C1"><f>INDIRECT("A1")+ROWS(C$1:C1)</f><v>4</v></c>'
        '<c r="D1"><f t="array" ref="D1:D2">{1;2}</f><v>1</v></c>'
        '<c r="E1"><f>D2+[1]Old!A1</f><v>2</v></c></row>'
        """<row r="2"><c r="A2"><f>SUM('It''s'!A1:A2)+A1</f><v>6.5</v></c>"""
        '<c r="B2"><f>B1+A1</f><v>0</v></c><c r="D2"><v>2</v></c></row>'
        '<row r="3"><c r="A3"><f>SUM(sums[qty])</f><v>7</v></c></row>'
        """<row r="4"><c r="A4"><f>SUM('Plan:It''s'!E1)</f><v>2</v></c></row>"""
        "</sheetData></worksheet>"
    ),
    "xl/worksheets/sheet2.xml": (
        '<worksheet><sheetData><row r="1"><c r="A1"><v>1.5</v></c>'
        '<c r="C1" t="str"><v>Qty</v></c></row><row r="2"><c r="A2"><f>Plan!E1</f><v>2</v></c>'
        '<c r="C2"><v>3</v></c></row><row r="3"><c r="C3"><v>4</v></c></row></sheetData>'
        '<tableParts count="1"><tablePart r:id="rId1"/></tableParts></worksheet>'
    ),
    "xl/worksheets/_rels/sheet2.xml.rels": relationships(("table", "../tables/table1.xml")),
    "xl/tables/table1.xml": (
        '<table id="1" name="Sums" displayName="Sums" ref="C1:C3"><tableColumns count="1">'
        '<tableColumn id="1" name="Qty"/></tableColumns></table>'
    ),
}


def graph():
    """Formulas that name cells of two sheets."""
    (HERE / "graph.xlsx").write_bytes(archive(GRAPH))


# Comma-separated values, as LibreOffice opens them.
VALUES = '''\
name,amount,date
nut,10.5,2024-01-02
"bolt, long",4,2024-02-03
"=A2&""x""",=SUM(B2:B3),=1/0
=TRUE(),=NA(),=CHAR(9)
'''


def libreoffice():
    """Values, dates, formulas and errors, as LibreOffice writes them."""
    with tempfile.TemporaryDirectory() as folder:
        values = pathlib.Path(folder) / "libreoffice.csv"
        values.write_text(VALUES)
        words = ["soffice", "--headless", "--convert-to", "xlsx", "--outdir", HERE, values]
        subprocess.run(words, check=True)


def main():
    values_and_formulas()
    shared_formulas()
    dates()
    rich_text()
    themes_and_tints()
    chart_sheet()
    inline_strings()
    tables_links_and_merges()
    tables()
    pivot_table()
    comments()
    graph()
    libreoffice()


if __name__ == "__main__":
    main()
