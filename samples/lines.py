#!/usr/bin/env python3
"""Writes the lines of the sample workbooks: what docs/FORMAT.md says of what make.py put into them.
It needs Python alone, and doesn't run the program."""

import csv
import datetime
import decimal
import io
import json
import pathlib
from fractions import Fraction

HERE = pathlib.Path(__file__).resolve().parent
MADE = datetime.datetime(2024, 1, 2, 3, 4, 5)
DAY = datetime.timedelta(days=1)
FIFTEEN = decimal.Context(prec=15, rounding=decimal.ROUND_HALF_UP)
FIRST_DAYS = {1900: datetime.datetime(1899, 12, 30), 1904: datetime.datetime(1904, 1, 1)}

# The colors of the workbook's theme, by the numbers of an attribute `theme`.
THEME = "FFFFFF 000000 EEECE1 404040 336699 C0504D 9BBB59 8064A2 4BACC6 F79646".split()
TINTS = ("0", "0.3999755851924192", "-0.249977111117893")


def line(reference, value=None, formula=None, fill=None):
    fields = (reference, value, formula and "=" + formula, fill)
    return "\t".join("-" if field is None else field for field in fields) + "\n"


KINDS = ["date", "date", "duration", None, "date", "date", "date", "duration", None]


def dates(epoch):
    serial = format((MADE - FIRST_DAYS[epoch]) / DAY, ".16G")
    for row, kind in enumerate(KINDS, 1):
        for column, number in (("A", serial), ("B", "45292.25")):
            value = f"n:{number}" if kind is None else f"t:{number} {kind} {epoch}"
            yield line(f"{column}{row}", value)
    yield line("A10", "n:45292.25")


def hours(time):
    """A time that has passed, in hours, minutes and seconds."""
    minutes, seconds = divmod(int(time.total_seconds()), 60)
    return f"{minutes // 60}:{minutes % 60:02}:{seconds:02}"


def dated_rows(epoch):
    """The rows of the same numbers, dates by their texts and numbers of 15 digits."""
    first = FIRST_DAYS[epoch]
    moments = [MADE, first + 45292.25 * DAY]
    rows = []
    for kind in KINDS:
        if kind is None:
            written = [format((moment - first) / DAY, ".16G") for moment in moments]
            rows.append([FIFTEEN.create_decimal(number) for number in written])
        elif kind == "date":
            rows.append([moment.isoformat() for moment in moments])
        else:
            rows.append([hours(moment - first) for moment in moments])
    return records([*rows, ["45292.25", ""]])


def shown_rows(epoch):
    """The rows of the same numbers as their cells show them."""
    columns = []
    for moment in (MADE, FIRST_DAYS[epoch] + 45292.25 * DAY):
        passed = moment - FIRST_DAYS[epoch]
        number = decimal.Decimal(format(passed / DAY, ".16G"))
        clock = f"{moment.hour}:{moment:%M}"
        columns.append([
            f"{moment:%Y-%m-%d}",
            f"{clock}:{moment:%S}",
            hours(passed).rpartition(":")[0],
            f"day {number:.0f}",
            f"{moment.day} {moment:%b %y} {clock}",
            f"{moment:%m-%d-%y}",
            f"{moment.month}/{moment.day}/{moment:%y} {clock}",
            hours(passed),
            f"{number * 100:.0f}%",
        ])
    return records([*zip(*columns), ["45292.25", ""]])


def rich_text():
    texts = [" plain bold <end> ", " a ", "b\\nc", "_x000D_", "\u00e9\U0001f330", 'a&b<c>"d"', ""]
    for row, text in enumerate(texts, 1):
        yield line(f"A{row}", f"s:{text}")


def inline_strings():
    for row, text in enumerate(("nut", " bolt ", "a&b")):
        yield line(f"A{row + 1}", f"s:{text}")
        yield line(f"B{row + 1}", f"n:{row}")
        yield line(f"C{row + 1}", "b:true" if row % 2 == 0 else "b:false")


def chart_sheet():
    for row, number in enumerate((3, 1, 2), 1):
        yield line(f"A{row}", f"n:{number}")


def sheets():
    """Of each its name, its type and its state."""
    yield "Data\tworksheet\tvisible\n"
    yield "Chart\tchartsheet\tvisible\n"
    yield "More\tworksheet\tvisible\n"


def names():
    """In the order in which XlsxWriter writes them, which is that of their names."""
    yield "Local\t1&2\n"
    yield "Total\tSUM(Data!$A$1:$A$3)\n"


def shared_formulas():
    for row in range(1, 6):
        yield line(f"A{row}", f"n:{row * 10}")
        yield line(f"B{row}", f"n:{row * row}")
        yield line(f"C{row}", None, f"SUM(A$1:A{row})*$B{row}")
        for column, moved in (("D", "A"), ("E", "B")):
            yield line(f"{column}{row}", None, f"'Sales'!{moved}{row}&\"A1\"")
        if row == 1:
            yield line("G1", None, "LOG10(A1)")
    for place, column in enumerate("ABCD"):
        moved = "CDEF"[place]
        yield line(f"{column}7", None, f"{column}1+$B1+{moved}$1+LOG10({column}1)")
    yield line("E7", None, "A1*2")
    for row in (8, 9, 10):
        first, second = row - 7, row - 6
        sums = f"SUM(B:C)+SUM({first}:{second})+SUM($1:{second})"
        yield line(f"A{row}", None, f"{sums}+'Q1'!A{first}")
        if row > 8:
            # A reference that leaves the worksheet becomes an error.
            last = "B1048576" if row == 9 else "#REF!"
            yield line(f"C{row}", None, f"A{row - 8}+{last}")


def named(reference, *areas):
    return "\t".join((reference, *areas)) + "\n"


def precedents():
    for row in range(1, 6):
        yield named(f"C{row}", f"A1:A{row}", f"B{row}:B{row}")
        yield from (named("D" + str(row)), named("E" + str(row)))
        if row == 1:
            yield named("G1", "A1:A1")
    for place, column in enumerate("ABCD"):
        own, moved = f"{column}1:{column}1", "CDEF"[place]
        yield named(f"{column}7", own, "B1:B1", f"{moved}1:{moved}1", own)
    yield named("E7", "A1:A1")
    for row in (8, 9, 10):
        first, second = row - 7, row - 6
        whole = "B1:C1048576"
        yield named(f"A{row}", whole, f"A{first}:XFD{second}", f"A1:XFD{second}")
        if row == 9:
            yield named("C9", "A1:A1", "B1048576:B1048576")
    yield named("C10", "A2:A2")


def tinted(color, tint):
    """The color whose channels are the whole numbers nearest to those with another luminance,
    halves upward (ECMA-376 part 1, section 18.8.19)."""
    channels = [Fraction(int(color[at : at + 2], 16), 255) for at in (0, 2, 4)]
    most, least, tint = max(channels), min(channels), Fraction(tint)
    light = (most + least) / 2
    spread = 1 - abs(2 * light - 1)
    saturation = (most - least) / spread if spread else Fraction(0)
    new = light * (1 + tint) if tint < 0 else light * (1 - tint) + tint
    chroma = (1 - abs(2 * new - 1)) * saturation
    whole = most - least
    shares = [(x - least) / whole if whole else Fraction(0) for x in channels]
    exact = [255 * (new - chroma / 2 + share * chroma) for share in shares]
    return "".join(f"{int(x + Fraction(1, 2)):02X}" for x in exact)


def themes_and_tints():
    colors = [tinted(color, tint) for color in THEME for tint in TINTS]
    colors += ["FF0000", "C0C0C0", "000000", "FF9900"]
    for row, color in enumerate(colors, 1):
        yield line(f"A{row}", f"n:{row}", None, f"#{color}")
        yield line(f"B{row}")


def tables_links_and_merges():
    cells = "A1 Name B1 Qty A2 nut B2 3 A3 bolt B3 2 A4 Total A6 link B6 S!A1 A7 lost A8 merged"
    for reference, text in zip(cells.split()[::2], cells.split()[1::2]):
        yield line(reference, f"n:{text}" if text.isdecimal() else f"s:{text}")


def link(area, *texts):
    return "\t".join([area, *("-" if text is None else f"={text}" for text in texts)]) + "\n"


def links():
    """Of each its area, its target, its location, its displayed text and its tooltip."""
    yield link("A6:A6", "https://example.com/?a=1&b=2", None, None, "a&b")
    yield link("B6:B6", None, "S!A1", "S!A1", None)
    yield link("A7:A7", None, "Gone!B2", "lost", r" back\\slash ")
    # XlsxWriter puts what stands behind the # into the location.
    yield link("A8:B9", "https://example.com/", "part", None, None)


def comments():
    """Of each its cell, its author and its text."""
    yield link("B2", "Ann & Bo", r"Ann:\ncount again ")
    yield link("C4", "", "\u6771\u4eac")
    yield link("A7", None, "")


def graph():
    """Of each formula its cell, the areas that it names, and the words that are left open."""
    for fields in (
        ("'Plan'!A1", "'It''s'!A1:A1"),
        ("'Plan'!B1", "'Plan'!B2:B2"),
        ("'Plan'!C1", "~'Plan'!C1:C1", "?computed INDIRECT"),
        ("'Plan'!D1",),
        ("'Plan'!E1", "'Plan'!D2:D2", "?external [1]Old"),
        ("'Plan'!A2", "'It''s'!A1:A2", "'Plan'!A1:A1"),
        ("'Plan'!B2", "'Plan'!B1:B1", "'Plan'!A1:A1"),
        ("'Plan'!A3", "'It''s'!C2:C3"),
        ("'Plan'!A4", "'Plan':'It''s'!E1:E1"),
        ("'It''s'!A2", "'Plan'!E1:E1"),
    ):
        yield "\t".join(fields) + "\n"


def order():
    """The same by rounds, of which a line here has one, and then those on a cycle."""
    yield "'Plan'!A1\n'Plan'!C1\topen\n'Plan'!D1\n'Plan'!A3\n"
    yield "'Plan'!E1\n"
    yield "'Plan'!A4\n'It''s'!A2\n"
    yield "'Plan'!A2\n"
    yield "'Plan'!B1\tcycle\n'Plan'!B2\tcycle\n"


def properties():
    made = MADE.strftime("%Y-%m-%dT%H:%M:%SZ")
    for name, text in (
        ("creator", "Ann & Bo"),
        ("last_modified_by", "Ann & Bo"),
        ("created", made),
        ("modified", made),
        ("title", "tables_links_and_merges.xlsx"),
        # What XlsxWriter says of itself.
        ("application", "Microsoft Excel"),
        ("app_version", "12.0000"),
        ("custom:Checked", "true"),
        ("custom:Owner", "Ann & Bo"),
    ):
        yield f"{name}\t={text}\n"


def tables():
    """Of each its name, its sheet, the area of its data and its columns."""
    yield "Sales\tGoods & prices\tA2:B3\tLine_x000a_break\tQty\n"
    yield "Rates\tGoods & prices\tD3:E4\tColumn1\tColumn2\n"
    yield "Words\tNotes\tB3:C3\tKey\tText\n"


def table_of_sales():
    for place, value in (("A2", "s:nut"), ("B2", "n:3"), ("A3", "s:bolt"), ("B3", "n:2.5")):
        yield f"{place}\t{value}\n"


def table_of_rates():
    for place, number in (("D3", 1), ("E3", 2), ("D4", 3), ("E4", 4)):
        yield f"{place}\tn:{number}\n"


def rows_of_pivot():
    """The names of the fields, and the records with what their numbers mean."""
    yield "s:Item\ts:Price\ts:Sold on\ts:Paid\n"
    yield "s:bolt\tn:3\ti:2024-01-02T00:00:00\tb:true\n"
    yield "s:nut\tn:2.5\t-\tb:false\n"
    yield "s:nut\t-\ti:2024-01-02T00:00:00\te:#REF!\n"


def libreoffice():
    for place, text in (("A1", "name"), ("B1", "amount"), ("C1", "date")):
        yield line(place, f"s:{text}")
    for row, text, amount, day in ((2, "nut", "10.5", (1, 2)), (3, "bolt, long", "4", (2, 3))):
        serial = (datetime.datetime(2024, *day) - FIRST_DAYS[1900]).days
        yield line(f"A{row}", f"s:{text}")
        yield line(f"B{row}", f"n:{amount}")
        yield line(f"C{row}", f"t:{serial} date 1900")
    yield line("A4", "s:nutx", 'A2&"x"')
    yield line("B4", "n:14.5", "SUM(B2:B3)")
    yield line("C4", "e:#DIV/0!", "1/0")
    yield line("A5", "b:true", "TRUE()")
    yield line("B5", "e:#N/A", "NA()")
    yield line("C5", "s:\\t", "CHAR(9)")


def records(rows):
    """Rows as CSV, by Python's own writer."""
    out = io.StringIO()
    csv.writer(out, lineterminator="\n").writerows(rows)
    yield out.getvalue()


def goods(first, second, truth):
    """The rows of LibreOffice's workbook, with its dates and its boolean as they are written."""
    return records(
        [
            ["name", "amount", "date"],
            ["nut", "10.5", first],
            ["bolt, long", "4", second],
            ["nutx", "14.5", "#DIV/0!"],
            [truth, "#N/A", "\t"],
        ]
    )


def objects(keys, rows):
    """Rows as objects of JSON, by Python's own writer."""
    for row in rows:
        yield json.dumps(dict(zip(keys, row)), separators=(",", ":"), ensure_ascii=False) + "\n"


def libreoffice_rows():
    days = [(datetime.datetime(2024, *day) - FIRST_DAYS[1900]).days for day in ((1, 2), (2, 3))]
    return goods(*days, "true")


LINES = {
    "dates_1900": dates(1900),
    "dates_1904": dates(1904),
    "dates_1900.csv": dated_rows(1900),
    "dates_1904.csv": dated_rows(1904),
    "dates_1900.csv_shown": shown_rows(1900),
    "dates_1904.csv_shown": shown_rows(1904),
    "libreoffice": libreoffice(),
    "libreoffice.check": [
        "A4\tunsupported\n",
        "B4\tagrees\n",
        *(f"{place}\tunsupported\n" for place in ("C4", "A5", "B5", "C5")),
    ],
    "libreoffice.csv": libreoffice_rows(),
    "libreoffice.csv_shown": goods("2024-01-02", "2024-02-03", "TRUE"),
    "libreoffice.widths": [
        f"{column}1:{column}1048576\t={width}\tvisible\n"
        for column, width in (("A", 8.79), ("B", 7.45), ("C", 10.38))
    ],
    "libreoffice.rows": objects(
        ["name", "amount", "date"],
        [
            ["nut", 10.5, "2024-01-02"],
            ["bolt, long", 4, "2024-02-03"],
            ["nutx", 14.5, "#DIV/0!"],
            [True, "#N/A", "\t"],
        ],
    ),
    "rich_text": rich_text(),
    "inline_strings": inline_strings(),
    "chart_sheet": chart_sheet(),
    "chart_sheet.names": names(),
    "chart_sheet.sheets": sheets(),
    "shared_formulas": shared_formulas(),
    "shared_formulas.precedents": precedents(),
    "shared_formulas.dependents": ["C4\n", "A8\n", "A9\n", "A10\n"],
    "comments": [line("B2", "n:3")],
    "comments.comments": comments(),
    "graph.graph": graph(),
    "graph.order": order(),
    "graph.cycles": ["'Plan'!B1\t'Plan'!B2\n"],
    "graph.dependents": ["'Plan'!A1\n", "'Plan'!B1\n", "'Plan'!A2\n", "'Plan'!B2\n"],
    "pivot_table.pivot": rows_of_pivot(),
    "pivot_table.pivots": ["Report\tSold & paid\n"],
    "tables.tables": tables(),
    "tables.csv_table": records([["Line_x000a_break", "Qty"], ["nut", "3"], ["bolt", "2.5"]]),
    "tables.csv_table_of_Words": records([["Key", "Text"], ["true", "a\tb"]]),
    "tables.rows_table": objects(["Line_x000a_break", "Qty"], [["nut", 3], ["bolt", 2.5]]),
    "tables.table": table_of_sales(),
    "tables.table_of_Rates": table_of_rates(),
    "tables_links_and_merges": tables_links_and_merges(),
    "tables_links_and_merges.merges": ["A8:B9\n"],
    "tables_links_and_merges.merges_of_T": ["A1:C1\n", "A2:A3\n"],
    "tables_links_and_merges.links": links(),
    "tables_links_and_merges.props": properties(),
    "themes_and_tints": themes_and_tints(),
}


def main():
    for name, lines in LINES.items():
        (HERE / f"{name}.lines").write_bytes("".join(lines).encode())


if __name__ == "__main__":
    main()
