"""Tries the built program on the rows of a sheet's values as CSV."""

import csv
import io
import subprocess
import unittest

from support.fixtures import SALES, package_text
from support.noted import (
    RELATIONSHIPS,
    ROOT,
    SHEET_NAME,
    SMALLEST,
    WORKBOOK,
    package_of,
    package_with,
    refused,
    told,
    with_data,
)
from test_program import BUILDS, OUT
from test_tables import NO_END, NUT, RELATED, TABLE_NAME, table

TOO_LARGE = [(10, b"", b"box too large\n")]
STYLES = (
    "xl/styles.xml",
    '<styleSheet><cellXfs><xf numFmtId="0"/><xf numFmtId="14"/><xf numFmtId="46"/></cellXfs>'
    "</styleSheet>",
)


def cell(reference, text, more=""):
    return f'<c r="{reference}"{more}><v>{text}</v></c>'


def texts(**fields):
    """Cells with these texts."""
    return "".join(cell(reference, text, ' t="str"') for reference, text in fields.items())


def numbers(*references):
    """Cells with the number 1 each."""
    return "".join(cell(reference, "1") for reference in references)


# What a case shows, the data of a sheet, and the rows of its values, or their refusals.
ROWS = [
    (
        "fields with a comma or quotes, and one without a value",
        texts(A1="a,b", B1='say "x"') + numbers("B2"),
        '"a,b","say ""x"""\n,1\n',
    ),
    ("no cell", "", ""),
    ("no value", '<c r="A1"/><c r="B2"><f>A1</f></c>', ""),
    ("a row of one empty field", numbers("A1", "A3"), '1\n""\n1\n'),
    ("an empty row of two", numbers("A1", "B3"), "1,\n,\n,1\n"),
    ("the area begins at the first value", numbers("C3", "B4"), ",1\n1,\n"),
    ("rows in another order", numbers("B2", "A1"), "1,\n,1\n"),
    ("the last value of a position", cell("A1", "1") + cell("A1", "2"), "2\n"),
    ("a formula without a value", numbers("A1", "C1") + '<c r="B1"><f>A1</f></c>', "1,,1\n"),
    ("a formula with one", '<c r="A1"><f>1+1</f><v>2</v></c>', "2\n"),
    ("a text of digits, and a formula as text", texts(A1="007", B1="=A1"), "007,=A1\n"),
    ("blanks at the ends", texts(A1=" a ", B1=" "), " a , \n"),
    ("line ends", texts(A1="a\nb", B1="a_x000D_b", C1="a\tb"), '"a\nb","a\rb",a\tb\n'),
    ("a text of other letters", texts(A1="n\u00fct\U0001f330"), "n\u00fct\U0001f330\n"),
    ("an apostrophe and a semicolon", texts(A1="it's", B1="a;b"), "it's,a;b\n"),
    ("booleans", cell("A1", "1", ' t="b"') + cell("B1", "0", ' t="b"'), "true,false\n"),
    ("an error", cell("A1", "#N/A", ' t="e"') + cell("B1", "#DIV/0!", ' t="e"'), "#N/A,#DIV/0!\n"),
    ("an ISO date", cell("A1", "2024-01-01", ' t="d"'), "2024-01-01\n"),
    ("numbers", cell("A1", "1E30") + cell("B1", "-10.50") + cell("C1", "0"), "1E30,-10.5,0\n"),
    (
        "a value that is refused",
        numbers("A1") + cell("B1", "x", ' t="b"'),
        refused("Unrecognized boolean cell value: x"),
    ),
    (
        "a value that is refused, in an area of too many cells",
        numbers("A1", "XFD1048576") + cell("B1", "x", ' t="b"'),
        refused("Unrecognized boolean cell value: x"),
    ),
    (
        "a formula that is refused",
        numbers("A1") + '<c r="B1"><f t="shared">A1</f></c>',
        refused("si attribute is mandatory if it is shared"),
    ),
]

NO_TRUTH = refused("Unrecognized boolean cell value: x")
BROKEN = (SHEET_NAME, with_data(numbers("A1") + cell("B1", "x", ' t="b"')))
CHART = (SHEET_NAME, "<chartsheet/>")
QUOTED = table(columns=["a,b", "&quot;"])

# What a case shows, the part of a table, that of its sheet, and the records of the table.
TABLES = [
    ("headers and totals", table(), NUT, "Name,Qty\nnut,3\n,\n"),
    ("no totals", table(""), NUT, "Name,Qty\nnut,3\n,\n,\n"),
    ("no headers", table('headerRowCount="0"', ref="A2:B2"), NUT, "Name,Qty\nnut,3\n"),
    ("fewer names than columns", table(columns=["Name"]), NUT, "Name,\nnut,3\n,\n"),
    ("no name", table(columns=[]), NUT, ",\nnut,3\n,\n"),
    ("more names than columns", table(ref="A1:A3"), NUT, "Name\nnut\n"),
    ("one column with an empty value", table(ref="A1:A4"), NUT, 'Name\nnut\n""\n'),
    ("one column without a name", table(ref="B1:B3", columns=[]), NUT, '""\n3\n'),
    ("names with a comma and a quote", QUOTED, NUT, '"a,b",""""\nnut,3\n,\n'),
    ("an area without a value", table(ref="D1:E4"), NUT, "Name,Qty\n,\n,\n"),
    ("no row of data", table(ref="A1:B2"), NUT, "Name,Qty\n"),
    ("no row of data, and no name", table(ref="A1:B2", columns=[]), NUT, ""),
    ("more names, and no row of data", table(ref="A1:A2"), NUT, "Name,Qty\n"),
    ("a sheet that isn't read", table(ref="A1:B2"), BROKEN, "Name,Qty\n"),
    ("a sheet that is refused", table(), BROKEN, NO_TRUTH),
    ("a chart sheet", table(), CHART, "Name,Qty\n,\n,\n"),
    ("a table that is refused", "<x/>", NUT, NO_END),
]


class Rows(unittest.TestCase):
    def check(self, package, words, wanted, shown):
        for build in BUILDS:
            ran = subprocess.run([OUT / build, *words], input=package, capture_output=True)
            self.assertIn((ran.returncode, ran.stdout, ran.stderr), told(wanted), shown)

    def test_rows_are_printed_or_refused(self):
        for shown, data, wanted in ROWS:
            package = package_with((SHEET_NAME, with_data(data)))
            self.check(package, ["csv", "S"], wanted, shown)

    def test_dates_and_durations_are_numbers_of_days(self):
        data = cell("A1", "45292", ' s="1"') + cell("B1", "0.5", ' s="2"')
        package = package_with((SHEET_NAME, with_data(data)), STYLES)
        self.check(package, ["csv", "S"], "45292,0.5\n", "a date and a duration")
        wanted = "Date,Amount, Total\n45292,10.5,10.5\n45293,4,14.5\n"
        self.check(package_text(SALES), ["csv", "Sales"], wanted, "the shipped package")

    def test_rows_are_read_back(self):
        rows = [["a,b", 'say "x"', " c "], ["", "a\nb", "=A1"], ["it's", "", "1;2"]]
        data = "".join(
            texts(**{f"{column}{place}": text})
            for place, row in enumerate(rows, 1)
            for column, text in zip("ABC", row)
        )
        package = package_with((SHEET_NAME, with_data(data)))
        for build in BUILDS:
            ran = subprocess.run([OUT / build, "csv", "S"], input=package, capture_output=True)
            read = csv.reader(io.StringIO(ran.stdout.decode(), newline=""))
            self.assertEqual(list(read), rows)

    def test_an_area_of_too_many_cells_is_refused(self):
        for last in ("XFD1048576", "XFD1025", "Q1048576"):
            package = package_with((SHEET_NAME, with_data(numbers("A1", last))))
            self.check(package, ["csv", "S"], TOO_LARGE, last)
        # Cells without a value don't count.
        data = numbers("A1") + '<c r="XFD1048576"><f>A1</f></c>'
        self.check(package_with((SHEET_NAME, with_data(data))), ["csv", "S"], "1\n", "a formula")
        data = numbers("XFC1048575", "XFD1048576")
        package = package_with((SHEET_NAME, with_data(data)))
        self.check(package, ["csv", "S"], "1,\n,1\n", "a small area at the end")

    def test_rows_need_a_worksheet(self):
        for name in ("Z", "s", ""):
            wanted = refused(f"Worksheet '{name}' not found")
            self.check(package_with(), ["csv", name], wanted, name)
        package = package_of([ROOT, RELATIONSHIPS, WORKBOOK])
        self.check(package, ["csv", "S"], refused("Worksheet 'S' not found"), "no part")
        package = package_of(SMALLEST[1:])
        self.check(package, ["csv", "S"], refused("File not found '_rels/.rels'"), "no workbook")
        package = package_with((SHEET_NAME, "<chartsheet/>"))
        wanted = refused("Expecting a worksheet, got chartsheet")
        self.check(package, ["csv", "S"], wanted, "a chart sheet")

    def test_tables_have_a_header_and_rows(self):
        for shown, part, sheet, wanted in TABLES:
            package = package_with(RELATED, (TABLE_NAME, part), sheet)
            self.check(package, ["csv-table", "T1"], wanted, shown)

    def test_a_table_of_too_many_cells_is_refused(self):
        # No cell of the area has a value.
        empty = (SHEET_NAME, with_data(""))
        for ref in ("A1:XFD1026", "A1:Q1048576"):
            package = package_with(RELATED, (TABLE_NAME, table("", ref)), empty)
            self.check(package, ["csv-table", "T1"], TOO_LARGE, ref)
        part = table('headerRowCount="0"', "A1:XFD1025")
        package = package_with(RELATED, (TABLE_NAME, part), empty)
        self.check(package, ["csv-table", "T1"], TOO_LARGE, "an area without headers")
        package = package_with(RELATED, (TABLE_NAME, table("", "A1:XFD1026")), BROKEN)
        self.check(package, ["csv-table", "T1"], NO_TRUTH, "a sheet that is refused")

    def test_a_table_of_the_most_cells_is_written(self):
        package = package_with(RELATED, (TABLE_NAME, table("", "A1:XFD1025")), NUT)
        blanks = "," * 16_381
        rows = [f"Name,Qty,{blanks}\n", f"nut,3,{blanks}\n", *([f",,{blanks}\n"] * 1_023)]
        wanted = 0, "".join(rows).encode(), b""
        for build in BUILDS:
            ran = subprocess.run(
                [OUT / build, "csv-table", "T1"], input=package, capture_output=True
            )
            # Not by `assertEqual`, which would print the rows.
            answer = ran.returncode, ran.stdout, ran.stderr
            self.assertTrue(answer == wanted, (build, answer[0], answer[1][:40], answer[2]))

    def test_rows_need_a_table(self):
        package = package_with(RELATED, (TABLE_NAME, table()), NUT)
        for name in ("T2", "t1", "S", ""):
            self.check(package, ["csv-table", name], refused(f"Table '{name}' not found"), name)
        package = package_of([ROOT, RELATIONSHIPS, WORKBOOK, RELATED, (TABLE_NAME, table())])
        wanted = refused("Worksheet 'S' not found")
        self.check(package, ["csv-table", "T1"], wanted, "no part of the sheet")
        package = package_of(SMALLEST[1:])
        wanted = refused("File not found '_rels/.rels'")
        self.check(package, ["csv-table", "T1"], wanted, "no workbook")


if __name__ == "__main__":
    unittest.main()
