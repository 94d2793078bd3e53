"""Tries the built program on the rows of a sheet as its cells show them. The codes, the values and
their texts are those of the table in crates/tests_values."""

import csv
import html
import io
import pathlib
import subprocess
import unittest

from support.noted import SHEET_NAME, STRINGS_NAME, package_with, with_data
from test_dates import DATED
from test_program import BUILDS, OUT
from test_rows import cell, texts
from test_tables import RELATED, TABLE_NAME, table

TABLE = pathlib.Path(__file__).resolve().parent.parent / "crates/tests_values/src/shown_tests.rt"

# A workbook reads a number under a code of dates as a date, and this one shows the two otherwise.
NUMBERS_ALONE = ["[$-407]d. mmmm yyyy"]

# Words beside which what is shown isn't asked for, and commands that don't take it.
REFUSED = [
    ["csv", "S", "--shown", "--shown"],
    ["csv", "S", "--shown", "--dates"],
    ["csv", "S", "--dates", "--shown"],
    ["csv", "S", "--shown", "--digits=3"],
    ["csv", "S", "--digits=3", "--bom", "--shown"],
    ["csv", "S", "--Shown"],
    ["csv", "S", "--shown=1"],
    ["csv-table", "T", "--shown", "--shown"],
    ["csv-table", "T", "--shown", "--dates"],
    ["csv-table", "T", "--digits=3", "--shown"],
    ["csv-table", "T", "--shown", "--from-a1"],
    ["rows-table", "T", "--json", "--shown"],
    ["table", "T", "--shown"],
    ["cells", "S", "--shown"],
]

STRINGS = (STRINGS_NAME, "<sst><si><t>nut</t></si><si><t>bolt</t></si></sst>")


def shown_rows():
    """The codes of the table, each with a value and the text that is shown of it."""
    text = TABLE.read_text(encoding="utf-8")
    table = text.split('const SHOWN: &str = r##"\n')[1].split('"##;')[0]
    for case in table.strip("\n").split("\n\n"):
        code, value, shown = case.split("\n")
        yield code, value[2:], shown[3:-1]


def styles_of(codes):
    """A styles part whose style ids, from 0 on, have these codes."""
    formats = "".join(
        f'<numFmt numFmtId="{number}" formatCode="{html.escape(code)}"/>'
        for number, code in enumerate(codes, 164)
    )
    styles = "".join(f'<xf numFmtId="{number}"/>' for number, _ in enumerate(codes, 164))
    return (
        "xl/styles.xml",
        f"<styleSheet><numFmts>{formats}</numFmts><cellXfs>{styles}</cellXfs></styleSheet>",
    )


def cell_of(row, value, style):
    """A cell of column A, counted from 1, with a value of the table in a style."""
    kind, text = "", value
    if value.startswith("text:"):
        kind, text = ' t="str"', value[5:]
    elif value == "true":
        kind, text = ' t="b"', "1"
    elif value.startswith("#"):
        kind = ' t="e"'
    elif value.startswith("days:"):
        text = value[5:]
    return cell(f"A{row}", html.escape(text), f'{kind} s="{style}"')


# What a case shows, the codes of the styles, the data of a sheet, and the rows that are printed.
ROWS = [
    ("the code of style 0", ["0.00"], cell("A1", "2.5"), "2.50\n"),
    ("a style id that no style has", ["0.00"], cell("A1", "2.5", ' s="7"'), "2.5\n"),
    ("no styles", [], cell("A1", "0.30000000000000004", ' s="1"'), "0.3\n"),
    (
        "the last value of a position, in the style of its own cell",
        ["0.00", "0%"],
        cell("A1", "1", ' s="1"') + cell("A1", "2"),
        "2.00\n",
    ),
    (
        "a later cell without a value takes no style with it",
        ["0.00", "0%"],
        cell("A1", "1", ' s="1"') + '<c r="A1" s="0"/>',
        "100%\n",
    ),
    (
        "cells in another order",
        ["0", "0.0", "0%"],
        cell("B2", "1", ' s="1"') + cell("A1", "2", ' s="2"') + cell("A1", "3"),
        "3,\n,1.0\n",
    ),
    ("a text that is shown empty", ["0;;"], cell("A1", "-5"), '""\n'),
    (
        "texts that are shown empty keep the area",
        [";;;"],
        cell("B2", "1") + cell("C3", "2"),
        ",\n,\n",
    ),
    ("a comma and quotes", ["#,##0.0", '0\\"'], cell("A1", "1234") + cell("B1", "5", ' s="1"'),
     '"1,234.0","5"""\n'),
    ("a shared string", ['"<"@">"'], '<c r="A1" t="s"><v>1</v></c>', "<bolt>\n"),
    ("a text of its own", ["@"], '<c r="A1" t="inlineStr"><is><t>nut</t></is></c>', "nut\n"),
    ("a text in the cell", ["0.00"], texts(A1="7"), "7\n"),
    ("an ISO date", ["0.00"], '<c r="A1" t="d"><v>2024-05-06</v></c>', "2024-05-06\n"),
    ("a built-in format", [], cell("A1", "45351", ' s="1"'), "45351\n"),
    ("no value", ["0.00"], '<c r="A1"/><c r="B2"><f>A1</f></c>', ""),
]


# What a case shows, the codes of the styles of a sheet, its data, and the records of its table T1,
# whose columns are Name and Qty and whose data lie in A2:B3.
OF_TABLES = [
    (
        "each value under the style of its own cell",
        ["General", "#,##0.00", "0%"],
        cell("A2", "1234.5", ' s="1"') + cell("B2", "0.285", ' s="2"') + cell("B3", "5"),
        'Name,Qty\n"1,234.50",29%\n,5\n',
    ),
    (
        "nothing of what stands beside it",
        ["0.00"],
        cell("A1", "1") + cell("C2", "2") + cell("B3", "2.675") + cell("A4", "3"),
        "Name,Qty\n,\n,2.68\n",
    ),
    (
        "the last value of a position, under its own style",
        ["0", "0.0", "0%"],
        cell("A2", "1", ' s="1"') + cell("A2", "2", ' s="2"') + '<c r="A2" s="0"/>',
        "Name,Qty\n200%,\n,\n",
    ),
    (
        "a style id that no style has",
        ["0.00"],
        cell("A2", "5", ' s="7"') + cell("B2", "12345678901.9", ' s="7"'),
        "Name,Qty\n5,12345678902\n,\n",
    ),
    (
        "texts, a boolean and an error",
        ['"<"@">"'],
        '<c r="A2" t="s"><v>1</v></c>' + cell("B2", "1", ' t="b"') + cell("A3", "#N/A", ' t="e"'),
        "Name,Qty\n<bolt>,<TRUE>\n#N/A,\n",
    ),
    ("a text that is shown empty", ["0;;"], cell("A2", "-5"), "Name,Qty\n,\n,\n"),
    (
        "a date",
        ["dd.mm.yyyy", "h:mm AM/PM"],
        cell("A2", "45657") + cell("B2", "0.5451388888888889", ' s="1"'),
        "Name,Qty\n31.12.2024,1:05 PM\n,\n",
    ),
    (
        "a formula that csv refuses",
        ["0.0"],
        cell("A2", "1") + '<c r="C1"><f t="shared">A1</f></c>',
        "Name,Qty\n1.0,\n,\n",
    ),
]


class Shown(unittest.TestCase):
    def check(self, package, words, wanted, shown):
        for build in BUILDS:
            ran = subprocess.run([OUT / build, *words], input=package, capture_output=True)
            self.assertEqual((ran.returncode, ran.stdout, ran.stderr), wanted, shown)

    def test_values_are_shown_under_their_codes(self):
        tried = 0
        for prefix, parts in (("", ()), ("1904:", (DATED,))):
            rows = [
                (code.removeprefix("1904:"), value, text)
                for code, value, text in shown_rows()
                if code.startswith("1904:") == bool(prefix)
                and (code not in NUMBERS_ALONE or value.startswith("days:"))
            ]
            tried += len(rows)
            values = enumerate((value for _, value, _ in rows), 1)
            data = "".join(cell_of(row, value, row - 1) for row, value in values)
            package = package_with(
                (SHEET_NAME, with_data(data)), styles_of([code for code, _, _ in rows]), *parts
            )
            for build in BUILDS:
                words = [OUT / build, "csv", "S", "--shown"]
                ran = subprocess.run(words, input=package, capture_output=True)
                self.assertEqual((ran.returncode, ran.stderr), (0, b""), prefix)
                printed = csv.reader(io.StringIO(ran.stdout.decode(), newline=""))
                for (code, value, text), fields in zip(rows, printed, strict=True):
                    self.assertEqual(fields, [text], (code, value))
        self.assertGreaterEqual(tried, 150)

    def test_rows_are_shown(self):
        for shown, codes, data, wanted in ROWS:
            styles = [styles_of(codes)] if codes else []
            package = package_with((SHEET_NAME, with_data(data)), STRINGS, *styles)
            self.check(package, ["csv", "S", "--shown"], (0, wanted.encode(), b""), shown)

    def test_built_in_formats_have_their_codes(self):
        styles = (
            "xl/styles.xml",
            '<styleSheet><cellXfs><xf numFmtId="0"/><xf numFmtId="14"/><xf numFmtId="4"/>'
            '<xf numFmtId="10"/><xf numFmtId="20"/></cellXfs></styleSheet>',
        )
        data = (
            cell("A1", "45351", ' s="1"') + cell("B1", "1234.5", ' s="2"')
            + cell("C1", "0.285", ' s="3"') + cell("D1", "0.5", ' s="4"') + cell("E1", "0.1")
        )
        package = package_with((SHEET_NAME, with_data(data)), styles)
        wanted = b'02-29-24,"1,234.50",28.50%,12:00,0.1\n'
        self.check(package, ["csv", "S", "--shown"], (0, wanted, b""), "built-in formats")

    def test_options_of_rows_stand_beside_it(self):
        sheet = (SHEET_NAME, with_data(cell("B2", "1234.5")))
        package = package_with(sheet, styles_of(["#,##0.00"]))
        words = ["--delimiter=;", "--shown", "--crlf", "--bom", "--from-a1"]
        wanted = b"\xef\xbb\xbf;\r\n;1,234.50\r\n"
        for options in (words, words[::-1]):
            self.check(package, ["csv", "S", *options], (0, wanted, b""), options)

    def test_tables_are_shown(self):
        for shown, codes, data, wanted in OF_TABLES:
            package = package_with(
                (SHEET_NAME, with_data(data)), STRINGS, styles_of(codes), RELATED,
                (TABLE_NAME, table()),
            )
            self.check(package, ["csv-table", "T1", "--shown"], (0, wanted.encode(), b""), shown)

    def test_options_of_tables_stand_beside_it(self):
        data = cell("A2", "1234.5") + cell("B2", "1")
        package = package_with(
            (SHEET_NAME, with_data(data)), styles_of(["#,##0.00"]), RELATED, (TABLE_NAME, table())
        )
        words = ["--delimiter=;", "--shown", "--crlf", "--bom"]
        wanted = b"\xef\xbb\xbfName;Qty\r\n1,234.50;1.00\r\n;\r\n"
        for options in (words, words[::-1]):
            self.check(package, ["csv-table", "T1", *options], (0, wanted, b""), options)

    def test_tables_without_data_are_shown(self):
        chart = (SHEET_NAME, "<chartsheet/>")
        for part, sheet, wanted in (
            (table(), chart, b"Name,Qty\n,\n,\n"),
            (table(ref="A1:B2"), chart, b"Name,Qty\n"),
        ):
            package = package_with(RELATED, (TABLE_NAME, part), sheet)
            self.check(package, ["csv-table", "T1", "--shown"], (0, wanted, b""), part)

    def test_tables_are_refused_as_without_it(self):
        refused = '<c r="A1" t="q"><v>1</v></c>'
        styled = '<c r="A1" s="x"><v>1</v></c>'
        for name, data, ends in (
            ("T1", refused, (False, False)),
            ("T2", "", (False, False)),
            ("T1", styled, (True, True)),
        ):
            package = package_with((SHEET_NAME, with_data(data)), RELATED, (TABLE_NAME, table()))
            for build in BUILDS:
                runs = [
                    subprocess.run(
                        [OUT / build, "csv-table", name, *options],
                        input=package, capture_output=True,
                    )
                    for options in ([], ["--shown"])
                ]
                self.assertEqual(tuple(ran.returncode == 0 for ran in runs), ends, data)
                if ends == (False, False):
                    self.assertEqual(runs[0].stderr, runs[1].stderr, data)

    def test_it_is_asked_for_alone(self):
        for words in REFUSED:
            self.check(b"", words, (2, b"", b"usage\n"), words)

    def test_sheets_are_refused_as_without_it(self):
        for data in ('<c r="A1" t="q"><v>1</v></c>', '<c r="A1"><v>1</v><f t="shared">B1</f></c>'):
            package = package_with((SHEET_NAME, with_data(data)))
            runs = {
                subprocess.run(
                    [OUT / build, "csv", "S", *options], input=package, capture_output=True
                ).stderr
                for build in BUILDS
                for options in ([], ["--shown"])
            }
            self.assertEqual(len(runs), 1, data)
            self.assertNotEqual(runs, {b""}, data)


if __name__ == "__main__":
    unittest.main()
