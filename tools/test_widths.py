"""Tries the built program on the widths of a worksheet's columns and on its hidden rows."""

import subprocess
import unittest

from support.noted import RELATIONSHIPS, ROOT, SHEET_NAME, WORKBOOK, package_of, package_with
from support.noted import refused, told
from test_comments import ended
from test_program import BUILDS, OUT


def sheet(columns="", rows=""):
    """A worksheet's part with these columns and rows."""
    return f"<worksheet><cols>{columns}</cols><sheetData>{rows}</sheetData></worksheet>"


def columns(first, last, width="-", word="visible"):
    return f"{first}1:{last}1048576\t{width}\t{word}\n"


def row(number):
    return f"A{number}:XFD{number}\t-\thidden\n"


COLUMN = '<col min="1" max="3" width="12.5"/>'
HIDDEN = '<row r="2" hidden="1"/>'
A_TO_C = columns("A", "C", "=12.5")
DATA = f"<sheetData>{HIDDEN}</sheetData>"


def no_number(text):
    return refused(f"Parse integer error: {text}")


# What a case shows, the sheet's part, and the lines or the refusal.
CASES = [
    ("columns and rows", sheet(COLUMN, "<row/>" + HIDDEN), A_TO_C + row(2)),
    ("no width", sheet('<col min="2" max="2"/>'), columns("B", "B")),
    ("hidden", sheet('<col min="1" max="1" hidden="true"/>'), columns("A", "A", "-", "hidden")),
    ("columns that aren't", sheet('<col min="1" max="1" hidden="false"/>'), columns("A", "A")),
    ("a width", sheet('<col min="1" max="1" width="1.50e0"/>'), columns("A", "A", "=1.50e0")),
    ("the last column", sheet('<col min="16384" max="16384"/>'), columns("XFD", "XFD")),
    ("columns from right to left", sheet('<col min="3" max="1"/>'), columns("C", "A")),
    ("no first or last", sheet('<col max="1"/><col min="1"/>' + COLUMN), A_TO_C),
    ("a column past the last", sheet('<col min="1" max="16385"/>'), no_number("16385")),
    ("column 0", sheet('<col min="0" max="1"/>'), no_number("0")),
    ("no numbers", sheet("", '<row r="4"/><row hidden="1"/><row/>' + HIDDEN), row(5) + row(2)),
    ("rows that aren't hidden", sheet("", '<row hidden="0"/><row hidden="false"/><row/>'), ""),
    ("the last row", sheet("", '<row r="1048576" hidden="1"/>'), row(1048576)),
    ("behind the last", sheet("", '<row r="1048576"/><row/>'), refused("row number overflow")),
    ("a row past the last", sheet("", '<row r="1048577"/>'), refused("row number overflow")),
    ("no columns", f"<worksheet>{DATA}</worksheet>", row(2)),
    ("no rows", f"<worksheet><cols>{COLUMN}</cols></worksheet>", A_TO_C),
    ("nothing", "<worksheet/>", ""),
    ("columns behind rows", f"<worksheet>{DATA}<cols>{COLUMN}</cols></worksheet>", A_TO_C + row(2)),
    ("columns elsewhere", f"<worksheet><x>{COLUMN}{HIDDEN}</x></worksheet>", ""),
    ("a fault", sheet('<col max="1" x/>'), refused("Xml attribute error: expected '=' at 9")),
    ("columns that don't end", f"<worksheet><cols>{COLUMN}", ended("cols")),
    ("rows that don't end", f"<worksheet><sheetData>{HIDDEN}", ended("sheetData")),
    ("nesting that breaks before", "<worksheet></x>", refused("Xml error: end tag mismatch at 1")),
    ("nesting that breaks behind", sheet(COLUMN, HIDDEN) + "</x>", A_TO_C + row(2)),
]


class Widths(unittest.TestCase):
    def check(self, package, wanted, shown, *words):
        for build in BUILDS:
            asked = [OUT / build, "widths", *words]
            ran = subprocess.run(asked, input=package, capture_output=True)
            self.assertIn((ran.returncode, ran.stdout, ran.stderr), told(wanted), shown)

    def test_widths_are_listed_or_refused(self):
        for shown, markup, wanted in CASES:
            self.check(package_with((SHEET_NAME, markup)), wanted, shown, "S")

    def test_widths_are_objects_by_an_option(self):
        wanted = '{"area":"A1:C1048576","width":"12.5","visibility":"visible"}\n'
        wanted += '{"area":"A2:XFD2","visibility":"hidden"}\n'
        self.check(package_with((SHEET_NAME, sheet(COLUMN, HIDDEN))), wanted, "", "S", "--json")

    def test_widths_need_a_sheet_of_the_name_and_its_part(self):
        self.check(package_with(), refused("Worksheet 'T' not found"), "another name", "T")
        lacks = refused(f"File not found '{SHEET_NAME}'")
        self.check(package_of([ROOT, RELATIONSHIPS, WORKBOOK]), lacks, "no part", "S")


if __name__ == "__main__":
    unittest.main()
