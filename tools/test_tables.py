"""Tries the built program on the tables of a workbook and on their data."""

import subprocess
import unittest

from support.noted import RELATIONSHIPS, ROOT, SHEET_NAME, WORKBOOK, events_of, package_cut
from support.noted import package_of
from support.noted import package_with, refused, related, told, with_data
from test_program import BUILDS, OUT

RELATED_NAME = "xl/worksheets/_rels/sheet1.xml.rels"
TABLE_NAME = "xl/tables/table1.xml"
RELATED = (RELATED_NAME, related("table", "../tables/table1.xml"))
NUT = (
    SHEET_NAME,
    with_data('<row r="2"><c r="A2" t="str"><v>nut</v></c><c r="B2"><v>3</v></c></row>'),
)
NO_END = refused("Unexpected end of xml, expecting '</Table>'")


def table(more='totalsRowCount="1"', ref="A1:B4", columns=("Name", "Qty")):
    """The part of a table."""
    each = "".join(f'<tableColumn name="{name}"/>' for name in columns)
    return (
        f'<table displayName="T1" ref="{ref}" {more}>'
        f"<tableColumns>{each}</tableColumns></table>"
    )


# What a case shows, the part of a table, and the lines of `tables` and of `table T1`, or their
# refusals.
TABLES = [
    ("headers and totals", table(), "T1\tS\tA2:B3\tName\tQty\n", "A2\ts:nut\nB2\tn:3\n"),
    (
        "no headers",
        table('totalsRowCount="1" headerRowCount="0"'),
        "T1\tS\tA1:B3\tName\tQty\n",
        "A2\ts:nut\nB2\tn:3\n",
    ),
    ("no row of data", table(ref="A1:B1"), "T1\tS\t-\tName\tQty\n", ""),
    ("headers and totals alone", table(ref="A1:B2"), "T1\tS\t-\tName\tQty\n", ""),
    ("one row of data", table(ref="A1:B3"), "T1\tS\tA2:B2\tName\tQty\n", "A2\ts:nut\nB2\tn:3\n"),
    ("one column", table(ref="B1:B4", columns=["Qty"]), "T1\tS\tB2:B3\tQty\n", "B2\tn:3\n"),
    ("no column", table(columns=[]), "T1\tS\tA2:B3\n", "A2\ts:nut\nB2\tn:3\n"),
    (
        "columns with escapes",
        table(columns=["a&amp;b", "_x000a_"]),
        "T1\tS\tA2:B3\ta&b\t_x000a_\n",
        None,
    ),
    ("an area behind the values", table(ref="D1:E4"), "T1\tS\tD2:E3\tName\tQty\n", ""),
    (
        "a count that is no number",
        table('totalsRowCount="+1"'),
        refused("Parse integer error: +1"),
        None,
    ),
    ("no table", "<x/>", NO_END, None),
    ("a table that is cut", '<table displayName="T1" ref="A1:B4"><tableColumns>', NO_END, None),
]


class Tables(unittest.TestCase):
    def check(self, package, words, wanted, shown):
        for build in BUILDS:
            ran = subprocess.run([OUT / build, *words], input=package, capture_output=True)
            self.assertIn((ran.returncode, ran.stdout, ran.stderr), told(wanted), shown)

    def test_tables_are_listed_or_refused(self):
        for shown, part, lines, data in TABLES:
            package = package_with(RELATED, (TABLE_NAME, part), NUT)
            self.check(package, ["tables"], lines, shown)
            # What refuses the list refuses the data of each table, too.
            wanted = lines if data is None and not isinstance(lines, str) else data
            if wanted is not None:
                self.check(package, ["table", "T1"], wanted, shown)

    def test_tables_go_by_their_names(self):
        package = package_with(RELATED, (TABLE_NAME, table()), NUT)
        for name in ("T2", "t1", ""):
            wanted = refused(f"Table '{name}' not found")
            self.check(package, ["table", name], wanted, name)

    def test_each_part_of_a_table_is_left_out_or_cut(self):
        for part, ended in ((RELATED, "Relationships"), ((TABLE_NAME, table()), "Table")):
            others = [own for own in (RELATED, (TABLE_NAME, table()), NUT) if own != part]
            package = package_with(*others)
            self.check(package, ["tables"], "", part[0])
            self.check(package, ["table", "T1"], refused("Table 'T1' not found"), part[0])
            wanted = refused(f"Unexpected end of xml, expecting '</{ended}>'")
            for count in range(len(events_of(part[1]))):
                package = package_cut(part, count, *others)
                for words in (["tables"], ["table", "T1"]):
                    self.check(package, words, wanted, (part[0], count, words))

    def test_tables_read_no_sheet(self):
        broken = (SHEET_NAME, with_data('<c r="!" t="x"><v>1</v></c>'))
        package = package_with(RELATED, (TABLE_NAME, table()), broken)
        self.check(package, ["tables"], "T1\tS\tA2:B3\tName\tQty\n", "a sheet that is refused")
        package = package_with(RELATED, (TABLE_NAME, table(ref="A1:B1")), broken)
        self.check(package, ["table", "T1"], "", "an area without a cell")

    def test_tables_need_a_workbook_that_opens(self):
        for words in (["tables"], ["table", "T1"]):
            wanted = refused("File not found '_rels/.rels'")
            self.check(package_of([RELATIONSHIPS, WORKBOOK]), words, wanted, words)
        package = package_of([ROOT, RELATIONSHIPS, WORKBOOK, RELATED, (TABLE_NAME, table())])
        self.check(package, ["tables"], "T1\tS\tA2:B3\tName\tQty\n", "no part of the sheet")
        wanted = refused("Worksheet 'S' not found")
        self.check(package, ["table", "T1"], wanted, "no part of the sheet")


if __name__ == "__main__":
    unittest.main()
