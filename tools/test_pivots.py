"""Tries the built program on the pivot tables of a workbook."""

import subprocess
import unittest

from support.noted import RELATIONSHIPS, ROOT, SHEET_NAME, TYPES, WORKBOOK, events_of, package_cut
from support.noted import package_of, package_with, refused, related, told, with_data
from test_program import BUILDS, OUT

RELATED = (
    "xl/worksheets/_rels/sheet1.xml.rels",
    related("pivotTable", "../pivotTables/pivotTable1.xml"),
)
PIVOT = ("xl/pivotTables/pivotTable1.xml", '<pivotTableDefinition name="P1"/>')
PIVOT_RELATED = (
    "xl/pivotTables/_rels/pivotTable1.xml.rels",
    related("pivotCacheDefinition", "../pivotCache/pivotCacheDefinition1.xml"),
)
DEFINITIONS_RELATED = (
    "xl/pivotCache/_rels/pivotCacheDefinition1.xml.rels",
    related("pivotCacheRecords", "pivotCacheRecords1.xml"),
)
PARTS = [RELATED, PIVOT, PIVOT_RELATED, DEFINITIONS_RELATED]
FOUND = "S\tP1\n"
DEFINITIONS = (
    "xl/pivotCache/pivotCacheDefinition1.xml",
    '<pivotCacheDefinition><cacheFields><cacheField name="Kind"><sharedItems><s v="nut"/>'
    '<s v="bolt"/></sharedItems></cacheField><cacheField name="Qty"><sharedItems/></cacheField>'
    "</cacheFields></pivotCacheDefinition>",
)
RECORDS = (
    "xl/pivotCache/pivotCacheRecords1.xml",
    '<pivotCacheRecords><r><x v="1"/><n v="3"/></r><r><x v="0"/><n v="2.50"/></r>'
    "</pivotCacheRecords>",
)
ROWS = "s:Kind\ts:Qty\ns:bolt\tn:3\ns:nut\tn:2.5\n"


def absent(name):
    return refused(f"File not found '{name}'")


def not_found(name):
    return refused(f"Pivot Table '{name}' was not found on worksheet")


def ended(section):
    return refused(f"Unexpected end of xml, expecting '</{section}>'")


def pair(kind, *targets):
    """Relationships of one type."""
    each = "".join(f'<Relationship Type="{TYPES}{kind}" Target="{target}"/>' for target in targets)
    return f"<Relationships>{each}</Relationships>"


# What a case shows, the part that is another one, its markup, and the lines or the refusal.
CASES = [
    ("a name with a tab", PIVOT, '<pivotTableDefinition name="a&#9;b"/>', "S\ta\\tb\n"),
    ("no name", PIVOT, "<pivotTableDefinition/>", refused("no name for pivot table")),
    (
        "a name on a start in it alone",
        PIVOT,
        '<pivotTableDefinition><pivotTableDefinition name="P1"/></pivotTableDefinition>',
        FOUND,
    ),
    (
        "a second name on a start in it",
        PIVOT,
        '<pivotTableDefinition name="P1"><pivotTableDefinition name="P1"/></pivotTableDefinition>',
        refused("multiple name entries for one pivot table path"),
    ),
    ("no pivot table in its part", PIVOT, "<x/>", ended("pivotTableDefinition")),
    (
        "no definitions",
        PIVOT_RELATED,
        "<Relationships/>",
        refused("no pivot cache definition found for pivot table"),
    ),
    (
        "an empty target of definitions before the first",
        PIVOT_RELATED,
        pair("pivotCacheDefinition", "", "../pivotCache/pivotCacheDefinition1.xml"),
        FOUND,
    ),
    (
        "an empty target of definitions behind it",
        PIVOT_RELATED,
        pair("pivotCacheDefinition", "../pivotCache/pivotCacheDefinition1.xml", ""),
        refused("multiple pivot cache definition relationships found for one pivot table"),
    ),
    (
        "no records",
        DEFINITIONS_RELATED,
        "<Relationships/>",
        refused("no pivot cache records found for pivot table"),
    ),
    (
        "two records",
        DEFINITIONS_RELATED,
        pair("pivotCacheRecords", "a.xml", "a.xml"),
        refused("multiple pivot cache record relationships found for one pivot table"),
    ),
    (
        "the same pivot table twice",
        RELATED,
        pair("pivotTable", "../pivotTables/pivotTable1.xml", "/xl/pivotTables/pivotTable1.xml"),
        FOUND + FOUND,
    ),
    ("another type", RELATED, related("table", "../pivotTables/pivotTable1.xml"), ""),
    ("an empty target", RELATED, pair("pivotTable", ""), ""),
    ("a target beside the sheet", RELATED, pair("pivotTable", "p.xml"), absent("p.xml")),
]

# What is told where each part is left out, and where it ends before each of its events. Where none
# is listed, the rows of one are refused.
WITHOUT = [
    (RELATED, "", ended("Relationships")),
    (PIVOT, absent(PIVOT[0]), ended("pivotTableDefinition")),
    (PIVOT_RELATED, absent(PIVOT_RELATED[0]), ended("Relationships")),
    (DEFINITIONS_RELATED, absent(DEFINITIONS_RELATED[0]), ended("Relationships")),
]


def field(inside, attributes=' name="Kind"'):
    """Definitions with one field."""
    return f"<x><cacheFields><cacheField{attributes}>{inside}</cacheField></cacheFields></x>"


def with_records(inside):
    return f"<pivotCacheRecords>{inside}</pivotCacheRecords>"


ITEMS = "<sharedItems><s v='nut'/><s v='bolt'/></sharedItems>".replace("'", '"')
NO_ROWS = "s:Kind\ts:Qty\n"

# What a case shows, the definitions, None for those above, the records, and the rows or why there
# are none.
CACHES = [
    ("no field", "<x/>", "<pivotCacheRecords/>", "\n"),
    ("no record", None, "<pivotCacheRecords/>", NO_ROWS),
    ("a field without a name", field(ITEMS, ""), "<pivotCacheRecords/>", "\n"),
    ("a field with a formula", field(ITEMS, ' name="A" formula="B"'), with_records("<r/>"), "\n\n"),
    ("a grouped field", field(ITEMS + "<g><groupItems/></g>"), with_records("<r/>"), "\n\n"),
    (
        "a grouped field whose groups have items",
        field(ITEMS + '<g><groupItems><s v="a"/></groupItems></g>'),
        with_records("<r/>"),
        "\n\n",
    ),
    ("a name with a reference", field("", ' name="a&amp;b"'), with_records(""), "s:a&b\n"),
    (
        "items at depth 1 of the first alone",
        field("<sharedItems><s v=\"a\"><s v=\"b\"/></s><q/><s v=\"c\"/></sharedItems>" + ITEMS),
        with_records('<r><x v="1"/></r>'),
        "s:Kind\ns:c\n",
    ),
    (
        "each kind of item",
        None,
        with_records(
            '<r><s v="a&amp;b"/><n v="-0"/><b v="1"/><d v="2024-01-02"/><e v="#N/A"/><m/></r>'
        ),
        NO_ROWS + "s:a&amp;b\tn:0\tb:true\ti:2024-01-02\te:#REF!\t-\n",
    ),
    (
        "each without its text",
        None,
        with_records("<r><s/><n/><b/><d/><e/><m/><x/></r>"),
        NO_ROWS + "-\t-\t-\t-\t-\t-\t-\n",
    ),
    (
        "numbers of 64 bits and beside them",
        None,
        with_records(
            '<r><n v="9223372036854775807"/><n v="-9223372036854775808"/>'
            '<n v="9223372036854775808"/><n v="+1"/><n v="1e5"/><n v=".5"/><b v="TRUE"/></r>'
        ),
        NO_ROWS + "n:9223372036854775807\tn:-9223372036854775808\te:#DATA!\te:#DATA!\te:#DATA!"
        "\tn:0.5\te:#DATA!\n",
    ),
    (
        "an element of another name takes no place",
        None,
        with_records('<r><q v="1"/><x v="1"/><r><x v="9"/></r></r>'),
        NO_ROWS + "s:bolt\n",
    ),
    (
        "more values than fields",
        None,
        with_records('<r><x v="0"/><n v="1"/><n v="2"/><x/></r>'),
        NO_ROWS + "s:nut\tn:1\tn:2\t-\n",
    ),
    (
        "an item that isn't there",
        None,
        with_records('<r><x v="2"/></r>'),
        refused("pivot cache item index out of range"),
    ),
    (
        "a number that is none",
        None,
        with_records('<r><x v="+1"/></r>'),
        refused("pivot cache x:v attribute must be a number"),
    ),
    (
        "a number past 64 bits",
        None,
        with_records('<r><x v="18446744073709551616"/></r>'),
        refused("pivot cache x:v attribute must be a number"),
    ),
    (
        "a place with no field",
        None,
        with_records('<r><m/><m/><x v="0"/></r>'),
        refused("pivot cache field index out of range"),
    ),
    ("no section of records", None, "<x/>", ended("pivotCacheRecords")),
    ("fields that end in one", '<x><cacheField name="A">', "", ended("cacheField")),
    ("fields that end elsewhere", "<x><cacheFields>", "<pivotCacheRecords/>", "\n"),
    (
        "definitions that break the nesting",
        "<x></y>",
        "",
        refused("Xml error: end tag mismatch at 1"),
    ),
]


class Pivots(unittest.TestCase):
    def check(self, package, wanted, shown, words=("pivots",)):
        for build in BUILDS:
            ran = subprocess.run([OUT / build, *words], input=package, capture_output=True)
            self.assertIn((ran.returncode, ran.stdout, ran.stderr), told(wanted), shown)

    def check_rows(self, package, wanted, shown):
        self.check(package, wanted, shown, ["pivot", "S", "P1"])

    def test_rows_of_pivot_tables_are_printed_or_refused(self):
        package = package_with(*PARTS, DEFINITIONS, RECORDS)
        self.check_rows(package, ROWS, "fields and records")
        for shown, definitions, records, wanted in CACHES:
            parts = [(DEFINITIONS[0], definitions or DEFINITIONS[1]), (RECORDS[0], records)]
            self.check_rows(package_with(*PARTS, *parts), wanted, shown)

    def test_pivot_tables_go_by_the_names_of_their_sheets_and_their_own(self):
        package = package_with(*PARTS, DEFINITIONS, RECORDS)
        for sheet, name in (("T", "P1"), ("s", "P1"), ("S", "P2"), ("S", "p1"), ("S", "")):
            self.check(package, not_found(name), (sheet, name), ["pivot", sheet, name])

    def test_the_parts_of_a_cache_are_left_out_or_cut(self):
        parts = [DEFINITIONS, RECORDS]
        for part in parts:
            others = [*PARTS, *(own for own in parts if own != part)]
            self.check_rows(package_with(*others), absent(part[0]), part[0])
        for count in range(1, len(events_of(RECORDS[1]))):
            package = package_cut(RECORDS, count, *PARTS, DEFINITIONS)
            self.check_rows(package, ended("pivotCacheRecords"), count)

    def test_pivot_tables_are_listed_or_refused(self):
        self.check(package_with(*PARTS), FOUND, "one pivot table")
        for shown, (name, _), markup, wanted in CASES:
            self.check(package_with((name, markup), *PARTS), wanted, shown)

    def test_each_part_of_a_pivot_table_is_left_out_or_cut(self):
        for part, wanted, cut in WITHOUT:
            others = [own for own in [*PARTS, DEFINITIONS, RECORDS] if own != part]
            package = package_with(*others)
            self.check(package, wanted, part[0])
            self.check_rows(package, wanted or not_found("P1"), part[0])
            for count in range(len(events_of(part[1]))):
                package = package_cut(part, count, *others)
                self.check(package, cut, (part[0], count))
                self.check_rows(package, cut, (part[0], count))

    def test_pivot_tables_read_no_sheet_and_no_cache(self):
        broken = (SHEET_NAME, with_data('<c r="!" t="x"><v>1</v></c>'))
        definitions = ("xl/pivotCache/pivotCacheDefinition1.xml", "<x></y>")
        records = ("xl/pivotCache/pivotCacheRecords1.xml", "<x></y>")
        package = package_with(broken, definitions, records, *PARTS)
        self.check(package, FOUND, "parts that are refused")

    def test_pivot_tables_need_a_workbook_that_opens(self):
        self.check(package_of([RELATIONSHIPS, WORKBOOK, *PARTS]), absent(ROOT[0]), "no root")
        package = package_of([ROOT, RELATIONSHIPS, WORKBOOK, *PARTS])
        self.check(package, FOUND, "no part of the sheet")


if __name__ == "__main__":
    unittest.main()
