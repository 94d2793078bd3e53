"""Tries the calls of the reader on packages that are noted as markup, by the program call_answers.

The rows of the larger tables stand in tools/support/calls.
"""

import unittest

from support.call_tables import LEADING, Case, checked, opened, package, smallest, tables
from support.noted import (
    RELATIONSHIPS_NAME,
    ROOT,
    SHEET,
    SHEET_NAME,
    SMALLEST,
    STRINGS_NAME,
    WORKBOOK,
    WORKBOOK_NAME,
    with_data,
)

BESIDE = "xl/worksheets/_rels/sheet1.xml.rels"


def related(*kinds_and_targets):
    """The part of relationships without ids, each a type and a target."""
    each = (f'<Relationship Type="T/{kind}" Target="{to}"/>' for kind, to in kinds_and_targets)
    return f"<Relationships>{''.join(each)}</Relationships>"


def with_ids(kind, *ids_and_targets):
    """The part of relationships of one type, each an id and a target."""
    start = f'<Relationship Type="{kind}"'
    each = (f'{start} Id="{own}" Target="{target}"/>' for own, target in ids_and_targets)
    return f"<Relationships>{''.join(each)}</Relationships>"


def book_of(*names_and_ids):
    """The workbook's own part with these sheets."""
    each = (f'<sheet name="{name}" r:id="{own}"/>' for name, own in names_and_ids)
    return f"<workbook><sheets>{''.join(each)}</sheets></workbook>"


def sheet_ids(*ids):
    """The part of the workbook's relationships, to sheets that lie beside it."""
    return RELATIONSHIPS_NAME, with_ids("x/worksheet", *((own, f"{own}.xml") for own in ids))


def not_found(name):
    return f'!WorksheetNotFound("{name}")'


OUT_OF_RANGE = not_found("Sheet index 7 out of range")

# The calls of opening the smallest workbook: six parts are looked for, and the events taken are 4
# of the package's relationships, 4 of the workbook's and 6 of the workbook.
OPENING = 6 + 4 + 4 + 6


# Links.

ONE_TARGET = with_ids("T/hyperlink", ("a", "t"))
# A link whose id is `a`, and one whose id is empty.
TWO_LINKS = (
    '<worksheet><hyperlinks><hyperlink ref="A1" r:id="a"/><hyperlink ref="B1" r:id=""/>'
    "</hyperlinks></worksheet>"
)
NOWHERE = "(0,0)-(0,0) - - - -;(0,1)-(0,1) - - - -;"
TO_T = "(0,0)-(0,0) =t - - -;(0,1)-(0,1) - - - -;"

# A sheet with a cell, merged cells, a link outside and one inside.
LINKED = (
    '<worksheet><sheetData><row r="2"><c r="A2" t="str"><v>nut</v></c><c r="B2"><v>3</v></c></row>'
    '</sheetData><mergeCells><mergeCell ref="A5:B6"/><mergeCell ref="D1"/></mergeCells><hyperlinks>'
    '<hyperlink ref="A2" r:id="rId9" tooltip="a&amp;b"/>'
    '<hyperlink ref="B2:B3" location="S!A1" display="go"/><hyperlink location="x"/></hyperlinks>'
    "</worksheet>"
)
LINKED_BESIDE = (
    '<Relationships><Relationship Id="rId9" Type="T/hyperlink" Target="https://example.com"/>'
    '<Relationship Id="rId2" Type="T/table" Target="../tables/table1.xml"/>'
    '<Relationship Id="rId3" Type="T/pivotTable" Target="../pivotTables/pivotTable1.xml"/>'
    "</Relationships>"
)
OUTSIDE = "(1,0)-(1,0) =https://example.com - - =a&b;"
INSIDE = "(1,1)-(2,1) - =S!A1 =go -;"

ESCAPES = (
    '<hyperlinks><hyperlink ref="A1" location="_x0041_" display="_x000D_" tooltip="_xD800_"/>'
    "</hyperlinks>",
    "(0,0)-(0,0) - =A =\r =_xD800_;",
)


class Links(unittest.TestCase):
    @checked
    def test_links_are_read_and_refused(self):
        for sheet, wanted in [*tables("links")[0], ESCAPES]:
            own = package(*LEADING, (SHEET_NAME, sheet), (BESIDE, ONE_TARGET))
            yield opened(sheet, own, (("links", "S"), wanted), (("links_at", 0), wanted))

    @checked
    def test_sections_of_links_are_read_and_refused(self):
        call = "link_section", SHEET_NAME, "rId9", "https://example.com"
        for section, wanted in tables("links")[1]:
            yield Case(section, package((SHEET_NAME, section)), [(call, wanted)])

    @checked
    def test_targets_are_read_and_refused(self):
        sheet = SHEET_NAME, TWO_LINKS
        for beside, wanted in tables("links")[2]:
            own = package(*LEADING, sheet, (BESIDE, beside))
            yield opened(beside, own, (("links", "S"), wanted))
        yield opened("no relationships", package(*LEADING, sheet), (("links", "S"), NOWHERE))

    @checked
    def test_targets_are_looked_for_beside_the_part(self):
        for target, path, beside in tables("links")[3]:
            leading = RELATIONSHIPS_NAME, with_ids("x/worksheet", ("rId1", target))
            own = package(ROOT, leading, WORKBOOK, (path, TWO_LINKS), (beside, ONE_TARGET))
            yield opened(target, own, (("links", "S"), TO_T))

    @checked
    def test_links_go_by_the_names_of_sheets(self):
        # Two sheets of one name, and one whose part is absent and whose relationships are at fault.
        own = package(
            ROOT,
            sheet_ids("a", "b", "c"),
            (WORKBOOK_NAME, book_of(("S", "a"), ("S", "b"), ("T", "c"))),
            ("xl/a.xml", TWO_LINKS),
            ("xl/_rels/a.xml.rels", ONE_TARGET),
            ("xl/b.xml", '<worksheet><hyperlinks><hyperlink ref="C1"/></hyperlinks></worksheet>'),
            ("xl/_rels/c.xml.rels", "<Relationships>"),
        )
        for index, wanted in [(0, TO_T), (1, TO_T), (2, not_found("T")), (7, OUT_OF_RANGE)]:
            yield opened(f"the sheet {index}", own, (("links_at", index), wanted))
        for name, wanted in [("S", TO_T), ("T", not_found("T")), ("Z", not_found("Z"))]:
            yield opened(f"the sheet {name}", own, (("links", name), wanted))

    @checked
    def test_links_have_areas_and_copies(self):
        own = package(*LEADING, (SHEET_NAME, LINKED), (BESIDE, LINKED_BESIDE))
        yield opened("by the index", own, (("links_at", 0), OUTSIDE + INSIDE))
        copies = f"{OUTSIDE}true true;{INSIDE}true false;"
        yield opened("copies", own, (("link_copies", "S"), copies))
        for row, column, wanted in [
            (1, 0, "true;false;"),
            (0, 0, "false;false;"),
            (1, 1, "false;true;"),
            (2, 1, "false;true;"),
            (3, 1, "false;false;"),
        ]:
            yield opened(f"{row},{column}", own, (("link_holds", "S", row, column), wanted))


# Merged cells.

# 7 events up to the end of the section, and one more of the part.
MERGED = (
    '<worksheet><mergeCells><mergeCell ref="A1"/><mergeCell ref="B1"/></mergeCells></worksheet>'
)
TWO_REGIONS = "S(0,0)-(0,0)S(0,1)-(0,1)"


class MergedCells(unittest.TestCase):
    @checked
    def test_merged_cells_are_read_and_refused(self):
        for sheet, wanted, lenient, regions in tables("merges")[0]:
            loaded = [(("load_regions",), ""), (("regions",), regions)]
            if regions.startswith("!"):
                loaded = [(("load_regions",), regions), (("regions",), "not loaded")]
            yield opened(
                sheet,
                smallest((SHEET_NAME, sheet)),
                (("merges", "S"), wanted),
                (("merges_at", 0), wanted),
                (("lenient", "S"), lenient),
                (("lenient_at", 0), lenient),
                *loaded,
            )

    @checked
    def test_sections_of_merged_cells_are_read_and_refused(self):
        for section, wanted in tables("merges")[1]:
            own = package((SHEET_NAME, section))
            yield Case(section, own, [(("merge_section", SHEET_NAME), wanted)])

    @checked
    def test_merged_cells_go_by_the_names_of_sheets(self):
        # Two sheets of one name, and one whose part is absent.
        own = package(
            ROOT,
            sheet_ids("a", "b", "c"),
            (WORKBOOK_NAME, book_of(("S", "a"), ("S", "b"), ("T", "c"))),
            ("xl/a.xml", '<worksheet><mergeCells><mergeCell ref="A1"/></mergeCells></worksheet>'),
            ("xl/b.xml", '<worksheet><mergeCells><mergeCell ref="B1"/></mergeCells></worksheet>'),
        )
        first = "(0,0)-(0,0)"
        for index, wanted, lenient in [
            (0, first, first),
            (1, first, first),
            (2, not_found("T"), "None"),
            (7, OUT_OF_RANGE, "None"),
        ]:
            calls = [(("merges_at", index), wanted), (("lenient_at", index), lenient)]
            yield opened(f"the sheet {index}", own, *calls)
        calls = [(("merges", "Z"), not_found("Z")), (("lenient", "Z"), "None")]
        yield opened("no sheet", own, *calls)
        yield opened(
            "regions",
            own,
            (("regions",), "not loaded"),
            (("load_regions",), ""),
            (("regions",), TWO_REGIONS),
            (("regions_of", "S"), TWO_REGIONS),
            (("regions_of", "T"), ""),
        )

    @checked
    def test_regions_stay_where_a_loading_fails(self):
        own = package(*LEADING, (SHEET_NAME, MERGED))
        calls = 1 + 8 + 1
        for number in range(OPENING + calls, OPENING + 2 * calls):
            yield opened(
                f"call {number} fails",
                own,
                (("load_regions",), ""),
                (("load_regions",), "!Io"),
                (("regions",), TWO_REGIONS),
                fails=(number,),
            )


# Properties.

CORE, PROGRAM, CUSTOM = "docProps/core.xml", "docProps/app.xml", "docProps/custom.xml"
TITLE = CORE, "<a><title>T</title></a>"


class Properties(unittest.TestCase):
    @checked
    def test_properties_are_read_and_refused(self):
        for name, markup, wanted in tables("properties")[0]:
            own = package(*SMALLEST, (name, markup))
            yield opened(markup, own, *[(("properties",), wanted)] * 2)

    @checked
    def test_the_programs_part_is_read_behind_the_core_part(self):
        own = package(
            *SMALLEST,
            (PROGRAM, "<a><Company>D</Company></a>"),
            (CORE, "<a><Company>C</Company><Manager>M</Manager></a>"),
        )
        yield opened("both parts", own, (("properties",), "company=D;manager=M;"))

    @checked
    def test_a_copy_has_the_same_texts(self):
        custom = CUSTOM, '<p><property name="A"><v>1</v></property></p>'
        own = package(*SMALLEST, TITLE, custom)
        yield opened("a copy", own, (("property_copies",), "title=T;A:1;"))

    @checked
    def test_a_fault_in_properties_is_told_and_keeps_none(self):
        own = package(*SMALLEST, TITLE, (CUSTOM, '<p><property name="A"/></p>'))
        # Three parts are looked for, and of the two that are there 5 and 4 events are taken, and
        # their ends.
        for number in range(OPENING, OPENING + 3 + 6 + 5):
            yield opened(
                f"call {number} fails",
                own,
                (("properties",), "!Io"),
                *[(("properties",), "title=T;A:;")] * 2,
                (("faults",), "1"),
                fails=(number,),
            )


# Tables.

TABLE_NAME = "xl/tables/table1.xml"
TABLE = (
    '<table displayName="T1" ref="A1:B4" totalsRowCount="1"><tableColumns>'
    '<tableColumn name="Name"/><tableColumn name="Qty"/></tableColumns></table>'
)
NUTS = with_data('<row r="2"><c r="A2" t="str"><v>nut</v></c><c r="B2"><v>3</v></c></row>')
STRINGS = STRINGS_NAME, "<sst><si><t>red</t></si></sst>"


def table_named(name, area="A1", more=' headerRowCount="0"'):
    return f'<table displayName="{name}" ref="{area}"{more}></table>'


def with_table(sheet, table):
    """A workbook with this sheet and this table."""
    beside = BESIDE, related(("table", "../tables/table1.xml"))
    return package(*LEADING, STRINGS, (SHEET_NAME, sheet), beside, (TABLE_NAME, table))


# The calls of the opening: six parts are looked for, and the events taken are 4 of the package's
# relationships, 4 of the workbook's, 6 of the workbook and 7 of the strings. Those of a loading:
# two parts are looked for, and the events taken are 4 of the relationships and 8 of the table.
OPENING_WITH_STRINGS = 6 + 4 + 4 + 6 + 7
LOADING = 2 + 4 + 8


class Tables(unittest.TestCase):
    @checked
    def test_tables_are_found_by_relationships(self):
        others = ("table1.xml", "T2"), ("xl/t.xml", "T3"), ("xl/../t.xml", "T4")
        others = [(path, table_named(name)) for path, name in others]
        for beside, wanted in tables("tables")[0]:
            own = package((BESIDE, beside), (TABLE_NAME, TABLE), *others)
            yield Case(beside, own, [(("sheet_tables", SHEET_NAME), wanted)])

    @checked
    def test_table_parts_are_read_and_refused(self):
        one = BESIDE, with_ids("T/table", ("a", "../tables/table1.xml"))
        for table, wanted in tables("tables")[1]:
            calls = ("sheet_tables", SHEET_NAME), ("table_part", TABLE_NAME)
            own = package(one, (TABLE_NAME, table))
            yield Case(table, own, [(call, wanted) for call in calls])

    @checked
    def test_tables_are_loaded_and_their_data_read(self):
        for table, wanted, cells in tables("tables")[2]:
            refused, is_refused, left = wanted.rpartition(" not loaded")
            calls = ("load_tables",), refused
            asked = [(("tables",), left), (("table", "T1"), cells)]
            if is_refused:
                asked = [(words, "not loaded") for words, _ in asked]
            yield opened(table, with_table(NUTS, table), calls, *asked)

    @checked
    def test_data_of_tables_are_those_of_their_sheets(self):
        for sheet, row, cells, places in tables("tables")[3]:
            yield opened(
                sheet,
                with_table(sheet, TABLE),
                (("header", row), ""),
                (("load_tables",), ""),
                (("table", "T1"), cells),
                (("table_ref", "T1"), places),
            )

    @checked
    def test_data_of_tables_are_shown(self):
        styles = (
            "xl/styles.xml",
            '<styleSheet><numFmts><numFmt numFmtId="164" formatCode="#,##0.00"/></numFmts>'
            '<cellXfs><xf numFmtId="164"/><xf numFmtId="9"/></cellXfs></styleSheet>',
        )
        sheet = with_data(
            '<c r="A2"><v>-1234.5</v></c><c r="B3" s="1"><v>0.285</v></c><c r="C3"><v>1</v></c>'
        )
        beside = BESIDE, related(("table", "../tables/table1.xml"))
        own = package(*LEADING, styles, (SHEET_NAME, sheet), beside, (TABLE_NAME, TABLE))
        for row, cells in (
            ("first", "(1,0 s:-1,234.50)(2,1 s:29%)"),
            ("2", "(2,1 s:29%)"),
            ("7", ""),
        ):
            yield opened(
                row,
                own,
                (("header", row), ""),
                (("table_shown", "T1"), "not loaded"),
                (("load_tables",), ""),
                (("table_shown", "T1"), f"T1 S(1,0)-(2,1) Name Qty;{cells}"),
                (("table_shown", "T2"), '!TableNotFound("T2")'),
            )

    @checked
    def test_tables_have_their_whole_areas_and_counts(self):
        for table, wanted in tables("tables")[4]:
            yield opened(
                table,
                with_table(NUTS, table),
                (("table_shapes",), "not loaded"),
                (("load_tables",), ""),
                (("table_shapes",), wanted),
            )

    @checked
    def test_tables_go_by_the_names_of_sheets(self):
        # Two sheets of one name, and one of another whose part is that of the first.
        one, two = (with_data(f'<c r="A1"><v>{number}</v></c>') for number in (1, 2))
        own = package(
            ROOT,
            sheet_ids("a", "b"),
            (WORKBOOK_NAME, book_of(("S", "a"), ("S", "b"), ("T", "a"))),
            ("xl/a.xml", one),
            ("xl/b.xml", two),
            ("xl/_rels/a.xml.rels", related(("table", "one.xml"))),
            ("xl/_rels/b.xml.rels", related(("table", "two.xml"))),
            ("one.xml", table_named("One")),
            ("two.xml", table_named("Two")),
        )
        loading = ("load_tables",), ""
        all_three = "One Two One S(0,0)-(0,0);S(0,0)-(0,0);T(0,0)-(0,0);"
        yield opened("all tables", own, loading, (("tables",), all_three))
        for name, wanted in [("S", "One Two "), ("T", "One "), ("U", "")]:
            yield opened(f"those of {name}", own, loading, (("table_names", name), wanted))
        for name in ("One", "Two"):
            wanted = f"{name} S(0,0)-(0,0);(0,0 n:1)"
            yield opened(f"the table {name}", own, loading, (("table", name), wanted))

    @checked
    def test_tables_stay_where_a_loading_fails(self):
        for number in range(OPENING_WITH_STRINGS + LOADING, OPENING_WITH_STRINGS + 2 * LOADING):
            yield opened(
                f"call {number} fails",
                with_table(NUTS, TABLE),
                (("load_tables",), ""),
                (("load_tables",), "!Io"),
                (("tables",), "T1 S(1,0)-(2,1) Name Qty;"),
                (("table", "T1"), "T1 S(1,0)-(2,1) Name Qty;(1,0 s:nut)(1,1 n:3)"),
                (("faults",), "1"),
                fails=(number,),
            )

    @checked
    def test_nothing_is_read_of_an_empty_table(self):
        yield opened(
            "a call behind two loadings fails",
            with_table(NUTS, table_named("T1", "A1:B1", "")),
            *[(("load_tables",), "")] * 2,
            (("tables",), "T1 S-;"),
            (("table", "T1"), "T1 S-;"),
            (("faults",), "0"),
            fails=(OPENING_WITH_STRINGS + 2 * LOADING,),
        )


# Pivot tables.

PIVOT = "xl/pivotTables/pivotTable1.xml"
PIVOT_BESIDE = "xl/pivotTables/_rels/pivotTable1.xml.rels"
CACHE = "xl/pivotCache/pivotCacheDefinition1.xml"
CACHE_BESIDE = "xl/pivotCache/_rels/pivotCacheDefinition1.xml.rels"
CACHE_RECORDS = "xl/pivotCache/pivotCacheRecords1.xml"
TO_PIVOT = "pivotTable", "../pivotTables/pivotTable1.xml"
# A sheet with one pivot table.
PIVOTED = [
    (BESIDE, related(TO_PIVOT)),
    (PIVOT, '<pivotTableDefinition name="P1"/>'),
    (PIVOT_BESIDE, related(("pivotCacheDefinition", "../pivotCache/pivotCacheDefinition1.xml"))),
    (CACHE_BESIDE, related(("pivotCacheRecords", "pivotCacheRecords1.xml"))),
]
FOUND = f"S P1 {CACHE} {CACHE_RECORDS};"
FIND = "find_pivots", "xl/", f"S:{SHEET_NAME}"


class Pivots(unittest.TestCase):
    @checked
    def test_parts_of_pivots_may_be_absent(self):
        for name, wanted in tables("pivots")[0]:
            own = package(*(part for part in PIVOTED if part[0] != name))
            yield Case(f"without {name}", own, [(FIND, wanted)])

    def replaced(self, name, rows):
        """Each row has the markup of this part, and what is told then."""
        for markup, wanted in rows:
            own = package((name, markup), *PIVOTED)
            yield Case(markup, own, [(FIND, FOUND if wanted == "P1" else wanted)])

    @checked
    def test_pivots_are_found_by_relationships(self):
        return self.replaced(BESIDE, tables("pivots")[1])

    @checked
    def test_parts_of_pivots_are_read_and_refused(self):
        return self.replaced(PIVOT, tables("pivots")[2])

    @checked
    def test_definitions_are_found_by_relationships(self):
        return self.replaced(PIVOT_BESIDE, tables("pivots")[3])

    @checked
    def test_records_are_found_by_relationships(self):
        return self.replaced(CACHE_BESIDE, tables("pivots")[4])

    @checked
    def test_pivots_are_asked_by_names(self):
        # A second pivot table of the sheet has the name of the first one, and a cache of its own.
        own = package(
            *LEADING[:2],
            (WORKBOOK_NAME, book_of(("S", "rId1"), ("T", "rId1"), ("S", "rId1"))),
            (BESIDE, related(TO_PIVOT, ("pivotTable", "/xl/p2.xml"), TO_PIVOT)),
            ("xl/p2.xml", '<pivotTableDefinition name="P1"/>'),
            ("xl/_rels/p2.xml.rels", related(("pivotCacheDefinition", "/xl/d2.xml"))),
            ("xl/_rels/d2.xml.rels", related(("pivotCacheRecords", "r2.xml"))),
            *PIVOTED,
        )
        names = "S", "T", "S"
        wanted = "".join(f"{name} P1 {CACHE} {CACHE_RECORDS};" * 3 for name in names)
        sheets = [f"{name}:{SHEET_NAME}" for name in names]
        yield Case("of three sheets", own, [(("find_pivots", "xl/", *sheets), wanted)])
        for words, told in [
            (("pivot_names", "T"), "P1;P1;P1;"),
            (("pivot_names", "U"), ""),
            (("pivot_paths", "S", "P1"), FOUND),
            (("pivot_paths", "S", "P2"), "S P2;"),
            (("pivot_paths", "U", "P1"), "U P1;"),
        ]:
            yield opened(" ".join(words), own, (("pivots",), wanted), (words, told))


# Caches of pivot tables.

FIELDS = (
    '<pivotCacheDefinition><cacheFields><cacheField name="Kind"><sharedItems><s v="nut"/>'
    '<s v="bolt"/></sharedItems></cacheField><cacheField name="Qty"><sharedItems/></cacheField>'
    "</cacheFields></pivotCacheDefinition>"
)
RECORDS = (
    '<pivotCacheRecords><r><x v="1"/><n v="3"/></r><r><x v="0"/><n v="2.50"/></r>'
    "</pivotCacheRecords>"
)


ROWS = "cache_rows", "d.xml", "r.xml"


class Caches(unittest.TestCase):
    @checked
    def test_fields_are_read_with_their_items(self):
        for markup, wanted in tables("pivot_cache")[0]:
            yield Case(markup, package(("d.xml", markup)), [(("cache_fields", "d.xml"), wanted)])

    def by_records(self, rows, call):
        """Each row has records of the two fields, and what a call answers of them."""
        for markup, wanted in rows:
            own = package(("d.xml", FIELDS), ("r.xml", markup))
            yield Case(markup, own, [(call, wanted)])

    @checked
    def test_records_are_read_by_fields(self):
        return self.by_records(tables("pivot_cache")[1], ROWS)

    @checked
    def test_no_row_comes_behind_the_end_or_a_refusal(self):
        return self.by_records(tables("pivot_cache")[2], ("cache_next", "d.xml", "r.xml", 5))

    @checked
    def test_rows_are_collected(self):
        return self.by_records([(RECORDS, "3")], ("cache_collected", "d.xml", "r.xml"))

    @checked
    def test_parts_of_a_cache_that_are_absent_are_told(self):
        for name, markup, absent in [("r.xml", RECORDS, "d.xml"), ("d.xml", FIELDS, "r.xml")]:
            wanted = f'!FileNotFound("{absent}")'
            yield Case(f"without {absent}", package((name, markup)), [(ROWS, wanted)])


# Cells, asked for one by one.

# A formula of a group in A1, with a value, and one that is derived from it in A2.
GROUP = (
    '<row r="1"><c r="A1"><f t="shared" ref="A1:A2" si="0">B1</f><v>1</v></c></row>'
    '<row><c><f t="shared" si="0"/></c></row>'
)


class Cells(unittest.TestCase):
    def asked(self, sheet, calls, wanted, shown):
        """What these calls of a reader of the sheet's part answer."""
        call = "part_cells", SHEET_NAME, *calls.split()
        return Case(shown, package((SHEET_NAME, sheet)), [(call, wanted)])

    @checked
    def test_cells_are_asked_for_one_by_one(self):
        for shown, rows, calls, wanted in tables("cells")[0]:
            yield self.asked(with_data(rows), calls, wanted, shown)

    @checked
    def test_calls_are_mixed(self):
        for shown, rows, calls, wanted in tables("cells")[1]:
            yield self.asked(with_data(rows), calls, wanted.split("|"), shown)

    @checked
    def test_the_end_of_a_part_is_told_by_what_is_asked_for(self):
        for front, calls, wanted in tables("cells")[2]:
            yield self.asked(front, calls, wanted, front)

    @checked
    def test_a_reader_goes_on_behind_the_head(self):
        own = package((SHEET_NAME, with_data(GROUP)))
        for path, wanted in [(SHEET_NAME, "2"), ("none", "0")]:
            yield Case(f"the cells of {path}", own, [(("count_cells", path), wanted)])

    @checked
    def test_a_fault_of_the_package_is_told_once(self):
        asked = "part_cells", SHEET_NAME, "value", "value", "value"
        for number, wanted in [
            (0, "!Io"),
            (1, "!Io"),
            (2, "!Io"),
            (3, "!Io;!Failed;!Failed;"),
            (8, "!Io;!Failed;!Failed;"),
            (9, "(0,0 s:nut)!Io;!Failed;"),
            (10, "(0,0 s:nut)!Io;!Failed;"),
            (11, "(0,0 s:nut).."),
        ]:
            calls = [(asked, wanted)]
            if number < 11:
                calls += [(("faults",), "1"), (asked, "(0,0 s:nut)..")]
            yield Case(f"call {number} fails", package(SHEET), calls, (number,))

    @checked
    def test_readers_are_opened_or_refused(self):
        for sheet, name, wanted in [
            (TWO_CELLS, "S", "(1,0 n:1)(3,1 n:2)......."),
            (TWO_CELLS, "T", not_found("T")),
            ("<chartsheet/>", "S", '!NotAWorksheet("chartsheet")'),
            ("<worksheet>", "S", '!NotAWorksheet("worksheet")'),
        ]:
            calls = [(("cells", name, *NINE_VALUES), wanted)] * 2
            yield opened(sheet, smallest((SHEET_NAME, sheet)), *calls)

    @checked
    def test_readers_have_the_styles_of_their_workbook(self):
        sheet = tables("ranges")[2][0][0]
        own = package(*LEADING, (SHEET_NAME, sheet), ("xl/styles.xml", styles_of(3)))
        calls = "cells", "S", "styles", "style", "style", "style"
        wanted = "3 styles;(0,0 style 1)(0,0 style 2)."
        yield opened("three styles", own, (("theme_defaulted",), "true"), (calls, wanted))


# Ranges of worksheets, and what is known of workbooks.


def styles_of(count):
    """The part of styles with so many formats of cells."""
    return f"<styleSheet><cellXfs>{'<xf/>' * count}</cellXfs></styleSheet>"


# 1 in A2 and 2 in B4.
TWO_CELLS = with_data(
    '<row r="2"><c r="A2"><v>1</v></c></row><row r="4"><c r="B4"><v>2</v></c></row>'
)
NINE_VALUES = ["value"] * 9
BOTH = "(1,0)-(3,1):(1,0 n:1)(3,1 n:2)"
# Three sheets, of which the third has the name of the first and the part of the second, which has 7
# in C3.
THREE_SHEETS = [
    ROOT,
    (
        RELATIONSHIPS_NAME,
        '<Relationships><Relationship Id="one" Type="x/worksheet" Target="worksheets/sheet1.xml"/>'
        '<Relationship Id="two" Type="x/chartsheet" Target="sheet2.xml"/></Relationships>',
    ),
    (WORKBOOK_NAME, book_of(("S", "one"), ("T", "two"), ("S", "two"))),
    ("xl/sheet2.xml", with_data('<c r="C3"><v>7</v></c>')),
]
OF_T = "T (2,2)-(2,2):(2,2 n:7);"


# The calls of opening that workbook: six parts are looked for, three of which are absent, and the
# events taken are 4 of the package's relationships, 6 of the workbook's and 10 of the workbook.
OPENING_THREE = 6 + 4 + 6 + 10
# Those of listing: three parts are looked for, and 17 events of the first sheet's part are taken
# twice, 8 of the other once.
LISTING = 3 + 2 * 17 + 8


class Ranges(unittest.TestCase):
    @checked
    def test_sheets_are_listed_by_their_names_or_left_out(self):
        for sheet, wanted in tables("ranges")[0]:
            own = package((SHEET_NAME, sheet), *THREE_SHEETS)
            calls = (("worksheets",), wanted + OF_T + wanted), (("faults",), "0")
            yield opened(sheet, own, *calls)
        yield opened("no first sheet", package(*THREE_SHEETS), (("worksheets",), OF_T))

    @checked
    def test_listed_sheets_begin_with_the_header_row(self):
        own = smallest((SHEET_NAME, TWO_CELLS))
        calls = (("header", 2), ""), (("worksheets",), "S (2,1)-(3,1):(3,1 n:2);")
        yield opened("from row 2", own, *calls)

    @checked
    def test_a_fault_of_each_call_lists_no_sheet(self):
        own = package((SHEET_NAME, TWO_CELLS), *THREE_SHEETS)
        for number in range(LISTING):
            calls = (("worksheets",), "!Io"), (("faults",), "1")
            yield opened(f"call {number} fails", own, *calls, fails=(OPENING_THREE + number,))
        calls = (("worksheets",), f"S {BOTH};{OF_T}S {BOTH};"), (("faults",), "0")
        yield opened("none fails", own, *calls, fails=(OPENING_THREE + LISTING,))

    @checked
    def test_shared_strings_are_read_by_their_places(self):
        strings = STRINGS_NAME, "<sst><si><t>a</t></si><si><t>b</t></si></sst>"
        for sheet, row, wanted in tables("ranges")[1]:
            own = package(strings, (SHEET_NAME, sheet), *THREE_SHEETS)
            yield opened(sheet, own, (("header", row), ""), (("range_ref", "S"), wanted))
        own = package(*THREE_SHEETS)
        yield opened("no first sheet", own, (("range_ref", "S"), not_found("S")))

    @checked
    def test_the_first_id_of_a_position_gives_its_style(self):
        for sheet, name, count, wanted in tables("ranges")[2]:
            styles = "xl/styles.xml", styles_of(int(count))
            own = package(*LEADING, (SHEET_NAME, sheet), styles)
            yield opened(sheet, own, (("styles",), count), (("style", name), wanted))

    @checked
    def test_values_and_formulas_are_read_apart(self):
        for sheet, values, formulas in tables("ranges")[3]:
            yield opened(
                sheet,
                smallest((SHEET_NAME, sheet)),
                (("range", "S"), values),
                (("formula", "S"), formulas),
                (("header", "first"), ""),
                (("range", "S"), values),
                (("sheets",), "1"),
                (("faults",), "0"),
            )

    @checked
    def test_ranges_begin_with_the_header_row(self):
        rows = [
            (0, "(0,0)-(3,1):(1,0 n:1)(3,1 n:2)"),
            (2, "(2,1)-(3,1):(3,1 n:2)"),
            (1, BOTH),
            (3, "(3,1)-(3,1):(3,1 n:2)"),
            (4, ""),
            (4294967295, ""),
            ("first", BOTH),
        ]
        calls = [(("range", "S"), BOTH)]
        for row, wanted in rows:
            calls += [(("header", row), ""), (("range", "S"), wanted)]
        yield opened("header rows in turn", smallest((SHEET_NAME, TWO_CELLS)), *calls)

    @checked
    def test_absent_sheets_are_told(self):
        for words in [("range", "S"), ("formula", "S"), ("cells", "S", *NINE_VALUES)]:
            yield opened(words[0], package(*LEADING), (words, not_found("S")))


# Three sheets with parts of their own, of which the third has the name of the first.
APART = [
    ROOT,
    sheet_ids("one", "two", "three"),
    (WORKBOOK_NAME, book_of(("S", "one"), ("T", "two"), ("S", "three"))),
]


def with_formula(text):
    """The part of a sheet with this formula in A1."""
    return with_data(f'<c r="A1"><f>{text}</f></c>')


class Formulas(unittest.TestCase):
    @checked
    def test_formulas_of_all_sheets_have_the_areas_that_they_cover(self):
        for cells, wanted in tables("formulas")[0]:
            calls = (("formulas",), wanted), (("sheets",), "1"), (("formulas",), wanted)
            yield opened(cells, smallest((SHEET_NAME, with_data(cells))), *calls)

    @checked
    def test_sheets_of_one_name_have_their_own_formulas(self):
        ends = ("xl/one.xml", with_formula(1)), ("xl/three.xml", with_formula(3))
        for sheet, wanted in tables("formulas")[1]:
            own = package(*APART, ("xl/two.xml", sheet), *ends)
            yield opened(sheet, own, (("formulas",), wanted), (("faults",), "0"))

    @checked
    def test_a_sheet_without_a_part_has_no_formulas(self):
        own = package(*APART, ("xl/three.xml", with_formula(3)))
        yield opened("one part of three", own, (("formulas",), "2 (0,0) (0,0)-(0,0) =3;"))

    @checked
    def test_the_first_sheet_that_is_refused_refuses_the_formulas(self):
        ends = ("xl/one.xml", with_formula(1)), ("xl/three.xml", with_data('<c r="A"/>'))
        wanted = "!RangeWithoutRowComponent"
        yield opened("the third", package(*APART, *ends), (("formulas",), wanted))
        two = "xl/two.xml", with_data('<c r="1"/>')
        wanted = "!RangeWithoutColumnComponent"
        yield opened("two of three", package(*APART, two, *ends), (("formulas",), wanted))


def sample_lines(rows):
    """The lines of a sample, as docs/FORMAT.md has its cells."""
    lines = []
    for row in range(1, rows + 1):
        color = ("red", "green", "blue")[row % 3]
        fill = "#FFFF00" if row % 2 else "-"
        lines += [f"A{row}\tn:{row}\t-\t-\n", f"B{row}\tn:{2 * row}\t=A{row}*2\t-\n"]
        lines.append(f"C{row}\ts:{color}\t-\t{fill}\n")
    return "".join(lines)


class Workbooks(unittest.TestCase):
    @checked
    def test_shared_strings_are_told_by_their_places(self):
        strings = (
            "XL\\sharedstrings.xml",
            "<sst><si><t>zero</t></si><si/><si><t>t</t><r><t>wo</t></r></si></sst>",
        )
        places = [(0, "=zero"), (1, "="), (2, "=two"), (3, "-"), (2**64 - 1, "-")]
        calls = [(("string", place), wanted) for place, wanted in places]
        yield opened("three strings", package(*LEADING, strings), *calls, (("close",), "4"))

    @checked
    def test_a_workbook_tells_its_epoch_and_its_theme(self):
        known = (("has_1904_epoch",), "false"), (("theme_defaulted",), "true"), (("sheets",), "1")
        yield opened("neither", package(*LEADING), *known)
        dated = book_of(("S", "rId1")).replace("<sheets>", '<workbookPr date1904="1"/><sheets>')
        colors = "".join(
            f'<{slot}><srgbClr val="0{number}0000"/></{slot}>'
            for number, slot in enumerate(("dk1", "lt1", "dk2", "lt2"), 1)
        )
        theme = "xl/theme/theme1.xml", f"<theme><clrScheme>{colors}</clrScheme></theme>"
        own = package(*LEADING[:2], (WORKBOOK_NAME, dated), theme)
        known = (("has_1904_epoch",), "true"), (("theme_defaulted",), "false"), (("faults",), "0")
        yield opened("both", own, *known)

    @checked
    def test_names_have_their_scopes(self):
        for names, wanted in tables("scopes")[0]:
            book = book_of(("S", "rId1")).replace("</workbook>", f"{names}</workbook>")
            own = package(*LEADING[:2], (WORKBOOK_NAME, book))
            yield opened(names, own, (("name_scopes",), wanted))

    @checked
    def test_a_sample_of_five_rows_is_read(self):
        calls = [(("counts", "Sample"), "15 5 3 5"), (("reading", "Sample"), sample_lines(5))]
        yield Case("five rows", "sample\t5", calls)


if __name__ == "__main__":
    unittest.main()
