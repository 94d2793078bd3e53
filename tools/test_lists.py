"""Tries the built program on the lists around the cells: merged cells, links and properties."""

import subprocess
import unittest

from support.noted import (
    RELATIONSHIPS,
    ROOT,
    SHEET,
    SHEET_NAME,
    SMALLEST,
    TYPES,
    WORKBOOK,
    WORKBOOK_NAME,
    events_of,
    package_cut,
    package_of,
    package_with,
    refused,
    told,
)
from test_program import BUILDS, OUT

NO_ROW = refused("Range is missing the expected row component.")
NO_END = refused("Unexpected end of xml, expecting '</>'")


def merged(*starts):
    """The part of a sheet with these starts in its merged cells."""
    each = "".join(f"<mergeCell {own}/>" for own in starts)
    return f"<worksheet><sheetData/><mergeCells>{each}</mergeCells></worksheet>"


# What a case shows, the part of a sheet, and its merged cells, or their refusals.
MERGES = [
    ("two areas", merged('ref="A5:B6"', 'ref="D1"'), "A5:B6\nD1:D1\n"),
    ("no section", "<worksheet><sheetData/></worksheet>", ""),
    ("nothing at all", "", ""),
    ("an empty section", merged(), ""),
    (
        "the first of two sections counts",
        '<worksheet><mergeCells/><mergeCells><mergeCell ref="A1"/></mergeCells></worksheet>',
        "",
    ),
    (
        "and so does one in an extension before",
        '<worksheet><extLst><mergeCells><mergeCell ref="A1"/></mergeCells></extLst>'
        '<mergeCells><mergeCell ref="B1"/></mergeCells></worksheet>',
        "A1:A1\n",
    ),
    (
        "a start outside of the section is none",
        '<worksheet><mergeCell ref="A1"/><mergeCells/><mergeCell ref="A0"/></worksheet>',
        "",
    ),
    (
        "one at any depth in it is",
        '<worksheet><mergeCells><x><mergeCell ref="A1"/></x></mergeCells></worksheet>',
        "A1:A1\n",
    ),
    ("names have prefixes", '<x:mergeCells><x:mergeCell ref="A1"/></x:mergeCells>', "A1:A1\n"),
    ("a part that ends in the section", '<mergeCells><mergeCell ref="A1"/>', NO_END),
    ("a part that ends elsewhere", "<worksheet><sheetData><row>", ""),
    (
        "an end that breaks the nesting before the section",
        '<worksheet></x><mergeCells><mergeCell ref="A1"/></mergeCells>',
        refused("Xml error: end tag mismatch at 1"),
    ),
    (
        "one in it",
        '<worksheet><mergeCells><mergeCell ref="A1"></x>',
        refused("Xml error: end tag mismatch at 3"),
    ),
    ("one behind it", merged('ref="A1"') + "</x>", "A1:A1\n"),
    (
        "cells that can't be read",
        '<worksheet><sheetData><c r="!" t="x"><v>1</v></c></sheetData><mergeCells>'
        '<mergeCell ref="A1"/></mergeCells></worksheet>',
        "A1:A1\n",
    ),
    ("an empty reference", merged('ref=""'), NO_ROW),
    ("a row 0", merged('ref="A0"'), NO_ROW),
    ("a column past the last", merged('ref="XFE1"'), refused("column number overflow")),
    ("a row past the last", merged('ref="A1048577"'), refused("row number overflow")),
    ("the last cell", merged('ref="XFD1048576"'), "XFD1048576:XFD1048576\n"),
    (
        "three corners",
        merged('ref="A1:B2:C3"'),
        refused("Range dimension must be lower than 2. Got 3"),
    ),
    ("a dollar", merged('ref="$A$1"'), refused("Expecting alphanumeric character, got 24")),
    ("small letters", merged('ref="a1:b2"'), "A1:B2\n"),
    ("corners as they are written", merged('ref="B2:A1"'), "B2:A1\n"),
    ("a start without reference", merged("", 'r="A1"'), ""),
    ("no area behind a fault", merged('ref="A1"', 'ref="A0"'), NO_ROW),
    ("a fault behind the reference", merged('ref="A1" x'), "A1:A1\n"),
    ("a fault before it", merged("x"), refused("Xml attribute error: expected '=' at 1")),
    ("the first of two references", merged('ref="A1" ref="B1"'), "A1:A1\n"),
]

# Sheets of which the second has no part, and the third the first one's name.
SHEETS = [
    ROOT,
    (
        "xl/_rels/workbook.xml.rels",
        '<Relationships><Relationship Id="a" Type="x/worksheet" Target="a.xml"/>'
        '<Relationship Id="b" Type="x/worksheet" Target="b.xml"/>'
        '<Relationship Id="c" Type="x/worksheet" Target="c.xml"/></Relationships>',
    ),
    (
        WORKBOOK_NAME,
        '<workbook><sheets><sheet name="S" r:id="a"/><sheet name="T" r:id="b"/>'
        '<sheet name="S" r:id="c"/></sheets></workbook>',
    ),
    ("xl/a.xml", merged('ref="A1"')),
    ("xl/c.xml", merged('ref="C1"')),
]

RELATED_NAME = "xl/worksheets/_rels/sheet1.xml.rels"
LINK = f'Type="{TYPES}hyperlink"'


def linked(*starts):
    """The part of a sheet with these starts in its links."""
    each = "".join(f"<hyperlink {own}/>" for own in starts)
    return f"<worksheet><sheetData/><hyperlinks>{each}</hyperlinks></worksheet>"


def targets(*starts):
    """The part of a sheet's relationships."""
    each = "".join(f"<Relationship {own}/>" for own in starts)
    return f"<Relationships>{each}</Relationships>"


def to(place):
    """The line of a link of A1 with this target."""
    return f"A1:A1\t={place}\t-\t-\t-\n"


ONE = targets(f'Id="a" {LINK} Target="t"')
BY_ID = linked('ref="A1" r:id="a"')
NOWHERE = "A1:A1\t-\t-\t-\t-\n"
NO_LINKS_END = refused("Unexpected end of xml, expecting '</hyperlinks>'")
NO_RELATED_END = refused("Unexpected end of xml, expecting '</Relationships>'")

# What a case shows, the relationships of a sheet or None, its part, and its links, or their
# refusals.
LINKS = [
    (
        "links out of the workbook and inside it",
        targets(f'Id="rId9" {LINK} Target="https://example.com"'),
        linked(
            'ref="A2" r:id="rId9" tooltip="a&amp;b"',
            'ref="B2:B3" location="S!A1" display="go"',
            'location="x"',
        ),
        "A2:A2\t=https://example.com\t-\t-\t=a&b\nB2:B3\t-\t=S!A1\t=go\t-\n",
    ),
    ("no section", ONE, "<worksheet/>", ""),
    ("no relationships", None, BY_ID, NOWHERE),
    ("empty relationships", targets(), BY_ID, NOWHERE),
    ("a part of relationships without events", "", BY_ID, NO_RELATED_END),
    ("one without its section", "<x/>", BY_ID, NO_RELATED_END),
    ("one that ends in it", "<Relationships>", BY_ID, NO_RELATED_END),
    ("relationships of a sheet without links", "<Relationships>", "<worksheet/>", NO_RELATED_END),
    ("a section that ends", ONE, '<hyperlinks><hyperlink ref="A1"/>', NO_LINKS_END),
    ("a part that ends elsewhere", ONE, "<worksheet><mergeCells>", ""),
    (
        "an end that breaks the nesting before",
        ONE,
        '<worksheet></x><hyperlinks><hyperlink ref="A1"/></hyperlinks>',
        refused("Xml error: end tag mismatch at 1"),
    ),
    (
        "one behind the section",
        ONE,
        f"{BY_ID}</x>",
        to("t"),
    ),
    (
        "one in the relationships",
        "<Relationships></x>",
        BY_ID,
        refused("Xml error: end tag mismatch at 1"),
    ),
    (
        "the first of two sections, at any depth",
        ONE,
        '<extLst><hyperlinks><x><hyperlink ref="A1"/></x></hyperlinks></extLst>'
        '<hyperlinks><hyperlink ref="B1"/></hyperlinks><hyperlink ref="C1"/>',
        NOWHERE,
    ),
    ("a reference of no area", ONE, linked('ref="A0"'), NO_ROW),
    ("an empty one", ONE, linked('ref=""'), NO_ROW),
    ("corners as they are written", ONE, linked('ref="b2:A1"'), "B2:A1\t-\t-\t-\t-\n"),
    ("an id without a prefix", ONE, linked('ref="A1" id="a"'), to("t")),
    ("one with another", ONE, linked('ref="A1" x:id="a"'), to("t")),
    ("none by another name", ONE, linked('ref="A1" rid="a"'), NOWHERE),
    ("the first of two ids", ONE, linked('ref="A1" r:id="a" id="b"'), to("t")),
    ("an id that has no relationship", ONE, linked('ref="A1" r:id="b"'), NOWHERE),
    (
        "an empty id on both sides",
        targets(f'Id="" {LINK} Target="t"'),
        linked('ref="A1" r:id=""'),
        NOWHERE,
    ),
    (
        "the last of an id stands",
        targets(f'Id="a" {LINK} Target="t"', f'Id="a" {LINK} Target="u"'),
        BY_ID,
        to("u"),
    ),
    (
        "the last of 300,000 of one id",
        targets(*[f'Id="a" {LINK} Target="t"'] * 299_999, f'Id="a" {LINK} Target="u"'),
        BY_ID,
        to("u"),
    ),
    (
        "another type is none",
        targets(f'Id="a" {LINK} Target="t"', f'Id="a" Type="{TYPES}table" Target="&bogus;"'),
        BY_ID,
        to("t"),
    ),
    ("a relationship without type", targets('Id="a" Target="t"'), BY_ID, NOWHERE),
    ("a target that is absent", targets(f'Id="a" {LINK}'), BY_ID, to("")),
    (
        "texts are resolved and then unescaped",
        targets(f'Id="a" {LINK} Target="a&amp;b_x005F_x000D_"'),
        linked('ref="A1" r:id="a" location="_x0041_" display="" tooltip="&#9;_xD800_"'),
        "A1:A1\t=a&b_x000D_\t=A\t=\t=\\t_xD800_\n",
    ),
    (
        "a target without a character",
        targets(f'Id="a" {LINK} Target="&bogus;"'),
        linked('ref="A1"'),
        refused("Xml error: unknown entity at 1"),
    ),
    (
        "a text without a character",
        ONE,
        linked('ref="A1" tooltip="&bogus;"'),
        refused("Xml error: unknown entity at 4"),
    ),
    ("one of a start without reference", ONE, linked('tooltip="&bogus;"'), ""),
    (
        "a start that can't be looked up",
        ONE,
        linked("x"),
        refused("Xml attribute error: expected '=' at 1"),
    ),
    (
        "a relationship that can't be",
        targets(f'{LINK} Target="t" x'),
        BY_ID,
        refused(f"Xml attribute error: expected '=' at {len(LINK) + 13}"),
    ),
]

CORE = "docProps/core.xml"
PROGRAM = "docProps/app.xml"
CUSTOM = "docProps/custom.xml"


def custom(*starts):
    """The part of the users' own properties, each with its attributes and what stands in it."""
    each = "".join(f"<property {own}>{inside}</property>" for own, inside in starts)
    return CUSTOM, f"<Properties>{each}</Properties>"


# What a case shows, the parts, and the properties of the workbook, or their refusals.
PROPERTIES = [
    ("none of the three parts", [], ""),
    ("parts without events", [(CORE, ""), (PROGRAM, ""), (CUSTOM, "")], ""),
    (
        "a creator",
        [(CORE, "<cp:coreProperties><dc:creator>Ann <!amp> Bo</dc:creator></cp:coreProperties>")],
        "creator\t=Ann & Bo\n",
    ),
    (
        "all in their order, whatever that of the file",
        [
            (
                PROGRAM,
                "<a><Manager>q</Manager><Template>p</Template><Company>o</Company>"
                "<AppVersion>n</AppVersion><Application>m</Application></a>",
            ),
            (
                CORE,
                "<a><version>l</version><revision>k</revision><contentStatus>j</contentStatus>"
                "<category>i</category><keywords>h</keywords><description>g</description>"
                "<subject>f</subject><title>e</title><modified>d</modified><created>c</created>"
                "<lastModifiedBy>b</lastModifiedBy><creator>a</creator></a>",
            ),
            custom(('name="B"', "<v>2</v>"), ('name="A"', "<v>1</v>"), ('name="a"', "<v>3</v>")),
        ],
        "creator\t=a\nlast_modified_by\t=b\ncreated\t=c\nmodified\t=d\ntitle\t=e\nsubject\t=f\n"
        "description\t=g\nkeywords\t=h\ncategory\t=i\ncontent_status\t=j\nrevision\t=k\n"
        "version\t=l\napplication\t=m\napp_version\t=n\ncompany\t=o\ntemplate\t=p\nmanager\t=q\n"
        "custom:A\t=1\ncustom:B\t=2\ncustom:a\t=3\n",
    ),
    ("a name in the wrong part", [(PROGRAM, "<a><title>T</title></a>")], ""),
    ("the program's in the core part", [(CORE, "<a><Company>C</Company></a>")], "company\t=C\n"),
    (
        "the program's part stands behind the core part",
        [(PROGRAM, "<a><Company>D</Company></a>"), (CORE, "<a><Company>C</Company></a>")],
        "company\t=D\n",
    ),
    (
        "the last text stands",
        [(CORE, "<a><title>x</title><title>y</title></a>")],
        "title\t=y\n",
    ),
    (
        "an empty one takes nothing away",
        [(CORE, "<a><title>x</title><title></title></a>")],
        "title\t=x\n",
    ),
    ("an element in a property", [(CORE, "<a><title>x<b/>y</title></a>")], ""),
    ("character data", [(CORE, "<a><title><!data></title></a>")], ""),
    ("a comment between texts", [(CORE, "<a><title>x<!>y</title></a>")], "title\t=xy\n"),
    (
        "white space and escapes",
        [(CORE, "<a><title> a\tb\\\n_x000D_<!#13></title></a>")],
        "title\t= a\\tb\\\\\\n_x000D_\\r\n",
    ),
    (
        "a reference without a character",
        [(CORE, "<a><title><!bogus></title></a>")],
        refused("Xml error: unknown entity at 2"),
    ),
    (
        "a part whose nesting breaks",
        [(PROGRAM, "<a><Company>x</a>")],
        refused("Xml error: end tag mismatch at 3"),
    ),
    ("a part that is cut", [(CORE, "<a><title>x</title><creator>y")], "title\t=x\n"),
    (
        "references in a user's name",
        [custom(('name="a&amp;b&#9;"', "<v>1</v>"))],
        "custom:a&b\\t\t=1\n",
    ),
    ("one without text", [custom(('name="A"', ""))], "custom:A\t=\n"),
    ("text right behind its start", [custom(('name="A"', "x<v>1</v>y"))], "custom:A\t=1\n"),
    ("one without a name", [custom(("", "<v>1</v>"))], ""),
    ("one of two values", [custom(('name="A"', "<v>1</v><w>2</w>"))], "custom:A\t=12\n"),
    (
        "the last of a name stands",
        [custom(('name="A"', "<v>1</v>"), ('name="A"', "<v>2</v>"))],
        "custom:A\t=2\n",
    ),
    (
        "a name that can't be decoded",
        [custom(('name="&bogus;"', ""))],
        refused("Xml error: unknown entity at 1"),
    ),
    (
        "a name that can't be looked up",
        [custom(("x", ""))],
        refused("Xml attribute error: expected '=' at 1"),
    ),
    ("part names in any case", [("DOCPROPS\\Core.XML", "<a><title>x</title></a>")], "title\t=x\n"),
]


class Lists(unittest.TestCase):
    def check(self, package, words, wanted, shown):
        for build in BUILDS:
            ran = subprocess.run([OUT / build, *words], input=package, capture_output=True)
            self.assertIn((ran.returncode, ran.stdout, ran.stderr), told(wanted), shown)

    def test_merged_cells_are_listed_or_refused(self):
        for shown, sheet, wanted in MERGES:
            self.check(package_with((SHEET_NAME, sheet)), ["merges", "S"], wanted, shown)

    def test_merged_cells_of_a_part_that_is_cut(self):
        part = SHEET_NAME, merged('ref="A1"')
        # The worksheet, its data with their end, the section, a start with its end, and the ends.
        for count, wanted in enumerate(["", "", "", "", *[NO_END] * 3, *["A1:A1\n"] * 2]):
            self.check(package_cut(part, count), ["merges", "S"], wanted, f"{count} events")
        self.assertEqual(len(events_of(part[1])), count)

    def test_merged_cells_go_by_the_names_of_sheets(self):
        package = package_of(SHEETS)
        self.check(package, ["merges", "S"], "A1:A1\n", "the first sheet of a name")
        for name in ("T", "Z", "s", ""):
            wanted = refused(f"Worksheet '{name}' not found")
            self.check(package, ["merges", name], wanted, name)

    def test_the_part_of_a_sheet_is_named_or_refused(self):
        package = package_of(SHEETS)
        for name, part in (("S", "xl/a.xml\n"), ("T", "xl/b.xml\n")):
            self.check(package, ["part", name], part, "the first sheet of a name, or no part")
            self.check(package_of(SHEETS[:3]), ["part", name], part, "no sheet's part")
        for name in ("Z", "s", ""):
            wanted = refused(f"Worksheet '{name}' not found")
            self.check(package, ["part", name], wanted, name)
        parts = [("xl/styles.xml", "<styleSheet>"), *SHEETS]
        wanted = refused("Unexpected end of xml, expecting '</styleSheet>'")
        self.check(package_of(parts), ["part", "S"], wanted, "broken styles")
        self.check(package_of(parts), ["cells", "S"], wanted, "broken styles")
        for words in (["part"], ["part", "S", "T"]):
            self.check(package, words, [(2, b"", b"usage\n")], words)

    def test_links_are_listed_or_refused(self):
        for shown, related, sheet, wanted in LINKS:
            parts = [] if related is None else [(RELATED_NAME, related)]
            package = package_with(*parts, (SHEET_NAME, sheet))
            self.check(package, ["links", "S"], wanted, shown)

    def test_no_relationship_is_read_of_a_sheet_that_is_not_there(self):
        parts = [(RELATED_NAME, "<Relationships></x>"), ROOT, RELATIONSHIPS, WORKBOOK]
        for name in ("S", "Z"):
            wanted = refused(f"Worksheet '{name}' not found")
            self.check(package_of(parts), ["links", name], wanted, name)

    def test_properties_are_listed_or_refused(self):
        for shown, parts, wanted in PROPERTIES:
            self.check(package_with(*parts), ["props"], wanted, shown)

    def test_lists_need_a_workbook_that_opens(self):
        for left_out, text in (
            (0, "File not found '_rels/.rels'"),
            (1, "File not found 'xl/_rels/workbook.xml.rels'"),
        ):
            package = package_of(SMALLEST[:left_out] + SMALLEST[left_out + 1 :])
            for words in (["merges", "S"], ["links", "S"], ["props"], ["part", "S"]):
                self.check(package, words, refused(text), text)
        package = package_of([ROOT, RELATIONSHIPS, SHEET])
        self.check(package, ["merges", "S"], refused("Worksheet 'S' not found"), "no workbook")
        self.check(package, ["props"], "", "no workbook")
        package = package_of([ROOT, RELATIONSHIPS, WORKBOOK])
        self.check(package, ["merges", "S"], refused("Worksheet 'S' not found"), "no sheet")
        self.check(package, ["props"], "", "no sheet")


if __name__ == "__main__":
    unittest.main()
