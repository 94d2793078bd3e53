"""Tries the built program on workbooks as they are opened: their sheets, their defined names, and
how their dates count."""

import subprocess
import unittest

from support.noted import (
    RELATIONSHIPS,
    RELATIONSHIPS_MARKUP,
    RELATIONSHIPS_NAME,
    ROOT,
    ROOT_NAME,
    SHEET_NAME,
    SMALLEST,
    STRINGS_NAME,
    WORKBOOK,
    WORKBOOK_NAME,
    package_of,
    refused,
    told,
    with_data,
)
from test_program import BUILDS, OUT

OFFICE_TYPE = 'Type="x/relationships/officeDocument"'


def relationships(*attributes):
    each = "".join(f"<Relationship {one}/>" for one in attributes)
    return f"<Relationships>{each}</Relationships>"


OFFICE = ROOT[1]
OFFICE_ELSEWHERE = relationships(f'{OFFICE_TYPE} Target="/BOOK/"')
OFFICE_WITHOUT_TARGET = relationships(OFFICE_TYPE)
OFFICE_ENTITY = relationships(f'Id="rId1" {OFFICE_TYPE} Target="a&b"')
SHEETS = RELATIONSHIPS_MARKUP
CHARTS = relationships('Id="rId1" Type="x/chartsheet" Target="/other/chart.xml"')
MACROS = relationships('Id="rId1" Type="x/macro" Target="m.xml"')
UNASSIGNED = relationships('Id="rId1" Type')
WHOLE = "S\tworksheet\tvisible\n"
NOT_RELATED = refused("Relationship not found")

# The package's relationships, the workbook's, the attributes of its sheet, and what `sheets`
# prints.
BOOKS = [
    (OFFICE, SHEETS, 'name="S" sheetId="1" r:id="rId1"', WHOLE),
    (
        OFFICE,
        CHARTS,
        'name="a&amp;b" state="veryHidden" id="rId1"',
        "a&b\tchartsheet\tveryHidden\n",
    ),
    (OFFICE, SHEETS, 'state="hidden" r:id="rId1"', "\tworksheet\thidden\n"),
    (OFFICE, SHEETS, 'name="S" r:id="rId2"', NOT_RELATED),
    (
        OFFICE,
        SHEETS,
        'name="S" r:id="rId1" state="gone"',
        refused("Unrecognized sheet:state: gone"),
    ),
    (OFFICE, SHEETS, 'name="&x;" r:id="rId1"', refused("Xml error: unknown entity at 2")),
    (
        OFFICE,
        SHEETS,
        'name="S" state=hidden',
        refused("Xml attribute error: unquoted value at 16"),
    ),
    (
        OFFICE,
        MACROS,
        'name="S" r:id="rId1"',
        refused("Unrecognized sheet:type: xl/m.xml"),
    ),
    (
        OFFICE,
        UNASSIGNED,
        'name="S" r:id="rId1"',
        refused("Xml attribute error: expected '=' at 11"),
    ),
    (OFFICE_ENTITY, SHEETS, 'name="S" r:id="rId1"', refused("Xml error: unknown entity at 1")),
    (OFFICE_WITHOUT_TARGET, SHEETS, 'name="S" r:id="rId1"', NOT_RELATED),
    (
        OFFICE_ELSEWHERE,
        SHEETS,
        'name="S" r:id="rId1"',
        refused("File not found 'BOOK/_rels/workbook.xml.rels'"),
    ),
]

MANY_OFFICES = (
    f'<Relationship {OFFICE_TYPE} Target="/BOOK/"/><r:Relationships>'
    f'<r:Relationship {OFFICE_TYPE} Target="/BOOK/"/>'
    f'<Relationship {OFFICE_TYPE} Target="xl/workbook.xml"><Relationship {OFFICE_TYPE}/>'
    "</Relationship></r:Relationships>"
    f'<Relationships><Relationship {OFFICE_TYPE} Target="/BOOK/"></nothing>'
)
MANY_RELATED = (
    '<Relationships><Relationship Id="rId1" Type="x/macro" Target="m.xml"/>'
    '<Relationship Id="rId1" Type="x/worksheet" Target="worksheets/sheet1.xml"/>'
    '<Relationship Type="x/y"/></Relationships></nothing>'
)
LONG_BOOK = (
    '<!><x:workbook><sheet name="S" r:id="rId1"/>'
    '<x:definedName name="Q">S!$A<x:sheet name="T" state="hidden" r:id="rId1"><!data></x:sheet>'
    '<definedName name="inner"><!lt><workbookPr date1904="true"/></definedName>\r\n1'
    "</x:definedName><definedName><!unknown></definedName><workbookPr/></x:workbook>"
    '<sheet name="U"></nothing>'
)
LONG = [
    (ROOT_NAME, MANY_OFFICES),
    (RELATIONSHIPS_NAME, MANY_RELATED),
    (WORKBOOK_NAME, LONG_BOOK),
]
# A relationship without an Id, and a sheet that names none.
UNNAMED = relationships('Id="" Type="x/dialogsheet" Target="a.xml"')


def with_book(markup):
    return [ROOT, RELATIONSHIPS, (WORKBOOK_NAME, markup)]


# What a case shows, the parts of a package, and what `sheets` and `names` print.
PACKAGES = [
    (
        "sections are read to their ends",
        LONG,
        "S\tworksheet\tvisible\nT\tworksheet\thidden\n",
        "Q\tS!$A<\\n1\n",
    ),
    ("no part", [], refused("File not found '_rels/.rels'"), None),
    (
        "no relationships of the workbook",
        [ROOT, WORKBOOK],
        refused("File not found 'xl/_rels/workbook.xml.rels'"),
        None,
    ),
    ("no part of the workbook", [ROOT, RELATIONSHIPS], "", ""),
    (
        "the styles end before they begin",
        [ROOT, RELATIONSHIPS, WORKBOOK, ("xl/styles.xml", "")],
        refused("Unexpected end of xml, expecting '</styleSheet>'"),
        None,
    ),
    (
        "a relationship without an Id is that of a sheet without one",
        [
            ROOT,
            (RELATIONSHIPS_NAME, UNNAMED),
            (WORKBOOK_NAME, '<workbook><sheet name="D"/></workbook>'),
        ],
        "D\tdialogsheet\tvisible\n",
        "",
    ),
    (
        "a state is looked at before the relationship",
        with_book('<workbook><sheet name="S" state="gone" r:id="rId9"/></workbook>'),
        refused("Unrecognized sheet:state: gone"),
        None,
    ),
    (
        "the second reference without a character is the one in a text that is read",
        with_book('<workbook><!x><definedName name="n"><!x></definedName></workbook>'),
        refused("Xml error: unknown entity at 3"),
        None,
    ),
    (
        "a sheet before the workbook's start isn't read",
        with_book('<sheet name="&x;"/><workbook><sheet name="&x;" r:id="rId1"/></workbook>'),
        refused("Xml error: unknown entity at 3"),
        None,
    ),
    (
        "the part ends in a defined name",
        with_book('<workbook><definedName name="n">'),
        refused("Unexpected end of xml, expecting '</workbook>'"),
        None,
    ),
    (
        "the package's relationships break the nesting",
        [(ROOT_NAME, "<Relationships></x>")],
        refused("Xml error: end tag mismatch at 1"),
        None,
    ),
    (
        "the workbook breaks the nesting",
        with_book("<workbook><a></b>"),
        refused("Xml error: end tag mismatch at 2"),
        None,
    ),
    (
        "a flaw in the package's relationships",
        [(ROOT_NAME, "<Relationships><!flaw>")],
        refused("Xml error: malformed markup at 1"),
        None,
    ),
    (
        "a flaw in the workbook's relationships",
        [ROOT, (RELATIONSHIPS_NAME, "<!flaw>"), WORKBOOK],
        refused("Xml error: malformed markup at 0"),
        None,
    ),
    (
        "a flaw in the workbook",
        with_book("<workbook><!flaw>"),
        refused("Xml error: malformed markup at 1"),
        None,
    ),
    (
        "a flaw in the shared strings",
        [ROOT, RELATIONSHIPS, WORKBOOK, (STRINGS_NAME, "<sst><si><t>a<!flaw>")],
        refused("Xml error: malformed markup at 4"),
        None,
    ),
    (
        "a flaw in the styles",
        [ROOT, RELATIONSHIPS, WORKBOOK, ("xl/styles.xml", "<styleSheet><!flaw>")],
        refused("Xml error: malformed markup at 1"),
        None,
    ),
    (
        "the shared strings end in a text",
        [ROOT, RELATIONSHIPS, WORKBOOK, (STRINGS_NAME, "<sst><si><t>a")],
        refused("Unexpected end of xml, expecting '</t>'"),
        None,
    ),
]

# The sheets of a workbook, each with its name, the type of its relationship and the part that this
# leads to: a chart, a hidden worksheet, one of the name of the chart, and one more.
CHOSEN = [
    ("Chart", "chartsheet", "charts/c1.xml"),
    ("First", "worksheet", "worksheets/w1.xml"),
    ("Chart", "worksheet", "worksheets/w2.xml"),
    ("--sheet", "worksheet", "worksheets/w3.xml"),
]

# The words that choose a sheet, and the part that it is read from, or why none is chosen.
CHOICES = [
    (["--sheet", "1"], "xl/charts/c1.xml\n"),
    (["--sheet", "2"], "xl/worksheets/w1.xml\n"),
    (["--sheet", "0004"], "xl/worksheets/w3.xml\n"),
    (["--sheet", "first"], "xl/worksheets/w1.xml\n"),
    (["--sheet", "3"], refused("sheet 3 has the name of an earlier sheet")),
    (["--sheet", "5"], refused("there is no sheet 5: the number of sheets is 4")),
    (
        ["--sheet", "18446744073709551615"],
        refused("there is no sheet 18446744073709551615: the number of sheets is 4"),
    ),
    (["--sheet"], "xl/worksheets/w3.xml\n"),
    (["Chart"], "xl/charts/c1.xml\n"),
]

# No sheet is told by these words.
NOT_CHOSEN = [
    ["part", "--sheet", "0"],
    ["part", "--sheet", "-1"],
    ["part", "--sheet", "First"],
    ["part", "--sheet", "18446744073709551616"],
    ["part", "--sheet", "1", "x"],
    ["part", "S", "--sheet", "1"],
    ["sheets", "--sheet", "1"],
    ["table", "--sheet", "1"],
    ["sample", "--sheet", "1"],
    ["csv", "--sheet", "1", "--date"],
    ["dependents", "--sheet", "1", "XFE1"],
]

# Each command that is asked of a sheet, with what stands behind its name.
OF_SHEETS = [
    ["cells"],
    ["merges"],
    ["links"],
    ["comments"],
    ["widths"],
    ["csv", "--crlf", "--from-a1"],
    ["pivot", "P"],
    ["precedents"],
    ["dependents", "A1"],
    ["check"],
    ["part"],
    ["resave"],
    ["resave", "--xlsx"],
]

# The parts that say how dates count, and from which year they do.
EPOCHS = [([ROOT, RELATIONSHIPS, WORKBOOK], 1900), (LONG, 1904)]
DATED = [
    ("xl/styles.xml", '<styleSheet><cellXfs><xf/><xf numFmtId="14"/></cellXfs></styleSheet>'),
    (SHEET_NAME, with_data('<c s="1"><v>1</v></c>')),
]


class Opening(unittest.TestCase):
    def check(self, package, words, wanted, shown):
        for build in BUILDS:
            ran = subprocess.run([OUT / build, *words], input=package, capture_output=True)
            self.assertIn((ran.returncode, ran.stdout, ran.stderr), told(wanted), shown)

    def test_workbooks_open_or_are_refused(self):
        for office, related, attributes, wanted in BOOKS:
            book = f"<workbook><sheets><sheet {attributes}/></sheets></workbook>"
            parts = [
                (ROOT_NAME, office),
                ("XL\\_rels\\Workbook.xml.RELS", related),
                ("xl\\workbook.XML", book),
            ]
            self.check(package_of(parts), ["sheets"], wanted, attributes)

    def test_packages_open_or_are_refused(self):
        for shown, parts, sheets, names in PACKAGES:
            self.check(package_of(parts), ["sheets"], sheets, shown)
            self.check(package_of(parts), ["names"], sheets if names is None else names, shown)

    def test_a_sheet_is_chosen_by_its_number_or_as_the_first_worksheet(self):
        each = enumerate(CHOSEN, 1)
        types = [f'Id="r{n}" Type="x/{kind}" Target="{part}"' for n, (_, kind, part) in each]
        each = enumerate(CHOSEN, 1)
        sheets = "".join(f'<sheet name="{name}" r:id="r{n}"/>' for n, (name, *_) in each)
        book = f"<workbook><sheets>{sheets}</sheets></workbook>"
        parts = [ROOT, (RELATIONSHIPS_NAME, relationships(*types)), (WORKBOOK_NAME, book)]
        for words, wanted in CHOICES:
            self.check(package_of(parts), ["part", *words], wanted, str(words))
        usage = [(2, b"", b"usage\n")]
        for words in NOT_CHOSEN:
            self.check(package_of(parts), words, usage, str(words))
        charts = relationships(*types[:1])
        book = '<workbook><sheets><sheet name="Chart" r:id="r1"/></sheets></workbook>'
        parts = [ROOT, (RELATIONSHIPS_NAME, charts), (WORKBOOK_NAME, book)]
        none = refused("the workbook has no worksheet")
        self.check(package_of(parts), ["cells", "--sheet", "first"], none, "a chart alone")
        broken = refused("Xml error: malformed markup at 1")
        parts = [ROOT, (RELATIONSHIPS_NAME, charts), (WORKBOOK_NAME, "<workbook><!flaw>")]
        self.check(package_of(parts), ["cells", "--sheet", "1"], broken, "no workbook")

    def test_what_is_asked_of_a_chosen_sheet_is_what_is_asked_by_its_name(self):
        package = package_of(SMALLEST)
        for word, *more in OF_SHEETS:
            ends = []
            for build in BUILDS:
                words = [OUT / build, word, "S", *more]
                ran = subprocess.run(words, input=package, capture_output=True)
                ends.append((ran.returncode, ran.stdout, ran.stderr))
            for choice in ("1", "first"):
                self.check(package, [word, "--sheet", choice, *more], ends, word)

    def test_dates_count_as_the_workbook_says(self):
        for parts, year in EPOCHS:
            line = f"A1\tt:1 date {year}\t-\t-\n"
            self.check(package_of([*parts, *DATED]), ["cells", "S"], line, str(year))


if __name__ == "__main__":
    unittest.main()
