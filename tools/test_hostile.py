"""Tries the built program on numbers that are too large, on counts that promise too much, and on
parts that are nested deep or hold the same again and again."""

import subprocess
import unittest

from support.noted import RELATIONSHIPS, ROOT, SHEET_NAME, STRINGS_NAME, WORKBOOK_NAME, package_with
from support.noted import refused, told, with_data
from test_comments import FOUND, NOBODY, ONE
from test_comments import RELATED as TO_COMMENTS
from test_pivots import DEFINITIONS, PARTS, RECORDS, ROWS
from test_program import BUILDS, OUT
from test_tables import NUT, RELATED, TABLE_NAME, table

MOST = 2**64 - 1
STYLES_NAME = "xl/styles.xml"


def one_cell(attributes, inside):
    """The data of a sheet with a cell in its first row."""
    return f'<row r="1"><c r="A1"{attributes}>{inside}</c></row>'


TEXT = with_data(one_cell(' t="str"', "<v>x</v>"))
NUMBER = "A1\tn:1\t-\t-\n"
MANY = f'count="{MOST}" uniqueCount="{MOST}" recordCount="{MOST}"'

# Each list of a styles part, of which the counts are wrong, and a style that fills a cell.
COUNTED = (
    f'<styleSheet><numFmts {MANY}><numFmt numFmtId="4294967296" formatCode="yyyy"/></numFmts>'
    f'<fonts {MANY}><font/></fonts><fills {MANY}><fill/><fill><patternFill patternType="solid">'
    f'<fgColor rgb="FFFF0000"/></patternFill></fill></fills><borders {MANY}><border/></borders>'
    f'<cellStyleXfs {MANY}><xf/></cellStyleXfs><cellXfs {MANY}><xf/><xf fillId="1"/>'
    f'<xf numFmtId="4294967296"/><xf numFmtId="4294967297" fontId="{MOST}" fillId="{10**400}"/>'
    f'</cellXfs><cellStyles {MANY}/><dxfs {MANY}/></styleSheet>'
)


def styled(number):
    """The parts of a workbook whose one cell has the style of a number."""
    return [(STYLES_NAME, COUNTED), (SHEET_NAME, with_data(one_cell(f' s="{number}"', "<v>1</v>")))]


def strings_at(index):
    """Those of one whose one cell has the shared string of an index."""
    cell = one_cell(' t="s"', f"<v>{index}</v>")
    return [(STRINGS_NAME, "<sst><si><t>zero</t></si></sst>"), (SHEET_NAME, with_data(cell))]


def sheet(data):
    return [(SHEET_NAME, with_data(data))]


# What a case shows, the parts before those of the smallest workbook, and the lines of its cells or
# their refusal.
CASES = [
    (
        "counts of strings past all numbers",
        [(STRINGS_NAME, f'<sst count="4294967295" uniqueCount="{MOST}"/>'), (SHEET_NAME, TEXT)],
        "A1\ts:x\t-\t-\n",
    ),
    (
        "the last shared index",
        sheet(
            f'<row r="1"><c r="C1"><f t="shared" ref="B1:C3" si="{MOST}">A1</f></c></row>'
            f'<row r="2"><c r="C2"><f t="shared" si="{MOST}"/></c></row>'
        ),
        "C1\t-\t=A1\t-\nC2\t-\t=B2\t-\n",
    ),
    (
        "the first shared index and the last",
        sheet(
            '<row r="1"><c r="A1"><f t="shared" ref="A1:A2" si="0">B1</f></c>'
            f'<c r="C1"><f t="shared" ref="C1:C2" si="{MOST}">D1</f></c></row>'
            '<row r="2"><c r="A2"><f t="shared" si="0"/></c>'
            f'<c r="C2"><f t="shared" si="{MOST}"/></c></row>'
        ),
        "A1\t-\t=B1\t-\nC1\t-\t=D1\t-\nA2\t-\t=B2\t-\nC2\t-\t=D2\t-\n",
    ),
    (
        "the first of two attributes of one name",
        sheet('<row r="1"><c r="A1" r="B1" t="str" t="n"><v>x</v></c></row>'),
        "A1\ts:x\t-\t-\n",
    ),
    (
        "a cell in the string of another",
        sheet('<row r="1"><c r="A1"><is><c r="B1"><v>9</v></c><t>a</t></is></c></row>'),
        "A1\ts:a\t-\t-\n",
    ),
    (
        "data behind the first",
        [
            (
                SHEET_NAME,
                '<worksheet><sheetData/><sheetData><row r="1"><c r="A1"><v>1</v></c></row>'
                "</sheetData></worksheet>",
            )
        ],
        "",
    ),
    ("data that end in a row", sheet("<row>"), refused("Xml error: end tag mismatch at 3")),
    (
        "a row of twenty digits",
        sheet('<row><c r="A99999999999999999999"/></row>'),
        refused("row number overflow"),
    ),
    (
        "a row of four hundred digits",
        sheet(f'<row><c r="A{"9" * 400}"/></row>'),
        refused("row number overflow"),
    ),
    (
        "the same of the row itself",
        sheet(f'<row r="{"9" * 400}"><c/></row>'),
        refused("row number overflow"),
    ),
    (
        "a column of four hundred letters",
        sheet(f'<row><c r="{"A" * 400}1"/></row>'),
        refused("column number overflow"),
    ),
    (
        "a letter past the last",
        sheet('<row><c r="é1"/></row>'),
        refused("Expecting alphanumeric character, got C3"),
    ),
    ("an index past 64 bits", strings_at(MOST + 1), "A1\ts:zero\t-\t-\n"),
    ("an index of four hundred digits", strings_at("9" * 400), "A1\ts:zero\t-\t-\n"),
    (
        "dimensions of the whole sheet",
        [(SHEET_NAME, '<worksheet><dimension ref="A1:XFD1048576"/><sheetData/></worksheet>')],
        "",
    ),
    (
        "dimensions that are turned",
        [(SHEET_NAME, '<worksheet><dimension ref="XFD1048576:A1"/><sheetData/></worksheet>')],
        "",
    ),
    (
        "dimensions past the last row",
        [(SHEET_NAME, '<worksheet><dimension ref="A1:A1048577"/><sheetData/></worksheet>')],
        refused("row number overflow"),
    ),
    (
        "dimensions past the last column",
        [(SHEET_NAME, '<worksheet><dimension ref="XFE1"/><sheetData/></worksheet>')],
        refused("column number overflow"),
    ),
    (
        "an exponent past 32 bits is a text",
        sheet(one_cell("", "<v>1E2147483648</v>")),
        "A1\ts:1E2147483648\t-\t-\n",
    ),
    ("counts of styles past all numbers", styled(1), "A1\tn:1\t-\t#FF0000\n"),
    ("a format's number past 32 bits goes by its text", styled(2), "A1\tt:1 date 1900\t-\t-\n"),
    ("numbers of a format, a font and a fill past all", styled(3), NUMBER),
    ("a style past the last", styled(MOST), NUMBER),
    ("a style past 64 bits", styled(MOST + 1), NUMBER),
    (
        "65,535 cells of one position",
        sheet("".join(one_cell("", f"<v>{number}</v>") for number in range(65_535, 0, -1))),
        NUMBER,
    ),
    (
        "600,000 elements inside one another",
        sheet(one_cell("", f"<is>{'<x>' * 600_000}{'</x>' * 600_000}<t>a</t></is>")),
        "A1\ts:a\t-\t-\n",
    ),
]


def counted(part, *names):
    """A part in which the elements of these names have counts past all numbers."""
    name, markup = part
    for element in names:
        markup = markup.replace(f"<{element}", f"<{element} {MANY}")
    return name, markup


MERGED = (
    SHEET_NAME,
    '<worksheet><sheetData/><mergeCells><mergeCell ref="A1:XFD1048576"/></mergeCells></worksheet>',
)
TABLE = [RELATED, counted((TABLE_NAME, table("", "A1:B1048576")), "tableColumns"), NUT]
PIVOT = [
    *PARTS,
    counted(DEFINITIONS, "pivotCacheDefinition", "cacheFields", "sharedItems"),
    counted(RECORDS, "pivotCacheRecords"),
]

LINKED = (
    SHEET_NAME,
    '<worksheet><sheetData/><hyperlinks><hyperlink ref="A1:XFD1048576" location="a"/></hyperlinks>'
    "</worksheet>",
)
# The one sheet of a workbook, and its one defined name.
BOOK = counted(
    (
        WORKBOOK_NAME,
        f'<workbook><bookViews><workbookView activeTab="{MOST}" firstSheet="{MOST}"/></bookViews>'
        f'<sheets><sheet name="S" sheetId="{MOST}" r:id="rId1"/></sheets><definedNames>'
        f'<definedName name="n" localSheetId="{MOST}">S!A1:XFD1048576</definedName></definedNames>'
        "</workbook>",
    ),
    "workbook",
    "sheets",
    "definedNames",
)
RELATED_ONCE = [counted(part, "Relationships") for part in (ROOT, RELATIONSHIPS)]
OF_BOOK = [BOOK, *RELATED_ONCE]
OF_CORE = ("docProps/core.xml", "<a><revision>18446744073709551615</revision></a>")
OF_PROGRAM = (
    "docProps/app.xml",
    f"<a><TotalTime>{MOST}</TotalTime><TitlesOfParts><vector size='{MOST}'/></TitlesOfParts>"
    "<Company>C</Company></a>",
)
OF_USERS = (
    "docProps/custom.xml",
    f'<a><property pid="{MOST}" name="n"><i8>{MOST}</i8></property></a>',
)
PROPERTIES = [counted(part, "a") for part in (OF_CORE, OF_PROGRAM, OF_USERS)]
THEME = counted(
    (
        "xl/theme/theme1.xml",
        '<theme><themeElements><clrScheme><dk1><srgbClr val="000000"/></dk1></clrScheme>'
        "</themeElements></theme>",
    ),
    "theme",
    "clrScheme",
)
# A shared formula that speaks of the whole sheet, and a value in its last cell.
WIDE = sheet(
    f'<row r="1"><c r="A1"><f t="shared" ref="A1:XFD1048576" si="{MOST}">SUM(B1:XFD1048576)</f>'
    '<v>1</v></c></row><row r="1048576"><c r="XFD1048576"><v>1</v></c></row>'
)


def of_author(number):
    """The parts of a comment of an author of this number."""
    name, markup = ONE
    return [TO_COMMENTS, (name, markup.replace('authorId="0"', f'authorId="{number}"'))]


def of_table(more, ref="A1:XFD1048576"):
    """Those of a table with these attributes."""
    return [RELATED, (TABLE_NAME, table(more, ref)), NUT]


TOO_LARGE = [(10, b"", b"box too large\n")]

# The words of a command, the parts before those of the smallest workbook, and the lines or the
# refusal: of each part that is read the counts, the numbers and the areas that it may declare.
LISTS = [
    (["sheets"], OF_BOOK, "S\tworksheet\tvisible\n"),
    (["names"], OF_BOOK, "n\tS!A1:XFD1048576\n"),
    (["cells", "S"], [*OF_BOOK, THEME], "A1\ts:nut\t-\t-\n"),
    (["props"], PROPERTIES, f"revision\t={MOST}\ncompany\t=C\ncustom:n\t={MOST}\n"),
    (["merges", "S"], [counted(MERGED, "mergeCells")], "A1:XFD1048576\n"),
    (["links", "S"], [counted(LINKED, "hyperlinks")], "A1:XFD1048576\t-\t=a\t-\t-\n"),
    (["cells", "S"], WIDE, "A1\tn:1\t=SUM(B1:XFD1048576)\t-\nXFD1048576\tn:1\t-\t-\n"),
    (["precedents", "S"], WIDE, "A1\tB1:XFD1048576\n"),
    (["dependents", "S", "XFD1048576"], WIDE, "A1\n"),
    (["check", "S"], WIDE, "A1\tagrees\n"),
    (["csv", "S"], WIDE, TOO_LARGE),
    (["tables"], TABLE, "T1\tS\tA2:B1048576\tName\tQty\n"),
    (["table", "T1"], TABLE, "A2\ts:nut\nB2\tn:3\n"),
    (["tables"], of_table(""), "T1\tS\tA2:XFD1048576\tName\tQty\n"),
    (["csv-table", "T1"], of_table(""), TOO_LARGE),
    (["tables"], of_table(f'headerRowCount="{2**32 - 1}"'), "T1\tS\t-\tName\tQty\n"),
    (["tables"], of_table(f'totalsRowCount="{MOST}"'), refused(f"Parse integer error: {MOST}")),
    (["comments", "S"], [TO_COMMENTS, counted(ONE, "authors", "commentList")], FOUND),
    (["comments", "S"], of_author(MOST), NOBODY),
    (["comments", "S"], of_author(MOST + 1), NOBODY),
    (["pivots"], PIVOT, "S\tP1\n"),
    (["pivot", "S", "P1"], PIVOT, ROWS),
]


class Hostile(unittest.TestCase):
    def check(self, words, parts, wanted, shown):
        package = package_with(*parts)
        for build in BUILDS:
            ran = subprocess.run([OUT / build, *words], input=package, capture_output=True)
            self.assertIn((ran.returncode, ran.stdout, ran.stderr), told(wanted), shown)

    def test_hostile_sheets_are_listed_or_refused(self):
        for shown, parts, wanted in CASES:
            self.check(["cells", "S"], parts, wanted, shown)

    def test_lists_go_by_no_count(self):
        for words, parts, wanted in LISTS:
            self.check(words, parts, wanted, words)


if __name__ == "__main__":
    unittest.main()
