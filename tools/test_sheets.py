"""Tries the built program on sheets as wholes: their heads, where their data end, and how they are
found by their names."""

import subprocess
import unittest

from support.noted import (
    RELATIONSHIPS,
    RELATIONSHIPS_MARKUP,
    RELATIONSHIPS_NAME,
    ROOT,
    ROOT_NAME,
    SHEET,
    SHEET_NAME,
    STRINGS_NAME,
    WORKBOOK,
    WORKBOOK_NAME,
    events_of,
    package_cut,
    package_of,
    package_with,
    refused,
    told,
    with_data,
)
from test_program import BUILDS, OUT

NO_CELLS = with_data("")
TWO_RELATED = (
    RELATIONSHIPS_NAME,
    '<Relationships><Relationship Id="rId1" Type="x/worksheet" Target="a.xml"/>'
    '<Relationship Id="rId2" Type="x/worksheet" Target="/b.xml"/></Relationships>',
)
FIRST_OF_TWO = (
    WORKBOOK_NAME,
    '<workbook><sheets><sheet name="S" r:id="rId2"/><sheet name="S" r:id="rId1"/>'
    '<sheet name="T" r:id="rId1"/></sheets></workbook>',
)
FIRST = ("b.xml", SHEET[1])
SECOND = ("xl/a.xml", NO_CELLS)

# What a case shows, the part of a sheet, and what is told of it.
SHEETS = [
    ("a part of a chart sheet", "<chartsheet/>", refused("Expecting a worksheet, got chartsheet")),
    (
        "dimensions alone",
        '<dimension ref="A1"/>',
        refused("Unexpected end of xml, expecting '</worksheet>'"),
    ),
    ("dimensions without an area", "<dimension/>", refused("Expecting 'dimension' node")),
    (
        "dimensions of three corners",
        '<worksheet><dimension ref="A1:B2:C3"/><sheetData/></worksheet>',
        refused("Range dimension must be lower than 2. Got 3"),
    ),
    (
        "dimensions without a row",
        '<worksheet><dimension ref="A1:"/><sheetData/></worksheet>',
        refused("Range is missing the expected row component."),
    ),
    ("no event", "", refused("Unexpected end of xml, expecting '</worksheet>'")),
    ("a worksheet without data", "<worksheet/>", refused("Expecting a worksheet, got worksheet")),
    (
        "the first data of a sheet count, and nothing behind them",
        "<worksheet><sheetData/><dimension/><sheetData><c><v>1</v></c></sheetData></worksheet>",
        "",
    ),
    (
        "an end without a start behind the data",
        "<worksheet><sheetData><c><v>1</v></c></sheetData></row></worksheet>",
        "A1\tn:1\t-\t-\n",
    ),
    (
        "the part ends with the data",
        "<worksheet><sheetData><c><v>1</v></c></sheetData>",
        "A1\tn:1\t-\t-\n",
    ),
    (
        "data in no worksheet, between comments",
        "<!><sheetData><c><v>1</v></c></sheetData><!>",
        "A1\tn:1\t-\t-\n",
    ),
    (
        "names with a prefix",
        "<x:worksheet><x:sheetData><x:c><x:v>1</x:v></x:c></x:sheetData></x:worksheet>",
        "A1\tn:1\t-\t-\n",
    ),
    (
        "data in data go on behind the inner ones",
        "<sheetData><x><sheetData></sheetData></x><c><v>1</v></c></sheetData>",
        "A1\tn:1\t-\t-\n",
    ),
    (
        "the part ends behind the start of a cell",
        '<worksheet><sheetData><c r="A1">',
        refused("Unexpected end of xml, expecting '</c>'"),
    ),
    (
        "the part ends in an inline cell's value, which is skipped",
        '<worksheet><sheetData><c t="is"><v>1',
        refused("Xml error: unclosed element at 5"),
    ),
    (
        "an end that breaks the nesting before the data",
        "<worksheet></x><sheetData/>",
        refused("Xml error: end tag mismatch at 1"),
    ),
    (
        "a flaw in front of the data",
        "<worksheet><!flaw><sheetData/></worksheet>",
        refused("Xml error: malformed markup at 1"),
    ),
    (
        "a flaw in a cell",
        '<worksheet><sheetData><row><c r="A1"><v>1</v></c><!flaw>',
        refused("Xml error: malformed markup at 8"),
    ),
    (
        "an end that breaks the nesting before a flaw",
        "<worksheet><sheetData><row></c><!flaw>",
        refused("Xml error: end tag mismatch at 3"),
    ),
    ("a flaw right behind the data", "<worksheet><sheetData></sheetData><!flaw>", ""),
    ("a part that is a flaw", "<!flaw>", refused("Xml error: malformed markup at 0")),
]

# A part that stands before those of the minimal package, the sheet that is asked for, and what is
# told of it.
FRONTS = [
    (WORKBOOK, "S", "A1\ts:nut\t-\t-\n"),
    (WORKBOOK, "Nope", refused("Worksheet 'Nope' not found")),
    (WORKBOOK, "s", refused("Worksheet 's' not found")),
    (WORKBOOK, "", refused("Worksheet '' not found")),
    (
        (WORKBOOK_NAME, "<sheets/>"),
        "S",
        refused("Unexpected end of xml, expecting '</workbook>'"),
    ),
    ((WORKBOOK_NAME, "<workbook/>"), "S", refused("Worksheet 'S' not found")),
    (
        (
            WORKBOOK_NAME,
            '<workbook><sheet name="a&amp;b" r:id="rId1" state="hidden"/></workbook>',
        ),
        "a&b",
        "A1\ts:nut\t-\t-\n",
    ),
    (
        (WORKBOOK_NAME, '<workbook><sheet name="a&amp;b" r:id="rId1"/></workbook>'),
        "a&amp;b",
        refused("Worksheet 'a&amp;b' not found"),
    ),
    (
        (WORKBOOK_NAME, '<workbook><sheet name="S" r:id="rId2"/></workbook>'),
        "S",
        refused("Relationship not found"),
    ),
    (
        (WORKBOOK_NAME, '<workbook><sheet name="S" r:id="rId1" state="gone"/></workbook>'),
        "S",
        refused("Unrecognized sheet:state: gone"),
    ),
    ((STRINGS_NAME, ""), "S", refused("Unexpected end of xml, expecting '</sst>'")),
    (("xl/styles.xml", ""), "S", refused("Unexpected end of xml, expecting '</styleSheet>'")),
    (("XL\\Styles.xml", "<styleSheet/>"), "S", "A1\ts:nut\t-\t-\n"),
    (("sharedStrings.xml", ""), "S", "A1\ts:nut\t-\t-\n"),
    (("docProps/core.xml", "<!>"), "S", "A1\ts:nut\t-\t-\n"),
    (("docProps/core.xml", "<!flaw>"), "S", "A1\ts:nut\t-\t-\n"),
    (("xl/theme/theme1.xml", "<!flaw>"), "S", "A1\ts:nut\t-\t-\n"),
    (("xl/styles.xml", "<!flaw>"), "S", refused("Xml error: malformed markup at 0")),
    ((STRINGS_NAME, "<sst></sst><!flaw>"), "S", "A1\ts:nut\t-\t-\n"),
    ((ROOT_NAME, RELATIONSHIPS_MARKUP), "S", refused("Relationship not found")),
    (
        (
            ROOT_NAME,
            '<Relationships>'
            '<Relationship Id="rId1" Type="x/relationships/officeDocument" Target="a&b"/>'
            '</Relationships>',
        ),
        "S",
        refused("Xml error: unknown entity at 1"),
    ),
    ((SHEET_NAME, NO_CELLS), "S", ""),
    (("XL\\worksheets/SHEET1.xml", NO_CELLS), "S", ""),
]

# The parts of a package, the sheet that is asked for, and what is told of it.
PACKAGES = [
    ([ROOT, TWO_RELATED, FIRST_OF_TWO, FIRST, SECOND], "S", "A1\ts:nut\t-\t-\n"),
    ([ROOT, TWO_RELATED, FIRST_OF_TWO, FIRST, SECOND], "T", ""),
    ([ROOT, TWO_RELATED, FIRST_OF_TWO, SECOND], "S", refused("Worksheet 'S' not found")),
    ([ROOT, TWO_RELATED, FIRST_OF_TWO, FIRST], "S", "A1\ts:nut\t-\t-\n"),
    ([ROOT, TWO_RELATED, FIRST_OF_TWO, FIRST], "T", refused("Worksheet 'T' not found")),
    ([RELATIONSHIPS, WORKBOOK, SHEET], "S", refused("File not found '_rels/.rels'")),
    ([ROOT, WORKBOOK, SHEET], "S", refused("File not found 'xl/_rels/workbook.xml.rels'")),
    ([ROOT, RELATIONSHIPS, SHEET], "S", refused("Worksheet 'S' not found")),
    ([ROOT, RELATIONSHIPS, WORKBOOK], "S", refused("Worksheet 'S' not found")),
]


# A sheet with a formula, a text, a number, a string in its cell, and values and dimensions beside.
LONG_SHEET = (
    '<worksheet><dimension ref="A1"></dimension><sheetData><row r="1"><c r="A1" t="str"><f>B1</f>'
    '<v>nut</v></c><c r="B1"><v>1</v></c><c r="C1" t="inlineStr"><is><t>a</t></is></c></row>'
    '</sheetData></worksheet>'
)
LONG_STRINGS = "<sst><x:si><r><t>a</t></r><rPh><t>b</t></rPh></x:si></sst>"


def ends_in(name):
    return refused(f"Unexpected end of xml, expecting '</{name}>'")


NO_DATA = refused("Expecting a worksheet, got worksheet")
IN_DATA, IN_CELL, IN_FORMULA, IN_VALUE, IN_TEXT, BESIDE_TEXT = (
    ends_in(name) for name in ("sheetData", "c", "f", "v", "t", "")
)
LONG_LINES = "A1\ts:nut\t=B1\t-\nB1\tn:1\t-\t-\nC1\ts:a\t-\t-\n"
NUT = "A1\ts:nut\t-\t-\n"

# A part, and what is told of the sheet with none of the part's events, with its first, and so on.
ENDS = [
    (
        (SHEET_NAME, LONG_SHEET),
        [ends_in("worksheet")] + 3 * [NO_DATA] + 2 * [IN_DATA]
        + [IN_CELL, IN_FORMULA, IN_FORMULA, IN_CELL, IN_VALUE, IN_VALUE, IN_CELL, IN_DATA]
        + [IN_CELL, IN_VALUE]
        + [refused("Xml error: unclosed element at 16", "Unexpected end of xml, expecting '</c>'")]
        + [IN_CELL, IN_DATA, IN_CELL, BESIDE_TEXT, IN_TEXT, IN_TEXT, BESIDE_TEXT, IN_CELL]
        + 2 * [IN_DATA] + 2 * [LONG_LINES],
    ),
    (
        (STRINGS_NAME, LONG_STRINGS),
        2 * [ends_in("sst")] + 2 * [BESIDE_TEXT] + 2 * [IN_TEXT] + 7 * [BESIDE_TEXT]
        + [ends_in("sst"), NUT],
    ),
    (WORKBOOK, 6 * [ends_in("workbook")] + [NUT]),
    (ROOT, 4 * [ends_in("Relationships")] + [NUT]),
    (RELATIONSHIPS, 4 * [ends_in("Relationships")] + [NUT]),
]

# What a case shows, the part of shared strings, and the lines of cells that name the first three.
STRINGS = [
    (
        "texts are joined, and blanks at their ends cut unless they are kept",
        '<sst count="9"><x:si><r><t>Hi </t></r><t xml:space="preserve"> you</t>'
        '<rPh><t>no</t></rPh></x:si></sst>',
        ["Hi you"],
    ),
    ("an empty string", "<sst><si/><si><t/></si><si><t>c</t></si></sst>", ["", "", "c"]),
    (
        "escapes are undone behind the blanks, line ends read, and a return by its number cut",
        '<sst><si><t space="preserve">\r\n_x0041_\r\nb<!data><!amp>_x000D_\v\t<!#13></t></si>'
        "</sst>",
        ["A\\nbx&\\r\v"],
    ),
    ("an escaped blank at the end is kept", "<sst><si><t> a_x0020_ </t></si></sst>", ["a "]),
    (
        "an escaped escape is undone once",
        "<sst><si><t>_x005F_x0041_</t></si></sst>",
        ["_x0041_"],
    ),
    (
        "what stands behind the section isn't read",
        "<sst><si><t>a</t></si></sst><si><t>b</t></si></x>",
        ["a"],
    ),
    (
        "strings before the section don't count",
        "<si><t>b</t></si><sst><si><t>a</t></si></sst>",
        ["a"],
    ),
    (
        "a reference without a character in a text, behind one in a pronunciation",
        "<sst><si><rPh><!nbsp></rPh><t><!nbsp></t></si></sst>",
        refused("Xml error: unknown entity at 6"),
    ),
    (
        "attributes of a text that end in a fault",
        "<sst><si><t a=b/></si></sst>",
        refused("Xml attribute error: unquoted value at 3"),
    ),
    ("no section", "<x/>", ends_in("sst")),
]


class Sheets(unittest.TestCase):
    def check(self, package, name, wanted, shown):
        for build in BUILDS:
            ran = subprocess.run([OUT / build, "cells", name], input=package, capture_output=True)
            self.assertIn((ran.returncode, ran.stdout, ran.stderr), told(wanted), shown)

    def test_sheets_are_read_from_their_data(self):
        for shown, sheet, wanted in SHEETS:
            self.check(package_with((SHEET_NAME, sheet)), "S", wanted, shown)

    def test_the_first_part_of_a_name_is_read(self):
        for part, name, wanted in FRONTS:
            self.check(package_with(part), name, wanted, f"{name} with {part}")

    def test_the_end_of_a_part_is_told_by_the_innermost_element(self):
        for part, answers in ENDS:
            self.assertEqual(len(events_of(part[1])) + 1, len(answers))
            for count, wanted in enumerate(answers):
                self.check(package_cut(part, count), "S", wanted, f"{count} of {part[0]}")

    def test_strings_are_joined_trimmed_and_unescaped(self):
        for shown, strings, wanted in STRINGS:
            texts = wanted if isinstance(wanted[0], str) else []
            named = [(f"{'ABC'[place]}1", text) for place, text in enumerate(texts)]
            cells = "".join(f'<c t="s"><v>{place}</v></c>' for place in range(len(texts)))
            lines = "".join(f"{cell}\ts:{text}\t-\t-\n" for cell, text in named)
            package = package_with((STRINGS_NAME, strings), (SHEET_NAME, with_data(cells)))
            self.check(package, "S", lines if texts else wanted, shown)

    def test_the_first_sheet_of_a_name_counts(self):
        for parts, name, wanted in PACKAGES:
            self.check(package_of(parts), name, wanted, f"{name} of {parts}")


if __name__ == "__main__":
    unittest.main()
