"""Tries the built program on the data of sheets: where cells stand, what they hold, and why they
are refused."""

import subprocess
import unittest

from support.noted import SHEET_NAME, STRINGS_NAME, package_with, refused, told, with_data
from test_program import BUILDS, OUT

# The shared strings of each workbook here.
STRINGS = (
    STRINGS_NAME,
    '<x:sst><x:si><x:r><x:rPr><x:sz val="11"/></x:rPr><x:t>zero</x:t></x:r></x:si><x:si/></x:sst>',
)

# What a case shows, the data of a sheet, and the lines of its cells, or their refusals.
POSITIONS = [
    ("no row", "", ""),
    ("a row without cells", '<row r="1"/>', ""),
    (
        "a text, and a formula beside its value",
        '<row r="1"><c r="A1" t="str"><v>nut</v></c><c r="B1" t="str"><f>UPPER(A1)</f><v>NUT</v>'
        '</c></row>',
        "A1\ts:nut\t-\t-\nB1\ts:NUT\t=UPPER(A1)\t-\n",
    ),
    (
        "a cell that says nothing leaves what its position has",
        '<row r="1"><c r="A1"><f>1+1</f><v>2</v></c><c r="A1"/></row>',
        "A1\tn:2\t=1+1\t-\n",
    ),
    (
        "the same of a text",
        '<row r="1"><c r="A1" t="str"><f>1+1</f><v>q</v></c><c r="A1"/></row>',
        "A1\ts:q\t=1+1\t-\n",
    ),
    (
        "the last value of a position stands",
        '<row r="1"><c r="A1"><v>1</v></c></row><row r="1"><c r="A1"><v>2</v></c></row>',
        "A1\tn:2\t-\t-\n",
    ),
    (
        "the same of shared strings, an empty one among them",
        '<row r="1"><c r="A1" t="s"><v>1</v></c><c r="A1" t="s"><v>0</v></c>'
        '<c r="A2" t="s"><v>0</v></c><c r="A2" t="s"><v>1</v></c></row>',
        "A1\ts:zero\t-\t-\nA2\ts:\t-\t-\n",
    ),
    ("the last row", '<row r="1048576"><c><v>1</v></c></row>', "A1048576\tn:1\t-\t-\n"),
    (
        "a cell behind the last row",
        '<row r="1048576"><c><v>1</v></c></row><row><c><v>2</v></c></row>',
        refused("row number overflow"),
    ),
    (
        "an empty cell behind the last row",
        '<row r="1048576"/><row><c/></row>',
        refused("row number overflow"),
    ),
    (
        "a cell goes by the column of the one before and by its row",
        '<row r="2"><c r="C5"><v>1</v></c><c><v>2</v></c></row>',
        "D2\tn:2\t-\t-\nC5\tn:1\t-\t-\n",
    ),
    (
        "the same of texts",
        '<row r="2"><c r="C5" t="str"><v>x</v></c><c t="str"><v>y</v></c></row>',
        "D2\ts:y\t-\t-\nC5\ts:x\t-\t-\n",
    ),
    (
        "a cell behind the last column",
        '<row><c r="XFD1"/><c/></row>',
        refused("column number overflow"),
    ),
    (
        "rows in the order of the sheet",
        '<row r="2"><c r="A2"><v>2</v></c></row><row r="1"><c r="A1"><v>1</v></c></row>',
        "A1\tn:1\t-\t-\nA2\tn:2\t-\t-\n",
    ),
    ("a row in a row", '<row r="2"><row r="3"><c><v>1</v></c></row></row>', "A3\tn:1\t-\t-\n"),
    (
        "cells outside rows",
        "<row><c><v>1</v></c></row><c><v>2</v></c><c><v>3</v></c>",
        "A1\tn:1\t-\t-\nA2\tn:2\t-\t-\nB2\tn:3\t-\t-\n",
    ),
    (
        "cells in other elements, and texts beside cells",
        "<q><row>a<q><c>b<v>1</v>c</c></q>d<!><c><v>2</v></c></row></q>e",
        "A1\tn:1\t-\t-\nB1\tn:2\t-\t-\n",
    ),
    ("row 0", '<row r="0"/>', refused("Range is missing the expected row component.")),
    ("no letters", '<c r="1"/>', refused("Range is missing the expected column component.")),
    ("a row past the last", '<row r="1048577"/>', refused("row number overflow")),
    (
        "a cell that has no position, behind the last column and before a cell without one",
        '<c r="XFD1"/><c r="?"/><c/>',
        refused("Expecting alphanumeric character, got 3F"),
    ),
    (
        "a row that is refused, behind the last row",
        '<row r="1048576"/><row x/><c/>',
        refused("Xml attribute error: expected '=' at 1"),
    ),
    (
        "a position with marks of a held reference",
        '<row><c r="$A$1"/></row>',
        refused("Expecting alphanumeric character, got 24"),
    ),
]

# What a case shows, what stands behind `<c r="A1"` in the only cell, and the same.
VALUES = [
    (
        "no number where the type is that of numbers",
        ' t="n"><v>inf</v>',
        refused("Parse float error: inf"),
    ),
    ("no number, without a type", "><v>inf</v>", "A1\ts:inf\t-\t-\n"),
    ("no number, as written", "><v> _x0041_\r\n</v>", "A1\ts: _x0041_\\r\\n\t-\t-\n"),
    ("a number in one form", "><v>-0.50</v>", "A1\tn:-0.5\t-\t-\n"),
    ("a number with a power", ' t="n"><v>1e3</v>', "A1\tn:1000\t-\t-\n"),
    ("an unknown error", ' t="e"><v>#BAD!</v>', refused("Unsupported cell error value '#BAD!'")),
    (
        "an error in small letters",
        ' t="e"><v>#n/a</v>',
        refused("Unsupported cell error value '#n/a'"),
    ),
    ("an error", ' t="e"><v>#N/A</v>', "A1\te:#N/A\t-\t-\n"),
    ("a division by zero", ' t="e"><v>#DIV/0!</v>', "A1\te:#DIV/0!\t-\t-\n"),
    ("an unknown type", ' t="zz"><v>1</v>', refused("Unknown cell 't' attribute: \"zz\"")),
    ("an unknown type without a value", ' t="zz">', ""),
    ("an empty type", ' t=""><v>1</v>', refused("Unknown cell 't' attribute: \"\"")),
    (
        "an unknown type and a reference without a character",
        ' t="zz"><v><!nbsp></v>',
        refused("Unknown cell 't' attribute: \"zz\"", "Xml error: unknown entity at 5"),
    ),
    ("a text with references and escapes", ' t="str"><v>a<!lt>_x0041_</v>', "A1\ts:a<A\t-\t-\n"),
    ("the first event of a value without a type", "><v>a<!lt>_x0041_</v>", "A1\ts:a\t-\t-\n"),
    (
        "a date with references, and escapes that it doesn't have",
        ' t="d"><v>a<!lt>_x0041_</v>',
        "A1\ti:a<_x0041_\t-\t-\n",
    ),
    ("an element in a number", ' t="n"><v><x>1</x></v>', ""),
    ("an element in a text", ' t="str"><v><x>1</x></v>', "A1\ts:1\t-\t-\n"),
    ("a reference without a character in a value that doesn't count", ' t="is"><v><!nbsp></v>', ""),
    (
        "the same in a text, behind a comment",
        ' t="str"><v><!><!nbsp></v>',
        refused("Xml error: unknown entity at 6"),
    ),
    (
        "one line end in one text, two in two",
        ' t="str"><v>a\r\nb\r<!text>\nc</v>',
        "A1\ts:a\\nb\\n\\nc\t-\t-\n",
    ),
    ("a date as it is written", ' t="d"><v>2024-01-01</v>', "A1\ti:2024-01-01\t-\t-\n"),
    (
        "a string in the cell, and a value that doesn't count",
        ' t="inlineStr"><is><r><t>Hi </t></r><r><t xml:space="preserve"> you</t></r><rPh><t>no'
        '</t></rPh></is><v>9</v>',
        "A1\ts:Hi you\t-\t-\n",
    ),
    (
        "a return by its number is a blank at an end",
        ' t="inlineStr"><is><t>a<!#13></t></is>',
        "A1\ts:a\t-\t-\n",
    ),
    (
        "a text in a text counts, and none that is a pronunciation's own",
        ' t="inlineStr"><is><t>a<rPh><t>b</t></rPh>c</t><rPh><t x=y><!nbsp></t></rPh></is>',
        "A1\ts:abc\t-\t-\n",
    ),
    ("the last child that counts", "><is><t>a</t></is><v>1</v>", "A1\tn:1\t-\t-\n"),
    ("a value that says nothing behind one", "><v>1</v><v/>", ""),
    (
        "a boolean that is none",
        ' t="b"><v>2</v>',
        refused("Unrecognized boolean cell value: 2"),
    ),
    ("a boolean in capitals", ' t="b"><v>FALSE</v>', "A1\tb:false\t-\t-\n"),
    ("a boolean between blanks", ' t="b"><v> 1 </v>', "A1\tb:true\t-\t-\n"),
    (
        "a boolean between blanks of another script",
        ' t="b"><v>\u3000tRue\u00a0</v>',
        "A1\tb:true\t-\t-\n",
    ),
    ("blanks for a boolean", ' t="b"><v>  </v>', ""),
    (
        "no boolean, as it is written",
        ' t="b"><v> 00</v>',
        refused("Unrecognized boolean cell value:  00"),
    ),
    ("a place that is no number", ' t="s"><v>x</v>', "A1\ts:zero\t-\t-\n"),
    ("a place with a sign", ' t="s"><v>+1</v>', "A1\ts:zero\t-\t-\n"),
    (
        "a place past the shared strings",
        ' t="s"><v>2</v>',
        refused("Cell string index not found in shared strings table"),
    ),
]

# As the positions.
FORMULAS = [
    (
        "a derived formula moves with its cell from the first corner of the area",
        '<row r="1"><c r="C1"><f t="shared" ref="B1:C3" si="7">A1</f></c></row><row r="2">'
        '<c r="C2"><f t="shared" si="7"/></c></row>',
        "C1\t-\t=A1\t-\nC2\t-\t=B2\t-\n",
    ),
    (
        "a reference that leaves the worksheet becomes an error, but in the master's own formula",
        '<row r="1"><c r="C1"><f t="shared" ref="B1:C3" si="7">A1048576</f></c></row><row r="2">'
        '<c r="C2"><f t="shared" si="7"/></c></row>',
        "C1\t-\t=A1048576\t-\nC2\t-\t=#REF!\t-\n",
    ),
    (
        "of an area between the names of another sheet the second corner moves alone",
        '<row r="1"><c r="A1"><f t="shared" ref="A1:A2" si="0">'
        "'S'!A1:'S'!B2+\u00e9A1+A1:Ende</f>"
        '</c></row><row r="2"><c r="A2"><f t="shared" si="0"/></c></row>',
        "A1\t-\t='S'!A1:'S'!B2+\u00e9A1+A1:Ende\t-\nA2\t-\t='S'!A1:'S'!B3+\u00e9A2+A1:Ende\t-\n",
    ),
    (
        "the last master before a derived formula counts, also one that says nothing",
        '<row r="1"><c r="A1"><f t="shared" si="0"/></c><c r="B1">'
        '<f t="shared" ref="B1:D1" si="0">Z1</f></c><c r="C1"><f t="shared" si="0">X9</f></c>'
        '<c r="D1"><f t="shared" ref="D1" si="0">K1</f></c><c r="E1"><f t="shared" si="0"/></c>'
        '<c r="F1"><f t="shared" ref="F1" si="0"/></c><c r="G1"><f t="shared" si="0"/></c></row>',
        "B1\t-\t=Z1\t-\nC1\t-\t=AA1\t-\nD1\t-\t=K1\t-\nE1\t-\t=L1\t-\n",
    ),
    (
        "the first corner of the area is left of and above the master",
        '<row r="60"><c r="E60"><f t="shared" ref="C60:M83" si="0">$A60*E$2</f></c><c r="F60">'
        '<f t="shared" si="0"/></c></row>',
        "E60\t-\t=$A60*E$2\t-\nF60\t-\t=$A60*H$2\t-\n",
    ),
    (
        "the first corner is the first that is written",
        '<row r="2"><c r="B2"><f t="shared" ref="C3:A1" si="0">D4</f></c><c r="C2">'
        '<f t="shared" si="0"/></c></row>',
        "B2\t-\t=D4\t-\nC2\t-\t=D3\t-\n",
    ),
    (
        "the own text of a derived formula is dropped, also without a master",
        '<row><c><f t="shared" si="9">Z9</f><v>1</v></c></row>',
        "A1\tn:1\t-\t-\n",
    ),
    (
        "a master behind another formula of its cell",
        '<row><c r="A1"><f>Z1</f><f t="shared" si="0" ref="A1:A2">B1</f></c></row>'
        '<row><c r="A2"><f t="shared" si="0"/></c></row>',
        "A1\t-\t=B1\t-\nA2\t-\t=B2\t-\n",
    ),
    (
        "a formula of an array stands in its cell alone",
        '<row r="1"><c r="A1"><f t="array" ref="A1:A3">B1:B3*2</f></c></row>',
        "A1\t-\t=B1:B3*2\t-\n",
    ),
    (
        "an index with a leading zero is the same index",
        '<row><c><f t="shared" ref="A1" si="7">B1</f></c><c><f t="shared" si="07"/></c></row>',
        "A1\t-\t=B1\t-\nB1\t-\t=C1\t-\n",
    ),
    (
        "a formula with a reference to a character, and without character data",
        "<c><f>A1<!amp><!data>B1</f></c>",
        "A1\t-\t=A1&B1\t-\n",
    ),
    (
        "the last formula of a cell counts, and a master that isn't the last is kept",
        '<c><f t="shared" si="0" ref="A1:A2">B1</f><f>C1</f></c><c r="A2"><f t="shared" si="0"/>'
        '</c>',
        "A1\t-\t=C1\t-\nA2\t-\t=B2\t-\n",
    ),
    (
        "a derived formula behind another, and an own one behind a derived one",
        '<row><c r="A1"><f t="shared" si="0" ref="A1">B1</f></c><c><f t="shared" si="0"/>'
        '<f t="shared" si="0"/></c><c><f t="shared" si="0"/><f>X9</f></c><c>'
        '<f t="shared" si="0"/><f/></c></row>',
        "A1\t-\t=B1\t-\nB1\t-\t=C1\t-\nC1\t-\t=X9\t-\n",
    ),
    ("the last formula of a cell, which says nothing", "<c><f>B1</f><f/></c>", ""),
    (
        "of derived formulas at one position the last that says something stands",
        '<row><c r="A1"><f t="shared" si="0" ref="A1">B1</f></c><c r="A1">'
        '<f t="shared" si="1" ref="A1">D1</f></c><c r="C1"><f t="shared" si="2" ref="A1"/></c>'
        '<c r="A2"><f t="shared" si="1"/></c><c r="A2"><f t="shared" si="0"/></c>'
        '<c r="A2"><f t="shared" si="2"/></c><c r="A1"><f t="shared" si="2"/></c></row>',
        "A1\t-\t=D1\t-\nA2\t-\t=B2\t-\n",
    ),
    (
        "a reference without a character in the text of a derived formula",
        '<c><f t="shared" si="0"><!nbsp></f></c>',
        refused("Xml error: unknown entity at 4"),
    ),
    (
        "an area that isn't looked at where the formula isn't shared",
        '<c><f t="array" si="x" ref="x">B1</f></c>',
        "A1\t-\t=B1\t-\n",
    ),
    (
        "an empty index",
        '<c><f t="shared" si="">B1</f></c>',
        refused("si attribute must be a number"),
    ),
    (
        "an index with a sign",
        '<c><f t="shared" si="-1">B1</f></c>',
        refused("si attribute must be a number"),
    ),
    (
        "an area without a row",
        '<c><f t="shared" si="1" ref="B">B1</f></c>',
        refused("Range is missing the expected row component."),
    ),
    (
        "no index",
        '<c><f t="shared" ref="A1">B1</f><v>1</v></c>',
        refused("si attribute is mandatory if it is shared"),
    ),
    (
        "an index of more than 64 bits",
        '<c><f t="shared" ref="A1" si="18446744073709551616">B1</f></c>',
        refused("si attribute must be a number"),
    ),
    (
        "an area of three corners",
        '<c><f t="shared" ref="A1:B2:C3" si="18446744073709551615">B1</f></c>',
        refused("Range dimension must be lower than 2. Got 3"),
    ),
    (
        "no index, an area without a row, and a reference without a character",
        '<c><f t="shared" ref="A"><!nbsp></f></c>',
        refused(
            "si attribute is mandatory if it is shared",
            "Range is missing the expected row component.",
            "Xml error: unknown entity at 4",
        ),
    ),
]

# As the positions.
FAULTS = [
    ("an element that no cell has", "<c><q/></c>", refused("Expecting 'v, f, or is' node")),
    (
        "an end that breaks the nesting",
        "<row><c></row>",
        refused("Xml error: end tag mismatch at 4"),
    ),
    (
        "nothing stands behind an end that breaks the nesting",
        "<row></c><c><q/></c></row>",
        refused("Xml error: end tag mismatch at 3"),
    ),
    (
        "an end that breaks the nesting in a value that is skipped",
        '<c t="is"><v><!nbsp></c>',
        refused("Xml error: end tag mismatch at 5"),
    ),
    (
        "the same behind a text that is no number",
        '<c t="n"><v>x</c>',
        refused("Parse float error: x", "Xml error: end tag mismatch at 5"),
    ),
    (
        "attributes that end in a fault, which are searched",
        "<c r><v>1</v></c>",
        refused("Xml attribute error: expected '=' at 1"),
    ),
    ("a quotation mark that isn't closed", '<row><c r="A1><v>1</v></c></row>', "A1\tn:1\t-\t-\n"),
    (
        "references without a character in a number, behind its first event",
        "<c><v>1<!nbsp></v></c>",
        "A1\tn:1\t-\t-\n",
    ),
]

# The type of a cell, and what is told of it with an empty text, a text, a reference, character data
# and a comment first in its `v`.
BY_FIRST_EVENT = [
    (
        "",
        ("", "A1\tn:1\t-\t-\n", "", "", ""),
    ),
    (
        ' t="n"',
        ("", "A1\tn:1\t-\t-\n", "", "", ""),
    ),
    (
        ' t="s"',
        ("", "A1\ts:\t-\t-\n", "", "", ""),
    ),
    (
        ' t="b"',
        ("", "A1\tb:true\t-\t-\n", "", "", ""),
    ),
    (
        ' t="e"',
        (
            refused("Unsupported cell error value ''"),
            refused("Unsupported cell error value '1'"),
            "",
            "",
            "",
        ),
    ),
    (
        ' t="str"',
        (
            "A1\ts:\t-\t-\n",
            "A1\ts:1\t-\t-\n",
            "A1\ts:&\t-\t-\n",
            "A1\ts:\t-\t-\n",
            "A1\ts:\t-\t-\n",
        ),
    ),
    (
        ' t="d"',
        (
            "A1\ti:\t-\t-\n",
            "A1\ti:1\t-\t-\n",
            "A1\ti:&\t-\t-\n",
            "A1\ti:\t-\t-\n",
            "A1\ti:\t-\t-\n",
        ),
    ),
    (
        ' t="inlineStr"',
        ("", "", "", "", ""),
    ),
    (
        ' t="is"',
        ("", "", "", "", ""),
    ),
    (
        ' t="zz"',
        (
            refused("Unknown cell 't' attribute: \"zz\""),
            refused("Unknown cell 't' attribute: \"zz\""),
            refused("Unknown cell 't' attribute: \"zz\""),
            refused("Unknown cell 't' attribute: \"zz\""),
            refused("Unknown cell 't' attribute: \"zz\""),
        ),
    ),
]

FIRST_EVENTS = ("<!text>", "1", "<!amp>", "<!data>", "<!>")


class Cells(unittest.TestCase):
    def check(self, shown, data, wanted):
        package = package_with((SHEET_NAME, with_data(data)), STRINGS)
        for build in BUILDS:
            ran = subprocess.run([OUT / build, "cells", "S"], input=package, capture_output=True)
            self.assertIn((ran.returncode, ran.stdout, ran.stderr), told(wanted), shown)

    def test_cells_stand_where_they_and_those_before_say(self):
        for case in POSITIONS:
            self.check(*case)

    def test_values_go_by_the_type_of_their_cell(self):
        for shown, cell, wanted in VALUES:
            self.check(shown, f'<row r="1"><c r="A1"{cell}</c></row>', wanted)

    def test_a_first_event_that_is_no_text_gives_no_number(self):
        for typ, answers in BY_FIRST_EVENT:
            for event, wanted in zip(FIRST_EVENTS, answers):
                self.check(f"{typ}: {event}", f'<c r="A1"{typ}><v>{event}</v></c>', wanted)

    def test_derived_formulas_move_with_their_cell(self):
        for case in FORMULAS:
            self.check(*case)

    def test_cells_are_refused_for_what_is_at_fault(self):
        for case in FAULTS:
            self.check(*case)


if __name__ == "__main__":
    unittest.main()
