"""Tries `resave` of the built program: what is written of a sheet reads back to its values and
formulas, groups are found anew, and what is written once more is the same text."""

import io
import json
import subprocess
import unittest
import zipfile

from support.noted import SHEET_NAME, WORKBOOK_NAME, package_with, refused, with_data
from test_formulas_named import formula
from test_program import BUILDS, OUT, TOP
from test_rows import cell

STYLES = (
    "xl/styles.xml",
    '<styleSheet><cellXfs><xf numFmtId="0"/><xf numFmtId="22"/><xf numFmtId="46"/></cellXfs>'
    "</styleSheet>",
)
EPOCH_1904 = (
    WORKBOOK_NAME,
    '<workbook><workbookPr date1904="1"/><sheets><sheet name="S" sheetId="1" r:id="rId1"/>'
    "</sheets></workbook>",
)
# The parts of a workbook file that is written, in their order.
FILE_PARTS = [
    "[Content_Types].xml",
    "_rels/.rels",
    "xl/_rels/workbook.xml.rels",
    "xl/workbook.xml",
    "xl/styles.xml",
    SHEET_NAME,
]
# A text as it is read, as `cells` prints it, and as it is written in a workbook file.
ESCAPED = [
    ("MEDIUM_DASHED", "MEDIUM_DASHED", "MEDIUM_DASHED"),
    ("_x005F_x0041_", "_x0041_", "_x005F_x0041_"),
    ("_x005F_x0041", "_x0041", "_x0041"),
    ("_x005_x005F_x0041_", "_x005_x0041_", "_x005_x005F_x0041_"),
    ("_x0000_", "\0", "_x0000_"),
    ("_x005F_x0041_x0001_", "_x0041\x01", "_x005F_x0041_x0001_"),
    ("a_x000B_b", "a\x0bb", "a_x000B_b"),
]
STRING = ' t="str"'
SHARED = ' t="shared"'


def column(*formulas, rows=None):
    """Formulas down column B, from the first row or in these rows."""
    rows = rows or range(1, len(formulas) + 1)
    return "".join(formula(f"B{row}", text) for row, text in zip(rows, formulas))


# What a case shows, the cells of the sheet, its values and formulas as `cells` prints them, and
# each `f` that is written, by its attributes and its text.
CASES = [
    ("nothing", "", [], []),
    ("a number", cell("A1", "12.50"), ["A1\tn:12.5\t-"], []),
    ("the last cell of a sheet", cell("XFD1048576", "1"), ["XFD1048576\tn:1\t-"], []),
    ("a power", cell("A1", "1E30"), ["A1\tn:1E30\t-"], []),
    (
        "numbers at the limits",
        "".join(
            cell(f"A{row}", text)
            for row, text in enumerate((str(2**127 - 1), str(-(2**127)), "1E2147483647"), 1)
        ),
        [f"A1\tn:{2**127 - 1}\t-", f"A2\tn:{-(2**127)}\t-", "A3\tn:1E2147483647\t-"],
        [],
    ),
    ("an underscore", cell("A1", "_", STRING), ["A1\ts:_\t-"], []),
    ("an escape", cell("A1", "_x005F_x0041_", STRING), ["A1\ts:_x0041_\t-"], []),
    ("two underscores", cell("A1", "__x005F_", STRING), ["A1\ts:__\t-"], []),
    (
        "CR LF in a text",
        '<c r="A1" t="str"><v>a<!#13>\nb</v></c>',
        ["A1\ts:a\\r\\nb\t-"],
        [],
    ),
    ("CR alone", '<c r="A1" t="str"><v><!#13></v></c>', ["A1\ts:\\r\t-"], []),
    ("LF alone", cell("A1", "\n", STRING), ["A1\ts:\\n\t-"], []),
    ("an empty text", '<c r="A1" t="str"><v></v></c>', ["A1\ts:\t-"], []),
    ("blanks at the ends", cell("A1", " a ", STRING), ["A1\ts: a \t-"], []),
    (
        "references",
        '<c r="A1" t="str"><v><!amp><!lt>"</v></c>',
        ['A1\ts:&<"\t-'],
        [],
    ),
    (
        "an ISO date, whose underscores stay",
        cell("A1", "_x0041_", ' t="d"'),
        ["A1\ti:_x0041_\t-"],
        [],
    ),
    (
        "booleans",
        cell("A1", "1", ' t="b"') + cell("A2", "0", ' t="b"'),
        ["A1\tb:true\t-", "A2\tb:false\t-"],
        [],
    ),
    ("an error", cell("A1", "#N/A", ' t="e"'), ["A1\te:#N/A\t-"], []),
    ("a date", cell("A1", "0", ' s="1"'), ["A1\tt:0 date 1900\t-"], []),
    ("a negative duration", cell("A1", "-1.5", ' s="2"'), ["A1\tt:-1.5 duration 1900\t-"], []),
    (
        "a text that moves to itself is shared",
        column("1+1", "1+1"),
        ["B1\t-\t=1+1", "B2\t-\t=1+1"],
        [(SHARED + ' ref="B1:B2" si="0"', "1+1"), (SHARED + ' si="0"', None)],
    ),
    (
        "a moved text has capitals: plain",
        column("b1", "b2"),
        ["B1\t-\t=b1", "B2\t-\t=b2"],
        [("", "b1"), ("", "b2")],
    ),
    (
        "and shared where it has them",
        column("b1", "B2"),
        ["B1\t-\t=b1", "B2\t-\t=B2"],
        [(SHARED + ' ref="B1:B2" si="0"', "b1"), (SHARED + ' si="0"', None)],
    ),
    (
        "two groups down a column",
        column("A1*2", "A2*2", "A9*2", "A10*2", rows=(1, 2, 9, 10)),
        ["B1\t-\t=A1*2", "B2\t-\t=A2*2", "B9\t-\t=A9*2", "B10\t-\t=A10*2"],
        [
            (SHARED + ' ref="B1:B2" si="0"', "A1*2"),
            (SHARED + ' si="0"', None),
            (SHARED + ' ref="B9:B10" si="1"', "A9*2"),
            (SHARED + ' si="1"', None),
        ],
    ),
    (
        "a gap ends a group",
        column("A1*2", "A3*2", rows=(1, 3)),
        ["B1\t-\t=A1*2", "B3\t-\t=A3*2"],
        [("", "A1*2"), ("", "A3*2")],
    ),
    (
        "no group runs along a row",
        formula("A1", "A2*2") + formula("B1", "B2*2"),
        ["A1\t-\t=A2*2", "B1\t-\t=B2*2"],
        [("", "A2*2"), ("", "B2*2")],
    ),
    (
        "references that leave the sheet are lost from there on",
        column("B1048575", "B1048576", "#REF!", "#REF!"),
        ["B1\t-\t=B1048575", "B2\t-\t=B1048576", "B3\t-\t=#REF!", "B4\t-\t=#REF!"],
        [
            (SHARED + ' ref="B1:B4" si="0"', "B1048575"),
            (SHARED + ' si="0"', None),
            (SHARED + ' si="0"', None),
            (SHARED + ' si="0"', None),
        ],
    ),
    (
        "two columns side by side",
        formula("A1", "C1") + formula("B1", "D1") + formula("A2", "C2") + formula("B2", "D2"),
        ["A1\t-\t=C1", "B1\t-\t=D1", "A2\t-\t=C2", "B2\t-\t=D2"],
        [
            (SHARED + ' ref="A1:A2" si="0"', "C1"),
            (SHARED + ' ref="B1:B2" si="1"', "D1"),
            (SHARED + ' si="0"', None),
            (SHARED + ' si="1"', None),
        ],
    ),
    (
        "a formula with CR, beside an escaped text",
        '<c r="A1" t="str"><f>1<!#13></f><v>_x005F_x0041_</v></c>',
        ["A1\ts:_x0041_\t=1\\r"],
        [("", "1\r")],
    ),
    ("a text that begins with =", cell("A1", "=A1", STRING), ["A1\ts:=A1\t-"], []),
    (
        "values and formulas apart",
        cell("A1", "1") + formula("C3", "A1"),
        ["A1\tn:1\t-", "C3\t-\t=A1"],
        [("", "A1")],
    ),
]

# A sheet's name as it is written between quotes, and as a word.
NAMES = [("a&amp;b", "a&b"), ("&amp;amp;", "&amp;"), ("&quot;q&quot;", '"q"'), ("", "")]


def named(written):
    """A workbook whose one sheet has this name."""
    return (
        WORKBOOK_NAME,
        f'<workbook><sheets><sheet name="{written}" sheetId="1" r:id="rId1"/></sheets></workbook>',
    )


def formulas_written(text):
    """Each `f` of the sheet of a package text, by its attributes and its text."""
    parts = json.loads(text)["parts"]
    events = next(part["events"] for part in parts if part["name"] == SHEET_NAME)
    found, open_one = [], None
    for kind, *fields in events:
        if kind in ("s", "b") and fields[0] == "f":
            open_one = [fields[1], None]
            found.append(open_one)
            open_one = None if kind == "b" else open_one
        elif kind == "e" and fields[0] == "f":
            open_one = None
        elif open_one is not None:
            text = fields[0] if kind == "t" else "\r"
            open_one[1] = (open_one[1] or "") + text
    return [tuple(one) for one in found]


class Resave(unittest.TestCase):
    def run_on(self, build, package, *words):
        ran = subprocess.run([OUT / build, *words], input=package, capture_output=True)
        return ran.returncode, ran.stdout, ran.stderr

    def saved(self, build, package, name="S"):
        """What is written of the sheet, which is written once more to the same text."""
        status, text, told_text = self.run_on(build, package, "resave", name)
        self.assertEqual((status, told_text), (0, b""))
        self.assertEqual(self.run_on(build, text, "resave", name), (0, text, b""))
        return text

    def test_sheets_are_written_and_read_back(self):
        for shown, cells, lines, formulas in CASES:
            package = package_with((SHEET_NAME, with_data(cells)), STYLES)
            wanted = "".join(f"{line}\t-\n" for line in lines).encode()
            for build in BUILDS:
                with self.subTest(shown, build=build):
                    self.assertEqual(self.run_on(build, package, "cells", "S"), (0, wanted, b""))
                    text = self.saved(build, package)
                    self.assertEqual(self.run_on(build, text, "cells", "S"), (0, wanted, b""))
                    self.assertEqual(formulas_written(text), formulas)

    def test_the_first_year_is_written(self):
        package = package_with(
            EPOCH_1904, STYLES, (SHEET_NAME, with_data(cell("A1", "1.5", ' s="2"')))
        )
        for build in BUILDS:
            text = self.saved(build, package)
            self.assertIn(b"date1904", text)
            wanted = (0, b"A1\tt:1.5 duration 1904\t-\t-\n", b"")
            self.assertEqual(self.run_on(build, text, "cells", "S"), wanted)

    def test_names_are_written(self):
        for written, name in NAMES:
            package = package_with(named(written))
            for build in BUILDS:
                with self.subTest(name, build=build):
                    text = self.saved(build, package, name)
                    wanted = (0, b"A1\ts:nut\t-\t-\n", b"")
                    self.assertEqual(self.run_on(build, text, "cells", name), wanted)

    def test_the_shipped_package_is_written(self):
        wanted = (TOP / "tools" / "shipped.resaved.json").read_bytes()
        package = (TOP / "crates" / "xlsx_tool" / "stdin").read_bytes()
        for build in BUILDS:
            self.assertEqual(self.saved(build, package, "Sales"), wanted)

    def check_file(self, build, package, wanted):
        """The parts of the workbook file that is written of a package, which reads back."""
        status, file, said = self.run_on(build, package, "resave", "S", "--xlsx")
        self.assertEqual((status, said), (0, b""))
        self.assertEqual(self.run_on(build, file, "cells", "S"), (0, wanted, b""))
        # What is written once more is the same file.
        self.assertEqual(self.run_on(build, file, "resave", "S", "--xlsx"), (0, file, b""))
        with zipfile.ZipFile(io.BytesIO(file)) as archive:
            return {name: archive.read(name).decode() for name in archive.namelist()}

    def test_sheets_are_written_as_workbook_files(self):
        for shown, cells, lines, _ in CASES:
            package = package_with((SHEET_NAME, with_data(cells)), STYLES)
            wanted = "".join(f"{line}\t-\n" for line in lines).encode()
            for build in BUILDS:
                with self.subTest(shown, build=build):
                    parts = self.check_file(build, package, wanted)
                    self.assertEqual(list(parts), FILE_PARTS)
                    # Each formula is written by itself.
                    self.assertNotIn("shared", parts[SHEET_NAME])

    def test_escapes_stand_where_they_are_needed(self):
        for written, told, kept in ESCAPED:
            package = package_with((SHEET_NAME, with_data(cell("A1", written, STRING))))
            for build in BUILDS:
                with self.subTest(written, build=build):
                    parts = self.check_file(build, package, f"A1\ts:{told}\t-\t-\n".encode())
                    self.assertIn(f"<v>{kept}</v>", parts[SHEET_NAME])

    def test_what_no_workbook_file_can_hold(self):
        wanted = (15, b"", b"no workbook file can hold it\n")
        for cells in (
            formula("A1", "B\0"),
            cell("A1", "2024\0", ' t="d"'),
        ):
            package = package_with((SHEET_NAME, with_data(cells)))
            for build in BUILDS:
                with self.subTest(cells, build=build):
                    found = self.run_on(build, package, "resave", "S", "--xlsx")
                    self.assertEqual(found, wanted)
                    self.assertEqual(self.run_on(build, package, "resave", "S")[0], 0)

    def test_a_sheet_that_is_not_there(self):
        (wanted,) = refused("Worksheet 'X' not found")
        for build in BUILDS:
            self.assertEqual(self.run_on(build, package_with(), "resave", "X"), wanted)


if __name__ == "__main__":
    unittest.main()
