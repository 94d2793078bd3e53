"""Tries the built program on what formulas name, and on what they come to beside cached values."""

import subprocess
import unittest

from support.fixtures import SALES, package_text
from support.noted import (
    RELATIONSHIPS,
    ROOT,
    SHEET_NAME,
    SMALLEST,
    WORKBOOK,
    package_of,
    package_with,
    refused,
    told,
    with_data,
)
from test_program import BUILDS, OUT
from test_rows import STYLES, cell

USAGE = [(2, b"", b"usage\n")]
# What stands for characters that are no text of noted markup.
NOTED = str.maketrans({"&": "<!amp>", "<": "<!lt>", ">": "<!gt>"})
TOP = 170141183460469231731687303715884105727
BOTTOM = -TOP - 1


def formula(reference, text, value=None, more=""):
    """A cell with a formula, and with a value if there is one."""
    kept = "" if value is None else f"<v>{value}</v>"
    return f'<c r="{reference}"{more}><f>{text.translate(NOTED)}</f>{kept}</c>'


def sheet(*cells):
    """The package of a sheet with these cells."""
    return package_with((SHEET_NAME, with_data("".join(cells))), STYLES)


NAMING = sheet(formula("A1", "SUM(B1:C2)+$D$4+Other!E5"), formula("B1", "A:A"))

# A formula, and the areas that it names.
NAMED = [
    ("A1", "A1:A1"),
    ("1+2", ""),
    # A reference that another sheet's name, or a part of one, stands before.
    ("Other!E5", ""),
    ("'S'!A1", ""),
    ("S!A1", ""),
    ("#REF!A1", ""),
    ("!A1", ""),
    ("[1]Data!A1", ""),
    ("'S'! A1", "A1:A1"),
    ("S!A1,B2", "B2:B2"),
    ("A1!B2", ""),
    # What is no reference.
    ("LOG10(A1)", "A1:A1"),
    ('"A1"', ""),
    ("'A1'", ""),
    ("T[A1]", ""),
    ("A1:B", ""),
    ("E", ""),
    ("A1_", ""),
    ("A0", ""),
    ("XFE1", ""),
    ("A1048577", ""),
    # Corners in any order, and whole rows and columns.
    ("B2:A1", "A1:B2"),
    ("B1:A2", "A1:B2"),
    ("$C$3:A1", "A1:C3"),
    ("5:2", "A2:XFD5"),
    ("C:A", "A1:C1048576"),
    ("XFD1048576", "XFD1048576:XFD1048576"),
    # Each time that it stands there.
    ("A1+A1", "A1:A1 A1:A1"),
    ("B2+A1", "B2:B2 A1:A1"),
    # The words of docs/DIFFERENCES.md, where spreadsheet programs mean something else.
    ("\u58f2\u4e0aQ1", "Q1:Q1"),
    ("\u00e9A1", "A1:A1"),
    ("SUM(A1:INDEX(B:B,3))", "B1:B1048576"),
    ("INDEX(B:B,3):A1", "B1:B1048576"),
    ("OFFSET(A1,1,0):B5", "A1:A1"),
    ("A1:B2:C3", ""),
    ("A1:Ende", ""),
    ("Ende:A1", ""),
    # A text, a name or a group that doesn't end.
    ('A1+"B2', "A1:A1"),
    ("A1+'B2", "A1:A1"),
    ("A1+[B2", "A1:A1"),
]

# What stands at the limit of 16 blocks of 1,024 rows.
LONG = sheet(
    formula("B1", "A1:A16384"),
    formula("C1", "A1:A16385"),
    formula("D1", "A1024:A16385"),
    formula("E1", "A1048576"),
    formula("F1", "A1+A1"),
    formula("G1", "G1+H1"),
    formula("G2", "$G$1:A2"),
)

# A position, and the cells whose formulas name it.
DEPENDENTS = [
    ("A1", "B1 C1 F1 G2"),
    ("a1", "B1 C1 F1 G2"),
    ("A2", "B1 C1 G2"),
    ("A1023", "B1 C1"),
    ("A1024", "B1 C1 D1"),
    ("A16384", "B1 C1 D1"),
    ("A16385", "C1 D1"),
    ("A16386", ""),
    ("A1048576", "E1"),
    ("G1", "G1 G2"),
    ("H1", "G1"),
    ("XFD1048576", ""),
]

# Cells that formulas name.
GIVEN = "".join(
    cell(reference, text, more)
    for reference, text, more in (
        ("B1", TOP, ""),
        ("C1", BOTTOM, ""),
        ("D1", -1, ""),
        ("E1", "1E2147483647", ""),
        ("F1", "5E2147483647", ""),
        ("G1", "5E-2147483648", ""),
        ("H1", 2**126, ""),
        ("I1", "9E38", ""),
        ("J1", 10**38 + 1, ""),
        ("K1", "-9E38", ""),
        ("L1", "1E-2147483647", ""),
        ("M1", "x", ' t="str"'),
        ("N1", "1", ' t="b"'),
        ("O1", "#N/A", ' t="e"'),
        ("P1", "2024-01-01", ' t="d"'),
        ("Q1", "3", ""),
        ("R1", "4", ""),
        ("S1", "45292", ' s="1"'),
        ("U1", TOP, ""),
        ("U2", TOP, ""),
        ("U3", BOTTOM, ""),
        ("V1", BOTTOM, ""),
        ("V2", TOP, ""),
        ("V3", TOP, ""),
    )
)

WHOLE = ""
TRUTH = ' t="b"'
NO = "unsupported"
PAST = "overflow"

# A formula, the cached value of its cell, the type of this, and what is said.
CHECKED = [
    # Which operator takes what.
    ("1-2-3", -4, WHOLE, "agrees"),
    ("1-2-3", 2, WHOLE, "differs\tn:-4"),
    ("2+3*4", 14, WHOLE, "agrees"),
    ("2*3+4", 10, WHOLE, "agrees"),
    ("-2*3", -6, WHOLE, "agrees"),
    ("2*-3", -6, WHOLE, "agrees"),
    ("1--1", 2, WHOLE, "agrees"),
    ("--1", 1, WHOLE, "agrees"),
    ("(1-2)-(3-4)", 0, WHOLE, "agrees"),
    ("1<-2", 0, TRUTH, "agrees"),
    ("1<2", 1, TRUTH, "agrees"),
    ("1<=1", 1, TRUTH, "agrees"),
    ("1<1", 0, TRUTH, "agrees"),
    ("1>=2", 0, TRUTH, "agrees"),
    ("1<>2", 1, TRUTH, "agrees"),
    ("1-2-3=-4", 1, TRUTH, "agrees"),
    # Numbers as they are written.
    ("007", 7, WHOLE, "agrees"),
    (".5", "0.5", WHOLE, "agrees"),
    ("5.", 5, WHOLE, "agrees"),
    ("0.1+0.2", "0.3", WHOLE, "agrees"),
    # What has no tree.
    *((text, 1, WHOLE, NO) for text in ("+1", "1+", "=1", "1<2<3", "1< =2", "1=<2", "1 2")),
    *((text, 1, WHOLE, NO) for text in ("(1)(2)", "()", "A1:B2", "1(", "1)+(2", ".", "1.2.3")),
    *((text, 1, WHOLE, NO) for text in ("1E5", "1\u00a0+1", "LOG10(1)", "S!B1", '"1"', "1/2")),
    # Sums of areas.
    ("SUM(Q1)-1", 2, WHOLE, "agrees"),
    ("SUM(Q1,Q1:R2)", 10, WHOLE, "agrees"),
    ("SUM(R2:Q1)", 7, WHOLE, "agrees"),
    ("sum( Q1 , R1 )", 7, WHOLE, "agrees"),
    ("SUM(M1:N1,P1)", 0, WHOLE, "agrees"),
    ("SUM(S1)", 45292, WHOLE, "agrees"),
    ("SUM(O1)", 0, WHOLE, NO),
    *((text, 3, WHOLE, NO) for text in ("SUM (Q1)", "SUM(1)", "SUM()", "SUM(Q1,)", "SUM((Q1))")),
    ("SUM(U1:U3)", TOP - 1, WHOLE, PAST),
    ("SUM(V1:V3)", TOP - 1, WHOLE, "agrees"),
    # Single cells.
    ("S1", 45292, WHOLE, "agrees"),
    ("T1", 0, WHOLE, "agrees"),
    *((text, 1, WHOLE, NO) for text in ("M1", "N1", "O1", "P1")),
    # How many parentheses and signs may stand round a token.
    ("(" * 64 + "1" + ")" * 64, 1, WHOLE, "agrees"),
    ("(" * 65 + "1" + ")" * 65, 1, WHOLE, NO),
    ("-" * 64 + "1", 1, WHOLE, "agrees"),
    ("-" * 65 + "1", -1, WHOLE, NO),
    ("(-" * 32 + "1" + ")" * 32, 1, WHOLE, "agrees"),
    ("(-" * 32 + "-1" + ")" * 32, -1, WHOLE, NO),
    ("(" * 100_000, 1, WHOLE, NO),
    ("1" + "+1" * 99_999, 100_000, WHOLE, "agrees"),
    # The limits of a number.
    ("D1-C1", TOP, WHOLE, "agrees"),
    ("-C1", TOP, WHOLE, PAST),
    ("0-C1", TOP, WHOLE, PAST),
    ("C1-0", BOTTOM, WHOLE, "agrees"),
    ("B1+1", TOP, WHOLE, PAST),
    ("E1+0", "1E2147483647", WHOLE, "agrees"),
    ("E1+1", "1E2147483647", WHOLE, PAST),
    ("E1-E1", 0, WHOLE, "agrees"),
    ("F1+F1", 0, WHOLE, PAST),
    ("H1*5", 0, WHOLE, PAST),
    ("2*G1", "1E-2147483647", WHOLE, "agrees"),
    ("0*E1", 0, WHOLE, "agrees"),
    ("0*G1", 0, WHOLE, "agrees"),
    ("I1>J1", 1, TRUTH, "agrees"),
    ("K1<J1", 1, TRUTH, "agrees"),
    ("E1>L1", 1, TRUTH, "agrees"),
    # What isn't computed outranks what is past the limits.
    ("B1+B1+LOG10(1)", 1, WHOLE, NO),
    ("B1+B1)", 1, WHOLE, NO),
    ("(B1+B1=1)+1", 1, WHOLE, NO),
    ("B1+B1=1", 1, TRUTH, PAST),
    ("(1=1)+1", 2, WHOLE, NO),
    ("(1=1)=(1=1)", 1, TRUTH, NO),
    # Values of other types.
    ("1+1", 2, ' s="1"', "agrees"),
    ("1=1", 1, WHOLE, "differs\tb:true"),
    ("1=2", 1, TRUTH, "differs\tb:false"),
    ("1", 1, TRUTH, "differs\tn:1"),
    ("1+1", 2, ' t="str"', "differs\tn:2"),
    ("1+1", "#N/A", ' t="e"', "differs\tn:2"),
    ("1+1", "2024-01-01", ' t="d"', "differs\tn:2"),
    # No value.
    ("1+1", None, WHOLE, "no value"),
    ("1=1", None, WHOLE, "no value"),
    ("LOG10(1)", None, WHOLE, NO),
    ("B1+B1", None, WHOLE, PAST),
]

BROKEN = with_data(cell("A1", "x", ' t="b"') + formula("B1", "A1", 1))

# What a case shows, a package, and how each command on its sheet S is refused.
REFUSED = [
    ("a value", package_with((SHEET_NAME, BROKEN)), "Unrecognized boolean cell value: x"),
    ("no part", package_of([ROOT, RELATIONSHIPS, WORKBOOK]), "Worksheet 'S' not found"),
    ("no workbook", package_of(SMALLEST[1:]), "File not found '_rels/.rels'"),
    (
        "a chart sheet",
        package_with((SHEET_NAME, "<chartsheet/>")),
        "Expecting a worksheet, got chartsheet",
    ),
]


class FormulasNamed(unittest.TestCase):
    def check(self, package, words, wanted, shown):
        for build in BUILDS:
            ran = subprocess.run([OUT / build, *words], input=package, capture_output=True)
            self.assertIn((ran.returncode, ran.stdout, ran.stderr), told(wanted), shown)

    def test_the_areas_of_each_formula_are_printed(self):
        self.check(NAMING, ["precedents", "S"], "A1\tB1:C2\tD4:D4\nB1\tA1:A1048576\n", "two")
        cells = [formula(f"A{row}", text) for row, (text, _) in enumerate(NAMED, 1)]
        lines = [
            "\t".join([f"A{row}", *areas.split()]) + "\n"
            for row, (_, areas) in enumerate(NAMED, 1)
        ]
        self.check(sheet(*cells), ["precedents", "S"], "".join(lines), "many")
        self.check(package_with(), ["precedents", "S"], "", "no formula")

    def test_formulas_that_name_a_cell_are_printed(self):
        for position, wanted in (("A7", "B1\n"), ("B1", "A1\n"), ("E5", ""), ("D4", "A1\n")):
            self.check(NAMING, ["dependents", "S", position], wanted, position)
        for position, found in DEPENDENTS:
            wanted = "".join(f"{one}\n" for one in found.split())
            self.check(LONG, ["dependents", "S", position], wanted, position)
        self.check(package_with(), ["dependents", "S", "A1"], "", "no formula")

    def test_a_position_is_asked_by_its_reference(self):
        for word in ("7", "A", "$A$7", "A1:B2", "A0", "XFE1", "A1048577", "\u00e91", "", "A1 "):
            for package in (NAMING, b"{"):
                self.check(package, ["dependents", "S", word], USAGE, word)
        for words in (["dependents", "S"], ["dependents"], ["dependents", "A1", "S"]):
            self.check(NAMING, words, USAGE, words)
        for words in (["precedents"], ["precedents", "S", "A1"], ["check"], ["check", "S", "A1"]):
            self.check(NAMING, words, USAGE, words)

    def test_formulas_are_checked(self):
        lines = "C2\tagrees\nC3\tagrees\n"
        self.check(package_text(SALES), ["check", "Sales"], lines, "the shipped package")
        package = sheet(
            cell("B1", 3),
            cell("B2", TOP),
            formula("A1", "B1*2", 7),
            formula("A2", "B2+B2", 0),
            formula("A3", "LOG10(B1)", 1),
            formula("A4", "1-2-3=-4", 1, TRUTH),
            formula("A5", "B1"),
        )
        lines = "A1\tdiffers\tn:6\nA2\toverflow\nA3\tunsupported\nA4\tagrees\nA5\tno value\n"
        self.check(package, ["check", "S"], lines, "each verdict")
        self.check(package_with(), ["check", "S"], "", "no formula")
        package = sheet(formula("A1", "A1+1", 1), formula("A2", "A2", 1))
        lines = "A1\tdiffers\tn:2\nA2\tagrees\n"
        self.check(package, ["check", "S"], lines, "cells that name themselves")

    def test_each_formula_comes_to_what_it_says(self):
        cells = [
            formula(f"A{row}", text, value, more)
            for row, (text, value, more, _) in enumerate(CHECKED, 1)
        ]
        package = sheet(GIVEN, *cells)
        wanted = [f"A{row}\t{said}" for row, (_, _, _, said) in enumerate(CHECKED, 1)]
        for build in BUILDS:
            ran = subprocess.run([OUT / build, "check", "S"], input=package, capture_output=True)
            self.assertEqual((ran.returncode, ran.stderr), (0, b""))
            lines = ran.stdout.decode().splitlines()
            self.assertEqual(len(lines), len(CHECKED))
            for line, said, case in zip(lines, wanted, CHECKED):
                self.assertEqual(line, said, case[0][:80])

    def test_a_sheet_that_is_refused_is_refused_as_its_cells(self):
        commands = (["precedents", "S"], ["dependents", "S", "A1"], ["check", "S"], ["cells", "S"])
        for words in commands:
            for shown, package, text in REFUSED:
                self.check(package, words, refused(text), shown)
            for name in ("Z", "s", ""):
                wanted = refused(f"Worksheet '{name}' not found")
                self.check(package_with(), [words[0], name, *words[2:]], wanted, name)


if __name__ == "__main__":
    unittest.main()
