"""Tries `check` of the built program beside another reading of the definition (`computed`): each
operator on all pairs of limits, all formulas of four tokens, and long chains."""

import decimal
import itertools
import subprocess
import unittest

from support.computed import COMPARES, OVERFLOW, UNSUPPORTED, number, valued
from test_formulas_named import formula, sheet
from test_program import BUILDS, OUT
from test_rows import cell

TOP = 2**127 - 1
LIMITS = ["0", "1", "-1", str(TOP), str(-TOP - 1), str(2**126), str(10**38)]
LIMITS += ["1E2147483647", "1E-2147483647", "-1E2147483647", "5E-2147483648"]
OPERATORS = ["+", "-", "*", *COMPARES]
TOKENS = ["1", "2", "A1", "B1", "SUM", "+", "-", "*", "(", ")", ",", "="]
TERMS = 1_000_000
# A text, so that what is computed is printed.
OTHER = ' t="str"'


def mantissa_and_power(text):
    sign, digits, power = decimal.Decimal(text).as_tuple()
    mantissa = int("".join(map(str, digits)))
    return number(-mantissa if sign else mantissa, power)


def spelled(tokens):
    """A formula of these tokens, whose words stand apart."""
    text = ""
    for token in tokens:
        text += " " if text and text[-1].isalnum() and token[0].isalnum() else ""
        text += token
    return text


class Computed(unittest.TestCase):
    def lines(self, given, formulas):
        """What each build says of the formulas, which stand down a column."""
        cells = [formula(f"D{row}", text, "x", OTHER) for row, text in enumerate(formulas, 1)]
        package = sheet(given, *cells)
        for build in BUILDS:
            ran = subprocess.run([OUT / build, "check", "S"], input=package, capture_output=True)
            self.assertEqual((ran.returncode, ran.stderr), (0, b""))
            lines = ran.stdout.decode().splitlines()
            self.assertEqual(len(lines), len(formulas))
            yield [line.split("\t", 1)[1] for line in lines]

    def is_said(self, found, said):
        if found is UNSUPPORTED:
            return said == "unsupported"
        kind, value = found
        if value is OVERFLOW:
            return said == "overflow"
        if kind == "b":
            return said == f"differs\tb:{str(value).lower()}"
        front, _, text = said.partition("n:")
        return front == "differs\t" and mantissa_and_power(text) == value

    def test_all_pairs_of_limits(self):
        values = {f"A{row}": mantissa_and_power(text) for row, text in enumerate(LIMITS, 1)}
        given = "".join(cell(f"A{row}", text) for row, text in enumerate(LIMITS, 1))
        cases = [["-", name] for name in values]
        cases += [
            [one, operator, other]
            for one, operator, other in itertools.product(values, OPERATORS, values)
        ]
        for lines in self.lines(given, [spelled(case) for case in cases]):
            for case, said in zip(cases, lines):
                self.assertTrue(self.is_said(valued(case, values), said), (case, said))

    def test_all_formulas_of_four_tokens(self):
        values = {"A1": (3, 0), "B1": UNSUPPORTED}
        given = cell("A1", "3") + cell("B1", "x", OTHER)
        cases = list(itertools.product(TOKENS, repeat=4))
        for lines in self.lines(given, [spelled(case) for case in cases]):
            for case, said in zip(cases, lines):
                self.assertTrue(self.is_said(valued(list(case), values), said), (case, said))

    def test_a_chain_of_a_million_terms(self):
        chains = ["1" + "+1" * (TERMS - 1), "1" + "-1" * (TERMS - 1), "1" + "*1" * (TERMS - 1)]
        wanted = [f"differs\tn:{n}" for n in (TERMS, 2 - TERMS, 1)]
        for lines in self.lines("", chains):
            self.assertEqual(lines, wanted)


if __name__ == "__main__":
    unittest.main()
