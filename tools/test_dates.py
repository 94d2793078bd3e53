"""Tries the built program on what is asked of CSV behind a name: dates by their texts, rounded
numbers, other delimiters and line ends, a byte order mark, and an area from A1."""

import csv
import decimal
import io
import re
import subprocess
import unittest

from support.noted import SHEET_NAME, WORKBOOK, WORKBOOK_NAME, package_with, told, with_data
from test_program import BUILDS, OUT
from test_rows import STYLES, TOO_LARGE, cell, numbers, texts
from test_samples import WORKBOOKS, package_text

# Serials, and their texts from 1900 and from 1904, which Python's datetime tells: its day 1 is
# 1900-01-01 up to the 28 February, and 1900-03-01 is day 61. What has no date is the number.
# ECMA-376 part 1, 18.17.4.1 has the first and the last day of both calendars, 3687.4207639,
# 2225.4207639 and 2958465.9999884. openpyxl differs at 60 alone, which it takes as 1900-02-28
# again, and LibreOffice at each day below 61: its day 0 is 1899-12-30, so 1 is 1899-12-31, 59 is
# 1900-02-27 and 60 is 1900-02-28.
SERIALS = """\
0 00:00:00 1904-01-01
0.5 12:00:00 1904-01-01T12:00:00
1 1900-01-01 1904-01-02
1.5 1900-01-01T12:00:00 1904-01-02T12:00:00
2 1900-01-02 1904-01-03
31 1900-01-31 1904-02-01
32 1900-02-01 1904-02-02
59 1900-02-28 1904-02-29
59.5 1900-02-28T12:00:00 1904-02-29T12:00:00
59.999999 1900-02-28T23:59:59.914 1904-02-29T23:59:59.914
59.9999999999 1900-02-29 1904-03-01
60 1900-02-29 1904-03-01
60.5 1900-02-29T12:00:00 1904-03-01T12:00:00
60.99999999999 1900-03-01 1904-03-02
61 1900-03-01 1904-03-02
61.25 1900-03-01T06:00:00 1904-03-02T06:00:00
62 1900-03-02 1904-03-03
91 1900-03-31 1904-04-01
365 1900-12-30 1904-12-31
366 1900-12-31 1905-01-01
367 1901-01-01 1905-01-02
730.75 1901-12-30T18:00:00 1905-12-31T18:00:00
731 1901-12-31 1906-01-01
1461 1903-12-31 1908-01-01
1462 1904-01-01 1908-01-02
1462.5 1904-01-01T12:00:00 1908-01-02T12:00:00
1463 1904-01-02 1908-01-03
3687.4207639 1910-02-03T10:05:54.001 1914-02-04T10:05:54.001
2225.4207639 1906-02-02T10:05:54.001 1910-02-03T10:05:54.001
10000 1927-05-18 1931-05-19
18264 1950-01-01 1954-01-02
22252.123456 1960-12-02T02:57:46.598 1964-12-03T02:57:46.598
25568 1969-12-31 1974-01-01
25569 1970-01-01 1974-01-02
25569.041666666667 1970-01-01T01:00:00 1974-01-02T01:00:00
29221 1980-01-01 1984-01-02
32874 1990-01-01 1994-01-02
36525 1999-12-31 2004-01-01
36526 2000-01-01 2004-01-02
36526.0000000058 2000-01-01T00:00:00.001 2004-01-02T00:00:00.001
36585 2000-02-29 2004-03-01
36586 2000-03-01 2004-03-02
36587 2000-03-02 2004-03-03
39448.75 2008-01-01T18:00:00 2012-01-02T18:00:00
40237.5 2010-02-28T12:00:00 2014-03-01T12:00:00
43831 2020-01-01 2024-01-02
43890 2020-02-29 2024-03-01
43891 2020-03-01 2024-03-02
44196.999988426 2020-12-31T23:59:59 2025-01-01T23:59:59
45292 2024-01-01 2028-01-02
45292.5 2024-01-01T12:00:00 2028-01-02T12:00:00
45292.562511574 2024-01-01T13:30:01 2028-01-02T13:30:01
45292.9999999999 2024-01-02 2028-01-03
45351 2024-02-29 2028-03-01
45352 2024-03-01 2028-03-02
45657.0416666667 2024-12-31T01:00:00 2029-01-01T01:00:00
46022.00001 2025-12-31T00:00:00.864 2030-01-01T00:00:00.864
50000.000000001 2036-11-21 2040-11-22
73050 2099-12-31 2104-01-02
73109 2100-02-28 2104-03-01
73110 2100-03-01 2104-03-02
100000 2173-10-14 2177-10-15
401769.333 3000-01-01T07:59:31.200 3004-01-03T07:59:31.200
1000000 4637-11-26 4641-11-27
2957002 9995-12-29 9999-12-30
2957003 9995-12-30 9999-12-31
2957003.99999999 9995-12-30T23:59:59.999 9999-12-31T23:59:59.999
2957003.999999999 9995-12-31 2957003.999999999
2957004 9995-12-31 2957004
2958465 9999-12-31 2958465
2958465.5 9999-12-31T12:00:00 2958465.5
2958465.9999884 9999-12-31T23:59:58.998 2958465.9999884
2958465.99999999 9999-12-31T23:59:59.999 2958465.99999999
2958465.999999999 2958465.999999999 2958465.999999999
2958466 2958466 2958466
0.9999999999 1900-01-01 1904-01-02
0.0000000058 00:00:00.001 1904-01-01T00:00:00.001
0.0000000057 00:00:00 1904-01-01
0.000694444444444 00:01:00 1904-01-01T00:01:00
0.041666666666667 01:00:00 1904-01-01T01:00:00
-1 -1 -1
-0.5 -0.5 -0.5
-0.000000001 00:00:00 1904-01-01
1E30 1E30 1E30
1E-30 00:00:00 1904-01-01
1E38 1E38 1E38
2E-8 00:00:00.002 1904-01-01T00:00:00.002
"""

# A CR as a reference, as a line end would be read as LF.
RETURN = "<!#13>"

# Durations, in days, and their texts.
DURATIONS = """\
0 0:00:00
0.000000011574074 0:00:00.001
0.0000000115 0:00:00.001
-0.5 -12:00:00
1.520833333333333 36:30:00
0.003472222222222 0:05:00
100000000000000000000 2400000000000000000000:00:00
1E30 24000000000000000000000000000000:00:00
1E31 1E31
1E38 1E38
-1E-30 0:00:00
-0.00000001 -0:00:00.001
41.666666666667 1000:00:00
3.999999999999 96:00:00
"""

# Numbers, how many digits are asked for, and what they are rounded to.
ROUNDED = """\
37.619999999999997 15 37.62
845.60000000000014 15 845.6
0.1 15 0.1
999999999999999.5 15 1000000000000000
0.0000001234567890123456 15 123456789012346E-21
-5E-324 15 -5E-324
170141183460469231731687303715884105727 15 170141183460469E24
1E2147483647 15 1E2147483647
95E2147483646 1 95E2147483646
-2.5 1 -3
1234 2 1200
0 1 0
99999 38 99999
"""

# The number of 15 digits beside that of Python's decimal.
CONTEXT = decimal.Context(prec=15, rounding=decimal.ROUND_HALF_UP)
NUMBER = re.compile("-?[0-9]+([.][0-9]+)?(E-?[0-9]+)?")

DATED = (WORKBOOK_NAME, WORKBOOK[1].replace("<sheets>", '<workbookPr date1904="1"/><sheets>'))

# Words that are no options, and those that are given twice.
REFUSED = [
    ["--delimiter="],
    ['--delimiter="'],
    ["--delimiter=ab"],
    ["--delimiter=\u00e9"],
    ["--delimiter=\n"],
    ["--delimiter=\r"],
    ["--delimiter"],
    ["--digits="],
    ["--digits=0"],
    ["--digits=39"],
    ["--digits=07"],
    ["--digits=-1"],
    ["--digits=100"],
    ["--digits=x"],
    ["--digits"],
    ["--dates", "--dates"],
    ["--crlf", "--bom", "--crlf"],
    ["--bom", "--bom"],
    ["--from-a1", "--from-a1"],
    ["--digits=3", "--digits=3"],
    ["--delimiter=;", "--delimiter=tab"],
    ["--dates=1"],
    ["--Dates"],
    ["dates"],
    [""],
    ["--help"],
]

# Options, the data of a sheet, and the rows as they are printed.
OPTIONS = [
    (["--delimiter=;"], texts(A1="a;b", B1="a,b"), b'"a;b";a,b\n'),
    (["--delimiter=tab"], texts(A1="a\tb", B1="c"), b'"a\tb"\tc\n'),
    (["--delimiter=,"], texts(A1="a,b"), b'"a,b"\n'),
    (["--delimiter= "], texts(A1="a b", B1="c"), b'"a b" c\n'),
    (["--crlf"], texts(A1="a", A2="b"), b"a\r\nb\r\n"),
    (["--crlf"], texts(A1=f"a{RETURN}b", B1='"'), b'"a\rb",""""\r\n'),
    (["--crlf"], numbers("A1", "A3"), b'1\r\n""\r\n1\r\n'),
    (["--bom"], texts(A1="a"), b"\xef\xbb\xbfa\n"),
    (["--bom"], "", b"\xef\xbb\xbf"),
    (["--from-a1"], numbers("C2"), b",,\n,,1\n"),
    (["--from-a1"], numbers("A1"), b"1\n"),
    (["--from-a1"], "", b""),
    (
        ["--from-a1", "--bom", "--crlf", "--delimiter=;", "--digits=1", "--dates"],
        cell("B2", "1.55") + cell("C2", "45292.5", ' s="1"'),
        b"\xef\xbb\xbf;;\r\n;2;2024-01-01T12:00:00\r\n",
    ),
    (["--digits=2"], cell("A1", "45292.5", ' s="1"'), b"45000\n"),
    (["--dates"], '<c r="A1" t="d"><v>2024-05-06</v></c>', b"2024-05-06\n"),
]


def table(text):
    return [line.split(" ") for line in text.splitlines()]


def column_of(serials, style):
    """The data of a sheet with these numbers below each other, in a style."""
    return "".join(
        cell(f"A{row}", serial, f' s="{style}"') for row, serial in enumerate(serials, 1)
    )


class Dates(unittest.TestCase):
    def check(self, package, words, wanted, shown):
        for build in BUILDS:
            ran = subprocess.run([OUT / build, *words], input=package, capture_output=True)
            self.assertIn((ran.returncode, ran.stdout, ran.stderr), told(wanted), shown)

    def test_serials_have_their_dates(self):
        cases = table(SERIALS)
        self.assertGreaterEqual(len(cases), 60)
        data = (SHEET_NAME, with_data(column_of([case[0] for case in cases], 1)))
        for column, parts in ((1, ()), (2, (DATED,))):
            package = package_with(data, STYLES, *parts)
            wanted = "".join(f"{case[column]}\n" for case in cases)
            self.check(package, ["csv", "S", "--dates"], wanted, column)

    def test_durations_have_their_hours(self):
        cases = table(DURATIONS)
        package = package_with(
            (SHEET_NAME, with_data(column_of([case[0] for case in cases], 2))), STYLES
        )
        wanted = "".join(f"{case[1]}\n" for case in cases)
        self.check(package, ["csv", "S", "--dates"], wanted, "durations")

    def test_numbers_are_rounded(self):
        for number, digits, wanted in table(ROUNDED):
            package = package_with((SHEET_NAME, with_data(cell("A1", number))))
            self.check(package, ["csv", "S", f"--digits={digits}"], wanted + "\n", number)

    def test_samples_are_rounded_as_decimals_are(self):
        rounded = 0
        for path in WORKBOOKS:
            package = package_text(path)
            listed = subprocess.run([OUT / BUILDS[0], "sheets"], input=package, capture_output=True)
            for line in listed.stdout.decode().splitlines():
                name, kind, _ = line.split("\t")
                if kind == "worksheet":
                    rounded += self.compare(package, name, path.name)
        self.assertGreater(rounded, 20)

    def compare(self, package, name, shown):
        """How many numbers of a sheet were compared with Python's of 15 digits."""
        exact, rounded = (
            subprocess.run(
                [OUT / BUILDS[0], "csv", name, *options], input=package, capture_output=True
            ).stdout.decode()
            for options in ([], ["--digits=15"])
        )
        fields = [
            [field for row in csv.reader(io.StringIO(text, newline="")) for field in row]
            for text in (exact, rounded)
        ]
        self.assertEqual(len(fields[0]), len(fields[1]), shown)
        count = 0
        for one, other in zip(*fields):
            if NUMBER.fullmatch(one):
                count += 1
                self.assertEqual(decimal.Decimal(other), CONTEXT.create_decimal(one), shown)
            else:
                self.assertEqual(one, other, shown)
        return count

    def test_rows_are_written_as_they_are_asked_for(self):
        for options, data, wanted in OPTIONS:
            package = package_with((SHEET_NAME, with_data(data)), STYLES)
            self.check(package, ["csv", "S", *options], [(0, wanted, b"")], options)
            self.check(package, ["csv", "S", *options[::-1]], [(0, wanted, b"")], options)

    def test_other_words_are_no_options(self):
        for options in REFUSED:
            for words in (["csv", "S", *options], ["csv-table", "T", *options]):
                for build in BUILDS:
                    ran = subprocess.run([OUT / build, *words], input=b"", capture_output=True)
                    self.assertEqual((ran.returncode, ran.stdout), (2, b""), words)
        for words in (["csv-table", "T", "--from-a1"], ["cells", "S", "--dates"]):
            ran = subprocess.run([OUT / BUILDS[0], *words], input=b"", capture_output=True)
            self.assertEqual(ran.returncode, 2, words)

    def test_an_area_from_a1_has_its_own_limit(self):
        data = numbers("XFD1025")
        package = package_with((SHEET_NAME, with_data(data)))
        self.check(package, ["csv", "S"], "1\n", "one cell")
        self.check(package, ["csv", "S", "--from-a1"], TOO_LARGE, "its area from A1")

    def test_rows_of_other_forms_are_read_back(self):
        rows = [["a;b", 'say "x"', " c "], ["", "a\nb", "=A1"], ["it's", "a\rb", "1,2"]]
        data = "".join(
            texts(**{f"{column}{place}": text.replace("\r", RETURN)})
            for place, row in enumerate(rows, 1)
            for column, text in zip("ABC", row)
        )
        package = package_with((SHEET_NAME, with_data(data)))
        for options, delimiter in ((["--delimiter=;"], ";"), (["--delimiter=tab", "--crlf"], "\t")):
            for build in BUILDS:
                words = [OUT / build, "csv", "S", *options]
                ran = subprocess.run(words, input=package, capture_output=True)
                text = io.StringIO(ran.stdout.decode(), newline="")
                self.assertEqual(list(csv.reader(text, delimiter=delimiter)), rows, options)


if __name__ == "__main__":
    unittest.main()
