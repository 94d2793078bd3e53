"""Tries the built program on lines as JSON: by tables of cases, and by the lines as text, of which
those of every sample have the same values."""

import csv
import io
import json
import subprocess
import unittest
from decimal import Decimal

from escapes import unescaped
from support.noted import SHEET_NAME, package_with, told, with_data
from test_comments import ONE, RELATED
from test_program import BUILDS, OUT
from test_rows import STYLES, cell, texts
from test_samples import WORKBOOKS, package_text
from test_tables import NUT, TABLE_NAME, table
from test_tables import RELATED as WITH_TABLE

# Each control character of XML's texts, quotes, a backslash, a slash, U+2028, and one character
# beyond the first plane.
HARD = '\t\n "\\/\u2028\U0001f600\x7f'
HARD_TEXT = json.dumps(HARD, ensure_ascii=False)

# What a case shows, the data of a sheet, and its objects.
CELLS = [
    ("no cell", "", ""),
    ("a number", cell("A1", "10.50"), '{"cell":"A1","type":"number","value":10.5}\n'),
    ("a power of ten", cell("A1", "1E+3"), '{"cell":"A1","type":"number","value":1000}\n'),
    ("a large one", cell("A1", "1E+300"), '{"cell":"A1","type":"number","value":1E300}\n'),
    ("a small one", cell("A1", "-2.5e-30"), '{"cell":"A1","type":"number","value":-25E-31}\n'),
    ("below 1", cell("A1", "-.025"), '{"cell":"A1","type":"number","value":-0.025}\n'),
    ("zero", cell("A1", "-0.00"), '{"cell":"A1","type":"number","value":0}\n'),
    (
        "a text that has what JSON escapes",
        cell("A1", HARD, ' t="str"'),
        f'{{"cell":"A1","type":"text","value":{HARD_TEXT}}}\n',
    ),
    (
        "characters that only an escape writes",
        '<c r="A1" t="inlineStr"><is><t>_x0001__x001F__x0008__x000C_</t></is></c>',
        '{"cell":"A1","type":"text","value":"\\u0001\\u001f\\b\\f"}\n',
    ),
    (
        "booleans",
        cell("A1", "1", ' t="b"') + cell("B1", "0", ' t="b"'),
        '{"cell":"A1","type":"boolean","value":true}\n'
        '{"cell":"B1","type":"boolean","value":false}\n',
    ),
    (
        "an error",
        cell("A1", "#DIV/0!", ' t="e"'),
        '{"cell":"A1","type":"error","value":"#DIV/0!"}\n',
    ),
    (
        "a formula with its value",
        '<c r="C2"><f>SUM(B$2:B2)</f><v>10.5</v></c>',
        '{"cell":"C2","type":"number","value":10.5,"formula":"SUM(B$2:B2)"}\n',
    ),
    (
        "a formula alone",
        '<c r="A1"><f>B1</f></c>',
        '{"cell":"A1","type":"none","formula":"B1"}\n',
    ),
    (
        "a date",
        cell("A1", "45292", ' s="1"'),
        '{"cell":"A1","type":"date","value":45292,"date":"2024-01-01"}\n',
    ),
    (
        "a date with a time",
        cell("A1", "45292.5625", ' s="1"'),
        '{"cell":"A1","type":"date","value":45292.5625,"date":"2024-01-01T13:30:00"}\n',
    ),
    (
        "a serial without a date",
        cell("A1", "-1", ' s="1"'),
        '{"cell":"A1","type":"date","value":-1}\n',
    ),
    (
        "a duration",
        cell("A1", "1.5", ' s="2"'),
        '{"cell":"A1","type":"duration","value":1.5,"date":"36:00:00"}\n',
    ),
    (
        "an ISO date",
        cell("A1", "2024-01-01", ' t="d"'),
        '{"cell":"A1","type":"date","value":"2024-01-01","date":"2024-01-01"}\n',
    ),
    ("a style alone", '<c r="A1" s="1"/>', '{"cell":"A1","type":"none"}\n'),
]

# What a case shows, the data of a sheet, the options, and the arrays or a refusal.
ROWS = [
    ("no cell", "", [], ""),
    ("a formula without a value", '<c r="A1"><f>B1</f></c>', [], ""),
    (
        "each kind of value",
        cell("A1", "1000")
        + cell("B1", HARD, ' t="str"')
        + cell("C1", "1", ' t="b"')
        + cell("D1", "#N/A", ' t="e"')
        + cell("E1", "2024-01-01", ' t="d"'),
        [],
        f'[1000,{HARD_TEXT},true,"#N/A","2024-01-01"]\n',
    ),
    ("nothing at the end of a row", cell("A1", "1") + cell("B2", "2"), [], "[1,null]\n[null,2]\n"),
    (
        "a row without a value",
        cell("B2", "1") + cell("C4", "2"),
        [],
        "[1,null]\n[null,null]\n[null,2]\n",
    ),
    ("the area from A1", cell("B2", "1"), ["--from-a1"], "[null,null]\n[null,1]\n"),
    ("a date as its number", cell("A1", "45292.5", ' s="1"'), [], "[45292.5]\n"),
    (
        "a date as its text",
        cell("A1", "45292.5", ' s="1"'),
        ["--dates"],
        '["2024-01-01T12:00:00"]\n',
    ),
    ("a duration as its text", cell("A1", "1.5", ' s="2"'), ["--dates"], '["36:00:00"]\n'),
    (
        "a serial without a date",
        cell("A1", "-1.25", ' s="1"'),
        ["--dates", "--digits=1"],
        "[-1.25]\n",
    ),
    ("digits", cell("A1", "37.619999999999997"), ["--digits=15"], "[37.62]\n"),
    ("digits of a whole number", cell("A1", "123456"), ["--digits=2"], "[120000]\n"),
    (
        "too large an area",
        cell("A1", "1") + cell("XFD1025", "1"),
        [],
        [(10, b"", b"box too large\n")],
    ),
    ("an option of CSV", "", ["--crlf"], [(2, b"", b"usage\n")]),
    ("an option twice", "", ["--dates", "--dates"], [(2, b"", b"usage\n")]),
    ("the form twice", "", ["--json"], [(2, b"", b"usage\n")]),
]

NO_HEADER = [(16, b"", b"no header row\n")]
USAGE = [(2, b"", b"usage\n")]


def two_columns(key):
    return [(16, b"", f"two columns '{key}'\n".encode())]


# What a case shows, the data of a sheet, the options beside `--header`, and the objects or a
# refusal.
HEADED = [
    ("no cell", "", [], NO_HEADER),
    ("a formula without a value", '<c r="A1"><f>B1</f></c>', [], NO_HEADER),
    ("a header alone", texts(A1="Name", B1="Count"), [], ""),
    (
        "keys in the order of the columns",
        texts(A1="Name", B1="Count", C1="Age") + texts(A2="nut") + cell("B2", "3"),
        [],
        '{"Name":"nut","Count":3,"Age":null}\n',
    ),
    (
        "rows in their order, and one without a value",
        texts(B2="b", C2="a") + cell("B3", "1") + cell("C5", "1", ' t="b"'),
        [],
        '{"b":1,"a":null}\n{"b":null,"a":null}\n{"b":null,"a":true}\n',
    ),
    (
        "an empty field of the header",
        texts(A1="a", C1="c") + cell("B2", "2"),
        [],
        '{"a":null,"":2,"c":null}\n',
    ),
    ("two empty fields", texts(A1="a") + cell("C2", "2"), [], two_columns("")),
    (
        "fields of each kind of value",
        cell("A1", "1E+3")
        + cell("B1", "1", ' t="b"')
        + cell("C1", "#N/A", ' t="e"')
        + cell("D1", "45292.5", ' s="1"')
        + cell("E1", "2024-01-01", ' t="d"')
        + cell("A2", "1"),
        [],
        '{"1000":1,"true":null,"#N/A":null,"45292.5":null,"2024-01-01":null}\n',
    ),
    (
        "a date in the header as its text",
        cell("A1", "45292.5", ' s="1"') + cell("A2", "45292", ' s="1"'),
        ["--dates"],
        '{"2024-01-01T12:00:00":"2024-01-01"}\n',
    ),
    (
        "a serial without a date in the header",
        cell("A1", "-1.25", ' s="1"') + cell("A2", "1"),
        ["--dates"],
        '{"-1.25":1}\n',
    ),
    (
        "digits of the header, too",
        cell("A1", "1234") + cell("A2", "1234"),
        ["--digits=2"],
        '{"1200":1200}\n',
    ),
    (
        "what the cells show",
        cell("A1", "45292", ' s="1"') + texts(B1="b") + cell("A2", "0.5"),
        ["--shown"],
        '{"01-01-24":"0.5","b":null}\n',
    ),
    ("the area from A1", cell("A2", "1"), ["--from-a1"], '{"":1}\n'),
    ("the area from A1, of two columns", cell("B2", "1"), ["--from-a1"], two_columns("")),
    (
        "a key that has what JSON escapes",
        cell("A1", HARD, ' t="str"') + cell("A2", "1"),
        [],
        f"{{{HARD_TEXT}:1}}\n",
    ),
    (
        "a key of characters that only an escape writes",
        '<c r="A1" t="inlineStr"><is><t>_x0001__x001F_</t></is></c>' + cell("A2", "1"),
        [],
        '{"\\u0001\\u001f":1}\n',
    ),
    ("two equal keys", texts(A1="Amount", B1="Name", C1="Amount"), [], two_columns("Amount")),
    ("two keys in other cases", texts(A1="a", B1="A", A2="1"), [], '{"a":"1","A":null}\n'),
    ("equal fields of two kinds", cell("A1", "1") + texts(B1="1"), [], two_columns("1")),
    (
        "the first that is one of those before it",
        texts(A1="a", B1="b", C1="b", D1="a"),
        [],
        two_columns("b"),
    ),
    (
        "dates that have one text",
        cell("A1", "45292", ' s="1"') + texts(B1="2024-01-01"),
        ["--dates"],
        two_columns("2024-01-01"),
    ),
    (
        "too large an area",
        cell("A1", "1") + cell("XFD1025", "1"),
        [],
        [(10, b"", b"box too large\n")],
    ),
    ("an option of CSV", "", ["--bom"], USAGE),
    ("the header twice", "", ["--header"], USAGE),
]

# What a case shows, the part of a table, the options, and the objects or a refusal.
KEYED = [
    ("headers and totals", table(), [], '{"Name":"nut","Qty":3}\n{"Name":null,"Qty":null}\n'),
    ("no row of data", table(ref="A1:B2"), [], ""),
    ("two columns of one name", table(columns=("Qty", "Qty")), [], two_columns("Qty")),
    (
        "two columns of one name, and no row",
        table(ref="A1:B2", columns=("Qty", "Qty")),
        [],
        two_columns("Qty"),
    ),
    ("a name that is missing", table(ref="A1:B3", columns=["Name"]), [], '{"Name":"nut","":3}\n'),
    ("two that are", table(ref="A1:B3", columns=[]), [], two_columns("")),
    ("more names than columns", table(ref="A1:A3", columns=("a", "b", "a")), [], '{"a":"nut"}\n'),
    ("digits", table(ref="A1:B3"), ["--dates", "--digits=1"], '{"Name":"nut","Qty":3}\n'),
    ("an option of the rows of a sheet", table(), ["--from-a1"], USAGE),
    ("a header", table(), ["--header"], USAGE),
    ("an option of CSV", table(), ["--crlf"], USAGE),
]

KEYS = {
    "sheets": ("name", "type", "state"),
    "names": ("name", "formula"),
    "merges": ("area",),
    "links": ("area", "target", "location", "displayed", "tooltip"),
    "comments": ("cell", "author", "text"),
    "widths": ("area", "width", "visibility"),
    "pivots": ("sheet", "name"),
}
MARKED = ("target", "location", "displayed", "tooltip", "author", "text", "width")
OF_BOOK = ("sheets", "names", "props", "tables", "pivots")
OF_SHEET = ("cells", "merges", "links", "comments", "widths")


def field_of(key, field):
    """What a field of a line stands for; None where it is missing."""
    if key in MARKED:
        return None if field == "-" else unescaped(field[1:])
    return unescaped(field)


def object_of_list(word, line):
    """The object of a line of a list, by its fields."""
    fields = line.split("\t")
    if word == "props":
        name, text = fields
        custom = name.startswith("custom:")
        own = ("custom", unescaped(name[len("custom:") :])) if custom else ("name", name)
        return [own, ("text", unescaped(text[1:]))]
    if word == "tables":
        name, sheet, area, *columns = fields
        told_area = [] if area == "-" else [("area", area)]
        named = [("name", unescaped(name)), ("sheet", unescaped(sheet))]
        return [*named, *told_area, ("columns", [unescaped(column) for column in columns])]
    pairs = [(key, field_of(key, field)) for key, field in zip(KEYS[word], fields)]
    return [(key, value) for key, value in pairs if value is not None]


def value_of_cell(field):
    """The type and the value of a cell by its field, and whether it may have a date."""
    mark, _, text = field.partition(":")
    if field == "-":
        return "none", None, False
    if mark == "t":
        days, kind, _ = text.split(" ")
        return kind, Decimal(days), True
    if mark == "n":
        return "number", Decimal(text), False
    if mark == "b":
        return "boolean", text == "true", False
    return {"s": "text", "e": "error", "i": "date"}[mark], unescaped(text), mark == "i"


def object_of_cell(line, date):
    """The object of a line of `cells`, with this date where it may have one."""
    position, value, formula, fill = line.split("\t")
    typ, told_value, dated = value_of_cell(value)
    pairs = [
        ("cell", position),
        ("type", typ),
        ("value", told_value),
        ("date", date if dated else None),
        ("formula", None if formula == "-" else unescaped(formula[1:])),
        ("fill", None if fill == "-" else fill),
    ]
    return [(key, one) for key, one in pairs if one is not None]


def pairs_in(line):
    """The members of an object, in their order, its numbers exact."""
    return json.loads(
        line, object_pairs_hook=list, parse_float=Decimal, parse_int=Decimal, strict=True
    )


def items_in(line):
    """The items of an array; a number stays as it is written."""
    return json.loads(line, parse_float=Number, parse_int=Number)


class Number(str):
    """The text of a number."""


def field_of_item(item):
    """The field of CSV of an item."""
    if item is None:
        return ""
    if isinstance(item, bool):
        return "true" if item else "false"
    return str(item)


def column_name(place):
    """The letters of a column, counted from 1."""
    letters = ""
    while place:
        place, digit = divmod(place - 1, 26)
        letters = chr(ord("A") + digit) + letters
    return letters


class Json(unittest.TestCase):
    def run_on(self, package, *words):
        ran = subprocess.run([OUT / "xlsx_tool", *words], input=package, capture_output=True)
        self.assertEqual((ran.returncode, ran.stderr), (0, b""), words)
        return ran.stdout.decode()

    def check(self, package, words, wanted, shown):
        for build in BUILDS:
            ran = subprocess.run([OUT / build, *words], input=package, capture_output=True)
            self.assertIn((ran.returncode, ran.stdout, ran.stderr), told(wanted), shown)

    def lines_of(self, package, *words):
        """The lines as text and those as JSON, which are as many."""
        text = self.run_on(package, *words).split("\n")
        objects = self.run_on(package, *words, "--json").split("\n")
        self.assertEqual((text.pop(), objects.pop()), ("", ""), words)
        self.assertEqual(len(text), len(objects), words)
        return zip(text, objects)

    def test_cells_have_their_objects(self):
        for shown, data, wanted in CELLS:
            package = package_with((SHEET_NAME, with_data(f'<row r="1">{data}</row>')), STYLES)
            self.check(package, ["cells", "S", "--json"], wanted, shown)

    def test_rows_have_their_arrays(self):
        for shown, data, options, wanted in ROWS:
            package = package_with((SHEET_NAME, with_data(data)), STYLES)
            self.check(package, ["rows", "S", "--json", *options], wanted, shown)

    def test_rows_have_their_objects(self):
        for shown, data, options, wanted in HEADED:
            package = package_with((SHEET_NAME, with_data(data)), STYLES)
            self.check(package, ["rows", "S", "--json", "--header", *options], wanted, shown)

    def test_rows_of_tables_have_their_objects(self):
        for shown, part, options, wanted in KEYED:
            package = package_with(WITH_TABLE, (TABLE_NAME, part), NUT)
            self.check(package, ["rows-table", "T1", "--json", *options], wanted, shown)
        for name in ("T2", "t1", "S", ""):
            words = ["rows-table", name, "--json"]
            refusal = [(6, b"", f"Table '{name}' not found\n".encode())]
            self.check(package, words, refusal, name)

    def test_a_row_may_have_any_number_of_keys(self):
        last = 16_384
        names = [column_name(place) for place in range(1, last + 1)]
        data = "".join(cell(f"{name}1", f"{place}") for place, name in enumerate(names, 1))
        data += cell("A2", "5") + cell("XFD2", "7")
        package = package_with((SHEET_NAME, with_data(data)))
        pairs = [(str(place), None) for place in range(1, last + 1)]
        pairs[0], pairs[-1] = ("1", 5), (str(last), 7)
        wanted = json.dumps(dict(pairs), separators=(",", ":")) + "\n"
        self.check(package, ["rows", "S", "--json", "--header"], wanted, "16,384 keys")
        package = package_with((SHEET_NAME, with_data(data.replace(">16384<", ">1<"))))
        words = ["rows", "S", "--json", "--header"]
        self.check(package, words, two_columns("1"), "the first and the last key")

    def test_objects_of_the_samples_have_the_items_of_their_arrays(self):
        """Each object has the fields of the first record as keys and the items of its array, or two
        of these fields are equal."""
        for path in WORKBOOKS:
            package = package_text(path)
            for sheet in self.run_on(package, "sheets").splitlines():
                name, typ, _ = sheet.split("\t")
                for options in ([], ["--dates"]) if typ == "worksheet" else ():
                    words = ["rows", unescaped(name), "--json", *options]
                    arrays = self.run_on(package, *words).split("\n")[:-1]
                    rows = self.run_on(package, "csv", unescaped(name), *options)
                    fields = next(csv.reader(io.StringIO(rows, newline="")), [])
                    if not arrays or len(set(fields)) < len(fields):
                        ran = subprocess.run(
                            [OUT / "xlsx_tool", *words, "--header"],
                            input=package,
                            capture_output=True,
                        )
                        self.assertEqual((ran.returncode, ran.stdout), (16, b""), words)
                        continue
                    own = self.run_on(package, *words, "--header").split("\n")[:-1]
                    wanted = [
                        list(zip(fields, json.loads(line, parse_float=Decimal, parse_int=Decimal)))
                        for line in arrays[1:]
                    ]
                    self.assertEqual([pairs_in(line) for line in own], wanted, words)

    def test_all_columns_are_items(self):
        data = "".join(cell(f"{column}1", "1") for column in ("A", "XFD"))
        package = package_with((SHEET_NAME, with_data(data)))
        wanted = "[1," + "null," * 16_382 + "1]\n"
        self.check(package, ["rows", "S", "--json"], wanted, "16,384 columns")

    def test_rows_of_the_samples_have_the_values_of_their_fields(self):
        """Each item is `null`, or its field of CSV, by the same options."""
        for path in WORKBOOKS:
            package = package_text(path)
            for sheet in self.run_on(package, "sheets").splitlines():
                name, typ, _ = sheet.split("\t")
                for options in ([], ["--dates", "--digits=15"]) if typ == "worksheet" else ():
                    rows = self.run_on(package, "csv", unescaped(name), *options)
                    wanted = list(csv.reader(io.StringIO(rows, newline="")))
                    own = self.run_on(package, "rows", unescaped(name), "--json", *options)
                    arrays = [items_in(line) for line in own.split("\n")[:-1]]
                    found = [[field_of_item(item) for item in row] for row in arrays]
                    self.assertEqual(found, wanted, (path.name, name, options))

    def test_comments_have_their_objects(self):
        package = package_with(ONE, RELATED)
        wanted = '{"cell":"A1","author":"Ann","text":"a"}\n'
        self.check(package, ["comments", "S", "--json"], wanted, "an author")

    def test_cells_of_the_samples_have_the_values_of_their_lines(self):
        count = 0
        for path in WORKBOOKS:
            package = package_text(path)
            for sheet in self.run_on(package, "sheets").splitlines():
                name, typ, _ = sheet.split("\t")
                if typ != "worksheet":
                    continue
                for line, own in self.lines_of(package, "cells", unescaped(name)):
                    pairs = pairs_in(own)
                    date = dict(pairs).get("date")
                    self.assertEqual(pairs, object_of_cell(line, date), (path.name, line))
                    count += 1
        self.assertGreater(count, 100)

    def test_lists_of_the_samples_have_the_fields_of_their_lines(self):
        for path in WORKBOOKS:
            package = package_text(path)
            sheets = [line.split("\t") for line in self.run_on(package, "sheets").splitlines()]
            names = [unescaped(name) for name, typ, _ in sheets if typ == "worksheet"]
            asked = [[word] for word in OF_BOOK]
            asked += [[word, name] for word in OF_SHEET[1:] for name in names]
            for words in asked:
                program = [OUT / "xlsx_tool", *words]
                ran = subprocess.run(program, input=package, capture_output=True)
                if ran.returncode:
                    self.check(package, [*words, "--json"], [(6, b"", ran.stderr)], words)
                    continue
                for line, own in self.lines_of(package, *words):
                    wanted = object_of_list(words[0], line)
                    self.assertEqual(pairs_in(own), wanted, (path.name, line))

    def test_other_words_are_no_command(self):
        for words in (
            ["sheets", "--json", "--json"],
            ["cells", "S", "--json", "--json"],
            ["cells", "--json", "S"],
            ["table", "T", "--json"],
            ["rows", "S", "--header"],
            ["rows", "S", "--header", "--json"],
            ["rows-table", "T"],
            ["rows-table", "T", "--json", "--json"],
            ["csv", "S", "--header"],
            ["csv-table", "T", "--header"],
            ["check", "S", "--json"],
            ["upgrade", "--json"],
            ["sheets", "--JSON"],
        ):
            self.check(package_with(), words, [(2, b"", b"usage\n")], words)


if __name__ == "__main__":
    unittest.main()
