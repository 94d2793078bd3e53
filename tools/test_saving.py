"""Tries ./xlsx where a program that stands in for the real one answers a workbook file, and how
other programs read what the real one writes."""

import json
import math
import pathlib
import re
import shutil
import subprocess
import sys
import tempfile
import unittest
import zipfile

from escapes import unescaped
from support.fixtures import MINIMAL, MIXED, SALES, archive
from support.front_copy import TOP, FrontCopy

PROGRAM = TOP / "crates" / "xlsx_tool" / "out" / "xlsx_tool"
SAMPLES = sorted((TOP / "samples").glob("*.xlsx"))

# Answers a workbook file, of the sheet S alone.
ANSWERING = """\
#!/bin/sh
[ "$1" != sheets ] || { cat >/dev/null; printf 'S\\tworksheet\\tvisible\\n'; exit 0; }
case "$*" in
"resave S --xlsx" | "resave --sheet 1 --xlsx") ;;
*) echo "Worksheet '$2' not found" >&2; exit 6 ;;
esac
[ "$(cat | wc -c)" -gt 0 ] || exit 5
[ ! -e "$FAILING" ] || { echo 'no workbook file can hold it' >&2; exit 15; }
cat %s
"""

# Opens files with openpyxl, and prints of each the values and the formulas of the cells of its one
# sheet. A warning is a fault.
OPENPYXL = """\
import datetime, json, sys, warnings
from openpyxl import load_workbook
warnings.simplefilter("error")
def told(value):
    if isinstance(value, (datetime.datetime, datetime.date, datetime.time, datetime.timedelta)):
        return {"date": str(value)}
    return value
books = []
for path in sys.argv[1:]:
    found = []
    for data_only in (True, False):
        (sheet,) = load_workbook(path, data_only=data_only).worksheets
        cells = (cell for row in sheet.iter_rows() for cell in row)
        used = (cell for cell in cells if cell.value is not None)
        found.append({cell.coordinate: told(cell.value) for cell in used})
    books.append(found)
print(json.dumps(books))
"""

# What a program that reads no escapes has in place of a character.
ESCAPE = re.compile("_x[0-9A-Fa-f]{4}_")


def python_of_openpyxl():
    """An interpreter that has openpyxl, or None."""
    for python in (sys.executable, "/usr/bin/python3"):
        words = [python, "-c", "import openpyxl"]
        if shutil.which(python) and subprocess.run(words, capture_output=True).returncode == 0:
            return python
    return None


def cells_of(data):
    """The position, the value and the formula of each cell of a workbook's one sheet."""
    (sheet,) = (line.split("\t")[0] for line in answer(data, "sheets").splitlines())
    rows = (line.split("\t")[:3] for line in answer(data, "cells", unescaped(sheet)).splitlines())
    return [row for row in rows if row[1:] != ["-", "-"]]


def answer(data, *words):
    ran = subprocess.run([PROGRAM, *words], input=data, capture_output=True, check=True)
    # A CR ends a line for Python, but not here.
    return ran.stdout.decode().replace("\r", "\\r")


def is_same(value, found):
    """Whether a value of `cells` is what another program tells."""
    kind, text = value[:2], unescaped(value[2:])
    if kind == "n:":
        return isinstance(found, (int, float)) and float(text) == found
    if kind == "s:":
        return (found or "") == text or ESCAPE.search(text + str(found)) is not None
    if kind == "b:":
        return found is (text == "true")
    if kind == "e:":
        return found == text
    # Dates, durations and ISO dates are told in other ways.
    return found is not None


class Saving(FrontCopy):
    def answer_with(self, data):
        """Has the program answer a workbook file."""
        file = self.written("answer.xlsx", data)
        self.build(self.written("answering", ANSWERING % file))
        return file.read_bytes()

    def test_an_answer_is_written_as_a_workbook_file(self):
        made = self.answer_with(b"the file")
        sheet = ["--sheet", "1"]
        for name, words in (("out.xlsx", ["S"]), ("--to", ["S"]), ("a b\n.c", sheet), ("S", sheet)):
            ran = self.run_on("book.xlsx", "resave", *words, "--to", name)
            self.assertEqual(ran, (0, b"", ""))
            self.assertEqual((self.folder / name).read_bytes(), made)
            (self.folder / name).unlink()
        with open(self.book, "rb") as file:
            ran = self.run_on("-", "resave", "S", "--to", "out.xlsx", data=None, stdin=file)
        self.assertEqual(ran, (0, b"", ""))
        for words in (["S"], sheet):
            ran = self.run_on("resave", *words, "--to", "out.xlsx", data=b"{}")
            self.assertEqual(ran, (0, b"", ""))
            self.assertEqual((self.folder / "out.xlsx").read_bytes(), made)
        ran = self.run_on("book.xlsx", "resave", "S", "--xlsx")
        self.assertEqual(ran, (0, made, ""))

    def test_a_workbook_file_can_take_the_place_of_the_one_that_was_read(self):
        made = self.answer_with(b"another file")
        self.book.chmod(0o640)
        self.assertEqual(self.run_on("book.xlsx", "resave", "S", "--to", "book.xlsx"), (0, b"", ""))
        self.assertEqual(self.book.read_bytes(), made)
        self.assertEqual(self.book.stat().st_mode & 0o777, 0o640)

    def test_nothing_is_left_of_a_workbook_file_that_is_refused(self):
        self.answer_with(b"the file")
        self.written("old.xlsx", b"old")
        self.written("failing", "")
        before = sorted(self.folder.iterdir())
        absent = "Worksheet 'no' not found\nxlsx: there are these sheets: 'S'\n"
        unwritable = "no workbook file can hold it\n"
        for words, status, said in (
            (["no", "--to", "new.xlsx"], 6, absent),
            (["no", "--to", "old.xlsx"], 6, absent),
            (["S", "--to", "new.xlsx"], 15, unwritable),
            (["S", "--to", "old.xlsx"], 15, unwritable),
        ):
            self.assertEqual(self.run_on("book.xlsx", "resave", *words), (status, b"", said))
        (self.folder / "failing").unlink()
        before = sorted(self.folder.iterdir())
        no_file = "can't be written: it is no regular file"
        for name, said in (
            ("/dev/full", no_file),
            ("bin", no_file),
            ("none/new.xlsx", "can't be written: No such file or directory"),
        ):
            ran = self.run_on("book.xlsx", "resave", "S", "--to", name)
            self.assertEqual(ran, (7, b"", f"{name}: {said}\n"))
        self.assertEqual(sorted(self.folder.iterdir()), before)
        self.assertEqual((self.folder / "old.xlsx").read_bytes(), b"old")

    def test_words_that_write_no_workbook_file(self):
        self.answer_with(b"the file")
        sheet = "the name of a sheet, or --sheet and its number, or neither for the first worksheet"
        quotes = "put a name that has blanks in quotes"
        both = "--to writes a workbook file, and takes no --xlsx beside it"
        for words, said in (
            (["resave", "S", "--to"], "--to takes the name of a file"),
            (["resave", "S", "--to", "o", "p"], f"resave takes {sheet}: {quotes}"),
            (["resave", "S", "--to", "o", "--xlsx"], both),
            (["cells", "S", "--to", "o"], "cells takes no option '--to'"),
            (["cells", "S", "--xlsx"], "cells takes no option '--xlsx'"),
            (
                ["resave", "--sheet", "0", "--to", "o"],
                "--sheet takes the number of a sheet, from 1, and not '0'",
            ),
        ):
            self.check_words("book.xlsx", *words, said=said)
            self.check_words(*words, said=said)


class Stored(unittest.TestCase):
    """What the program writes of each worksheet of the samples and of two further workbooks."""

    @classmethod
    def setUpClass(cls):
        cls.held = tempfile.TemporaryDirectory()
        cls.addClassCleanup(cls.held.cleanup)
        cls.folder, cls.files = pathlib.Path(cls.held.name), {}
        books = {path.name: path.read_bytes() for path in SAMPLES}
        books.update((f"{at}.xlsx", archive(one)) for at, one in enumerate((MINIMAL, MIXED, SALES)))
        for book, data in books.items():
            for line in answer(data, "sheets").splitlines():
                name, kind, _ = line.split("\t")
                if kind == "worksheet":
                    words = [PROGRAM, "resave", unescaped(name), "--xlsx"]
                    ran = subprocess.run(words, input=data, capture_output=True, check=True)
                    path = cls.folder / f"{len(cls.files)}.xlsx"
                    path.write_bytes(ran.stdout)
                    rows = answer(data, "cells", unescaped(name)).splitlines()
                    kept = (row.split("\t")[:3] for row in rows)
                    cls.files[path] = [row for row in kept if row[1:] != ["-", "-"]]

    def test_it_has_the_values_and_formulas_that_were_read(self):
        for path, wanted in self.files.items():
            with self.subTest(path=path.name):
                self.assertEqual(cells_of(path.read_bytes()), wanted)

    def test_it_is_an_archive_for_others(self):
        for path in self.files:
            with zipfile.ZipFile(path) as book:
                self.assertIsNone(book.testzip())
                self.assertEqual(book.namelist()[0], "[Content_Types].xml")

    def test_openpyxl_reads_the_same(self):
        python = python_of_openpyxl()
        if python is None:
            self.skipTest("openpyxl isn't installed")
        words = [python, "-c", OPENPYXL, *self.files]
        ran = subprocess.run(words, capture_output=True, check=True)
        for (path, wanted), (values, formulas) in zip(self.files.items(), json.loads(ran.stdout)):
            for cell, value, formula in wanted:
                with self.subTest(path=path.name, cell=cell):
                    if value != "-":
                        self.assertTrue(is_same(value, values.get(cell)), (value, values.get(cell)))
                    if formula != "-":
                        self.assertEqual(formulas.get(cell), unescaped(formula))

    def test_libreoffice_reads_the_same(self):
        """By the sheet that it writes of what it read: what is no formula is there again."""
        if shutil.which("soffice") is None:
            self.skipTest("LibreOffice isn't installed")
        out = self.folder / "converted"
        own = f"-env:UserInstallation={(self.folder / 'office').as_uri()}"
        words = ["soffice", own, "--headless", "--convert-to", "xlsx", "--outdir", out, *self.files]
        try:
            subprocess.run(words, capture_output=True, timeout=240)
        except subprocess.TimeoutExpired:
            self.skipTest("LibreOffice doesn't answer here")
        if not out.exists():
            self.skipTest("LibreOffice doesn't start here")
        for path, wanted in self.files.items():
            found = {cell: value for cell, value, _ in cells_of((out / path.name).read_bytes())}
            for cell, value, formula in wanted:
                if formula == "-" and value[:2] in ("n:", "s:", "b:"):
                    with self.subTest(path=path.name, cell=cell):
                        self.check_kept(value, found.get(cell))

    def check_kept(self, value, found):
        """Sees that a value is kept, as far as fifteen digits, and but for escapes."""
        if value == "s:" or ESCAPE.search(value):
            return
        if value[:2] == "n:":
            own = found[2:].split(" ")[0] if found else "nan"
            self.assertTrue(math.isclose(float(value[2:]), float(own), rel_tol=1e-12), found)
        else:
            self.assertEqual(found, value)


if __name__ == "__main__":
    unittest.main()
