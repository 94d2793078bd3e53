"""Tests that the sample workbooks become package texts of the documented form, with the names,
attributes and texts that another parser of XML finds in their parts."""

import html
import json
import pathlib
import re
import subprocess
import sys
import unittest
import zipfile
from xml.parsers import expat

from test_program import LIMIT, OUT

HERE = pathlib.Path(__file__).resolve().parent
SAMPLES = HERE.parent / "samples"
WORKBOOKS = sorted(SAMPLES.glob("*.xlsx"))

# What prints the lines of each file of lines, of the workbook that it is named by.
LINES = {
    "chart_sheet": ["cells", "Data"],
    "chart_sheet.names": ["names"],
    "chart_sheet.sheets": ["sheets"],
    "comments": ["cells", "Goods"],
    "comments.comments": ["comments", "Goods"],
    "dates_1900": ["cells", "Dates"],
    "dates_1900.csv": ["csv", "Dates", "--dates", "--digits=15"],
    "dates_1900.csv_shown": ["csv", "Dates", "--shown"],
    "dates_1904": ["cells", "Dates"],
    "dates_1904.csv": ["csv", "Dates", "--digits=15", "--dates"],
    "dates_1904.csv_shown": ["csv", "Dates", "--shown"],
    "graph.cycles": ["cycles"],
    "graph.dependents": ["dependents", "It's", "A1", "--all"],
    "graph.graph": ["graph"],
    "graph.order": ["order"],
    "inline_strings": ["cells", "S"],
    "libreoffice": ["cells", "libreoffice"],
    "libreoffice.check": ["check", "libreoffice"],
    "libreoffice.csv": ["csv", "libreoffice"],
    "libreoffice.csv_shown": ["csv", "libreoffice", "--shown"],
    "libreoffice.rows": ["rows", "libreoffice", "--json", "--header", "--dates"],
    "libreoffice.widths": ["widths", "libreoffice"],
    "pivot_table.pivot": ["pivot", "Report", "Sold & paid"],
    "pivot_table.pivots": ["pivots"],
    "rich_text": ["cells", "Goods & prices"],
    "shared_formulas": ["cells", "Sales"],
    "shared_formulas.dependents": ["dependents", "Sales", "B4"],
    "shared_formulas.precedents": ["precedents", "Sales"],
    "tables.csv_table": ["csv-table", "Sales"],
    "tables.csv_table_of_Words": ["csv-table", "Words"],
    "tables.rows_table": ["rows-table", "Sales", "--json"],
    "tables.table": ["table", "Sales"],
    "tables.table_of_Rates": ["table", "Rates"],
    "tables.tables": ["tables"],
    "tables_links_and_merges": ["cells", "S"],
    "tables_links_and_merges.links": ["links", "S"],
    "tables_links_and_merges.merges": ["merges", "S"],
    "tables_links_and_merges.merges_of_T": ["merges", "T"],
    "tables_links_and_merges.props": ["props"],
    "themes_and_tints": ["cells", "Fills"],
    "values_and_formulas": ["cells", "S"],
}

# The sheets that are no worksheets.
CHARTS = {"Chart"}

# The elements of a workbook's properties, in the order of their lines. The latter may stand in the
# program's part, too.
CORE = (
    "creator lastModifiedBy created modified title subject description keywords category "
    "contentStatus revision version"
).split()
PROGRAM = "Application AppVersion Company Template Manager".split()

# How many texts stand behind the mark of an event.
FORMS = {"s": 2, "e": 1, "b": 2, "t": 1, "d": 1, "r": 1, "o": 0}
NAMED = {"amp": "&", "lt": "<", "gt": ">", "quot": '"', "apos": "'"}
PAIR = re.compile(r"""\s+([^\s=]+)\s*=\s*(?:"([^"]*)"|'([^']*)')""")


def parted(events):
    """The events of version 1, of those of version 2."""
    told = []
    for event in events:
        kind, *texts = event
        told += [["s", *texts], ["e", texts[0]]] if kind == "b" else [event]
    return told


def package_text(path, *words):
    words = [sys.executable, HERE / "reading" / "package_text.py", path, *words]
    return subprocess.run(words, stdout=subprocess.PIPE, check=True).stdout


def add_text(told, text):
    """Adds a text, to the one before it where there is one."""
    text = text.replace("\r\n", "\n").replace("\r", "\n")
    if told and told[-1][0] == "text":
        text = told.pop()[1] + text
    told.append(("text", text))


def told_by_events(events):
    """Starts, ends and the texts in the outermost element, with their references resolved."""
    told, depth = [], 0
    for kind, *texts in parted(events):
        depth += {"s": 1, "e": -1}.get(kind, 0)
        if kind == "s":
            pairs = {key: html.unescape(a or b) for key, a, b in PAIR.findall(texts[1])}
            told.append(("start", texts[0], pairs))
        elif kind == "e":
            told.append(("end", texts[0]))
        elif depth > 0 and kind == "r":
            add_text(told, NAMED.get(texts[0]) or html.unescape(f"&{texts[0]};"))
        elif depth > 0 and kind != "o":
            add_text(told, texts[0])
    return told


def told_by_expat(markup):
    told, parser = [], expat.ParserCreate()
    parser.StartElementHandler = lambda name, pairs: told.append(("start", name, pairs))
    parser.EndElementHandler = lambda name: told.append(("end", name))
    parser.CharacterDataHandler = lambda text: add_text(told, text)
    parser.Parse(markup, True)
    return told


def snake(name):
    """A name of capitals within, as `lastModifiedBy`, in words with `_` between them."""
    return re.sub("(?<=.)(?=[A-Z])", "_", name).lower()


class Samples(unittest.TestCase):
    def test_events_have_the_documented_forms(self):
        for path in WORKBOOKS:
            package = json.loads(package_text(path).decode())
            self.assertGreaterEqual(len(package["parts"]), 4)
            self.assertEqual((list(package), package["version"]), (["version", "parts"], 2))
            for part in package["parts"]:
                self.assertEqual(list(part), ["name", "events"])
                for kind, *texts in part["events"]:
                    self.assertEqual(len(texts), FORMS[kind])
                    self.assertTrue(all(isinstance(text, str) for text in texts))

    def test_both_versions_have_the_same_events(self):
        """And in version 2 no start stands before the end of its name."""
        for path in WORKBOOKS:
            package = json.loads(package_text(path).decode())
            for part in package["parts"]:
                events = part["events"]
                for one, two in zip(events, events[1:]):
                    self.assertFalse((one[0], two[0]) == ("s", "e") and one[1] == two[1])
                part["events"] = parted(events)
            wanted = {**package, "version": 1}
            self.assertEqual(json.loads(package_text(path, "--version-1").decode()), wanted)

    def test_ends_match_starts(self):
        for path in WORKBOOKS:
            for part in json.loads(package_text(path, "--all").decode())["parts"]:
                still_open = []
                for event in parted(part["events"]):
                    if event[0] == "s":
                        still_open.append(event[1])
                    elif event[0] == "e":
                        self.assertEqual(still_open.pop(), event[1])
                self.assertEqual(still_open, [])

    def test_parts_are_what_another_parser_tells(self):
        for path in WORKBOOKS:
            with self.subTest(path.name), zipfile.ZipFile(path) as archive:
                for part in json.loads(package_text(path, "--all").decode())["parts"]:
                    wanted = told_by_expat(archive.read(part["name"]))
                    self.assertEqual(told_by_events(part["events"]), wanted, part["name"])

    def test_all_samples_fit(self):
        self.assertEqual(len(WORKBOOKS), 14)
        for path in WORKBOOKS:
            self.assertLess(len(package_text(path)), LIMIT)

    def check(self, path, words, wanted, *options):
        """Tries the program on the package text of a workbook."""
        ran = subprocess.run(
            [OUT / "xlsx_tool", *words],
            input=package_text(path, *options),
            stdout=subprocess.PIPE,
            stderr=subprocess.PIPE,
        )
        answer = ran.returncode, ran.stdout, ran.stderr
        self.assertEqual(answer, (0, wanted, b""), (path.name, words))

    def test_workbooks_give_their_lines(self):
        """From the parts that are written without being asked for, in each version, and all."""
        self.assertEqual({path.stem for path in SAMPLES.glob("*.lines")}, set(LINES))
        for name, words in LINES.items():
            path = SAMPLES / f"{name.partition('.')[0]}.xlsx"
            for options in ([], ["--all"], ["--version-1"]):
                self.check(path, words, (SAMPLES / f"{name}.lines").read_bytes(), *options)

    def test_workbooks_are_upgraded(self):
        """From each version to the text that Python writes of the value of version 2."""
        for path in WORKBOOKS:
            value = json.loads(package_text(path).decode())
            text = json.dumps(value, ensure_ascii=False, separators=(",", ":"), sort_keys=True)
            for options in ([], ["--version-1"]):
                self.check(path, ["upgrade"], f"{text}\n".encode(), *options)

    def test_sheets_and_names_are_those_that_another_parser_tells(self):
        for path in WORKBOOKS:
            with zipfile.ZipFile(path) as archive:
                told = told_by_expat(archive.read("xl/workbook.xml"))
            sheets, names = "", ""
            for (kind, name, *pairs), behind in zip(told, told[1:]):
                if (kind, name) == ("start", "sheet"):
                    typ = "chartsheet" if pairs[0]["name"] in CHARTS else "worksheet"
                    sheets += f"{pairs[0]['name']}\t{typ}\t{pairs[0].get('state', 'visible')}\n"
                elif (kind, name) == ("start", "definedName"):
                    names += f"{pairs[0]['name']}\t{behind[1]}\n"
            self.check(path, ["sheets"], sheets.encode())
            self.check(path, ["names"], names.encode())

    def test_properties_are_those_that_another_parser_tells(self):
        for path in WORKBOOKS:
            with zipfile.ZipFile(path) as archive:
                markup = {name: archive.read(name) for name in archive.namelist()}
            said, named = {}, {}
            for part, names in (("core", CORE + PROGRAM), ("app", PROGRAM), ("custom", ())):
                told = told_by_expat(markup.get(f"docProps/{part}.xml", b"<a/>"))
                own = None
                for (kind, name, *pairs), behind in zip(told, told[1:]):
                    own = pairs[0].get("name", own) if pairs else own
                    if kind == "start" and behind[0] == "text":
                        name = name.split(":")[-1]
                        said.update({name: behind[1]} if name in names else {})
                        named.update({own: behind[1]} if part == "custom" else {})
            lines = [f"{snake(name)}\t={said[name]}\n" for name in CORE + PROGRAM if name in said]
            lines += [f"custom:{name}\t={text}\n" for name, text in sorted(named.items())]
            self.check(path, ["props"], "".join(lines).encode())

    def test_merged_cells_are_those_that_another_parser_tells(self):
        count = 0
        for path in WORKBOOKS:
            with zipfile.ZipFile(path) as archive:
                sheets = told_by_expat(archive.read("xl/workbook.xml"))
                related = told_by_expat(archive.read("xl/_rels/workbook.xml.rels"))
                starts = [one[2] for one in related if one[2:] and "Id" in one[2]]
                targets = {pairs["Id"]: pairs["Target"] for pairs in starts}
                for event in sheets:
                    if event[:2] != ("start", "sheet"):
                        continue
                    target = targets[event[2]["r:id"]].lstrip("/")
                    part = target if target.startswith("xl/") else f"xl/{target}"
                    lines = ""
                    for kind, name, *pairs in told_by_expat(archive.read(part)):
                        if (kind, name) == ("start", "mergeCell"):
                            lines += f"{pairs[0]['ref']}\n"
                            count += 1
                    self.check(path, ["merges", event[2]["name"]], lines.encode())
        self.assertEqual(count, 3)

    def test_a_chart_sheet_is_no_worksheet(self):
        ran = subprocess.run(
            [OUT / "xlsx_tool", "cells", "Chart"],
            input=package_text(SAMPLES / "chart_sheet.xlsx"),
            stdout=subprocess.PIPE,
            stderr=subprocess.PIPE,
        )
        wanted = b"Expecting a worksheet, got chartsheet\n"
        self.assertEqual((ran.returncode, ran.stdout, ran.stderr), (6, b"", wanted))


if __name__ == "__main__":
    unittest.main()
