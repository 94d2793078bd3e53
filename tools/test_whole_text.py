"""Tries that a workbook file has the answers of the package text that Python makes of its parts:
the same bytes, the same status and the same words, for every command."""

import io
import json
import pathlib
import subprocess
import unittest
import zipfile
import zlib

from support.cutting import cut
from escapes import unescaped
from support.fixtures import BROKEN_THEME, LISTED, MINIMAL, MIXED, SALES, archive, relationships
from place import OF_GATE
from words import A_TABLE, AS_JSON, COMMANDS, ROWS_AS_JSON

# What a part raises that can't be unpacked.
BROKEN = (zipfile.BadZipFile, zlib.error, NotImplementedError, RuntimeError, EOFError)

SAMPLES = pathlib.Path(__file__).resolve().parent.parent / "samples"

# What stands for each name that a command takes, beside those that the workbook has.
NOWHERE = "none"
# Of so many names of one kind the first and the last are asked for.
ASKED = 4

LINKED = ("hyperlink", "https://example.com/a&amp;b")
RELS = "xl/worksheets/_rels/sheet{}.xml.rels"
SHEET = "xl/worksheets/sheet{}.xml"
BOOK, BOOK_RELS = "xl/workbook.xml", "xl/_rels/workbook.xml.rels"
STRINGS, STYLES, THEME = "xl/sharedStrings.xml", "xl/styles.xml", "xl/theme/theme1.xml"
TABLE, PIVOT = "xl/tables/table{}.xml", "xl/pivotTables/pivotTable1.xml"


def sheet_part(number):
    """A sheet with each kind of value, a formula, merged cells and a link."""
    return (
        '<worksheet><sheetData><row r="1"><c r="A1" t="s"><v>0</v></c>'
        f'<c r="B1" s="1"><v>4529{number}</v></c></row>'
        '<row r="2"><c r="A2" t="s" s="2"><v>1</v></c>'
        f'<c r="B2"><f>1+{number}</f><v>{number + 1}</v></c>'
        f'<c r="C2"><f>SUM(B2:B{number + 1})</f><v>9</v></c></row></sheetData>'
        f'<mergeCells><mergeCell ref="A5:B{5 + number}"/></mergeCells>'
        '<hyperlinks><hyperlink ref="A2" r:id="rId1"/></hyperlinks></worksheet>'
    )


def table_part(name):
    return (
        f'<table displayName="{name}" ref="A1:B2"><tableColumns><tableColumn name="x"/>'
        '<tableColumn name="y"/></tableColumns></table>'
    )


def book_part(*names, ids=None):
    """A workbook's part, whose sheets have these names, as written, and Ids of these numbers."""
    each = "".join(
        f'<sheet name="{name}" sheetId="{number}" r:id="rId{number}"/>'
        for name, number in zip(names, ids or range(1, len(names) + 1))
    )
    return (
        f"<workbook><sheets>{each}</sheets>"
        '<definedNames><definedName name="n">S!$A$1</definedName></definedNames></workbook>'
    )


def sheets_at(*targets):
    return relationships(*(("worksheet", target) for target in targets))


PARTS = [f"worksheets/sheet{number}.xml" for number in (1, 2, 3)]

# A workbook that every command has an answer on: three sheets, two tables, a pivot table, a
# comment.
BASE = {
    "_rels/.rels": relationships(("officeDocument", "xl/workbook.xml")),
    BOOK_RELS: sheets_at(*PARTS),
    BOOK: book_part("S", "T", "U"),
    STRINGS: "<sst><si><t>nut</t></si><si><t> bolt &amp; nut</t></si></sst>",
    STYLES: (
        '<styleSheet><fonts><font/></fonts><fills><fill/><fill><patternFill patternType="solid">'
        '<fgColor theme="4" tint="0.5"/></patternFill></fill></fills><cellXfs><xf/>'
        '<xf numFmtId="14"/><xf fillId="1"/></cellXfs></styleSheet>'
    ),
    THEME: (
        "<theme><themeElements><clrScheme><accent1><srgbClr val=\"112233\"/></accent1></clrScheme>"
        "</themeElements></theme>"
    ),
    **{SHEET.format(number): sheet_part(number) for number in (1, 2, 3)},
    RELS.format(1): relationships(
        LINKED,
        ("table", "../tables/table1.xml"),
        ("comments", "../comments1.xml"),
        ("pivotTable", "../pivotTables/pivotTable1.xml"),
    ),
    RELS.format(2): relationships(LINKED, ("table", "../tables/table2.xml")),
    TABLE.format(1): table_part("T1"),
    TABLE.format(2): table_part("T2"),
    "xl/comments1.xml": (
        '<comments><author>Ann</author><comment ref="A1" authorId="0"><t>a</t></comment></comments>'
    ),
    PIVOT: '<pivotTableDefinition name="P"/>',
    "xl/pivotTables/_rels/pivotTable1.xml.rels": relationships(
        ("pivotCacheDefinition", "../pivotCache/pivotCacheDefinition1.xml")
    ),
    "xl/pivotCache/pivotCacheDefinition1.xml": (
        '<pivotCacheDefinition><cacheFields><cacheField name="Kind"><sharedItems><s v="nut"/>'
        "</sharedItems></cacheField></cacheFields></pivotCacheDefinition>"
    ),
    "xl/pivotCache/_rels/pivotCacheDefinition1.xml.rels": relationships(
        ("pivotCacheRecords", "pivotCacheRecords1.xml")
    ),
    "xl/pivotCache/pivotCacheRecords1.xml": (
        '<pivotCacheRecords><r><x v="0"/></r></pivotCacheRecords>'
    ),
    "docProps/core.xml": "<cp:coreProperties><dc:creator>Ann</dc:creator></cp:coreProperties>",
}

# Workbooks by what each shows: the parts that differ from those above, None where there is none.
KINDS = {
    "several sheets, tables and a pivot table": {},
    "two sheets with one part": {BOOK_RELS: sheets_at(PARTS[0], PARTS[0], PARTS[2])},
    "two sheets with one part, written in other ways": {
        BOOK_RELS: sheets_at(PARTS[0], "/xl/Worksheets\\SHEET1.xml", PARTS[2])
    },
    "two sheets with one relationship": {BOOK: book_part("S", "T", "U", ids=(1, 1, 3))},
    "two sheets of one name": {BOOK: book_part("S", "S", "U")},
    "two sheets of one name, the first without its part": {
        BOOK: book_part("S", "S", "U"),
        SHEET.format(1): None,
    },
    "two parts of one name in two folders": {
        BOOK_RELS: sheets_at(PARTS[0], "other/sheet1.xml", PARTS[2]),
        "xl/other/sheet1.xml": sheet_part(2),
        "xl/other/_rels/sheet1.xml.rels": relationships(LINKED),
    },
    "two parts whose names differ in case": {"XL/WORKSHEETS/SHEET1.XML": sheet_part(7)},
    "a sheet whose part is the styles": {BOOK_RELS: sheets_at(PARTS[0], "styles.xml", PARTS[2])},
    "a sheet whose part is the strings": {
        BOOK_RELS: sheets_at(PARTS[0], "sharedStrings.xml", PARTS[2])
    },
    "a sheet whose part is the workbook": {
        BOOK_RELS: sheets_at(PARTS[0], "workbook.xml", PARTS[2])
    },
    "a sheet whose part is a table": {
        BOOK_RELS: sheets_at(PARTS[0], "tables/table1.xml", PARTS[2])
    },
    "a sheet whose part a table's relationship leads to, too": {
        RELS.format(3): relationships(LINKED, ("table", "sheet2.xml"))
    },
    "targets in other case and with a backslash": {
        BOOK_RELS: sheets_at("WORKSHEETS/SHEET1.XML", "worksheets\\sheet2.xml", "/xl/" + PARTS[2])
    },
    "targets with dots and with references": {
        BOOK_RELS: sheets_at("../xl/" + PARTS[0], "./" + PARTS[1], "worksheets/sheet&#51;.xml")
    },
    "the workbook at another place": {
        "_rels/.rels": relationships(("officeDocument", "/xl/book.xml")),
        "xl/book.xml": book_part("S", "T", "U"),
        "xl/_rels/book.xml.rels": sheets_at(*PARTS),
        BOOK: None,
        BOOK_RELS: None,
    },
    "a sheet without its part": {SHEET.format(2): None},
    "a table on a sheet that isn't there": {SHEET.format(2): None, TABLE.format(1): None},
    "tables of one name on two sheets": {TABLE.format(1): table_part("T2")},
    "a table's part that is cut": {TABLE.format(2): "<table>"},
    "sheets of other types": {
        BOOK_RELS: relationships(
            ("worksheet", PARTS[0]), ("chartsheet", PARTS[1]), ("worksheet", PARTS[2])
        )
    },
    "a sheet whose relationship has an unknown type": {
        BOOK_RELS: relationships(
            ("worksheet", PARTS[0]), ("image", PARTS[1]), ("worksheet", PARTS[2])
        )
    },
    "a sheet without a relationship": {BOOK_RELS: sheets_at(*PARTS[:2])},
    "no sheets": {BOOK: "<workbook><sheets/></workbook>"},
    "no sheets and no relationships": {
        BOOK: "<workbook><sheets/></workbook>",
        BOOK_RELS: "<Relationships/>",
    },
    "names with a tab, a line end and quotes": {
        BOOK: book_part("a&#9;b", "a&#10;b\t", "a'b&quot;")
    },
    "names that aren't ASCII, with a backslash, and empty": {
        BOOK: book_part("\u00e9\U0001f330", "a\\tb", "")
    },
    "a name that begins as an option": {BOOK: book_part("--all", "-", "--to")},
    "strings that are cut": {STRINGS: "<sst><si><t>nut</t>"},
    "strings that can't be cut into events": {STRINGS: "<sst"},
    "styles that are cut": {STYLES: "<styleSheet><fonts>"},
    "styles that can't be cut into events": {STYLES: "<styleSheet>&"},
    "a theme that is cut": {THEME: "<theme><themeElements><clrScheme><accent1>"},
    "a theme that can't be cut into events": {THEME: "<theme"},
    "no root": {"_rels/.rels": None},
    "no relationships of the workbook": {BOOK_RELS: None},
    "no workbook": {BOOK: None},
    "a workbook that is cut": {BOOK: "<workbook><sheets>"},
    "relationships that are cut": {BOOK_RELS: BASE[BOOK_RELS][: -len("</Relationships>")]},
    "sheets that are cut": {
        SHEET.format(number): sheet_part(number).split(end)[0]
        for number, end in enumerate(("</mergeCells>", "</row>", "</v>"), 1)
    },
    "properties that are cut": {"docProps/core.xml": "<cp:coreProperties>"},
}


def changed(changes):
    """The parts of the workbook with these in place of its own."""
    return {name: part for name, part in {**BASE, **changes}.items() if part is not None}


def of_many(count):
    """A workbook of so many sheets, the last with a table."""
    numbers = range(1, count + 1)
    return {
        **{name: BASE[name] for name in ("_rels/.rels", STRINGS, STYLES)},
        BOOK_RELS: sheets_at(*(f"worksheets/sheet{number}.xml" for number in numbers)),
        BOOK: book_part(*(f"S{number}" for number in numbers)),
        **{SHEET.format(number): sheet_part(number) for number in numbers},
        RELS.format(count): BASE[RELS.format(2)],
        TABLE.format(2): BASE[TABLE.format(2)],
    }


# What each name of a workbook is told by: the command that lists it, its place in a line, and the
# names that are asked for where the program tells none.
LISTED_BY = {
    "sheet": ("sheets", 0, ["S", "T", "U"]),
    "table": ("tables", 0, ["T1", "T2"]),
    "pivot": ("pivots", 1, ["P"]),
}


def kind_of(command, parameter):
    """What a name is of that a command takes."""
    if command.word == "pivot" and parameter == "NAME":
        return "pivot"
    return "table" if command.takes == A_TABLE else "sheet"


def events_in(book, name):
    """The events of a part, or a flaw where its bytes can't be had."""
    try:
        data = book.read(name)
    except BROKEN:
        return [["x", "damaged"]]
    return cut(data)


def text_of(file):
    """The package text of all parts of a workbook file."""
    with zipfile.ZipFile(io.BytesIO(file)) as book:
        parts = [{"name": name, "events": events_in(book, name)} for name in book.namelist()]
    return json.dumps({"version": 2, "parts": parts}, ensure_ascii=False).encode()


def answers_on(data):
    """What answers words on an input."""

    def answer(words):
        ran = subprocess.run([OF_GATE, *words], input=data, capture_output=True)
        return ran.returncode, ran.stdout, ran.stderr

    return answer


# Commands that read a worksheet, and those that read all worksheets.
READING = ("cells", "csv", "links", "merges")
OF_ALL_FORMULAS = (["graph"], ["order"], ["cycles"])


class WholeText(unittest.TestCase):
    def asked_of(self, answer):
        """Words for each command, with each name that the workbook has, and one that it hasn't."""
        names = {}
        for kind, (word, place, others) in LISTED_BY.items():
            lines = answer([word])[1].decode().split("\n")[:-1]
            found = [unescaped(line.split("\t")[place]) for line in lines] or others
            names[kind] = [*found[: ASKED // 2], *found[ASKED // 2 :][-ASKED // 2 :], NOWHERE]
        for command in COMMANDS.values():
            taken = command.parameters
            if command.word == "sample":
                continue
            if not taken:
                yield [command.word]
                continue
            for name in names[kind_of(command, taken[0])]:
                if command.word in ROWS_AS_JSON:
                    yield [command.word, name, AS_JSON]
                elif len(taken) == 1:
                    yield [command.word, name]
                elif taken[1] == "REF":
                    yield [command.word, name, "B2"]
                else:
                    second = names[kind_of(command, taken[1])]
                    yield from ([command.word, name, other] for other in second)
                if command.word == "csv":
                    yield [command.word, name, "--dates", "--delimiter=tab"]

    def compare(self, file):
        """Sees that all words have the answer of the whole text."""
        answer, of_text = answers_on(file), answers_on(text_of(file))
        for words in self.asked_of(answer):
            with self.subTest(words=words):
                self.assertEqual(answer(words), of_text(words))

    def test_samples(self):
        for path in sorted(SAMPLES.glob("*.xlsx")):
            with self.subTest(sample=path.name):
                self.compare(path.read_bytes())

    def test_fixtures(self):
        for name, parts in (
            ("MINIMAL", MINIMAL),
            ("LISTED", LISTED),
            ("SALES", SALES),
            ("BROKEN_THEME", BROKEN_THEME),
            ("MIXED", MIXED),
        ):
            with self.subTest(fixture=name):
                self.compare(archive(parts))

    def test_packages_of_each_kind(self):
        for shown, changes in KINDS.items():
            with self.subTest(shown):
                self.compare(archive(changed(changes)))

    def test_names_of_parts_in_other_case_and_with_backslashes(self):
        turned = {name.replace("/", "\\").upper(): part for name, part in BASE.items()}
        self.compare(archive(turned))

    def test_each_command_answers_on_the_workbook(self):
        """So that the comparisons are of answers, and not of refusals alone."""
        answer = answers_on(archive(BASE))
        answered = {words[0] for words in self.asked_of(answer) if answer(words)[0] == 0}
        self.assertEqual(answered, set(COMMANDS) - {"sample"})

    def test_a_thousand_sheets(self):
        self.compare(archive(of_many(1000)))

    def test_a_broken_sheet_that_is_not_asked_for_is_not_told(self):
        """Its fault is told to those alone that ask for it."""
        whole = answers_on(archive(BASE))
        broken = answers_on(archive({**BASE, SHEET.format(2): "<"}))
        asked = [words for words in self.asked_of(whole) if "T" not in words and "T2" not in words]
        for words in asked:
            if words not in (["upgrade"], *OF_ALL_FORMULAS):
                with self.subTest(words=words):
                    self.assertEqual(broken(words), whole(words))
        for words in (*([word, "T"] for word in READING), *OF_ALL_FORMULAS):
            status, lines, said = broken(words)
            self.assertEqual((status, lines), (6, b""))
            self.assertIn(b"malformed markup", said)


if __name__ == "__main__":
    unittest.main()
