"""Tries the built program on what formulas name in the whole workbook, on their order, their cycles
and what needs a cell."""

import random
import re
import subprocess
import unittest

from support.fixtures import with_sheets
from support.graphs import Graph, has, reference
from support.noted import RELATIONSHIPS, WORKBOOK, package_of, refused, related, told, with_data
from test_formulas_named import formula
from test_program import BUILDS, OUT
from test_tables import RELATED, TABLE_NAME, table

USAGE = [(2, b"", b"usage\n")]
TOO_LARGE = [(17, b"", b"graph too large\n")]
NO_COLUMN = "Range is missing the expected column component."
NO_ROW = "Range is missing the expected row component."


def name_of(text, formula, more=""):
    """A defined name."""
    return f'<definedName name="{text}"{more}>{formula}</definedName>'


def book(*sheets, names="", kinds=(), parts=()):
    """The package of sheets, each a name and its cells, or none where it has no part."""
    kinds = dict(enumerate(kinds))
    told_of = [
        (f'name="{name}" sheetId="{number}"', kinds.get(number - 1) or "worksheet")
        for number, (name, _) in enumerate(sheets, 1)
    ]
    own = [
        (f"xl/worksheets/sheet{number}.xml", with_data(cells))
        for number, (_, cells) in enumerate(sheets, 1)
        if cells is not None
    ]
    return package_of([*parts, *with_sheets(*told_of, names=names).items(), *own])


def array(reference, area, text):
    """A cell whose formula has its values in an area."""
    return f'<c r="{reference}"><f t="array" ref="{area}">{text}</f></c>'


WORKED = book(
    (
        "S",
        formula("A1", "B1+1")
        + formula("B1", "T!A1")
        + formula("C1", "SUM(A:A)")
        + formula("D1", "D1")
        + formula("E1", "D1+A1")
        + array("F1", "F1:F2", "{1;2}")
        + formula("A2", "F2")
        + formula("A3", "ROWS(A$1:A3)"),
    ),
    (
        "T",
        formula("A1", "2")
        + formula("B1", 'INDIRECT("A1")')
        + formula("C1", "#REF!+[1]S!A1")
        + formula("A2", "A3")
        + formula("A3", "A2+S!A1"),
    ),
)

NEED_B1 = "'S'!A1\n'S'!C1\n'S'!E1\n'T'!A2\n'T'!A3\n"

# Words, and the lines that they have of that workbook.
LINES = [
    (
        ["graph"],
        "'S'!A1\t'S'!B1:B1\n"
        "'S'!B1\t'T'!A1:A1\n"
        "'S'!C1\t'S'!A1:A1048576\n"
        "'S'!D1\t'S'!D1:D1\n"
        "'S'!E1\t'S'!D1:D1\t'S'!A1:A1\n"
        "'S'!F1\n"
        "'S'!A2\t'S'!F2:F2\n"
        "'S'!A3\t~'S'!A1:A3\n"
        "'T'!A1\n"
        "'T'!B1\t?computed INDIRECT\n"
        "'T'!C1\t?gone #REF!\t?external [1]S\n"
        "'T'!A2\t'T'!A3:A3\n"
        "'T'!A3\t'T'!A2:A2\t'S'!A1:A1\n",
    ),
    (
        ["order"],
        "'S'!F1\n'S'!A3\n'T'!A1\n'T'!B1\topen\n'T'!C1\n"
        "'S'!B1\n'S'!A2\n"
        "'S'!A1\n"
        "'S'!C1\n"
        "'S'!D1\tcycle\n'S'!E1\tbehind\n'T'!A2\tcycle\n'T'!A3\tcycle\n",
    ),
    (["cycles"], "'S'!D1\n'T'!A2\t'T'!A3\n"),
    (["dependents", "S", "B1", "--all"], NEED_B1),
    (["dependents", "T", "A1", "--all"], NEED_B1.replace("'S'!A1\n", "'S'!A1\n'S'!B1\n")),
    (["dependents", "S", "D2", "--all"], ""),
    (["dependents", "S", "D2"], ""),
    # A cell that an array covers, and one that is named for its place alone.
    (["dependents", "S", "F2", "--all"], "'S'!C1\n'S'!A2\n"),
    (["dependents", "S", "A3", "--all"], "'S'!C1\n"),
    (["dependents", "S", "a3", "--all"], "'S'!C1\n"),
    (["dependents", "S", "XFD1048576", "--all"], ""),
    (["dependents", "--sheet", "1", "B1", "--all"], NEED_B1),
    (["dependents", "--sheet", "first", "B1", "--all"], NEED_B1),
    (["dependents", "--sheet", "2", "A3", "--all"], "'T'!A2\n'T'!A3\n"),
    (["dependents", "S", "B1"], "A1\n"),
]

# Words that are no command.
OTHER_WORDS = [
    ["graph", "S"],
    ["graph", "--json"],
    ["order", "--all"],
    ["cycles", "S"],
    ["graph", "--sheet", "1"],
    ["order", "--sheet", "first"],
    ["Graph"],
    ["dependents", "S", "B1", "all"],
    ["dependents", "S", "B1", "--All"],
    ["dependents", "S", "B1", "--json"],
    ["dependents", "S", "B1", "--all", "--all"],
    ["dependents", "S", "--all"],
    ["dependents", "S", "--all", "B1"],
    ["dependents", "S", "B", "--all"],
    ["dependents", "S", "XFE1", "--all"],
    ["dependents", "--all"],
    ["precedents", "S", "B1", "--all"],
    ["precedents", "S", "--all"],
]

NAMES = "".join(
    [
        name_of("Rate", "S!$B$1"),
        name_of("Rate", "'It''s'!$B$2", ' localSheetId="1"'),
        name_of("Left", "S!XFD1"),
        name_of("Up", "!A1048576"),
        name_of("Both", "Rate+S!$C$1:$C$3"),
        name_of("Loop", "Pool+S!$A$1"),
        name_of("Pool", "Loop"),
        name_of("Gone", "S!#REF!"),
        name_of("Twice", "_xlfn.LAMBDA(_xlpm.x,_xlpm.x*Rate)"),
        name_of("Only", "S!$A$9", ' localSheetId="2"'),
        name_of("Maß", "S!$A$8"),
        name_of("Amounts", "Sales[Amount]"),
        name_of("Off", "OFFSET(S!$A$1,0,1)"),
    ]
)
SALES = table(ref="D1:F5", columns=("Item", "Amount", "a'b")).replace("T1", "Sales")

# A formula, in B2 where no cell stands before it, and its fields, in which S! is short for 'S'! and
# between which two blanks stand: those of docs/FORMAT.md, and of ECMA-376 part 1, 18.2.5 and
# 18.5.1.2.
NAMED = [
    ("SUM(A1:C2)+$D$4", "S!A1:C2  S!D4:D4"),
    ("C2:A1", "S!A1:C2"),
    ("A:A+$2:3", "S!A1:A1048576  S!A2:XFD3"),
    ("S!A1+'It''s'!A1:B2", "S!A1:A1  'It''s'!A1:B2"),
    ("s!a1", "S!A1:A1"),
    ("'größe'!A1+Größe!A1", "'Größe'!A1:A1  'Größe'!A1:A1"),
    ("GRÖßE!A1", "?sheet GRÖßE"),
    ("Nope!A1+A1", "S!A1:A1  ?sheet Nope"),
    ("S:Größe!A1", "'S':'Größe'!A1:A1"),
    ("'Größe:It''s'!A1:B2", "'It''s':'Größe'!A1:B2"),
    ("A1:Größe!A1", "S!A1:A1  'Größe'!A1:A1  ?range :"),
    ("S!A1:S!B2", "S!A1:B2"),
    ("A1:B2:C3", "S!A1:C3"),
    ("A1 : B2", "S!A1:B2"),
    ("A1:C3 B2:D4", "S!A1:C3  S!B2:D4"),
    ("A1#+@A:A", "S!A1:A1  S!A1:A1048576"),
    ("[0]!Rate+[0]S!A1", "S!B1:B1  S!A1:A1"),
    ("[1]S!A1+'[b.xlsx]S'!A1+[1]!Rate", "?external [1]S  ?external [b.xlsx]S  ?external [1]"),
    ("2019!A1", "'2019'!A1:A1"),
    ("#REF!+S!#REF!+#N/A", "?gone #REF!  ?gone #REF!"),
    ("Rate+RATE", "S!B1:B1  S!B1:B1"),
    ("'It''s'!Rate", "'It''s'!B2:B2"),
    ("It's!Rate", "?name It  ?text '"),
    ("Größe!Rate", "S!B1:B1"),
    ("Only", "?name Only"),
    ("Größe!Only", "S!A9:A9"),
    ("Left+Up", "S!A2:A2  S!B1:B1"),
    ("A1: Left+Up", "S!XFD1:XFD1  S!A1048576:A1048576"),
    ("'It''s'!Up", "'It''s'!B1:B1"),
    ("Both", "S!B1:B1  S!C1:C3"),
    ("Loop", "S!A1:A1  ?endless Loop"),
    ("Gone", "?gone #REF!"),
    ("Twice(A1)", "S!B1:B1  S!A1:A1"),
    ("Maß+MAß", "S!A8:A8  S!A8:A8"),
    ("Amounts", "S!E2:E4"),
    ("Off", "S!A1:A1  ?computed OFFSET"),
    ("Sales[Amount]", "S!E2:E4"),
    ("Sales", "S!D2:F4"),
    ("sales[[#This Row],[amount]]", "S!E2:E2"),
    ("Sales[a''b]", "S!F2:F4"),
    ("B9: Sales[[#This Row],[Amount]]", "?gone Sales[[#This Row],[Amount]]"),
    ("Sales[@Amount]+Sales[@]", "S!E2:E2  S!D2:F2"),
    ("Sales[[#Headers],[#Data],[Item]:[Amount]]", "S!D1:E4"),
    ("Sales[#All]+Sales[#Headers]+Sales[#Totals]", "S!D1:F5  S!D1:F1  S!D5:F5"),
    ("Sales[None]+None[Item]", "?column None  ?table None"),
    ("E2: [Amount]+[@Item]", "S!E2:E4  S!D2:D2"),
    ("[Amount]", "?table [Amount]"),
    ("A1:INDEX(C:C,3)", "S!A1:A1  S!C1:C1048576  ?range :"),
    ("ROW(B2:C3,A1)", "S!B2:C3  S!A1:A1"),
    ("ROW(B2)+ROWS(B$1:B2)", "~S!B2:B2  ~S!B1:B2"),
    ('INDIRECT("A1")+OFFSET(A1,1,0)', "S!A1:A1  ?computed INDIRECT  ?computed OFFSET"),
    ("_xlfn.LET(_xlpm.x,A1,_xlpm.x+1)", "S!A1:A1"),
    ("\"A1\"&'A1", "?text '"),
    ("LOG10(A1)+A1.b+XFE1+A0", "S!A1:A1  ?name A1.b  ?name XFE1  ?name A0"),
    ("{1,2;3,4}+1:1", "S!A1:XFD1"),
]

AREA = re.compile(r"'S'(?::'\w+')?!([A-Z]+)(\d+):([A-Z]+)(\d+)")
KNOWN = ("?external", "?gone")
LAST_ROW = 1_048_576


def numbered(letters):
    """The number of a column, from 1."""
    number = 0
    for letter in letters:
        number = 26 * number + ord(letter) - 64
    return number


def has_cell(field, cell):
    """Whether a field is an area of S whose value is asked for, and has a cell."""
    found = AREA.fullmatch(field)
    if found is None:
        return False
    left, top, right, bottom = found.groups()
    letter, row = cell[0], int(cell[1:])
    in_columns = numbered(left) <= numbered(letter) <= numbered(right)
    return in_columns and int(top) <= row <= int(bottom)


def doubling(last):
    """Fifty-one names, each of which is the next one twice, but for the last."""
    each = [name_of(f"N{number}_", f"N{number + 1}_+N{number + 1}_") for number in range(50)]
    return "".join([*each, name_of("N50_", last)])


def area_of(chance, side):
    """A cell, a rectangle or a whole column of a square with a side, or of what lies beside it."""
    top, bottom = sorted(chance.choices(range(1, side + 2), k=2))
    left, right = sorted(chance.choices(range(1, side + 2), k=2))
    areas = [(top, left, top, left), (top, left, bottom, right), (1, left, LAST_ROW, left)]
    return chance.choices(areas, [6, 4, 1])[0]


def formulas_of(chance):
    """The cells of some formulas in a square, row by row, and the areas that each names."""
    side = chance.randint(1, 7)
    square = [(row, column) for row in range(1, side + 1) for column in range(1, side + 1)]
    cells = sorted(chance.sample(square, chance.randint(1, min(24, len(square)))))
    counts = chance.choices([0, 1, 2], [2, 5, 1], k=len(cells))
    return cells, [[area_of(chance, side) for _ in range(count)] for count in counts]


def text_of(areas):
    """A formula that names areas."""
    return "+".join(["1", *(f"{reference(own[:2])}:{reference(own[2:])}" for own in areas)])


def by_edges(cells, named, cell):
    """The rounds, the cycles and what needs a cell, as they are defined, by edges."""
    numbers = range(len(cells))
    edges = [{n for n in numbers if any(has(area, cells[n]) for area in own)} for own in named]
    rounds, ready = {}, True
    while ready:
        ready = [n for n in numbers if n not in rounds and edges[n] <= rounds.keys()]
        rounds.update(dict.fromkeys(ready, max(rounds.values(), default=-1) + 1))
    reached, before = edges, None
    while reached != before:
        reached, before = [own.union(*(reached[n] for n in own)) for own in reached], reached
    cycles = {tuple(n for n in numbers if {m, n} <= reached[m] & reached[n]) for m in numbers}
    asking = {n for n in numbers if any(has(area, cell) for area in named[n])}
    needing = [n for n in numbers if n in asking or asking & reached[n]]
    return rounds, sorted(list(cycle) for cycle in cycles if cycle), needing


class Graphs(unittest.TestCase):
    def check(self, package, words, wanted, shown, builds=BUILDS):
        for build in builds:
            ran = subprocess.run([OUT / build, *words], input=package, capture_output=True)
            self.assertIn((ran.returncode, ran.stdout, ran.stderr), told(wanted), shown)

    def test_formulas_of_all_sheets_have_their_lines(self):
        for words, wanted in LINES:
            self.check(WORKED, words, wanted, words)
        for words in OTHER_WORDS:
            self.check(WORKED, words, USAGE, words)

    def test_areas_tell_what_edges_tell(self):
        chance = random.Random(1)
        for _ in range(1000):
            cells, named = formulas_of(chance)
            graph = Graph(cells, named)
            for cell in ((1, 1), cells[-1]):
                found = graph.rounds, graph.cycles, graph.dependents(cell)
                self.assertEqual(found, by_edges(cells, named, cell), (cells, named))

    def test_formulas_that_name_areas_have_their_lines(self):
        chance = random.Random(2)
        for _ in range(40):
            cells, named = formulas_of(chance)
            own = (formula(reference(cell), text_of(areas)) for cell, areas in zip(cells, named))
            package = book(("S", "".join(own)))
            for word, lines in Graph(cells, named).lines().items():
                words = [word, "S", "A1", "--all"] if word == "dependents" else [word]
                self.check(package, words, lines, (word, cells, named))

    def test_words_are_looked_up_in_the_workbook(self):
        for text, fields in NAMED:
            found = re.match(r"([A-F]\d): (.*)", text)
            cell, text = found.groups() if found else ("B2", text)
            own = [re.sub("^(~?)S!", r"\1'S'!", field) for field in fields.split("  ")]
            sheets = [("S", formula(cell, text)), ("It's", ""), ("Größe", ""), ("2019", "")]
            package = book(*sheets, names=NAMES, parts=[RELATED, (TABLE_NAME, SALES)])
            here = f"'S'!{cell}"
            self.check(package, ["graph"], "\t".join([here, *own]) + "\n", text)
            needs_itself = any(has_cell(field, cell) for field in own)
            is_open = any(field[0] == "?" and not field.startswith(KNOWN) for field in own)
            marks = ["cycle"] * needs_itself + ["open"] * is_open
            self.check(package, ["order"], "\t".join([here, *marks]) + "\n", text)
            self.check(package, ["cycles"], f"{here}\n" * needs_itself, text)

    def test_a_name_of_a_sheet_that_is_none_is_seen_by_none(self):
        for number in ("2", "9", "4294967296", "-1", "x"):
            names = name_of("N", "$A$1", f' localSheetId="{number}"')
            package = book(("S", formula("B2", "N")), ("T", formula("B2", "N")), names=names)
            wanted = "'S'!B2\t?name N\n'T'!B2\t?name N\n"
            self.check(package, ["graph"], wanted, number)

    def test_of_two_sheets_of_one_name_words_find_the_first(self):
        package = book(
            ("S", formula("A1", "1")), ("T", formula("A1", "S!A1")), ("S", formula("A1", "A1"))
        )
        wanted = "'S'!A1\n'T'!A1\t'S'!A1:A1\n'S'!A1\t'S'!A1:A1\n"
        self.check(package, ["graph"], wanted, "graph")
        self.check(package, ["order"], "'S'!A1\n'T'!A1\n'S'!A1\tcycle\n", "order")
        self.check(package, ["cycles"], "'S'!A1\n", "cycles")
        self.check(package, ["dependents", "S", "A1", "--all"], "'T'!A1\n", "dependents")

    def test_names_of_sheets_are_written_in_apostrophes(self):
        package = book(("a\\b'", formula("A1", "B1")))
        self.check(package, ["graph"], "'a\\\\b'''!A1\t'a\\\\b'''!B1:B1\n", "graph")

    def test_a_table_may_lie_on_a_chart_sheet(self):
        related_name = RELATED[0].replace("worksheets", "chartsheets")
        package = book(
            ("C", None),
            ("S", formula("A1", "Sold[Qty]")),
            kinds=["chartsheet"],
            parts=[
                (related_name, RELATED[1]),
                (TABLE_NAME, table().replace("T1", "Sold")),
                ("xl/chartsheets/sheet1.xml", "<chartsheet></chartsheet>"),
            ],
        )
        self.check(package, ["graph"], "'S'!A1\t'C'!B2:B3\n", "graph")
        self.check(package, ["dependents", "C", "B3", "--all"], "'S'!A1\n", "dependents")

    def test_graphs_are_refused_for_their_causes(self):
        commands = (["graph"], ["order"], ["cycles"], ["dependents", "S", "A1", "--all"])
        fine, bad = formula("A1", "1"), '<c r="1"/>'
        worse = '<c r="A"/>'
        table_part = (TABLE_NAME, table('totalsRowCount="+1"'))
        unopened = package_of([RELATIONSHIPS, WORKBOOK])
        causes = [
            (book(("S", fine), ("T", bad), ("U", worse)), NO_COLUMN),
            (book(("S", fine), ("T", fine), ("U", worse)), NO_ROW),
            (book(("S", bad), parts=[RELATED, table_part]), "Parse integer error: +1"),
            (unopened, "File not found '_rels/.rels'"),
        ]
        for package, text in causes:
            for words in commands:
                self.check(package, words, refused(text), (words, text))
        missing = ["dependents", "s", "A1", "--all"]
        # It is asked for behind the opening, and before tables and formulas.
        for package in (WORKED, causes[0][0], causes[2][0]):
            self.check(package, missing, refused("Worksheet 's' not found"), "no such sheet")
        self.check(unopened, missing, refused("File not found '_rels/.rels'"), "no workbook")
        chosen = refused("there is no sheet 3: the number of sheets is 2")
        self.check(WORKED, ["dependents", "--sheet", "3", "A1", "--all"], chosen, "no third sheet")

    def test_a_sheet_without_a_part_has_no_formulas(self):
        package = book(("S", None), ("T", formula("A1", "S!B2")))
        self.check(package, ["graph"], "'T'!A1\t'S'!B2:B2\n", "graph")
        self.check(package, ["dependents", "S", "B2", "--all"], "'T'!A1\n", "dependents")
        empty = book(("S", ""))
        for words in (["graph"], ["order"], ["cycles"], ["dependents", "S", "A1", "--all"]):
            self.check(empty, words, "", words)

    def test_graphs_that_are_too_large_are_refused(self):
        cell = formula("A1", "N0_")
        for last in ("1", "S!$B$2"):
            package = book(("S", cell), names=doubling(last))
            self.check(package, ["graph"], TOO_LARGE, ("names that double", last))
        missing = refused("Worksheet 'T' not found")
        self.check(package, ["dependents", "T", "A1", "--all"], missing, "no such sheet")
        whole = book(("S", array("A1", "A1:XFD1048576", "1")))
        for words in (["order"], ["cycles"]):
            self.check(whole, words, TOO_LARGE, words)
        # As many cells as may be covered, and one formula more.
        most = array("A1", "A1:XFD65536", "1")
        self.check(book(("S", most)), ["graph"], "'S'!A1\n", "the most")
        self.check(book(("S", most), ("T", formula("A1", "1"))), ["graph"], TOO_LARGE, "one more")


if __name__ == "__main__":
    unittest.main()
