"""Tries the built program through real pipes and files, by the texts of docs/FORMAT.md."""

import fcntl
import io
import json
import os
import pathlib
import re
import resource
import signal
import socket
import subprocess
import sys
import tempfile
import termios
import time
import unittest
import zipfile

from support.fixtures import (
    BROKEN_THEME,
    BROKEN_THEME_LINES,
    LINES,
    LISTED,
    MINIMAL,
    MIXED,
    MIXED_LINES,
    SALES,
    SALES_LINES,
    package_text,
    relationships,
    with_rows,
    with_sheets,
)

TOP = pathlib.Path(__file__).resolve().parent.parent
FORMAT = (TOP / "docs" / "FORMAT.md").read_text(encoding="utf-8")
OUT = TOP / "crates" / "xlsx_tool" / "out"
# The gate builds the program twice, by two compilers; ./xlsx builds the first alone.
BUILDS = ["xlsx_tool", "xlsx_tool.by-rattle"]

LIMIT = 67_108_864
FILE_LIMIT = 268_435_456
COMPOUND = bytes.fromhex("d0cf11e0a1b11ae1")
CELLS = ["cells", "S"]
PACKAGE = package_text(MINIMAL)


def section(title):
    """The section of the page of formats with this title."""
    return re.search(rf"^## {title}\n(.*?)(?=^## |\Z)", FORMAT, re.MULTILINE | re.DOTALL)[1]


def help_page():
    """The page of help, as the program's source has it: tools/test_documents.py compares that with
    the page of formats."""
    source = (TOP / "crates" / "xlsx_tool" / "src" / "program.rt").read_text(encoding="utf-8")
    return re.search(r'^const HELP: &str = "\\\n(.*?)";$', source, re.MULTILINE | re.DOTALL)[1]


# The first text of each status, but for those of a workbook that can't be opened, and all of them.
STATED = re.findall(r"^\| (\d+) \| `([^`]+)` \|", section("Statuses"), re.MULTILINE)
TEXTS = {int(status): f"{text}\n".encode() for status, text in reversed(STATED)}


def refusal(status):
    """What a run that is refused ends with, and what it wrote."""
    return status, b"", TEXTS[status]


def refused_as(front, at=0):
    """What a run ends with that is refused by the one text that begins so, at a byte."""
    ((status, text),) = [(status, text) for status, text in STATED if text.startswith(front)]
    return int(status), b"", f"{re.sub('N$', str(at), text)}\n".encode()


NO_FILE = "not a workbook file: "


def no_workbook(text):
    return 6, b"", text + b"\n"


WRITE_FAULT = 7, TEXTS[7]


def long_sheet():
    """A package whose lines have some 20 MB, and these lines."""
    rows, lines = [], []
    for row in range(1, 21):
        # No two stretches of it are the same.
        text = " ".join(map(str, range(row * 1_000_000, row * 1_000_000 + 125_000)))
        rows.append(f'<row r="{row}"><c r="A{row}" t="str"><v>{text}</v></c></row>')
        lines.append(f"A{row}\ts:{text}\t-\t-\n")
    return package_text(with_rows("".join(rows))), "".join(lines).encode()


def sheets_of_one_target(folder, target, count):
    """The parts of a workbook in this folder, all of whose sheets have the one target."""
    sheets = "".join(f'<sheet name="S{n}" r:id="rId1"/>' for n in range(count))
    return {
        "_rels/.rels": relationships(("officeDocument", f"{folder}workbook.xml")),
        f"{folder}_rels/workbook.xml.rels": relationships(("worksheet", target)),
        f"{folder}workbook.xml": f"<workbook><sheets>{sheets}</sheets></workbook>",
    }


def styles_named_often(kind, lists, count):
    """A workbook with so many cell formats, each of which names the first of a list."""
    formats = f"<xf {kind}/>" * count
    styles = f"<styleSheet>{lists}<cellXfs>{formats}</cellXfs></styleSheet>"
    return {**with_rows('<row><c r="A1"><v>1</v></c></row>'), "xl/styles.xml": styles}


def string_in_cells(text, positions):
    """A workbook with one shared string in cells at these positions."""
    cells = "".join(f'<c r="{position}" t="s"><v>0</v></c>' for position in positions)
    strings = f"<sst><si><t>{text}</t></si></sst>"
    return {**with_rows(f"<row>{cells}</row>"), "xl/sharedStrings.xml": strings}


def master_in_cells(text, positions):
    """A workbook with a shared formula at A1, and derived ones at these positions."""
    derived = (f'<c r="{position}"><f t="shared" si="0"/></c>' for position in positions)
    first = f'<c r="A1"><f t="shared" si="0" ref="A1">{text}</f></c>'
    return with_rows(f"<row>{first}{''.join(derived)}</row>")


def filled(size):
    """The shipped package with spaces behind it, of this size."""
    return PACKAGE.ljust(size)


class Edge:
    """The tests, over one build of the program."""

    program = None

    @classmethod
    def setUpClass(cls):
        if not os.access(cls.program, os.X_OK):
            raise AssertionError(f"{cls.program} isn't built")
        cls.long_package, cls.long_lines = long_sheet()

    def start(self, words, **given):
        """Starts the program. What isn't given is a pipe."""
        given = {"stdin": subprocess.PIPE, "stdout": subprocess.PIPE, **given}
        child = subprocess.Popen([self.program, *words], stderr=subprocess.PIPE, **given)
        self.addCleanup(child.communicate)
        self.addCleanup(child.kill)
        return child

    def run_on(self, data, words=CELLS, **given):
        child = self.start(words, **given)
        out, said = child.communicate(data, timeout=100)
        return child.returncode, out, said

    def file_of(self, data):
        file = self.enter(tempfile.TemporaryFile())
        file.write(data)
        file.seek(0)
        return file

    def whole(self, file):
        file.seek(0)
        return file.read()

    def enter(self, file):
        self.addCleanup(file.close)
        return file

    # Pages and statuses

    def test_the_shipped_package_gives_its_lines(self):
        self.assertEqual(self.run_on(PACKAGE), (0, LINES, b""))

    def test_pages(self):
        self.assertEqual(self.run_on(b"", ["--help"]), (0, help_page().encode(), b""))
        version = re.search(r"`--version` prints\s+`([^`]+)`", FORMAT)[1]
        self.assertEqual(self.run_on(b"", ["--version"]), (0, f"{version}\n".encode(), b""))

    def test_words_that_are_no_command(self):
        for words in ([], ["cells"], ["cells", "S", "S"], ["cell", "S"], ["Cells", "S"], [""]):
            self.assertEqual(self.run_on(PACKAGE, words), refusal(2), words)
        for words in (["sheets", "x"], ["sheets", ""], ["names", "S"], ["Sheets"], ["name"]):
            self.assertEqual(self.run_on(PACKAGE, words), refusal(2), words)
        for words in (["merges"], ["merges", "S", "S"], ["merge", "S"], ["props", "S"], ["prop"]):
            self.assertEqual(self.run_on(PACKAGE, words), refusal(2), words)
        for words in (["pivots", "S"], ["pivot"], ["pivot", "S"], ["pivot", "S", "P", "P"]):
            self.assertEqual(self.run_on(PACKAGE, words), refusal(2), words)
        for words in (["tables", "S"], ["table"], ["table", "S", "S"], ["Tables"], ["Table", "S"]):
            self.assertEqual(self.run_on(PACKAGE, words), refusal(2), words)
        for words in (["links"], ["links", "S", "S"], ["Links", "S"], ["csv"], ["csv", "S", "S"]):
            self.assertEqual(self.run_on(PACKAGE, words), refusal(2), words)
        for words in (["comments"], ["comments", "S", "S"], ["comment", "S"], ["Comments", "S"]):
            self.assertEqual(self.run_on(PACKAGE, words), refusal(2), words)
        for words in (["upgrade", "S"], ["Upgrade"], ["upgrades"], ["upgrade", "--version-1"]):
            self.assertEqual(self.run_on(PACKAGE, words), refusal(2), words)
        for words in (["csv-table"], ["csv-table", "S", "S"], ["csv_table", "S"], ["csv-", "S"]):
            self.assertEqual(self.run_on(PACKAGE, words), refusal(2), words)
        for rows in ("0", "20001", "18446744073709551621", "+5", "-5", "5.0", " 5", "5 ", "", "x"):
            self.assertEqual(self.run_on(PACKAGE, ["sample", rows]), refusal(2), rows)
        for words in (["sample"], ["sample", "5", "5"], ["Sample", "5"], ["samples", "5"]):
            self.assertEqual(self.run_on(PACKAGE, words), refusal(2), words)
        for words in (["--help", "--version"], ["--help", "S"], ["cells", b"\xff"]):
            self.assertEqual(self.run_on(PACKAGE, words), refusal(2), words)

    def test_pages_samples_and_words_that_are_no_command_read_nothing(self):
        for words in (["--help"], ["--version"], ["cells"], ["sample", "5"], ["sample", "0"]):
            file = self.file_of(PACKAGE)
            self.run_on(None, words, stdin=file)
            self.assertEqual(os.lseek(file.fileno(), 0, os.SEEK_CUR), 0, words)

    def test_samples(self):
        for rows, lines in (
            ("1", b"cells 3\nformulas 1\nstyled 1\nruns 1\nlast B1 =A1*2\n"),
            ("5", b"cells 15\nformulas 5\nstyled 3\nruns 5\nlast B5 =A5*2\n"),
            (
                "20000",
                b"cells 60000\nformulas 20000\nstyled 10000\nruns 19999\nlast B20000 =A20000*2\n",
            ),
        ):
            for data in (b"", PACKAGE, b"{}"):
                self.assertEqual(self.run_on(data, ["sample", rows]), (0, lines, b""), rows)
        # Leading zeros count nothing.
        self.assertEqual(self.run_on(b"", ["sample", "007"]), self.run_on(b"", ["sample", "7"]))

    def test_no_package(self):
        for data in (
            b"",
            b"{}",
            PACKAGE[:-1],
            PACKAGE + b"]",
            b"\xef\xbb\xbf" + PACKAGE,
            PACKAGE.replace(b"nut", b"n\xff"),
            PACKAGE.replace(b'"version":1', b'"version":0'),
            PACKAGE.replace(b'"version":1', b'"version":3'),
            PACKAGE.replace(b'"version":1', b'"version":2.0'),
            PACKAGE.replace(b'"version":1', b'"version":"2"'),
            PACKAGE.replace(b'"version":1', b'"version":2,"version":3'),
            package_text(MINIMAL, 2).replace(b'"version":2', b'"version":1'),
            PACKAGE.replace(b'"version":1', b'"version":1,"x":0.5'),
            PACKAGE.replace(b'["t","nut"]', b'["u","nut"]'),
        ):
            self.assertEqual(self.run_on(data), refusal(5), data[:40])

    def test_no_workbook(self):
        self.assertEqual(
            self.run_on(package_text({})), no_workbook(b"File not found '_rels/.rels'")
        )
        self.assertEqual(
            self.run_on(PACKAGE, ["cells", "X"]), no_workbook(b"Worksheet 'X' not found")
        )
        self.assertEqual(
            self.run_on(PACKAGE.replace(b"sheetId", b'state=\\"none\\" sheetId')),
            no_workbook(b"Unrecognized sheet:state: none"),
        )

    def test_values_and_formulas(self):
        for version in (1, 2):
            self.assertEqual(self.run_on(package_text(MIXED, version)), (0, MIXED_LINES, b""))

    def test_packages_are_upgraded(self):
        """To what Python writes of the same value, which has the lines of the package."""
        for parts, lines in ((MINIMAL, LINES), (MIXED, MIXED_LINES)):
            value = json.loads(package_text(parts, 2))
            text = json.dumps(value, ensure_ascii=False, separators=(",", ":"), sort_keys=True)
            wanted = text.encode() + b"\n"
            for data in (package_text(parts), package_text(parts, 2), wanted):
                self.assertEqual(self.run_on(data, ["upgrade"]), (0, wanted, b""))
            self.assertEqual(self.run_on(wanted), (0, lines, b""))

    def test_a_workbook_file_is_an_input(self):
        """It has the lines of the text of all its parts, and is upgraded to it."""
        for sample in sorted((TOP / "samples").glob("*.xlsx")):
            file = sample.read_bytes()
            with tempfile.TemporaryFile() as text:
                reading = TOP / "tools" / "reading" / "package_text.py"
                command = [sys.executable, reading, "--all", sample]
                subprocess.run(command, stdout=text, check=True)
                text.seek(0)
                data = text.read()
            sheets = self.run_on(data, ["sheets"])[1].decode().splitlines()
            names = [line.split("\t")[0] for line in sheets if "\tworksheet\t" in line]
            for words in (
                *(["sheets"], ["names"], ["tables"], ["pivots"], ["props"], ["upgrade"]),
                *([word, name] for name in names for word in ("cells", "csv", "links")),
            ):
                self.assertEqual(self.run_on(file, words), self.run_on(data, words), words)

    def test_a_file_that_is_no_workbook_file_is_told_as_what_it_is(self):
        file = (TOP / "samples" / "comments.xlsx").read_bytes()
        no_end = refused_as(NO_FILE + "no record")
        for cut in (b"PK", b"PK\3\4", file[:-30], file[:-1]):
            self.assertEqual(self.run_on(cut, ["sheets"]), no_end)
        compound = refused_as(NO_FILE + "a compound file")
        for told in (COMPOUND, COMPOUND + bytes(1000), COMPOUND + file):
            self.assertEqual(self.run_on(told, ["sheets"]), compound)
        self.assertEqual(self.run_on(COMPOUND[:-1], ["sheets"]), refusal(5))
        start = int.from_bytes(file[-6:-2], "little")
        self.assertEqual(file[start : start + 4], b"PK\1\2")
        damaged = file[:start] + b"\0" + file[start + 1 :]
        at_start = refused_as(NO_FILE + "no header", start)
        self.assertEqual(self.run_on(damaged, ["sheets"]), at_start)

    def test_a_part_may_be_one_long_thing(self):
        """Of 64 MiB, or of 30 million elements: it is read, or refused by its status."""
        cell = b'<worksheet><sheetData><row><c r="A1" t="str">'
        ends = b"</c></row></sheetData></worksheet>"
        lines = 0, b"A1\ts:a\t-\t-\n", b""
        node = no_workbook(b"Expecting 'v, f, or is' node")
        malformed = no_workbook(b"Xml error: malformed markup at 4")
        cut = no_workbook(b"Unexpected end of xml, expecting '</v>'")
        for before, piece, count, behind, wanted in (
            (b"<v>", b"x", 2**26, b"</v>" + ends, (0, b"A1\ts:%b\t-\t-\n" % (b"x" * 2**26), b"")),
            (b"<!--", b"x", 2**26, b"--><v>a</v>" + ends, lines),
            (b"<?", b"x", 2**26, b"?><v>a</v>" + ends, lines),
            (b"<", b"x", 2**26, b"/>" + ends, node),
            (b'<q a="', b"x", 2**26, b'"/>' + ends, node),
            (b"", b"<a/>", 30_000_000, ends, node),
            (b"<v>", b"x", 2**26, b"", cut),
            (b"<", b"x", 2**26, b"", malformed),
            (b"<!--", b"x", 2**26, b"", malformed),
        ):
            sheet = cell + before + piece * count + behind
            file = io.BytesIO()
            with zipfile.ZipFile(file, "w", zipfile.ZIP_DEFLATED, compresslevel=1) as book:
                for name, part in {**MINIMAL, "xl/worksheets/sheet1.xml": sheet}.items():
                    book.writestr(name, part)
            found = self.run_on(file.getvalue())
            # The texts are too long to be shown.
            self.assertTrue(found == wanted, (before, piece, behind, found[0], found[2]))

    def test_cells_that_are_refused(self):
        for cell, text in (
            ('<c t="b"><v>00</v></c>', b"Unrecognized boolean cell value: 00"),
            ('<c t="e"><v>#NUT</v></c>', b"Unsupported cell error value '#NUT'"),
            ('<c t="x"><v>1</v></c>', b"Unknown cell 't' attribute: \"x\""),
            ('<c r="XFD1"/><c/>', b"column number overflow"),
        ):
            self.assertEqual(self.run_on(package_text(with_rows(cell))), no_workbook(text), cell)

    def test_a_workbook_with_styles(self):
        package = package_text({**MINIMAL, "xl/styles.xml": "<styleSheet/>"})
        self.assertEqual(self.run_on(package), (0, LINES, b""))

    def test_each_part_of_a_workbook_left_out(self):
        without_styles = SALES_LINES.replace(b"#DDD9C3", b"-")
        for day in (b"45292", b"45293"):
            without_styles = without_styles.replace(b"t:" + day + b" date 1900", b"n:" + day)
        lines = lambda wanted: (0, wanted, b"")
        no_sheet = no_workbook(b"Worksheet 'Sales' not found")
        no_string = no_workbook(b"Cell string index not found in shared strings table")
        for left_out, wanted in (
            (None, lines(SALES_LINES)),
            ("_rels/.rels", no_workbook(b"File not found '_rels/.rels'")),
            (
                "xl/_rels/workbook.xml.rels",
                no_workbook(b"File not found 'xl/_rels/workbook.xml.rels'"),
            ),
            ("xl/workbook.xml", no_sheet),
            ("xl/worksheets/sheet1.xml", no_sheet),
            ("xl/sharedStrings.xml", no_string),
            ("xl/styles.xml", lines(without_styles)),
        ):
            parts = {name: markup for name, markup in SALES.items() if name != left_out}
            found = self.run_on(package_text(parts), ["cells", "Sales"])
            self.assertEqual(found, wanted, left_out)

    def both_lists(self, parts):
        """What `sheets` and `names` answer."""
        package = package_text(parts)
        return self.run_on(package, ["sheets"]), self.run_on(package, ["names"])

    def test_lists_of_a_workbook(self):
        hidden = with_sheets(
            ('name="S" sheetId="1" state="hidden"', "worksheet"),
            names='<definedName name="Q">S!$A$1</definedName>',
        )
        kinds = with_sheets(
            ('name="One" sheetId="1" state="visible"', "worksheet"),
            ('name="Two" sheetId="2" state="veryHidden"', "chartsheet"),
            ('name="One" sheetId="3"', "dialogsheet"),
            names='<definedName name="b">1</definedName><definedName name="a" localSheetId="0"/>'
            '<definedName>2</definedName><definedName name="b">S!$A$1:$B$2</definedName>',
        )
        kinds_lines = (
            b"One\tworksheet\tvisible\nTwo\tchartsheet\tveryHidden\nOne\tdialogsheet\tvisible\n"
        )
        escaped = with_sheets(
            ('name="tab&#9;here\\" sheetId="1"', "worksheet"),
            names='<definedName name="line&#10;feed">"a\tb"</definedName>',
        )
        for parts, sheets, names in (
            (hidden, b"S\tworksheet\thidden\n", b"Q\tS!$A$1\n"),
            (kinds, kinds_lines, b"b\t1\na\t\nb\tS!$A$1:$B$2\n"),
            (escaped, b"tab\\there\\\\\tworksheet\tvisible\n", b'line\\nfeed\t"a\\tb"\n'),
            (MINIMAL, b"S\tworksheet\tvisible\n", b""),
            (SALES, b"Sales\tworksheet\tvisible\n", b""),
            (BROKEN_THEME, b"S\tworksheet\tvisible\n", b""),
        ):
            self.assertEqual(self.both_lists(parts), ((0, sheets, b""), (0, names, b"")), parts)

    def test_lists_need_the_parts_of_a_workbook_and_none_of_its_sheets(self):
        sheet = (0, b"S\tworksheet\tvisible\n", b""), (0, b"", b"")
        nothing = ((0, b"", b""),) * 2
        refused = lambda text: (no_workbook(text),) * 2
        for changed, wanted in (
            ({"xl/worksheets/sheet1.xml": "<worksheet><sheetData><row>"}, sheet),
            ({"xl/worksheets/sheet1.xml": None}, sheet),
            ({"xl/workbook.xml": None}, nothing),
            ({"_rels/.rels": None}, refused(b"File not found '_rels/.rels'")),
            (
                {"xl/_rels/workbook.xml.rels": None},
                refused(b"File not found 'xl/_rels/workbook.xml.rels'"),
            ),
            (
                {"xl/sharedStrings.xml": "<sst>"},
                refused(b"Unexpected end of xml, expecting '</sst>'"),
            ),
            (
                {"xl/styles.xml": "<styleSheet>"},
                refused(b"Unexpected end of xml, expecting '</styleSheet>'"),
            ),
            (
                {
                    "xl/workbook.xml": MINIMAL["xl/workbook.xml"].replace(
                        "sheetId", 'state="x" sheetId'
                    )
                },
                refused(b"Unrecognized sheet:state: x"),
            ),
        ):
            parts = {name: text for name, text in {**MINIMAL, **changed}.items() if text}
            self.assertEqual(self.both_lists(parts), wanted, changed)

    def test_lists_around_the_cells(self):
        """A sheet's merged cells, its links and the workbook's properties; none of another one."""
        self.assertEqual(self.run_on(PACKAGE, ["merges", "S"]), (0, b"", b""))
        self.assertEqual(self.run_on(PACKAGE, ["links", "S"]), (0, b"", b""))
        self.assertEqual(self.run_on(PACKAGE, ["props"]), (0, b"", b""))
        package = package_text(LISTED)
        self.assertEqual(self.run_on(package, ["merges", "S"]), (0, b"A5:B6\nD1:D1\n", b""))
        links = (
            b"A2:A2\t=https://example.com\t-\t-\t=a&b\n"
            b"B2:B3\t-\t=S!A1\t=go\t-\n"
        )
        self.assertEqual(self.run_on(package, ["links", "S"]), (0, links, b""))
        self.assertEqual(self.run_on(package, ["props"]), (0, b"creator\t=Ann & Bo\n", b""))
        no_sheet = no_workbook(b"Worksheet 'Z' not found")
        self.assertEqual(self.run_on(package, ["merges", "Z"]), no_sheet)
        self.assertEqual(self.run_on(package, ["links", "Z"]), no_sheet)

    def test_a_faulty_theme_refuses_nothing(self):
        package = package_text(BROKEN_THEME)
        self.assertEqual(self.run_on(package), (0, BROKEN_THEME_LINES, b""))

    def test_styles_that_end_early_are_refused(self):
        for styles, name in (
            ("<styleSheet><cellXfs><xf>", b"xf"),
            ("<styleSheet><fonts>", b"fonts"),
            ("<styleSheet>", b"styleSheet"),
        ):
            package = package_text({**MINIMAL, "xl/styles.xml": styles})
            text = b"Unexpected end of xml, expecting '</" + name + b">'"
            self.assertEqual(self.run_on(package), no_workbook(text), styles)

    def test_targets_and_folders_that_many_sheets_name_are_kept_once(self):
        def bound():
            resource.setrlimit(resource.RLIMIT_AS, (200_000_000, 200_000_000))

        long, count = 500_000, 1_000
        lines = "".join(f"S{n}\tworksheet\tvisible\n" for n in range(count)).encode()
        for folder, target in (("xl/", "t" * long), ("f" * long + "/", "t")):
            package = package_text(sheets_of_one_target(folder, target, count))
            for words, wanted in ((["sheets"], lines), (["tables"], b""), (["pivots"], b"")):
                answer = self.run_on(package, words, preexec_fn=bound)
                self.assertEqual(answer, (0, wanted, b""), (folder[:3], words))

    def test_texts_that_cells_and_styles_name_often(self):
        def bound():
            resource.setrlimit(resource.RLIMIT_AS, (200_000_000, 200_000_000))

        long, count = 500_000, 1_000
        text, formula = "s" * long, "+".join(["A1"] * (long // 3))
        one, each = ["A2"] * count, [f"A{row}" for row in range(2, count + 2)]
        font = f'<fonts><font><name val="{text}"/></font></fonts>'
        code = f'<numFmts><numFmt numFmtId="200" formatCode="{"0" * long}"/></numFmts>'
        moved = f"A1\t-\t={formula}\t-\nA2\t-\t={formula.replace('A1', 'A2')}\t-\n"
        for parts, wanted in (
            (string_in_cells(text, one), (0, f"A2\ts:{text}\t-\t-\n".encode(), b"")),
            (string_in_cells(text, each), refusal(8)),
            (master_in_cells(formula, one), (0, moved.encode(), b"")),
            (master_in_cells(formula, each), refusal(8)),
            (styles_named_often('fontId="0"', font, count), refusal(8)),
            (styles_named_often('numFmtId="200"', code, count), refusal(8)),
        ):
            answer = self.run_on(package_text(parts), preexec_fn=bound)
            # Not by `assertEqual`, which would print the texts.
            self.assertTrue(answer == wanted, (answer[0], answer[1][:40], answer[2]))

    def test_want_of_memory(self):
        def bound():
            resource.setrlimit(resource.RLIMIT_AS, (40_000_000, 40_000_000))

        data = filled(LIMIT)
        self.assertEqual(self.run_on(data, preexec_fn=bound), refusal(8))

    # Sources

    def test_slow_small_pieces(self):
        package = PACKAGE.replace(b"nut", "n\u00fct\U0001f330".encode())
        child, at = self.start(CELLS), 0
        while at < len(package):
            size = 1 + at % 7
            os.write(child.stdin.fileno(), package[at : at + size])
            at += size
            time.sleep(0.001)
        out, said = child.communicate(timeout=100)
        wanted = LINES.replace(b"nut", "n\u00fct\U0001f330".encode())
        self.assertEqual((child.returncode, out, said), (0, wanted, b""))

    def test_a_source_that_fails_at_once(self):
        folder = os.open("/", os.O_RDONLY)
        self.addCleanup(os.close, folder)
        self.assertEqual(self.run_on(None, stdin=folder), refusal(3))
        self.assertEqual(self.run_on(None, preexec_fn=lambda: os.close(0)), refusal(3))

    def test_a_source_that_fails_behind_a_whole_package(self):
        """A socket that is closed before what came to it was read fails at the other's end."""
        ours, theirs = map(self.enter, socket.socketpair())
        theirs.sendall(b"unread")
        ours.sendall(PACKAGE)
        ours.close()
        self.assertEqual(self.run_on(None, stdin=theirs), refusal(3))

    def test_exactly_the_limit(self):
        data = filled(LIMIT)
        self.assertEqual(self.run_on(data), (0, LINES, b""))
        self.assertEqual(self.run_on(None, stdin=self.file_of(data)), (0, LINES, b""))

    def test_one_byte_more_than_the_limit_is_taken_and_no_more(self):
        for more in (1, 100_000):
            data = filled(LIMIT + more)
            file = self.file_of(data)
            self.assertEqual(self.run_on(None, stdin=file), refusal(4))
            self.assertEqual(os.lseek(file.fileno(), 0, os.SEEK_CUR), LIMIT + 1)
        child = self.start(CELLS)
        child.stdin.write(data[: LIMIT + 1])
        # It ends though the pipe is still open.
        child.stdin.flush()
        self.assertEqual(child.wait(timeout=100), 4)

    def test_a_file_has_a_limit_of_its_own(self):
        """As many bytes are taken as a file may have, and one more; a text has the lower limit."""
        no_end = refused_as(NO_FILE + "no record")
        compound = refused_as(NO_FILE + "a compound file")
        large = refused_as("file too large")
        for front, size, wanted in (
            (b"PK", LIMIT + 1, no_end),
            (b"PK", FILE_LIMIT, no_end),
            (b"PK", FILE_LIMIT + 1, large),
            (COMPOUND, FILE_LIMIT, compound),
            (COMPOUND, FILE_LIMIT + 1, large),
            (COMPOUND[:-1], LIMIT + 1, refusal(4)),
            (b"KP", FILE_LIMIT + 1, refusal(4)),
        ):
            file = self.file_of(front)
            file.truncate(size)
            self.assertEqual(self.run_on(None, stdin=file), wanted, (front, size))
            limit = LIMIT if wanted == refusal(4) else FILE_LIMIT
            self.assertEqual(os.lseek(file.fileno(), 0, os.SEEK_CUR), min(size, limit + 1))

    # Sinks

    def test_long_output_comes_whole_and_once(self):
        status, out, said = self.run_on(self.long_package)
        self.assertEqual((status, said), (0, b""))
        self.assertTrue(out == self.long_lines)

    def test_long_output_into_a_file(self):
        file = self.file_of(b"")
        self.assertEqual(self.run_on(self.long_package, stdout=file), (0, None, b""))
        self.assertTrue(self.whole(file) == self.long_lines)

    def test_long_output_through_writes_that_are_cut_short(self):
        """A write to a full pipe that a stop interrupts takes a front of its piece."""
        child = self.start(CELLS, stdin=self.file_of(self.long_package))
        out = b""
        for _ in range(20):
            self.until_full(child)
            for number in (signal.SIGSTOP, signal.SIGCONT):
                child.send_signal(number)
                time.sleep(0.002)
            out += os.read(child.stdout.fileno(), 100_000)
        rest, said = child.communicate(timeout=100)
        self.assertEqual((child.returncode, said), (0, b""))
        self.assertTrue(out + rest == self.long_lines)

    def until_full(self, child):
        """Waits until no more has come into the pipe for a while, or the program has ended."""
        before, now = -1, 0
        while (now == 0 or now != before) and child.poll() is None:
            time.sleep(0.01)
            held = fcntl.ioctl(child.stdout.fileno(), termios.FIONREAD, bytes(4))
            before, now = now, int.from_bytes(held, "little")

    def test_a_full_device(self):
        full = self.enter(open("/dev/full", "wb"))
        for words in (CELLS, ["--help"], ["--version"]):
            status, _, said = self.run_on(PACKAGE, words, stdout=full)
            self.assertEqual((status, said), WRITE_FAULT, words)
        for words in (["merges", "S"], ["links", "S"], ["props"], ["csv", "S"]):
            status, _, said = self.run_on(package_text(LISTED), words, stdout=full)
            self.assertEqual((status, said), WRITE_FAULT, words)

    def test_no_standard_output(self):
        status, _, said = self.run_on(PACKAGE, preexec_fn=lambda: os.close(1))
        self.assertEqual((status, said), WRITE_FAULT)

    def test_a_file_that_may_not_grow_gets_a_front_of_the_lines(self):
        """The write that reaches the bound is cut short, and the next one fails."""

        def bound():
            signal.signal(signal.SIGXFSZ, signal.SIG_IGN)
            resource.setrlimit(resource.RLIMIT_FSIZE, (1_000_000, 1_000_000))

        file = self.file_of(b"")
        status, _, said = self.run_on(self.long_package, stdout=file, preexec_fn=bound)
        self.assertEqual((status, said), WRITE_FAULT)
        self.assertTrue(self.whole(file) == self.long_lines[:1_000_000])

    def test_a_closed_pipe(self):
        for data in (PACKAGE, self.long_package):
            for is_ignored in (False, True):
                to_read, to_write = os.pipe()
                os.close(to_read)
                ran = self.run_on(data, stdout=to_write, restore_signals=not is_ignored)
                os.close(to_write)
                self.assertEqual((ran[0], ran[2]), WRITE_FAULT)

    def test_a_pipe_that_is_closed_behind_some_bytes(self):
        child = self.start(CELLS, stdin=self.file_of(self.long_package))
        self.assertEqual(child.stdout.read(1000), self.long_lines[:1000])
        child.stdout.close()
        self.assertEqual((child.wait(timeout=100), child.stderr.read()), WRITE_FAULT)

    def test_the_status_stands_where_its_text_cannot_be_written(self):
        for shell in ("2>/dev/full", "2>&-"):
            words = ["sh", "-c", f'exec "$0" cells X {shell}', self.program]
            ran = subprocess.run(words, input=PACKAGE, stdout=subprocess.PIPE)
            self.assertEqual((ran.returncode, ran.stdout), (6, b""), shell)


def load_tests(loader, _standard, _pattern):
    """The tests over each build that is there, and over the first in any case."""
    suite = unittest.TestSuite()
    for number, build in enumerate(BUILDS):
        if number == 0 or (OUT / build).exists():
            name = f"Edge of {build}"
            case = type(name, (Edge, unittest.TestCase), {"program": str(OUT / build)})
            suite.addTests(loader.loadTestsFromTestCase(case))
    return suite


if __name__ == "__main__":
    unittest.main()
