"""Workbook files for the scripts of this folder that begin at a file."""

import os
import subprocess
import zipfile
from xml.sax.saxutils import escape

from cells import Texts
from measure import TYPES

MAIN = "http://schemas.openxmlformats.org/spreadsheetml/2006/main"
PACKAGE = "http://schemas.openxmlformats.org/package/2006/"
CONTENT = "application/vnd.openxmlformats-officedocument.spreadsheetml."

CONTENT_TYPES = f"""\
<Types xmlns="{PACKAGE}content-types">\
<Default Extension="rels" ContentType="application/vnd.openxmlformats-package.relationships+xml"/>\
<Default Extension="xml" ContentType="{CONTENT}worksheet+xml"/>\
<Override PartName="/xl/workbook.xml" ContentType="{CONTENT}sheet.main+xml"/>\
<Override PartName="/xl/styles.xml" ContentType="{CONTENT}styles+xml"/>\
<Override PartName="/xl/sharedStrings.xml" ContentType="{CONTENT}sharedStrings+xml"/></Types>"""

# The formats of cells: general, a date, and a date with a time of day.
DATE, MOMENT = 1, 2
STYLES = f"""\
<styleSheet xmlns="{MAIN}"><fonts><font/></fonts><fills><fill><patternFill/></fill></fills>\
<borders><border/></borders>\
<cellStyleXfs><xf/></cellStyleXfs><cellXfs><xf/><xf numFmtId="14"/><xf numFmtId="22"/></cellXfs>\
<cellStyles><cellStyle name="Normal" xfId="0" builtinId="0"/></cellStyles></styleSheet>"""


def relationships(*kinds_and_targets):
    each_one = (
        f'<Relationship Id="rId{number}" Type="{TYPES}{kind}" Target="{target}"/>'
        for number, (kind, target) in enumerate(kinds_and_targets, 1)
    )
    return f'<Relationships xmlns="{PACKAGE}relationships">{"".join(each_one)}</Relationships>'


class Formulas:
    """Texts, and formulas of texts, as those of bench/cells.py."""

    strings = ()
    texts = Texts()

    def cells(self, row):
        for reference, formula, text in self.texts.cells_of(row):
            told = "" if formula is None else f"<f>{escape(formula)}</f>"
            yield f'<c r="{reference}" t="str">{told}<v>{escape(text)}</v></c>'


class Dates:
    """A date, a shared string, a number, and a date with a time of day."""

    strings = [f"kind {place}" for place in range(1000)]

    def cells(self, row):
        day = 40_000 + row % 10_000
        yield f'<c r="A{row}" s="{DATE}"><v>{day}</v></c>'
        yield f'<c r="B{row}" t="s"><v>{row % len(self.strings)}</v></c>'
        yield f'<c r="C{row}"><v>{row}.25</v></c>'
        # Sixteenths of a day are exact decimals.
        yield f'<c r="D{row}" s="{MOMENT}"><v>{day + row % 16 / 16}</v></c>'


class Numbered:
    """A shared string, a number, a formula, and the number of the sheet."""

    strings = [f"a text that is shared, {place}" for place in range(5000)]

    def __init__(self, number):
        self.number = number

    def cells(self, row):
        yield f'<c r="A{row}" t="s"><v>{(self.number * 1009 + row) % len(self.strings)}</v></c>'
        yield f'<c r="B{row}"><v>{row}.5</v></c>'
        yield f'<c r="C{row}"><f>B{row}*2</f><v>{2 * row + 1}</v></c>'
        yield f'<c r="D{row}"><v>{self.number}</v></c>'

    def row_lines(self, row):
        """What `cells` prints of a row."""
        text = self.strings[(self.number * 1009 + row) % len(self.strings)]
        return (
            f"A{row}\ts:{text}\t-\t-\nB{row}\tn:{row}.5\t-\t-\n"
            f"C{row}\tn:{2 * row + 1}\t=B{row}*2\t-\nD{row}\tn:{self.number}\t-\t-\n"
        )


def sheet(mix, rows):
    """The markup of a sheet, piece by piece."""
    yield f'<worksheet xmlns="{MAIN}"><sheetData>'
    for row in range(1, rows + 1):
        yield f'<row r="{row}">{"".join(mix.cells(row))}</row>'
    yield "</sheetData></worksheet>"


def write_book(path, mixes, rows):
    """Writes a workbook with a sheet of each of these, by its name, with so many rows of four
    cells. All have the shared strings of the first."""
    names = list(mixes)
    parts = [f"worksheets/sheet{number}.xml" for number in range(1, len(names) + 1)]
    targets = [("worksheet", part) for part in parts]
    targets += [("styles", "styles.xml"), ("sharedStrings", "sharedStrings.xml")]
    told = "".join(
        f'<sheet name="{name}" sheetId="{number}" r:id="rId{number}"/>'
        for number, name in enumerate(names, 1)
    )
    start = f'<workbook xmlns="{MAIN}" xmlns:r="{TYPES[:-1]}">'
    strings = "".join(f"<si><t>{text}</t></si>" for text in mixes[names[0]].strings)
    with zipfile.ZipFile(path, "w", zipfile.ZIP_DEFLATED) as book:
        book.writestr("[Content_Types].xml", CONTENT_TYPES)
        book.writestr("_rels/.rels", relationships(("officeDocument", "xl/workbook.xml")))
        book.writestr("xl/_rels/workbook.xml.rels", relationships(*targets))
        book.writestr("xl/workbook.xml", f"{start}<sheets>{told}</sheets></workbook>")
        book.writestr("xl/styles.xml", STYLES)
        book.writestr("xl/sharedStrings.xml", f'<sst xmlns="{MAIN}">{strings}</sst>')
        for name, part in zip(names, parts):
            book.writestr(f"xl/{part}", "".join(sheet(mixes[name], rows)))


def run_by(python, folder):
    """Has the scripts of ./xlsx run by this interpreter itself, which keeps what it compiles: a
    `python3` on the path may be a script that chooses one, which takes as long as a small workbook
    does, and so does the compiling."""
    found = subprocess.run(
        [python, "-c", "import sys; print(sys.executable)"],
        stdout=subprocess.PIPE,
        check=True,
        text=True,
    ).stdout.strip()
    commands = os.path.join(folder, "commands")
    os.mkdir(commands)
    os.symlink(found, os.path.join(commands, "python3"))
    os.environ["PATH"] = f"{commands}:{os.environ['PATH']}"
    os.environ.pop("PYTHONDONTWRITEBYTECODE", None)
    os.environ["PYTHONPYCACHEPREFIX"] = os.path.join(folder, "compiled")
    return found
