"""Packages that the tests share: as markup, as a zip archive and as a package text. What imports it
finds the modules of tools/reading, too."""

import io
import pathlib
import sys
import zipfile

READING = pathlib.Path(__file__).resolve().parent.parent / "reading"
sys.path.insert(0, str(READING))

from markup import events, spelled  # noqa: E402
from package_text import FORMS  # noqa: E402

TYPES = "http://schemas.openxmlformats.org/officeDocument/2006/relationships/"


def relationship(number, kind, target):
    return f'<Relationship Id="rId{number}" Type="{TYPES}{kind}" Target="{target}"/>'


def relationships(*kinds_and_targets):
    each = (relationship(n, *pair) for n, pair in enumerate(kinds_and_targets, 1))
    return f"<Relationships>{''.join(each)}</Relationships>"


def with_rows(rows, name="S"):
    """The parts of a workbook whose one sheet has these rows."""
    return {
        "_rels/.rels": relationships(("officeDocument", "xl/workbook.xml")),
        "xl/_rels/workbook.xml.rels": relationships(("worksheet", "worksheets/sheet1.xml")),
        "xl/workbook.xml": (
            f'<workbook><sheets><sheet name="{name}" sheetId="1" r:id="rId1"/></sheets></workbook>'
        ),
        "xl/worksheets/sheet1.xml": f"<worksheet><sheetData>{rows}</sheetData></worksheet>",
    }


def with_sheets(*sheets, names=""):
    """The parts of a workbook whose sheets have these attributes and types, without their parts."""
    kinds = [(kind, f"{kind}s/sheet{number}.xml") for number, (_, kind) in enumerate(sheets, 1)]
    starts = (f'<sheet {own} r:id="rId{number}"/>' for number, (own, _) in enumerate(sheets, 1))
    return {
        "_rels/.rels": relationships(("officeDocument", "xl/workbook.xml")),
        "xl/_rels/workbook.xml.rels": relationships(*kinds),
        "xl/workbook.xml": (
            f"<workbook><sheets>{''.join(starts)}</sheets>"
            f"<definedNames>{names}</definedNames></workbook>"
        ),
    }


# A workbook of two values and a formula, without styles, and its lines.
MINIMAL = with_rows(
    '<row r="1"><c r="A1" t="str"><v>nut</v></c>'
    '<c r="B1" t="str"><f>UPPER(A1)</f><v>NUT</v></c></row>'
)
LINES = b"A1\ts:nut\t-\t-\nB1\ts:NUT\t=UPPER(A1)\t-\n"

# A workbook with merged cells, links and a property.
LISTED = {
    **with_rows('<row r="2"><c r="A2" t="str"><v>nut</v></c><c r="B2"><v>3</v></c></row>'),
    "xl/worksheets/_rels/sheet1.xml.rels": (
        f'<Relationships><Relationship Id="rId9" Type="{TYPES}hyperlink" '
        'Target="https://example.com"/></Relationships>'
    ),
    "docProps/core.xml": (
        "<cp:coreProperties><dc:creator>Ann &amp; Bo</dc:creator></cp:coreProperties>"
    ),
}
LISTED["xl/worksheets/sheet1.xml"] = LISTED["xl/worksheets/sheet1.xml"].replace(
    "</sheetData>",
    '</sheetData><mergeCells><mergeCell ref="A5:B6"/><mergeCell ref="D1"/></mergeCells>'
    '<hyperlinks><hyperlink ref="A2" r:id="rId9" tooltip="a&amp;b"/>'
    '<hyperlink ref="B2:B3" location="S!A1" display="go"/><hyperlink location="x"/></hyperlinks>',
)

# The markup of the package that is shipped in crates/xlsx_tool, as a spreadsheet program writes it.
SALES = {
    **with_rows(
        '<row r="1" spans="1:3"><c r="A1" s="1" t="s"><v>0</v></c>'
        '<c r="B1" s="1" t="s"><v>1</v></c>'
        '<c r="C1" s="1" t="s"><v>2</v></c></row>'
        '<row r="2"><c r="A2" s="2"><v>45292</v></c><c r="B2"><v>10.5</v></c>'
        '<c r="C2"><f t="shared" ref="C2:C3" si="0">SUM(B$2:B2)</f><v>10.5</v></c></row>'
        '<row r="3"><c r="A3" s="2"><v>45293</v></c><c r="B3"><v>4</v></c>'
        '<c r="C3"><f t="shared" si="0"/><v>14.5</v></c></row>',
        name="Sales",
    ),
    "xl/sharedStrings.xml": (
        '<sst count="3" uniqueCount="3"><si><t>Date</t></si><si><t>Amount</t></si>'
        '<si><t xml:space="preserve"> Total</t></si></sst>'
    ),
    "xl/styles.xml": (
        '<styleSheet><fonts count="1"><font><sz val="11"/><color theme="1"/><name val="Calibri"/>'
        '<family val="2"/></font></fonts>'
        '<fills count="3"><fill><patternFill patternType="none"/></fill>'
        '<fill><patternFill patternType="gray125"/></fill>'
        '<fill><patternFill patternType="solid"><fgColor theme="2" tint="-0.0999786370433668"/>'
        '<bgColor indexed="64"/></patternFill></fill></fills>'
        '<borders count="1"><border><left/><right/><top/><bottom/><diagonal/></border></borders>'
        '<cellXfs count="3"><xf numFmtId="0" fontId="0" fillId="0" borderId="0"/>'
        '<xf numFmtId="0" fontId="0" fillId="2" borderId="0"/>'
        '<xf numFmtId="14" fontId="0" fillId="0" borderId="0"/></cellXfs></styleSheet>'
    ),
}
SALES["xl/worksheets/sheet1.xml"] = SALES["xl/worksheets/sheet1.xml"].replace(
    "<sheetData>", '<dimension ref="A1:C3"/><sheetData>'
)
SALES_LINES = (
    b"A1\ts:Date\t-\t#DDD9C3\nB1\ts:Amount\t-\t#DDD9C3\nC1\ts: Total\t-\t#DDD9C3\n"
    b"A2\tt:45292 date 1900\t-\t-\nB2\tn:10.5\t-\t-\nC2\tn:10.5\t=SUM(B$2:B2)\t-\n"
    b"A3\tt:45293 date 1900\t-\t-\nB3\tn:4\t-\t-\nC3\tn:14.5\t=SUM(B$2:B3)\t-\n"
)

# A workbook whose theme ends in its color scheme, and the line of its cell in the default theme.
BROKEN_THEME = {
    **with_rows('<row r="1"><c r="A1" s="1"/></row>'),
    "xl/theme/theme1.xml": (
        '<theme><themeElements><clrScheme><dk1><srgbClr val="000000"/></dk1>'
    ),
    "xl/styles.xml": (
        '<styleSheet><fonts><font><color theme="3"/></font></fonts>'
        '<fills><fill><patternFill patternType="none"/></fill>'
        '<fill><patternFill patternType="solid"><fgColor theme="3"/></patternFill></fill></fills>'
        '<cellXfs><xf numFmtId="0" fontId="0" fillId="0"/><xf numFmtId="0" fontId="0" fillId="1"/>'
        "</cellXfs></styleSheet>"
    ),
}
BROKEN_THEME_LINES = b"A1\t-\t-\t#1F497D\n"

# A workbook with every kind of value but dates, and with a group of formulas; and its lines.
MIXED = {
    **with_rows(
        '<row r="1"><c r="A1"><v>0.1</v></c><c t="n"><v>-1.50E3</v></c><c t="s"><v>0</v></c>'
        '<c><f t="shared" ref="D1:D3" si="0">A1*$B$1+LOG10(A1)</f><v>1e25</v></c></row>'
        '<row r="2"><c t="b"><v>TRUE</v></c><c t="e"><v>#N/A</v></c><c t="s"><v>1</v></c>'
        '<c><f t="shared" si="0"/></c></row>'
        '<row r="4"><c r="C4" t="inlineStr"><is><t>a\tb_x005C_c\nd\u00e9</t></is></c>'
        '<c t="d"><v>2024-01-02T03:04:05</v></c><c t="str"><f>UPPER(C1)</f><v>NUT</v></c></row>'
    ),
    "xl/sharedStrings.xml": (
        '<sst><si><t> nut </t></si><si><r><t xml:space="preserve"> two </t></r><r><t>parts</t></r>'
        '<rPh sb="0" eb="1"><t>none</t></rPh></si></sst>'
    ),
}
MIXED_LINES = "".join(
    f"{position}\t{value}\t{formula}\t-\n"
    for position, value, formula in (
        ("A1", "n:0.1", "-"),
        ("B1", "n:-1500", "-"),
        ("C1", "s:nut", "-"),
        ("D1", "n:1E25", "=A1*$B$1+LOG10(A1)"),
        ("A2", "b:true", "-"),
        ("B2", "e:#N/A", "-"),
        ("C2", "s: two parts", "-"),
        ("D2", "-", "=A2*$B$1+LOG10(A2)"),
        ("C4", "s:a\\tb\\\\c\\nd\u00e9", "-"),
        ("D4", "i:2024-01-02T03:04:05", "-"),
        ("E4", "s:NUT", "=UPPER(C1)"),
    )
).encode()


def archive(parts, **how):
    """A zip archive with these parts, in this order."""
    held = io.BytesIO()
    with zipfile.ZipFile(held, "w", zipfile.ZIP_DEFLATED, **how) as made:
        for name, markup in parts.items() if isinstance(parts, dict) else parts:
            made.writestr(name, markup)
    return held.getvalue()


def part_text(name, markup, version):
    each = filter(None, FORMS[version](events([markup.encode()])))
    return f'{{"name":{spelled(name)},"events":[{",".join(each)}]}}'


def package_text(parts, version=1):
    """The package text of these parts, as bytes."""
    each = ",".join(part_text(*part, version) for part in parts.items())
    return f'{{"version":{version},"parts":[{each}]}}'.encode()
