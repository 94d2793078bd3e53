"""Packages of parts whose markup may hold events that no markup spells, as in crates/test_packages.

A tag that begins with `!` is such an event: `<!>` nests nothing and says nothing, `<!text>` is an
empty text, `<!data>` the character data `x`, `<!flaw>` a flaw, and any other a reference of that
name. A tag ends at the first `>`, also in quotes.
"""

import json

TYPES = "http://schemas.openxmlformats.org/officeDocument/2006/relationships/"
SPECIAL = {"": ["o"], "text": ["t", ""], "data": ["d", "x"], "flaw": ["x"]}

ROOT_NAME = "_rels/.rels"
RELATIONSHIPS_NAME = "xl/_rels/workbook.xml.rels"
WORKBOOK_NAME = "xl/workbook.xml"
STRINGS_NAME = "xl/sharedStrings.xml"
SHEET_NAME = "xl/worksheets/sheet1.xml"


def related(kind, target):
    return (
        f'<Relationships><Relationship Id="rId1" Type="{TYPES}{kind}" Target="{target}"/>'
        "</Relationships>"
    )


def with_data(data):
    """The part of a sheet with these data."""
    return f"<worksheet><sheetData>{data}</sheetData></worksheet>"


# The parts of the smallest workbook: its one sheet, `S`, has the text `nut` in A1.
ROOT = (ROOT_NAME, related("officeDocument", "xl/workbook.xml"))
RELATIONSHIPS_MARKUP = related("worksheet", "worksheets/sheet1.xml")
RELATIONSHIPS = (RELATIONSHIPS_NAME, RELATIONSHIPS_MARKUP)
WORKBOOK = (
    WORKBOOK_NAME,
    '<workbook><sheets><sheet name="S" sheetId="1" r:id="rId1"/></sheets></workbook>',
)
SHEET = (SHEET_NAME, with_data('<row r="1"><c r="A1" t="str"><v>nut</v></c></row>'))
SMALLEST = [ROOT, RELATIONSHIPS, WORKBOOK, SHEET]


def events_of(markup):
    """The events of noted markup."""
    events = []
    for piece in markup.split("<")[1:]:
        tag, _, text = piece.partition(">")
        is_end = tag[:1] == "/"
        name, space, attributes = (tag, "", "") if is_end else tag.rstrip("/").partition(" ")
        if tag.startswith("!"):
            events.append(SPECIAL.get(tag[1:], ["r", tag[1:]]))
        elif tag.startswith("/"):
            events.append(["e", tag[1:]])
        else:
            events.append(["s", name, space + attributes])
            events += [["e", name]] if tag.endswith("/") else []
        events += [["t", text]] if text else []
    return events


def package_of(parts):
    """The package text of these parts, each a name and noted markup, as bytes."""
    each = [{"name": name, "events": events_of(markup)} for name, markup in parts]
    has_flaw = any(["x"] in part["events"] for part in each)
    return json.dumps({"version": 2 if has_flaw else 1, "parts": each}).encode()


def package_cut(part, count, *parts):
    """That of the smallest workbook with the first events of a part, and others, in front."""
    name, markup = part
    package = json.loads(package_with(*parts))
    front = {"name": name, "events": events_of(markup)[:count]}
    return json.dumps({"version": 1, "parts": [front, *package["parts"]]}).encode()


def package_with(*parts):
    """That of the smallest workbook with these parts in front."""
    return package_of([*parts, *SMALLEST])


def refused(*texts):
    """What a run ends with that is refused by one of these texts."""
    return [(6, b"", f"{text}\n".encode()) for text in texts]


def told(wanted):
    """What a run may end with: that of lines, or that of a refusal."""
    return [(0, wanted.encode(), b"")] if isinstance(wanted, str) else wanted
