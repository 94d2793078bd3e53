#!/usr/bin/env python3
"""Runs ./xlsx on package texts of about a megabyte that ask for much memory, and prints what each
took (docs/PERFORMANCE.md). None may end by a signal."""

import argparse
import os
import shutil
import tempfile

from cells import FRAME, cell_events, text_child
from measure import (
    OFFICE,
    TOP,
    build,
    end,
    mib,
    ran,
    relationships,
    start,
    table,
    write_part,
)

# The length of a text that is written once, and of a shorter one.
LONG, SHORT = 500_000, 150_000
SHEETS, STYLES, CELLS, DERIVED = 13_000, 13_000, 7_000, 6_000

# The MiB of address space that ./xlsx gives the program where it isn't told otherwise.
GIVEN = 4096
OUT_OF_MEMORY = 8

# The least status by which a shell tells of a signal.
SIGNAL = 128


def element(name, attributes="", *inside):
    """An element with these events in it, one list of events behind the other."""
    yield start(name, attributes)
    for events in inside:
        yield from events
    yield end(name)


def sheet_part(*rows):
    data = element("sheetData", "", *rows)
    return "xl/worksheets/sheet1.xml", element("worksheet", "", data)


def first_sheet():
    return sheet_part(element("row", "", cell_events("", text_child("v", "1"))))


def workbook_of(folder, target):
    """A workbook in this folder, all of whose sheets have the one target."""
    yield "_rels/.rels", relationships([("officeDocument", f"{folder}workbook.xml")])
    yield f"{folder}_rels/workbook.xml.rels", relationships([("worksheet", target)])
    sheets = (element("sheet", f' name="S{n}" r:id="rId1"') for n in range(SHEETS))
    yield f"{folder}workbook.xml", element("workbook", "", element("sheets", "", *sheets))


def styles_of(kind, *lists):
    """A workbook with styles, each of which names the first of a list."""
    yield from FRAME
    formats = (element("xf", f' {kind}') for _ in range(STYLES))
    yield "xl/styles.xml", element("styleSheet", "", *lists, element("cellXfs", "", *formats))
    yield first_sheet()


def font_names():
    font = element("font", "", element("name", f' val="{"n" * LONG}"'))
    return styles_of('fontId="0"', element("fonts", "", font))


def format_codes():
    attributes = f' numFmtId="200" formatCode="{"0" * LONG}"'
    return styles_of('numFmtId="200"', element("numFmts", "", element("numFmt", attributes)))


def shared_string(position):
    """A shared string in many cells, at positions by their number."""
    yield from FRAME
    text = element("si", "", element("t", "", [["t", "s" * LONG]]))
    yield "xl/sharedStrings.xml", element("sst", "", text)
    cells = (
        cell_events(f' r="{position(n)}" t="s"', text_child("v", "0"))
        for n in range(1, CELLS + 1)
    )
    yield sheet_part(element("row", "", *cells))


def master(position):
    """A shared formula in many cells, at positions by their number."""
    yield from FRAME
    text = "+".join(["A1"] * (LONG // 3))
    shared = ' t="shared" si="0"'
    first = cell_events(' r="A1"', text_child("f", text, f'{shared} ref="A1"'))
    cells = (
        cell_events(f' r="{position(n)}"', ("f", shared, [])) for n in range(2, DERIVED + 2)
    )
    yield sheet_part(element("row", "", first, *cells))


def one_cell(_):
    return "A2"


def own_cell(number):
    return f"A{number}"


# What is named often, the command that names it, and the parts.
PACKAGES = [
    ("a sheet's target", "sheets", lambda: workbook_of("xl/", "t" * LONG)),
    ("the workbook's folder", "sheets", lambda: workbook_of("f" * SHORT + "/", "t")),
    ("a font's name", "cells S", font_names),
    ("a format's code", "cells S", format_codes),
    ("a shared string, at one position", "cells S", lambda: shared_string(one_cell)),
    ("a shared string, each with its line", "cells S", lambda: shared_string(own_cell)),
    ("a master, at one position", "cells S", lambda: master(one_cell)),
    ("a master, each with its line", "cells S", lambda: master(own_cell)),
]

# Texts that are JSON and no package.
TEXTS = [
    ("objects that nest too deep", '{"":' * 250_000 + "1" + "}" * 250_000),
    ("objects inside one another", "[" + ",".join(['{"":' * 120 + "1" + "}" * 120] * 2_000) + "]"),
    ("objects side by side", "[" + ",".join(['{"":1}'] * 160_000) + "]"),
    ("events of one word", '{"version":1,"parts":[{"name":"p","events":['
        + ",".join(['["o"]'] * 180_000) + "]}]}"),
]


def write_package(path, parts):
    with open(path, "w", encoding="ascii", newline="") as out:
        out.write('{"version":1,"parts":[')
        for place, (name, events) in enumerate(parts):
            out.write("," if place else "")
            write_part(out, name, events)
        out.write("]}")


def inputs(path):
    """Writes each input in turn, and tells its name and the words of its command."""
    for name, words, parts in PACKAGES:
        write_package(path, parts())
        yield name, words
    for name, text in TEXTS:
        with open(path, "w", encoding="ascii", newline="") as out:
            out.write(text)
        yield name, "sheets"


def row_of(name, words, path, limits):
    cells = [name, f"{os.path.getsize(path):,}"]
    for limit in limits:
        given = [shutil.which("env"), f"XLSX_MEMORY={limit}", str(TOP / "xlsx"), *words.split()]
        ended, run = ran(given, path, stderr=os.devnull)
        assert 0 <= ended < SIGNAL, f"{name}: ended by a signal, with {ended}"
        cells += ["out of memory" if ended == OUT_OF_MEMORY else str(ended)]
        cells += [f"{run.seconds:.1f}", mib(run.peak)]
    return cells


def main():
    parser = argparse.ArgumentParser(description=__doc__)
    parser.add_argument(
        "--unbound",
        action="store_true",
        help="measure without a limit, too: it takes up to 7 GiB",
    )
    asked = parser.parse_args()
    build()
    limits = [GIVEN, 0] if asked.unbound else [GIVEN]
    head = ["named often", "bytes"]
    for limit in limits:
        head += [f"within {limit} MiB" if limit else "unbound", "seconds", "peak MiB"]
    with tempfile.TemporaryDirectory() as folder:
        path = os.path.join(folder, "package.json")
        rows = [row_of(*one, path, limits) for one in inputs(path)]
    table(head, rows)


if __name__ == "__main__":
    main()
