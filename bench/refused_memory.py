#!/usr/bin/env python3
"""Runs `cells Sales`, `upgrade`, `resave Sales` and `resave Sales --xlsx` over the shipped package,
`sample 5`, and each other command over a sample workbook, with its first allocation refused, then
with its second, and so on, until none is left to refuse. Each of these runs must end with the
status and the text of want of memory and print nothing, and the last one must print the stored
lines."""

import argparse
import os
import subprocess
import sys
import tempfile

from measure import TOP, add_program, program_of

TOOL = TOP / "crates" / "xlsx_tool"
SAMPLES = TOP / "samples"

# The words of each command, the workbook that it is run on, and the file of its lines.
COMMANDS = [
    (["sheets"], "chart_sheet", "chart_sheet.sheets"),
    (["names"], "chart_sheet", "chart_sheet.names"),
    (["csv", "libreoffice"], "libreoffice", "libreoffice.csv"),
    (["precedents", "Sales"], "shared_formulas", "shared_formulas.precedents"),
    (["dependents", "Sales", "B4"], "shared_formulas", "shared_formulas.dependents"),
    (["graph"], "graph", "graph.graph"),
    (["order"], "graph", "graph.order"),
    (["cycles"], "graph", "graph.cycles"),
    (["dependents", "It's", "A1", "--all"], "graph", "graph.dependents"),
    (["check", "libreoffice"], "libreoffice", "libreoffice.check"),
    (["merges", "S"], "tables_links_and_merges", "tables_links_and_merges.merges"),
    (["links", "S"], "tables_links_and_merges", "tables_links_and_merges.links"),
    (["comments", "Goods"], "comments", "comments.comments"),
    (["widths", "libreoffice"], "libreoffice", "libreoffice.widths"),
    (["props"], "tables_links_and_merges", "tables_links_and_merges.props"),
    (["tables"], "tables", "tables.tables"),
    (["table", "Sales"], "tables", "tables.table"),
    (["csv-table", "Sales"], "tables", "tables.csv_table"),
    (["csv-table", "Sales", "--shown"], "tables", "tables.csv_table"),
    (["pivots"], "pivot_table", "pivot_table.pivots"),
    (["pivot", "Report", "Sold & paid"], "pivot_table", "pivot_table.pivot"),
]

# The shipped package in version 2.
UPGRADED = TOP / "tools" / "shipped.upgraded.json"

# What is written of its sheet.
RESAVED = TOP / "tools" / "shipped.resaved.json"

SAMPLE_LINES = b"cells 15\nformulas 5\nstyled 3\nruns 5\nlast B5 =A5*2\n"

# Loaded before the C library, this stands in for the calls by which the program asks for memory. It
# refuses the one with the number REFUSED and then writes a byte to the descriptor TOLD. All others
# go on to the C library.
SOURCE = """\
#include <stdlib.h>
#include <unistd.h>

extern void *__libc_malloc(size_t size);
extern void *__libc_calloc(size_t count, size_t size);
extern void *__libc_realloc(void *block, size_t size);

static unsigned long left;
static int told;

__attribute__((constructor)) static void begin(void) {
    left = strtoul(getenv("REFUSED"), NULL, 10);
    told = atoi(getenv("TOLD"));
}

static int refuses(void) {
    return left > 0 && --left == 0 && write(told, "!", 1) == 1;
}

void *malloc(size_t size) { return refuses() ? NULL : __libc_malloc(size); }
void *calloc(size_t count, size_t size) { return refuses() ? NULL : __libc_calloc(count, size); }
void *realloc(void *block, size_t size) { return refuses() ? NULL : __libc_realloc(block, size); }
"""

OUT_OF_MEMORY = (8, b"", b"out of memory\n")


def compiled(folder):
    library = os.path.join(folder, "refusing.so")
    words = [os.environ.get("CC", "cc"), "-shared", "-fPIC", "-O1", "-x", "c", "-", "-o", library]
    subprocess.run(words, input=SOURCE.encode(), check=True)
    return library


def run(words, text, library, number):
    """Whether an allocation with this number was refused; and the status, standard output and
    standard error."""
    with open(text, "rb") as package, tempfile.TemporaryFile() as told:
        given = {"LD_PRELOAD": library, "REFUSED": str(number), "TOLD": str(told.fileno())}
        ended = subprocess.run(
            words,
            stdin=package,
            capture_output=True,
            env=given,
            pass_fds=[told.fileno()],
            timeout=60,
        )
        refused = os.fstat(told.fileno()).st_size > 0
    return refused, (ended.returncode, ended.stdout, ended.stderr)


def demand(wanted, found, number):
    if found != wanted:
        sys.exit(f"refused_memory.py: run {number} gave {found} in place of {wanted}")


def refuse_each(words, text, lines, library):
    number = 1
    refused, found = run(words, text, library, number)
    while refused:
        demand(OUT_OF_MEMORY, found, number)
        number += 1
        refused, found = run(words, text, library, number)
    demand((0, lines, b""), found, number)
    print(f"{' '.join(words[1:])}: {number - 1} allocations", flush=True)


def unrefused(words, text):
    """What a run prints to which nothing is refused."""
    with open(text, "rb") as package:
        return subprocess.run(words, stdin=package, capture_output=True, check=True).stdout


def text_of(book, folder):
    """The package text of a sample workbook, in a file."""
    text = os.path.join(folder, f"{book}.json")
    reader = TOP / "tools" / "reading" / "package_text.py"
    words = [sys.executable, reader, SAMPLES / f"{book}.xlsx"]
    with open(text, "wb") as out:
        subprocess.run(words, stdout=out, check=True)
    return text


def main():
    parser = argparse.ArgumentParser(description=__doc__)
    add_program(parser)
    program = program_of(parser.parse_args())
    with tempfile.TemporaryDirectory() as folder:
        library = compiled(folder)
        words = [program, *(TOOL / "args").read_text().split()]
        refuse_each(words, TOOL / "stdin", (TOOL / "stdout").read_bytes(), library)
        refuse_each([program, "upgrade"], TOOL / "stdin", UPGRADED.read_bytes(), library)
        refuse_each([program, "resave", "Sales"], TOOL / "stdin", RESAVED.read_bytes(), library)
        words = [program, "resave", "Sales", "--xlsx"]
        refuse_each(words, TOOL / "stdin", unrefused(words, TOOL / "stdin"), library)
        refuse_each([program, "sample", "5"], os.devnull, SAMPLE_LINES, library)
        for words, book, name in COMMANDS:
            lines = (SAMPLES / f"{name}.lines").read_bytes()
            refuse_each([program, *words], text_of(book, folder), lines, library)
    print("each refused in a run of its own, and each told as want of memory")


if __name__ == "__main__":
    main()
