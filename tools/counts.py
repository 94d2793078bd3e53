#!/usr/bin/env python3
"""Prints how the house stands, over the crates that are no tests: heads and bodies of functions,
the proofs of loops in the crates that read parts, and lines.

counts.py                         at the top of the repository

A head is the signature of a function with its clauses, and a body what stands between its braces.
Crates of tests are those behind the line `# tests` of crates.txt. Of loops the lines of invariants
and of answers are counted, all of them; of code, clauses, definitions and proofs those that are
neither empty nor a comment, without tests and without what code imports for its clauses.
"""

import sys
from collections import Counter

from sources import TOP, crates, functions_of, in_clauses, is_of_tests

# What is to be long at most: a function with its head, a file and a line.
FUNCTION_LINES = 40
FILE_LINES = 800
COLUMNS = 100
# The first and the last of the crates that read parts.
READERS = ("xlsx_sections", "xlsx_core")

KINDS = ("code", "clauses", "specs", "proofs", "long")


def sources(folder, *ends):
    """The written files of a crate that end so, each with its text."""
    for path in sorted(folder.rglob("*")):
        if path.suffix in ends and path.relative_to(folder).parts[0] in ("src", "specs", "proofs"):
            yield path, path.read_text(encoding="utf-8")


def lines_of(folder):
    """How many lines of each kind a crate has."""
    count = Counter()
    for path, code in sources(folder, ".rt", ".antt"):
        rows = code.splitlines()
        count["long"] += sum(len(row) > COLUMNS for row in rows)
        kind = path.relative_to(folder).parts[0]
        clauses = in_clauses(rows) if kind == "src" else ()
        for number, row in enumerate(rows):
            bare = row.strip()
            if not bare or bare.startswith(("//", "--")) or is_of_tests(path):
                continue
            if kind != "src":
                count[kind] += 1
            elif number in clauses:
                count["clauses"] += 1
            elif not bare.startswith("ghost "):
                count["code"] += 1
    return count


def loops(top=TOP):
    """Of each function with a loop, in the crates that read parts, its place and how many lines its
    invariants and its answers have, most lines first."""
    names = list(crates(top))
    first, last = ([name for name, _ in names].index(own) for own in READERS)
    found = []
    for name, below in names[first : last + 1]:
        if name != READERS[0] and READERS[0] not in below:
            continue
        for path in (top / "crates" / name / "proofs").rglob("Invariants.antt"):
            both = [own for own in (path, path.with_name("Answers.antt")) if own.exists()]
            counts = [len(own.read_text(encoding="utf-8").splitlines()) for own in both]
            place = path.parent.relative_to(top / "crates").as_posix()
            found.append((place, counts[0], sum(counts[1:])))
    return sorted(found, key=lambda own: (-own[1] - own[2], own[0]))


def documents(top=TOP):
    """The documents, each with how many lines it has."""
    for path in (top / "README.md", top / "CONTRIBUTING.md", *sorted((top / "docs").glob("*.md"))):
        yield path.name, len(path.read_text(encoding="utf-8").splitlines())


def of_heads(functions):
    """The lines that tell of the heads of functions, and of bodies that are shorter."""
    for least in (0, 3):
        some = [own for own in functions if own.body >= least]
        longer = sum(own.head > own.body for own in some)
        title = f"functions with bodies of at least {least} lines" if least else "functions"
        share = round(100 * longer / len(some)) if some else 0
        yield f"{title}: {len(some)}, heads longer than the body: {longer}, {share} of 100"
    bodies = Counter(min(own.body, 3) for own in functions if own.head > own.body)
    each = zip(("none", "one", "two", "more"), range(4))
    yield "lines of those bodies: " + ", ".join(f"{word} {bodies[size]}" for word, size in each)


def printed(top=TOP):
    """All lines that are printed."""
    names = [name for name, _ in crates(top)]
    functions, files = [], []
    for name in names:
        for path, code in sources(top / "crates" / name, ".rt"):
            files.append(len(code.splitlines()))
            if not is_of_tests(path):
                functions += [own for own in functions_of(code) if own.body is not None]
    yield from of_heads(functions)
    over = sum(own.head + own.body > FUNCTION_LINES for own in functions)
    yield f"functions over {FUNCTION_LINES} lines with their heads: {over}"
    yield f"files over {FILE_LINES} lines: {sum(lines > FILE_LINES for lines in files)}"

    found = loops(top)
    yield from ("", "loops of the crates that read parts: lines of invariants and of answers")
    yield from (f"{one + two:6} {one:5} {two:5}  {place}" for place, one, two in found)
    yield f"{sum(one + two for _, one, two in found):6}  in all, of {len(found)}"

    count = {name: lines_of(top / "crates" / name) for name in names}
    count["in all"] = sum(count.values(), Counter())
    yield from ("", f"{'lines':20}" + "".join(f"{kind:>9}" for kind in KINDS))
    for name, own in count.items():
        yield f"{name:20}" + "".join(f"{own[kind]:9}" for kind in KINDS)
    yield f"long: over {COLUMNS} columns"

    pages = list(documents(top))
    yield from ("", *(f"{lines:6}  {name}" for name, lines in pages))
    yield f"{sum(lines for _, lines in pages):6}  lines of documents"


if __name__ == "__main__":
    if sys.argv[1:]:
        sys.exit("counts.py takes no words")
    print("\n".join(printed()))
