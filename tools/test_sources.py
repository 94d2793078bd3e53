"""Tries the sources for what no clause can say: where want of memory is told of, where memory is
asked for by a number, and what bounds that, that each public type with `==` or copies has its law,
that functions and files are short enough to be read, that each word is defined once and imported
from where its crate passes it on, and that each example in a doc comment is code."""

import re
import unittest
from collections import defaultdict

from counts import FILE_LINES, FUNCTION_LINES
from definitions import definitions
from imports import changes
from sources import OF_TESTS, TOP, exported, functions_of, in_clauses, text

# Where want of memory is told of beside the conversions from the kit's own, and why it can be
# nothing else there: a file, its function and the lines that say so.
PASSED_ON = "a refusal of memory is passed on"
OF_WRITER = "a writer into memory fails only where memory is wanting"
TOLD = {
    ("attr_text/fault.rt", "fmt", 1): "its text",
    ("graph_reading/error.rt", "from", 2): PASSED_ON,
    ("inflate/fault.rt", "fmt", 1): "its text",
    ("inflate/stream.rt", "error_of", 1): PASSED_ON,
    ("input_package/input.rt", "into_memory", 1): PASSED_ON,
    ("input_package/reading.rt", "value_from", 1): "the reader of JSON says that it has none",
    ("input_package/reading.rt", "workbook_file_of", 1): PASSED_ON,
    ("json_rows/error.rt", "fmt", 1): "its text",
    ("list_archive/main.rt", "contents_line", 1): "its text",
    ("part_events/fault.rt", "fmt", 1): "its text",
    ("part_events/fault.rt", "from", 1): PASSED_ON,
    ("part_events/text.rt", "text_error", 1): PASSED_ON,
    ("workbook_file/workbook_file.rt", "open_part", 1): PASSED_ON,
    ("xlsx_areas/merged_parts.rt", "merges_or_none", 1): PASSED_ON,
    ("xlsx_commands/error.rt", "fmt", 1): "its text",
    ("xlsx_commands/error.rt", "from", 4): PASSED_ON,
    ("xlsx_commands/error.rt", "status", 1): "its status",
    ("xlsx_commands/resaved_file.rt", "file_of", 1): PASSED_ON,
    ("xlsx_commands/upgraded_text.rt", "upgraded_text", 1): PASSED_ON,
    ("xlsx_core/worksheet_list.rt", "ends_listing", 1): "it is asked for",
    ("xlsx_error/error.rt", "fmt", 1): "its text",
    ("xlsx_error/error.rt", "from", 2): PASSED_ON,
    ("csv_rows/error.rt", "fmt", 1): "its text",
    ("csv_rows/record.rt", "end_record", 1): OF_WRITER,
    ("csv_rows/record.rt", "write_bytes", 1): OF_WRITER,
    ("csv_rows/rows.rt", "written_rows", 1): OF_WRITER,
    ("zip_archive/opening.rt", "inflated_of_size", 1): PASSED_ON,
    ("xlsx_sections/decode.rt", "decode_at", 1): PASSED_ON,
    ("xlsx_sections/decode.rt", "push_text_at", 1): PASSED_ON,
    ("xlsx_tool/main.rt", "words_of", 2): "the system says that it has none for the words",
    ("xlsx_tool/run.rt", "package_from", 1): PASSED_ON,
}

# Where memory is asked for by a number, and what bounds that: what is held or written already,
# or a constant. None is what a file says of itself.
OF_TEXT = "the bytes of the text that is appended"
OF_EVENTS = "the texts of the event that is kept, and one or two events"
OF_CELLS = "the cells that are held"
OF_FORMULAS = "the formulas that are held"
RESERVED = {
    ("attr_text/line_ends.rt", "push_line_ends", 1): OF_TEXT,
    ("calculation_order/cycles.rt", "lists", 1): OF_FORMULAS,
    ("calculation_order/firsts.rt", "firsts_around", 1): OF_FORMULAS,
    ("calculation_order/plain_cycles.rt", "firsts_plainly", 1): OF_FORMULAS,
    ("calculation_order/turns.rt", "no_turns", 1): OF_FORMULAS,
    ("cell_data/gathered.rt", "sorted_of", 1): OF_CELLS,
    ("cell_refs/reference_text.rt", "push_reference", 1): "a reference of a worksheet, 10 bytes",
    ("decimals/decimal.rt", "push_to", 1): "the longest text of a decimal, 61 bytes",
    ("formula_shift/reference.rt", "push_to", 1): "a reference of a worksheet with two $, 12 bytes",
    ("part_events/stored.rt", "push", 2): OF_EVENTS,
    ("part_events/stored.rt", "push_empty", 2): OF_EVENTS,
    ("sorted_cells/sorted.rt", "push", 1): "the one cell that is pushed",
    ("sorted_cells/sorted.rt", "with_capacity", 2): "what its callers ask for, each of them here",
    ("xlsx_core/ranges.rt", "with_texts", 1): OF_CELLS,
    ("xlsx_core/ranges.rt", "written_out", 1): OF_CELLS,
    ("xlsx_core/shown_sheet.rt", "shown_texts", 1): OF_CELLS,
    ("xlsx_graph/leaves.rt", "arranged", 1): OF_FORMULAS,
    ("xlsx_graph/leaves.rt", "by_numbers", 1): OF_FORMULAS,
    ("xlsx_graph/leaves.rt", "places", 1): OF_FORMULAS,
    ("xlsx_graph/workbook_graph.rt", "asking", 1): OF_FORMULAS,
    ("xlsx_precedents/index.rt", "gather", 1): OF_FORMULAS,
    ("xlsx_precedents/spans.rt", "numbered", 1): "the areas of formulas that are held",
    ("xlsx_precedents/spans.rt", "spans_of", 1): "the areas of formulas that are held",
    ("xlsx_tool/sink.rt", "new", 1): "the room of a sink of tests, which its caller names",
}

ASKS = re.compile(r"\b(?:try_)?(?:with_capacity|reserve)\w*(?=\()")
FUNCTION = re.compile(r"\bfn (\w+)")
CONVERSION = re.compile(
    r"^impl(?:<[^>]*>)? From<Alloc(?:Error|Failed<\w+>)> for \w+ \{$.*?^\}$", re.M | re.S
)
ENUM = re.compile(r"^pub enum \w+ \{$.*?^\}$", re.M | re.S)
CLAUSE = re.compile(r"^\s*(?:ensures|requires|ghost)\b")
TYPE = re.compile(r"^((?:#\[.*\]\n)*)pub (?:struct|enum) (\w+)", re.M)
WRITTEN = re.compile(r"^impl\b.*?\b(PartialEq|Clone) for (\w+)", re.M)
LAW = re.compile(r"⟦<(\w+)(?:<[^⟧]*>)? as (PartialEq|Clone)>⟧")
# What a line of a doc comment begins with, and the line before and behind an example.
DOCS = ("///", "//!")
FENCE = "/// ```"


def crates():
    for folder in sorted((TOP / "crates").iterdir()):
        if not OF_TESTS.fullmatch(folder.name):
            yield folder


def without(pattern, code):
    """The code with what matches left empty, line for line."""
    return pattern.sub(lambda found: "\n" * found.group().count("\n"), code)


def without_clauses(code):
    """The code without comments and contracts, line for line."""
    rows = [re.sub(r"//.*", "", line) for line in code.splitlines()]
    left_out = in_clauses(rows, CLAUSE)
    return "\n".join("" if number in left_out else row for number, row in enumerate(rows))


def tells_of_memory(line):
    """Whether a line makes want of memory, or asks for it, and doesn't only name its type."""
    if re.match(r"\s*(?:pub )?use ", line):
        return False
    if re.search(r"\bOutOfMemory\b", line):
        return True
    bare = re.sub(r"[-=]>|:\s*AllocError\b", "", line)
    while (shorter := re.sub(r"<[^<>]*>", "", bare)) != bare:
        bare = shorter
    return bool(re.search(r"\bAllocError\b", bare))


def functions_with(test, name, code):
    """The functions that have lines of a kind, with how many."""
    counts = {}
    function = None
    for line in code.splitlines():
        if named := FUNCTION.search(line):
            function = named.group(1)
        if test(line):
            counts[name, function] = counts.get((name, function), 0) + 1
    return {(*place, count) for place, count in counts.items()}


def places_of(name, code):
    """The functions that tell of want of memory, with how many of their lines do."""
    code = without_clauses(without(ENUM, without(CONVERSION, code)))
    return functions_with(tells_of_memory, name, code)


def asking_places_of(name, code):
    """The functions that ask for memory by a number, with how many of their lines do."""
    return functions_with(ASKS.search, name, without_clauses(code))


def places(of):
    """The places of one of these kinds in the crates."""
    found = set()
    for folder in crates():
        for path in sorted((folder / "src").glob("*.rt")):
            if not path.stem.endswith("tests"):
                found |= of(f"{folder.name}/{path.name}", text(path))
    return found


def bare_lines(path):
    return [line.strip() for line in text(path).splitlines()]


def examples(lines):
    """The examples in doc comments, each as its lines. One that nothing ends has all lines left."""
    example = None
    for line in lines:
        if example is None:
            example = [] if line == FENCE else None
        elif line == FENCE:
            yield example
            example = None
        else:
            example.append(line[len("///") :].strip())
    if example is not None:
        yield example


def coded(lines):
    """The lines as one text, in which those of doc comments can't be part of an example."""
    return "".join(f"\n{'///' if line.startswith(DOCS) else line}" for line in [*lines, ""])


def stands_in(example, code):
    """Whether all lines of an example stand in a code, one directly behind the other."""
    return "".join(f"\n{line}" for line in [*example, ""]) in code


class Sources(unittest.TestCase):
    def test_want_of_memory_is_told_of_in_these_places_alone(self):
        self.assertEqual(places(places_of), set(TOLD))

    def test_memory_is_asked_for_by_a_number_in_these_places_alone(self):
        self.assertEqual(places(asking_places_of), set(RESERVED))
        body = "fn wide(count: u32) -> Result<(), AllocError> {\n    %s\n}\n"
        asked = ("Vec::with_capacity(alloc, n)?", "out.reserve(n)?", "out.try_reserve_exact(n)")
        for made in asked:
            self.assertEqual(asking_places_of("x.rt", body % made), {("x.rt", "wide", 1)}, made)
        for plain in ("out.push(n)?", "// out.reserve(n)", "let reserve = n;"):
            self.assertEqual(asking_places_of("x.rt", body % plain), set(), plain)

    def test_a_refusal_of_memory_that_is_made_up_is_found(self):
        body = "fn wide(row: u32) -> Result<(), AllocError> {\n    %s\n}\n"
        for made in ("Err(AllocError)", "return Err(E::OutOfMemory);", "let a = AllocError;"):
            self.assertEqual(places_of("x.rt", body % made), {("x.rt", "wide", 1)}, made)
        for plain in ("Ok(())", "take(row)?;\n    // Err(AllocError)", "let a: AllocError = b;"):
            self.assertEqual(places_of("x.rt", body % plain), set(), plain)

    def test_imports_are_as_short_as_they_can_be(self):
        self.assertEqual([path.relative_to(TOP).as_posix() for path, _ in changes()], [])

    def test_a_word_is_defined_once(self):
        found = defaultdict(set)
        for own in definitions():
            found[own.name].add(own.path.as_posix())
        self.assertEqual({name: paths for name, paths in found.items() if len(paths) > 1}, {})

    def test_functions_and_files_are_short(self):
        found = []
        for folder in crates():
            for path in sorted((folder / "src").glob("*.rt")):
                code = text(path)
                name = f"{folder.name}/{path.name}"
                self.assertLessEqual(len(code.splitlines()), FILE_LINES, name)
                if not path.stem.endswith("tests"):
                    functions = functions_of(code)
                    own_lines = [(own.name, own.head + (own.body or 0)) for own in functions]
                    found += [(name, *own) for own in own_lines]
        self.assertGreater(len(found), 1500)
        self.assertEqual([own for own in found if own[-1] > FUNCTION_LINES], [])

    def test_public_types_with_equality_or_copies_have_their_laws(self):
        for folder in crates():
            root = folder / "src" / "lib.rt"
            if not root.exists():
                continue
            public = exported(text(root))
            sources = {path: text(path) for path in sorted((folder / "src").glob("*.rt"))}
            laws = {law for code in sources.values() for law in LAW.findall(code)}
            for path, code in sources.items():
                wanted = {
                    (name, trait)
                    for derives, name in TYPE.findall(code)
                    for trait in ("PartialEq", "Clone")
                    if re.search(rf"derive\([^)]*\b{trait}\b", derives)
                }
                wanted |= {(name, trait) for trait, name in WRITTEN.findall(code)}
                absent = {law for law in wanted if law[0] in public} - laws
                self.assertEqual(absent, set(), path.name)

    def test_every_example_stands_in_code(self):
        sources = {path: bare_lines(path) for path in sorted(TOP.glob("crates/*/src/*.rt"))}
        codes = [coded(lines) for lines in sources.values()]
        found = [(path.name, one) for path, lines in sources.items() for one in examples(lines)]
        self.assertGreaterEqual(len(found), 20)
        for name, example in found:
            stands = any(stands_in(example, code) for code in codes)
            self.assertTrue(example and stands, "\n".join([f"{name}: no code is", *example]))

    def test_an_example_that_is_no_code_is_found(self):
        code = ["fn one() {", "let a = 1;", "/// a doc", "let b = 2;", "", "a + b", "}"]
        doc = ["/// Adds.", FENCE, "/// let b = 2;", "///", "///     a + b", FENCE, "fn two() {}"]
        self.assertEqual(list(examples(doc)), [["let b = 2;", "", "a + b"]])
        self.assertEqual(list(examples(doc[:4])), [["let b = 2;", ""]])
        self.assertTrue(stands_in(["let b = 2;", "", "a + b"], coded(code)))
        for other in (["let b = 2;", "a + b"], ["let a = 1;", "let b = 2;"], ["a +"], ["a doc"]):
            self.assertFalse(stands_in(other, coded(code + doc)), other)


if __name__ == "__main__":
    unittest.main()
