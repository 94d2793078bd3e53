"""Tries the counts of tools/counts.py on a small repository that is made for it."""

import pathlib
import tempfile
import unittest

from counts import documents, lines_of, loops, of_heads, printed
from sources import functions_of

FILES = {
    "crates.txt": "# texts\nplain:\n\n# parts\nxlsx_sections:\nxlsx_core: xlsx_sections\n"
    "\n# tests\ntests_parts: xlsx_core\n",
    "crates/plain/src/lib.rt": """//! Functions of each kind.

ghost use Rattle.std.specs.Prelude.{◌≡◌};

/// A law.
pub fn law(x: u8)
    ensures none { 0 ≡ 0 }
{}

fn one(x: u8) -> u8
    ensures { IsOne (record {
        y = x;
    }) }
{
    x
}

pub(crate) fn two(x: u8) -> u8 {
    let y = x;
    y
}

trait Taken {
    fn none(&self)
        ensures { 0 ≡ 0 };

    fn some(
        &self,
        text: &str,
        more: &str,
    ) -> u8
        requires { 0 ≡ 0 }
    {
        let first = "{";

        let second = text.len();
        // a comment
        more.len() + second
    }
}
""",
    "crates/plain/src/tests.rt": "fn tried() {\n    1\n}\n",
    "crates/plain/specs/Lib.antt": f"-- a comment\npub mod Own\n\n-- {'wide' * 30}\n",
    "crates/plain/proofs/walk/Invariants.antt": "one\n",
    "crates/xlsx_sections/proofs/walk/Invariants.antt": "one\ntwo\n\n",
    "crates/xlsx_sections/proofs/walk/Answers.antt": "one\n",
    "crates/xlsx_sections/proofs/straight/Answers.antt": "one\n",
    "crates/xlsx_core/proofs/Reads/next/Invariants.antt": "one\ntwo\nthree\nfour\nfive\n",
    "crates/tests_parts/src/lib.rt": "fn tests_parts() {\n    1\n}\n",
    "README.md": "one\n",
    "CONTRIBUTING.md": "one\ntwo\n",
    "docs/FORMAT.md": "one\n\ntwo\n",
}


class Counts(unittest.TestCase):
    def setUp(self):
        folder = tempfile.TemporaryDirectory()
        self.addCleanup(folder.cleanup)
        self.top = pathlib.Path(folder.name)
        for name, text in FILES.items():
            path = self.top / name
            path.parent.mkdir(parents=True, exist_ok=True)
            path.write_text(text, encoding="utf-8")

    def test_functions_have_a_head_and_a_body(self):
        code = FILES["crates/plain/src/lib.rt"]
        found = [own for own in functions_of(code) if own.body is not None]
        counts = [(own.name, own.head, own.body) for own in found]
        self.assertEqual(counts, [("law", 2, 0), ("one", 4, 1), ("two", 1, 2), ("some", 6, 5)])
        some, three, bodies = of_heads(found)
        self.assertEqual(some, "functions: 4, heads longer than the body: 3, 75 of 100")
        longer = "heads longer than the body: 1, 100 of 100"
        self.assertEqual(three, f"functions with bodies of at least 3 lines: 1, {longer}")
        self.assertEqual(bodies, "lines of those bodies: none 1, one 1, two 0, more 1")

    def test_lines_are_of_their_kinds(self):
        wanted = {"code": 23, "clauses": 6, "specs": 1, "proofs": 1, "long": 1}
        self.assertEqual(dict(lines_of(self.top / "crates" / "plain")), wanted)

    def test_loops_are_those_of_crates_that_read_parts(self):
        wanted = [("xlsx_core/proofs/Reads/next", 5, 0), ("xlsx_sections/proofs/walk", 3, 1)]
        self.assertEqual(loops(self.top), wanted)

    def test_documents_are_counted(self):
        wanted = [("README.md", 1), ("CONTRIBUTING.md", 2), ("FORMAT.md", 3)]
        self.assertEqual(list(documents(self.top)), wanted)

    def test_all_is_printed_without_tests(self):
        text = "\n".join(printed(self.top))
        for line in (
            "functions over 40 lines with their heads: 0",
            "files over 800 lines: 0",
            "     5     5     0  xlsx_core/proofs/Reads/next",
            "     9  in all, of 2",
            "     6  lines of documents",
        ):
            self.assertIn(f"{line}\n", f"{text}\n")
        self.assertNotIn("tests_parts", text)


if __name__ == "__main__":
    unittest.main()
