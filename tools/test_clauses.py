"""Tries that what each crate hands out has a comment and clauses, and how tools/clauses.py lists
them, on a small repository that is made for it."""

import pathlib
import re
import tempfile
import unittest

import clauses
from clauses import edits, first_sentence, labelled, lines_of, printed, tests_of
from sources import TOP, calls_of, comment_above, crates, text

# What has no clause: registers that `are_tables` tells of by their type, and the calls of a trait
# whose clauses stand at its impl.
WITHOUT_CLAUSES = {
    "Tables::new",
    "ExcelDates::is_datetime",
    "ExcelDates::is_duration",
    "ExcelDates::has_moment",
    "ExcelDates::to_ymd_hms_milli",
    "ExcelDates::push_iso",
}

ROOT = """//! Steps of a count. And more.
#![tactic(auto)]

mod count;

pub use count::{Count, Counted, counts_rise};
"""
COUNT = """ghost use Rattle.std.specs.Prelude.{◌≡◌, IsTrue};
ghost use Rattle.plain.specs.Count.{
    count_of, IsCount,
};

/// What counts, as `i.e.` a
/// clock. It never stops.
#[derive(Clone)]
pub struct Count {
    count: u8,
    ghost within: { IsTrue (count_of count) },
}

/// A count.
pub trait Counted {
    /// The count, from 0.
    fn count(&self) -> u8
        ensures { IsCount result };
}

impl Counted for Count {
    ghost use Rattle.std.specs.Prelude.{Some};

    fn count(&self) -> u8
        ensures { IsCount result }
        ensures again { result ≡ count_of self.now }
    {
        self.inside()
    }
}

impl Count {
    /// Makes one
    /// more.
    pub fn next_count(&mut self) -> u8
        requires { IsTrue (count_of self.old) }
        ensures ok {
            IsCount result
        }
    {
        self.count + 1
    }

    fn inside(&self) -> u8 {
        self.count
    }
}

impl fmt::Display for Count {
    ghost output = { λ count. Some (count_of count) };

    fn fmt(&self) -> fmt::Result {
        Ok(())
    }
}

/// A count rises.
pub fn counts_rise()
    ensures { count_of 0 ≡ 0 }
{}

/// This one is not handed out.
pub fn other() {}
"""
TESTS = """#[test]
fn counts_are_made() {
    assert(made());
}

fn made() -> u8 {
    Count::new().next_count()
}
"""


class Clauses(unittest.TestCase):
    def test_what_is_handed_out_has_a_comment_and_clauses(self):
        bare, count = set(), 0
        for crate, _ in crates():
            for call in calls_of(crate):
                count += 1
                path = call.path.name
                self.assertTrue(call.comment or " for " in call.owner, f"{path}: {call.spoken}")
                if not any(ensured for ensured, _, _ in call.clauses):
                    bare.add(call.spoken)
        self.assertEqual(bare, WITHOUT_CLAUSES)
        self.assertGreater(count, 850)

    def test_every_edit_is_listed_with_what_it_changes(self):
        self.assertEqual([own.name for own in edits() if not own.changed], [])
        listed = "\n".join(printed(sorted({own.crate for own in edits()})))
        self.assertEqual([own.name for own in edits() if own.name not in listed], [])

    def test_the_page_shows_what_is_listed(self):
        page = text(TOP / "docs" / "CLAUSES.md")
        found = re.search(r"\$ python3 tools/clauses.py (\w+)\n(.*?)\n```", page, re.S)
        word, shown = found.groups()
        listed = "\n".join(printed([word])).strip("\n")
        self.assertEqual(listed[: len(shown)], shown)

    def small(self):
        """The calls of a small crate."""
        folder = tempfile.TemporaryDirectory()
        self.addCleanup(folder.cleanup)
        top = pathlib.Path(folder.name)
        for name, code in (("lib", ROOT), ("count", COUNT), ("tests", TESTS)):
            path = top / "crates" / "plain" / "src" / f"{name}.rt"
            path.parent.mkdir(parents=True, exist_ok=True)
            path.write_text(code, encoding="utf-8")
        return list(calls_of("plain", top))

    def test_calls_are_told_with_their_types_and_clauses(self):
        calls = {call.spoken: call for call in self.small()}
        wanted = {
            "Count": ["within (count_of)"],
            "Counted::count": ["ensures (IsCount)"],
            "Counted for Count::count": ["ensures (IsCount)", "again (count_of)"],
            "Count::next_count": ["ok (IsCount)"],
            "Display for Count": ["output (count_of)"],
            "counts_rise": ["ensures (count_of)"],
        }
        found = {name: list(labelled(call, True)) for name, call in calls.items()}
        self.assertEqual(found, wanted)
        self.assertEqual(list(calls), list(wanted))
        self.assertEqual(list(labelled(calls["Count::next_count"], False)), ["(count_of)"])
        self.assertEqual(calls["Count"].comment, "What counts, as `i.e.` a\nclock. It never stops.")
        lines = list(lines_of(calls["Count::next_count"]))
        wanted = ["  Count::next_count: Makes one more.", "    ok (IsCount); requires (count_of)"]
        self.assertEqual(lines[:2], wanted)

    def test_a_comment_begins_with_a_sentence(self):
        self.assertEqual(first_sentence("One, as\nin `a.b`. Two."), "One, as in `a.b`.")
        self.assertEqual(first_sentence("The text\nof 18.3. or\n\nmore"), "The text of 18.3. or")
        rows = ["/// One", "/// two.", "#[derive(", "    Clone,", ")]", "struct A;", "fn b() {}"]
        self.assertEqual(comment_above(rows, 5), "One\ntwo.")
        self.assertEqual(comment_above(rows, 6), "")

    def test_tests_are_found_by_what_they_call(self):
        words = dict(clauses.words_of_tests(TESTS))
        self.assertIn("next_count", words["counts_are_made"])
        named = {call.spoken: call for call in calls_of("cell_refs")}
        self.assertEqual(tests_of(named["column_number_to_name"]), ["columns_have_names"])

    def test_words_name_crates_rooms_and_calls(self):
        whole = list(printed(["cell_refs"]))
        self.assertIn("  get_dimension: The area that a text such as `C2:D35` names.", whole)
        room = list(printed(["dimensions"]))
        self.assertIn("  get_dimension: The area that a text such as `C2:D35` names.", room)
        self.assertNotIn(" src/column.rt", room)
        path = "crates/cell_refs/src/dimensions.rt"
        self.assertIn(f"{path}: get_dimension", list(printed(["get_dimension"])))
        self.assertEqual(list(printed(["no_call_of_this_name"])), [])


if __name__ == "__main__":
    unittest.main()
