"""Tries the built program on the comments of a worksheet."""

import subprocess
import unittest

from support.noted import RELATIONSHIPS, ROOT, SHEET_NAME, TYPES, WORKBOOK, events_of, package_cut
from support.noted import package_of, package_with, refused, related, told
from test_program import BUILDS, OUT

RELATED = ("xl/worksheets/_rels/sheet1.xml.rels", related("comments", "../comments1.xml"))
NAME = "xl/comments1.xml"


def commented(comments, authors="<author>Ann</author><author>Bo</author>"):
    """A part of comments."""
    return (
        f"<comments><authors>{authors}</authors><commentList>{comments}</commentList></comments>"
    )


def comment(inside, attributes='ref="A1" authorId="0"'):
    return f"<comment {attributes}><text>{inside}</text></comment>"


def ended(element):
    return refused(f"Unexpected end of xml, expecting '</{element}>'")


T = "<t>a</t>"
ONE = (NAME, commented(comment(T)))
FOUND = "A1\t=Ann\t=a\n"
NOBODY = "A1\t-\t=a\n"
TWICE = (
    f'<Relationships><Relationship Type="{TYPES}comments" Target="../comments1.xml"/>'
    f'<Relationship Type="{TYPES}comments" Target="/xl/comments1.xml"/></Relationships>'
)

# What a case shows, the part of the comments, and the lines or the refusal.
CASES = [
    ("an author and a text", ONE[1], FOUND),
    (
        "rich text of two runs",
        commented(comment('<r><rPr><b/></rPr><t>a</t></r><r><t xml:space="preserve"> b</t></r>')),
        "A1\t=Ann\t=a b\n",
    ),
    ("pronunciation", commented(comment("<t>a</t><rPh><t>b</t></rPh>")), FOUND),
    ("no text", commented('<comment ref="b2" authorId="1"/>'), "B2\t=Bo\t=\n"),
    ("a line end and an escape", commented(comment("<t>a\nb_x0041_</t>")), "A1\t=Ann\t=a\\nbA\n"),
    ("no ref", commented(comment(T, 'authorId="0"') + comment(T)), FOUND),
    (
        "a ref that is no cell",
        commented(comment(T, 'ref="A0"')),
        refused("Range is missing the expected row component."),
    ),
    (
        "a ref of an area",
        commented(comment(T, 'ref="A1:B2"')),
        refused("Expecting alphanumeric character, got 3A"),
    ),
    ("no authorId", commented(comment(T, 'ref="A1"')), NOBODY),
    ("an authorId that is no number", commented(comment(T, 'ref="A1" authorId="+0"')), NOBODY),
    ("one past the authors", commented(comment(T, 'ref="A1" authorId="2"')), NOBODY),
    ("one past all numbers", commented(comment(T, f'ref="A1" authorId="{10**30}"')), NOBODY),
    ("two comments of one cell", commented(comment(T) * 2), FOUND * 2),
    ("no author", commented(comment(T), ""), NOBODY),
    ("an empty author", commented(comment(T), "<author/>"), "A1\t=\t=a\n"),
    (
        "an escape and a blank in an author",
        commented(comment(T), "<author>_x0041_ </author>"),
        "A1\t=A \t=a\n",
    ),
    ("authors behind", f"<comments>{comment(T)}<author>Ann</author></comments>", FOUND),
    ("a comment in one", commented(comment(T + comment("<t>b</t>"))), "A1\t=Ann\t=ab\n"),
    ("another root", "<x/>", ended("comments")),
    ("a second root", ONE[1] + commented(comment("<t>b</t>")), FOUND),
    (
        "nesting that breaks",
        "<comments><authors></comments>",
        refused("Xml error: end tag mismatch at 2"),
    ),
    ("nesting that breaks behind", ONE[1] + "</x>", FOUND),
    (
        "an author with an entity without a character",
        commented(comment(T), "<author><!bogus></author>"),
        refused("Xml error: unknown entity at 3"),
    ),
    (
        "a text with one",
        commented(comment("<t><!bogus></t>"), ""),
        refused("Xml error: unknown entity at 7"),
    ),
    ("one in pronunciation", commented(comment("<rPh><t><!bogus></t></rPh><t>a</t>")), FOUND),
    (
        "an attribute at fault",
        commented(comment(T, 'ref="A1" x')),
        refused("Xml attribute error: expected '=' at 10"),
    ),
]


class Comments(unittest.TestCase):
    def check(self, package, wanted, shown, name="S"):
        for build in BUILDS:
            words = [OUT / build, "comments", name]
            ran = subprocess.run(words, input=package, capture_output=True)
            self.assertIn((ran.returncode, ran.stdout, ran.stderr), told(wanted), shown)

    def test_comments_are_listed_or_refused(self):
        for shown, markup, wanted in CASES:
            self.check(package_with((NAME, markup), RELATED), wanted or TOLD[shown], shown)

    def test_comments_go_by_relationships(self):
        self.check(package_with(ONE), "", "no relationships")
        self.check(package_with(RELATED), "", "no part of comments")
        self.check(package_with(ONE, (RELATED[0], "<Relationships/>")), "", "no relationship")
        self.check(package_with(ONE, (RELATED[0], related("x", "../comments1.xml"))), "", "a type")
        self.check(package_with(ONE, (RELATED[0], TWICE)), FOUND * 2, "the same part twice")
        self.check(package_with(ONE, (RELATED[0], "<x/>")), ended("Relationships"), "no section")

    def test_a_part_of_comments_ends_early(self):
        events = events_of(ONE[1])
        for count in range(len(events)):
            inside = []
            for kind, name, *_ in events[:count]:
                if kind == "s":
                    inside.append(name)
                elif kind == "e":
                    inside.pop()
            inner = "comments"
            if "author" in inside:
                inner = "author"
            elif "comment" in inside:
                inner = "t" if "t" in inside else "comment"
            self.check(package_cut(ONE, count, RELATED), ended(inner), count)

    def test_comments_need_a_sheet_of_the_name_and_no_part_of_it(self):
        not_found = refused("Worksheet 'T' not found")
        self.check(package_with(ONE, RELATED), not_found, "another name", "T")
        package = package_of([ROOT, RELATIONSHIPS, WORKBOOK, RELATED, ONE])
        self.check(package, FOUND, "no part of the sheet")
        self.check(package_with((SHEET_NAME, "<x></y>"), RELATED, ONE), FOUND, "a sheet at fault")


if __name__ == "__main__":
    unittest.main()
