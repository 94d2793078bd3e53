"""Tries that the program cut_events cuts the parts of samples as tools/reading/markup.py does."""

import pathlib
import unittest
import zipfile

from support.cutting import BUILDS, OUT, found, wanted

SAMPLES = pathlib.Path(__file__).resolve().parent.parent / "samples"

# Parts with a flaw, and what is told of them.
MALFORMED, NO_TEXT = "x\tmalformed markup", "x\tnot a text in UTF-8"
REFUSED = [
    (b"<a>b<", ["s\ta\t", "t\tb", MALFORMED]),
    (b"\xef\xbb\xbf<a/>\xc3\xbc & b", ["s\ta\t", "e\ta", "t\tü ", MALFORMED]),
    (b"<a>\xff</a>", [NO_TEXT]),
    (b"<a>\0</a>", [NO_TEXT]),
    (b"<?xml version='1.0' encoding='Latin-1'?><a/>", [NO_TEXT]),
]


def parts():
    """The name and the bytes of each part of a sample that holds markup."""
    for path in sorted(SAMPLES.glob("*.xlsx")):
        with zipfile.ZipFile(path) as book:
            for name in book.namelist():
                if name.endswith((".xml", ".rels", ".vml")):
                    yield f"{path.name} {name}", book.read(name)


class Cutting(unittest.TestCase):
    def builds(self):
        """The builds that there are; the first is always one."""
        return [own for own in BUILDS if own == BUILDS[0] or (OUT / own).exists()]

    def test_the_parts_of_samples_are_cut_alike(self):
        each = list(parts())
        self.assertGreater(len(each), 100)
        for build in self.builds():
            for name, data in each:
                with self.subTest(build=build, part=name):
                    self.assertEqual(found(build, data), wanted(data))

    def test_flaws_stand_where_a_text_is_refused(self):
        for build in self.builds():
            for data, lines in REFUSED:
                with self.subTest(build=build, data=data):
                    self.assertEqual(wanted(data), lines)
                    self.assertEqual(found(build, data), lines)


if __name__ == "__main__":
    unittest.main()
