"""Tries the built program unpack: what it writes, and what it says of streams that it refuses."""

import pathlib
import subprocess
import unittest
import zlib

TOP = pathlib.Path(__file__).resolve().parent.parent
OUT = TOP / "crates" / "unpack" / "out"
# The gate builds the program twice, by two compilers.
BUILDS = ["unpack", "unpack.by-rattle"]

# A stream, what is wrong with it and the byte where it is seen.
REFUSED = [
    ("", b"the data end too early at byte 0"),
    ("07", b"a block of an unknown kind at byte 0"),
    ("010200fdfe6162", b"a stored length that isn't told twice at byte 5"),
    ("05008200", b"lengths that make no set of codes at byte 3"),
    ("4b04", b"no code, or one without a meaning at byte 1"),
    ("4b044200", b"a distance past the start, or without a meaning at byte 2"),
]

ROWS = b"".join(b'<row r="%d"><c r="A%d"><v>%d</v></c></row>' % (n, n, n * n) for n in range(9_999))
# Nothing, what has no code of its own, what copies itself, and markup.
HELD = [b"", bytes(range(256)), b"a" * 70_000, ROWS]


def packed(held, level):
    return zlib.compress(held, level, -15)


class Unpack(unittest.TestCase):
    def run_on(self, stream, *words):
        """How each build ends on a stream, which is to be the same."""
        runs = [
            subprocess.run([OUT / build, *words], input=stream, capture_output=True, check=False)
            for build in BUILDS
        ]
        ended = [(run.returncode, run.stdout, run.stderr) for run in runs]
        self.assertEqual(ended, ended[:1] * len(ended))
        return ended[0]

    def test_streams_of_each_level_are_unpacked(self):
        for held in HELD:
            for level in (0, 1, 6, 9):
                stream = packed(held, level)
                self.assertEqual(self.run_on(stream), (0, held, b""), f"{held[:20]}, {level}")

    def test_a_sum_tells_length_checksum_and_what_stands_behind(self):
        for held in HELD:
            said = b"%d %d 3\n" % (len(held), zlib.crc32(held))
            self.assertEqual(self.run_on(packed(held, 6) + b"xyz", "sum"), (0, said, b""))

    def test_refused_streams_tell_their_byte(self):
        for stream, told in REFUSED:
            ended = self.run_on(bytes.fromhex(stream))
            self.assertEqual(ended, (1, b"", b"Error: " + told + b"\n"), stream)

    def test_a_stream_that_is_cut_is_refused_wherever(self):
        whole = packed(ROWS[:3_000], 6)
        for length in range(0, len(whole), 7):
            status, out, told = self.run_on(whole[:length])
            self.assertEqual((status, out), (1, b""), told)


if __name__ == "__main__":
    unittest.main()
