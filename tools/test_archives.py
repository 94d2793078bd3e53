"""Tries the built program list_archive on the samples, and compares the parts with those that
Python's zipfile gives."""

import io
import pathlib
import struct
import subprocess
import unittest
import zipfile
import zlib

from escapes import escaped

TOP = pathlib.Path(__file__).resolve().parent.parent
OUT = TOP / "crates" / "list_archive" / "out"
SAMPLES = TOP / "samples"
# The gate builds the program twice, by two compilers.
BUILDS = ["list_archive", "list_archive.by-rattle"]


def stored(name, held):
    """The own header of a stored entry, and its data."""
    sizes = struct.pack("<III", zlib.crc32(held), len(held), len(held))
    header = b"PK\3\4\x14\0\0\0\0\0\0\0\x21\0" + sizes
    return header + struct.pack("<HH", len(name), 0) + name + held


def listed(name, held, place, size=None, extra=b""):
    """The header of the directory for such an entry, whose own header stands at a place."""
    told = len(held) if size is None else size
    header = b"PK\1\2\x14\0\x14\0\0\0\0\0\0\0\x21\0"
    header += struct.pack("<III", zlib.crc32(held), len(held), told)
    return header + struct.pack("<HHHHHII", len(name), len(extra), 0, 0, 0, 0, place) + name + extra


def end(size, place, comment=b""):
    """The record of the end, of a directory of such a size at a place."""
    return b"PK\5\6" + bytes(8) + struct.pack("<IIH", size, place, len(comment)) + comment


def lines_of(file):
    """The lines that list_archive is to print of an archive without two names that are one."""
    with zipfile.ZipFile(io.BytesIO(file)) as archive:
        for place, entry in enumerate(archive.infolist()):
            held = archive.read(entry)
            yield f"{escaped(entry.filename)}\t{place}\t{len(held)} {zlib.crc32(held)}"


OWN, LISTED = stored(b"a", b"b"), listed(b"a", b"b", 0)
END = end(len(LISTED), len(OWN))
WHOLE = OWN + LISTED + END
HELD = "a\t0\t1 1908338681\n"
# The extra field of a number of 64 bits, which tells the size.
WIDE = listed(b"a", b"b", 0, 0xFFFF_FFFF, struct.pack("<HHQ", 1, 8, 2**64 - 1))
# The data of the first entry are the second one.
INNER = stored(b"b", b"cc")
OUTER = stored(b"a", INNER)
LAPPED = listed(b"a", INNER, 0) + listed(b"b", b"cc", len(OUTER) - len(INNER))
ITSELF = listed(b"a", b"b", len(OWN))

# What an archive is, its bytes, and what is told of it.
ARCHIVES = [
    ("an entry", WHOLE, HELD),
    ("bytes behind the archive", WHOLE + b"xyz", HELD),
    ("bytes in front of it", b"xyz" + WHOLE, HELD),
    ("two ends: the last counts, and what stands before is in front", 2 * WHOLE, HELD),
    ("a comment that holds the end of no directory", OWN + LISTED + end(47, 32, end(0, 0)), ""),
    ("no entries", end(0, 0), ""),
    (
        "a size of 64 bits",
        OWN + WIDE + end(len(WIDE), len(OWN)),
        "a\t0\tlarger than is allowed, with 18446744073709551615 bytes\n",
    ),
    (
        "an entry that is its own directory",
        OWN + ITSELF + end(len(ITSELF), len(OWN)),
        "a\t0\tno header of its name\n",
    ),
    (
        "an entry in another one",
        OUTER + LAPPED + end(len(LAPPED), len(OUTER)),
        "a\t0\treaches into what stands behind it\nb\t1\t2 3685882489\n",
    ),
]


class Archives(unittest.TestCase):
    def test_each_part_of_each_sample_holds_what_zipfile_gives(self):
        samples = sorted(SAMPLES.glob("*.xlsx"))
        self.assertGreater(len(samples), 10)
        for sample in samples:
            file = sample.read_bytes()
            for build in BUILDS:
                run = subprocess.run([OUT / build], input=file, capture_output=True, check=False)
                self.assertEqual((run.returncode, run.stderr), (0, b""), sample.name)
                self.assertEqual(run.stdout.decode().splitlines(), list(lines_of(file)))

    def test_archives_are_read_or_refused_where_they_are_asked_for(self):
        for shown, file, wanted in ARCHIVES:
            for build in BUILDS:
                run = subprocess.run([OUT / build], input=file, capture_output=True, check=False)
                ended = run.returncode, run.stdout.decode(), run.stderr
                self.assertEqual(ended, (0, wanted, b""), shown)

    def test_many_entries_are_listed(self):
        names = [b"%d" % number for number in range(4_000)]
        own, directory = b"", b""
        for name in names:
            directory += listed(name, b"", len(own))
            own += stored(name, b"")
        file = own + directory + end(len(directory), len(own))
        run = subprocess.run([OUT / BUILDS[0]], input=file, capture_output=True, check=False)
        wanted = [f"{number}\t{number}\t0 0" for number in range(4_000)]
        self.assertEqual(run.stdout.decode().splitlines(), wanted)

    def test_what_is_no_archive_is_refused(self):
        cut = (SAMPLES / "libreoffice.xlsx").read_bytes()[:-1]
        same = OWN + LISTED + end(47, 32, END)
        for file in (b"", b"PK", b"{}", cut, WHOLE[:-1], same):
            for build in BUILDS:
                run = subprocess.run([OUT / build], input=file, capture_output=True, check=False)
                self.assertEqual((run.returncode, run.stdout), (1, b""), file[:20])
                self.assertTrue(run.stderr.startswith(b"Error: "), run.stderr)


if __name__ == "__main__":
    unittest.main()
