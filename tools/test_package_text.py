"""Tests which parts of a workbook file become its package text, and which files are refused."""

import io
import json
import os
import pathlib
import resource
import struct
import subprocess
import sys
import tempfile
import unittest
import zipfile
from unittest import mock

from support.fixtures import MINIMAL, SALES, archive, relationships
from package_text import Refusal, Sheets, workbook_of, write

HERE = pathlib.Path(__file__).resolve().parent
SHIPPED = HERE.parent / "crates" / "xlsx_tool" / "stdin"
# The same package in version 2.
UPGRADED = HERE / "shipped.upgraded.json"


def with_parts(**parts):
    return archive({**MINIMAL, **parts})


def write_archive(file, parts, packing=zipfile.ZIP_DEFLATED):
    with zipfile.ZipFile(file, "w", packing) as made:
        for name, markup in parts.items():
            made.writestr(name, markup)


class Unseekable(io.BytesIO):
    """A file in which an archive tells the sizes and checksums of its entries behind them."""

    def tell(self):
        raise OSError

    def seekable(self):
        return False


def bounded(size):
    """Has a process take no more memory than this."""
    return lambda: resource.setrlimit(resource.RLIMIT_AS, (size, size))


LONG_TEXT = "input too large: its package text has more than 1,000,000 bytes"
LONG_SHEET = LONG_TEXT + "; xl/worksheets/sheet1.xml has {:,} bytes of markup"
LONG_EVENT = "input too large: {} has a text or a tag of more than 1,000,000 characters"


def directory_entry(name):
    """An entry of a compound file's directory."""
    text = f"{name}\0".encode("utf-16-le")
    return text.ljust(64, b"\0") + struct.pack("<H", len(text)) + bytes(62)


def compound(*names):
    front = bytes.fromhex("d0cf11e0a1b11ae1").ljust(512, b"\0")
    return front + b"".join(map(directory_entry, ("Root Entry", *names)))


class Files(unittest.TestCase):
    def setUp(self):
        folder = tempfile.TemporaryDirectory()
        self.addCleanup(folder.cleanup)
        self.path = os.path.join(folder.name, "book.xlsx")

    def run_on(self, data, *words, stdout=subprocess.PIPE, **given):
        """Runs the script on a file of these bytes, none where they are None."""
        if data is not None:
            pathlib.Path(self.path).write_bytes(data)
        ran = subprocess.run(
            [sys.executable, HERE / "reading" / "package_text.py", self.path, *words],
            stdout=stdout,
            stderr=subprocess.PIPE,
            **given,
        )
        return ran.returncode, ran.stdout, ran.stderr.decode()

    def package_of(self, data, *words):
        status, text, said = self.run_on(data, *words)
        self.assertEqual((status, said), (0, ""))
        return json.loads(text.decode())

    def names_of(self, data, *words):
        return [part["name"] for part in self.package_of(data, *words)["parts"]]

    def check_refused(self, data, status, text, *words, **given):
        wanted = status, b"", f"{self.path}: {text}\n"
        self.assertEqual(self.run_on(data, *words, **given), wanted)


class Parts(Files):
    def test_the_markup_of_the_shipped_package_gives_the_shipped_package(self):
        wanted = json.loads(SHIPPED.read_text(encoding="utf-8"))
        self.assertEqual(self.package_of(archive(SALES), "--version-1"), wanted)
        upgraded = json.loads(UPGRADED.read_text(encoding="utf-8"))
        self.assertEqual(self.package_of(archive(SALES)), upgraded)

    def test_parts_keep_their_order(self):
        turned = dict(reversed(MINIMAL.items()))
        self.assertEqual(self.names_of(archive(turned)), list(turned))

    def test_parts_that_the_reader_opens_are_written(self):
        more = {
            "xl/sharedStrings.xml": "<sst/>",
            "xl/styles.xml": "<styleSheet/>",
            "xl/theme/theme1.xml": "<theme/>",
            "docProps/core.xml": "<coreProperties/>",
            "docProps/app.xml": "<Properties/>",
            "docProps/custom.xml": "<Properties/>",
            "xl/worksheets/_rels/sheet1.xml.rels": relationships(
                ("table", "../tables/table1.xml"),
                ("comments", "../comments1.xml"),
                ("pivotTable", "../pivotTables/pivotTable1.xml"),
            ),
            "xl/tables/table1.xml": "<table/>",
            "xl/comments1.xml": "<comments/>",
            "xl/pivotTables/pivotTable1.xml": "<pivotTableDefinition/>",
            "xl/pivotTables/_rels/pivotTable1.xml.rels": relationships(
                ("pivotCacheDefinition", "../pivotCache/pivotCacheDefinition1.xml")
            ),
            "xl/pivotCache/pivotCacheDefinition1.xml": "<pivotCacheDefinition/>",
            "xl/pivotCache/_rels/pivotCacheDefinition1.xml.rels": relationships(
                ("pivotCacheRecords", "pivotCacheRecords1.xml")
            ),
            "xl/pivotCache/pivotCacheRecords1.xml": "<pivotCacheRecords/>",
        }
        self.assertEqual(self.names_of(with_parts(**more)), [*MINIMAL, *more])

    def test_other_parts_are_left_out(self):
        more = {
            "[Content_Types].xml": "<Types/>",
            "xl/worksheets/_rels/sheet1.xml.rels": relationships(
                ("drawing", "../drawings/drawing1.xml")
            ),
            "xl/drawings/drawing1.xml": "<wsDr/>",
            "xl/media/image1.png": b"\x89PNG\0",
            "xl/calcChain.xml": "<calcChain/>",
            "xl/folder/": "",
        }
        wanted = [*MINIMAL, "xl/worksheets/_rels/sheet1.xml.rels"]
        self.assertEqual(self.names_of(with_parts(**more)), wanted)

    def test_the_parts_of_no_worksheet_and_of_one(self):
        """A part to which something else leads, or of a fixed name, is no worksheet's alone."""
        kinds = (
            ("worksheet", "worksheets/sheet1.xml"),
            ("worksheet", "\\xl\\Two.xml"),
            ("worksheet", "styles.xml"),
            ("worksheet", "both.xml"),
            ("chartsheet", "both.xml"),
            ("chartsheet", "chart.xml"),
        )
        sheets = ["xl/worksheets/sheet1.xml", "XL/two.xml", "a/two.xml"]
        others = ["xl/styles.xml", "xl/both.xml", "xl/chart.xml"]
        more = {
            "xl/_rels/workbook.xml.rels": relationships(*kinds),
            **dict.fromkeys((*sheets, *others), "<a/>"),
            "xl/_rels/two.xml.rels": "<Relationships/>",
        }
        data = with_parts(**more)
        names = [*MINIMAL, *sheets[1:], *others, "xl/_rels/two.xml.rels"]
        for word, left_out in (
            ("all", []),
            ("none", sheets),
            ("xl\\TWO.xml", [sheets[0], sheets[2]]),
            ("a/two.xml", sheets[:2]),
            ("xl/styles.xml", sheets),
            ("nowhere", sheets),
        ):
            with self.subTest(word):
                wanted = [name for name in names if name not in left_out]
                self.assertEqual(self.names_of(data, "--sheets", word), wanted)
        with open(self.path, "rb") as file, workbook_of(file.fileno()) as workbook:
            self.assertEqual(workbook.sheet_count(), 3)
            with workbook.text(Sheets.BOOK) as text:
                parts = json.load(text)["parts"]
        self.assertEqual([part["name"] for part in parts], list(MINIMAL)[:3])

    def test_a_broken_sheet_that_is_left_out_refuses_nothing(self):
        data = with_parts(**{"xl/worksheets/sheet1.xml": "<"})
        self.assertEqual(self.names_of(data, "--sheets=none"), list(MINIMAL)[:3])

    def test_what_a_mac_puts_beside_the_parts_is_left_out(self):
        more = {
            "__MACOSX/_rels/._.rels": b"\0\5\x16\7",
            "__MACOSX/xl/._workbook.xml": b"\0\5\x16\7",
            "xl/worksheets/._sheet1.xml": b"\0\5\x16\7",
            "__MACOSX/_rels/.rels": "<",
        }
        self.assertEqual(self.names_of(with_parts(**more)), list(MINIMAL))
        self.assertEqual(self.names_of(with_parts(**more), "--all"), list(MINIMAL))

    def test_relationships_beside_other_parts_are_not_looked_at(self):
        more = {
            "xl/drawings/_rels/drawing1.xml.rels": "<",
            "a.rels": "<",
            "xl/worksheets/sheet1.xml.rels": "<",
            "xl/media/_rels/.rels": relationships(("worksheet", "none.xml")),
            "xl/none.xml": "<",
        }
        self.assertEqual(self.names_of(with_parts(**more)), list(MINIMAL))

    def test_relationships_are_followed_from_part_to_part(self):
        """Each part leads to the next one, which stands before it in the archive."""
        more = {
            f"xl/t/{'_rels/' * is_beside}t{at}.xml{'.rels' * is_beside}": (
                relationships(("table", f"t{at + 1}.xml")) if is_beside else "<table/>"
            )
            for at in range(99, 0, -1)
            for is_beside in (False, True)
        }
        more["xl/worksheets/_rels/sheet1.xml.rels"] = relationships(("table", "../t/t1.xml"))
        self.assertEqual(self.names_of(with_parts(**more)), [*MINIMAL, *more])
        del more["xl/worksheets/_rels/sheet1.xml.rels"]
        self.assertEqual(self.names_of(with_parts(**more)), list(MINIMAL))

    def test_all_parts_of_markup(self):
        more = {
            "[Content_Types].xml": "<Types/>",
            "xl/drawings/vmlDrawing1.vml": "<xml><br></xml>",
            "xl/media/image1.png": b"\x89PNG\0",
            "CustomXml/Item1.XML": "<a/>",
            "xl/folder/": "",
        }
        wanted = [
            *MINIMAL,
            "[Content_Types].xml",
            "xl/drawings/vmlDrawing1.vml",
            "CustomXml/Item1.XML",
        ]
        self.assertEqual(self.names_of(with_parts(**more), "--all"), wanted)

    def test_a_sheet_may_lie_anywhere(self):
        for target, name in (
            ("/media/A.xml", "media/a.xml"),
            ("..\\b.xml", "B.XML"),
            ("c&amp;d.xml", "xl/c&d.xml"),
            ("c&amp;d.xml", "xl/c&amp;d.xml"),
            ("e.png", "xl/e.png"),
        ):
            with self.subTest(target):
                more = {
                    "xl/_rels/workbook.xml.rels": relationships(("worksheet", target)),
                    name: "<a/>",
                }
                self.assertIn(name, self.names_of(with_parts(**more)))

    def test_relationships_of_the_strict_form(self):
        kind = "http://purl.oclc.org/ooxml/officeDocument/relationships/chartsheet"
        strict = f"<x:Relationship Target='c.xml' Type = \"{kind}\"/>"
        more = {
            "xl/_rels/workbook.xml.rels": strict,
            "xl/c.xml": "<a/>",
            "xl/worksheets/sheet1.xml": "<a/>",
        }
        wanted = [name for name in MINIMAL if "sheet1" not in name] + ["xl/c.xml"]
        self.assertEqual(self.names_of(with_parts(**more)), wanted)

    def test_of_parts_with_one_name_the_last_stands(self):
        # The library warns of the second entry, which is what is tried here.
        with self.assertWarns(UserWarning):
            data = archive([*MINIMAL.items(), ("xl/workbook.xml", "<b/>")])
        parts = {part["name"]: part["events"] for part in self.package_of(data)["parts"]}
        self.assertEqual(list(parts), list(MINIMAL))
        self.assertEqual(parts["xl/workbook.xml"], [["b", "b", ""]])

    def test_parts_whose_names_differ_in_case_are_both_written(self):
        self.assertEqual(
            self.names_of(with_parts(**{"XL/Workbook.xml": "<b/>"})), [*MINIMAL, "XL/Workbook.xml"]
        )

    def test_parts_in_other_encodings(self):
        for name in ("utf-8-sig", "utf-16", "utf-16-le", "utf-16-be"):
            parts = {part: markup.encode(name) for part, markup in MINIMAL.items()}
            self.assertEqual(
                self.package_of(archive(parts)), self.package_of(archive(MINIMAL)), name
            )

    def test_names_are_as_in_the_archive(self):
        for turned in ("\\xl\\workbook.xml", "/xl/workbook.xml", "XL/Work\u00e9/WORKBOOK.XML"):
            self.assertEqual(self.names_of(archive({turned: "<a/>"})), [turned])

    def test_archives_of_every_usual_form(self):
        wanted = self.package_of(archive(MINIMAL))
        unseekable = Unseekable()
        write_archive(unseekable, MINIMAL)
        self.assertEqual(self.package_of(unseekable.getvalue()), wanted)
        for packing in (zipfile.ZIP_STORED, zipfile.ZIP_BZIP2, zipfile.ZIP_LZMA):
            held = io.BytesIO()
            write_archive(held, MINIMAL, packing)
            self.assertEqual(self.package_of(held.getvalue()), wanted, packing)
            front_and_comment = b"#!/bin/sh\n" + held.getvalue()[:-2] + b"\4\0nuts"
            self.assertEqual(self.package_of(front_and_comment), wanted)

    def test_an_archive_in_the_form_for_large_files(self):
        with mock.patch("zipfile.ZIP64_LIMIT", 10), mock.patch("zipfile.ZIP_FILECOUNT_LIMIT", 1):
            data = archive(MINIMAL)
        self.assertIn(b"PK\6\6", data)
        self.assertEqual(self.package_of(data), self.package_of(archive(MINIMAL)))

    def test_a_part_without_events(self):
        parts = self.package_of(archive({"_rels/.rels": ""}))["parts"]
        self.assertEqual(parts, [{"name": "_rels/.rels", "events": []}])

    def test_an_archive_without_parts(self):
        for words, version in (([], 2), (["--version-1"], 1)):
            wanted = {"version": version, "parts": []}
            self.assertEqual(self.package_of(archive({}), *words), wanted)

    def test_a_long_part_is_one_list(self):
        row = '<row r="1"/>'
        more = {"xl/worksheets/sheet1.xml": row * 100_000}
        for words, wanted in (
            ([], [["b", "row", ' r="1"']]),
            (["--version-1"], [["s", "row", ' r="1"'], ["e", "row"]]),
        ):
            part = self.package_of(with_parts(**more), *words)["parts"][3]
            self.assertTrue(part["events"] == wanted * 100_000, words)


class Refusals(Files):
    def test_no_file(self):
        self.check_refused(None, 3, "can't be read: No such file or directory")

    def test_a_folder(self):
        os.mkdir(self.path)
        self.check_refused(None, 3, "can't be read: Is a directory")

    def test_a_file_that_may_not_be_read(self):
        pathlib.Path(self.path).write_bytes(archive(MINIMAL))
        os.chmod(self.path, 0)
        if os.geteuid() == 0:
            self.addCleanup(os.seteuid, 0)
            os.seteuid(65534)
        with self.assertRaises(Refusal) as caught:
            write(self.path, False, sys.maxsize, 1)
        refusal = caught.exception
        self.assertEqual((refusal.status, str(refusal)), (3, "can't be read: Permission denied"))

    def test_a_pipe(self):
        os.mkfifo(self.path)
        # Opened for both, so that neither end waits.
        pipe = os.open(self.path, os.O_RDWR)
        self.addCleanup(os.close, pipe)
        os.write(pipe, archive(MINIMAL))
        self.check_refused(None, 3, "can't be read: it is a pipe, and no file")

    def test_a_pipe_that_nobody_writes_to(self):
        os.mkfifo(self.path)
        self.check_refused(None, 3, "can't be read: it is a pipe, and no file", timeout=60)

    def test_a_device(self):
        self.path = "/dev/zero"
        self.check_refused(None, 3, "can't be read: it is no regular file")

    def test_a_message_is_one_line(self):
        self.path += "\n\x1b[31m\x85.xlsx"
        text = "xl/\x1b\n/workbook.xml is broken: markup without an end, at character 0"
        _, _, said = self.run_on(archive({"xl/\x1b\n/workbook.xml": "<"}))
        wanted = f"{self.path}: {text}"
        for control in "\n\x1b\x85":
            wanted = wanted.replace(control, f"\\x{ord(control):02x}")
        self.assertEqual(said, wanted + "\n")

    def test_no_zip_archive(self):
        for data in (b"", b"nut", b"<workbook/>", compound("WordDocument")):
            self.check_refused(data, 14, "no zip archive, and so no .xlsx workbook")

    def test_an_xls_workbook(self):
        for names in (["Workbook"], ["Book"], ["a", "b", "c", "Workbook"]):
            self.check_refused(compound(*names), 11, "an .xls workbook: save it as .xlsx")

    def test_an_xlsb_workbook(self):
        data = archive({"_rels/.rels": relationships(("officeDocument", "xl/workbook.bin"))})
        self.check_refused(data, 11, "an .xlsb workbook: save it as .xlsx")

    def test_an_open_document_file(self):
        data = archive({"mimetype": "application/vnd.oasis.opendocument.spreadsheet"})
        self.check_refused(data, 11, "an OpenDocument file: save it as .xlsx")

    def test_an_encrypted_workbook(self):
        self.check_refused(
            compound("EncryptionInfo", "EncryptedPackage"), 12, "an encrypted workbook"
        )

    def test_an_encrypted_part(self):
        data = bytearray(archive({"_rels/.rels": "<a/>"}))
        for mark, place in ((b"PK\3\4", 6), (b"PK\1\2", 8)):
            data[data.index(mark) + place] |= 1
        self.check_refused(bytes(data), 12, "_rels/.rels is encrypted")

    def test_an_archive_that_is_cut_off(self):
        data = archive(MINIMAL)
        for size in (8, len(data) // 2, len(data) - 30):
            self.check_refused(data[:size], 13, "the zip archive is cut off or broken")

    def test_a_part_with_a_wrong_checksum(self):
        data = bytearray(archive({"_rels/.rels": "<a/>"}))
        for mark, place in ((b"PK\3\4", 14), (b"PK\1\2", 16)):
            data[data.index(mark) + place] ^= 1
        self.check_refused(
            bytes(data), 13, "_rels/.rels is broken: Bad CRC-32 for file '_rels/.rels'"
        )

    def test_a_part_packed_in_an_unknown_way(self):
        # Deflate64, and one that isn't in use.
        for number in (9, 99):
            data = bytearray(archive({"_rels/.rels": "<a/>"}))
            for mark, place in ((b"PK\3\4", 8), (b"PK\1\2", 10)):
                data[data.index(mark) + place] = number
            self.check_refused(
                bytes(data), 13, "_rels/.rels is broken: That compression method is not supported"
            )

    def test_a_part_that_is_no_markup(self):
        for markup, text in (
            (b"<a>b</a", "markup without an end, at character 4"),
            (b"a & b <c>", "a `&` without its `;`, at character 2"),
            (b"<a>\xff", "neither UTF-8 nor UTF-16"),
        ):
            self.check_refused(
                with_parts(**{"xl/workbook.xml": markup}), 13, f"xl/workbook.xml is broken: {text}"
            )

    def test_a_broken_part_that_is_not_written_refuses_nothing(self):
        self.assertEqual(self.names_of(with_parts(**{"xl/calcChain.xml": "<"})), list(MINIMAL))

    def test_a_text_that_is_too_large(self):
        data = archive(MINIMAL)
        status, text, _ = self.run_on(data)
        self.assertEqual(status, 0)
        self.assertEqual(self.run_on(data, "--limit", str(len(text))), (0, text, ""))
        limit, largest = len(text) - 1, "xl/_rels/workbook.xml.rels"
        self.check_refused(
            data,
            4,
            f"input too large: its package text has more than {limit:,} bytes; "
            f"{largest} has {len(MINIMAL[largest])} bytes of markup",
            f"--limit={limit}",
        )

    def test_a_part_that_is_too_large_is_not_kept(self):
        """Parts of 16 MB, in files of some 16 KB. The memory is that of the interpreter too."""
        long_event = LONG_EVENT.format("xl/worksheets/sheet1.xml")
        for front, more, end, text in (
            ("<worksheet>", '<row r="1"/>', "", LONG_SHEET),
            ("<worksheet><!--", "12345678", "-->", long_event),
            ("<worksheet>", "12345678", "", LONG_SHEET),
            ("<worksheet><!---->", "12345678", "", long_event),
        ):
            part = front + more * (16_000_000 // len(more)) + end
            data = with_parts(**{"xl/worksheets/sheet1.xml": part})
            said = text.format(len(part))
            self.check_refused(data, 4, said, "--limit=1000000", preexec_fn=bounded(60_000_000))

    def test_what_is_too_large_is_told_before_it_is_cut(self):
        """The part of the workbook is broken, and is cut before that of the sheet. A text of
        version 2 may have half the bytes of its markup."""
        rows = '<row r="1"/>' * 200_000
        broken = "xl/workbook.xml is broken: markup without an end, at character 0"
        for part, status, text in (
            (f"<worksheet>{rows}", 4, LONG_SHEET),
            (f"\ufeff<?xml version='1.0'?>\r\n<worksheet>{rows}", 4, LONG_SHEET),
            # What may be left out of the text counts nothing.
            (f"<worksheet><!--{rows}-->", 13, broken),
            (f"<worksheet></worksheet{' ' * 2_400_000}>", 13, broken),
            (f"<worksheet>{rows}".encode("utf-16"), 13, broken),
            (f"<worksheet>{rows}".encode("utf-16-be"), 13, broken),
        ):
            data = with_parts(**{"xl/workbook.xml": "<", "xl/worksheets/sheet1.xml": part})
            with self.subTest(part=part[:30]):
                said = text.format(len(part.encode() if isinstance(part, str) else part))
                self.check_refused(data, status, said, "--limit=1000000")

    def test_relationships_that_are_too_many(self):
        part = "<Relationship/>" * 200_000
        self.check_refused(archive({"_rels/.rels": part}), 4, LONG_TEXT, "--limit=1000000")

    def test_want_of_memory(self):
        data = with_parts(**{"xl/workbook.xml": "x" * 60_000_000})
        self.check_refused(data, 8, "out of memory", preexec_fn=bounded(100_000_000))

    def test_no_standard_output(self):
        self.check_refused(
            archive(MINIMAL), 7, "write fault: Bad file descriptor", preexec_fn=lambda: os.close(1)
        )

    def test_no_room_for_the_text(self):
        def bound():
            resource.setrlimit(resource.RLIMIT_FSIZE, (1000, 1000))

        self.check_refused(archive(SALES), 7, "write fault: File too large", preexec_fn=bound)

    def test_a_closed_pipe(self):
        to_read, to_write = os.pipe()
        os.close(to_read)
        with open(to_write, "wb") as closed:
            ran = self.run_on(archive(MINIMAL), stdout=closed)
        self.assertEqual(ran, (7, None, f"{self.path}: write fault: Broken pipe\n"))

    def test_help(self):
        status, text, said = self.run_on(None, "--help")
        self.assertEqual((status, said), (0, ""))
        self.assertIn(b"Statuses: 0 ", text)
        with open("/dev/full", "wb") as full:
            ran = self.run_on(None, "--help", stdout=full)
        self.assertEqual(ran, (7, None, "package_text.py: write fault: No space left on device\n"))

    def test_a_full_device(self):
        with open("/dev/full", "wb") as full:
            ran = self.run_on(archive(MINIMAL), stdout=full)
        self.assertEqual(ran, (7, None, f"{self.path}: write fault: No space left on device\n"))

    def test_faulty_words(self):
        limits = ["--limit"], ["--limit", "x"], ["--limit=-1"]
        for words in (["--none"], ["more"], *limits, ["--al"]):
            status, text, said = self.run_on(archive(MINIMAL), *words)
            self.assertEqual((status, text, said.count("\n")), (2, b"", 1))

    def test_damage_is_told_as_damage(self):
        """Each byte of an archive is damaged in turn."""
        data = archive({"_rels/.rels": MINIMAL["_rels/.rels"]})
        for at in range(len(data)):
            damaged = data[:at] + bytes([data[at] ^ 0x55]) + data[at + 1 :]
            pathlib.Path(self.path).write_bytes(damaged)
            with self.subTest(at=at), tempfile.TemporaryFile() as out:
                try:
                    write(self.path, False, sys.maxsize, out.fileno())
                except Refusal as refusal:
                    self.assertIn(refusal.status, (12, 13, 14))
                    self.assertEqual(os.fstat(out.fileno()).st_size, 0)


if __name__ == "__main__":
    unittest.main()
