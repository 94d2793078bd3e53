#!/usr/bin/env python3
"""Writes the package text of a workbook file to standard output (docs/FORMAT.md)."""

import contextlib
import enum
import errno
import json
import os
import re
import signal
import stat
import struct
import sys
import tempfile
import zipfile
import zlib

from markup import BETWEEN, EMPTY, END, START, MarkupFault, TooLong, events, spelled

sys.path.append(os.path.dirname(os.path.dirname(os.path.abspath(__file__))))

from words import one_line  # noqa: E402

try:
    from lzma import LZMAError
except ImportError:  # Python can be built without it.
    LZMAError = zlib.error

STATUSES = """\
Statuses: 0 the package text was written whole; 2 usage; 3 the file can't be
read; 4 the text is longer than the limit; 7 the text can't be written;
8 out of memory; 11 a workbook of another kind, as .xls; 12 encrypted; 13 the
archive or a part is broken; 14 no zip archive. Only with 0 and 7 is anything
written.
"""

# How many bytes are read and written at a time.
PIECE = 1 << 18

# The first bytes of a compound file, in which .xls and encrypted workbooks lie.
COMPOUND = bytes.fromhex("d0cf11e0a1b11ae1")
NO_ARCHIVE = "no zip archive, and so no .xlsx workbook"

# What a zip archive raises that is damaged, or packed in a way that isn't known.
BROKEN = (
    zipfile.BadZipFile,
    zlib.error,
    LZMAError,
    struct.error,
    EOFError,
    RuntimeError,
    ValueError,
    OverflowError,
)

# The types of the relationships that lead to the workbook's part and to the worksheets.
DOCUMENT, WORKSHEET = "officeDocument", "worksheet"

# Relationships of these types lead to what the reader opens, now or later.
TYPES = {
    DOCUMENT,
    WORKSHEET,
    "chartsheet",
    "dialogsheet",
    "table",
    "comments",
    "pivotTable",
    "pivotCacheDefinition",
    "pivotCacheRecords",
}
# It looks for parts of these file names whether a relationship leads to them or not.
BOOK = "workbook.xml"
FILES = {
    BOOK,
    "sharedstrings.xml",
    "styles.xml",
    "theme1.xml",
    "core.xml",
    "app.xml",
    "custom.xml",
}
MARKUP = (".xml", ".rels", ".vml")

# In front of the entries that a Mac puts beside those of the workbook, and of their file names.
FOREIGN_FOLDER, FOREIGN_FILE = "__macosx", "._"

# White space, which may end a tag, and the start of markup that becomes one event with nothing in
# it: of all else a text has as many bytes as its markup, or more.
WHITE_SPACE = b" \t\r\n"
CONTENTLESS = re.compile(rb"<[!?]")
UTF_16 = (b"\xff\xfe", b"\xfe\xff")
DECLARATION = re.compile(rb"(?:\xef\xbb\xbf)?(?:<\?xml [^>]*\?>)?")

# The event of an element with nothing in it. A quote in a text stands behind a backslash, so that
# no event begins in a text.
TEXT = r'"[^"\\]*(?:\\.[^"\\]*)*"'
EMPTY_EVENT = re.compile(rf'\["b",({TEXT}),({TEXT})\]')

# How the content of an OpenDocument file's first entry, `mimetype`, begins.
OPEN_DOCUMENT = b"application/vnd.oasis.opendocument"

PAIR = re.compile(r"""([^\s=]+)\s*=\s*(?:"([^"]*)"|'([^']*)')""")


class Sheets(enum.Enum):
    """Which parts are written, where it isn't one worksheet's part with those of no other: all; all
    but the worksheets' own; or those alone that tell which parts the sheets have."""

    ALL = "all"
    NONE = "none"
    BOOK = "book"


class Refusal(Exception):
    def __init__(self, status, text):
        super().__init__(text)
        self.status = status


class TooLarge(Exception):
    """A package text is longer than it may be."""


def too_large(limit):
    return f"input too large: its package text has more than {limit:,} bytes"


def joined(lists):
    """The events of version 2, of those that were cut, list by list with commas between them: a
    start and the end of its name behind it are one, also where these are of two lists."""
    held = []
    for some in lists:
        some = held + some
        pairs = zip(some, some[1:])
        ends = [at for at, (one, two) in enumerate(pairs, 1) if two[2] == "e" and one[2] == "s"]
        for at in ends:
            start, name = some[at - 1], some[at][len(END) : -1]
            if start.startswith(f"{START}{name},") and BETWEEN not in start:
                some[at - 1], some[at] = EMPTY + start[len(START) :], ""
        # A start waits for what stands behind it.
        held = [some.pop()] if some and some[-1].startswith(START) else []
        yield ",".join(filter(None, some))
    yield "".join(held)


def parted(lists):
    """The events of version 1: an element with nothing in it is two."""
    for some in lists:
        yield EMPTY_EVENT.sub(r'["s",\1,\2],["e",\1]', ",".join(some))


# What makes the events of a version of those that were cut.
FORMS = {1: parted, 2: joined}


def folded(path):
    """As the reader compares names: `\\` is `/`, and letters are folded."""
    return path.replace("\\", "/").lower()


def file_name(path):
    """What stands behind the last slash."""
    return folded(path).split("/")[-1]


def is_foreign(path):
    """Whether an entry is none of the workbook's."""
    return folded(path).split("/")[0] == FOREIGN_FOLDER or file_name(path).startswith(FOREIGN_FILE)


def owner(path):
    """The file name of the part whose relationships a part has: nothing for those of the package,
    and None where it has none."""
    *folders, file = folded(path).split("/")
    return file[: -len(".rels")] if folders[-1:] == ["_rels"] and file.endswith(".rels") else None


def is_root(path):
    """Whether a part has the relationships of the package."""
    return folded(path) == "_rels/.rels"


def directory_names(file):
    """The names in a compound file's directory that tell its kind. An entry has 128 bytes and lies
    at a multiple of that: the name in UTF-16 with its end, and at byte 64 how long these are."""
    names = {
        f"{name}\0".encode("utf-16-le"): name for name in ("EncryptedPackage", "Workbook", "Book")
    }
    pattern, found = re.compile(b"|".join(map(re.escape, names))), set()
    file.seek(0)
    for piece in iter(lambda: file.read(PIECE), b""):
        for match in pattern.finditer(piece):
            length = piece[match.start() + 64 : match.start() + 66]
            if match.start() % 128 == 0 and length == struct.pack("<H", len(match[0])):
                found.add(names[match[0]])
    return found


def compound_refusal(file):
    names = directory_names(file)
    if "EncryptedPackage" in names:
        return Refusal(12, "an encrypted workbook")
    if names:
        return Refusal(11, "an .xls workbook: save it as .xlsx")
    return Refusal(14, NO_ARCHIVE)


@contextlib.contextmanager
def read(what):
    """Tells what becomes of a fault of the file or of the archive in it."""
    try:
        yield
    except OSError as error:
        # A broken archive has some of these: without a number, or for a place that no file has.
        if error.errno in (None, errno.EINVAL):
            raise Refusal(13, f"{what} is broken: {error}") from None
        raise Refusal(3, f"can't be read: {error.strerror}") from None
    except BROKEN as error:
        raise Refusal(13, f"{what} is broken: {error}") from None


@contextlib.contextmanager
def written():
    try:
        yield
    except OSError as error:
        raise Refusal(7, f"write fault: {error.strerror}") from None


def opened(source):
    """The file of a name, or of the number of an open one. Nothing is waited for: a pipe that
    nobody writes to is no file."""
    if isinstance(source, int):
        return open(source, "rb", closefd=False)
    with contextlib.ExitStack() as stack:
        file = stack.enter_context(
            open(source, "rb", opener=lambda path, flags: os.open(path, flags | os.O_NONBLOCK))
        )
        mode = os.fstat(file.fileno()).st_mode
        if stat.S_ISFIFO(mode):
            raise Refusal(3, "can't be read: it is a pipe, and no file")
        if not stat.S_ISREG(mode):
            raise Refusal(3, "can't be read: it is no regular file")
        stack.pop_all()
    return file


def archive_of(file):
    with read("the zip archive"):
        front = file.read(len(COMPOUND))
        if front == COMPOUND:
            raise compound_refusal(file)
        if zipfile.is_zipfile(file):
            return zipfile.ZipFile(file)
        if front.startswith(b"PK"):
            raise Refusal(13, "the zip archive is cut off or broken")
        raise Refusal(14, NO_ARCHIVE)


def unescaped(text):
    """A text with its references resolved."""
    if "&" not in text:
        return text
    # Few texts have any, and this takes a while to come in.
    import html

    return html.unescape(text)


def targets_of(event):
    """The file names that a relationship leads to, each with its type, where that is wanted."""
    if event[0] not in ("s", "b") or event[1].split(":")[-1] != "Relationship":
        return set()
    # The reader takes some of these texts as written, and others with their references resolved.
    pairs = [
        (key, value)
        for key, double, single in PAIR.findall(event[2])
        for value in (double or single, unescaped(double or single))
    ]
    types = {kind.split("/")[-1] for key, kind in pairs if key == "Type"} & TYPES
    return {(file_name(target), kind) for key, target in pairs if key == "Target" for kind in types}


class Workbook:
    """The parts of a workbook file that are written."""

    def __init__(self, archive, is_all, limit, version):
        self.archive, self.is_all, self.limit, self.version = archive, is_all, limit, version
        # Of entries with one name the last stands, since an archive is added to at its end.
        self.entries = {
            entry.filename: entry for entry in archive.infolist() if not is_foreign(entry.filename)
        }
        if self.is_open_document():
            raise Refusal(11, "an OpenDocument file: save it as .xlsx")
        # For each file name that relationships lead to, their types.
        self.targets = self.found_targets()
        if any(name.endswith(".bin") for name in self.targets):
            raise Refusal(11, "an .xlsb workbook: save it as .xlsx")

    def is_open_document(self):
        entry = self.entries.get("mimetype")
        return entry is not None and next(self.pieces(entry), b"").startswith(OPEN_DOCUMENT)

    def found_targets(self):
        """The file names that relationships of the wanted types lead to: those of the package and,
        from there on, those beside each part that is written."""
        beside = {}
        for name in self.entries:
            beside.setdefault(owner(name), []).append(name)
        found, size = {}, 0
        waiting = [name for name in beside.get("", ()) if is_root(name)]
        waiting += [name for file in FILES for name in beside.get(file, ())]
        while waiting:
            for some in self.events(self.entries[waiting.pop()]):
                # These parts are all written.
                size += len(some)
                if size > self.limit:
                    raise Refusal(4, too_large(self.limit))
                for file, kind in set().union(*map(targets_of, json.loads(f"[{some}]"))):
                    # Those of the fixed names are cut already.
                    if file not in found and file not in FILES:
                        waiting += (name for name in beside.get(file, ()) if not is_root(name))
                    found.setdefault(file, set()).add(kind)
        return found

    def is_looked_for(self, name):
        """Whether the reader may look for a part."""
        file, part = file_name(name), owner(name)
        if self.is_all:
            return file.endswith(MARKUP)
        if part is None:
            return not file.endswith(".rels") and (file in FILES or file in self.targets)
        return is_root(name) or part in FILES or part in self.targets

    def is_sheet(self, name):
        """Whether a part is a worksheet's, and nothing else leads to it."""
        file = file_name(name)
        return self.targets.get(file) == {WORKSHEET} and file not in FILES

    def is_book(self, name):
        """Whether a part tells which parts the sheets have."""
        part = file_name(name) if owner(name) is None else owner(name)
        return is_root(name) or part == BOOK or DOCUMENT in self.targets.get(part, ())

    def written(self, sheets):
        """The names of the parts that are written for some sheets, or for the part of one."""
        names = [name for name in self.entries if self.is_looked_for(name)]
        if sheets is Sheets.ALL:
            return names
        if sheets is Sheets.BOOK:
            return [name for name in names if self.is_book(name)]
        kept = None if sheets is Sheets.NONE else folded(sheets)
        return [name for name in names if not self.is_sheet(name) or folded(name) == kept]

    def sheet_count(self):
        """How many parts are a worksheet's alone."""
        return sum(map(self.is_sheet, self.entries))

    def text(self, sheets=Sheets.ALL):
        """The package text for some sheets, or for the part of one: whole, in a temporary file
        that stands at its start."""
        names = self.written(sheets)
        if not self.fits(names):
            raise self.too_large(names)
        with contextlib.ExitStack() as refused:
            with written():
                kept = refused.enter_context(tempfile.TemporaryFile(buffering=0))
            output = Output(kept, self.limit)
            try:
                parts = ((name, self.events(self.entries[name])) for name in names)
                output.add_package(self.version, parts)
            except TooLarge:
                raise self.too_large(names) from None
            with written():
                kept.seek(0)
            refused.pop_all()
        return kept

    def too_large(self, names):
        """Tells of parts whose text is too long, and of the largest of them."""
        most = max((self.entries[name] for name in names), key=lambda entry: entry.file_size)
        size = f"{most.filename} has {most.file_size:,} bytes of markup"
        return Refusal(4, f"{too_large(self.limit)}; {size}")

    def fits(self, names):
        """Whether the text of parts can be short enough, for all that the archive says of their
        sizes. What is too large is told so before it is cut."""
        # Of an element with nothing in it version 2 has the name once, and markup perhaps twice.
        most = self.limit if self.version == 1 else 2 * self.limit
        if sum(self.entries[name].file_size for name in names) <= most:
            return True
        least = 0
        for name in names:
            least += self.least(self.entries[name], most - least)
            if least > most:
                return False
        return True

    def least(self, entry, most):
        """How many bytes a part has at least in version 1, as far as they aren't more than `most`:
        as many as its markup behind a declaration, but for white space, or none where it has
        anything that may be left out."""
        size, before = 0, b""
        for piece in self.pieces(entry):
            if not size:
                piece = piece[DECLARATION.match(piece).end() :]
            if b"\0" in piece or piece[:2] in UTF_16:
                return 0
            if CONTENTLESS.search(before + piece):
                return 0
            size, before = size + len(piece.translate(None, WHITE_SPACE)), piece[-1:]
            if size > most:
                break
        return size

    def events(self, entry):
        """The events of a part, as texts of one or more with commas between them."""
        try:
            yield from filter(None, FORMS[self.version](events(self.pieces(entry), self.limit)))
        except MarkupFault as fault:
            raise Refusal(13, f"{entry.filename} is broken: {fault}") from None
        except TooLong:
            text = f"{entry.filename} has a text or a tag of more than {self.limit:,} characters"
            raise Refusal(4, f"input too large: {text}") from None

    def pieces(self, entry):
        if entry.flag_bits & 1:
            raise Refusal(12, f"{entry.filename} is encrypted")
        with read(entry.filename), self.archive.open(entry) as part:
            yield from iter(lambda: part.read(PIECE), b"")


def send(piece, descriptor):
    with written():
        while piece:
            piece = piece[os.write(descriptor, piece) :]


class Output:
    """Keeps the text in a temporary file, so that nothing is written before all of it is there."""

    def __init__(self, kept, limit):
        self.kept, self.limit, self.size = kept, limit, 0

    def add(self, text):
        piece = text.encode()
        self.size += len(piece)
        if self.size > self.limit:
            raise TooLarge
        send(piece, self.kept.fileno())

    def add_package(self, version, parts):
        between = ""
        self.add(f'{{"version":{version},"parts":[')
        for name, some_events in parts:
            self.add(f'{between}\n{{"name":{spelled(name)},"events":[')
            between = ""
            for some in some_events:
                self.add(between + some)
                between = ","
            self.add("]}")
            between = ","
        self.add("\n]}\n")


@contextlib.contextmanager
def workbook_of(source, is_all=False, limit=sys.maxsize, version=2):
    """A workbook file, told by its name or as the number of an open one, whose package text is
    written in a version."""
    with contextlib.ExitStack() as stack:
        with read("the file"):
            file = stack.enter_context(opened(source))
        yield Workbook(stack.enter_context(archive_of(file)), is_all, limit, version)


def write(path, is_all, limit, descriptor, sheets=Sheets.ALL, version=2):
    with written():
        # A closed one would be that of the next file which is opened.
        os.fstat(descriptor)
    with workbook_of(path, is_all, limit, version) as workbook, workbook.text(sheets) as kept:
        with written():
            for piece in iter(lambda: kept.read(PIECE), b""):
                send(piece, descriptor)


def parser_of(description, statuses):
    """What reads the words of a command line. No script that has its words needs this."""
    import argparse

    class Parser(argparse.ArgumentParser):
        def error(self, message):
            raise Refusal(2, message)

        def print_help(self, file=None):
            send(self.format_help().encode(), 1)

    return Parser(
        description=description,
        epilog=statuses,
        formatter_class=argparse.RawDescriptionHelpFormatter,
        allow_abbrev=False,
    )


def size_of(word):
    from argparse import ArgumentTypeError

    if not word.isdecimal():
        raise ArgumentTypeError("it takes a number of bytes")
    return int(word)


def sheets_of(word):
    return {"all": Sheets.ALL, "none": Sheets.NONE}.get(word, word)


def asked_of(words):
    parser = parser_of(__doc__, STATUSES)
    parser.add_argument("file", metavar="FILE.xlsx")
    parser.add_argument(
        "--all",
        action="store_true",
        help="write all parts of markup (default: those that the reader opens, now or later)",
    )
    parser.add_argument(
        "--limit",
        type=size_of,
        default=sys.maxsize,
        metavar="BYTES",
        help="refuse a text that is longer than this",
    )
    parser.add_argument(
        "--sheets",
        type=sheets_of,
        default=Sheets.ALL,
        metavar="PART",
        help="of the worksheets' own parts write this one alone, or with `none' no such part",
    )
    parser.add_argument(
        "--version-1",
        dest="version",
        action="store_const",
        const=1,
        default=2,
        help="write version 1, in which an element with nothing in it is two events",
    )
    return parser.parse_args(words)


def main():
    signal.signal(signal.SIGINT, signal.SIG_DFL)
    name = "package_text.py"
    try:
        asked = asked_of(sys.argv[1:])
        name = asked.file
        write(asked.file, asked.all, asked.limit, 1, asked.sheets, asked.version)
        return 0
    except Refusal as refusal:
        status, text = refusal.status, str(refusal)
    except MemoryError:
        status, text = 8, "out of memory"
    with contextlib.suppress(OSError):
        line = os.fsencode(one_line(name)) + f": {one_line(text)}\n".encode(errors="replace")
        os.write(2, line)
    return status


if __name__ == "__main__":
    sys.exit(main())
