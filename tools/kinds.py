"""Tells of a file that the program refuses whether it is a workbook of another kind."""

import os
import re
import struct
import zipfile

# How many bytes are read at a time.
PIECE = 1 << 18

# The first bytes of a compound file, in which .xls and encrypted workbooks lie.
COMPOUND = bytes.fromhex("d0cf11e0a1b11ae1")

# How the content of an OpenDocument file's first entry, `mimetype`, begins.
OPEN_DOCUMENT = b"application/vnd.oasis.opendocument"

# The file name of the part of a workbook whose parts aren't markup.
BINARY_BOOK = "workbook.bin"


def directory_names(file):
    """The names in a compound file's directory that tell its kind. An entry has 128 bytes and lies
    at a multiple of that: the name in UTF-16 with its end, and at byte 64 how long these are."""
    names = {
        f"{name}\0".encode("utf-16-le"): name for name in ("EncryptedPackage", "Workbook", "Book")
    }
    pattern, found = re.compile(b"|".join(map(re.escape, names))), set()
    file.seek(0)
    for piece in iter(lambda: file.read(PIECE), b""):
        for match in pattern.finditer(piece):
            length = piece[match.start() + 64 : match.start() + 66]
            if match.start() % 128 == 0 and length == struct.pack("<H", len(match[0])):
                found.add(names[match[0]])
    return found


def compound_kind(file):
    names = directory_names(file)
    if "EncryptedPackage" in names:
        return 12, "an encrypted workbook"
    if names:
        return 11, "an .xls workbook: save it as .xlsx"
    return None


def archive_kind(file):
    with zipfile.ZipFile(file) as archive:
        names = archive.namelist()
        if names[:1] == ["mimetype"] and archive.read(names[0]).startswith(OPEN_DOCUMENT):
            return 11, "an OpenDocument file: save it as .xlsx"
        if any(name.lower().split("/")[-1] == BINARY_BOOK for name in names):
            return 11, "an .xlsb workbook: save it as .xlsx"
    return None


def other_kind(number):
    """The status and the text that tell of the file of a number, where it is of another kind."""
    with open(os.dup(number), "rb") as file:
        file.seek(0)
        try:
            if file.read(len(COMPOUND)) == COMPOUND:
                return compound_kind(file)
            return archive_kind(file) if zipfile.is_zipfile(file) else None
        except Exception:  # What is broken is no workbook of another kind.
            return None
