#!/usr/bin/env python3
"""Compares the program `list_archive` with Python's zipfile on 200 workbooks that are made here by
all levels and strategies of zlib, and prints how many parts of each agreed.

A workbook has the parts of a sample, and a sheet of rows that repeat, of rows that don't, or of
bytes without any order. Each part is packed by a level from 0 to 9, a strategy, a window and a size
of memory of its own, some in pieces that are flushed, and some are stored.
"""

import argparse
import collections
import io
import os
import random
import subprocess
import sys
import zipfile
import zlib

from measure import TOP

sys.path.insert(0, str(TOP / "tools"))
from test_archives import lines_of  # noqa: E402

CRATE = TOP / "crates" / "list_archive"
SAMPLES = sorted((TOP / "samples").glob("*.xlsx"))
STRATEGIES = {
    "default": zlib.Z_DEFAULT_STRATEGY,
    "filtered": zlib.Z_FILTERED,
    "huffman": zlib.Z_HUFFMAN_ONLY,
    "rle": zlib.Z_RLE,
    "fixed": zlib.Z_FIXED,
}
FLUSHES = [zlib.Z_SYNC_FLUSH, zlib.Z_FULL_FLUSH, zlib.Z_PARTIAL_FLUSH]


def packed(chance, held, level, strategy):
    """A DEFLATE stream that holds these bytes."""
    packing = zlib.compressobj(
        level, zlib.DEFLATED, -chance.randint(9, 15), chance.randint(1, 9), STRATEGIES[strategy]
    )
    out = b""
    if chance.random() < 0.3:
        place = chance.randint(0, len(held))
        out += packing.compress(held[:place]) + packing.flush(chance.choice(FLUSHES))
        held = held[place:]
    return out + packing.compress(held) + packing.flush()


def sheet(chance):
    """The bytes of a part beside those of the sample."""
    count = chance.randint(0, 3_000)
    if chance.random() < 0.3:
        return chance.randbytes(count * 10)
    spread = chance.choice([2, 1_000, 10**12])
    rows = (b'<c r="A%d"><v>%d</v></c>' % (n, chance.randrange(spread)) for n in range(count))
    return b"".join(rows)


def workbook(chance, kinds):
    """A file whose parts are packed each in its own way; `kinds` counts the ways."""
    with zipfile.ZipFile(chance.choice(SAMPLES)) as sample:
        parts = [(entry.filename, sample.read(entry)) for entry in sample.infolist()]
    parts.append(("xl/worksheets/more.xml", sheet(chance)))
    local, directory, count = b"", b"", 0
    for name, held in parts:
        level, strategy = chance.randint(0, 9), chance.choice(sorted(STRATEGIES))
        method = 0 if chance.random() < 0.1 else 8
        stream = held if method == 0 else packed(chance, held, level, strategy)
        kinds["stored" if method == 0 else f"level {level}, {strategy}"] += 1
        own = name.encode()
        told = zlib.crc32(held), len(stream), len(held)
        sizes = b"".join(number.to_bytes(4, "little") for number in told)
        both = b"\0\0" + method.to_bytes(2, "little") + b"\0\0\x21\0" + sizes
        both += len(own).to_bytes(2, "little") + b"\0\0"
        place = len(local).to_bytes(4, "little")
        local += b"PK\3\4\x14\0" + both + own + stream
        directory += b"PK\1\2\x14\0\x14\0" + both + b"\0" * 10 + place + own
        count += 1
    counts = 2 * count.to_bytes(2, "little")
    sizes = len(directory).to_bytes(4, "little") + len(local).to_bytes(4, "little")
    return local + directory + b"PK\5\6\0\0\0\0" + counts + sizes + b"\0\0"


def main():
    parser = argparse.ArgumentParser(description=__doc__.splitlines()[0])
    parser.add_argument("--count", type=int, default=200, help="workbooks (default: 200)")
    parser.add_argument("--seed", default="1", help="what they are made by (default: 1)")
    parser.add_argument("--program", help="a program list_archive that is built already")
    asked = parser.parse_args()
    program = asked.program and os.path.abspath(asked.program)
    if program is None:
        with open(CRATE / "stdin", "rb") as archive:
            subprocess.run(["rt", "run"], cwd=CRATE, stdin=archive, capture_output=True, check=True)
        program = str(CRATE / "out" / "list_archive")
    chance, kinds, parts = random.Random(asked.seed), collections.Counter(), 0
    for number in range(asked.count):
        file = workbook(chance, kinds)
        assert zipfile.ZipFile(io.BytesIO(file)).testzip() is None
        run = subprocess.run([program], input=file, capture_output=True, check=False)
        found, wanted = run.stdout.decode().splitlines(), list(lines_of(file))
        if found != wanted:
            sys.exit(f"workbook {number}: wanted {wanted}, found {found} {run.stderr.decode()}")
        parts += len(wanted)
    for kind, count in sorted(kinds.items()):
        print(f"{count:>6,} {kind}")
    print(f"{parts:>6,} parts of {asked.count} workbooks agree")


if __name__ == "__main__":
    main()
