#!/usr/bin/env python3
"""Measures the program `unpack` beside Python's `zlib` on the packed markup of a sheet of 400,000
cells, and of one of half as many, and prints one table; a figure that isn't kept is told, and ends
the script with the status 1 (docs/PERFORMANCE.md).

The streams are raw DEFLATE streams of level 6. `unpack` reads one, unpacks it and makes its
checksum, as a process of its own: its seconds are those of processor time, start and reading
included. Its peak is that of its resident memory (`VmHWM` of /proc) once it writes what it holds,
and is told beyond that of a run on a few bytes. `zlib` is `zlib.decompress(stream, -15)` and then
`zlib.crc32`, in a process of Python, without its start. Of each the best of the repeats counts.
Lengths and checksums are compared.
"""

import argparse
import os
import subprocess
import sys
import tempfile
import zlib

from measure import add_repeats, each, measured, mib, table
from unpacking import add_program, program_of

# Rows of four cells.
ROWS = 100_000

# At least so much of zlib's speed, at most so much time for twice the bytes, and at most so many
# bytes of memory beyond those of the stream and of what it holds.
SPEED, GROWTH, MEMORY = 0.5, 2.05, 2**20

# What these scripts are given: a folder, the file of a stream, and a number.
PACK = """\
import sys, zlib
sys.path.insert(0, sys.argv[1])
from books import Numbered, sheet
packing = zlib.compressobj(6, zlib.DEFLATED, -15)
with open(sys.argv[2], "wb") as out:
    for piece in sheet(Numbered(1), int(sys.argv[3])):
        out.write(packing.compress(piece.encode()))
    out.write(packing.flush())
"""
UNPACK = """\
import sys, time, zlib
stream = open(sys.argv[2], "rb").read()
best = None
for _ in range(int(sys.argv[3])):
    began = time.process_time()
    held = zlib.decompress(stream, -15)
    checksum = zlib.crc32(held)
    took = time.process_time() - began
    best = took if best is None else min(best, took)
    length = len(held)
    del held
print(best, length, checksum)
"""

# More than a pipe takes, so that what holds it waits.
FEW = bytes(2**17)


def by_python(script, path, number):
    words = [sys.executable, "-c", script, os.path.dirname(os.path.abspath(__file__)), path]
    return subprocess.run([*words, str(number)], capture_output=True, check=True, text=True).stdout


def peak_of(program, path):
    """The peak of resident memory, in bytes, of a program that writes what a stream holds."""
    with open(path, "rb") as stream:
        child = subprocess.Popen([program], stdin=stream, stdout=subprocess.PIPE)
    with child:
        child.stdout.read(1)
        with open(f"/proc/{child.pid}/status", encoding="ascii") as status:
            peak = next(line.split()[1] for line in status if line.startswith("VmHWM:"))
        while child.stdout.read(2**20):
            pass
    return 1024 * int(peak)


class Stream:
    """A packed sheet of so many rows, and the runs on it."""

    def __init__(self, folder, program, rows):
        self.program, self.rows = program, rows
        self.path = os.path.join(folder, f"sheet-{rows}")
        self.said = os.path.join(folder, f"said-{rows}.txt")
        self.runs = []
        by_python(PACK, self.path, rows)
        self.size = os.path.getsize(self.path)

    def run(self):
        self.runs.append(measured([self.program, "sum"], self.path, self.said))

    def compare(self, repeats):
        """Runs zlib, and compares what both say."""
        best, self.length, checksum = by_python(UNPACK, self.path, repeats).split()
        self.zlib, self.length = float(best), int(self.length)
        with open(self.said, encoding="ascii") as said:
            if said.read() != f"{self.length} {checksum} 0\n":
                sys.exit(f"inflate.py: another answer than zlib's on {self.path}")

        self.peak = peak_of(self.program, self.path)

    def best(self):
        return each(min, self.runs)

    def beyond(self, base):
        """How many bytes the peak is beyond the bytes of the stream and of what it holds."""
        return self.peak - base - self.size - self.length

    def row(self, base):
        seconds = self.best().processor
        return [
            f"{4 * self.rows:,}",
            f"{self.size:,}",
            f"{self.length:,}",
            f"{seconds:.3f}",
            f"{self.zlib:.3f}",
            f"{self.zlib / seconds:.2f}",
            mib(self.peak),
            f"{self.beyond(base) / 2**20:.2f}",
        ]


def kept(half, whole, base):
    """The figures that aren't kept."""
    for stream in (half, whole):
        speed = stream.zlib / stream.best().processor
        if speed < SPEED:
            yield f"{speed:.2f} of zlib's speed, and {SPEED} is wanted"
        if stream.beyond(base) > MEMORY:
            yield f"{stream.beyond(base):,} bytes of memory beyond those that are held"
    growth = whole.best().processor / half.best().processor
    if growth > GROWTH * whole.length / half.length / 2:
        yield f"{growth:.2f} times the time, and {GROWTH} are allowed"


def main():
    parser = argparse.ArgumentParser(description=__doc__.splitlines()[0])
    add_repeats(parser, 7)
    add_program(parser)
    asked = parser.parse_args()
    program = program_of(asked)
    with tempfile.TemporaryDirectory() as folder:
        few = os.path.join(folder, "few")
        with open(few, "wb") as out:
            out.write(zlib.compress(FEW, wbits=-15))
        half, whole = (Stream(folder, program, rows) for rows in (ROWS // 2, ROWS))
        base = peak_of(program, few) - len(FEW)
        for _ in range(asked.repeats):
            half.run()
            whole.run()
        half.compare(asked.repeats)
        whole.compare(asked.repeats)
        head = ["cells", "packed", "bytes", "seconds", "zlib", "speed", "peak MiB", "MiB beyond"]
        table(head, [half.row(base), whole.row(base)])
        wrong = list(kept(half, whole, base))
    for one in wrong:
        print(f"inflate.py: {one}")
    return 1 if wrong else 0


if __name__ == "__main__":
    sys.exit(main())
