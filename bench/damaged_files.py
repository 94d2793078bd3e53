#!/usr/bin/env python3
"""Tries the program on workbook files that are cut at 1,000 places, and with each of 1,000 bytes
turned, and prints how many ended with which status.

The files are samples of this repository. No run may end by a signal or with a status that
docs/FORMAT.md hasn't, and none that is refused may write anything. Lines that differ from those of
the whole file have to be those of the package text that Python makes of the damaged one.
"""

import argparse
import collections
import random
import subprocess
import sys
import zipfile

from measure import TOP, add_program, program_of

import test_whole_text

SAMPLES = sorted((TOP / "samples").glob("*.xlsx"))
COMMANDS = (["cells"], ["csv"], ["links"])
# Those of a refusal of an input, of a workbook and for want of memory, and the statuses of files.
STATUSES = {0, 4, 5, 6, 8, 11, 12, 13, 14}


def answer(program, words, data):
    ran = subprocess.run([program, *words], input=data, capture_output=True)
    return ran.returncode, ran.stdout


def damaged(chance, data, count):
    """What shows the damage, and the file with it."""
    for place in sorted(chance.sample(range(len(data)), min(count, len(data)))):
        yield f"cut at {place}", data[:place]
    for place in sorted(chance.sample(range(len(data)), min(count, len(data)))):
        turned = bytearray(data)
        turned[place] ^= chance.randrange(1, 256)
        yield f"byte {place} turned to {turned[place]}", bytes(turned)


class Trial:
    """A program, how often it ended with each status, and what was wrong."""

    def __init__(self, program):
        self.program, self.counts, self.faults = program, collections.Counter(), []

    def look(self, shown, words, data, whole):
        status, lines = answer(self.program, words, data)
        if status not in STATUSES or status and lines:
            self.faults.append(f"{shown}, {words[0]}: status {status}, {len(lines)} bytes")
        if status == 0 and lines != whole[1]:
            self.counts["other lines"] += 1
            self.compare(shown, words, data, lines)
        self.counts[status] += 1

    def compare(self, shown, words, data, lines):
        """Sees that other lines are those of the text of the damaged file."""
        try:
            text = test_whole_text.text_of(data)
        except (zipfile.BadZipFile, *test_whole_text.BROKEN):
            # Python looks at the directory otherwise.
            self.counts["of which Python reads no text"] += 1
            return
        if answer(self.program, words, text) != (0, lines):
            self.faults.append(f"{shown}, {words[0]}: lines that the text of the file hasn't")


def main():
    parser = argparse.ArgumentParser(description=__doc__.split("\n\n")[0])
    add_program(parser)
    parser.add_argument("--seed", type=int, default=1, help="the first of the chances (default: 1)")
    parser.add_argument(
        "--count", type=int, default=1000, help="places, and bytes, over all files (default: 1,000)"
    )
    asked = parser.parse_args()
    trial, chance = Trial(program_of(asked)), random.Random(asked.seed)
    for path in SAMPLES:
        data = path.read_bytes()
        sheets = answer(trial.program, ["sheets"], data)[1].decode().splitlines()
        name = next(line.split("\t")[0] for line in sheets if "\tworksheet\t" in line)
        each = [[*words, name] for words in COMMANDS]
        wholes = {words[0]: answer(trial.program, words, data) for words in each}
        for shown, bad in damaged(chance, data, -(-asked.count // len(SAMPLES))):
            for words in each:
                trial.look(f"{path.name} {shown}", words, bad, wholes[words[0]])
    for key, count in sorted(trial.counts.items(), key=lambda pair: str(pair[0])):
        print(f"{key}: {count:,}")
    for fault in trial.faults:
        print(fault)
    sys.exit(1 if trial.faults else 0)


if __name__ == "__main__":
    main()
