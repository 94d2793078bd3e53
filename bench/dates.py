#!/usr/bin/env python3
"""Compares the date of each day from 1900 to 9999, in both calendars, with Python's datetime: what
`csv S --dates` prints of a column of all serials, in workbooks of so many at a time.

    bench/dates.py [ROWS]

A time of day goes with each serial, another from one to the next."""

import datetime
import pathlib
import subprocess
import sys
import time

HERE = pathlib.Path(__file__).resolve().parent
sys.path.insert(0, str(HERE.parent / "tools"))

from support.noted import SHEET_NAME, WORKBOOK, WORKBOOK_NAME, package_with, with_data
from test_program import BUILDS, OUT
from test_rows import STYLES

ROWS = 100_000
DAY = datetime.timedelta(days=1)
DATED = (WORKBOOK_NAME, WORKBOOK[1].replace("<sheets>", '<workbookPr date1904="1"/><sheets>'))


def told(day, minutes, is_1904):
    """The text of a day and of the minutes behind its midnight, by Python's datetime."""
    clock = f"{minutes // 60:02}:{minutes % 60:02}:00"
    if not is_1904 and day == 0:
        return clock
    behind = f"T{clock}" if minutes else ""
    if not is_1904 and day == 60:
        return f"1900-02-29{behind}"
    first = datetime.date(1904, 1, 1) if is_1904 else datetime.date(1899, 12, 31)
    return (first + (day - (not is_1904 and day > 60)) * DAY).isoformat() + behind


def compare(first, last, is_1904):
    """How many seconds the program takes for these days, whose texts must be Python's."""
    cells, wanted = [], []
    for day in range(first, last):
        minutes = day * 7 % 1440
        # Sixteenths of a day are exact decimals.
        minutes -= minutes % 90
        cells.append(f'<c r="A{day - first + 1}" s="1"><v>{day + minutes / 1440}</v></c>')
        wanted.append(told(day, minutes, is_1904))
    parts = (DATED,) if is_1904 else ()
    package = package_with((SHEET_NAME, with_data("".join(cells))), STYLES, *parts)
    began = time.monotonic()
    words = [OUT / BUILDS[0], "csv", "S", "--dates"]
    ran = subprocess.run(words, input=package, capture_output=True, check=True)
    seconds = time.monotonic() - began
    found = ran.stdout.decode().splitlines()
    for day, one, other in zip(range(first, last), wanted, found):
        if one != other:
            sys.exit(f"day {day}: {other} in place of {one}")
    if len(found) != last - first:
        sys.exit(f"{len(found)} rows in place of {last - first}")
    return seconds


def main():
    rows = int(sys.argv[1]) if len(sys.argv) > 1 else ROWS
    for is_1904, days in ((False, 2_958_466), (True, 2_957_004)):
        seconds = sum(
            compare(first, min(first + rows, days), is_1904) for first in range(0, days, rows)
        )
        print(f"from {1904 if is_1904 else 1900}: {days} days agree, {seconds:.1f} s")


if __name__ == "__main__":
    main()
