"""What the scripts of this folder share: package texts, the program, runs that are measured, and
their table."""

import hashlib
import json
import os
import pathlib
import subprocess
import sys
from typing import NamedTuple

TOP = pathlib.Path(__file__).resolve().parent.parent
sys.path.append(str(TOP / "tools"))

from place import PROGRAM  # noqa: E402

# The most bytes that the program reads.
LIMIT = 67_108_864

ONE_RUN = str(TOP / "bench" / "one_run.py")

JSON_LOAD = [sys.executable, "-c", "import json, sys; json.load(sys.stdin)"]

TYPES = "http://schemas.openxmlformats.org/officeDocument/2006/relationships/"


def start(name, attributes=""):
    return ["s", name, attributes]


def end(name):
    return ["e", name]


def relationships(kinds_and_targets):
    """A part of relationships, whose Ids are rId1, rId2 and so on."""
    yield start("Relationships")
    for number, (kind, target) in enumerate(kinds_and_targets, 1):
        attributes = f' Id="rId{number}" Type="{TYPES}{kind}" Target="{target}"'
        yield start("Relationship", attributes)
        yield end("Relationship")
    yield end("Relationships")


# The part that says where the workbook is.
OFFICE = ("_rels/.rels", list(relationships([("officeDocument", "xl/workbook.xml")])))


def spelled(value):
    return json.dumps(value, separators=(",", ":"))


def joined(events):
    """Events of version 1 in version 2: a start and the end of its name behind it are one."""
    held = None
    for event in events:
        if held is not None and event == ["e", held[1]]:
            yield ["b", *held[1:]]
            held = None
            continue
        if held is not None:
            yield held
        held = event if event[0] == "s" else None
        if held is None:
            yield event
    if held is not None:
        yield held


# What makes the events of a version of those of version 1.
FORMS = {1: iter, 2: joined}


def upgraded(path):
    """The text in version 2 of a package text, as Python writes it, and a line feed."""
    with open(path, encoding="utf-8") as text:
        value = json.load(text)
    for part in value["parts"]:
        part["events"] = list(joined(part["events"]))
    value["version"] = 2
    text = json.dumps(value, ensure_ascii=False, separators=(",", ":"), sort_keys=True)
    return f"{text}\n".encode()


def write_part(out, name, events):
    """Writes a part, and answers the number of its events."""
    out.write(f'{{"name":{spelled(name)},"events":[')
    count = 0
    for event in events:
        out.write(("," if count else "") + spelled(event))
        count += 1
    out.write("]}")
    return count


def add_repeats(parser, repeats):
    parser.add_argument(
        "--repeats",
        type=int,
        default=repeats,
        help=f"runs of each (default: {repeats})",
    )


def add_program(parser):
    parser.add_argument(
        "--program",
        help="a program that is built already (default: that of this repository, which is built "
        "where that is due)",
    )


def build():
    """Builds the program of this repository, where that is due."""
    subprocess.run([TOP / "xlsx", "--version"], stdout=subprocess.DEVNULL, check=True)


def program_of(asked):
    if asked.program is not None:
        return os.path.abspath(asked.program)
    build()
    return str(PROGRAM)


class Run(NamedTuple):
    """The seconds that went by, those of processor time, and the peak memory in bytes."""

    seconds: float
    processor: float
    peak: int


def ran(words, stdin, stdout=os.devnull, stderr=None):
    """Runs the words, and answers how they ended and what was measured: a status, or the number of
    a signal below 0."""
    read, write = os.pipe()
    os.set_inheritable(write, True)
    written = os.O_WRONLY | os.O_CREAT | os.O_TRUNC
    files = [
        (os.POSIX_SPAWN_OPEN, 0, stdin, os.O_RDONLY, 0),
        (os.POSIX_SPAWN_OPEN, 1, stdout, written, 0o600),
    ]
    if stderr is not None:
        files.append((os.POSIX_SPAWN_OPEN, 2, stderr, written, 0o600))
    own = [sys.executable, "-E", "-s", "-S", ONE_RUN, str(write), *words]
    child = os.posix_spawn(own[0], own, os.environ, file_actions=files)
    os.close(write)
    with open(read, encoding="ascii") as told:
        ended, *used = told.read().split()
    os.waitpid(child, 0)
    seconds, processor, peak = used
    return int(ended), Run(float(seconds), float(processor), int(peak))


def measured(words, stdin, stdout=os.devnull, stderr=None, statuses=(0,)):
    """Runs the words, which are to end with one of the statuses."""
    ended, run = ran(words, stdin, stdout, stderr)
    if ended not in statuses:
        sys.exit(f"{' '.join(words)} ended with {ended}")
    return run


def each(choose, runs):
    """What is chosen of each thing that was measured of the runs, as the lowest."""
    return Run(*map(choose, zip(*runs)))


class Listing:
    """What the program must print."""

    def __init__(self):
        self.lines = 0
        self.first = b""
        self.last = b""
        self.sum = hashlib.sha256()

    def add(self, lines):
        each = lines.splitlines(keepends=True)
        self.lines += len(each)
        if each:
            self.first = self.first or each[0]
            self.last = each[-1]
        self.sum.update(lines)


def check(path, listing):
    """Compares what the program wrote with what it must print."""
    found = Listing()
    with open(path, "rb") as lines:
        for line in lines:
            found.add(line)
    name_of_script = os.path.basename(sys.argv[0])
    if found.lines != listing.lines:
        sys.exit(f"{name_of_script}: {found.lines} lines in place of {listing.lines}")
    for name in ("first", "last"):
        if getattr(found, name) != getattr(listing, name):
            sys.exit(f"{name_of_script}: the {name} line is {getattr(found, name)!r}")
    if found.sum.digest() != listing.sum.digest():
        sys.exit(f"{name_of_script}: a line between the first and the last is wrong")


class Measured:
    """A package text of some size and so many rows, with the listing that words must print of it,
    and the runs on it: those of the program, each checked, and those of json.load of the text."""

    def __init__(self, folder, name, words):
        self.words = words
        self.package = os.path.join(folder, f"package-{name}.json")
        self.lines = os.path.join(folder, f"lines-{name}.txt")
        self.ours, self.json = [], []

    def run(self):
        self.ours.append(measured(self.words, self.package, self.lines))
        check(self.lines, self.listing)
        self.json.append(measured(JSON_LOAD, self.package))

    def best(self):
        return each(min, self.ours), each(min, self.json)

    def row(self, name):
        (seconds, _, peak), (json_seconds, _, json_peak) = self.best()
        return [
            name,
            f"{self.size:,}",
            f"{self.rows:,}",
            f"{seconds:.2f}",
            f"{json_seconds:.2f}",
            f"{seconds / json_seconds:.2f}",
            mib(peak),
            mib(json_peak),
            f"{peak / json_peak:.2f}",
        ]


def growth_of(half, whole):
    pairs = zip(sum(half.best(), ()), sum(whole.best(), ()))
    seconds, _, peak, json_seconds, _, json_peak = (f"{b / a:.2f}" for a, b in pairs)
    size, rows = f"{whole.size / half.size:.2f}", f"{whole.rows / half.rows:.2f}"
    return ["growth", size, rows, seconds, json_seconds, "", peak, json_peak, ""]


def head_of(rows):
    """The head of a table of such rows, by what they count."""
    measures = ["seconds", "json.load", "ratio", "peak MiB", "json.load", "ratio"]
    return ["text", "bytes", rows, *measures]


def mib(size):
    return f"{size / 2**20:,.0f}"


def table(head, rows):
    widths = [max(map(len, column)) for column in zip(head, *rows)]
    lines = [head, ["-" * width for width in widths], *rows]
    for line in lines:
        print("| " + " | ".join(map(str.rjust, line, widths)) + " |")
