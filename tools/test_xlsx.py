"""Tries ./xlsx with a program and an rt that stand in for the real ones, and with those."""

import fcntl
import os
import re
import resource
import shutil
import signal
import struct
import subprocess
import sys
import time
import unittest
import zlib

from support.fixtures import LINES, MINIMAL, archive, package_text
from support.front_copy import TOP, FrontCopy
from words import COMMANDS, USAGE, is_of_sheet

PROGRAM = TOP / "crates" / "xlsx_tool" / "out" / "xlsx_tool"

# Waits behind its first line.
SLOW = """\
#!/bin/sh
[ "$*" = "cells 0" ] || exit 2
[ "$(wc -c)" -gt 0 ] || exit 5
echo slow
exec sleep 300
"""
# Takes the words `cells NAME`, and prints what address space it may have, in KiB.
BOUNDED = """\
#!/bin/sh
[ "$(cat | wc -c)" -gt 0 ] || exit 5
ulimit -v
"""
# Lists sheets, tables and pivot tables, two sheets of one name among them, and tells which sheet,
# table or pivot table it is asked for; there is none of the name that begins with `no`.
LISTING = """\
#!/bin/sh
[ "$(head -c 3)" != nut ] || { echo 'not a package' >&2; exit 5; }
cat >/dev/null
case "$1:$2" in
sheets:)
    printf 'Chart\\tchartsheet\\tvisible\\nFirst\\tworksheet\\tvisible\\n'
    printf 'a/b\\\\tc\\tworksheet\\thidden\\nFirst\\tworksheet\\tvisible\\n'
    printf '.%%\\tworksheet\\tvisible\\n'
    ;;
tables:) for n in 1 2 3 4 5 6 7 8 9 10 11 12; do printf "T$n\\tFirst\\tA1:B2\\tx\\n"; done ;;
pivots:) printf 'First\\tSold\\n' ;;
*:--sheet) printf '%s of sheet %s\\n' "$1" "$3" ;;
table:no*) echo "Table '$2' not found" >&2; exit 6 ;;
pivot:*) echo "Pivot Table '$3' was not found on worksheet" >&2; exit 6 ;;
*:no*) echo "Worksheet '$2' not found" >&2; exit 6 ;;
*) [ ! -e "$FAILING" ] || [ "$2" = First ] || { echo "box too large" >&2; exit 10; }
    printf '%s of %s\\n' "$1" "$2" ;;
esac
"""
# Tells its words, and of one sheet.
WORDED = """\
#!/bin/sh
cat >/dev/null
[ "$1" != sheets ] || { printf 'First\\tworksheet\\tvisible\\n'; exit; }
[ "$1" != tables ] || exit 0
[ "$1" != part ] || { echo xl/worksheets/sheet1.xml; exit; }
said=$1
shift
for word; do said="$said | $word"; done
printf '%s\\n' "$said"
"""
# Answers the bytes that it is given.
PASSING = """\
#!/bin/sh
[ "$*" = upgrade ] || exit 2
exec cat
"""
# Refuses what it is given as a package that is none.
REFUSING = """\
#!/bin/sh
cat >/dev/null
echo 'not a package' >&2
exit 5
"""
# Words that are references of a cell, and such that are none.
REFERENCES = ("A1", "a7", "XFD1048576", "XFE1", "ZZZ1", "A1048577", "AAAA1", "A01", "A0", "7", "A")
REFERENCES += ("", "$A$7", "A1:B2", "\u00e91", "A\u0661", "A1 ", "1A", "A" + "0" * 5_000 + "7")
UNPROVED = (
    "xlsx: this answer is not proved; past 1 MiB of lines or a minute's run there is none\n"
)


def directory_entry(name):
    """An entry of a compound file's directory."""
    text = f"{name}\0".encode("utf-16-le")
    return text.ljust(64, b"\0") + struct.pack("<H", len(text)) + bytes(62)


def with_entry(data, name, packed, size):
    """An archive with one entry more, of these packed bytes, which are to unpack to so many."""
    end = data.rindex(b"PK\5\6")
    count, length, at = struct.unpack("<HII", data[end + 10 : end + 20])
    said = struct.pack("<HHHHHIIIHH", 20, 0, 8, 0, 33, 0, len(packed), size, len(name), 0)
    own = b"PK\3\4" + said + name.encode() + packed
    header = b"PK\1\2" + struct.pack("<H", 20) + said + bytes(10) + struct.pack("<I", at)
    directory = data[at : at + length] + header + name.encode()
    told = struct.pack("<HHII", count + 1, count + 1, len(directory), at + len(own))
    return data[:at] + own + directory + b"PK\5\6" + bytes(4) + told + bytes(2)


class Wrapper(FrontCopy):
    # The build

    def log(self):
        return self.place / "proving.log"

    def proving(self, *proved):
        """What is said before and during a build in which these crates are proved."""
        said = "xlsx: no proved program is there yet: proving takes half an hour to an hour; "
        said += "--unproved answers in a minute or two\n"
        said += f"xlsx: proving; what rt says goes to {self.log().resolve()}\n"
        for left, name in zip((1, 0), proved):
            said += f"xlsx: {name} is proved; {left} left, 0 min so far\n"
        return said

    def built(self):
        return f"{self.proving('low', 'xlsx_tool')}xlsx: built\n"

    def test_a_first_run_says_what_is_proved_and_how_much_is_left(self):
        ran = self.run_on("cells", "0", data=b"12")
        self.assertEqual(ran, (0, b"cells 0: 2\n", self.built()))
        said = "rt lib --jobs N speaks of low\nrt run --jobs N -- --version speaks of xlsx_tool\n"
        said += "../low/out/rlib\n"
        self.assertEqual(re.sub(r"--jobs [12]\b", "--jobs N", self.log().read_text()), said)

    def test_proofs_go_side_by_side(self):
        crates = self.folder / "top" / "crates"
        for name in ("left", "right"):
            (crates / name).mkdir()
        table = "xlsx_tool: left right\nleft: low\nright: low\nlow:\n"
        (self.folder / "top" / "crates.txt").write_text(table)
        (self.folder / "meeting").mkdir()
        prove = self.folder / "top" / "tools" / "prove.py"
        prove.write_text(prove.read_text().replace("os.cpu_count() or 1", "2"))
        status, lines, said = self.run_on("cells", "0", data=b"12")
        self.assertEqual((status, lines), (0, b"cells 0: 2\n"), said)
        # What is built lies beside the program's copy, and nothing in the crates.
        built = [f"../{name}/out/rlib" for name in ("left", "low", "right")]
        self.assertEqual(self.log().read_text().splitlines()[-3:], built)
        self.assertEqual(list(crates.glob("*/out")), [])

    def test_a_second_proof_waits_for_the_first(self):
        self.written("waiting", "")
        words = [self.folder / "top" / "xlsx", "cells", "0"]
        given = {"env": self.environment(), "stdin": subprocess.DEVNULL}
        given.update(stdout=subprocess.PIPE, stderr=subprocess.PIPE)
        runs = [subprocess.Popen(words, **given) for _ in range(2)]
        said = [run.communicate() for run in runs]
        self.assertEqual([lines for lines, _ in said], [b"cells 0: 0\n"] * 2)
        waits = b"xlsx: another proof is at work here, and this one waits for it\n"
        self.assertEqual(sum(waits in error for _, error in said), 1, said)

    def test_what_an_ended_proof_left_is_begun_with(self):
        self.run_on("cells", "0")
        self.program.unlink()
        (lanes,) = (self.folder / "cache").glob("xlsx-*/lanes")
        crate = lanes / "low" / "crates" / "low"
        for name in ("out/kept", "src/gone"):
            (crate / name).parent.mkdir(exist_ok=True)
            (crate / name).write_text("")
        (crate.parent / "gone").mkdir()
        (lanes / "low" / "gone").mkdir()
        self.assertEqual(self.run_on("cells", "0"), (0, b"cells 0: 0\n", self.built()))
        found = [str(path.relative_to(crate.parent.parent)) for path in crate.rglob("*")]
        self.assertEqual(sorted(found), [f"crates/low/out{end}" for end in ("", "/kept", "/rlib")])

    def test_what_is_built_has_a_place_without_git_and_in_a_worktree(self):
        git = self.place.parent
        git.rmdir()
        self.assertEqual(self.run_on("cells", "0")[:2], (0, b"cells 0: 0\n"))
        self.assertEqual(len(list((self.folder / "cache").glob("xlsx-*/xlsx_tool"))), 1)
        git.write_text("gitdir: ../of/worktree\n")
        (self.folder / "of" / "worktree").mkdir(parents=True)
        self.assertEqual(self.run_on("cells", "0")[:2], (0, b"cells 0: 0\n"))
        self.assertTrue((self.folder / "of" / "worktree" / "xlsx" / "xlsx_tool").is_file())

    def test_the_program_of_the_gate_is_taken_if_it_is_whole_and_nobody_works_on_it(self):
        left = self.crate / "out" / "xlsx_tool"
        left.parent.mkdir()
        shutil.copy(self.folder / "program", left)
        held = os.open(self.crate, os.O_RDONLY)
        fcntl.flock(held, fcntl.LOCK_EX)
        self.assertFalse(self.run_on("--help")[1].endswith(b"\npage\n"))
        os.close(held)
        self.written("failing", "")
        self.assertEqual(self.run_on("cells", "0"), (0, b"cells 0: 0\n", ""))
        self.assertEqual(self.program.read_bytes(), left.read_bytes())
        self.program.unlink()
        left.write_bytes(b"#!/bin/sh\nexit 1\n")
        self.assertEqual(self.run_on("cells", "0")[0], 1)

    def test_a_long_proof_tells_how_far_it_is(self):
        self.written("waiting", "")
        prove = self.folder / "top" / "tools" / "prove.py"
        prove.write_text(prove.read_text().replace("QUIET = 60", "QUIET = 1"))
        status, _, said = self.run_on("cells", "0", data=b"12")
        self.assertEqual(status, 0)
        line = "xlsx: at work: xlsx_tool, 3 of 7 functions, 0 min so far\n"
        self.assertIn(line, said)

    def test_a_fresh_program_is_run_without_a_word(self):
        self.build()
        self.assertEqual(self.run_on("cells", "0", data=b"12"), (0, b"cells 0: 2\n", ""))

    def test_a_program_older_than_its_source_is_built_anew(self):
        self.build()
        os.utime(self.program, (1, 1))
        self.assertEqual(self.run_on("cells", "0"), (0, b"cells 0: 0\n", self.built()))
        self.assertEqual(self.run_on("cells", "0"), (0, b"cells 0: 0\n", ""))

    def test_a_build_that_fails(self):
        self.written("failing", "")
        said = f"{self.proving('low')}xlsx: xlsx_tool could not be built: the end of "
        said += f"{self.log().resolve()} says why\n"
        self.assertEqual(self.run_on("cells", "0"), (1, b"", said))

    def bare(self, *names):
        """A folder of commands that has these alone."""
        bare = self.folder / "bare"
        bare.mkdir()
        for name in names:
            # What stands among the commands for Python may be a script of a shell's.
            there = sys.executable if name == "python3" else shutil.which(name)
            (bare / name).symlink_to(there)
        return str(bare)

    def test_no_rt(self):
        said = "xlsx: rt, the command of the Rattle kit, is not among the commands (PATH)\n"
        path = self.bare("sh", "dirname", "python3")
        self.assertEqual(self.run_on("cells", "0", path=path), (1, b"", said))

    def test_no_python(self):
        said = "xlsx: python3, which ./xlsx is written in, is not among the commands (PATH)\n"
        path = self.bare("sh", "dirname")
        self.assertEqual(self.run_on("book.xlsx", "cells", "0", path=path), (1, b"", said))

    # Without a proof

    def test_an_unproved_answer_says_that_it_is_none(self):
        for status in (0, 6):
            self.assertEqual(
                self.run_on("--unproved", "book.xlsx", "cells", str(status)),
                (status, f"cells {status}: {self.size}\n".encode(), UNPROVED),
            )
        ran = self.run_on("--unproved", "cells", "5", data=b"12")
        self.assertEqual(ran, (5, b"cells 5: 2\n", UNPROVED))
        self.assertFalse(self.program.exists())

    def test_an_unproved_run_without_an_answer(self):
        said = f"{UNPROVED}xlsx: no answer without a proof: run=none runners=0 proved=no\n"
        self.assertEqual(self.run_on("--unproved", "cells", "9"), (1, b"", said))

    def test_a_proved_program_answers_in_place_of_an_unproved_run(self):
        self.build()
        ran = self.run_on("--unproved", "book.xlsx", "cells", "0")
        self.assertEqual(ran, (0, f"cells 0: {self.size}\n".encode(), ""))

    # Refused before the build

    def test_what_can_be_refused_is_refused_before_the_build(self):
        for name, why in (("n.xlsx", "No such file or directory"), ("bin", "Is a directory")):
            with self.subTest(name=name):
                said = f"{name}: can't be read: {why}\n"
                self.assertEqual(self.run_on(name, "cells", "S"), (3, b"", said))
        self.assertFalse(self.program.exists())

    # Words and files

    def test_the_words_and_the_status_are_the_programs(self):
        self.build()
        for status in (0, 5, 9):
            self.assertEqual(
                self.run_on("cells", str(status), data=b"1"),
                (status, f"cells {status}: 1\n".encode(), ""),
            )
        self.assertEqual(self.run_on("--version"), (0, b"version\n", ""))

    def test_a_workbook_file_is_the_programs_input(self):
        self.build()
        for status in (0, 6, 9):
            self.assertEqual(
                self.run_on("book.xlsx", "cells", str(status)),
                (status, f"cells {status}: {self.size}\n".encode(), ""),
            )

    def test_a_file_of_any_name(self):
        self.build()
        odd = "it's \"$HOME\" `ls`*\\"
        for name in ("book", "-b.xlsx", "a b\n.c", "cells", "--help", odd, "B.XLSX"):
            self.written(name, archive(MINIMAL))
            self.assertEqual(
                self.run_on(name, "cells", "0"), (0, f"cells 0: {self.size}\n".encode(), "")
            )

    def test_a_command_is_not_taken_for_a_file(self):
        self.build()
        self.written("cells", archive(MINIMAL))
        self.assertEqual(self.run_on("cells", "0", data=b"1"), (0, b"cells 0: 1\n", ""))

    def test_words_that_are_no_command(self):
        """What is wrong is told, before anything is built or read."""
        sheet = "the name of a sheet, or --sheet and its number, or neither for the first worksheet"
        quotes, reference = "put a name that has blanks in quotes", "and the reference of a cell"
        rows = "sample takes a number of rows, from 1 to 20,000"
        number = "--sheet takes the number of a sheet, from 1, and not"
        no_file = "and no file of that name"
        no_command = "there is no command"
        for_one = "For one, ./xlsx book.xlsx sheets lists its sheets"
        for words, said in (
            (["cell", "S"], f"there is no command 'cell', {no_file}: the nearest is cells"),
            (["none"], f"there is no command 'none', {no_file}"),
            (["CSV", "S"], f"there is no command 'CSV', {no_file}: the nearest is csv"),
            (["cells", "Sheet", "1"], f"cells takes {sheet}: {quotes}"),
            (["sheets", "S"], "sheets takes no further words"),
            (["-h"], "there is no option '-h'"),
            (["--help", "cells"], "--help stands alone"),
            (["sample", "0"], f"{rows}, and not '0'"),
            (["sample", "20001"], f"{rows}, and not '20001'"),
            (["sample", "-1"], f"{rows}, and not '-1'"),
            (["sample", "9" * 5000], f"{rows}, and not '{'9' * 5000}'"),
            (["cells", "--sheet", "0"], f"{number} '0'"),
            (["cells", "--sheet", "x"], f"{number} 'x'"),
            (["cells", b"\xff"], "'\\udcff' isn't UTF-8"),
            (
                ["--unproved", "book.xlsx", "cell", "S"],
                f"{no_command} 'cell': the nearest is cells",
            ),
            (["book.xlsx", "list"], "there is no command 'list': the nearest is links"),
            (["book.xlsx", "cells", "--", "S", "--sheet"], f"cells takes {sheet}: {quotes}"),
            (["book.xlsx", "cells", "S", "--sheet", "2"], f"cells takes {sheet}"),
            (["book.xlsx", "table"], "table takes the name of a table"),
            (["book.xlsx", "table", "--sheet", "2"], "table takes no option '--sheet'"),
            (["book.xlsx", "pivot"], f"pivot takes {sheet}, and the name of a pivot table"),
            (["dependents", "S"], f"dependents takes {sheet}, {reference}, and not 'S'"),
            (["book.xlsx", "dependents"], f"dependents takes {sheet}, {reference}"),
            (["book.xlsx", "graph", "S"], "graph takes no further words"),
            (["book.xlsx", "order", "--json"], "order takes no option '--json'"),
            (["book.xlsx", "cycles", "--all", "x"], "cycles takes no option '--all'"),
            (
                ["book.xlsx", "dependents", "A1", "--all", "--all"],
                "--all stands twice behind dependents",
            ),
            (["book.xlsx", "cells", "--dates"], "cells takes no option '--dates'"),
            (["book.xlsx", "--dates", "cells"], "cells takes no option '--dates'"),
            (["book.xlsx", "csv", "--date", "S"], "csv takes no option '--date'"),
            (["book.xlsx", "csv", "S", "--dates", "--dates"], "--dates stands twice behind csv"),
            (["book.xlsx", "csv", "--digits", "3"], "csv takes no option '--digits'"),
            (
                ["book.xlsx", "csv", "--digits=3", "--shown"],
                "--shown goes by the formats of cells, and takes no --digits beside it",
            ),
            (
                ["book.xlsx", "csv-table", "T", "--shown", "--dates"],
                "--shown goes by the formats of cells, and takes no --dates beside it",
            ),
            (["book.xlsx", "table", "T", "--shown"], "table takes no option '--shown'"),
            (["book.xlsx", "csv", "S", "--header"], "csv takes no option '--header'"),
            (
                ["book.xlsx", "rows", "S", "--header"],
                "rows takes --json: there are no rows in another form but those of csv",
            ),
            (
                ["book.xlsx", "rows-table", "T"],
                "rows-table takes --json: there are no rows in another form but those of csv-table",
            ),
            (
                ["book.xlsx", "rows-table", "T", "--json", "--header"],
                "rows-table takes no option '--header'",
            ),
            (
                ["book.xlsx", "rows", "S", "--json", "--shown", "--dates"],
                "--shown goes by the formats of cells, and takes no --dates beside it",
            ),
            (["book.xlsx", "cells", "--sheet"], "--sheet takes the number of a sheet, from 1"),
            (["cells", "--sheet", "1", "--sheet", "1"], "--sheet stands twice"),
            (["book.xlsx", "csv", "--all"], "--all takes the name of a folder"),
            (["book.xlsx", "csv", "S", "--all", "x"], "csv --all takes a folder, and no sheet"),
            (["book.xlsx", "cells", "--all", "x"], "cells takes no option '--all'"),
            (["book.xlsx", "csv", "--to", "x"], "csv takes no option '--to'"),
            (["book.xlsx", "resave", "S", "--to"], "--to takes the name of a file"),
            (["book.xlsx", "sheets", "--crlf"], "sheets takes no option '--crlf'"),
            (["cells", "--help"], "--help stands alone"),
            (["--dates"], "there is no command beside '--dates'"),
            (["book.xlsx", "sample", "5"], "sample makes its own package, and reads no file"),
            (["book.xlsx", "-h"], "there is no option '-h'"),
            (["book.xlsx", "--help"], "--help stands alone"),
            (["none.xlsx", "cell", "0"], "there is no command 'cell': the nearest is cells"),
            (["book.xlsx"], f"what of book.xlsx is asked for? {for_one}"),
        ):
            self.check_words(*words, said=said)
        self.assertFalse(self.program.exists())

    def test_no_words_at_all(self):
        for words in ([], ["--unproved"]):
            self.assertEqual(self.run_on(*words), (2, b"", USAGE))

    def test_a_workbook_of_standard_input(self):
        self.build()
        data = self.book.read_bytes()
        wanted = 0, f"cells 0: {self.size}\n".encode(), ""
        self.assertEqual(self.run_on("-", "cells", "0", data=data), wanted)
        with open(self.book, "rb") as file:
            file.seek(0)
            self.assertEqual(self.run_on("-", "cells", "0", data=None, stdin=file), wanted)

    def test_a_terminal_is_told_what_is_waited_for(self):
        self.build()
        terminal, end = os.openpty()
        self.addCleanup(os.close, terminal)
        os.write(terminal, b"nut\n\4")
        ran = self.run_on("cells", "0", data=None, stdin=end)
        os.close(end)
        said = "xlsx: waiting for a package text at the terminal; "
        said += "./xlsx FILE.xlsx cells .. reads a file\n"
        self.assertEqual(ran, (0, b"cells 0: 4\n", said))

    # Sheets by number, all sheets, and names that there are

    def list_with(self):
        self.build(self.written("listing", LISTING))

    def test_a_sheet_by_its_number(self):
        self.list_with()
        for number, told in (("1", "1"), ("003", "3"), ("9" * 30, str(10**10)), (None, "first")):
            words = ["cells", "--sheet", number] if number else ["cells"]
            wanted = 0, f"cells of sheet {told}\n".encode(), ""
            self.assertEqual(self.run_on("book.xlsx", *words), wanted)
            self.assertEqual(self.run_on(*words, data=b"{}"), wanted)
            with open(self.book, "rb") as file:
                ran = self.run_on(*words, data=None, stdin=file)
            self.assertEqual(ran, wanted)

    def test_the_first_worksheet_where_no_sheet_is_named(self):
        self.list_with()
        for command in COMMANDS.values():
            if is_of_sheet(command):
                more = {"dependents": ["A1"], "pivot": ["none"]}.get(command.word, [])
                chosen = self.run_on("book.xlsx", command.word, "--sheet", "1", *more)
                ran = self.run_on("book.xlsx", command.word, *more)
                told = chosen[1].replace(b"sheet 1", b"sheet first")
                self.assertEqual(ran, (chosen[0], told, chosen[2]))
                self.assertEqual(self.run_on(command.word, *more, data=b"{}")[:2], ran[:2])

    def test_options_stand_anywhere_and_names_behind_two_hyphens(self):
        self.build(self.written("words", WORDED))
        csv = ["csv", "S", "--dates", "--crlf"]
        for words, wanted in (
            (["csv", "S", "--dates", "--crlf"], csv),
            (["csv", "--dates", "S", "--crlf"], csv),
            (["--dates", "csv", "--crlf", "S"], csv),
            (["csv", "--dates", "--crlf"], ["csv", "--sheet", "first", *csv[2:]]),
            (["csv", "--dates", "--sheet", "1"], ["csv", "--sheet", "1", "--dates"]),
            (["--sheet", "1", "cells"], ["cells", "--sheet", "1"]),
            (["dependents", "--sheet", "1", "A1"], ["dependents", "--sheet", "1", "A1"]),
            (["dependents", "S", "--all", "A1"], ["dependents", "S", "A1", "--all"]),
            (["dependents", "--all", "A1"], ["dependents", "--sheet", "first", "A1", "--all"]),
            (
                ["dependents", "A1", "--all", "--sheet", "1"],
                ["dependents", "--sheet", "1", "A1", "--all"],
            ),
            (["csv", "--crlf", "--", "--dates"], ["csv", "--dates", "--crlf"]),
            (["cells", "--", "--"], ["cells", "--"]),
            (["pivot", "--", "-a", "--b"], ["pivot", "-a", "--b"]),
            (["csv-table", "--bom", "--", "--bom"], ["csv-table", "--bom", "--bom"]),
            (["rows", "--header", "--json", "S"], ["rows", "S", "--json", "--header"]),
            (["rows", "S", "--shown", "--json"], ["rows", "S", "--json", "--shown"]),
            (["rows-table", "--json", "T"], ["rows-table", "T", "--json"]),
        ):
            with self.subTest(words=words):
                said = f"{' | '.join(wanted)}\n".encode()
                self.assertEqual(self.run_on("book.xlsx", *words), (0, said, ""))
                self.assertEqual(self.run_on(*words, data=b"{}"), (0, said, ""))
        first = [*csv[2:], "book.xlsx", "csv", "S"]
        self.assertEqual(self.run_on(*first), (0, f"{' | '.join(csv)}\n".encode(), ""))
        self.program.unlink()
        ran = self.run_on("book.xlsx", "cells", "0", "--unproved")
        self.assertEqual(ran, (0, f"cells 0: {self.size}\n".encode(), UNPROVED))

    def test_all_worksheets_as_csv(self):
        self.list_with()
        folder = self.folder / "made" / "here"
        self.assertEqual(self.run_on("book.xlsx", "csv", "--all", folder), (0, b"", ""))
        written = {path.name: path.read_text() for path in folder.iterdir()}
        wanted = {
            "First.csv": "csv of First\n",
            "a%2Fb%09c.csv": "csv of a/b\tc\n",
            "%2E%25.csv": "csv of .%\n",
        }
        self.assertEqual(written, wanted)

    def test_a_folder_of_workbooks_side_by_side_and_in_an_array_of_jobs(self):
        """As docs/USING.md shows it, word for word."""
        self.list_with()
        using = (TOP / "docs" / "USING.md").read_text(encoding="utf-8")
        blocks = using.split("```rust")[0].split("```\n")[1::2]
        folder, job = (block for block in blocks if "xargs" in block or "SLURM" in block)
        top = self.folder / "top"
        (top / "books" / "more").mkdir(parents=True)
        for name in ("a b.xlsx", "more/it's.xlsx"):
            shutil.copy(self.book, top / "books" / name)
        (top / "books" / "no.xlsx").write_text("nut")
        names = ["books/a b.xlsx", "books/more/it's.xlsx", "books/no.xlsx"]
        (top / "list").write_text("".join(f"{name}\n" for name in names))
        given = {"cwd": top, "env": self.environment(), "stdout": subprocess.PIPE}
        wanted = [f"{status} {name}" for status, name in zip((0, 0, 5), names)]
        subprocess.run(["sh", "-c", folder], **given)
        told = (top / "statuses").read_text().splitlines()
        self.assertEqual(sorted(told, key=lambda line: line.split(" ", 1)[1]), wanted)
        self.check_written(names)
        for number, line in enumerate(wanted, 1):
            given["env"]["SLURM_ARRAY_TASK_ID"] = str(number)
            ran = subprocess.run(["sh", "-c", job], **given)
            self.assertEqual((ran.stdout, f"{ran.returncode} {names[number - 1]}"), (b"", line))
            self.assertEqual((top / f"{names[number - 1]}.status").read_text(), f"{line}\n")
        self.check_written(names)

    def check_written(self, names):
        """What stands beside two workbooks and one that is none, and none of it any more."""
        for name in names:
            made = [self.folder / "top" / f"{name}{end}" for end in (".csv", ".said")]
            none = "" if name != names[-1] else "not a package\n"
            first = "" if none else "csv of sheet first\n"
            self.assertEqual([path.read_text() for path in made], [first, none])
            for path in made:
                path.unlink()

    def test_no_worksheet_is_written_where_one_is_refused(self):
        self.list_with()
        self.written("failing", "")
        folder = self.folder / "made"
        folder.mkdir()
        (folder / "First.csv").write_text("old")
        ran = self.run_on("book.xlsx", "csv", "--all", folder)
        self.assertEqual(ran, (10, b"", "'a/b\\x09c': box too large\n"))
        self.assertEqual([path.read_text() for path in folder.iterdir()], ["old"])
        ran = self.run_on("book.xlsx", "csv", "--all", "/dev/null")
        self.assertEqual((ran[0], ran[1]), (7, b""))

    def test_names_that_are_not_found(self):
        self.list_with()
        tables = ", ".join(f"'T{n}'" for n in range(1, 11))
        for words, first, second in (
            (
                ["cells", "no"],
                "Worksheet 'no' not found",
                "sheets: 'Chart', 'First', 'a/b\\x09c', 'First', '.%'",
            ),
            (["table", "no"], "Table 'no' not found", f"tables: {tables}, and 2 more"),
            (
                ["pivot", "First", "x"],
                "Pivot Table 'x' was not found on worksheet",
                "pivot tables: 'Sold' on 'First'",
            ),
        ):
            wanted = 6, b"", f"{first}\nxlsx: there are these {second}\n"
            self.assertEqual(self.run_on("book.xlsx", *words), wanted)

    def test_the_package_text_is_what_upgrade_prints(self):
        self.build(self.written("passing", PASSING))
        for word in ("package", "upgrade"):
            ran = self.run_on("book.xlsx", word)
            self.assertEqual(ran, (0, self.book.read_bytes(), ""))
        self.check_words("package", said="there is no command 'package', and no file of that name")

    def test_a_workbook_of_another_kind_is_told_as_what_it_is(self):
        self.build(self.written("refusing", REFUSING))
        mark = bytes.fromhex("d0cf11e0a1b11ae1").ljust(512, b"\0")
        opened = "application/vnd.oasis.opendocument.spreadsheet"
        for name, data, status, text in (
            ("book.xls", mark + directory_entry("Workbook"), 11, "an .xls workbook"),
            ("b.xlsx", mark + directory_entry("EncryptedPackage"), 12, "an encrypted workbook"),
            ("book.xlsb", archive({"xl/workbook.bin": "x"}), 11, "an .xlsb workbook"),
            ("book.ods", archive({"mimetype": opened}), 11, "an OpenDocument file"),
            ("compound.xls", mark, 5, "not a package"),
            ("archive.xlsx", archive({"a": "x"}), 5, "not a package"),
            ("cut.xlsx", archive({"a": "x"})[:-1], 5, "not a package"),
        ):
            self.written(name, data)
            save = ": save it as .xlsx" if status == 11 else ""
            said = f"{text}\n" if status == 5 else f"{name}: {text}{save}\n"
            for words in (["sheets"], ["cells"], ["cells", "--sheet", "1"], ["csv", "--all", "x"]):
                with self.subTest(name=name, words=words):
                    self.assertEqual(self.run_on(name, *words), (status, b"", said))

    def test_a_reader_that_goes_away_is_told_nothing(self):
        self.build()
        for words in (["book.xlsx", "cells", "0"], ["--help"]):
            to_read, to_write = os.pipe()
            os.close(to_read)
            if words != ["--help"]:
                self.build(self.written("faulty", "#!/bin/sh\necho 'write fault' >&2\nexit 7\n"))
            with open(to_write, "wb") as closed:
                self.assertEqual(self.run_on(*words, stdout=closed), (7, None, ""))
        with open("/dev/full", "wb") as full:
            ran = self.run_on("book.xlsx", "cells", "0", stdout=full)
        self.assertEqual(ran, (7, None, "write fault\n"))

    def test_a_file_that_is_refused(self):
        self.build()
        for name, text in (
            ("none.xlsx", "can't be read: No such file or directory"),
            ("NONE.XLSM", "can't be read: No such file or directory"),
            ("none.xls", "can't be read: No such file or directory"),
            ("bin", "can't be read: Is a directory"),
            ("/dev/fd/0", "can't be read: it is a pipe, and no file"),
            ("/dev/null", "can't be read: it is no regular file"),
        ):
            self.assertEqual(self.run_on(name, "cells", "0"), (3, b"", f"{name}: {text}\n"))

    def test_no_standard_input(self):
        self.build()
        shell = ["sh", "-c", '"$0" "$@" <&-', self.folder / "top" / "xlsx"]
        ran = subprocess.run(
            [*shell, "book.xlsx", "cells", "0"], cwd=self.folder, stdout=subprocess.PIPE
        )
        self.assertEqual((ran.returncode, ran.stdout), (0, f"cells 0: {self.size}\n".encode()))

    def test_a_signal_ends_all_at_once(self):
        self.build(self.written("slow", SLOW))
        room = self.folder / "room"
        room.mkdir()
        for number in (signal.SIGHUP, signal.SIGINT, signal.SIGTERM):
            child = subprocess.Popen(
                [self.folder / "top" / "xlsx", "book.xlsx", "cells", "0"],
                cwd=self.folder,
                env={**os.environ, "TMPDIR": str(room)},
                stdout=subprocess.PIPE,
                # A shell can't catch what was ignored when it began.
                preexec_fn=lambda: signal.signal(number, signal.SIG_DFL),
            )
            self.assertEqual(child.stdout.readline(), b"slow\n")
            child.send_signal(number)
            # The pipe is closed once the program has ended, too.
            self.assertEqual(child.communicate(timeout=100)[0], b"")
            self.assertEqual(child.returncode, 128 + number)
            self.assertEqual(list(room.iterdir()), [])

    def test_nothing_is_left_behind(self):
        self.build()
        room = self.folder / "room"
        room.mkdir()
        for words in (["book.xlsx", "cells", "0"], ["none.xlsx", "cells", "0"]):
            subprocess.run(
                [self.folder / "top" / "xlsx", *words],
                cwd=self.folder,
                env={**os.environ, "TMPDIR": str(room)},
                stdout=subprocess.DEVNULL,
                stderr=subprocess.DEVNULL,
            )
        self.assertEqual(list(room.iterdir()), [])

    # Memory

    def test_the_program_gets_no_more_address_space_than_is_asked_for(self):
        self.build(self.written("bounded", BOUNDED))
        for memory, bound in (
            (None, b"4194304"),
            ("4096", b"4194304"),
            ("100", b"102400"),
            ("0100", b"102400"),
            ("0", b"unlimited"),
            ("000000000000", b"unlimited"),
        ):
            with self.subTest(memory=memory):
                ran = self.run_on("book.xlsx", "cells", "S", memory=memory)
                self.assertEqual(ran, (0, bound + b"\n", ""))

    def test_a_bound_that_is_no_number_is_refused(self):
        self.build()
        for memory in ("", "x", "-1", "+1", "1.5", " 1", "1 ", "1k", "0x10", "1\n", "9" * 13):
            with self.subTest(memory=memory):
                shown = memory.replace("\n", "\\x0a")
                said = f"xlsx: XLSX_MEMORY is '{shown}': "
                said += "it takes a number of MiB, or 0 for no bound\n"
                said += "xlsx: ./xlsx --help says which words there are\n"
                self.assertEqual(self.run_on("cells", "0", memory=memory), (2, b"", said))

    def test_a_lower_bound_that_stands_already_stays(self):
        self.build(self.written("bounded", BOUNDED))
        for memory in (None, "0", "200"):
            with self.subTest(memory=memory):
                ran = self.run_on(
                    "cells",
                    "S",
                    data=b"1",
                    memory=memory,
                    preexec_fn=lambda: resource.setrlimit(resource.RLIMIT_AS, (2**27, 2**27)),
                )
                self.assertEqual(ran, (0, b"131072\n", ""))

    # The page

    def test_help_shows_both_forms_and_the_programs_page(self):
        self.build()
        status, out, said = self.run_on("--help")
        self.assertEqual((status, said), (0, ""))
        for text in (b"./xlsx FILE.xlsx WORDS", b"./xlsx WORDS < package.json"):
            self.assertIn(text, out)
        self.assertTrue(out.endswith(b"\npage\n"))

    def test_help_says_what_memory_the_program_gets(self):
        self.assertIn(b" 4096 MiB of address space", self.run_on("--help")[1])
        self.assertIn(b" 7 MiB of address space", self.run_on("--help", memory="7")[1])

    def test_help_builds_nothing_and_says_what_is_printed(self):
        status, out, said = self.run_on("--help")
        self.assertEqual((status, said), (0, ""))
        for text in (b"./xlsx FILE.xlsx WORDS", b"cells NAME", b"C2\tn:10.5\t=SUM(B$2:B2)\t-\n"):
            self.assertIn(text, out)
        self.assertFalse(self.program.exists())

    def test_help_on_a_full_device(self):
        self.build()
        with open("/dev/full", "wb") as full:
            self.assertEqual(self.run_on("--help", stdout=full), (7, None, "write fault\n"))

    # With the program itself

    def test_the_program_ends_where_there_is_no_memory(self):
        self.build(PROGRAM)
        data = b'["o"' + b',["o"]' * 1_000_000 + b"]"
        said = (8, b"", "out of memory\n")
        self.assertEqual(self.run_on("cells", "S", data=data, memory="64"), said)
        self.assertEqual(self.run_on("cells", "S", data=data)[0], 5)

    def test_the_words_that_are_commands_are_those_of_the_program(self):
        self.build(PROGRAM)
        of_sheets = [command.word for command in COMMANDS.values() if is_of_sheet(command)]
        others = [word for word in COMMANDS if word not in of_sheets]
        for words in (
            # Where no sheet is named, it is found before the program gets its words.
            *([word] for word in (*others, "--help", "--version", "x", "")),
            *([word, "S"] for word in (*COMMANDS, "--help", "Cells", "") if word != "pivot"),
            ["cells", "S", "x"],
            ["pivot", "S", "x"],
            *(["dependents", "S", word] for word in REFERENCES),
            ["dependents", "S", "A1", "B1"],
            ["dependents", "S", "A1", "--all"],
            ["precedents", "S", "--all"],
            ["graph", "--json"],
        ):
            with self.subTest(words=words):
                empty = subprocess.DEVNULL
                ran = subprocess.run([PROGRAM, *words], stdin=empty, capture_output=True)
                self.assertEqual(self.run_on(*words)[0] == 2, ran.returncode == 2)

    def test_the_program_reads_a_workbook_file(self):
        self.build(PROGRAM)
        self.assertEqual(self.run_on("book.xlsx", "cells", "S"), (0, LINES, ""))
        said = "Worksheet 'X' not found\n"
        said += "xlsx: there are these sheets: 'S'\n"
        self.assertEqual(self.run_on("book.xlsx", "cells", "X"), (6, b"", said))
        lines = b"S\tworksheet\tvisible\n"
        self.assertEqual(self.run_on("book.xlsx", "sheets"), (0, lines, ""))
        self.assertEqual(self.run_on("book.xlsx", "names"), (0, b"", ""))
        data = package_text(MINIMAL)
        self.assertEqual(self.run_on("cells", "S", data=data), (0, LINES, ""))
        with open("/dev/full", "wb") as full:
            self.assertEqual(
                self.run_on("book.xlsx", "cells", "S", stdout=full), (7, None, "write fault\n")
            )

    def test_a_small_file_that_unpacks_to_a_gigabyte_is_refused_in_seconds(self):
        self.build(PROGRAM)
        packer = zlib.compressobj(9, zlib.DEFLATED, -15)
        piece = bytes(2**20)
        packed = b"".join(packer.compress(piece) for _ in range(1025)) + packer.flush()
        sheet = "xl/worksheets/sheet1.xml"
        data = archive({name: part for name, part in MINIMAL.items() if name != sheet})
        self.written("bomb.xlsx", with_entry(data, sheet, packed, 1025 * 2**20))
        began = time.monotonic()
        status, lines, said = self.run_on("bomb.xlsx", "cells", "S")
        self.assertEqual((status, lines), (6, b""))
        self.assertIn("too large", said)
        self.assertLess(time.monotonic() - began, 60)

    def test_the_first_command_of_the_readme_prints_what_stands_there(self):
        self.build(PROGRAM)
        readme = (TOP / "README.md").read_text(encoding="utf-8")
        found = re.search(r"^\$ \./xlsx --unproved (.*) \| head -n 4\n([^`]*)```\n", readme, re.M)
        (sample, *words), shown = found[1].split(), found[2]
        status, lines, said = self.run_on(TOP / sample, *words)
        self.assertEqual((status, said), (0, ""))
        self.assertEqual("".join(lines.decode().splitlines(keepends=True)[:4]), shown)

    def test_all_worksheets_of_all_samples(self):
        self.build(PROGRAM)
        for number, path in enumerate(sorted((TOP / "samples").glob("*.xlsx"))):
            folder = self.folder / str(number)
            ran = self.run_on(path, "csv", "--all", folder)
            with self.subTest(sample=path.name):
                _, lines, _ = self.run_on(path, "sheets")
                rows = (line.split("\t") for line in lines.decode().splitlines())
                names = [name for name, kind, _ in rows if kind == "worksheet"]
                each = {name: self.run_on(path, "csv", name) for name in names}
                self.assertEqual(ran, (0, b"", ""))
                written = {file.name: file.read_bytes() for file in folder.iterdir()}
                wanted = {f"{name}.csv": lines for name, (_, lines, _) in each.items()}
                self.assertEqual(written, wanted)
                first = self.run_on(path, "csv")
                self.assertEqual(first, each[names[0]])

    def asked_of(self, path):
        """What is asked of a workbook: a command of each kind, and each sheet and table. All
        commands are asked for where no process is needed for each (tools/test_whole_text.py)."""
        yield ["sheets"]
        _, sheets, _ = self.run_on(path, "sheets")
        for name in [*(line.split("\t")[0] for line in sheets.decode().splitlines()), "none"]:
            yield ["cells", name]
        _, tables, _ = self.run_on(path, "tables")
        for name in [*(line.split("\t")[0] for line in tables.decode().splitlines()), "none"]:
            yield ["table", name]

    def test_the_samples_answer_as_on_their_whole_texts(self):
        """A workbook file gives the bytes, the status and the fault of its package text."""
        self.build(PROGRAM)
        for path in sorted((TOP / "samples").glob("*.xlsx")):
            whole = self.run_on(path, "package")[1]
            for words in self.asked_of(path):
                with self.subTest(sample=path.name, words=words):
                    status, lines, said = self.run_on(*words, data=whole)
                    own = self.run_on(path, *words)
                    self.assertEqual(own[:2], (status, lines))
                    self.assertEqual(own[2].splitlines()[:1], said.splitlines()[:1])

    def test_the_program_finds_parts_by_names_in_any_case_and_with_backslashes(self):
        self.build(PROGRAM)
        turned = {name.replace("/", "\\").upper(): part for name, part in MINIMAL.items()}
        self.written("turned.xlsx", archive(turned))
        self.assertEqual(self.run_on("turned.xlsx", "cells", "S"), (0, LINES, ""))
        rooted = {f"/{name}": part for name, part in MINIMAL.items()}
        self.written("rooted.xlsx", archive(rooted))
        said = "File not found '_rels/.rels'\n"
        self.assertEqual(self.run_on("rooted.xlsx", "cells", "S"), (6, b"", said))


if __name__ == "__main__":
    unittest.main()
