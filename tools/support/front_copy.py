"""A copy of ./xlsx for tests, with a program and an rt that stand in for the real ones."""

import os
import pathlib
import shutil
import subprocess
import tempfile
import unittest

from support.fixtures import MINIMAL, archive

TOP = pathlib.Path(__file__).resolve().parent.parent.parent

# Takes the words `cells NAME`, prints them and its input's size, and ends with the status NAME.
STAND_IN = """\
#!/bin/sh
[ "$*" != --help ] || { echo page; exit 0; }
[ "$*" != --version ] || { echo version; exit 0; }
[ "$#" -eq 2 ] && [ "$1" = cells ] || { echo usage >&2; exit 2; }
echo "$*: $(wc -c | tr -d ' ')"
exit "$2"
"""
# Proves a crate, builds the program of this folder, or runs it unproved. As the real one it wants
# each crate that is listed, and keeps others out of the crates below: here of `low`.
RT = """\
#!/bin/sh
if [ "$1" = try ]; then
    shift 2
    "$STAND_IN" "$@"
    status=$?
    echo "checked: ended status=$status" >&2
    echo "races: not looked for" >&2
    if [ "$2" = 9 ]; then
        echo "run=none runners=0 proved=no" >&2
        exit 6
    fi
    echo "run=ended status=$status runners=1 proved=no" >&2
    exit "$status"
fi
name=$(basename "$PWD")
echo "rt $* speaks of $name"
for listed in $(cut -d : -f 1 ../../crates.txt); do
    [ -d "../$listed" ] || { echo "there is no $listed"; exit 1; }
done
exec 9<../low
flock 9
[ ! -e "$WAITING" ] || { echo "so far: 3 of 7 functions checked"; sleep 2; }
[ ! -e "$FAILING" ] || [ "$1" != run ] || exit 1
if [ "$1" = run ]; then
    ls -d ../*/out/rlib
    mkdir -p out
    cp "$STAND_IN" out/xlsx_tool
    exit
fi
if [ -d "$MEETING" ] && [ "$name" != low ]; then
    : >"$MEETING/$name"
    tries=0
    while [ "$(ls "$MEETING" | wc -l)" -lt 2 ]; do
        tries=$((tries + 1))
        [ "$tries" -lt 50 ] || { echo "nobody beside $name"; exit 1; }
        sleep 0.1
    done
fi
mkdir -p out/rlib
"""
# What ./xlsx is made of.
FRONT = ("escapes", "front", "kinds", "place", "program", "prove", "saving", "words")
FILES = ("xlsx", *(f"tools/{name}.py" for name in FRONT))


class FrontCopy(unittest.TestCase):
    def setUp(self):
        folder = tempfile.TemporaryDirectory()
        self.addCleanup(folder.cleanup)
        self.folder = pathlib.Path(folder.name)
        self.crate = self.folder / "top" / "crates" / "xlsx_tool"
        self.place = self.folder / "top" / ".git" / "xlsx"
        self.place.parent.mkdir(parents=True)
        self.program = self.place / "xlsx_tool"
        (self.crate / "src").mkdir(parents=True)
        self.source = self.crate / "src" / "main.rt"
        self.source.write_text("")
        (self.folder / "top" / "crates.txt").write_text("xlsx_tool: low\nlow:\nbeside: low\n")
        for name in ("low", "beside"):
            (self.folder / "top" / "crates" / name).mkdir()
        (self.folder / "top" / "tools").mkdir()
        for name in FILES:
            shutil.copy(TOP / name, self.folder / "top" / name)
        self.written("program", STAND_IN)
        self.written("bin/rt", RT)
        self.book = self.written("book.xlsx", archive(MINIMAL))
        self.size = len(self.book.read_bytes())

    def written(self, name, data):
        path = self.folder / name
        path.parent.mkdir(exist_ok=True)
        path.write_bytes(data.encode() if isinstance(data, str) else data)
        path.chmod(0o755)
        return path

    def build(self, program=None):
        self.program.parent.mkdir(exist_ok=True)
        shutil.copy(program or self.folder / "program", self.program)

    def environment(self, path=None, memory=None):
        """What the copy finds about it: the stand-ins, and the files by which they are told."""
        path = f"{self.folder / 'bin'}:{os.environ['PATH']}" if path is None else path
        about = {"STAND_IN": self.folder / "program", "FAILING": self.folder / "failing"}
        about["WAITING"] = self.folder / "waiting"
        about["MEETING"] = self.folder / "meeting"
        about["XDG_CACHE_HOME"] = self.folder / "cache"
        if memory is not None:
            about["XLSX_MEMORY"] = memory
        return {**os.environ, **about, "PATH": path}

    def run_on(self, *words, data=b"", path=None, memory=None, **given):
        if "stdin" not in given:
            given["input"] = data
        ran = subprocess.run(
            [self.folder / "top" / "xlsx", *words],
            stderr=subprocess.PIPE,
            env=self.environment(path, memory),
            cwd=self.folder,
            **{"stdout": subprocess.PIPE, **given},
        )
        return ran.returncode, ran.stdout, ran.stderr.decode()

    def check_words(self, *words, said, **given):
        """Words that are refused with a line that says what is wrong."""
        with self.subTest(words=words, **given):
            more = "xlsx: ./xlsx --help says which words there are\n"
            wanted = 2, b"", f"xlsx: {said}\n{more}"
            self.assertEqual(self.run_on(*words, **given), wanted)
