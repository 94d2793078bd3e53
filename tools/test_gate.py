"""Tries ./xlsx and `rt ci`, which .ci/run begins with, one behind the other and both at once, with
the real rt on a repository of two small crates."""

import fcntl
import os
import pathlib
import shutil
import subprocess
import tempfile
import threading
import time
import unittest
import unittest.mock

from support.front_copy import FILES, TOP
from place import cache_of

LOW = """\
// What is told.
#![tactic(auto)]

ghost use Rattle.std.specs.Prelude.{◌≡◌};

pub fn told(x: usize) -> usize
    ensures { result ≡ x }
{
    x
}
"""
MAIN = """\
// Tells of one.
#![tactic(auto)]

use low::told;
use std::io;

fn main(rt: HostRuntime) -> io::Result<()> {
    println!(rt; "told {}", told(1))?;
    Ok(())
}
"""
WRITTEN = {
    "HANDLES": "Handles allowed: none.\n",
    "crates.txt": "low:\nxlsx_tool: low\n",
    "crates/low/src/lib.rt": LOW,
    "crates/xlsx_tool/src/main.rt": MAIN,
    "crates/xlsx_tool/stdin": "",
    "crates/xlsx_tool/stdout": "told 1\n",
}
RT_CI = ["rt", "ci"]


class Gate(unittest.TestCase):
    def setUp(self):
        folder = tempfile.TemporaryDirectory()
        self.addCleanup(folder.cleanup)
        self.top = pathlib.Path(folder.name).resolve()
        for name, text in WRITTEN.items():
            (self.top / name).parent.mkdir(parents=True, exist_ok=True)
            (self.top / name).write_text(text, encoding="utf-8")
        for name in FILES:
            (self.top / name).parent.mkdir(exist_ok=True)
            shutil.copy(TOP / name, self.top / name)
        self.git = self.top / ".git"
        self.git.mkdir()
        cache = tempfile.TemporaryDirectory()
        self.addCleanup(cache.cleanup)
        self.environment = {**os.environ, "XDG_CACHE_HOME": cache.name}
        with unittest.mock.patch.dict(os.environ, self.environment):
            self.lanes = pathlib.Path(cache_of(str(self.top))) / "lanes"

    def begin(self, words):
        given = {"stdin": subprocess.DEVNULL, "stdout": subprocess.PIPE, "text": True}
        given.update(cwd=self.top, env=self.environment, stderr=subprocess.STDOUT)
        child = subprocess.Popen(words, **given)
        self.addCleanup(child.stdout.close)
        self.addCleanup(child.kill)
        return child

    def begin_xlsx(self):
        return self.begin([self.top / "xlsx", "sheets"])

    def end(self, child, before=""):
        """What was said to the end, which is a good one."""
        said = before + child.communicate()[0]
        self.assertEqual(child.returncode, 0, said)
        return said

    def pass_gate(self):
        return self.check_passed(self.end(self.begin(RT_CI)))

    def check_passed(self, said):
        self.assertEqual(said.splitlines()[-1], "2 passed, 0 failed", said)
        return said

    def held(self, path):
        """A folder that no `rt` works in until it is closed."""
        path.mkdir(parents=True, exist_ok=True)
        held = os.open(path, os.O_RDONLY)
        fcntl.flock(held, fcntl.LOCK_EX)
        return held

    def wait_for(self, path):
        """Waits until a file is locked by somebody."""
        for _ in range(1000):
            if path.exists():
                with open(path) as file:
                    try:
                        fcntl.flock(file, fcntl.LOCK_EX | fcntl.LOCK_NB)
                    except BlockingIOError:
                        return
            time.sleep(0.02)
        self.fail(f"nobody locks {path}")

    def read_to(self, child, text):
        """What a child says up to the line that has a text, which it has some minutes for."""
        said, ending = "", threading.Timer(600, child.kill)
        ending.start()
        self.addCleanup(ending.cancel)
        for line in child.stdout:
            said += line
            if text in line:
                ending.cancel()
                return said
        self.fail(f"no line has {text!r}: {said}")

    def test_the_gate_behind_xlsx_leaves_its_program(self):
        self.assertIn("xlsx: built\ntold 1\n", self.end(self.begin_xlsx()))
        self.pass_gate()
        self.assertEqual(self.end(self.begin_xlsx()), "told 1\n")
        # Behind a change it begins with what it kept: only what changed is proved.
        source = self.top / "crates" / "xlsx_tool" / "src" / "main.rt"
        source.write_text(MAIN.replace("of one", "of one again"), encoding="utf-8")
        self.assertIn("xlsx: built\ntold 1\n", self.end(self.begin_xlsx()))
        log = (self.git / "xlsx" / "proving.log").read_text()
        self.assertNotIn("fn low::told", log)
        # Each rt at the top goes on working.
        self.end(self.begin(["rt", "all", "check"]))

    def test_xlsx_behind_the_gate_takes_its_program(self):
        self.pass_gate()
        self.assertEqual(self.end(self.begin_xlsx()), "told 1\n")
        self.assertFalse(self.lanes.exists())

    def test_xlsx_waits_for_the_gate(self):
        held = self.held(self.top / "crates" / "low")
        gate = self.begin(RT_CI)
        self.wait_for(self.git / "rt-ci.lock")
        xlsx = self.begin_xlsx()
        said = self.read_to(xlsx, "waits for it")
        waits = "xlsx: rt ci, for the gate, is at work here, and this one waits for it\n"
        self.assertTrue(said.endswith(waits), said)
        os.close(held)
        self.check_passed(self.end(gate))
        left = "xlsx: the other one left a proved program\nxlsx: built\ntold 1\n"
        self.assertEqual(self.end(xlsx, said), said + left)
        self.assertEqual(list(self.lanes.iterdir()), [])

    def test_the_gate_waits_for_xlsx(self):
        held = self.held(self.lanes / "low" / "crates" / "low")
        xlsx = self.begin_xlsx()
        self.wait_for(self.git / "rt-ci.lock")
        gate = self.begin(RT_CI)
        # It waits, whether it says so or not: it takes `out` of each crate away first.
        left = self.top / "crates" / "low" / "out"
        left.mkdir()
        time.sleep(2)
        self.assertIsNone(gate.poll())
        self.assertTrue(left.exists())
        os.close(held)
        self.assertIn("xlsx: built\ntold 1\n", self.end(xlsx))
        self.check_passed(self.end(gate))


if __name__ == "__main__":
    unittest.main()
