"""Tries that taking cells asks for no memory where nothing of a cell has to be kept: numbers,
places of shared strings and booleans, and formulas of a group that are told by their index; and
that a theme which finds no memory isn't told as the default one.

A program of its own makes five readers and takes the first cells of each, so that their buffers
stand. What comes next is the step that is tried. Then it allocates until the allocation fails that
`rt try --fail-alloc` was told: how many came before says how many the step asked for. A theme is
read behind so many allocations that the failing one stands before, in or behind its reading.
"""

import pathlib
import re
import shutil
import subprocess
import tempfile
import unittest

TOP = pathlib.Path(__file__).resolve().parent.parent
# The allocation that fails: behind all that the readers and the steps ask for.
FAILING = 1000
ROWS = 40
# How many cells each reader takes before.
FIRST = 6
# How many texts are made before a theme is read.
BEFORE = range(FAILING - 100, FAILING)
# Nothing, the rest by the four calls without texts, and the rest by the call with texts, too; and a
# theme.
STEPS = ("0", "1", "2", *(f"t{before}" for before in BEFORE))

PLAIN = (
    '<row><c><v>-1.50</v></c><c t=\\"s\\" s=\\"1\\"><v>0</v></c>'
    '<c t=\\"b\\" s=\\"1\\"><v>1</v></c></row>'
)
MASTER = '<c><f t=\\"shared\\" si=\\"0\\" ref=\\"A1:A50\\">B1</f><v>1</v></c>'
DERIVED = '<row><c><f t=\\"shared\\" si=\\"0\\"/><v>1</v></c></row>'
THEME = "<clrScheme>" + 5 * '<accent1><srgbClr val=\\"112233\\"/></accent1>' + "</clrScheme>"

PROGRAM = """//! Takes cells, and then allocates until an allocation fails; or reads a theme behind
//! allocations.
#![tactic(auto)]

use cell_data::CellFormat;
use cell_styles::Style;
use part_events::{MemoryPackage, XlReader};
use std::alloc::Global;
use std::env::{self, Env};
use std::process::ExitCode;
use test_packages::{SHEET_NAME, package_of, sheet_part};
use xlsx_cells::XlsxCellReader;
use xlsx_error::XlsxError;
use xlsx_theme::read_theme;

const FORMATS: [CellFormat; 2] = [CellFormat::Other, CellFormat::DateTime];

fn sheet_of(
    alloc: Global,
    first: &str,
    row: &str,
) -> Result<XlReader<MemoryPackage>, XlsxError> {
    let mut data = String::from_str(alloc, first)?;
    for _ in 0..@ROWS@ {
        data.push_str(row)?;
    }
    let sheet = sheet_part(alloc, &data)?;
    let package = package_of(alloc, &[(SHEET_NAME, sheet.as_str())])?;
    Ok(XlReader::new(alloc, package))
}

fn reader_of<'a>(
    xml: &'a mut XlReader<MemoryPackage>,
    strings: &'a [String],
    styles: &'a [Style],
) -> Result<XlsxCellReader<'a, MemoryPackage>, XlsxError> {
    if !xml.open(SHEET_NAME)? {
        return Err(XlsxError::Failed);
    }
    XlsxCellReader::new(xml, strings, &FORMATS, styles, false)
}

fn allocations(alloc: Global) -> usize {
    let mut count = 0;
    for _ in 0..@FAILING@ {
        match String::from_str(alloc, "x") {
            Ok(_) => count += 1,
            Err(_) => return count,
        }
    }
    count
}

fn counts(alloc: Global, step: &str) -> Result<(usize, usize), XlsxError> {
    let strings = vec![in alloc; String::from_str(alloc, "zero")?]?;
    let styles = Vec::from_array(alloc, [Style::default(), Style::default()])?;
    let mut sheets = (
        sheet_of(alloc, "", "@PLAIN@")?,
        sheet_of(alloc, "", "@PLAIN@")?,
        sheet_of(alloc, "", "@PLAIN@")?,
        sheet_of(alloc, "@MASTER@", "@DERIVED@")?,
        sheet_of(alloc, "@MASTER@", "@DERIVED@")?,
    );
    let mut values = reader_of(&mut sheets.0, &strings, &styles)?;
    let mut styled = reader_of(&mut sheets.1, &strings, &styles)?;
    let mut ids = reader_of(&mut sheets.2, &strings, &styles)?;
    let mut metadata = reader_of(&mut sheets.3, &strings, &styles)?;
    let mut formulas = reader_of(&mut sheets.4, &strings, &styles)?;
    let mut taken = 0;
    for _ in 0..@FIRST@ {
        taken += values.next_cell()?.is_some() as usize;
        taken += styled.next_cell_with_style_id()?.is_some() as usize;
        taken += ids.next_style_id()?.is_some() as usize;
        taken += metadata.next_cell_with_formula_metadata()?.is_some() as usize;
        taken += formulas.next_formula()?.is_some() as usize;
    }
    if step != "0" {
        while values.next_cell()?.is_some() {
            taken += 1;
        }
        while styled.next_cell_with_style_id()?.is_some() {
            taken += 1;
        }
        while ids.next_style_id()?.is_some() {
            taken += 1;
        }
        while metadata.next_cell_with_formula_metadata()?.is_some() {
            taken += 1;
        }
    }
    if step == "2" {
        while formulas.next_formula()?.is_some() {
            taken += 1;
        }
    }
    Ok((taken, allocations(alloc)))
}

/// How many colors a theme has that is read behind so many allocations, and 1 where they are told
/// as the default theme's.
fn theme(alloc: Global, before: &str) -> Result<(usize, usize), XlsxError> {
    let mut xml = XlReader::new(alloc, package_of(alloc, &[("theme", "@THEME@")])?);
    for _ in 0..before.parse::<usize>().unwrap_or(0) {
        let _text = String::from_str(alloc, "x")?;
    }
    let theme = read_theme(&mut xml, "theme")?;
    Ok((theme.colors.len(), theme.defaulted as usize))
}

fn told(alloc: Global, step: &str) -> Result<(usize, usize), XlsxError> {
    match step.strip_prefix('t') {
        Some(before) => theme(alloc, before),
        None => counts(alloc, step),
    }
}

/// The step is the program's first word.
fn step_of(rt: &(impl Env + Alloc<A = Global>)) -> Option<String> {
    let mut words = env::args(rt).ok()?;
    words.next();
    words.next()
}

fn main(rt: HostRuntime) -> ExitCode {
    let Some(step) = step_of(&rt) else {
        return ExitCode::FAILURE;
    };
    if let Ok((first, second)) = told(rt.alloc(), &step) {
        if println!(rt; "{first} {second}").is_ok() {
            return ExitCode::SUCCESS;
        }
    }
    ExitCode::FAILURE
}
"""


def write_program(top):
    """Puts the program and the crates below it there, and answers its folder."""
    text = PROGRAM.replace("@ROWS@", str(ROWS)).replace("@FIRST@", str(FIRST))
    text = text.replace("@FAILING@", str(FAILING))
    markup = {"PLAIN": PLAIN, "MASTER": MASTER, "DERIVED": DERIVED, "THEME": THEME}
    for name, data in markup.items():
        text = text.replace(f"@{name}@", data)
    shutil.copytree(TOP / "crates", top / "crates", ignore=shutil.ignore_patterns("out"))
    needs = "cell_data cell_styles part_events test_packages xlsx_cells xlsx_error xlsx_theme"
    crates = (TOP / "crates.txt").read_text(encoding="utf-8") + f"takes_cells: {needs}\n"
    (top / "crates.txt").write_text(crates, encoding="utf-8")
    own = top / "crates" / "takes_cells"
    (own / "src").mkdir(parents=True)
    (own / "src" / "main.rt").write_text(text, encoding="utf-8")
    return own


def told_by_steps(top):
    """The two numbers of each step, but for those that found no memory."""
    own = write_program(top)
    cases = top / "cases"
    cases.mkdir()
    for step in STEPS:
        (cases / step).write_bytes(b"")
        (cases / f"{step}.args").write_text(f"{step}\n", encoding="utf-8")
    done = subprocess.run(
        ["rt", "try", "--cases", str(cases), "--fail-alloc", str(FAILING)],
        cwd=own,
        stdin=subprocess.DEVNULL,
        capture_output=True,
        text=True,
    )
    found = re.findall(r"^== (\w+)\n(\d+) (\d+)$", done.stdout, re.M)
    if done.returncode or not found:
        raise AssertionError(done.stdout + done.stderr)
    return {step: (int(first), int(second)) for step, first, second in found}


class Memory(unittest.TestCase):
    @classmethod
    def setUpClass(cls):
        with tempfile.TemporaryDirectory() as folder:
            cls.told = told_by_steps(pathlib.Path(folder))

    def test_plain_cells_ask_for_no_memory(self):
        """By how many cells were taken, and how many allocations came before one failed."""
        first, left = self.told["0"]
        self.assertEqual(first, 5 * FIRST)
        plain = 2 * 3 * ROWS + 2 * ROWS + (ROWS + 1)
        self.assertEqual(self.told["1"], (plain + FIRST, left))
        # A formula that is written out does.
        taken, fewer = self.told["2"]
        self.assertEqual(taken, plain + ROWS + 1)
        self.assertLess(fewer, left)

    def test_want_of_memory_is_no_default_theme(self):
        themes = [self.told.get(f"t{before}") for before in BEFORE]
        # The first is read before an allocation fails, and the last isn't.
        self.assertEqual((themes[0], themes[-1]), ((5, 0), None))
        self.assertEqual(set(themes), {(5, 0), None})


if __name__ == "__main__":
    unittest.main()
