"""Cases of calls: tables of texts, packages of noted markup, and what call_answers says of them."""

import functools
import json
import pathlib
import subprocess
from dataclasses import dataclass

from escapes import unescaped
from support.noted import RELATIONSHIPS, ROOT, SMALLEST, TYPES, WORKBOOK, events_of

TOP = pathlib.Path(__file__).resolve().parent.parent.parent
TABLES = TOP / "tools" / "support" / "calls"
OUT = TOP / "crates" / "call_answers" / "out"
# The gate builds the program twice, by two compilers.
BUILDS = ["call_answers", "call_answers.by-rattle"]

# What leads to the workbook, and the workbook.
LEADING = [ROOT, RELATIONSHIPS, WORKBOOK]


def fields_of(case):
    """The fields of a case: each but the first begins with `=`, and goes on in the lines behind."""
    fields = []
    for line in case.split("\n"):
        if line.startswith("="):
            fields.append(line[2:])
        elif fields:
            fields[-1] += line
        else:
            fields.append("" if line == "nothing" else line)
    return tuple(fields)


def tables(name):
    """The tables of a file, each a list of cases."""
    found = []
    for block in (TABLES / f"{name}.txt").read_text(encoding="utf-8").strip().split("\n\n"):
        if block.startswith("## "):
            found.append([])
        elif not block.startswith("# "):
            found[-1].append(fields_of(block))
    return found


def written_out(markup):
    """Markup in which `T/` stands for what the types of relationships begin with."""
    return markup.replace('Type="T/', f'Type="{TYPES}')


def part(name, markup, count=None):
    """A part, with all of its events or the first of them."""
    return {"name": name, "events": events_of(written_out(markup))[:count]}


def package(*parts):
    """The package text of these parts, each a name and noted markup. The first of a name counts."""
    each = [own if isinstance(own, dict) else part(*own) for own in parts]
    return json.dumps({"version": 1, "parts": each})


def smallest(*parts):
    """The package of the smallest workbook with these parts in front."""
    return package(*parts, *SMALLEST)


@dataclass
class Case:
    """What it shows, a package text or a line for a sample, and calls, each with the answer that is
    wanted, or a list of such answers. The calls of the package with these numbers fail."""

    shown: str
    package: str
    calls: list
    fails: tuple = ()


def opened(shown, own, *calls, fails=()):
    """A case whose package opens."""
    return Case(shown, own, [(("open",), ""), *calls], fails)


def lines_of(cases):
    """What the program is told of these cases."""
    last = None
    for case in cases:
        if case.package != last:
            last = case.package
            yield last
        yield "\t".join(["run", *map(str, case.fails)])
        for words, _ in case.calls:
            yield "\t".join(map(str, words))


def answers(build, cases):
    """What a build answers to the calls of each case."""
    told = "".join(f"{line}\n" for line in lines_of(cases)).encode()
    ran = subprocess.run([OUT / build], input=told, capture_output=True)
    if ran.returncode or ran.stderr:
        raise AssertionError(f"{build} ended with {ran.returncode}: {ran.stderr.decode()}")
    given = iter(ran.stdout.decode().splitlines())
    found = [[unescaped(next(given)) for _ in case.calls] for case in cases]
    if next(given, None) is not None:
        raise AssertionError(f"{build} answers more than it was asked")
    return found


def is_wanted(found, wanted):
    return found in wanted if isinstance(wanted, list) else found == wanted


def checked(cases):
    """The test that each build answers all calls of these cases as they want it."""

    @functools.wraps(cases)
    def test(self):
        made = list(cases(self))
        for build in BUILDS:
            for case, found in zip(made, answers(build, made), strict=True):
                for (words, wanted), answer in zip(case.calls, found, strict=True):
                    with self.subTest(build=build, shown=case.shown, call=words):
                        self.assertTrue(is_wanted(answer, wanted), f"{answer} for {wanted}")

    return test
