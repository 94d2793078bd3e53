#!/usr/bin/env python3
"""Lists what crates hand out, each call with its comment, its clauses and what shows them.

clauses.py [WORD ..]              at the top of the repository

A word is a crate, a file of its `src` without `.rt`, or the name of a call, a type or a trait. A
crate and a file list their calls, a line or more for each: the first sentence of its comment; the
labels of its clauses, each with the definitions that it says the result by; the tests whose code
names it, in crates or in tools, and the must-fail edits that change it. A clause without a label is
`ensures`, and what a caller must know is behind `requires`. A type is listed with what is always so
of it, an impl of a trait with its laws. A name lists the whole comment and the whole clauses. No
word lists all, floor by floor as crates.txt has them.
"""

import functools
import re
import sys
import textwrap
from collections import Counter
from dataclasses import dataclass

from sources import (
    OF_TESTS,
    TOP,
    WORD,
    calls_of,
    codes_of,
    floors,
    functions_of,
    root_of,
    text,
)

WIDTH = 100
# Definitions that a source names: their crate, and their names.
CITED = re.compile(r"ghost use Rattle\.(\w+)\.[\w.]*\{([^}]*)\}")
# Tests of what is written alone.
OF_TEXTS = ("test_documents", "test_sources", "test_clauses", "test_counts")
# What a test names of calls and of types.
NAMED = re.compile(r"\w+(?=!?\()|\b[A-Z]\w+")
# How many tests a list names of a call, those with the fewest words first.
MOST_TESTS = 4
# A change of an edit: its file, and the text that it replaces.
CHANGE = re.compile(r"^file: ([^\n]*)\nold:(.*?)\nnew:", re.M | re.S)


@dataclass
class Edit:
    """A must-fail edit: its name, its crate, and what it changes, functions by their files."""

    name: str
    crate: str
    changed: list


def first_sentence(comment):
    """The first sentence of a comment, as one line."""
    paragraph = " ".join(comment.split("\n\n")[0].split())
    found = re.match(r".*?[.?!](?= [A-Z`]|$)", paragraph)
    return found[0] if found else paragraph


@functools.cache
def cited_in(path):
    """The definitions that a source names in its clauses, but for those of the kit."""
    listed = CITED.findall(text(path))
    return {word for crate, names in listed if crate != "std" for word in WORD.findall(names)}


def labelled(call, ensured):
    """The clauses of a kind, each by its label and the definitions that it names."""
    for own, label, clause in call.clauses:
        if own == ensured:
            words = dict.fromkeys(WORD.findall(clause))
            by = [word for word in words if word in cited_in(call.path) and word != label]
            name = label or ("ensures" if ensured else "")
            yield f"{name} ({', '.join(by)})".strip() if by else name


def functions_in(code):
    """The functions of a source, each with its own text."""
    rows = code.split("\n")
    found = list(functions_of(code))
    ends = [one.begun for one in found[1:]] + [len(rows)]
    return [(one, "\n".join(rows[one.begun : end])) for one, end in zip(found, ends)]


@functools.cache
def edits():
    """The must-fail edits of all crates."""
    found = []
    for path in sorted((TOP / "crates").glob("*/must-fail/*.edit")):
        crate = path.parent.parent.name
        changed = []
        for name, old in CHANGE.findall(text(path)):
            code = text(TOP / "crates" / crate / name)
            own = [(one.name, one.begun) for one, body in functions_in(code) if old.strip() in body]
            changed.append((name, *(own[0] if own else ("", 0))))
        found.append(Edit(path.stem, crate, list(dict.fromkeys(changed))))
    return found


def words_of_tests(code):
    """For each test of a source the words of its text and of what it calls there."""
    found = functions_in(code)
    words = {}
    for one, body in found:
        words.setdefault(one.name, set()).update(NAMED.findall(body))
    tests = set(re.findall(r"#\[test\]\s*(?:#\[[^\]]*\]\s*)*fn (\w+)", code))
    for name in tests:
        seen, left = set(), [name]
        while left:
            own = left.pop()
            if own not in seen:
                seen.add(own)
                left += words[own] & words.keys()
        yield name, set().union(*(words[own] for own in seen))


@functools.cache
def tests():
    """The tests of the crates, each with the words of its code, and the files of tools that try the
    programs, each with its words."""
    found = []
    for _, crate, _ in floors():
        for code in codes_of(crate).values():
            found += words_of_tests(code)
    tools = TOP / "tools"
    for path in sorted([*tools.glob("test_*.py"), *tools.glob("support/calls/*.txt")]):
        if path.stem not in OF_TEXTS:
            found.append((path.relative_to(TOP).as_posix(), set(WORD.findall(text(path)))))
    return found


@functools.cache
def owners():
    """How many calls have a name."""
    return Counter(call.name for _, name, _ in floors() for call in calls_of(name))


def tests_of(call):
    """The tests whose code names a call, those that name least first. A name that many calls have,
    or that is a plain word, counts beside that of its type alone; a plain word is none in tools."""
    if not call.name:
        return []
    own = call.owner.rpartition(" for ")[2]
    is_plain = owners()[call.name] > 1 or "_" not in call.name
    wanted = {call.name} | ({own} if own and is_plain else set())
    found = [
        (len(words), name)
        for name, words in tests()
        if wanted <= words and not (is_plain and name.startswith("tools/"))
    ]
    return [name for _, name in sorted(found)]


def edits_of(call):
    """The must-fail edits that change a call."""
    path = f"src/{call.path.name}"
    return [
        own.name
        for own in edits()
        if own.crate == call.crate and (path, call.name, call.row) in own.changed
    ]


def shown_by(call, most=None):
    """The edits and the tests of a call, of these at most so many."""
    named = tests_of(call)
    more = [f"{len(named) - most} more"] if most and len(named) > most else []
    shown = [("edit", edits_of(call)), ("test", named[:most] + more)]
    found = [f"{word}{'s' * (len(own) > 1)} {', '.join(own)}" for word, own in shown if own]
    return "; ".join(found)


def wrapped(line, indent):
    return textwrap.wrap(
        line,
        WIDTH,
        initial_indent=" " * indent,
        subsequent_indent=" " * (indent + 4),
        break_on_hyphens=False,
        break_long_words=False,
    )


def lines_of(call):
    """The lines of a call in a list."""
    sentence = first_sentence(call.comment)
    yield from wrapped(f"{call.spoken}: {sentence}" if sentence else call.spoken, 2)
    requires = ", ".join(labelled(call, False))
    ensures = ", ".join(labelled(call, True))
    yield from wrapped("; ".join(filter(None, [ensures, requires and f"requires {requires}"])), 4)
    yield from wrapped(shown_by(call, MOST_TESTS), 4)


def whole_of(call):
    """All that is said of a call."""
    yield f"{call.path.relative_to(TOP)}: {call.spoken}"
    yield from (f"  {row}".rstrip() for row in call.comment.split("\n") if row)
    for _, _, clause in call.clauses:
        yield from wrapped(clause, 4)
    yield from wrapped(shown_by(call), 4)


def lines_of_crate(crate, rooms=None):
    """The lines of a crate, or of some rooms of it."""
    head = "\n".join(re.findall(r"^//! ?(.*)", root_of(crate), re.M))
    yield from wrapped(f"{crate}: {first_sentence(head)}", 0)
    last = None
    for call in calls_of(crate):
        if rooms is None or call.path.stem in rooms:
            if call.path != last:
                last = call.path
                yield f" src/{last.name}"
            yield from lines_of(call)
    beside = [own for own in edits() if own.crate == crate and not is_called(own)]
    if rooms is None and beside:
        yield " edits of what is called inside"
        for own in beside:
            changed = (f"{name} of {path}" if name else path for path, name, _ in own.changed)
            places = ", ".join(changed)
            yield from wrapped(f"{own.name}: {places}", 2)


def is_called(edit):
    """Whether an edit changes what its crate hands out."""
    return any(edit.name in edits_of(call) for call in calls_of(edit.crate) if call.name)


def names_of(call):
    own = call.owner.rpartition(" for ")[2]
    trait = call.owner.partition(" for ")[0]
    return {call.name, own, trait, trait.partition("<")[0], call.spoken} - {""}


def printed(words=()):
    """The lines of what words name, or of all."""
    order = [name for _, name, _ in floors()]
    if not words:
        last = None
        for floor, name, _ in floors():
            if not OF_TESTS.fullmatch(name):
                yield from ["", f"## {floor}"] if floor != last else []
                last = floor
                yield from ["", *lines_of_crate(name)]
        return
    for name in order:
        calls = list(calls_of(name))
        if name in words:
            yield from ["", *lines_of_crate(name)]
        elif rooms := {call.path.stem for call in calls} & set(words):
            yield from ["", *lines_of_crate(name, rooms)]
        else:
            for call in calls:
                if names_of(call) & set(words):
                    yield from ["", *whole_of(call)]


def main(words):
    lines = list(printed(words))
    if not lines:
        print(f"nothing that is handed out is named by {' or '.join(words)}", file=sys.stderr)
        return 1
    print("\n".join(lines).strip("\n"))
    return 0


if __name__ == "__main__":
    try:
        sys.exit(main(sys.argv[1:]))
    except BrokenPipeError:
        sys.exit(1)
