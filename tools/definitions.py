#!/usr/bin/env python3
"""Lists the public definitions of the crates: the name of each, its file, and what it is.

definitions.py [WORD ..]          at the top of the repository

Without words all are listed, crate by crate in the order of crates.txt. A word is a crate, a file
of `specs` or a name, and lists what it names.
"""

import pathlib
import re
import sys
import textwrap
from dataclasses import dataclass

from sources import TOP, comment_above, floors

DEFINED = re.compile(r"^(?:abbrev |unfoldable )*pub (?!mod |use )(?:record |data )?([^\s:(]+)")
WIDTH = 100


@dataclass
class Definition:
    """A public definition, and the comment above it as one text, empty where there is none."""

    crate: str
    path: pathlib.Path
    name: str
    comment: str


def definitions(top=TOP):
    """The public definitions of all crates, lowest crate first, in the order of their files."""
    for _, crate, _ in floors(top):
        for path in sorted((top / "crates" / crate / "specs").glob("**/*.antt")):
            rows = path.read_text(encoding="utf-8").split("\n")
            for place, row in enumerate(rows):
                found = DEFINED.match(row)
                if found:
                    own = comment_above(rows, place, "--").replace("\n", " ")
                    yield Definition(crate, path.relative_to(top), found[1], own)


def is_named(definition, words):
    names = {definition.crate, definition.name, definition.path.stem, str(definition.path)}
    return not words or not names.isdisjoint(words)


def printed(found):
    """The lines of definitions, each file with those in it."""
    last = None
    for own in found:
        if own.path != last:
            yield from ["", str(own.path)] if last else [str(own.path)]
            last = own.path
        line = f"{own.name}: {own.comment}"
        yield from textwrap.wrap(
            line, WIDTH, initial_indent="  ", subsequent_indent="      ", break_on_hyphens=False
        )


def main(words):
    lines = list(printed(own for own in definitions() if is_named(own, words)))
    if not lines:
        print(f"no definition is named by {' or '.join(words)}", file=sys.stderr)
        return 1
    print("\n".join(lines))
    return 0


if __name__ == "__main__":
    try:
        sys.exit(main(sys.argv[1:]))
    except BrokenPipeError:
        sys.exit(1)
