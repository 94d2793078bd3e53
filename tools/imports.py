#!/usr/bin/env python3
"""Keeps the imports of definitions short: makes the modules `Words`, and joins what files import.

imports.py [--words]              at the top of the repository

A crate that has a file specs/Words.antt passes on in it what crates above import from more than
one of its modules. A file above imports such a word from there, but one that it unfolds, and names
a module in as few lines as it can. With `--words` these modules are made anew first, of each word
that is imported above and that a single module defines: all that stands on a crate whose words
change is proved anew, so that a new word is imported from its own module until then.
"""

import re
import sys
from collections import defaultdict

from definitions import definitions
from sources import TOP, floors, text

WIDTH = 100
TITLE = (
    "-- The words of this crate that clauses above it cite, passed on from one place. "
    "Declares nothing.\n"
)
IMPORT = re.compile(r"^( *(?:ghost )?)use Rattle\.([^\s{}]+?)\.\{([^}]*)\}(;?)$")
ANY_IMPORT = re.compile(r"^ *(?:ghost )?use Rattle\.")
UNFOLDING = re.compile(r"^( *)unfolding (.*(?:\n\1    .*)*)$", re.M)


def files(top):
    """The files of all crates that import definitions, each with its crate."""
    for _, crate, _ in floors(top):
        for path in sorted((top / "crates" / crate).glob("**/*")):
            own = path.suffix in (".antt", ".rt") and "out" not in path.parts
            if own and path.name != "Words.antt":
                yield crate, path


def imported(line):
    """What stands before an import, its module, its names and its end; None of another line."""
    found = IMPORT.match(line)
    return found and (found[1], found[2], re.findall(r"[^\s,](?:[^,]*[^\s,])?", found[3]), found[4])


def lines_of(before, module, names, end):
    """The lines that import names, each as long as it may be."""
    rows, kept = [], []
    for name in [*names, None]:
        row = f"{before}use Rattle.{module}.{{{', '.join([*kept, name or ''])}}}{end}"
        if kept and (name is None or len(row) > WIDTH):
            rows.append(f"{before}use Rattle.{module}.{{{', '.join(kept)}}}{end}")
            kept = []
        kept.append(name)
    return rows


def is_specs(module):
    parts = module.split(".")
    return len(parts) == 3 and parts[1] == "specs"


def words_cited(top):
    """The words that a crate with a module `Words` is asked for from above, each with its module:
    those that a single module defines."""
    passing = {crate for _, crate, _ in floors(top) if words_file(top, crate).exists()}
    homes, cited = defaultdict(set), defaultdict(set)
    for own in definitions(top):
        homes[own.crate, own.name].add(f"{own.crate}.specs.{own.path.stem}")
    for crate, path in files(top):
        for _, module, names, _ in filter(None, map(imported, text(path).split("\n"))):
            other = module.split(".")[0]
            for name in names if is_specs(module) and other in passing else []:
                word = name.split(" as ")[0]
                if not module.endswith(".Words"):
                    homes[other, word].add(module)
                if crate != other:
                    cited[other].add(word)
    for crate in passing:
        for word, module in words_passed(top, crate).items():
            homes[crate, word].add(module)
    return {
        crate: {word: min(homes[crate, word]) for word in words if len(homes[crate, word]) == 1}
        for crate, words in cited.items()
    }


def words_file(top, crate):
    return top / "crates" / crate / "specs" / "Words.antt"


def words_passed(top, crate):
    """The words that a crate's module `Words` has, each with the module that defines it."""
    rows = text(words_file(top, crate)).split("\n") if words_file(top, crate).exists() else []
    found = (imported(row.removeprefix("pub ")) or ("", "", [], "") for row in rows)
    return {name: module for _, module, names, _ in found for name in names}


def words_text(words):
    """The text of the module `Words` that passes words on."""
    modules = defaultdict(list)
    for word in sorted(words):
        modules[words[word]].append(word)
    rows = (lines_of("pub ", module, modules[module], "") for module in sorted(modules))
    return TITLE + "".join(f"{row}\n" for own in rows for row in own)


def source_of(crate, module, name, passed, unfolded):
    """The module from which a file imports a word, which it may import from another one now."""
    other = module.split(".")[0]
    word, own = name.split(" as ")[0], name.split(" as ")[-1]
    home = passed.get(other, {}).get(word)
    words = f"{other}.specs.Words"
    if crate == other or module not in (home, words):
        return module
    return home if own in unfolded else words


def joined(crate, rows, passed, unfolded):
    """The rows of a block of imports, joined by their modules."""
    found = {}
    for row in rows:
        before, module, names, end = imported(row) or (row, None, [], "")
        found.setdefault((before, module, end), [])
        for name in names:
            to = source_of(crate, module, name, passed, unfolded)
            own = found.setdefault((before, to, end), [])
            own += [name] if name not in own else []
    for (before, module, end), names in found.items():
        if module is None:
            yield before
        elif names:
            yield from lines_of(before, module, names, end)


def with_joined(crate, own, passed):
    """The text of a file, with each block of its imports joined."""
    out, block = [], []
    unfolded = {word for _, words in UNFOLDING.findall(own) for word in words.split()}
    for row in [*own.split("\n"), None]:
        if row is not None and ANY_IMPORT.match(row):
            block.append(row)
            continue
        out += joined(crate, block, passed, unfolded)
        block = []
        out += [] if row is None else [row]
    return "\n".join(out)


def changes(top=TOP):
    """The files that have other imports than they should, each with what it should be."""
    passed = {crate: words_passed(top, crate) for _, crate, _ in floors(top)}
    for crate, path in files(top):
        own = text(path)
        wanted = with_joined(crate, own, passed)
        if own != wanted:
            yield path, wanted


def main(words):
    if words not in ([], ["--words"]):
        print(__doc__, file=sys.stderr)
        return 2
    for crate, cited in words_cited(TOP).items() if words else ():
        words_file(TOP, crate).write_text(words_text(cited), encoding="utf-8")
    for path, wanted in list(changes()):
        print(path.relative_to(TOP))
        path.write_text(wanted, encoding="utf-8")
    return 0


if __name__ == "__main__":
    sys.exit(main(sys.argv[1:]))
