"""Reads the sources of the crates: their order, the functions with their heads, what a crate hands
out, and the clauses of its calls."""

import functools
import pathlib
import re
from dataclasses import dataclass, field

TOP = pathlib.Path(__file__).resolve().parent.parent
# What a crate that is a test, or of use to tests alone, is called.
OF_TESTS = re.compile(r"tests?_\w+")

WORD = re.compile(r"[A-Za-z_][A-Za-z0-9_]*")
HEAD = re.compile(r"( *)(?:pub(?:\([^)]*\))? )?(?:const |unsafe )*fn (\w+)")
CLAUSE = re.compile(r"\s*(?:ensures|requires)\b")
LABEL = re.compile(r"\s*(ensures|requires)\*?(?: (\w+))?\s*(?:\{|$)")
QUOTED = re.compile(r'"(?:[^"\\]|\\.)*"|\'(?:[^\'\\]|\\.)\'')
BLOCK = re.compile(r"(?:unsafe )?(?:impl|pub trait|trait|pub struct|pub enum)\b")
GHOST = re.compile(r"    ghost (\w+)\b")
EXPORTED = re.compile(r"^pub use (?:crate::)?(?:\w+::)*(\{[^}]*\}|\w+);", re.M)
TEST = re.compile(r"#\[test\]\s*(?:#\[[^\]]*\]\s*)*fn (\w+)")
# What an `impl` tells without a clause of its own: what a value is to proofs, and what its type
# is a case of. A law of an impl is every other ghost of it.
KINDS_OF_GHOSTS = {"use", "view", "state", "invariant"}


@dataclass
class Function:
    """A function: its name, where it begins, the rows of its head, and the numbers of lines of its
    head and of its body, which is None where it has none."""

    name: str
    begun: int
    rows: list
    head: int
    body: "int | None"

    @property
    def is_public(self):
        return self.rows[0].lstrip().startswith("pub ")

    @property
    def clauses(self):
        """The clauses, each as whether it is ensured, its label, which may be empty, and itself."""
        found = []
        for row in self.rows[1:]:
            label = LABEL.match(row)
            if label:
                found.append([label[1] == "ensures", label[2] or "", []])
            if found:
                found[-1][2].append(row.strip())
        return [(ensured, label, " ".join(rows)) for ensured, label, rows in found]


@dataclass
class Call:
    """What a crate hands out: a function, a type with what is always so of it, or an impl of a
    trait for a type; its row, the type or trait that it belongs to, its comment and its clauses."""

    crate: str
    path: pathlib.Path
    row: int
    owner: str
    name: str
    comment: str
    clauses: list = field(default_factory=list)

    @property
    def spoken(self):
        return f"{self.owner}::{self.name}" if self.owner and self.name else self.name or self.owner


def text(path):
    return path.read_text(encoding="utf-8")


def floors(top=TOP):
    """The crates in the order of crates.txt, each with its floor and those that it stands on."""
    floor = ""
    for line in text(top / "crates.txt").splitlines():
        if line.startswith("# "):
            floor = line[2:]
        name, colon, below = line.split("#")[0].partition(":")
        if colon:
            yield floor, name.split()[0], below.split()


def crates(top=TOP):
    """The crates that are no tests, in the order of crates.txt, each with those it stands on."""
    for floor, name, below in floors(top):
        if not floor.startswith("tests"):
            yield name, below


def is_of_tests(path):
    return path.stem.endswith("tests")


def functions_of(code):
    """The functions of a source. A brace around a body that is alone is no line."""
    lines = code.splitlines()
    begun = opened = None
    for number, line in enumerate(lines):
        if begun is None and (found := HEAD.match(line)):
            begun, opened, depth = number, None, 0
            indent, name = found.groups()
        if begun is None:
            continue
        own = line.startswith(indent) and not line.startswith(indent + " ")
        depth += line.count("{") - line.count("}")
        if opened is None and depth == 0 and line.endswith(";"):
            yield Function(name, begun, lines[begun : number + 1], number + 1 - begun, None)
            begun = None
        elif own and line.endswith("}"):
            last = number if opened is None else opened
            alone = lines[last].strip() in ("{", "{}")
            rows = lines[begun : last + (not alone)]
            yield Function(name, begun, rows, len(rows), max(0, number - last - 1))
            begun = None
        elif own and line.endswith("{"):
            opened = number


def in_clauses(rows, begins=CLAUSE):
    """The numbers of the rows of clauses, or of what else begins so, each of which goes on to where
    its braces are closed."""
    found = set()
    depth, inside, opened = 0, False, False
    for number, row in enumerate(rows):
        if begins.match(row):
            depth, inside, opened = 0, True, False
        elif not inside or not opened and row.strip() in ("{", "{}"):
            inside = False
            continue
        found.add(number)
        bare = QUOTED.sub("", row)
        depth += bare.count("{") - bare.count("}")
        opened = opened or "{" in bare
        inside = depth > 0 if opened else not bare.rstrip().endswith(";")
    return found


def exported(root):
    """The names that the root of a crate hands out."""
    return {word for listed in EXPORTED.findall(root) for word in WORD.findall(listed)}


def comment_above(rows, place, mark="///"):
    """The comment whose last row stands before a place, or before the attributes there."""
    last = place
    while last > 0 and not rows[last - 1].lstrip().startswith(mark):
        if not re.match(r" *(?:#\[|[^/}]*\)?\)\]$|    )", rows[last - 1]):
            return ""
        last -= 1
    first = last
    while first > 0 and rows[first - 1].lstrip().startswith(mark):
        first -= 1
    return "\n".join(row.strip().removeprefix(mark).strip() for row in rows[first:last])


def blocks_of(rows):
    """The blocks of a source at its outermost level: where each begins and ends, and its head."""
    begun = None
    for number, row in enumerate(rows):
        if begun is None and BLOCK.match(row):
            begun = number
        is_one_row = begun == number and row.endswith(("{}", ";"))
        if begun is not None and (row in ("}", ");") or is_one_row):
            head = " ".join(own.strip() for own in rows[begun : number + 1]).partition("{")[0]
            yield begun, number, head.strip()
            begun = None


def ghosts_of(rows):
    """The laws of an impl, or what is always so of a type, each as a clause."""
    found = []
    for row in rows:
        begun = GHOST.match(row)
        if begun and begun[1] not in KINDS_OF_GHOSTS and begun[1][0].islower():
            found.append([begun[1], []])
        if found:
            found[-1][1].append(row.strip())
        if found and re.match(r"    \S.*[};,]$|    }", row):
            name, own = found.pop()
            yield True, name, " ".join(own)


def type_in(head):
    """The type that an impl is of, or the name of a trait, a struct or an enum."""
    bare = head.partition(" where ")[0]
    while (shorter := re.sub(r"<[^<>]*>", "", bare)) != bare:
        bare = shorter
    return WORD.findall(bare.rpartition(" for ")[2])[-1]


def trait_in(head):
    """The trait that an impl is of, or nothing."""
    found = re.match(r"(?:unsafe )?impl(?:<.*?>)? (.*) for ", head)
    return re.sub(r"^[\w:]*::", "", found[1]) if found else ""


def calls_in(crate, path, code, handed):
    """What a source hands out of a crate that hands out these names."""
    rows = code.split("\n")
    found = list(functions_of(code))
    for begun, end, head in blocks_of(rows):
        own, trait = type_in(head), trait_in(head)
        inside = [one for one in found if begun < one.begun < end]
        if head.startswith(("pub struct", "pub enum")):
            inside = []
        elif not trait:
            shown = head.startswith("pub trait")
            inside = [one for one in inside if one.is_public or shown]
        if not {own, trait.partition("<")[0]} & handed:
            continue
        owner = f"{trait} for {own}" if trait else own
        ghosts = list(ghosts_of(rows[begun:end]))
        if ghosts and not head.startswith("pub trait"):
            yield Call(crate, path, begun, owner, "", comment_above(rows, begun), ghosts)
        for one in inside:
            if one.clauses or not trait:
                comment = comment_above(rows, one.begun)
                yield Call(crate, path, one.begun, owner, one.name, comment, one.clauses)
    for one in found:
        if one.rows[0].startswith("pub ") and one.name in handed:
            comment = comment_above(rows, one.begun)
            yield Call(crate, path, one.begun, "", one.name, comment, one.clauses)


@functools.cache
def codes_of(crate, top=TOP):
    """The sources of a crate, tests among them, each with its text."""
    return {path: text(path) for path in sorted((top / "crates" / crate / "src").glob("*.rt"))}


def root_of(crate, top=TOP):
    """The root of a crate: that of a library, or of a program."""
    codes = codes_of(crate, top)
    folder = top / "crates" / crate / "src"
    return codes.get(folder / "lib.rt") or codes.get(folder / "main.rt", "")


def calls_of(crate, top=TOP):
    """What a crate hands out, room by room, in the order of its sources. A program hands out what
    is public in its rooms."""
    codes = codes_of(crate, top)
    library = top / "crates" / crate / "src" / "lib.rt"
    handed = exported(codes.get(library, ""))
    for path, code in codes.items():
        if path == library or library not in codes:
            handed |= set(re.findall(r"^pub (?:const )?(?:struct|enum|trait|fn) (\w+)", code, re.M))
    for path, code in codes.items():
        if not is_of_tests(path):
            yield from sorted(calls_in(crate, path, code, handed), key=lambda own: own.row)
