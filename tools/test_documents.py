"""Tries the documents against what they cite: names, clauses, edits, tests, files and sections."""

import re
import unittest

from clauses import edits
from counts import COLUMNS
from definitions import definitions
from sources import TEST, TOP, WORD, functions_of, text
from test_program import help_page
from words import COMMANDS

DOCUMENTS = [TOP / "README.md", TOP / "CONTRIBUTING.md", *sorted((TOP / "docs").glob("*.md"))]
PROMISES = [TOP / "docs" / "PROMISES.md", TOP / "docs" / "CLAUSES.md"]
# The newest list that a part says, which is a command, too, and the newest kind of value, by its
# name in code and in the definitions.
NEWEST_LIST = "widths"
NEWEST_VALUE = ("DateTimeIso", "iso_time")
# Documents that tell of each command and list. The others tell of what was chosen and measured.
OF_EACH = ("ARCHITECTURE", "CLAUSES", "FORMAT", "PROMISES", "USING")

QUOTED = re.compile(r"`([^`\n]+)`")
NAME = re.compile(r"[A-Za-z_][A-Za-z0-9_]*(?:(?:::|\.)[A-Za-z_][A-Za-z0-9_]*)*(?:\(\))?")
RECORD = re.compile(r"^pub record (\w+)((?:.*\n)(?: .*\n|\n(?= ))*)", re.M)

def rows_of(document):
    """The rows of a document's tables, each as its cells."""
    for line in text(document).splitlines():
        if line.startswith("|") and not re.match(r"\|[\s:|-]+\|$", line):
            yield [cell.strip() for cell in re.split(r"(?<!\\)\|", line.strip().strip("|"))]


def names_behind(words, cell):
    """The quoted names of a cell that stand in a list behind one of these words."""
    for listed in re.findall(rf"\b(?:{words})((?:(?:,| and|, and)? ?`\w+`)+)", cell):
        yield from QUOTED.findall(listed)


def commands_of(document):
    """The rows of the table of commands of a document, each by its first two cells."""
    rows = [cells for cells in rows_of(document) if len(cells) > 1]
    begun = next(at for at, cells in enumerate(rows) if cells[0] in ("command", "words"))
    for cells in rows[begun + 1 :]:
        if QUOTED.match(cells[0]) is None or cells[0].startswith("`--"):
            return
        yield cells[0], cells[1]


def bare(words):
    """A command with what it takes, without its options."""
    return re.sub(r" (?:\[.*|--.*)", "", words.strip("`"))


def sources_in(folder):
    for end in ("*.rt", "*.antt"):
        for path in sorted(folder.rglob(end)):
            if "out" not in path.parts:
                yield path


def sources():
    return sources_in(TOP / "crates")


class Documents(unittest.TestCase):
    @classmethod
    def setUpClass(cls):
        cls.code = {path: text(path) for path in sources()}
        cls.crates = {path.name for path in (TOP / "crates").iterdir()}
        cls.edits = {own.name for own in edits()}
        cls.tests = {name for one in cls.code.values() for name in TEST.findall(one)}
        cls.words = {word for one in cls.code.values() for word in WORD.findall(one)}
        cls.words |= cls.crates | cls.edits
        for folder in ("tools", "bench", "samples"):
            for path in (TOP / folder).glob("**/*.py"):
                cls.words |= {path.name, path.stem, *WORD.findall(text(path))}
                cls.tests |= set(re.findall(r"def test_(\w+)", text(path)))
        cls.words |= cls.tests

    def test_every_edit_and_test_that_a_document_cites_is_there(self):
        for document in DOCUMENTS:
            for cells in rows_of(document):
                for cell in cells:
                    edits = set(names_behind("edits?", cell))
                    tests = set(names_behind("tests?", cell))
                    known = self.tests | self.words if "tools/" in cell else self.tests
                    absent = (edits - self.edits) | (tests - known)
                    self.assertEqual(absent, set(), f"{document.name}: {cell}")

    def promised(self):
        """All that the promises quote."""
        return [quoted for document in PROMISES for quoted in QUOTED.findall(text(document))]

    def test_every_name_that_the_promises_cite_is_there(self):
        for quoted in self.promised():
            if NAME.fullmatch(quoted) and not quoted.endswith("NAME"):
                self.assertEqual(set(WORD.findall(quoted)) - self.words, set(), quoted)

    def test_every_definition_says_what_it_is(self):
        bare = [f"{own.path}: {own.name}" for own in definitions() if not own.comment]
        self.assertEqual(bare, [])

    def test_lines_of_documents_are_short(self):
        for document in (*DOCUMENTS, TOP / "samples" / "README.md"):
            for line in text(document).splitlines():
                if not line.startswith("|"):
                    self.assertLessEqual(len(line), COLUMNS, f"{document.name}: {line}")

    def test_every_definition_that_the_page_of_formats_names_is_there(self):
        defined = {own.name for own in definitions()} | {own.path.stem for own in definitions()}
        page = text(TOP / "docs" / "FORMAT.md")
        told = re.findall(r"Definitions?:((?:[^.]|\.(?! |\n|$))*)", page)
        named = [name for sentence in told for name in QUOTED.findall(sentence)]
        self.assertEqual([name for name in named if name not in defined], [])
        self.assertGreater(len(named), 40)

    def test_every_file_that_a_document_names_is_there(self):
        for document in DOCUMENTS:
            path = r"\b(?:crates|docs|tools|samples|bench)/[\w./-]*\w"
            for found in re.findall(path, text(document)):
                if not re.search(r"\b(?:NAME|out)\b", found):
                    self.assertTrue((TOP / found).exists(), f"{document.name}: {found}")
            for link in re.findall(r"\]\(([^)#:]+)\)", text(document)):
                self.assertTrue((document.parent / link).exists(), f"{document.name}: {link}")

    def clauses(self):
        """For each name of a function, the labels of the clauses of all functions of that name, and
        with them those of the laws of its `impl`."""
        found = {}
        for path, code in self.code.items():
            for own in functions_of(code) if path.suffix == ".rt" else ():
                labels = {label or "ensures" for ensured, label, _ in own.clauses if ensured}
                found.setdefault(own.name, set()).update(labels)
        return found

    def fields(self):
        """For each record of definitions, the names of its fields."""
        found = {}
        for code in (code for path, code in self.code.items() if path.parent.name == "specs"):
            for name, body in RECORD.findall(code):
                found.setdefault(name, set()).update(re.findall(r"^ +pub (\w+) :", body, re.M))
        return found

    def test_every_clause_that_the_promises_cite_is_one_of_its_call(self):
        clauses, fields = self.clauses(), self.fields()
        for cells in (cells for document in PROMISES for cells in rows_of(document)):
            cell = cells[1] if len(cells) > 1 else ""
            spoken = re.sub(r"\([^()]*\)|ghost fields? (?:`\w+`(?:, | and )?)+", "", cell)
            names = QUOTED.findall(spoken)
            calls = [name.split("::")[-1].rstrip("!") for name in names]
            of_calls = {label for call in calls for label in clauses.get(call, ())}
            of_all = set().union(*clauses.values())
            labels = {name for name in names if name not in clauses} & of_all
            # A clause that is a record has the labels of its fields: "`step` (`TakesStep`): ..".
            held = {own for name in re.findall(r"\(`(\w+)`\): `", cell) for own in fields[name]}
            # A cell that names a type alone speaks of all its calls.
            if of_calls and not re.search("the calls of|every call|^these", cell):
                self.assertEqual(labels - of_calls - held, set(), cell)

    def test_each_command_has_its_row_and_its_lines(self):
        form, readme = (dict(commands_of(TOP / name)) for name in ("docs/FORMAT.md", "README.md"))
        spelled = {" ".join((own.word, *own.parameters)) for own in COMMANDS.values()}
        self.assertEqual({bare(words) for words in form}, spelled)
        # README has some commands side by side, and some by what alone ./xlsx takes.
        named = {words for row in readme for words in QUOTED.findall(row)}
        self.assertEqual(spelled - {bare(words) for words in named}, set())
        self.assertEqual({words.split()[0] for words in named} - set(COMMANDS), set())
        page = help_page()
        usage = re.findall(r"xlsx_tool (.*?)(?: < INPUT)?$", page, re.M)
        self.assertEqual([f"`{words}`" for words in usage], list(form))
        lines = " ".join(page.split())
        for words, told in form.items():
            word = words.strip("`").split()[0]
            self.assertIn(f" {word} {told}", lines)

    def sought(self):
        """The files in which a command, a list, a kind of value and an escape have their places:
        what tests one is its own choice, and so are proofs beside a function, under its name."""
        for path, code in self.code.items():
            crate, part, *names = path.relative_to(TOP / "crates").parts
            is_beside = part == "proofs" and len(names) > 1
            is_test = re.match("tests?_", crate) or path.stem.endswith("tests")
            # A module that passes words on is made.
            if not (is_test or is_beside or path.name == "Words.antt"):
                yield path, re.sub(r"^\s*(?://|--).*$", "", code, flags=re.M)
        for folder in ("tools", "tools/support", "bench", "samples"):
            for path in (TOP / folder).glob("*.py"):
                if not path.stem.startswith("test_"):
                    yield path, text(path)
        documents = [TOP / "docs" / f"{name}.md" for name in OF_EACH]
        for path in (TOP / "README.md", TOP / "samples" / "README.md", *documents):
            yield path, text(path)

    def places(self, pattern):
        """The files that have a pattern, by their paths from the top."""
        named = re.compile(pattern, re.M)
        found = (path for path, code in self.sought() if named.search(code))
        return {path.relative_to(TOP).as_posix() for path in found}

    def told(self, title):
        """The files that a section of the guide tells of."""
        guide = text(TOP / "CONTRIBUTING.md")
        section = re.search(rf"^## {title}\n(.*?)^## ", guide, re.M | re.S)[1]
        told = set(re.findall(r"\b(?:\w+/[\w./]*|README)\.(?:antt|rt|py|md)\b", section))
        # Beside tests there are paths within the crate that was named before them.
        return {path for path in told if not re.match("src/|specs/|proofs/|tools/test_", path)}

    def test_every_place_of_the_last_command_is_told(self):
        commands = text(TOP / "crates" / "xlsx_commands" / "specs" / "Command.antt")
        data = re.search(r"^pub data Command .*\n((?:  .*\n)+)", commands, re.M)[1]
        names = [own for own in re.findall(r"^  (\w+) :", data, re.M) if own != "sample"]
        self.assertIn(NEWEST_LIST, names)
        last = names[-1]
        word, variant = last.replace("_", "-"), last.title().replace("_", "")
        spoken = rf'"{word}"|`{word}[ `]|\bxlsx_tool {word}\b|book\.xlsx {word}\b'
        coded = rf"\b(?:asked\.|Command::){variant}\b|\b{last}\b(?= *(?:sheet|name|parts|[:,}}=]))"
        places, told = self.places(f"{spoken}|{coded}"), self.told("To add a command")
        self.assertEqual(sorted(places - told), [])
        # How much a command takes is measured of lists alone.
        self.assertEqual(sorted(told - places), ["bench/lists.py"])

    def test_every_place_of_the_newest_list_is_told(self):
        spoken = rf'"{NEWEST_LIST}"|`{NEWEST_LIST}[ `]|\bxlsx_tool {NEWEST_LIST}\b'
        spoken += rf"|book\.xlsx {NEWEST_LIST}\b|\bxlsx_{NEWEST_LIST}\b|\b{NEWEST_LIST}_by_sheet"
        spoken += rf"|\b\w+\.{NEWEST_LIST}\b"
        # Tables, rows and tokens have widths, too.
        coded = rf"\b(?:xlsx|named|read_sheet)_{NEWEST_LIST}\b|\b{NEWEST_LIST}_by_sheet_name\b"
        coded += rf"|\b{NEWEST_LIST[:-1]}_lines\b|\b{NEWEST_LIST} form\b|{NEWEST_LIST.title()}\("
        coded += rf"|\bxlsx_tool {NEWEST_LIST}\b"
        own = f"crates/xlsx_{NEWEST_LIST}/"
        in_code = {path for path in self.places(coded) if path.startswith("crates/")}
        in_words = {path for path in self.places(spoken) if not path.startswith("crates/")}
        places = {path for path in in_code | in_words if not path.startswith(own)}
        told = self.told("To add a list") | self.told("To add a command")
        self.assertEqual(sorted(places - told), [])
        self.assertEqual(sorted(told - places), [])

    def test_every_place_of_the_newest_kind_of_value_is_told(self):
        places = self.places(rf"\b(?:{'|'.join(NEWEST_VALUE)})\b|ISO date")
        self.assertEqual(sorted(places - self.told("To add a kind of value")), [])
        self.assertGreaterEqual(len(places), 25)

    def test_every_place_of_the_escapes_is_told(self):
        coded = r"\b(?:is_unescaped|unescaped_len|escape_of|special_is_ascii)\b"
        # The bytes on one line, each behind a backslash.
        listed = r"^(?=.*\\\\)(?=.*[^\\]\\t)(?=.*[^\\]\\n)(?=.*[^\\]\\r)"
        listed += r"|\bfour escapes\b|\ba backslash is written\b"
        told = self.told("To add an escape of a line")
        # What is written as markup has escapes of its own.
        places = self.places(f"{coded}|{listed}")
        places = {path for path in places if not path.startswith("crates/xlsx_writer/")}
        self.assertEqual(sorted(places), sorted(told))

    def test_every_file_that_the_guide_names_is_there(self):
        titles = ("a command", "a list", "a kind of value", "an escape of a line")
        for title in titles:
            for path in self.told(f"To add {title}"):
                self.assertTrue((TOP / path).exists(), path)


if __name__ == "__main__":
    unittest.main()
