"""The words that ./xlsx takes: its commands, its page, and what is wrong with other words."""

import collections
import re

CONTROL = re.compile("[\0-\x1f\x7f-\x9f]")

# What a command is told by: its word, the names of what stands behind it, the same as a sentence
# says it, and the lines of the page.
Command = collections.namedtuple("Command", "word parameters takes page")


A_SHEET = "the name of a sheet, or --sheet and its number, or neither for the first worksheet"
A_CELL = f"{A_SHEET}, and the reference of a cell"
A_TABLE = "the name of a table"
NOTHING = "no further words"

COMMANDS = {
    command.word: command
    for command in (
        Command(
            "cells",
            ("NAME",),
            A_SHEET,
            (
                "prints one line for each cell of the worksheet NAME with a value, a",
                "formula or a style: its position, value, formula and fill, with tabs",
                "between them, as in",
                "C2\tn:10.5\t=SUM(B$2:B2)\t-",
                "By --json it and the other lists print objects of JSON, as in",
                '{"cell":"C2","type":"number","value":10.5,"formula":"SUM(B$2:B2)"}',
            ),
        ),
        Command(
            "sheets",
            (),
            NOTHING,
            ("prints one line for each sheet: its name, type and state",),
        ),
        Command(
            "names",
            (),
            NOTHING,
            ("prints one line for each defined name: the name and its text",),
        ),
        Command(
            "merges",
            ("NAME",),
            A_SHEET,
            (
                "prints one line for each area of merged cells of the worksheet NAME,",
                "by its corners, as in A1:C1",
            ),
        ),
        Command(
            "links",
            ("NAME",),
            A_SHEET,
            (
                "prints one line for each link of the worksheet NAME: its area, target,",
                "location, displayed text and tooltip, as in",
                "A2:A2\t=https://example.com\t-\t=go\t-",
            ),
        ),
        Command(
            "comments",
            ("NAME",),
            A_SHEET,
            (
                "prints one line for each comment of the worksheet NAME: its cell, its",
                "author and its text, as in",
                "A2\t=Ann\t=check this",
            ),
        ),
        Command(
            "widths",
            ("NAME",),
            A_SHEET,
            (
                "prints one line for the columns of each width of the worksheet NAME and",
                "for each hidden row: the area, the width and the visibility, as in",
                "A1:C1048576\t=12.5\tvisible",
            ),
        ),
        Command(
            "props",
            (),
            NOTHING,
            (
                "prints one line for each property of the workbook: its name and,",
                "behind a tab and =, its text",
            ),
        ),
        Command(
            "csv",
            ("NAME",),
            A_SHEET,
            (
                "prints the rows of the values of the worksheet NAME as CSV, with options,",
                "each at most once: --dates --digits=N --delimiter=C --crlf --bom --from-a1,",
                "or in place of the first two --shown: each value as its cell shows it",
            ),
        ),
        Command(
            "csv-table",
            ("NAME",),
            A_TABLE,
            (
                "prints the names of the columns and the rows of the table NAME as CSV.",
                "It takes the options of csv, but for --from-a1",
            ),
        ),
        Command(
            "rows",
            ("NAME",),
            A_SHEET,
            (
                "prints the rows of the values of the worksheet NAME by --json, which it",
                "takes always, as arrays of JSON, with null where there is no value, and",
                "with these options of csv: --dates --digits=N --from-a1 --shown. As in",
                '["Goods",2,null,true]',
                "By --header the fields of the first row are the keys of objects, as in",
                '{"Name":"Goods","Count":2,"Price":null,"Sold":true}',
            ),
        ),
        Command(
            "rows-table",
            ("NAME",),
            A_TABLE,
            (
                "prints the rows of the table NAME by --json, which it takes always, as",
                "objects of JSON, whose keys are the names of its columns. It takes",
                "--dates and --digits=N",
            ),
        ),
        Command(
            "tables",
            (),
            NOTHING,
            (
                "prints one line for each table: its name, its sheet, the area of its",
                "data and the names of its columns",
            ),
        ),
        Command(
            "table",
            ("NAME",),
            A_TABLE,
            ("prints one line for each value in the table NAME: position and value",),
        ),
        Command(
            "pivots",
            (),
            NOTHING,
            ("prints one line for each pivot table: its sheet and its name",),
        ),
        Command(
            "pivot",
            ("SHEET", "NAME"),
            f"{A_SHEET}, and the name of a pivot table",
            (
                "prints one line for each row of the cache of the pivot table NAME on",
                "SHEET: the names of its fields first, and then the records",
            ),
        ),
        Command(
            "precedents",
            ("NAME",),
            A_SHEET,
            (
                "prints one line for each formula of the worksheet NAME: its cell and",
                "the areas that it names, with tabs between them, as in",
                "A1\tB1:C2\tD4:D4",
            ),
        ),
        Command(
            "dependents",
            ("NAME", "REF"),
            A_CELL,
            (
                "prints one line for each cell of the worksheet NAME whose formula names",
                "the cell REF, such as A7: its reference. By --all it prints one for each",
                "formula of the workbook that needs that cell, also through others",
            ),
        ),
        Command(
            "graph",
            (),
            NOTHING,
            (
                "prints one line for each formula of the workbook: its cell, the areas that",
                "it names on all sheets, and the words that are left open, as in",
                "'Sheet1'!B2\t'Rates'!A1:A9\t?external [1]S",
            ),
        ),
        Command(
            "order",
            (),
            NOTHING,
            (
                "prints one line for each formula of the workbook, in an order in which",
                "they can be computed: its cell. Behind them stand the others, marked cycle",
                "or behind; open is one that may name more cells than are known",
            ),
        ),
        Command(
            "cycles",
            (),
            NOTHING,
            ("prints one line for each cycle of formulas of the workbook: their cells",),
        ),
        Command(
            "check",
            ("NAME",),
            A_SHEET,
            (
                "prints one line for each formula of the worksheet NAME: its cell, and",
                "agrees, or differs and what it comes to, or no value, unsupported or",
                "overflow, as in",
                "A1\tdiffers\tn:6",
            ),
        ),
        Command(
            "part",
            ("NAME",),
            A_SHEET,
            ("prints the name of the part that the worksheet NAME is read from",),
        ),
        Command(
            "upgrade",
            (),
            NOTHING,
            (
                "prints the package text in version 2, where an empty element is one",
                "event",
            ),
        ),
        Command(
            "resave",
            ("NAME",),
            A_SHEET,
            (
                "writes a package of the values and formulas of the worksheet NAME",
                "alone, and prints its text in version 2, or by --xlsx a workbook file",
            ),
        ),
        Command(
            "sample",
            ("N",),
            "a number of rows, from 1 to 20,000",
            (
                "makes a package of N rows, at most 20,000, and prints how much is read",
                "of it",
            ),
        ),
    )
}

# The command whose answer can be a workbook file, by its option; the option before the name of the
# file that the answer is written to; that for a folder, behind csv, and that for the number of a
# sheet.
SAVED, AS_FILE, TO = "resave", "--xlsx", "--to"
ALL, NUMBER = "--all", "--sheet"

# The command behind which that for a folder stands alone, and asks for all sheets.
OF_CELL = "dependents"

# What cells show is asked for by this option, which stands beside neither of these.
SHOWN, SPELLED = "--shown", ("--dates", "--digits")

# What stands in place of the number of a sheet where the program takes the first worksheet.
FIRST = "first"

# The options of a command, each once and in any order: words alone, and, where it writes CSV, words
# with a value.
FLAGS = {
    "csv": ("--dates", "--crlf", "--bom", "--from-a1", SHOWN),
    "csv-table": ("--dates", "--crlf", "--bom", SHOWN),
    SAVED: (AS_FILE,),
    OF_CELL: (ALL,),
}

# A list has its lines as objects of JSON by this option.
AS_JSON = "--json"
OF_BOOK = ("sheets", "names", "tables", "pivots", "props")
LISTS = ("cells", "merges", "links", "comments", "widths", *OF_BOOK)
FLAGS |= {word: (AS_JSON,) for word in LISTS} | {
    "rows": (AS_JSON, "--dates", "--from-a1", SHOWN, "--header"),
    "rows-table": (AS_JSON, "--dates"),
}
WRITE_CSV = ("csv", "csv-table")
ROWS_AS_JSON = ("rows", "rows-table")
TAKE_DIGITS = (*WRITE_CSV, *ROWS_AS_JSON)
SETTINGS = {
    "--digits": (
        re.compile("[1-9]|[12][0-9]|3[0-8]"),
        "a number from 1 to 38",
    ),
    "--delimiter": (
        re.compile('tab|[\0-\x7f]', re.DOTALL),
        "tab, or one ASCII character that is no quotation mark, CR or LF",
    ),
}
NO_DELIMITER = ('"', "\r", "\n")

# This one is of ./xlsx alone, takes a file, and is that one of the program.
PACKAGE, UPGRADE = "package", "upgrade"

# These options have a value in the next word. Behind END each word is a name.
WITH_VALUES = {
    TO: f"{TO} takes the name of a file",
    ALL: f"{ALL} takes the name of a folder",
    NUMBER: f"{NUMBER} takes the number of a sheet, from 1",
}
END = "--"

# This one stands anywhere.
WITHOUT_PROOF = "--unproved"

# These ask for a page of the program.
PAGES = ("--help", "--version")

# The most rows of a sample.
ROWS = 20_000

# The last column of a worksheet and its last row, counted from 1, and the form of a reference.
LAST_COLUMN, LAST_ROW = 16_384, 1_048_576
REFERENCE = re.compile("([A-Za-z]{1,3})0*([1-9][0-9]{0,6})")

# A workbook of standard input.
STANDARD_INPUT = "-"

USAGE = """\
usage: ./xlsx FILE.xlsx cells NAME       (or merges, links, comments, csv, csv-table, rows,
                                          rows-table, table, part, precedents, check, widths or
                                          resave NAME, dependents NAME REF,
                                          pivot SHEET NAME, or sheets, names, tables,
                                          pivots, props, graph, order, cycles or
                                          upgrade)
       ./xlsx FILE.xlsx csv --all FOLDER
       ./xlsx FILE.xlsx resave NAME --to OUT.xlsx
       ./xlsx FILE.xlsx resave NAME --xlsx > OUT.xlsx
       ./xlsx cells NAME < package.json
       ./xlsx sample N
       ./xlsx --help
"""

PAGE = """\
Usage: ./xlsx FILE.xlsx WORDS         reads a workbook file, or for - standard input
       ./xlsx WORDS < package.json    reads a package text (docs/FORMAT.md)
       ./xlsx --unproved ..           the same, without waiting for a proof

WORDS are those of the program xlsx_tool:

{commands}

In place of the name of a sheet --sheet N is the sheet that stands at N among all, from 1, and
no name is the first worksheet. A word that begins with -- is an option wherever it stands, but
that behind a word -- alone each is a name. And

    csv --all FOLDER
                  writes each worksheet as CSV into a file of FOLDER, by its name: none
                  where one of them is refused
    resave NAME --to OUT.xlsx
                  writes the workbook file of `resave NAME --xlsx' into OUT.xlsx:
                  nothing where it is refused
    package       prints the package text of FILE, as upgrade does

The program is proved and built first, where it is missing or older than its
sources: from nothing this takes {proving}. With --unproved it answers in
{unproved} where it isn't built yet, and nothing of that answer is proved.
The proved program gets {memory} MiB of address space, where that can be bounded, and
answers `out of memory' with status 8 beyond it; XLSX_MEMORY sets another number, and 0
none. Once it is built, its own page stands below.

"""


def one_line(text):
    """The text without control characters, so that it stays one line and does nothing else."""
    return CONTROL.sub(lambda found: f"\\x{ord(found[0]):02x}", text)


class Faulty(Exception):
    """Words that are no command, and what is wrong with them."""


def lines_of(command):
    """The lines of a command on the page: its words, and beside them what it prints."""
    head = " ".join((command.word, *command.parameters))
    front = [f"    {head}"] if len(head) > 12 else []
    first = " " * 18 if front else f"    {head:<14}"
    return [*front, first + command.page[0], *(" " * 18 + line for line in command.page[1:])]


def page(memory, proving, unproved):
    commands = "\n".join(line for command in COMMANDS.values() for line in lines_of(command))
    return PAGE.format(commands=commands, memory=memory, proving=proving, unproved=unproved)


def is_number(word, most=None):
    """Whether a word is a whole number from 1 on, in digits alone, and at most so large."""
    digits = word.lstrip("0")
    if not digits or not (digits.isascii() and digits.isdigit()):
        return False
    return most is None or len(digits) <= len(str(most)) and int(digits) <= most


def is_reference(word):
    """Whether a word is the reference of a cell of a worksheet, in letters and digits alone."""
    found = REFERENCE.fullmatch(word)
    if found is None:
        return False
    column = 0
    for letter in found[1].upper():
        column = 26 * column + ord(letter) - ord("A") + 1
    return column <= LAST_COLUMN and int(found[2]) <= LAST_ROW


def is_of_sheet(command):
    """Whether the first word behind a command is the name of a sheet."""
    return command.takes in (A_SHEET, A_CELL) or command.parameters[:1] == ("SHEET",)


class Asked:
    """What words ask for: a command with its names and options, the number of a sheet, the folder
    of `csv --all`, and the file of `resave --to`."""

    def __init__(self, words):
        self.names, self.options, values = [], [], {}
        left = iter(words)
        for word in left:
            if word == END:
                self.names += left
            elif word in WITH_VALUES and not (word == ALL and self.names[:1] == [OF_CELL]):
                if word in values:
                    raise Faulty(f"{word} stands twice")
                values[word] = next(left, None)
                if values[word] is None:
                    raise Faulty(WITH_VALUES[word])
            elif word.startswith(END):
                self.options.append(word)
            else:
                self.names.append(word)
        self.values, self.has_page = values, False
        self.number, self.folder, self.saved = (values.get(key) for key in (NUMBER, ALL, TO))
        if self.options and self.options[0] in PAGES and len(words) == 1:
            self.names, self.options, self.has_page = self.options, [], True
        self.word = self.names.pop(0) if self.names else None

    def is_page(self):
        return self.has_page

    def command(self):
        return COMMANDS.get(self.word)

    def lacks_sheet(self):
        """Whether the sheet is told by its number, or not at all."""
        command = self.command()
        count = len(command.parameters) if command is not None else 0
        return self.folder is None and count == len(self.names) + 1 and is_of_sheet(command)

    def is_read_again(self):
        """Whether the sheets are asked for before the command."""
        return self.folder is not None

    def chosen(self):
        """The words that choose a sheet where none is named: no workbook has so many sheets as the
        largest number."""
        if not self.lacks_sheet():
            return []
        if self.number is None:
            return [NUMBER, FIRST]
        digits = self.number.lstrip("0")
        return [NUMBER, digits if len(digits) < 10 else str(10**10)]

    def of_program(self):
        """The program's words."""
        options = sorted(self.options, key=lambda option: option != AS_JSON)
        return [self.word, *self.chosen(), *self.names, *options]


def wrong_option(asked):
    """What is wrong with the options of a command, or nothing."""
    word, given = asked.word, set()
    takes = {NUMBER: is_of_sheet(asked.command()), ALL: word == "csv", TO: word == SAVED}
    for key in asked.values:
        if not takes[key]:
            return f"{word} takes no option '{key}'"
    if asked.saved is not None and AS_FILE in asked.options:
        return f"{TO} writes a workbook file, and takes no {AS_FILE} beside it"
    if word in ROWS_AS_JSON and AS_JSON not in asked.options:
        csv = WRITE_CSV[ROWS_AS_JSON.index(word)]
        return f"{word} takes {AS_JSON}: there are no rows in another form but those of {csv}"
    for option in asked.options:
        key, equals, value = option.partition("=")
        if key in given:
            return f"{key} stands twice behind {word}"
        given.add(key)
        if equals and word in (TAKE_DIGITS if key == "--digits" else WRITE_CSV) and key in SETTINGS:
            form, wanted = SETTINGS[key]
            if not form.fullmatch(value) or value in NO_DELIMITER:
                return f"{key} takes {wanted}, and not '{value}'"
        elif option not in FLAGS.get(word, ()):
            return f"{word} takes no option '{option}'"
    for key in SPELLED:
        if SHOWN in given and key in given:
            return f"{SHOWN} goes by the formats of cells, and takes no {key} beside it"
    return None


def is_command(words):
    """Whether these words are a command of the program, or ask for a page of it."""
    try:
        asked_by(words)
    except Faulty:
        return False
    return True


def nearest(word):
    """A command that is like a word, as the end of a sentence; nothing where none is."""
    from difflib import get_close_matches

    for found in get_close_matches(word.lower(), COMMANDS, 1):
        return f": the nearest is {found}"
    return ""


def wrong_count(asked):
    """What is wrong with how many names stand behind a command, or nothing."""
    command, count = asked.command(), len(asked.command().parameters)
    if asked.folder is not None:
        if asked.names or asked.number is not None:
            return f"{asked.word} {ALL} takes a folder, and no sheet"
        return None
    if len(asked.names) == count - (asked.number is not None) or asked.lacks_sheet():
        return None
    said = f"{command.word} takes {command.takes}"
    if not command.parameters or len(asked.names) <= count:
        return said
    return f"{said}: put a name that has blanks in quotes"


def check_command(asked, file):
    """Sees that what is asked for is a command."""
    word = asked.word
    if word is not None and word.startswith("-") and word not in COMMANDS:
        raise Faulty(f"there is no option '{word}'")
    if asked.command() is None:
        where = "" if file is not None else ", and no file of that name"
        raise Faulty(f"there is no command '{word}'{where}{nearest(word)}")
    for wrong in (wrong_option(asked), wrong_count(asked)):
        if wrong is not None:
            raise Faulty(wrong)
    takes, last = asked.command().takes, asked.names[-1:]
    if word == "sample" and not is_number(last[0], ROWS):
        raise Faulty(f"sample takes {takes}, and not '{last[0]}'")
    if takes == A_CELL and not is_reference(last[0]):
        raise Faulty(f"{word} takes {takes}, and not '{last[0]}'")
    if asked.number is not None and not is_number(asked.number):
        raise Faulty(f"{WITH_VALUES[NUMBER]}, and not '{asked.number}'")
    if word == "sample" and file is not None:
        raise Faulty("sample makes its own package, and reads no file")


def asked_by(words, file=None):
    """What words ask for, where a file is read or none."""
    for page in (one for one in words[: [*words, END].index(END)] if one in PAGES):
        if len(words) > 1 or file is not None:
            raise Faulty(f"{page} stands alone")
    if words == [PACKAGE] and file is not None:
        words = [UPGRADE]
    asked = Asked(words)
    if asked.word is None and file is not None:
        raise Faulty(f"what of {file} is asked for? For one, ./xlsx {file} sheets lists its sheets")
    if asked.word is None:
        raise Faulty(f"there is no command beside '{words[0]}'")
    if not asked.is_page():
        check_command(asked, file)
    for one in words:
        try:
            one.encode()
        except UnicodeEncodeError:
            raise Faulty(f"'{one}' isn't UTF-8") from None
    return asked


def with_proof(words):
    """Whether an answer has to be proved by these words, and the words for it."""
    front = words[: [*words, END].index(END)]
    if WITHOUT_PROOF not in front:
        return True, words
    at = front.index(WITHOUT_PROOF)
    return False, [*words[:at], *words[at + 1 :]]


def file_first(words, is_file):
    """The words with the file, if any, before the options that stand in front of it."""
    if is_file(words[0]):
        return words
    at, is_value = 0, False
    while at < len(words) and (is_value or words[at].startswith(END) and words[at] != END):
        is_value, at = not is_value and words[at] in WITH_VALUES, at + 1
    if at == len(words) or not is_file(words[at]):
        return words
    return [words[at], *words[:at], *words[at + 1 :]]
