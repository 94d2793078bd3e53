"""Answers the words of ./xlsx by the program xlsx_tool, which reads the workbook file, or the
package text, itself.

The status is the program's own, or 1 where the program could not be built or gave no answer, 3
where the file can't be read, and 11 or 12 where the program refuses a workbook of another kind
(docs/FORMAT.md). What can be refused is refused before a build.
"""

import os
import re
import select
import stat
import sys

import words as of_words
from escapes import unescaped
from place import PROGRAM, is_ready
from program import LIMIT, PROVING, UNPROVED, UNPROVED_SAYS, WRITE_FAULT, Ended, Program
from program import build, end_by_signals, say
from words import one_line

# The most address space that the proved program gets, in MiB; 0 sets no bound.
MEMORY = "4096"

# How many names are told where one isn't found.
TOLD = 10

# What the name of a file can't have on one system or another, and `%`, which stands for it.
UNFIT = re.compile(r'[\0-\x1f\x7f"%*/:<>?\\|]')


def file_of(name):
    """The name of the file for a worksheet."""
    fit = UNFIT.sub(lambda found: f"%{ord(found[0]):02X}", name)
    return f"%2E{fit[1:]}.csv" if fit.startswith(".") else f"{fit}.csv"


def standard_input():
    return open(0, "rb", buffering=0, closefd=False)


def kept(source, most=sys.maxsize):
    """The bytes of an open file, at most so many, in a temporary one."""
    # This and other modules are brought in where they are needed: an answer needs few.
    import tempfile

    file = tempfile.TemporaryFile()
    while most and (piece := source.read(min(most, 1 << 20))):
        file.write(piece)
        most -= len(piece)
    file.flush()
    file.seek(0)
    return file


class Input:
    """What the program reads, once or more often: an open file, and its name, if it has one."""

    def __init__(self, file, path=None):
        self.file, self.path, self.start = file, path, None
        try:
            # What a file is read from, where it can be read again.
            if stat.S_ISREG(os.fstat(file.fileno()).st_mode):
                self.start = os.lseek(file.fileno(), 0, os.SEEK_CUR)
        except OSError:
            pass

    def number(self):
        """The number of the file, which stands at its start."""
        if self.start is not None:
            os.lseek(self.file.fileno(), self.start, os.SEEK_SET)
        return self.file.fileno()

    def is_repeated(self):
        """Whether it can be read again."""
        return self.start is not None


class Refused(Exception):
    """The end of ./xlsx by a refusal: its status, and the bytes that tell of it."""

    def __init__(self, status, said):
        super().__init__(said)
        self.status, self.said = status, said


def refused_file(path, status, text):
    """The refusal of a file, told with its name."""
    name = os.fsencode(one_line(path))
    return Refused(status, name + f": {one_line(text)}\n".encode(errors="replace"))


def opened(path):
    """The file of a name. Nothing is waited for: a pipe that nobody writes to is no file."""
    try:
        number = os.open(path, os.O_RDONLY | os.O_NONBLOCK | os.O_CLOEXEC)
    except OSError as error:
        raise refused_file(path, 3, f"can't be read: {error.strerror}") from None
    mode = os.fstat(number).st_mode
    if stat.S_ISREG(mode):
        return open(number, "rb", buffering=0)
    os.close(number)
    if stat.S_ISDIR(mode):
        raise refused_file(path, 3, "can't be read: Is a directory")
    what = "a pipe, and no file" if stat.S_ISFIFO(mode) else "no regular file"
    raise refused_file(path, 3, f"can't be read: it is {what}")


class Front:
    """One call: the program, and what it reads."""

    def __init__(self, program, source):
        self.program, self.source = program, source

    def lines(self, words):
        """The lines of a command, each as its fields."""
        import tempfile

        with tempfile.TemporaryFile() as output:
            status, said = self.program.run(words, self.source.number(), output.fileno())
            if status:
                raise self.refused(status, said)
            output.seek(0)
            text = output.read().decode()
        return [[unescaped(field) for field in line.split("\t")] for line in text.split("\n")[:-1]]

    def refused(self, status, said):
        """What is said of a refusal of the program: where the file is a workbook of another kind,
        which kind that is. Faults of output and of memory say nothing of the file."""
        is_of_file = status not in (7, 8) and self.source.path is not None
        if is_of_file and self.source.is_repeated():
            from kinds import other_kind

            other = other_kind(self.source.number())
            if other is not None:
                return refused_file(self.source.path, *other)
        return Refused(status, said)

    def worksheets(self):
        """The names of the worksheets, each once."""
        sheets = self.lines(["sheets"])
        first = {name: kind for name, kind, _ in reversed(sheets)}
        names = dict.fromkeys(name for name, *_ in sheets)
        return [name for name in names if first[name] == "worksheet"]

    def names(self, words, said):
        """What is asked for and not found, and all names that there are of its kind."""
        if said == f"Worksheet '{words[1]}' not found\n".encode():
            return "sheets", [name for name, *_ in self.lines(["sheets"])]
        if said == f"Table '{words[1]}' not found\n".encode():
            return "tables", [name for name, *_ in self.lines(["tables"])]
        if said.startswith(b"Pivot Table '") and said.endswith(b"' was not found on worksheet\n"):
            pivots = self.lines(["pivots"])
            return "pivot tables", [f"{name}' on '{sheet}" for sheet, name in pivots]
        return "", []

    def say_names(self, words, said):
        """Says which names there are where one isn't found."""
        if not self.source.is_repeated():
            if said == f"Worksheet '{words[1]}' not found\n".encode():
                say("the sheets of a workbook are listed by: ./xlsx FILE.xlsx sheets")
            return
        try:
            kind, found = self.names(words, said)
        except Refused:
            return
        if kind and not found:
            say(f"there are no {kind}")
        elif kind:
            shown = ", ".join(f"'{name}'" for name in found[:TOLD])
            more = f", and {len(found) - TOLD} more" if len(found) > TOLD else ""
            say(f"there are these {kind}: {shown}{more}")

    def answer(self, asked):
        """Has the program answer, onto standard output: the status."""
        words = asked.of_program()
        status, said = self.program.run(words, self.source.number(), 1)
        if status == 7 and said == WRITE_FAULT and is_reader_gone():
            return 7
        return self.told(words, status, said)

    def told(self, words, status, said):
        """Tells what the program said, and which names there are: the status."""
        if status == 0:
            os.write(2, said)
            return 0
        refused = self.refused(status, said)
        os.write(2, refused.said)
        if refused.status == 6 and len(words) > 1:
            self.say_names(words, said)
        return refused.status

    def save(self, asked):
        """Has the program answer a workbook file, and writes it: the status."""
        import shutil
        import tempfile

        from saving import CantWrite, replacing

        words, path = [*asked.of_program(), of_words.AS_FILE], asked.saved
        with tempfile.TemporaryFile() as answer:
            status, said = self.program.run(words, self.source.number(), answer.fileno())
            if status == 0:
                answer.seek(0)
                try:
                    with replacing(path) as file:
                        shutil.copyfileobj(answer, file)
                except CantWrite as refusal:
                    raise refused_file(path, 7, str(refusal)) from None
        return self.told(words, status, said)

    def write_all(self, asked):
        """Writes each worksheet as CSV into a file of a folder: the status."""
        import tempfile

        folder, options, worksheets = asked.folder, asked.options, self.worksheets()
        try:
            os.makedirs(folder, exist_ok=True)
            with tempfile.TemporaryDirectory(dir=folder) as made:
                for name in worksheets:
                    self.write_one(name, options, os.path.join(made, file_of(name)))
                for name in worksheets:
                    file = file_of(name)
                    os.replace(os.path.join(made, file), os.path.join(folder, file))
        except OSError as error:
            raise Ended(7, f"{folder} can't be written: {error.strerror}") from None
        return 0

    def write_one(self, name, options, path):
        with open(path, "xb") as output:
            words = ["csv", name, *options]
            status, said = self.program.run(words, self.source.number(), output.fileno())
        if status:
            raise Refused(status, f"'{one_line(name)}': ".encode() + said)


def is_reader_gone():
    """Whether nobody reads standard output any more."""
    poll = select.poll()
    poll.register(1, 0)
    return any(event & (select.POLLERR | select.POLLHUP) for _, event in poll.poll(0))


def help_page(memory):
    """Writes the page, in front of the program's own, which is written where it is built."""
    try:
        text = of_words.page(memory, PROVING, UNPROVED).encode()
        while text:
            text = text[os.write(1, text) :]
    except OSError:
        raise Refused(7, b"" if is_reader_gone() else WRITE_FAULT) from None


def file_and_asked(words):
    """The workbook file among words, if any, and what is asked for by those behind it."""
    if not words:
        raise Refused(2, of_words.USAGE.encode())
    words = of_words.file_first(words, is_file)
    first, rest = words[0], words[1:]
    if of_words.is_command(words) or not is_file(first):
        return None, of_words.asked_by(words)
    if first in of_words.COMMANDS and not of_words.is_command(rest):
        # A file of a command's name is there, but it is the command that lacks words.
        of_words.asked_by(words)
    return first, of_words.asked_by(rest, first)


def is_file(word):
    """Whether a word is a workbook file, there or not."""
    return word == of_words.STANDARD_INPUT or os.path.exists(word) or is_file_name(word)


def is_file_name(word):
    """Whether a word has the ending of a workbook's name."""
    return re.search(r"\.(?:xls|xls[xmb])$", word, re.IGNORECASE) is not None


def memory_of(word):
    """The MiB that a text says, or 0 for no bound."""
    if not (word.isascii() and word.isdigit() and len(word) < 13):
        said = f"XLSX_MEMORY is '{word}': it takes a number of MiB, or 0 for no bound"
        raise of_words.Faulty(said)
    return int(word)


def source_of(path, asked):
    """What is read: a file, or standard input."""
    if path is not None and path != of_words.STANDARD_INPUT:
        return Input(opened(path), path)
    if path is None and not asked.is_page() and asked.word != "sample" and os.isatty(0):
        call = f"./xlsx FILE.xlsx {asked.word} .."
        say(f"waiting for a package text at the terminal; {call} reads a file")
    source = Input(standard_input())
    if asked.is_read_again() and not source.is_repeated():
        return Input(kept(source.file, LIMIT + 1))
    return source


def answered(words):
    """The status of a call."""
    is_proved, words = of_words.with_proof(words)
    memory = memory_of(os.environ.get("XLSX_MEMORY", MEMORY))
    path, asked = file_and_asked(words)
    if asked.is_page() and asked.word == "--help":
        help_page(os.environ.get("XLSX_MEMORY", MEMORY))
        if not is_ready():
            return 0
    source = source_of(path, asked)
    if is_ready():
        is_proved = True
    elif is_proved:
        build()
    else:
        say(UNPROVED_SAYS)
    front = Front(Program(PROGRAM if is_proved else None, memory), source)
    if asked.saved is not None:
        return front.save(asked)
    if asked.folder is not None:
        return front.write_all(asked)
    return front.answer(asked)


def main(words):
    end_by_signals()
    try:
        os.fstat(0)
    except OSError:
        # What is opened next would be standard input.
        os.open(os.devnull, os.O_RDONLY)
    try:
        return answered(words)
    except of_words.Faulty as fault:
        say(str(fault))
        say("./xlsx --help says which words there are")
        return 2
    except Ended as ended:
        for line in ended.lines:
            say(line)
        return ended.status
    except Refused as refused:
        os.write(2, refused.said)
        return refused.status


if __name__ == "__main__":
    sys.exit(main(sys.argv[1:]))
