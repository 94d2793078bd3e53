"""The proved program xlsx_tool: how it is built, and how it is run."""

import contextlib
import os
import re
import resource
import signal
import subprocess
import sys

from place import CRATE, LOG, NAME, PLACE, TOP, lanes
from words import one_line

# The most bytes that the program reads, those of a workbook file.
LIMIT = 256 * 1024 * 1024

# How long the first proof takes, and an answer without one, on four processors.
PROVING = "half an hour to an hour"
UNPROVED = "a minute or two"

ANSWERS = f"--unproved answers in {UNPROVED}"

UNPROVED_SAYS = "this answer is not proved; past 1 MiB of lines or a minute's run there is none"

WRITE_FAULT = b"write fault\n"

# What `rt` tells of a run without a proof, behind all that the program said.
OF_RT = re.compile(rb"run=|(?:checked|interpreted|races): ")


class Ended(Exception):
    """The end of ./xlsx with a status, and lines for standard error."""

    def __init__(self, status, *lines):
        super().__init__("\n".join(lines))
        self.status, self.lines = status, lines


def say(text):
    """Says a line on standard error."""
    os.write(2, f"xlsx: {one_line(text)}\n".encode(errors="backslashreplace"))


def find(command, what):
    """Sees that a command is there."""
    import shutil

    if shutil.which(command) is None:
        raise Ended(1, f"{command}, {what}, is not among the commands (PATH)")


# These signals end ./xlsx.
ENDING = (signal.SIGHUP, signal.SIGINT, signal.SIGTERM)


def end(number, frame):
    """Ends by a signal, with the status that tells of it."""
    sys.exit(128 + number)


def end_by_signals():
    """Has signals end this process in order, but those that are ignored."""
    for number in ENDING:
        if signal.getsignal(number) != signal.SIG_IGN:
            signal.signal(number, end)


@contextlib.contextmanager
def child_of(words, prepare=lambda: None, **given):
    """A child that runs words, prepared by a call in its process. It ends with this process: a
    signal is held back until the child is known."""
    before = signal.pthread_sigmask(signal.SIG_BLOCK, ENDING)

    def begin():
        signal.pthread_sigmask(signal.SIG_SETMASK, before)
        prepare()

    child = None
    try:
        child = subprocess.Popen(words, preexec_fn=begin, **given)
        signal.pthread_sigmask(signal.SIG_SETMASK, before)
        yield child
    except BaseException:
        if child is not None:
            child.terminate()
            child.wait()
        raise
    finally:
        signal.pthread_sigmask(signal.SIG_SETMASK, before)


def status_of(child):
    """The status that a child ends with, as a shell tells it."""
    status = child.wait()
    return 128 - status if status < 0 else status


def build():
    """Proves and builds the program."""
    import tempfile

    find("rt", "the command of the Rattle kit")
    say(f"no proved program is there yet: proving takes {PROVING}; {ANSWERS}")
    say(f"proving; what rt says goes to {LOG}")
    for folder in (PLACE, lanes()):
        try:
            os.makedirs(folder, exist_ok=True)
            tempfile.TemporaryFile(dir=folder).close()
        except OSError as error:
            raise Ended(1, f"{folder} can't be written: {error.strerror}") from None
    words = [sys.executable, "tools/prove.py", NAME]
    with child_of(words, cwd=TOP, stdin=subprocess.DEVNULL, stdout=2) as child:
        status = status_of(child)
    if status:
        raise Ended(1, f"{NAME} could not be built: the end of {LOG} says why")
    say("built")


class Program:
    """How the program is run: as it is built, within so many MiB of address space, or unproved,
    where no built one is named."""

    def __init__(self, built, memory):
        self.built, self.memory = built, memory

    def bound(self):
        """Gives this process the address space that the program may have, in KiB as a shell does.
        Where less is allowed already, that stays."""
        size = self.memory * 1024 * 1024
        if size:
            try:
                resource.setrlimit(resource.RLIMIT_AS, (size, size))
            except (OSError, ValueError, OverflowError):
                pass

    def run(self, words, source, output):
        """Runs words on an open file, by its number, and has the lines go to another. The status,
        and what is said of a refusal."""
        if self.built is None:
            return self.run_unproved(words, source, output)
        given = {"stdin": source, "stdout": output, "stderr": subprocess.PIPE}
        with child_of([self.built, *words], self.bound, **given) as child, child.stderr:
            said = child.stderr.read()
            return status_of(child), said

    def run_unproved(self, words, source, output):
        """The same by a run without a proof, where that gives an answer."""
        import shutil
        import tempfile

        with tempfile.TemporaryFile() as lines, tempfile.TemporaryFile() as errors:
            given = {"cwd": CRATE, "stdin": source, "stdout": lines, "stderr": errors}
            with child_of(["rt", "try", "--", *words], **given) as child:
                status = status_of(child)
            errors.seek(0)
            # The last line tells whether the program ended, and those before it how.
            rows = errors.read().splitlines(keepends=True)
            last = b"".join(rows[-1:])
            if not last.startswith(b"run=ended status=%d " % status):
                text = last.decode(errors="replace").strip()
                raise Ended(1, f"no answer without a proof: {text}")
            lines.seek(0)
            try:
                with open(os.dup(output), "wb") as out:
                    shutil.copyfileobj(lines, out)
            except OSError:
                return 7, WRITE_FAULT
        while rows and OF_RT.match(rows[-1]):
            rows.pop()
        return status, b"".join(rows)
