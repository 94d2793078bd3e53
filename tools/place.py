"""Where ./xlsx keeps what it proves and builds, and whether the proved program is there.

`rt ci` takes the folders `out` of all crates away while it is at work, and `rt` refuses a second
list of crates and sources of Rattle in any other place of the repository, also in .git. So the
copies in which crates are proved are in the user's cache. The program is in a folder of .git, and
where there is none in the cache, too. What `rt ci` built is taken from where it leaves that.
"""

import fcntl
import os
import time

TOP = os.path.dirname(os.path.dirname(os.path.realpath(__file__)))
NAME = "xlsx_tool"
CRATE = os.path.join(TOP, "crates", NAME)

# The program as `rt ci` leaves it.
OF_GATE = os.path.join(CRATE, "out", NAME)


def git_of(top):
    """The folder in which git keeps what is this checkout's own, or none."""
    git = os.path.join(top, ".git")
    if os.path.isfile(git):
        # That of a worktree is named here.
        with open(git) as named:
            git = os.path.join(top, named.read().partition("gitdir:")[2].strip())
    return git if os.path.isdir(git) else None


def cache_of(top):
    """The folder of the user's cache for the repository at this place."""
    # This and other modules are brought in where they are needed: an answer needs few.
    import hashlib

    cache = os.environ.get("XDG_CACHE_HOME") or os.path.expanduser("~/.cache")
    return os.path.join(cache, f"xlsx-{hashlib.sha256(os.fsencode(top)).hexdigest()[:16]}")


def place_of(top):
    """The folder of the program."""
    git = git_of(top)
    return cache_of(top) if git is None else os.path.join(git, "xlsx")


PLACE = place_of(TOP)
PROGRAM = os.path.join(PLACE, NAME)
LOG = os.path.join(PLACE, "proving.log")


def needs_of(top, table):
    """The crates of this repository below one, itself included, each with those it stands on.

    `table` is the text of crates.txt: a line `NAME: CRATE ..` for each crate, and `#` before what
    isn't read.
    """
    lines = (line.split("#")[0].partition(":") for line in table.splitlines())
    below = {name.split()[0]: needs.split() for name, colon, needs in lines if colon}
    found, waiting = {}, [top]
    while waiting:
        name = waiting.pop()
        if name not in found:
            found[name] = [need for need in below[name] if need in below]
            waiting += found[name]
    return found


def newer(folder, moment):
    """Whether a folder or something in it is newer than a moment, in nanoseconds."""
    try:
        if os.stat(folder).st_mtime_ns > moment:
            return True
        with os.scandir(folder) as entries:
            return any(
                newer(entry.path, moment)
                if entry.is_dir(follow_symlinks=False)
                else entry.stat(follow_symlinks=False).st_mtime_ns > moment
                for entry in entries
            )
    except FileNotFoundError:
        return False


def is_fresh(program):
    """Whether a program is there, and not older than what it is made from."""
    if not os.access(program, os.X_OK):
        return False
    moment = os.stat(program).st_mtime_ns
    with open(os.path.join(TOP, "crates.txt")) as table:
        needs = needs_of(NAME, table.read())
        if os.fstat(table.fileno()).st_mtime_ns > moment:
            return False
    return not any(
        newer(os.path.join(TOP, "crates", crate, folder), moment)
        for crate in needs
        for folder in ("src", "specs", "proofs")
    )


def lanes():
    """The folder of the copies in which crates are proved."""
    return os.path.join(cache_of(TOP), "lanes")


def now(folder):
    """The moment in nanoseconds, as the files of a folder have it."""
    import tempfile

    with tempfile.NamedTemporaryFile(dir=folder) as begun:
        return os.stat(begun.name).st_mtime_ns


def publish(built, moment):
    """Puts a program that is built into its place, where it is whole at each moment."""
    import shutil
    import subprocess
    import tempfile

    with tempfile.TemporaryDirectory(dir=PLACE) as folder:
        copy = os.path.join(folder, NAME)
        shutil.copy(built, copy)
        # What changes during a build counts as newer than the program.
        os.utime(copy, ns=(moment, moment))
        given = {"stdin": subprocess.DEVNULL, "stdout": subprocess.DEVNULL}
        if subprocess.run([copy, "--version"], **given).returncode:
            raise ValueError(f"{built} isn't whole")
        os.replace(copy, PROGRAM)


def is_taken():
    """Takes the program that `rt ci` built, if that is whole and not older than its sources, and no
    `rt` is at work on it. Whether it was taken."""
    held = None
    try:
        held = os.open(CRATE, os.O_RDONLY)
        fcntl.flock(held, fcntl.LOCK_EX | fcntl.LOCK_NB)
        if not is_fresh(OF_GATE):
            return False
        os.makedirs(PLACE, exist_ok=True)
        publish(OF_GATE, os.stat(OF_GATE).st_mtime_ns)
        return True
    except (OSError, ValueError):
        return False
    finally:
        if held is not None:
            os.close(held)


def is_ready():
    """Whether the proved program is there, in its place."""
    return is_fresh(PROGRAM) or is_taken()


def lock(path, said):
    """Waits until nobody else has a file locked, and says that where it is due. It answers what
    keeps others out while it is open, and whether it had to wait."""
    held = os.open(path, os.O_RDWR | os.O_CREAT, 0o666)
    try:
        fcntl.flock(held, fcntl.LOCK_EX | fcntl.LOCK_NB)
    except BlockingIOError:
        print(f"xlsx: {said}, and this one waits for it", flush=True)
        fcntl.flock(held, fcntl.LOCK_EX)
        return held, True
    except OSError:
        # Some file systems have no locks.
        pass
    return held, False


def locks():
    """Waits until no other proof for ./xlsx and no `rt ci` is at work in this repository; they then
    wait for this one. Each takes the processors and the memory of the whole machine. It answers
    what keeps others out, and whether it had to wait."""
    found = [lock(os.path.join(PLACE, "lock"), "another proof is at work here")]
    git = git_of(TOP)
    if git is not None:
        # By this file one `rt ci` waits for another.
        found.append(lock(os.path.join(git, "rt-ci.lock"), "rt ci, for the gate, is at work here"))
    return [held for held, _ in found], any(has_waited for _, has_waited in found)


def is_left():
    """Whether the one that was waited for left a proved program. `rt ci` lets go of its crates as
    it ends, shortly behind that file."""
    for _ in range(50):
        if is_ready():
            return True
        time.sleep(0.1)
    return False
