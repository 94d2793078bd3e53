#!/usr/bin/env python3
"""Proves the crates that a program stands on, side by side, and then proves and builds the program.

prove.py PROGRAM              at the top of the repository

Standard output has a line for each crate once it is proved, and, where none is for a while, one for
those at work, with how many of their functions are proved, and one where another proof is waited
for; all that `rt` says goes to a file (tools/place.py). The status is 0 where all is proved and
built, and else 1.
"""

import contextlib
import os
import re
import shutil
import signal
import subprocess
import sys
import tempfile
import time

from place import LOG, PLACE, is_left, lanes, locks, needs_of, now, publish

# What one proof may take of memory, in KiB.
MEMORY = 4 * 1024 * 1024

# After so many seconds without a line those at work are told.
QUIET = 60

# What `rt` says of functions that are proved: how many are by then, of how many.
CHECKED = re.compile(rb"^so far: (\d+) of (\d+) functions checked", re.MULTILINE)


def heights(needs):
    """For each crate, how many crates stand above it in the longest chain."""
    above = {name: [] for name in needs}
    for name, below in needs.items():
        for need in below:
            above[need].append(name)
    found = {}

    def height(name):
        if name not in found:
            found[name] = max((1 + height(other) for other in above[name]), default=0)
        return found[name]

    for name in needs:
        height(name)
    return found


def side_by_side():
    """How many processors the machine has, and memory for as many proofs."""
    most = os.cpu_count() or 1
    try:
        with open("/proc/meminfo") as lines:
            for line in lines:
                if line.startswith("MemAvailable:"):
                    most = min(most, int(line.split()[1]) // MEMORY)
    except OSError:
        pass
    return max(1, most)


def link(old, new):
    """Has a file in a second place, as the same one where the file system allows that."""
    try:
        os.link(old, new)
    except OSError:
        shutil.copy2(old, new)


def copy(old, new, **given):
    """Has what is in a folder in a second place too."""
    shutil.copytree(old, new, copy_function=link, **given)


def place(top, name, *below):
    return os.path.join(top, "crates", name, *below)


def clear(folder, kept=()):
    """Removes what is in a folder, but for what is kept."""
    for name in os.listdir(folder):
        path = os.path.join(folder, name)
        if name not in kept:
            shutil.rmtree(path) if os.path.isdir(path) else os.remove(path)


class Lane:
    """A copy of the repository, as far as one crate needs it, in which that crate is proved. What
    `rt` keeps of the proof stays there, and `rt` finds it for a check in another copy, too.

    `rt` keeps others out of the folders of all crates below the one at work, so that two proofs go
    side by side in two copies alone.
    """

    def __init__(self, name, table):
        self.name, self.top = name, os.path.join(lanes(), name)
        crates = os.path.join(self.top, "crates")
        os.makedirs(place(self.top, name), exist_ok=True)
        clear(self.top, ("crates",))
        clear(crates, (name,))
        clear(place(self.top, name), ("out",))
        if os.path.exists("HANDLES"):
            link("HANDLES", os.path.join(self.top, "HANDLES"))
        names = needs_of(name, table)
        self.list_crates(names, table)
        for need in names:
            to = place(self.top, need)
            copy(place(".", need), to, ignore=shutil.ignore_patterns("out"), dirs_exist_ok=True)
            built = place(os.path.join(lanes(), need), need, "out", "rlib")
            # Where another `rt` took it away since it was built, this one builds it again.
            if need != name and os.path.isdir(built):
                copy(built, place(self.top, need, "out", "rlib"))

    def list_crates(self, names, table):
        """Lists these crates alone, since `rt` wants each that is listed to be there."""
        lines = table.splitlines(keepends=True)
        with open(os.path.join(self.top, "crates.txt"), "w") as own:
            own.writelines(line for line in lines if line.split(":")[0].split(" ")[0] in names)


class Work:
    """The proof of a crate that is at work in a folder, and what `rt` says of it."""

    def __init__(self, words, folder, held):
        self.said = tempfile.TemporaryFile()
        self.child = subprocess.Popen(
            words,
            cwd=folder,
            stdin=subprocess.DEVNULL,
            stdout=self.said,
            stderr=self.said,
            # So others are kept out while it works, also where this process is killed.
            pass_fds=held,
        )

    def text(self):
        # The place where the child writes next is its own.
        return os.pread(self.said.fileno(), os.fstat(self.said.fileno()).st_size, 0)

    def progress(self):
        """How many functions are proved of how many, in words, where that is told."""
        told = CHECKED.findall(self.text())
        return "" if not told else f", {told[-1][0].decode()} of {told[-1][1].decode()} functions"

    def end(self, log):
        """Adds what was said to the whole log."""
        with self.said:
            log.write(self.text())
        log.flush()


class Proving:
    """The proofs of the crates below a program, some of them at work, each with its processors."""

    def __init__(self, program, table, log, held):
        self.program, self.table, self.log, self.held = program, table, log, held
        self.needs = needs_of(program, table)
        self.heights = heights(self.needs)
        self.proved, self.at_work, self.jobs = set(), {}, {}
        self.began = self.told = time.monotonic()

    def begin(self, name, jobs):
        """Begins the proof of a crate with so many processors, in a copy."""
        self.jobs[name] = jobs
        lane = Lane(name, self.table)
        words = ["rt", "lib", "--jobs", str(jobs)]
        if name == self.program:
            words = ["rt", "run", "--jobs", str(jobs), "--", "--version"]
        self.at_work[name] = Work(words, place(lane.top, name), self.held)

    def built(self):
        """The program, as it is built in its copy."""
        return place(os.path.join(lanes(), self.program), self.program, "out", self.program)

    def begin_some(self, most):
        """Begins what can be proved now, each with one processor, or with two where no crate waits
        for the second. More take more of processor time, since each reads the libraries below, and
        end little earlier."""
        free = most - sum(self.jobs[name] for name in self.at_work)
        ready = self.ready()
        for at, name in enumerate(ready[:free]):
            jobs = min(2, free // (len(ready) - at)) or 1
            self.begin(name, jobs)
            free -= jobs

    def ready(self):
        """The crates that can be proved now, those with the longest chain above them first."""
        some = (
            name
            for name, below in self.needs.items()
            if name not in self.proved and name not in self.at_work and self.proved >= set(below)
        )
        return sorted(some, key=lambda name: -self.heights[name])

    def say(self, text):
        self.told = time.monotonic()
        minutes = int(self.told - self.began) // 60
        print(f"xlsx: {text}, {minutes} min so far", flush=True)

    def say_work(self):
        """Tells of those at work, where nothing was told for a while."""
        if time.monotonic() - self.told >= QUIET:
            works = (f"{name}{work.progress()}" for name, work in self.at_work.items())
            self.say(f"at work: {'; '.join(works)}")

    def take_ended(self):
        """Waits for one of the proofs at work. Whether none has failed."""
        while True:
            for name, work in self.at_work.items():
                if work.child.poll() is not None:
                    del self.at_work[name]
                    work.end(self.log)
                    if work.child.returncode:
                        return False
                    self.proved.add(name)
                    left = len(self.needs) - len(self.proved)
                    self.say(f"{name} is proved; {left} left")
                    return True
            self.say_work()
            time.sleep(0.05)

    def stop(self):
        for work in self.at_work.values():
            work.child.terminate()
        for work in self.at_work.values():
            work.child.wait()
            # What is said then goes nowhere where the log can't be written, either.
            with contextlib.suppress(OSError):
                work.end(self.log)

    def run(self, most):
        """Whether all is proved, with at most so many processors."""
        while len(self.proved) < len(self.needs):
            self.begin_some(most)
            if not self.take_ended():
                return False
        return True


def main(program):
    signal.signal(signal.SIGTERM, lambda number, frame: sys.exit(128 + number))
    signal.signal(signal.SIGHUP, lambda number, frame: sys.exit(128 + number))
    held, has_waited = locks()
    if has_waited and is_left():
        print("xlsx: the other one left a proved program", flush=True)
        return 0
    moment = now(PLACE)
    with open("crates.txt") as listed:
        table = listed.read()
    with open(LOG, "wb") as log:
        proving = Proving(program, table, log, held)
        try:
            if not proving.run(side_by_side()):
                return 1
        finally:
            proving.stop()
    publish(proving.built(), moment)
    return 0


if __name__ == "__main__":
    try:
        sys.exit(main(*sys.argv[1:]))
    except KeyboardInterrupt:
        sys.exit(130)
