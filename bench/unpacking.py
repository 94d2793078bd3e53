"""The program `unpack`, for the scripts of this folder that compare it with zlib."""

import os
import subprocess

from measure import TOP

CRATE = TOP / "crates" / "unpack"
UNPACK = str(CRATE / "out" / "unpack")


def add_program(parser):
    parser.add_argument(
        "--program",
        help="a program unpack that is built already (default: that of this repository, which is "
        "proved and built first)",
    )


def program_of(asked):
    if asked.program is not None:
        return os.path.abspath(asked.program)
    with open(CRATE / "stdin", "rb") as stream:
        subprocess.run(["rt", "run"], cwd=CRATE, stdin=stream, capture_output=True, check=True)
    return UNPACK
