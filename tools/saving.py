"""Writes a file that takes its place once it is whole."""

import contextlib
import os
import shutil
import tempfile


class CantWrite(Exception):
    """Why a file isn't written."""


@contextlib.contextmanager
def replacing(path):
    """A new file that stands in the place of a path once it is whole."""
    # What a link leads to is replaced, and not the link.
    path = os.path.realpath(path)
    try:
        is_there = os.path.lexists(path)
        if is_there and not os.path.isfile(path):
            raise CantWrite("can't be written: it is no regular file")
        if is_there:
            # A file that may not be written isn't replaced, though its folder would allow that.
            open(path, "ab").close()
        with tempfile.TemporaryDirectory(dir=os.path.dirname(path)) as folder:
            made = os.path.join(folder, "made")
            with open(made, "xb") as file:
                yield file
                file.flush()
                os.fsync(file.fileno())
            if is_there:
                shutil.copymode(path, made)
            os.replace(made, path)
    except OSError as error:
        raise CantWrite(f"can't be written: {error.strerror}") from None
