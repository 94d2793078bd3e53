"""What tools/reading/markup.py and the program cut_events cut the bytes of a part into, as the
lines that the latter prints."""

import json
import pathlib
import re
import subprocess

import support.fixtures  # noqa: F401, by which tools/reading is found
import markup
from escapes import escaped

TOP = pathlib.Path(__file__).resolve().parent.parent.parent
OUT = TOP / "crates" / "cut_events" / "out"
# The gate builds the program twice, by two compilers.
BUILDS = ["cut_events", "cut_events.by-rattle"]

# Flaws, as events of a package text.
MALFORMED, NO_TEXT = ["x"], ["x", "not a text in UTF-8"]
PLACE = re.compile(r"at character (\d+)$")

# How parts begin that tools/reading/markup.py reads, and the program doesn't.
UTF_16 = (b"\xff\xfe", b"\xfe\xff", b"<\0", b"\0<")


def line(letter, *texts):
    return "\t".join([letter, *map(escaped, texts)])


def told(found):
    """The lines of events, each a list of texts."""
    for letter, *texts in found:
        if letter == "b":
            yield line("s", *texts)
            yield line("e", texts[0])
        elif letter == "x":
            yield line("x", *(texts or ["malformed markup"]))
        else:
            yield line(letter, *texts)


def cut_whole(data):
    """The events that tools/reading/markup.py cuts of what it doesn't refuse."""
    lists = [event for some in markup.events([data]) for event in some]
    return json.loads(f"[{','.join(lists)}]")


def cut(data):
    """The same, with a flaw at the end in place of a refusal."""
    if data.startswith(UTF_16):
        return [NO_TEXT]
    try:
        return cut_whole(data)
    except markup.MarkupFault as fault:
        place = PLACE.search(str(fault))
    if place is None:
        return [NO_TEXT]
    try:
        # The place is one of characters, behind a byte order mark.
        text = data.decode("utf-8-sig")
    except UnicodeDecodeError:
        return [NO_TEXT]
    if "\0" in text:
        return [NO_TEXT]
    return cut_whole(text[: int(place[1])].encode()) + [MALFORMED]


def wanted(data):
    """The lines of these."""
    return list(told(cut(data)))


def found(build, data):
    """The lines that a build of the program prints."""
    ran = subprocess.run([OUT / build], input=data, capture_output=True, check=True)
    return ran.stdout.decode().split("\n")[:-1]
