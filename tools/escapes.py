"""The escapes of a line (docs/FORMAT.md, "Commands"): what stands behind a backslash in place of a
byte that would end a field or a line. This is the only place in Python that has them."""

import re

ESCAPED = {"\\": "\\", "t": "\t", "n": "\n", "r": "\r"}
FORM = re.compile(rf"\\([{re.escape(''.join(ESCAPED))}])")


def unescaped(text):
    """The text that one of a line stands for."""
    return FORM.sub(lambda found: ESCAPED[found[1]], text)


def escaped(text):
    """The text as it stands in a line."""
    return text.translate({ord(byte): f"\\{letter}" for letter, byte in ESCAPED.items()})
