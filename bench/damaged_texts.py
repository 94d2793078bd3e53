#!/usr/bin/env python3
"""Compares what the program cut_events cuts of random and damaged texts with what
tools/reading/markup.py does, and tells how many texts there were, and how many of them have a flaw.

A text is made of pieces of markup, or of single marks, or of pieces that were damaged by a few
bytes that were taken out or put in. The program has to be built (`rt run` in crates/cut_events).
"""

import argparse
import random
import sys

from measure import TOP

sys.path.insert(0, str(TOP / "tools"))

from support.cutting import BUILDS, MALFORMED, NO_TEXT, OUT, UTF_16, found, wanted  # noqa: E402

WHOLE = [
    *("<a>", "</a>", "<a/>", "<x:c r=\"A1\" s='2'>", "</x:c >", "<c a='>'/>", '<c a="<">', "t"),
    *(" ", "\r\n", "&amp;", "&#13;", "<!---->", "<?xml version='1.0'?>", "é", "\U0001f330"),
    *("<é ü='ö'>", "<!DOCTYPE a [<!ENTITY b 'c>'>]>", "<v>45</v>", "<row r='1'>", "<c t=s>"),
]
BROKEN = [
    *("&", ";", "&;", "<", ">", "/", "!", "?", '"', "'", "=", "-", "]", "<!--", "-->", "]]>"),
    *("<![CDATA[", "<?", "?>", "<!DOCTYPE", "[", "]>", "</", "< a>", "</>", "</ >", "<a/b>"),
    *("<a b=c/>", "<a /x>", "<!a>", "<!doctype a>", "\t", "\x0b", "<a\t>", "<row", " r='1"),
]
MARKS = "<>/&;\"'!?-[] aA="
FRONTS = [
    *(b"\xef\xbb\xbf", b"<?xml version='1.0' encoding='utf-8'?>", b"\0", b"\xe9"),
    *(b"<?xml version='1.0' encoding=\"Latin-1\"?>", b"<?xml encoding='UTF-16'?>"),
]


def damaged(choose, data):
    """The bytes with a few of them out, or with more in them."""
    data = bytearray(data)
    for _ in range(choose.randint(1, 3)):
        at = choose.randrange(len(data) + 1)
        if choose.random() < 0.5:
            del data[at : at + choose.randint(1, 3)]
        else:
            data[at:at] = choose.choice(WHOLE + BROKEN).encode()
    return bytes(data)


def some_text(choose):
    kind = choose.random()
    if kind < 0.4:
        pieces = (choose.choice(WHOLE + BROKEN) for _ in range(choose.randint(0, 8)))
        data = "".join(pieces).encode()
    elif kind < 0.6:
        data = "".join(choose.choice(MARKS) for _ in range(choose.randint(0, 14))).encode()
    else:
        data = "".join(choose.choice(WHOLE) for _ in range(choose.randint(1, 9))).encode()
        data = damaged(choose, data)
    return choose.choice(FRONTS) + data if choose.random() < 0.1 else data


def main():
    parser = argparse.ArgumentParser(description=__doc__.split("\n\n")[0])
    parser.add_argument("--count", type=int, default=20_000, help="texts (default: 20,000)")
    parser.add_argument("--seed", type=int, default=1)
    asked = parser.parse_args()
    choose, seen, flawed = random.Random(asked.seed), set(), 0
    while len(seen) < asked.count:
        data = some_text(choose)
        if data in seen or data.startswith(UTF_16):
            continue
        seen.add(data)
        lines = wanted(data)
        flawed += lines[-1:] in ([MALFORMED], [NO_TEXT])
        if (ours := found(BUILDS[0], data)) != lines:
            sys.exit(f"damaged_texts.py: {data} is cut into {ours} and not into {lines}")
    print(f"{len(seen)} texts are cut alike, {flawed} of them with a flaw ({OUT / BUILDS[0]})")


if __name__ == "__main__":
    main()
