"""Cuts the markup of a part into the events of a package text (docs/FORMAT.md), each as JSON.

Nothing is normalised: names, attribute texts and texts are as written. Nesting is the reader's. A
tag that ends in `/` is one event, as in version 2. Two tags are two, but in a run of tags and texts
that is cut at once: there a start and the end of its name behind it are one, too.
"""

import codecs
import re
import sys
from json.encoder import encode_basestring as spelled

WHITE_SPACE = " \t\r\n"

NAME = re.compile(r"""[^ \t\r\n<>"'/!?&][^ \t\r\n<>"'/]*""")
BRACKET = re.compile("[<>]")
BRACKET_OR_QUOTE = re.compile("""[<>"']""")
DOCTYPE = "<!DOCTYPE"
DOCTYPE_STEP = re.compile(
    r"""[^"'<>]+|"[^"]*"|'[^']*'|<!--.*?-->|<\?.*?\?>|<(?!!--|\?)|>""", re.DOTALL
)
# No other markup begins in more characters.
LONGEST_OPENING = 9

# Up to so many characters are cut at a time, but for the last text in them, and at first so many.
MOST, FEWEST = 8192, 32
# A run has at least so many characters, at most so many, and fewer separators than these that the
# run before it did not have.
RUN, LONGEST_RUN, DIFFERENT = 256, 4 * MOST, 64
# So many brackets are looked at for one behind a text.
NEAR = 16
# The events of so many tags are kept, where these are shorter than this.
KEPT, LONG = 1000, 100

OTHER = '["o"]'

# How events begin, and what stands between two of them. A quote in a text stands behind a
# backslash, so that no text has these.
START, END, EMPTY, BETWEEN = '["s",', '["e",', '["b",', '"],["'

# Bytes that tell of a run, characters that aren't spelled as they are, and all other bytes.
TELLING, CONTROLS = b"<>\"'", bytes(range(32))
BESIDE = bytes(set(range(256)) - set(TELLING + CONTROLS))
# A text of a run with references in it.
REFERRING = re.compile("(?<=>)[^<>&]*&[^<>]*")
# What stands in a run that is being cut: where a text ends, if there is one, and where one begins,
# behind a start and behind all else; and the brackets of an element with nothing in it. What is
# spelled has no such characters.
TEXT_END, TEXT, TEXT_IN, OPEN, CLOSE = "\1\2\3\4\5"
# What separates attribute texts and texts: the end of a tag with attributes, tags without any, and
# the beginning of one with some. The names are spelled as they are.
NAME_AS_IT_IS = r"""[^\0-\x20<>"'/!?&\\]+"""
WITHOUT = f"(?:</?{NAME_AS_IT_IS}>|{OPEN}{NAME_AS_IT_IS}{CLOSE})"
SEPARATOR = re.compile(f'(?:">|{CLOSE})?{WITHOUT}*(?:{WITHOUT}|[<{OPEN}]{NAME_AS_IT_IS} )')
TAG = re.compile(f"([<{OPEN}])(/?)({NAME_AS_IT_IS})([> {CLOSE}])")

DECLARED = re.compile(r"""<\?xml\s[^>]*?\bencoding\s*=\s*["']([^"']*)["']""")
READ = re.compile("utf-?(8|16)|us-ascii", re.IGNORECASE)
# The declaration of an encoding lies in so many bytes.
FRONT = 1024


class MarkupFault(Exception):
    """What can't be cut into events."""


class TooLong(Exception):
    """What is one event and longer than the limit."""


def encoding_of(front):
    """The encoding of a part that begins with these bytes."""
    if front.startswith(codecs.BOM_UTF8):
        return "utf-8-sig"
    if front.startswith((codecs.BOM_UTF16_LE, codecs.BOM_UTF16_BE)):
        return "utf-16"
    return {b"<\0": "utf-16-le", b"\0<": "utf-16-be"}.get(front[:2], "utf-8")


def checked(text):
    if "\0" in text:
        raise MarkupFault("a character 0")
    return text


def check_declared(text):
    declared = DECLARED.match(text)
    if declared and not READ.fullmatch(declared[1]):
        raise MarkupFault(f"in the encoding {declared[1]!r}, and not in UTF-8 or UTF-16")


def decoded(pieces):
    """The text that the pieces of bytes spell, piece by piece, without its byte order mark."""
    pieces, front = iter(pieces), b""
    for piece in pieces:
        front += piece
        if len(front) >= FRONT:
            break
    decoder = codecs.getincrementaldecoder(encoding_of(front))()
    try:
        text = decoder.decode(front)
        check_declared(text)
        yield checked(text)
        for piece in pieces:
            yield checked(decoder.decode(piece))
        yield checked(decoder.decode(b"", True))
    except UnicodeError:
        raise MarkupFault("neither UTF-8 nor UTF-16") from None


def start_of(name, attributes):
    """A start, or an element with nothing in it where the tag ends in `/`."""
    if attributes.endswith("/"):
        return f'["b",{spelled(name)},{spelled(attributes[:-1])}]'
    return f'["s",{spelled(name)},{spelled(attributes)}]'


def end_of(name):
    return f'["e",{spelled(name.rstrip(WHITE_SPACE))}]'


def text_of(text):
    return f'["t",{spelled(text)}]'


def reference_of(name):
    return f'["r",{spelled(name)}]'


def tag_of(tag):
    """The event of what stands between a tag's brackets, or None where it makes no tag."""
    if tag.startswith("/"):
        return end_of(tag[1:]) if len(tag) > 1 else None
    name = NAME.match(tag)
    if name is None:
        return None
    attributes = tag[name.end() :]
    if attributes and attributes != "/" and attributes[0] not in WHITE_SPACE:
        return None
    return start_of(name[0], attributes)


class Tags:
    """Tells the event of a tag, and keeps those of tags without attributes."""

    def __init__(self):
        self.plain, self.names = {}, set()

    def get(self, tag):
        """The event of a tag with its quotes, all of one kind, in pairs. None for other tags."""
        if tag in self.plain:
            return self.plain[tag]
        one, other = ("'", '"') if "'" in tag else ('"', "'")
        if other in tag or tag.count(one) % 2 == 1:
            return None
        name, space, attributes = tag.partition(" ")
        if space and name in self.names:
            return start_of(name, space + attributes)
        found = tag_of(tag)
        if found is not None and len(self.plain) + len(self.names) < KEPT:
            if space and not tag.startswith("/"):
                self.names.add(name)
            elif len(tag) < LONG:
                self.plain[tag] = found
        return found


def events_of_tag(found):
    """What stands for a tag without attributes, or for the beginning of one with some."""
    bracket, slash, name, last = found.groups()
    if slash:
        return f'{TEXT_END}{END}"{name}"]{TEXT}'
    event = f'{TEXT_END}{START if bracket == "<" else EMPTY}"{name}","'
    return event + {" ": " ", ">": f'"]{TEXT_IN}', CLOSE: f'"]{TEXT}'}[last]


def events_between(separator):
    """What stands for a separator."""
    text = TAG.sub(events_of_tag, separator)
    if text.startswith('">'):
        text = f'""]{TEXT_IN}{text[2:]}'
    text = paired(text.replace(CLOSE, f'"]{TEXT}')).replace(TEXT + TEXT_END, ",")
    # An end behind a start waits for its name.
    return re.sub(f"{TEXT_IN}{TEXT_END}(?!{re.escape(END)})", ",", text)


def referred(found):
    """A text with the events of its references; a bracket where one has no end."""
    text, *parts = found[0].split("&")
    for part in parts:
        name, end, rest = part.partition(";")
        if not end:
            return "<"
        text += f'{TEXT_END}["r","{name}"]{TEXT}{rest}'
    return text


def paired(text):
    """The text of a run with one event for each start and the end of its name behind it."""
    ending = f'{TEXT_IN}{TEXT_END}{END}"'
    if ending not in text:
        return text
    front, *parts = text.split(ending)
    out = [front]
    for part in parts:
        name, behind = part.split('"', 1)
        front, _, start = out[-1].rpartition(f'{START}"')
        if start.startswith(f'{name}"'):
            out[-1:] = [f'{front}{EMPTY}"{start}', behind[1:]]
        else:
            out.append(ending + part)
    return "".join(out)


def closed(text):
    """The events of a run."""
    text = text.replace(TEXT_IN, TEXT)
    is_last = text.endswith(TEXT)
    text = text[1:-1] if is_last else text[1:] + TEXT_END
    text = text.replace(TEXT + TEXT_END, ",").replace(TEXT, ',["t","').replace(TEXT_END, '"],')
    return text if is_last else text[:-1]


class Run:
    """Cuts tags and texts at once, with no step for each of them, by what separates them."""

    def __init__(self):
        # The events of the separators that the last run had.
        self.between = {}

    def get(self, markup):
        """The events of tags and the texts behind them, with commas between them. None where there
        is other markup in it, or what this way can't tell."""
        bones = markup.encode().translate(None, BESIDE)
        tags = bones.translate(None, CONTROLS).replace(b'""', b"")
        # Each bracket has its other one, with quotes in pairs between them, and no text has any.
        if not tags.count(b"<>") == tags.count(b"<") == tags.count(b">"):
            return None
        # As it is spelled, but faster.
        text = markup.replace("\\", r"\\").replace('"', r"\"")
        for control in set(bones.translate(None, TELLING)):
            text = text.replace(chr(control), spelled(chr(control))[1:-1])
        if "&" in text:
            text = REFERRING.sub(referred, text)
        if "/>" in text:
            *empty, text = text.split("/>")
            parts = (part.rpartition("<") for part in empty)
            text = "".join(f"{front}{OPEN}{tag}{CLOSE}" for front, _, tag in parts) + text
        text = self.with_events(text)
        # A bracket that stays is of no tag that is told so.
        if "<" in text or OPEN in text:
            return None
        text = text.replace(">", f'"]{TEXT_IN}').replace(CLOSE, f'"]{TEXT}')
        return closed(paired(text))

    def with_events(self, text):
        """The text with events in place of its separators. A tag that is in none stays, and all
        stay that are too many."""
        last, self.between = self.between, {}
        # The longest first: another one may be a part of it.
        for separator in sorted(last, key=len, reverse=True):
            changed = text.replace(separator, last[separator])
            # Where there is none the text itself comes back.
            if changed is not text:
                self.between[separator], text = last[separator], changed
        if "<" in text or OPEN in text:
            more = set(SEPARATOR.findall(text))
            for separator in sorted(more, key=len, reverse=True) if len(more) < DIFFERENT else ():
                self.between[separator] = events_between(separator)
                text = text.replace(separator, self.between[separator])
        return text


def tag_end(buffer, at):
    """Where the bracket stands that ends a tag or breaks it; None where it isn't there."""
    if buffer.startswith("</", at):
        found = BRACKET.search(buffer, at + 1)
    else:
        found = BRACKET_OR_QUOTE.search(buffer, at + 1)
    while found and found[0] in "\"'":
        closing = buffer.find(found[0], found.end())
        found = None if closing < 0 else BRACKET_OR_QUOTE.search(buffer, closing + 1)
    return found and found.start()


# Each of these answers the event at a place and where it ends, or None where its end isn't there.


def tag_at(buffer, at):
    end = tag_end(buffer, at)
    if end is None:
        return None
    found = tag_of(buffer[at + 1 : end])
    if buffer[end] == "<" or found is None:
        raise MarkupFault("a `<` that begins no tag")
    return found, end + 1


def span_at(buffer, at, opening, closing, event_of=lambda text: OTHER):
    """What lies between two fixed texts."""
    begin = at + len(opening)
    end = buffer.find(closing, begin)
    return None if end < 0 else (event_of(buffer[begin:end]), end + len(closing))


def doctype_at(buffer, at):
    """A document type, with the declarations in it."""
    depth = 0
    found = DOCTYPE_STEP.match(buffer, at)
    while found:
        depth += {"<": 1, ">": -1}.get(found[0], 0)
        if depth == 0:
            return OTHER, found.end()
        found = DOCTYPE_STEP.match(buffer, found.end())
    return None


def markup_at(buffer, at):
    if buffer.startswith("<!--", at):
        return span_at(buffer, at, "<!--", "-->")
    if buffer.startswith("<![CDATA[", at):
        return span_at(buffer, at, "<![CDATA[", "]]>", lambda text: f'["d",{spelled(text)}]')
    if buffer.startswith("<?", at):
        return span_at(buffer, at, "<?", "?>")
    if buffer.startswith(DOCTYPE, at):
        return doctype_at(buffer, at)
    return tag_at(buffer, at)


def add_run(text, out):
    """Adds the events of a run: as one text, but for an end in front and a start at its end, which
    may be one with what stands beside them."""
    if text.startswith(END):
        first, _, text = text.partition(BETWEEN)
        if not text:
            out.append(first)
            return
        out.append(f'{first}"]')
        text = f'["{text}'
    front, _, last = text.rpartition(BETWEEN)
    if front and last.startswith(START[2:]):
        out += (f'{front}"]', f'["{last}')
    else:
        out.append(text)


def stop_behind(buffer, at, safe):
    """Where a bracket stands behind a place; it has a text in front, if there is one soon, so that
    what separates texts stays whole."""
    stop = at - 1
    for _ in range(NEAR):
        stop = buffer.find("<", stop + 1, safe)
        if stop < 0:
            return safe
        if buffer[stop - 1] != ">":
            break
    return stop


class Cutter:
    """Cuts a text that comes in pieces: each event once its end is there."""

    def __init__(self, limit=sys.maxsize):
        self.limit, self.tags, self.run = limit, Tags(), Run()
        # What isn't cut yet: a front that was looked at, and the pieces behind it with their size.
        self.front, self.pieces, self.size = "", [], 0
        # How many characters were cut.
        self.passed = 0

    def feed(self, text):
        """The next events. What has no end yet is looked at again once as much again has come, so
        that the time is linear."""
        self.pieces.append(text)
        self.size += len(text)
        if self.size <= len(self.front) and len(self.front) + self.size <= self.limit:
            return []
        out = self.cut(False)
        if len(self.front) > self.limit:
            raise TooLong
        return out

    def close(self):
        """The last events."""
        return self.cut(True)

    def cut(self, is_last):
        buffer, out, at = "".join([self.front, *self.pieces]), [], 0
        # Each text before this place has its end.
        safe = len(buffer) if is_last else buffer.rfind("<")
        while at < safe:
            at = self.plain(buffer, at, safe, out)
            if at < safe:
                found = self.markup(buffer, at, is_last)
                if found is None:
                    break
                event, at = found
                out.append(event)
        self.front, self.pieces, self.size = buffer[at:], [], 0
        self.passed += at
        return out

    def plain(self, buffer, at, safe, out):
        """Cuts texts, references and most tags. Answers where other markup begins, or the safe
        place."""
        size = FEWEST
        while at < safe:
            stop = stop_behind(buffer, at + size, safe)
            size = min(2 * size, MOST)
            text, bracket, markup = buffer[at:stop].partition("<")
            self.add_text(text, at, out)
            at += len(text)
            is_run = RUN <= len(markup) <= LONGEST_RUN
            found = self.run.get(bracket + markup) if is_run else None
            if found is not None:
                add_run(found, out)
                at += 1 + len(markup)
            elif bracket:
                at, is_whole = self.tagged(markup, at, out)
                if not is_whole:
                    break
        return at

    def tagged(self, markup, at, out):
        """Cuts tags and texts, from behind the first bracket on. Answers where other markup begins,
        or the end, and whether it is that."""
        add, tag_event = out.append, self.tags.get
        for part in markup.split("<"):
            tag, closed, text = part.partition(">")
            found = tag_event(tag) if closed else None
            if found is None:
                return at, False
            add(found)
            if "&" in text:
                self.add_text(text, at + len(tag) + 2, out)
            elif text:
                add(f'["t",{spelled(text)}]')
            at += len(part) + 1
        return at, True

    def add_text(self, text, at, out):
        """Cuts a text at a place, and the references in it."""
        text, *parts = text.split("&")
        if text:
            out.append(text_of(text))
        at += len(text)
        for part in parts:
            name, closed, text = part.partition(";")
            if not closed:
                raise self.fault_at(at, "a `&` without its `;`")
            out.append(reference_of(name))
            if text:
                out.append(text_of(text))
            at += len(part) + 1

    def markup(self, buffer, at, is_last):
        if len(buffer) - at < LONGEST_OPENING and not is_last:
            return None
        try:
            found = markup_at(buffer, at)
        except MarkupFault as fault:
            raise self.fault_at(at, fault) from None
        if found is None and is_last:
            raise self.fault_at(at, "markup without an end")
        return found

    def fault_at(self, at, text):
        return MarkupFault(f"{text}, at character {self.passed + at}")


def events(pieces, limit=sys.maxsize):
    """The events that the pieces of bytes spell, list by list. Where one of them is longer than the
    limit, no more than some times as much is held."""
    cutter = Cutter(limit)
    for text in decoded(pieces):
        yield cutter.feed(text)
    yield cutter.close()
