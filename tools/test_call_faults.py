"""Tries the calls of the reader where a package fails, where it is cut, and where it tells no
content, by the program call_answers, over two workbooks: one of sales, and one with lists around
its cells.
"""

import re
import unittest

from support.call_tables import BUILDS, LEADING, Case, answers, opened, package, part, tables
from support.call_tables import written_out
from support.fixtures import SALES_LINES
from support.noted import SHEET, events_of

BOOKS = dict(zip(("sales", "extras"), map(dict, tables("books")), strict=True))
SHEETS = {"sales": "Sales", "extras": "S"}
LINES = {"sales": SALES_LINES.decode(), "extras": "A2\ts:nut\t-\t-\nB2\tn:3\t-\t-\n"}

STREAMS = ["value", "formula", "value+style", "value+formula", "metadata", "style"]
REFUSAL = re.compile("![A-Z][a-z]")
# More calls than a reader of either sheet gives cells.
MANY = 12


def calls_on(sheet):
    """What reads the package of an open workbook: calls, each behind a loading that it asks for,
    where there is one."""
    for word in ["range", "range_ref", "formula", "style", "enter", "merges", "lenient", "links"]:
        yield None, [(word, sheet)]
    for word in ["merges_at", "lenient_at", "links_at"]:
        yield None, [(word, 0)]
    for word in ["worksheets", "formulas", "properties", "pivots", "load_tables"]:
        yield None, [(word,)]
    for word in STREAMS:
        yield None, [("cells", sheet, *[word] * MANY)]
    yield None, [("load_regions",), ("regions",)]
    yield ("load_tables",), [("table", "T1")]
    yield ("load_tables",), [("table_ref", "T1")]
    yield ("load_tables",), [("table_shown", "T1")]
    yield ("pivots",), [("pivot_rows", sheet, "P1")]


CALLS = {book: list(calls_on(sheet)) for book, sheet in SHEETS.items()}


def package_cut(book, name="", count=None):
    """The package of a workbook, in which the part of this name has only its first events."""
    parts = BOOKS[book].items()
    return package(*(part(*own, count if own[0] == name else None) for own in parts))


def joined(found):
    """An answer of two calls, of which a refused one is the last."""
    first, *others = found
    return first if first.startswith("!") else "".join([first, *others])


def refused_front(found):
    """What is answered in front of the failure of a package, or None where it isn't told."""
    for end in ("!Io;", "!Io"):
        front = re.sub(r"(!Failed;)*$", "", found)
        if front.endswith(end):
            return front[: -len(end)]
    return None


def asked_twice(own, loading, calls, number):
    """A run in which a call of the package fails: the loading, the calls, and both once more, with
    the counts of faults."""
    load = [loading] if loading else []
    words = [("open",), *load, ("faults",), *calls, ("faults",), *load, *calls]
    return Case(f"call {number} fails", own, [(own_words, None) for own_words in words], (number,))


class Faults(unittest.TestCase):
    def runs(self, build, cases_of, first=0):
        """The answers of runs one behind another, in each of which one more call is made of the
        package before the one that fails."""
        number = first
        while number < first + 1_000:
            cases = [cases_of(number + place) for place in range(50)]
            for found in answers(build, cases):
                yield number, found
                number += 1
        self.fail("a run makes more calls than that")

    def whole(self, build, own, loading, calls):
        load = [loading] if loading else []
        words = [("open",), *load, *calls]
        (found,) = answers(build, [Case("", own, [(one, None) for one in words])])
        return joined(found[1 + len(load) :])

    def opening_calls(self, build, book):
        """How many calls of the package an opening makes. Where one of them fails, this is told,
        and the values of the sheet are then read of the package that is handed back."""
        own, values = package_cut(book), ("range", SHEETS[book])
        wanted = self.whole(build, own, None, [values])
        words = [("open",), ("faults",), ("open",), values]

        def failing(number):
            return Case("", own, [(one, None) for one in words], (number,))

        for number, found in self.runs(build, failing):
            if found[:2] == ["", "0"]:
                return number
            self.assertEqual(found, ["!Io", "1", "", wanted], f"opening where call {number} fails")

    def check_failure(self, found, loading, count, wanted, shown):
        """Whether a call of the package failed in a run. It is told by that of the loading and the
        calls in which it falls, and the same workbook then answers as without it."""
        load = 1 if loading else 0
        loaded, (before, *found) = found[1 : 1 + load], found[1 + load :]
        first, (after, *found) = joined(found[:count]), found[count:]
        if after == "0":
            self.assertEqual(first, wanted, shown)
            return False
        self.assertEqual((after, joined(found[load:])), ("1", wanted), shown)
        if before == "1":
            self.assertEqual(loaded, ["!Io"], shown)
            return True
        front = refused_front(first)
        self.assertIsNotNone(front, f"{shown}: {first}")
        self.assertTrue(wanted.startswith(front), f"{shown}: {first}")
        return True

    def check_failures(self, build, book):
        own, opening = package_cut(book), self.opening_calls(build, book)
        for loading, calls in CALLS[book]:
            wanted = self.whole(build, own, loading, calls)

            def failing(number):
                return asked_twice(own, loading, calls, number)

            for number, found in self.runs(build, failing, opening):
                shown = f"{build}: {calls[0]} where call {number} fails"
                self.assertEqual(found[0], "", shown)
                if not self.check_failure(found, loading, len(calls), wanted, shown):
                    break

    def test_a_failure_in_each_call_on_sales_is_told(self):
        for build in BUILDS:
            self.check_failures(build, "sales")

    def test_a_failure_in_each_call_on_lists_is_told(self):
        for build in BUILDS:
            self.check_failures(build, "extras")

    def test_a_failure_in_each_call_on_a_sheet_is_told(self):
        for book, lines in LINES.items():
            own, reading = package_cut(book), ("reading", SHEETS[book])
            words = [reading, ("faults",), reading]

            def failing(number):
                return Case("", own, [(one, None) for one in words], (number,))

            for build in BUILDS:
                for number, found in self.runs(build, failing):
                    if found[1] == "0":
                        self.assertEqual(found[0], lines, number)
                        break
                    self.assertEqual(found, ["!Io", "1", lines], number)

    def test_a_package_that_tells_nothing_is_read(self):
        calls = [("quiet", "Sales"), ("reading", "Sales")]
        wanted = [f"{LINES['sales']}0 true", LINES["sales"]]
        for build in BUILDS:
            case = Case("", package_cut("sales"), [(words, None) for words in calls])
            self.assertEqual(answers(build, [case]), [wanted])

    def test_rows_go_by_the_names_of_a_sheet_and_of_its_pivot_table(self):
        (rows,) = tables("pivot_rows")
        for build in BUILDS:
            for sheet, name, wanted in rows:
                calls = [(("pivots",), None), (("pivot_rows", sheet, name), None)]
                found = answers(build, [opened("", package_cut("extras"), *calls)])
                self.assertEqual(found[0][-1], wanted, (sheet, name))

    def test_a_sheet_is_read_once(self):
        # The events of the smallest package before its sheet: those of two parts of relationships,
        # and those of the workbook.
        opening = 4 + 4 + 6
        calls = [(("reading", "S"), None), (("taken",), None)]
        cases = [Case("", package(*LEADING, part(*SHEET, count)), calls) for count in range(12)]
        for build in BUILDS:
            for count, (lines, taken) in enumerate(answers(build, cases)):
                self.assertLessEqual(int(taken), opening + count)
                self.assertEqual(not lines.startswith("!"), count >= 10, f"of {count} events")


# What is asked of a workbook in which a part is cut, with a loading where there is one.
CUT_CALLS = {
    "reading": [("reading", None)],
    "range": [("open",), ("range", None)],
    "formula": [("open",), ("formula", None)],
    "tables": [("open",), ("load_tables",)],
    "data": [("open",), ("load_tables",), ("table", "T1")],
    "merges": [("open",), ("merges", None)],
    "lenient": [("open",), ("lenient", None)],
    "regions": [("open",), ("load_regions",), ("regions",)],
    "links": [("open",), ("links", None)],
    "properties": [("open",), ("properties",)],
    "pivots": [("open",), ("pivots",)],
    "fields": [("open",), ("pivots",), ("pivot_rows", None, "P1")],
    "rows": [("open",), ("pivots",), ("pivot_rows", None, "P1")],
}


class Front:
    """What stands in front of a cut: the elements that are open there, each with its attributes,
    and whether the section ends there."""

    def __init__(self, events, section):
        self.open, self.is_closed, self.is_behind_start = [], False, False
        for kind, *texts in events:
            self.is_behind_start = kind == "s"
            if kind == "s":
                name, attributes = texts
                self.open.append((name.rpartition(":")[2], attributes))
            elif kind == "e" and self.open:
                self.is_closed |= self.open.pop()[0] == section

    def listed(self, words):
        """By what the lack of an end is told, of the innermost open element that is listed."""
        told = dict(word.partition("=")[::2] if "=" in word else (word, word) for word in words)
        return next((told[name] for name, _ in reversed(self.open) if name in told), None)

    def is_joined(self):
        """Whether the text of an open cell's value is joined."""
        return any(name == "c" and 't="str"' in own for name, own in self.open)


def wanted_of(events, count, section, before, listed):
    """What is wanted where the part ends behind so many events."""
    front = Front(events[:count], section)
    told = front.listed(listed.split(","))
    if told == "*" and (front.is_behind_start or front.is_joined()):
        return '!XmlEof("v")'
    if told in ("*", "!"):
        return f"!Xml(Unclosed {{ at: {count} }})"
    if told is not None:
        return f'!XmlEof("{told}")'
    if front.is_closed:
        return "whole"
    empty, _, begun = before.partition("|")
    own = begun if begun and count else empty
    return own if own in ("whole", "good") else f"!{own}"


def told_of(asked, found):
    """What a call answers, or the loading before it, or the opening, where these are refused."""
    for words, answer in zip(CUT_CALLS[asked], found, strict=True):
        if answer.startswith("!"):
            return answer
    told = found[-1] if asked not in ("tables", "regions") else "".join(found)
    return told.partition(";")[0] if asked == "fields" else told


def fits(found, wanted, whole):
    if wanted == "whole":
        return found == whole
    refusals = len(REFUSAL.findall(found))
    return refusals == 0 if wanted == "good" else refusals == 1 and found.endswith(wanted)


class Cuts(unittest.TestCase):
    def cut_told(self, build, book, name, asked, counts):
        """What is answered of a workbook in which the part has so many events."""
        calls = []
        for word, *others in CUT_CALLS[asked]:
            filled = [SHEETS[book] if other is None else other for other in others]
            calls.append(((word, *filled), None))
        cases = [Case("", package_cut(book, name, count), calls) for count in counts]
        return [told_of(asked, found) for found in answers(build, cases)]

    def check_cuts(self, build, book, asked, row):
        """Cuts a part in front of each of its events, and behind the last."""
        name, section, before, listed = row
        events = events_of(written_out(BOOKS[book][name]))
        counts = range(len(events) + 1)
        (whole,) = self.cut_told(build, book, name, asked, [None])
        self.assertIsNone(REFUSAL.search(whole), f"{asked} of {name}")
        for count, found in zip(counts, self.cut_told(build, book, name, asked, counts)):
            wanted = wanted_of(events, count, section, before, listed)
            shown = f"{build}: {asked} of {count} events of {name}: {found} for {wanted}"
            self.assertTrue(fits(found, wanted, whole), shown)

    def test_parts_that_end_anywhere_are_told(self):
        (rows,) = tables("cuts")
        for words, *row in rows:
            book, *all_asked = words.split()
            for asked in all_asked:
                for build in BUILDS:
                    self.check_cuts(build, book, asked, row)


if __name__ == "__main__":
    unittest.main()
