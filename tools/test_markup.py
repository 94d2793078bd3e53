"""Tests that a part's markup is cut into the events of docs/FORMAT.md."""

import codecs
import collections
import itertools
import json
import tracemalloc
import unittest
import unittest.mock
from random import Random
from xml.parsers import expat

import support.fixtures  # noqa: F401, by which tools/reading is found
import markup
from markup import Cutter, MarkupFault, TooLong, events
from package_text import FORMS

# What cuts tag by tag.
CUT_TAGS = Cutter.tagged

# All kinds of markup at once.
MIXED = """\
<?xml version="1.0" encoding="UTF-8"?>\r
<!DOCTYPE sst [<!ENTITY e "a>b"> <!-- it's > --> <?i ">?> <!ATTLIST t k CDATA '<'>]>
<x:sst a="1>0" b='"&lt;"'  ><!-- - <t> & --><x:t xml:space="preserve"> one\r
two &amp;&#13; three</x:t ><x:t/><c r="A1" /><![CDATA[a]]b & <c>]]>\u00e9\U0001f330<?i?></x:sst>
"""


def pieces_of(data, size):
    return [data[at : at + size] for at in range(0, len(data), size)]


def cut(data, size=None, version=1):
    """The events that the bytes spell in a version, where they come in pieces of this size."""
    lists = events(pieces_of(data, size or max(1, len(data))))
    return json.loads("[" + ",".join(filter(None, FORMS[version](lists))) + "]")


class Events(unittest.TestCase):
    def check(self, markup, wanted):
        self.assertEqual(cut(markup.encode()), wanted)

    def test_names_have_their_prefixes(self):
        self.check("<x:c></x:c>", [["s", "x:c", ""], ["e", "x:c"]])

    def test_a_name_may_have_any_letters(self):
        self.check("<\u00e9-1.a></\u00e9-1.a>", [["s", "\u00e9-1.a", ""], ["e", "\u00e9-1.a"]])

    def test_attribute_text_is_as_written(self):
        text = "\t r = \"A1\"\r\n t='s'  x='' "
        self.check(f"<c{text}>", [["s", "c", text]])

    def test_attribute_values_may_have_brackets_slashes_and_other_quotes(self):
        text = ' a="1>0" b=\'</c>"\' c="it\'s/"'
        self.check(f"<c{text}>", [["s", "c", text]])

    def test_references_in_attribute_text_stay(self):
        self.check('<c a="&amp;&#13;&x">', [["s", "c", ' a="&amp;&#13;&x"']])

    def test_attribute_text_may_have_no_value(self):
        self.check("<c a b=1>", [["s", "c", " a b=1"]])

    def test_an_empty_element_is_a_start_and_an_end(self):
        self.check("<x:v/>", [["s", "x:v", ""], ["e", "x:v"]])

    def test_an_empty_element_is_one_event_of_version_2(self):
        """Written as one tag or as two, which may be cut in two; also where its texts have quotes,
        backslashes and what an event is begun with."""
        for markup, wanted in (
            ("<x:v/>", [["b", "x:v", ""]]),
            ("<v ></v >", [["b", "v", " "]]),
            ("<a/><a></a><a/>", [["b", "a", ""]] * 3),
            ("<a><a/></a>", [["s", "a", ""], ["b", "a", ""], ["e", "a"]]),
            ("<a><a></a></a>", [["s", "a", ""], ["b", "a", ""], ["e", "a"]]),
            ("<a></b>", [["s", "a", ""], ["e", "b"]]),
            ("<a></aa>", [["s", "a", ""], ["e", "aa"]]),
            ("<aa></a>", [["s", "aa", ""], ["e", "a"]]),
            ("<x:a></a>", [["s", "x:a", ""], ["e", "a"]]),
            ("</a><a>", [["e", "a"], ["s", "a", ""]]),
            ("<a> </a>", [["s", "a", ""], ["t", " "], ["e", "a"]]),
            ("<a><!----></a>", [["s", "a", ""], ["o"], ["e", "a"]]),
            (
                """<c k='"a",\\"],["e","c"]'></c>],["e","c"]<c/>""",
                [
                    ["b", "c", """ k='"a",\\"],["e","c"]'"""],
                    ["t", '],["e","c"]'],
                    ["b", "c", ""],
                ],
            ),
            ("<\u00e9 k='\U0001f330'></\u00e9>", [["b", "\u00e9", " k='\U0001f330'"]]),
        ):
            data = markup.encode()
            two = [[["s", *one[1:]], ["e", one[1]]] if one[0] == "b" else [one] for one in wanted]
            for size in (None, *range(1, len(data))):
                self.assertEqual(cut(data, size, 2), wanted, (markup, size))
                self.assertEqual(cut(data, size), list(itertools.chain(*two)), (markup, size))

    def test_attribute_text_of_an_empty_element_ends_before_the_slash(self):
        self.check('<c r="A1" />', [["s", "c", ' r="A1" '], ["e", "c"]])
        self.check("<c r='/'/>", [["s", "c", " r='/'"], ["e", "c"]])

    def test_white_space_behind_an_end_name_is_dropped(self):
        self.check("</c \t\r\n>", [["e", "c"]])

    def test_tags_that_come_again_are_cut_as_before(self):
        each = (
            ('<c r="1">', [["s", "c", ' r="1"']]),
            ("<c r='>'/>", [["s", "c", " r='>'"], ["e", "c"]]),
            ("<c >", [["s", "c", " "]]),
            ("</c >", [["e", "c"]]),
            ("</c/>", [["e", "c/"]]),
            ("<c/>", [["s", "c", ""], ["e", "c"]]),
            ("</a'b\">", [["e", "a'b\""]]),
        )
        for markup, wanted in each:
            self.check(markup * 3, wanted * 3)

    def test_an_end_without_a_start_stays(self):
        self.check("</b><a>", [["e", "b"], ["s", "a", ""]])

    def test_texts_are_as_written(self):
        self.check(
            " \r\n<t>\ta\rb\r\n</t>x>]]>",
            [["t", " \r\n"], ["s", "t", ""], ["t", "\ta\rb\r\n"], ["e", "t"], ["t", "x>]]>"]],
        )

    def test_no_text_is_no_event(self):
        self.check("<t></t>", [["s", "t", ""], ["e", "t"]])
        self.check("", [])

    def test_each_reference_is_an_event_between_texts(self):
        self.check(
            "a&amp;b&#13;&#x41;",
            [["t", "a"], ["r", "amp"], ["t", "b"], ["r", "#13"], ["r", "#x41"]],
        )

    def test_a_reference_may_have_any_name(self):
        self.check("&nbsp;&;& a>;", [["r", "nbsp"], ["r", ""], ["r", " a>"]])

    def test_a_cdata_section_is_character_data(self):
        self.check("a<![CDATA[<b>&amp;]]]]>c", [["t", "a"], ["d", "<b>&amp;]]"], ["t", "c"]])
        self.check("<![CDATA[]]>", [["d", ""]])

    def test_a_comment_is_other(self):
        self.check("<!----><!-- <a> & -- --->", [["o"], ["o"]])

    def test_a_comment_needs_both_its_ends(self):
        self.check("<!--> a -->", [["o"]])

    def test_a_declaration_and_an_instruction_are_other(self):
        self.check('<?xml version="1.0"?><?a <b> & ??>', [["o"], ["o"]])

    def test_a_document_type_is_one_other(self):
        self.check("<!DOCTYPE a><b>", [["o"], ["s", "b", ""]])
        self.check(
            "<!DOCTYPE a [<!ENTITY b '>'><!-- ' > --><?c \" > ?>]><b>", [["o"], ["s", "b", ""]]
        )

    def test_what_json_escapes_reads_back(self):
        text = '"\\/\b\x01\x7f\u2028\ufeff'
        self.check(f"<a>{text}", [["s", "a", ""], ["t", text]])

    def test_all_kinds_at_once(self):
        self.check(
            MIXED,
            [
                ["o"],
                ["t", "\r\n"],
                ["o"],
                ["t", "\n"],
                ["s", "x:sst", ' a="1>0" b=\'"&lt;"\'  '],
                ["o"],
                ["s", "x:t", ' xml:space="preserve"'],
                ["t", " one\r\ntwo "],
                ["r", "amp"],
                ["r", "#13"],
                ["t", " three"],
                ["e", "x:t"],
                ["s", "x:t", ""],
                ["e", "x:t"],
                ["s", "c", ' r="A1" '],
                ["e", "c"],
                ["d", "a]]b & <c>"],
                ["t", "\u00e9\U0001f330"],
                ["o"],
                ["e", "x:sst"],
                ["t", "\n"],
            ],
        )


class Runs(unittest.TestCase):
    """What is cut at once is what is cut tag by tag."""

    NAMES = ("c", "v", "row", "aa", "a", "x:t", "\u00e9")
    VALUES = ("", "A1", "/", "&amp;", "&", "\\", "\t", "\u00e9", " ", ">", "<", "'", '],["e"', "\4")
    TEXTS = ("", "", "", "45", "nut ", "&amp;&#13;", "&;", '"', "'", "\\", "\n", '],["s"', ">")
    TEXTS += ("\1;",)

    def tag(self, random):
        name, kind = random.choice(self.NAMES), random.random()
        value = random.choice(self.VALUES)
        own = random.choice(("", "", f' r="{value}"', f' r="{value}" s="1"', f"\n r='{value}'"))
        if kind < 0.3:
            return f"<{name}{own}>"
        if kind < 0.6:
            return f"</{name}>"
        if kind < 0.8:
            return f"<{name}{own}/>"
        return f"<{name}{own}></{random.choice((name, name, random.choice(self.NAMES)))}>"

    def told(self, data, size, version, least):
        with unittest.mock.patch("markup.RUN", least):
            try:
                return cut(data, size, version)
            except MarkupFault as fault:
                return str(fault)

    def test_runs_have_the_events_of_their_tags(self):
        random = Random(7)
        with unittest.mock.patch("markup.add_run", wraps=markup.add_run) as added:
            for count in (3, 10, 40, 100) * 60:
                tags = (self.tag(random) + random.choice(self.TEXTS) for _ in range(count))
                data = "".join(tags).encode()
                for size, version in itertools.product((len(data), 150), (1, 2)):
                    wanted = self.told(data, size, version, len(data))
                    self.assertEqual(self.told(data, size, version, 1), wanted, data)
        self.assertGreater(added.call_count, 500)

    def test_a_sheet_is_cut_at_once(self):
        cells = '<c r="A1" s="1"><v>1</v></c><c r="B1"><f>A1&amp;"x"</f><v>2</v></c><c r="C1"/>'
        data = f'<row r="1">{cells}</row>'.encode() * 1000
        with unittest.mock.patch.object(Cutter, "tagged", autospec=True) as tagged:
            tagged.side_effect = CUT_TAGS
            found = cut(data)
        self.assertEqual(len(found), 1000 * 19)
        self.assertLess(sum(len(call.args[1]) for call in tagged.call_args_list), 1000)

    def test_many_different_tags_take_no_longer(self):
        data = "".join(f"<a{n}><b{n}/></a{n}>" for n in range(500)).encode()
        self.assertEqual(len(cut(data)), 2000)


class Encodings(unittest.TestCase):
    WANTED = [["s", "a", " b='\u00e9'"], ["t", "\u00e9\U0001f330"]]
    TEXT = "<a b='\u00e9'>\u00e9\U0001f330"

    def test_utf_8(self):
        self.assertEqual(cut(self.TEXT.encode()), self.WANTED)

    def test_utf_8_with_a_byte_order_mark(self):
        self.assertEqual(cut(codecs.BOM_UTF8 + self.TEXT.encode()), self.WANTED)

    def test_utf_16_with_a_byte_order_mark(self):
        for mark, name in ((codecs.BOM_UTF16_LE, "utf-16-le"), (codecs.BOM_UTF16_BE, "utf-16-be")):
            for size in (1, 2, 3, None):
                with self.subTest(name, size=size):
                    self.assertEqual(cut(mark + self.TEXT.encode(name), size), self.WANTED)

    def test_utf_16_without_a_byte_order_mark(self):
        for name in ("utf-16-le", "utf-16-be"):
            with self.subTest(name):
                self.assertEqual(cut(self.TEXT.encode(name)), self.WANTED)

    def test_declared_names_that_are_read(self):
        for name in ("UTF-8", "utf-8", "UTF-16", "us-ascii"):
            with self.subTest(name):
                self.assertEqual(cut(f"<?xml version='1.0' encoding='{name}'?>".encode()), [["o"]])


class Faults(unittest.TestCase):
    def check(self, data, text):
        for size in (None, 1):
            with self.subTest(data=data[:40], size=size), self.assertRaises(MarkupFault) as caught:
                cut(data, size)
            self.assertEqual(str(caught.exception), text)

    def test_markup_without_an_end(self):
        for markup in (
            b"<",
            b"<a",
            b"<a b='>",
            b"</a",
            b"<!-- a --",
            b"<!-->",
            b"<![CDATA[a]]",
            b"<?a",
            b"<!DOCTYPE a [<!b>]",
        ):
            self.check(b"<a>b" + markup, "markup without an end, at character 4")

    def test_a_bracket_that_begins_no_tag(self):
        for markup in (
            b"< a>",
            b"<>",
            b"</>",
            b"<a/b>",
            b"<a <b>",
            b"<a'b'>",
            b"<!a>",
            b"<!doctype a>",
            b"<a</a>",
        ):
            self.check(b"\xc3\xa9" + markup, "a `<` that begins no tag, at character 1")

    def test_a_reference_without_its_end(self):
        for markup in (b"a & b<c>", b"a & b &amp;", b"a &amp"):
            self.check(markup, "a `&` without its `;`, at character 2")

    def test_neither_utf_8_nor_utf_16(self):
        for data in (b"<a>\xff</a>", b"<a>\xc3", b"\xff\xfe<\0a\0\0\xd8>\0", b"<\0a\0>\0\0"):
            self.check(data, "neither UTF-8 nor UTF-16")

    def test_a_character_0(self):
        self.check(b"<a>\0</a>", "a character 0")

    def test_another_encoding(self):
        self.check(
            b"<?xml version='1.0' encoding=\"ISO-8859-1\"?><a>",
            "in the encoding 'ISO-8859-1', and not in UTF-8 or UTF-16",
        )


class Streams(unittest.TestCase):
    def test_pieces_of_any_size_give_the_same_events(self):
        for name in ("utf-8", "utf-16"):
            data = MIXED.replace("UTF-8", name).encode(name)
            whole = cut(data)
            for size in (*range(1, 50), *range(50, len(data), 37)):
                self.assertEqual(cut(data, size), whole, size)

    def test_what_is_not_whole_is_seldom_looked_at_again(self):
        class Counted(Cutter):
            cuts = 0

            def cut(self, is_last):
                self.cuts += 1
                return super().cut(is_last)

        for front, end in (("<!--", "-->"), ("<a b='", "'>"), ("<a>", "<"), ("<![CDATA[", "]]>")):
            cutter = Counted()
            for letter in front + "x" * 100_000 + end:
                cutter.feed(letter)
            self.assertLess(cutter.cuts, 60)

    def test_what_is_longer_than_the_limit_is_not_held(self):
        limit, piece = 30_000, 500
        for front, more in (
            ("<a>", "x"),
            ("<!--", "<a"),
            ("<![CDATA[", "x"),
            ("<!DOCTYPE a [", "<b>"),
            ("</a", " "),
            ("<a b='", "<>"),
            ("<a b=", '""'),
            ("<a b=", "''"),
        ):
            each = itertools.chain([front.encode()], itertools.repeat(more.encode() * piece))
            tracemalloc.start()
            try:
                with self.subTest(front), self.assertRaises(TooLong):
                    collections.deque(events(each, limit), maxlen=0)
                peak = tracemalloc.get_traced_memory()[1]
            finally:
                tracemalloc.stop()
            self.assertLess(peak, 10 * limit)

    def test_many_short_events_are_not_too_long(self):
        data = b"<!-- a -->&amp;<b c='>'/>" * 1000
        self.assertEqual(len(list(itertools.chain(*events(pieces_of(data, 7), 20)))), 3000)

    def test_a_part_is_not_kept(self):
        row = b'<row r="1"><c r="A1" t="str"><v>nut &amp; bolt</v></c></row>'
        piece, times = row * 30, 100
        tracemalloc.start()
        try:
            number = sum(
                len(json.loads(f"[{text}]"))
                for some in events(piece for _ in range(times))
                for text in some
            )
            peak = tracemalloc.get_traced_memory()[1]
        finally:
            tracemalloc.stop()
        self.assertEqual(number, times * 30 * 9)
        self.assertLess(peak, times * len(piece))


class Expat(unittest.TestCase):
    def test_names_and_texts_are_those_of_another_parser(self):
        """Expat resolves references and line ends, so the document has none but &amp; and LF."""
        document = '<a x="1"><b:c> t&amp;u\n</b:c><![CDATA[<v>]]><d/>w<!-- n --></a>'
        wanted, parser = [], expat.ParserCreate()
        parser.buffer_text = True
        parser.StartElementHandler = lambda name, attributes: wanted.append(("start", name))
        parser.EndElementHandler = lambda name: wanted.append(("end", name))
        parser.CharacterDataHandler = lambda text: wanted.append(("text", text))
        parser.Parse(document, True)
        self.assertEqual(joined(cut(document.encode())), wanted)


def joined(some_events):
    """Starts, ends and the texts between them, as another parser tells them."""
    kinds, out = {"s": "start", "e": "end"}, []
    for event in some_events:
        if event[0] in kinds:
            out.append((kinds[event[0]], event[1]))
        elif event[0] != "o":
            text = {"amp": "&"}[event[1]] if event[0] == "r" else event[1]
            if out[-1][0] == "text":
                text = out.pop()[1] + text
            out.append(("text", text))
    return out


if __name__ == "__main__":
    unittest.main()
