"""Document 01's example, M-102's, both dialects, lists, refusals and a lent buffer, asked through the binding."""

import ctypes
import types
import unittest
from unittest import mock

import robots

FILE = b"user-agent: *\ndisallow: /sailings/draft\nallow: /sailings\n"
PATH = b"/sailings/draft/9"


class Deciding(unittest.TestCase):
    def test_document_01s_example(self):
        decision = robots.decide(FILE, b"drydockbot", PATH)
        self.assertEqual(decision, (0, True, 2, 24, 15, 0, 24))
        self.assertEqual(FILE[24 : 24 + 15], b"/sailings/draft")

    def test_m_102s_example(self):
        file = b"user-agent: *\ndisallow: *.gif$"
        self.assertEqual(robots.decide(file, b"a", b"/x.gif"), (0, True, 2, 24, 6, 0, 4))

    def test_m_105s_example(self):
        file = b"user-agent: DrydockBot/2.1\ndisallow: /draft"
        self.assertEqual(robots.decide(file, b"drydockbot", b"/draft/9"), (0, True, 2, 37, 6, 0, 6))
        self.assertEqual(robots.decide(file, b"Drydock", b"/draft/9"), (0, False, 0, 0, 0, 0, 0))

    def test_a_name_with_a_space_is_refused(self):
        """"A refused decision holds its number, disallow, and zeros." """
        decision = robots.decide(FILE, b"no name", PATH)
        self.assertEqual(decision, (2, True, 0, 0, 0, 0, 0))
        self.assertIs(decision.refusal, robots.Refusal.NAME)

    def test_a_nul_is_an_octet_like_others(self):
        file = b"\0\nuser-agent: a\ndisallow: /"
        self.assertEqual(robots.decide(file, b"a", b"/"), (0, True, 3, 26, 1, 0, 1))
        self.assertEqual(robots.decide_refusal(FILE, b"drydockbot\0", PATH), 2)
        self.assertEqual(robots.decide_refusal(FILE, b"drydockbot", b"/\0"), 5)

    def test_text_that_is_no_bytes(self):
        for text in ("/", bytearray(b"/"), None):
            with self.assertRaises((TypeError, ctypes.ArgumentError)):
                robots.decide(FILE, b"drydockbot", text)


BROAD = b"user-agent: *\nallow: /sailings\ndisallow: /sailings/draft\n"
NUMBERS = (
    robots.decide_refusal,
    robots.decide_disallow,
    robots.decide_line,
    robots.decide_place,
    robots.decide_length,
    robots.decide_unread,
    robots.decide_compared,
)


def numbers(*question, **more):
    return tuple(number(*question, **more) for number in NUMBERS)


class Dialects(unittest.TestCase):
    """M-113: "Add that dialect as a choice (1; 0 is the RFC's)" """

    def test_the_rfcs_is_the_default(self):
        of_rfc = (0, True, 3, 41, 15, 0, 24)
        self.assertEqual(robots.decide(BROAD, b"a", PATH), of_rfc)
        self.assertEqual(robots.decide(BROAD, b"a", PATH, dialect=robots.Dialect.RFC9309), of_rfc)
        self.assertEqual(numbers(BROAD, b"a", PATH), of_rfc)

    def test_the_drafts(self):
        """The first match decides, and its 9 octets are all that is compared."""
        of_draft = (0, False, 2, 21, 9, 0, 9)
        for dialect in (robots.Dialect.DRAFT1996, 1):
            self.assertEqual(robots.decide(BROAD, b"a", PATH, dialect=dialect), of_draft)
            self.assertEqual(robots.decide(BROAD, b"a", PATH, dialect), of_draft)
            self.assertEqual(numbers(BROAD, b"a", PATH, dialect=dialect), of_draft)

    def test_star_and_dollar_in_the_drafts(self):
        """/* is /%2A there, and /x$ is /x%24."""
        draft = robots.Dialect.DRAFT1996
        for pattern, path, compared in ((b"/*", b"/*", 4), (b"/x$", b"/x$", 5)):
            file = b"user-agent: *\ndisallow: " + pattern
            decision = robots.decide(file, b"a", path, dialect=draft)
            self.assertEqual(decision, (0, True, 2, 24, len(pattern), 0, compared))
            self.assertEqual(robots.decide_disallow(file, b"a", b"/x", dialect=draft), 0)
            self.assertEqual(robots.decide_disallow(file, b"a", b"/x"), 1)

    def test_an_unknown_one_is_refused_first(self):
        """"Refusals: 20 for an unknown dialect, first of all." """
        for dialect in (2, 3, 255, 256, 257, 2**16, 2**32, 2**32 + 1, 2**63, 2**64 - 1):
            for name, path in ((b"a", PATH), (b"no name", b"")):
                decision = robots.decide(BROAD, name, path, dialect=dialect)
                self.assertEqual(decision, (20, True, 0, 0, 0, 0, 0))
                self.assertIs(decision.refusal, robots.Refusal.DIALECT)

    def test_no_number_is_cut_down(self):
        for dialect in (2**64, 2**64 + 1, 2**65, 2**128, -1, -(2**64), 1 - 2**64):
            for number in (robots.decide, *NUMBERS):
                with self.assertRaisesRegex(ValueError, "dialect"):
                    number(BROAD, b"a", PATH, dialect=dialect)

    def test_what_is_no_number(self):
        for dialect in (1.0, 0.5, "0", b"\0", None):
            for number in (robots.decide, *NUMBERS):
                with self.assertRaisesRegex(TypeError, "dialect"):
                    number(BROAD, b"a", PATH, dialect=dialect)


LIST = [
    b"/sailings/draft/9",
    b"",
    b"/sailings/9",
    b"sailings/9",
    b"/sailings/ 9",
    b"/" * 2049,
    b"/harbour",
    b"/%72obots.txt",
    b"/sailings/draf%74",
]


class Lists(unittest.TestCase):
    """M-101: "each what a single question gives, a path's own refusal included" """

    def check(self, file, name, paths, expected, dialect=robots.Dialect.RFC9309):
        """Asks for the list, and for each path by itself."""
        given = robots.batch(file, name, paths, dialect=dialect)
        self.assertEqual(given, (robots.Refusal.ANSWERED, expected))
        self.assertEqual([robots.decide(file, name, path, dialect=dialect)[:3] for path in paths], expected)

    def test_answers(self):
        expected = [
            (0, True, 2),
            (3, True, 0),
            (0, False, 3),
            (4, True, 0),
            (5, True, 0),
            (3, True, 0),
            (0, False, 0),
            (0, False, 0),
            (0, True, 2),
        ]
        for dialect in robots.Dialect:
            self.check(FILE, b"drydockbot", LIST, expected, dialect)
            self.check(FILE, b"drydockbot", tuple(LIST), expected, dialect)

    def test_types_of_answers(self):
        given = robots.batch(FILE, b"drydockbot", [PATH, b""])
        self.assertIs(given.refusal, robots.Refusal.ANSWERED)
        self.assertIs(given.answers[0].refusal, robots.Refusal.ANSWERED)
        self.assertIs(given.answers[0].disallow, True)
        self.assertIs(given.answers[1].refusal, robots.Refusal.PATH_LENGTH)

    def test_dialects(self):
        self.check(BROAD, b"a", [PATH], [(0, True, 3)])
        self.check(BROAD, b"a", [PATH], [(0, False, 2)], robots.Dialect.DRAFT1996)
        self.assertEqual(robots.batch(BROAD, b"a", [PATH]), (0, [(0, True, 3)]))

    def test_an_escape_ends_with_its_path(self):
        """"any other "%": %25": no digits are taken from the next path."""
        file = b"user-agent: *\ndisallow: /aA\ndisallow: /a%254"
        expected = [(0, True, 3), (4, True, 0), (0, True, 2)]
        self.check(file, b"a", [b"/a%4", b"1/b", b"/a%41"], expected)

    def test_a_nul_is_an_octet_like_others(self):
        self.check(FILE, b"a", [b"/\0", b"/sailings", b"\0"], [(5, True, 0), (0, False, 3), (4, True, 0)])

    def test_no_paths(self):
        self.assertEqual(robots.batch(FILE, b"a", []), (0, []))
        self.assertEqual(robots.batch(FILE, b"", []), (2, []))
        self.assertEqual(robots.batch(FILE, b"a", [], dialect=2), (20, []))

    def test_many_paths(self):
        """A thousand, one of three closed."""
        paths = [b"/sailings/draft/%d" % at if at % 3 == 0 else b"/sailings/%d" % at for at in range(1000)]
        given = robots.batch(FILE, b"a", paths)
        self.assertEqual(given.answers, [(0, True, 2) if at % 3 == 0 else (0, False, 3) for at in range(1000)])


class RefusedLists(unittest.TestCase):
    def test_each_path_is_refused_with_the_call(self):
        """20, then 1, then 2, all ahead of a path's own."""
        too_long = b" " * 512001
        for file, name, dialect, number in (
            (too_long, b"no name", 2, 20),
            (too_long, b"no name", 0, 1),
            (FILE, b"no name", 1, 2),
            (FILE, b"", 0, 2),
            (FILE, b"a" * 65, 0, 2),
            (FILE, b"a", 2**64 - 1, 20),
        ):
            given = robots.batch(file, name, LIST, dialect=dialect)
            self.assertEqual(given, (number, [(number, True, 0)] * len(LIST)))
            self.assertIs(given.refusal, robots.Refusal(number))
            singles = [robots.decide(file, name, path, dialect=dialect)[:3] for path in LIST]
            self.assertEqual(given.answers, singles)

    def test_just_inside(self):
        given = robots.batch(b" " * 512000, b"a" * 64, [b"/" * 2048])
        self.assertEqual(given, (0, [(0, False, 0)]))

    def test_what_is_not_written_opens_nothing(self):
        for number in robots.Refusal:
            library = types.SimpleNamespace(robots_batch=lambda *_: int(number))
            with mock.patch.object(robots, "_library", library):
                given = robots.batch(FILE, b"a", LIST)
            self.assertEqual([answer.disallow for answer in given.answers], [True] * len(LIST))

    def test_an_unknown_refusal_opens_nothing(self):
        library = types.SimpleNamespace(robots_batch=lambda *_: 99)
        with mock.patch.object(robots, "_library", library), self.assertRaises(ValueError):
            robots.batch(FILE, b"a", LIST)

    def test_wrong_types(self):
        for text in ("/", bytearray(b"/"), memoryview(b"/"), None, 1):
            with self.assertRaisesRegex(TypeError, "file has to be bytes"):
                robots.batch(text, b"a", [PATH])
            with self.assertRaisesRegex(TypeError, "name has to be bytes"):
                robots.batch(FILE, text, [PATH])
            with self.assertRaisesRegex(TypeError, "paths has to be a list of bytes"):
                robots.batch(FILE, b"a", text)
            with self.assertRaisesRegex(TypeError, "each of paths has to be bytes"):
                robots.batch(FILE, b"a", [PATH, text])
        for paths in (PATH, b"", {PATH: 1}, iter([PATH])):
            with self.assertRaisesRegex(TypeError, "paths has to be a list of bytes"):
                robots.batch(FILE, b"a", paths)

    def test_wrong_dialects(self):
        for dialect in (2**64, 2**64 + 1, -1, 1 - 2**64):
            with self.assertRaisesRegex(ValueError, "dialect"):
                robots.batch(BROAD, b"a", [PATH], dialect=dialect)
        for dialect in (1.0, "0", b"\0", None):
            with self.assertRaisesRegex(TypeError, "dialect"):
                robots.batch(BROAD, b"a", [PATH], dialect=dialect)


class OtherQuestions(unittest.TestCase):
    def test_a_match(self):
        """The seventh row of document 01's table: 5 for /page, and 9."""
        asked = (b"/*.htm", b"/page.htm")
        self.assertEqual(robots.match_refusal(*asked), 0)
        self.assertEqual(robots.match_found(*asked), 1)
        self.assertEqual(robots.match_compared(*asked), 9)

    def test_a_line(self):
        """RFC 9309, figure 1"""
        line = b"user-agent: ExampleBot"
        self.assertEqual(robots.line_refusal(line), 0)
        self.assertEqual(robots.line_kind(line), 4)
        self.assertEqual(robots.line_place(line), 12)
        self.assertEqual(robots.line_length(line), 10)


class Normalising(unittest.TestCase):
    def test_the_front_is_written_and_the_rest_stays(self):
        buffer = bytearray(b"................")
        self.assertEqual(robots.normalise(b"/caf%c3%a9$", buffer), 13)
        self.assertEqual(buffer, b"/caf%C3%A9%24...")

    def test_a_buffer_of_one_octet_too_little(self):
        buffer = bytearray(b"............")
        self.assertEqual(robots.normalise(b"/caf%c3%a9$", buffer), 0)
        self.assertEqual(buffer, b"............")
        self.assertEqual(robots.normalise_refusal(b"/caf%c3%a9$", 12), 6)
        self.assertEqual(robots.normalise_refusal(b"/caf%c3%a9$", 13), 0)
        self.assertEqual(robots.normalise(b"/", bytearray()), 0)

    def test_a_room_that_is_no_size(self):
        for room in (-1, 2**64):
            with self.assertRaisesRegex(ValueError, "room"):
                robots.normalise_refusal(b"/", room)

    def test_the_longest(self):
        """"a 2,048-octet path (at most 6,142 normalised)" """
        buffer = bytearray(robots.NORMALISED_MOST)
        self.assertEqual(robots.normalise(b"/" + b"%" * 2047, buffer), 6142)
        self.assertEqual(buffer, b"/" + b"%25" * 2047)


if __name__ == "__main__":
    unittest.main()
