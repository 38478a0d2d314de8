"""Link header fields: by the examples of RFC 8288."""
import unittest

import irikit
from irikit import BY_SCHEME, IRI, PRESERVING, Fault, Refused, Status

# RFC 8288 section 3.5, against the base of its first example.
FIELDS = [
    ('<http://example.com/TheBook/chapter2>; rel="previous"; title="previous chapter"',
     [{"url": "http://example.com/TheBook/chapter2", "rel": "previous", "title": "previous chapter"}]),
    ('</>; rel="http://example.net/foo"', [{"url": "http://example.com/", "rel": "http://example.net/foo"}]),
    ('</terms>; rel="copyright"; anchor="#foo"', [{"url": "http://example.com/terms", "rel": "copyright", "anchor": "#foo"}]),
    ("</TheBook/chapter2>; rel=\"previous\"; title*=UTF-8'de'letztes%20Kapitel, "
     "</TheBook/chapter4>; rel=\"next\"; title*=UTF-8'de'n%c3%a4chstes%20Kapitel",
     [{"url": "http://example.com/TheBook/chapter2", "rel": "previous", "title*": "UTF-8'de'letztes%20Kapitel"},
      {"url": "http://example.com/TheBook/chapter4", "rel": "next", "title*": "UTF-8'de'n%c3%a4chstes%20Kapitel"}]),
    ('<https://example.org/>; rel="start", <https://example.org/index>; rel="index"',
     [{"url": "https://example.org/", "rel": "start"}, {"url": "https://example.org/index", "rel": "index"}]),
    ('<a>; title="\\"b\\" \\\\"; x', [{"url": "http://example.com/TheBook/a", "title": '"b" \\', "x": ""}]),
    ("", []),
]
BASE = "http://example.com/TheBook/chapter3"


class Fields(unittest.TestCase):
    def test_standard(self):
        for field, wanted in FIELDS:
            self.assertEqual(irikit.links(field, BASE), wanted)
            self.assertEqual(irikit.links(field.encode(), BASE, IRI), wanted)

    def test_by_scheme(self):
        field, found = "<http://h:80>, <>; rel=self", [{"url": "http://h/"}, {"url": "ws://a/", "rel": "self"}]
        self.assertEqual(irikit.links(field, "ws://a:80", mode=BY_SCHEME), found)
        self.assertEqual(irikit.links(field, "ws://a:80"), [{"url": "http://h:80"}, {"url": "ws://a:80", "rel": "self"}])
        with self.assertRaisesRegex(Refused, "PRESERVING"):
            irikit.links(field, "a:", IRI, PRESERVING)

    def test_past_ascii(self):
        self.assertEqual(irikit.links('<\ufeff>; title="\u2028\u00e9"', "http://a/", IRI), [{"url": "http://a/\ufeff", "title": "\u2028\u00e9"}])

    def test_refused(self):
        for field, words, place in (("<a> b", "expected parameter", 4), ('<a>;r="x', "unclosed string", 6), ("<%4>", "target invalid path", 1),
                                    ("<a>\n<b>", "more than one line", 3), ("<a>\r", "more than one line", 3),
                                    ("<" + "a" * (1 << 20) + ">", "more than 1,048,576 bytes", 1 << 20)):
            with self.assertRaises(Refused) as refused:
                irikit.links(field, BASE)
            error = refused.exception
            self.assertEqual((error.status, error.fault, error.place, str(error)), (Status.BAD_TEXT, None, place, words))
        with self.assertRaises(Refused):
            irikit.links("<a>; title=\"\ud800\"", BASE)
        with self.assertRaises(Refused) as refused:
            irikit.links("", "a")
        self.assertEqual((refused.exception.status, refused.exception.fault), (Status.BAD_BASE, Fault.UNEXPECTED_RELATIVE))


if __name__ == "__main__":
    unittest.main()
