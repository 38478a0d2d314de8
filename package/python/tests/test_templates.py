"""URI templates: by the examples of RFC 6570, with values of each type."""
import collections
import decimal
import enum
import types
import unittest

import irikit
from examples import VARIABLES, rows
from irikit import IRI, Refused, Status, Template, TemplateFault


class Port(enum.IntEnum):
    HTTP = 80


class Ratio(float, enum.Enum):
    HALF = 0.5


class Price(decimal.Decimal, enum.Enum):
    LOW = "0.50"


class Expansions(unittest.TestCase):
    def test_standard(self):
        found = rows("expansions.txt")
        self.assertGreater(len(found), 100)
        for template, wanted in found:
            self.assertEqual(irikit.expand(template, VARIABLES), wanted)
            self.assertEqual(irikit.expand(template, **VARIABLES), wanted)
            self.assertEqual(Template(template).expand(VARIABLES), wanted)

    def test_values(self):
        pairs = [("k", 1), ("k", 2)]
        for value, wanted in (
            (6, "6"), (1.5, "1.5"), (10**9, "1000000000"), (-7, "-7"), (0, "0"), (Port.HTTP, "80"), (decimal.Decimal("0.10"), "0.10"),
            (Ratio.HALF, "0.5"), ([Ratio.HALF, Price.LOW], "0.5,0.50"), (decimal.Decimal("1e400"), "1E%2B400"),
            ([1, None, "a"], "1,a"), ((1, 2), "1,2"), (range(3), "0,1,2"), (collections.deque("ab"), "a,b"), ([], ""), ({}, ""), (None, ""),
            (pairs, "k,1,k,2"), ([("k", None), ("l", "m")], "l,m"), ({"k": None, "l": 2}, "l,2"), (types.MappingProxyType({"k": 1}), "k,1"),
            (collections.OrderedDict(k=1, l=2), "k,1,l,2"), (collections.ChainMap({"k": 1}), "k,1"), (collections.UserDict(k=1), "k,1"),
            (b"\xc3\xa9", "%C3%A9"), (bytearray(b"a"), "a"), (memoryview(b"a"), "a"), ("\ufeff", "%EF%BB%BF"), ("\0", "%00"), ("", ""),
            (irikit.Uri("a:b"), "a%3Ab"), ("a" * (1 << 20), "a" * (1 << 20)),
        ):
            self.assertEqual(irikit.expand("{v}", {"v": value}), wanted, type(value))
            self.assertEqual(Template("{v}").expand(v=value), wanted, type(value))
        self.assertEqual(irikit.expand("{?page}", {"page": 7}), "?page=7")
        self.assertEqual(irikit.expand("{?v*}", v=pairs), "?k=1&k=2")

    def test_no_values(self):
        for value in (True, object(), [["a"]], {"a": {}}, {1, 2}, frozenset(), [True], {"k": True}, 1j, float("nan"), float("inf"), iter("a"), [None, {}],
                      {"a": [1]}, {"v"}, decimal.Decimal("NaN"), decimal.Decimal("sNaN"), decimal.Decimal("-Infinity")):
            with self.assertRaisesRegex(TypeError, "'v'"):
                irikit.expand("{v}", v=value)
        for values in ({1: "a"}, {None: "a"}, [("v", "a")], [], "v", "", 0, 5, {"v"}, b""):
            for call in (irikit.expand, lambda _, given: Template("{v}").expand(given)):
                with self.assertRaises(TypeError):
                    call("{v}", values)

    def test_names(self):
        for values in (types.MappingProxyType({"q": "1"}), collections.ChainMap({"q": "1"}), {b"q": 1}):
            self.assertEqual(irikit.expand("{q}{r}", values, r=2), "12")
        self.assertEqual(irikit.expand("{q}", {"q": "1"}, q="2"), "2")
        self.assertEqual(irikit.expand("{q}", {b"q": "1"}, q="2"), "2")
        self.assertEqual(irikit.expand("{q}", {"q": "1"}, q=None), "")
        self.assertEqual(Template("{values}{grammar}{self}").expand(values=1, grammar=2, self=3), "123")
        self.assertEqual(irikit.expand("{values}{template}", values=1, template=2), "12")

    def test_grammar(self):
        self.assertEqual((irikit.expand("\u00e9", grammar=IRI), Template("\u00e9", IRI).expand()), ("\u00e9",) * 2)

    def test_variables(self):
        wanted = ["username", "term", "term", "q", "lang"]
        text = "http://example.com/~{username}/{term:1}/{term}{?q*,lang}"
        self.assertEqual((irikit.variables(text), Template(text).variables), (wanted, tuple(wanted)))
        self.assertEqual((irikit.variables("a"), irikit.variables("")), ([], []))

    def test_refused(self):
        for text, fault, place, words in (
            ("ab{", TemplateFault.EXPRESSION_NOT_CLOSED, 2, "expression not closed"), ("{=a}", TemplateFault.UNSUPPORTED_OPERATOR, 1, "unsupported operator"),
            ("%aq", TemplateFault.INVALID_PERCENT_ENCODING, 2, "invalid percent-encoded triplets"), ("\ud800", TemplateFault.INVALID_UTF8, 0, None),
        ):
            for call in (irikit.expand, irikit.variables, Template):
                with self.assertRaises(Refused) as refused:
                    call(text)
                error = refused.exception
                self.assertEqual((error.status, error.fault, error.place), (Status.BAD_TEXT, fault, place), text)
                self.assertEqual(str(error), words or str(fault))
        with self.assertRaises(Refused) as refused:
            Template("a{list:1}").expand(VARIABLES)
        self.assertEqual((refused.exception.fault, refused.exception.place), (TemplateFault.UNEXPECTED_VALUE_TYPE, 2))
        for value in (["d", b"\xff"], "\ud800", {"k": "\udcff"}):
            with self.assertRaises(Refused) as refused:
                irikit.expand("", {"a": "b", "c": value})
            self.assertEqual((refused.exception.status, refused.exception.fault, refused.exception.place), (Status.BAD_VARIABLE, None, 1))


if __name__ == "__main__":
    unittest.main()
