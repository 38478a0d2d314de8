"""What is wrong with a text, its forms, its parts, and texts with something of them changed."""
import unittest

import irikit
from irikit import (
    ABSOLUTE, BY_SCHEME, IN_QUERY, IN_USER, IRI, PRESERVING, RELATIVE, URI, WITH_SCHEME, Fault, Refused, Status,
)

# RFC 3986 sections 1.1.2 and 3.
SPLIT = [
    ("ftp://ftp.is.co.za/rfc/rfc1808.txt", ("ftp", "ftp.is.co.za", "/rfc/rfc1808.txt", None, None)),
    ("ldap://[2001:db8::7]/c=GB?objectClass?one", ("ldap", "[2001:db8::7]", "/c=GB", "objectClass?one", None)),
    ("mailto:John.Doe@example.com", ("mailto", None, "John.Doe@example.com", None, None)),
    ("telnet://192.0.2.16:80/", ("telnet", "192.0.2.16:80", "/", None, None)),
    ("foo://example.com:8042/over/there?name=ferret#nose", ("foo", "example.com:8042", "/over/there", "name=ferret", "nose")),
    ("urn:example:animal:ferret:nose", ("urn", None, "example:animal:ferret:nose", None, None)),
]


class Refusals(unittest.TestCase):
    def refused(self, status, fault, call, *given, **named):
        with self.assertRaises(Refused) as refused:
            call(*given, **named)
        self.assertEqual((refused.exception.status, refused.exception.fault), (status, fault))


class Faults(Refusals):
    def test_fault(self):
        for text, kind, grammar, wanted in (
            ("a", irikit.REFERENCE, URI, None), ("a:#", WITH_SCHEME, URI, None), ("\u00e9", irikit.REFERENCE, IRI, None),
            ("", irikit.REFERENCE, URI, None), ("\u00e9", irikit.REFERENCE, URI, Fault.INVALID_PATH),
            ("a:#", ABSOLUTE, URI, Fault.UNEXPECTED_FRAGMENT), ("a", WITH_SCHEME, URI, Fault.UNEXPECTED_RELATIVE),
            (b"\xff", irikit.REFERENCE, URI, Fault.INVALID_UTF8), ("\ud800", irikit.REFERENCE, IRI, Fault.INVALID_UTF8),
            ("//[::1", irikit.REFERENCE, URI, Fault.INVALID_HOST), ("a:b", RELATIVE, URI, Fault.INVALID_PATH),
        ):
            self.assertIs(irikit.fault(text, kind, grammar), wanted, text)

    def test_words(self):
        self.assertEqual(str(Fault.INVALID_UTF8), "invalid utf-8 bytes")
        self.assertEqual(f"{Fault.UNEXPECTED_RELATIVE}", "expected an absolute IRI but got a relative IRI")
        for fault in [*Fault, *irikit.TemplateFault]:
            self.assertRegex(str(fault), "^[a-zIR8 -]{8,}$")
        self.assertEqual((repr(Fault.INVALID_HOST), repr(Status.BAD_TEXT), str(IRI)), ("Fault.INVALID_HOST", "Status.BAD_TEXT", "Grammar.IRI"))

    def test_part(self):
        """A slice of the text that was given, in its own units."""
        for text, wanted in (("http://me@h h:8/", "h h"), ("http://\u00e9@h h:8/", "h h"), ("/\U0001f600?\u00e9#\u00e9#", "\u00e9#"), ("a^b", "a^b")):
            grammar = irikit.IRI
            self.assertEqual(text[irikit.faulty_part(text, grammar=grammar)], wanted)
            self.assertEqual(text.encode()[irikit.faulty_part(text.encode(), grammar=grammar)], wanted.encode())
        self.assertEqual("ab\ud800c"[irikit.faulty_part("ab\ud800c")], "\ud800c")
        iri = irikit.Iri("a:\u00e9?\u00e9")
        self.assertEqual(str(iri)[irikit.faulty_part(iri)], "\u00e9")
        self.assertIsNone(irikit.faulty_part("a"))


class Forms(Refusals):
    def test_normalize(self):
        self.assertEqual(irikit.normalize("HTTP://a:80"), "http://a:80")
        self.assertEqual(irikit.normalize("HTTP://a:80", BY_SCHEME), "http://a/")
        self.assertEqual(irikit.normalize("a:b/../c%7e", PRESERVING), "a:b/../c~")
        self.refused(Status.BAD_TEXT, Fault.UNEXPECTED_RELATIVE, irikit.normalize, "a")

    def test_is_normalized(self):
        for text, mode, wanted in (("http://a/%2F", irikit.NORMAL, True), ("http://a/%2f", irikit.NORMAL, False), ("http://a:80/", BY_SCHEME, False),
                                   ("a:b/../c", PRESERVING, True), ("a:b/../c", irikit.NORMAL, False)):
            self.assertIs(irikit.is_normalized(text, mode), wanted, text)
        self.refused(Status.BAD_TEXT, Fault.UNEXPECTED_RELATIVE, irikit.is_normalized, "a")

    def test_steps(self):
        self.assertEqual(irikit.steps("exAmple://a/./b/../b/%63/%7bfoo%7d"),
                         ["scheme letter 2", "decode path 10", "hex digit path 14", "hex digit path 20", "dot segments"])
        self.assertEqual(irikit.steps("http://a:", BY_SCHEME), ["empty port", "empty path"])
        self.assertEqual(irikit.steps("a:/%c3%a9", grammar=IRI), ["decode path 1"])
        self.assertEqual(irikit.steps("http://a:80"), [])
        self.assertEqual(irikit.steps("a:/" + "%7e" * 1000), [f"decode path {at}" for at in range(1, 1001)])
        self.refused(Status.BAD_TEXT, Fault.UNEXPECTED_RELATIVE, irikit.steps, "a")

    def test_mapped(self):
        # RFC 3987 section 3.1.
        for text, wanted in (
            ("http://www.example.org/red%09ros\u00e9#red", "http://www.example.org/red%09ros%C3%A9#red"),
            ("http://example.com/\U00010300\U00010301\U00010302", "http://example.com/%F0%90%8C%80%F0%90%8C%81%F0%90%8C%82"),
            ("\ufeff", "%EF%BB%BF"), ("\u00e9" * (1 << 19), "%C3%A9" * (1 << 19)),
        ):
            self.assertEqual(irikit.map_to_uri(text), wanted)

    def test_encoded(self):
        for text, given, wanted in (
            ("50% off/a", {}, "50%25%20off%2Fa"), ("a=\u00e9&b", dict(place=IN_QUERY, grammar=IRI), "a=\u00e9&b"), ("", {}, ""), ("\0", {}, "%00"),
            ("\ufeffa", {}, "%EF%BB%BFa"), ("a:b", dict(place=IN_USER), "a%3Ab"), (" " * (1 << 20), {}, "%20" * (1 << 20)),
        ):
            self.assertEqual(irikit.encode(text, **given), wanted)
            self.assertEqual(irikit.decode(wanted), text.encode())
        self.assertEqual(irikit.decode("50%25%20off%2Fa%ff%4"), b"50% off/a\xff%4")
        self.refused(Status.BAD_TEXT, Fault.INVALID_UTF8, irikit.encode, "\ud800")


class Empty(Refusals):
    def test_empty(self):
        for text in ("", b"", bytearray(), memoryview(b"")):
            self.assertEqual((irikit.map_to_uri(text), irikit.encode(text), irikit.decode(text), irikit.fault(text)), ("", "", b"", None))
            self.assertEqual((irikit.split(text), irikit.expand(text), irikit.variables(text)), ((None, None, "", None, None), "", []))
            self.assertEqual((irikit.mask_password(text), irikit.with_fragment(text, text), irikit.without_password(text)), ("", "#", ""))
            self.assertEqual((irikit.links(text, "a:"), irikit.Robots(text, "bot").allows(text)), ([], True))
            self.assertEqual(irikit.run("canon uri", text), (b"base expected an absolute IRI but got a relative IRI\n", 3))
            for call in (irikit.normalize, irikit.is_normalized, irikit.steps, irikit.Uri):
                self.refused(Status.BAD_TEXT, Fault.UNEXPECTED_RELATIVE, call, text)
            self.refused(Status.BAD_BASE, Fault.UNEXPECTED_RELATIVE, irikit.Links, text)
            self.refused(Status.NO_HOST, None, irikit.with_host, text, text)


class Edits(Refusals):
    def test_passwords(self):
        self.assertEqual(irikit.mask_password("http://u:pw@h/"), "http://u:@h/")
        self.assertEqual(irikit.without_password("http://u:pw@h/"), "http://u@h/")
        self.assertEqual(irikit.with_password("http://u:pw@h/", "***"), "http://u:***@h/")
        self.assertEqual(irikit.without_password("//\u00e9:pw@h/", IRI), "//\u00e9@h/")
        self.refused(Status.BAD_PART, Fault.INVALID_UTF8, irikit.with_password, "//u:pw@h", "\ud800")

    def test_fragment(self):
        self.assertEqual((irikit.with_fragment("a?b#c", "d"), irikit.with_fragment("a?b#c", None)), ("a?b#d", "a?b"))
        self.assertEqual(irikit.with_fragment("a", "\ufeff", IRI), "a#\ufeff")
        self.refused(Status.BAD_PART, Fault.INVALID_FRAGMENT, irikit.with_fragment, "a", "#")

    def test_host(self):
        self.assertEqual(irikit.with_host("http://u@192.0.2.16:80/", "[::1]"), "http://u@[::1]:80/")
        self.assertEqual(irikit.with_host("//a/", "b", names_only=True), "//b/")
        self.refused(Status.NO_HOST, None, irikit.with_host, "//192.0.2.16/", "a", True)
        self.refused(Status.BAD_PART, Fault.INVALID_HOST, irikit.with_host, "//a/", "[")


class Parts(Refusals):
    def test_split(self):
        for text, wanted in SPLIT:
            parts = irikit.split(text)
            self.assertEqual((parts, parts.geturl()), (wanted, text))
        self.refused(Status.BAD_TEXT, Fault.INVALID_FRAGMENT, irikit.split, "##")

    def test_authority(self):
        parts = irikit.split("ftp://Me:se:cret@[2001:DB8::7]:8042?")
        self.assertEqual((parts.userinfo, parts.username, parts.password), ("Me:se:cret", "Me", "se:cret"))
        self.assertEqual((parts.hostname, parts.port), ("2001:db8::7", 8042))
        none = irikit.split("mailto:a@b")
        self.assertEqual((none.userinfo, none.username, none.password, none.hostname, none.port), (None,) * 5)
        empty = irikit.split("//@:/")
        self.assertEqual((*empty, empty.port), (None, "@:", "/", None, None, None))

    def test_another_authority(self):
        parts = irikit.split("//h:1")._replace(netloc="a b")
        with self.assertRaisesRegex(Refused, "invalid host"):
            parts.hostname
        self.assertEqual(parts._replace(netloc="[::1]:2").port, 2)

    def test_build(self):
        foo = dict(scheme="foo", host="example.com", port="8042", path="/over/there", query="name=ferret", fragment="nose")
        self.assertEqual(irikit.build(kind=WITH_SCHEME, **foo), "foo://example.com:8042/over/there?name=ferret#nose")
        self.assertEqual(irikit.build(scheme=None, host="h", path="//g"), "//h//g")
        self.assertEqual((irikit.build(), irikit.build(query="", fragment=b"")), ("", "?#"))
        self.refused(Status.BAD_PART, Fault.INVALID_PATH, irikit.build, path="//g")
        self.refused(Status.BAD_PART, Fault.INVALID_UTF8, irikit.build, path="\ud800")
        self.refused(Status.BAD_PART, Fault.INVALID_PORT, irikit.build, port=-1)

    def test_what_was_split_is_built(self):
        for text in ("ftp://me:secret@h:8042/p?q#f", "//[::1]:1/", "//h/", "mailto:a"):
            parts = irikit.split(text)
            host = parts.hostname if parts.hostname is None or ":" not in parts.hostname else f"[{parts.hostname}]"
            built = irikit.build(scheme=parts.scheme, userinfo=parts.userinfo, host=host, port=parts.port, path=parts.path,
                                 query=parts.query, fragment=parts.fragment)
            self.assertEqual(built, text)
        self.assertEqual(irikit.build(host="h", port=80), "//h:80")


if __name__ == "__main__":
    unittest.main()
