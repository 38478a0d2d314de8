"""URIs and IRIs as values."""
import unittest

from irikit import BY_SCHEME, Fault, Iri, Links, Refused, Status, Uri, normalize


class Values(unittest.TestCase):
    def test_parts(self):
        # RFC 3986 section 3.
        uri = Uri("foo://me:pw@example.com:8042/over/there?name=ferret#nose")
        self.assertEqual((uri.scheme, uri.authority, uri.userinfo), ("foo", "me:pw@example.com:8042", "me:pw"))
        self.assertEqual((uri.host, uri.port, uri.path), ("example.com", 8042, "/over/there"))
        self.assertEqual((uri.query, uri.fragment), ("name=ferret", "nose"))
        urn = Uri("urn:example:animal:ferret:nose")
        self.assertEqual((urn.scheme, urn.path), ("urn", "example:animal:ferret:nose"))
        self.assertEqual([urn.authority, urn.userinfo, urn.host, urn.port, urn.query, urn.fragment], [None] * 6)
        self.assertEqual((Uri("a://@:?#").userinfo, Uri("a://@:?#").host, Uri("a://@:?#").port), ("", "", None))
        with self.assertRaises(ValueError):
            Uri("a://h:" + "1" * 100_000).port
        self.assertEqual((Uri("a://[::1]").host, Uri("a:").path, Uri("a:?").query), ("[::1]", "", ""))

    def test_parts_past_ascii(self):
        iri = Iri("a://\u00e9@\u00e9\ufeff:1/\U0001f600?\ue000#\u00e9")
        self.assertEqual((iri.userinfo, iri.host, iri.port), ("\u00e9", "\u00e9\ufeff", 1))
        self.assertEqual((iri.path, iri.query, iri.fragment), ("/\U0001f600", "\ue000", "\u00e9"))

    def test_join(self):
        # RFC 3986 sections 5.1 (without the fragment of the base) and 5.4.1.
        base = Uri("http://a/b/c/d;p?q#f")
        for link, wanted in (("../g", "http://a/b/g"), ("", "http://a/b/c/d;p?q"), ("#s", "http://a/b/c/d;p?q#s"), ("g:h", "g:h"), (b"//g", "http://g")):
            self.assertEqual(base.join(link), Uri(wanted))
        self.assertEqual(base.join(Uri("g:h")), Uri("g:h"))
        with self.assertRaises(Refused) as refused:
            base.join("%4")
        self.assertEqual((refused.exception.status, refused.exception.fault), (Status.BAD_REFERENCE, Fault.INVALID_PATH))

    def test_changed(self):
        uri = Uri("HTTP://u:pw@a:80?#f")
        self.assertEqual(uri.canonical(), Uri("http://u:pw@a:80?#f"))
        self.assertEqual(uri.canonical(BY_SCHEME), Uri("http://u:pw@a/?#f"))
        self.assertEqual(uri.with_host("[::1]"), Uri("HTTP://u:pw@[::1]:80?#f"))
        self.assertEqual((uri.with_fragment("g"), uri.with_fragment(None)), (Uri("HTTP://u:pw@a:80?#g"), Uri("HTTP://u:pw@a:80?")))
        self.assertEqual(uri.without_password(), Uri("HTTP://u@a:80?#f"))
        self.assertEqual(str(uri), "HTTP://u:pw@a:80?#f")
        self.assertIsInstance(Iri("a:").with_fragment("\u00e9"), Iri)

    def test_equal_by_text(self):
        self.assertEqual((Uri("a:b"), hash(Uri("a:b"))), (Uri(b"a:b"), hash(Uri(Uri("a:b")))))
        self.assertNotEqual(Uri("a:b"), Uri("A:b"))
        self.assertNotEqual(Uri("a:b"), Iri("a:b"))
        self.assertNotEqual(Uri("a:b"), "a:b")
        self.assertEqual(len({Uri("a:b"), Uri("a:b"), Uri("a:c")}), 2)
        self.assertEqual(sorted([Uri("b:"), Uri("a:c"), Uri("a:b")]), [Uri("a:b"), Uri("a:c"), Uri("b:")])
        self.assertTrue(Uri("a:b") <= Uri("a:b") < Uri("a:c") and Uri("a:c") >= Uri("a:c") > Uri("a:b"))
        for wrong in (lambda: sorted([Uri("b:"), Iri("a:")]), lambda: Uri("a:") <= Iri("b:"), lambda: Uri("b:") > "a:"):
            self.assertRaises(TypeError, wrong)

    def test_immutable(self):
        uri = Uri("a://h/")
        for name in ("host", "path", "scheme", "other"):
            with self.assertRaises(AttributeError):
                setattr(uri, name, "b")
        self.assertEqual((str(uri), uri.host), ("a://h/", "h"))

    def test_taken_as_a_text(self):
        uri = Uri("http://a/b")
        self.assertEqual((Links(uri).canonical("c"), normalize(uri), bytes(uri)), ("http://a/c", "http://a/b", b"http://a/b"))

    def test_refused(self):
        for kind, text, fault in ((Uri, "a", Fault.UNEXPECTED_RELATIVE), (Uri, "", Fault.UNEXPECTED_RELATIVE), (Uri, "a:\u00e9", Fault.INVALID_PATH),
                                  (Uri, Iri("a:\u00e9"), Fault.INVALID_PATH), (Iri, "a:\ud800", Fault.INVALID_UTF8), (Uri, "a:#%", Fault.INVALID_FRAGMENT)):
            with self.assertRaises(Refused) as refused:
                kind(text)
            self.assertEqual((refused.exception.status, refused.exception.fault), (Status.BAD_TEXT, fault))


if __name__ == "__main__":
    unittest.main()
