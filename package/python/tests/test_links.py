"""References against one base: by the examples of RFC 3986, by the repository's rows, many at once."""
import os
import subprocess
import sys
import unittest

import irikit
from examples import rows
from irikit import BY_SCHEME, IRI, NORMAL, PRESERVING, URI, Fault, Links, Refused, Status

BASE = "http://a/b/c/d;p?q"
# RFC 3986 section 5.4.1, and 5.4.2 as a strict reader has it.
RESOLVED = [
    ("g:h", "g:h"), ("g", "http://a/b/c/g"), ("./g", "http://a/b/c/g"), ("g/", "http://a/b/c/g/"), ("/g", "http://a/g"),
    ("//g", "http://g"), ("?y", "http://a/b/c/d;p?y"), ("g?y", "http://a/b/c/g?y"), ("#s", "http://a/b/c/d;p?q#s"),
    ("g#s", "http://a/b/c/g#s"), ("g?y#s", "http://a/b/c/g?y#s"), (";x", "http://a/b/c/;x"), ("g;x", "http://a/b/c/g;x"),
    ("g;x?y#s", "http://a/b/c/g;x?y#s"), ("", "http://a/b/c/d;p?q"), (".", "http://a/b/c/"), ("./", "http://a/b/c/"),
    ("..", "http://a/b/"), ("../", "http://a/b/"), ("../g", "http://a/b/g"), ("../..", "http://a/"), ("../../", "http://a/"),
    ("../../g", "http://a/g"), ("../../../g", "http://a/g"), ("/./g", "http://a/g"), ("/../g", "http://a/g"),
    ("g.", "http://a/b/c/g."), ("..g", "http://a/b/c/..g"), ("./../g", "http://a/b/g"), ("g/./h", "http://a/b/c/g/h"),
    ("g;x=1/../y", "http://a/b/c/y"), ("g?y/../x", "http://a/b/c/g?y/../x"), ("http:g", "http:g"),
]
# RFC 3986 sections 6.2.2 and 6.2.3; RFC 3987 sections 3.2 and 5.3.2.3.
NORMAL_FORMS = [
    ("eXAMPLE://a/./b/../b/%63/%7bfoo%7d", URI, NORMAL, "example://a/b/c/%7Bfoo%7D"),
    ("HTTP://www.EXAMPLE.com/", URI, NORMAL, "http://www.example.com/"),
    ("http://example.com:80/", URI, BY_SCHEME, "http://example.com/"),
    ("http://example.com", URI, BY_SCHEME, "http://example.com/"),
    ("http://www.example.org/D%C3%BCrst", IRI, NORMAL, "http://www.example.org/D\u00fcrst"),
    ("http://www.example.org/D%FCrst", IRI, NORMAL, "http://www.example.org/D%FCrst"),
    ("http://example.org/%7euser", IRI, NORMAL, "http://example.org/~user"),
]
MEBIBYTE = 1 << 20


def answer(base, reference, grammar):
    """The answer of the program."""
    try:
        links = Links(base, grammar)
    except Refused as error:
        return f"base {error}"
    try:
        return f"ok {links.canonical(reference)}"
    except Refused as error:
        return f"bad {error}"


class One(unittest.TestCase):
    def test_resolved(self):
        links = Links(BASE)
        for reference, wanted in RESOLVED:
            self.assertEqual(links.canonical(reference), wanted)
            self.assertEqual([links.resolve(reference), irikit.resolve(BASE, reference)], [wanted] * 2)

    def test_target(self):
        self.assertEqual(Links("http://A/b/c").target("../%7e"), "http://A/b/../%7e")

    def test_normal_form(self):
        for text, grammar, mode, wanted in NORMAL_FORMS:
            self.assertEqual(Links(BASE, grammar).canonical(text, mode), wanted)
            self.assertEqual(irikit.normalize(text, mode, grammar), wanted)

    def test_rows(self):
        found = rows("rows.txt")
        self.assertGreater(len(found), 100)
        for grammar, base, reference, wanted in found:
            self.assertEqual(answer(base, reference, irikit.Grammar[grammar.upper()]), wanted, (base, reference))

    def test_each_kind_of_text(self):
        links = Links(b"http://a/b")
        for text in ("%7e", b"%7e", bytearray(b"%7e"), memoryview(b"%7e")):
            self.assertEqual((links.canonical(text), links.canonical_bytes(text)), ("http://a/~", b"http://a/~"))

    def test_base(self):
        links = Links(memoryview(b"http://a/b"), IRI)
        self.assertEqual((links.base, links.grammar), (b"http://a/b", IRI))
        for base, fault in (("", Fault.UNEXPECTED_RELATIVE), ("http://a/#f", Fault.UNEXPECTED_FRAGMENT), ("//a b@c", Fault.UNEXPECTED_RELATIVE),
                            ("\ud800", Fault.INVALID_UTF8)):
            with self.assertRaises(Refused) as refused:
                Links(base)
            self.assertEqual((refused.exception.status, refused.exception.fault), (Status.BAD_BASE, fault))

    def test_refused(self):
        # docs/COMMANDS.md: the words for faults, each with what has it.
        for reference, fault, words in (
            ("%4", Fault.INVALID_PATH, "invalid path"), ("//a b@c", Fault.INVALID_USERINFO, "invalid userinfo"),
            ("//a@b@c", Fault.INVALID_HOST, "invalid host"), (b"\xff", Fault.INVALID_UTF8, "invalid utf-8 bytes"),
            ("\udcff", Fault.INVALID_UTF8, "invalid utf-8 bytes"), ("\ud83d\ude00", Fault.INVALID_UTF8, "invalid utf-8 bytes"),
            ("?%", Fault.INVALID_QUERY, "invalid query"), ("##", Fault.INVALID_FRAGMENT, "invalid fragment"),
            ("\ufeffg", Fault.INVALID_PATH, "invalid path"), ("\0", Fault.INVALID_PATH, "invalid path"),
        ):
            with self.assertRaises(Refused) as refused:
                Links(BASE).canonical(reference)
            error = refused.exception
            self.assertEqual((error.status, error.fault, error.place, str(error)), (Status.BAD_REFERENCE, fault, None, words))

    def test_preserving_is_no_mode_of_canonical(self):
        for call in (Links(BASE).canonical, Links(BASE).answers, irikit.steps):
            with self.assertRaisesRegex(Refused, "PRESERVING"):
                call("a:b", PRESERVING)

    def test_whole_texts(self):
        """What stands at the start and the end of a text stays, and a text of a mebibyte is one text."""
        links = Links("http://a/", IRI)
        for text in ("\ufeffa", "a\ufeff", "\ufeff", "\u2028", "\u0301", "\U0001f600", "a" * MEBIBYTE, "\u00e9" * MEBIBYTE):
            self.assertEqual(links.canonical(text), "http://a/" + text)
            self.assertEqual(links.canonical_many(["b", text, "c"]), ["http://a/b", "http://a/" + text, "http://a/c"])
            self.assertEqual(irikit.split(text, IRI).path, text)
        self.assertEqual(Links("http://a/" + "b" * MEBIBYTE).canonical("?c"), "http://a/" + "b" * MEBIBYTE + "?c")


class Library(unittest.TestCase):
    def test_another_library(self):
        for name, words in (("libc.so.6", "libc.so.6 is no libirikit of version 0.2"), ("/nowhere/irikit", "no library irikit (/nowhere/irikit: ")):
            done = subprocess.run([sys.executable, "-c", "import irikit"], env={**os.environ, "IRIKIT_LIBRARY": name}, stderr=subprocess.PIPE)
            self.assertEqual(done.returncode, 1)
            self.assertIn(f"\nImportError: {words}".encode(), done.stderr)


class ToUri(unittest.TestCase):
    def test_mapped(self):
        """RFC 3987 section 3.1; octets that were sent stay octets."""
        for base, reference, wanted in (
            ("http://a/", "http://r\u00e9sum\u00e9.example.org", "http://r%C3%A9sum%C3%A9.example.org"),
            ("http://www.example.org/", "red%09ros\u00e9#red", "http://www.example.org/red%09ros%C3%A9#red"),
            ("http://example.org/", "\U00010300\U00010301\U00010302", "http://example.org/%F0%90%8C%80%F0%90%8C%81%F0%90%8C%82"),
            ("http://\u00e9/a/", "../%C3%A9?\ue000#\ufeff", "http://%C3%A9/%C3%A9?%EE%80%80#%EF%BB%BF"),
            ("a:/", "", "a:/"), (b"http://a/" + b"b" * MEBIBYTE + b"/", "\u00e9", "http://a/" + "b" * MEBIBYTE + "/%C3%A9"),
        ):
            self.assertEqual(irikit.canonicalize_to_uri(base, reference), wanted)
        self.assertEqual(irikit.canonicalize_to_uri("http://\u00e9:80", "", BY_SCHEME), "http://%C3%A9/")
        self.assertEqual(irikit.canonicalize_to_uri("a:/", "\u00e9" * MEBIBYTE), "a:/" + "%C3%A9" * MEBIBYTE)

    def test_rows(self):
        """What `canonical` of IRIs gives, mapped, for each row."""
        for grammar, base, reference, _ in rows("rows.txt"):
            try:
                wanted = irikit.map_to_uri(Links(base, IRI).canonical(reference))
            except Refused as error:
                with self.assertRaises(Refused) as refused:
                    irikit.canonicalize_to_uri(base, reference)
                self.assertEqual((refused.exception.status, refused.exception.fault), (error.status, error.fault))
            else:
                self.assertEqual(irikit.canonicalize_to_uri(base, reference), wanted)

    def test_refused(self):
        for base, reference, status, fault in (("a", "%", Status.BAD_BASE, Fault.UNEXPECTED_RELATIVE), ("a:", "\ud800", Status.BAD_REFERENCE, Fault.INVALID_UTF8),
                                               ("\ud800", "", Status.BAD_BASE, Fault.INVALID_UTF8), ("a:", "\ue000", Status.BAD_REFERENCE, Fault.INVALID_PATH)):
            with self.assertRaises(Refused) as refused:
                irikit.canonicalize_to_uri(base, reference)
            self.assertEqual((refused.exception.status, refused.exception.fault), (status, fault))
        with self.assertRaisesRegex(Refused, "PRESERVING"):
            irikit.canonicalize_to_uri("a:", "", PRESERVING)


class Many(unittest.TestCase):
    def test_resolved(self):
        references, wanted = map(list, zip(*RESOLVED))
        self.assertEqual(Links(BASE).canonical_many(references), wanted)
        self.assertEqual(irikit.canonical_many(BASE, iter(references)), wanted)

    def test_rows(self):
        wanted = {}
        for grammar, base, reference, text in rows("rows.txt"):
            wanted.setdefault((grammar, base), []).append((reference, text))
        for (grammar, base), found in wanted.items():
            if not found[0][1].startswith("base"):
                texts = [text[3:] if text.startswith("ok") else None for _, text in found]
                links = Links(base, irikit.Grammar[grammar.upper()])
                self.assertEqual(links.canonical_many([reference for reference, _ in found]), texts, base)

    def test_what_is_no_line(self):
        links = Links("http://a/b")
        self.assertEqual(links.canonical_many([]), [])
        self.assertEqual([links.canonical_many(["c\r", "d"]), links.canonical_many(["c\n", "d"])], [[None, "http://a/d"]] * 2)
        texts = ["c\nd", "c\r", "c", "\r", "\n", "", b"\r\n", "c\r\nd", "\0"]
        self.assertEqual(links.canonical_many(texts), [None, None, "http://a/c", None, None, "http://a/b", None, None, None])
        for at in (0, 4095, 4096, 8999):
            for text in ("\n", "c\r", b"c\r\n", b"c\nc", "%", "\ud800"):
                many, wanted = [["c"] * 9000, ["http://a/c"] * 9000]
                many[at], wanted[at] = text, None
                self.assertEqual(links.canonical_many(many), wanted)

    def test_what_is_not_unicode(self):
        texts = ["c", "\ud800", b"d", "\udcff", b"\xff", "\ud83d\ude00", "e"]
        wanted = ["http://a/c", None, "http://a/d", None, None, None, "http://a/e"]
        for grammar in (URI, IRI):
            self.assertEqual(irikit.canonical_many("http://a/b", texts, grammar), wanted)

    def test_lengths(self):
        links = Links("http://a/b")
        self.assertEqual(links.canonical_many(["d" * 999] * 5000), ["http://a/" + "d" * 999] * 5000)
        for length in (1 << 16, 1 << 19, MEBIBYTE, MEBIBYTE + 1):
            self.assertEqual(links.canonical_many(["d" * length, "%", "e"]), ["http://a/" + "d" * length, None, "http://a/e"])
        texts = ["%" if n % 3 else str(n) for n in range(10000)]
        self.assertEqual(links.canonical_many(texts), [None if n % 3 else f"http://a/{n}" for n in range(10000)])
        self.assertEqual(links.canonical_many(["%"] * 3), [None] * 3)

    def test_lines(self):
        """docs/COMMANDS.md, Input: what a line is."""
        links = Links("http://a/b")
        for lines, wanted in (
            (b"c\r\n\n%\n", b"ok http://a/c\nok http://a/b\nbad invalid path\n"), (b"", b""), (b"\n", b"ok http://a/b\n"),
            (b"c", b"ok http://a/c\n"), (b"c\nd", b"ok http://a/c\nok http://a/d\n"), (b"c\r", b"ok http://a/c\n"), (b"\r", b"ok http://a/b\n"),
            (b"c\r\r", b"bad invalid path\n"), ("c\nd", b"ok http://a/c\nok http://a/d\n"), (b"%", b"bad invalid path\n"),
        ):
            self.assertEqual(links.answers(lines), wanted, lines)
            program = b"http://a/b\n" + (lines.encode() if isinstance(lines, str) else lines)
            self.assertEqual(irikit.run("canon uri", program)[0], wanted, lines)
        self.assertEqual(links.answers(b"//c:80\n//d:81", BY_SCHEME), b"ok http://c/\nok http://d:81/\n")
        self.assertEqual(links.answers(b"e" * MEBIBYTE), b"ok http://a/" + b"e" * MEBIBYTE + b"\n")


class Pairs(unittest.TestCase):
    def test_resolved(self):
        """RFC 3986 section 5.4: the page of the examples on each line, and another page on every second one."""
        lines = "".join(f"{BASE}\t{reference}\nhttp://A/\t//h\n" for reference, _ in RESOLVED)
        self.assertEqual(irikit.pairs(lines).decode(), "".join(f"ok {text}\nok http://h\n" for _, text in RESOLVED))

    def test_rows(self):
        for grammar in ("uri", "iri"):
            found = [row for row in rows("rows.txt") if row[0] == grammar and "\t" not in row[1] and not row[1].endswith("\r")]
            self.assertGreater(len(found), 40)
            lines = "".join(f"{base}\t{reference}\n" for _, base, reference, _ in found)
            self.assertEqual(irikit.pairs(lines, irikit.Grammar[grammar.upper()]).decode(), "".join(text + "\n" for *_, text in found))

    def test_lines(self):
        """docs/COMMANDS.md, `pairs`: what a line is. Each answer is the program's."""
        base = b"base expected an absolute IRI but got a relative IRI\n"
        for lines, wanted in (
            (b"", b""), (b"\n", b"bad line\n"), (b"a:", b"bad line\n"), (b"a:\t", b"ok a:\n"), (b"a:\t\r", b"ok a:\n"),
            (b"\t", base), (b"\tb", base), (b"http://a\tb\tc", b"bad invalid path\n"), (b"http://a\t\t", b"bad invalid path\n"),
            (b"http://a\tb\r\r", b"bad invalid path\n"), (b"http://a\r\tb", b"base invalid host\n"), (b"a:#\tb", b"base unexpected fragment\n"),
            ("\ud800\tb", b"base invalid utf-8 bytes\n"), ("a:\t\udfff", b"bad invalid utf-8 bytes\n"), (b"a:\t\xff", b"bad invalid utf-8 bytes\n"),
            ("\ufeffa:\tb", b"base invalid scheme\n"), ("a:\t\ufeffb", b"bad invalid path\n"), (b"a:\tb\na:\tc", b"ok a:b\nok a:c\n"),
            (b"//a\tb\nhttp://a\tb\nhttp://a\tc\n", base + b"ok http://a/b\nok http://a/c\n"),
        ):
            self.assertEqual(irikit.pairs(lines), wanted, lines)
            program = lines if isinstance(lines, bytes) else lines.encode(errors="surrogatepass")
            self.assertEqual(irikit.run("pairs uri", program)[0], wanted, lines)
        self.assertEqual(irikit.pairs("http://a/\t\ufeff\u00e9", IRI), "ok http://a/\ufeff\u00e9\n".encode())
        self.assertEqual(irikit.pairs("http://a:80\t\n", mode=BY_SCHEME), b"ok http://a/\n")
        with self.assertRaisesRegex(Refused, "PRESERVING"):
            irikit.pairs(b"", mode=PRESERVING)

    def test_lengths(self):
        long = b"http://a/" + b"e" * MEBIBYTE
        self.assertEqual(irikit.pairs(long + b"\t?f"), b"ok " + long + b"?f\n")
        self.assertEqual(irikit.pairs(b"http://a/\t" + b"e" * MEBIBYTE), b"ok " + long + b"\n")
        for count in (1, 2, 999, 100_000):
            self.assertEqual(irikit.pairs(b"\n" * count), b"bad line\n" * count)
            self.assertEqual(irikit.pairs(b"\tb\na:\tb\n" * count).count(b"\nok a:b\n"), count)


if __name__ == "__main__":
    unittest.main()
