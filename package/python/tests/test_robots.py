"""Robots files: by the examples of RFC 9309."""
import random
import unittest

from irikit import BY_SCHEME, IRI, PRESERVING, URI, Fault, Refused, Robots, Status, run

# RFC 9309 section 5.1: groups, their rules, and what they say of links; and 5.2, the longest match.
SIMPLE = """User-Agent: *
Disallow: *.gif$
Disallow: /example/
Allow: /publications/

User-Agent: foobot
Disallow:/
Allow:/example/page.html
Allow:/example/allowed.gif

User-Agent: barbot
User-Agent: bazbot
Disallow: /example/page.html

User-Agent: quxbot
"""
LONGEST = "User-Agent: foobot\nAllow: /example/page/\nDisallow: /example/page/disallowed.gif\n"
ALLOWED = [
    (SIMPLE, "anybot", "/a.gif", False), (SIMPLE, "anybot", "/example/", False), (SIMPLE, "anybot", "/publications/x", True),
    (SIMPLE, "foobot", "/example/page.html", True), (SIMPLE, "foobot", "/other", False), (SIMPLE, "FooBot", "/example/allowed.gif", True),
    (SIMPLE, "barbot", "/example/page.html", False), (SIMPLE, "bazbot", "/example/page.html", False), (SIMPLE, "barbot", "/a.gif", True),
    (SIMPLE, "quxbot", "/example/", True), (LONGEST, "foobot", "http://example.com/example/page/disallowed.gif", False),
    (LONGEST, "foobot", "http://example.com/example/page/", True),
]
RULES = "User-agent: *\nDisallow: /private\n"
MEBIBYTE = 1 << 20


class Rules(unittest.TestCase):
    def test_standard(self):
        for text, token, link, wanted in ALLOWED:
            self.assertIs(Robots(text, token).allows(link), wanted, link)
            self.assertEqual(Robots(text.encode(), token, "http://example.com/").allows_many([link]), [wanted])

    def test_ends_of_lines(self):
        # RFC 9309 section 2.2: EOL is CR, LF or CRLF; and the last line may have none.
        for end in ("\r", "\n", "\r\n"):
            for text in (RULES, RULES.rstrip("\n"), "\ufeff" + RULES):
                self.assertEqual(Robots(text.replace("\n", end), "bot").allows_many(["/private", "/"]), [False, True], (end, text))
        for other in ("\x0b", "\x0c", "\x85", "\u2028", "\x1e"):
            self.assertEqual(Robots("User-agent: *\nDisallow: /a" + other + "Disallow: /\n", "bot").allows_many(["/b"]), [True], other)

    def test_other_sites(self):
        robots = Robots("User-agent: *\nDisallow: /a\n", "bot", "http://a/x")
        self.assertEqual(robots.allows_many(["/a", "//a/b", "http://b/b", "https://a/b", "%4", "a\nb"]), [False, True, None, None, None, None])
        self.assertEqual(Robots(RULES, "bot").allows_many(["mailto:a", "//b/private", "//b/#/private", "", "private"]), [None, False, True, True, False])

    def test_sites_without_authority(self):
        """Each link is judged as by `irikit robots`."""
        for site, links, wanted in (
            ("a:b", ["", "c", "a:", "a:/x", "//h/", "///", "b:b"], [True, True, True, False, None, None, None]),
            ("file:/x", ["", "/y", "file:///x", "file:x"], [False, True, None, True]),
            ("a://", ["", "/x", "//h", "a:/x"], [True, False, None, None]),
        ):
            lines = "\n".join([site, "r user-agent: *", "r disallow: /x", *["u " + link for link in links], ""])
            words = [{b"allow": True, b"disallow": False}.get(line.split(b" ")[0]) for line in run("robots uri bot", lines)[0].splitlines()]
            self.assertEqual([Robots("user-agent: *\ndisallow: /x", "bot", site).allows_many(links), words], [wanted] * 2, site)

    def test_by_scheme(self):
        file, asked = "User-agent: *\nDisallow: /x\n", ["HTTPS://WWW.EXAMPLE.com:443/x", "//www.example.com", "http://www.example.com:443/x"]
        for site in ("https://www.example.com/", "https://www.example.com:443"):
            self.assertEqual(Robots(file, "bot", site, mode=BY_SCHEME).allows_many(asked), [False, True, None])
        self.assertEqual(Robots(file, "bot", "https://www.example.com/").allows_many(asked), [None, True, None])
        for site in (None, "a:"):
            with self.assertRaisesRegex(Refused, "PRESERVING"):
                Robots(file, "bot", site, URI, PRESERVING)

    def test_what_is_no_link(self):
        links = ["/private", "\ud800", "/", "\udcff", b"\xff", "a\nb", "b\r", "\n", "/" + "a" * MEBIBYTE, "%", "\0", "/private"]
        wanted = [False, None, True, None, None, None, None, None, None, None, None, False]
        for grammar in (URI, IRI):
            for site in (None, "http://a/"):
                self.assertEqual(Robots(RULES, "bot", site, grammar).allows_many(links), wanted)
        self.assertEqual(Robots(RULES, "bot").allows_many([]), [])

    def test_line_separators_of_links(self):
        """U+2028 may stand in an IRI, and ends no line."""
        self.assertEqual(Robots(RULES, "bot", None, IRI).allows_many(["/\u2028", "/private", "/\u0085", "/\u2029"]), [True, False, None, True])

    def test_long_links(self):
        longest = "/" + "a" * (MEBIBYTE - 3)
        self.assertEqual(Robots(RULES, "bot", "http://a/").allows_many([longest, longest + "a", "/"]), [True, None, True])
        self.assertEqual(Robots(RULES, "bot").allows_many(["/" + str(n) for n in range(9999)]), [True] * 9999)

    def test_as_the_program(self):
        """What `irikit robots` answers to the lines of a file and to links."""
        rand = random.Random(1)
        pieces = ["a", "/", "*", "$", "%2A", "%24", "%2a", "%", "%41", "\u00e9", "?", "#", " ", "b"]
        keys = ["User-agent: bot", "user-agent:bot/1", "User-agent: *", "User-agent: other", "Allow: /", "disallow: /", "Disallow:/", "allow:", "x", "\ufeffAllow: /"]
        links = ["", "a", "/", "/a", "/%41*", "/a$", "/\u00e9", "?a", "//s/a", "http://t/a", "a:b", "%", "../a/./b?*$"]
        for _ in range(400):
            file = [rand.choice(keys) + "".join(rand.choices(pieces, k=rand.randrange(4))) for _ in range(rand.randrange(12))]
            asked = [rand.choice(links) + "".join(rand.choices(pieces, k=rand.randrange(4))).replace(" ", "") for _ in range(8)]
            for grammar in (URI, IRI):
                lines = ["http://s/x", *["r " + line for line in file], *["u " + link for link in asked], ""]
                words = [line.split(b" ")[0] for line in run(f"robots {grammar.name.lower()} bot", "\n".join(lines))[0].splitlines()]
                robots = Robots(rand.choice(["\n", "\r", "\r\n"]).join(file), "bot", "http://s/x", grammar)
                self.assertEqual(robots.allows_many(asked), [{b"allow": True, b"disallow": False}.get(word) for word in words], (file, asked))

    def test_refused(self):
        for link, fault in (("?%", Fault.INVALID_QUERY), ("\ud800", Fault.INVALID_UTF8), ("a\nb", Fault.INVALID_PATH), ("a" * (MEBIBYTE + 1), None)):
            for site in (None, "http://a/"):
                with self.assertRaises(Refused) as refused:
                    Robots(RULES, "bot", site).allows(link)
                self.assertEqual((refused.exception.status, refused.exception.fault), (Status.BAD_REFERENCE, fault))

    def test_no_file(self):
        for token in ("", "*", "bot/1.0", "a b", "b\u00f6t", "a\n"):
            with self.assertRaisesRegex(ValueError, "no product token"):
                Robots("", token)
        with self.assertRaisesRegex(ValueError, "too long"):
            Robots("#" * MEBIBYTE, "bot")
        with self.assertRaises(Refused):
            Robots("", "bot", "a")


if __name__ == "__main__":
    unittest.main()
