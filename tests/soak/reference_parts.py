"""Parts from which tests/compared/compare, tests/soak/soak and tests/fuzz/fuzz put references together: most are right, some nearly right."""
import re

BASES = ["http://a/b/c/d;p?q", "http://a", "http://a?q", "HTTP://U:P@Ex%41mple.COM:80/1/./2/%2E%2e/3/..", "http://a/b/..", "foo:a/../b",
         "foo:", "foo:/", "foo:/.//a", "foo:///a/b", "foo://h//a//b/", "urn:isbn:1/../2", "mailto:a@b", "a.b+c-d1:x/y?z", "http://[::1]:0/a/",
         "http://1.2.3.4:/%7e/%7Ea/", "file:///etc/x", "http://a/b/c/.", "http://h/%ce%b1/b", "http://%c3%89x/a?%7e", "http://a/b%2F../c",
         "http://a:", "http://:@:/", "http://a/?", "http://a//", "x:/..//a", "x:a/b/c/d/e/f/g/h/i/j/k/l/m?n/../o"]
IRI_BASES = ["http://éx.example/α/β", "http://a/\ue000?\ue000", "x:é/../à", "http://日本/東京/?検索"]
SCHEMES = ["", "", "", "a:", "http:", "HTTP:", "A+1-.:", "1a:", ":", "a%41:", "é:"]
AUTHORITIES = ["", "", "", "//", "//h", "//H.Example:80", "//u@h", "//u:p@h", "//u:p:q@h:", "//@h", "//:@:", "//a@b@c", "//%41b", "//%C3%89%2e",
               "//é", "//É.example", "//1.2.3.4", "//1.2.3.256", "//01.2.3.4", "//h:a", "//h:080", "//[::]", "//[1::2::3]", "//[1:2:3:4:5:6:7:8]",
               "//[1:2:3:4:5:6:7::]", "//[::1.2.3.4]", "//[::FFFF:1.2.3.4]", "//[1.2.3.4::]", "//[v1.a:b]", "//[v.a]", "//[vG.a]", "//[V1F.!$]:8",
               "//[::1]x", "//[::1", "//h[1]", "//[%31::]", "//u[@h", "//\ue000", "//h\u00a0", "//%ff", "//%fF%fE", "//h%", "//h%4"]
SEGMENTS = ["", "", ".", "..", "..", "%2e", "%2E%2e", ".%2E", "a", "b", "c:d", ":", "@", "%7e", "%7E", "%41", "%c3%a9", "%C3", "%e2%82", "%ce%b1%b1",
            "é", "日本", "\ue000", "\U000e0001", "\ufffe", "%f0%9f%98%80", "%ed%a0%80", "%f5%80", "%c0%af", "a b", "<", "[", "]", "|", "%", "%4", "%zz", "*;=,!$&'()"]
TAILS = ["", "", "", "?", "#", "?q", "#f", "?a=%7e&b=%c3%a9", "?/?:@", "??", "##", "?#", "#?", "?\ue000", "#\ue000", "?é", "#é%2f", "?%", "#%4g", "?[", "#<"]
LETTERS = list(":/?#[]@!$&'()*+,;=%.-_~ab019AZ ") + ["%2e", "%41", "..", "//", "é", "α", "\ue000", "%c3%a9", "\\", "^", "\t", "\x00", "\x7f"]
# Schemes that are right, with those that have rules; and authorities that scheme rules change.
FIT_SCHEMES = [scheme for scheme in SCHEMES if re.fullmatch("[A-Za-z][A-Za-z0-9+.-]*:", scheme)]
FIT_SCHEMES += ["https:", "ws:", "Wss:", "ftp:", "x:", "urn:"]
RULED_AUTHORITIES = ["//h:80", "//h:443", "//h:21", "//h:", "//u@[::1]:80"]


def header():
    """The lists as arrays of C."""
    def literal(text):
        octets = text.encode()
        return '{(const uint8_t *)"%s", %d}' % ("".join(f"\\{octet:03o}" for octet in octets), len(octets))

    lists = {"BASES": BASES, "IRI_BASES": IRI_BASES, "SCHEMES": SCHEMES, "FIT_SCHEMES": FIT_SCHEMES, "SEGMENTS": SEGMENTS, "TAILS": TAILS,
             "LETTERS": LETTERS, "AUTHORITIES": AUTHORITIES + RULED_AUTHORITIES}
    rows = [f"{name}[] __attribute__((unused)) = {{{', '.join(map(literal, given))}}};\n" for name, given in lists.items()]
    return "".join("static const struct text " + row for row in rows)
