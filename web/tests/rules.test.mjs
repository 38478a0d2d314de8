// By which rule a link is refused, as the RFCs have it, and what its button writes; then what `new URL` makes of links, which is by
// the URL Standard here as in a browser.
import assert from "node:assert/strict";
import { readFileSync } from "node:fs";
import { before, test } from "node:test";
import { browserAnswer } from "../page/browser.mjs";
import { decoded } from "../page/parts.mjs";
import { answer, baseRefusal, choose, load, octetsOf } from "../page/reading.mjs";
import { folder } from "./kit.mjs";

const BASE = "http://example.com/docs/";

before(() => load(readFileSync(`${folder}/irikit.wasm`)));

function told(link, grammar = "uri") {
  choose({ grammar, mode: "normal" });
  const { rule, mend } = answer(BASE, link).refusal;
  return mend === undefined ? [rule] : [rule, mend.label, mend.text];
}

test("rules, and what is written instead", () => {
  const rows = [
    ["a|b", "“|” may not stand in a path (RFC 3986 section 3.3)", "Write %7C", "a%7Cb"],
    ["a b", "A space may not stand in a path (RFC 3986 section 3.3)", "Write %20", "a%20b"],
    ["?a\tb", "A tab may not stand in a query (RFC 3986 section 3.4)", "Write %09", "?a%09b"],
    ["a#b#c", "“#” may not stand in a fragment (RFC 3986 section 3.5)", "Write %23", "a#b%23c"],
    ["//u^@h/", "“^” may not stand in userinfo (RFC 3986 section 3.2.1)", "Write %5E", "//u%5E@h/"],
    ["//a<b/", "“<” may not stand in a host (RFC 3986 section 3.2.2)", "Write %3C", "//a%3Cb/"],
    ["//a@b@c/", "“@” may not stand in a host (RFC 3986 section 3.2.2)", "Write %40", "//a@b%40c/"],
    ["a%4zb", "“%4z” isn’t “%” and two hex digits (RFC 3986 section 2.1)", "Write %25 for “%”", "a%254zb"],
    ["100%", "“%” isn’t “%” and two hex digits (RFC 3986 section 2.1)", "Write %25 for “%”", "100%25"],
    ["1a:b/c", "“:” may not stand in the first segment of a relative path (RFC 3986 section 4.2)", "Write ./ in front", "./1a:b/c"],
    ["//h:8x/", "“x” may not stand in a port, which has digits alone (RFC 3986 section 3.2.3)"],
    ["//u:p@h:8 /", "A space may not stand in a port, which has digits alone (RFC 3986 section 3.2.3)"],
    ["//[::1]:8x/", "“8x” may not stand in a port, which has digits alone (RFC 3986 section 3.2.3)"],
    ["//u@[::1]x/", "“[::1]x” is no IP literal (RFC 3986 section 3.2.2)"],
    ["//[1::2::3]/", "“[1::2::3]” is no IP literal (RFC 3986 section 3.2.2)"],
    ["\ud800", "U+D800 alone is half of a surrogate pair, and no character"],
    ["caf\u00e9", "“\u00e9” may not stand in a path: a URI is ASCII (RFC 3986 section 2); in a path of an IRI it may (RFC 3987 section 2.2)",
      "Write %C3%A9", "caf%C3%A9"],
    ["\ue000", "U+E000 may not stand in a path: a URI is ASCII (RFC 3986 section 2); in a query of an IRI it may (RFC 3987 section 2.2)",
      "Write %EE%80%80", "%EE%80%80"],
    ["\uffff", "U+FFFF may not stand in a path (RFC 3986 section 3.3)", "Write %EF%BF%BF", "%EF%BF%BF"],
  ];
  for (const [link, ...wanted] of rows) assert.deepEqual(told(link), wanted, link);
  assert.deepEqual(told("\ue000", "iri"), ["U+E000 may not stand in a path (RFC 3987 section 2.2)", "Write %EE%80%80", "%EE%80%80"]);
  for (const [link, , , mended] of rows.filter((row) => row.length > 2)) {
    choose({ grammar: "uri", mode: "normal" });
    assert.equal(answer(BASE, mended).refusal, undefined, link);
  }
});

test("rules of a base", () => {
  const rows = {
    "/a": ["A base begins with a scheme (RFC 3986 section 4.3)"],
    "1a:b": ["A scheme begins with a letter (RFC 3986 section 3.1)"],
    ":b": ["No scheme stands before “:” (RFC 3986 section 3.1)"],
    "h ttp://a": ["A space may not stand in a scheme (RFC 3986 section 3.1)"],
    "http://a/#f": ["A base has no fragment (RFC 3986 section 4.3)", "http://a/"],
    "http://a b/": ["A space may not stand in a host (RFC 3986 section 3.2.2)", "http://a%20b/"],
  };
  choose({ grammar: "uri", mode: "normal" });
  for (const [base, wanted] of Object.entries(rows)) {
    const { rule, mend } = baseRefusal(base);
    assert.deepEqual(mend === undefined ? [rule] : [rule, mend.text], wanted, base);
  }
});

// By the URL Standard: the parser, its percent-encode sets (section 1.3), the host parser (3.5), and the serializer (4.5).
test("what a browser makes of a link where that is another text, and why", () => {
  const wanted = {
    "http:g": ["http://example.com/docs/g", "reads a link that has the page’s scheme and no “//” as a relative one"],
    "http:///g": ["http://g/", "takes what follows “http:” for a host, after any slashes"],
    "https:g": ["https://g/", "takes what follows “https:” for a host, after any slashes"],
    "//EX%41mple.com:80": ["http://example.com/", "drops the scheme’s default port and writes “/” for an empty path"],
    "//127.1/": ["http://127.0.0.1/", "reads the host as the numbers of an IPv4 address"],
    "//[0:0:0::1]/": ["http://[::1]/", "writes an IPv6 address in its shortest form"],
    "//u:@h/": ["http://u@h/", "drops an empty user and an empty password"],
    "//@h/": ["http://h/", "drops an empty user and an empty password"],
    "//a;b@h/": ["http://a%3Bb@h/", "writes %3B for “;” in userinfo"],
    "//h:080/": ["http://h/", "reads the port as a number"],
    "//h:99999/": [null, "has no ports above 65,535"],
    "//1.2.3.4.5/": [null, "reads a host whose last label is a number as an IPv4 address, and this is none"],
    "//=:@h/": ["http://%3D@h/", "drops an empty password and writes %3D for “=” in userinfo"],
    "file:/%7e": ["file:///%7e", "has rules of its own for “file:” and leaves percent-encoded octets as the link has them"],
    "file:///%7e": ["file:///%7e", "leaves percent-encoded octets as the link has them"],
    "file://localhost/": ["file:///", "has rules of its own for “file:”"],
    "|/../b": ["http://example.com/docs/b", "takes it, in a segment that “..” removes"],
    "foo://:8/": [null, "wants a host beside userinfo and a port"],
    "file://h:8/": [null, "has no ports for “file:”"],
    "//xn--a/": [null, "refuses this host, whose “xn--” is no Punycode"],
    "//a%2Fb/": [null, "refuses this host, whose octets it decodes"],
    "//[v1.a]/": [null, "knows no IP literals but IPv6 addresses"],
    "https://": [null, "wants a host after “https:”"],
    "%7e/%c3%a9": ["http://example.com/docs/%7e/%c3%a9", "leaves percent-encoded octets as the link has them"],
    "?it's": ["http://example.com/docs/?it%27s", "writes %27 for “'” in a query"],
    "//%C3%A9/": ["http://xn--9ca/", "writes a host past ASCII in Punycode"],
    "foo://EXAMPLE/": ["foo://EXAMPLE/", "leaves the host of a scheme that it doesn’t know as it is"],
    "foo:a/../b": ["foo:a/../b", "removes no dot segments from a path without a slash in front"],
    "file:/a": ["file:///a", "has rules of its own for “file:”"],
    "\\a": ["http://example.com/a", "reads “\\” as “/”"],
    " a": ["http://example.com/docs/a", "drops spaces and control characters around a link"],
    "a  ": ["http://example.com/docs/a", "drops spaces and control characters around a link"],
    "a\tb": ["http://example.com/docs/ab", "drops tabs and line ends"],
    "a|b": ["http://example.com/docs/a|b", "lets “|” stand there"],
    "a b": ["http://example.com/docs/a%20b", "writes %20 for what may not stand there"],
    "caf\u00e9": ["http://example.com/docs/caf%C3%A9", "writes %C3%A9 for what may not stand there"],
    "//\u00e9/": ["http://xn--9ca/", "writes a host past ASCII in Punycode"],
    "100%": ["http://example.com/docs/100%", "lets a “%” stand that begins no percent-encoded octet"],
    "1a:b": ["http://example.com/docs/1a:b", "lets “:” stand there"],
    "a#b#c": ["http://example.com/docs/a#b#c", "lets “#” stand there"],
    "//a@b@c/": ["http://a%40b@c/", "takes all before the last “@” for userinfo, and encodes what may not stand there"],
    "//us^er@h/": ["http://us%5Eer@h/", "writes %5E for what may not stand there"],
    "a\ud800": ["http://example.com/docs/a%EF%BF%BD", "takes U+FFFD for half of a surrogate pair"],
  };
  choose({ grammar: "uri", mode: "normal" });
  for (const [link, [href, why]] of Object.entries(wanted)) {
    assert.deepEqual(browserAnswer(BASE, answer(BASE, link), octetsOf), { href, why: `It ${why}.` }, link);
  }
  for (const link of ["", "../a", "//h/?q#f", "//[1::2::3]/", "//h:8x/", "foo:a", "a:/b/../c"]) {
    assert.equal(browserAnswer(BASE, answer(BASE, link), octetsOf), null, link);
  }
  const opaque = browserAnswer("mailto:a", answer("mailto:a", "b"), octetsOf);
  assert.deepEqual(opaque, {
    href: null, why: "It resolves nothing but a fragment against an address whose path has no slash in front." });
  choose({ grammar: "iri", mode: "scheme" });
  const { why } = browserAnswer(BASE, answer(BASE, "\u00e9"), octetsOf);
  assert.equal(why, "It writes percent-encoded octets for characters past ASCII.");
  assert.equal(browserAnswer(BASE, answer(BASE, "//h:80"), octetsOf), null);
});

test("what the octets of a part decode to", () => {
  const wanted = { "a%20b": "a b", "%EF%BB%BFa": "\ufeffa", "%C3%A9%2F": "\u00e9/", "%ff%41": "not UTF-8: FF 41", ab: "", "%4": "" };
  for (const [part, text] of Object.entries(wanted)) assert.equal(decoded(part), text);
});
