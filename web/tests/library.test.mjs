// The module: rows of the standards, refusals, parts, templates, long texts, bases that change between calls, and the header's
// calls and numbers.
import assert from "node:assert/strict";
import { readFileSync } from "node:fs";
import { test } from "node:test";
import { folder, kit, library, rows } from "./kit.mjs";

const { open, Refused } = library;
const textOf = (name) => readFileSync(new URL(`../../${name}`, import.meta.url), "utf8");

// The answer of `irikit canon`.
function answer(base, reference, grammar) {
  try {
    return `ok ${kit.canonical(base, reference, grammar)}`;
  } catch (error) {
    if (!(error instanceof Refused)) throw error;
    return `${error.whose === "base" ? "base" : "bad"} ${error.message}`;
  }
}

function refusal(call) {
  try {
    return call();
  } catch (error) {
    return [error.whose, error.fault, error.message, ...(error.place === null ? [] : [error.place])];
  }
}

// The names of an enumeration of the header, as the module has them, and their numbers.
function enumeration(header, name) {
  const [, inside] = new RegExp(`^enum irikit_${name} \\{([^}]*)\\}`, "m").exec(header);
  return [...inside.matchAll(/^ *IRIKIT_(\w+) = (\d+)/gm)].map(([, one, number]) => [
    one.toLowerCase().replaceAll("_", "-").replace(/^(in|by|template)-/, ""), Number(number)]);
}

test("each call of the header but those that take memory, and its numbers", () => {
  const header = textOf("include/irikit.h"), code = textOf("web/irikit.mjs");
  const calls = [...header.matchAll(/^uint\d+_t (irikit_\w+)\(/gm)].map(([, name]) => name).filter((name) => !/^irikit_(run|robots_\w+)$/.test(name));
  assert.ok(calls.length > 20);
  for (const name of calls) assert.match(code, new RegExp(`\\.${name}\\b`));
  const tables = {
    grammar: "GRAMMARS", mode: "MODES", kind: "KINDS", place: "PLACES", fault: "FAULTS", value: "VALUES",
    template_fault: "TEMPLATE_FAULTS", part: "GIVEN",
  };
  for (const [name, table] of Object.entries(tables)) {
    const [, first, names] = new RegExp(`\\b${table} = new Names\\("[a-z ]+", (\\d+),([^)]*)\\)`).exec(code);
    const words = names.match(/"[^"]*"/g).map((piece) => JSON.parse(piece)).join("").split(" ");
    assert.deepEqual(words.map((word, i) => [word, Number(first) + i]), enumeration(header, name));
  }
  // What no call of the module answers: a number that it doesn't pass, and the statuses of the calls that take memory.
  const never = ["unknown", "memory", "bad-token", "disallowed"];
  for (const [name, number] of enumeration(header, "status").filter(([status]) => !never.includes(status))) {
    assert.match(code, new RegExp(`\\b${name.toUpperCase().replaceAll("-", "_")} = ${number}\\b`));
  }
  const [, version] = /^#define IRIKIT_VERSION (\d+)/m.exec(header);
  assert.match(code, new RegExp(`^const VERSION = ${version};`, "m"));
});

test("the rows of examples/rows.txt", () => {
  const all = rows("rows.txt");
  assert.ok(all.length > 100);
  for (const [grammar, base, reference, wanted] of all) assert.equal(answer(base, reference, grammar), wanted);
});

test("the same as bytes, and from the 64-bit module where this Node runs it", async () => {
  const bytes = (text) => new TextEncoder().encode(text);
  const kits = [kit], with64 = readFileSync(`${folder}/irikit64.wasm`);
  if (WebAssembly.validate(with64)) kits.push(await open(with64));
  for (const [grammar, base, reference, wanted] of rows("rows.txt").filter((row) => row[3].startsWith("ok "))) {
    for (const one of kits) assert.equal(`ok ${one.canonical(bytes(base), bytes(reference), grammar)}`, wanted);
  }
});

test("refusals name the text, its first fault and the words for it", () => {
  const relative = ["unexpected-relative", "expected an absolute IRI but got a relative IRI"];
  assert.deepEqual(refusal(() => kit.canonical("", "")), ["base", ...relative]);
  assert.deepEqual(refusal(() => kit.canonical("http://a/#f", "%")), ["base", "unexpected-fragment", "unexpected fragment"]);
  assert.deepEqual(refusal(() => kit.canonical("http://a/", "//[1::2::3]/")), ["reference", "invalid-host", "invalid host"]);
  const byte = Uint8Array.of(0xff);
  assert.deepEqual(refusal(() => kit.canonical("http://a/", byte)), ["reference", "invalid-utf8", "invalid utf-8 bytes"]);
  assert.deepEqual(refusal(() => kit.isNormalized("a")), ["text", ...relative]);
  assert.deepEqual(refusal(() => kit.split("?%")), ["text", "invalid-query", "invalid query"]);
  assert.deepEqual(refusal(() => kit.mapToUri("##")), ["text", "invalid-fragment", "invalid fragment"]);
});

test("kinds of texts", () => {
  const kinds = ["reference", "with-scheme", "absolute", "relative"];
  assert.deepEqual(kinds.map((kind) => kit.validate("http://a/#f", kind)), [null, null, "unexpected-fragment", "invalid-path"]);
  assert.deepEqual(kinds.map((kind) => kit.validate("/a", kind)), [null, "unexpected-relative", "unexpected-relative", null]);
  assert.deepEqual(kinds.map((kind) => kit.validate("x:\u00e9", kind, "iri")), [null, null, null, "invalid-path"]);
  assert.equal(kit.validate("x:\u00e9", "reference", "uri"), "invalid-path");
  assert.deepEqual(kit.faultPart("\u00e9://a b/", "invalid-path"), { place: 0, part: "\u00e9://a b/" });
  assert.deepEqual(kit.faultPart("//\u00e9/\u00e9 b?", "invalid-path"), { place: 4, part: "/\u00e9 b" });
  assert.deepEqual(kit.faultPart("//u@[::1:8/", "invalid-host"), { place: 4, part: "[::1" });
  assert.deepEqual(kit.faultPart("g:h", "invalid-path", "relative"), { place: 0, part: "g:h" });
  assert.equal(kit.faultPart("//u@h:8/", "invalid-query"), null);
});

test("parts", () => {
  const authority = { authority: "u@h:8", userinfo: "u", host: "h", port: "8" };
  assert.deepEqual(kit.split("foo://u@h:8/p?#f"), { scheme: "foo", ...authority, path: "/p", query: "", fragment: "f" });
  assert.deepEqual(kit.split(""), { path: "" });
  const wide = { authority: "\u00e9\u{1f600}:", host: "\u00e9\u{1f600}", port: "", path: "/\u65e5", query: "\u03b1" };
  assert.deepEqual(kit.split("//\u00e9\u{1f600}:/\u65e5?\u03b1", "iri"), wide);
});

test("normal forms and the mapping to URIs", () => {
  assert.equal(kit.isNormalized("http://a/%2F"), true);
  assert.equal(kit.isNormalized("http://a/%2f"), false);
  assert.equal(kit.isNormalized("http://a/%C3%A9", "uri"), true);
  assert.equal(kit.isNormalized("http://a/%C3%A9", "iri", "normal"), false);
  assert.equal(kit.isNormalized("http://a:80/", "uri", "scheme"), false);
  assert.deepEqual(["preserving", "normal"].map((mode) => kit.isNormalized("a:b/../c", "uri", mode)), [true, false]);
  assert.equal(kit.mapToUri("http://a/\u00e9%41"), "http://a/%C3%A9%41");
});

// RFC 3986 section 5.4, and the texts of it before dot segments are removed.
test("references resolved, and targets", () => {
  const wanted = {
    "g:h": "g:h", g: "http://a/b/c/g", "../g": "http://a/b/g", "../../../g": "http://a/g", "?y": "http://a/b/c/d;p?y",
    "%7e": "http://a/b/c/%7e",
  };
  for (const [reference, text] of Object.entries(wanted)) assert.equal(kit.resolve("http://a/b/c/d;p?q", reference), text);
  assert.deepEqual(refusal(() => kit.resolve("http://a/", "1a:b")), ["reference", "invalid-path", "invalid path"]);
  const targets = { "../../g": "http://a/b/c/../../g", "./g": "http://a/b/c/./g", "": "http://a/b/c/d;p?q", "//g?#": "http://g?#" };
  for (const [reference, text] of Object.entries(targets)) assert.equal(kit.target("http://a/b/c/d;p?q", reference), text);
  assert.deepEqual(refusal(() => kit.target("a", "%")).slice(0, 2), ["base", "unexpected-relative"]);
});

// The example of RFC 3986 section 6.2.2.
test("normal forms of texts, and the steps to them", () => {
  assert.equal(kit.normalize("HTTP://a:/%7e/../b"), "http://a/b");
  assert.equal(kit.normalize("HTTP://a:80", "uri", "scheme"), "http://a/");
  assert.equal(kit.normalize("a:b/../C%7e", "uri", "preserving"), "a:b/../C~");
  assert.deepEqual(kit.steps("exAmple://a/./b/../b/%63/%7bfoo%7d"), [
    "scheme letter 2", "decode path 10", "hex digit path 14", "hex digit path 20", "dot segments"]);
  assert.deepEqual(kit.steps("http://h:80", "uri", "scheme"), ["default port", "empty path"]);
  assert.deepEqual(kit.steps("http://h:80"), []);
  const many = kit.steps(`http://h/${"%7e".repeat(50000)}`);
  assert.deepEqual([many.length, many[0], many.at(-1)], [50000, "decode path 1", "decode path 50000"]);
});

test("encoding, decoding and edits", () => {
  assert.equal(kit.encode("50% off/a", "segment"), "50%25%20off%2Fa");
  assert.equal(kit.encode("\u00e9/?", "path"), "%C3%A9/%3F");
  assert.equal(kit.encode("\u00e9/?", "query", "iri"), "\u00e9/?");
  assert.equal(kit.encode("a/b", "anywhere"), "a%2Fb");
  assert.deepEqual([...kit.decode("%ff%4x%41")], [255, 37, 52, 120, 65]);
  assert.equal(kit.maskPassword("http://u:pw@h/"), "http://u:@h/");
  assert.equal(kit.removePassword("http://u:pw@h/"), "http://u@h/");
  assert.equal(kit.replacePassword("http://u:pw@h/", "***"), "http://u:***@h/");
  assert.equal(kit.replaceHost("http://a:80/", "[::1]"), "http://[::1]:80/");
  assert.equal(kit.replaceRegName("//a/", "b"), "//b/");
  assert.deepEqual(refusal(() => kit.replaceRegName("//192.0.2.16/", "b")), ["text", null, "no host to replace"]);
  assert.deepEqual(refusal(() => kit.replaceHost("//a/", "a/")), ["part", "invalid-host", "invalid host"]);
  assert.equal(kit.removeFragment("a?b#c"), "a?b");
  assert.equal(kit.setFragment("a?b#c", "d"), "a?b#d");
  assert.deepEqual(refusal(() => kit.setFragment("a", "#")), ["part", "invalid-fragment", "invalid fragment"]);
});

// RFC 3986 section 5.3.
test("texts built from parts", () => {
  assert.equal(kit.build({ path: "/b", host: "a", scheme: "http", port: "", query: null }), "http://a:/b");
  assert.equal(kit.build({}), "");
  const texts = ["foo://u@h:8/p?#f", "//@:/", "urn:a", "a?b#c", "http://[::1]/"];
  for (const text of texts) assert.equal(kit.build(kit.split(text)), text);
  assert.equal(kit.build({ ...kit.split("http://u@a:8/b"), host: "\u00e9" }, "with-scheme", "iri"), "http://u@\u00e9:8/b");
  assert.deepEqual(refusal(() => kit.build({ path: "//a" })), ["part", "invalid-path", "invalid path"]);
  const withFragment = { scheme: "a", fragment: "" };
  assert.deepEqual(refusal(() => kit.build(withFragment, "absolute")), ["part", "unexpected-fragment", "unexpected fragment"]);
  const words = '"hots" is no part, which is one of scheme, userinfo, host, port, path, query, fragment';
  assert.throws(() => kit.build({ hots: "a" }), TypeError(words));
});

// Every example of RFC 6570, with its variables as `irikit expand` reads them.
test("templates", () => {
  const values = new Map([["empty_keys", {}]]), wanted = rows("expansions.txt");
  for (const line of textOf("examples/templates.txt").trimEnd().split("\n").slice(1)) {
    const [kind, name] = line.split(" "), value = line.slice(kind.length + name.length + 2), [key] = value.split(" ");
    if (kind === "s") values.set(name, value);
    else if (kind === "l") values.set(name, [...(values.get(name) ?? []), value]);
    else if (kind === "a") values.set(name, new Map(values.get(name)).set(key, value.slice(key.length + 1)));
  }
  assert.ok(wanted.length > 100);
  for (const [template, expansion = ""] of wanted) {
    for (const grammar of ["uri", "iri"]) assert.equal(kit.expand(template, values, grammar), expansion, template);
  }
});

test("values of variables, names and refusals of templates", () => {
  assert.equal(kit.expand("/s{?q,n*,page}{&o*}", { q: "two words", n: ["a", 2, null], page: 2, o: { k: "v", l: undefined }, p: {} }),
    "/s?q=two%20words&n=a&n=2&page=2&k=v");
  assert.equal(kit.expand("{a}{b}", new Map([["a", new Uint8Array([0xc3, 0xa9])], ["b", new Map([["k", 1]])]])), "%C3%A9k,1");
  assert.equal(kit.expand("{v}", { v: "\u00e9" }, "iri"), "\u00e9");
  assert.equal(kit.expand("{+v}", { v: "%".repeat(300000) }), "%25".repeat(300000));
  assert.equal(kit.expand("a"), "a");
  assert.deepEqual(kit.templateVariables("http://example.com/~{username}/{term:1}/{term}{?q*,lang}"), [
    "username", "term", "term", "q", "lang"]);
  assert.deepEqual(kit.templateVariables("a"), []);
  assert.deepEqual(refusal(() => kit.templateVariables("ab{")), ["template", "expression-not-closed", "expression not closed", 2]);
  assert.deepEqual(refusal(() => kit.expand("\u00e9{=v}")), ["template", "unsupported-operator", "unsupported operator", 3]);
  assert.deepEqual(refusal(() => kit.expand("{v:3}", { v: ["a"] })), [
    "template", "unexpected-value-type", "unexpected value type for the variable", 1]);
  const bad = { u: "a", v: Uint8Array.of(0xff) };
  assert.deepEqual(refusal(() => kit.expand("{", bad)), ["variable", null, "a text that isn't UTF-8", 1]);
});

test("what is no text", () => {
  for (const text of [undefined, null, 7, {}, ["a"]]) {
    for (const call of [kit.split, kit.decode, kit.mapToUri, kit.pairs]) assert.throws(() => call.call(kit, text), TypeError);
    assert.throws(() => kit.canonical(text, "a"), TypeError);
    assert.throws(() => kit.canonical("http://a/", text), TypeError);
  }
});

test("many lines in one call", () => {
  const all = rows("rows.txt").filter((row) => row[1] === "http://a/b/c/d;p?q" && row[0] === "uri");
  const lines = all.map((row) => `${row[2]}\n`).join(""), answers = all.map((row) => `${row[3]}\n`).join("");
  assert.ok(all.length > 30);
  assert.equal(kit.canonicalLines("http://a/b/c/d;p?q", lines), answers);
  assert.equal(kit.canonicalLines("http://a/b/c/d;p?q", lines.repeat(2000)), answers.repeat(2000));
  assert.equal(kit.canonicalLines("http://a/", "b\r\nc"), "ok http://a/b\nok http://a/c\n");
  const ends = { "": "", "\n": "ok http://a/\n", b: "ok http://a/b\n", "b\r": "ok http://a/b\n", "\r": "ok http://a/\n" };
  for (const [text, wanted] of Object.entries(ends)) {
    assert.equal(kit.canonicalLines("http://a/", text), wanted);
    assert.equal(kit.canonicalLines("http://a/", Buffer.from(text)), wanted);
  }
  assert.deepEqual(refusal(() => kit.canonicalLines("http://a/#f", "b\n")), ["base", "unexpected-fragment", "unexpected fragment"]);
  const base = `http://h/${"a/".repeat(5000)}`;
  assert.equal(kit.canonicalLines(base, "b\n".repeat(100)), `ok ${base}b\n`.repeat(100));
});

test("canonical texts of IRIs as URIs", () => {
  // RFC 3987 section 3.1, and octets that were sent as octets.
  assert.equal(kit.canonicalizeToUri("http://a/", "http://r\u00e9sum\u00e9.example.org"), "http://r%C3%A9sum%C3%A9.example.org");
  assert.equal(kit.canonicalizeToUri("http://www.example.org/", "red%09ros\u00e9#red"), "http://www.example.org/red%09ros%C3%A9#red");
  assert.equal(kit.canonicalizeToUri("http://\u00e9:80", "", "scheme"), "http://%C3%A9/");
  const long = "\u00e9".repeat(1e5);
  assert.equal(kit.canonicalizeToUri("a:/", long), `a:/${"%C3%A9".repeat(1e5)}`);
  assert.deepEqual(refusal(() => kit.canonicalizeToUri("a", "%")).slice(0, 2), ["base", "unexpected-relative"]);
  assert.deepEqual(refusal(() => kit.canonicalizeToUri("a:", "\ud800")).slice(0, 2), ["reference", "invalid-utf8"]);
});

test("many pages and links in one call", () => {
  for (const grammar of ["uri", "iri"]) {
    const all = rows("rows.txt").filter((row) => row[0] === grammar && !row[1].includes("\t") && !row[1].endsWith("\r"));
    const lines = all.map((row) => `${row[1]}\t${row[2]}\n`).join(""), answers = all.map((row) => `${row[3]}\n`).join("");
    assert.ok(all.length > 40);
    assert.equal(kit.pairs(lines, grammar), answers);
    assert.equal(kit.pairs(lines.repeat(500), grammar), answers.repeat(500));
  }
  const ends = { "": "", "\n": "bad line\n", "a:": "bad line\n", "a:\t": "ok a:\n", "a:\t\r": "ok a:\n", "a:\tb\tc": "bad invalid path\n" };
  for (const [text, wanted] of Object.entries(ends)) {
    assert.equal(kit.pairs(text), wanted);
    assert.equal(kit.pairs(Buffer.from(text)), wanted);
  }
  assert.equal(kit.pairs("//a\tb\nhttp://a:80\t\n", "uri", "scheme"), "base expected an absolute IRI but got a relative IRI\nok http://a/\n");
  assert.equal(kit.pairs("\n".repeat(1e5)), "bad line\n".repeat(1e5));
  assert.equal(kit.pairs("\t\n".repeat(1e4)), "base expected an absolute IRI but got a relative IRI\n".repeat(1e4));
  // A base that was kept before stays that of the calls that take one.
  assert.equal(kit.canonical("http://a/", "g"), "http://a/g");
  kit.pairs(`http://h/\t${"a".repeat(1e5)}`);
  assert.equal(kit.canonical("http://a/", "g"), "http://a/g");
});

test("a base stays between calls, and another takes its place", () => {
  const base = new Uint8Array(new TextEncoder().encode("http://a/"));
  assert.equal(kit.canonical("http://a/", "g"), "http://a/g");
  assert.equal(kit.split("//h/").host, "h");
  assert.equal(kit.canonical("http://a/", "g"), "http://a/g");
  assert.equal(kit.canonical("http://longer/x/", "g"), "http://longer/x/g");
  assert.equal(kit.canonical(base, "g"), "http://a/g");
  base[7] = 98;
  assert.equal(kit.canonical(base, "g"), "http://b/g");
  assert.equal(kit.canonical("http://a/", "g"), "http://a/g");
});

test("long texts, for which the memory grows", () => {
  const long = "a/".repeat(1 << 20), wide = "\u65e5".repeat(1 << 18);
  assert.equal(kit.canonical("http://h/", `${long}..`), `http://h/${long.slice(0, -2)}`);
  assert.equal(kit.canonical(`http://h/${long}`, "../g"), `http://h/${long.slice(0, -2)}g`);
  assert.equal(kit.canonical("http://h/", wide, "iri"), `http://h/${wide}`);
  assert.equal(kit.mapToUri(wide), "%E6%97%A5".repeat(1 << 18));
  assert.equal(kit.split(`?${long}`).query, long);
});
