// How texts cross: each code point stays, at the start, in the middle and at the end of each part, U+FEFF and U+0000 among them;
// lone surrogates are refused, and so are names and values of the wrong type.
import assert from "node:assert/strict";
import { test } from "node:test";
import { runInNewContext } from "node:vm";
import { kit, library } from "./kit.mjs";

const { Refused } = library;
const fault = (call) => {
  try {
    return call();
  } catch (error) {
    if (!(error instanceof Refused)) throw error;
    return [error.whose, error.fault];
  }
};

test("U+FEFF stays at the start of each text and part", () => {
  const mark = "\ufeff", parts = { userinfo: `${mark}u:p`, host: `${mark}h`, port: "8", path: `/${mark}p`, fragment: `${mark}f` };
  const text = `//${mark}u:p@${mark}h:8/${mark}p#${mark}f`;
  assert.equal(kit.build(parts, "reference", "iri"), text);
  assert.deepEqual(kit.split(text, "iri"), { ...parts, authority: `${mark}u:p@${mark}h:8` });
  assert.deepEqual(kit.split(mark, "iri"), { path: mark });
  assert.equal(kit.setFragment(mark, "f", "iri"), `${mark}#f`);
  assert.equal(kit.removeFragment(`${mark}#f`, "iri"), mark);
  assert.equal(kit.maskPassword(mark, "iri"), mark);
  assert.equal(kit.removePassword(mark, "iri"), mark);
  assert.equal(kit.replacePassword(mark, "x", "iri"), mark);
  assert.equal(kit.encode(mark, "path", "iri"), mark);
  assert.equal(kit.encode(mark, "path"), "%EF%BB%BF");
  assert.equal(kit.expand("{v}{w}", { v: mark, w: mark }, "iri"), mark + mark);
  assert.deepEqual(kit.templateVariables("{a}"), ["a"]);
  assert.deepEqual(kit.faultPart(`${mark} `, "invalid-path"), { place: 0, part: `${mark} ` });
  assert.deepEqual([...kit.decode(mark)], [0xef, 0xbb, 0xbf]);
  assert.equal(kit.canonicalLines("a:/", `${mark}\n`, "iri"), `ok a:/${mark}\n`);
  assert.equal(kit.pairs(`a:/\t${mark}`, "iri"), `ok a:/${mark}\n`);
});

// RFC 3987 section 2.2: `ucschar`, the characters past ASCII of IRIs, and `iprivate`, those which a query alone may have.
const isUcschar = (code) => (code >= 0xa0 && code <= 0xd7ff) || (code >= 0xf900 && code <= 0xfdcf) ||
  (code >= 0xfdf0 && code <= 0xffef) ||
  (code >= 0x10000 && code <= 0xefffd && (code & 0xffff) <= 0xfffd && !(code >= 0xe0000 && code < 0xe1000));
const isPrivate = (code) => (code >= 0xe000 && code <= 0xf8ff) || (code >= 0xf0000 && (code & 0xffff) <= 0xfffd);

test("each code point past ASCII, at the start, in the middle and at the end of a part", () => {
  let taken = 0;
  for (let code = 0x80; code <= 0x10ffff; code += code < 0x3000 || code > 0xd000 && code < 0x10100 ? 1 : 257) {
    const c = String.fromCodePoint(code), isLone = code >= 0xd800 && code <= 0xdfff;
    const parts = { host: "h", path: `/${c}a${c}b${c}`, query: `${c}q${c}`, fragment: `${c}f${c}` };
    const query = isPrivate(code) ? { host: "h", path: "/", query: parts.query } : undefined;
    for (const given of [parts, query].filter((one) => one !== undefined)) {
      const wanted = `//h${given.path}?${given.query}${given.fragment === undefined ? "" : `#${given.fragment}`}`;
      const isGood = isUcschar(code) || given === query;
      const built = fault(() => kit.build(given, "reference", "iri"));
      assert.deepEqual(built, isGood ? wanted : ["part", isLone ? "invalid-utf8" : "invalid-path"], code.toString(16));
      if (isGood) assert.deepEqual(kit.split(built, "iri"), { authority: "h", ...given });
      taken += isGood;
    }
    if (isLone) continue;
    assert.equal(kit.encode(`${c}a${c}`, "path"), encodeURIComponent(`${c}a${c}`));
    assert.equal(new TextDecoder("utf-8", { ignoreBOM: true }).decode(kit.decode(encodeURIComponent(c))), c);
  }
  assert.ok(taken > 20000);
});

test("U+0000 is a character like others", () => {
  assert.equal(kit.encode("a\0b", "path"), "a%00b");
  assert.equal(kit.expand("{a\0}{v}".replace("\0", ""), { a: "\0", v: "x\0" }), "%00x%00");
  assert.deepEqual(fault(() => kit.split("a\0b")), ["text", "invalid-path"]);
  assert.deepEqual([...kit.decode("\0%00")], [0, 0]);
});

test("a string with a lone surrogate is refused", () => {
  for (const lone of ["\ud800", "\udfff", "a\udc00\ud800b", "\u{1f600}\ud83d", "\ude00\u{1f600}"]) {
    for (const grammar of ["uri", "iri"]) {
      const one = (call) => fault(() => call(lone, grammar));
      assert.deepEqual(one((text) => kit.canonical("a:", text, grammar)), ["reference", "invalid-utf8"]);
      assert.deepEqual(one((text) => kit.canonical(text, "a", grammar)), ["base", "invalid-utf8"]);
      for (const call of ["maskPassword", "removePassword", "removeFragment", "split", "normalize", "steps", "isNormalized"]) {
        assert.deepEqual(one((text) => kit[call](text, grammar)), ["text", "invalid-utf8"], call);
      }
      for (const call of ["replacePassword", "setFragment"]) {
        assert.deepEqual(one((text) => kit[call]("//u:p@h", text, grammar)), ["part", "invalid-utf8"], call);
      }
      assert.deepEqual(one((text) => kit.encode(text, "path", grammar)), ["text", "invalid-utf8"]);
      assert.deepEqual(one((text) => kit.expand("{v}", { v: text }, grammar)), ["variable", null]);
      assert.deepEqual(one((text) => kit.expand("{v}", { v: ["a", text] }, grammar)), ["variable", null]);
      assert.deepEqual(one((text) => kit.expand("{v}", { v: { [text]: "a" } }, grammar)), ["variable", null]);
      // A name that is no UTF-8 is that of no variable.
      assert.equal(kit.expand("{v}", { [lone]: "a" }, grammar), "");
      assert.deepEqual(one((text) => kit.expand(text, {}, grammar)), ["template", "invalid-utf8"]);
      assert.equal(one((text) => kit.validate(text, "reference", grammar)), "invalid-utf8");
      const lines = kit.canonicalLines("a:/", `b\n${lone}\nc`, grammar);
      assert.equal(lines, "ok a:/b\nbad invalid utf-8 bytes\nok a:/c\n");
      assert.equal(kit.pairs(`a:/\t${lone}\n${lone}\tb\n${lone}`, grammar), "bad invalid utf-8 bytes\nbase invalid utf-8 bytes\nbad line\n");
      assert.deepEqual(kit.canonicalMany("a:/", ["b", lone, "c"], grammar), ["a:/b", null, "a:/c"]);
    }
    assert.deepEqual(fault(() => kit.mapToUri(lone)), ["text", "invalid-utf8"]);
    assert.deepEqual(fault(() => kit.decode(lone)), ["text", "invalid-utf8"]);
    assert.deepEqual(fault(() => kit.templateVariables(lone)), ["template", "invalid-utf8"]);
    assert.equal(kit.faultPart(lone, "invalid-utf8").place, new TextEncoder().encode(/^[^\ud800-\udfff]*/u.exec(lone)[0]).length);
  }
  assert.equal(kit.canonical("a:/", "\u{1f600}", "iri"), "a:/\u{1f600}");
  assert.deepEqual(fault(() => kit.split("\ufffd", "iri")), ["text", "invalid-path"]);
});

test("many references, each by itself", () => {
  assert.deepEqual(kit.canonicalMany("http://a/b", ["c", "a b", "", new Uint8Array([255]), "//d"]), [
    "http://a/c", null, "http://a/b", null, "http://d"]);
  assert.deepEqual(kit.canonicalMany("http://a/b", new Set(["\u00e9"]), "iri"), ["http://a/\u00e9"]);
  assert.deepEqual(kit.canonicalMany("http://a/b", []), []);
  assert.deepEqual(kit.canonicalMany("http://a/b", ["c\r", "c\n", "c\nd", "c\r\n", "\n", "", "e"]), [
    null, null, null, null, null, "http://a/b", "http://a/e"]);
  for (const at of [0, 127, 128, 299]) {
    for (const odd of ["c\n", "c\r", "\r\nc", "%", "\ud800", "c".repeat(70000)]) {
      const some = Array.from({ length: 300 }, (_, i) => (i === at ? odd : "c"));
      assert.deepEqual(kit.canonicalMany("http://a/b", some), some.map((one) => (/^c+$/.test(one) && !one.endsWith("\n") ? `http://a/${one}` : null)));
    }
  }
  const many = Array.from({ length: 20000 }, (_, i) => (i % 7 ? `${i}/../${"\u00e9".repeat(i % 50)}` : `${i} `));
  const wanted = many.map((reference, i) => (i % 7 ? `http://a/${"\u00e9".repeat(i % 50)}` : null));
  assert.deepEqual(kit.canonicalMany("http://a/b", many, "iri"), wanted);
  kit.split("a".repeat(1 << 22));
  assert.deepEqual(kit.canonicalMany("http://a/b", Array.from({ length: 500000 }, () => "c")).length, 500000);
  assert.deepEqual(fault(() => kit.canonicalMany("/a", [])), ["base", "unexpected-relative"]);
  for (const list of ["ab", new String("ab"), runInNewContext('new String("ab")'), 7, null, undefined, {}, [7], [null], [["a"]]]) {
    assert.throws(() => kit.canonicalMany("http://a/b", list), TypeError);
  }
});

const WRONG = [
  true, Symbol("a"), () => "a", new Date(0), new String("a"), new Set(["a"]), new URL("a:"), /a/, new Error("a"), Math,
  new (class { a = "b"; })(), new Uint16Array(2), new ArrayBuffer(2), new DataView(new ArrayBuffer(2)), new WeakMap(),
  Promise.resolve("a"), NaN, Infinity, -Infinity, (function () { return arguments; })("a"), [["a"]], { a: {} },
  new Map([["a", new Map()]]), new Map([[null, "a"]]),
];

test("what is no text, and no value of a variable", () => {
  for (const text of [undefined, null, 7, 7n, {}, ["a"], ...WRONG]) {
    for (const call of [kit.split, kit.decode, kit.mapToUri]) assert.throws(() => call.call(kit, text), TypeError);
    for (const [one, other] of [[text, "a"], ["http://a/", text]]) assert.throws(() => kit.canonical(one, other), TypeError);
    if (text !== undefined && text !== null) assert.throws(() => kit.build({ path: text }), TypeError);
  }
  for (const v of WRONG) {
    assert.throws(() => kit.expand("{v}", { v }), TypeError);
    assert.throws(() => kit.expand("{v}", { v: [v] }), TypeError);
    assert.throws(() => kit.expand("{v}", { v: { k: v } }), TypeError);
  }
  const names = [null, 7, "a", ["a"], [["a", "b"]], ...WRONG.filter((value) => !(value instanceof Map) && value?.a === undefined)];
  for (const given of names) {
    assert.throws(() => kit.expand("{v}", given), TypeError);
    assert.throws(() => kit.build(given), TypeError);
  }
  assert.equal(kit.expand("{v,w,x,y}", { v: 7, w: 10n ** 30n, x: -0.5, y: 0 }), `7,1${"0".repeat(30)},-0.5,0`);
  assert.equal(kit.expand("{v}", Object.assign(Object.create(null), { v: "a" })), "a");
});

test("names of grammars, modes, kinds, places and faults", () => {
  const others = [
    0, 1, 100, 200, 257, null, true, "", "URI", "uri ", "constructor", "__proto__", ["uri"], new String("uri"), {}, Symbol("uri")];
  const calls = {
    uri: [
      (name) => kit.canonical("a:", "", name), (name) => kit.canonicalLines("a:", "", name), (name) => kit.pairs("", name),
      (name) => kit.canonicalMany("a:", [], name), (name) => kit.target("a:", "", name), (name) => kit.resolve("a:", "", name),
      (name) => kit.normalize("a:", name),
      (name) => kit.steps("a:", name), (name) => kit.isNormalized("a:", name), (name) => kit.validate("a:", "reference", name),
      (name) => kit.split("a:", name), (name) => kit.build({}, "reference", name), (name) => kit.maskPassword("", name),
      (name) => kit.removePassword("", name), (name) => kit.replacePassword("", "", name), (name) => kit.removeFragment("", name),
      (name) => kit.setFragment("", "", name), (name) => kit.replaceHost("//a", "b", name),
      (name) => kit.replaceRegName("//a", "b", name), (name) => kit.encode("", "path", name), (name) => kit.expand("", {}, name),
    ],
    scheme: [
      (name) => kit.canonical("a:", "", "uri", name), (name) => kit.canonicalLines("a:", "", "uri", name), (name) => kit.pairs("", "uri", name),
      (name) => kit.canonicalizeToUri("a:", "", name),
      (name) => kit.canonicalMany("a:", [], "uri", name), (name) => kit.normalize("a:", "uri", name),
      (name) => kit.steps("a:", "uri", name), (name) => kit.isNormalized("a:", "uri", name),
    ],
    absolute: [
      (name) => kit.validate("a:", name), (name) => kit.build({ scheme: "a" }, name),
      (name) => kit.faultPart("", "invalid-path", name),
    ],
    segment: [(name) => kit.encode("", name)],
    "invalid-host": [(name) => kit.faultPart("", name), (name) => kit.faultWords(name)],
    "invalid-expression": [(name) => kit.templateFaultWords(name)],
  };
  const names = Object.keys(calls);
  for (const [name, own] of Object.entries(calls)) {
    for (const call of own) {
      assert.doesNotThrow(() => call(name), `${call}`);
      const wrong = [...others, ...names.filter((one) => one !== name)];
      for (const other of wrong) assert.throws(() => call(other), TypeError, `${call}`);
    }
  }
  const refused = { name: "TypeError", message: '"preserving" is no mode, which is one of normal, scheme' };
  for (const call of ["canonical", "canonicalLines"]) assert.throws(() => kit[call]("a:", "", "uri", "preserving"), refused);
  assert.throws(() => kit.pairs("", "uri", "preserving"), refused);
  assert.throws(() => kit.canonicalizeToUri("a:", "", "preserving"), refused);
  assert.throws(() => kit.steps("a:", "uri", "preserving"), refused);
});

// Numbers that seem random, the same at each run (xorshift, G. Marsaglia 2003).
function numbers(seed) {
  let state = seed;
  return (below) => {
    state ^= state << 13;
    state ^= state >>> 17;
    state ^= state << 5;
    return (state >>> 0) % below;
  };
}

// Calls of a kit on two texts, in a grammar.
const CALLS = [
  (one, s, t, g) => one.canonical(s, t, g), (one, s, t, g) => one.canonicalLines("a:/b", t, g, "scheme"),
  (one, s, t, g) => one.pairs(t, g, "scheme"), (one, s, t) => one.canonicalizeToUri(s, t), (one, s, t) => one.canonicalizeToUri("a:/b", t, "scheme"),
  (one, s, t, g) => one.canonicalMany("x:/y", [s, t], g), (one, s, t, g) => one.target("http://a/b", t, g),
  (one, s, t, g) => one.split(t, g), (one, s, t, g) => one.steps(t, g), (one, s, t, g) => one.validate(t, "relative", g),
  (one, s, t) => one.faultPart(t, "invalid-path"), (one, s, t, g) => one.build({ host: s, path: t }, "reference", g),
  (one, s, t, g) => one.setFragment(s, t, g), (one, s, t, g) => one.replacePassword(s, t, g),
  (one, s, t, g) => one.replaceHost(s, t, g), (one, s, t, g) => one.encode(t, "query", g), (one, s, t) => one.decode(t),
  (one, s, t) => one.mapToUri(t), (one, s, t, g) => one.expand(t, new Map([["a", s], ["b", [s, t]]]), g),
  (one, s, t) => one.templateVariables(t),
];

// What a call answers, or what it refuses.
function outcome(call, one, texts, grammar) {
  try {
    return { answer: call(one, ...texts, grammar) };
  } catch (error) {
    if (!(error instanceof Refused)) throw error;
    return { whose: error.whose, fault: error.fault, place: error.place, message: error.message };
  }
}

test("a string is answered as the bytes of its UTF-8 are, and by a kit that was asked much before as by a new one", async () => {
  const pieces = [
    ..."abA:/?#[]@!$&'()*+,;=%-._~ |^`{}<>\\\0\t\n\r", "\ufeff", "\u00e9", "\u65e5", "\u{1f600}", "\ue000", "\ufffd", "%2f", "%c3%A9",
    "%FF", "//", "/../", "http:", "[::1]", "x".repeat(300), "{a}", "{?a*}",
  ];
  const next = numbers(2463534242), text = () => Array.from({ length: next(7) }, () => pieces[next(pieces.length)]).join("");
  let fresh = await library.open(), good = 0;
  for (let i = 0; i < 20000; i += 1) {
    if (i % 500 === 0) fresh = await library.open();
    const call = CALLS[i % CALLS.length], given = [text(), text()], grammar = next(2) ? "uri" : "iri";
    const answers = [[kit, given], [fresh, given], [kit, given.map((one) => new TextEncoder().encode(one))]].map(
      ([one, texts]) => outcome(call, one, texts, grammar));
    good += "answer" in answers[0];
    assert.deepEqual(answers[1], answers[0], `${call} ${JSON.stringify(given)}`);
    assert.deepEqual(answers[2], answers[0], `${call} ${JSON.stringify(given)}`);
  }
  assert.ok(good > 5000 && good < 15000, good);
});

// Arrays of these bytes whose class, or which themselves, say another length than they have; and those whose length changed.
function arraysOf(text) {
  const bytes = new TextEncoder().encode(text), said = [0, 1, bytes.length + 1, 64, 70000, -1, NaN, "2", undefined];
  const ofClass = said.map((length) => {
    const Other = class extends Uint8Array { get length() { return length; } };
    return new Other(bytes);
  });
  const own = said.map((value) => Object.defineProperty(bytes.slice(), "length", { value }));
  const grown = new ArrayBuffer(1, { maxByteLength: 4096 }), shrunk = new ArrayBuffer(4096, { maxByteLength: 4096 });
  const shared = new SharedArrayBuffer(1, { maxByteLength: 4096 });
  const views = [grown, shrunk, shared].map((buffer) => new Uint8Array(buffer));
  for (const view of views) kit.decode(view);
  for (const buffer of [grown, shrunk]) buffer.resize(bytes.length);
  shared.grow(bytes.length);
  for (const view of views) view.set(bytes);
  return [...ofClass, ...own, ...views];
}

test("an array is answered by its bytes, whatever it says of its length", () => {
  const before = "http://secret.example/of-a-text-before";
  for (const [s, t] of [["http://a/b/c", "../d%7e?e"], ["x:/y", "{a}/{?b*}"], ["http://h/p", "http://h/p\t/q\nx:\ty"], ["h", "/"]]) {
    for (const call of CALLS) {
      for (const grammar of ["uri", "iri"]) {
        const wanted = outcome(call, kit, [s, t], grammar);
        arraysOf(t).forEach((array, i) => {
          kit.setFragment(before, before);
          assert.deepEqual(outcome(call, kit, [arraysOf(s)[i], array], grammar), wanted, `${call} ${i}`);
        });
      }
    }
  }
  const buffer = new ArrayBuffer(8, { maxByteLength: 8 }), past = new Uint8Array(buffer, 4, 4), none = Object.create(Uint8Array.prototype);
  buffer.resize(2);
  for (const text of [past, none, Object.create(none, { length: { value: 2 } }), new Proxy(new Uint8Array(2), {})]) {
    for (const call of [kit.split, kit.decode, kit.mapToUri]) assert.throws(() => call.call(kit, text), TypeError);
    for (const [one, other] of [[text, "a"], ["http://a/", text]]) assert.throws(() => kit.canonical(one, other), TypeError);
    assert.throws(() => kit.expand("{v}", { v: [text] }), TypeError);
  }
});

test("a list and pairs are those that a loop over them gives", () => {
  const list = ["x", null, "y"], shorter = { get: (of, name, whole) => (name === "length" ? 1 : Reflect.get(of, name, whole)) };
  const longer = { get: (of, name, whole) => (name === "length" ? 9 : Reflect.get(of, name, whole)) };
  class OtherCopies extends Array {
    static get [Symbol.species]() { return function copy() { return new Proxy([], longer); }; }
  }
  class OtherFilter extends Array {
    filter() { return { map: () => new Proxy(["x"], longer) }; }
  }
  class OtherPairs extends Map {
    * [Symbol.iterator]() { yield ["k", "v", "w"]; yield new Proxy(["l", "m"], longer); }
  }
  for (const one of [list, OtherCopies.from(list), OtherFilter.from(list), new Proxy(list, longer)]) {
    kit.setFragment("x".repeat(99), "y".repeat(99));
    assert.equal(kit.expand("{v}{?v*}", { v: one }), "x,y?v=x&v=y");
  }
  assert.equal(kit.expand("{v}", { v: new Proxy(list, shorter) }), "x");
  assert.equal(kit.expand("{?v*}", { v: new OtherPairs() }), "?k=v&l=m");
  assert.equal(kit.expand("{k}{l}", new OtherPairs()), "vm");
  assert.throws(() => kit.build(new OtherPairs()), TypeError);
});
