// The library's steps replayed by the page's code: they lead to the normal form, are told in words, and show in places.
import assert from "node:assert/strict";
import { test } from "node:test";
import { inWords, replay } from "../page/steps.mjs";
import { kit, rows } from "./kit.mjs";

// A text with the characters at these places in brackets.
function bracketed(text, places) {
  let at = 0;
  return [...text].map((c) => {
    at += c.length;
    return places.has(at - c.length) ? `[${c}]` : c;
  }).join("");
}

// The parts that steps lead to, of those that a text has.
function fiveParts(text, grammar) {
  const { userinfo, host, port, ...five } = kit.split(text, grammar);
  return five;
}

// What is told of the steps from a text to its normal form, and the parts with changed letters.
function told(from, wanted, { grammar = "uri", mode = "normal", skipped = [] } = {}) {
  const { told: all, places, to } = replay(kit.split(from, grammar), kit.steps(from, grammar, mode), skipped);
  const parts = kit.split(wanted, grammar);
  assert.deepEqual(to, fiveParts(wanted, grammar));
  const changed = Object.keys(places).filter((name) => places[name].size);
  return [...inWords(all), ...changed.map((name) => bracketed(parts[name], places[name]))];
}

test("the rows of examples/rows.txt", () => {
  const all = rows("rows.txt").filter((row) => row[3].startsWith("ok "));
  assert.ok(all.length > 80);
  for (const [grammar, base, reference] of all) {
    const target = kit.target(base, reference, grammar), from = kit.split(target, grammar);
    for (const mode of ["normal", "scheme"]) {
      const wanted = fiveParts(kit.canonical(base, reference, grammar, mode), grammar);
      assert.deepEqual(replay(from, kit.steps(target, grammar, mode)).to, wanted, `${base} ${reference}`);
    }
  }
});

test("each change", () => {
  assert.deepEqual(told("http://h/", "http://h/"), []);
  const lowered = ["scheme and host in lower case", "[h][t][t]p", "[e]x.[c][o][m]"];
  assert.deepEqual(told("HTTp://Ex.COM/", "http://ex.com/"), lowered);
  assert.deepEqual(told("http://h:/", "http://h/"), ["empty port removed"]);
  assert.deepEqual(told("http://h:80/", "http://h/", { mode: "scheme" }), ["default port removed"]);
  assert.deepEqual(told("http://h", "http://h/", { mode: "scheme" }), ["empty path made “/”", "[/]"]);
  assert.deepEqual(told("http://h/%7ea/%c3%a9?%41#%2f", "http://h/~a/%C3%A9?A#%2F"), [
    "needless percent-encoding decoded in path and query", "hex digits in upper case in path and fragment",
    "/[~]a/%[C]3%[A]9", "[A]", "%2[F]"]);
  assert.deepEqual(told("http://%7e%3a@%45xY:/", "http://~%3A@exy/"), [
    "needless percent-encoding decoded in userinfo and host", "hex digits in upper case in userinfo", "host in lower case",
    "empty port removed", "[~]%3[A]", "[e]x[y]"]);
  assert.deepEqual(told("x:/a%F0%9F%98%80%ce\u00e9%7e", "x:/a\u{1f600}%CE\u00e9~", { grammar: "iri" }), [
    "needless percent-encoding decoded in path", "hex digits in upper case in path", "/a[\u{1f600}]%[C][E]\u00e9[~]"]);
  assert.deepEqual(told("x://A\u00e9%41/", "x://A\u00e9A/", { grammar: "iri" }), [
    "needless percent-encoding decoded in host", "A\u00e9[A]"]);
});

// RFC 3986 section 5.2.4 and 5.4 have the paths.
test("dot segments", () => {
  const rows = [
    ["/a/b/c/./../../g", "/a/g"], ["/b/c/..", "/b/"], ["/b/c/.", "/b/c/"], ["/../g", "/g"], ["/a//../b", "/a/b"],
    ["/..", "/"], ["//x/../b", "//b"],
  ];
  for (const [from, to] of rows) assert.deepEqual(told(`http://a${from}`, `http://a${to}`), ["dot segments removed"]);
  const decoded = ["needless percent-encoding decoded in path", "dot segments removed"];
  assert.deepEqual(told("http://a/%2e/%2E./g", "http://a/g"), decoded);
  assert.deepEqual(told("http://a/%7eb/c/../%7eg/%41/..", "http://a/~b/~g/"), [...decoded, "/[~]b/[~]g/"]);
  for (const [from, to] of [["a/../b", "/b"], ["../b", "b"], ["./.././b", "b"], ["..", ""], ["a/..", "/"], ["./", ""]]) {
    assert.deepEqual(told(`x:${from}`, `x:${to}`), ["dot segments removed"]);
  }
  const guarded = ["needless percent-encoding decoded in path", "dot segments removed, “/.” kept before “//”"];
  assert.deepEqual(told("x:/a/..//%62", "x:/.//b"), [...guarded, "/.//[b]"]);
});

test("parts that are skipped", () => {
  const without = told("HTTP://H/%41", "http://h/A", { skipped: ["scheme", "host"] });
  assert.deepEqual(without, ["needless percent-encoding decoded in path", "/[A]"]);
});
