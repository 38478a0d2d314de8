// Where the first fault of a text is: the range in which the grammar of RFC 3986 or 3987 first takes no further character.
import assert from "node:assert/strict";
import { test } from "node:test";
import { faultRange } from "../page/fault.mjs";
import { kit } from "./kit.mjs";

// The text with what its fault begins with in brackets.
function marked(text, kind = "reference", grammar = "uri") {
  const isReference = (prefix) => kit.validate(prefix, "reference", grammar) === null;
  const range = faultRange(text, kit.validate(text, kind, grammar), isReference);
  return range && `${text.slice(0, range[0])}<${text.slice(...range)}>${text.slice(range[1])}`;
}

test("references", () => {
  const wanted = [
    "1a<:>b", "#<#>", "<%4>", "<%>", "?<%>", "//a< >b@c", "//a@b<@>c", "//h:8<x>/", "//u:p@h:8<x>/", "//<[1::2::3]>/",
    "//u@<[1::2::3>/p", "a< >b", "http://h/p/%41<%4z>", "x:/a?b#c<|>d", "http://h?<\u{1f600}>", "<\u00e9>", "a<\u3000>",
    "a<\ud83d>", "//us:er<^>@h", "<\\>",
  ];
  for (const text of wanted) assert.equal(marked(text.replace(/[<>]/g, "")), text);
  assert.equal(marked("a%%41"), "a<%%4>1");
});

test("in IRIs", () => {
  assert.equal(marked("\u00e9\u{1f600}/ x", "reference", "iri"), "\u00e9\u{1f600}/< >x");
  assert.equal(marked("caf\u00e9#\u{1f600}\ue000", "reference", "iri"), "caf\u00e9#\u{1f600}<\ue000>");
});

test("bases", () => {
  assert.equal(marked("1a:b", "absolute"), "<1>a:b");
  assert.equal(marked(":b", "absolute"), "<:>b");
  assert.equal(marked("h ttp://a", "absolute"), "h< >ttp://a");
  assert.equal(marked("http://a/#f", "absolute"), "http://a/<#f>");
  assert.equal(marked("http://a b/", "absolute"), "http://a< >b/");
  assert.equal(marked("a/b", "absolute"), null);
});
