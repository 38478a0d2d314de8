// The library as the page reads by it: in one grammar and one mode, which its fields choose.
import { open, Refused } from "../irikit.mjs";
import { characterAt, faultRange } from "./fault.mjs";
import { explain } from "./rules.mjs";

// Of a longer text the steps aren't asked for, and the place of its fault isn't either, which takes some twenty calls.
const LONGEST_EXPLAINED = 20000;

let kit, grammar = "uri", mode = "normal";

async function load(module) {
  kit = await open(module);
}

function choose(words) {
  ({ grammar, mode } = words);
}

const split = (text) => kit.split(text, grammar);
const decode = (text) => kit.decode(text);
// What a text decodes to, a character for each octet.
const octetsOf = (text) => new TextDecoder("latin1").decode(decode(text));
const isReference = (text) => kit.validate(text, "reference", grammar) === null;

// What a call gives; where it refuses, what is made of the refusal.
function unlessRefused(call, refused) {
  try {
    return call();
  } catch (error) {
    if (!(error instanceof Refused)) throw error;
    return refused(error);
  }
}

// Words for a fault, and the range with which it begins, or null.
function withPlace(text, range, words) {
  return { range, words: range === null ? words : `${words}, at character ${[...text.slice(0, range[0])].length + 1}` };
}

// Why a text isn't what it should be, by which rule, and what may stand in its place.
function refusal(text, fault, wanted) {
  const words = fault === "unexpected-relative" ? "no scheme" : kit.faultWords(fault);
  if (text.length > LONGEST_EXPLAINED) return { range: null, words: `Not ${wanted}: ${words}` };
  const range = faultRange(text, fault, isReference);
  return { ...withPlace(text, range, `Not ${wanted}: ${words}`), ...explain(text, fault, range, { grammar, encode, isOfIris }) };
}

const encode = (piece) => kit.encode(piece, "anywhere");
const isOfIris = (text) => kit.validate(text, "reference", "iri") === null;
const notReference = (text, fault) => refusal(text, fault, grammar === "iri" ? "an IRI reference" : "a URI reference");

// Why a text is no base; null where it is one.
function baseRefusal(text) {
  const fault = kit.validate(text, "absolute", grammar);
  return fault === null ? null : refusal(text, fault, grammar === "iri" ? "an absolute IRI" : "an absolute URI");
}

// The result for a link: its canonical text, its target and the steps from that to it, all of them in parts too; or why it is refused.
// Of a very long one the text stands for the target too, and the steps are null. The base is one.
function answer(base, link) {
  return unlessRefused(() => {
    const text = kit.canonical(base, link, grammar, mode), parts = split(text);
    if (base.length + link.length > LONGEST_EXPLAINED) return { link, text, parts, target: text, from: parts, steps: null };
    const target = kit.target(base, link, grammar);
    return { link, text, parts, target, from: split(target), steps: kit.steps(target, grammar, mode) };
  }, ({ fault }) => ({ link, refusal: notReference(link, fault) }));
}

// The result of a template with values by name: its expansion, and the names that have no value; or why it is refused.
function expand(template, values) {
  return unlessRefused(() => {
    const names = [...new Set(kit.templateVariables(template))];
    return { text: kit.expand(template, values, grammar), lacking: names.filter((name) => !values.has(name)) };
  }, ({ whose, place, message }) => {
    if (whose === "variable") return { refusal: { range: null, words: `Not a variable: ${message}` } };
    return { refusal: withPlace(template, characterAt(template, place), `Not a template: ${message}`) };
  });
}

export { load, choose, split, decode, octetsOf, baseRefusal, answer, expand };
