// The requests of tests/packages/layers by the package for JavaScript in a folder. With `small` its memory may grow by eight pages: then a
// call may have no room, and those after it are answered as ever.
import { readFileSync, writeSync } from "node:fs";
import { pathToFileURL } from "node:url";

const [folder, size] = process.argv.slice(2);
const { open, Refused } = await import(pathToFileURL(`${folder}/irikit.mjs`));
const GROW = WebAssembly.Memory.prototype.grow;
const kit = await open(readFileSync(`${folder}/irikit.wasm`));
if (size === "small") {
  let left = 8;
  WebAssembly.Memory.prototype.grow = function grow(pages) {
    if (Number(pages) > left) throw new RangeError("no memory");
    left -= Number(pages);
    return GROW.call(this, pages);
  };
}
class Other {}
// What is no text, by the number after the `!`.
const WRONG = [7, 1e9, null, new Set(["a"]), new Date(0), true, 1.5, ["a"], Symbol("a"), new Other()];
const PARTS = ["scheme", "userinfo", "host", "port", "path", "query", "fragment"];
const SPLIT = ["scheme", "authority", "path", "query", "fragment", "userinfo", "host", "port"];

// The text of a word: a string where it is one, with a lone surrogate where it has its three bytes.
const exactly = new TextDecoder("utf-8", { fatal: true, ignoreBOM: true });
function text(word) {
  if (word[0] === "!") return WRONG[Number(word.slice(1))];
  if (word === "~") return null;
  const bytes = word === "." ? Buffer.alloc(0) : Buffer.from(word, "hex");
  const pieces = bytes.toString("latin1").split(/\xed([\xa0-\xbf][\x80-\xbf])/);
  const surrogate = (two) => String.fromCharCode(0xd000 | ((two.charCodeAt(0) & 0x3f) << 6) | (two.charCodeAt(1) & 0x3f));
  try {
    return pieces.map((piece, at) => (at % 2 ? surrogate(piece) : exactly.decode(Buffer.from(piece, "latin1")))).join("");
  } catch {
    return new Uint8Array(bytes);
  }
}

const hex = (made) => Buffer.from(made).toString("hex") || ".";
const variable = (kind, texts) => (kind === "s" ? texts[0] : kind === "l" ? texts
  : new Map(texts.filter((_, at) => at % 2 === 0).map((key, at) => [key, texts[2 * at + 1]])));

const CALLS = {
  canonical: (t, o, g) => kit.canonical(t[0], t[1], g, o), resolve: (t, o, g) => kit.resolve(t[0], t[1], g),
  target: (t, o, g) => kit.target(t[0], t[1], g), normalize: (t, o, g) => kit.normalize(t[0], g, o),
  steps: (t, o, g) => kit.steps(t[0], g, o).map((step) => `${step}\n`).join(""), map: (t) => kit.mapToUri(t[0]),
  encode: (t, o, g) => kit.encode(t[0], o, g), decode: (t) => kit.decode(t[0]), mask: (t, o, g) => kit.maskPassword(t[0], g),
  remove: (t, o, g) => kit.removePassword(t[0], g), password: (t, o, g) => kit.replacePassword(t[0], t[1], g),
  fragment: (t, o, g) => (t[1] === null ? kit.removeFragment(t[0], g) : kit.setFragment(t[0], t[1], g)),
  host: (t, o, g) => kit.replaceHost(t[0], t[1], g), name: (t, o, g) => kit.replaceRegName(t[0], t[1], g),
  build: (t, o, g) => kit.build(Object.fromEntries(PARTS.map((name, at) => [name, t[at]])), o, g),
  expand: (t, o, g) => kit.expand(t[0], { v: variable(o, t.slice(1)) }, g), lines: (t, o, g) => kit.canonicalLines(t[0], t[1], g, o),
  pairs: (t, o, g) => kit.pairs(t[0], g, o), uri: (t, o) => kit.canonicalizeToUri(t[0], t[1], o),
};
const SPECIAL = {
  normal: (t, o, g) => `ok ${kit.isNormalized(t[0], g, o) ? "yes" : "no"}`,
  many: (t, o, g) => ["ok", ...kit.canonicalMany(t[0], t.slice(1), g, o).map((one) => (one === null ? "~" : hex(one)))].join(" "),
  names: (t) => ["ok", ...kit.templateVariables(t[0]).map(hex)].join(" "),
  split: (t, o, g) => {
    const parts = kit.split(t[0], g);
    return ["ok", ...SPLIT.map((name) => (parts[name] === undefined ? "~" : hex(parts[name])))].join(" ");
  },
  fault: (t, o, g) => {
    const fault = kit.validate(t[0], o, g);
    if (fault === null) return "ok";
    const found = kit.faultPart(t[0], fault, o), len = fault === "invalid-utf8" ? "~" : found && Buffer.byteLength(found.part);
    return `no text ${hex(kit.faultWords(fault))}${found === null ? "" : ` ${found.place} ${len}`}`;
  },
};

function answer(line) {
  const [call, grammar, option, ...words] = line.split(" ");
  try {
    const texts = words.map(text);
    return call in SPECIAL ? SPECIAL[call](texts, option, grammar) : `ok ${hex(CALLS[call](texts, option, grammar))}`;
  } catch (e) {
    if (e instanceof TypeError) return "type";
    if (e instanceof RangeError && size === "small") return "memory";
    if (!(e instanceof Refused)) throw e;
    if (e.whose === "template" || e.whose === "variable") return ["no", e.whose, e.place, ...(e.fault ? [hex(e.message)] : [])].join(" ");
    return e.fault === null ? "no host" : `no ${e.whose} ${hex(e.message)}`;
  }
}

const answers = readFileSync(0).toString().split("\n").slice(0, -1).map(answer);
const out = Buffer.from(answers.map((one) => `${one}\n`).join(""));
for (let at = 0; at < out.length;) {
  try { at += writeSync(1, out, at); } catch (e) { if (e.code !== "EAGAIN") throw e; }
}
