// Canonical texts of URI and IRI references, by the proved library as a WebAssembly module. One file for browsers and Node;
// irikit.d.ts has the types, and says what each call does.
//
// A text crosses as UTF-8 in the module's own memory, after what the module itself uses there: first come `detail` (8 bytes) and
// the parts of a split (128), whose first 8 bytes are also what some calls tell besides; then the base, or another text that comes
// first, which stays for the next call; then another text, or structs and their texts; and last, up to the memory's end, what is
// written. Each has its place, which moves only where one needs more room.

// Names for numbers of include/irikit.h, which count on from the first one.
class Names {
  #what; #first; #names; #numbers;

  constructor(what, first, names) {
    [this.#what, this.#first, this.#names] = [what, first, names.split(" ")];
    this.#numbers = new Map(this.#names.map((name, i) => [name, first + i]));
  }

  numberOf(name) {
    const number = this.#numbers.get(name);
    if (number !== undefined) return number;
    const given = typeof name === "string" ? JSON.stringify(name) : typeOf(name);
    throw new TypeError(`${given} is no ${this.#what}, which is one of ${this.#names.join(", ")}`);
  }

  nameOf(number) {
    return this.#names[number - this.#first];
  }
}

const VERSION = 200;
const GRAMMARS = new Names("grammar", 100, "uri iri");
const MODES = new Names("mode", 200, "normal scheme preserving"), RESOLVING = new Names("mode", 200, "normal scheme");
const KINDS = new Names("kind of text", 300, "reference with-scheme absolute relative");
const PLACES = new Names("place", 400, "reg-name user segment path query fragment anywhere reference");
const FAULTS = new Names("fault", 500, "invalid-scheme invalid-userinfo invalid-host invalid-reg-name invalid-port invalid-path " +
  "invalid-query invalid-fragment unexpected-fragment unexpected-relative invalid-utf8");
const VALUES = new Names("kind of value", 600, "undefined string list pairs");
const TEMPLATE_FAULTS = new Names("fault of a template", 700, "expression-not-closed invalid-character invalid-expression " +
  "invalid-percent-encoding invalid-utf8 unexpected-value-type unsupported-operator");
const GIVEN = new Names("part", 800, "scheme userinfo host port path query fragment");
const OK = 0, SHORT = 1, NOT_NORMAL = 2, BAD_TEXT = 3, BAD_BASE = 4, BAD_REFERENCE = 5, BAD_VARIABLE = 7, BAD_PART = 8, NO_HOST = 9;

const WHOSE = { [BAD_TEXT]: "text", [BAD_BASE]: "base", [BAD_REFERENCE]: "reference", [BAD_PART]: "part" };
const PARTS = ["scheme", "authority", "path", "query", "fragment", "userinfo", "host", "port"];
// The offset of a part that doesn't stand has ones alone; its lower half does for a memory below 4 GiB.
const NOWHERE = 2 ** 32 - 1;
const PAGE = 65536, WORDS = 2 + 4 * PARTS.length, LF = 10;
// How many references of a list go into one call.
const AT_ONCE = 128;

const encoder = new TextEncoder(), decoder = new TextDecoder("utf-8", { ignoreBOM: true });

class Refused extends Error {
  constructor(whose, fault, words, place = null) {
    super(words);
    this.name = "Refused";
    this.whose = whose;
    this.fault = fault;
    this.place = place;
  }
}

// Node's files, by a name that a bundler for browsers doesn't look for.
const FILES = "node:fs/promises";

// The module's bytes, from the file beside this one. Node doesn't fetch files.
async function bytesBeside() {
  const place = new URL("irikit.wasm", import.meta.url);
  if (place.protocol !== "file:") return fetch(place);
  return (await import(/* webpackIgnore: true */ /* @vite-ignore */ FILES)).readFile(place);
}

async function open(source = bytesBeside()) {
  const given = await source;
  const found = typeof given?.arrayBuffer === "function" ? await given.arrayBuffer() : given;
  // Of views the engine of Node takes arrays alone.
  const bytes = ArrayBuffer.isView(found) ? new Uint8Array(found.buffer, found.byteOffset, found.byteLength) : found;
  const calls = (await WebAssembly.instantiate(bytes, {})).instance.exports;
  if (calls.irikit_version?.() !== VERSION) throw new Error("the module is that of another version of irikit");
  return new Kit(calls);
}

const typeOf = (value) => (value === null ? "null" : typeof value);

// How many bytes an array has, by what it is and not by what its class says of it; a TypeError where it is none.
const { get: lengthIn } = Object.getOwnPropertyDescriptor(Object.getPrototypeOf(Uint8Array.prototype), "length");

// For how many bytes a text asks: three for each unit of a string, or as many as it has where these have no room.
function bytesOf(text, room) {
  if (typeof text === "string") return 3 * text.length <= room ? 3 * text.length : encoder.encode(text).length;
  if (text instanceof Uint8Array) return lengthIn.call(text);
  throw new TypeError(`${typeOf(text)} is no text: a string or a Uint8Array`);
}

// Puts a text into bytes that have room for it, and returns its length there: of an array in shared memory, which may grow meanwhile,
// that of before, so that no byte counts which isn't put.
function put(text, bytes) {
  if (typeof text !== "string") {
    const length = lengthIn.call(text);
    bytes.set(text);
    return length;
  }
  const { read, written } = encoder.encodeInto(text, bytes);
  if (read < text.length) throw new RangeError("a text has no room in the module's memory");
  if (written > text.length && !text.isWellFormed()) spoil(text, bytes);
  return written;
}

// Puts bytes that no UTF-8 has where the encoder put U+FFFD for a lone surrogate, so that the module refuses them.
function spoil(text, bytes) {
  let at = 0;
  for (const character of text) {
    const code = character.codePointAt(0), end = at + 1 + (code > 0x7f) + (code > 0x7ff) + (code > 0xffff);
    if (code >= 0xd800 && code <= 0xdfff) bytes.fill(0xff, at, end);
    at = end;
  }
}

const isGiven = (value) => value !== undefined && value !== null;

// Whether a value is an object of names alone, and none of a class.
function isPlain(value) {
  if (Object.prototype.toString.call(value) !== "[object Object]") return false;
  const above = Object.getPrototypeOf(value);
  return above === null || Object.getPrototypeOf(above) === null;
}

function entriesOf(pairs) {
  if (pairs instanceof Map) return [...pairs];
  if (isPlain(pairs)) return Object.entries(pairs);
  throw new TypeError(`${typeOf(pairs)} has no names: a plain object or a Map has`);
}

const asText = (value) => (typeof value === "bigint" || Number.isFinite(value) ? String(value) : value);

// The kind of a variable's value and its texts, a key before what belongs to it.
function kindAndTexts(value) {
  if (!isGiven(value)) return ["undefined", []];
  if (Array.isArray(value)) return ["list", [...value].filter(isGiven).map(asText)];
  if (!(value instanceof Map) && !isPlain(value)) return ["string", [asText(value)]];
  return ["pairs", entriesOf(value).flatMap(([key, item]) => (isGiven(item) ? [asText(key), asText(item)] : []))];
}

// Lines without the LF that ends each.
const linesOf = (text) => text.split("\n").slice(0, -1);

const eights = (bytes) => 8 * Math.ceil(bytes / 8);

class Kit {
  #calls; #memory; #pages; #start; #detail; #slots;
  #base; #baseLen; #baseRoom = 0; #textRoom = 0; #outRoom = 0;
  #bytes; #words; #cells; #baseAt; #textAt; #outAt; #outSize; #baseBytes; #textBytes; #out;

  constructor(calls) {
    this.#calls = calls;
    this.#memory = calls.memory;
    // A memory of 64-bit addresses counts its pages by BigInts.
    try { this.#memory.grow(0n); this.#pages = BigInt; } catch { this.#pages = Number; }
    this.#start = eights(Number(calls.__heap_base.value));
    this.#detail = BigInt(this.#start);
    this.#slots = this.#detail + 8n;
    this.#room(4096, 12288);
  }

  // Sees that so many bytes have room as a base, as another text, and as what is written: most calls write at most the bytes of
  // both, and 64. Where the engine refuses the memory, all stays as it was.
  #room(base, text, out = base + text + 64) {
    if (base <= this.#baseRoom && text <= this.#textRoom && out <= this.#outRoom) return;
    const baseRoom = eights(Math.max(base, this.#baseRoom)), textRoom = eights(Math.max(text, this.#textRoom));
    const baseAt = this.#start + 4 * WORDS, textAt = baseAt + baseRoom, outAt = textAt + textRoom;
    this.#grow(outAt + out);
    const { buffer } = this.#memory;
    [this.#baseRoom, this.#textRoom, this.#outRoom] = [baseRoom, textRoom, buffer.byteLength - outAt];
    this.#bytes = new Uint8Array(buffer);
    this.#words = new Uint32Array(buffer, this.#start, WORDS);
    this.#cells = new BigUint64Array(buffer, textAt, textRoom / 8);
    this.#baseBytes = this.#bytes.subarray(baseAt, textAt);
    this.#textBytes = this.#bytes.subarray(textAt, outAt);
    [this.#baseAt, this.#textAt, this.#outAt, this.#outSize] = [baseAt, textAt, outAt, this.#outRoom].map(BigInt);
    this.#out = outAt;
  }

  // Lengths are read by their lower halves, so the memory stays below 4 GiB, also where its addresses have 64 bits.
  #grow(size) {
    const lacking = Math.ceil((size - this.#memory.buffer.byteLength) / PAGE);
    if (lacking <= 0) return;
    try {
      if (size > NOWHERE) throw new RangeError("more than 4 GiB");
      this.#memory.grow(this.#pages(lacking));
    } catch (cause) {
      throw new RangeError(`the module's memory has no room: ${size} bytes are wanted`, { cause });
    }
  }

  // Puts the base, unless it is there from an earlier call. The caller may write into an array, so only a string is known again.
  #keep(base) {
    if (base === this.#base) return;
    this.#base = undefined;
    this.#baseLen = BigInt(put(base, this.#baseBytes));
    if (typeof base === "string") this.#base = base;
  }

  // Puts a text, and returns its length in bytes.
  #put(text) {
    this.#room(0, bytesOf(text, this.#textRoom));
    return BigInt(put(text, this.#textBytes));
  }

  // Puts texts where a text is, after so many cells of 8 bytes for structs, and returns the cells of each: its address, its length.
  #putAll(cells, texts) {
    const wanted = (room) => texts.reduce((sum, text) => sum + bytesOf(text, room), 8 * cells);
    const most = wanted(Infinity);
    this.#room(0, most <= this.#textRoom ? most : wanted(0));
    let at = 8 * cells;
    return texts.map((text) => {
      const begin = at;
      at += put(text, this.#textBytes.subarray(at));
      return [this.#textAt + BigInt(begin), BigInt(at - begin)];
    });
  }

  // The decoder replaces what it can't decode, so what it throws is that no string has room.
  #read(at, len) {
    try {
      return decoder.decode(this.#bytes.subarray(at, at + len));
    } catch (cause) {
      throw new RangeError(`no string has room for ${len} bytes`, { cause });
    }
  }

  #refusal(status) {
    const number = this.#words[0], place = this.#words[2];
    if (status === BAD_VARIABLE) return new Refused("variable", null, "a text that isn't UTF-8", place);
    if (status === NO_HOST) return new Refused("text", null, "no host to replace");
    const fault = FAULTS.nameOf(number);
    return new Refused(WHOSE[status], fault, this.faultWords(fault));
  }

  // Runs a call that writes a text, and where it wants more room runs it again: what stands before the buffer comes first. The
  // last number is for those that tell a place; others aren't handed it.
  #run(call, ...before) {
    const status = call(...before, this.#outAt, this.#outSize, this.#detail, this.#slots);
    if (status !== SHORT) return status;
    this.#room(0, 0, this.#words[0] + 2 ** 32 * this.#words[1]);
    return call(...before, this.#outAt, this.#outSize, this.#detail, this.#slots);
  }

  // What a call wrote, unless it refuses.
  #written(status) {
    if (status !== OK) throw this.#refusal(status);
    return this.#read(this.#out, this.#words[0]);
  }

  // Refuses what a call on a template refuses.
  #judge(status) {
    if (status === OK) return;
    if (status !== BAD_TEXT) throw this.#refusal(status);
    const fault = TEMPLATE_FAULTS.nameOf(this.#words[0]), place = this.#words[2];
    throw new Refused("template", fault, this.templateFaultWords(fault), place);
  }

  // Calls what writes a text made of one text: what stands before that comes first.
  #made(call, text, ...before) {
    const len = this.#put(text);
    return this.#written(this.#run(call, ...before, this.#textAt, len));
  }

  // Calls what writes a text made of two: the first one is put where a base is.
  #madeOfTwo(call, base, text, ...before) {
    this.#room(bytesOf(base, this.#baseRoom), bytesOf(text, this.#textRoom));
    this.#keep(base);
    const len = BigInt(put(text, this.#textBytes));
    return this.#written(this.#run(call, ...before, this.#baseAt, this.#baseLen, this.#textAt, len));
  }

  canonical(base, reference, grammar = "uri", mode = "normal") {
    const call = this.#calls.irikit_canonical;
    return this.#madeOfTwo(call, base, reference, GRAMMARS.numberOf(grammar), RESOLVING.numberOf(mode));
  }

  canonicalMany(base, references, grammar = "uri", mode = "normal") {
    // Also a String object, of whatever realm.
    if (Object.prototype.toString.call(references) === "[object String]") throw new TypeError("a string is no list of references");
    this.canonical(base, "", grammar, mode);
    const all = [...references], answers = [];
    for (let at = 0; at < all.length; at += AT_ONCE) {
      answers.push(...this.#answers(base, all.slice(at, at + AT_ONCE), grammar, mode));
    }
    return answers;
  }

  // The canonical text of a reference, or null.
  #answer(base, reference, grammar, mode) {
    try {
      return this.canonical(base, reference, grammar, mode);
    } catch (error) {
      if (error instanceof Refused || error instanceof RangeError) return null;
      throw error;
    }
  }

  // That of each of some references: in one call, where each is a line, and there is memory for all.
  #answers(base, references, grammar, mode) {
    const lines = references.every((reference) => typeof reference === "string") ? `${references.join("\n")}\n` : "\r";
    if (!lines.includes("\r") && lines.length <= PAGE) {
      try {
        const answers = linesOf(this.canonicalLines(base, lines, grammar, mode));
        if (answers.length === references.length) return answers.map((answer) => (answer.startsWith("ok ") ? answer.slice(3) : null));
      } catch (error) {
        if (!(error instanceof RangeError)) throw error;
      }
    }
    return references.map((reference) => this.#answer(base, reference, grammar, mode));
  }

  canonicalLines(base, lines, grammar = "uri", mode = "normal") {
    const numbers = [GRAMMARS.numberOf(grammar), RESOLVING.numberOf(mode)];
    this.#room(bytesOf(base, this.#baseRoom), bytesOf(lines, this.#textRoom - 1) + 1);
    this.#keep(base);
    return this.#answerLines(this.#calls.irikit_canonical_lines, lines, ...numbers, this.#baseAt, this.#baseLen);
  }

  pairs(lines, grammar = "uri", mode = "normal") {
    const numbers = [GRAMMARS.numberOf(grammar), RESOLVING.numberOf(mode)];
    this.#room(0, bytesOf(lines, this.#textRoom - 1) + 1);
    return this.#answerLines(this.#calls.irikit_canonical_pairs, lines, ...numbers);
  }

  // The answers of a call to lines that have room as a text: what stands before the lines comes first.
  #answerLines(call, lines, ...before) {
    let len = put(lines, this.#textBytes.subarray(0, -1));
    if (len > 0 && this.#textBytes[len - 1] !== LF) this.#textBytes[len++] = LF;
    let left = BigInt(len), at = this.#textAt, answers = "";
    for (;;) {
      const status = call(...before, at, left, this.#outAt, this.#outSize, this.#slots, this.#detail);
      if (status !== OK && status !== SHORT) throw this.#refusal(status);
      answers += this.#read(this.#out, this.#words[0]);
      if (status === OK) return answers;
      at += BigInt(this.#words[2]);
      left -= BigInt(this.#words[2]);
    }
  }

  target(base, reference, grammar = "uri") {
    return this.#madeOfTwo(this.#calls.irikit_target, base, reference, GRAMMARS.numberOf(grammar));
  }

  resolve(base, reference, grammar = "uri") {
    return this.#madeOfTwo(this.#calls.irikit_resolve, base, reference, GRAMMARS.numberOf(grammar));
  }

  normalize(text, grammar = "uri", mode = "normal") {
    return this.#made(this.#calls.irikit_normalize, text, GRAMMARS.numberOf(grammar), MODES.numberOf(mode));
  }

  steps(text, grammar = "uri", mode = "normal") {
    return linesOf(this.#made(this.#calls.irikit_steps, text, GRAMMARS.numberOf(grammar), RESOLVING.numberOf(mode)));
  }

  isNormalized(text, grammar = "uri", mode = "normal") {
    const numbers = [GRAMMARS.numberOf(grammar), MODES.numberOf(mode)];
    const len = this.#put(text), status = this.#calls.irikit_is_normalized(...numbers, this.#textAt, len, this.#detail);
    if (status !== OK && status !== NOT_NORMAL) throw this.#refusal(status);
    return status === OK;
  }

  validate(text, kind = "reference", grammar = "uri") {
    const numbers = [GRAMMARS.numberOf(grammar), KINDS.numberOf(kind)];
    const len = this.#put(text), status = this.#calls.irikit_validate(...numbers, this.#textAt, len, this.#detail);
    return status === OK ? null : FAULTS.nameOf(this.#words[0]);
  }

  faultPart(text, fault, kind = "reference") {
    const numbers = [KINDS.numberOf(kind), BigInt(FAULTS.numberOf(fault))];
    const len = this.#put(text);
    this.#calls.irikit_fault_part(...numbers, this.#textAt, len, this.#slots, this.#detail);
    const offset = this.#words[2];
    if (offset === NOWHERE) return null;
    return { place: offset, part: this.#read(this.#textBytes.byteOffset + offset, this.#words[4]) };
  }

  split(text, grammar = "uri") {
    const number = GRAMMARS.numberOf(grammar), len = this.#put(text);
    const status = this.#calls.irikit_split(number, this.#textAt, len, this.#slots, this.#detail);
    if (status !== OK) throw this.#refusal(status);
    const parts = {};
    PARTS.forEach((name, i) => {
      const offset = this.#words[2 + 4 * i], partLen = this.#words[4 + 4 * i];
      if (offset !== NOWHERE) parts[name] = this.#read(this.#textBytes.byteOffset + offset, partLen);
    });
    return parts;
  }

  build(parts, kind = "reference", grammar = "uri") {
    const numbers = [GRAMMARS.numberOf(grammar), KINDS.numberOf(kind)];
    const given = entriesOf(parts).filter(([name, text]) => name !== "authority" && isGiven(text));
    const names = given.map(([name]) => BigInt(GIVEN.numberOf(name)));
    const texts = this.#putAll(3 * given.length, given.map(([, text]) => text));
    this.#cells.set(names.flatMap((name, i) => [name, ...texts[i]]));
    return this.#written(this.#run(this.#calls.irikit_build, ...numbers, this.#textAt, BigInt(given.length)));
  }

  maskPassword(text, grammar = "uri") {
    return this.#made(this.#calls.irikit_mask_password, text, GRAMMARS.numberOf(grammar));
  }

  removePassword(text, grammar = "uri") {
    return this.#made(this.#calls.irikit_remove_password, text, GRAMMARS.numberOf(grammar));
  }

  replacePassword(text, password, grammar = "uri") {
    return this.#madeOfTwo(this.#calls.irikit_replace_password, text, password, GRAMMARS.numberOf(grammar));
  }

  removeFragment(text, grammar = "uri") {
    return this.#made(this.#calls.irikit_remove_fragment, text, GRAMMARS.numberOf(grammar));
  }

  setFragment(text, fragment, grammar = "uri") {
    return this.#madeOfTwo(this.#calls.irikit_set_fragment, text, fragment, GRAMMARS.numberOf(grammar));
  }

  replaceHost(text, host, grammar = "uri") {
    return this.#madeOfTwo(this.#calls.irikit_replace_host, text, host, GRAMMARS.numberOf(grammar));
  }

  replaceRegName(text, host, grammar = "uri") {
    return this.#madeOfTwo(this.#calls.irikit_replace_reg_name, text, host, GRAMMARS.numberOf(grammar));
  }

  canonicalizeToUri(base, reference, mode = "normal") {
    return this.#madeOfTwo(this.#calls.irikit_canonical_to_uri, base, reference, RESOLVING.numberOf(mode));
  }

  mapToUri(text) {
    return this.#made(this.#calls.irikit_map_to_uri, text);
  }

  encode(text, place, grammar = "uri") {
    return this.#made(this.#calls.irikit_encode, text, GRAMMARS.numberOf(grammar), PLACES.numberOf(place));
  }

  decode(text) {
    // A lone surrogate has no bytes.
    if (typeof text === "string" && !text.isWellFormed()) {
      throw new Refused("text", "invalid-utf8", this.faultWords("invalid-utf8"));
    }
    const len = this.#put(text);
    this.#run(this.#calls.irikit_decode, this.#textAt, len);
    return this.#bytes.slice(this.#out, this.#out + this.#words[0]);
  }

  expand(template, variables = {}, grammar = "uri") {
    const number = GRAMMARS.numberOf(grammar), given = entriesOf(variables), count = given.length;
    const values = given.map(([, value]) => kindAndTexts(value));
    const texts = values.flatMap(([, found]) => found), front = 5 * count;
    this.#room(bytesOf(template, this.#baseRoom), 0);
    this.#keep(template);
    const all = this.#putAll(front + 2 * texts.length, [...given.map(([name]) => name), ...texts]);
    let next = this.#textAt + BigInt(8 * front);
    const structs = values.flatMap(([kind, found], i) => {
      const at = next;
      next += BigInt(16 * found.length);
      return [...all[i], BigInt(VALUES.numberOf(kind)), at, BigInt(found.length)];
    });
    this.#cells.set([...structs, ...all.slice(count).flat()]);
    this.#judge(this.#run(this.#calls.irikit_expand, number, this.#baseAt, this.#baseLen, this.#textAt, BigInt(count)));
    return this.#read(this.#out, this.#words[0]);
  }

  templateVariables(template) {
    const len = this.#put(template);
    // A name and what parts it from the next have two bytes at least, and a slot has sixteen.
    this.#room(0, 0, 8 * Number(len));
    this.#judge(this.#calls.irikit_template_variables(
      this.#textAt, len, this.#outAt, this.#outSize / 16n, this.#detail, this.#slots));
    const cells = new Uint32Array(this.#memory.buffer, this.#out, 4 * this.#words[0]);
    return Array.from({ length: this.#words[0] }, (_, i) => this.#read(this.#textBytes.byteOffset + cells[4 * i], cells[4 * i + 2]));
  }

  faultWords(fault) {
    return this.#written(this.#run(this.#calls.irikit_fault_words, BigInt(FAULTS.numberOf(fault))));
  }

  templateFaultWords(fault) {
    return this.#written(this.#run(this.#calls.irikit_template_fault_words, BigInt(TEMPLATE_FAULTS.numberOf(fault))));
  }
}

export { open, Kit, Refused };
