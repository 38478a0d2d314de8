// A memory that the engine lets grow no further: each call gives what it gives in a large one, or a RangeError, and the calls after
// it give what they did before.
import assert from "node:assert/strict";
import { readFileSync } from "node:fs";
import { test } from "node:test";
import { folder, kit, library } from "./kit.mjs";

const PAGE = 65536, MEMORY = 5;

// An unsigned number in LEB128 at a place, and the place after it; and the bytes of one.
function number(bytes, at) {
  let value = 0, shift = 0;
  for (;; at += 1, shift += 7) {
    value += (bytes[at] & 0x7f) * 2 ** shift;
    if (bytes[at] < 0x80) return [value, at + 1];
  }
}

const leb = (value) => (value < 0x80 ? [value] : [(value & 0x7f) | 0x80, ...leb(value >> 7)]);

// The module with a memory that grows by so many pages at most (WebAssembly 5.5.8: section 5, one memory, its limits).
function limited(bytes, more) {
  for (let at = 8; at < bytes.length;) {
    const [size, begin] = number(bytes, at + 1);
    if (bytes[at] === MEMORY) {
      const [least] = number(bytes, begin + 2), limits = [1, bytes[begin + 1] | 1, ...leb(least), ...leb(least + more)];
      const section = Buffer.from([MEMORY, ...leb(limits.length), ...limits]);
      return Buffer.concat([bytes.subarray(0, at), section, bytes.subarray(begin + size)]);
    }
    at = begin + size;
  }
  throw new Error("no memory");
}

const module = readFileSync(`${folder}/irikit.wasm`);
const small = (pages = 8) => library.open(limited(module, pages));

test("of texts of all sizes each is answered as in a large memory, or has no room", async () => {
  const calls = {
    canonical: (one, text) => one.canonical("http://h/", text),
    base: (one, text) => one.canonical(`http://h/${text}`, "b"),
    mapToUri: (one, text) => one.mapToUri(text.replaceAll("a", "\u00e9")),
    encode: (one, text) => one.encode(text.replaceAll("a", " "), "path"),
    decode: (one, text) => one.decode(text).length,
    expand: (one, text) => one.expand("{v}{+v}", { v: [text, text.replaceAll("a", "%")] }),
    variables: (one, text) => one.templateVariables(text.replaceAll("aaaa", "{ab}")).length,
    steps: (one, text) => one.steps(`http://h/${text.replaceAll("aaaaaaaaaa", "%7eaaaaaaa")}`).length,
    split: (one, text) => one.split(text).path,
    build: (one, text) => one.build({ path: text, query: text }),
    lines: (one, text) => one.canonicalLines("http://h/", text.replaceAll("aaaaaaaa", "aaaaaaa\n")),
    pairs: (one, text) => one.pairs(`http://h/\t${text.replaceAll("aaaaaaaa", "aaaaaaa\n")}`),
    many: (one, text) => one.canonicalMany("http://h/", ["b", text, "c"]),
  };
  const one = await small();
  let good = 0, refused = 0;
  for (const size of [10, 1e3, 3e4, 6e4, 9e4, 1.2e5, 2e5, 3e5]) {
    const text = "a".repeat(size);
    for (const [name, call] of Object.entries(calls)) {
      let answer;
      try {
        answer = call(one, text);
      } catch (error) {
        if (!(error instanceof RangeError)) throw error;
        refused += 1;
      }
      const wanted = call(kit, text);
      if (name === "many" && answer[1] === null) assert.deepEqual(answer, [wanted[0], null, wanted[2]]);
      else if (answer !== undefined) assert.deepEqual(answer, wanted, `${name} of ${size}`);
      good += answer !== undefined;
      assert.equal(one.canonical("http://H/", "%7e"), "http://h/~");
      assert.equal(one.canonicalLines("http://h/", "a\nb c\n../d\n"), "ok http://h/a\nbad invalid path\nok http://h/d\n");
    }
  }
  assert.ok(good > 40 && refused > 20, `${good} ${refused}`);
});

test("a text asks for no more than it needs", async () => {
  const one = await small(), text = "a".repeat(200000);
  assert.equal(one.canonical("http://h/", text), `http://h/${text}`);
  assert.equal(one.canonicalLines("http://h/", text), `ok http://h/${text}\n`);
  assert.equal(one.encode(text, "path"), text);
});

test("answers that have no room at once come one after the other", async () => {
  const one = await small(2), lines = "b\n".repeat(20000);
  assert.equal(one.canonicalLines("http://h/", lines), "ok http://h/b\n".repeat(20000));
});

test("where the memory may not grow at all, short texts are answered", async () => {
  const one = await small(1);
  assert.throws(() => one.canonical("http://h/", "a".repeat(PAGE)), RangeError);
  assert.throws(() => one.canonicalLines("http://h/", "a\n".repeat(PAGE)), RangeError);
  assert.equal(one.canonicalLines("http://h/", "a\n"), "ok http://h/a\n");
  assert.equal(one.canonical("http://h/", "a".repeat(4000)), `http://h/${"a".repeat(4000)}`);
  assert.deepEqual(one.canonicalMany("http://h/", ["a", "b".repeat(PAGE), "c"]), ["http://h/a", null, "http://h/c"]);
});

test("what is longer than any memory has no room", async () => {
  const { exports } = (await WebAssembly.instantiate(module)).instance, { irikit_expand: expand, memory } = exports;
  const long = (...given) => {
    new BigUint64Array(memory.buffer, Number(given.at(-2)), 1)[0] = 2n ** 32n + 5n;
    return 1;
  };
  const one = new library.Kit({ ...exports, irikit_expand: (...given) => (given[2] === 6n ? long : expand)(...given) });
  assert.throws(() => one.expand("{a}{a}", { a: "b" }), RangeError);
  assert.equal(one.expand("{a}", { a: "b" }), "b");
});

test("where no string has room for an answer, the others of a list stay", () => {
  const buffer = new ArrayBuffer(2 ** 29 + 4 * PAGE), memory = { buffer };
  const answer = (...given) => {
    new BigUint64Array(buffer, Number(given[8]), 1)[0] = given[5] === 1n ? 2n ** 29n : 0n;
    return 0;
  };
  const one = new library.Kit({ memory, __heap_base: { value: 0 }, irikit_canonical: answer });
  const texts = [new Uint8Array(2), new Uint8Array(1), new Uint8Array(2)];
  assert.deepEqual(one.canonicalMany("http://a/", texts), ["", null, ""]);
  assert.throws(() => one.canonical("http://a/", "b"), RangeError);
});

test("a module of another version is refused", async () => {
  await assert.rejects(library.open(Uint8Array.from([0, 97, 115, 109, 1, 0, 0, 0])), /another version/);
});

test("the module's bytes may be those of any view", async () => {
  const wide = Buffer.concat([Buffer.alloc(8), module, Buffer.alloc(8)]);
  const one = await library.open(new DataView(wide.buffer, wide.byteOffset + 8, module.length));
  assert.equal(one.canonical("http://a/", "b"), "http://a/b");
});
