// Calls by the types of the package; a line after `@ts-expect-error` is one that they refuse.
import { open, Refused, type Fault, type Kit, type Parts, type TemplateFault, type Value } from "irikit";

const kit: Kit = await open();
const text: string = kit.canonical("http://a/", new Uint8Array(), "iri", "scheme");
const fault: Fault | null = kit.validate(text, "absolute", "uri");
const parts: Parts = kit.split(text);
const path: string = parts.path;
const host: string | undefined = parts.host;
const words: string = fault === null ? kit.mapToUri(path) : kit.faultWords(fault);
const error = new Error(words) as Error | Refused;
export const told = error instanceof Refused ? [error.fault, error.place, host, kit.isNormalized(text)] : [];
const steps: string[] = kit.steps(kit.target("http://a/", text), "uri", "scheme");
const values: { [name: string]: Value } = { a: 1, b: "c", d: ["e", 2], f: { g: "h" }, i: new Map([["j", "k"]]), l: null, m: 7n };
const built: string = kit.build({ ...parts, query: kit.expand("{a}{?b}", values), port: null }, "absolute");
const names: string[] = kit.templateVariables(kit.replacePassword(built, kit.encode("p", "user")));
const last: TemplateFault = "unsupported-operator";
const many: (string | null)[] = kit.canonicalMany("http://a/", new Set([text, path]), "iri");
export const answers: string = kit.pairs("a:\tb", "iri", "scheme");
export const all = [
  steps, names, many, kit.expand("{a}", new Map([["a", 1]])), kit.normalize(text, "uri", "preserving"), kit.templateFaultWords(last),
  await open(new Uint8Array()), await open(Promise.resolve({ arrayBuffer: async () => new ArrayBuffer(8) })),
];

// @ts-expect-error
kit.canonical("http://a/");
// @ts-expect-error
kit.canonical("http://a/", "b", "uri", "preserving");
// @ts-expect-error
kit.validate(text, 9);
// @ts-expect-error
kit.normalize(text, "scheme");
// @ts-expect-error
kit.encode(text, "iri");
// @ts-expect-error
kit.canonicalMany("http://a/", 7);
// @ts-expect-error
parts.path = undefined;
// @ts-expect-error
kit.build({ hots: "a" });
// @ts-expect-error
kit.expand("{a}", { a: true });
// @ts-expect-error
kit.expand("{a}", { a: new Date() });
// @ts-expect-error
await open("irikit.wasm");
