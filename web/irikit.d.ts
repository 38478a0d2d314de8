/** Canonical texts of URI and IRI references (RFC 3986, RFC 3987), by a proved library as WebAssembly. */

/** A text; bytes are read as UTF-8. A string with a lone surrogate is refused, as bytes are that aren't UTF-8. */
export type Text = string | Uint8Array;

// A name that is none of those below, or a value of another type than is said, is a `TypeError` of each call.

/** The grammars: RFC 3986, ASCII alone; RFC 3987, characters past ASCII too. */
export type Grammar = "uri" | "iri";

/** The modes of normal form: by RFC 3986 section 6.2.2, without an empty port; by rules of http, https, ws, wss and ftp too
 * (section 6.2.3). */
export type Mode = "normal" | "scheme";

/** As `"normal"`, but that a path without authority which doesn't begin with a slash keeps its dot segments. */
export type Preserving = "preserving";

/** The kinds of texts (RFC 3986): URI-reference, URI, absolute-URI (a scheme, no fragment), relative-ref. */
export type Kind = "reference" | "with-scheme" | "absolute" | "relative";

/**
 * The places of a reference, by what stands as it is there beside unreserved characters: `sub-delims` in a reg-name and in a user;
 * those, `:` and `@` in a segment; `/` too in a path; `?` too in a query and a fragment; nothing else anywhere; every reserved
 * character in a reference.
 */
export type Place = "reg-name" | "user" | "segment" | "path" | "query" | "fragment" | "anywhere" | "reference";

/** The kinds of faults: of a part; a fragment in an absolute URI; no scheme where one must stand; bytes that are no UTF-8. */
export type Fault =
  | "invalid-scheme" | "invalid-userinfo" | "invalid-host" | "invalid-reg-name" | "invalid-port" | "invalid-path"
  | "invalid-query" | "invalid-fragment" | "unexpected-fragment" | "unexpected-relative" | "invalid-utf8";

/** The kinds of faults of templates; an unexpected type of value is a list, or pairs, under a prefix modifier. */
export type TemplateFault =
  | "expression-not-closed" | "invalid-character" | "invalid-expression" | "invalid-percent-encoding" | "invalid-utf8"
  | "unexpected-value-type" | "unsupported-operator";

/** The parts that stand in a reference, without the delimiters around them; the last three are those of the authority. */
export interface Parts {
  scheme?: string;
  authority?: string;
  path: string;
  query?: string;
  fragment?: string;
  userinfo?: string;
  host?: string;
  port?: string;
}

/** Parts to build a text from, as `split` gives them: `authority` is passed over for those of which it is made. */
export interface GivenParts {
  scheme?: Text | null;
  authority?: Text | null;
  userinfo?: Text | null;
  host?: Text | null;
  port?: Text | null;
  path?: Text | null;
  query?: Text | null;
  fragment?: Text | null;
}

/**
 * The value of a variable (RFC 6570 section 2.3): none, a text, a list, or pairs of keys and values in their order, which a plain
 * object has or a `Map`. A finite number stands for its digits, and what isn't there in a list or a pair is passed over.
 */
export type Value = Item | readonly Item[] | { readonly [key: string]: Item } | ReadonlyMap<Text | number | bigint, Item>;
export type Item = Text | number | bigint | null | undefined;

/** The variables of a template by their names. Of two with one name the first counts. */
export type Variables = { readonly [name: string]: Value } | ReadonlyMap<Text, Value>;

/** A text is refused; the message has the words for its first fault from the left. */
export class Refused extends Error {
  /** Which text: `part` what is to stand in it, `variable` one of a template's. */
  readonly whose: "base" | "reference" | "text" | "part" | "template" | "variable";
  /** The kind of the fault, that of a template where `whose` is `template`; null where a text has none, but isn't as asked. */
  readonly fault: Fault | TemplateFault | null;
  /** Of a template the place of its fault, in bytes; of a variable its index; null of others. */
  readonly place: number | null;
}

/** What has the module's bytes, as a `Response` and a `Blob` have them. */
export interface HasBytes {
  arrayBuffer(): Promise<ArrayBuffer>;
}

export type Source = ArrayBuffer | ArrayBufferView | HasBytes;

/** Opens the library: from `irikit.wasm` beside this file, or from its bytes or what has them. */
export function open(source?: Source | Promise<Source>): Promise<Kit>;

/**
 * The library. A kit serves one call after the other, and keeps nothing but the last base or what else came first. A text for which
 * the engine gives no memory is a `RangeError`, and the next call is served as before.
 */
export class Kit {
  private constructor();

  // Links.

  /**
   * The canonical text of a reference: resolved against the base (RFC 3986 section 5.2), in normal form (section 6.2.2).
   * The base is an absolute-URI of the grammar.
   * @throws {Refused} for the first fault of the base, and then of the reference
   */
  canonical(base: Text, reference: Text, grammar?: Grammar, mode?: Mode): string;

  /**
   * What `canonical` gives for each of many references; null for one that is refused, or has no room in the memory.
   * @throws {Refused} for the first fault of the base
   */
  canonicalMany(base: Text, references: Iterable<Text>, grammar?: Grammar, mode?: Mode): (string | null)[];

  /**
   * What `canonical` gives for each of many lines, in one call: `ok TEXT` or `bad WORDS` and an LF for each line. An LF ends a
   * line, and so does the end where a byte stands before it; one CR before either isn't part of the line.
   * @throws {Refused} for the first fault of the base
   */
  canonicalLines(base: Text, lines: Text, grammar?: Grammar, mode?: Mode): string;

  /**
   * What is answered to each of many lines, a page, a tab and a link on it, in one call: `ok TEXT` by the link's canonical text, `bad
   * WORDS` for its first fault, `base WORDS` for the page's, `bad line` where there is no tab, and an LF. Each answer is that of its own
   * line alone, so lists of pairs may be cut at any LF. What is a line is said at `canonicalLines`.
   */
  pairs(lines: Text, grammar?: Grammar, mode?: Mode): string;

  /**
   * The target of a reference against a base (RFC 3986 section 5.2.2), with its dot segments.
   * @throws {Refused} for the first fault of the base, and then of the reference
   */
  target(base: Text, reference: Text, grammar?: Grammar): string;

  /**
   * A reference resolved against a base (RFC 3986 section 5.2), not in normal form.
   * @throws {Refused} for the first fault of the base, and then of the reference
   */
  resolve(base: Text, reference: Text, grammar?: Grammar): string;

  /**
   * The normal form of a text with a scheme.
   * @throws {Refused} where it isn't one with a scheme
   */
  normalize(text: Text, grammar?: Grammar, mode?: Mode | Preserving): string;

  /**
   * The steps that lead a text with a scheme to its normal form, from left to right and in words: `scheme letter N`, `host letter
   * N`, `hex digit PART N`, `decode PART N`, `empty port`, `dot segments`, `default port`, `empty path`. PART is `authority`,
   * `path`, `query` or `fragment`; N counts bytes of UTF-8 from the start of that part, as the steps before leave it.
   * @throws {Refused} where it isn't one with a scheme
   */
  steps(text: Text, grammar?: Grammar, mode?: Mode): string[];

  /**
   * Whether a text with a scheme is its own normal form.
   * @throws {Refused} where it isn't one with a scheme
   */
  isNormalized(text: Text, grammar?: Grammar, mode?: Mode | Preserving): boolean;

  /** The kind of the first fault of a text that isn't of a kind; null where it is. */
  validate(text: Text, kind?: Kind, grammar?: Grammar): Fault | null;

  /**
   * The part of a text that has a fault, as `validate` or a refusal tells it of that text, and how many bytes of the text's UTF-8
   * stand before it; null where the text has no such part. The kind is that of text which was wanted.
   */
  faultPart(text: Text, fault: Fault, kind?: Kind): { place: number; part: string } | null;

  // Parts, and edits of them.

  /**
   * The parts of a reference.
   * @throws {Refused} where it is none
   */
  split(text: Text, grammar?: Grammar): Parts;

  /**
   * A text built from parts (RFC 3986 section 5.3), a host with its brackets. One that isn't given is absent, and a path empty.
   * @throws {Refused} where the parts make no text of the kind, for the first that is to blame
   */
  build(parts: GivenParts, kind?: Kind, grammar?: Grammar): string;

  /**
   * A reference without its password: the colon before it stays.
   * @throws {Refused} where it is no reference
   */
  maskPassword(text: Text, grammar?: Grammar): string;

  /**
   * A reference without its password and the colon before it.
   * @throws {Refused} where it is no reference
   */
  removePassword(text: Text, grammar?: Grammar): string;

  /**
   * A reference with this password in place of its own, as it stands: `encode` for a `"user"` makes one that may stand there.
   * @throws {Refused} where it is no reference
   */
  replacePassword(text: Text, password: Text, grammar?: Grammar): string;

  /**
   * A reference without its fragment and the `#` before it.
   * @throws {Refused} where it is no reference
   */
  removeFragment(text: Text, grammar?: Grammar): string;

  /**
   * A reference with this fragment, without its `#`, in place of its own.
   * @throws {Refused} for the first fault of the reference, and then of the fragment
   */
  setFragment(text: Text, fragment: Text, grammar?: Grammar): string;

  /**
   * A reference with this host, an IP literal with its brackets, in place of its own.
   * @throws {Refused} where it is no reference, where the host is none, and where the reference has none
   */
  replaceHost(text: Text, host: Text, grammar?: Grammar): string;

  /**
   * A reference with this host in place of a registered name: `replaceHost`, but that an IP address stays.
   * @throws {Refused} as `replaceHost`, and where the reference's host is an IP literal or an IPv4 address
   */
  replaceRegName(text: Text, host: Text, grammar?: Grammar): string;

  // Encodings.

  /**
   * The canonical text of a reference of IRIs against a base, mapped to a URI (RFC 3987 section 3.1). A host past ASCII becomes
   * percent-encoded octets too, and not Punycode.
   * @throws {Refused} for the first fault of the base, and then of the reference
   */
  canonicalizeToUri(base: Text, reference: Text, mode?: Mode): string;

  /**
   * A reference of IRIs, mapped to one of URIs (RFC 3987 section 3.1).
   * @throws {Refused} where it is no reference of IRIs
   */
  mapToUri(text: Text): string;

  /**
   * A raw text, percent-encoded for its place.
   * @throws {Refused} where it isn't UTF-8
   */
  encode(text: Text, place: Place, grammar?: Grammar): string;

  /**
   * The bytes that a text decodes to; a `%` that begins no percent-encoded octet stays.
   * @throws {Refused} where a string has a lone surrogate, which has no bytes
   */
  decode(text: Text): Uint8Array;

  // Templates.

  /**
   * The expansion of a URI template (RFC 6570 section 3).
   * @throws {Refused} for the first variable that isn't UTF-8, and then for the template's first fault
   */
  expand(template: Text, variables?: Variables, grammar?: Grammar): string;

  /**
   * The names of a template's variables, from left to right, each as often as it stands there.
   * @throws {Refused} for the template's first fault
   */
  templateVariables(template: Text): string[];

  // Words.

  /** The words for a kind of fault. */
  faultWords(fault: Fault): string;

  /** The words for a kind of fault of a template. */
  templateFaultWords(fault: TemplateFault): string;
}
