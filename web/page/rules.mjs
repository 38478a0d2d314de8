// By which rule a text is refused, and what may be written instead.

// What each part is called, and the section of RFC 3986 that says what may stand in it.
const RULES = {
  "invalid-scheme": ["a scheme", "3.1"], "invalid-userinfo": ["userinfo", "3.2.1"], "invalid-host": ["a host", "3.2.2"],
  "invalid-reg-name": ["a registered name", "3.2.2"], "invalid-port": ["a port", "3.2.3"], "invalid-path": ["a path", "3.3"],
  "invalid-query": ["a query", "3.4"], "invalid-fragment": ["a fragment", "3.5"],
};
// What stands before a port, and a host in brackets with one.
const BEFORE_PORT = /\/\/(?:[^/?#]*@)?[^/?#@:[]*:[^/?#@]*$/, LITERAL_WITH_PORT = /^(\[[^\]]*\]):(.*)$/s;
const NAMES = { " ": "A space", "\t": "A tab", "\u00a0": "A no-break space", "\ufeff": "U+FEFF" };

const section = (number) => `RFC 3986 section ${number}`;

// A piece of a text, as a sentence begins with it.
function named(piece) {
  if (NAMES[piece]) return NAMES[piece];
  const code = piece.codePointAt(0).toString(16).toUpperCase().padStart(4, "0");
  return /^[\p{C}\p{Z}]$/u.test(piece) ? `U+${code}` : `“${piece}”`;
}

// The text with something else in a range of it, and what a button says that writes it.
const mended = (text, [start, end], instead, label) => ({ text: text.slice(0, start) + instead + text.slice(end), label });

// The rule that a character in a place breaks.
function ruleOf(text, fault, [start, end], { grammar, isOfIris }) {
  const piece = text.slice(start, end), [part, number] = RULES[fault];
  const cannot = `${named(piece)} may not stand in ${part}`;
  if (grammar === "uri" && piece > "\u007f" && isOfIris(`?${piece}`)) {
    const there = isOfIris(piece) ? part : "a query";
    return `${cannot}: a URI is ASCII (${section("2")}); in ${there} of an IRI it may (RFC 3987 section 2.2)`;
  }
  return `${cannot} (${grammar === "iri" && piece > "\u007f" ? "RFC 3987 section 2.2" : section(number)})`;
}

// What is told of a host in brackets, which is marked with its port.
function literalRule(piece, isOfIris) {
  const [, literal, port] = LITERAL_WITH_PORT.exec(piece) ?? [];
  if (literal !== undefined && isOfIris(`//${literal}`)) return portRule(port);
  return `“${piece}” is no IP literal (${section("3.2.2")})`;
}

const portRule = (piece) => `${named(piece)} may not stand in a port, which has digits alone (${section("3.2.3")})`;

// The rule by which a scheme is refused.
function schemeRule(text, [start, end]) {
  const piece = text.slice(start, end);
  if (start > 0) return `${named(piece)} may not stand in a scheme (${section("3.1")})`;
  return piece === ":" ? `No scheme stands before “:” (${section("3.1")})` : `A scheme begins with a letter (${section("3.1")})`;
}

// The rule that a fault of this kind breaks, which begins with a range of the text or with nothing; and the text with that mended,
// where percent-encoding or less may do it. `encode` writes a piece as percent-encoded octets; `isOfIris` says whether a text is an
// IRI reference.
function explain(text, fault, range, { grammar, encode, isOfIris }) {
  if (fault === "unexpected-relative") return { rule: `A base begins with a scheme (${section("4.3")})` };
  if (fault === "unexpected-fragment") {
    return { rule: `A base has no fragment (${section("4.3")})`, mend: mended(text, range, "", "Remove the fragment") };
  }
  if (fault === "invalid-scheme") return { rule: schemeRule(text, range) };
  if (range === null || range[0] === range[1]) return {};
  const [start, end] = range, piece = text.slice(start, end);
  if (fault === "invalid-utf8") return { rule: `${named(piece)} alone is half of a surrogate pair, and no character` };
  if (piece.startsWith("%")) {
    const rule = `“${piece}” isn’t “%” and two hex digits (${section("2.1")})`;
    return { rule, mend: mended(text, [start, start + 1], "%25", "Write %25 for “%”") };
  }
  if (fault === "invalid-host" && piece.startsWith("[")) return { rule: literalRule(piece, isOfIris) };
  const isOfPort = fault === "invalid-port" || (fault === "invalid-host" && BEFORE_PORT.test(text.slice(0, start)));
  if (isOfPort) return { rule: portRule(piece) };
  if (piece === ":" && fault === "invalid-path" && !/[/?#]/.test(text.slice(0, start))) {
    const rule = `“:” may not stand in the first segment of a relative path (${section("4.2")})`;
    return { rule, mend: mended(text, [0, 0], "./", "Write ./ in front") };
  }
  const rule = ruleOf(text, fault, range, { grammar, isOfIris });
  return { rule, mend: mended(text, range, encode(piece), `Write ${encode(piece)}`) };
}

export { explain };
