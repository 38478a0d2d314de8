// Where the first fault of a text is.
import { bytesOf } from "./steps.mjs";

const SCHEME = /^[A-Za-z][A-Za-z0-9+.-]*/;
const AUTHORITY = /\/\/(?:(?<userinfo>[^/?#@]*)@)?(?<host>[^/?#]*)/;
const AFTER = /(?<path>[^?#]*)(?:\?(?<query>[^#]*))?(?:#(?<fragment>.*))?$/;
const PARTS = new RegExp(`^(?:${SCHEME.source.slice(1)}:)?(?:${AUTHORITY.source})?${AFTER.source}`, "ds");
const PART_OF = {
  "invalid-userinfo": "userinfo", "invalid-host": "host", "invalid-reg-name": "host", "invalid-port": "host", "invalid-path": "path",
  "invalid-query": "query", "invalid-fragment": "fragment",
};

// The last place up to which a part is as it should be: `holds` says so of a place, and of none after one where it doesn't.
function lastPlace(start, end, holds) {
  let low = start, high = end;
  while (low < high) {
    const middle = Math.ceil((low + high) / 2);
    if (holds(middle)) low = middle;
    else high = middle - 1;
  }
  return low;
}

// A place, or that before a percent-encoded octet or a pair of surrogates which it cuts.
function whole(text, start, place) {
  for (const back of [1, 2]) if (place - back >= start && text[place - back] === "%") return place - back;
  return place > start && /[\ud800-\udbff]/.test(text[place - 1]) ? place - 1 : place;
}

// From this place on a percent-encoded octet as far as it goes, or a character.
function oneAfter(text, place, end) {
  const len = text[place] === "%" ? 3 : String.fromCodePoint(text.codePointAt(place) ?? 0).length;
  return [place, Math.min(place + len, end)];
}

// The range that the first fault of a text, which is of this kind, begins with: a character, a lone surrogate, a percent-encoded
// octet, a fragment, or a host in brackets. Null where what is wrong is that something lacks. `isReference` says whether a text is a
// reference.
function faultRange(text, kind, isReference) {
  if (kind === "invalid-scheme") return oneAfter(text, SCHEME.exec(text)?.[0].length ?? 0, text.length);
  if (kind === "unexpected-fragment") return [text.indexOf("#"), text.length];
  if (kind === "invalid-utf8") return oneAfter(text, text.search(/\p{Surrogate}/u), text.length);
  const part = PART_OF[kind];
  if (part === undefined) return null;
  const [start, end] = PARTS.exec(text).indices.groups[part];
  if (part === "host" && text[start] === "[") return [start, end];
  const close = part === "userinfo" ? "@" : "";
  const holds = (place) => isReference(text.slice(0, whole(text, start, place)) + close);
  return oneAfter(text, whole(text, start, lastPlace(start, end, holds)), end);
}

// The range of the character at a place in bytes of UTF-8.
function characterAt(text, place) {
  let at = 0;
  for (let bytes = 0; bytes < place && at < text.length; at += text.codePointAt(at) > 0xffff ? 2 : 1) {
    bytes += bytesOf(text.codePointAt(at));
  }
  return oneAfter(text, at, text.length);
}

export { faultRange, characterAt };
