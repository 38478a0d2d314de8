// What this browser's own `new URL`, which follows the URL Standard, makes of a link, and why that is another text.

const SPECIAL = /^(?:https?|wss?|ftp|file)$/i;
const PORTS = { http: "80", ws: "80", https: "443", wss: "443", ftp: "21" };
// RFC 3986 appendix B, and the parts of an authority.
const AUTHORITY = /\/\/(?:(?<userinfo>[^/?#]*)@)?(?<host>\[[^\]/?#]*\]|[^:/?#]*)(?::(?<port>[^/?#]*))?/;
const AFTER = /(?<path>[^?#]*)(?:\?(?<query>[^#]*))?(?:#(?<fragment>.*))?/;
const PARTS = new RegExp(`^(?:(?<scheme>[^:/?#]+):)?(?:${AUTHORITY.source})?${AFTER.source}$`, "s");
const FILE = "has rules of its own for “file:”";
const PAST_ASCII = /[^\0-\x7f]/;

const partsOf = (text) => ({ ...PARTS.exec(text)?.groups });

function hrefOf(link, base) {
  try {
    return new URL(link, base).href;
  } catch {
    return null;
  }
}

// How a link that is refused becomes a valid one.
function mendedBy(link, refusal, href) {
  const piece = refusal.range === null ? "" : link.slice(...refusal.range);
  if (/^[\0- ]/.test(piece) && (refusal.range[0] === 0 || /^[\0- ]*$/.test(link.slice(refusal.range[0])))) {
    return "drops spaces and control characters around a link";
  }
  if (/^[\t\n\r]$/.test(piece)) return "drops tabs and line ends";
  if (piece === "\\" && SPECIAL.test(partsOf(href).scheme)) return "reads “\\” as “/”";
  if (piece.startsWith("%")) return "lets a “%” stand that begins no percent-encoded octet";
  if (piece === "@") return "takes all before the last “@” for userinfo, and encodes what may not stand there";
  if (piece === ":" && href.includes(link)) return "lets “:” stand there";
  if (PAST_ASCII.test(piece) && href.includes("xn--")) return "writes a host past ASCII in Punycode";
  if (!piece.isWellFormed()) return "takes U+FFFD for half of a surrogate pair";
  const encoded = encodeURIComponent(piece);
  if (encoded !== piece && href.includes(encoded)) return `writes ${encoded} for what may not stand there`;
  if (piece && href.includes(piece)) return `lets “${piece}” stand there`;
  return /\.\.|%2e/i.test(link) ? "takes it, in a segment that “..” removes" : "mends a link where it can";
}

// Why a host is none.
function refusedHost({ scheme, host, port, userinfo }) {
  const name = host.replace(/\.$/, "").split(".").at(-1);
  if (host === "" && (userinfo !== undefined || port !== undefined)) return "wants a host beside userinfo and a port";
  if (SPECIAL.test(scheme) && host === "") return `wants a host after “${scheme}:”`;
  if (/^file$/i.test(scheme) && port !== undefined) return "has no ports for “file:”";
  if (/^\[v/i.test(host)) return "knows no IP literals but IPv6 addresses";
  if (SPECIAL.test(scheme) && /^(?:\d+|0x[\da-f]*)$/i.test(name)) {
    return "reads a host whose last label is a number as an IPv4 address, and this is none";
  }
  if (/xn--/i.test(host)) return "refuses this host, whose “xn--” is no Punycode";
  return host.includes("%") ? "refuses this host, whose octets it decodes" : "refuses this host";
}

// Why a link is none.
function refusedFor({ target, from }, base) {
  if (hrefOf(base) === null) return "doesn’t take the page’s address";
  if (hrefOf(target) !== null) return "resolves nothing but a fragment against an address whose path has no slash in front";
  if (Number(from.port) > 65535) return "has no ports above 65,535";
  if (from.host !== undefined) return refusedHost(from);
  return SPECIAL.test(from.scheme) ? `wants a host after “${from.scheme}:”` : "refuses it";
}

// How another host of a scheme with rules of its own comes about.
function hostReason(theirs) {
  if (theirs.startsWith("[")) return "writes an IPv6 address in its shortest form";
  if (/^\d+\.\d+\.\d+\.\d+$/.test(theirs)) return "reads the host as the numbers of an IPv4 address";
  return theirs.includes("xn--") ? "writes a host past ASCII in Punycode" : "decodes the host and maps its characters";
}

// How other percent-encoded octets come about: what the link's target has in the part tells whether they were there.
function octetsReason(name, ours, theirs, from) {
  if (PAST_ASCII.test(ours)) return "writes percent-encoded octets for characters past ASCII";
  const written = theirs.match(/%[0-9A-F]{2}/g)?.find((octet) => !from.toUpperCase().includes(octet));
  if (written === undefined) return "leaves percent-encoded octets as the link has them";
  const character = String.fromCharCode(parseInt(written.slice(1), 16));
  return `writes ${written} for “${character}” in ${name === "userinfo" ? name : `a ${name}`}`;
}

// Why a part differs from that of the canonical text.
function reasonOf(name, { parts, from }, { [name]: theirs = "" }, octetsOf) {
  const ours = parts[name] ?? "", isSpecial = SPECIAL.test(parts.scheme);
  if (name === "port") return PORTS[parts.scheme] === ours ? "drops the scheme’s default port" : "reads the port as a number";
  if (name === "host" && parts.scheme === "file") return FILE;
  if (name === "host" && (isSpecial || theirs.startsWith("["))) return hostReason(theirs);
  if (name === "host" && ours === theirs.toLowerCase()) return "leaves the host of a scheme that it doesn’t know as it is";
  const withPassword = ours.replace(/:$/, "");
  if (name === "userinfo" && theirs === withPassword) return "drops an empty user and an empty password";
  if (name === "userinfo" && octetsOf(theirs) === octetsOf(withPassword) && withPassword !== ours) {
    return `drops an empty password and ${octetsReason(name, ours, theirs, from[name] ?? "")}`;
  }
  if (name === "path" && ours === "" && theirs === "/") return "writes “/” for an empty path";
  const octets = (text) => (name === "host" ? octetsOf(text).toLowerCase() : octetsOf(text));
  if (octets(ours) === octets(theirs)) return octetsReason(name, ours, theirs, from[name] ?? "");
  const isOpaque = name === "path" && parts.host === undefined && !theirs.startsWith("/");
  if (isOpaque) return "removes no dot segments from a path without a slash in front";
  return parts.scheme === "file" ? FILE : `reads the ${name} otherwise`;
}

// Whether the whole was read otherwise, and how.
function wholeReason(link, base, ours, theirs) {
  if (!SPECIAL.test(ours.scheme) || ours.host) return null;
  const { scheme } = partsOf(link), isOfBase = scheme?.toLowerCase() === partsOf(base).scheme?.toLowerCase();
  if (isOfBase && !link.startsWith("//", scheme.length + 1)) {
    return "reads a link that has the page’s scheme and no “//” as a relative one";
  }
  return theirs.host ? `takes what follows “${ours.scheme}:” for a host, after any slashes` : null;
}

// Reasons in one sentence.
function sentence(reasons) {
  const all = [...new Set(reasons)], last = all.pop();
  return `It ${all.length ? `${all.join(", ")} and ${last}` : last}.`;
}

// What the browser makes of a link, null where it refuses it, and the reason, in a sentence; null where that is what the link comes
// to here. `octetsOf` gives the octets that a text decodes to.
function browserAnswer(base, answered, octetsOf) {
  const { link, text, parts, refusal } = answered, href = hrefOf(link, base);
  if (href === (text ?? null)) return null;
  if (refusal) return { href, why: sentence([mendedBy(link, refusal, href)]) };
  if (href === null) return { href, why: sentence([refusedFor(answered, base)]) };
  const theirs = partsOf(href), whole = wholeReason(link, base, parts, theirs);
  if (whole !== null) return { href, why: sentence([whole]) };
  const names = ["userinfo", "host", "port", "path", "query", "fragment"].filter((name) => parts[name] !== theirs[name]);
  return { href, why: sentence(names.map((name) => reasonOf(name, answered, theirs, octetsOf))) };
}

export { browserAnswer };
