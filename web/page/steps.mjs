// What the library's steps do to a target: which changes, in which parts, and where in the canonical text they show.

const STEP = /^([a-z]+ letter|hex digit|decode|[a-z]+ port|dot segments|empty path)(?: ([a-z]+))?(?: (\d+))?$/;
const PART_OF = {
  "scheme letter": "scheme", "host letter": "authority", "empty port": "authority", "default port": "authority",
  "dot segments": "path", "empty path": "path",
};

// How many bytes of UTF-8 a character has, by its code; how many octets, by the first one.
const bytesOf = (code) => 1 + (code > 0x7f) + (code > 0x7ff) + (code > 0xffff);
const octetsOf = (first) => 1 + (first > 0xbf) + (first > 0xdf) + (first > 0xef);

// A part as steps leave it that go from left to right: what they changed, and what stands before that.
class Walk {
  read = 0;
  written = "";
  bytes = 0;
  places = new Set();

  constructor(text) {
    this.text = text;
  }

  // Takes over what stands before a place, which counts bytes of what is written.
  goTo(place) {
    const begin = this.read;
    while (this.bytes < place) {
      const code = this.text.codePointAt(this.read);
      this.bytes += bytesOf(code);
      this.read += code > 0xffff ? 2 : 1;
    }
    this.written += this.text.slice(begin, this.read);
  }

  // Writes a character for some of the text.
  change(character, taken) {
    this.places.add(this.written.length);
    this.written += character;
    this.bytes += bytesOf(character.codePointAt(0));
    this.read += taken;
  }

  // A letter in lower case: the next one, or the last one, where that was decoded.
  lower(place) {
    if (place < this.bytes) this.written = this.written.slice(0, -1) + this.written.at(-1).toLowerCase();
    else this.change(this.text[this.read].toLowerCase(), 1);
  }

  decode() {
    const taken = 3 * octetsOf(parseInt(this.text.slice(this.read + 1, this.read + 3), 16));
    this.change(decodeURIComponent(this.text.slice(this.read, this.read + taken)), taken);
  }

  // Takes over what is left.
  finish() {
    this.written += this.text.slice(this.read);
    this.read = this.text.length;
  }
}

// The ranges of a path that stay where its dot segments go (RFC 3986 section 5.2.4), each but the first with the slash before it.
function keptRanges(path) {
  const kept = [];
  let begin = 0, isFirst = true;
  for (const segment of path.split("/")) {
    const end = begin + segment.length, isLast = end === path.length, isDots = segment === "." || segment === "..";
    if (segment === ".." && !isFirst) kept.pop();
    if (!isDots) kept.push([isFirst ? begin : begin - 1, end]);
    else if (isLast && !isFirst) kept.push([begin - 1, begin]);
    isFirst &&= isDots;
    begin = end + 1;
  }
  return kept;
}

// Removes the dot segments of a path. A `/.` stays before what would begin with two slashes where no authority stands.
function removeDots(walk, hasAuthority) {
  const path = walk.written, places = walk.places;
  walk.written = "";
  walk.places = new Set();
  for (const [begin, end] of keptRanges(path)) {
    for (let i = begin; i < end; i += 1) if (places.has(i)) walk.places.add(walk.written.length + i - begin);
    walk.written += path.slice(begin, end);
  }
  if (hasAuthority || !walk.written.startsWith("//")) return;
  walk.written = `/.${walk.written}`;
  walk.places = new Set([...walk.places].map((place) => place + 2));
}

// Lets a walk through a part go a step.
function take(walk, what, place, from) {
  if (place === undefined) walk.finish();
  else walk.goTo(place);
  if (what === "scheme letter" || what === "host letter") walk.lower(place);
  else if (what === "hex digit") walk.change(walk.text[walk.read].toUpperCase(), 1);
  else if (what === "decode") walk.decode();
  else if (what === "dot segments") removeDots(walk, from.authority !== undefined);
  else if (what === "empty path") walk.change("/", 0);
  else walk.written = walk.written.replace(/:\d*$/, "");
}

// What is told of a step, and the part that it is told of.
function phraseOf(what, part, walk, from) {
  if (part === "authority") part = from.userinfo !== undefined && walk.read <= from.userinfo.length ? "userinfo" : "host";
  if (what === "dot segments" && walk.written.startsWith("/.//")) return ["guard", part];
  return [what.endsWith(" letter") ? "letter" : what, what.endsWith("port") ? "port" : part];
}

// The places in an authority, as those in its userinfo and in its host.
function placesOfAuthority({ written, places }) {
  const host = written.indexOf("@") + 1, all = [...places];
  return {
    userinfo: new Set(all.filter((place) => place < host)),
    host: new Set(all.filter((place) => place >= host).map((place) => place - host)),
  };
}

// What steps do to a target, given in parts: the changes, each once and with the parts that it changes, but for those of parts that
// are skipped; for each part the places in the canonical text that they changed; and the parts that they lead to.
function replay(from, steps, skipped = []) {
  const walks = new Map(), told = new Map();
  for (const part of ["scheme", "authority", "path", "query", "fragment"]) {
    if (from[part] !== undefined) walks.set(part, new Walk(from[part]));
  }
  for (const step of steps) {
    const [, what, named, at] = STEP.exec(step), part = named ?? PART_OF[what], walk = walks.get(part);
    take(walk, what, at && Number(at), from);
    const [phrase, of] = phraseOf(what, part, walk, from);
    if (!skipped.includes(of)) told.set(phrase, (told.get(phrase) ?? new Set()).add(of));
  }
  const places = {}, to = {};
  for (const [part, walk] of walks) {
    walk.finish();
    Object.assign(places, part === "authority" ? placesOfAuthority(walk) : { [part]: walk.places });
    to[part] = walk.written;
  }
  for (const part of skipped) places[part] = new Set();
  return { told, places, to };
}

function listed(parts) {
  const all = [...parts], last = all.pop();
  return all.length ? `${all.join(", ")} and ${last}` : last;
}

const WORDS = {
  letter: (parts) => `${listed(parts)} in lower case`,
  "empty port": () => "empty port removed",
  "default port": () => "default port removed",
  "dot segments": () => "dot segments removed",
  guard: () => "dot segments removed, “/.” kept before “//”",
  "empty path": () => "empty path made “/”",
  decode: (parts) => `needless percent-encoding decoded in ${listed(parts)}`,
  "hex digit": (parts) => `hex digits in upper case in ${listed(parts)}`,
};

// Changes in words, a phrase each.
const inWords = (told) => [...told].map(([phrase, parts]) => WORDS[phrase](parts));

export { bytesOf, replay, inWords };
