// Texts as elements: parts in colours, changed letters underlined, faults marked, what can't be seen by its code.
import { inWords } from "./steps.mjs";

const DELIMITERS = { scheme: ["", ":"], userinfo: ["", "@"], port: [":", ""], query: ["?", ""], fragment: ["#", ""] };
const PARTS = ["scheme", "userinfo", "host", "port", "path", "query", "fragment"];
// Of a longer text only the ends are shown, and none of it is underlined.
const LONGEST = 2000, END = 800;
const UNSEEN = /((?! )[\p{C}\p{Z}\p{Default_Ignorable_Code_Point}])/u;

// An element with a class and what is in it.
function element(name, className, ...inside) {
  const made = document.createElement(name);
  if (className) made.className = className;
  made.append(...inside);
  return made;
}

// A text that may be broken into lines after its slashes.
const breakable = (text) => text.split(/(?<=\/)(?=[^/])/).flatMap((piece, i) => (i ? [element("wbr"), piece] : [piece]));

// A text with its invisible characters by their codes, which the style sheet writes: no text is changed by it.
function seen(text) {
  if (!UNSEEN.test(text)) return breakable(text);
  return text.split(UNSEEN).flatMap((piece, i) => {
    if (i % 2 === 0) return breakable(piece);
    const made = element("span", "unseen", piece);
    made.dataset.code = `U+${piece.codePointAt(0).toString(16).toUpperCase().padStart(4, "0")}`;
    return [made];
  });
}

// What is shown of a text.
function shownText(text) {
  if (text.length <= LONGEST) return seen(text);
  const front = text.slice(0, END).replace(/[\ud800-\udbff]$/, ""), back = text.slice(-END).replace(/^[\udc00-\udfff]/, "");
  const count = (text.length - front.length - back.length).toLocaleString("en");
  return [...seen(front), element("span", "cut", ` … ${count} characters more … `), ...seen(back)];
}

// A text in pieces, those at these places underlined.
function underlined(text, places) {
  if (text.length > LONGEST) return shownText(text);
  const pieces = [];
  let at = 0;
  for (const letter of text) {
    const changed = places.has(at), last = pieces.at(-1);
    if (last?.changed === changed) last.text += letter;
    else pieces.push({ changed, text: letter });
    at += letter.length;
  }
  return pieces.flatMap((piece) => (piece.changed ? [element("u", "", ...seen(piece.text))] : seen(piece.text)));
}

// Parts put together.
function coloured(parts, places = {}) {
  const line = element("div", "text"), delimiter = (text) => text && line.append(element("span", "delimiter", text));
  for (const name of PARTS) {
    if (name === "userinfo" && parts.authority !== undefined) delimiter("//");
    if (parts[name] === undefined) continue;
    const [before, after] = DELIMITERS[name] ?? ["", ""];
    delimiter(before);
    line.append(element("span", name, ...underlined(parts[name], places[name] ?? new Set())));
    delimiter(after);
  }
  return line;
}

function button(label, act) {
  const made = element("button", "", label);
  made.type = "button";
  made.addEventListener("click", act);
  return made;
}

// A refused text, where its fault is in a place, and the words for it; the rule that it breaks, and a button that lets `write` put
// the mended text in its place.
function refused(text, { range, words, rule, mend }, write) {
  const why = [element("p", "why", words)];
  if (rule !== undefined) why.push(element("p", "rule", rule, "."));
  if (mend !== undefined && write !== undefined) why.at(-1).append(" ", button(mend.label, () => write(mend.text)));
  if (range === null) return why;
  const [before, marked, after] = [[0, range[0]], range, [range[1]]].map((ends) => shownText(text.slice(...ends)));
  return [element("div", "given", ...before, element("mark", "", ...marked), ...after), ...why];
}

// What this browser makes of a link, and why.
function besides({ href, why }) {
  const said = href === null ? "nothing: it refuses the link" : element("span", "href", ...shownText(href));
  return element("p", "browser", element("span", "by", "This browser’s new URL, by the URL Standard, makes of it"), " ", said, ". ", why);
}

// A way by stations: the name of each, and what is shown there.
const way = (stations) => element("ol", "way", ...stations.map(([name, ...shown]) =>
  element("li", "", element("span", "name", name), ...shown)));

// Changes in words, as a list of phrases.
const phrases = (told) => element("ul", "phrases", ...inWords(told).map((words) => element("li", "", words)));

export { PARTS, element, shownText, coloured, button, refused, besides, way, phrases };
