// The links of a page and what they come to.
import { browserAnswer } from "./browser.mjs";
import { copyButton } from "./copy.mjs";
import { foldedParts } from "./parts.mjs";
import { answer, baseRefusal, octetsOf, split } from "./reading.mjs";
import { besides, coloured, element, phrases, refused, shownText } from "./shown.mjs";
import { replay } from "./steps.mjs";

// How long a slice of a list may take, in milliseconds; between two the browser shows and hears.
const SLICE = 20;
const pause = () => new Promise((done) => setTimeout(done));
// How many answers are shown at once: each costs the browser time whenever it shows the page.
const PART = 500;

// The parts of a target that a link doesn't write itself.
function inherited(link) {
  const { scheme, authority, path, query } = split(link), names = [];
  if (scheme !== undefined) return names;
  names.push("scheme");
  if (authority !== undefined) return names;
  names.push("userinfo", "host", "port");
  if (path === "") names.push("path");
  if (path === "" && query === undefined) names.push("query");
  return names;
}

// The page's address: its canonical text where that is another one, or why it is refused. Says whether it is a base.
function showBase(field, place, write) {
  const base = field.value, refusal = baseRefusal(base);
  field.setAttribute("aria-invalid", String(refusal !== null));
  place.replaceChildren();
  if (refusal !== null) {
    place.append(...refused(base, refusal, write));
    return false;
  }
  const { parts, from, steps } = answer(base, base), { told, places } = replay(from, steps ?? []);
  if (told.size) place.append(coloured(parts, places), phrases(told));
  return true;
}

// What is shown of a link that isn't refused, and which earlier line has the same canonical text.
function good(answered, same) {
  const { link, text, parts, from, steps } = answered, { told, places } = replay(from, steps ?? [], steps ? inherited(link) : []);
  const notes = phrases(told);
  if (steps === null) notes.append(element("li", "", "too long to be explained"));
  if (same !== undefined) notes.prepend(element("li", "same", `same as line ${same}`));
  const shown = [coloured(parts, places), element("div", "more", notes, copyButton("Copy", () => text), foldedParts(text))];
  return link === text ? shown : [element("div", "given", ...shownText(link)), ...shown];
}

function item(base, answered, number, same, write) {
  const { link, refusal } = answered, made = element("li", refusal ? "refused" : "");
  const other = browserAnswer(base, answered, octetsOf);
  made.value = number;
  made.append(...(refusal ? refused(link, refusal, write) : good(answered, same)));
  if (other !== null) made.append(besides(other));
  return made;
}

// The items that stand, each with all that it was made from: of many links only those that change are made again.
let standing = [], texts = [];
let most = PART, last = 0;

// Drops the items from a place on.
function shorten(count) {
  const gone = standing.splice(count);
  if (!gone.length) return;
  const range = document.createRange();
  range.setStartBefore(gone[0].made);
  range.setEndAfter(gone.at(-1).made);
  range.deleteContents();
}

// Puts an item to its place, unless it stands there.
function stand(list, i, key, make) {
  if (standing[i]?.key === key) return;
  const made = make();
  if (standing[i] === undefined) list.append(made);
  else standing[i].made.replaceWith(made);
  standing[i] = { key, made };
}

// The counts of a list, in words.
function tallied(count, different, refusals) {
  const links = count - refusals, refusedToo = refusals ? `, ${refusals} refused` : "";
  return `${links} link${links === 1 ? "" : "s"}, ${different} different${refusedToo}`;
}

// Shows the answers to lines, or the first of very many, under what names base, grammar and mode, and counts all of them: in slices,
// until other lines are shown. `write` puts a text in place of a line.
async function showAnswers(base, under, lines, { list, tally, more, write }) {
  const links = lines.split("\n"), first = new Map(), found = [], mine = last += 1;
  if (links.at(-1) === "") links.pop();
  shorten(Math.min(links.length, most));
  more.hidden = links.length <= most;
  more.textContent = `Show more of ${(links.length - most).toLocaleString("en")} links`;
  list.setAttribute("aria-busy", "true");
  let until = performance.now() + SLICE;
  for (const [i, link] of links.entries()) {
    if (performance.now() > until) {
      await pause();
      if (mine !== last) return;
      until = performance.now() + SLICE;
    }
    const answered = answer(base, link), same = first.get(answered.text);
    if (!answered.refusal) found.push(answered.text);
    if (!answered.refusal && same === undefined) first.set(answered.text, i + 1);
    if (i >= most) continue;
    stand(list, i, JSON.stringify([under, same, link]), () => item(base, answered, i + 1, same, (text) => write(i, text)));
  }
  list.setAttribute("aria-busy", "false");
  texts = found;
  tally.textContent = tallied(links.length, first.size, links.length - found.length);
}

// Lets more answers be shown, or the first alone.
function showMore(isMore) {
  most = isMore ? most + PART : PART;
}

// The canonical texts of all links, a line each.
const allTexts = () => texts.map((text) => `${text}\n`).join("");

function clearAnswers({ list, tally, more }) {
  last += 1;
  texts = [];
  shorten(0);
  more.hidden = true;
  list.setAttribute("aria-busy", "false");
  tally.textContent = "";
}

export { showBase, showAnswers, showMore, allTexts, clearAnswers };
