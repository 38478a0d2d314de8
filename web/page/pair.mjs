// Two links, whether they are one, and how each becomes its canonical text.
import { browserAnswer } from "./browser.mjs";
import { foldedParts } from "./parts.mjs";
import { answer, octetsOf } from "./reading.mjs";
import { PARTS, besides, coloured, element, phrases, refused, shownText, way } from "./shown.mjs";
import { replay } from "./steps.mjs";

const NAMES = ["One link", "The other"];
const MOST_STEPS = 200;

// The steps in the library's words, folded up; the first of very many.
function stepList(steps, isOpen) {
  const count = `${steps.length} step${steps.length === 1 ? "" : "s"}`, more = steps.length - MOST_STEPS;
  const items = steps.slice(0, MOST_STEPS).map((step) => element("li", "", step));
  if (more > 0) items.push(element("li", "", `and ${more} more`));
  const made = element("details", "stepwise", element("summary", "", count), element("ol", "steps", ...items));
  made.open = isOpen;
  return made;
}

// The way of a link, and what the browser makes of it.
function wayOf(base, answered, isOpen) {
  const { link, text, parts, target, from, steps } = answered, { told, places } = replay(from, steps ?? []);
  const stations = [["as it stands", element("div", "text", ...shownText(link))]], other = browserAnswer(base, answered, octetsOf);
  if (target !== link && steps !== null) stations.push(["resolved against the page’s address", coloured(from)]);
  const stepwise = steps === null ? [] : [stepList(steps, isOpen)];
  if (text !== target || steps === null) stations.push(["in normal form", coloured(parts, places), phrases(told), ...stepwise]);
  return [way(stations), foldedParts(text), ...(other === null ? [] : [besides(other)])];
}

// The parts in which two texts differ, in words.
function differing(one, other) {
  const names = PARTS.filter((name) => one[name] !== other[name]), last = names.pop();
  return names.length ? `${names.join(", ")} and ${last} differ` : `${last} differs`;
}

// The verdict on two links: its kind, and what is shown of it.
function verdict([one, other]) {
  const bad = [one, other].findIndex(({ refusal }) => refusal);
  if (bad >= 0) return ["refused", `${NAMES[bad]} is refused`];
  if (one.link === "" && other.link === "") return ["none", "No links yet: both are empty"];
  if (one.text === other.text) return ["same", "Yes, they are one", coloured(one.parts)];
  return ["two", `No, they are two: their ${differing(one.parts, other.parts)}`];
}

function showVerdict(place, [kind, words, ...more]) {
  place.className = kind;
  place.replaceChildren(element("strong", "", words), ...more);
}

// Shows whether the link of a field is refused, and why, in the place that describes it.
function showRefusal({ field, told, write }, { link, refusal }) {
  field.setAttribute("aria-invalid", String(refusal !== undefined));
  told.replaceChildren(...(refusal ? refused(link, refusal, write) : []));
}

// Shows the verdict on the links of two fields, and their ways. Steps that were unfolded stay so.
function showPair(base, fields, place, ways) {
  const both = fields.map(({ field }) => answer(base, field.value)), isOpen = ways.querySelector(".stepwise[open]") !== null;
  const isNone = both.every(({ link }) => link === "");
  both.forEach((answered, i) => showRefusal(fields[i], answered));
  showVerdict(place, verdict(both));
  ways.replaceChildren();
  both.forEach((answered, i) => {
    if (!answered.refusal && !isNone) ways.append(element("h3", "", NAMES[i]), ...wayOf(base, answered, isOpen));
  });
}

// What is shown where the page's address is refused, against which the links would be resolved.
function clearPair(fields, place, ways) {
  for (const { field, told } of fields) {
    field.setAttribute("aria-invalid", "false");
    told.replaceChildren();
  }
  showVerdict(place, ["refused", "The page’s address is refused"]);
  ways.replaceChildren();
}

export { showPair, clearPair, showVerdict };
