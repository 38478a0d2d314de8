// The page: its fields, what they are read by, and where what they come to is shown.
import { allTexts, clearAnswers, showAnswers, showBase, showMore } from "./answers.mjs";
import { copyBy } from "./copy.mjs";
import { NAMES, START, exampleOf } from "./examples.mjs";
import { clearPair, showPair, showVerdict } from "./pair.mjs";
import { choose, load } from "./reading.mjs";
import { button, element } from "./shown.mjs";
import { fromFragment, toFragment } from "./state.mjs";
import { showTemplate } from "./template.mjs";

const FIELDS = ["base", "links", "one", "other", "template", "variables"], CHOICES = ["grammar", "mode"];
const PAUSE = 300;

const at = (id) => document.getElementById(id);
const radio = (name, chosen) => document.querySelector(`input[name=${name}]${chosen}`);

function values() {
  const fields = FIELDS.map((name) => [name, at(name).value]);
  return Object.fromEntries([...fields, ...CHOICES.map((name) => [name, radio(name, ":checked").value])]);
}

function setValues(state) {
  for (const name of FIELDS) at(name).value = state[name];
  for (const name of CHOICES) radio(name, `[value=${state[name]}]`).checked = true;
}

// Writes a text into a field, as if it were typed.
function write(field, text) {
  field.value = text;
  field.focus();
  show();
  keep();
}

// Writes a text in place of a line of the links.
function writeLine(i, text) {
  const lines = at("links").value.split("\n");
  write(at("links"), lines.with(i, text).join("\n"));
}

// A field, where it is told why it is refused, and how its text is mended.
const told = (id) => ({ field: at(id), told: at(`${id}-answer`), write: (text) => write(at(id), text) });

function show() {
  const { base, links, grammar, mode } = values(), pair = [told("one"), told("other")];
  const places = { list: at("answers"), tally: at("tally"), more: at("more"), write: writeLine };
  choose({ grammar, mode });
  const isBase = showBase(at("base"), at("base-answer"), told("base").write);
  if (isBase) {
    showAnswers(base, [base, grammar, mode], links, places);
    showPair(base, pair, at("verdict"), at("ways"));
  } else {
    clearAnswers(places);
    clearPair(pair, at("verdict"), at("ways"));
  }
  showTemplate(isBase ? base : null, [told("template"), told("variables")], at("expansion"));
}

// Puts the state into the fragment. Says whether it isn't too long for that.
function keepNow() {
  const fragment = toFragment(values());
  at("unkept").hidden = fragment !== null;
  history.replaceState(null, "", fragment ?? "#");
  return fragment !== null;
}

// Does so once nothing was typed for a while.
let pending;
function keep() {
  clearTimeout(pending);
  pending = setTimeout(keepNow, PAUSE);
}

function take(state) {
  showMore(false);
  setValues(state);
  show();
}

function press(id, act) {
  at(id).addEventListener("click", act);
}

// Examples, reset, copies, and the way past many answers.
function startButtons() {
  at("examples").append(...NAMES.map((name) => element("li", "", button(name, () => { take(exampleOf(name)); keep(); }))));
  press("reset", () => { take(START); keep(); });
  press("permalink", () => { if (keepNow()) copyBy(at("permalink"), location.href); });
  press("copy-all", () => copyBy(at("copy-all"), allTexts()));
  press("past", () => at("one").focus());
  press("more", () => { showMore(true); show(); });
}

// The module is in the page where the page is one file.
function inside() {
  const coded = at("module")?.textContent;
  if (coded === undefined) return undefined;
  const letters = atob(coded), bytes = new Uint8Array(letters.length);
  for (let i = 0; i < letters.length; i += 1) bytes[i] = letters.charCodeAt(i);
  return bytes;
}

async function start() {
  await load(inside());
  take(fromFragment(location.hash));
  // What was typed just before is kept no more, also where it took the place of the address that was gone to.
  addEventListener("hashchange", ({ newURL }) => { take(fromFragment(new URL(newURL).hash)); keep(); });
  document.querySelector("main").addEventListener("input", () => { show(); keep(); });
  startButtons();
}

start().catch((error) => {
  showVerdict(at("verdict"), ["refused", `This browser doesn’t run the library: ${error.message}`]);
});
