// What the page's fields have, as a fragment: base=..&link=..&link=..&one=..&other=..&template=..&var=..&grammar=iri&mode=scheme.
import { START } from "./examples.mjs";

const LONGEST = 8000;
const LINES = { links: "link", variables: "var" };

// The fields' values by a fragment; what it doesn't have is what they begin with.
function fromFragment(fragment) {
  const given = new URLSearchParams(fragment.slice(1)), state = { ...START };
  for (const name of ["base", "one", "other", "template"]) state[name] = given.get(name) ?? state[name];
  for (const [field, name] of Object.entries(LINES)) if (given.has(name)) state[field] = given.getAll(name).join("\n");
  if (given.get("grammar") === "iri") state.grammar = "iri";
  if (given.get("mode") === "scheme") state.mode = "scheme";
  return state;
}

// The fragment of the fields' values; null where it would be too long for a link.
function toFragment(state) {
  if (Object.values(state).some((text) => text.length > LONGEST)) return null;
  const { base, links, one, other, template, variables, grammar, mode } = state;
  const lines = (field, text) => text.split("\n").map((line) => [LINES[field], line]);
  const pairs = [["base", base], ...lines("links", links), ["one", one], ["other", other]];
  pairs.push(["template", template], ...lines("variables", variables));
  if (grammar !== "uri") pairs.push(["grammar", grammar]);
  if (mode !== "normal") pairs.push(["mode", mode]);
  const text = String(new URLSearchParams(pairs));
  return text.length > LONGEST ? null : `#${text}`;
}

export { fromFragment, toFragment };
