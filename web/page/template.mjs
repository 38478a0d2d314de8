// A template and its variables, and what it expands to.
import { answer, expand } from "./reading.mjs";
import { coloured, element, refused, shownText, way } from "./shown.mjs";

// A line of variables: a name, in brackets what makes it a list or gives a key, and a text.
const LINE = /^\s*([^=[\]]+?)\s*(?:\[([^\]]*)\]\s*)?=(.*)$/s;

// The values of variables by their names, of lines `name=text`, `name[]=item` and `name[key]=value`; or the number of the first
// line that is none. An item and a pair are put to those before, or take the place of another kind of value.
function readVariables(text) {
  const values = new Map();
  for (const [i, line] of text.split("\n").entries()) {
    if (line === "") continue;
    const [, name, key, value] = LINE.exec(line) ?? [];
    if (name === undefined) return { badLine: i + 1 };
    const before = values.get(name);
    if (key === undefined) values.set(name, value);
    else if (key !== "") values.set(name, (before instanceof Map ? before : new Map()).set(key, value));
    else if (Array.isArray(before)) before.push(value);
    else values.set(name, [value]);
  }
  return { values };
}

// The result of a template: its expansion and, on a page whose address is a base, the canonical text of that.
function shown(base, { text, lacking }) {
  const stations = [["expanded", element("div", "text", ...shownText(text))]];
  if (base !== null) {
    const { parts, refusal } = answer(base, text);
    stations.push(["as a link of the page", ...(refusal ? refused(text, refusal) : [coloured(parts)])]);
  }
  return lacking.length ? [way(stations), element("p", "lacking", `Without a value: ${lacking.join(", ")}`)] : [way(stations)];
}

// Shows what the template and the variables of two fields come to; the base is null where the page's address is none.
function showTemplate(base, [template, variables], place) {
  const { values = new Map(), badLine } = readVariables(variables.field.value), expanded = expand(template.field.value, values);
  const badTemplate = expanded.refusal && refused(template.field.value, expanded.refusal);
  const badVariables = badLine && [element("p", "why", `Line ${badLine} has no “name=” in front`)];
  for (const [{ field, told }, bad] of [[template, badTemplate], [variables, badVariables]]) {
    field.setAttribute("aria-invalid", String(bad !== undefined));
    told.replaceChildren(...(bad ?? []));
  }
  place.replaceChildren(...(badTemplate || badVariables ? [] : shown(base, expanded)));
}

export { readVariables, showTemplate };
