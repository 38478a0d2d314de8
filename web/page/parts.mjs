// The parts of a text in a table, with what their octets decode to.
import { decode, split } from "./reading.mjs";
import { PARTS, element, shownText } from "./shown.mjs";

// What the octets of a part decode to, where that is another text; where they are no UTF-8, the octets.
function decoded(part) {
  const octets = decode(part);
  try {
    const text = new TextDecoder("utf-8", { fatal: true, ignoreBOM: true }).decode(octets);
    return text === part ? "" : text;
  } catch {
    return `not UTF-8: ${[...octets].map((octet) => octet.toString(16).toUpperCase().padStart(2, "0")).join(" ")}`;
  }
}

function table(text) {
  const parts = split(text), head = ["Part", "Text", "Decoded"].map((name) => element("th", "", name));
  const rows = PARTS.filter((name) => parts[name] !== undefined).map((name) => {
    const first = element("th", name, name);
    first.scope = "row";
    const cells = [parts[name], decoded(parts[name])].map((text) => element("td", "", ...shownText(text)));
    return element("tr", "", first, ...cells);
  });
  head.forEach((cell) => { cell.scope = "col"; });
  return element("table", "parts", element("thead", "", element("tr", "", ...head)), element("tbody", "", ...rows));
}

// The table of a text, folded up, and made when it is unfolded.
function foldedParts(text) {
  const made = element("details", "", element("summary", "", "Parts"));
  made.addEventListener("toggle", () => { if (made.open && !made.querySelector("table")) made.append(table(text)); });
  return made;
}

export { decoded, foldedParts };
