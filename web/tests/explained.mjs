// Of the links on standard input, the first line their base: that the steps which the library tells lead from each link's target to
// its canonical text, replayed by the page's code.
//
// usage: IRIKIT=FOLDER node explained.mjs uri|iri [scheme]
import { readFileSync } from "node:fs";
import { replay } from "../page/steps.mjs";
import { kit } from "./kit.mjs";

const [, , grammar, mode = "normal"] = process.argv;
const [base, ...links] = readFileSync(0, "utf8").trimEnd().split("\n");
let good = 0, failed = 0;

// The parts put together (RFC 3986 section 5.3).
function recomposed({ scheme, authority, path, query, fragment }) {
  const front = (scheme === undefined ? "" : `${scheme}:`) + (authority === undefined ? "" : `//${authority}`);
  return front + path + (query === undefined ? "" : `?${query}`) + (fragment === undefined ? "" : `#${fragment}`);
}

for (const link of links.filter((line) => kit.validate(line, "reference", grammar) === null)) {
  const target = kit.target(base, link, grammar), text = kit.canonical(base, link, grammar, mode);
  const steps = kit.steps(target, grammar, mode), { to } = replay(kit.split(target, grammar), steps);
  if (recomposed(to) === text) good += 1;
  else if ((failed += 1) <= 5) console.log(`${link}\n  target    ${target}\n  canonical ${text}\n  and       ${recomposed(to)}`);
}
console.log(`${good} of ${links.length} links explained by their steps, ${failed} otherwise`);
process.exitCode = failed || !good ? 1 : 0;
