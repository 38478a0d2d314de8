// Links a second of processor time, for the lines of a file against its first line: a call for each, all in one call, as a list and
// as lines, and `new URL`; the best of five rounds.
//
// usage: IRIKIT=FOLDER node bench.mjs uri|iri FILE
import { readFileSync } from "node:fs";
import { kit } from "./kit.mjs";

const [, , grammar, file] = process.argv;
const [base, ...links] = readFileSync(file, "utf8").trimEnd().split("\n");
const lines = `${links.join("\n")}\n`;

// Measures rounds, each of which says how many links it took.
function measure(name, round) {
  let least = Infinity, good = 0;
  for (let i = 0; i < 5; i += 1) {
    const before = process.cpuUsage();
    good = round();
    const { user, system } = process.cpuUsage(before);
    least = Math.min(least, user + system);
  }
  const rate = Math.round((links.length * 1e6) / least).toLocaleString("en");
  console.log(`${name.padEnd(18)} ${rate.padStart(10)} links a second, ${good} of ${links.length} taken`);
}

// A round of a call for each link.
const each = (call) => () => {
  let good = 0;
  for (const link of links) try { call(link); good += 1; } catch { /* a refused link is an answer too */ }
  return good;
};

measure("kit.canonical", each((link) => kit.canonical(base, link, grammar)));
measure("kit.canonicalMany", () => kit.canonicalMany(base, links, grammar).filter((text) => text !== null).length);
const isGood = (line) => line.startsWith("ok ");
measure("kit.canonicalLines", () => kit.canonicalLines(base, lines, grammar).split("\n").filter(isGood).length);
measure("new URL", each((link) => new URL(link, base).href));
