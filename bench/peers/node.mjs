// Node's URL, which follows the URL Standard: the first line is the base, each further line a reference, answered `ok TEXT` or `bad`.
import { readFileSync, writeSync } from "node:fs";

const [base, ...references] = readFileSync(0, "utf8").split("\n");
references.pop();
const answers = references.map((reference) => {
  try {
    return `ok ${new URL(reference, base).href}\n`;
  } catch {
    return "bad\n";
  }
});
for (let at = 0; at < answers.length; at += 1000) writeSync(1, answers.slice(at, at + 1000).join(""));
