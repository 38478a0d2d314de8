// Answers the lines on standard input as `irikit canon uri|iri [scheme]` does.
//
// usage: IRIKIT=FOLDER node lines.mjs uri|iri [scheme]
import { isUtf8 } from "node:buffer";
import { readFileSync } from "node:fs";
import { kit, library } from "./kit.mjs";

// The lines: an LF ends one, and one CR before it is no part of it. A line is a string where it can be.
function lines(input) {
  const found = [];
  for (let at = 0; at < input.length;) {
    const lf = input.indexOf(10, at), end = lf < 0 ? input.length : lf;
    const line = input.subarray(at, end > at && input[end - 1] === 13 ? end - 1 : end);
    found.push(isUtf8(line) ? line.toString() : line);
    at = end + 1;
  }
  return found;
}

function answer(base, reference, grammar, mode) {
  try {
    return `ok ${kit.canonical(base, reference, grammar, mode)}\n`;
  } catch (error) {
    if (!(error instanceof library.Refused)) throw error;
    return `${error.whose === "base" ? "base" : "bad"} ${error.message}\n`;
  }
}

const [, , grammar, mode = "normal"] = process.argv;
const [base, ...references] = lines(readFileSync(0));
process.stdout.write(references.map((reference) => answer(base, reference, grammar, mode)).join(""));
