// The module that is tested: that of the folder which IRIKIT names, as `web/build` fills it.
import { readFileSync } from "node:fs";
import { resolve } from "node:path";
import { pathToFileURL } from "node:url";

const folder = resolve(process.env.IRIKIT ?? ".");
const library = await import(pathToFileURL(`${folder}/irikit.mjs`));
const kit = await library.open();

// The rows of a file of examples: lines of texts between tabs.
function rows(name) {
  const text = readFileSync(new URL(`../../examples/${name}`, import.meta.url), "utf8");
  return text.trimEnd().split("\n").map((line) => line.split("\t"));
}

export { folder, library, kit, rows };
