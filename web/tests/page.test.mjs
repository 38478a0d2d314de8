// The page in headless Chromium: typed links, both grammars and modes, a bad base, two links, a template, refused fields, rules and
// mending, what the browser makes of links, parts, many links, its state, examples and copies, the keyboard, labels, contrast,
// widths; no request and no error. The folder that PICTURES names gets pictures of it.
import assert from "node:assert/strict";
import { mkdirSync, readFileSync, writeFileSync } from "node:fs";
import { after, before, test } from "node:test";
import { pathToFileURL } from "node:url";
import { exampleOf } from "../page/examples.mjs";
import { fromFragment, toFragment } from "../page/state.mjs";
import { openPage } from "./chromium.mjs";
import { folder, kit, library, rows } from "./kit.mjs";

const { Refused } = library;
const address = pathToFileURL(`${folder}/irikit.html`).href;
const [base, ...links] = rows("links.txt").flat();
const state = (...pairs) => `#${new URLSearchParams(pairs)}`;
let page;

before(async () => {
  page = await openPage(address);
  await page.evaluate(`new Promise((done) => {
    const look = () => (document.getElementById("tally").textContent === "" ? setTimeout(look, 5) : done());
    look();
  })`);
});
after(() => page.close());

const ready = "new Promise((done) => requestAnimationFrame(() => setTimeout(done)))";

// Goes to the page with another fragment.
async function visit(hash) {
  await page.evaluate(`new Promise((done) => {
    history.replaceState(null, "", "#before");
    addEventListener("hashchange", done, { once: true });
    location.hash = ${JSON.stringify(hash)};
  }).then(() => ${ready})`);
}

// Types a text into a field, as a keyboard or a paste does.
async function type(id, text) {
  await page.evaluate(`{ const field = document.getElementById("${id}"); field.focus(); field.select(); }`);
  if (text === "") await press("Delete", 46);
  else await page.call("Input.insertText", { text });
}

async function press(key, code) {
  for (const type of ["rawKeyDown", "keyUp"]) {
    await page.call("Input.dispatchKeyEvent", { type, key, code: key, windowsVirtualKeyCode: code });
  }
}

const choose = (name, value) => page.evaluate(`document.querySelector("input[name=${name}][value=${value}]").click()`);
const all = (selector) => `[...document.querySelectorAll(${JSON.stringify(selector)})]`;
const textsOf = (selector) => page.evaluate(`${all(selector)}.map((found) => found.textContent)`);
const textOf = async (selector) => (await textsOf(selector)).join();
const invalid = (...ids) => page.evaluate(`[${ids.map((id) => `document.getElementById("${id}").getAttribute("aria-invalid")`)}]`);
const click = (selector) => page.evaluate(`document.querySelector(${JSON.stringify(selector)}).click()`);

// Waits until all links are answered.
const shownAll = `new Promise((done) => {
  const look = () => (document.getElementById("answers").getAttribute("aria-busy") === "false" ? done() : setTimeout(look, 5));
  look();
})`;

// The answers that the page shows, as `irikit canon` has them, but for the place of a fault.
const answers = () => page.evaluate(`${shownAll}.then(() => ${all("#answers > li")}.map((item) => item.className === "refused"
  ? "bad " + item.querySelector(".why").textContent.replace(/.*: |, at character.*/g, "")
  : "ok " + item.querySelector(".text").textContent))`);

function answer(link, grammar, mode, from = base) {
  try {
    return `ok ${kit.canonical(from, link, grammar, mode)}`;
  } catch (error) {
    if (!(error instanceof Refused)) throw error;
    return `bad ${error.message}`;
  }
}

test("typed links have the answers of README.md", async () => {
  const readme = readFileSync(new URL("../../README.md", import.meta.url), "utf8");
  const wanted = /<!-- links -->\n([^]*?)\n<!-- end -->/.exec(readme)[1].split("\n").map((line) => line.trim());
  await type("base", base);
  await type("links", links.join("\n"));
  assert.deepEqual(await answers(), wanted);
  assert.equal(await textOf("#tally"), "13 links, 13 different, 2 refused");
});

test("both grammars and modes", async () => {
  const from = "http://a/b/c/d;p?q", more = ["http://h:80", "HTTPS://h:443/", "caf\u00e9/%C3%A9", "x:/a/..//b", "a\u3000"];
  const typed = [...new Set(rows("rows.txt").map((row) => row[2])), ...more];
  await visit(state(["base", from], ...typed.map((link) => ["link", link])));
  for (const mode of ["normal", "scheme"]) {
    for (const grammar of ["uri", "iri"]) {
      await choose("mode", mode);
      await choose("grammar", grammar);
      assert.deepEqual(await answers(), typed.map((link) => answer(link, grammar, mode, from)));
    }
  }
});

test("what changed, and the line that is the same", async () => {
  const typed = ["a/%7Eb?%3f", "./x/../a/~b?%3F", "//B.com/"];
  const of = (line, what) => textsOf(`#answers > li:nth-child(${line}) ${what}`);
  await visit(state(["base", "HTTP://Example.COM:/docs/guide"], ...typed.map((link) => ["link", link])));
  assert.deepEqual(await textsOf("#base-answer li"), ["scheme and host in lower case", "empty port removed"]);
  assert.deepEqual(await of(1, "li"), ["needless percent-encoding decoded in path", "hex digits in upper case in query"]);
  assert.deepEqual(await of(1, "u"), ["~", "F"]);
  assert.deepEqual(await of(2, "li"), ["same as line 1", "dot segments removed"]);
  assert.deepEqual(await of(3, "li"), ["host in lower case"]);
  assert.deepEqual(await of(3, ".text > span"), ["http", ":", "//", "b.com", "/"]);
  assert.equal(await textOf("#tally"), "3 links, 2 different");
  for (const [lines, same] of [["a\na\n", ["same as line 1"]], ["b\na\n", []], ["\n", []]]) {
    await type("links", lines);
    assert.deepEqual(await textsOf("#answers .same"), same);
  }
  assert.equal(await textOf("#tally"), "1 link, 1 different");
});

test("the first fault and its place", async () => {
  await visit(state(["base", "http://h/"], ["link", "a b"], ["link", "//[1::2::3]/"]));
  assert.deepEqual(await textsOf("#answers .why"), [
    "Not a URI reference: invalid path, at character 2", "Not a URI reference: invalid host, at character 3"]);
  assert.deepEqual(await textsOf("#answers mark"), [" ", "[1::2::3]"]);
});

test("a bad base", async () => {
  const bad = { "http://a b/": "invalid host, at character 9", "/a": "no scheme", "a:/#f": "unexpected fragment, at character 4" };
  for (const [text, words] of Object.entries(bad)) {
    await type("base", text);
    assert.equal(await textOf("#base-answer .why"), `Not an absolute URI: ${words}`);
    assert.deepEqual(await invalid("base"), ["true"]);
    assert.deepEqual(await answers(), []);
    assert.equal(await textOf("#verdict"), "The page’s address is refused");
    assert.deepEqual(await textsOf("#expansion .name"), ["expanded"]);
  }
  await type("base", "http://h/");
  assert.deepEqual(await invalid("base"), ["false"]);
  assert.equal((await answers()).length, 2);
});

test("two links", async () => {
  await visit(state(["base", "http://h/a/"], ["one", "../%62"], ["other", "HTTP://h/b"]));
  assert.equal(await textOf("#verdict"), "Yes, they are onehttp://h/b");
  const stations = ["as it stands", "resolved against the page’s address", "in normal form"];
  assert.deepEqual(await textsOf("#ways .name"), [...stations, stations[0], stations[2]]);
  assert.deepEqual(await textsOf("#ways .text"), ["../%62", "http://h/a/../%62", "http://h/b", "HTTP://h/b", "http://h/b"]);
  assert.deepEqual(await textsOf("#ways .stepwise summary"), ["2 steps", "4 steps"]);
  assert.deepEqual(await textsOf("#ways .steps li"), [
    "decode path 6", "dot segments", ...[0, 1, 2, 3].map((at) => `scheme letter ${at}`)]);
  await type("other", "http://u@h/c#f");
  assert.equal(await textOf("#verdict"), "No, they are two: their userinfo, path and fragment differ");
  await type("other", "http://h/c");
  assert.equal(await textOf("#verdict"), "No, they are two: their path differs");
  await type("other", "##");
  assert.equal(await textOf("#verdict"), "The other is refused");
  assert.equal(await textOf("#other-answer .why"), "Not a URI reference: invalid fragment, at character 2");
  assert.deepEqual(await invalid("one", "other"), ["false", "true"]);
  await type("one", "");
  await type("other", "");
  assert.equal(await textOf("#verdict"), "No links yet: both are empty");
  assert.deepEqual(await textsOf("#ways *"), []);
  await type("other", "../a/");
  assert.equal(await textOf("#verdict"), "Yes, they are onehttp://h/a/");
});

test("links that read alike", async () => {
  await visit(state(["base", "http://h/"], ["one", "\ufeffa"], ["other", "a"], ["grammar", "iri"]));
  assert.equal(await textOf("#verdict"), "No, they are two: their path differs");
  assert.deepEqual(await page.evaluate(`${all("#ways .unseen")}.map(({ dataset }) => dataset.code)`), ["U+FEFF", "U+FEFF"]);
  await visit(state(["base", "http://h/"], ["one", "?"], ["other", ""], ["grammar", "iri"]));
  assert.equal(await textOf("#verdict"), "No, they are two: their query differs");
});

// The variables of RFC 6570 section 3.2, and the expansions of section 3.2.8.
test("a template", async () => {
  const variables = [
    "x=1024", "y=768", "empty=", "list[]=red", "list[]=green", "list[]=blue", "keys[semi]=;", "keys[dot]=.", " keys[comma] =,", ""];
  const wanted = {
    "{?x,y,undef}": "?x=1024&y=768", "{?x,y,empty}": "?x=1024&y=768&empty=", "{?list*}": "?list=red&list=green&list=blue",
    "{?keys}": "?keys=semi,%3B,dot,.,comma,%2C", "{?keys*}": "?semi=%3B&dot=.&comma=%2C",
  };
  await visit(state(["base", "http://h/a/"], ...variables.map((line) => ["var", line])));
  for (const [template, text] of Object.entries(wanted)) {
    await type("template", `../%7e${template}`);
    assert.deepEqual(await textsOf("#expansion .text"), [`../%7e${text}`, `http://h/~${text}`]);
    assert.equal(await textOf("#expansion .lacking"), template.includes("undef") ? "Without a value: undef" : "");
  }
  await type("template", "\u00e9{x");
  assert.equal(await textOf("#template-answer .why"), "Not a template: expression not closed, at character 2");
  assert.deepEqual(await textsOf("#template-answer mark"), ["{"]);
  await type("template", "{list:3}");
  assert.equal(await textOf("#template-answer .why"), "Not a template: unexpected value type for the variable, at character 2");
  await type("template", "#{+keys}#");
  assert.equal(await textOf("#expansion .why"), "Not a URI reference: invalid fragment, at character 22");
  await type("variables", "x=1\n[y]=2");
  assert.equal(await textOf("#variables-answer"), "Line 2 has no “name=” in front");
  assert.deepEqual(await invalid("template", "variables"), ["false", "true"]);
});

// A refused field is red, and what is wrong with it is what describes it (WCAG 2.1, 3.3.1 and 1.3.1).
test("refused fields are red and described", async () => {
  const bad = { base: "a", one: "a b", other: "%", template: "{", variables: "x" };
  const look = (id) => page.evaluate(`(() => {
    const field = document.getElementById("${id}"), { borderTopColor, backgroundColor } = getComputedStyle(field);
    const { textContent: told } = document.getElementById(field.getAttribute("aria-describedby"));
    return { colours: [borderTopColor, backgroundColor], told };
  })()`);
  for (const [id, text] of Object.entries(bad)) {
    await visit(state(["base", "http://h/"]));
    const before = await look(id);
    await type(id, text);
    const after = await look(id), [red, green, blue] = after.colours[0].match(/\d+/g).map(Number);
    assert.notDeepEqual(after.colours, before.colours, id);
    assert.ok(red > 2 * green && red > 2 * blue, `${id}: ${after.colours}`);
    assert.notEqual(after.told, before.told, id);
    assert.match(after.told, /^.*(Not an? |Line 1 has no )/, id);
  }
  await visit(state(["base", "http://h/"], ["template", "{x"], ["var", "q"]));
  assert.deepEqual(await invalid("template", "variables"), ["true", "true"]);
});

test("rules, and buttons that write what may stand", async () => {
  await visit(state(["base", "http://h/"], ["link", "b"], ["link", "a|b c"], ["link", "\u00e9"]));
  const rule = (line) => textsOf(`#answers > li:nth-child(${line}) .rule`);
  assert.deepEqual(await rule(2), ["“|” may not stand in a path (RFC 3986 section 3.3). Write %7C"]);
  await click("#answers > li:nth-child(2) .rule button");
  assert.equal(await page.evaluate("document.getElementById('links').value"), "b\na%7Cb c\n\u00e9");
  assert.deepEqual(await rule(2), ["A space may not stand in a path (RFC 3986 section 3.3). Write %20"]);
  await click("#answers > li:nth-child(2) .rule button");
  await click("#answers > li:nth-child(3) .rule button");
  assert.deepEqual(await answers(), ["ok http://h/b", "ok http://h/a%7Cb%20c", "ok http://h/%C3%A9"]);
  await type("one", "1a:b");
  await click("#one-answer .rule button");
  assert.equal(await page.evaluate("document.getElementById('one').value"), "./1a:b");
  await type("base", "http://h/#f");
  await click("#base-answer .rule button");
  assert.equal(await page.evaluate("document.getElementById('base').value"), "http://h/");
});

test("what this browser makes of a link", async () => {
  const links = ["b", "%7e", "a b", "//h:99999/"].map((link) => ["link", link]);
  await visit(state(["base", "http://h/a/"], ...links, ["one", "http:g"]));
  assert.deepEqual(await textsOf("#answers .browser"), [
    "http://h/a/%7e. It leaves percent-encoded octets as the link has them.",
    "http://h/a/a%20b. It writes %20 for what may not stand there.",
    "nothing: it refuses the link. It has no ports above 65,535.",
  ].map((words) => `This browser’s new URL, by the URL Standard, makes of it ${words}`));
  assert.deepEqual(await textsOf("#ways .browser .href"), ["http://h/a/g"]);
});

test("parts in a table, with their octets decoded", async () => {
  await visit(state(["base", "http://h/"], ["link", "//u%20v@H:8/%ff?q=%E2%82%AC#%EF%BB%BF"]));
  await click("#answers summary");
  await page.evaluate(ready);
  const textsOfRows = `${all("#answers table tr")}.map((row) => [...row.cells].map(({ textContent }) => textContent))`;
  const cells = await page.evaluate(textsOfRows);
  assert.deepEqual(cells, [
    ["Part", "Text", "Decoded"], ["scheme", "http", ""], ["userinfo", "u%20v", "u v"], ["host", "h", ""], ["port", "8", ""],
    ["path", "/%FF", "not UTF-8: 2F FF"], ["query", "q=%E2%82%AC", "q=\u20ac"], ["fragment", "%EF%BB%BF", "\ufeff"]]);
  assert.equal(await page.evaluate(`document.querySelector("#answers table .unseen").dataset.code`), "U+FEFF");
});

const fronts = ["a", "../x", "//H", "https://www.example.org/docs", "%7e"];
const manyLinks = (count) => Array.from({ length: count }, (_, i) => `${fronts[i % 5]}/./page-${i % 700}.html?q=${i}`);

// Puts links into the field, which the browser itself lays out.
async function put(links) {
  await page.evaluate(`{ document.getElementById("links").value = ${JSON.stringify(links.join("\n"))}; }`);
  await page.evaluate(`${ready}.then(() => ${ready})`);
}

// Tells the page of them as a paste does, and waits for the answers.
const tell = () => page.evaluate(`(async () => {
  document.getElementById("links").dispatchEvent(new Event("input", { bubbles: true }));
  await ${shownAll};
  await ${ready};
})()`);

// How long the page's own thread has worked, in milliseconds: on a machine with other work that isn't the clock.
async function worked() {
  const { metrics } = await page.call("Performance.getMetrics");
  return 1000 * metrics.find(({ name }) => name === "TaskDuration").value;
}

test("two thousand links are answered within a second of work", async () => {
  const many = manyLinks(2000);
  await page.call("Performance.enable", { timeDomain: "threadTicks" });
  await visit(state(["base", base]));
  const before = await worked();
  await put(many);
  await tell();
  const took = await worked() - before;
  console.log(`2,000 links answered and 500 shown by ${Math.round(took)} ms of work`);
  const wanted = many.map((link) => answer(link, "uri", "normal"));
  assert.deepEqual(await answers(), wanted.slice(0, 500));
  assert.equal(await textOf("#tally"), "2000 links, 2000 different");
  assert.equal(await textOf("#more"), "Show more of 1,500 links");
  for (const left of [1000, 500, 0]) {
    await click("#more");
    assert.equal((await answers()).length, 2000 - left);
  }
  assert.deepEqual(await answers(), wanted);
  assert.equal(await page.evaluate("document.getElementById('more').hidden"), true);
  assert.ok(took < 1000);
});

test("no task of the page takes 100 ms, of however many links", async () => {
  await visit(state(["base", base]));
  await put(manyLinks(20000));
  const longest = await page.longestTask(tell);
  console.log(`of 20,000 links the longest task took ${Math.round(longest)} ms of work`);
  assert.ok(longest < 100);
  assert.equal(await textOf("#tally"), "20000 links, 20000 different");
  await type("links", "a");
  await page.evaluate(shownAll);
  assert.deepEqual(await answers(), [answer("a", "uri", "normal")]);
});

test("lines that are typed while others are answered take their place", async () => {
  await visit(state(["base", base]));
  await page.evaluate(`(() => {
    const field = document.getElementById("links");
    for (const text of [${JSON.stringify(manyLinks(3000).join("\n"))}, "b\\nc"]) {
      field.value = text;
      field.dispatchEvent(new Event("input", { bubbles: true }));
    }
  })()`);
  await page.evaluate(`new Promise((done) => setTimeout(done, 300)).then(() => ${shownAll})`);
  assert.deepEqual(await answers(), ["b", "c"].map((link) => answer(link, "uri", "normal")));
  assert.equal(await textOf("#tally"), "2 links, 2 different");
});

test("of a long text the ends are shown", async () => {
  const long = "x".repeat(5000);
  await visit(state(["base", "http://h/"]));
  await type("links", `${long}\n${"%7e".repeat(10000)}`);
  assert.equal(await textOf("#answers > li:nth-child(1) .given .cut"), " … 3,400 characters more … ");
  assert.deepEqual(await textsOf("#answers > li:nth-child(2) .phrases li"), ["too long to be explained"]);
  assert.equal(await textOf("#tally"), "2 links, 2 different");
});

test("the state is in the fragment, and is taken from it", async () => {
  await type("base", "http://h/\u00e9");
  await choose("grammar", "iri");
  await type("links", "a&b#\n\nc+d%2B\u65e5");
  await type("one", "");
  await type("template", "{&v*}");
  await type("variables", "v[]=1\nv[]=&=\u65e5");
  await page.evaluate("new Promise((done) => setTimeout(done, 500))");
  const hash = await page.evaluate("location.hash");
  const all = async () => [await answers(), await textOf("#tally"), await textOf("#ways"), await textOf("#expansion .text")];
  const shown = await all();
  await visit("#");
  (await all()).forEach((one, i) => assert.notDeepEqual(one, shown[i]));
  await visit(hash);
  assert.deepEqual(await all(), shown);
  const wanted = ["a&b#", "", "c+d%2B\u65e5"].map((link) => answer(link, "iri", "normal", "http://h/\u00e9"));
  assert.deepEqual(await answers(), wanted);
});

test("examples, and back to the first", async () => {
  const names = await textsOf("#examples button");
  assert.ok(names.length > 4);
  for (const [i, name] of names.entries()) {
    await click(`#examples li:nth-child(${i + 1}) button`);
    await page.evaluate(shownAll);
    const example = exampleOf(name), links = example.links.split("\n"), { grammar, mode } = example;
    const wanted = links.map((link) => answer(link, grammar, mode, example.base));
    assert.deepEqual(await answers(), wanted);
    assert.equal(await textOf("#verdict strong").then((words) => /^(Yes|No|One link is refused)/.test(words)), true);
    assert.notEqual(await textOf("#expansion .text"), "");
  }
  await click("#reset");
  assert.equal(await page.evaluate("document.getElementById('links').value"), exampleOf(names[0]).links);
});

test("what is copied", async () => {
  await page.call("Browser.grantPermissions", { permissions: ["clipboardReadWrite", "clipboardSanitizedWrite"] });
  await page.call("Page.bringToFront");
  const copied = async (selector) => {
    await click(selector);
    await page.evaluate("new Promise((done) => setTimeout(done, 100))");
    assert.equal(await textOf("#said"), "Copied");
    return page.evaluate("navigator.clipboard.readText()");
  };
  await visit(state(["base", "http://h/"], ["link", "%7e"], ["link", "a b"], ["link", "c"]));
  assert.equal(await copied("#answers .more button"), "http://h/~");
  assert.equal(await copied("#copy-all"), "http://h/~\nhttp://h/c\n");
  // Where the page has no clipboard, by a selection.
  const noClipboard = `Object.defineProperty(navigator, "clipboard", { value: undefined, configurable: true })`;
  await page.evaluate(`navigator.clipboard.writeText("before").then(() => { window.board = navigator.clipboard; ${noClipboard}; })`);
  await page.evaluate(`document.getElementById("said").textContent = ""; document.querySelector("#copy-all").scrollIntoView()`);
  const { x, y } = await page.evaluate(`document.querySelector("#copy-all").getBoundingClientRect().toJSON()`);
  for (const type of ["mousePressed", "mouseReleased"]) {
    await page.call("Input.dispatchMouseEvent", { type, x: x + 5, y: y + 5, button: "left", clickCount: 1 });
  }
  await page.evaluate("new Promise((done) => setTimeout(done, 100))");
  assert.equal(await textOf("#said"), "Copied");
  assert.equal(await page.evaluate("delete navigator.clipboard && window.board.readText()"), "http://h/~\nhttp://h/c\n");
  await type("links", "d");
  const link = await copied("#permalink");
  assert.equal(link.split("#")[0], address);
  assert.deepEqual(new URLSearchParams(link.split("#")[1]).getAll("link"), ["d"]);
  await visit("#");
  await visit(new URL(link).hash);
  assert.deepEqual(await answers(), ["ok http://h/d"]);
});

test("by the keyboard alone", async () => {
  await visit(state(["base", "http://h/"], ["link", "\u00e9"], ["link", "a"]));
  await page.evaluate("document.activeElement.blur()");
  const passed = [];
  for (let i = 0; i < 29; i += 1) {
    await press("Tab", 9);
    passed.push(await page.evaluate("(({ id, name, textContent }) => id || name || textContent)(document.activeElement)"));
  }
  const examples = await textsOf("#examples button");
  assert.deepEqual(passed.slice(0, passed.indexOf("variables") + 1), [
    ...examples, "reset", "permalink", "base", "grammar", "mode", "links", "copy-all", "past", "Write %C3%A9", "Copy", "Parts",
    "one", "other", "4 steps", "Parts", "7 steps", "Parts", "template", "variables"]);
  assert.deepEqual(await answers(), ["bad invalid path", "ok http://h/a"]);
  await page.evaluate("document.querySelector('input[name=grammar]:checked').focus()");
  await press("ArrowRight", 39);
  assert.deepEqual(await answers(), ["ok http://h/\u00e9", "ok http://h/a"]);
  await page.evaluate("document.getElementById('past').focus()");
  await page.call("Input.dispatchKeyEvent", { type: "keyDown", key: "Enter", code: "Enter", windowsVirtualKeyCode: 13, text: "\r" });
  assert.equal(await page.evaluate("document.activeElement.id"), "one");
});

test("each field has a name for a screen reader", async () => {
  const { nodes } = await page.call("Accessibility.getFullAXTree");
  const named = (...roles) => nodes.filter(({ role }) => roles.includes(role?.value)).map(({ name }) => name.value);
  assert.deepEqual(named("textbox"), [
    "The page’s address", "Links, one a line", "One link", "The other", "URI template (RFC\u00a06570)",
    "Variables, one a line: name=text, name[]=item, name[key]=value"]);
  assert.deepEqual(named("radio"), ["URI", "IRI", "by syntax", "and scheme rules"]);
  assert.ok(named("group", "radiogroup", "region", "list").every((name) => name !== undefined));
});

// The contrast of each text to what is behind it (WCAG 2.1, 1.4.3), the least of all.
const leastContrast = `(() => {
  const numbers = (text) => text.match(/[\\d.]+/g).map(Number);
  const linear = (c) => (c <= 0.04045 ? c / 12.92 : ((c + 0.055) / 1.055) ** 2.4);
  const light = ([r, g, b]) => 0.2126 * linear(r / 255) + 0.7152 * linear(g / 255) + 0.0722 * linear(b / 255);
  const ground = (element) => {
    const found = numbers(getComputedStyle(element).backgroundColor);
    return found[3] === 0 ? ground(element.parentElement) : found;
  };
  const hasText = (element) => [...element.childNodes].some((child) => child.nodeType === 3 && child.data.trim());
  return Math.min(...${all("body *")}.filter((element) => element.offsetParent && hasText(element)).map((element) => {
    const sides = [light(numbers(getComputedStyle(element).color)), light(ground(element))];
    return (Math.max(...sides) + 0.05) / (Math.min(...sides) + 0.05);
  }));
})()`;

async function picture(name, width) {
  const height = await page.evaluate("Math.ceil(document.querySelector('footer').getBoundingClientRect().bottom)");
  const { data } = await page.call("Page.captureScreenshot", { clip: { x: 0, y: 0, width, height, scale: 1 } });
  mkdirSync(process.env.PICTURES, { recursive: true });
  writeFileSync(`${process.env.PICTURES}/${name}.png`, Buffer.from(data, "base64"));
}

test("light and dark, wide and narrow", async () => {
  const long = `//user@Files.example.com:8080/${"long".repeat(60)}?${"q".repeat(90)}`;
  const example = fromFragment("");
  await visit(toFragment({ ...example, links: `${example.links}\n${long}` }));
  for (const scheme of ["light", "dark"]) {
    await page.call("Emulation.setEmulatedMedia", { features: [{ name: "prefers-color-scheme", value: scheme }] });
    for (const [name, width] of [["wide", 1280], ["narrow", 320]]) {
      await page.call("Emulation.setDeviceMetricsOverride", { width, height: 5000, deviceScaleFactor: 1, mobile: false });
      await page.evaluate(ready);
      assert.ok(await page.evaluate("document.documentElement.scrollWidth") <= width, `${name}, ${scheme}`);
      assert.ok(await page.evaluate(leastContrast) >= 4.5, `${name}, ${scheme}: ${await page.evaluate(leastContrast)}`);
      if (process.env.PICTURES !== undefined) await picture(`${name}-${scheme}`, width);
    }
  }
});

test("nothing was asked for, and nothing went wrong", () => {
  assert.deepEqual([...new Set(page.requests)], [address]);
  assert.deepEqual(page.errors, []);
});
