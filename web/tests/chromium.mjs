// A page in headless Chromium, driven over the DevTools protocol on a pipe.
import { spawn } from "node:child_process";
import { mkdtemp, rm } from "node:fs/promises";
import { tmpdir } from "node:os";
import { join } from "node:path";

// The browser: `send` calls a method of the protocol, `on` takes each event.
async function browser() {
  const profile = await mkdtemp(join(tmpdir(), "irikit-page-"));
  const words = [
    "--headless", "--no-sandbox", "--disable-gpu", "--hide-scrollbars", "--no-first-run", "--disable-extensions",
    "--disable-background-networking", "--remote-debugging-pipe", `--user-data-dir=${profile}`, "about:blank",
  ];
  const child = spawn(process.env.CHROMIUM ?? "chromium", words, { stdio: ["ignore", "ignore", "ignore", "pipe", "pipe"] });
  const waiting = new Map(), listeners = [];
  let last = 0, rest = Buffer.alloc(0);
  child.stdio[4].on("data", (data) => {
    rest = Buffer.concat([rest, data]);
    for (let end = rest.indexOf(0); end >= 0; end = rest.indexOf(0)) {
      const message = JSON.parse(rest.subarray(0, end).toString());
      rest = rest.subarray(end + 1);
      if (message.id === undefined) listeners.forEach((listener) => listener(message));
      else waiting.get(message.id)(message);
    }
  });
  const send = (method, params = {}, sessionId = undefined) => new Promise((done, failed) => {
    last += 1;
    waiting.set(last, ({ result, error }) => (error ? failed(new Error(`${method}: ${error.message}`)) : done(result)));
    child.stdio[3].write(`${JSON.stringify({ id: last, method, params, sessionId })}\0`);
  });
  const close = async () => {
    const ended = new Promise((done) => child.on("exit", done));
    await send("Browser.close").catch(() => child.kill());
    await ended;
    await rm(profile, { recursive: true, force: true, maxRetries: 5 });
  };
  return { send, on: (listener) => listeners.push(listener), close };
}

// Opens an address, and tells what it asked for and what went wrong in it.
async function openPage(url) {
  const { send, on, close } = await browser();
  const { targetId } = await send("Target.createTarget", { url: "about:blank" });
  const { sessionId } = await send("Target.attachToTarget", { targetId, flatten: true });
  const requests = [], errors = [];
  let loaded;
  on(({ method, params }) => {
    if (method === "Network.requestWillBeSent") requests.push(params.request.url.split("#")[0]);
    if (method === "Runtime.exceptionThrown") errors.push(JSON.stringify(params.exceptionDetails));
    if (method === "Runtime.consoleAPICalled") errors.push(`console.${params.type}: ${JSON.stringify(params.args)}`);
    if (method === "Log.entryAdded") errors.push(`${params.entry.level}: ${params.entry.text}`);
    if (method === "Page.loadEventFired") loaded?.();
  });
  const call = (method, params) => send(method, params, sessionId);
  // How long the page's thread worked in its longest task while something ran, in milliseconds: on a machine with other work that
  // isn't the clock.
  const longestTask = async (during) => {
    const events = [];
    let ended;
    on(({ method, params }) => {
      if (method === "Tracing.dataCollected") events.push(...params.value);
      if (method === "Tracing.tracingComplete") ended();
    });
    await send("Tracing.start", { transferMode: "ReportEvents", traceConfig: { includedCategories: ["toplevel"] } });
    await during();
    await new Promise((done) => { ended = done; send("Tracing.end"); });
    const threads = events.filter(({ name, args }) => name === "thread_name" && args.name === "CrRendererMain");
    const isOfPage = ({ pid, tid }) => threads.some((thread) => thread.pid === pid && thread.tid === tid);
    const tasks = events.filter((event) => event.name.endsWith("RunTask") && event.tdur !== undefined && isOfPage(event));
    if (!tasks.length) throw new Error("no task was seen");
    return Math.max(...tasks.map(({ tdur }) => tdur / 1000));
  };
  for (const domain of ["Network", "Runtime", "Log", "Page"]) await call(`${domain}.enable`);
  const go = async (to) => {
    const done = new Promise((resolve) => { loaded = resolve; });
    await call("Page.navigate", { url: to });
    await done;
  };
  // What an expression of the page comes to.
  const evaluate = async (expression) => {
    const asked = { expression, awaitPromise: true, returnByValue: true };
    const { result, exceptionDetails } = await call("Runtime.evaluate", asked);
    if (exceptionDetails) throw new Error(JSON.stringify(exceptionDetails));
    return result.value;
  };
  await go(url);
  return { call, longestTask, evaluate, requests, errors, close };
}

export { openPage };
