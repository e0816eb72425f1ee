// A headless Chromium for tests: one page, by the DevTools protocol over a pipe. And a server of this repository's files for it, on this machine alone.
import { spawn, spawnSync } from "node:child_process";
import { mkdtempSync, rmSync } from "node:fs";
import { readFile } from "node:fs/promises";
import { createServer } from "node:http";
import { tmpdir } from "node:os";
import { extname, join, normalize, sep } from "node:path";

/** The program, which CHROMIUM may name, or undefined where none is installed. */
export const chromium = [process.env.CHROMIUM, "chromium", "chromium-browser", "google-chrome"].find((it) => it && spawnSync(it, ["--version"]).status === 0);

const KINDS = { ".html": "text/html", ".mjs": "text/javascript", ".wasm": "application/wasm" };

/** Serves a folder's files at a free port of 127.0.0.1; gives the address and how to close. */
export async function served(folder) {
  const server = createServer(async (asked, answer) => {
    const path = normalize(join(folder, decodeURIComponent(new URL(asked.url, "http://here").pathname)));
    try {
      if (!path.startsWith(folder + sep)) throw new Error("outside");
      const bytes = await readFile(path.endsWith(sep) ? join(path, "index.html") : path);
      answer.writeHead(200, { "content-type": KINDS[path.endsWith(sep) ? ".html" : extname(path)] ?? "text/plain" }).end(bytes);
    } catch {
      answer.writeHead(404).end();
    }
  });
  await new Promise((resolve) => server.listen(0, "127.0.0.1", resolve));
  return { address: `http://127.0.0.1:${server.address().port}`, close: () => server.close() };
}

/** A page of a browser of its own. */
export class Page {
  #process;
  #folder = mkdtempSync(join(tmpdir(), "erasec-chromium-"));
  #waiting = new Map();
  #sent = 0;
  #session;
  /** What the page wrote to its console, and the errors that it caught nowhere. */
  said = [];

  static async open() {
    const page = new Page();
    await page.#start();
    return page;
  }

  async #start() {
    // as root there is no sandbox, and a container's /dev/shm may be small
    const words = ["--headless", "--no-sandbox", "--disable-gpu", "--disable-dev-shm-usage", "--no-first-run", "--disable-extensions", "--disable-background-networking", "--remote-debugging-pipe", `--user-data-dir=${this.#folder}`, "about:blank"];
    this.#process = spawn(chromium, words, { stdio: ["ignore", "ignore", "ignore", "pipe", "pipe"] });
    this.#process.on("exit", () => this.#waiting.forEach(({ reject }) => reject(new Error("Chromium ended"))));
    let text = "";
    this.#process.stdio[4].setEncoding("utf8").on("data", (it) => {
      const messages = (text + it).split("\0");
      text = messages.pop();
      messages.forEach((message) => this.#take(JSON.parse(message)));
    });
    const { targetId } = await this.send("Target.createTarget", { url: "about:blank" });
    this.#session = (await this.send("Target.attachToTarget", { targetId, flatten: true })).sessionId;
    for (const domain of ["Page", "Runtime", "Log", "DOM"]) await this.send(`${domain}.enable`);
  }

  #take({ id, result, error, method, params }) {
    if (method === "Runtime.exceptionThrown") this.said.push(params.exceptionDetails.exception?.description ?? params.exceptionDetails.text);
    if (method === "Runtime.consoleAPICalled") this.said.push(params.args.map((it) => it.value).join(" "));
    if (method === "Log.entryAdded") this.said.push(`${params.entry.text} ${params.entry.url ?? ""}`);
    const waiting = this.#waiting.get(id);
    this.#waiting.delete(id);
    if (error) waiting?.reject(new Error(error.message));
    else waiting?.resolve(result);
  }

  /** Sends a command of the protocol, to the page once there is one. */
  send(method, params = {}) {
    const id = ++this.#sent;
    this.#process.stdio[3].write(`${JSON.stringify({ id, method, params, sessionId: this.#session })}\0`);
    return new Promise((resolve, reject) => this.#waiting.set(id, { resolve, reject }));
  }

  /** The value of an expression in the page, after its promise. */
  async value(expression) {
    const { result, exceptionDetails } = await this.send("Runtime.evaluate", { expression, awaitPromise: true, returnByValue: true, userGesture: true });
    if (exceptionDetails) throw new Error(exceptionDetails.exception?.description ?? exceptionDetails.text);
    return result.value;
  }

  /** Waits till an expression is true. */
  async until(expression, seconds = 60) {
    for (const end = Date.now() + 1000 * seconds; !(await this.value(expression)); ) {
      if (Date.now() > end) throw new Error(`not within ${seconds} s: ${expression}`);
      await new Promise((resolve) => setTimeout(resolve, 20));
    }
  }

  async go(address, ready) {
    await this.send("Page.navigate", { url: address });
    await this.until(ready);
  }

  /** Chooses files, as a person does in the dialog of an input. */
  async choose(selector, files) {
    const { root } = await this.send("DOM.getDocument");
    const { nodeId } = await this.send("DOM.querySelector", { nodeId: root.nodeId, selector });
    await this.send("DOM.setFileInputFiles", { nodeId, files });
  }

  /** The page as a PNG, as wide as it is told. */
  async picture(width) {
    await this.send("Emulation.setDeviceMetricsOverride", { width, height: 100, deviceScaleFactor: 1, mobile: false });
    const height = await this.value("Math.ceil(document.documentElement.getBoundingClientRect().height) + 32");
    await this.send("Emulation.setDeviceMetricsOverride", { width, height, deviceScaleFactor: 1, mobile: false });
    return Buffer.from((await this.send("Page.captureScreenshot", { format: "png" })).data, "base64");
  }

  async close() {
    const ended = new Promise((resolve) => this.#process.on("exit", resolve));
    this.send("Browser.close").catch(() => {});
    const timer = setTimeout(() => this.#process.kill("SIGKILL"), 5000);
    await ended;
    clearTimeout(timer);
    rmSync(this.#folder, { recursive: true, force: true, maxRetries: 5 });
  }
}
