// Chromium without a window, driven by its pipe: pages are opened, files are given to them, and pictures taken.
import { spawn } from "node:child_process";
import fs from "node:fs";
import os from "node:os";
import path from "node:path";

const WORDS = ["--headless=new", "--no-sandbox", "--disable-gpu", "--disable-dev-shm-usage", "--remote-debugging-pipe", "--no-first-run"];
// The browser is given so many milliseconds for what a test waits for.
const PATIENCE = 300000;

// What drops files, of a name and a text each, on the page.
export function dropOf(files) {
  return `(() => {
    const dataTransfer = new DataTransfer();
    ${JSON.stringify(files)}.forEach(([name, text]) => dataTransfer.items.add(new File([text], name)));
    document.dispatchEvent(new DragEvent("drop", { dataTransfer, bubbles: true, cancelable: true }));
  })()`;
}

export class Browser {
  constructor() {
    this.folder = fs.mkdtempSync(path.join(os.tmpdir(), "chromium-"));
    this.child = spawn("chromium", [...WORDS, `--user-data-dir=${this.folder}`], { stdio: ["ignore", "ignore", "ignore", "pipe", "pipe"] });
    this.number = 0;
    this.held = "";
    this.waiting = new Map();
    // What the browser said of faults, and the addresses that a page asked for.
    this.faults = [];
    this.requests = [];
    this.child.stdio[4].on("data", (data) => this.read(data));
  }

  read(data) {
    const parts = (this.held + data).split("\0");
    this.held = parts.pop();
    parts.map((part) => JSON.parse(part)).forEach((message) => this.take(message));
  }

  take({ id, method, params, result, error }) {
    if (method === "Log.entryAdded") this.faults.push(params.entry.text);
    if (method === "Runtime.exceptionThrown") this.faults.push(params.exceptionDetails.exception?.description || "exception");
    if (method === "Network.requestWillBeSent") this.requests.push(params.request.url);
    const waits = this.waiting.get(id);
    if (!waits) return;
    this.waiting.delete(id);
    if (error) waits.refuse(new Error(error.message));
    else waits.done(result);
  }

  ask(method, params = {}) {
    const id = ++this.number;
    const text = JSON.stringify({ id, method, params, sessionId: this.session });
    this.child.stdio[3].write(`${text}\0`);
    return new Promise((done, refuse) => this.waiting.set(id, { done, refuse }));
  }

  async open(url) {
    this.session = undefined;
    const { targetId } = await this.ask("Target.createTarget", { url: "about:blank" });
    this.session = (await this.ask("Target.attachToTarget", { targetId, flatten: true })).sessionId;
    for (const domain of ["Page", "Runtime", "Log", "Network", "DOM"]) await this.ask(`${domain}.enable`);
    await this.ask("Page.navigate", { url });
    await this.until("document.readyState === 'complete' && location.protocol === 'file:'");
  }

  async value(expression) {
    const words = { expression, returnByValue: true, awaitPromise: true, userGesture: true };
    const { result, exceptionDetails } = await this.ask("Runtime.evaluate", words);
    if (exceptionDetails) throw new Error(exceptionDetails.exception?.description || exceptionDetails.text);
    return result.value;
  }

  // Waits until an expression is true.
  async until(expression) {
    const begin = Date.now();
    while (!(await this.value(expression).catch(() => false))) {
      if (Date.now() - begin > PATIENCE) throw new Error(`not within ${PATIENCE} ms: ${expression}`);
      await new Promise((done) => setTimeout(done, 50));
    }
  }

  // How many answers the page has had.
  async answers() {
    return Number(await this.value("document.documentElement.dataset.done || '0'"));
  }

  // Does something, and waits for the page's next answer.
  async answered(work) {
    const before = await this.answers();
    await work();
    await this.until(`Number(document.documentElement.dataset.done || "0") > ${before}`);
  }

  async giveFile(file) {
    await this.giveFiles([file]);
  }

  async giveFiles(files) {
    const { root } = await this.ask("DOM.getDocument");
    const { nodeId } = await this.ask("DOM.querySelector", { nodeId: root.nodeId, selector: "#file" });
    await this.ask("DOM.setFileInputFiles", { nodeId, files: files.map((file) => path.resolve(file)) });
  }

  async press(id) {
    return this.value(`document.getElementById("${id}").click()`);
  }

  async paste(text) {
    const box = 'document.getElementById("text")';
    await this.value(`document.getElementById("clear").click(); ${box}.value = ${JSON.stringify(text)}; ${box}.dispatchEvent(new Event("input"))`);
    await this.press("plan");
  }

  async dropTexts(files) {
    await this.value(dropOf(files));
  }

  async picture(file) {
    const { data } = await this.ask("Page.captureScreenshot", { format: "png", captureBeyondViewport: true });
    fs.writeFileSync(file, Buffer.from(data, "base64"));
  }

  async paper(file) {
    const { data } = await this.ask("Page.printToPDF", { printBackground: true, preferCSSPageSize: true });
    fs.writeFileSync(file, Buffer.from(data, "base64"));
  }

  async end() {
    const gone = new Promise((done) => this.child.once("exit", done));
    this.child.kill();
    await gone;
    fs.rmSync(this.folder, { recursive: true, force: true, maxRetries: 5 });
  }
}
