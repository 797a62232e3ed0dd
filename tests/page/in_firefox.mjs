// The page in Firefox, from a file on disk: node in_firefox.mjs PAGE.html EXAMPLES GREAT.csv HEADING [PICTURE.png]
// The arguments are those of in_chromium.mjs.
import assert from "node:assert";
import { spawn } from "node:child_process";
import fs from "node:fs";
import net from "node:net";
import os from "node:os";
import path from "node:path";
import { dropOf } from "./browser.mjs";
import { monthFiles, tryMarks, tryMonth, trySick, tryShort } from "./ward.mjs";

const [page, examples, great, heading, picture] = process.argv.slice(2);
const PATIENCE = 300000;
// How WebDriver names an element in its answers.
const ELEMENT = "element-6066-11e4-a52e-4f735466cecf";

function pause(time) {
  return new Promise((done) => setTimeout(done, time));
}

// A port that nobody uses now.
function freePort() {
  return new Promise((done) => {
    const server = net.createServer().listen(0, "127.0.0.1", () => {
      const { port } = server.address();
      server.close(() => done(port));
    });
  });
}

// Firefox without a window, driven by its Marionette: messages are a length, a colon and JSON.
class Firefox {
  async begin() {
    this.folder = fs.mkdtempSync(path.join(os.tmpdir(), "firefox-"));
    const port = await freePort();
    fs.writeFileSync(path.join(this.folder, "user.js"), `user_pref("marionette.port", ${port});\n`);
    const words = ["--headless", "--marionette", "--no-remote", "--profile", this.folder];
    this.child = spawn("firefox-esr", words, { stdio: "ignore", env: { ...process.env, HOME: this.folder } });
    this.waiting = new Map();
    this.number = 0;
    this.held = Buffer.alloc(0);
    this.socket = await this.connected(port);
    this.socket.on("data", (data) => this.read(data));
    await this.ask("WebDriver:NewSession", { capabilities: {} });
  }

  async connected(port) {
    const begin = Date.now();
    for (;;) {
      const socket = net.connect(port, "127.0.0.1");
      const isOpen = await new Promise((done) => socket.once("connect", () => done(true)).once("error", () => done(false)));
      if (isOpen) return socket;
      if (Date.now() - begin > PATIENCE) throw new Error("Firefox doesn't start");
      await pause(200);
    }
  }

  read(data) {
    this.held = Buffer.concat([this.held, data]);
    for (;;) {
      const colon = this.held.indexOf(":");
      const end = colon + 1 + Number(this.held.subarray(0, Math.max(colon, 0)).toString());
      if (colon < 0 || this.held.length < end) return;
      const message = JSON.parse(this.held.subarray(colon + 1, end).toString());
      this.held = this.held.subarray(end);
      if (Array.isArray(message)) this.take(message);
    }
  }

  take([, id, error, result]) {
    const { done, refuse } = this.waiting.get(id);
    this.waiting.delete(id);
    if (error) refuse(new Error(error.message));
    else done(result);
  }

  ask(command, parameters = {}) {
    const id = ++this.number;
    const text = JSON.stringify([0, id, command, parameters]);
    this.socket.write(`${Buffer.byteLength(text)}:${text}`);
    return new Promise((done, refuse) => this.waiting.set(id, { done, refuse }));
  }

  async value(expression) {
    return (await this.ask("WebDriver:ExecuteScript", { script: `return ${expression};`, args: [] })).value;
  }

  async giveFiles(files) {
    const { value } = await this.ask("WebDriver:FindElement", { using: "css selector", value: "#file" });
    await this.ask("WebDriver:ElementSendKeys", { id: value[ELEMENT], text: files.map((file) => path.resolve(file)).join("\n") });
  }

  async press(id) {
    return this.value(`document.getElementById("${id}").click()`);
  }

  async paste(text) {
    const box = 'document.getElementById("text")';
    await this.value(`(document.getElementById("clear").click(), ${box}.value = ${JSON.stringify(text)}, ${box}.dispatchEvent(new Event("input")))`);
    await this.press("plan");
  }

  async dropTexts(files) {
    await this.value(dropOf(files));
  }

  async until(expression) {
    const begin = Date.now();
    while (!(await this.value(expression))) {
      if (Date.now() - begin > PATIENCE) throw new Error(`not within ${PATIENCE} ms: ${expression}`);
      await pause(50);
    }
  }

  // Plans a file, and returns what the heading says.
  async planned(file) {
    await this.press("clear");
    await this.answered(() => this.giveFiles([file]));
    return this.value("document.getElementById('result-title').textContent");
  }

  // Does something, and waits for the page's next answer.
  async answered(work) {
    const before = await this.value("document.documentElement.dataset.done || '0'");
    await work();
    const begin = Date.now();
    while (await this.value("document.documentElement.dataset.done || '0'") === before) {
      if (Date.now() - begin > PATIENCE) throw new Error(`no answer within ${PATIENCE} ms`);
      await pause(50);
    }
  }

  async end() {
    const gone = new Promise((done) => this.child.once("exit", done));
    await this.ask("Marionette:Quit", { flags: ["eForceQuit"] }).catch(() => this.child.kill());
    await gone;
    fs.rmSync(this.folder, { recursive: true, force: true, maxRetries: 5 });
  }
}

const folder = fs.mkdtempSync(path.join(os.tmpdir(), "page-"));
const firefox = new Firefox();
await firefox.begin();
try {
  await firefox.ask("WebDriver:Navigate", { url: `file://${path.resolve(page)}` });
  assert.strictEqual(await firefox.planned(path.join(examples, "named_roster.csv")), "least hours: 12.00");
  assert.strictEqual(await firefox.value("document.querySelectorAll('#matrix td.own').length"), 5);
  if (picture) {
    const { value } = await firefox.ask("WebDriver:TakeScreenshot", { full: true });
    fs.writeFileSync(picture, Buffer.from(value, "base64"));
  }
  assert.strictEqual(await firefox.planned(path.join(examples, "night_shifts.csv")), "There is no plan for all");
  assert.strictEqual(await firefox.planned(great), heading);
  const wanted = monthFiles(folder);
  await tryMonth(firefox, folder, wanted);
  await trySick(firefox, folder, wanted);
  await tryMarks(firefox);
  await tryShort(firefox);
  console.log("page: plans in Firefox");
} finally {
  await firefox.end();
  fs.rmSync(folder, { recursive: true, force: true });
}
