// The page in Chromium, from a file on disk: node in_chromium.mjs PAGE.html EXAMPLES GREAT.csv HEADING
// EXAMPLES is the folder of the examples. GREAT.csv is a great matrix, and HEADING what the command says of it.
import assert from "node:assert";
import { execFileSync } from "node:child_process";
import fs from "node:fs";
import os from "node:os";
import path from "node:path";
import { Browser } from "./browser.mjs";
import { monthFiles, tryMarks, tryMonth, trySick, tryShort } from "./ward.mjs";

const [page, examples, great, heading] = process.argv.slice(2);
const SHORT = "3 people (Ben, Cleo, Dan) can take only 2 shifts between them (night, weekend): allow one of them another, or leave one out";
const folder = fs.mkdtempSync(path.join(os.tmpdir(), "page-"));
const browser = new Browser();

async function textOf(id) {
  return browser.value(`document.getElementById("${id}").textContent`);
}

async function press(id) {
  return browser.press(id);
}

async function paste(text) {
  await browser.answered(() => browser.paste(text));
}

async function choose(name, value) {
  await browser.value(`document.querySelector('[name="${name}"][value="${value}"]').checked = true`);
}

// A plan, and the file that is saved of it.
async function tryPlan() {
  await browser.answered(() => browser.giveFile(path.join(examples, "named_roster.csv")));
  assert.strictEqual(await textOf("result-title"), "least hours: 12.00");
  assert.strictEqual(await browser.value("document.activeElement.id"), "result-title");
  assert.strictEqual(await browser.value("document.querySelectorAll('#matrix td.own').length"), 5);
  await browser.ask("Browser.setDownloadBehavior", { behavior: "allow", downloadPath: folder });
  await press("save");
  const file = path.join(folder, "named_roster-plan.csv");
  for (let k = 0; k < 200 && !fs.existsSync(file); k++) await new Promise((done) => setTimeout(done, 50));
  const wanted = "\ufeffnurse,shift,hours\nAda,early,2.50\nBen,night,1.75\nCleo,late,2.00\nDan,weekend,5.00\nEve,office,0.75\n";
  assert.strictEqual(fs.readFileSync(file, "utf8"), wanted);
}

// A file that is dropped, and the plan of it that is copied.
async function tryDrop() {
  await press("clear");
  await browser.answered(() => browser.dropTexts([["dropped.csv", "nurse;shift;hours\nAda;early;1\nAda;late;2\nBen;early;2\nBen;late;7\n"]]));
  assert.strictEqual(await browser.value("document.querySelector('#files b').textContent"), "dropped.csv");
  const copied = `new Promise((done) => {
    addEventListener("copy", (event) => done(event.clipboardData.getData("text/plain")), { once: true });
    document.getElementById("copy").click();
  })`;
  assert.strictEqual(await browser.value(copied), "nurse\tshift\thours\nAda\tlate\t2\nBen\tearly\t2\n");
}

// Who is short, who is left over, a decimal comma, the greatest sum, and a cell that is no number.
async function tryAnswers() {
  await press("clear");
  await browser.answered(() => browser.giveFile(path.join(examples, "night_shifts.csv")));
  assert.strictEqual(await textOf("answer"), SHORT);
  assert.strictEqual(await browser.value("document.querySelectorAll('#matrix th.short').length"), 5);
  await choose("mark", "comma");
  await choose("sense", "max");
  await paste("\tx\ty\nAda\t1,5\t2\nBen\t2,25\t0,5\nCleo\t\t1\n");
  assert.strictEqual(await textOf("result-title"), "greatest cost: 4.25".replace(".", ","));
  assert(/without: 1 person.*Cleo/s.test(await textOf("answer")));
  await choose("mark", "point");
  await paste("\tx\ty\nAda\t1,5\t2\nBen\t2,25\t0,5\n");
  assert.strictEqual(await textOf("fault"), "Line 2, column 2: '1,5' is no number; with a decimal comma it may be");
  assert.strictEqual(await browser.value("document.getElementById('result').hidden"), true);
  await paste("\tx\ty\n<b>Ada</b>\t1\t2\n");
  assert.strictEqual(await browser.value("document.querySelector('#answer td').textContent"), "<b>Ada</b>");
  await choose("sense", "min");
}

// A great roster: stopped, and planned.
async function tryGreat() {
  await press("clear");
  const before = await browser.answers();
  const isDone = `Number(document.documentElement.dataset.done || "0") > ${before}`;
  await browser.giveFile(great);
  await browser.until(`!document.getElementById("stop").hidden || ${isDone}`);
  await press("stop");
  const said = await textOf("status");
  assert(said.startsWith("Stopped after") || await browser.value(isDone), said);
  await browser.answered(() => press("plan"));
  assert.strictEqual(await textOf("result-title"), heading);
}

// A matrix of more than 20000 cells is drawn on request.
async function tryRequest() {
  const title = Array.from({ length: 150 }, (_, k) => `,object ${k}`).join("");
  await paste(`${title}\n${Array.from({ length: 150 }, (_, k) => `person ${k}${",7".repeat(150)}\n`).join("")}`);
  assert.strictEqual(await browser.value("document.querySelectorAll('#matrix td').length"), 0);
  await browser.value("document.querySelector('#matrix button').click()");
  await browser.until("document.getElementById('matrix').dataset.drawn === 'yes'");
  assert.strictEqual(await browser.value("document.querySelectorAll('#matrix td').length"), 22500);
}

// What the page saves of the month: the plan, a page for the wall, and calendars, which are the command's.
async function saved(id, name) {
  const file = path.join(folder, name);
  await press(id);
  for (let k = 0; k < 200 && !(fs.existsSync(file) && fs.statSync(file).size); k++) await new Promise((done) => setTimeout(done, 50));
  return file;
}

// The command's calendars of a plan, in place of those that are there.
function command(tasks, plan, ...words) {
  const given = (name) => path.join(folder, name);
  execFileSync("python3", ["-m", "nushbaret", given("month_roster.csv"), "--places", given("month_places.csv"), "--tasks", given(`${tasks}.csv`),
    "--groups", given("month_groups.csv"), "--keep", given(plan), "--each", given("each"), "--force", ...words], { stdio: "ignore" });
}

async function sameCalendars(...words) {
  const [each, unzipped] = ["each", "unzipped"].map((name) => path.join(folder, name));
  for (const name of ["month_roster-plan.csv", "month_roster-calendars.zip", "unzipped"]) fs.rmSync(path.join(folder, name), { recursive: true, force: true });
  await saved("save", "month_roster-plan.csv");
  const zip = await saved("calendars", "month_roster-calendars.zip");
  command(words[0], "month_roster-plan.csv", ...words.slice(1));
  execFileSync("python3", ["-c", "import sys, zipfile\nzipfile.ZipFile(sys.argv[1]).extractall(sys.argv[2])", zip, unzipped]);
  const texts = fs.readdirSync(unzipped).map((name) => [path.join(unzipped, name), path.join(each, name)].map((file) => fs.readFileSync(file, "utf8")));
  assert.strictEqual(texts.length, 28);
  texts.forEach(([own, wanted]) => assert.strictEqual(own, wanted));
  return texts.map(([own]) => own);
}

async function tryMonthFiles() {
  const wanted = monthFiles(folder);
  await tryMonth(browser, folder, wanted);
  await press("clear");
  await browser.answered(() => browser.giveFiles(["roster", "places", "tasks", "groups"].map((name) => path.join(folder, `month_${name}.csv`))));
  const wall = fs.readFileSync(await saved("wall", "month_roster-wall.html"), "utf8");
  assert(wall.includes("Nurse 28") && !wall.includes("<script") && !wall.includes("<button"));
  await sameCalendars("month_tasks");
  await browser.answered(() => browser.giveFile(path.join(examples, "month_rules.csv")));
  assert.strictEqual(await browser.value("document.getElementById('rules').hidden"), false);
  await browser.answered(() => browser.value("[...document.querySelectorAll('#files button')].at(-1).click()"));
  await trySick(browser, folder, wanted);
  fs.rmSync(path.join(folder, "each"), { recursive: true });
  command("month_tasks", "command_plan.csv");
  const texts = await sameCalendars("sick_tasks", "--past", "2027-03-12");
  assert(texts.some((text) => text.includes("STATUS:CANCELLED\r\nSEQUENCE:1\r\n")));
  await tryMarks(browser);
  await tryShort(browser);
}

// Names that are HTML, formulas or 10,000 letters harm nothing.
async function tryNastyNames() {
  const names = ["<img src=x onerror=alert(1)>", "=HYPERLINK(\"http://127.0.0.1:9/\")", "x".repeat(10000), "</script><b>", "a & b"];
  const rows = names.map((name, k) => [name, "early", String(k)].map((cell) => `"${cell.replace(/"/g, '""')}"`).join(","));
  await paste(`nurse,shift,cost\n${rows.join("\n")}\n`);
  assert.strictEqual(await textOf("result-title"), "least cost: 0");
  assert.strictEqual(await browser.value("document.querySelectorAll('main img, main script, main a').length"), 0);
  assert.strictEqual(await browser.value("document.documentElement.scrollWidth <= innerWidth"), true);
  const file = await saved("save", "pasted cells-plan.csv").catch(() => "");
  assert(file);
}

// Each control has a name for those who hear the page.
async function tryNames() {
  await browser.ask("Accessibility.enable");
  const { nodes } = await browser.ask("Accessibility.getFullAXTree");
  const roles = new Set(["button", "textbox", "radio", "region", "heading", "DisclosureTriangle"]);
  const controls = nodes.filter((node) => !node.ignored && roles.has(node.role?.value));
  assert(controls.length >= 12, `${controls.length} controls`);
  controls.forEach((node) => assert(node.name?.value, `a ${node.role.value} without a name`));
}

// The least contrast of a text with what it stands on, as WCAG 2 has it, and which text that is.
const CONTRAST = `(() => {
  const parsed = (colour) => colour.match(/[\\d.]+/g).map(Number);
  const linear = (value) => value <= 0.03928 ? value / 12.92 : ((value + 0.055) / 1.055) ** 2.4;
  const light = ([r, g, b]) => 0.2126 * linear(r / 255) + 0.7152 * linear(g / 255) + 0.0722 * linear(b / 255);
  const above = (own) => own ? [own, ...above(own.parentElement)] : [];
  const isText = (own) => own.getClientRects().length && [...own.childNodes].some((node) => node.nodeType === 3 && node.textContent.trim());
  const found = [...document.querySelectorAll("body *:not(script):not(style):not(option)")].filter(isText).map((own) => {
    const ground = parsed(getComputedStyle(above(own).find((one) => (parsed(getComputedStyle(one).backgroundColor)[3] ?? 1) > 0.99) || document.body).backgroundColor);
    const opacity = above(own).reduce((product, one) => product * Number(getComputedStyle(one).opacity), 1);
    const ink = parsed(getComputedStyle(own).color).map((value, k) => value * opacity + ground[k] * (1 - opacity));
    const [most, least] = [light(ink), light(ground)].sort((one, other) => other - one);
    return { ratio: (most + 0.05) / (least + 0.05), text: own.className + " " + own.textContent.slice(0, 30) };
  });
  return found.sort((one, other) => one.ratio - other.ratio)[0];
})()`;

// Each text is to be read, in a light and in a dark room, also in a month with an earlier plan and a past.
async function tryContrast() {
  await press("clear");
  await browser.answered(() => browser.giveFiles([...["roster", "places", "tasks", "groups"].map((name) => `month_${name}`), "command_plan"].map((name) => (
    path.join(folder, `${name}.csv`)))));
  await browser.answered(() => browser.value("(() => { const past = document.getElementById('past'); past.value = '2027-03-12'; past.dispatchEvent(new Event('change')); })()"));
  await browser.value("document.querySelectorAll('details').forEach((own) => { own.open = true; })");
  for (const value of ["light", "dark"]) {
    await browser.ask("Emulation.setEmulatedMedia", { features: [{ name: "prefers-color-scheme", value }] });
    const { ratio, text } = await browser.value(CONTRAST);
    assert(ratio >= 4.5, `${value}: ${ratio} of ${text}`);
  }
  await browser.ask("Emulation.setEmulatedMedia", { features: [] });
}

// Keys alone: a cell of the plan is reached by arrows, its choice opens and closes, and what has the focus is outlined.
async function tryKeys() {
  const key = async (name) => {
    for (const type of ["keyDown", "keyUp"]) await browser.ask("Input.dispatchKeyEvent", { type, key: name, code: name, windowsVirtualKeyCode: { Enter: 13, Escape: 27, Tab: 9, ArrowRight: 39, ArrowDown: 40 }[name] });
  };
  await browser.value("document.querySelector('.month td[tabindex=\"0\"]').focus()");
  for (const name of ["ArrowRight", "ArrowDown"]) await key(name);
  assert.match(await browser.value("document.activeElement.getAttribute('aria-label')"), /^Nurse 02, 2027-03-02: /);
  assert.strictEqual(await browser.value("getComputedStyle(document.activeElement).outlineStyle"), "solid");
  await browser.value("document.getElementById('past').value = ''");
  await browser.answered(() => press("plan"));
  await browser.value("document.querySelector('.month td[tabindex=\"0\"]').focus()");
  await key("Enter");
  assert.strictEqual(await browser.value("document.getElementById('choice').open"), true);
  await key("Escape");
  await browser.until("!document.getElementById('choice').open");
}

// A real drag: the browser's own events, with a file of the disk.
async function tryDrag() {
  await press("clear");
  const data = { items: [], files: [path.resolve(examples, "named_roster.csv")], dragOperationsMask: 1 };
  await browser.answered(async () => {
    for (const type of ["dragEnter", "dragOver", "drop"]) await browser.ask("Input.dispatchDragEvent", { type, x: 200, y: 200, data });
  });
  assert.strictEqual(await textOf("result-title"), "least hours: 12.00");
}

// A real paste: the browser's own commands copy cells and paste them.
async function tryPaste() {
  const act = async (command) => browser.ask("Input.dispatchKeyEvent", { type: "keyDown", key: "v", commands: [command] });
  const box = "document.getElementById('text')";
  await press("clear");
  await browser.value(`${box}.value = "nurse\\tearly\\tlate\\tnight\\nAda\\t1\\t2\\t9\\nBen\\t2\\t7\\t9\\n"; ${box}.focus()`);
  for (const command of ["selectAll", "copy"]) await act(command);
  await press("clear");
  await browser.value(`${box}.focus()`);
  await browser.answered(() => act("paste"));
  assert.strictEqual(await textOf("result-title"), "least cost: 4");
}

// A phone, a dark room and paper.
async function tryLooks() {
  await browser.answered(() => press("example"));
  await browser.ask("Emulation.setDeviceMetricsOverride", { width: 390, height: 800, deviceScaleFactor: 2, mobile: true });
  for (const width of [390, 320]) {
    await browser.ask("Emulation.setDeviceMetricsOverride", { width, height: 800, deviceScaleFactor: 2, mobile: true });
    assert.strictEqual(await browser.value("document.documentElement.scrollWidth"), width);
  }
  await browser.ask("Emulation.clearDeviceMetricsOverride");
  const colour = () => browser.value("getComputedStyle(document.body).backgroundColor");
  const light = await colour();
  await browser.ask("Emulation.setEmulatedMedia", { features: [{ name: "prefers-color-scheme", value: "dark" }] });
  assert.notStrictEqual(await colour(), light);
  await browser.ask("Emulation.setEmulatedMedia", { media: "print" });
  assert.strictEqual(await browser.value("getComputedStyle(document.getElementById('ask')).display"), "none");
  assert.strictEqual(await browser.value("getComputedStyle(document.getElementById('name')).display"), "block");
  assert.strictEqual(await colour(), light);
  await browser.ask("Emulation.setEmulatedMedia", { media: "" });
}

// Nothing was asked of anybody else, and the policy forbids it.
async function tryPolicy() {
  assert.deepStrictEqual(browser.requests.filter((url) => !/^(file|blob):/.test(url)), []);
  assert.deepStrictEqual(browser.faults, []);
  const refused = `new Promise((done) => {
    addEventListener("securitypolicyviolation", (event) => done(event.effectiveDirective), { once: true });
    fetch("http://127.0.0.1:9/").then(() => done("sent"), () => 0);
  })`;
  assert.strictEqual(await browser.value(refused), "connect-src");
}

try {
  await browser.open(`file://${path.resolve(page)}`);
  for (const part of [tryPlan, tryDrop, tryAnswers, tryMonthFiles, tryNastyNames, tryNames, tryContrast, tryKeys, tryDrag, tryPaste, tryGreat, tryRequest, tryLooks, tryPolicy]) await part();
  console.log("page: plans, refusals, looks and policy in Chromium");
} finally {
  await browser.end();
  fs.rmSync(folder, { recursive: true, force: true });
}
