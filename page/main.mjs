// The page: it takes files, lets a worker plan them, and shows the answer.
import { calendarsOf, zipOf } from "./calendars.mjs";
import { costsOf, pairKey } from "./earlier.mjs";
import { button, byId, element, table } from "./elements.mjs";
import { clearResult, legendOf, listOf, sheetTable, showResult } from "./results.mjs";
import { csvOf } from "./sheet.mjs";
import { showTables } from "./tables.mjs";
import { itemOf } from "./texts.mjs";

const EXAMPLE = "nurse,early,late,night,office\nAda,2.50,4,,1\nBen,3.25,,1.75,2\nCleo,,2,4.50,\nDan,5,3.75,2,1.25\n";
// Spreadsheets read CSV as UTF-8 where it begins with this mark.
const BOM = "\ufeff";
const PASTED = "";
const WALL_HEAD = `<meta charset="utf-8"><meta http-equiv="Content-Security-Policy" content="default-src 'none'; \
style-src 'unsafe-inline'"><meta name="viewport" content="width=device-width, initial-scale=1">`;

let run = /** @type {{ begin: number, clock: number } | null} */ (null);
// Answers one question after the other, until one is stopped: what it has run once runs faster.
let worker = /** @type {Worker | null} */ (null);
// The last one that was given last.
let files = /** @type {Given[]} */ ([]);
let tables = /** @type {Shown[]} */ ([]);
let marks = /** @type {Mark[]} */ ([]);
let found = /** @type {Found | null} */ (null);

/** @type {(id: string, text: string) => void} */
function put(id, text) {
  byId(id).textContent = text;
}

/** @type {(time: number) => string} A time in milliseconds. */
function seconds(time) {
  return `${(time / 1000).toFixed(time < 10000 ? 1 : 0)} s`;
}

/** The module, which the page holds packed, as text: compiled once for all workers. */
async function compiledModule() {
  const packed = Uint8Array.from(atob(byId("module", HTMLScriptElement).text.trim()), (letter) => letter.charCodeAt(0));
  const stream = new Blob([packed]).stream().pipeThrough(new DecompressionStream("gzip"));
  return WebAssembly.compile(await new Response(stream).arrayBuffer());
}
const compiled = compiledModule();
// A browser that can't says so when it is asked for a plan.
compiled.catch(() => {});

/** A worker of the script that the page holds as text. */
function newWorker() {
  const place = URL.createObjectURL(new Blob([byId("worker", HTMLScriptElement).text], { type: "text/javascript" }));
  const made = new Worker(place);
  URL.revokeObjectURL(place);
  made.addEventListener("message", (event) => take(event.data));
  made.addEventListener("error", (event) => fail(event.message || "The worker doesn't start."));
  return made;
}

/** @type {(text: string) => void} */
function fail(text) {
  stopWorker();
  take({ kind: "failure", text });
}

function stopWorker() {
  worker?.terminate();
  worker = null;
}

/** @type {() => number} Ends a run, and returns how long it took. */
function end() {
  if (run === null) return 0;
  clearInterval(run.clock);
  const time = performance.now() - run.begin;
  run = null;
  put("clock", "");
  for (const id of ["stop", "progress"]) byId(id).hidden = true;
  return time;
}

function stop() {
  stopWorker();
  if (run) put("status", `Stopped after ${seconds(end())}.`);
  byId("plan").focus();
}

/** @type {() => Choices} What is chosen below the files. */
function choices() {
  const { form, mark, sense, fullest, past } = Object.fromEntries(new FormData(byId("ask", HTMLFormElement)));
  return { form: String(form), comma: mark === "comma", max: sense === "max", fullest: !!fullest, past: String(past) };
}

/** Plans the files. */
async function plan() {
  if (run) stopWorker();
  end();
  clearResult();
  put("fault", files.length ? "" : "There is no roster yet: drop files, or paste cells.");
  put("status", files.length ? "Planning .." : "");
  found = null;
  if (!files.length) return;
  const begin = performance.now();
  const clock = window.setInterval(() => put("clock", seconds(performance.now() - begin)), 500);
  const own = run = { begin, clock };
  for (const id of ["stop", "progress"]) byId(id).hidden = false;
  try {
    const module = await compiled;
    if (run !== own) return;
    worker = worker || newWorker();
    worker.postMessage({ files, choices: choices(), marks, module });
  } catch (fault) {
    if (run === own) fail(`This browser doesn't run the page's module: ${fault}`);
  }
}

/** @type {(fault: Fault) => string} Where a fault is: its file where there are several, line and column. */
function placeOf(fault) {
  const [file, line] = [files.length > 1 ? fault.file : "", fault.line ? `${itemOf(fault.file)} ${fault.line}` : ""];
  const parts = [file, line, line && fault.column ? `column ${fault.column}` : ""].filter(Boolean);
  return parts.length ? `${parts.join(", ").replace(/^[lp]/, (letter) => file ? letter : letter.toUpperCase())}: ` : "";
}

/** @type {(reply: Reply) => void} Shows what the worker replied. */
function take(reply) {
  if (reply.kind === "progress") return put("status", reply.text);
  const time = seconds(end());
  if (reply.kind !== "failure") {
    tables = reply.tables;
    showTables(tables, change);
  }
  if (reply.kind === "found") {
    found = reply;
    showResult(reply, rosterName(), choose);
    showPast(reply);
    showMarks();
    put("status", `${reply.read}. Planned in ${time}.`);
    byId("result-title").focus();
  } else {
    put("status", "");
    put("fault", (reply.kind === "fault" ? placeOf(reply) : "") + reply.text);
  }
  const { dataset } = document.documentElement;
  dataset.done = String(Number(dataset.done || "0") + 1);
}

/** @type {import("./tables.mjs").Change} Those of its file become files of their own. */
function change(table, changed) {
  const { place } = table;
  const own = tables.filter((other) => other.place === place);
  if (changed?.rows) table.rows = changed.rows;
  const given = own.map(({ name, kind, rows, separator }) => (
    own.length === 1 && !rows ? files[place] : { name, kind, rows: rows || [], separator }));
  files.splice(place, 1, ...given.flatMap((one, k) => own[k] !== table ? [one] : changed ? [{ ...one, ...changed }] : []));
  tables.filter((other) => other.place > place).forEach((other) => { other.place += own.length - 1; });
  own.forEach((other, k) => { other.place += k; });
  if (changed?.rows) return put("status", "Cells have changed: plan again.");
  if (table.name === PASTED) byId("text", HTMLTextAreaElement).value = "";
  plan();
}

/** @type {(chosen: File[]) => Promise<void>} Takes files, each in place of one of its name, and plans. */
async function takeFiles(chosen) {
  try {
    for (const file of chosen) giveFile({ name: file.name, kind: "", source: await file.arrayBuffer() });
    plan();
  } catch (fault) {
    put("fault", "A file can't be read: choose it again.");
  }
}

/** @type {(given: Given) => void} */
function giveFile(given) {
  files = [...files.filter(({ name }) => name !== given.name), given];
}

/** @type {(text: string) => void} */
function takeText(text) {
  byId("text", HTMLTextAreaElement).value = text;
  if (text.trim()) giveFile({ name: PASTED, kind: "", source: text });
  else files = files.filter(({ name }) => name !== PASTED);
}

/** @type {(event: DragEvent) => void} */
function drop(event) {
  event.preventDefault();
  byId("drop").classList.remove("over");
  const data = event.dataTransfer;
  if (data?.files.length) takeFiles([...data.files]);
  else if (data) {
    takeText(data.getData("text/plain"));
    plan();
  }
}

/** The roster's name without its end, or a word where it was pasted. */
function rosterName() {
  const name = tables.find(({ kind }) => kind === "roster")?.name || "roster";
  return name.replace(/\.[^.]*$/, "");
}

/** @type {(found: Found) => void} The days before which nothing may be planned, where there is an earlier plan. */
function showPast({ roster }) {
  const room = byId("past", HTMLSelectElement);
  const [had, names] = [room.value, ["", ...roster.groups ? roster.groups.names : []]];
  room.replaceChildren(...names.map((name) => new Option(name || "nothing is past", name)));
  room.value = names.includes(had) ? had : "";
  byId("past-room").hidden = names.length < 2 || !tables.some(({ kind }) => kind === "plan");
}

/** The pairs that were chosen, each with a button that takes the choice back. */
function showMarks() {
  byId("marks").replaceChildren(...marks.map((mark) => {
    const text = `${mark.isFixed ? "given" : "not"}: ${mark.person}, ${mark.object}`;
    return button(`${text} \u00d7`, () => decide([mark], null), { "aria-label": `Take back ${text}` });
  }));
}

/** @type {(those: Mark[], mark: Mark | null) => void} Takes choices back, makes one, and plans again. */
function decide(those, mark) {
  const isThere = (/** @type {Mark} */ own) => those.some(({ person, object }) => person === own.person && object === own.object);
  marks = [...marks.filter((own) => !isThere(own)), ...mark ? [mark] : []];
  plan();
}

/** @type {(row: number, column: number) => void} Asks what a person is to have on a day, and what not. */
function choose(row, column) {
  if (!found?.sheet || found.sheet.days[column].isPast) return;
  const { roster, sheet } = found;
  const [person, day, costs] = [roster.persons[row], sheet.days[column], costsOf(roster)];
  const isOpen = (/** @type {number} */ object) => costs.has(pairKey(roster, row, object))
    || marks.some((mark) => mark.person === person && mark.object === roster.objects[object]);
  const own = [...roster.groups?.ofObjects || []].filter(([object, group]) => group === day.group && isOpen(object));
  const all = own.map(([object]) => ({ person, object: roster.objects[object], isFixed: true }));
  const room = byId("choice", HTMLDialogElement);
  const act = (/** @type {string} */ text, /** @type {() => void} */ work) => button(text, () => {
    room.close();
    work();
  });
  const buttons = all.flatMap((mark) => [
    act(`Give ${mark.object}`, () => decide(all, mark)),
    act(`Not ${mark.object}`, () => decide([mark], { ...mark, isFixed: false }))]);
  room.replaceChildren(
    element("h2", {}, element("span", { lang: "" }, `${person}, ${day.name}`)),
    element("p", { class: "pairs" }, ...all.length ? buttons : ["Nothing is possible here."]),
    element("p", {}, act("As the plan chooses", () => decide(all, null)), " ", act("Leave it", () => {})));
  room.showModal();
}

/** @type {(found: Found) => void} The plan is from now on the earlier one, and so are its calendars. */
function keep(found) {
  const { rows, roster: { separator } } = found;
  const calendars = calendarsOf(found, byId("version").innerText).files.map(({ name, text }) => [name, text]);
  const old = new Set(tables.filter(({ kind }) => ["plan", "calendars"].includes(kind)).map(({ place }) => place));
  files = [...files.filter((_, place) => !old.has(place)), { name: "the kept plan", kind: "plan", rows, separator }];
  if (calendars.length) files.push({ name: "the kept plan's calendars", kind: "calendars", rows: calendars, separator });
  plan();
}

/** @type {(found: Found) => void} */
function copy({ rows }) {
  const fill = (/** @type {ClipboardEvent} */ event) => {
    event.clipboardData?.setData("text/plain", csvOf(rows, "\t"));
    event.preventDefault();
  };
  document.addEventListener("copy", fill, { once: true });
  const isDone = document.execCommand("copy");
  document.removeEventListener("copy", fill);
  put("status", isDone ? "The plan is copied; paste it into a spreadsheet." : "The browser refused to copy: mark the table and copy it.");
}

/** @type {(end: string, blob: Blob) => void} Saves a file whose name is the roster's and an end. */
function saveAs(end, blob) {
  const place = URL.createObjectURL(blob);
  element("a", { href: place, download: rosterName() + end }).click();
  setTimeout(() => URL.revokeObjectURL(place), 60000);
}

/** @type {(found: Found) => void} */
function save({ rows, roster }) {
  saveAs("-plan.csv", new Blob([BOM + csvOf(rows, roster.separator)], { type: "text/csv" }));
}

/** @type {(found: Found) => void} A page of the plan alone, without costs and scripts, for the wall. */
function saveWall({ sheet, lists, roster, rows }) {
  // The last column has costs.
  const own = sheet && { ...sheet, columns: sheet.columns.slice(0, -1) };
  const content = !own ? [table(rows.map((cells) => cells.slice(0, 2)))] : [
    element("div", { class: "sheet" }, sheetTable(own, roster.titles[0]), legendOf(own)),
    element("h2", {}, `By ${roster.titles[1]}`), listOf(lists.objects)];
  const parts = [
    element("title", {}, rosterName()), document.querySelector("style"),
    element("body", {}, element("h1", { lang: "" }, rosterName()), ...content)].map((part) => part?.outerHTML);
  const text = `<!DOCTYPE html>\n<html lang="en"><head>${WALL_HEAD}${parts[0]}${parts[1]}</head>${parts[2]}</html>\n`;
  saveAs("-wall.html", new Blob([text], { type: "text/html" }));
}

/** @type {(found: Found) => void} */
function saveCalendars(found) {
  const { files: calendars, why } = calendarsOf(found, byId("version").innerText);
  if (calendars.length) saveAs("-calendars.zip", zipOf(calendars));
  else put("status", `No calendars: ${why}.`);
}

function clear() {
  [files, tables, marks] = [[], [], []];
  takeText("");
  byId("file", HTMLInputElement).value = "";
  showTables([], change);
  showMarks();
  plan();
  put("fault", "");
}

function example() {
  clear();
  takeText(EXAMPLE);
  plan();
}

function begin() {
  byId("ask").addEventListener("submit", (event) => {
    event.preventDefault();
    plan();
  });
  const works = { stop, clear, example, print: () => window.print() };
  for (const [id, work] of Object.entries(works)) byId(id).addEventListener("click", work);
  const worksOnPlan = { copy, save, wall: saveWall, calendars: saveCalendars, keep };
  for (const [id, work] of Object.entries(worksOnPlan)) byId(id).addEventListener("click", () => found && work(found));
  const text = byId("text", HTMLTextAreaElement);
  text.addEventListener("input", () => takeText(text.value));
  text.addEventListener("paste", () => setTimeout(plan));
  const input = byId("file", HTMLInputElement);
  // So that a file that was chosen before counts as a change.
  input.addEventListener("click", () => { input.value = ""; });
  input.addEventListener("change", () => { if (input.files?.length) takeFiles([...input.files]); });
  for (const id of ["past", "fullest"]) byId(id).addEventListener("change", plan);
  document.addEventListener("dragover", (event) => {
    event.preventDefault();
    byId("drop").classList.add("over");
  });
  document.addEventListener("dragleave", () => byId("drop").classList.remove("over"));
  document.addEventListener("drop", drop);
}

begin();
