// Whether the page reads rosters as the command does, and says the same of them: node reader.mjs READ.json PAGE.html|MODULE.wasm
// READ.json is what read_rosters.py wrote.
import assert from "node:assert";
import fs from "node:fs";
import "./shared.mjs";
import { moduleOf } from "./page_parts.mjs";

const { readTables } = await import("../../page/answers.mjs");
const { changesOf } = await import("../../page/earlier.mjs");
const { tablesOf } = await import("../../page/files.mjs");
const { Library } = await import("../../page/library.mjs");
const { answerOf, firstLines, leftOut, rowsOf } = await import("../../page/plan.mjs");
const { csvOf, Sheet } = await import("../../page/sheet.mjs");
const { guarded, RosterFault } = await import("../../page/texts.mjs");

const { rosters, wards, workbook } = JSON.parse(fs.readFileSync(process.argv[2], "utf8"));
const library = await Library.load(new WebAssembly.Module(moduleOf(process.argv[3])));
const FIELDS = ["titles", "persons", "objects", "decimals", "separator", "comma", "isMatrix"];

function said(roster, max) {
  const answer = answerOf(roster, { max, fullest: false, fixed: [], kept: null }, library);
  const lines = firstLines(roster, max, answer);
  if (!answer.plan) return lines;
  const left = leftOut(roster, answer.plan).map(({ how }) => `${how}: ${answer.plan[how].length}`);
  return [...lines, `${rowsOf(roster, answer.plan).length - 1} pairs`, ...left];
}

async function faultOr(work) {
  try {
    return await work();
  } catch (fault) {
    if (!(fault instanceof RosterFault)) throw fault;
    return { text: fault.text, file: fault.file.replace(/\.json$/, ""), line: fault.line, column: fault.column };
  }
}

async function read({ bytes, form, comma, max }) {
  const source = new Uint8Array(Buffer.from(bytes, "base64")).buffer;
  const tables = await tablesOf([{ name: "", kind: "roster", source }], comma);
  const { roster } = readTables(tables, { form, comma, past: "" });
  const { titles, persons, objects } = roster;
  // What the page writes it reads again as it was.
  const rows = [titles, ...persons.map((person) => [person, objects[0], "1"])];
  assert.deepStrictEqual(new Sheet(csvOf(rows, roster.separator)).rows.map(({ cells }) => cells), rows);
  const own = Object.fromEntries(FIELDS.map((name) => [name, roster[name]]));
  const [ofPersons, ofObjects, costs] = ["person", "object", "cost"].map((name) => roster.pairs.map((pair) => pair[name]));
  return { ...own, ofPersons, ofObjects, costs, isGuess: tables[0].isGuess, said: said(roster, max), written: [...titles, ...persons, ...objects].map(guarded) };
}

async function planned(ward) {
  const given = [["roster", ward.text], ...["places", "tasks", "groups", "plan"].map((kind) => [kind, ward[kind]])];
  const files = given.filter(([, source]) => source !== undefined).map(([kind, source]) => (
    source.startsWith("{") ? { name: `${kind}.json`, kind: "", source: new TextEncoder().encode(source).buffer } : { name: kind, kind, source }));
  const { roster, kept, fixed } = readTables(await tablesOf(files, false), { form: "", comma: false, past: ward.past || "" });
  const answer = answerOf(roster, { max: ward.max || false, fullest: ward.fullest || false, fixed, kept }, library);
  const found = { said: firstLines(roster, ward.max, answer) };
  if (!answer.plan) return found;
  const changes = kept && changesOf(roster, answer.plan.pairs, kept);
  return { ...found, pairs: answer.plan.pairs.length, changes: changes ? changes.comes.length + changes.goes.length : -1, swaps: answer.plan.swaps };
}

let [refused, without, kept] = [0, 0, 0];
for (const one of rosters) {
  const found = await faultOr(() => read(one));
  if ("text" in found) delete found.file;
  assert.deepStrictEqual(found, one.wanted, `${one.name}: ${JSON.stringify(Buffer.from(one.bytes, "base64").toString())}`);
  refused += Number("text" in found);
  without += Number("said" in found && !/^(least|greatest) /.test(found.said[0]));
}
console.log(`page: ${rosters.length} rosters read as the command reads them, ${refused} of them refused and ${without} without a plan`);
[refused, without] = [0, 0];
for (const ward of wards) {
  const { wanted, ...own } = ward;
  const found = await faultOr(() => planned(ward));
  assert.deepStrictEqual(found, wanted, JSON.stringify(own, null, 1));
  refused += Number("text" in found);
  without += Number("said" in found && !/^(least|greatest) /.test(found.said[0]));
  kept += Number(found.changes >= 0);
}
console.log(`page: ${wards.length} wards planned as the command plans them, ${refused} refused, ${without} with shortages, ${kept} from an earlier plan`);
if (workbook) {
  const source = new Uint8Array(Buffer.from(workbook.bytes, "base64")).buffer;
  const { roster } = readTables(await tablesOf([{ name: "book.xlsx", kind: "", source }], false), { form: "", comma: false, past: "" });
  const { persons, objects, pairs, decimals, takes } = roster;
  assert.deepStrictEqual({ persons, objects, costs: pairs.map(({ cost }) => cost), decimals, tasks: [...takes.persons.values()].map(({ least, most }) => [least, most]) }, workbook.wanted);
  console.log("page: a workbook read as the command reads it");
} else {
  console.log("page: left out: a workbook (no openpyxl)");
}
