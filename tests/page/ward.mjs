// A planner's month in the page, in any browser: a driver has value(expression), answered(work), giveFiles(files) and press(id).
import assert from "node:assert";
import { execFileSync } from "node:child_process";
import fs from "node:fs";
import path from "node:path";

const FILES = ["roster", "places", "tasks", "groups"].map((name) => `month_${name}.csv`);
const NOTES = "[...document.querySelectorAll('.note')].map((note) => note.textContent)";
const TITLE = "document.getElementById('result-title').textContent";

// The files of a month, which month_files.py writes into a folder.
export function monthFiles(folder) {
  execFileSync("python3", [path.join(import.meta.dirname || path.dirname(new URL(import.meta.url).pathname), "month_files.py"), folder]);
  return JSON.parse(fs.readFileSync(path.join(folder, "wanted.json"), "utf8"));
}

function inFolder(folder, names) {
  return names.map((name) => path.join(folder, name));
}

async function fault(driver) {
  return driver.value("document.getElementById('fault').textContent");
}

// The month by four files, and by one workbook: the cost is the command's.
export async function tryMonth(driver, folder, wanted) {
  for (const files of [FILES, ["month.xlsx"]]) {
    await driver.press("clear");
    await driver.answered(() => driver.giveFiles(inFolder(folder, files)));
    assert.strictEqual(await fault(driver), "");
    assert.strictEqual(await driver.value(TITLE), wanted.cost);
    assert.strictEqual(await driver.value("document.querySelectorAll('#files li').length"), 4);
    assert.strictEqual(await driver.value("document.querySelectorAll('.month tbody tr').length"), 31);
    assert.strictEqual(await driver.value("document.querySelectorAll('.month td.short').length"), 0);
  }
}

// A nurse is sick from the 12th: the command's plan is the earlier one, its tasks are changed as a table, and the past stays.
export async function trySick(driver, folder, wanted) {
  await driver.answered(() => driver.giveFiles(inFolder(folder, ["command_plan.csv"])));
  assert.strictEqual((await driver.value(NOTES)).includes("no pair changes"), true);
  const details = "[...document.querySelectorAll('#files details')].find((own) => own.textContent.includes('tasks'))";
  await driver.value(`${details}.open = true`);
  await driver.until("document.querySelectorAll('.edit input').length > 28");
  for (const title of ["at least", "at most"]) {
    await driver.value(`(() => {
      const cell = [...document.querySelectorAll('.edit input')].find((own) => own.getAttribute('aria-label') === 'Nurse 05, ${title}');
      cell.value = '0';
      cell.dispatchEvent(new Event('change'));
    })()`);
  }
  await driver.answered(() => driver.press("plan"));
  await driver.answered(() => driver.value(`(() => {
    const past = document.getElementById('past');
    past.value = '2027-03-12';
    past.dispatchEvent(new Event('change'));
  })()`));
  assert.strictEqual(await fault(driver), "");
  assert.strictEqual(await driver.value(TITLE), wanted.sick[wanted.sick.length - 1]);
  const notes = await driver.value(NOTES);
  const moves = notes.find((note) => /^\d+ pairs? (comes?|goe?s?)/.test(note)).match(/\d+/g).map(Number);
  assert.strictEqual(moves.reduce((sum, count) => sum + count, 0), wanted.changes);
  assert(notes.some((note) => /of 11 days before 2027-03-12 .* stay$/.test(note)), notes.join("\n"));
}

// A cell is given, and forbidden: the plan has it, and then not; both by keys.
export async function tryMarks(driver) {
  const cells = "[...document.querySelectorAll('.month tbody tr')].slice(0, 28).map((row) => row.querySelectorAll('td')[20])";
  const row = await driver.value(`${cells}.findIndex((cell) => !cell.classList.contains('off') && !cell.textContent.includes('e'))`);
  const free = `${cells}[${row}]`;
  const key = (name) => `${free}.dispatchEvent(new KeyboardEvent('keydown', { key: '${name}', bubbles: true, cancelable: true }))`;
  for (const [button, mark] of [["Give early 2027-03-21", true], ["Not early 2027-03-21", false]]) {
    await driver.value(key("Enter"));
    const which = `[...document.querySelectorAll('#choice button')].find((own) => own.textContent === '${button}')`;
    await driver.answered(() => driver.value(`${which}.click()`));
    assert.strictEqual(await fault(driver), "");
    assert.strictEqual(await driver.value(`${free}.textContent.includes('e')`), mark);
    assert.strictEqual(await driver.value("document.querySelectorAll('#marks button').length"), 1);
  }
  await driver.answered(() => driver.value("document.querySelector('#marks button').click()"));
}

// Who is short, in sums, and a plan that misses as little as can be.
export async function tryShort(driver) {
  await driver.answered(() => driver.paste("nurse,day,shift,cost\nAda,Mon,early,1\nAda,Mon,late,2\nAda,Tue,late,3\n"));
  const given = ["shift,at least,at most\nearly,1,1\nlate,1,1\n", "nurse,at least,at most\nAda,1,3\n"];
  await driver.answered(() => driver.dropTexts(given.map((text, k) => [`short_${k}.csv`, text])));
  assert.strictEqual(await driver.value(TITLE), "There is no plan for all");
  const line = "1 nurse can take at most 1 of the 2 places that must be filled at 2 shifts (early Mon, late Mon) of day Mon: Ada one of each day, so at most 1: "
    + "allow others there, or fill one fewer";
  assert.strictEqual(await driver.value("document.querySelector('#answer .short').textContent"), line);
  await driver.answered(() => driver.press("fullest"));
  assert.strictEqual(await driver.value(TITLE), "least cost of 2 pairs that miss least: 4");
  await driver.answered(() => driver.press("fullest"));
}
