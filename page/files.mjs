// Files that are known by their titles: a roster, what places and persons take, groups, an earlier plan and rules.
import { beginsWith, decoded, ZIP } from "./encodings.mjs";
import { sheetOfJson } from "./json.mjs";
import { looksLikeNumber } from "./numbers.mjs";
import { areDailyLines } from "./roster.mjs";
import { Sheet } from "./sheet.mjs";
import { isJson, RosterFault, said } from "./texts.mjs";
import { calendarsIn, gridsOf } from "./workbook.mjs";

// More bytes would need more memory than browsers give.
const MOST_BYTES = 2 ** 25;
const UNUSED = "unused";
const KINDS = ["roster", "places", "tasks", "groups", "plan", "calendars", "rules", UNUSED];
const COUNT_TITLES = /^(?:(?:at )?(?:least|most)|wanted|price|min(?:imum)?|max(?:imum)?|count|number|how many)$/;
const RULE = /^rules?$/;

/** @type {(given: Given[], comma: boolean, tables?: Table[]) => Promise<Table[]>} The tables of files, also of those that can't be read, of which the first is refused at the end. */
export async function tablesOf(given, comma, tables = []) {
  const faults = [];
  for (const [place, own] of given.entries()) {
    try {
      tables.push(...await tablesIn(own, comma, place));
    } catch (fault) {
      if (!(fault instanceof RosterFault)) throw fault;
      fault.file = own.name;
      faults.push(fault);
      const sheet = Object.assign(Sheet.ofRows([], ","), { fault });
      tables.push({ name: own.name, kind: UNUSED, sheet, isGuess: false, isChosen: false, place });
    }
  }
  chooseKinds(tables);
  if (faults.length) throw faults[0];
  return tables;
}

/** @type {(given: Given, comma: boolean, place: number) => Promise<Table[]>} */
async function tablesIn({ name, kind, source, rows, separator }, comma, place) {
  const own = { name, kind, isChosen: kind !== "", isGuess: false, place };
  if (rows) return [{ ...own, sheet: Sheet.ofRows(rows, separator || ",", isJson(name) ? 0 : 1) }];
  const length = typeof source === "string" ? source.length : source?.byteLength || 0;
  if (length > MOST_BYTES) throw new RosterFault(`${said("long file", MOST_BYTES)}; the command reads more`);
  if (typeof source === "string") return [{ ...own, sheet: new Sheet(source) }];
  const bytes = new Uint8Array(source || new ArrayBuffer(0));
  if (beginsWith(bytes, ZIP)) {
    const calendars = await calendarsIn(bytes);
    if (calendars) return [{ ...own, kind: kind || "calendars", sheet: Sheet.ofRows(calendars, ",") }];
    const grids = (await gridsOf(bytes, comma)).filter((grid, k) => grid.rows.length || k === 0);
    return grids.map((grid) => {
      const sheet = Sheet.ofRows(grid.rows, comma ? ";" : ",");
      sheet.merged = grid.merged;
      const kindOf = KINDS.find((word) => word === grid.name.toLowerCase()) || "";
      return { ...own, name: grids.length > 1 ? `${name}, ${grid.name}` : name, kind: kind || kindOf, sheet };
    });
  }
  const { text, isGuess } = decoded(bytes);
  if (isJson(name)) return [{ ...own, kind: kind || "plan", sheet: sheetOfJson(text, comma), isGuess }];
  return [{ ...own, sheet: new Sheet(text), isGuess }];
}

/** @type {(sheet: Sheet) => string} What a table may be, by its titles and its second column. */
function shapeOf(sheet) {
  const titles = (sheet.rows[0]?.cells || []).map((cell) => cell.toLowerCase());
  const [seconds, thirds] = [1, 2].map((column) => sheet.rows.slice(1, 200).map(({ cells }) => cells[column] || ""));
  const areWords = seconds.length > 0 && seconds.every((cell) => cell && !looksLikeNumber(cell) || /^[0-9]{4}-|^[0-9]{1,2}\.[0-9]{1,2}\./.test(cell));
  if (RULE.test(titles[0] || "")) return "rules";
  if (titles[0] && titles.slice(1).some((title) => COUNT_TITLES.test(title))) return "counts";
  if (titles.length === 2 && titles[0] && seconds.every((cell) => /^[0-9]+$/.test(cell))) return "counts";
  if (sheet.rows.length > 1 && areDailyLines(sheet)) return "roster";
  if (!areWords || !titles[0]) return "roster";
  return thirds.length && thirds.every(looksLikeNumber) ? "lines" : titles.length < 6 ? "pairs" : "roster";
}

/** @type {(sheet: Sheet) => Set<string>} The names of the first column. */
function namesIn(sheet) {
  return new Set(sheet.rows.slice(1).map(({ cells }) => cells[0]));
}

/** @type {(names: string[], known: Set<string>) => boolean} Whether half of some names are known. */
function areKnown(names, known) {
  return 2 * names.filter((name) => known.has(name)).length >= names.length;
}

/** @type {(tables: Table[]) => Table | null} The roster: the last that may be one; before lines of its own persons, which are a plan, a matrix or longer lines. */
function rosterAmong(tables) {
  const chosen = tables.find(({ kind }) => kind === "roster");
  const open = tables.filter(({ kind }) => !kind);
  const may = open.filter(({ sheet }) => ["roster", "lines"].includes(shapeOf(sheet)));
  const last = may[may.length - 1] || open.filter(({ sheet }) => shapeOf(sheet) !== "rules")[0] || null;
  if (chosen || !last || shapeOf(last.sheet) === "roster") return chosen || last;
  const longer = may.filter((table) => table !== last && areKnown([...namesIn(last.sheet)], namesIn(table.sheet))
    && (shapeOf(table.sheet) === "roster" || table.sheet.rows.length > last.sheet.rows.length));
  return longer[longer.length - 1] || last;
}

/** @type {(tables: Table[]) => void} Gives each table a kind: the roster first, and then the others by their titles and names. */
function chooseKinds(tables) {
  const roster = rosterAmong(tables);
  if (!roster) return;
  roster.kind = "roster";
  const { rows } = roster.sheet;
  const persons = namesIn(roster.sheet);
  const isLines = shapeOf(roster.sheet) === "lines";
  const [person, object] = [rows[0]?.cells[0] || "", isLines ? rows[0].cells[1] : ""];
  for (const table of tables.filter(({ kind }) => !kind)) {
    const [shape, title, names] = [shapeOf(table.sheet), table.sheet.rows[0]?.cells[0] || "", [...namesIn(table.sheet)]];
    const isOfPersons = title !== person && title === object ? false : title === person && title !== object || areKnown(names, persons);
    if (shape === "rules") table.kind = "rules";
    else if (shape === "counts") table.kind = isOfPersons ? "tasks" : "places";
    else if (shape === "pairs" && !isOfPersons) table.kind = "groups";
    else if (shape !== "roster" && isOfPersons) table.kind = "plan";
    else table.kind = UNUSED;
  }
}
