// What the worker does with files: it reads them, plans the roster, and says all that the page shows.
import { sheetOf } from "./days.mjs";
import { costsOf, namedPairs, numbersOf, oldPlanOf, pairKey, withPast } from "./earlier.mjs";
import { tablesOf } from "./files.mjs";
import { gathered, usesOf } from "./gathered.mjs";
import { NoMemory } from "./library.mjs";
import { answerOf, firstLines, leftOut, listsOf, notesOf, rowsOf } from "./plan.mjs";
import { rosterOf } from "./roster.mjs";
import { counted } from "./sentences.mjs";
import { boundsOf, forgotten, readCounts, readGroups, withTakes } from "./takes.mjs";
import { bare, itemOf, quoted, refuse, RosterFault, said } from "./texts.mjs";

// So many notes on names; tables with more cells aren't sent to the page, and lists of more pairs aren't.
const [MOST_NOTES, MOST_SHOWN_CELLS, MOST_PAIRS, MOST_DRAWN] = [20, 20000, 5000, 250000];

/** @typedef {{ roster: Roster, kept: OldPlan | null, fixed: Pair[], lines: string[] }} Read */

/** @type {(roster: Roster, tables: Table[]) => string[]} What is to be said of a roster as it was read. */
function notesOn(roster, tables) {
  // Names that differ in case or spaces alone.
  const groups = [roster.persons, roster.objects].flatMap((names) => [...gathered(names, bare).values()])
    .filter((group) => group.length > 1);
  const notes = groups.slice(0, MOST_NOTES).map((group) => said("alike", group.map(quoted).join(", ")));
  if (groups.length > MOST_NOTES) notes.push(said("more alike", groups.length - MOST_NOTES));
  const guesses = tables.filter(({ isGuess }) => isGuess);
  const files = guesses.map(({ name }) => tables.length > 1 ? `${name} is` : "The file is");
  return [...files.map((file) => `${file} read as Windows-1252, since it is no UTF-8`), ...notes];
}

/** @type {(tables: Table[], kind: string) => Table | null} The table of a kind, of which there may be one. */
function tableOf(tables, kind) {
  const own = tables.filter((table) => table.kind === kind);
  if (own.length < 2) return own[0] || null;
  const text = `a second file of this kind (${kind}), after ${own[0].name}: choose what each is`;
  throw new RosterFault(text, 0, 0, own[1].name);
}

/** @type {(tables: Table[], choices: Choices) => Read} The roster of tables with its counts and groups, and an earlier plan. */
export function readTables(tables, choices) {
  /** @type {<Result>(kind: string, read: (table: Table) => Result) => Result | null} */
  const ofKind = (kind, read) => {
    const own = tableOf(tables, kind);
    try {
      return own && read(own);
    } catch (fault) {
      if (own && fault instanceof RosterFault) fault.file = own.name;
      throw fault;
    }
  };
  const first = ofKind("roster", ({ sheet }) => rosterOf(sheet, choices));
  if (!first) throw new RosterFault("no file is a roster: choose what each is");
  const tasks = ofKind("tasks", ({ sheet }) => readCounts(sheet, first, false));
  const places = ofKind("places", ({ sheet }) => readCounts(sheet, first, true));
  const roster = withTakes(first, tasks, places, ofKind("groups", ({ sheet }) => readGroups(sheet, first)));
  const lines = [places, tasks].flatMap((counts, k) => counts ? forgotten(roster, counts, k === 0) : []);
  const kept = ofKind("plan", ({ name, sheet }) => oldPlanOf(roster, namedPairs(sheet, roster), itemOf(name)));
  if (kept?.gone.length) lines.push(`the earlier plan has names that the roster hasn't: ${kept.gone.slice(0, MOST_NOTES).join(", ")}`);
  if (!kept || !roster.groups || !choices.past) return { roster, kept, fixed: [], lines };
  const past = withPast(roster, roster.groups, kept, choices.past);
  return { ...past, kept, lines: [...lines, ...past.lines] };
}

/** @type {(read: Read, marks: Mark[]) => Read} The roster without pairs that must not be, and the pairs that are to be in the plan. */
function withMarks({ roster, kept, fixed, lines }, marks) {
  const numbered = numbersOf(roster, marks).filter(({ object }) => !roster.past.has(object));
  const barred = new Set(numbered.filter(({ isFixed }) => !isFixed).map(({ key }) => key));
  const costs = costsOf(roster);
  const own = numbered.filter(({ isFixed, key }) => isFixed && costs.has(key));
  const all = [...fixed, ...own.map(({ person, object, key }) => ({ person, object, cost: costs.get(key) ?? 0 }))];
  const [had, used] = usesOf(all);
  for (const { person, object, name } of own) {
    const [count, most] = [had.get(person) || 0, boundsOf(roster, 0, person).most];
    const [uses, room] = [used.get(object) || 0, boundsOf(roster, 1, object).most];
    if (count > most) refuse(0, 0, "most with the past", name, roster.persons[person], count, most);
    if (uses > room) throw new RosterFault(`with ${name} ${roster.objects[object]} has ${uses}, where ${room} is the most`);
  }
  const pairs = roster.pairs.filter(({ person, object }) => !barred.has(pairKey(roster, person, object)));
  return { roster: { ...roster, pairs }, kept, fixed: all, lines };
}

// Tables as the page shows them, their rows where they aren't too many.
/** @param {Table[]} tables */
export function shownTables(tables) {
  return tables.map(({ name, kind, place, isChosen, sheet }) => {
    const width = sheet.rows.reduce((most, { cells }) => Math.max(most, cells.length), 0);
    const isWhole = !sheet.fault && kind !== "calendars" && width * sheet.rows.length <= MOST_SHOWN_CELLS;
    const rows = !isWhole ? null : sheet.rows.map(({ cells }) => Array.from({ length: width }, (_, k) => cells[k] || ""));
    return { name, kind, place, isChosen, count: sheet.rows.length, rows, separator: sheet.separator };
  });
}

// What the page shows of an answer: nothing of a plan where there is none.
/** @param {Table[]} tables @param {Question} question @param {Library} library */
export function foundIn(tables, { choices, marks }, library) {
  const { roster, kept, fixed, lines } = withMarks(readTables(tables, choices), marks);
  const answer = answerOf(roster, { max: choices.max, fullest: choices.fullest, fixed, kept }, library);
  const { plan } = answer;
  const calendars = tableOf(tables, "calendars");
  const sheet = plan && sheetOf(roster, plan, kept);
  // The page draws no matrix of more pairs, and their lists would stop it while they come.
  const shown = sheet || roster.pairs.length <= MOST_DRAWN ? roster : { ...roster, pairs: [] };
  const words = [...roster.titles.slice(0, 2), "pair"];
  const sums = [roster.persons, roster.objects, roster.pairs].map((all, k) => counted(all.length, words[k]));
  return {
    kind: /** @type {const} */ ("found"), read: sums.join(", "), lines: firstLines(roster, choices.max, answer), rows: plan ? rowsOf(roster, plan) : [],
    left: plan ? leftOut(roster, plan) : [], notes: [...plan ? notesOf(roster, plan, kept) : [], ...lines, ...notesOn(roster, tables)],
    roster: shown, plan, kept, calendars: new Map(calendars?.sheet.rows.map(({ cells: [name, text] }) => [name, text])), sheet,
    lists: plan && plan.pairs.length <= MOST_PAIRS ? listsOf(roster, plan) : { persons: [], objects: [] },
    short: answer.short, tables: shownTables(tables),
  };
}

/** @type {(question: Question, load: () => Promise<Library>, report?: (progress: Progress) => void) => Promise<Reply>} The reply to a question. */
export async function replyTo(question, load, report = () => {}) {
  const tables = /** @type {Table[]} */ ([]);
  try {
    report({ kind: "progress", text: "Reading .." });
    await tablesOf(question.files, question.choices.comma, tables);
    const library = await load();
    report({ kind: "progress", text: "Planning .." });
    library.look = (pairs) => report({ kind: "progress", text: `Planning .. ${counted(pairs, "pair")} so far` });
    return foundIn(tables, question, library);
  } catch (fault) {
    if (fault instanceof RosterFault) {
      const { text, line, column } = fault;
      return { kind: "fault", text, file: fault.file, line, column, tables: shownTables(tables) };
    }
    if (fault instanceof NoMemory || fault instanceof RangeError) {
      return { kind: "failure", text: "The roster needs more memory than the browser gives. The command takes more." };
    }
    return { kind: "failure", text: `A fault of this page itself: ${fault}` };
  }
}
