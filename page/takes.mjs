// Counts and groups of a roster: files that say how many each name takes, and of which objects nobody takes two.
import { MOST_PERSONS } from "./library.mjs";
import { hintOf, Names } from "./names.mjs";
import { looksLikeNumber } from "./numbers.mjs";
import { named } from "./sentences.mjs";
import { isPrintable, nameOf, quoted, refuse, RosterFault, said } from "./texts.mjs";

const [DAY, FROM, TO, KIND] = [24 * 60, "from", "to", "kind"];
const PRICED = ["wanted", "price"];
/** @typedef {{ bounds: Map<number, Bounds>, areRanges: boolean, title: string }} Counts Whether any line has two numbers */

/** @type {(numbers: Map<string, number>, word: string, cell: string, line: number) => number} The number of a name that the roster must have. */
function known(numbers, word, cell, line) {
  const name = nameOf(cell, line, 1);
  const found = numbers.get(name);
  if (found !== undefined) return found;
  throw new RosterFault(said("unknown", word, quoted(name)) + hintOf(name, numbers.keys()), line, 1);
}

/** @type {(cell: string, line: number, column: number) => number} */
function countIn(cell, line, column) {
  if (/^[0-9]{1,9}$/.test(cell) && Number(cell) <= MOST_PERSONS) return Number(cell);
  refuse(line, column, "no count", quoted(cell), MOST_PERSONS);
}

/** @type {(cells: string[], limit: number, line: number) => Bounds} At least and at most so many: one number is both, and an empty one of two is 0 or the limit. */
function boundsIn(cells, limit, line) {
  if (!cells.some(Boolean)) refuse(line, 2, "no number");
  const least = cells[0] ? countIn(cells[0], line, 2) : 0;
  if (cells.length === 1) return { least, most: least };
  const most = cells[1] ? countIn(cells[1], line, 3) : Math.max(limit, least);
  if (least > most) refuse(line, 3, "least and most", least, most);
  return { least, most };
}

/** @type {(sheet: Sheet, width: number) => number} The first column that has groups of persons, which rules are about: the fourth, or the third where it has words. */
function firstTeam(sheet, width) {
  const thirds = sheet.rows.slice(1).flatMap(({ cells }) => cells[2] ? [cells[2]] : []);
  return width < 3 ? width : thirds.length && !thirds.some(looksLikeNumber) ? 2 : 3;
}

/** @type {(cells: string[], width: number, first: number, line: number) => string[]} A line's name and its one number or two. */
function countCells(cells, width, first, line) {
  if (first < width) {
    if (cells.slice(width).some(Boolean)) refuse(line, 0, "cells of a title", cells.length, width);
    return [...cells, ...new Array(width).fill("")].slice(0, first);
  }
  if (cells.slice(Math.max(width, 3)).some(Boolean)) refuse(line, 0, "cells of counts", cells.length);
  return cells.length > 2 && (width > 2 || cells[2] !== "") ? cells.slice(0, 3) : [...cells, ""].slice(0, 2);
}

/** @type {(sheet: Sheet, roster: Roster, ofObjects: boolean) => Counts} Reads how many each object, or each person, takes. */
export function readCounts(sheet, roster, ofObjects) {
  const { line: first, cells: title } = sheet.title();
  if (title.length < 2) refuse(first, 0, "name and count");
  if (looksLikeNumber(title[1])) refuse(first, 2, "no title", quoted(title[1]));
  if (ofObjects && title.slice(1).some((cell) => PRICED.includes(cell.toLowerCase()))) refuse(0, 0, "wanted");
  const limit = (ofObjects ? roster.persons : roster.objects).length;
  const team = ofObjects ? title.length : firstTeam(sheet, title.length);
  const [numbers, word] = ofObjects ? [roster.objectNumbers, "object"] : [roster.personNumbers, "person"];
  const kinds = new Map(ofObjects ? roster.groups?.kinds : []);
  const isKind = new Set(kinds.values());
  /** @type {Map<any, Bounds>} By the numbers of names, and by kinds. */
  const all = new Map();
  let areRanges = false;
  for (const { line, cells: whole } of sheet.records()) {
    const cells = countCells(whole, title.length, team, line);
    const [name] = cells;
    const key = isKind.has(name) && !numbers.has(name) && !all.has(name) ? name : known(numbers, word, name, line);
    if (all.has(key)) refuse(line, 1, "name twice", quoted(name));
    all.set(key, boundsIn(cells.slice(1), limit, line));
    areRanges = areRanges || cells.length === 3;
  }
  kinds.forEach((kind, number) => all.set(number, all.get(number) || /** @type {Bounds} */ (all.get(kind))));
  const bounds = new Map([...all].filter(([key, own]) => typeof key === "number" && own));
  return { bounds, areRanges, title: title[0] };
}

/** @type {(title: string[], line: number) => { times: number[], kind: number | undefined }} The columns of times, and of kinds. */
function columnsIn(title, line) {
  const [from, to, kinds] = [FROM, TO, KIND].map((word) => (
    [...title.keys()].filter((place) => place > 1 && title[place].toLowerCase() === word)));
  const times = [...from, ...to];
  [[FROM, TO], [TO, FROM]].forEach(([word, other], k) => {
    const { length } = [from, to][k];
    if (length > 1) refuse(line, 0, "times", length, quoted(word), quoted(other));
    if (!length && times.length) refuse(line, 0, "one time", quoted(other), quoted(word));
  });
  if (kinds.length > 1) refuse(line, kinds[1] + 1, "kinds", kinds.length, quoted(KIND));
  return { times, kind: kinds[0] };
}

/** @type {(cell: string, line: number, column: number, most: number) => number} A time of day in minutes, at most so many. */
function minutesIn(cell, line, column, most) {
  const found = /^([0-9]{1,2}):([0-9]{2})(?::00)?$/.exec(cell);
  const minutes = found ? Number(found[1]) * 60 + Number(found[2]) : 0;
  if (found && Number(found[2]) < 60 && minutes <= most) return minutes;
  refuse(line, column, "no time", quoted(cell));
}

/** @type {(days: Names, title: string, of: string) => Groups} Groups without an object. */
export function groupsOf({ list }, title, of = "") {
  return { title, names: list, ofObjects: new Map(), times: new Map(), kinds: new Map(), of };
}

/** @type {(sheet: Sheet, roster: Roster) => Groups} Reads groups of objects of which nobody takes two. */
export function readGroups(sheet, roster) {
  const { line: first, cells: title } = sheet.title();
  if (title.length < 2) refuse(first, 0, "object and group");
  if (roster.objectNumbers.has(title[0])) refuse(first, 1, "object for a title", quoted(title[0]));
  const { times, kind: place } = columnsIn(title, first);
  const days = new Names("groups");
  const groups = groupsOf(days, title[1] && nameOf(title[1], first, 2), title[0]);
  const lines = /** @type {Map<number, number>} */ (new Map());
  for (const { line, cells } of sheet.body(title.length)) {
    const object = known(roster.objectNumbers, "object", cells[0], line);
    const kind = place && cells[place] ? nameOf(cells[place], line, place + 1) : "";
    const [begin, end] = times.some((place) => cells[place])
      ? times.map((place, k) => minutesIn(cells[place], line, place + 1, k ? DAY : DAY - 1)) : [];
    const group = days.number(cells[1], line, 2);
    const before = lines.get(object);
    if (before) refuse(line, 1, "object twice", quoted(cells[0]), groups.names[groups.ofObjects.get(object) ?? 0], before);
    lines.set(object, line);
    groups.ofObjects.set(object, group);
    if (begin !== undefined) groups.times.set(object, { begin, end: end > begin ? end : end + DAY });
    if (kind) groups.kinds.set(object, kind);
  }
  if (!lines.size) refuse(first, 0, "no line");
  return groups;
}

/** @type {(roster: Roster, tasks: Counts | null, places: Counts | null, groups: Groups | null) => Roster} The roster with counts and groups. */
export function withTakes(roster, tasks, places, groups) {
  const areSums = !tasks?.areRanges && !places?.areRanges;
  const [persons, objects] = [tasks, places].map((counts) => new Map(
    [...counts?.bounds || []].map(([number, own]) => [number, areSums ? { least: 0, most: own.most } : own])));
  // A title that the roster hasn't is the first of other files' that is a name.
  const others = [["person", tasks?.title], ["object", places?.title, groups?.of], []];
  const titles = roster.titles.map((title, k) => title !== others[k][0] ? title
    : others[k].slice(1).find((other) => other && isPrintable(other) && !looksLikeNumber(other)) || title);
  return { ...roster, titles, takes: tasks || places ? { persons, objects, areSums } : null, groups: groups || roster.groups };
}

/** @type {(roster: Roster) => boolean} */
export function hasBounds({ takes }) {
  return takes !== null && !takes.areSums;
}

/** @type {(roster: Roster, side: number, number: number) => Bounds} How many a person takes, on side 0, or an object. */
export function boundsOf(roster, side, number) {
  const own = roster.takes && [roster.takes.persons, roster.takes.objects][side].get(number);
  return own || { least: side && hasBounds(roster) ? 1 : 0, most: 1 };
}

/** @type {(roster: Roster, counts: Counts, isObjects: boolean) => string[]} What is said of names without a line in a file of counts; nothing where all have one. */
export function forgotten(roster, { bounds }, isObjects) {
  const names = isObjects ? roster.objects : roster.persons;
  const numbers = [...names.keys()].filter((number) => !bounds.has(number));
  const bound = !hasBounds(roster) ? "" : isObjects ? "exactly " : "at most ";
  const takes = said(numbers.length === 1 ? "takes" : "each takes");
  return numbers.length ? [said("no count line", named(numbers, roster.titles[Number(isObjects)], names), takes, bound)] : [];
}

/** @type {(name: string, group: string) => string} A name without its group's at its begin or end. */
export function withoutGroup(name, group) {
  const rests = [name.startsWith(group) ? name.slice(group.length) : "", name.endsWith(group) ? name.slice(0, -group.length) : ""];
  for (const rest of rests) {
    const own = rest.replace(/^[ \-_/,.:]+|[ \-_/,.:]+$/g, "");
    if (own && own !== rest) return own;
  }
  return name;
}
