// Rosters: persons, objects and costs by name, in lines of pairs or as a matrix, read as the command reads them. By days
// they are lines of a person, a day, a shift and a cost, and matrices with two title rows, the days over their shifts:
// objects are then called by shift and day, which are their kind and their group.
import { datesOf } from "./dates.mjs";
import { Names, Pairs } from "./names.mjs";
import { looksLikeNumber } from "./numbers.mjs";
import { groupsOf } from "./takes.mjs";
import { nameOf, quoted, refuse, RosterFault, said } from "./texts.mjs";

const TITLES = ["person", "object", "cost"];
const COLUMNS = 4;
/** @typedef {{ titles: string[], groups?: Groups }} Read */
/** @typedef {{ line: number, corner: string, days: string[], shifts: string[] }} Heads */
/** @typedef {(day: string, shift: string, line: number, columns: number[]) => number} NumberOf Of an object */

/** @type {(sheet: Sheet, choices: Choices) => Roster} The roster that a sheet holds; its form is taken from the text where it is ''. */
export function rosterOf(sheet, { form, comma }) {
  const isDaily = form !== "matrix" && areDailyLines(sheet);
  const isMatrix = !isDaily && (form === "matrix" || form === "" && !mayBeLines(sheet));
  const heads = isMatrix ? headsOf(sheet) : null;
  const read = isDaily ? readDailyLines : isMatrix ? readMatrix : form ? readLines : readSureLines;
  const pairs = new Pairs(comma);
  const { titles, groups = null } = heads ? readDailyMatrix(sheet, pairs, heads) : read(sheet, pairs);
  const { persons, objects } = pairs;
  const { decimals, units } = pairs.costs.scaled();
  return {
    titles, persons: persons.list, objects: objects.list, decimals, separator: sheet.separator, comma, isMatrix, groups,
    personNumbers: persons.numbers, objectNumbers: objects.numbers, takes: null, past: new Set(), gone: new Set(),
    pairs: pairs.list.map((pair, k) => ({ ...pair, cost: units[k] })),
  };
}

/** @type {(sheet: Sheet) => boolean} */
function mayBeLines(sheet) {
  const { cells } = sheet.title();
  return cells.length === 3 && cells[0] !== "";
}

// Whether three columns are lines: the second has words alone, or numbers alone and a person stands twice.
/** @type {(persons: (string | number)[], objects: string[]) => boolean} */
function areLines(persons, objects) {
  const numbers = objects.some((cell) => cell === "" || looksLikeNumber(cell));
  const words = objects.some((cell) => cell !== "" && !looksLikeNumber(cell));
  return words && !numbers || !words && new Set(persons).size < persons.length;
}

/** @type {(sheet: Sheet) => void} Refuses a roster of three columns that may be lines or a matrix. */
function refuseUnsure(sheet) {
  const { line, cells } = sheet.title();
  const rows = [...sheet.body(cells.length)];
  if (areLines(rows.map((row) => row.cells[0]), rows.map((row) => row.cells[1]))) return;
  throw new RosterFault("lines of pairs, or a matrix of two objects? Choose the form", line);
}

/** @type {(sheet: Sheet, pairs: Pairs) => Read} Reads lines, and refuses first what may as well be a matrix. */
function readSureLines(sheet, pairs) {
  try {
    const read = readLines(sheet, pairs);
    if (!areLines(pairs.list.map(({ person }) => person), pairs.objects.list)) refuseUnsure(sheet);
    return read;
  } catch (fault) {
    refuseUnsure(sheet);
    throw fault;
  }
}

/** @type {(sheet: Sheet, pairs: Pairs) => Read} */
function readLines(sheet, pairs) {
  const { line: first, cells: title } = sheet.title();
  if (title.length !== 3) {
    const fourth = title.length > 3 ? said("fourth", quoted(title[3])) : "";
    refuse(first, 0, "titles", title.length, fourth);
  }
  if (looksLikeNumber(title[2])) refuse(first, 3, "no title", quoted(title[2]));
  const titles = title.map((cell, place) => cell === "" ? TITLES[place] : nameOf(cell, first, place + 1));
  for (const { line, cells } of sheet.body(3)) {
    const [person, object] = [pairs.persons.number(cells[0], line, 1), pairs.objects.number(cells[1], line, 2)];
    pairs.takeOnce(person, object, cells.slice(0, 2), cells[2], line, 3);
  }
  if (!pairs.list.length) refuse(first, 0, "no line");
  return { titles };
}

/** @type {(sheet: Sheet, pairs: Pairs) => Read} */
function readMatrix(sheet, pairs) {
  const { line: first, cells: title } = sheet.title();
  if (looksLikeNumber(title[0])) refuse(first, 1, "number for a title", quoted(title[0]));
  if (title.length < 2) refuse(first, 0, "no object");
  const objects = title.slice(1).map((cell, place) => pairs.objects.once(cell, first, place + 2));
  for (const { line, cells } of sheet.body(title.length)) pairs.takeRow(cells, objects, line);
  if (!pairs.persons.list.length) refuse(first, 0, "no line");
  return { titles: [title[0] === "" ? TITLES[0] : nameOf(title[0], first, 1), TITLES[1], TITLES[2]] };
}

/** @type {(cells: string[]) => boolean} */
function areDates(cells) {
  return datesOf([...new Set(cells)]).all !== null;
}

/** @type {(title: string, names: Names) => { groups: Groups, numberOf: NumberOf }} Objects by day and shift, as they come. */
function objectsBy(title, names) {
  const days = new Names("days");
  const groups = groupsOf(days, title);
  return { groups, numberOf: (day, shift, line, columns) => {
    const [group, kind] = [days.number(day, line, columns[0]), nameOf(shift, line, columns[1])];
    const number = names.number(`${kind} ${groups.names[group]}`, line, columns[1]);
    groups.ofObjects.set(number, group);
    groups.kinds.set(number, kind);
    return number;
  } };
}

/** @type {(sheet: Sheet) => boolean} Whether a sheet has lines of a person, a day, a shift and a cost. */
export function areDailyLines(sheet) {
  const { cells: title } = sheet.title();
  if (title.length !== COLUMNS || !title.slice(0, 3).every(Boolean)) return false;
  const rows = [...sheet.records()].map(({ cells }) => cells);
  if (!rows.length || rows.some((cells) => cells.length < COLUMNS || !cells[1] || !cells[2])) return false;
  const columns = [1, 2].map((column) => rows.map((cells) => cells[column]));
  const numbers = columns.map((cells) => cells.some(looksLikeNumber));
  const areFit = !numbers.every(Boolean) && columns.every((cells, k) => !numbers[k] || areDates(cells));
  return areFit && rows.some((cells) => looksLikeNumber(cells[3]));
}

/** @type {(sheet: Sheet, pairs: Pairs) => Read} Reads lines; the day stands third where dates stand there alone. */
function readDailyLines(sheet, pairs) {
  const { cells: title } = sheet.title();
  const rows = [...sheet.body(COLUMNS)];
  const [seconds, thirds] = [1, 2].map((column) => areDates(rows.map(({ cells }) => cells[column])));
  const day = thirds && !seconds ? 2 : 1;
  const titles = title.map((cell, place) => nameOf(cell, 1, place + 1));
  const { groups, numberOf } = objectsBy(titles[day], pairs.objects);
  for (const { line, cells } of rows) {
    const person = pairs.persons.number(cells[0], line, 1);
    const object = numberOf(cells[day], cells[3 - day], line, [day + 1, 4 - day]);
    pairs.takeOnce(person, object, [cells[0], pairs.objects.list[object]], cells[3], line, 4);
  }
  return { titles: [titles[0], titles[3 - day], titles[3]], groups };
}

/** @type {(sheet: Sheet) => Heads | null} The two title rows of a matrix; null where it has none. */
function headsOf(sheet) {
  if (sheet.rows.length < 2) return null;
  const { line, cells: below } = sheet.rows[1];
  const width = below.map(Boolean).lastIndexOf(true) + 1;
  const above = Array.from({ length: width }, (_, k) => sheet.rows[0].cells[k] || "");
  const shifts = below.slice(1, width);
  const hasWide = above.slice(2).some((cell, k) => !cell || cell === above[k + 1]);
  if (!shifts.length || !hasWide || !above[1] || !shifts.every(Boolean) || shifts.some(looksLikeNumber)) return null;
  const days = /** @type {string[]} */ ([]);
  above.slice(1).forEach((cell) => days.push(cell || days[days.length - 1]));
  return { line, corner: below[0] || above[0], days, shifts };
}

/** @type {(sheet: Sheet, pairs: Pairs, heads: Heads) => Read} Reads a matrix with two title rows. */
function readDailyMatrix(sheet, pairs, heads) {
  const { groups, numberOf } = objectsBy("day", pairs.objects);
  const columns = heads.shifts.map((shift, k) => {
    const number = numberOf(heads.days[k], shift, heads.line, [k + 2, k + 2]);
    if (number < k) refuse(heads.line, k + 2, "shift twice", quoted(shift), quoted(heads.days[k]));
    return number;
  });
  for (const { line, cells } of [...sheet.records()].slice(1)) {
    if (cells.slice(columns.length + 1).some(Boolean)) refuse(line, 0, "cells of two titles", cells.length, columns.length + 1);
    pairs.takeRow(cells, columns, line);
  }
  if (!pairs.persons.list.length) refuse(heads.line, 0, "no line after two");
  return { titles: [heads.corner ? nameOf(heads.corner, heads.line, 1) : "person", "shift", "cost"], groups };
}
