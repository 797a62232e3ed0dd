// The matrix: all costs, shaded, with the plan's cells outlined, in parts that each fit on a sheet of paper.
import { costsOf, pairKey } from "./earlier.mjs";
import { element } from "./elements.mjs";
import { shown } from "./numbers.mjs";

// How many shades costs have: those of the style.
const SHADES = 9;
export const MOST_AT_ONCE = 20000;
export const MOST_CELLS = 250000;
// In pixels at the size of print: a sheet of paper, its letters and lines, and at most a person's name and an object's.
const PRINT = { width: 960, letter: 6, line: 13, margin: 10, nameWidth: 180, headingHeight: 120 };
// So many rows are drawn before the page answers again.
const ROWS_AT_ONCE = 100;

/** @type {(widths: number[], room: number) => number[][]} Columns one after the other, in parts of at most so much room. */
function filled(widths, room) {
  const parts = /** @type {number[][]} */ ([]);
  let width = Infinity;
  widths.forEach((own, column) => {
    if (width + own > room) {
      parts.push([]);
      width = 0;
    }
    parts[parts.length - 1].push(column);
    width += own;
  });
  return parts;
}

/** @type {(roster: Roster) => number[]} The least cost and the greatest. */
function rangeOf({ pairs }) {
  const costs = pairs.map(({ cost }) => cost);
  return [Math.min, Math.max].map((of) => costs.reduce((one, other) => of(one, other), costs[0] ?? 0));
}

/** @type {(roster: Roster) => number[][]} As many columns at a time as fit on a sheet next to the names of persons, in parts of about one width. */
function partsOf(roster) {
  const names = roster.persons.reduce((most, name) => Math.max(most, name.length), 0);
  const room = PRINT.width - PRINT.margin - Math.min(PRINT.letter * names, PRINT.nameWidth);
  const cost = PRINT.margin + PRINT.letter * Math.max(...rangeOf(roster).map((own) => shown(roster, own).length));
  const linesOf = (/** @type {string} */ name) => Math.ceil(PRINT.letter * name.length / PRINT.headingHeight);
  const widths = roster.objects.map((name) => Math.max(cost, PRINT.line * linesOf(name) + 4));
  const parts = filled(widths, room);
  const sum = widths.reduce((one, other) => one + other, 0);
  const even = filled(widths, Math.min(room, Math.floor(sum / parts.length) + Math.max(...widths)));
  return even.length === parts.length ? even : parts;
}

/** @type {(found: Found) => (person: number, object: number) => HTMLElement} The cell of a person and an object. */
function costCells({ roster, plan }) {
  const [costs, [least, greatest]] = [costsOf(roster), rangeOf(roster)];
  const chosen = new Set(plan?.pairs.map(({ person, object }) => pairKey(roster, person, object)));
  return (person, object) => {
    const key = pairKey(roster, person, object);
    const cost = costs.get(key);
    if (cost === undefined) return element("td", { class: "none" });
    const level = Math.floor((cost - least) * SHADES / (greatest - least + 1));
    return element("td", { class: chosen.has(key) ? `s${level} own` : `s${level}` }, shown(roster, cost));
  };
}

/** @type {(scope: "row" | "col", content: string | Node, isShort: boolean) => HTMLElement} */
function heading(scope, content, isShort) {
  return element("th", isShort ? { scope, class: "short" } : { scope }, content);
}

/** @type {(found: Found, part: number[], name: string) => HTMLElement} The headings of a part, below a line that names it on paper, if there are several. */
function headOf({ roster: { objects }, short }, part, name) {
  const isShort = new Set(short.objects);
  const titles = part.map((object) => heading("col", element("span", {}, objects[object]), isShort.has(object)));
  const own = element("tr", {}, element("th", {}), ...titles);
  const named = element("th", { colspan: String(part.length + 1), lang: "en" }, name);
  return element("thead", {}, ...name ? [element("tr", { class: "part" }, named)] : [], own);
}

// Draws the matrix, some rows at a time, so that the page answers meanwhile. It stops where the room is no more on the page.
/** @type {(found: Found, room: HTMLElement) => Promise<void>} */
export async function drawMatrix(found, room) {
  const { roster: { objects, persons }, short } = found;
  const [parts, cellOf] = [partsOf(found.roster), costCells(found)];
  // All is laid out once, at the end.
  const tables = [];
  for (const [place, part] of parts.entries()) {
    const name = `${objects[part[0]]} to ${objects[part[part.length - 1]]} (part ${place + 1} of ${parts.length})`;
    const body = element("tbody", {});
    for (let person = 0; person < persons.length && room.isConnected; person++) {
      if (person % ROWS_AT_ONCE === 0) await new Promise((done) => setTimeout(done));
      const cells = part.map((object) => cellOf(person, object));
      body.append(element("tr", {}, heading("row", persons[person], short.persons.includes(person)), ...cells));
    }
    tables.push(element("table", {}, headOf(found, part, parts.length > 1 ? name : ""), body));
  }
  room.append(...tables);
}
