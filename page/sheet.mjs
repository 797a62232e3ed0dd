// The cells of CSV and of pasted cells, and what is wrong in them; and a plan as CSV, a roster of lines that is read again.
import { guarded, isLong, MOST_LETTERS, quoted, refuse, RosterFault, said, stripped, unguarded } from "./texts.mjs";

const SEPARATORS = ";\t,";
// A person, and its costs for as many objects as the command takes.
const MOST_IN_RECORD = 4194305;

/** @typedef {{ line: number, cells: string[] }} Row */

/** @type {(first: string) => string} What stands most between the cells of a first line; a comma where nothing does. */
function separatorOf(first) {
  const outside = first.replace(/"[^"]*"/g, "");
  const count = (/** @type {string} */ mark) => outside.split(mark).length;
  const most = [...SEPARATORS].reduce((best, mark) => count(mark) > count(best) ? mark : best);
  return outside.includes(most) ? most : ",";
}

// The record that begins at a place of a text, where the text after it begins, and what is wrong in it.
/** @type {(text: string, begin: number, separator: string, cellAt: RegExp) => { cells: string[], end: number, fault: string }} */
function recordAt(text, begin, separator, cellAt) {
  const cells = [];
  cellAt.lastIndex = begin;
  for (;;) {
    const [bare, quotedText, quote] = /** @type {RegExpExecArray} */ (cellAt.exec(text));
    if (quote === "") return { cells, end: text.length, fault: said("open quotes") };
    const [cell, at] = [quotedText === undefined ? bare : quotedText.replace(/""/g, '"'), cellAt.lastIndex];
    if (isLong(cell)) return { cells, end: at, fault: said("long cell", MOST_LETTERS) };
    if (cells.length === MOST_IN_RECORD) return { cells, end: at, fault: said("long record", MOST_IN_RECORD) };
    cells.push(cell);
    if (at >= text.length || text[at] === "\n" || text[at] === "\r") return { cells, end: at, fault: "" };
    if (text[at] !== separator) return { cells, end: at, fault: said("after quotes") };
    cellAt.lastIndex = at + 1;
  }
}

/** The records of a text that aren't empty, with `;`, TAB or `,` between cells, the one that its first line has most of. */
export class Sheet {
  rows = /** @type {Row[]} */ ([]);
  fault = /** @type {RosterFault | null} */ (null);
  // Lines that are one merged cell of a workbook.
  merged = /** @type {Set<number>} */ (new Set());

  /** @param {string} text */
  constructor(text) {
    const first = text.replace(/^[\r\n]+/, "").split(/[\r\n]/, 1)[0];
    // Spreadsheets write this line ahead of the title to name the separator.
    this.hasHint = /^"?sep=.?"?$/i.test(first);
    const hinted = first.replace(/^"+|"+$/g, "").slice(4);
    this.separator = this.hasHint && hinted !== "" && SEPARATORS.includes(hinted) ? hinted : separatorOf(first);
    this.read(text);
  }

  /** @type {(rows: string[][], separator: string, first?: number) => Sheet} A sheet of rows of cells, those of a workbook or of a table. */
  static ofRows(rows, separator, first = 1) {
    const sheet = new Sheet("");
    sheet.separator = separator;
    rows.forEach((cells, row) => sheet.add(row + first, cells));
    return sheet;
  }

  /** @type {(text: string) => void} Reads the rows, up to the first fault. */
  read(text) {
    // A cell: in quotes, of which the last one may be missing, or up to the next separator.
    const cellAt = new RegExp(`"([^"]*(?:""[^"]*)*)("?)|[^${this.separator}\\r\\n]*`, "y");
    let [line, at] = [1, 0];
    while (at < text.length && this.fault === null) {
      const record = recordAt(text, at, this.separator, cellAt);
      if (record.fault) this.fault = new RosterFault(record.fault, line);
      else this.add(line, record.cells);
      const end = text.startsWith("\r\n", record.end) ? record.end + 2 : record.end + 1;
      line += text.slice(at, record.end).includes('"') ? (text.slice(at, end).match(/\r\n?|\n/g) || []).length : 1;
      at = end;
    }
  }

  /** @type {(line: number, written: string[]) => void} */
  add(line, written) {
    const cells = written.map((cell) => unguarded(stripped(cell)));
    const isHint = this.hasHint && line === 1;
    if (cells.some((cell) => cell !== "") && !isHint) this.rows.push({ line, cells });
  }

  /** @type {() => Row} The first record, without empty cells at its end. */
  title() {
    if (!this.rows.length) throw this.fault || new RosterFault(said("no file"));
    const { line, cells } = this.rows[0];
    if (this.merged.has(line)) refuse(line, 0, "merged title", quoted(cells[0]));
    return { line, cells: cells.slice(0, cells.map(Boolean).lastIndexOf(true) + 1) };
  }

  /** @type {(width: number) => Generator<Row>} The records after the title, each of so many cells. */
  *body(width) {
    for (const { line, cells } of this.records()) {
      if (cells.length < width || cells.slice(width).some((cell) => cell !== "")) {
        const hint = cells.length > width && this.separator === "," ? said("comma in a cell") : "";
        refuse(line, 0, "cells", cells.length, width, hint);
      }
      yield { line, cells: cells.slice(0, width) };
    }
  }

  /** @returns {Generator<Row>} The records after the title. */
  *records() {
    yield* this.rows.slice(1);
    if (this.fault) throw this.fault;
  }
}

// Rows as CSV, whose cells no spreadsheet runs. Readers take the separator from the title line, so no other may seem to be there.
/** @type {(rows: string[][], separator: string) => string} */
export function csvOf(rows, separator) {
  const isUnsure = rows[0].some((title) => [...SEPARATORS].some((mark) => title.includes(mark)));
  const cellOf = (/** @type {string} */ cell, /** @type {number} */ line) => (
    isUnsure && line === 0 || cell.includes(separator) || /["\r\n]/.test(cell) ? `"${cell.replace(/"/g, '""')}"` : cell);
  return rows.map((row, line) => `${row.map((cell) => cellOf(guarded(cell), line)).join(separator)}\n`).join("");
}
