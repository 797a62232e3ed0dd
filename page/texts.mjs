// Texts: what is wrong in a roster, in texts that the command says too; cells and names, and how a message quotes them.

const SPACES = "\\t-\\r\\x1c-\\x20\\x85\\xa0\\u1680\\u2000-\\u200a\\u2028\\u2029\\u202f\\u205f\\u3000";
const IS_SPACE = new RegExp(`[${SPACES}]`);
const ALL_SPACE = new RegExp(`[${SPACES}]+`, "g");
const LINE_BREAKS = new RegExp(`[${SPACES}]*[\\r\\n][${SPACES}]*`, "g");
const NOT_PRINTABLE = /(?! )[\p{C}\p{Z}]/u;
// Also what turns the direction of a text or ends a line in it, and halves of characters.
const CONTROL = /[\p{Cc}\p{Cs}\u200e\u200f\u2028-\u202e\u2066-\u2069]/u;
const NUMBER = "[0-9]+(?:[.,][0-9]*)?(?:[eE][+-]?[0-9]{1,2})?$";
const RUN = `(?:[=@\\t\\r]|[+-](?!${NUMBER}))`;
const IS_RUN = new RegExp(`^'*${RUN}`);
const IS_GUARDED = new RegExp(`^'+${RUN}`);
const MOST_QUOTED = 40;
export const MOST_LETTERS = 131072;

/** @type {(name: string, ...values: (string | number)[]) => string} A text that both say, with values in its gaps. */
export function said(name, ...values) {
  return SHARED.texts[name].split("{}").reduce((text, part, k) => `${text}${values[k - 1]}${part}`);
}

/** What is wrong, and where: a file of several, a line and a column (the cell of its line) from 1; 0 is no place. */
export class RosterFault extends Error {
  /** @param {string} text @param {number} [line] @param {number} [column] @param {string} [file] */
  constructor(text, line = 0, column = 0, file = "") {
    super(text);
    this.text = text;
    this.line = line;
    this.column = column;
    this.file = file;
  }
}

/** @type {(line: number, column: number, name: string, ...values: (string | number)[]) => never} Refuses a place by a text that both say. */
export function refuse(line, column, name, ...values) {
  throw new RosterFault(said(name, ...values), line, column);
}

/** @type {(name: string) => boolean} Whether a file is a plan in JSON, by its name. */
export function isJson(name) {
  return /\.json$/i.test(name);
}

/** @type {(name: string) => string} What a file lists, one after the other. */
export function itemOf(name) {
  return isJson(name) ? "pair" : "line";
}

/** @type {(cell: string) => string} A cell without the white space around it. */
export function stripped(cell) {
  let begin = 0;
  let end = cell.length;
  while (begin < end && IS_SPACE.test(cell[begin])) begin++;
  while (end > begin && IS_SPACE.test(cell[end - 1])) end--;
  return cell.slice(begin, end);
}

// A cell of CSV as it is written: with one apostrophe more where a spreadsheet would run it, or would run what apostrophes guard.
/** @type {(cell: string) => string} */
export function guarded(cell) {
  return IS_RUN.test(cell) ? `'${cell}` : cell;
}

/** @type {(cell: string) => string} A cell of CSV as it is meant: without the first of the apostrophes before what a spreadsheet would run. */
export function unguarded(cell) {
  return cell[0] === "'" && IS_GUARDED.test(cell) ? stripped(cell.slice(1)) : cell;
}

/** @type {(text: string) => boolean} Whether a text has no control characters and no white space other than blanks. */
export function isPrintable(text) {
  return !NOT_PRINTABLE.test(text);
}

/** @type {(text: string) => boolean} Whether a text has more characters than a cell may. */
export function isLong(text) {
  return text.length > MOST_LETTERS && Array.from(text).length > MOST_LETTERS;
}

// A cell as a name, with a blank for each line break; letters with accents are one name however they are written.
/** @type {(cell: string, line: number, column: number) => string} */
export function nameOf(cell, line, column) {
  const name = isPrintable(cell) ? cell : cell.replace(LINE_BREAKS, " ");
  if (name === "") refuse(line, column, "no name");
  if (isLong(name)) refuse(line, column, "long name", MOST_LETTERS);
  if (CONTROL.test(name)) refuse(line, column, "control", quoted(name));
  return name.normalize("NFC");
}

/** @type {(name: string) => string} A name without its white space and without a difference between small and capital letters. */
export function bare(name) {
  return name.replace(ALL_SPACE, "").toUpperCase().toLowerCase();
}

/** @type {(letter: string, quote: string) => string} A letter as a message shows it within quotes. */
function escaped(letter, quote) {
  const short = { "\n": "\\n", "\r": "\\r", "\t": "\\t", "\\": "\\\\", [quote]: `\\${quote}` }[letter];
  if (short || isPrintable(letter)) return short || letter;
  const code = (letter.codePointAt(0) || 0).toString(16);
  if (code.length <= 2) return `\\x${code.padStart(2, "0")}`;
  return code.length <= 4 ? `\\u${code.padStart(4, "0")}` : `\\U${code.padStart(8, "0")}`;
}

/** @type {(cell: string) => string} A cell as a message shows it: in quotes, on one line, and not too long. */
export function quoted(cell) {
  const letters = Array.from(cell);
  const shown = letters.length <= MOST_QUOTED ? letters : [...letters.slice(0, MOST_QUOTED - 3), ..."..."];
  const quote = shown.includes("'") && !shown.includes('"') ? '"' : "'";
  return quote + shown.map((letter) => escaped(letter, quote)).join("") + quote;
}

/** @type {(names: string[]) => string} Names in a row, parted by semicolons where one has a comma. */
export function joined(names) {
  return names.join(names.some((name) => name.includes(",")) ? "; " : ", ");
}

/** @type {(names: string[], most: number) => string} The first names of many in a row. */
export function firstOf(names, most) {
  const first = joined(names.slice(0, most));
  return names.length > most ? said("and more", first, names.length - most) : first;
}
