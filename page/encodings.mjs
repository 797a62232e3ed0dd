// The text of a file's bytes: by its BOM, as UTF-8, or as western text of Windows.
import { RosterFault, said } from "./texts.mjs";

const SAVE = said("save");
const WESTERN = "windows-1252";
// So many bytes at the beginning say which encoding one with NUL bytes is.
const SAMPLE = 65536;
const BOMS = [
  { begin: [0xef, 0xbb, 0xbf], encoding: "utf-8", name: "UTF-8" }, { begin: [0xff, 0xfe], encoding: "utf-16le", name: "UTF-16" },
  { begin: [0xfe, 0xff], encoding: "utf-16be", name: "UTF-16" }];
const UTF_32 = [[0xff, 0xfe, 0, 0], [0, 0, 0xfe, 0xff]];
// How workbooks begin: .xlsx, which is a zip archive, and what was before it.
export const ZIP = [0x50, 0x4b, 3, 4];
const WORKBOOKS = [ZIP, [0xd0, 0xcf, 0x11, 0xe0]];
// What no western text of Windows has: other letters and marks above 127. Other encodings use other bytes for common letters.
const NOT_WESTERN = new RegExp(`[^\\0-\\x7f${Object.values(SHARED.western).join("")}]`);
// In DOS these quotes are letters with accents; in Windows they stand between letters in no text.
const QUOTE_IN_WORD = /[A-Za-z][\u201a\u201e\u201c\u201d][a-z]/;

/** @type {(bytes: Uint8Array, begin: number[]) => boolean} */
export function beginsWith(bytes, begin) {
  return begin.every((byte, place) => bytes[place] === byte);
}

/** @type {(bytes: Uint8Array, place: number) => never} Refuses NUL bytes, the first at a place. UTF-16 has one for each letter of English. */
function refuseNuls(bytes, place) {
  const sample = bytes.subarray(0, SAMPLE);
  const counts = [0, 1].map((side) => sample.filter((byte, k) => byte === 0 && k % 2 === side).length);
  const [least, most] = counts.sort((one, other) => one - other);
  if (most >= Math.max(4, sample.length / 16, 8 * least)) throw new RosterFault(`${said("UTF-16")}: ${SAVE}`);
  const what = said(bytes.some((byte) => byte !== 0) ? "NUL" : "NUL alone");
  throw new RosterFault(`${what}: ${SAVE}`, lineOf(bytes, place));
}

/** @type {(bytes: Uint8Array, place: number) => number} */
function lineOf(bytes, place) {
  return bytes.subarray(0, place).reduce((count, byte) => count + Number(byte === 10), 1);
}

/** @type {(bytes: Uint8Array) => { text: string, isGuess: boolean }} The text of bytes, and whether its encoding is a guess. */
export function decoded(bytes) {
  if (UTF_32.some((begin) => beginsWith(bytes, begin))) throw new RosterFault(`a text in UTF-32: ${SAVE}`);
  const marked = BOMS.find(({ begin }) => beginsWith(bytes, begin));
  if (WORKBOOKS.some((begin) => beginsWith(bytes, begin))) {
    throw new RosterFault(`a workbook, and no text: ${SAVE}, or copy its cells and paste them here`);
  }
  const nul = marked ? -1 : bytes.indexOf(0);
  if (nul >= 0) refuseNuls(bytes, nul);
  try {
    return { text: new TextDecoder(marked?.encoding, { fatal: true }).decode(bytes), isGuess: false };
  } catch (fault) {
    if (marked) throw new RosterFault(`${said("no encoding", marked.name)}: ${SAVE}`);
  }
  // Refused at the first byte that no western text has, or else at the first letter around a quote.
  const text = new TextDecoder(WESTERN).decode(bytes);
  const odd = text.search(NOT_WESTERN);
  const place = odd < 0 ? text.search(QUOTE_IN_WORD) : odd;
  if (place < 0) return { text, isGuess: true };
  throw new RosterFault(`bytes that are no UTF-8 and no western text in Windows-1252: ${SAVE}`, lineOf(bytes, place));
}
