// Workbooks: the sheets of an .xlsx, whose parts the browser unpacks, as rows of cells, each as a spreadsheet shows it.
import { refuse, said } from "./texts.mjs";

const [END_OF_ZIP, ENTRY] = [0x06054b50, 0x02014b50];
// What a workbook's parts may come to when they are unpacked, and its cells.
const [LEAST_BYTES, MOST_TIMES, MOST_UNPACKED] = [2 ** 24, 128, 2 ** 22];
const [FIRST_1900, FIRST_1904] = [-25569, -24107];
// The formats of dates and times that have numbers of their own.
const DATES = [[14, 22], [27, 36], [45, 47], [50, 58]];
const ENTITIES = { lt: "<", gt: ">", amp: "&", quot: '"', apos: "'" };
/** @typedef {{ name: string, rows: string[][], merged: Set<number> }} Grid A sheet, and the lines that are one merged cell */

/** @type {(bytes: Uint8Array) => Map<string, () => Promise<string>>} The parts of a zip archive, each as the function that unpacks it. */
function partsIn(bytes) {
  const view = new DataView(bytes.buffer, bytes.byteOffset, bytes.byteLength);
  let end = bytes.length - 22;
  while (end >= 0 && view.getUint32(end, true) !== END_OF_ZIP) end--;
  if (end < 0) refuse(0, 0, "no workbook", said("no zip"));
  const parts = new Map();
  for (let at = view.getUint32(end + 16, true); at + 46 <= bytes.length && view.getUint32(at, true) === ENTRY;) {
    const [size, name, extra, comment] = [view.getUint32(at + 20, true), ...[28, 30, 32].map((place) => view.getUint16(at + place, true))];
    const [method, length, begin] = [view.getUint16(at + 10, true), view.getUint32(at + 24, true), view.getUint32(at + 42, true)];
    const own = new TextDecoder().decode(bytes.subarray(at + 46, at + 46 + name));
    if (length > LEAST_BYTES + MOST_TIMES * bytes.length) refuse(0, 0, "great part", own, length);
    parts.set(own, () => {
      const from = begin + 30 + view.getUint16(begin + 26, true) + view.getUint16(begin + 28, true);
      return unpacked(bytes.subarray(from, from + size), method, own);
    });
    at += 46 + name + extra + comment;
  }
  return parts;
}

/** @type {(bytes: Uint8Array, method: number, name: string) => Promise<string>} */
async function unpacked(bytes, method, name) {
  try {
    const stream = new Blob([bytes]).stream();
    return await new Response(method ? stream.pipeThrough(new DecompressionStream("deflate-raw")) : stream).text();
  } catch (fault) {
    refuse(0, 0, "no workbook", `its part '${name}' can't be unpacked`);
  }
}

/** @type {(text: string) => string} */
function decodedXml(text) {
  return text.replace(/&(?:#(\d+)|#x([0-9a-fA-F]+)|(\w+));/g, (_, ten, sixteen, name) => (
    name ? ENTITIES[/** @type {keyof typeof ENTITIES} */ (name)] ?? "" : String.fromCodePoint(Number.parseInt(ten || sixteen, ten ? 10 : 16))))
    .replace(/_x000D_/g, "\r");
}

/** @type {(tag: string, name: string) => string} An attribute of a tag. */
function attribute(tag, name) {
  const found = new RegExp(`\\s(?:\\w+:)?${name}\\s*=\\s*(?:"([^"]*)"|'([^']*)')`).exec(tag);
  return found ? decodedXml(found[1] ?? found[2]) : "";
}

/** @type {(xml: string, name: string) => { tag: string, inner: string }[]} What stands in elements of a name, with their tags. */
function elements(xml, name) {
  return [...xml.matchAll(new RegExp(`<(?:\\w+:)?${name}(\\s[^>]*?)?(?:/>|>([\\s\\S]*?)</(?:\\w+:)?${name}>)`, "g"))].map(([, tag = "", inner = ""]) => ({ tag, inner }));
}

/** @type {(xml: string) => string} The text of a cell or of a shared text, without what says how it is spoken. */
function textIn(xml) {
  const own = xml.includes("rPh") ? xml.replace(/<(?:\w+:)?rPh[\s\S]*?<\/(?:\w+:)?rPh>/g, "") : xml;
  return elements(own, "t").map(({ inner }) => decodedXml(inner)).join("");
}

/** @type {(xml: string) => boolean[]} Which styles of cells are those of dates. */
function dateStyles(xml) {
  const formats = new Map(elements(xml, "numFmt").map(({ tag }) => [Number(attribute(tag, "numFmtId")), attribute(tag, "formatCode")]));
  const isDate = (/** @type {number} */ id) => DATES.some(([first, last]) => id >= first && id <= last)
    || /[dmhysDMHYS]/.test((formats.get(id) || "").replace(/"[^"]*"|\\.|\[(?![hms]+\])[^\]]*\]|_.|General/gi, ""));
  return elements(elements(xml, "cellXfs")[0]?.inner || "", "xf").map(({ tag }) => isDate(Number(attribute(tag, "numFmtId"))));
}

/** @type {(number: number, first: number) => string} A day and a time as a spreadsheet counts them: whole days as dates, and times without seconds that are 0. */
function dateText(number, first) {
  const text = new Date(Math.round((number + first + (first === FIRST_1900 && number < 60 ? 1 : 0)) * 86400) * 1000).toISOString().slice(0, 19);
  if (number < 1) return text.slice(11).replace(/:00$/, "");
  return number % 1 ? text.replace("T", " ") : text.slice(0, 10);
}

/** @type {(name: string) => number[]} Row and column of a cell such as B12, from 0. */
function coordinates(name) {
  const found = /^\$?([A-Z]{1,3})\$?([0-9]{1,7})$/.exec(name);
  if (!found) refuse(0, 0, "no workbook", `'${name.slice(0, 40)}' is no cell`);
  return [Number(found[2]) - 1, [...found[1]].reduce((sum, letter) => sum * 26 + letter.charCodeAt(0) - 64, 0) - 1];
}

/** @typedef {{ texts: string[], areDates: boolean[], first: number, isStale: boolean, comma: boolean }} Book */

/** @type {(tag: string, inner: string, book: Book, row: number, column: number) => string} A cell as a text. */
function cellText(tag, inner, { texts, areDates, first, isStale, comma }, row, column) {
  const [kind, [value]] = [attribute(tag, "t"), elements(inner, "v").map((own) => decodedXml(own.inner))];
  if (/<(?:\w+:)?f[\s>/]/.test(inner) && (isStale || !value && kind !== "str")) refuse(row + 1, column + 1, "formula");
  if (kind === "inlineStr") return textIn(inner);
  if (!value) return "";
  if (kind === "s") return texts[Number(value)] ?? "";
  if (kind === "b") return value === "1" ? "True" : "False";
  if (kind && kind !== "n") return kind === "d" ? value.replace(/T00:00:00(\.0+)?Z?$/, "") : value;
  if (areDates[Number(attribute(tag, "s") || 0)]) return dateText(Number(value), first);
  const number = /[.eE]/.test(value) ? String(Number(Number(value).toPrecision(15))) : value;
  return comma ? number.replace(".", ",") : number;
}

/** @type {(name: string, xml: string, book: Book) => Grid} The rows of a sheet. */
function gridOf(name, xml, book) {
  const rows = /** @type {string[][]} */ ([]);
  let [row, column, count] = [-1, -1, 0];
  for (const [whole, ofRow, tag, , inner = ""] of xml.matchAll(/<(?:\w+:)?row(\s[^>]*)?>|<(?:\w+:)?c(\s[^>]*?)?(\/>|>([\s\S]*?)<\/(?:\w+:)?c>)/g)) {
    if (/^<(?:\w+:)?row/.test(whole)) {
      const number = attribute(ofRow || "", "r");
      [row, column] = [number ? Number(number) - 1 : row + 1, -1];
      continue;
    }
    const own = attribute(tag || "", "r");
    [row, column] = own ? coordinates(own) : [row, column + 1];
    const text = cellText(tag || "", inner, book, row, column);
    if (!text) continue;
    count += Math.max(0, row + 1 - rows.length) + column;
    if (count > 2 * MOST_UNPACKED) refuse(row + 1, 0, "many cells", MOST_UNPACKED);
    while (rows.length <= row) rows.push([]);
    while (rows[row].length < column) rows[row].push("");
    rows[row][column] = text;
  }
  return withMerged({ name, rows, merged: new Set() }, xml);
}

/** @type {(grid: Grid, xml: string) => Grid} Lets a merged cell count for all of its cells, up to the last column that has anything of its own. */
function withMerged({ name, rows, merged }, xml) {
  const width = rows.reduce((most, cells) => Math.max(most, cells.length), 0);
  for (const { tag } of elements(xml, "mergeCell")) {
    const [[top, left], [bottom, right]] = attribute(tag, "ref").split(":").map(coordinates);
    const text = rows[top]?.[left];
    for (let row = top; row <= bottom && row < rows.length; row++) {
      if (left === 0 && right + 1 >= width && width > 1) merged.add(row + 1);
      for (let column = left; text && column <= right && column < width; column++) rows[row][column] = text;
    }
  }
  const first = rows.find((cells) => cells.length)?.length || 0;
  return { name, rows: rows.map((cells) => cells.length ? Array.from({ length: Math.max(first, cells.length) }, (_, k) => cells[k] || "") : []), merged };
}

/** @type {(bytes: Uint8Array) => Promise<string[][] | null>} The calendars of a zip archive, each as its name and its text; null where it has none. */
export async function calendarsIn(bytes) {
  const parts = [...partsIn(bytes)].filter(([name]) => /\.ics$/i.test(name));
  return parts.length ? Promise.all(parts.map(async ([name, unpack]) => [name.replace(/.*\//, ""), await unpack()])) : null;
}

/** @type {(bytes: Uint8Array, comma: boolean) => Promise<Grid[]>} The sheets of a workbook. */
export async function gridsOf(bytes, comma) {
  const parts = partsIn(bytes);
  const part = async (/** @type {string} */ name) => await parts.get(name)?.() || "";
  const targets = async (/** @type {string} */ folder, /** @type {string} */ file) => new Map(
    elements(await part(`${folder}_rels/${file}.rels`), "Relationship").map(({ tag }) => [
      attribute(tag, "Id"), { kind: attribute(tag, "Type").replace(/.*\//, ""), path: new URL(attribute(tag, "Target"), `file:///${folder}`).pathname.slice(1) }]));
  const main = [...(await targets("", "")).values()].find(({ kind }) => kind === "officeDocument")?.path || "";
  const folder = main.replace(/[^/]*$/, "");
  const [xml, links] = [await part(main), await targets(folder, main.slice(folder.length))];
  const texts = elements(await part([...links.values()].find(({ kind }) => kind === "sharedStrings")?.path || ""), "si").map(({ inner }) => textIn(inner));
  const areDates = dateStyles(await part([...links.values()].find(({ kind }) => kind === "styles")?.path || ""));
  const first = /<(?:\w+:)?workbookPr\s[^>]*date1904="(?:1|true)"/.test(xml) ? FIRST_1904 : FIRST_1900;
  const isStale = /<(?:\w+:)?calcPr\s[^>]*fullCalcOnLoad="(?:1|true)"/.test(xml);
  const grids = [];
  for (const { tag } of elements(xml, "sheet")) {
    const link = links.get(attribute(tag, "id"));
    if (link?.kind === "worksheet") grids.push(gridOf(attribute(tag, "name"), await part(link.path), { texts, areDates, first, isStale, comma }));
  }
  if (!grids.length) refuse(0, 0, "no sheet");
  return grids;
}
