// Costs as a roster writes them, read exactly: whole numbers of units of 10^-decimals.
import { quoted, refuse, said } from "./texts.mjs";

const MOST_PLACES = 6;
const GREATEST_COST = 1e12;

/** @type {(cell: string) => boolean} Whether a cell might be meant as a number, of any make. */
export function looksLikeNumber(cell) {
  return /^[+-]?[0-9., ']*[0-9][0-9., ']*([eE][+-]?[0-9]{1,2})?$/.test(cell);
}

/** @type {(roster: { decimals: number, comma: boolean }, units: bigint | number) => string} Units of a roster as it writes costs. */
export function shown({ decimals, comma }, units) {
  const digits = String(units).replace("-", "").padStart(decimals + 1, "0");
  const part = decimals ? (comma ? "," : ".") + digits.slice(-decimals) : "";
  return (units < 0 ? "-" : "") + digits.slice(0, digits.length - decimals) + part;
}

/** Costs as they are read, with as many places as they have until it is known how many are used. */
export class Costs {
  // In millionths.
  costs = /** @type {bigint[]} */ ([]);
  places = 0;
  greatest = { size: 0n, line: 0, column: 0 };

  /** @param {boolean} comma Whether costs are written with a decimal comma */
  constructor(comma) {
    this.comma = comma;
    const point = comma ? "," : "\\.";
    // Sign, whole part, decimal places and a power of ten; at least one digit.
    this.number = new RegExp(`^([+-]?)(?=${point}?[0-9])([0-9]*)(?:${point}([0-9]*))?(?:[eE]([+-]?[0-9]{1,2}))?$`);
  }

  /** @type {(cell: string, line: number, column: number) => void} Takes a cell, or refuses it. */
  take(cell, line, column) {
    const found = this.number.exec(cell);
    if (found === null || found[4] && !found[2]) refuse(line, column, "no cost", quoted(cell), this.hint(cell));
    const [, sign, whole, decimals = "", power = "0"] = found;
    const [digits, place] = [whole + decimals, whole.length + Number(power)];
    const before = digits.slice(0, Math.max(0, place)).padEnd(place, "0").replace(/^0+/, "");
    const part = digits.slice(Math.max(0, place)).padStart(digits.length - place, "0").replace(/0+$/, "");
    if (part.length > MOST_PLACES) refuse(line, column, "many places", quoted(cell), MOST_PLACES, "");
    this.places = Math.max(this.places, part.length);
    const size = BigInt(before.slice(0, 20) + part.padEnd(MOST_PLACES, "0"));
    if (size > BigInt(GREATEST_COST * 10 ** MOST_PLACES)) refuse(line, column, "beyond", GREATEST_COST, "");
    if (size > this.greatest.size) this.greatest = { size, line, column };
    this.costs.push(sign === "-" ? -size : size);
  }

  /** @type {() => { decimals: number, units: number[] }} How many places are used, and the costs as whole numbers of that unit. */
  scaled() {
    const decimals = this.places;
    const unit = BigInt(10 ** (MOST_PLACES - decimals));
    const { size, line, column } = this.greatest;
    if (size / unit > GREATEST_COST) {
      refuse(line, column, "beyond", Math.floor(GREATEST_COST / 10 ** decimals), said("with places", decimals));
    }
    return { decimals, units: this.costs.map((cost) => Number(cost / unit)) };
  }

  /** @type {(cell: string) => string} What a cell may have been meant as. */
  hint(cell) {
    if (this.comma && /^[+-]?[0-9]+\.[0-9]+$/.test(cell)) return said("comma");
    if (!this.comma && /^[+-]?[0-9]+,[0-9]+$/.test(cell)) return "; with a decimal comma it may be";
    return ["x", "-", "n/a"].includes(cell.toLowerCase()) ? said("forbids") : "";
  }
}
