// The names of one side of a roster. A date is one name however it is written.
import { spellings } from "./dates.mjs";
import { MOST_PERSONS } from "./library.mjs";
import { Costs } from "./numbers.mjs";
import { bare, nameOf, quoted, refuse, said } from "./texts.mjs";

/** The names of one side, numbered from 0 as they come. */
export class Names {
  list = /** @type {string[]} */ ([]);
  numbers = /** @type {Map<string, number>} */ (new Map());

  /** @param {string} kind */
  constructor(kind) {
    this.kind = kind;
  }

  /** @type {(cell: string, line: number, column: number) => number} The number of a name, a new one where it is new. */
  number(cell, line, column) {
    const known = this.numbers.get(cell);
    if (known !== undefined) return known;
    const name = nameOf(cell, line, column);
    const found = this.numbers.get(name) ?? this.numbers.get(spellings(name)[0]) ?? this.add(name, line, column);
    this.numbers.set(name, found);
    return found;
  }

  /** @type {(cell: string, line: number, column: number) => number} The number of a name that must be new. */
  once(cell, line, column) {
    const before = this.list.length;
    const number = this.number(cell, line, column);
    if (number < before) {
      refuse(line, column, "name once", quoted(cell), `a file of ${this.kind === "persons" ? "tasks" : "places"}`);
    }
    return number;
  }

  /** @type {(name: string, line: number, column: number) => number} */
  add(name, line, column) {
    if (this.list.length === MOST_PERSONS) refuse(line, column, "more names", MOST_PERSONS, this.kind);
    this.list.push(name);
    for (const spelling of spellings(name)) this.numbers.set(spelling, this.list.length - 1);
    return this.list.length - 1;
  }
}

/** The pairs of a roster and their costs, as they are read. */
export class Pairs {
  persons = new Names("persons");
  objects = new Names("objects");
  list = /** @type {Spot[]} */ ([]);
  lines = /** @type {Map<number, number>} */ (new Map());

  /** @param {boolean} comma Whether costs are written with a decimal comma */
  constructor(comma) {
    this.costs = new Costs(comma);
  }

  /** @type {(person: number, object: number, cell: string, line: number, column: number) => void} */
  take(person, object, cell, line, column) {
    this.costs.take(cell, line, column);
    this.list.push({ person, object });
  }

  // Takes a pair that no line before has.
  /** @type {(person: number, object: number, names: string[], cell: string, line: number, column: number) => void} */
  takeOnce(person, object, names, cell, line, column) {
    const key = person * MOST_PERSONS + object;
    const before = this.lines.get(key);
    if (before !== undefined) refuse(line, 0, "pair twice", names.join(", "), "line", before);
    this.lines.set(key, line);
    this.take(person, object, cell, line, column);
  }

  /** @type {(cells: string[], objects: number[], line: number) => void} Takes a row of a matrix: a person, and its costs. */
  takeRow(cells, objects, line) {
    const person = this.persons.once(cells[0], line, 1);
    objects.forEach((object, k) => {
      if (cells[k + 1]) this.take(person, object, cells[k + 1], line, k + 2);
    });
  }
}

/** @type {(one: string, other: string) => boolean} Whether two differ by one letter, or by two neighbours in the other order. A digit makes another name. */
function isNear(one, other) {
  const [longer, shorter] = one.length >= other.length ? [one, other] : [other, one];
  let begin = 0;
  while (begin < shorter.length && longer[begin] === shorter[begin]) begin++;
  const [left, right] = [longer.slice(begin), shorter.slice(begin)];
  if (left.length !== right.length) return shorter.length > 1 && left.slice(1) === right && !/^[0-9]/.test(left);
  const isTurned = left.slice(0, 2) === [...right.slice(0, 2)].reverse().join("") && left.slice(2) === right.slice(2);
  return isTurned && !/^[0-9]{2}/.test(left) || left.slice(1) === right.slice(1) && !/[0-9]/.test(left.slice(0, 1) + right.slice(0, 1));
}

/** @type {(name: string, names: Iterable<string>) => string} What a message adds on names that are like one that isn't there. */
export function hintOf(name, names) {
  const own = bare(name);
  const all = [...names];
  const same = all.filter((other) => bare(other) === own);
  const near = (same.length ? same : all.filter((other) => isNear(bare(other), own))).slice(0, 3);
  return near.length ? said("near", near.map(quoted).join(" or ")) : "";
}
