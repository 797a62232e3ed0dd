// The calls of nushbaret.h over the WebAssembly module. No proof covers this file; what a call returns is what the proved call wrote.

export const MOST_PERSONS = 4194304;
const CODES = [
  "BEST", "ROWS_LACK", "COLUMNS_LACK", "SENSE", "DENSE", "BUFFER", "SIZE", "LENGTH", "ROW", "ORDER", "COLUMN", "GROUP", "ROW_COUNTS",
  "COLUMN_COUNTS", "COST", "MEMORY", "STOPPED", "UNDECIDED", "NUMBERS", "TWICE", "ROW_LOOSE", "COLUMN_LOOSE", "SLACK", "MARKS", "ENOUGH",
  "SIDE"];
// Looks at pairs before a search says how far it is.
const BUDGET = 20000000n;
const WORDS_OF_INFO = 5;
const WORDS_OF_RECORD = 8;
// Sums of three numbers of this size are exact.
const GREATEST_NUMBER = 2n ** 51n;

/** @typedef {{ address: number, count: bigint }} Block */
/** @typedef {(values: Uint8Array | Uint32Array | BigInt64Array) => Block} Take */
/** @typedef {Record<string, (...words: (number | bigint)[]) => number>} Calls */

/** Memory was refused that a call can't do without. */
export class NoMemory extends Error {}

/** @type {(numbers: bigint[]) => number[]} The numbers of an answer, which are exact. */
export function exact(numbers) {
  if (numbers.some((number) => number > GREATEST_NUMBER || -number > GREATEST_NUMBER)) throw new RangeError("numbers beyond 2^51");
  return numbers.map(Number);
}

/** @type {(...blocks: Block[]) => (number | bigint)[]} The words of blocks in a call. */
function wordsOf(...blocks) {
  return blocks.flatMap(({ address, count }) => [address, count]);
}

/** @type {(counted: Counted, take: Take) => Block[]} A problem's lists. */
function given({ rows, columns, groupOf, nGroups, ofRows, ofColumns, costs }, take) {
  // The library numbers groups up to the columns.
  const numbers = new Map([...new Set(groupOf.filter((group) => group < nGroups))].map((group, k) => [group, k + 1]));
  const groups = numbers.size ? groupOf.map((group) => numbers.get(group) || 0) : [];
  const bounds = [rows.map(({ least }) => least), rows.map(({ most }) => most), columns.map(({ least }) => least), columns.map(({ most }) => most)];
  return [
    take(Uint32Array.from(ofRows, (row) => row + 1)), take(Uint32Array.from(ofColumns, (column) => column + 1)),
    take(BigInt64Array.from(costs, BigInt)), ...[...bounds, groups].map((list) => take(Uint32Array.from(list)))];
}

/** A module that is loaded. After a trap it must not be called again. */
export class Library {
  /** @param {WebAssembly.Exports} exports */
  constructor(exports) {
    this.memory = /** @type {WebAssembly.Memory} */ (exports.memory);
    this.calls = /** @type {Calls} */ (/** @type {unknown} */ (exports));
    // Called while a search goes on, with the pairs that it has.
    this.look = (/** @type {number} */ _pairs) => {};
  }

  /** @type {(module: WebAssembly.Module) => Promise<Library>} */
  static async load(module) {
    return new Library((await WebAssembly.instantiate(module)).exports);
  }

  /** @type {<Result>(work: (take: Take) => Result) => Result} Runs some work with blocks of the module's memory, which are given back after it. */
  within(work) {
    const blocks = /** @type {number[]} */ ([]);
    try {
      return work((values) => {
        const address = this.calls.malloc(values.byteLength || 16) >>> 0;
        if (address === 0) throw new NoMemory("memory refused");
        blocks.push(address);
        new Uint8Array(this.memory.buffer, address, values.byteLength).set(new Uint8Array(values.buffer, values.byteOffset, values.byteLength));
        return { address, count: BigInt(values.length) };
      });
    } finally {
      blocks.forEach((block) => this.calls.free(block));
    }
  }

  /** @type {(block: Block) => Uint8Array} Bytes that a call wrote. */
  bytes(block) {
    return new Uint8Array(this.memory.buffer, block.address, Number(block.count)).slice();
  }

  /** @type {(counted: Counted) => Answer} A best plan, which the proved call has checked, or the code of why there is none. */
  solve(counted) {
    const [n, m, pairs] = [counted.rows.length, counted.columns.length, counted.ofRows.length];
    return this.within((take) => {
      const lists = given(counted, take);
      const [plan, rows, columns] = [take(new Uint8Array(pairs)), take(new BigInt64Array(n)), take(new BigInt64Array(m))];
      const marks = [take(new Uint8Array(n)), take(new Uint8Array(m))];
      const [record, info] = [take(new BigInt64Array(WORDS_OF_RECORD)), take(new BigInt64Array(WORDS_OF_INFO))];
      const words = wordsOf(...lists, plan, rows, columns, ...marks);
      let code = "STOPPED";
      while (code === "STOPPED") {
        code = CODES[this.calls.nushbaret_counts_from(0, ...words, BUDGET, record.address, info.address)];
        if (code === "STOPPED") this.look(this.bytes(plan).reduce((sum, chosen) => sum + chosen, 0));
      }
      const [ofRows, ofColumns] = [rows, columns].map(({ address, count }) => (
        Array.from(new BigInt64Array(this.memory.buffer, address, Number(count)))));
      return { code, plan: this.bytes(plan), rows: ofRows, columns: ofColumns };
    });
  }

  // Whether the proved checker takes a shortage: of marked columns if `ofColumns` is true, and else of marked rows.
  /** @type {(counted: Counted, ofColumns: boolean, rows: number[], columns: number[]) => boolean} */
  isShort(counted, ofColumns, rows, columns) {
    const marked = (/** @type {Bounds[]} */ bounds, /** @type {number[]} */ own) => (
      own.reduce((marks, number) => marks.fill(1, number, number + 1), new Uint8Array(bounds.length)));
    return this.within((take) => {
      const marks = wordsOf(take(marked(counted.rows, rows)), take(marked(counted.columns, columns)));
      const [lists, info] = [wordsOf(...given(counted, take)), take(new BigInt64Array(WORDS_OF_INFO))];
      const code = this.calls.nushbaret_check_shortage(0, ...lists, ofColumns ? 2 : 1, ...marks, info.address);
      return CODES[code] === (ofColumns ? "COLUMNS_LACK" : "ROWS_LACK");
    });
  }
}
