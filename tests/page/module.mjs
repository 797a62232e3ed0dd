// The WebAssembly module next to a plain search: node module.mjs PAGE.html|MODULE.wasm HOW_MANY [TRIED.wasm]
// TRIED.wasm is the module with a heap that counts and refuses: its heap is tried, and each growth of some problems is refused.
import assert from "node:assert";
import fs from "node:fs";
import "./shared.mjs";
import { moduleOf } from "./page_parts.mjs";

const { lacksOf } = await import("../../page/lacks.mjs");
const { Library, NoMemory } = await import("../../page/library.mjs");

const GREATEST = 1e12;
const HEAP_STEPS = 20000;
let seed = 12345;

function drawn(below) {
  seed = Math.imul(seed, 1103515245) + 12345 >>> 0;
  return Math.floor(seed / 4294967296 * below);
}

// The least sum of a plan of a problem, by all sets of its pairs; null where there is none.
function least(problem) {
  let best = null;
  for (let set = 0; set < 2 ** problem.costs.length; set++) {
    const chosen = problem.costs.map((_, k) => set >> k & 1);
    if (!isPlan(problem, chosen)) continue;
    const sum = sumOf(problem, chosen);
    if (best === null || sum < best) best = sum;
  }
  return best;
}

function isPlan({ rows, columns, groupOf, ofRows, ofColumns }, chosen) {
  const count = (list, number) => list.filter((one, k) => chosen[k] && one === number).length;
  const isWithin = (list) => ({ least, most }, number) => count(list, number) >= least && count(list, number) <= most;
  const groups = ofRows.flatMap((row, k) => chosen[k] ? [`${row} ${groupOf[ofColumns[k]]}`] : []);
  return rows.every(isWithin(ofRows)) && columns.every(isWithin(ofColumns)) && new Set(groups).size === groups.length;
}

function sumOf({ costs }, chosen) {
  return costs.reduce((sum, cost, k) => chosen[k] ? sum + BigInt(cost) : sum, 0n);
}

function drawnCost(range) {
  return range ? drawn(range) - (range >> 1) : (drawn(2) ? 1 : -1) * (GREATEST - drawn(5));
}

// A problem of at most ten pairs. It may list no pair at all.
function drawnProblem() {
  const [n, m, nGroups] = [1 + drawn(4), 1 + drawn(4), drawn(3)];
  const range = [3, 10, 1000, 0][drawn(4)];
  const bounds = (count) => Array.from({ length: count }, () => {
    const low = drawn(2);
    return { least: low, most: low + drawn(3) };
  });
  const pairs = Array.from({ length: n * m }, (_, k) => k).filter(() => drawn(4) > 0).slice(0, 10);
  return {
    rows: bounds(n), columns: bounds(m), nGroups, groupOf: Array.from({ length: m }, (_, k) => nGroups && drawn(2) ? drawn(nGroups) : nGroups + k),
    ofRows: pairs.map((k) => Math.floor(k / m)), ofColumns: pairs.map((k) => k % m), costs: pairs.map(() => drawnCost(range)),
  };
}

function tryOne(library) {
  const problem = drawnProblem();
  const answer = library.solve(problem);
  const wanted = least(problem);
  const text = JSON.stringify(problem);
  assert.strictEqual(answer.code === "BEST", wanted !== null, text);
  if (answer.code === "BEST") {
    assert(isPlan(problem, answer.plan), text);
    assert.strictEqual(sumOf(problem, answer.plan), wanted, text);
  } else {
    // Each shortage is one for the proved checker, and more may be had where it isn't.
    const lacks = lacksOf(problem, library);
    assert(lacks.every(({ wanted: most, had }) => had < most), text);
    assert(!library.isShort(problem, false, [], []) && !library.isShort(problem, true, [], []), text);
  }
  return answer.code;
}

// Each fault of a problem's numbers.
function tryFaults(library) {
  const one = { least: 0, most: 1 };
  const right = { rows: [one, one], columns: [one, one, one], nGroups: 0, groupOf: [0, 1, 2], ofRows: [0, 0, 1, 1], ofColumns: [0, 1, 1, 2], costs: [4, 1, 2, 3] };
  const changes = [
    [{}, "BEST"], [{ rows: [] }, "SIZE"], [{ columns: [], groupOf: [] }, "SIZE"], [{ costs: [4, 1, 2] }, "BUFFER"], [{ ofColumns: [0, 1, 1] }, "LENGTH"], [{ ofRows: [0, 0, 2, 1] }, "ROW"],
    [{ ofRows: [0, 1, 0, 1] }, "ORDER"], [{ ofColumns: [0, 1, 3, 2] }, "COLUMN"], [{ ofColumns: [-1, 1, 1, 2] }, "COLUMN"],
    [{ rows: [one, { least: 2, most: 1 }] }, "ROW_COUNTS"], [{ costs: [4, 1, GREATEST + 1, 3] }, "COST"]];
  for (const [change, code] of changes) assert.strictEqual(library.solve({ ...right, ...change }).code, code, JSON.stringify(change));
}

function bytesAt(library, place, size) {
  return new Uint8Array(library.memory.buffer, place, size);
}

function place(library, address, size) {
  const found = address >>> 0;
  assert(found !== 0 && found % 16 === 0 && found + size <= library.memory.buffer.byteLength, `place ${found}`);
  return found;
}

// A step of the heap: a block more, another size of one, or one less. No byte of another may change.
function heapStep(library, held) {
  const size = [40, 500, 20000, 400000][drawn(20) ? drawn(3) : 3];
  const bytes = drawn(size);
  const kind = held.length ? drawn(held.length > 150 ? 5 : 3) : 0;
  const one = kind ? held[drawn(held.length)] : { size: 0, mark: 0 };
  if (kind) assert(bytesAt(library, one.place, one.size).every((byte) => byte === one.mark), "a block was written over");
  if (kind > 1) {
    library.calls.free(one.place);
    held.splice(held.indexOf(one), 1);
    return;
  }
  const address = kind ? library.calls.realloc(one.place, bytes) : library.calls.malloc(bytes);
  one.place = place(library, address, bytes);
  assert(bytesAt(library, one.place, Math.min(bytes, one.size)).every((byte) => byte === one.mark), "bytes were lost");
  [one.size, one.mark] = [bytes, drawn(256)];
  bytesAt(library, one.place, bytes).fill(one.mark);
  if (!kind) held.push(one);
}

function tryHeap(library, steps) {
  const held = [];
  for (let step = 0; step < steps; step++) {
    heapStep(library, held);
    // Somebody else may take memory in between.
    if (step % 5000 === 4999) library.memory.grow(1);
  }
  held.forEach((one) => library.calls.free(one.place));
  assert.strictEqual(library.calls.blocks(), 0);
  for (const bytes of [0xffffffff, 0xfffe0000, 0xffff0000]) assert.strictEqual(library.calls.malloc(bytes), 0);
}

// Each growth of a solving call refused in turn: it answers MEMORY, or as without, and gives all back.
function tryRefusals(library) {
  let count = 0;
  for (let round = 0; round < 4; round++) {
    const problem = drawnProblem();
    const right = library.solve(problem);
    // The page's own lists come first.
    for (let which = 16; ; which++) {
      library.calls.refuse(which);
      let code = "MEMORY";
      try {
        ({ code } = library.solve(problem));
      } catch (fault) {
        assert(fault instanceof NoMemory, String(fault));
      }
      const isLast = library.calls.growths() < which;
      library.calls.refuse(0);
      assert.strictEqual(library.calls.blocks(), 0);
      if (isLast) break;
      count++;
      assert(code === "MEMORY" || code === right.code, code);
    }
  }
  return count;
}

const [page, howMany, tried] = process.argv.slice(2);
const library = await Library.load(new WebAssembly.Module(moduleOf(page)));
tryFaults(library);
const codes = Array.from({ length: Number(howMany) }, () => tryOne(library));
const halls = codes.filter((code) => code !== "BEST").length;
const version = library.within((take) => {
  const room = take(new Uint8Array(32));
  const length = library.calls.nushbaret_version(room.address, room.count);
  return String.fromCharCode(...library.bytes({ ...room, count: BigInt(length) }));
});
console.log(`page: version ${version}, ${codes.length} problems as a plain search says, ${halls} of them without a plan`);
if (tried) {
  const other = await Library.load(new WebAssembly.Module(fs.readFileSync(tried)));
  tryHeap(other, HEAP_STEPS);
  console.log(`page: ${HEAP_STEPS} steps of the heap, and ${tryRefusals(other)} growths refused`);
}
