// How plans by counts differ, and what is left of a problem whose plans are known to have some pairs and not others.
// In a graph of rows, columns and row groups an arrow leads from a row to a column that it could take, and back where
// it has it; one more vertex is where rows and columns that may take more, or less, begin and end. A graph lists the
// ends of the arrows from each vertex: rows, columns, the one of free counts, and the row groups of given groups.
import { countsOf } from "./gathered.mjs";
import { exact } from "./library.mjs";

/** @type {(counted: Counted) => number[]} A number for the row group of each pair. */
export function keysOf({ ofRows, ofColumns, groupOf, nGroups }) {
  return ofRows.map((row, pair) => row * (nGroups + groupOf.length) + groupOf[ofColumns[pair]]);
}

// The graph of changes of a plan with no count that is free, and the vertex that has the column of each pair.
/** @type {(counted: Counted, plan: ArrayLike<number>) => { graph: number[][], begins: number[] }} */
export function graphOf(counted, plan) {
  const { rows, columns, ofRows, ofColumns, groupOf, nGroups } = counted;
  const graph = Array.from({ length: rows.length + columns.length + 1 }, () => /** @type {number[]} */ ([]));
  const keys = keysOf(counted);
  const taken = new Set(keys.filter((_, pair) => plan[pair]));
  const add = (/** @type {number} */ begin, /** @type {number} */ end, /** @type {boolean} */ isTurned) => (
    isTurned ? graph[end].push(begin) : graph[begin].push(end));
  const groups = /** @type {Map<number, number>} */ (new Map());
  const begins = keys.map((key, pair) => {
    const isGiven = groupOf[ofColumns[pair]] < nGroups;
    if (isGiven && !groups.has(key)) {
      groups.set(key, graph.push([]) - 1);
      add(ofRows[pair], graph.length - 1, taken.has(key));
    }
    const begin = groups.get(key) ?? ofRows[pair];
    add(begin, rows.length + ofColumns[pair], plan[pair] > 0);
    return begin;
  });
  return { graph, begins };
}

/** @type {(graph: number[][]) => number[][]} The arrows, each in the other direction. */
export function turned(graph) {
  const back = graph.map(() => /** @type {number[]} */ ([]));
  graph.forEach((ends, begin) => ends.forEach((end) => back[end].push(begin)));
  return back;
}

/** @type {(graph: number[][]) => number[]} The vertices in the order in which a search in depth leaves them. */
function finished(graph) {
  const [seen, order, waiting] = [new Set(), /** @type {number[]} */ ([]), [...graph.keys()]];
  for (let vertex = waiting.pop(); vertex !== undefined; vertex = waiting.pop()) {
    // Below all that a vertex leads to waits that it is done.
    if (vertex < 0) order.push(~vertex);
    else if (!seen.has(vertex)) {
      seen.add(vertex);
      waiting.push(~vertex);
      graph[vertex].forEach((end) => waiting.push(end));
    }
  }
  return order;
}

/** @type {(graph: number[][]) => number[]} One number for vertices that lead to each other (Sharir 1981). */
export function strongParts(graph) {
  const [back, part] = [turned(graph), new Array(graph.length).fill(-1)];
  for (const first of finished(graph).reverse()) {
    const waiting = [first];
    for (let vertex = waiting.pop(); vertex !== undefined; vertex = waiting.pop()) {
      if (part[vertex] >= 0) continue;
      part[vertex] = first;
      back[vertex].forEach((begin) => waiting.push(begin));
    }
  }
  return part;
}

/** @type {(counted: Counted, plan: ArrayLike<number>) => number[]} For each pair that is in some plan of a problem and not in all, the part of those that depend on each other; for any other pair -1. */
export function freeParts(counted, plan) {
  const { rows, columns, ofRows, ofColumns } = counted;
  const { graph, begins } = graphOf(counted, plan);
  const free = rows.length + columns.length;
  const counts = new Array(free).fill(0);
  ofRows.forEach((row, pair) => [row, rows.length + ofColumns[pair]].forEach((vertex) => { counts[vertex] += plan[pair]; }));
  [...rows, ...columns].forEach(({ least, most }, vertex) => {
    const isColumn = vertex >= rows.length;
    if (counts[vertex] < most) graph[isColumn ? vertex : free].push(isColumn ? free : vertex);
    if (counts[vertex] > least) graph[isColumn ? free : vertex].push(isColumn ? vertex : free);
  });
  const part = strongParts(graph);
  return begins.map((begin, pair) => part[begin] === part[rows.length + ofColumns[pair]] ? part[begin] : -1);
}

/** @type {(bounds: Bounds, count?: number) => Bounds} What a count leaves next to what is taken. */
export function less({ least, most }, count = 0) {
  return { least: Math.max(0, least - count), most: most - count };
}

/** @type {(part: Part, answer: Answer) => Part} The part of all best plans, by the numbers that prove one best: a count is the one that its number stands for. */
export function faceOf(part, answer) {
  const { ofRows, ofColumns, costs } = part.counted;
  const [rows, columns] = [exact(answer.rows), exact(answer.columns)];
  const fixed = (/** @type {Bounds[]} */ bounds, /** @type {number[]} */ numbers) => (
    bounds.map(({ least, most }, k) => ({ least: numbers[k] < 0 ? most : least, most: numbers[k] > 0 ? least : most })));
  const spare = costs.map((cost, k) => cost - rows[ofRows[k]] - columns[ofColumns[k]]);
  return narrowed(part, spare, fixed(part.counted.rows, rows), fixed(part.counted.columns, columns));
}

// The part of the plans that keep the bounds, and of which no pair costs more than it must. Let `spare` be e = cost - row's number -
// column's number. A plan is in this part if in each row group it pays min(0, the least e): it takes exactly one where that is below 0,
// and only pairs whose e is that. A row that must take one of some groups is two rows here: one takes exactly one of each of these, the
// other what is left.
/** @type {(part: Part, spare: number[], rowBounds: Bounds[], columnBounds: Bounds[]) => Part} */
export function narrowed({ counted, pairs, taken }, spare, rowBounds, columnBounds) {
  const { ofRows, ofColumns, groupOf, nGroups, costs } = counted;
  const keys = keysOf(counted);
  const least = /** @type {Map<number, number>} */ (new Map());
  keys.forEach((key, k) => { if (spare[k] < (least.get(key) || 0)) least.set(key, spare[k]); });
  const left = [...keys.keys()].filter((k) => spare[k] <= (least.get(keys[k]) || 0));
  const counts = countsOf(left.map((k) => keys[k]));
  const [alone, others] = [true, false].map((isAlone) => left.filter((k) => (least.has(keys[k]) && counts.get(keys[k]) === 1) === isAlone));
  const [had, used] = [ofRows, ofColumns].map((list) => countsOf(alone.map((k) => list[k])));
  const must = countsOf([...new Map(others.filter((k) => least.has(keys[k])).map((k) => [keys[k], ofRows[k]])).values()]);
  const rowOf = (/** @type {number} */ k) => 2 * ofRows[k] + (least.has(keys[k]) ? 0 : 1);
  const open = others.sort((one, other) => rowOf(one) - rowOf(other) || one - other);
  const [rows, columns] = [open.map(rowOf), open.map((k) => ofColumns[k])].map((list) => (
    new Map([...new Set(list)].map((own, number) => [own, number]))));
  const part = {
    rows: [...rows.keys()].map((row) => {
      const [whole, own] = [row >> 1, must.get(row >> 1) || 0];
      return row & 1 ? less(rowBounds[whole], (had.get(whole) || 0) + own) : { least: own, most: own };
    }),
    columns: [...columns.keys()].map((column) => less(columnBounds[column], used.get(column))), nGroups,
    groupOf: [...columns].map(([column, number]) => groupOf[column] < nGroups ? groupOf[column] : nGroups + number),
    ofRows: open.map((k) => rows.get(rowOf(k)) ?? 0), ofColumns: open.map((k) => columns.get(ofColumns[k]) ?? 0), costs: open.map((k) => costs[k]),
  };
  return { counted: part, pairs: open.map((k) => pairs[k]), taken: [...taken, ...alone.map((k) => pairs[k])] };
}
