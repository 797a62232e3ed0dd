// Why counts can't be met: who is short, and by how much. Each side is looked at alone; what changes of as many pairs as can be reach from
// those that lack some is short, in connected parts. The library checks each shortage.
import { graphOf, keysOf, narrowed, strongParts, turned } from "./exchanges.mjs";
import { countsOf, gathered, rising } from "./gathered.mjs";

/** @type {(counted: Counted, ofColumns: boolean, library: Library) => Lack[]} What is short of the least counts of one side. */
function lacksOfSide(counted, ofColumns, library) {
  const sides = [counted.rows, counted.columns];
  const needs = sides[Number(ofColumns)];
  if (needs.every(({ least }) => least === 0)) return [];
  const [rows, columns] = sides.map((bounds) => bounds.map(({ least, most }) => ({ least: 0, most: bounds === needs ? least : most })));
  const own = { ...counted, rows, columns, costs: counted.costs.map(() => -1) };
  const { plan } = library.solve(own);
  const { graph } = graphOf(own, plan);
  const had = countsOf((ofColumns ? counted.ofColumns : counted.ofRows).filter((_, pair) => plan[pair]));
  const lacking = [...needs.keys()].filter((number) => (had.get(number) || 0) < needs[number].least);
  const reached = new Set(lacking.map((number) => number + (ofColumns ? rows.length : 0)));
  const arrows = ofColumns ? turned(graph) : graph;
  // A set takes more while it is walked.
  for (const vertex of reached) arrows[vertex].forEach((end) => reached.add(end));
  return shortParts(counted, ofColumns, (row) => reached.has(row), (column) => reached.has(rows.length + column));
}

// The shortages that were reached, in connected parts: names, and what limits each: other names, from 0, and row groups, below 0.
/** @type {(counted: Counted, ofColumns: boolean, isRow: (row: number) => boolean, isColumn: (column: number) => boolean) => Lack[]} */
function shortParts(counted, ofColumns, isRow, isColumn) {
  const { ofRows, ofColumns: columns } = counted;
  const keys = keysOf(counted).map((key) => -1 - key);
  const outside = new Set(keys.filter((_, pair) => isRow(ofRows[pair]) && !isColumn(columns[pair])));
  const [names, others, isName] = ofColumns ? [columns, ofRows, isColumn] : [ofRows, columns, isRow];
  /** @type {Map<number, Set<number>>} */
  const limits = new Map([...(ofColumns ? counted.columns : counted.rows).keys()].filter(isName).map((name) => [name, new Set()]));
  names.forEach((name, pair) => {
    const isOther = ofColumns ? isRow(ofRows[pair]) : !outside.has(keys[pair]);
    limits.get(name)?.add(isOther ? others[pair] : keys[pair]);
  });
  return connected(limits).map((part) => lackOf(counted, ofColumns, part, [...new Set(part.flatMap((name) => [...limits.get(name) || []]))]));
}

/** @type {(counted: Counted, ofColumns: boolean, names: number[], limits: number[]) => Lack} */
function lackOf(counted, ofColumns, names, limits) {
  const width = counted.nGroups + counted.groupOf.length;
  const others = limits.filter((limit) => limit >= 0).sort(rising);
  const keys = limits.filter((limit) => limit < 0).map((limit) => -1 - limit).sort(rising);
  const [needs, most] = ofColumns ? [counted.columns, counted.rows] : [counted.rows, counted.columns];
  return {
    ofColumns, rows: ofColumns ? others : names, columns: ofColumns ? names : others,
    once: keys.map((key) => ({ row: Math.floor(key / width), group: key % width })),
    wanted: names.reduce((sum, name) => sum + needs[name].least, 0), had: others.reduce((sum, other) => sum + most[other].most, keys.length),
  };
}

/** @type {(links: Map<number, Set<number>>) => number[][]} The connected parts of names, by what they are linked to, in the order of the first ones. */
function connected(links) {
  const [names, firsts] = [[...links.keys()], new Map()];
  const graph = names.map(() => /** @type {number[]} */ ([]));
  [...links.values()].forEach((ends, place) => ends.forEach((end) => {
    if (!firsts.has(end)) firsts.set(end, place);
    graph[place].push(firsts.get(end));
    graph[firsts.get(end)].push(place);
  }));
  const part = strongParts(graph);
  return [...gathered(names.keys(), (place) => part[place]).values()].map((places) => places.map((place) => names[place]));
}

/** @type {(counted: Counted, library: Library) => Lack[]} What is short, in the order of the first rows, and then of the first columns; each is proved. */
export function lacksOf(counted, library) {
  const lacks = [false, true].flatMap((ofColumns) => lacksOfSide(counted, ofColumns, library));
  const isProved = lacks.length > 0 && lacks.every((lack) => library.isShort(counted, lack.ofColumns, lack.rows, lack.columns));
  if (!isProved) throw new Error("counts were found to be short, and the library's check doesn't say so");
  return lacks;
}

// The plans that miss as little of the least counts as can be, summed up over both sides. What is short takes no more than its least
// count, and all that limits it; by the shortages' numbers, 1 for what is short and -1 for what limits it, these plans pay least.
/** @type {(part: Part, lacks: Lack[]) => Part} */
export function cutOf(part, lacks) {
  const sideOf = (/** @type {Bounds[]} */ bounds, /** @type {boolean} */ side) => {
    const [short, full] = [side, !side].map((one) => (
      new Set(lacks.filter(({ ofColumns }) => ofColumns === one).flatMap((lack) => side ? lack.columns : lack.rows))));
    return {
      numbers: bounds.map((_, k) => Number(short.has(k)) - Number(full.has(k))),
      cut: bounds.map(({ least, most }, k) => ({ least: full.has(k) ? most : short.has(k) ? 0 : least, most: short.has(k) ? least : most })),
    };
  };
  const { rows: rowBounds, columns: columnBounds, ofRows, ofColumns } = part.counted;
  const [rows, columns] = [sideOf(rowBounds, false), sideOf(columnBounds, true)];
  const spare = ofRows.map((row, pair) => -rows.numbers[row] - columns.numbers[ofColumns[pair]]);
  return narrowed(part, spare, rows.cut, columns.cut);
}
