// The plan of a roster, or who is short of what.
import { changesOf, numbersOf, orderOf, pairKey, SIDES } from "./earlier.mjs";
import { faceOf, freeParts, less } from "./exchanges.mjs";
import { gathered, rising, sumOf, usesOf } from "./gathered.mjs";
import { cutOf, lacksOf } from "./lacks.mjs";
import { NoMemory } from "./library.mjs";
import { shown } from "./numbers.mjs";
import { counted, named, sentence } from "./sentences.mjs";
import { boundsOf, hasBounds } from "./takes.mjs";
import { joined, said } from "./texts.mjs";

// Who could change places isn't looked for among more pairs.
const MOST_EXCHANGED = 100000;
/** @typedef {{ max: boolean, fullest: boolean, fixed: Pair[], kept: OldPlan | null }} Request */
/** @typedef {{ plan: Plan | null, sentences: string[], short: { persons: number[], objects: number[] } }} Reasoned */

/** @type {(roster: Roster, request: Request) => Part} What is left to plan around the fixed pairs, with costs that are to be least. */
function countedOf(roster, { max, fixed }) {
  const { persons, objects, groups, past } = roster;
  const nGroups = groups ? groups.names.length : 0;
  const groupOf = objects.map((_, object) => groups?.ofObjects.get(object) ?? nGroups + object);
  const [had, used] = usesOf(fixed);
  const rows = persons.map((_, person) => less(boundsOf(roster, 0, person), had.get(person)));
  const columns = objects.map((_, object) => less(boundsOf(roster, 1, object), used.get(object)));
  past.forEach((object) => { columns[object] = { least: 0, most: 0 }; });
  if (!hasBounds(roster)) {
    const [first, second] = [rows, columns].map((side) => side.reduce((sum, { most }) => sum + most, 0));
    (first <= second ? rows : columns).forEach((own) => { own.least = own.most; });
  }
  const isRuled = roster.takes !== null || groups !== null;
  const rowGroup = (/** @type {Pair} */ { person, object }) => person * (nGroups + objects.length) + groupOf[object];
  const taken = new Set(fixed.map(rowGroup));
  const pairs = roster.pairs.filter((pair) => !past.has(pair.object) && !taken.has(rowGroup(pair))
    && (isRuled || rows[pair.person].most > 0 && columns[pair.object].most > 0));
  if (!roster.isMatrix) pairs.sort((one, other) => one.person - other.person || one.object - other.object);
  const counted = {
    rows, columns, groupOf, nGroups, ofRows: pairs.map(({ person }) => person), ofColumns: pairs.map(({ object }) => object),
    costs: pairs.map(({ cost }) => max ? -cost : cost),
  };
  return { counted, pairs, taken: [] };
}

/** @type {(library: Library, counted: Counted) => Answer} A best plan with its numbers. */
function bestOf(library, counted) {
  if (!counted.rows.length) return { code: "BEST", plan: new Uint8Array(0), rows: [], columns: [] };
  const found = library.solve(counted);
  if (found.code === "MEMORY") throw new NoMemory("memory refused");
  if (!["BEST", "ROWS_LACK", "COLUMNS_LACK"].includes(found.code)) throw new Error(`the library gives no answer: ${found.code}`);
  return found;
}

/** @type {(part: Part, plan: ArrayLike<number>) => Pair[]} The pairs that a plan of a part has. */
function chosenIn({ pairs, taken }, plan) {
  return [...taken, ...pairs.filter((_, k) => plan[k])];
}

/** @type {(roster: Roster, face: Part, chosen: Pair[]) => number[][][]} Who could change places in a plan, of which each plan of a part is as good. */
function swapsOf(roster, { counted, pairs }, chosen) {
  const own = new Set(chosen);
  const part = freeParts(counted, pairs.map((pair) => Number(own.has(pair))));
  const place = (/** @type {number} */ k) => pairKey(roster, pairs[k].person, pairs[k].object);
  const free = [...pairs.keys()].filter((k) => part[k] >= 0).sort((one, other) => place(one) - place(other));
  return [...gathered(free, (k) => part[k]).values()].map((those) => SIDES.map((side) => (
    [...new Set(those.map((k) => pairs[k][side]))].sort(rising))));
}

/** @type {(roster: Roster, request: Request, library: Library) => Reasoned} The plan of a roster, or who is short where there is none. */
export function answerOf(roster, request, library) {
  const { fixed, kept, fullest } = request;
  const problem = countedOf(roster, request);
  const whole = bestOf(library, problem.counted);
  const lacks = whole.code === "BEST" ? [] : lacksOf(problem.counted, library);
  const parts = ["the past", "the fixed pairs"].filter((_, k) => fixed.some(({ object }) => roster.past.has(object) === (k === 0)));
  const around = parts.length ? said("around", parts.map((name) => said(name)).join(said("and"))) : "";
  const sentences = lacks.map((lack) => sentence(roster, problem.counted, lack, around));
  const short = { persons: lacks.flatMap((lack) => lack.rows), objects: lacks.flatMap((lack) => lack.columns) };
  if (lacks.length && !fullest) return { plan: null, sentences, short };
  const part = lacks.length ? cutOf(problem, lacks) : problem;
  const best = lacks.length ? bestOf(library, part.counted) : whole;
  let chosen = chosenIn(part, best.plan);
  const hasSwaps = part.pairs.length <= MOST_EXCHANGED;
  const face = kept || hasSwaps ? faceOf(part, best) : part;
  if (kept) {
    const sum = sumOf(chosen);
    const old = new Set(numbersOf(roster, kept.named).map(({ key }) => key));
    const costs = face.pairs.map(({ person, object }) => old.has(pairKey(roster, person, object)) ? -1 : 1);
    chosen = chosenIn(face, bestOf(library, { ...face.counted, costs }).plan);
    if (sumOf(chosen) !== sum) throw new Error("a plan was found to be as good as the best, and isn't");
  }
  return { plan: planOf(roster, fixed, chosen, hasSwaps ? swapsOf(roster, face, chosen) : null), sentences, short };
}

// Pairs in the order of persons, their sum, who and what has too few, and who could change places where that is known.
/** @param {Roster} roster @param {Pair[]} fixed @param {Pair[]} chosen @param {number[][][] | null} swaps */
export function planOf(roster, fixed, chosen, swaps) {
  const ranks = new Map(orderOf(roster).map((object, rank) => [object, rank]));
  const pairs = [fixed, chosen].flatMap((those, k) => (
    those.map(({ person, object, cost }) => ({ person, object, cost, isFixed: k === 0 }))));
  pairs.sort((one, other) => one.person - other.person || (ranks.get(one.object) ?? 0) - (ranks.get(other.object) ?? 0));
  const uses = usesOf(pairs);
  const [without, unused] = [roster.persons, roster.objects].map((names, side) => [...names.keys()].filter((number) => {
    const { least, most } = boundsOf(roster, side, number);
    const wanted = !hasBounds(roster) ? most : least ? 0 : Math.min(most, 1);
    return !(side && roster.past.has(number)) && (uses[side].get(number) || 0) < wanted;
  }));
  return { pairs, swaps, cost: sumOf(pairs), without, unused };
}

/** @type {(roster: Roster, max: boolean, answer: Reasoned) => string[]} The first lines: a sentence for each group that is short, and the cost of the plan. */
export function firstLines(roster, max, { plan, sentences }) {
  if (!plan) return sentences;
  const name = hasBounds(roster) ? "of pairs that miss least" : "of pairs";
  const title = sentences.length ? said(name, roster.titles[2], plan.pairs.length) : roster.titles[2];
  return [...sentences, `${max ? "greatest" : "least"} ${title}: ${shown(roster, plan.cost)}`];
}

// How who and what has too few is called, how many they are, and their names.
/** @type {(roster: Roster, plan: Plan) => { how: string, count: string, names: string }[]} */
export function leftOut(roster, plan) {
  const [persons, objects] = usesOf(plan.pairs).map((counts, side) => {
    const [names, order] = side ? [roster.objects, orderOf(roster)] : [roster.persons, [...roster.persons.keys()]];
    const of = (/** @type {number} */ number) => ({ name: names[number], count: counts.get(number) || 0, ...boundsOf(roster, side, number) });
    const missing = hasBounds(roster) ? order.map(of).filter(({ count, least }) => count < least) : [];
    const left = (side ? plan.unused : plan.without).map(of);
    return [
      { how: "missing", side, names: missing.map(({ name, count, least }) => `${name}: ${count} of ${least}`) },
      { how: side ? "unused" : "without", side, names: left.map(({ name, count, most }) => (
        hasBounds(roster) || most === 1 ? name : `${name} (${count} of ${most})`)) }];
  });
  return [objects[0], ...persons, objects[1]].filter(({ names }) => names.length).map(({ how, names, side }) => (
    { how, count: counted(names.length, roster.titles[side]), names: joined(names) }));
}

/** @type {(roster: Roster, plan: Plan) => string[][]} The plan as rows: titles, then a person, an object and a cost. */
export function rowsOf(roster, plan) {
  return [roster.titles, ...plan.pairs.map((pair) => [roster.persons[pair.person], roster.objects[pair.object], shown(roster, pair.cost)])];
}

/** @type {(roster: Roster, count: number) => string} How often a name is used, where that isn't once and isn't what its count says. */
function timesOf(roster, count) {
  return count !== 1 && (hasBounds(roster) || roster.groups) ? ` (${count})` : "";
}

/** @type {(roster: Roster, plan: Plan) => { persons: string[], objects: string[] }} Each person with all of its own, and each object with all of its persons. */
export function listsOf(roster, plan) {
  const why = (/** @type {Plan["pairs"][number]} */ { isFixed, object }) => !isFixed ? "" : roster.past.has(object) ? " (past)" : " (fixed)";
  const persons = [...gathered(plan.pairs, ({ person }) => person)].map(([person, pairs]) => {
    const own = pairs.map((pair) => `${roster.objects[pair.object]}, ${shown(roster, pair.cost)}${why(pair)}`);
    return `${roster.persons[person]}${timesOf(roster, own.length)}: ${own.join("; ")}`;
  });
  const ofObjects = gathered(plan.pairs, ({ object }) => object);
  const objects = orderOf(roster).filter((object) => ofObjects.has(object)).map((object) => {
    const own = (ofObjects.get(object) || []).map(({ person }) => roster.persons[person]);
    return `at ${roster.objects[object]}${timesOf(roster, own.length)}: ${joined(own)}`;
  });
  return { persons, objects };
}

/** @type {(roster: Roster, plan: Plan, kept: OldPlan | null) => string[]} Other plans that are as good, and what changes from an earlier plan. */
export function notesOf(roster, plan, kept) {
  const swaps = (plan.swaps || []).map(([persons, objects]) => (
    said("swap", named(persons, roster.titles[0], roster.persons), named(objects, roster.titles[1], roster.objects))));
  return [...plan.swaps && !swaps.length ? [said("only plan")] : swaps, ...kept ? changesOf(roster, plan.pairs, kept).lines : []];
}
