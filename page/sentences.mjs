// What a planner reads: counts, and a sentence for each group that is short, in the command's words.
import { gathered, rising } from "./gathered.mjs";
import { firstOf, joined, said } from "./texts.mjs";

// A sentence names so many persons and objects at most, and lists so many objects even where they are all of their groups.
const MOST_NAMES = 8;
const MOST_LISTED = 6;
const MOST_NAMED = 20;
// Titles are in any language, so plurals are of these words alone.
const WITH_S = SHARED.with_s.split(" ");

/** @type {(count: number, word: string) => string} A count of things: 1 shift, 2 shifts, 3 people, 2 \u00d7 Schicht. */
export function counted(count, word) {
  if (count === 1) return `${count} ${word}`;
  return `${count} ${word === "person" ? "people" : WITH_S.includes(word) ? `${word}s` : `\u00d7 ${word}`}`;
}

/** @type {(numbers: number[], word: string, names: string[]) => string} How many there are, and the first of their names. */
export function named(numbers, word, names) {
  return `${counted(numbers.length, word)} (${firstOf(numbers.map((number) => names[number]), MOST_NAMED)})`;
}

/** @typedef {(side: number, names: string[]) => string} Listed Names of a side in a row, the last of many as their number */

/** @type {(persons: number, objects: number) => Listed} Persons and objects of a sentence share eight names, and each side may have four at least. */
function namesShown(persons, objects) {
  const ofObjects = Math.min(objects, Math.max(MOST_NAMES / 2, MOST_NAMES - persons));
  const left = [Math.min(persons, MOST_NAMES - ofObjects), ofObjects];
  return (side, names) => {
    const shown = names.slice(0, left[side]);
    left[side] -= shown.length;
    const more = names.length - shown.length;
    return shown.length ? joined(shown) + (more ? ` and ${more} other${more > 1 ? "s" : ""}` : "") : "";
  };
}

/** @type {(text: string) => string} */
function bracketed(text) {
  return text && ` (${text})`;
}

/** @type {(lack: Lack) => string} */
function few({ wanted, had }) {
  return wanted - had === 1 ? said("one") : String(wanted - had);
}

/** @type {(names: string[], numbers: number[], countOf: (number: number) => number) => string[]} Names with their counts, as far as these aren't 1. */
function withCounts(names, numbers, countOf) {
  return numbers.map((number) => names[number] + (countOf(number) === 1 ? "" : ` (${countOf(number)})`));
}

/** @type {(names: string[], what: string, listed: Listed, side: number) => string} What is said of several names, or of one. */
function those(names, what, listed, side) {
  const text = listed(side, names);
  return names.length === 1 ? `${text || said("one")} ${what}` : `${names.length} ${what}${bracketed(text)}`;
}

/** @type {(count: number, names: unknown[]) => string} */
function atMost(count, names) {
  return said("at most", count) + (names.length > 1 ? said("each") : "");
}

/** @type {(names: string[], bounds: { most: number }[], numbers: number[], listed: Listed, side: number) => string[]} What each takes at most, those of one count together. */
function mostOf(names, bounds, numbers, listed, side) {
  const counts = [...gathered(numbers, (number) => bounds[number].most)].sort(([one], [other]) => other - one);
  return counts.map(([most, own]) => those(own.map((number) => names[number]), most ? atMost(most, own) : said("none"), listed, side));
}

/** @type {(roster: Roster, problem: Counted, lack: Lack, listed: Listed) => string[]} Who takes one of a group at most, or once of an object; those of one number together. */
function onceOf(roster, { nGroups }, lack, listed) {
  const rules = [...gathered(lack.once, ({ row }) => row)].sort(([one], [other]) => one - other).map(([row, own]) => {
    const parts = [roster.groups && own.some(({ group }) => group < nGroups) ? said("one of each", roster.groups.title) : "",
      own.some(({ group }) => group >= nGroups) ? said("once at each", roster.titles[1]) : ""];
    return { name: roster.persons[row], count: own.length, rule: parts.filter(Boolean).join(", ") };
  });
  const sorted = [...gathered(rules, ({ count, rule }) => `${count} ${rule}`).values()]
    .sort(([one], [other]) => other.count - one.count || (one.rule < other.rule ? 1 : -1));
  return sorted.map((own) => those(own.map(({ name }) => name), said("so", own[0].rule, atMost(own[0].count, own)), listed, 0));
}

/** @type {(roster: Roster, problem: Counted, objects: number[], listed: Listed, isWhole: boolean) => string} Objects with their least counts, and their groups where all are in one. */
function objectsOf(roster, problem, objects, listed, isWhole) {
  const names = isWhole ? "" : bracketed(listed(1, withCounts(roster.objects, objects, (object) => problem.columns[object].least)));
  const count = counted(objects.length, roster.titles[1]) + names;
  const groups = [...new Set(objects.map((object) => problem.groupOf[object]))].sort(rising);
  if (!roster.groups || groups[groups.length - 1] >= problem.nGroups) return count;
  const { title, names: all } = roster.groups;
  const own = groups.map((group) => all[group]);
  const which = own.length === 1 ? `${title} ${own[0]}` : `${counted(own.length, title)} (${firstOf(own, MOST_NAMES)})`;
  return said(isWhole ? "all of groups" : "of groups", count, which);
}

/** @type {(roster: Roster, problem: Counted, lack: Lack) => string} These persons can't fill all places that must be filled. */
function ofObjects(roster, problem, lack) {
  const nPersons = lack.rows.length + new Set(lack.once.map(({ row }) => row)).size;
  const groups = new Set(lack.columns.map((column) => problem.groupOf[column]));
  const isWhole = lack.columns.length > MOST_LISTED && Math.max(...groups) < problem.nGroups
    && lack.columns.length === problem.groupOf.filter((group) => groups.has(group)).length;
  const listed = namesShown(nPersons, isWhole ? 0 : lack.columns.length);
  const objects = objectsOf(roster, problem, lack.columns, listed, isWhole);
  const places = said(lack.wanted === 1 ? "place" : "places", lack.wanted, objects);
  const fewer = lack.had ? said("fill fewer", few(lack)) : said("fill none");
  if (!nPersons) return said("nobody", places, fewer);
  const reasons = [...mostOf(roster.persons, problem.rows, lack.rows, listed, 0), ...onceOf(roster, problem, lack, listed)];
  return said("take too few", counted(nPersons, roster.titles[0]), lack.had, places, reasons.join("; "), fewer);
}

/** @type {(roster: Roster, problem: Counted, lack: Lack) => string} These persons can't have all objects that they must. */
function ofPersons(roster, problem, lack) {
  const [person, object] = roster.titles;
  const own = [...new Set(lack.once.map(({ group }) => group))].sort(rising);
  const [groups, single] = [own.filter((group) => group < problem.nGroups), own.filter((group) => group >= problem.nGroups)];
  const listed = namesShown(lack.rows.length, lack.columns.length + single.length);
  const names = withCounts(roster.persons, lack.rows, (row) => problem.rows[row].least);
  const several = lack.rows.length > 1;
  const who = several ? counted(lack.rows.length, person) + bracketed(listed(0, names)) : roster.persons[lack.rows[0]];
  const them = several ? said("them") : said("this", person);
  const must = said(several ? "must between them" : "must", who, counted(lack.wanted, object));
  if (!lack.columns.length && !lack.once.length) return said("may take none", must, them);
  const reasons = mostOf(roster.objects, problem.columns, lack.columns, listed, 1);
  const { title, names: all } = roster.groups || { title: "", names: [] };
  const rules = groups.length ? [`${said("one of each", title)} (${firstOf(groups.map((group) => all[group]), MOST_NAMES)})`] : [];
  const singles = single.map((group) => roster.objects[group - problem.nGroups]);
  if (single.length) rules.push(said("once at each", object) + bracketed(listed(1, singles)));
  if (rules.length) reasons.push((lack.columns.length ? said("elsewhere", lack.once.length) : "") + rules.join(", "));
  return said("must too many", must, lack.had, reasons.join("; "), them, few(lack));
}

/** @type {(roster: Roster, lack: Lack) => string} Who is short where each name counts once. */
function ofSingles(roster, lack) {
  const sides = [lack.rows.map((row) => roster.persons[row]), lack.columns.map((column) => roster.objects[column])];
  const [own, other, side] = lack.ofColumns ? [1, 0, "objects"] : [0, 1, "persons"];
  const listed = namesShown(sides[0].length, sides[1].length);
  const [many, rest] = [own, other].map((k) => [counted(sides[k].length, roster.titles[k]), bracketed(listed(k, sides[k]))]);
  const only = sides[other].length ? said("only", ...rest) : said("no one", roster.titles[other]);
  const advice = sides[other].length ? said(`some ${side}`, few(lack), few(lack))
    : sides[own].length === 1 ? said(`one of ${side}`, roster.titles[own]) : said(`all ${side}`);
  return said(`short ${side}`, many.join(""), only, advice);
}

/** @type {(roster: Roster, problem: Counted, lack: Lack, around: string) => string} What a planner reads of who is short, by what is planned around. */
export function sentence(roster, problem, lack, around) {
  if (!roster.takes && !roster.groups) return around + ofSingles(roster, lack);
  return around + (lack.ofColumns ? ofObjects : ofPersons)(roster, problem, lack);
}
