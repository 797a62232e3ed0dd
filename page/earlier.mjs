// An earlier plan: its pairs by names, what changes from it, and the past, whose pairs stay as they were.
import { datesOf } from "./dates.mjs";
import { gathered, rising, usesOf } from "./gathered.mjs";
import { hintOf } from "./names.mjs";
import { Costs, shown } from "./numbers.mjs";
import { counted } from "./sentences.mjs";
import { boundsOf, hasBounds } from "./takes.mjs";
import { firstOf, joined, nameOf, quoted, refuse, RosterFault, said } from "./texts.mjs";

const [CHANGE, GOES, NOT_POSSIBLE] = ["change", "goes", "not possible"];
export const SIDES = /** @type {["person", "object"]} */ (["person", "object"]);
const MOST_SHOWN = 20;

/** @type {(roster: Roster, person: number, object: number) => number} A number for a pair. */
export function pairKey({ objects }, person, object) {
  return person * objects.length + object;
}

// The pairs whose names the roster has.
/** @type {<Own extends { person: string, object: string }>(roster: Roster, pairs: Own[]) => Numbered<Own>[]} */
export function numbersOf(roster, pairs) {
  return pairs.flatMap((pair) => {
    const [person, object] = [roster.personNumbers.get(pair.person), roster.objectNumbers.get(pair.object)];
    if (person === undefined || object === undefined) return [];
    const name = `${roster.persons[person]}, ${roster.objects[object]}`;
    return [{ ...pair, person, object, key: pairKey(roster, person, object), name }];
  });
}

/** @type {(roster: Roster) => Map<number, number>} The cost of each pair that is allowed, by its key. */
export function costsOf(roster) {
  return new Map(roster.pairs.map(({ person, object, cost }) => [pairKey(roster, person, object), cost]));
}

/** @type {(sheet: Sheet, roster: Roster) => Named[]} The pairs of a plan in lines, by names. */
export function namedPairs(sheet, roster) {
  const { line: first, cells: title } = sheet.title();
  if (title.length < 2) refuse(first, 0, "person and object");
  const { persons, objects, personNumbers, objectNumbers, groups } = roster;
  if (personNumbers.has(title[0]) && objectNumbers.has(title[1])) refuse(first, 0, "pair for a title", title[0], title[1]);
  const change = title.indexOf(CHANGE, 3);
  const hasCosts = title.length > 2 && (!groups || title[2] !== groups.title);
  const rows = [...sheet.body(title.length)];
  return rows.filter(({ cells }) => ![GOES, NOT_POSSIBLE].includes(cells[change])).map(({ line, cells }) => {
    const [person, object] = [nameOf(cells[0], line, 1), nameOf(cells[1], line, 2)];
    return {
      person: persons[personNumbers.get(person) ?? -1] ?? person,
      object: objects[objectNumbers.get(object) ?? -1] ?? object, line, cost: hasCosts ? cells[2] : "" };
  });
}

// The first item whose key stands more often than it may, after the first item of its key; none where none does.
/** @type {<Item>(items: Item[], keyOf: (item: Item) => number, mostOf: (key: number) => number) => Item[]} */
function firstBeyond(items, keyOf, mostOf) {
  const all = gathered(items, keyOf);
  const again = items.find((item) => all.get(keyOf(item))?.[mostOf(keyOf(item))] === item);
  return again ? [...(all.get(keyOf(again)) || []).slice(0, 1), again] : [];
}

/** @type {(roster: Roster, named: Named[], item: string) => void} Refuses a pair of a plan that stands there twice. */
function refusePairsTwice(roster, named, item) {
  const [first, again] = firstBeyond(numbersOf(roster, named), ({ key }) => key, () => 1);
  if (again) refuse(again.line, 0, "pair twice", first.name, item, first.line);
}

/** @type {(roster: Roster, named: Named[], item: string) => void} Refuses a name that stands more often than it may. */
function refuseOften(roster, named, item) {
  for (const [column, side] of SIDES.entries()) {
    const mostOf = (/** @type {number} */ number) => boundsOf(roster, column, number).most;
    const [first, again] = firstBeyond(numbersOf(roster, named), (pair) => pair[side], mostOf);
    if (!again) continue;
    const [name, most] = [[roster.persons, roster.objects][column][again[side]], mostOf(again[side])];
    const often = most === 1 ? said("a second time") : said("more times", most);
    const before = most ? `, after ${item} ${first.line}` : "";
    throw new RosterFault(`${quoted(name)} ${often}${before}`, again.line, column + 1);
  }
}

/** @type {(roster: Roster, named: Named[], item: string) => OldPlan} An earlier plan of a roster. */
export function oldPlanOf(roster, named, item) {
  if (!roster.takes && !roster.groups) refuseOften(roster, named, item);
  refusePairsTwice(roster, named, item);
  const gone = named.flatMap(({ person, object }) => [
    ...roster.personNumbers.has(person) ? [] : [person], ...roster.objectNumbers.has(object) ? [] : [object]]);
  return { named, gone: [...new Set(gone)] };
}

/** @type {(groups: Groups, name: string) => number[]} The groups before one: by date, and else in the order of their file. */
function groupsBefore({ title, names }, name) {
  const days = datesOf([...names, name]).all;
  if (days) return [...names.keys()].filter((group) => days[group] < days[names.length]);
  if (names.includes(name)) return [...names.keys()].slice(0, names.indexOf(name));
  throw new RosterFault(said("no past", title, quoted(name)) + hintOf(name, names));
}

/** @type {(roster: Roster, pair: Named) => number} What a pair costs in the plan's file, 0 where no number stands there. */
function costInFile(roster, { cost, line }) {
  if (!/^[+-]?[0-9.,][0-9., 'eE+-]*$/.test(cost)) return 0;
  const costs = new Costs(roster.comma);
  costs.take(cost, line, 3);
  const { decimals, units } = costs.scaled();
  if (decimals > roster.decimals) refuse(line, 3, "many places", quoted(cost), roster.decimals, "");
  return units[0] * 10 ** (roster.decimals - decimals);
}

/** @type {(roster: Roster, names: string[]) => Roster} The roster with persons that it doesn't have. */
function withPersons(roster, names) {
  const fresh = [...new Set(names)].filter((name) => !roster.personNumbers.has(name));
  const personNumbers = new Map(roster.personNumbers);
  fresh.forEach((name, k) => personNumbers.set(name, roster.persons.length + k));
  const gone = new Set(fresh.map((_, k) => roster.persons.length + k));
  return { ...roster, persons: [...roster.persons, ...fresh], personNumbers, gone };
}

// The roster with a past, which is before a group. An earlier plan's pairs there are allowed and given, at their cost
// in its file where the roster forbids them. Who has more of them than it takes may have so many. No least count of the
// past is left.
/** @param {Roster} roster @param {Groups} groups @param {OldPlan} kept @param {string} name */
export function withPast(roster, groups, kept, name) {
  const earlier = groupsBefore(groups, name);
  const past = new Set([...groups.ofObjects].filter(([, group]) => earlier.includes(group)).map(([object]) => object));
  const ofPast = kept.named.filter(({ object }) => past.has(roster.objectNumbers.get(object) ?? -1));
  const own = withPersons(roster, ofPast.map(({ person }) => person));
  const costs = costsOf(own);
  const fixed = numbersOf(own, ofPast).map(({ person, object, key }, k) => (
    { person, object, cost: costs.get(key) ?? costInFile(own, ofPast[k]), isNew: !costs.has(key) }));
  const passing = [...usesOf(fixed)[0]].sort(([one], [other]) => one - other).filter(([person, count]) => (
    own.gone.has(person) || count > boundsOf(own, 0, person).most));
  const added = fixed.filter(({ isNew }) => isNew);
  const [persons, objects] = [new Map(own.takes?.persons), new Map(own.takes?.objects)];
  passing.forEach(([person, most]) => persons.set(person, { ...boundsOf(own, 0, person), most }));
  past.forEach((object) => objects.set(object, { ...boundsOf(own, 1, object), least: 0 }));
  const [takes, isMatrix] = [{ persons, objects, areSums: !hasBounds(own) }, own.isMatrix && !added.length];
  const changed = { ...own, past, takes, pairs: [...own.pairs, ...added], isMatrix };
  refusePairsTwice(changed, kept.named, "line");
  if (!earlier.length) return { roster: changed, fixed, lines: [said("none before", groups.title, name)] };
  const names = firstOf(earlier.map((group) => groups.names[group]), MOST_SHOWN);
  const which = said("before", counted(earlier.length, groups.title), name, names);
  const stay = said(fixed.length === 1 ? "stays" : "stay", counted(fixed.length, "pair"), which);
  return { roster: changed, fixed, lines: [stay, ...pastLines(own, added, passing)] };
}

/** @type {(roster: Roster, added: Pair[], passing: [number, number][]) => string[]} What of the past is against the roster. */
function pastLines(roster, added, passing) {
  const forbidden = [...gathered(added, ({ person }) => person)].map(([person, pairs]) => {
    const own = pairs.map(({ object, cost }) => `${roster.objects[object]}, ${shown(roster, cost)}`);
    return said("kept though forbidden", roster.persons[person], own.join("; "));
  });
  const more = passing.filter(([person]) => !roster.gone.has(person)).map(([person, had]) => (
    said("past beyond most", roster.persons[person], counted(had, roster.titles[1]), boundsOf(roster, 0, person).most, had)));
  return [...forbidden, ...more];
}

/** @type {(way: "come" | "go", those: Spot[], what: string) => string[]} What comes, or goes. */
function moved(way, those, what) {
  return those.length ? [said(those.length === 1 ? `${way} alone` : way, what)] : [];
}

// What changes from an earlier plan: how many pairs, whose, and what can't be any more.
/** @type {(roster: Roster, pairs: Spot[], kept: OldPlan) => { comes: Spot[], goes: Spot[], lines: string[] }} */
export function changesOf(roster, pairs, kept) {
  const costs = costsOf(roster);
  const now = new Set(pairs.map(({ person, object }) => pairKey(roster, person, object)));
  const [past] = usesOf(pairs.filter(({ object }) => roster.past.has(object)));
  const isFull = (/** @type {Spot} */ { person, object }) => (
    boundsOf(roster, 0, person).most <= (past.get(person) || 0) || boundsOf(roster, 1, object).most === 0);
  const allowed = numbersOf(roster, kept.named).filter(({ key }) => costs.has(key));
  const goes = allowed.filter((pair) => !now.has(pair.key) && !isFull(pair)).sort((one, other) => one.key - other.key);
  const stays = new Set(allowed.map(({ key }) => key));
  const comes = pairs.filter(({ person, object }) => !stays.has(pairKey(roster, person, object)));
  const names = (/** @type {Spot[]} */ those) => joined(those.map(({ object }) => roster.objects[object]));
  const gone = comes.length ? String(goes.length) : counted(goes.length, "pair");
  const counts = [...moved("come", comes, counted(comes.length, "pair")), ...moved("go", goes, gone)];
  const own = [...new Set([...goes, ...comes].map(({ person }) => person))].sort(rising).map((number) => {
    const [old, fresh] = [goes, comes].map((/** @type {Spot[]} */ those) => those.filter(({ person }) => person === number));
    return `${roster.persons[number]}: ${[...moved("go", old, names(old)), ...moved("come", fresh, names(fresh))].join("; ")}`;
  });
  const lost = kept.named.flatMap((pair) => {
    const [found] = numbersOf(roster, [pair]);
    const why = !found || kept.gone.includes(pair.person) ? "gone" : isFull(found) ? "takes none" : "forbidden";
    return found && (now.has(found.key) || why === "forbidden" && costs.has(found.key)) ? [] : [{ ...pair, why }];
  });
  const impossible = [...gathered(lost, ({ person, why }) => `${person}\n${why}`).values()].map((all) => (
    `${all[0].person}: ${joined(all.map(({ object }) => object))} ${NOT_POSSIBLE} now (${all[0].why})`));
  return { comes, goes, lines: [counts.join(", ") || said("no change"), ...own, ...impossible] };
}

/** @type {(roster: Roster) => number[]} The objects in the order of groups and of the roster, then those in none. */
export function orderOf({ objects, groups }) {
  const groupOf = (/** @type {number} */ object) => groups?.ofObjects.get(object) ?? objects.length;
  const all = [...new Set([...groups?.ofObjects.keys() || [], ...objects.keys()])];
  return all.sort((one, other) => groupOf(one) - groupOf(other));
}
