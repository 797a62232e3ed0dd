// A plan as one sheet: who has what on which day, by letters, what each has in all, and each day's staff of how many.
import { DAY_NAMES, datesOf, isoOf, weekdayOf, weekendsAmong } from "./dates.mjs";
import { costsOf, numbersOf, orderOf, pairKey } from "./earlier.mjs";
import { countsOf, gathered, sumOf, usesOf } from "./gathered.mjs";
import { shown } from "./numbers.mjs";
import { boundsOf, hasBounds, withoutGroup } from "./takes.mjs";
import { said } from "./texts.mjs";

// So many days, kinds and persons fit on a sheet.
const [MOST_DAYS, MOST_KINDS, MOST_ROWS] = [62, 12, 400];
const ALPHABET = "ABCDEFGHIJKLMNOPQRSTUVWXYZ";
const SATURDAY = 5;
/** @type {(roster: Roster) => string[]} The names of objects, without the name of their group where the rest still differs. */
export function labelsOf({ objects, groups }) {
  if (!groups) return objects;
  const group = (/** @type {number} */ number) => groups.ofObjects.get(number) ?? -1;
  const short = objects.map((name, number) => group(number) < 0 ? name : withoutGroup(name, groups.names[group(number)]));
  const counts = countsOf(short.map((name, number) => `${group(number)} ${name}`));
  return objects.map((name, number) => group(number) >= 0 && counts.get(`${group(number)} ${short[number]}`) === 1 ? short[number] : name);
}

// The days of a roster with groups, in order.
/** @param {Roster} roster @param {string[]} names */
function daysOf(roster, names) {
  const { all } = datesOf(names);
  const weekends = weekendsAmong(names);
  const past = new Set([...roster.past].map((object) => roster.groups?.ofObjects.get(object)));
  const days = names.map((name, group) => ({
    name, group, when: all && all[group], isPast: past.has(group),
    isWeekend: all ? weekdayOf(all[group]) >= SATURDAY : weekends.has(name),
  }));
  return all ? days.sort((one, other) => all[one.group] - all[other.group]) : days;
}

/** @type {(kinds: string[]) => Map<string, string>} A letter for each kind, or the fewest first letters by which all differ. */
function lettersOf(kinds) {
  const firsts = [1, 2, 3].map((count) => kinds.map((kind) => Array.from(kind).slice(0, count).join("").trim()));
  const short = firsts.find((own) => new Set(own).size === kinds.length && own.every(Boolean)) || ALPHABET;
  return new Map(kinds.map((kind, k) => [kind, short[k]]));
}

// How many weekends have a shift: days of weekends side by side are one.
/** @type {(days: { isWeekend: boolean }[], cells: { entries: unknown[] }[]) => number} */
function weekendsIn(days, cells) {
  let [count, isCounted] = [0, false];
  days.forEach(({ isWeekend }, k) => {
    isCounted = isCounted && isWeekend;
    if (isWeekend && cells[k].entries.length && !isCounted) [count, isCounted] = [count + 1, true];
  });
  return count;
}

// What a person has on a day of these objects, what it had in an earlier plan alone, and whether nothing is allowed.
/** @param {Roster} roster @param {string[]} labels @param {Plan} plan @param {OldPlan | null} kept */
function cellsOf(roster, labels, plan, kept) {
  const [costs, pairs] = [costsOf(roster), gathered(plan.pairs, ({ person }) => person)];
  const before = kept && new Set(numbersOf(roster, kept.named).map(({ key }) => key));
  return (/** @type {number} */ person, /** @type {number[]} */ own) => {
    const had = own.filter((object) => before?.has(pairKey(roster, person, object)));
    const now = (pairs.get(person) || []).filter(({ object }) => own.includes(object));
    const entries = now.map(({ object, isFixed }) => ({
      label: labels[object], object, isFixed: isFixed && !roster.past.has(object),
      isNew: kept !== null && !had.includes(object) }));
    const gone = had.filter((object) => !now.some((pair) => pair.object === object)).map((object) => labels[object]);
    return { entries, gone, isOff: !now.length && !own.some((object) => costs.has(pairKey(roster, person, object))) };
  };
}

// The sheet of a plan; null where there are no groups, or too many days or kinds.
/** @param {Roster} roster @param {Plan} plan @param {OldPlan | null} kept */
export function sheetOf(roster, plan, kept) {
  const { groups, persons, objects } = roster;
  if (!groups) return null;
  const labels = labelsOf(roster);
  const order = orderOf(roster).filter((object) => groups.ofObjects.has(object));
  const kinds = [...new Set(order.map((object) => labels[object]))];
  if (order.length < objects.length || groups.names.length > MOST_DAYS || kinds.length > MOST_KINDS || persons.length > MOST_ROWS) return null;
  const days = daysOf(roster, groups.names);
  const ofDays = gathered(order, (object) => groups.ofObjects.get(object));
  const ofPersons = gathered(plan.pairs, ({ person }) => person);
  const cellOf = cellsOf(roster, labels, plan, kept);
  const cells = persons.map((_, person) => days.map(({ group }) => cellOf(person, ofDays.get(group) || [])));
  const letters = lettersOf(kinds);
  const ofKinds = kinds.length > 1 && kinds.length <= 4 ? kinds : [];
  const hasWeekends = days.some(({ isWeekend }) => isWeekend);
  const columns = [
    { title: "\u03a3", meaning: said("all shifts") }, ...ofKinds.map((kind) => ({ title: letters.get(kind) || "", meaning: kind })),
    ...hasWeekends ? [{ title: "we", meaning: said("weekends") }] : [], { title: roster.titles[2], meaning: "" }];
  const rows = persons.map((name, person) => {
    const own = cells[person].flatMap(({ entries }) => entries);
    const cost = sumOf(ofPersons.get(person) || []);
    return { name, cells: cells[person], sums: [
      String(own.length), ...ofKinds.map((kind) => String(own.filter(({ label }) => label === kind).length)),
      ...hasWeekends ? [String(weekendsIn(days, cells[person]))] : [], shown(roster, cost)] };
  });
  const [, used] = usesOf(plan.pairs);
  const staff = kinds.map((kind) => ({ kind, staff: days.map(({ group }) => {
    const object = (ofDays.get(group) || []).find((one) => labels[one] === kind);
    if (object === undefined) return null;
    return { had: used.get(object) || 0, wanted: hasBounds(roster) ? boundsOf(roster, 1, object).least : null };
  }) }));
  return { days, letters, persons: rows, columns, kinds: staff };
}

/** @type {(name: string, when: number | null) => string[]} A day in few letters: of a date, those of week and month. */
export function shortDay(name, when) {
  return when === null ? [name] : [DAY_NAMES[weekdayOf(when)].slice(0, 2), String(Number(isoOf(when).slice(8)))];
}
