// Names that are dates with a year: 2027-03-01, 01.03.2027 or, where another has the year, Mo 01.03. A day is a number,
// that of days since 1970.
import { bare, said } from "./texts.mjs";

const WORD = "\\p{L}{2,}";
const DATE = new RegExp(`^(?:(?<before>${WORD})[.,]{0,2}\\s*)?`
  + "(?:(?<year>[0-9]{4})-(?<month>[0-9]{1,2})-(?<day>[0-9]{1,2})"
  + "|(?<ownDay>[0-9]{1,2})\\.\\s?(?<ownMonth>[0-9]{1,2})(?:\\.\\s?(?<ownYear>[0-9]{4})?)?)"
  + `(?:,?\\s*\\(?(?<after>${WORD})\\.?\\)?)?$`, "u");
const LANGUAGES = SHARED.weekdays.map((week) => week.split(" ").map((day) => day.split("/")));
export const DAY_NAMES = SHARED.day_names.split(" ");
// Tuesday in three languages, and March in five.
const MARCH = "mar";
const MILLISECONDS = 86400000;
const [FIRST, LAST, HALF_A_YEAR] = [-354285, 2932891, 183];

/** @type {(day: number) => number} A day of the week, from Monday on. */
export function weekdayOf(day) {
  return ((day + 3) % 7 + 7) % 7;
}

/** @type {(day: number) => string} A day as 2027-03-01. */
export function isoOf(day) {
  return new Date(day * MILLISECONDS).toISOString().slice(0, 10);
}

/** @type {(year: number, month: number, day: number) => number | null} A day of the calendar, null where it has none. */
function dayOf(year, month, day) {
  const found = Date.UTC(year, month - 1, day) / MILLISECONDS;
  const isOne = year > 999 && month > 0 && new Date(found * MILLISECONDS).getUTCMonth() === month - 1 && day > 0;
  return isOne && found >= FIRST && found <= LAST ? found : null;
}

/** @type {(word: string, languages?: string[][][]) => Set<number>} The days of the week that a word may mean. */
function weekdaysOf(word, languages = LANGUAGES) {
  const own = bare(word).normalize("NFKD").replace(/\p{M}/gu, "");
  return new Set(own.length < 2 ? [] : languages.flatMap((week) => (
    [...week.keys()].filter((number) => week[number].some((day) => day.startsWith(own))))));
}

/** @type {(name: string) => string[]} The words of a name for days of the week. */
function dayWords(name) {
  const words = (name.match(new RegExp(WORD, "gu")) || []).map(bare).filter((word) => weekdaysOf(word).size);
  const sure = words.filter((word) => word !== MARCH);
  return sure.length ? sure : words;
}

/** @type {(names: string[]) => Set<string>} The names whose first word for a day of the week is one for Saturday or Sunday. */
export function weekendsAmong(names) {
  const words = new Map(names.map((name) => [name, dayWords(name)[0]]));
  const own = [...words].filter(([, word]) => word);
  const fitting = LANGUAGES.filter((week) => own.every(([, word]) => weekdaysOf(word, [week]).size));
  const found = own.filter(([, word]) => Math.min(...weekdaysOf(word, fitting.length ? fitting : LANGUAGES)) >= 5);
  return new Set(found.map(([name]) => name));
}

// A name read as a date, null where it is none: year 0 without one, and the days of the week that words may mean.
/** @param {string} name */
function written(name) {
  const found = DATE.exec(name)?.groups;
  if (!found) return null;
  const words = [found.before, found.after].filter(Boolean).map((word) => weekdaysOf(word));
  if (words.some((days) => !days.size)) return null;
  const weekdays = words.length ? new Set([...words[0]].filter((day) => words.every((days) => days.has(day)))) : null;
  return {
    name, year: Number(found.year || found.ownYear || 0), month: Number(found.month || found.ownMonth), day: Number(found.day || found.ownDay),
    weekdays,
  };
}

// The nearest of these days to others, at most half a year away.
/** @type {(month: number, day: number, anchors: number[]) => number | null} */
function nearest(month, day, anchors) {
  const years = new Set(anchors.flatMap((anchor) => [-1, 0, 1].map((apart) => Number(isoOf(anchor).slice(0, 4)) + apart)));
  const apart = (/** @type {number} */ day) => anchors.reduce((least, anchor) => Math.min(least, Math.abs(anchor - day)), Infinity);
  const days = [...years].map((year) => dayOf(year, month, day) ?? Infinity);
  days.sort((one, other) => apart(one) - apart(other) || one - other);
  return apart(days[0]) <= HALF_A_YEAR ? days[0] : null;
}

/** @type {(names: string[]) => { all: number[] | null, why: string }} The days of names, if each is a date and any has a year. */
export function datesOf(names) {
  const all = names.map(written);
  const none = all.findIndex((own) => own === null);
  if (none >= 0) return { all: null, why: said("no date", names[none]) };
  const own = all.flatMap((one) => one || []);
  const dated = own.map(({ year, month, day }) => year ? dayOf(year, month, day) : null);
  const wrong = own.find(({ year }, k) => year && dated[k] === null);
  if (wrong) return { all: null, why: said("no day", wrong.name) };
  const anchors = dated.flatMap((day) => day === null ? [] : [day]).sort((one, other) => one - other);
  if (!anchors.length) return { all: null, why: names.length ? said("no year", names[0]) : said("there are none") };
  const days = own.map((one, k) => dated[k] ?? nearest(one.month, one.day, anchors) ?? NaN);
  const odd = own.findIndex((one, k) => Number.isNaN(days[k]) || one.weekdays?.has(weekdayOf(days[k])) === false);
  if (odd < 0) return { all: days, why: "" };
  return { all: null, why: Number.isNaN(days[odd]) ? said("no day", own[odd].name)
    : said("other weekday", own[odd].name, DAY_NAMES[weekdayOf(days[odd])]) };
}

/** @type {(name: string) => string[]} All common ways to write a name that is a date with a year alone; of any other name itself. */
export function spellings(name) {
  const own = /\p{L}/u.test(name) ? null : written(name);
  if (!own || dayOf(own.year, own.month, own.day) === null) return [name];
  const [days, months] = [own.day, own.month].map((number) => [String(number).padStart(2, "0"), String(number)]);
  const dashed = months.flatMap((month) => days.map((day) => `${own.year}-${month}-${day}`));
  const dotted = ["", " "].flatMap((space) => days.flatMap((day) => months.map((month) => `${day}.${space}${month}.${space}${own.year}`)));
  return [...dashed, ...dotted, name];
}
