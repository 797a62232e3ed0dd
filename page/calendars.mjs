// Each person's plan as an iCalendar file (RFC 5545), as the command writes it, and all of them in one zip archive.
import { datesOf, isoOf } from "./dates.mjs";
import { labelsOf } from "./days.mjs";
import { isPrintable, said } from "./texts.mjs";

const WIDEST = 75;
// The UUID of the names of events, which is that of "urn:nushbaret:plan" in the space of addresses.
const NAMESPACE = [0x3e, 0x18, 0x80, 0x85, 0x28, 0xaf, 0x51, 0x76, 0xa9, 0x58, 0x5d, 0x63, 0x30, 0xdd, 0x49, 0xa8];
const FORBIDDEN = /[<>:"/\\|?*]/;
const RESERVED = /^(?:con|prn|aux|nul|conin\$|conout\$|(?:com|lpt)[1-9])$/;
const MOST_OCTETS = 200;
const MINUTES = 24 * 60;
const encoder = new TextEncoder();
/** @typedef {{ name: string, text: string }} File */

/** @type {(bytes: Uint8Array) => string} The sum SHA-1 of bytes, in hexadecimal digits. */
function sha1(bytes) {
  const view = new DataView(new ArrayBuffer(Math.ceil((bytes.length + 9) / 64) * 64));
  [...bytes, 0x80].forEach((byte, k) => view.setUint8(k, byte));
  view.setUint32(view.byteLength - 4, bytes.length * 8);
  const turn = (/** @type {number} */ word, /** @type {number} */ count) => word << count | word >>> 32 - count;
  let sum = [0x67452301, 0xefcdab89, 0x98badcfe, 0x10325476, 0xc3d2e1f0];
  for (let block = 0; block < view.byteLength; block += 64) {
    const words = Array.from({ length: 16 }, (_, k) => view.getInt32(block + 4 * k));
    for (let k = 16; k < 80; k++) words.push(turn(words[k - 3] ^ words[k - 8] ^ words[k - 14] ^ words[k - 16], 1));
    let [a, b, c, d, e] = sum;
    words.forEach((word, k) => {
      const mixed = k < 20 ? (b & c | ~b & d) + 0x5a827999 : k < 40 ? (b ^ c ^ d) + 0x6ed9eba1
        : k < 60 ? (b & c | b & d | c & d) + 0x8f1bbcdc : (b ^ c ^ d) + 0xca62c1d6;
      [a, b, c, d, e] = [turn(a, 5) + mixed + e + word | 0, a, turn(b, 30), c, d];
    });
    sum = [a, b, c, d, e].map((own, k) => sum[k] + own | 0);
  }
  return sum.map((word) => (word >>> 0).toString(16).padStart(8, "0")).join("");
}

/** @type {(person: string, object: string, day: number) => string} The UUID of an event, by its sum. */
function uidOf(person, object, day) {
  const digits = sha1(Uint8Array.from([...NAMESPACE, ...encoder.encode(`${person}\n${object}\n${isoOf(day)}`)]));
  const variant = (Number.parseInt(digits[16], 16) & 3 | 8).toString(16);
  return digits.replace(/^(.{8})(.{4}).(.{3}).(.{3})(.{12}).*/, `$1-$2-5$3-${variant}$4-$5`);
}

/** @type {(line: string) => string[]} A line in parts of at most 75 octets; each but the first begins with a blank. */
function folded(line) {
  const parts = [""];
  for (const letter of line) {
    if (encoder.encode(parts[parts.length - 1] + letter).length > WIDEST) parts.push(" ");
    parts[parts.length - 1] += letter;
  }
  return parts;
}

/** @type {(text: string) => string} */
function escapedText(text) {
  return text.replace(/[\\;,]/g, "\\$&").replace(/\n/g, "\\n");
}

/** @type {(day: number, minutes?: number) => string} A time of a day, or of one after it, as calendars write it: 20270301T063000. */
function stampOf(day, minutes = 0) {
  const time = new Date(minutes % MINUTES * 60000).toISOString().slice(11, 19);
  return `${isoOf(day + Math.floor(minutes / MINUTES))}T${time}`.replace(/[-:]/g, "");
}

/** @type {(stem: string) => string} The letters by which systems that ignore case compare names. */
function keyOfName(stem) {
  return stem.normalize("NFKC").toUpperCase().toLowerCase().normalize("NFKC");
}

/** @type {(names: string[]) => string[]} Names of files for names, without ends: they differ also where a system ignores case. */
function fileNames(names) {
  const taken = /** @type {Set<string>} */ (new Set());
  return names.map((name) => {
    const bare = Array.from(name, (letter) => FORBIDDEN.test(letter) || !isPrintable(letter) ? "_" : letter).join("").replace(/^[ .]+|[ .]+$/g, "");
    const cut = new TextDecoder().decode(encoder.encode(bare).slice(0, MOST_OCTETS)).replace(/\ufffd+$/, "").replace(/[ .]+$/, "") || "_";
    const stem = RESERVED.test(keyOfName(cut.split(".")[0].trim())) || /^[-~]/.test(cut) ? `_${cut}` : cut;
    let own = stem;
    for (let number = 2; taken.has(keyOfName(own)); number++) own = `${stem} ${number}`;
    taken.add(keyOfName(own));
    return own;
  });
}

/** @type {(roster: Roster, person: string, objects: number[], days: number[]) => Map<string, string[]>} The lines of a person's events, in order, by their UIDs. */
function eventsOf(roster, person, objects, days) {
  const labels = labelsOf(roster);
  const events = objects.flatMap((object) => {
    const group = roster.groups?.ofObjects.get(object);
    return group === undefined ? [] : [{ object, day: days[group], times: roster.groups?.times.get(object) }];
  });
  events.sort((one, other) => one.day - other.day || (one.times?.begin || 0) - (other.times?.begin || 0));
  return new Map(events.map(({ object, day, times }) => {
    const uid = uidOf(person, roster.objects[object], day);
    return [uid, [
      "BEGIN:VEVENT", `UID:${uid}`, `DTSTAMP:${stampOf(day)}Z`,
      ...times ? [`DTSTART:${stampOf(day, times.begin)}`, `DTEND:${stampOf(day, times.end)}`]
        : [day, day + 1].map((one, k) => `${k ? "DTEND" : "DTSTART"};VALUE=DATE:${stampOf(one).split("T")[0]}`),
      `SUMMARY:${escapedText(labels[object])}`, "END:VEVENT"]];
  }));
}

// What an older calendar has, null where it is none of ours: its number among the versions, the lines of its events by
// their UIDs, without those that say which version it is, and the UIDs of those that weren't cancelled.
/** @param {string} text */
function olderOf(text) {
  if (!/^PRODID:-\/\/Nushbaret\/\//m.test(text)) return null;
  const whole = text.replace(/\r\n /g, "");
  const events = [...whole.matchAll(/BEGIN:VEVENT\r\n[^]*?END:VEVENT/g)].map(([event]) => event.split("\r\n"));
  const uid = (/** @type {string[]} */ lines) => (lines.find((line) => line.startsWith("UID:")) || "").slice(4);
  return {
    sequence: Math.max(0, ...[...whole.matchAll(/^SEQUENCE:(\d+)\r$/gm)].map(([, number]) => Number(number))),
    events: new Map(events.map((lines) => [uid(lines), lines.filter((line) => !/^(?:SEQUENCE|STATUS):/.test(line))])),
    live: new Set(events.filter((lines) => !lines.some((line) => line.startsWith("STATUS:"))).map(uid)),
  };
}

// A person's events; what the older calendar has and the plan has no more is cancelled, in a version one above.
/** @type {(own: Map<string, string[]>, older: NonNullable<ReturnType<typeof olderOf>>) => string[]} */
function versioned(own, older) {
  const isSame = older.live.size === own.size
    && [...own].every(([uid, lines]) => older.live.has(uid) && String(older.events.get(uid)) === String(lines));
  const sequence = older.sequence + Number(!isSame);
  const version = sequence ? [`SEQUENCE:${sequence}`] : [];
  const gone = [...older.events].filter(([uid]) => !own.has(uid)).map(([, lines]) => lines);
  return [...[...own.values()].map((lines) => [lines, []]), ...gone.map((lines) => [lines, ["STATUS:CANCELLED"]])]
    .flatMap(([lines, status]) => [...lines.slice(0, -1), ...status, ...version, lines[lines.length - 1]]);
}

// A calendar for each person, which cancels what its older one has, or else the earlier plan; why there is none where
// groups are no dates.
/** @type {(found: Found, version: string) => { files: File[], why: string }} */
export function calendarsOf({ roster, plan, kept, calendars }, version) {
  const { all, why } = roster.groups ? datesOf(roster.groups.names) : { all: null, why: said("no groups") };
  if (!all || !plan) return { files: [], why };
  const first = Math.min(...all);
  const stems = fileNames(roster.persons);
  const files = roster.persons.map((person, number) => {
    const name = `${stems[number]}.ics`;
    const objects = plan.pairs.filter((pair) => pair.person === number).map(({ object }) => object);
    const own = eventsOf(roster, person, objects, all);
    const before = kept?.named.filter((pair) => pair.person === person);
    const old = calendars.get(name);
    const events = old || !before ? own
      : eventsOf(roster, person, before.flatMap(({ object }) => roster.objectNumbers.get(object) ?? []), all);
    const lines = versioned(own, old && olderOf(old) || { sequence: 0, events, live: new Set(events.keys()) });
    // A calendar needs a component: this one says that no time is taken.
    const none = ["BEGIN:VFREEBUSY", `UID:${uidOf(person, "", first)}`, `DTSTAMP:${stampOf(first)}Z`, "END:VFREEBUSY"];
    const whole = [
      "BEGIN:VCALENDAR", "VERSION:2.0", `PRODID:-//Nushbaret//Nushbaret ${version}//EN`, "CALSCALE:GREGORIAN",
      `X-WR-CALNAME:${escapedText(person)}`, ...lines.length ? lines : none, "END:VCALENDAR"];
    return { name, text: whole.flatMap(folded).map((line) => `${line}\r\n`).join("") };
  });
  return { files, why: "" };
}

/** @type {(bytes: Uint8Array) => number} The sum CRC-32 of bytes. */
function crc32(bytes) {
  let sum = -1;
  for (const byte of bytes) {
    sum ^= byte;
    for (let bit = 0; bit < 8; bit++) sum = sum >>> 1 ^ (sum & 1 ? 0xedb88320 : 0);
  }
  return ~sum >>> 0;
}

/** @type {(...numbers: [size: number, number: number][]) => Uint8Array} Numbers, each in so many bytes, the lowest first. */
function packed(...numbers) {
  return Uint8Array.from(numbers.flatMap(([size, number]) => Array.from({ length: size }, (_, k) => number >>> 8 * k)));
}

/** @type {(files: File[]) => Blob} Files in one zip archive, as they are. */
export function zipOf(files) {
  const [parts, entries] = /** @type {Uint8Array[][]} */ ([[], []]);
  let place = 0;
  for (const file of files) {
    const [own, bytes] = [file.name, file.text].map((text) => encoder.encode(text));
    // Version 2.0, names in UTF-8, no method, the first day of 1980; the sum and both sizes; the length of the name.
    const common = packed(
      [2, 20], [2, 0x800], [2, 0], [2, 0], [2, 0x21], [4, crc32(bytes)], [4, bytes.length], [4, bytes.length], [4, own.length]);
    parts.push(packed([4, 0x04034b50]), common, own, bytes);
    entries.push(packed([4, 0x02014b50], [2, 20]), common, packed([4, 0], [4, 0], [2, 0], [4, place]), own);
    place += 30 + own.length + bytes.length;
  }
  const length = entries.reduce((sum, part) => sum + part.length, 0);
  const end = packed([4, 0x06054b50], [4, 0], [2, files.length], [2, files.length], [4, length], [4, place], [2, 0]);
  return new Blob([...parts, ...entries, end], { type: "application/zip" });
}
